#!/usr/bin/env python3
"""What a shell keeps when it is killed or the disk is full, what memory it takes, and how long its answers take beside those over HTTP.

    bench/shell.py [PROGRAM [ROUNDS [ACCOUNTS ..]]]

ROUNDS times (200 if none is given) a shell is sent pay runs line by line and killed at a random moment: each run that was answered has to be in the
file, and no run that was not sent. As many times a command that posts a run is killed at a random moment: if it answered, the run has to be in the
file, as all runs before it have to be, and the same command again has to post the run, or to say that it is there. Then a shell posts until its
file may not grow further: it has to end with status 3, name the line, and keep each run that was answered. Then scripts of 10,000 and of 100,000
lines are answered, whose greatest memory is compared. Then an office of so many accounts with ten years (1,000 if none is given) is asked a thousand
questions, and sent a thousand runs, by a shell and over HTTP.
"""

import contextlib
import os
import random
import resource
import shutil
import signal
import sqlite3
import subprocess
import sys
import tempfile
import time

from office import Office, program_of
from office_speed import YEARS, made, names

BEGIN = ["calendar 2024 2024-01-01", "calendar 2025 2025-01-01", "enrol elm 2024-01-01", "open-year elm 2024"]
# The size in bytes that a file may have where the disk is to be full.
FULL = 300_000


def begin(program, db):
    """Makes a file with a year that is open."""
    subprocess.run([program, "shell", "--db", db], input="\n".join(BEGIN), text=True, check=True, capture_output=True)


def post(number):
    return f"post elm {number} 2024-{number % 12 + 1:02}-{number % 28 + 1:02} {number}.00 1.00 0.10"


def runs_in(db):
    """The numbers of the runs that the file has."""
    with contextlib.closing(sqlite3.connect(db)) as conn:
        return {number for (number,) in conn.execute("SELECT run FROM run")}


def answered_in(lines):
    """How many of the first lines are answers to posted runs."""
    return sum(line.startswith("posted ") for line in lines)


def killed(program, db, chosen):
    """Whether a shell that is killed has kept what it answered. Each line is sent once the one before is answered."""
    pipes = {"stdin": subprocess.PIPE, "stdout": subprocess.PIPE, "stderr": subprocess.DEVNULL, "text": True, "bufsize": 1}
    before = max(runs_in(db), default=0)
    shell = subprocess.Popen([program, "shell", "--db", db], **pipes)
    answered, sent, last = 0, before, before + chosen.randrange(1, 40)
    while sent < last:
        sent += 1
        shell.stdin.write(f"{post(sent)}\n")
        shell.stdin.flush()
        answered = sent if shell.stdout.readline().startswith("posted ") else answered
    shell.stdin.write(f"{post(sent + 1)}\n{post(sent + 2)}\n")
    shell.stdin.flush()
    time.sleep(chosen.random() * 0.004)
    shell.kill()
    rest = shell.communicate()[0]
    answered += answered_in(rest.splitlines())
    kept = runs_in(db)
    return set(range(1, answered + 1)) <= kept <= set(range(1, sent + 3))


def begin_anew(program, db):
    """Makes the file anew."""
    for file in (db, f"{db}-wal"):
        if os.path.exists(file):
            os.remove(file)
    begin(program, db)


def kills(program, folder, rounds):
    """How many of so many shells that were killed did not keep what they answered."""
    db, chosen, wrong = f"{folder}/killed.db", random.Random(rounds), 0
    for number in range(rounds):
        if number % 50 == 0:
            begin_anew(program, db)
        wrong += not killed(program, db, chosen)
    return wrong


def killed_post(words, journal, number, wait):
    """Whether a command that posts a run is killed before it ends, whether the run was kept, and whether all is as it has to be then."""
    command = subprocess.Popen(words, stdout=subprocess.PIPE, stderr=subprocess.DEVNULL, text=True)
    time.sleep(wait)
    command.kill()
    said = command.communicate()[0]
    lines = subprocess.run(journal, stdout=subprocess.PIPE, text=True, check=True).stdout.splitlines()
    runs = {int(line.split()[2]) for line in lines if line.startswith("post elm ")}
    again = subprocess.run(words, stdout=subprocess.PIPE, stderr=subprocess.DEVNULL, text=True)
    is_kept = number in runs
    is_right = runs - {number} == set(range(1, number)) and (is_kept or not said) and again.returncode == 0
    return command.returncode != 0, is_kept, is_right and again.stdout.startswith("already" if is_kept else "posted ")


def kills_of_posts(program, folder, rounds):
    """How many of so many posts were killed before they ended, how many of these had kept their run, and how many were wrong."""
    db, chosen, found = f"{folder}/posted.db", random.Random(rounds), []
    for turn in range(rounds):
        number = turn % 50 + 1
        if number == 1:
            begin_anew(program, db)
        verb, *rest = post(number).split()
        start = time.perf_counter()
        subprocess.run([program, "status", "--db", db, "elm", "2024-05-08"], check=True, stdout=subprocess.DEVNULL, stderr=subprocess.DEVNULL)
        wait = chosen.random() * 1.5 * (time.perf_counter() - start)
        found.append(killed_post([program, verb, "--db", db, *rest], [program, "journal", "--db", db], number, wait))
    killed_before = [it for it in found if it[0]]
    return len(killed_before), sum(is_kept for _, is_kept, _ in killed_before), sum(not is_right for *_, is_right in found)


def no_room():
    """No file may grow further."""
    signal.signal(signal.SIGXFSZ, signal.SIG_IGN)
    resource.setrlimit(resource.RLIMIT_FSIZE, (FULL, FULL))


def fills(program, folder):
    """What a shell prints last on both outputs when the disk is full, its status, and whether it kept what it answered."""
    db = f"{folder}/full.db"
    begin(program, db)
    lines = "\n".join(post(number) for number in range(1, 20_000))
    ran = subprocess.run([program, "shell", "--db", db], input=lines, text=True, capture_output=True, preexec_fn=no_room)
    kept, answered = runs_in(db), answered_in(ran.stdout.splitlines())
    named = [line for line in ran.stderr.splitlines() if line.startswith("line ")]
    return ran.returncode, named[-1], ran.stderr.splitlines()[-2:], set(range(1, answered + 1)) <= kept


def memory(program, folder, count):
    """The greatest memory that a shell takes for so many lines, in kilobytes."""
    script = f"{folder}/{count}.txt"
    with open(script, "w", encoding="utf-8") as file:
        file.write("\n".join(BEGIN) + "\nstatus elm 2024-05-08\n" * count)
    greatest = 0
    with open(os.devnull, "w", encoding="utf-8") as nothing:
        shell = subprocess.Popen([program, "shell", "--db", f"{folder}/{count}.db", script], stdout=nothing, stderr=nothing)
        while shell.poll() is None:
            with contextlib.suppress(OSError), open(f"/proc/{shell.pid}/status", encoding="ascii") as lines:
                greatest = max([greatest, *(int(line.split()[1]) for line in lines if line.startswith("VmHWM"))])
            time.sleep(0.001)
    assert shell.returncode == 0, shell.returncode
    return greatest


def asked_of(accounts):
    """A thousand questions and a thousand runs of an office, as lines of a shell and as requests over HTTP."""
    chosen, all_names = random.Random(accounts), names(accounts)
    for number in range(1000):
        name, year = chosen.choice(all_names), chosen.choice(YEARS)
        due = f"{name} {year}Q{chosen.randrange(1, 5)} {year + 1}-03-01"
        yield f"due {due}", f"due {due}"
        run = f"post {name} {100_000 + number} {year}-{chosen.randrange(1, 13):02}-{chosen.randrange(1, 29):02} 100.00 20.00 5.00"
        yield run, run


def speeds(program, folder, accounts):
    """The seconds of the opening alone, of the shell, and of the server with its opening."""
    first = made(program, folder, accounts)
    lines = list(asked_of(accounts))
    taken = []
    for words in ([], [line for line, _ in lines]):
        db = f"{folder}/by-shell.db"
        shutil.copy(first, db)
        start = time.perf_counter()
        ran = subprocess.run([program, "shell", "--db", db], input="\n".join(words), text=True, capture_output=True)
        taken.append(time.perf_counter() - start)
        assert ran.returncode == 0, ran.stderr[-300:]
    db = f"{folder}/by-server.db"
    shutil.copy(first, db)
    start = time.perf_counter()
    office = Office(program, db, len(lines))
    office.ask([request for _, request in lines])
    office.close()
    return [*taken, time.perf_counter() - start]


def main():
    program = program_of(sys.argv[1:])
    rounds = int(sys.argv[2]) if len(sys.argv) > 2 else 200
    with tempfile.TemporaryDirectory() as folder:
        print(f"killed {rounds} times: {kills(program, folder, rounds)} did not keep what was answered", flush=True)
        print(f"{rounds} posts killed: %d before they ended, of which %d had kept the run; %d wrong" % kills_of_posts(program, folder, rounds), flush=True)
        print("full disk: status %d, %s, %s, what was answered is kept: %s" % fills(program, folder), flush=True)
        print(f"memory: {memory(program, folder, 10_000)} kB for 10,000 lines, {memory(program, folder, 100_000)} kB for 100,000", flush=True)
        for accounts in map(int, sys.argv[3:] or ["1000"]):
            opened, shell, server = speeds(program, folder, accounts)
            print(f"{accounts} accounts: opening {opened:.2f} s, 2,000 lines {shell:.2f} s, over HTTP {server:.2f} s", flush=True)


if __name__ == "__main__":
    main()
