#!/usr/bin/env python3
"""Whether a journal makes the same desk, and how long and how much memory that takes.

    bench/journal.py [PROGRAM [DESKS [REQUESTS [ACCOUNTS RUNS]]]]

DESKS desks (200 if none is given) are made of REQUESTS random requests (300 if none is given), corrections too. The journal of each is given to a
shell over a new file: each line has to be answered as done or posted, the journal of the new file has to be the same bytes, all rows of its tables the
same, and the journal of each account the lines of the whole one that name it. Then an office of so many accounts with so many runs each (100 and 300
if none is given) is written as a journal and made again: times and greatest memory, beside those of the import of its runs.
"""

import os
import random
import subprocess
import sys
import tempfile
import time

import desk
from office import Office, program_of, tables


def text_of(program, db, *words):
    """The journal of a desk, or of an account."""
    return subprocess.run([program, "journal", "--db", db, *words], check=True, capture_output=True, text=True).stdout


def made_of(program, file, seed, count):
    """Makes a desk of random requests."""
    rng = random.Random(seed)
    lines, reading, posted, paid = list(desk.preparing(rng)), desk.Desk(), {}, {}
    for line in lines:
        reading.ask(line)
    for _ in range(count):
        lines.append(desk.one(rng, reading, posted, paid))
        reading.ask(lines[-1])
    office = Office(program, file, len(lines))
    office.ask(lines)
    office.close()
    return len(lines)


def is_change(answer):
    return answer == "done" or answer.startswith("posted ")


def compare(program, folder, seed, count):
    """Compares a desk with the one that its journal makes, and answers how many lines the journal has."""
    file, new, script = (os.path.join(folder, f"{seed}{end}") for end in (".db", "-new.db", ".txt"))
    made_of(program, file, seed, count)
    journal = text_of(program, file)
    with open(script, "w", encoding="utf-8") as out:
        out.write(journal)
    ran = subprocess.run([program, "shell", "--db", new, script], capture_output=True, text=True)
    lines = journal.splitlines()
    answers = ran.stdout.splitlines()
    assert ran.returncode == 0 and len(answers) == len(lines) and all(map(is_change, answers)), (seed, ran.stderr[-300:])
    assert text_of(program, new) == journal, f"seed {seed}: the journals differ"
    assert tables(new) == tables(file), f"seed {seed}: the tables differ"
    assert tables(file), seed
    own = {}
    for line in lines:
        words = line.split()
        if words[0] not in ("calendar", "add-holiday", "change-holiday"):
            own.setdefault(words[1], []).append(line)
    for name, its in own.items():
        assert text_of(program, file, name).splitlines() == its, f"seed {seed}: the journal of {name} differs"
    for path in (file, new, script):
        os.remove(path)
    return len(lines)


def measured(words, output=None):
    """The seconds that a command takes."""
    start = time.perf_counter()
    with open(output or os.devnull, "wb") as out:
        subprocess.run(words, check=True, stdout=out, stderr=subprocess.DEVNULL)
    return time.perf_counter() - start


def memory_of(words, output=os.devnull):
    """The greatest memory of a command in megabytes, asked in a process of its own."""
    code = "import resource, subprocess, sys\n" \
        "with open(sys.argv[1], 'wb') as out:\n    subprocess.run(sys.argv[2:], check=True, stdout=out, stderr=subprocess.DEVNULL)\n" \
        "print(resource.getrusage(resource.RUSAGE_CHILDREN).ru_maxrss)"
    said = subprocess.run([sys.executable, "-c", code, output, *words], check=True, capture_output=True, text=True).stdout
    return int(said) / 1024


def made_office(program, folder, accounts, runs):
    """Makes an office of so many accounts with so many runs each, and answers its file and the seconds that the import of the runs took."""
    chosen = random.Random(accounts)
    begin, sheet = os.path.join(folder, "begin.txt"), os.path.join(folder, "runs.csv")
    years = range(2014, 2024)
    with open(begin, "w", encoding="utf-8") as out:
        for year in range(2014, 2026):
            out.write(f"calendar {year} {year}-01-01 {year}-07-04 {year}-12-25\n")
        for number in range(accounts):
            out.write(f"enrol e{number} 2014-01-01\n")
            for year in years:
                for quarter in range(1, 5):
                    out.write(f"report e{number} {year}Q{quarter} {chosen.randrange(20_000)}.00\n")
                out.write(f"open-year e{number} {year}\n")
    with open(sheet, "w", encoding="utf-8") as out:
        out.write("employer,run,payday,fit,ss,medicare\n")
        for number in range(accounts):
            for run in range(runs):
                day = f"{years[run * len(years) // runs]}-{run * 12 * len(years) // runs % 12 + 1:02}-{run % 28 + 1:02}"
                out.write(f"e{number},{run + 1},{day},{chosen.randrange(9_000)}.10,{chosen.randrange(900)}.00,{chosen.randrange(300)}.05\n")
    file = os.path.join(folder, "office.db")
    measured([program, "shell", "--db", file, begin])
    return file, measured([program, "import", "--db", file, sheet])


def speed(program, folder, accounts, runs):
    """Writes the journal of an office, and makes it again."""
    file, imported = made_office(program, folder, accounts, runs)
    new, script = (os.path.join(folder, name) for name in ("new.db", "journal.txt"))
    opened = measured([program, "accounts", "--db", file])
    written = measured([program, "journal", "--db", file], script)
    greatest = memory_of([program, "journal", "--db", file])
    made = measured([program, "shell", "--db", new, script])
    again = os.path.join(folder, "again.txt")
    measured([program, "journal", "--db", new], again)
    with open(script, "rb") as first, open(again, "rb") as second:
        assert first.read() == second.read(), "the journals differ"
    assert tables(new) == tables(file), "the tables differ"
    size = os.path.getsize(script)
    print(f"{accounts} accounts, {accounts * runs} runs: import {imported:.1f} s; opening {opened:.1f} s; journal {written:.1f} s with the opening,"
          f" {size / 1e6:.1f} MB, greatest memory {greatest:.0f} MB; made again {made:.1f} s", flush=True)


def main():
    program = program_of(sys.argv[1:2])
    desks, count, accounts, runs = [*map(int, sys.argv[2:]), *[200, 300, 100, 300][len(sys.argv[2:]):]]
    with tempfile.TemporaryDirectory() as folder:
        lines = sum(compare(program, folder, seed, count) for seed in range(1, desks + 1))
        print(f"{desks} desks, {lines} lines: 0 differences", flush=True)
        if accounts:
            speed(program, folder, accounts, runs)


if __name__ == "__main__":
    main()
