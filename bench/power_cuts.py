#!/usr/bin/env python3
"""Cuts the power at random moments of commands, of a shell, an import and a server, as a disk may leave the files then.

It needs strace. Of each run it is recorded what was written to the file and its log, how they were cut, and what was waited for. Then the power
is cut after a random call: what was waited for before is there; of what was written later any part may be, in any order, each block of 512 bytes
for itself, and the file may have its old length or a new one. The files are opened again: a check has to find them sound, the runs that they
hold have to be the first ones, and all that were answered by then.

    bench/power_cuts.py PROGRAM [CUTS]

CUTS are made in all, 10,000 if it is left out. The last line counts what went wrong."""

import concurrent.futures
import http.client
import os
import random
import re
import subprocess
import sys
import tempfile
import time

PROGRAM = os.path.realpath(sys.argv[1])
CUTS = int(sys.argv[2]) if len(sys.argv) > 2 else 10_000
BLOCK = 512
RUNS = 60
SET_UP = "".join(f"calendar {year}\n" for year in range(2024, 2027)) + "enrol ash 2024-01-01\nreport ash 2024Q1 1000.00\nreport ash 2024Q2 1000.00\nopen-year ash 2024\nopen-year ash 2025\n"
CALLS = "openat,pwrite64,pwritev,write,writev,sendto,ftruncate,fsync,fdatasync,close"


def ftd(*words, cwd):
    """A command's status, and what it printed on both outputs."""
    done = subprocess.run([PROGRAM, *words], cwd=cwd, capture_output=True, text=True)
    return done.returncode, done.stdout + done.stderr


def line_of(number):
    """The line of the run of this number."""
    return f"post ash {number} {2024 + number % 2}-{number % 12 + 1:02}-{number * 7 % 28 + 1:02} {number * 900}.00 {number}.00 {number}.00"


def traced(folder, words, feed=None):
    """A program that runs under strace, whose calls go to a file of the folder."""
    strace = ["strace", "-f", "-xx", "-s", "9999999", "-e", f"trace={CALLS}", "-o", f"{folder}/calls", PROGRAM, *words]
    return subprocess.Popen(strace, cwd=folder, stdin=subprocess.PIPE if feed else subprocess.DEVNULL, stdout=subprocess.PIPE, stderr=subprocess.PIPE)


def bytes_in(text):
    """The bytes of a text that strace shows."""
    return bytes.fromhex(text.replace("\\x", ""))


def events_of(folder):
    """What was done to the two files, in order: (kind, file, place, bytes), and what was answered: ("said", None, None, bytes)."""
    names, places, events = {}, {}, []
    for line in open(f"{folder}/calls"):
        call = re.match(r"\d+ +(\w+)\((.*)\) += (-?\d+)", line)
        if not call or int(call[3]) < 0:
            continue
        kind, words, result = call[1], call[2], int(call[3])
        if kind == "openat":
            name = os.path.basename(bytes_in(re.search(r'"([^"]*)"', words)[1]).decode())
            if name in ("office.db", "office.db-wal"):
                names[result], places[result] = name, 0
            else:
                names.pop(result, None)
            continue
        number = int(words.split(",")[0])
        if kind == "close":
            names.pop(number, None)
        elif kind in ("write", "writev", "sendto"):
            said = b"".join(bytes_in(it) for it in re.findall(r'"([^"]*)"', words))[:result]
            if number in names:
                events.append(("write", names[number], places[number], said))
                places[number] += result
            elif number in (1, 2) or b"HTTP/1.1 200" in said:
                events.append(("said", None, None, said))
        elif number not in names:
            continue
        elif kind in ("pwrite64", "pwritev"):
            said = b"".join(bytes_in(it) for it in re.findall(r'"([^"]*)"', words))[:result]
            events.append(("write", names[number], int(words.rsplit(", ", 1)[1], 0), said))
        elif kind == "ftruncate":
            events.append(("length", names[number], int(words.split(", ")[1], 0), b""))
        else:
            events.append(("sync", names[number], None, b""))
    return events


def put(image, event, rng=None):
    """The event is done to the image of a file; with a random source any part of it."""
    kind, _, place, said = event
    if kind == "length":
        if rng is None or rng.random() < 0.5:
            del image[place:]
            image.extend(bytes(max(0, place - len(image))))
        return
    at = 0
    while at < len(said):
        size = min(BLOCK - (place + at) % BLOCK, len(said) - at)
        if rng is None or rng.random() < 0.5:
            image.extend(bytes(max(0, place + at + size - len(image))))
            image[place + at : place + at + size] = said[at : at + size]
        at += size


def images_at(before, events, cut, rng):
    """What the disk may have of the two files when the power is cut after so many events."""
    found = {}
    for name in ("office.db", "office.db-wal"):
        image = bytearray(before.get(name, b""))
        own = [it for it in events[:cut] if it[1] == name]
        last = max((at for at, it in enumerate(own) if it[0] == "sync"), default=-1)
        for event in own[:last]:
            if event[0] != "sync":
                put(image, event)
        late = [it for it in own[last + 1 :] if it[0] != "sync"]
        if rng.random() < 0.5:
            rng.shuffle(late)
        for event in late:
            put(image, event, None if rng.random() < 0.3 else rng)
        found[name] = bytes(image)
    return found


def answered_by(events, cut):
    """How many runs were answered by then."""
    said = b"".join(it[3] for it in events[:cut] if it[0] == "said")
    imported = re.search(rb"^posted (\d+) already", said, re.M)
    return int(imported[1]) if imported else len(re.findall(rb"^posted|\"reply\":\"posted\"", said, re.M))


def recorded(kind):
    """The files before a run of this kind, and its events."""
    with tempfile.TemporaryDirectory() as folder:
        with open(f"{folder}/script", "w") as it:
            it.write(SET_UP)
        status, said = ftd("shell", "--db", "office.db", "script", cwd=folder)
        assert status == 0, said
        before = {name: open(f"{folder}/{name}", "rb").read() for name in os.listdir(folder) if name.startswith("office.db")}
        if kind == "shell":
            with open(f"{folder}/script", "w") as it:
                it.write("".join(f"{line_of(number)}\n" for number in range(1, RUNS + 1)))
            program = traced(folder, ["shell", "--db", "office.db"], feed=True)
            for number in range(1, RUNS + 1):
                program.stdin.write(f"{line_of(number)}\n".encode())
                program.stdin.flush()
                program.stdout.readline()
            program.stdin.close()
            program.stdin = None
        elif kind == "import":
            with open(f"{folder}/runs.csv", "w") as it:
                it.write("employer,run,payday,fit,ss,medicare\n" + "".join(line_of(number).replace("post ", "").replace(" ", ",") + "\n" for number in range(1, RUNS + 1)))
            program = traced(folder, ["import", "runs.csv", "--db", "office.db"])
        elif kind == "serve":
            program = traced(folder, ["serve", "--db", "office.db", "--port", "0", "--connections", "2"])
            port = int(program.stdout.readline().decode().strip().rpartition(":")[2])
            for part in range(2):
                connection = http.client.HTTPConnection("127.0.0.1", port, timeout=60)
                for number in range(part * RUNS // 2 + 1, (part + 1) * RUNS // 2 + 1):
                    words = line_of(number).split()
                    body = '{"run":%s,"payday":"%s","fit":"%s","ss":"%s","medicare":"%s"}' % tuple(words[2:])
                    connection.request("POST", "/accounts/ash/runs", body)
                    connection.getresponse().read()
                connection.close()
        else:
            program = traced(folder, line_of(1).split()[:1] + ["--db", "office.db"] + line_of(1).split()[1:])
        program.communicate(timeout=120)
        return before, events_of(folder)


def wrong_after(kind, before, events, seed):
    """What is wrong with the files that a power cut leaves."""
    rng = random.Random(seed)
    cut = rng.randrange(len(events) + 1)
    answered = answered_by(events, cut)
    with tempfile.TemporaryDirectory() as folder:
        for name, image in images_at(before, events, cut, rng).items():
            with open(f"{folder}/{name}", "wb") as it:
                it.write(image)
        status, said = ftd("check", "--db", "office.db", cwd=folder)
        if status != 0:
            return f"{kind} {seed}: after {cut} of {len(events)}: {said!r}"
        _, journal = ftd("journal", "--db", "office.db", cwd=folder)
        runs = {int(it) for it in re.findall(r"^post ash (\d+) ", journal, re.M)}
        if runs != set(range(1, len(runs) + 1)) or len(runs) < answered:
            return f"{kind} {seed}: after {cut} of {len(events)}: {answered} answered, kept {sorted(runs)}"
        return None


def main():
    began = time.monotonic()
    kinds = {kind: recorded(kind) for kind in ("command", "shell", "import", "serve")}
    for kind, (before, events) in kinds.items():
        print(f"{kind}: {len(events)} calls, {sum(it[0] == 'sync' for it in events)} waits for the disk, {answered_by(events, len(events))} answers", flush=True)
    names = list(kinds)
    with concurrent.futures.ThreadPoolExecutor(4) as pool:
        tries = [pool.submit(wrong_after, names[it % 4], *kinds[names[it % 4]], it) for it in range(CUTS)]
        wrong = [it.result() for it in tries if it.result()]
    print(*wrong[:20], sep="\n")
    print(f"{CUTS} power cuts in {time.monotonic() - began:.0f} s: {len(wrong)} wrong")
    return bool(wrong)


if __name__ == "__main__":
    sys.exit(main())
