#!/usr/bin/env python3
"""Stops the program at each of its calls of the system, through corrections that reach three years.

It needs strace. In a file in which a total was typed too high three years open otherwise once it is corrected; in another one a day is taken
back as a holiday that the due dates of two accounts count. Each command is killed in turn before its first, second .. call of each kind that
writes, waits for the disk, or opens, cuts or takes away a file. Then the tables are those before the command or those after it, and the same
command again, under its number, ends with those after it. `bench/stops.py [PROGRAM]` takes the program.
"""
import os
import shutil
import subprocess
import sys
import tempfile

from office import program_of, tables

TOP = os.path.dirname(os.path.dirname(os.path.abspath(__file__)))
CALLS = ["write", "pwrite64", "pwritev", "writev", "fsync", "fdatasync", "ftruncate", "openat", "open", "unlink", "unlinkat", "rename", "close"]


def holidays(year):
    """The days of the file of that year's holidays."""
    with open(f"{TOP}/examples/holidays/{year}", encoding="utf-8") as file:
        return [line.split()[0] for line in file if line[:1].isdigit()]


def setting_up():
    """What is entered first, one command after the other."""
    for year in range(2024, 2028):
        yield ["calendar", str(year), *holidays(year)]
    for name in ("ash", "elm"):
        yield ["enrol", name, "2022-01-01"]
        for quarter in [f"{year}Q{part}" for year in range(2022, 2026) for part in range(1, 5)][2:14]:
            yield ["report", name, quarter, "60000.00" if quarter == "2022Q3" else "1.00"]
        for year in range(2024, 2027):
            yield ["open-year", name, str(year)]
        # 100,000.00 a day: 2024 turns where it opens monthly, and then 2025 opens semiweekly and does not
        runs = [("2024-05-08", "100000.00"), ("2025-05-07", "100000.00"), ("2026-06-16", "500.00")]
        for at, (payday, amount) in enumerate(runs, 1):
            yield ["post", name, str(at), payday, amount, "0.00", "0.00"]


STOPPED = {
    "a corrected total": ["correct-report", "ash", "2022Q3", "1.00", "--number", "1"],
    "a holiday taken back": ["change-holiday", "2026-06-19", "no", "--number", "1"],
}


def run(program, path, command, before=()):
    """Runs one command on the file; the status, where it was not killed."""
    words = [*before, program, command[0], "--db", path, *command[1:]]
    return subprocess.run(words, stdout=subprocess.PIPE, stderr=subprocess.STDOUT, check=False)


def fresh(path, base):
    """The file as it was set up, without what an earlier try left beside it."""
    for end in ("", "-wal", "-shm", "-journal"):
        if os.path.exists(path + end):
            os.remove(path + end)
    shutil.copy(base, path)


def stopped(program, folder, base, command):
    """How many stops the command has, and how many of them left the tables before it and after it."""
    path = os.path.join(folder, "stopped.db")
    before = tables(base)
    fresh(path, base)
    done = run(program, path, command)
    assert done.returncode == 0, done.stdout
    after = tables(path)
    assert before != after
    found = {"before": 0, "after": 0}
    for call in CALLS:
        at = 0
        while True:
            at += 1
            fresh(path, base)
            killed = run(program, path, command, ["strace", "-f", "-qq", "-o", "/dev/null", "-e", f"trace={call}", "-e",
                                                  f"inject={call}:signal=KILL:when={at}"])
            if killed.returncode == 0:
                break
            kept = tables(path)
            if kept not in (before, after):
                sys.exit(f"{' '.join(command)}: killed at {call} {at}: between")
            found["before" if kept == before else "after"] += 1
            again = run(program, path, command)
            if again.returncode != 0 or tables(path) != after:
                sys.exit(f"{' '.join(command)}: killed at {call} {at}: again is not after: {again.stdout}")
    return found


def main():
    program = program_of(sys.argv[1:])
    with tempfile.TemporaryDirectory() as folder:
        base = os.path.join(folder, "base.db")
        for command in setting_up():
            done = run(program, base, command)
            assert done.returncode == 0, (command, done.stdout)
        for what, command in STOPPED.items():
            found = stopped(program, folder, base, command)
            print(f"{what}: {sum(found.values())} stops, {found['before']} before, {found['after']} after, none between")


if __name__ == "__main__":
    main()
