#!/usr/bin/env python3
"""Runs `ftd plain`, plain Rust with the csv crate, and a Python script with the csv module over the same 16 MB, side by side.

    bench/plain.py [PROGRAM [NATIVE]]

PROGRAM is the path of `ftd` (crates/ftd/out/ftd, which ./test.sh and ./build.py leave there), NATIVE that of plain_native
(bench/plain_native/target/release/plain_native, by `cargo build --release` in bench/plain_native; it is left out where it is not there).

All validate every record, assess the deposits and print the same lines, which is checked. For each
input (pay runs of many employers, of which 20,000 count; lines `a` alone; commas alone) it prints the
best processor time of five runs in turn, and the peak memory of the child.
"""

import datetime
import os
import subprocess
import sys
import tempfile

from office import program_of

HERE = os.path.dirname(os.path.abspath(__file__))
NATIVE = os.path.join(HERE, "plain_native", "target", "release", "plain_native")
SIZE = 16_777_216
HOLIDAYS = ["2024-01-01", "2024-01-15", "2024-02-19", "2024-04-16", "2024-05-27", "2024-06-19", "2024-07-04"]
HOLIDAYS += ["2024-09-02", "2024-10-14", "2024-11-11", "2024-11-28", "2024-12-25", "2025-01-01", "2025-01-20"]
WORDS = ["plain", "elm", "2024"] + HOLIDAYS


def pay_runs(path):
    """A CSV of 16 MB: 20,000 runs of elm in 2024, and the rest of other employers and years."""
    day = datetime.date(2024, 1, 1)
    with open(path, "w") as file:
        size = file.write("employer,run,payday,fit,ss,medicare\n")
        ours = 0
        number = 0
        while True:
            number += 1
            if number % 18 == 0 and ours < 20_000:
                ours += 1
                payday = day + datetime.timedelta(ours * 7919 % 366)
                line = f"elm,{ours},{payday},{ours % 41}.{ours % 100:02d},{ours % 23}.5,{ours % 7}\n"
            else:
                payday = day + datetime.timedelta(number % 900 - 400)
                line = f"oak-{number % 997},{number},{payday},{number % 5000}.{number % 100:02d},{number % 310}.0,{number % 72}.50\n"
            if size + len(line) > SIZE:
                break
            size += file.write(line)
    if ours != 20_000:
        sys.exit(f"only {ours} runs of elm")


def repeated(text):
    """Writes a file of 16 MB of the text alone, piece by piece: a child's peak memory starts at ours."""

    def write(path):
        with open(path, "w") as file:
            for _ in range(SIZE // 4096):
                file.write(text * (4096 // len(text)))

    return write


def measured(command, path):
    """Processor time, peak memory in MB, and what was written, without hints, which `ftd` alone has."""
    with open(path, "rb") as file:
        child = subprocess.Popen(command, stdin=file, stdout=subprocess.PIPE, stderr=subprocess.PIPE)
        out = child.stdout.read()
        err = b"".join(it for it in child.stderr if not it.startswith(b"hint: "))
        _, status, usage = os.wait4(child.pid, 0)
    return usage.ru_utime + usage.ru_stime, usage.ru_maxrss / 1024, (os.waitstatus_to_exitcode(status), out, err)


def compared(name, commands, path):
    """Measures the commands in turn, and prints a line for each."""
    best = {it: (None, 0) for it in commands}
    said = set()
    for _ in range(5):
        for it, command in commands.items():
            took, peak, told = measured(command, path)
            said.add(told)
            if len(said) > 1:
                sys.exit(f"{name}: they differ: {said}")
            least, most = best[it]
            best[it] = (took if least is None else min(least, took), max(most, peak))
    ours = best["ftd"][0]
    for it, (took, peak) in best.items():
        print(f"{name:<24}{it:<12}{took:>8.3f} s{took / ours:>8.2f}{peak:>10.1f} MB")


def main():
    program = program_of(sys.argv[1:])
    native = sys.argv[2] if len(sys.argv) > 2 else NATIVE
    commands = {"ftd": [program, *WORDS], "native": [native, *WORDS], "Python": [sys.executable, os.path.join(HERE, "plain_by_hand.py"), *WORDS]}
    if not os.path.exists(native):
        del commands["native"]
    with tempfile.TemporaryDirectory() as folder:
        for name, write in [
            ("20,000 of our runs", pay_runs),
            ("lines a", repeated("a\n")),
            ("commas", repeated(",")),
        ]:
            path = os.path.join(folder, "input.csv")
            write(path)
            compared(name, commands, path)


main()
