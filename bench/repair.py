#!/usr/bin/env python3
"""Repairs of random histories beside new assessments, and the time of a repair.

Run it at the top after `cd crates/ftd_bench && rt run < stdin` has built the program. It makes
10,000 random changes of one day (ten seeds), on both forms: the program compares what a repair leaves with a new assessment
of the whole history, and ends with a fault where they differ or a repair asks for more than two windows and
one for each later year. Then it measures 1,000 repairs of a semiweekly window beside one assessment of
20,000 runs, in one run.
"""
import os
import re
import subprocess


def told(program, words):
    done = subprocess.run([program], input=words, capture_output=True, text=True)
    if done.returncode != 0:
        raise SystemExit(f"{words}: status {done.returncode}: {done.stderr}")
    return done.stdout, done.stderr


def main():
    top = os.path.dirname(os.path.dirname(os.path.abspath(__file__)))
    program = os.path.join(top, "crates", "ftd_bench", "out", "ftd_bench")
    taken = {}
    for seed in range(1, 11):
        out, _ = told(program, f"changes {seed} 1000\n")
        for windows, times in re.findall(r"(\d+) windows: (\d+)", out):
            taken[int(windows)] = taken.get(int(windows), 0) + int(times)
    print(f"{sum(taken.values())} changes, each as assessed anew")
    for windows in sorted(taken):
        print(f"  {windows} windows: {taken[windows]}")
    _, err = told(program, "speed 1000\n")
    assessing, count, repairing, rows = map(int, re.findall(r"\d+", err))
    each = repairing / count
    print(f"20,000 runs: assess {assessing / 1e6:.2f} ms, a repair of a semiweekly window ({rows} rows) {each / 1e3:.2f} us")
    print(f"  {assessing / each:.0f} times less")


if __name__ == "__main__":
    main()
