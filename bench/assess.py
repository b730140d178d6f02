#!/usr/bin/env python3
"""Time and peak memory of `assess` beside a plain reading of the rules.

Run it at the top after `cd crates/ftd_bench && rt run < stdin` has built the program. It makes
histories of 20,000 day sums, in one year and over 40 years, prints time (best of three) and peak memory of
both programs, and checks that both print the same obligations. `assess.py reading` reads a history from
standard input and prints its obligations by the rules alone.
"""
import os
import subprocess
import sys
import tempfile
import time
from datetime import date, timedelta

from days import DAY, interval, month_end, nth_after, on_or_after

LIMIT = 10_000_000


def turn_of(year, liability):
    """The first day on which 100,000.00 or more has accumulated since its month began."""
    month, total = None, 0
    for day in sorted(d for d in liability if d.year == year):
        total = total + liability[day] if day.month == month else liability[day]
        month = day.month
        if total >= LIMIT:
            return day
    return None


def periods(year, semiweekly_from):
    """The deposit periods of a year: runs of days that share quarter, status and month or interval."""
    day, last = date(year, 1, 1), date(year, 12, 31)

    def key(day):
        semiweekly = day >= semiweekly_from
        return ((day.month - 1) // 3, semiweekly, interval(day)[0] if semiweekly else day.month)

    first = day
    while day <= last:
        following = day + DAY
        if following > last or key(following) != key(day):
            yield first, day, "semiweekly" if key(day)[1] else "monthly"
            first = following
        day = following


def due_date(rule, last):
    if rule == "next-day":
        return nth_after(last, 1)
    if rule == "semiweekly":
        return nth_after(interval(last)[1], 3)
    return on_or_after(month_end(last) + timedelta(days=15))


def obligations(first_year, count, liability):
    semiweekly = False
    for year in range(first_year, first_year + count):
        turn = None if semiweekly else turn_of(year, liability)
        start = date(year, 1, 1) if semiweekly else (turn or date(year, 12, 31)) + DAY
        for first, last, rule in periods(year, start):
            total, day = 0, first
            while day <= last:
                total += liability.get(day, 0)
                if total >= LIMIT:
                    yield first, day, "next-day", total
                    first, total = day + DAY, 0
                day += DAY
            if total > 0:
                yield first, last, rule, total
        semiweekly = turn is not None


def reading():
    lines = sys.stdin.read().split("\n")
    first, count = map(int, lines[0].split()[1:])
    liability = {}
    for line in lines[1:]:
        if line:
            day, cents = line.split()
            day = date.fromisoformat(day)
            liability[day] = liability.get(day, 0) + int(cents)
    for first_day, last, rule, cents in obligations(first, count, liability):
        print(first_day, last, rule, f"{cents // 100}.{cents % 100:02}", due_date(rule, last))


def history(first, count):
    days = (date(first + count, 1, 1) - date(first, 1, 1)).days
    lines = [f"assess {first} {count}"]
    for i in range(20_000):
        day = date(first, 1, 1) + timedelta(days=i * 7919 % days)
        lines.append(f"{day} {i * 104_729 % 60_000 * count}")
    return "\n".join(lines) + "\n"


def measured(words, path):
    best, peak, out = None, 0, b""
    for _ in range(3):
        with open(path, "rb") as text, tempfile.TemporaryFile() as sink:
            start = time.monotonic()
            child = subprocess.Popen(words, stdin=text, stdout=sink)
            _, status, usage = os.wait4(child.pid, 0)
            spent = time.monotonic() - start
            if status != 0:
                raise SystemExit(f"{words[0]} ended with status {status}")
            sink.seek(0)
            out = sink.read()
        best = spent if best is None else min(best, spent)
        peak = max(peak, usage.ru_maxrss)
    return best, peak, out


def main():
    top = os.path.dirname(os.path.dirname(os.path.abspath(__file__)))
    ours = [os.path.join(top, "crates", "ftd_bench", "out", "ftd_bench")]
    theirs = [sys.executable, os.path.abspath(__file__), "reading"]
    for first, count in ((2024, 1), (2024, 40)):
        with tempfile.NamedTemporaryFile("w", suffix=".txt") as file:
            file.write(history(first, count))
            file.flush()
            rows = [(name, *measured(words, file.name)) for name, words in (("assess", ours), ("python", theirs))]
        lines = rows[0][3].count(b"\n")
        print(f"20,000 day sums, {count} year{'s' if count > 1 else ''}: {lines} obligations")
        for name, spent, peak, _ in rows:
            print(f"  {name:8} {spent * 1000:9.1f} ms {peak / 1024:8.1f} MiB")
        print("  same obligations" if rows[0][3] == rows[1][3] else "  THE OBLIGATIONS DIFFER")


if __name__ == "__main__":
    reading() if sys.argv[1:] == ["reading"] else main()
