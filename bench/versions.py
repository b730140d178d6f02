#!/usr/bin/env python3
"""Turns a desk's file into one of version 2 and one of version 1, and compares what the program answers of them with what it answered before.

All of it is written into a new file by Python's sqlite3, without the tables that a later version added, and the version is set back: nothing was put
right in the file, and for version 1 all accounts are on Form 941 and no holiday was added. The first command makes it version 3 again. Every due
list, Schedule B, status and list of what is kept has to be the same, byte for byte but for the file's name, and so have all tables.
`bench/versions.py [PROGRAM]` takes the program.
"""
import contextlib
import os
import sqlite3
import subprocess
import sys
import tempfile

from office import program_of, tables

TOP = os.path.dirname(os.path.dirname(os.path.abspath(__file__)))
THIRD = ["corrected", "corrected_year", "changed_holiday", "corrected_account"]
SECOND = ["account_form", "reported_year", "added_holiday"]
QUARTERS = [f"{year}Q{part}" for year in (2024, 2025) for part in (1, 2, 3, 4)]


def holidays(year):
    """The days of the file of that year's holidays."""
    with open(f"{TOP}/examples/holidays/{year}", encoding="utf-8") as file:
        return [line.split()[0] for line in file if line[:1].isdigit()]


def setting_up(version):
    """What is entered first: on Form 941 alone for version 1, on both forms and with an added holiday for version 2."""
    for year in (2024, 2025, 2026):
        yield ["calendar", str(year), *holidays(year)]
    for at, name in enumerate(("ash", "elm", "oak")):
        yield ["enrol", name, "2022-07-01", *(["--carried"] if at == 1 else [])]
        for quarter in ("2022Q3", "2022Q4", "2023Q1", "2023Q2", "2023Q3", "2023Q4", "2024Q1", "2024Q2"):
            yield ["report", name, quarter, f"{9000 + 2500 * at}.00"]
        for year in ("2024", "2025"):
            yield ["open-year", name, year]
        for run in range(1, 41):
            day = f"{2024 + run % 2}-{run % 12 + 1:02}-{run * 7 % 28 + 1:02}"
            yield ["post", name, str(run), day, f"{run * 731 + at * 4000}.{run:02}", "310.00", "72.50"]
            if run % 5 == 0:
                yield ["void", name, str(run)]
            if run % 3 == 0:
                yield ["pay", name, str(run), day, day, f"{run * 500}.00"]
        yield ["void-pay", name, "3"]
    if version == 2:
        yield ["enrol", "rye", "2022-01-01", "--form", "943"]
        yield ["report-year", "rye", "2022", "61000.00"]
        yield ["open-year", "rye", "2024"]
        yield ["post", "rye", "1", "2024-05-08", "900.00", "310.00", "72.50"]
        yield ["add-holiday", "2024-06-17"]


def asked(names):
    """All that is asked of both files."""
    yield ["accounts"]
    yield ["owed", "2024-08-01", "2025-12-31"]
    yield ["agenda", "2024-01-01", "2025-12-31", "2025-03-01"]
    for year in ("2024", "2025"):
        yield ["holidays", year]
    for name in names:
        yield ["years", name]
        yield ["reported", name]
        for quarter in QUARTERS:
            yield ["due", name, quarter, "2025-06-01"]
            yield ["schedule-b", name, quarter]
            yield ["runs", name, quarter]
            yield ["payments", name, quarter]


def run(program, path, command):
    """The status and the bytes that the command prints, without the file's name."""
    words = [program, command[0], "--db", path, *command[1:]]
    done = subprocess.run(words, stdout=subprocess.PIPE, stderr=subprocess.STDOUT, check=False)
    return done.returncode, done.stdout.replace(path.encode(), b"FILE")


def set_back(path, older, version):
    """Writes all that the file has into a new one of that version."""
    with contextlib.closing(sqlite3.connect(path)) as source, contextlib.closing(sqlite3.connect(older)) as conn:
        conn.executescript("\n".join(source.iterdump()))
        for name in THIRD + (SECOND if version == 1 else []):
            conn.execute(f"DROP TABLE {name}")
        conn.execute("UPDATE ftd_meta SET version = ?", (version,))
        conn.commit()
        conn.execute("VACUUM")


def main():
    program = program_of(sys.argv[1:])
    with tempfile.TemporaryDirectory() as folder:
        for version in (1, 2):
            path, older = os.path.join(folder, f"{version}.db"), os.path.join(folder, f"{version}-older.db")
            for command in setting_up(version):
                status, text = run(program, path, command)
                assert status == 0, (command, text)
            set_back(path, older, version)
            names = ["ash", "elm", "oak", *(["rye"] if version == 2 else [])]
            commands = list(asked(names))
            for command in commands:
                now, then = run(program, path, command), run(program, older, command)
                if now != then:
                    sys.exit(f"version {version}: {' '.join(command)}: {then} is not {now}")
            if tables(path) != tables(older):
                sys.exit(f"version {version}: the tables differ")
            print(f"version {version}: {len(commands)} answers the same, byte for byte, and all tables")


if __name__ == "__main__":
    main()
