#!/usr/bin/env python3
"""Imports a text of pay runs that is cut off after each of its bytes, and compares what is printed with a plain reading of the cut text.

    bench/cut_imports.py [PROGRAM]

Each cut is imported by `ftd import` into a copy of a desk that has the accounts: the summary, the notes and the status have to be those of
the reading, and the runs of the file the ones that it posts."""

import contextlib
import re
import shutil
import sqlite3
import subprocess
import sys
import tempfile

from office import program_of

FTD = program_of(sys.argv[1:])
HEADER = "employer,run,payday,fit,ss,medicare"
TEXT = f"""{HEADER}
ash,1,2024-01-05,500.00,310.00,72.50
ash,2,2024-01-19,500.00,310.00,72.5
ash,3,2024-02-30,500.00,310.00,72.50
elm,1,2024-05-27,1000.00,620.00,145.00
ash,1,2024-01-05,500.00,310.00,72.50
ash,2,2024-01-19,501.00,310.00,72.50
elm,2,2024-06-03,99999.99,0.01,0.00
"""
DAYS = {"2024-01-05", "2024-01-19", "2024-05-27", "2024-06-03"}
FORMS = [r"[a-z][a-z0-9-]{0,19}", r"0*[1-9][0-9]*", None, r"\d{1,9}(\.\d{1,2})?", r"\d{1,9}(\.\d{1,2})?", r"\d{1,9}(\.\d{1,2})?"]
KNOWN = ("ash", "elm")


def cents(text):
    """An amount in cents."""
    whole, _, part = text.partition(".")
    return int(whole) * 100 + int((part + "00")[:2])


def bad_field(fields):
    """The least field that is no value of its kind, 0 where there are not six, None where all are good."""
    if len(fields) != len(FORMS):
        return 0
    for at, (field, form) in enumerate(zip(fields, FORMS), start=1):
        if not (field in DAYS if form is None else re.fullmatch(form, field)):
            return at
    return None


def reading(text):
    """The lines and the status of an import of the text into a desk without runs, and the runs that it posts."""
    lines = [line for line in text.split("\n") if line]
    if not lines or lines[0] != HEADER:
        return None, 1, {}
    runs, notes, already, refused, malformed = {}, [], 0, 0, 0
    for number, line in enumerate(lines[1:], start=2):
        fields = line.split(",")
        field = bad_field(fields)
        if field is not None:
            malformed += 1
            notes.append(f"record {number} malformed field {field}")
            continue
        key, run = (fields[0], int(fields[1])), (fields[2], *map(cents, fields[3:]))
        if fields[0] not in KNOWN:
            refused += 1
            notes.append(f"record {number} refused 7 UnknownAccount")
        elif key not in runs:
            runs[key] = run
        elif runs[key] == run:
            already += 1
        else:
            refused += 1
            notes.append(f"record {number} refused 11 RunDiffers")
    summary = f"posted {len(runs)} already {already} refused {refused} malformed {malformed}"
    return [summary, *notes], 1 if refused or malformed else 0, runs


def kept(db):
    """The runs of a file."""
    with contextlib.closing(sqlite3.connect(db)) as base:
        rows = base.execute("SELECT account, run, date(payday * 86400, 'unixepoch'), fit, ss, medicare FROM run")
        return {(account, run): tuple(rest) for account, run, *rest in rows}


def ftd(*words):
    return subprocess.run([FTD, *words], capture_output=True, text=True)


def main():
    with tempfile.TemporaryDirectory() as folder:
        base, db, file = (f"{folder}/{name}" for name in ("base.db", "desk.db", "runs.csv"))
        for year in ("2024", "2025"):
            ftd("calendar", "--db", base, year)
        for account in KNOWN:
            ftd("enrol", "--db", base, account, "2024-01-01")
            ftd("open-year", "--db", base, account, "2024")
        differences = 0
        for end in range(len(TEXT) + 1):
            shutil.copy(base, db)
            with open(file, "w", encoding="ascii") as it:
                it.write(TEXT[:end])
            lines, status, runs = reading(TEXT[:end])
            ran = ftd("import", "--db", db, file)
            said = ran.stdout.splitlines() if lines is not None else ran.stderr.splitlines()[:1]
            wanted = lines if lines is not None else ["refused header"]
            if (said, ran.returncode, kept(db)) != (wanted, status, runs):
                differences += 1
                print(f"cut after {end} bytes: {said}, {ran.returncode}, {ran.stderr!r}, and not {wanted}, {status}")
        print(f"{len(TEXT) + 1} cuts, {differences} differences")
        sys.exit(differences > 0)


if __name__ == "__main__":
    main()
