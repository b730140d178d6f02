#!/usr/bin/env python3
"""Imports pay runs by the program `ftd` and by a Python script with `csv` and `sqlite3` that keeps the same tables, of which it
writes the rows of the runs alone, and computes nothing. Both take turns, five times each into a new file and five times again: the
median of the times, and the peak memory. Then it imports random records, and compares the tables with those of the same records
posted one by one. Then it kills 50 imports (or as many as KILLS
of the environment says) at random moments, imports again, and compares the tables with those of one import."""

import csv
import os
import random
import shutil
import signal
import statistics
import subprocess
import sys
import tempfile
import time

from office import program_of, tables

FTD = program_of(sys.argv[1:])


def ftd(*words):
    """What the program does with the words: its exit status and its first line."""
    done = subprocess.run([FTD, *words], stdout=subprocess.PIPE, stderr=subprocess.PIPE, text=True)
    return done.returncode, (done.stdout or done.stderr).split("\n")[0]


def new_desk(folder, accounts):
    """A file with the accounts enrolled and 2024 open."""
    db = os.path.join(folder, "office.db")
    for words in (["calendar", "2024"], ["calendar", "2025"]):
        assert ftd(*words, "--db", db) == (0, "done")
    for account in accounts:
        assert ftd("enrol", account, "2024-01-01", "--db", db) == (0, "done")
        assert ftd("open-year", account, "2024", "--db", db) == (0, "done")
    return db


def write_runs(path, accounts, each, chosen):
    """A text of pay runs, the paydays at random over 2024."""
    with open(path, "w", newline="") as out:
        writer = csv.writer(out, lineterminator="\n")
        writer.writerow(["employer", "run", "payday", "fit", "ss", "medicare"])
        for number in range(1, each + 1):
            for account in accounts:
                day = f"2024-{chosen.randrange(1, 13):02}-{chosen.randrange(1, 29):02}"
                writer.writerow([account, number, day, "1.00", "0.62", "0.14"])


# It writes into a copy of the desk's file, and so keeps the same tables and indexes.
SCRIPT = """
import csv, sqlite3, sys
from datetime import date
db = sqlite3.connect(sys.argv[2])
db.execute("PRAGMA journal_mode=WAL")
db.execute("PRAGMA synchronous=FULL")
db.execute("PRAGMA foreign_keys=ON")
start = date(1970, 1, 1)
cents = lambda text: round(float(text) * 100)
with open(sys.argv[1], newline="") as text:
    rows = csv.reader(text)
    next(rows)
    for account, run, payday, fit, ss, medicare in rows:
        row = (account, int(run), (date.fromisoformat(payday) - start).days, cents(fit), cents(ss), cents(medicare))
        known = db.execute("SELECT * FROM run WHERE account = ? AND run = ?", row[:2]).fetchone()
        if known is None:
            db.execute("INSERT INTO run VALUES (?, ?, ?, ?, ?, ?, 0)", row)
db.commit()
"""


TURNS = 5


def copy_desk(begun, db):
    """Puts a copy of the desk's file in the place of another file."""
    for name in (db, db + "-wal", db + "-shm"):
        if os.path.exists(name):
            os.remove(name)
    shutil.copy(begun, db)


def measured(words):
    """The seconds, the peak memory in MB and the first line of a command."""
    start = time.monotonic()
    child = subprocess.Popen(words, stdout=subprocess.PIPE, text=True)
    line = child.stdout.readline().strip()
    child.stdout.read()
    _, _, used = os.wait4(child.pid, 0)
    return time.monotonic() - start, used.ru_maxrss / 1024, line


def tell(name, turns):
    """Prints the medians of the program and of the script, and how many times as long as the script the program took."""
    seconds, python = (statistics.median(turn[at][0] for turn in turns) for at in (0, 1))
    memory, held = (max(turn[at][1] for turn in turns) for at in (0, 1))
    times = sorted(ours[0] / script[0] for ours, script in turns)
    line = turns[0][0][2]
    print(f"  {name}: ftd {seconds:.2f} s, {memory:.0f} MB ({line}); Python {python:.2f} s, {held:.0f} MB; "
          f"{seconds / python:.2f} times (one by one {', '.join(f'{each:.2f}' for each in times)})")


def measure(folder, accounts, each, chosen):
    text = os.path.join(folder, "runs.csv")
    write_runs(text, accounts, each, chosen)
    begun = new_desk(folder, accounts)
    db, other = os.path.join(folder, "ftd.db"), os.path.join(folder, "python.db")
    commands = [[FTD, "import", "--db", db, text], [sys.executable, "-c", SCRIPT, text, other]]
    print(f"{each * len(accounts)} runs of {len(accounts)} accounts")
    for name in ("into a new file", "again"):
        turns = []
        for _ in range(TURNS):
            if name == "into a new file":
                copy_desk(begun, db)
                copy_desk(begun, other)
            turns.append([measured(words) for words in commands])
        tell(name, turns)


def kill(folder, count, chosen):
    """Imports that are killed at random moments, and then imported again."""
    text = os.path.join(folder, "killed.csv")
    write_runs(text, ["ash", "birch"], 10_000, chosen)
    begun = new_desk(folder, ["ash", "birch"])
    whole = os.path.join(folder, "whole.db")
    shutil.copy(begun, whole)
    start = time.monotonic()
    ftd("import", "--db", whole, text)
    took = time.monotonic() - start
    wanted = tables(whole)
    right = 0
    cut = 0
    for _ in range(count):
        db = os.path.join(folder, "killed.db")
        copy_desk(begun, db)
        child = subprocess.Popen([FTD, "import", "--db", db, text], stdout=subprocess.DEVNULL)
        time.sleep(chosen.random() * took)
        child.send_signal(signal.SIGKILL)
        child.wait()
        status, line = ftd("import", "--db", db, text)
        cut += "already 0" not in line and "posted 0" not in line
        right += status == 0 and tables(db) == wanted
    print(f"{count} imports killed, {cut} of them in the middle of the records; {right} end in the tables of one import")


def open_office(db):
    """A file with six accounts, two of them on Form 943, monthly and semiweekly ones, with 2023 and 2024 open."""
    for year in ("2023", "2024", "2025"):
        assert ftd("calendar", year, f"{year}-07-04", "--db", db) == (0, "done")
    for number, account in enumerate(["ash", "birch", "cedar", "elm", "rye", "wheat"]):
        farm = number >= 4
        words = ["--form", "943"] if farm else []
        assert ftd("enrol", account, "2021-01-01", *words, "--db", db) == (0, "done")
        amount = "12000.00" if number % 2 else "40000.00"
        for year in ("2021", "2022"):
            if farm:
                assert ftd("report-year", account, year, amount, "--db", db) == (0, "done")
        for quarter in [] if farm else ["2021Q3", "2021Q4"] + [f"2022Q{n}" for n in range(1, 5)] + ["2023Q1", "2023Q2"]:
            assert ftd("report", account, quarter, amount, "--db", db) == (0, "done")
        for year in ("2023", "2024"):
            assert ftd("open-year", account, year, "--db", db) == (0, "done")


def any_run(chosen):
    """A record: one of six accounts or one that is not there, small amounts and such as cross 100,000.00, numbers that come again."""
    account = chosen.choice(["ash", "birch", "cedar", "elm", "rye", "wheat", "wheat", "nobody"] if chosen.random() < 0.1 else ["ash", "birch", "cedar", "elm", "rye", "wheat"])
    number = chosen.randrange(1, 60) if chosen.random() < 0.2 else chosen.randrange(1, 100_000)
    day = f"{chosen.choice(['2023', '2024', '2024', '2025'] if chosen.random() < 0.1 else ['2023', '2024'])}-{chosen.randrange(1, 13):02}-{chosen.randrange(1, 29):02}"
    amount = chosen.choice([40, 700, 30_000, 60_000, 110_000])
    return [account, str(number), day, f"{chosen.randrange(amount)}.{chosen.randrange(100):02}", f"{chosen.randrange(amount // 4)}.00", "0.00"]


def compare(folder, texts, records, chosen):
    """Imports random records into a file that has some already, and posts the same one by one into another: the tables have to be
    equal."""
    begun = os.path.join(folder, "begun.db")
    open_office(begun)
    right = 0
    for _ in range(texts):
        one, other = os.path.join(folder, "one.db"), os.path.join(folder, "other.db")
        copy_desk(begun, one)
        copy_desk(begun, other)
        runs = [any_run(chosen) for _ in range(records)]
        text = os.path.join(folder, "runs.csv")
        for first in range(0, records, records // 2):
            with open(text, "w", newline="") as out:
                writer = csv.writer(out, lineterminator="\n")
                writer.writerow(["employer", "run", "payday", "fit", "ss", "medicare"])
                writer.writerows(runs[first : first + records // 2])
            ftd("import", "--db", one, text)
        for run in runs:
            ftd("post", *run, "--db", other)
        right += tables(one) == tables(other)
    print(f"{texts} texts of {records} random records imported, and posted one by one: the tables are equal {right} times")


def main():
    chosen = random.Random(20240115)
    with tempfile.TemporaryDirectory() as folder:
        db = new_desk(folder, ["ash"])
        start = time.monotonic()
        for _ in range(20):
            ftd("status", "ash", "2024-01-05", "--db", db)
        print(f"ftd status: {(time.monotonic() - start) / 20 * 1000:.0f} ms")
    with tempfile.TemporaryDirectory() as folder:
        measure(folder, ["ash"], 20_000, chosen)
    with tempfile.TemporaryDirectory() as folder:
        measure(folder, [f"a{number}" for number in range(100)], 2_000, chosen)
    with tempfile.TemporaryDirectory() as folder:
        compare(folder, 10, 400, chosen)
    with tempfile.TemporaryDirectory() as folder:
        kill(folder, int(os.environ.get("KILLS", "50")), chosen)


main()
