#!/usr/bin/env python3
"""How long the office's questions take, beside SQLite, which lists the same rows with one statement and computes nothing more.

`bench/office_speed.py [PROGRAM] [ACCOUNTS ..]` makes offices of so many accounts (100, 300 and 1,000 if none is given), half of
them semiweekly, with ten open years each and a thousand pay runs an account, imported. Each obligation due before June 2023 is
paid on its due date. Then `agenda` of June 2023 and `owed` until its end are asked of `ftd serve`, in turn with Python's `sqlite3`
over a copy of the file, which both have open: ten times each, the medians, in milliseconds, and how many rows there are. The rows have to
be the same. Then stands what the command takes, which opens the file and looks through all of it first. At the end `accounts` is asked of an
office of 10,000 accounts that are enrolled and no more, over HTTP and by the command.

What other work takes of the processors is in these times. Beside them stands the processor time alone (of the server by
/proc/PID/schedstat).
"""

import csv
import datetime
import os
import random
import shutil
import sqlite3
import statistics
import subprocess
import sys
import tempfile
import time

from office import MESSAGES, Office, program_of

YEARS = range(2014, 2024)
FROM, TO, AS_OF = "2023-06-01", "2023-06-30", "2023-06-01"
HOLIDAYS = ("01-01", "07-04", "12-25")
RUNS, TURNS = 1000, 10
ENROLLED = 10_000
# The runs of so many accounts are imported at once: a text has a greatest length.
TOGETHER = 100
ROWS = "account, first_day, last_day, rule, cents, due"
PAID = """(SELECT COALESCE(SUM(p.cents), 0) FROM payment p WHERE p.account = b.account AND p.voided = 0
    AND p.for_day BETWEEN b.first_day AND b.last_day AND p.paid <= {as_of})"""


def day_number(text):
    return (datetime.date.fromisoformat(text) - datetime.date(1970, 1, 1)).days


def names(accounts):
    return [f"employer-{number:04}" for number in range(accounts)]


def setting_up(accounts):
    """The calendars, the accounts, their reported totals and their open years."""
    for year in range(YEARS[0], YEARS[-1] + 2):
        yield " ".join(["calendar", str(year), *(f"{year}-{day}" for day in HOLIDAYS)])
    for place, name in enumerate(names(accounts)):
        amount = "15000.00" if place % 2 else "5000.00"
        yield f"enrol {name} {YEARS[0]}-01-01"
        for year in YEARS:
            yield from (f"report {name} {year}Q{quarter} {amount}" for quarter in range(1, 5))
        yield from (f"open {name} {year}" for year in YEARS)


def write_runs(path, some, chosen):
    """A thousand runs of each of some accounts, by payday."""
    first, last = datetime.date(YEARS[0], 1, 1), datetime.date(YEARS[-1], 12, 31)
    days = [first + datetime.timedelta(chosen.randrange((last - first).days + 1)) for _ in range(RUNS)]
    with open(path, "w", newline="", encoding="utf-8") as file:
        out = csv.writer(file, lineterminator="\n")
        out.writerow(["employer", "run", "payday", "fit", "ss", "medicare"])
        for name in some:
            for number, day in enumerate(sorted(days), 1):
                fit = chosen.randrange(10_000, 300_000)
                out.writerow([name, number, day, f"{fit // 100}.{fit % 100:02}", "120.00", "30.00"])


def pay(number, name, first, last, rule, cents, due):
    """The payment of an obligation, on its due date."""
    return f"pay {name} {number} {day_text(due)} {day_text(first)} {cents // 100}.{cents % 100:02}"


def ask(program, db, asked):
    office = Office(program, db, len(asked))
    answers = office.ask(asked)
    office.close()
    assert all(answer == "done" for answer in answers), next(it for it in answers if it != "done")


def made(program, folder, accounts):
    """An office, in a file."""
    db, text = os.path.join(folder, f"{accounts}.db"), os.path.join(folder, "runs.csv")
    ask(program, db, list(setting_up(accounts)))
    chosen, all_names = random.Random(accounts), names(accounts)
    for place in range(0, accounts, TOGETHER):
        write_runs(text, all_names[place : place + TOGETHER], chosen)
        subprocess.run([program, "import", "--db", db, text], check=True, stdout=subprocess.DEVNULL)
    tables = sqlite3.connect(f"file:{db}?mode=ro", uri=True)
    owed = tables.execute(f"SELECT {ROWS} FROM bucket WHERE due < ? ORDER BY account, first_day", (day_number(FROM),)).fetchall()
    tables.close()
    ask(program, db, [pay(number, *row) for number, row in enumerate(owed, 1)])
    return db


def day_text(number):
    return str(datetime.date(1970, 1, 1) + datetime.timedelta(int(number)))


def same_rows(printed, listed):
    """Whether the lines of an answer are the rows of the statement: due date, account, first day and amount."""
    ours = [(row[0], row[1], row[3], int(row[6].replace(".", ""))) for row in (line.split() for line in printed.splitlines()[1:-1])]
    return ours == [(day_text(row[5]), row[0], day_text(row[1]), row[4]) for row in listed]


def served(server):
    """The nanoseconds of processor time that a server has used."""
    with open(f"/proc/{server.pid}/schedstat", encoding="ascii") as line:
        return int(line.read().split()[0])


def clocked(call, used=time.process_time_ns):
    """The milliseconds that a call takes, those of a processor, and what it gives."""
    before, start = used(), time.perf_counter()
    given = call()
    return (time.perf_counter() - start) * 1e3, (used() - before) / 1e6, given


def median(turns, place):
    return statistics.median(turn[place] for turn in turns)


def beside(program, db, question, statement):
    """Both, ten times in turn: what each turn took, ours and theirs, and how many rows there are."""
    copy = shutil.copy(db, f"{db}.copy")
    office, tables = Office(program, db, TURNS * MESSAGES), sqlite3.connect(copy)
    ours, theirs = [], []
    for _ in range(TURNS):
        ours.append(clocked(lambda: office.ask_some([question]), lambda: served(office.server)))
        theirs.append(clocked(lambda: tables.execute(statement).fetchall()))
        assert same_rows(ours[-1][2][0], theirs[-1][2]), f"{question}: the rows differ"
    tables.close()
    office.close()
    return ours, theirs, len(theirs[0][2])


def measure(program, db, accounts):
    paid = PAID.format(as_of=day_number(AS_OF))
    statements = {
        f"agenda {FROM} {TO} {AS_OF}": f"SELECT {ROWS} FROM bucket WHERE due BETWEEN {day_number(FROM)} AND {day_number(TO)} ORDER BY due, account, first_day",
        f"owed {AS_OF} {TO}": f"SELECT {ROWS} FROM bucket b WHERE due <= {day_number(TO)} AND {paid} < cents ORDER BY due, account, first_day",
    }
    for question, statement in statements.items():
        ours, theirs, rows = beside(program, db, question, statement)
        wall, used = [(median(ours, place), median(theirs, place)) for place in (0, 1)]
        print(f"{accounts:5} accounts  {question:35} {rows:6} rows  ftd {wall[0]:7.1f} ms  SQLite {wall[1]:7.1f} ms  {wall[0] / wall[1]:5.1f} times"
              f"  (processor {used[0]:7.1f} and {used[1]:7.1f} ms, {used[0] / used[1]:5.1f} times)", flush=True)
    print(f"{accounts:5} accounts  the command owed, which opens the file first: {commanded(program, 'owed', '--db', db, AS_OF, TO):.0f} ms", flush=True)


def commanded(program, *words):
    """The milliseconds that a command takes."""
    return clocked(lambda: subprocess.run([program, *words], check=True, stdout=subprocess.DEVNULL))[0]


def list_accounts(program, folder):
    """`accounts` of many accounts that are enrolled and no more."""
    db = os.path.join(folder, "enrolled.db")
    ask(program, db, [f"enrol {name} {YEARS[0]}-01-01" for name in names(ENROLLED)])
    office = Office(program, db, TURNS * MESSAGES)
    turns = [clocked(lambda: office.ask_some(["accounts"]), lambda: served(office.server)) for _ in range(TURNS)]
    office.close()
    assert all(len(turn[2][0].splitlines()) == ENROLLED + 1 for turn in turns)
    command = statistics.median(commanded(program, "accounts", "--db", db) for _ in range(TURNS))
    print(f"{ENROLLED} accounts  accounts: {median(turns, 0):.0f} ms (processor {median(turns, 1):.0f} ms), the command {command:.0f} ms", flush=True)


def main():
    words = sys.argv[1:]
    program = program_of(words[:1] if words and not words[0].isdigit() else [])
    sizes = [int(word) for word in words if word.isdigit()] or [100, 300, 1000]
    with tempfile.TemporaryDirectory() as folder:
        for accounts in sizes:
            start = time.perf_counter()
            db = made(program, folder, accounts)
            print(f"{accounts} accounts, {accounts * RUNS} runs: made in {time.perf_counter() - start:.0f} s, {os.path.getsize(db) // 1_000_000} MB")
            measure(program, db, accounts)
        list_accounts(program, folder)


if __name__ == "__main__":
    main()
