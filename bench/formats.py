#!/usr/bin/env python3
"""Each list as CSV and as JSON, and what is due over all accounts as a calendar, read by other programs' readers, beside the rows of the text.

    python3 bench/formats.py [PROGRAM]

PROGRAM is the path of `ftd`, or that of the build of this repository. It makes a desk with 40 accounts and random pay runs and payments, and two
whose reported totals were put right, takes holidays back, asks `agenda` and `owed` for each week of a quarter in each format, and `due`,
`schedule-b` and the lists of what is kept of each account; it reads the calendar with `icalendar` (Debian's python3-icalendar) and the other
two with Python's own `csv` and `json`, and compares each row with that of the text. It ends with status 1 at the first that differs.
"""

import csv
import datetime
import decimal
import io
import json
import os
import random
import subprocess
import sys
import tempfile

import icalendar

from office import program_of

DUE_FIELDS = ["due", "account", "first", "last", "rule", "amount", "paid", "left", "makeup", "verdict"]
FIELDS = ["due", "account", "form", "first", "last", "rule", "amount", "paid", "left", "pay_by", "verdict"]
HOLIDAYS = {
    "2024": ["2024-01-01", "2024-01-15", "2024-02-19", "2024-04-16", "2024-05-27", "2024-06-19", "2024-07-04", "2024-09-02"]
    + ["2024-10-14", "2024-11-11", "2024-11-28", "2024-12-25"],
    "2025": ["2025-01-01"],
}


def ask(program, db, *words):
    """The bytes that a command prints."""
    done = subprocess.run([program, words[0], "--db", db, *words[1:]], capture_output=True, check=False)
    if done.returncode != 0:
        sys.exit(f"{' '.join(words)}: {done.stderr.decode()}")
    return done.stdout


def fill(program, db, chance):
    """Makes the desk."""
    for year, days in HOLIDAYS.items():
        ask(program, db, "calendar", year, *days)
    for number in range(40):
        name = f"office-{number}" if number else "a-name-of-20-bytes--"
        form = "943" if number % 5 == 4 else "941"
        ask(program, db, "enrol", "--form", form, name, "2024-01-01")
        ask(program, db, "open-year", name, "2024")
        payday = datetime.date(2024, 4, 1)
        for run in range(1, 7):
            payday += datetime.timedelta(chance.randint(3, 14))
            amount = f"{chance.choice([9, 300, 4000, 60000, 250000])}.{chance.randint(0, 99):02}"
            ask(program, db, "post", name, str(run), str(payday), amount, "0.00", "0.00")
            if chance.random() < 0.5:
                ask(program, db, "pay", name, str(run), str(payday), str(payday), amount)
                if chance.random() < 0.2:
                    ask(program, db, "void-pay", name, str(run))
            if chance.random() < 0.1:
                ask(program, db, "void", name, str(run))
        ask(program, db, "pay", name, "7", "2024-06-30", "2024-06-30", "5.00")
        verb, period = ("report-year", "2024") if form == "943" else ("report", "2024Q1")
        ask(program, db, verb, name, period, "12.50")
        if number % 3 == 0:
            ask(program, db, f"correct-{verb}", name, period, "13.75")
    for name in ("changed", "changed-back"):
        ask(program, db, "enrol", name, "2022-01-01")
        for period in ("2022Q3", "2022Q4", "2023Q1", "2023Q2"):
            ask(program, db, "report", name, period, "12500.00")
        ask(program, db, "open-year", name, "2024")
        ask(program, db, "correct-report", name, "2022Q4", "12500.01")
    ask(program, db, "correct-report", "changed-back", "2022Q4", "12500.00")
    ask(program, db, "add-holiday", "2024-12-24")
    ask(program, db, "add-holiday", "2024-12-31")
    for day in ("2024-04-16", "2024-12-24"):
        ask(program, db, "change-holiday", day, "no")


def text_rows(text):
    """The rows of a text, and the sum of its last line."""
    lines = text.decode().splitlines()
    return [line.split() for line in lines[1:-1]], lines[-1].split()[1]


def same(what, found, wanted):
    """Ends where they differ."""
    if found != wanted:
        sys.exit(f"{what}: {found} in place of {wanted}")


def event_of(row, as_of):
    """What an event says of a row."""
    due, account, form, first, last, rule, _, _, left, pay_by, verdict = row
    condition = " if the total for the return stays below 2500.00" if verdict == "with-return" and pay_by == due else ""
    return {
        "UID": f"{account}-{form}-{first}@ftd",
        "DTSTAMP": datetime.datetime.fromisoformat(f"{as_of}T00:00:00+00:00"),
        "DTSTART": datetime.date.fromisoformat(due),
        "SUMMARY": f"{account} {form} {rule} {left}",
        "DESCRIPTION": f"{first} to {last}, pay by {pay_by}, {verdict}{condition}",
    }


def read_event(event):
    """What the reader finds in an event."""
    texts = {name: str(event[name]) for name in ("UID", "SUMMARY", "DESCRIPTION")}
    return {**texts, "DTSTAMP": event["DTSTAMP"].dt, "DTSTART": event["DTSTART"].dt}


def compare(program, db, words, as_of):
    """Compares the formats of an answer with its text, and gives the number of its rows."""
    rows, total = text_rows(ask(program, db, *words))
    name = " ".join(words)
    found = list(csv.reader(io.StringIO(ask(program, db, *words, "--format", "csv").decode(), newline="")))
    same(name, found, [FIELDS, *rows])
    found = json.loads(ask(program, db, *words, "--format", "json"))
    same(name, found, {"rows": [dict(zip(FIELDS, row)) for row in rows], "left": total})
    same(name, sum(decimal.Decimal(row["left"]) for row in found["rows"]), decimal.Decimal(total))
    text = ask(program, db, *words, "--format", "ics")
    same(name, [line for line in text.split(b"\n") if line and (line[-1:] != b"\r" or len(line) > 76)], [])
    found = [read_event(it) for it in icalendar.Calendar.from_ical(text).walk("VEVENT")]
    same(name, found, [event_of(row, as_of) for row in rows])
    same(name, len({it["UID"] for it in found}), len(rows))
    return len(rows)


def forms(program, db, words):
    """The lines of the text of a list, without the first; the records of its CSV, without the first; its JSON."""
    lines = ask(program, db, *words).decode().splitlines()[1:]
    records = list(csv.reader(io.StringIO(ask(program, db, *words, "--format", "csv").decode(), newline="")))
    return lines, records[1:], json.loads(ask(program, db, *words, "--format", "json"))


def plain(value):
    """A value of JSON as it stands in the CSV."""
    if isinstance(value, bool):
        return "yes" if value else "no"
    return "" if value is None else str(value)


def left_of(amount, paid):
    """What is left of an amount."""
    return str(max(decimal.Decimal(amount) - decimal.Decimal(paid), decimal.Decimal("0.00")))


def compare_due(program, db, name, form):
    """Compares the formats of an account's due list and, on Form 941, of its Schedule B."""
    words = ["due", name, "2024Q2", "2024-06-30"]
    lines, records, found = forms(program, db, words)
    rows = [line.split() for line in lines[:-1]]
    wanted = [[due, name, first, last, rule, amount, paid, left_of(amount, paid), makeup, verdict]
              for first, last, rule, amount, due, makeup, paid, verdict in rows]
    same(words, records, wanted)
    same(words, found["rows"], [dict(zip(DUE_FIELDS, row)) for row in wanted])
    same(words, found["amount"], lines[-1].split()[1])
    same(words, decimal.Decimal(found["left"]), sum((decimal.Decimal(row[7]) for row in wanted), decimal.Decimal(0)))
    if form == "943":
        return len(rows)
    words = ["schedule-b", name, "2024Q2"]
    lines, records, found = forms(program, db, words)
    days = [[name, *line.split()] for line in lines if len(line.split()[0]) == 10]
    same(words, records, days)
    same(words, found, {"rows": [dict(zip(["account", "day", "amount"], row)) for row in days], "amount": lines[-1].split()[1]})
    return len(rows) + len(days)


def after(row, mark, otherwise):
    """The word of a line behind this mark, or what stands for it where the line has none."""
    return row[row.index(mark) + 1] if mark in row else otherwise


def compare_kept(program, db, words, columns):
    """Compares the formats of a list: `columns` makes a record of CSV of the words of a line of the text. What is void is not in the CSV. The first
    values of a row of JSON are those of its record, and what it has more is in the text too."""
    lines, records, found = forms(program, db, words)
    rows = [line.split() for line in lines]
    live = [row for row in rows if row[-1] != "void"]
    same(words, records, [columns(row) for row in live])
    same(words, [row.get("void", False) for row in found["rows"]], [row[-1] == "void" for row in rows])
    same(words, [[plain(it) for it in list(row.values())[: len(columns(line))]] for row, line in zip(found["rows"], rows)],
         [columns(line) for line in rows])
    for row, line in zip(found["rows"], rows):
        if "obligation" in row:
            same(words, row["obligation"] or "none", line[3])
        if "first" in row:
            same(words, row["first"], after(line, "first", line[1]))
    return len(rows)


def compare_account(program, db, name):
    """Compares the formats of all that is kept of an account."""
    def marked(row, mark):
        return "yes" if mark in row else "no"

    def year(row):
        return [name, *row[:3], marked(row, "carried"), after(row, "turned", ""), after(row, "first", row[1])]

    return (
        compare_kept(program, db, ["years", name], year)
        + compare_kept(program, db, ["reported", name], lambda row: [name, *row[:2]])
        + compare_kept(program, db, ["runs", name, "2024Q2"], lambda row: [name, row[4], *row[:4]])
        + compare_kept(program, db, ["payments", name, "2024Q2"], lambda row: [name, row[4], row[2], row[0], row[1]])
    )


def main():
    program = program_of(sys.argv[1:])
    chance = random.Random(5545)
    with tempfile.TemporaryDirectory() as folder:
        db = os.path.join(folder, "office.db")
        fill(program, db, chance)
        count, rows = 0, 0
        for week in range(13):
            as_of = datetime.date(2024, 4, 1) + datetime.timedelta(7 * week)
            to = as_of + datetime.timedelta(20)
            rows += compare(program, db, ["agenda", str(as_of), str(to), str(as_of)], as_of)
            rows += compare(program, db, ["owed", str(as_of)], as_of)
            count += 2
        print(f"{count} answers, {rows} rows: the same in four formats")
        accounts = [line.split()[:2] for line in ask(program, db, "accounts").decode().splitlines()[1:]]
        rows = compare_kept(program, db, ["accounts"], lambda row: [row[0], row[2], "yes" if "carried" in row else "no", row[1]])
        holiday = lambda row: [row[0], "yes" if "added" in row else "no", "no" if "taken-back" in row else "yes"]
        rows += compare_kept(program, db, ["holidays", "2024"], holiday)
        rows += sum(compare_due(program, db, *it) + compare_account(program, db, it[0]) for it in accounts)
    print(f"the lists of {len(accounts)} accounts, {rows} rows: the same in three formats")


if __name__ == "__main__":
    main()
