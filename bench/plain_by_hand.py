#!/usr/bin/env python3
"""`ftd plain` as a short Python script with the csv module, for comparison: plain_by_hand.py plain ACCOUNT YEAR [HOLIDAY ..]"""

import csv
import datetime
import io
import re
import sys

from days import DAY, interval, month_end, nth_after, on_or_after

NAME = re.compile(r"[a-z][a-z0-9-]{0,19}", re.ASCII).fullmatch
NUMBER = re.compile(r"[0-9]{1,9}", re.ASCII).fullmatch
AMOUNT = re.compile(r"[0-9]{1,9}(\.[0-9]{1,2})?", re.ASCII).fullmatch
DATE = re.compile(r"[0-9]{4}-[0-9]{2}-[0-9]{2}", re.ASCII).fullmatch
HEADER = ["employer", "run", "payday", "fit", "ss", "medicare"]


def refuse(text):
    print(text, file=sys.stderr)
    sys.exit(1)


def day_of(text):
    if not DATE(text):
        return None
    try:
        day = datetime.date.fromisoformat(text)
    except ValueError:
        return None
    return day if 1900 <= day.year <= 2199 else None


def cents_of(text):
    if not AMOUNT(text):
        return None
    dollars, _, fraction = text.partition(".")
    return 100 * int(dollars) + int(fraction.ljust(2, "0"))


def run_of(row):
    """The run of the record, or the least of its fields that is bad."""
    if len(row) != 6:
        return 0
    employer, number, payday, *amounts = row
    if not NAME(employer):
        return 1
    if not NUMBER(number) or int(number) == 0:
        return 2
    day = day_of(payday)
    if day is None:
        return 3
    cents = [cents_of(amount) for amount in amounts]
    if None in cents:
        return 4 + cents.index(None)
    return employer, int(number), day, *cents


def runs_of(text, account, year):
    rows = csv.reader(io.StringIO(text, newline=""))
    if next((row for row in rows if row), None) != HEADER:
        refuse("refused header")
    runs = {}
    record = 1
    for row in rows:
        if not row:
            continue
        record += 1
        run = run_of(row)
        if isinstance(run, int):
            refuse(f"record {record} malformed field {run}")
        employer, number, *content = run
        if employer == account and content[0].year == year:
            known = runs.setdefault(number, content)
            if known != content:
                refuse(f"run {number} differs")
            if len(runs) > 20_000:
                refuse("refused 19 TooManyRuns")
    return runs


def deposits(runs, year, holidays):
    """The obligations of a monthly depositor: a period is a month, or once a day has brought its
    month to 100,000.00 a Wednesday to Friday or Saturday to Tuesday of one quarter; the count stops
    on each day that brings it to 100,000.00."""
    sums = {}
    for day, fit, ss, medicare in runs.values():
        sums[day] = sums.get(day, 0) + fit + ss + medicare

    rows = []
    first = datetime.date(year, 1, 1)
    semiweekly = False
    while first.year == year:
        if semiweekly:
            last = min(interval(first)[1], month_end(first.replace(month=(first.month + 2) // 3 * 3, day=1)))
        else:
            last = month_end(first)
        total = 0
        begin = first
        day = first
        while day <= last:
            total += sums.get(day, 0)
            if total >= 10_000_000:
                rows.append((begin, day, "next-day", total, nth_after(day, 1, holidays)))
                total = 0
                begin = day + DAY
                if not semiweekly:
                    semiweekly = True
                    last = day
            day += DAY
        if total:
            due = nth_after(interval(last)[1], 3, holidays) if semiweekly else on_or_after((last + DAY).replace(day=15), holidays)
            rows.append((begin, last, "semiweekly" if semiweekly else "monthly", total, due))
        first = last + DAY
    return rows


def main():
    account, year = sys.argv[2], int(sys.argv[3])
    holidays = [datetime.date.fromisoformat(word) for word in sys.argv[4:]]
    data = sys.stdin.buffer.read(16_777_217)
    if len(data) > 16_777_216:
        refuse("refused length")
    text = data.decode("latin-1")
    text = text.removeprefix("\xef\xbb\xbf")
    runs = runs_of(text, account, year)
    for first, last, rule, cents, due in deposits(runs, year, set(holidays)):
        print(first, last, rule, f"{cents // 100}.{cents % 100:02d}", due)


main()
