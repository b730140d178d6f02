#!/usr/bin/env python3
"""How long the desk takes over HTTP beside Python's sqlite3, with the same tables, indexes and statements.

`bench/desk_speed.py [PROGRAM ..]` prints microseconds for a request, as a client sees them that sends a hundred at a time over
one connection after the other: figures reported and payments taken by an account that has 100 payments and one that has 19,800,
pay runs posted into an account of 100, 2,000 and 19,800 runs over ten years, into these years and into one after them, a due list
of a quarter, and 20,000 runs one by one. Python does the statements of the request alone, and computes nothing. Each is timed in a
file that lies in memory (/dev/shm) and in one on the disk, where each commit waits for it. Of several programs, as an old one
and a new one, each is timed in turn, in one run.
"""
import contextlib
import datetime
import os
import random
import shutil
import sqlite3
import sys
import tempfile
import time

from office import Office, programs_of

YEARS = range(2014, 2024)
START = "2014-01-01"


def money(cents):
    return f"{cents // 100}.{cents % 100:02}"


def setting_up():
    yield from (f"calendar {year}" for year in range(2012, 2027))
    yield f"enrol ash {START}"
    for year in range(2014, 2025):
        yield from (f"report ash {year}Q{quarter} 12500.00" for quarter in range(1, 5) if year < 2024)
        yield f"open ash {year}"


def some_day(rng, years=YEARS):
    return datetime.date(rng.choice(years), 1, 1) + datetime.timedelta(rng.randrange(365))


def post(rng, number, years=YEARS):
    day = some_day(rng, years)
    return f"post ash {number} {day} {money(rng.randrange(10_000, 300_000))} {money(rng.randrange(9_000))}"


def pay(rng, number):
    day = some_day(rng)
    return f"pay ash {number} {day} {day} {money(rng.randrange(1, 300_000))}"


class Bench:
    """Programs, and folders in memory and on the disk."""

    def __init__(self, programs, folders):
        self.programs, self.folders, self.made = programs, folders, {}

    def prepared(self, program, before):
        """A file to which the requests were done."""
        key = (program, tuple(before))
        if key not in self.made:
            self.made[key] = os.path.join(self.folders[0], f"{len(self.made)}.db")
            office = Office(program, self.made[key], len(before))
            if any("refused" in answer for answer in office.ask(before)):
                raise SystemExit("a request was refused")
            office.close()
        return self.made[key]

    def clocked(self, program, before, measured, file):
        """The microseconds that the requests take, after the others."""
        shutil.copy(self.prepared(program, before), file)
        office = Office(program, file, len(measured))
        start = time.perf_counter()
        answers = office.ask(measured)
        took = (time.perf_counter() - start) * 1e6
        office.close()
        if any("refused" in answer for answer in answers):
            raise SystemExit("a request was refused")
        return took

    def print_best(self, name, timed, times):
        """Prints the microseconds for each of so many requests in each folder, the best of three."""
        figures = []
        for folder in self.folders:
            best = min(timed(os.path.join(folder, f"{time.monotonic_ns()}.db")) for _ in range(3))
            figures.append(best / times)
        print(f"{name:50}" + "".join(f" {figure:11.1f}" for figure in figures), flush=True)

    def asked(self, name, before, measured):
        """Prints how long a request takes each program."""
        for place, program in enumerate(self.programs):
            of = f" ({place + 1})" if len(self.programs) > 1 else ""
            timed = lambda file, program=program: self.clocked(program, before, measured, file)
            self.print_best(name + of, timed, len(measured))

    def by_python(self, before, measured, times):
        """Prints how long Python takes for the same."""

        def timed(file):
            desk = Statements(file)
            desk.together(before(desk))
            calls = measured(desk)
            start = time.perf_counter()
            desk.one_by_one(calls)
            return (time.perf_counter() - start) * 1e6

        self.print_best("  the statements by Python", timed, times)


class Statements:
    """The statements of requests, by Python's sqlite3."""

    def __init__(self, file):
        self.conn = sqlite3.connect(file or ":memory:", isolation_level=None)
        self.conn.executescript(
            """PRAGMA journal_mode = WAL; PRAGMA synchronous = FULL;
            CREATE TABLE account (name TEXT NOT NULL PRIMARY KEY, start INTEGER NOT NULL, carried INTEGER NOT NULL) STRICT;
            CREATE TABLE account_form (account TEXT NOT NULL PRIMARY KEY REFERENCES account(name), form INTEGER NOT NULL) STRICT;
            CREATE TABLE reported (account TEXT NOT NULL REFERENCES account(name), cal_year INTEGER NOT NULL,
              quarter INTEGER NOT NULL, cents INTEGER NOT NULL, PRIMARY KEY (account, cal_year, quarter)) STRICT;
            CREATE TABLE year (account TEXT NOT NULL REFERENCES account(name), cal_year INTEGER NOT NULL,
              lookback INTEGER NOT NULL, opening INTEGER NOT NULL, turn INTEGER, PRIMARY KEY (account, cal_year)) STRICT;
            CREATE TABLE run (account TEXT NOT NULL REFERENCES account(name), run INTEGER NOT NULL, payday INTEGER NOT NULL,
              fit INTEGER NOT NULL, ss INTEGER NOT NULL, medicare INTEGER NOT NULL, voided INTEGER NOT NULL,
              PRIMARY KEY (account, run)) STRICT;
            CREATE INDEX ftd_run_by_payday ON run (account, payday, run);
            CREATE TABLE payment (account TEXT NOT NULL REFERENCES account(name), payment INTEGER NOT NULL,
              paid INTEGER NOT NULL, for_day INTEGER NOT NULL, cents INTEGER NOT NULL, voided INTEGER NOT NULL,
              PRIMARY KEY (account, payment)) STRICT;
            CREATE INDEX ftd_payment_by_day ON payment (account, for_day, payment);
            CREATE TABLE bucket (account TEXT NOT NULL REFERENCES account(name), first_day INTEGER NOT NULL,
              last_day INTEGER NOT NULL, rule INTEGER NOT NULL, cents INTEGER NOT NULL, due INTEGER NOT NULL,
              PRIMARY KEY (account, first_day)) STRICT;
            CREATE TABLE calendar_year (cal_year INTEGER NOT NULL PRIMARY KEY) STRICT;
            CREATE TABLE holiday (day INTEGER NOT NULL PRIMARY KEY,
              cal_year INTEGER NOT NULL REFERENCES calendar_year(cal_year)) STRICT;
            CREATE TABLE added_holiday (day INTEGER NOT NULL PRIMARY KEY,
              cal_year INTEGER NOT NULL REFERENCES calendar_year(cal_year)) STRICT;"""
        )
        run = self.conn.execute
        run("INSERT INTO account VALUES ('ash', 0, 0)")
        run("INSERT INTO account_form VALUES ('ash', 0)")
        for year in range(2012, 2026):
            run("INSERT INTO calendar_year VALUES (?)", (year,))
        for year in YEARS:
            run("INSERT INTO year VALUES ('ash', ?, 0, 0, NULL)", (year,))

    def all(self, text, *values):
        return self.conn.execute(text, values).fetchall()

    def known(self):
        self.all("SELECT start, carried FROM account WHERE name = ?", "ash")
        self.all("SELECT form FROM account_form WHERE account = ?", "ash")

    def lines(self):
        self.all("SELECT cal_year, lookback, opening, turn FROM year WHERE account = ? ORDER BY cal_year", "ash")

    def calendar(self, year):
        self.all("SELECT cal_year FROM calendar_year WHERE cal_year = ?", year)
        self.all("SELECT day FROM holiday WHERE cal_year = ? ORDER BY day", year)
        self.all("SELECT day FROM added_holiday WHERE cal_year = ? ORDER BY day", year)

    def report(self, year, quarter):
        self.known()
        self.all("SELECT cents FROM reported WHERE account = ? AND cal_year = ? AND quarter = ?", "ash", year, quarter)
        self.conn.execute("INSERT INTO reported VALUES (?, ?, ?, ?)", ("ash", year, quarter, 1_250_000))

    def pay(self, number, day):
        self.known()
        self.all("SELECT paid, for_day, cents, voided FROM payment WHERE account = ? AND payment = ?", "ash", number)
        self.lines()
        self.conn.execute("INSERT INTO payment VALUES (?, ?, ?, ?, ?, 0)", ("ash", number, day, day, 1_000))

    def post(self, number, day, year):
        """A run, the day sums of its month, and the month's row in place of the one before."""
        self.known()
        self.all("SELECT payday, fit, ss, medicare, voided FROM run WHERE account = ? AND run = ?", "ash", number)
        self.lines()
        self.lines()
        for other in range(year, YEARS[-1] + 2):
            self.calendar(other)
        self.conn.execute("INSERT INTO run VALUES (?, ?, ?, ?, ?, ?, 0)", ("ash", number, day, 100_000, 0, 0))
        first = day - day % 30
        sums = self.all(
            "SELECT payday, fit, ss, medicare FROM run WHERE account = ? AND payday >= ? AND payday <= ? AND voided = 0"
            " ORDER BY payday, run", "ash", first, first + 29)
        total = sum(row[1] for row in sums)
        self.all("SELECT first_day, last_day, rule, cents, due FROM bucket WHERE account = ? AND first_day >= ?"
                 " AND first_day <= ? ORDER BY first_day", "ash", first, first + 29)
        self.conn.execute("DELETE FROM bucket WHERE account = ? AND first_day >= ? AND first_day <= ?", ("ash", first, first + 29))
        self.conn.execute("INSERT INTO bucket VALUES (?, ?, ?, 0, ?, ?)", ("ash", first, first + 29, total, first + 45))

    def due_list(self, first, last):
        """The rows of a quarter, and for each the payments for its days."""
        self.known()
        self.lines()
        rows = self.all("SELECT first_day, last_day, rule, cents, due FROM bucket WHERE account = ? AND first_day >= ?"
                        " AND first_day <= ? ORDER BY first_day", "ash", first, last)
        self.all("SELECT paid, for_day, cents FROM payment WHERE account = ? AND for_day >= ? AND for_day <= ?"
                 " AND voided = 0 ORDER BY for_day, payment", "ash", first, last)
        self.calendar(2018)
        self.calendar(2019)
        return rows

    def one_by_one(self, calls):
        for call in calls:
            self.conn.execute("BEGIN IMMEDIATE")
            call()
            self.conn.execute("COMMIT")

    def together(self, calls):
        for place in range(0, len(calls), 1_000):
            self.conn.execute("BEGIN IMMEDIATE")
            for call in calls[place:place + 1_000]:
                call()
            self.conn.execute("COMMIT")


def day_number(rng):
    return (some_day(rng) - datetime.date(1970, 1, 1)).days


def python_pay(first, count):
    def made(desk):
        rng = random.Random(2)
        return [lambda number=number, day=day_number(rng): desk.pay(number, day) for number in range(first, first + count)]
    return made


def python_post(first, count):
    def made(desk):
        rng = random.Random(2)
        days = [some_day(rng) for _ in range(count)]
        return [lambda number=first + place, day=day: desk.post(number, (day - datetime.date(1970, 1, 1)).days, day.year)
                for place, day in enumerate(days)]
    return made


def python_due(desk):
    first = (datetime.date(2018, 4, 1) - datetime.date(1970, 1, 1)).days
    return [lambda: desk.due_list(first, first + 90)] * 100


def figures(bench, start):
    reports = [f"report ash {year}Q{quarter} 12500.00" for year in range(2024, 2049) for quarter in range(1, 5)]
    calls = [(year, quarter) for year in range(2024, 2049) for quarter in range(1, 5)]
    bench.asked("100 figures reported", start, reports)
    bench.by_python(lambda desk: [], lambda desk: [lambda key=key: desk.report(*key) for key in calls], 100)


def hundred(bench, start, have, name, one, by_python):
    """A hundred more of something of which there are so many. Gives what was done before."""
    rng = random.Random(1)
    before = start + [one(rng, number) for number in range(1, have + 1)]
    more = [one(rng, number) for number in range(have + 1, have + 101)]
    bench.asked(f"100 {name} beside {have}", before, more)
    bench.by_python(by_python(1, have), by_python(have + 1, 100), 100)
    return before


def runs(bench, start, have):
    rng = random.Random(2)
    before = hundred(bench, start, have, "runs posted", post, python_post)
    more = [post(rng, number, [2024]) for number in range(have + 1, have + 101)]
    bench.asked(f"100 runs posted into a year after {have}", before, more)
    bench.asked(f"100 due lists beside {have} runs", before, ["due ash 2018Q2 2018-06-30"] * 100)
    bench.by_python(python_post(1, have), python_due, 100)


def main():
    programs = programs_of(sys.argv[1:])
    print(f"{'microseconds a request':50} {'memory file':>11} {'file':>11}")
    with contextlib.ExitStack() as stack:
        places = ("/dev/shm", None)
        bench = Bench(programs, [stack.enter_context(tempfile.TemporaryDirectory(dir=place)) for place in places])
        start = list(setting_up())
        figures(bench, start)
        for have in (100, 20_000 - 200):
            hundred(bench, start, have, "payments", pay, python_pay)
        for have in (100, 2_000, 20_000 - 200):
            runs(bench, start, have)
        rng = random.Random(1)
        bench.asked("20,000 runs one by one", start, [post(rng, number) for number in range(1, 20_001)])
        bench.by_python(lambda desk: [], python_post(1, 20_000), 20_000)


if __name__ == "__main__":
    main()
