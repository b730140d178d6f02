#!/usr/bin/env python3
"""Whether what is paid in full by the day to pay by is ever short or late.

It makes seeded desks (accounts on both forms, monthly and semiweekly, small and large pay runs, shortfalls, next-day deposits), asks what is
due as of a day, and pays what is left of each deposit by its day to pay by. Then it posts pay runs of later paydays, outside the deposit
periods of what was due, and asks again as of many days: no deposit that was paid by its day may be short or late.
`bench/paid_in_time.py [PROGRAM [DESKS [SEED]]]` takes the program, how many desks, and the seed.
"""
import datetime
import os
import random
import re
import sys
import tempfile

from office import TOP, Office, program_of

DAY = datetime.timedelta(1)
YEARS = (2024, 2025)
LAST = datetime.date(YEARS[0], 12, 31)


def holidays(year):
    """The legal holidays of a year."""
    with open(f"{TOP}/examples/holidays/{year}", encoding="utf-8") as lines:
        return [line[:10] for line in lines if line[:4] == str(year)]


def cents_of(amount):
    return int(amount.replace(".", ""))


def money(cents):
    return f"{cents // 100}.{cents % 100:02}"


def close_of(day):
    """The last day of the Wednesday to Friday or the Saturday to Tuesday that holds the day."""
    while day.weekday() not in (1, 4):
        day += DAY
    return day


def return_last(form, first):
    """The last day of the return period of a deposit."""
    if form == "943":
        return datetime.date(first.year, 12, 31)
    month = 3 * ((first.month + 2) // 3)
    return datetime.date(first.year + month // 12, month % 12 + 1, 1) - DAY


class Row:
    """A row of an agenda."""

    def __init__(self, line):
        words = line.split()
        self.account, self.form, self.rule, self.verdict = words[1], words[2], words[5], words[10]
        self.due, self.first, self.last, self.pay_by = (datetime.date.fromisoformat(words[it]) for it in (0, 3, 4, 9))
        self.amount, self.paid, self.left = (cents_of(words[it]) for it in (6, 7, 8))

    def key(self):
        return self.account, self.first

    def period_end(self):
        """The last day of its deposit period, or a later one."""
        return close_of(self.last) if self.rule == "next-day" else self.last


def rows_of(text):
    return [Row(line) for line in text.split("\n")[1:-2]]


def chosen_amount(chance):
    """An amount of the kind that makes returns small, deposits usual or next-day ones due."""
    return chance.choice([chance.randint(1, 60_000), chance.randint(1, 900_000), chance.randint(1, 4_000_000), chance.randint(9_000_000, 12_000_000)])


class Trial:
    """One desk."""

    def __init__(self, program, folder, seed):
        self.chance = random.Random(seed)
        self.file = f"{folder}/{seed}.db"
        self.program = program
        self.numbers = {}
        self.payments = []

    def next_number(self, account):
        self.numbers[account] = self.numbers.get(account, 0) + 1
        return self.numbers[account]

    def ask(self, lines):
        office = Office(self.program, self.file, len(lines))
        answers = office.ask(lines)
        office.close()
        return answers

    def pay(self, account, paid, day, cents):
        """A payment as a request; it is kept in mind."""
        self.payments.append((account, paid, day, cents))
        return f"pay {account} {self.next_number(account)} {paid} {day} {money(cents)}"

    def paid_by(self, row, first, last, day):
        return sum(cents for account, paid, of, cents in self.payments if account == row.account and first <= of <= last and paid <= day)

    def begin(self):
        """Accounts with pay runs up to the as-of day, and some payments."""
        chance = self.chance
        self.as_of = datetime.date(YEARS[0], 1, 10) + chance.randint(0, 400) * DAY
        lines = [f"calendar {year} {' '.join(holidays(year))}" for year in (*YEARS, YEARS[-1] + 1)]
        self.accounts = [f"a{it}" for it in range(chance.randint(1, 3))]
        for account in self.accounts:
            form, carried = chance.choice(["", " 943"]), chance.choice(["", "", " carried"])
            lines += [f"enrol {account} {YEARS[0]}-01-01{carried}{form}", f"open {account} {YEARS[0]}"]
            for _ in range(chance.randint(1, 8)):
                payday = datetime.date(YEARS[0], 1, 1) + chance.randint(0, 365) * DAY
                if payday <= min(self.as_of, LAST):
                    cents = chosen_amount(chance)
                    lines.append(f"post {account} {self.next_number(account)} {payday} {money(cents)}")
                    if chance.random() < 0.4:
                        share = chance.choice([cents, cents * 99 // 100, cents // 2, cents - 5_000])
                        paid = min(payday + chance.randint(1, 40) * DAY, self.as_of)
                        if share > 0:
                            lines.append(self.pay(account, paid, payday, share))
        return lines

    def agenda(self, as_of):
        return f"agenda {YEARS[0]}-01-01 {YEARS[1]}-12-31 {as_of}"

    def pay_in_time(self, rows):
        """Pays what is left of each row by its day to pay by."""
        lines = []
        for row in rows:
            missing = row.amount - self.paid_by(row, row.first, row.last, row.pay_by)
            if missing > 0:
                day = row.pay_by - self.chance.choice([0, 0, 0, 1, 5]) * DAY
                day = max(day, datetime.date(2001, 1, 1))
                lines.append(self.pay(row.account, day, row.first, missing))
        return lines

    def later_runs(self, rows):
        """Pay runs of later paydays, outside the deposit periods of the rows."""
        lines = []
        for account in self.accounts:
            for _ in range(self.chance.randint(1, 6)):
                payday = self.as_of + self.chance.randint(1, 120) * DAY
                within = any(it.account == account and it.first <= payday <= it.period_end() for it in rows)
                if payday <= LAST and not within:
                    lines.append(f"post {account} {self.next_number(account)} {payday} {money(chosen_amount(self.chance))}")
        return lines

    def is_paid(self, row):
        """Whether it is paid in time: where that is the due date of its return, all that is owed for the return is."""
        if row.verdict != "with-return" or self.as_of <= return_last(row.form, row.first):
            return True
        owed = [it for it in self.rows if it.account == row.account and return_last(row.form, it.first) == return_last(row.form, row.first)]
        return all(self.paid_by(it, it.first, it.last, row.pay_by) >= it.amount for it in owed)

    def run(self):
        """How many rows were looked at; the desk's end where one of them is missed."""
        self.rows = rows_of(self.ask([*self.begin(), self.agenda(min(self.as_of, datetime.date(YEARS[1], 12, 31)))])[-1])
        lines = [*self.pay_in_time(self.rows), *self.later_runs(self.rows)]
        days = [self.as_of + self.chance.randint(-30, 200) * DAY for _ in range(6)]
        answers = self.ask([*lines, *map(self.agenda, days)])
        bad = [(line, it) for line, it in zip(lines, answers) if not re.match(r"done|already|\d", it)]
        if bad:
            sys.exit(f"{self.file}: {bad}")
        looked = 0
        for day, text in zip(days, answers[len(lines) :]):
            now = {it.key(): it for it in rows_of(text)}
            for row in filter(self.is_paid, self.rows):
                if row.verdict == "short" and day < row.pay_by:
                    continue
                looked += 1
                found = now[row.key()]
                if (found.last, found.amount, found.due) != (row.last, row.amount, row.due) or found.verdict in ("short", "late"):
                    sys.exit(f"{self.file}: {vars(row)} is {vars(found)} as of {day}")
        os.remove(self.file)
        return looked


def main():
    program = program_of(sys.argv[1:])
    desks = int(sys.argv[2]) if len(sys.argv) > 2 else 200
    seed = int(sys.argv[3]) if len(sys.argv) > 3 else 1
    with tempfile.TemporaryDirectory() as folder:
        looked = sum(Trial(program, folder, seed + it).run() for it in range(desks))
    print(f"{desks} desks, {looked} verdicts on deposits that were paid by their day: none is short or late")


if __name__ == "__main__":
    main()
