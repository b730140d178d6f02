#!/usr/bin/env python3
"""Random requests to the desk beside a plain reading of the rules, which computes everything anew.

It makes seeded lists of requests (several accounts on both forms, late pay runs, voids, openings, added holidays, corrections of all
kinds, nonsense), asks `ftd serve` over a new file, then asks it a thousand times what is due, what is owed and what counts for nothing
over all accounts, and compares each answer and, at the end, each row of each table, which Python's sqlite3 reads from the file. Then it
asks with commands what is due over all accounts and what is kept, compares each text, and looks that each command left every row of
every table; and it corrects with commands that give no number, and compares what they print and the rows that they leave.
`bench/desk.py [PROGRAM [COUNT SEED..]]` takes the program, how many requests a list has, and the seeds.
"""
import contextlib
import datetime
import os
import random
import re
import sqlite3
import subprocess
import sys
import tempfile

from office import Office, program_of

DAY = datetime.timedelta(1)

# The answer to a change of an account's liability, as the reading gives it.
CHANGED = re.compile(r"^(\S+)\.\.(\S+) -(\d+) \+(\d+)$")


def date(text):
    return datetime.date.fromisoformat(text)


def money(cents):
    return f"{cents // 100}.{cents % 100:02}"


def cents_of(amount):
    return int(amount.replace(".", ""))


def number(day):
    return (day - datetime.date(1970, 1, 1)).days


def quarter_of(day):
    return (day.year, (day.month + 2) // 3)


def first_of(quarter):
    return datetime.date(quarter[0], 3 * quarter[1] - 2, 1)


def next_quarter(quarter):
    return (quarter[0] + 1, 1) if quarter[1] == 4 else (quarter[0], quarter[1] + 1)


def quarter_before(quarter):
    return (quarter[0] - 1, 4) if quarter[1] == 1 else (quarter[0], quarter[1] - 1)


def last_of(quarter):
    return first_of(next_quarter(quarter)) - DAY


def name_of(quarter):
    return f"{quarter[0]}Q{quarter[1]}"


def month_end(day):
    after = day.replace(day=28) + 4 * DAY
    return after.replace(day=1) - DAY


def close(day):
    """The last day of the run of days from Wednesday to Friday, or from Saturday to Tuesday."""
    return day + (4 - day.weekday()) * DAY if day.weekday() in (2, 3, 4) else day + ((1 - day.weekday()) % 7) * DAY


def opens(day):
    end = close(day)
    return end - 2 * DAY if end.weekday() == 4 else end - 3 * DAY


def lines_of(head, rows):
    return "".join(f"{line}\n" for line in [head, *rows])


class Refused(Exception):
    pass


def refuse(number, name, what=""):
    raise Refused(f"refused {number} {name}{' ' if what != '' else ''}{what}")


def first_end(cents, first):
    """What stands behind an amount in force: the one that was first reported, where that is another."""
    return "" if cents == first else f" first {money(first)}"


def is_kept(kept, key, content, *differs):
    """Whether the same is kept; refuses what differs from it."""
    if key in kept and kept[key] != content:
        refuse(*differs)
    return key in kept


class Desk:
    def __init__(self):
        self.accounts, self.calendars, self.added = {}, {}, set()
        self.reported, self.years_reported, self.open = {}, {}, {}
        self.runs, self.payments = {}, {}
        # the corrections of figures, of accounts and of days, each by its number
        self.corrected, self.moved, self.changed = {}, {}, {}

    # ---- what is in force: the last correction, or what was first given

    def account(self, name):
        start, carried, form = self.accounts[name]
        return (*[(start, carried), *self.moved.get(name, [])][-1], form)

    def figures(self, kept):
        return {key: [cents, *self.corrected.get(key, [])][-1] for key, cents in kept.items()}

    def is_given(self, day):
        return day in self.added or day in self.calendars.get(day.year, ())

    def is_holiday(self, day):
        return self.is_given(day) and [True, *self.changed.get(day, [])][-1]

    # ---- business days

    def is_business(self, day):
        return day.weekday() < 5 and not self.is_holiday(day)

    def on(self, day):
        while not self.is_business(day):
            day += DAY
        return day

    def nth(self, day, count):
        while count:
            day += DAY
            count -= self.is_business(day)
        return day

    # ---- the history of an account

    def liability(self, name):
        sums = {}
        for (owner, _), run in self.runs.items():
            if owner == name and not run["voided"]:
                sums[run["payday"]] = sums.get(run["payday"], 0) + sum(run["amounts"])
        return {day: cents for day, cents in sums.items() if cents}

    def lookback(self, name, year, figures=None):
        """The lookback total of a year, by the figures in force, or as these are given."""
        figures = figures or self.figures
        start, _, form = self.account(name)
        if form == "943":
            if datetime.date(year - 2, 12, 31) < start:
                return 0
            if (name, year - 2) not in self.years_reported:
                refuse(25, "YearMissing", year - 2)
            return figures(self.years_reported)[name, year - 2]
        total, quarter = 0, (year - 2, 3)
        for _ in range(4):
            if last_of(quarter) >= start:
                if (name, quarter) not in self.reported:
                    refuse(17, "QuarterMissing", name_of(quarter))
                total += figures(self.reported)[name, quarter]
            quarter = next_quarter(quarter)
        return total

    def lines(self, name, sums):
        lines, turned = {}, False
        for year in sorted(self.open.get(name, ())):
            look = self.lookback(name, year)
            carried = self.account(name)[1] and not lines
            semiweekly = look > 5_000_000 or carried or turned
            turn = None
            if not semiweekly:
                for day in sorted(d for d in sums if d.year == year):
                    month = [sums[d] for d in sums if (d.year, d.month) == (year, day.month) and d <= day]
                    if sum(month) >= 10_000_000:
                        turn = day
                        break
            lines[year] = (look, carried, semiweekly, turn)
            turned = turn is not None
        return lines

    def frame(self, form, line, day):
        """The first and the last day of the deposit period of a day, and whether it is semiweekly."""
        look, carried, semiweekly, turn = line
        year_first, year_last = datetime.date(day.year, 1, 1), datetime.date(day.year, 12, 31)
        if semiweekly or (turn and day > turn):
            first, last = opens(day), close(day)
            if form == "941":
                first, last = max(first, first_of(quarter_of(day))), min(last, last_of(quarter_of(day)))
            if not semiweekly:
                first = max(first, turn + DAY)
            return max(first, year_first), min(last, year_last), True
        last = month_end(day)
        return day.replace(day=1), min(last, turn) if turn else last, False

    def obligations(self, name):
        if name not in self.accounts:
            return []
        sums = self.liability(name)
        lines = self.lines(name, sums)
        form = self.accounts[name][2]
        frames = {}
        for day in sorted(sums):
            if day.year in lines:
                first, last, semiweekly = self.frame(form, lines[day.year], day)
                frames.setdefault((first, last, semiweekly), []).append(day)
        rows = []
        for (first, last, semiweekly), days in sorted(frames.items()):
            begin, held = first, 0
            for day in days:
                held += sums[day]
                if held >= 10_000_000:
                    rows.append((begin, day, "next-day", held, self.nth(day, 1)))
                    begin, held = day + DAY, 0
            if held:
                due = self.nth(close(last), 3) if semiweekly else self.on(month_end(last) + 15 * DAY)
                rows.append((begin, last, "semiweekly" if semiweekly else "monthly", held, due))
        return rows

    # ---- due lists

    def return_last(self, form, quarter):
        return datetime.date(quarter[0], 12, 31) if form == "943" else last_of(quarter)

    def return_due(self, form, quarter):
        day = datetime.date(quarter[0] + 1, 1, 31) if form == "943" else month_end(last_of(quarter) + DAY)
        return self.on(day)

    def makeup(self, form, rule, last, due):
        back = self.return_due(form, quarter_of(last))
        if rule == "monthly":
            return back
        day = month_end(due) + 15 * DAY
        while day.weekday() not in (2, 4):
            day += DAY
        return self.on(min(back, day))

    def paid(self, name, first, last, *by):
        return sum(
            p["cents"]
            for (owner, _), p in self.payments.items()
            if owner == name and not p["voided"] and first <= p["for"] <= last and all(p["paid"] <= day for day in by)
        )

    def due_rows(self, name, quarter, as_of):
        form, rows = self.accounts[name][2], self.obligations(name)
        if form == "943":
            first, last, before = datetime.date(quarter[0], 1, 1), datetime.date(quarter[0], 12, 31), None
        else:
            first, last = first_of(quarter), last_of(quarter)
            before = self.figures(self.reported).get((name, quarter_before(quarter)))
        total = sum(cents for day, cents in self.liability(name).items() if first <= day <= last)
        next_day = any(row[2] == "next-day" and first <= row[0] <= last for row in rows)
        small = not next_day and (total < 250_000 or (before is not None and before < 250_000))
        back = self.return_due(form, quarter)
        back_paid = self.paid(name, first, last, back) >= total
        for begin, end, rule, cents, due in rows:
            if quarter_of(begin) != quarter:
                continue
            makeup = self.makeup(form, rule, end, due)
            short = cents - self.paid(name, begin, end, due, as_of)
            tolerated = short <= 10_000 or 50 * short <= cents
            if short <= 0:
                verdict = "met"
            elif small and (as_of <= back or back_paid):
                verdict = "with-return"
            elif as_of <= due:
                verdict = "open"
            elif tolerated and self.paid(name, begin, end, makeup, as_of) >= cents:
                verdict = "made-up"
            elif tolerated and as_of <= makeup:
                verdict = "short"
            else:
                verdict = "late"
            yield (begin, end, rule, money(cents), due, makeup, money(self.paid(name, begin, end, as_of)), verdict)

    # ---- requests

    def known(self, name):
        if name not in self.accounts:
            refuse(7, "UnknownAccount")
        return self.account(name)

    def named(self, name):
        if not re.fullmatch(r"[a-z][a-z0-9-]{0,19}", name):
            refuse(1, "BadName")

    def opened(self, name, year):
        if year not in self.open.get(name, ()):
            refuse(18, "YearNotOpen", year)

    def owing(self, name):
        """The obligations, and the opening and the turn of each open year."""
        lines = self.lines(name, self.liability(name)) if name in self.accounts else {}
        return self.obligations(name), {year: line[2:] for year, line in lines.items()}

    def posted(self, name, day, before):
        """How the obligations differ from those before, or the day where none does."""
        before, schedules = before
        after, now = self.owing(name)
        gone, come = set(before) - set(after), set(after) - set(before)
        self.added_last = sorted(come)
        self.years_last = [(year, *now[year]) for year in sorted(now) if now[year] != schedules.get(year)]
        days = gone | come
        first = min((row[0] for row in days), default=day)
        last = max((row[1] for row in days), default=day)
        return f"{first}..{last} -{len(gone)} +{len(come)}"

    def ask(self, line):
        words = line.split(" ")
        try:
            return getattr(self, "ask_" + words[0].replace("-", "_"))(*words[1:])
        except Refused as refusal:
            return str(refusal)

    def ask_enrol(self, name, start, *flags):
        self.named(name)
        content = (date(start), "carried" in flags, "943" if "943" in flags else "941")
        if content[0].year > 2098:
            refuse(3, "BadDay")
        if is_kept(self.accounts, name, content, 8, "AccountDiffers"):
            return "already"
        self.accounts[name] = content
        return "done"

    def ask_calendar(self, year, *days):
        year, days = int(year), [date(day) for day in days]
        if not 2001 <= year <= 2099:
            refuse(2, "BadYear")
        if len(days) > 60 or days != sorted(set(days)) or any(day.year != year for day in days):
            refuse(5, "BadCalendar")
        if is_kept(self.calendars, year, days, 9, "CalendarDiffers"):
            return "already"
        self.calendars[year] = days
        return "done"

    def ask_add_holiday(self, day):
        day = date(day)
        if not 2001 <= day.year <= 2099:
            refuse(3, "BadDay")
        given = self.calendars.get(day.year)
        if self.is_given(day):
            return "already"
        if given is None:
            refuse(16, "CalendarMissing", day.year)
        if len(given) + sum(other.year == day.year for other in self.added) >= 60:
            refuse(5, "BadCalendar")
        self.added.add(day)
        return "done"

    def figure_asked(self, name, rest):
        """Whether a year's figure is asked for, its year or quarter, and the amount."""
        self.named(name)
        yearly = rest[0] == "year"
        key = int(rest[1]) if yearly else (int(rest[0][:4]), int(rest[0][5]))
        cents = round(float(rest[-1]) * 100)
        if not 1999 <= (key if yearly else key[0]) <= 2098:
            refuse(2, "BadYear")
        if cents > 99_999_999_999:
            refuse(4, "BadCents")
        return yearly, key, cents

    def ask_report(self, name, *rest):
        yearly, key, cents = self.figure_asked(name, rest)
        start, _, form = self.known(name)
        if (form == "943") != yearly:
            refuse(23, "WrongForm")
        kept = self.years_reported if yearly else self.reported
        if is_kept(kept, (name, key), cents, *((24, "YearDiffers") if yearly else (10, "QuarterDiffers"))):
            return "already"
        if (datetime.date(key, 12, 31) if yearly else last_of(key)) < start:
            refuse(15, "BeforeStart")
        kept[name, key] = cents
        return "done"

    def ask_correct_report(self, name, *rest):
        yearly, key, cents = self.figure_asked(name, rest)
        number = self.numbered(rest[-2])
        _, _, form = self.known(name)
        if (form == "943") != yearly:
            refuse(23, "WrongForm")
        if (name, key) not in (self.years_reported if yearly else self.reported):
            refuse(*((25, "YearMissing", key) if yearly else (17, "QuarterMissing", name_of(key))))
        before, kept = self.owing(name), self.corrected.get((name, key), [])
        if self.is_corrected(kept, number, cents):
            return "already"
        self.corrected[name, key] = self.with_next(kept, number, cents)
        return self.posted(name, datetime.date(key, 1, 1) if yearly else first_of(key), before)

    def ask_change_holiday(self, day, number, said):
        day, number, said = date(day), int(number), said == "yes"
        if not 2001 <= day.year <= 2099:
            refuse(3, "BadDay")
        self.numbered(number)
        if day.year not in self.calendars:
            refuse(16, "CalendarMissing", day.year)
        if not self.is_given(day):
            refuse(28, "NoHoliday")
        kept = self.changed.get(day, [])
        if self.is_corrected(kept, number, said):
            return "already"
        self.changed[day] = self.with_next(kept, number, said)
        return "done"

    def ask_correct_account(self, name, number, start, *flags):
        self.named(name)
        content = (date(start), "carried" in flags)
        if content[0].year > 2098:
            refuse(3, "BadDay")
        number = self.numbered(number)
        self.known(name)
        kept = self.moved.get(name, [])
        if self.is_corrected(kept, number, content):
            return "already"
        if self.open.get(name) or any(owner == name for owner, _ in [*self.reported, *self.years_reported]):
            refuse(29, "AccountInUse")
        self.moved[name] = self.with_next(kept, number, content)
        return "done"

    # ---- the corrections of a figure, of an account or of a day, the first of which has number 1

    def numbered(self, number):
        if not 1 <= int(number) <= 999_999_999:
            refuse(6, "BadNumber")
        return int(number)

    def is_corrected(self, kept, number, content):
        """Whether it was corrected so before, under that number."""
        if number <= len(kept) and kept[number - 1] != content:
            refuse(26, "CorrectionDiffers")
        return number <= len(kept)

    def with_next(self, kept, number, content):
        if number != len(kept) + 1:
            refuse(27, "NumberSkipped", len(kept))
        return [*kept, content]

    # ---- years, runs and payments

    def ask_open(self, name, year):
        year = int(year)
        self.named(name)
        if not 2001 <= year <= 2098:
            refuse(2, "BadYear")
        start, _, _ = self.known(name)
        years = self.open.get(name, set())
        if year in years:
            return "already"
        if year < start.year:
            refuse(15, "BeforeStart")
        for needed in (year, year + 1):
            if needed not in self.calendars:
                refuse(16, "CalendarMissing", needed)
        self.lookback(name, year)
        if years and year - 1 not in years:
            refuse(18, "YearNotOpen", year - 1)
        self.open.setdefault(name, set()).add(year)
        return "done"

    def ask_post(self, name, number, payday, *amounts):
        number, payday = int(number), date(payday)
        amounts = tuple(round(float(amount) * 100) for amount in amounts)
        amounts += (0,) * (3 - len(amounts))
        self.named(name)
        if not 2001 <= payday.year <= 2098:
            refuse(3, "BadDay")
        if max(amounts) > 99_999_999_999:
            refuse(4, "BadCents")
        if not 1 <= number <= 999_999_999:
            refuse(6, "BadNumber")
        start, _, _ = self.known(name)
        if (name, number) in self.runs:
            run = self.runs[name, number]
            if (run["payday"], run["amounts"]) != (payday, amounts):
                refuse(11, "RunDiffers")
            return "already"
        if payday < start:
            refuse(15, "BeforeStart")
        self.opened(name, payday.year)
        before = self.owing(name)
        self.runs[name, number] = {"payday": payday, "amounts": amounts, "voided": False}
        return self.posted(name, payday, before)

    def standing(self, name, number, kept, *unknown):
        """The run or the payment of that number that is to be voided; nothing if it is."""
        number = int(number)
        self.named(name)
        if not 1 <= number <= 999_999_999:
            refuse(6, "BadNumber")
        self.known(name)
        if (name, number) not in kept:
            refuse(*unknown)
        return None if kept[name, number]["voided"] else kept[name, number]

    def ask_void(self, name, number):
        run = self.standing(name, number, self.runs, 13, "UnknownRun")
        if not run:
            return "already"
        before = self.owing(name)
        run["voided"] = True
        return self.posted(name, run["payday"], before)

    def ask_pay(self, name, number, paid, for_day, amount):
        number, content = int(number), (date(paid), date(for_day), round(float(amount) * 100))
        self.named(name)
        if not (2001 <= content[0].year <= 2099 and 2001 <= content[1].year <= 2098):
            refuse(3, "BadDay")
        if not 1 <= content[2] <= 99_999_999_999:
            refuse(4, "BadCents")
        if not 1 <= number <= 999_999_999:
            refuse(6, "BadNumber")
        start, _, _ = self.known(name)
        if (name, number) in self.payments:
            kept = self.payments[name, number]
            if (kept["paid"], kept["for"], kept["cents"]) != content:
                refuse(12, "PaymentDiffers")
            return "already"
        if content[1] < start:
            refuse(15, "BeforeStart")
        self.opened(name, content[1].year)
        self.payments[name, number] = dict(zip(("paid", "for", "cents"), content), voided=False)
        return "done"

    def ask_void_pay(self, name, number):
        payment = self.standing(name, number, self.payments, 14, "UnknownPayment")
        if not payment:
            return "already"
        payment["voided"] = True
        return "done"

    def ask_status(self, name, day):
        day = date(day)
        self.named(name)
        if not 2001 <= day.year <= 2098:
            refuse(3, "BadDay")
        self.known(name)
        self.opened(name, day.year)
        lines = self.lines(name, self.liability(name))
        look, carried, semiweekly, turn = lines[day.year]
        kind = "semiweekly" if semiweekly or (turn and day > turn) else "monthly"
        before = lines.get(day.year - 1, (0, False, False, None))[3]
        if kind == "monthly" or look > 5_000_000:
            return f"{kind} lookback"
        if before:
            return f"{kind} turned {before}"
        return f"{kind} carried" if carried else f"{kind} turned {turn}"

    def ask_explain(self, name, day):
        schedule = self.ask_status(name, day)
        day, form, sums = date(day), self.known(name)[2], self.liability(name)
        lines = [f"OBLIGATION {name} {day}"]
        for first, last, rule, cents, due in self.obligations(name):
            if first <= day <= last:
                paydays = [it for it in sorted(sums) if first <= it <= last]
                counted = month_end(last) + 15 * DAY if rule == "monthly" else (close(last) if rule == "semiweekly" else last) + DAY
                days = [counted + n * DAY for n in range((due - counted).days + 1)]
                kinds = [["Saturday", "Sunday"][it.weekday() - 5] if it.weekday() > 4 else "business" if self.is_business(it) else "holiday" for it in days]
                paid = sorted((it["for"], number, it) for (owner, number), it in self.payments.items()
                              if owner == name and not it["voided"] and first <= it["for"] <= last)
                lines += [f"{first} {last} {rule:10} {money(cents):>17} {due}", f"{first} {self.ask_status(name, str(first))}", "PAYDAYS"]
                lines += [f"{it} {money(sums[it]):>17} {money(sum(sums[d] for d in paydays if d <= it)):>17}" for it in paydays]
                lines += ["DAYS", *(f"{it} {kind}" for it, kind in zip(days, kinds)), f"RETURN {self.return_due(form, quarter_of(first))}", "PAYMENTS"]
                lines += [f"{it} {money(p['cents']):>17} {p['paid']} {first} {number}" for it, number, p in paid]
        return lines_of(lines[0], lines[1:] or ["none"]) if schedule else ""

    def asked_of_quarter(self, name, quarter):
        quarter = (int(quarter[:4]), int(quarter[5]))
        self.named(name)
        if not 2001 <= quarter[0] <= 2098:
            refuse(2, "BadYear")
        return quarter

    def ask_due(self, name, quarter, as_of):
        quarter, as_of = self.asked_of_quarter(name, quarter), date(as_of)
        if not 2001 <= as_of.year <= 2099:
            refuse(3, "BadDay")
        self.known(name)
        self.opened(name, quarter[0])
        return "".join(" ".join(map(str, row)) + "; " for row in self.due_rows(name, quarter, as_of))

    def ask_schedule_b(self, name, quarter):
        quarter = self.asked_of_quarter(name, quarter)
        if self.known(name)[2] == "943":
            refuse(23, "WrongForm")
        self.opened(name, quarter[0])
        sums = sorted(self.liability(name).items())
        return "".join(f"{day} {money(cents)}; " for day, cents in sums if quarter_of(day) == quarter)

    # ---- what is due over all accounts

    def agenda(self, is_asked, as_of):
        """The rows of all due lists whose due date is asked for, by due date, account and first day, and what is left of each."""
        rows = []
        for name, (_, _, form) in self.accounts.items():
            for quarter in {quarter_of(row[0]) for row in self.obligations(name) if is_asked(row[4])}:
                for first, last, rule, amount, due, makeup, paid, verdict in self.due_rows(name, quarter, as_of):
                    left = max(cents_of(amount) - cents_of(paid), 0)
                    by = makeup if verdict == "short" else due
                    if verdict == "with-return" and as_of > self.return_last(form, quarter):
                        by = self.return_due(form, quarter)
                    if is_asked(due):
                        rows.append((due, name, first, left, f"{form} {first} {last} {rule:10} {amount:>17} {paid:>17}", by, verdict))
        return sorted(rows)

    def agenda_text(self, head, rows):
        lines = [f"{due} {name:20} {columns} {money(left):>17} {by} {verdict}" for due, name, _, left, columns, by, verdict in rows]
        total = f"{'TOTAL':104} {money(sum(row[3] for row in rows)):>17}"
        return "".join(f"{line}\n" for line in [head, *lines, total])

    def within(self, *days):
        if not all(2001 <= day.year <= 2099 for day in days):
            refuse(3, "BadDay")

    def ask_agenda(self, first, last, as_of):
        first, last, as_of = date(first), date(last), date(as_of)
        self.within(first, last, as_of)
        rows = self.agenda(lambda due: first <= due <= last, as_of)
        return self.agenda_text(f"AGENDA {first} {last} AS OF {as_of}", rows)

    def ask_owed(self, as_of, until=None):
        as_of = date(as_of)
        until = date(until) if until else as_of + 7 * DAY
        self.within(until, as_of)
        rows = [row for row in self.agenda(lambda due: due <= until, as_of) if row[3]]
        return self.agenda_text(f"OWED UNTIL {until} AS OF {as_of}", rows)

    # ---- money that counts for nothing

    def unapplied(self, until):
        """Payments for a day of no obligation, and obligations that are paid beyond their amount, by account, first day and number."""
        rows = []
        for name in self.accounts:
            owed = self.obligations(name)
            for first, last, _, cents, _ in owed:
                if self.paid(name, first, last) > cents:
                    rows.append((name, first, 0, last, cents, self.paid(name, first, last), "obligation"))
            for (owner, place), it in self.payments.items():
                if owner == name and not it["voided"] and not any(row[0] <= it["for"] <= row[1] for row in owed):
                    rows.append((name, it["for"], place, it["for"], 0, it["cents"], f"payment {place}"))
        return sorted(row for row in rows if row[1] <= until)

    def ask_unapplied(self, until="2099-12-31"):
        self.within(date(until))
        return lines_of(f"UNAPPLIED UNTIL {until}", [
            f"{name:20} {first} {last} {money(cents):>17} {money(paid):>17} {money(paid - cents):>17} {which}"
            for name, first, _, last, cents, paid, which in self.unapplied(date(until))
        ])

    def note_of_payment(self, name, day):
        """What is said below a payment for the day, once it is recorded."""
        for first, last, _, cents, _ in self.obligations(name):
            if first <= day <= last:
                left = cents - self.paid(name, first, last)
                rest = f"{money(left)} left to pay" if left > 0 else f"{money(-left)} more than its amount" if left else "paid in full"
                return f"note: counts for {first} to {last}, {rest}"
        return "note: counts for no obligation"

    def notes_of_change(self):
        """What is said below a change of an account's liability: the obligations that were added, at most 20, how many more, and the years that
        open otherwise or turn on another day."""
        rows, more = self.added_last[:20], self.added_last[20:]
        notes = [f"note: added {first} to {last}, {rule}, {money(cents)}, due {due}" for first, last, rule, cents, due in rows]
        notes += [f"note: and {len(more)} more"] * bool(more)
        for year, semiweekly, turn in self.years_last:
            monthly = f"semiweekly after {turn}, when 100000.00 was reached" if turn else "monthly"
            notes.append(f"note: {year} is {'semiweekly from its first day' if semiweekly else monthly}")
        return notes

    def difference(self, line):
        """The first field in which a pay run or a payment is another than the one that has its number."""
        verb, name, number, *words = line.split(" ")
        kept = (self.runs if verb == "post" else self.payments)[name, int(number)]
        fields, was = ["payday", "fit", "ss", "medicare"], [str(kept["payday"]), *map(money, kept["amounts"])] if verb == "post" else None
        if verb == "pay":
            fields, was = ["paid", "for", "amount"], [str(kept["paid"]), str(kept["for"]), money(kept["cents"])]
        now = [word if "-" in word else money(round(float(word) * 100)) for word in words] + ["0.00"] * (len(fields) - len(words))
        return next(f"{field} is {new}, posted with {old}" for field, new, old in zip(fields, now, was) if new != old)

    def notes_of_refused(self, lines, answers, known):
        """What is said of the refused records of an import of pay runs: of each kind the first 20, in their order, and how many more there are;
        and in what a run differs from the one that has its number, if it is among those that are known."""
        notes, count = [], {}
        for number, (line, answer) in enumerate(zip(lines, answers), 2):
            if answer.startswith("refused"):
                kind, name, run = tuple(answer.split(" ")[1:3]), *line.split(" ")[1:3]
                count[kind] = count.get(kind, 0) + 1
                differs = f": {self.difference(line)}" if kind[0] == "11" and (name, int(run)) in known else ""
                notes += [f"note: record {number}, {name} run {run}{differs}"] * (count[kind] <= 20)
        return notes + [f"note: and {count[kind] - 20} more records: refused {' '.join(kind)}"
                        for kind in sorted(count, key=lambda kind: int(kind[0])) if count[kind] > 20]

    def imported(self, lines):
        """What an import of pay runs prints, and what is said below its trial and below it: of each account, in the order of their last changes,
        how many obligations it added and the earliest due date among them; then of its refused records."""
        before, known = {name: set(self.obligations(name)) for name in NAMES}, set(self.runs)
        answers, changed_now = [self.ask(line) for line in lines], []
        for line, answer in zip(lines, answers):
            if CHANGED.match(answer):
                name = line.split(" ")[1]
                changed_now = [other for other in changed_now if other != name] + [name]
        refused = [answer for answer in answers if answer.startswith("refused")]
        posted, already = sum(map(bool, map(CHANGED.match, answers))), answers.count("already")
        notes = [f"record {number} {answer}" for number, answer in enumerate(answers, 2) if answer in refused]
        added = {name: set(self.obligations(name)) - before[name] for name in changed_now}
        brought = [f"note: {name}: obligations added: {len(rows)}, earliest due date {min(row[4] for row in rows)}"
                   for name, rows in added.items() if rows]
        below = [brought + self.notes_of_refused(lines, answers, those) for those in (known, self.runs)]
        return [f"posted {posted} already {already} refused {len(refused)} malformed 0", *notes], *below

    def said_below(self, line, answer):
        """What is said below the answer to a command, but for what is due or kept."""
        verb, *words = line.split(" ")
        if CHANGED.match(answer):
            return self.notes_of_change()
        if verb == "pay" and answer == "done":
            return [self.note_of_payment(words[0], date(words[3]))]
        if answer.startswith(("refused 11", "refused 12")):
            return [f"hint: {self.difference(line)}"]
        rows = len(self.unapplied(date("2099-12-31"))) if verb == "owed" and answer.startswith("OWED") else 0
        return [f"hint: money that counts for nothing, listed by ftd unapplied --db FILE: {rows}"] if rows else []

    # ---- what is kept

    def ask_accounts(self):
        rows = [(name, *self.account(name)) for name in sorted(self.accounts)]
        return lines_of("ACCOUNTS", [f"{name:20} {form} {start}{' carried' * carried}" for name, start, carried, form in rows])

    def ask_years(self, name):
        self.named(name)
        self.known(name)
        return lines_of(f"YEARS {name}", [
            f"{year} {money(look):>17} {'semiweekly' if semiweekly else 'monthly'}{' carried' * carried}{f' turned {turn}' if turn else ''}"
            + first_end(look, self.lookback(name, year, lambda as_first_reported: as_first_reported))
            for year, (look, carried, semiweekly, turn) in sorted(self.lines(name, self.liability(name)).items())
        ])

    def ask_reported(self, name):
        self.named(name)
        yearly = self.known(name)[2] == "943"
        first = self.years_reported if yearly else self.reported
        kept = sorted((key, cents) for (owner, key), cents in self.figures(first).items() if owner == name)
        return lines_of(f"REPORTED {name}", [
            f"{key if yearly else name_of(key)} {money(cents):>17}{first_end(cents, first[name, key])}" for key, cents in kept
        ])

    def ask_holidays(self, year):
        if not 2001 <= int(year) <= 2099:
            refuse(2, "BadYear")
        if int(year) not in self.calendars:
            refuse(16, "CalendarMissing", year)
        given = [(day, "") for day in sorted(self.calendars[int(year)])]
        added = [(day, " added") for day in sorted(self.added) if day.year == int(year)]
        return lines_of(f"HOLIDAYS {year}", [f"{day}{mark}{'' if self.is_holiday(day) else ' taken-back'}" for day, mark in given + added])

    def kept_of(self, kept, day, name, quarter):
        """The runs or payments of a quarter, by day and number."""
        quarter = self.asked_of_quarter(name, quarter)
        self.known(name)
        return sorted((it[day], number, it) for (owner, number), it in kept.items() if owner == name and quarter_of(it[day]) == quarter)

    def ask_runs(self, name, quarter, form="text"):
        rows = self.kept_of(self.runs, "payday", name, quarter)
        if form == "csv":
            live = [(number, day, *map(money, run["amounts"])) for day, number, run in rows if not run["voided"]]
            return lines_of("employer,run,payday,fit,ss,medicare", [",".join(map(str, (name, *it))) for it in live])
        amounts = lambda run: " ".join(f"{money(cents):>17}" for cents in run["amounts"])
        return lines_of(f"RUNS {name} {quarter}", [f"{day} {amounts(run)} {number}{' void' * run['voided']}" for day, number, run in rows])

    def ask_payments(self, name, quarter):
        rows = self.kept_of(self.payments, "for", name, quarter)
        owed = self.obligations(name)
        held = lambda day: str(min((row[0] for row in owed if row[0] <= day <= row[1]), default="none"))
        return lines_of(f"PAYMENTS {name} {quarter}", [
            f"{day} {money(it['cents']):>17} {it['paid']} {held(day):10} {number}{' void' * it['voided']}" for day, number, it in rows
        ])

    # ---- tables

    def tables(self):
        """The rows that each table of the database has to hold."""
        owed = {name: self.obligations(name) for name in self.accounts}
        lines = {name: self.lines(name, self.liability(name)) for name in self.accounts}
        rules = ["monthly", "semiweekly", "next-day"]
        corrections = [(owner, key, place, cents) for (owner, key), kept in self.corrected.items() for place, cents in enumerate(kept, 1)]
        return {
            "ftd_meta": [("ftd", 3)],
            "account": [(name, number(start), int(carried)) for name, (start, carried, _) in self.accounts.items()],
            "account_form": [(name, int(form == "943")) for name, (_, _, form) in self.accounts.items()],
            "reported": [(name, *quarter, cents) for (name, quarter), cents in self.reported.items()],
            "reported_year": [(name, year, cents) for (name, year), cents in self.years_reported.items()],
            "calendar_year": [(year,) for year in self.calendars],
            "holiday": [(number(day), year) for year, days in self.calendars.items() for day in days],
            "added_holiday": [(number(day), day.year) for day in self.added],
            "corrected": [(owner, *key, place, cents) for owner, key, place, cents in corrections if isinstance(key, tuple)],
            "corrected_year": [(owner, key, place, cents) for owner, key, place, cents in corrections if isinstance(key, int)],
            "changed_holiday": [
                (number(day), place, int(said), day.year) for day, kept in self.changed.items() for place, said in enumerate(kept, 1)
            ],
            "corrected_account": [
                (name, place, number(start), int(carried))
                for name, kept in self.moved.items()
                for place, (start, carried) in enumerate(kept, 1)
            ],
            "year": [
                (name, year, look, int(semiweekly), turn and number(turn))
                for name in lines
                for year, (look, _, semiweekly, turn) in lines[name].items()
            ],
            "run": [(*key, number(r["payday"]), *r["amounts"], int(r["voided"])) for key, r in self.runs.items()],
            "payment": [
                (*key, number(p["paid"]), number(p["for"]), p["cents"], int(p["voided"])) for key, p in self.payments.items()
            ],
            "bucket": [
                (name, number(first), number(last), rules.index(rule), cents, number(due))
                for name in owed
                for first, last, rule, cents, due in owed[name]
            ],
        }


# ---- random requests

# So many questions over all accounts are asked of the server at the end; so many questions of a seed are asked with a command, on the file
# that the server left, and so much is corrected then.
ASKED = 1_000
QUESTIONS = 16
CORRECTIONS = 8
PAYMENTS = 8
CHANGES = 8
IMPORTED = 150
NAMES = ["ash", "birch", "cedar", "elm", "fir", "oak", "pine", "rye", "nobody", "Bad"]
YEARS = range(2022, 2028)


def some_day(rng, first=2022, last=2027):
    if rng.random() < 0.02:
        return rng.choice(["2000-12-31", "2099-05-05", "2021-06-06", "2030-01-02"])
    return str(datetime.date(rng.randint(first, last), 1, 1) + rng.randrange(365) * DAY)


def amount(rng):
    if rng.random() < 0.01:
        return "999999999.99"
    cents = rng.choice([rng.randrange(300_000), rng.randrange(2_000_000), rng.randrange(9_900_000, 10_100_000), 0, 10_000_000])
    return money(min(cents, 99_999_999_999))


def holidays(rng, year):
    days = sorted(rng.sample(range(365), rng.choice([0, 3, 12, 12, 12, 40])))
    return " ".join(str(datetime.date(year, 1, 1) + day * DAY) for day in days)


def preparing(rng):
    for year in range(2021, 2029):
        yield f"calendar {year} {holidays(rng, year)}".rstrip()
    for name in NAMES[:8]:
        start = rng.choice(["2022-01-01", "2020-01-01", "2023-07-01", "2024-05-01"])
        form = " 943" if rng.random() < 0.3 else ""
        yield f"enrol {name} {start}{' carried' if rng.random() < 0.3 else ''}{form}"
        for place in range(1, rng.choice([1, 1, 2, 3])):
            yield f"correct-account {name} {place} {rng.choice(['2022-01-01', '2021-05-01', '2023-07-01'])}{' carried' * rng.randint(0, 1)}"
        for year in range(2020, 2027):
            figure = rng.choice(["0.00", "2499.99", "2500.00", "12500.00", "12500.01", "50000.00", "50000.01"])
            if form:
                yield f"report {name} year {year} {figure}"
            else:
                for quarter in range(1, 5):
                    yield f"report {name} {year}Q{quarter} {figure if rng.random() < 0.7 else '12500.00'}"
        for year in YEARS:
            yield f"open {name} {year}"


def agenda(rng):
    first = date(some_day(rng))
    days = rng.choice([rng.randrange(30), rng.randrange(30), rng.randrange(400), -1, 0])
    return f"agenda {first} {first + days * DAY} {first + rng.randrange(-60, 240) * DAY}"


def owed(rng):
    as_of = date(some_day(rng))
    return f"owed {as_of} {as_of + rng.choice([7, 7, rng.randrange(-400, 60)]) * DAY}"


def unapplied(rng):
    return f"unapplied {some_day(rng)}"


def kept(rng):
    """A question for what is kept."""
    name, quarter = rng.choice(NAMES), f"{rng.choice([*YEARS, 2000, 2030])}Q{rng.randint(1, 4)}"
    year = rng.choice([*YEARS, 2021, 2028, 2029, 2000, 2100])
    return rng.choice(["accounts", f"years {name}", f"reported {name}", f"holidays {year}", f"runs {name} {quarter}",
                       f"runs {name} {quarter}", f"runs {name} {quarter} csv", f"payments {name} {quarter}", f"payments {name} {quarter}"])


def correction(rng, desk):
    """What is to be put right, and how often it was before: a figure, a day or an account."""
    name, kind = rng.choice(NAMES[:8] * 6 + NAMES), rng.random()
    if kind < 0.6:
        yearly = desk.accounts.get(name, ("", "", "941"))[2] == "943" if rng.random() < 0.97 else rng.random() < 0.5
        year, quarter = rng.randint(2020, 2026), rng.randint(1, 4)
        figure = rng.choice(["0.00", "2499.99", "2500.00", "12500.00", "12500.01", "50000.00", "50000.01", amount(rng)])
        key = year if yearly else (year, quarter)
        words = f"{name} {f'year {year}' if yearly else name_of(key)}"
        return "correct-report", words, len(desk.corrected.get((name, key), [])), figure
    if kind < 0.9:
        given = sorted(desk.added | {day for days in desk.calendars.values() for day in days})
        day = rng.choice(given) if given and rng.random() < 0.95 else date(some_day(rng))
        return "change-holiday", str(day), len(desk.changed.get(day, [])), rng.choice(["yes", "no", "no"])
    start = rng.choice(["2022-01-01", "2021-05-01", "2099-01-01"]) + " carried" * rng.randint(0, 1)
    return "correct-account", name, len(desk.moved.get(name, [])), start


def corrected(rng, desk):
    """A correction under the next number, or under another one."""
    verb, words, count, content = correction(rng, desk)
    number = count + 1 if rng.random() < 0.85 else rng.choice([count, count + 2, 0, 1, 999_999_999, 1_000_000_000])
    return f"{verb} {words} {number} {content}"


def payment(rng, owed):
    """A day, the day that it is paid for and an amount: anything, or what an obligation needs, a little less, or a cent more."""
    if not owed or rng.random() < 0.3:
        for_day = date(some_day(rng))
        return f"{min(for_day + rng.randrange(60) * DAY, datetime.date(2098, 1, 1))} {for_day} {amount(rng)}"
    first, last, _, cents, due = rng.choice(owed)
    short = rng.choice([0, 0, 0, -1, 10_000, 10_001, cents // 50, cents // 50 + 1])
    needed = min(max(cents - short, 1), 99_999_999_999)
    return f"{due + rng.choice([-9, -1, 0, 0, 0, 1, 20]) * DAY} {rng.choice([first, last])} {money(needed)}"


def new_run(rng, posted):
    """A pay run of a number that is most often new."""
    name = rng.choice(NAMES[:8])
    posted.setdefault(name, []).append(len(posted.get(name, [])) + 1)
    return f"post {name} {len(posted[name])} {some_day(rng)} {amount(rng)} {amount(rng)} {amount(rng)}"


def other_run(rng, desk):
    """A pay run that was posted, often with another payday or another amount."""
    (name, number), kept = rng.choice(list(desk.runs.items()))
    fields = [str(kept["payday"]), *map(money, kept["amounts"])]
    place = rng.randrange(5)
    fields[place:place + 1] = [some_day(rng) if place == 0 else amount(rng)] * (place < 4)
    return f"post {name} {number} {' '.join(map(str, fields))}"


def change(rng, desk, posted):
    """A pay run that is posted or voided; now and then the number is one that was used."""
    name = rng.choice(NAMES[:8])
    if posted.get(name) and rng.random() < 0.3:
        return f"void {name} {rng.choice(posted[name])}"
    return other_run(rng, desk) if desk.runs and rng.random() < 0.2 else new_run(rng, posted)


def imported_run(rng, desk, posted):
    """A pay run for an import: most often a new one, else one whose number was used, or one of an employer who is not enrolled."""
    if rng.random() < 0.15:
        return f"post nobody {rng.randint(1, 99)} {some_day(rng)} {amount(rng)} {amount(rng)} {amount(rng)}"
    return other_run(rng, desk) if desk.runs and rng.random() < 0.4 else new_run(rng, posted)


def one(rng, desk, posted, paid):
    name = rng.choice(NAMES[:8] * 6 + NAMES)
    kind = rng.random()
    if kind < 0.35:
        number = rng.choice(posted.get(name, [0])) if rng.random() < 0.1 else len(posted.get(name, [])) + 1
        posted.setdefault(name, []).append(number)
        tail = f" {amount(rng)} {amount(rng)}" if rng.random() < 0.2 else ""
        return f"post {name} {number} {some_day(rng)} {amount(rng)}{tail}"
    if kind < 0.47:
        return f"void {name} {rng.randint(0, len(posted.get(name, [])) + 1)}"
    if kind < 0.6:
        number = len(paid.get(name, [])) + 1
        paid.setdefault(name, []).append(number)
        return f"pay {name} {number} {payment(rng, desk.obligations(name))}"
    if kind < 0.63:
        return f"void-pay {name} {rng.randint(0, len(paid.get(name, [])) + 1)}"
    if kind < 0.69:
        return f"status {name} {some_day(rng)}"
    if kind < 0.73:
        rows = desk.obligations(name)
        return f"explain {name} {rng.choice(rng.choice(rows)[:2]) if rows and rng.random() < 0.7 else some_day(rng)}"
    if kind < 0.76:
        return agenda(rng)
    if kind < 0.77:
        return owed(rng)
    if kind < 0.775:
        return unapplied(rng)
    if kind < 0.82:
        return kept(rng)
    quarter = f"{rng.choice(YEARS)}Q{rng.randint(1, 4)}"
    if kind < 0.9:
        as_of = first_of((int(quarter[:4]), int(quarter[5]))) + rng.randrange(240) * DAY
        return f"due {name} {quarter} {as_of}"
    if kind < 0.94:
        return f"schedule-b {name} {quarter}"
    if kind < 0.95:
        return f"add-holiday {some_day(rng, 2021, 2028)}"
    if kind < 0.985:
        return corrected(rng, desk)
    return rng.choice([f"open {name} {rng.randint(2020, 2029)}", f"report {name} 2023Q1 1.00", f"report {name} year 2023 1.00",
                       f"calendar {rng.randint(2020, 2030)}", f"enrol {name} 2022-01-01"])


def compare_tables(file, desk, where):
    """Compares each row of each table with the reading's."""
    with contextlib.closing(sqlite3.connect(file)) as conn:
        for table, rows in desk.tables().items():
            found = conn.execute(f"SELECT * FROM {table}").fetchall()
            if sorted(found, key=repr) != sorted(rows, key=repr):
                only = [row for row in found if row not in rows], [row for row in rows if row not in found]
                raise SystemExit(f"{where}, table {table}: too many {only[0]}, missing {only[1]}")


def compare_answer(where, line, found, right):
    """Compares an answer with the reading's, line by line."""
    if found != right:
        lines = [*zip(found.split("\n"), right.split("\n")), (found, right)]
        told, ruled = next(pair for pair in lines if pair[0] != pair[1])
        raise SystemExit(f"{where}: {line}\n  the desk: {told}\n  the rules: {ruled}")


def command_answer(program, file, line, below=()):
    """What the command prints: its text, or the line of the refusal; below it what is said of payments and of money that counts for nothing."""
    verb, *words = line.removesuffix(" csv").split(" ")
    words += ["--format", "csv"] if line.endswith(" csv") else []
    ran = subprocess.run([program, verb, "--db", file, *words], capture_output=True, text=True, timeout=60)
    compare_answer("below", line, said_on(ran, file), "\n".join(below))
    return ran.stdout if ran.returncode == 0 else ran.stderr.split("\n")[0]


SAID = re.compile(r"note: |hint: (money|.* is .*, posted with )")


def said_on(ran, file):
    """What a command says below its answer."""
    return "\n".join(it.replace(file, "FILE") for it in ran.stderr.split("\n") if SAID.match(it))


def correction_answer(program, file, verb, words, content, below):
    """What the command of a correction without a number prints, as `command_answer` does."""
    verb, words = ("correct-report-year", words.replace(" year ", " ")) if " year " in words else (verb, words)
    content = content.replace("carried", "--carried")
    ran = subprocess.run([program, verb, "--db", file, *words.split(" "), *content.split(" ")], capture_output=True, text=True, timeout=60)
    compare_answer("below", f"{verb} {words} {content}", said_on(ran, file), "\n".join(below))
    return ran.stdout if ran.returncode == 0 else ran.stderr.split("\n")[0]


def compare_import(program, file, desk, lines):
    """Imports pay runs, and compares what is printed and what is said below it; the trial of the import first, which prints the same."""
    records = [",".join(line.split(" ")[1:]) for line in lines]
    with open(file + ".csv", "w", encoding="utf-8") as out:
        out.write("\n".join(["employer,run,payday,fit,ss,medicare", *records, ""]))
    right, *says = desk.imported(lines)
    for words, below in zip((["import", "--check"], ["import"]), says):
        ran = subprocess.run([program, *words, "--db", file, file + ".csv"], capture_output=True, text=True, timeout=60)
        compare_answer(" ".join(words), lines, ran.stdout.strip(), "\n".join(right))
        compare_answer("below " + " ".join(words), lines, said_on(ran, file), "\n".join(below))


def changed(answer):
    """The answer, as a command prints it."""
    return CHANGED.sub(r"posted \1 \2 removed \3 added \4", answer)


def printed(number, answer):
    """What is printed of the answer to a correction under this number."""
    if answer.startswith("refused"):
        return answer
    return f"number {number}\n{changed(answer)}\n"


def compare(program, file, seed, count):
    """Asks the requests of a seed, and compares answers and tables. It answers how many requests there were."""
    rng = random.Random(seed)
    lines = list(preparing(rng))
    desk, posted, paid = Desk(), {}, {}
    right = [desk.ask(line) for line in lines]
    for _ in range(count):
        lines.append(one(rng, desk, posted, paid))
        right.append(desk.ask(lines[-1]))
    for _ in range(ASKED):
        lines.append(rng.choice([agenda, owed, unapplied])(rng))
        right.append(desk.ask(lines[-1]))
    office = Office(program, file, len(lines))
    answers = office.ask(lines)
    office.close()
    for place, line in enumerate(lines):
        compare_answer(f"seed {seed}, request {place}", line, answers[place], right[place])
    compare_tables(file, desk, f"seed {seed}")
    questions = [rng.choice([agenda, owed, unapplied, kept])(rng) for _ in range(QUESTIONS)] + [f"owed {some_day(rng)}" for _ in range(2)]
    for line in questions:
        right = desk.ask(line)
        compare_answer(f"seed {seed}, command", line, command_answer(program, file, line, desk.said_below(line, right)), right)
        compare_tables(file, desk, f"seed {seed}, after ftd {line}")
    for _ in range(PAYMENTS):
        name = rng.choice(NAMES[:8])
        paid.setdefault(name, []).append(len(paid.get(name, [])) + 1)
        line = f"pay {name} {len(paid[name])} {payment(rng, desk.obligations(name))}"
        right = desk.ask(line)
        below = desk.said_below(line, right)
        compare_answer(f"seed {seed}, command", line, command_answer(program, file, line, below).strip(), right)
    compare_tables(file, desk, f"seed {seed}, after its payments")
    for _ in range(CHANGES):
        line = change(rng, desk, posted)
        right = desk.ask(line)
        below = desk.said_below(line, right)
        compare_answer(f"seed {seed}, command", line, command_answer(program, file, line, below).strip(), changed(right))
    compare_tables(file, desk, f"seed {seed}, after its pay runs")
    compare_import(program, file, desk, [imported_run(rng, desk, posted) for _ in range(IMPORTED)])
    compare_tables(file, desk, f"seed {seed}, after an import")
    for _ in range(CORRECTIONS):
        verb, words, before, content = correction(rng, desk)
        line = f"{verb} {words} {before + 1} {content}"
        right = desk.ask(line)
        below = desk.said_below(line, right)
        right = printed(before + 1, right)
        compare_answer(f"seed {seed}, command", line, correction_answer(program, file, verb, words, content, below), right)
        compare_tables(file, desk, f"seed {seed}, after ftd {line}")
    return len(lines) + len(questions) + PAYMENTS + CHANGES + IMPORTED + CORRECTIONS


def main():
    program = program_of(sys.argv[1:2])
    count = int(sys.argv[2]) if len(sys.argv) > 2 else 5_000
    seeds = [int(word) for word in sys.argv[3:]] or range(1, 21)
    asked = 0
    with tempfile.TemporaryDirectory() as folder:
        for seed in seeds:
            requests = compare(program, os.path.join(folder, f"{seed}.db"), seed, count)
            asked += requests
            print(f"seed {seed}: {requests} requests, 0 differences", flush=True)
    print(f"{asked} requests and the sixteen tables of {len(seeds)} databases, 0 differences")


if __name__ == "__main__":
    main()
