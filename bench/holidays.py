#!/usr/bin/env python3
"""The legal holidays in the District of Columbia, computed from the rules of the law, beside the files of examples/holidays, of 2022 to 2035.

    bench/holidays.py              compares each file with what the rules give
    bench/holidays.py YEAR ..      writes the files of these years

The rules are those of D.C. Code 28-2701, with the days and names of 5 U.S.C. 6103: a holiday that falls on a Saturday is kept on the Friday before, and
one that falls on a Sunday on the Monday after; Inauguration Day, of each fourth year after 1965, is not moved from a Saturday. So New Year's Day of the
next year may be kept on 31 December. Days that a proclamation made holidays are entered by hand below, each with its source. It prints each line that is
on one side alone, and each year that has no file, and exits with 1 then."""

import datetime
import glob
import os
import sys

FOLDER = os.path.join(os.path.dirname(os.path.abspath(__file__)), "..", "examples", "holidays")
MONDAY, THURSDAY, SATURDAY, SUNDAY = 0, 3, 5, 6
DAY = datetime.timedelta(days=1)
YEARS = range(2022, 2036)
# Days that a proclamation made legal holidays in the District, with name and source: none is known. An order that closes federal offices makes none.
PROCLAIMED = {}
HEAD = """\
# The legal holidays in the District of Columbia in {year}, by the day on which each is kept (D.C. Code 28-2701; 5 U.S.C. 6103).
# One that falls on a Saturday is kept on the Friday before, one that falls on a Sunday on the Monday after; the Saturday or the Sunday
# itself is left out, since it is no business day anyway.
"""
BEFORE = "# New Year's Day of {year} is a Saturday, so that it is kept on 31 December {before} and is not here (5 U.S.C. 6103(b)).\n"
INAUGURATION = "# Inauguration Day, 20 January {year}, is a Saturday, which is not moved, so that it is not here (D.C. Code 28-2701).\n"
AFTER = "# New Year's Day of {after} is a Saturday, so that it is kept on 31 December {year} and is here (5 U.S.C. 6103(b)).\n"
END = """\
# A law may change the holidays of a year to come: compare these with the law when the year begins.
# Days that the President or the District proclaims beside these are not here: add such a day with `ftd add-holiday`.
# To give these to a desk: ftd calendar --db office.db {year} $(grep -o '^[0-9-]*' examples/holidays/{year})
"""


def nth(year, month, weekday, number):
    """The day of a month that is the weekday of this number in it."""
    first = datetime.date(year, month, 1)
    return first + ((weekday - first.weekday()) % 7 + 7 * (number - 1)) * DAY


def last(year, month, weekday):
    """The last day of a month, but for December, that is this weekday."""
    end = datetime.date(year, month + 1, 1) - DAY
    return end - (end.weekday() - weekday) % 7 * DAY


def holidays(year):
    """Each holiday of a year, as the law names it, with the day on which it falls."""
    yield datetime.date(year, 1, 1), "New Year's Day"
    yield nth(year, 1, MONDAY, 3), "Birthday of Martin Luther King, Jr."
    if year > 1965 and (year - 1965) % 4 == 0:
        yield datetime.date(year, 1, 20), "Inauguration Day"
    yield nth(year, 2, MONDAY, 3), "Washington's Birthday"
    yield datetime.date(year, 4, 16), "Emancipation Day"
    yield last(year, 5, MONDAY), "Memorial Day"
    yield datetime.date(year, 6, 19), "Juneteenth National Independence Day"
    yield datetime.date(year, 7, 4), "Independence Day"
    yield nth(year, 9, MONDAY, 1), "Labor Day"
    yield nth(year, 10, MONDAY, 2), "Columbus Day (in the District: Indigenous Peoples' Day)"
    yield datetime.date(year, 11, 11), "Veterans Day"
    yield nth(year, 11, THURSDAY, 4), "Thanksgiving Day"
    yield datetime.date(year, 12, 25), "Christmas Day"


def kept(day, name):
    """The weekday on which a holiday is kept, if any, with its name, and the day for which it is kept where that is another one."""
    if day.weekday() == SATURDAY and name != "Inauguration Day":
        return day - DAY, f"{name}, kept for Saturday {day}"
    if day.weekday() == SUNDAY:
        return day + DAY, f"{name}, kept for Sunday {day}"
    return (day, name) if day.weekday() != SATURDAY else None


def lines_of(year):
    """The lines that the file of a year has to have: one for each weekday on which a holiday is kept."""
    names = {}
    by_rule = [kept(*it) for near in (year, year + 1) for it in holidays(near)]
    for found in by_rule + list(PROCLAIMED.items()):
        if found and found[0].year == year:
            names.setdefault(found[0], []).append(found[1])
    return [f"{day} {' and '.join(names[day])}" for day in sorted(names)]


def head_of(year):
    """The comments above the days of a year."""
    notes = {
        BEFORE: datetime.date(year, 1, 1).weekday() == SATURDAY,
        INAUGURATION: (year - 1965) % 4 == 0 and datetime.date(year, 1, 20).weekday() == SATURDAY,
        AFTER: datetime.date(year + 1, 1, 1).weekday() == SATURDAY,
    }
    return "".join([HEAD, *(note for note, holds in notes.items() if holds), END]).format(year=year, before=year - 1, after=year + 1)


def text_of(year):
    """The file of a year."""
    return head_of(year) + "".join(f"{line}\n" for line in lines_of(year))


def write(year):
    with open(f"{FOLDER}/{year}", "w", encoding="utf-8") as file:
        file.write(text_of(year))


def differences(year, there):
    """What the file of a year has otherwise than the rules give."""
    wanted = text_of(year)
    given, lines = there.splitlines(), wanted.splitlines()
    told = [f"{year}: not by the rules: {it}" for it in given if it not in lines] + [f"{year}: missing: {it}" for it in lines if it not in given]
    return told or ([] if there == wanted else [f"{year}: the same lines in another order, or twice"])


def compare():
    days, told = 0, []
    found = {int(os.path.basename(path)) for path in glob.glob(f"{FOLDER}/*")}
    for year in sorted(found | set(YEARS)):
        if year not in found:
            told.append(f"{year}: no file")
            continue
        with open(f"{FOLDER}/{year}", encoding="utf-8") as text:
            there = text.read()
        days += sum(not line.startswith("#") for line in there.splitlines())
        told += differences(year, there)
    for line in told:
        print(line)
    print(f"{len(found)} years, {days} holidays: {f'{len(told)} differ' if told else 'the same'}")
    return 1 if told else 0


def main(years):
    for year in years:
        write(int(year))
    return 0 if years else compare()


if __name__ == "__main__":
    sys.exit(main(sys.argv[1:]))
