"""The deposits of docs/TUTORIAL.md by the library, as deposits.c: deposits.py LIBRARY"""

import ctypes
import datetime
import os
import re
import sys

TOP = os.path.dirname(os.path.dirname(os.path.dirname(os.path.abspath(__file__))))
FIRST = datetime.date(1900, 1, 1).toordinal()
MONTHLY, SEMIWEEKLY, NEXT_DAY = range(3)
DEPOSITS = [
    ("bakery", 941, MONTHLY, "2024-01-31"),
    ("bakery", 941, MONTHLY, "2024-02-29"),
    ("bakery", 941, MONTHLY, "2024-03-31"),
    ("bakery", 941, NEXT_DAY, "2024-05-10"),
    ("bakery", 941, MONTHLY, "2024-05-31"),
    ("bakery", 941, SEMIWEEKLY, "2025-01-10"),
    ("farm", 943, MONTHLY, "2024-03-31"),
    ("nobody", 942, MONTHLY, "2024-03-31"),
]


class Case(ctypes.Structure):
    _fields_ = [(name, ctypes.c_uint64) for name in ("cents", "paid_due", "paid_makeup")]
    _fields_ += [(name, ctypes.c_uint32) for name in ("due", "makeup", "return_due", "as_of")]
    _fields_ += [(name, ctypes.c_bool) for name in ("small", "quarter_paid")]


def number(day):
    return datetime.date.fromisoformat(day).toordinal() - FIRST


def told(answer):
    if answer >= 2**32 - 2:
        return "no-memory" if answer == 2**32 - 2 else "out-of-range"
    return datetime.date.fromordinal(answer + FIRST).isoformat()


def holidays(year):
    """The holidays of a year, as the functions take them. None is given of 2026, as in the tutorial."""
    path = f"{TOP}/examples/holidays/{year}"
    with open(path, encoding="utf-8") as lines:
        days = re.findall(r"(?m)^[\d-]{10}", lines.read()) if year < 2026 else []
    return (ctypes.c_uint32 * max(len(days), 1))(*map(number, days)), ctypes.c_size_t(len(days))


def library(path):
    it, day, count, days = ctypes.CDLL(os.path.abspath(path)), ctypes.c_uint32, ctypes.c_size_t, ctypes.POINTER(ctypes.c_uint32)
    calendars = [days, count, days, count]
    it.ftd_due.argtypes = [ctypes.c_uint8, day, *calendars]
    it.ftd_return_due.argtypes = [ctypes.c_uint16, day, *calendars]
    it.ftd_makeup.argtypes = [ctypes.c_uint16, ctypes.c_uint8, day, *calendars]
    it.ftd_due.restype = it.ftd_return_due.restype = it.ftd_makeup.restype = day
    it.ftd_verdict.argtypes, it.ftd_verdict.restype = [ctypes.POINTER(Case)], ctypes.c_uint8
    return it


def main():
    ftd = library(sys.argv[1])
    for name, form, rule, day in DEPOSITS:
        last, year = number(day), int(day[:4])
        calendars = [*holidays(year), *holidays(year + 1)]
        answers = ftd.ftd_due(rule, last, *calendars), ftd.ftd_makeup(form, rule, last, *calendars), ftd.ftd_return_due(form, last, *calendars)
        print(name, form, day, *map(told, answers))
    february = Case(607200, 600000, 600000, number("2024-03-15"), number("2024-04-30"), number("2024-04-30"), number("2024-03-20"))
    verdicts = [ftd.ftd_verdict(february)]
    for field, value in [("as_of", number("2024-05-01")), ("paid_makeup", 607200), ("due", 2**32 - 1)]:
        setattr(february, field, value)
        verdicts.append(ftd.ftd_verdict(february))
    print("verdicts", *verdicts)


if __name__ == "__main__":
    main()
