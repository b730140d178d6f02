#!/usr/bin/env python3
"""Spreadsheets as offices and payroll products write them, made into sheets by `examples/sheets/to_ftd.py` and imported.

    bench/spreadsheets.py [PROGRAM [SEED]]       PROGRAM is the path of `ftd`, or that of the build of this repository; - is a plain reading

It writes 32 spreadsheets of random values, has each made into a sheet, imports that into a new desk, and compares the rows of the tables with the
values; of those that are to be refused it looks for the cell and the remedy, and that nothing is written. With - in the place of the program the sheets
are read by the rules of docs/FORMATS.md, written here anew. Then each cell that counts is damaged in turn, by texts that are never clear: each time the cell
has to be named, and nothing written. Last it runs the commands of docs/SHEETS.md, and compares what they print. It needs Debian's python3-openpyxl."""

import csv
import datetime
import io
import os
import random
import re
import subprocess
import sys
import tempfile
import zipfile

import openpyxl
from openpyxl.utils.datetime import CALENDAR_MAC_1904

from office import TOP, program_of, tables

TO_FTD = os.path.join(TOP, "examples", "sheets", "to_ftd.py")
PAGE = os.path.join(TOP, "docs", "SHEETS.md")
IS_PLAIN = sys.argv[1:2] == ["-"]
FTD = None if IS_PLAIN else program_of(sys.argv[1:])
SEED = int(sys.argv[2]) if len(sys.argv) > 2 else 20240115
BAD = {
    "amount": ["(12.00)", "(12,00)", "-5", "1.2.3", "12..", "abc", "#REF!", "€5", "1,2345", "5%", "0x10", "1e3", "1.005.5", "12 34", "TBD", "9999999999"],
    "day": ["2024-02-30", "13/13/2024", "5 Jan", "tomorrow", "2024-1-5", "00/00/0000", "31.31.2024", "1899-12-31", "#N/A", "2024-01-05Z", ""],
    "account": ["Nobody & Co", "#N/A", "-ash", "twenty-one-characters", "42x", ""],
    "number": ["0", "-1", "1.5", "A1", "1234567890", ""],
    "period": ["2024Q5", "Q1", "24", "1/2024", "2024-01", ""],
    "carried": ["maybe", "X", "1", ""],
    "form": ["940", "W-2", ""],
}


OWN = "employer,run,payday,fit,ss,medicare\n"
SHARED = "employer,payday,FIT,SS EE,SS ER,Med EE,Med ER\n"
# Small texts in which one thing is unclear: the text, the options, and what the one error has to say: the place and the remedy.
UNCLEAR = [
    ("", [], ["row 1:", "empty"]),
    (OWN, [], ["row 1:", "no row to import"]),
    ("Register,2024\n" + OWN + "ash,1,2024-01-05,1,2,3\n", [], ["row 1:", "--header-row 2"]),
    (OWN + "ash,1,2024-01-05,1,2,3\n", ["--header-row", "7"], ["row 7:", "--header-row"]),
    ("employer,payday,fit,ss,medicare\nash,2024-01-05,1,2,3\n", [], ['column "ss" (D1)', "--column ss=", "ss-employee="]),
    (OWN.replace("employer,", "") + "1,2024-01-05,1,2,3\n", ["--value", "employer=ash"], ['column "medicare" (E1)', "--column medicare="]),
    ("Employer,Payday,FIT,SS EE,Med EE,Med ER\nash,2024-01-05,1,2,3,3\n", [], ["(D1)", "no ss-employer"]),
    (OWN.replace("fit", "FICA"), [], ["(D1)", "may be tax", "--ignore"]),
    (SHARED.replace("\n", ",Net\n") + "ash,2024-01-05,1,2,2,3,3,9\n", [], ['column "Net" (H1)', "--ignore-others"]),
    (SHARED.replace("\n", ",Additional Medicare\n") + "ash,2024-01-05,1,2,2,3,3,9\n", ["--ignore-others"], ["(H1)", "may be tax"]),
    (SHARED.replace("\n", ",Fed W/H\n") + "ash,2024-01-05,1,2,2,3,3,9\n", [], ["(H1)", "as another column is", "--column fit="]),
    (SHARED.replace("FIT", "x").replace("\n", ",X\n") + "ash,2024-01-05,1,2,2,3,3,9\n", ["--column", "fit=x"], ["(H1)", "same name", "@C or @H"]),
    (SHARED + "ash,2024-01-05,1,2,2,3,3\n", ["--column", "fit=Tax"], ["row 1:", '"Tax"', "the columns are"]),
    (SHARED + "ash,1/5/2024,1,2,2,3,3\n", [], ["(B2)", "--dates m/d/y or --dates d/m/y"]),
    (SHARED + "ash,1/5/2024,1,2,2,3,3\n", ["--dates", "d.m.y"], ["(B2)", "which is right"]),
    (SHARED + "ash,13/5/2024,1,2,2,3,3\n", ["--dates", "m/d/y"], ["(B2)", "as d/m/y it is one"]),
    (SHARED + "ash,45296,1,2,2,3,3\n", [], ["(B2)", "--dates serial"]),
    (SHARED + "ash,2024-01-05 17:30,1,2,2,3,3\n", [], ["(B2)", "--drop-times"]),
    (SHARED + "ash,2024-01-05,1,2,2,3,3\nash,1/19/2024,1,2,2,3,3\n", ["--dates", "m/d/y"], ["(B3)", "swapped"]),
    (SHARED + "ash,2024-01-05,1,2,2,3,3\nash,2024-01-05,1,2,2,3,3\n", [], ["(B3)", "row 2 too", "--number-each"]),
    (OWN + "ash,1,2024-01-05,1,2,3\nash,01,2024-01-19,1,2,3\n", [], ["(B3)", "row 2 too"]),
    (OWN + "ash,1,2024-01-05,1,2,3\n", ["--after", "5"], ["row 1:", "--after"]),
    (SHARED + "Ash,2024-01-05,1,2,2,3,3\n", [], ["(A2)", '--account "Ash=ACCOUNT"']),
    (SHARED + "ash,2024-01-05,1,2,,3,3\n", [], ["(E2)", "one share"]),
    (SHARED + "ash,2024-01-05,,,,,\n", [], ["(C2)", "no amount", "--leave-out"]),
    (SHARED.replace(",FIT", "") + "ash,2024-01-05,,,,\n", ["--value", "fit=0"], ["(C2)", "no amount"]),
    (SHARED + "ash,2024-01-05,1,2,2,3,3\n,,1,2,2,3,3\n", ["--fill-down", "employer", "--fill-down", "payday", "--number-each"], ["row 3:", "amounts alone", "--leave-out"]),
    (SHARED + "ash,2024-01-05,1.005,2,2,3,3\n", [], ["(C2)", "--decimal comma", "round"]),
    (SHARED + "ash,2024-01-05,1.0005,2,2,3,3\n", [], ["(C2)", "more than two digits", "round"]),
    (SHARED.replace(",", ";") + "ash;2024-01-05;1,50;2;2;3;3\n", [], ["(C2)", "--decimal comma"]),
    (SHARED.replace(",", ";") + "ash;2024-01-05;1.50;2;2;3;3\n", ["--decimal", "comma"], ["(C2)", "--decimal point"]),
    (SHARED + "ash,2024-01-05,-,2,2,3,3\n", [], ["(C2)", "--dash-is-zero"]),
    (SHARED + "ash,2024-01-05,999999999.99,999999999.99,0.01,3,3\n", [], ["(D2)", "more than 999999999.99"]),
    (SHARED + "ash,2024-01-05,1,2,2,3,1,234.00\n", [], ["(H2)", "not quoted", "--ignore @H"]),
    (SHARED + "ash,2024-01-05,1,2,2,3\n", [], ["(G2)", "cut off"]),
    (SHARED.replace("\n", ",Notes\n") + "ash,2024-01-05,1,234.00,2,2,3,3,\n", ["--ignore", "notes"], ["row 2:", "9 cells, and the header 8", "not quoted"]),
    (SHARED.replace("\n", ",Notes\n") + "ash,2024-01-05,1,2,2,3,3\nash,2024-01-19,1,234.00,2,2,3,3\n", ["--ignore", "notes"], ["row 2:", "7 cells, and the header 8"]),
    (SHARED + 'ash,2024-01-05,1,2,2,3,"3\n', [], ["line 2:", "quote"]),
    (SHARED.replace("FIT", "FIT;tax") + "ash,2024-01-05,1,2,2,3,3\n", ["--column", "fit=FIT;tax"], ["row 1:", "--separator"]),
    (SHARED.encode() + b"\xe4sh,2024-01-05,1,2,2,3,3\n", [], ["line 2:", "--encoding windows-1252"]),
    (SHARED.encode("utf-16-le"), [], ["line 1:", "zero byte"]),
    (b"\xd0\xcf\x11\xe0", [], [".xls", "save it as"]),
    (b"PK\x03\x04", [], ["not a workbook", "save it as"]),
]


def other_cell(place, value, form=None):
    """A change of a workbook: another value of a cell, in its own format or another one."""

    def change(book):
        book.active[place].value = value
        book.active[place].number_format = form or ("General" if type(value) is int else book.active[place].number_format)

    return change


def hidden_row(book):
    book.active.row_dimensions[3].hidden = True


# The same of a workbook with two pay runs, in which one thing was changed.
UNCLEAR_BOOKS = [
    (other_cell("C2", -5), [], ["(C2)", "below zero"]),
    (other_cell("C2", 1.005), [], ["(C2)", "ROUND"]),
    (other_cell("C2", 310.00000000000006), [], ["(C2)", "ROUND"]),
    (other_cell("C2", True), [], ["(C2)", "neither a text"]),
    (other_cell("C2", 5, "[$€-407] #,##0.00"), [], ["(C2)", "not in dollars"]),
    (other_cell("C2", 0.5, "0%"), [], ["(C2)", "not in dollars"]),
    (other_cell("C2", datetime.date(2024, 1, 5)), [], ["(C2)", "is a date"]),
    (other_cell("C2", "#DIV/0!"), [], ["(C2)", "error of the spreadsheet"]),
    (other_cell("B2", 45296), [], ["(B2)", "--dates serial"]),
    (other_cell("B2", datetime.datetime(2024, 1, 5, 17, 30)), [], ["(B2)", "--drop-times"]),
    (other_cell("B2", datetime.time(17, 30)), [], ["(B2)", "neither a text"]),
    (other_cell("A2", 1001), [], ["(A2)", '--account "1001=ACCOUNT"']),
    (other_cell("J5", "see below"), [], ["(J5)", "below no name"]),
    (lambda book: book.active.merge_cells("C2:C3"), [], ["(C3)", "merged"]),
    (lambda book: book.create_sheet("Notes").append(["a note"]), [], ["2 tabs", "--tab"]),
    (lambda book: None, ["--tab", "Other"], ['no tab "Other"', "--tab"]),
    (hidden_row, [], ["row 3:", "hidden", "show it"]),
]


class Run:
    """A pay run with its shares, in cents."""

    def __init__(self, account, day, chosen):
        most = chosen.choice([90_000, 900_000, 9_000_000])
        self.account, self.day = account, day
        self.fit, self.ss_ee, self.med_ee = (chosen.randrange(1, most) for _ in range(3))
        self.ss_er, self.med_er = self.ss_ee + chosen.choice([0, 0, 1]), chosen.randrange(1, most)

    def shares(self):
        """The five amounts of a payroll register."""
        return [self.fit, self.ss_ee, self.ss_er, self.med_ee, self.med_er]

    def totals(self):
        """The three amounts of a pay run."""
        return [self.fit, self.ss_ee + self.ss_er, self.med_ee + self.med_er]


class Sheet:
    """A spreadsheet: its rows, which of their columns count as what, how it is written, the options that it needs, and what has to come of it."""

    def __init__(self, name, rows, kinds, encode, words, **rest):
        self.name, self.rows, self.kinds, self.encode, self.words = name, rows, kinds, encode, words
        self.command = rest.get("command", "import")
        self.wanted, self.unclear = rest.get("wanted"), rest.get("unclear", [])
        self.data = rest.get("data", range(1, len(rows)))
        self.ending = rest.get("ending", ".csv")


# Values as spreadsheets write them


def us(cents):
    return f"{cents // 100:,}.{cents % 100:02}"


def bare(cents):
    return f"{cents // 100}.{cents % 100:02}"


def german(cents):
    return us(cents).translate(str.maketrans(",.", ".,"))


def dollars(cents):
    return "$" + us(cents)


def mdy(day):
    return f"{day.month}/{day.day}/{day.year}"


def dmy(day):
    return f"{day.day:02}.{day.month:02}.{day.year}"


def serial(day, first=datetime.date(1899, 12, 30)):
    return (day - first).days


def since_1970(day):
    return serial(day, datetime.date(1970, 1, 1))


def text(separator=",", encoding="utf-8", ends="\r\n", quoting=csv.QUOTE_MINIMAL, before=""):
    """A way of writing rows as a text."""

    def encode(rows):
        out = io.StringIO()
        csv.writer(out, delimiter=separator, lineterminator=ends, quoting=quoting).writerows(rows)
        return (before + out.getvalue()).encode(encoding)

    return encode


def patched(data, patch):
    """A workbook with another text of its first tab."""
    out = io.BytesIO()
    with zipfile.ZipFile(io.BytesIO(data)) as old, zipfile.ZipFile(out, "w", zipfile.ZIP_DEFLATED) as new:
        for name in old.namelist():
            it = old.read(name)
            new.writestr(name, patch(it.decode()).encode() if name == "xl/worksheets/sheet1.xml" else it)
    return out.getvalue()


def workbook(change=lambda book: None, patch=None):
    """A way of writing rows as a workbook."""

    def encode(rows):
        book = openpyxl.Workbook()
        for row in rows:
            book.active.append(row)
        change(book)
        out = io.BytesIO()
        book.save(out)
        return patched(out.getvalue(), patch) if patch else out.getvalue()

    return encode


def number_of_17_digits(sheet):
    """The text of a tab with each number as binary, to 17 digits, as products of the trade write it."""
    return re.sub(r"<v>([0-9]+\.[0-9]+)</v>", lambda it: f"<v>{float(it[1]):.17g}</v>", sheet)


# Pay runs


def some_runs(chosen, accounts=("ash", "birch"), count=6):
    """Pay runs of the accounts, each at days of its own."""
    found = []
    for account in accounts:
        days = sorted(chosen.sample(range(360), count))
        found += [Run(account, datetime.date(2024, 1, 2) + datetime.timedelta(it), chosen) for it in days]
    return found


def run_rows(runs, after=0):
    """The rows of the table: numbered by account and payday."""
    found, last = [], {}
    for it in sorted(runs, key=lambda it: (it.account, it.day)):
        last[it.account] = last.get(it.account, after) + 1
        found.append((it.account, last[it.account], since_1970(it.day), *it.totals(), 0))
    return sorted(found)


SHARES = ["FIT", "SS EE", "SS ER", "Med EE", "Med ER"]
KINDS = {0: "account", 1: "day", **{at: "amount" for at in range(2, 7)}}


def register(name, runs, encode, words, **how):
    """A payroll register: employer, payday and five amounts."""
    day, amount, header = how.pop("day", mdy), how.pop("amount", us), how.pop("header", ["Company", "Check Date", *SHARES])
    rows = [header, *([it.account, day(it.day), *map(amount, it.shares())] for it in runs)]
    return Sheet(name, rows, KINDS, encode, words, **{"wanted": run_rows(runs), **how})


def many_columns(chosen):
    """Quoted cells, a code for the employer, gross and net pay, taxes of a state, and no years of two digits."""
    runs = some_runs(chosen)
    header = ["Company Code", "Employee Count", "Check Date", "Gross Pay", "Federal Withholding", "OASDI EE", "OASDI ER", "Medicare EE", "Medicare ER", "State Tax", "Net Pay"]
    codes = {"ash": "0A7", "birch": "0B2"}
    rows = [header]
    for it in runs:
        rows.append([codes[it.account], "12", it.day.strftime("%m/%d/%Y"), us(9_999_900), *map(us, it.shares()), us(5_000), us(7_000_000)])
    kinds = {0: "account", 2: "day", **{at: "amount" for at in range(4, 9)}}
    words = ["--account", "0A7=ash", "--account", "0B2=birch", "--dates", "m/d/y", "--ignore-others", "--ignore", "State Tax"]
    return Sheet("register of a payroll service, all cells quoted, many columns", rows, kinds, text(quoting=csv.QUOTE_ALL), words, wanted=run_rows(runs))


def grouped(chosen):
    """A report with a title, a line for each employer, subtotals, blank rows and a grand total."""
    runs = some_runs(chosen)
    rows = [["Payroll Summary by Company"], ["January through December 2024"], [], ["", "Check Date", *SHARES]]
    data = []
    for account, name in (("ash", "Ash Bakery, Inc."), ("birch", "Birch & Sons")):
        rows.append([name, *[""] * 6])
        for it in runs:
            if it.account == account:
                data.append(len(rows))
                rows.append(["", it.day.strftime("%m/%d/%Y"), *map(us, it.shares())])
        rows += [[f"Total {name}", "", *map(us, range(5))], [""] * 7]
    rows.append(["TOTAL", "", *map(us, range(5))])
    words = ["--header-row", "4", "--column", "employer=@A", "--fill-down", "@A", "--leave-out", "@A=Total*", "--leave-out", "Check Date=", "--dates", "m/d/y"]
    words += ["--account", "Ash Bakery, Inc.=ash", "--account", "Birch & Sons=birch"]
    kinds = {at: kind for at, kind in KINDS.items() if at > 1}
    return Sheet("report of a desktop product, grouped, with title and totals", rows, kinds, text(), words, wanted=run_rows(runs), data=data)


def one_employer(chosen):
    """No column of the employer, ISO dates, words for the shares."""
    runs = some_runs(chosen, ("ash",))
    header = ["Check date", "Federal Income Tax", "Social Security (Employee)", "Social Security (Employer)", "Medicare (Employee)", "Medicare (Employer)", "Reimbursements"]
    rows = [header, *([str(it.day), *map(bare, it.shares()), "0.00"] for it in runs)]
    kinds = {0: "day", **{at: "amount" for at in range(1, 6)}}
    return Sheet("export of an online payroll, one employer", rows, kinds, text(ends="\n"), ["--value", "employer=ash", "--ignore", "Reimbursements"], wanted=run_rows(runs))


def excel_german(chosen, encoding, words):
    """Semicolons, D.M.YYYY, a decimal comma, and a name that is no ASCII."""
    runs = some_runs(chosen)
    names = {"ash": "Bäckerei Ash", "birch": "Birch GmbH"}
    rows = [["Firma", "Zahltag", *SHARES], *([names[it.account], dmy(it.day), *map(german, it.shares())] for it in runs)]
    words = [*words, "--column", "employer=Firma", "--column", "payday=Zahltag", "--dates", "d.m.y", "--decimal", "comma"]
    words += ["--account", "bäckerei ash=ash", "--account", "Birch GmbH=birch"]
    return Sheet(f"CSV of Excel in German locale, {encoding}", rows, KINDS, text(";", encoding), words, wanted=run_rows(runs))


def totals_at_the_end(chosen):
    """An online spreadsheet with a row of sums, newest payday first."""
    runs = some_runs(chosen)
    it = register("CSV of an online spreadsheet, newest first, with a row of sums", runs[::-1], text(), ["--dates", "m/d/y", "--leave-out", "company=Totals"])
    it.data = range(1, len(it.rows))
    it.rows.append(["Totals", "", *(us(sum(run.shares()[at] for run in runs)) for at in range(5))])
    return it


def accounting(chosen):
    """The format of accountants: a space, a sign of dollars, and a hyphen for zero."""
    runs = some_runs(chosen)
    runs[0].fit = runs[1].fit = 0
    return register("CSV with cells in accountants' format", runs, text(), ["--dates", "m/d/y", "--dash-is-zero"], amount=lambda it: f" $ {us(it)} " if it else " $ -   ")


def empty_zeros(chosen):
    """No tax withheld is an empty cell, and blank rows come between months."""
    runs = some_runs(chosen)
    for it in runs[::3]:
        it.fit = 0
    it = register("register with empty cells for zero, and blank rows", runs, text(), ["--dates", "m/d/y"], amount=lambda it: us(it) if it else "")
    it.rows = [it.rows[0], [], *it.rows[1:5], [""] * 7, [], *it.rows[5:]]
    it.data = [3, 4, 9]
    return it


def by_employee(chosen):
    """A row for each employee: several rows a payday."""
    days = [datetime.date(2024, 3, 1), datetime.date(2024, 3, 15)]
    runs = [Run("ash", day, chosen) for day in days for _ in range(4)]
    header = ["Employee", "Company", "Pay Date", *SHARES]
    rows = [header, *([f"Worker {at}", it.account, mdy(it.day), *map(us, it.shares())] for at, it in enumerate(runs))]
    kinds = {1: "account", 2: "day", **{at: "amount" for at in range(3, 8)}}
    return Sheet("register with a row for each employee", rows, kinds, text(), ["--ignore", "employee", "--dates", "m/d/y", "--number-each"], wanted=run_rows(runs))


def two_columns_of_one_tax(chosen):
    """Tax on wages and on bonuses apart, columns in another order, a map, and numbers of the product."""
    runs = some_runs(chosen)
    rows = [["Payroll No.", "Med ER", "Med EE", "Bonus FIT", "Wages FIT", "SS Comp", "SS Emp", "Client", "Paid"]]
    wanted = []
    for number, it in enumerate(runs, 901):
        bonus = chosen.randrange(it.fit)
        rows.append([str(number), us(it.med_er), us(it.med_ee), us(bonus), us(it.fit - bonus), us(it.ss_er), us(it.ss_ee), it.account, mdy(it.day)])
        wanted.append((it.account, number, since_1970(it.day), *it.totals(), 0))
    lines = ["# our payroll", "column fit=Wages FIT", "column fit=Bonus FIT", "column ss-employee=SS Emp", "column ss-employer=ss comp", "", "column payday=Paid", "dates m/d/y"]
    kinds = {0: "number", **{at: "amount" for at in range(1, 7)}, 7: "account", 8: "day"}
    return Sheet("columns in another order, a tax in two columns, a map", rows, kinds, text(";"), ["MAP", "\n".join(lines)], wanted=sorted(wanted))


def both_shares(chosen):
    """Both shares in one column, of one employer, in the second month of the year."""
    runs = some_runs(chosen, ("cedar",))
    header = ["Pay date", "Total SS", "Total Medicare", "Fed. income tax"]
    rows = [header, *([f"{it.day.month}/{it.day.day}/{it.day.year % 100}", us(it.totals()[1]), us(it.totals()[2]), us(it.fit)] for it in runs)]
    words = ["--value", "employer=cedar", "--column", "ss=total ss", "--column", "medicare=total medicare", "--dates", "m/d/yy", "--after", "24"]
    return Sheet("both shares in one column, years of two digits", rows, {0: "day", 1: "amount", 2: "amount", 3: "amount"}, text("\t"), words, wanted=run_rows(runs, 24))


# Workbooks


def book_rows(runs, day=lambda it: it):
    return [["Company", "Check Date", *SHARES], *([it.account, day(it.day), *(cents / 100 for cents in it.shares())] for it in runs)]


def book_sheet(name, runs, encode, words, day=lambda it: it, **how):
    return Sheet(name, book_rows(runs, day), KINDS, encode, words, ending=".xlsx", **{"wanted": run_rows(runs), **how})


def formats(book):
    """Formats that a clerk gives the columns."""
    for row in book.active.iter_rows(min_row=2):
        row[1].number_format = "mm/dd/yyyy"
        for cell in row[2:]:
            cell.number_format = '_("$"* #,##0.00_);_("$"* (#,##0.00);_("$"* "-"??_);_(@_)'


def second_tab(book):
    """Another tab before the one that counts."""
    book.active.title = "Register"
    book.create_sheet("Notes", 0).append(["do not read this"])


def on_1904(book):
    book.epoch = CALENDAR_MAC_1904


def merged(chosen):
    """The employer's name in merged cells, a title, a row of sums by formulas."""
    runs = some_runs(chosen, ("ash", "birch"), 3)
    rows = [["Taxes withheld"], ["Company", "Check Date", *SHARES]]
    rows += [[it.account if at % 3 == 0 else None, it.day, *(cents / 100 for cents in it.shares())] for at, it in enumerate(runs)]
    rows.append(["Total", None, *(f"=SUM({it}3:{it}8)" for it in "CDEFG")])

    def change(book):
        for cells in ("A1:G1", "A3:A5", "A6:A8"):
            book.active.merge_cells(cells)

    words = ["--header-row", "2", "--fill-down", "Company", "--leave-out", "Company=total"]
    kinds = {at: kind for at, kind in KINDS.items() if at}
    return Sheet("workbook with merged cells, a title and sums", rows, kinds, workbook(change), words, wanted=run_rows(runs), data=range(2, 8), ending=".xlsx")


def with_results(chosen):
    """Employers' shares by formulas, whose results are there; numbers with 17 digits."""
    runs = some_runs(chosen)
    for it in runs:
        it.ss_er = it.ss_ee
    it = book_sheet("workbook with formulas and their results, numbers of 17 digits", runs, None, [])
    for at, row in enumerate(it.rows[1:], 2):
        row[4] = f"=D{at}"

    def patch(sheet):
        for at, run in enumerate(runs, 2):
            sheet = re.sub(rf'(<c r="E{at}"[^>]*><f>[^<]*</f>)<v ?/?>(</v>)?', rf"\g<1><v>{bare(run.ss_er)}</v>", sheet)
        return number_of_17_digits(sheet)

    it.encode = workbook(patch=patch)
    it.kinds = {at: kind for at, kind in KINDS.items() if at != 4}
    return it


# The other imports


def payments(chosen):
    """A list of deposits, as a bank writes them."""
    rows, wanted = [["Confirmation", "Client", "Deposit Date", "Liability Date", "Amount"]], []
    for at, it in enumerate(some_runs(chosen)):
        paid = it.day + datetime.timedelta(3)
        rows.append([f"27{at:06}", it.account, mdy(paid), mdy(it.day), dollars(it.fit)])
        wanted.append([it.account, paid, since_1970(it.day), it.fit])
    numbered = []
    for account in ("ash", "birch"):
        of_it = sorted((it for it in wanted if it[0] == account), key=lambda it: it[1])
        numbered += [(account, number, since_1970(paid), *rest, 0) for number, (_, paid, *rest) in enumerate(of_it, 1)]
    kinds = {1: "account", 2: "day", 3: "day", 4: "amount"}
    words = ["--dates", "m/d/y", "--ignore", "Confirmation"]
    return Sheet("list of deposits of a bank", rows, kinds, text(), words, wanted=sorted(numbered), command="import-payments")


def reported(chosen):
    """Totals of returns by quarter."""
    rows, wanted = [["Client", "Quarter", "Total tax"]], []
    for account in ("ash", "birch"):
        for year in (2022, 2023):
            for quarter in range(1, 5):
                cents = chosen.randrange(1, 9_000_000)
                rows.append([account, f"Q{quarter} {year}", us(cents)])
                wanted.append((account, year, quarter, cents))
    return Sheet("totals of returns by quarter", rows, {0: "account", 1: "period", 2: "amount"}, text(), [], wanted=sorted(wanted), command="import-reported")


def accounts(chosen):
    """A list of clients."""
    rows, wanted = [["Client", "First Day", "Carried", "Form"]], []
    for number in range(12):
        day = datetime.date(2023, 1, 1) + datetime.timedelta(chosen.randrange(300))
        carried, form = chosen.random() < 0.5, chosen.choice(["941", "943"])
        rows.append([f"C-{number}", mdy(day), "Yes" if carried else "No", f"Form {form}"])
        wanted.append((f"client-{number}", since_1970(day), int(carried), int(form == "943")))
    words = ["--dates", "m/d/y"] + [word for number in range(12) for word in ("--account", f"c-{number}=client-{number}")]
    kinds = {0: "account", 1: "day", 2: "carried", 3: "form"}
    return Sheet("list of clients", rows, kinds, text("\t", "utf-16"), words, wanted=sorted(wanted), command="import-accounts")


# Those that are to be refused


def refused(chosen):
    """Spreadsheets in which something is unclear, with the cell and a word of the remedy."""
    runs = some_runs(chosen)
    reversal = register("register with a reversal below zero", runs, text(), ["--dates", "m/d/y"], wanted=None, unclear=[("(C5)", "below zero"), ("(E5)", "below zero")])
    reversal.rows[4][2], reversal.rows[4][4] = f"({reversal.rows[4][2]})", f"-{reversal.rows[4][4]}"
    numbers = register("register with missing run numbers", runs, text(), ["--dates", "m/d/y"], wanted=None, unclear=[("(H4)", "--ignore"), ("(H9)", "--ignore")])
    for at, row in enumerate(numbers.rows):
        row.append("Run No." if at == 0 else "" if at in (3, 8) else str(at))
    no_results = book_sheet("workbook with formulas and no results", runs, workbook(), [], wanted=None)
    no_results.unclear = [(f"(E{at})", "save it") for at in range(2, len(no_results.rows) + 1)]
    for at, row in enumerate(no_results.rows[1:], 2):
        row[4] = f"=D{at}"
    swapped = book_sheet("workbook in which another locale has swapped days and months", runs, workbook(), ["--dates", "m/d/y"], wanted=None)
    for at, (row, it) in enumerate(zip(swapped.rows[1:], runs), 2):
        row[1] = datetime.date(2024, it.day.day, it.day.month) if it.day.day < 13 else mdy(it.day)
    kinds = [isinstance(row[1], str) for row in swapped.rows[1:]]
    swapped.unclear = [(f"(B{at})", "swapped") for at, it in enumerate(kinds, 2) if it != kinds[0]]
    assert swapped.unclear, "another seed has no swapped dates"
    return [reversal, numbers, no_results, swapped]


def spreadsheets(chosen):
    """All of them."""
    us_dates = ["--dates", "m/d/y"]
    new = lambda: some_runs(chosen)
    return [
        register("CSV UTF-8 of a spreadsheet program, with mark", new(), text(encoding="utf-8-sig"), us_dates),
        many_columns(chosen),
        grouped(chosen),
        one_employer(chosen),
        excel_german(chosen, "windows-1252", ["--encoding", "windows-1252"]),
        excel_german(chosen, "utf-8-sig", []),
        register("CSV of an office suite, texts quoted, semicolons", new(), text(";", quoting=csv.QUOTE_ALL, ends="\n"), [], day=str, amount=bare),
        totals_at_the_end(chosen),
        register("text of a spreadsheet program as Unicode, with tabs", new(), text("\t", "utf-16-le", before="\ufeff"), us_dates),
        register("text with tabs in UTF-16 of the other order", new(), text("\t", "utf-16-be", before="\ufeff"), us_dates),
        accounting(chosen),
        empty_zeros(chosen),
        register("export of a database, times beside dates", new(), text(ends="\n"), [], day=lambda it: f"{it} 00:00:00", amount=bare),
        register("export of a web page, times of the morning", new(), text(), [*us_dates, "--drop-times"], day=lambda it: f"{mdy(it)} 8:15 AM", amount=dollars),
        register("CSV with days as numbers", new(), text(), ["--dates", "serial"], day=lambda it: str(serial(it))),
        register("CSV with the line sep=;", new(), text(";", before="sep=;\r\n"), ["--dates", "d/m/y"], day=lambda it: f"{it.day}/{it.month}/{it.year}"),
        register("CSV with spaces between thousands", new(), text(";"), ["--dates", "d.m.y", "--decimal", "comma"], day=dmy, amount=lambda it: german(it).replace(".", "\u00a0")),
        by_employee(chosen),
        two_columns_of_one_tax(chosen),
        both_shares(chosen),
        book_sheet("workbook with dates and numbers, formatted", new(), workbook(formats), []),
        book_sheet("workbook with days as numbers", new(), workbook(), ["--dates", "serial"], day=serial),
        book_sheet("workbook that counts from 1904, of two tabs", new(), workbook(lambda it: (on_1904(it), second_tab(it))), ["--tab", "Register"]),
        merged(chosen),
        with_results(chosen),
        payments(chosen),
        reported(chosen),
        accounts(chosen),
        *refused(chosen),
    ]


# Trials


def converted(folder, sheet, rows):
    """What comes of the rows: status, standard output and standard error."""
    path = os.path.join(folder, "spreadsheet" + sheet.ending)
    with open(path, "wb") as out:
        out.write(sheet.encode(rows))
    words = sheet.words
    if words[:1] == ["MAP"]:
        with open(os.path.join(folder, "map"), "w", encoding="utf-8") as out:
            out.write(words[1])
        words = ["--map", os.path.join(folder, "map")]
    ran = subprocess.run([sys.executable, TO_FTD, path, "--for", sheet.command, *words], stdout=subprocess.PIPE, stderr=subprocess.PIPE, text=True)
    return ran.returncode, ran.stdout, ran.stderr


def cents(told):
    """An amount of the import's form."""
    found = re.fullmatch(r"([0-9]{1,9})(?:\.([0-9]{1,2}))?", told)
    return int(found[1]) * 100 + int((found[2] or "").ljust(2, "0"))


def day_number(told):
    assert re.fullmatch(r"[0-9]{4}-[0-9]{2}-[0-9]{2}", told), told
    return since_1970(datetime.date.fromisoformat(told))


def plainly_read(command, sheet):
    """The rows of the table that an import makes of a sheet, by the rules of docs/FORMATS.md."""
    header, *lines = [line.split(",") for line in sheet.split("\n")[:-1]]
    wanted = {
        "import": "employer,run,payday,fit,ss,medicare", "import-accounts": "employer,first_day,carried,form",
        "import-reported": "employer,period,amount", "import-payments": "employer,payment,paid,for,amount",
    }
    assert ",".join(header) == wanted[command], header
    assert all(re.fullmatch(r"[a-z][a-z0-9-]{0,19}", it[0]) for it in lines), lines
    if command == "import":
        assert all(re.fullmatch(r"[0-9]{1,9}", it[1]) for it in lines)
        return sorted((it[0], int(it[1]), day_number(it[2]), *map(cents, it[3:]), 0) for it in lines)
    if command == "import-payments":
        return sorted((it[0], int(it[1]), day_number(it[2]), day_number(it[3]), cents(it[4]), 0) for it in lines)
    if command == "import-reported":
        assert all(re.fullmatch(r"[0-9]{4}Q[1-4]", it[1]) for it in lines)
        return sorted((it[0], int(it[1][:4]), int(it[1][5]), cents(it[2])) for it in lines)
    return sorted((it[0], day_number(it[1]), ["no", "yes"].index(it[2]), ["941", "943"].index(it[3])) for it in lines)


def imported(folder, command, sheet):
    """The rows of the table that the program makes of a sheet in a new desk."""
    db, path = os.path.join(folder, "office.db"), os.path.join(folder, "sheet.csv")
    with open(path, "w", encoding="utf-8") as out:
        out.write(sheet)

    def ftd(*words):
        ran = subprocess.run([FTD, words[0], "--db", db, *words[1:]], stdout=subprocess.PIPE, stderr=subprocess.PIPE, text=True)
        assert ran.returncode == 0, (words, ran.stdout, ran.stderr)

    for year in ("2024", "2025"):
        ftd("calendar", year, f"{year}-07-04")
    for account in ("ash", "birch", "cedar") if command != "import-accounts" else ():
        ftd("enrol", account, "2022-01-01" if command == "import-reported" else "2024-01-01")
        if command != "import-reported":
            ftd("open-year", account, "2024")
    ftd(command, path)
    there = tables(db)
    if command == "import-accounts":
        forms = dict(there["account_form"])
        return sorted((*row, forms[row[0]]) for row in there["account"])
    return sorted(there[{"import": "run", "import-reported": "reported", "import-payments": "payment"}[command]])


def try_sheet(sheet):
    """Whether a spreadsheet goes in right, is refused as it has to be, or neither."""
    with tempfile.TemporaryDirectory() as folder:
        status, out, err = converted(folder, sheet, sheet.rows)
        if sheet.wanted is None:
            lines = err.split("\n")
            is_said = all(any(cell in line and remedy in line for line in lines) for cell, remedy in sheet.unclear)
            return "refused" if (status, out, len(lines)) == (1, "", len(sheet.unclear) + 1) and is_said else f"wrong: {status} {out}{err}"
        if status != 0:
            return f"wrong: {status} {out}{err}"
        there = plainly_read(sheet.command, out) if IS_PLAIN else imported(folder, sheet.command, out)
        return "right" if there == sheet.wanted else f"wrong: {there} {sheet.wanted}"


def letter(at):
    return "ABCDEFGHIJKLMNOPQRSTUVWXYZ"[at]


def damage(sheet, chosen):
    """Damages a cell of each column that counts, and gives how often, and what came of each that was not refused by its name."""
    count, wrong = 0, []
    with tempfile.TemporaryDirectory() as folder:
        for at, kind in sheet.kinds.items():
            for bad in chosen.sample(BAD[kind], min(4, len(BAD[kind]))):
                row = chosen.choice(list(sheet.data))
                rows = [list(it) for it in sheet.rows]
                rows[row][at] = bad
                status, out, err = converted(folder, sheet, rows)
                count += 1
                if (status, out) != (1, "") or f"({letter(at)}{row + 1})" not in err:
                    wrong.append(f"{sheet.name}: {letter(at)}{row + 1} is {bad}: {status} {out}{err}")
    return count, wrong


def other_trials():
    """What is wrong with statuses, and with a long list of errors."""
    with tempfile.TemporaryDirectory() as folder:
        path = os.path.join(folder, "long.csv")
        with open(path, "w", encoding="utf-8") as out:
            out.write("employer,run,payday,fit,ss,medicare\n" + "ash,1,2024-01-05,-1,-2,0\n" * 15)

        def run(*words):
            return subprocess.run([sys.executable, TO_FTD, *words], stdout=subprocess.PIPE, stderr=subprocess.PIPE, text=True)

        long = run(path, "--output", os.path.join(folder, "out.csv"))
        lines = long.stderr.split("\n")[:-1]
        if long.returncode != 1 or len(lines) != 21 or lines[-1] != "and 10 more" or os.path.exists(os.path.join(folder, "out.csv")):
            yield f"a long list of errors: {long}"
        for wanted, words in ((2, [path, "--column", "tax=FIT"]), (2, [path, "--dates", "m/d/y", "--dates", "d/m/y"]), (2, []), (2, [path, "--value", "fit=-1"]), (3, [path + "x"])):
            done = run(*words)
            if (done.returncode, done.stdout) != (wanted, ""):
                yield f"{words}: {done}"


def says(path, data, words, wanted):
    """What is wrong where a file is to be refused with a line that has these texts; None where it is."""
    with open(path, "wb") as out:
        out.write(data)
    ran = subprocess.run([sys.executable, TO_FTD, path, *words], stdout=subprocess.PIPE, stderr=subprocess.PIPE, text=True)
    if (ran.returncode, ran.stdout) == (1, "") and any(all(it in line for it in wanted) for line in ran.stderr.split("\n")):
        return None
    return f"{data[:200]} {words}: {wanted}: {ran}"


def unclear_trials(chosen):
    """What is wrong with what is said of the small texts and workbooks."""
    runs = some_runs(chosen, ("ash",), 2)
    with tempfile.TemporaryDirectory() as folder:
        small = [(data.encode() if isinstance(data, str) else data, *rest) for data, *rest in UNCLEAR]
        small += [(workbook(change)(book_rows(runs)), *rest) for change, *rest in UNCLEAR_BOOKS]
        return [it for it in (says(os.path.join(folder, "small"), *it) for it in small) if it]


def page_steps():
    """The commands of the page, with what stands below each."""
    with open(PAGE, encoding="utf-8") as page:
        blocks = re.findall(r"(?ms)^```console\n(.*?)^```", page.read())
    for block in blocks:
        for step in re.split(r"(?m)^% ", block)[1:]:
            command, _, printed = step.partition("\n")
            yield command, printed


def try_page():
    """What differs from the page."""
    with tempfile.TemporaryDirectory() as folder:
        os.mkdir(os.path.join(folder, "bin"))
        os.symlink(os.path.join(TOP, "examples"), os.path.join(folder, "examples"))
        os.symlink(sys.executable, os.path.join(folder, "bin", "python3"))
        if FTD:
            os.symlink(FTD, os.path.join(folder, "bin", "ftd"))
        path = f"{folder}/bin:{os.environ['PATH']}"
        for command, printed in page_steps():
            if re.search(r"\bftd ", command) and not FTD:
                continue
            ran = subprocess.run(["bash", "-c", command], cwd=folder, env={**os.environ, "PATH": path}, stdout=subprocess.PIPE, stderr=subprocess.STDOUT, text=True)
            if ran.stdout != printed:
                yield f"docs/SHEETS.md: {command}\n  printed  {ran.stdout}  wanted   {printed}"


def main():
    chosen = random.Random(SEED)
    all_of_them = spreadsheets(chosen)
    told = {"spreadsheets": len(all_of_them), "right": 0, "refused": 0, "wrong": 0, "damaged": 0, "not refused": 0, "unclear": len(UNCLEAR) + len(UNCLEAR_BOOKS), "differs": 0}
    for sheet in all_of_them:
        came = try_sheet(sheet)
        told[came if came in told else "wrong"] += 1
        print(f"{came if came in told else 'wrong':8} {sheet.name}")
        if came not in told:
            print(came)
        if sheet.wanted is not None:
            count, wrong = damage(sheet, chosen)
            told["damaged"] += count
            told["not refused"] += len(wrong)
            print("\n".join(wrong), end="\n" if wrong else "")
    differing = [*unclear_trials(chosen), *other_trials(), *try_page()]
    told["differs"] = len(differing)
    print("\n".join([*differing, ", ".join(f"{name} {count}" for name, count in told.items())]))
    return 1 if told["wrong"] or told["not refused"] or told["differs"] or told["right"] < 28 else 0


if __name__ == "__main__":
    sys.exit(main())
