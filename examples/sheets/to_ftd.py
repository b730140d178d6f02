#!/usr/bin/env python3
"""Reads a spreadsheet as offices and payroll products write it, and writes the sheet of CSV that an import of `ftd` takes.

It never guesses. Whatever is unclear is an error that names the cell and what to do about it; then nothing is written."""

import argparse
import csv
import datetime
import io
import re
import sys
import warnings
from decimal import Decimal

HELP_BELOW = """
FIELD is a column of the sheet that the import takes. NAME is the name of a column as the spreadsheet has it, in any letters, or @ and the
column's letter, as @D. Of `import` the fields are employer, run, payday, fit, ss and medicare; for shares in columns of their own there are
ss-employee, ss-employer, medicare-employee and medicare-employer. A FIELD of an amount may be given several times: its columns are added up.

A file of --map has one option a line, without the two hyphens, as `column payday=Check Date`; lines that begin with # are notes.

The exit status is 0 if the sheet was written, 1 if something in the spreadsheet is unclear, 2 for a bad command line, and 3 if a file can't be
read or written. docs/SHEETS.md has examples."""

MOST_SHOWN = 20
MOST_BYTES = 16 * 1024 * 1024
MOST_CENTS = 99_999_999_999
MOST_NUMBER = 999_999_999
FIRST_YEAR, LAST_YEAR = 1900, 2199

# The columns of each import, in its order, with the kind of each.
SHEETS = {
    "import": {"employer": "account", "run": "number", "payday": "day", "fit": "amount", "ss": "amount", "medicare": "amount"},
    "import-accounts": {"employer": "account", "first_day": "day", "carried": "yes or no", "form": "form"},
    "import-reported": {"employer": "account", "period": "period", "amount": "amount"},
    "import-payments": {"employer": "account", "payment": "number", "paid": "day", "for": "day", "amount": "amount"},
}
# By which day the records are numbered where the spreadsheet has no numbers.
NUMBERED_BY = {"run": "payday", "payment": "paid"}
# What no two records of an import share.
KEYS = {"import": ("employer", "run"), "import-accounts": ("employer",), "import-reported": ("employer", "period"), "import-payments": ("employer", "payment")}
# The shares that are added up to a field.
SHARES = {"ss": ("ss-employee", "ss-employer"), "medicare": ("medicare-employee", "medicare-employer")}
SHARE_OF = {share: field for field, shares in SHARES.items() for share in shares}

# The names of columns that are known, as `plain_name` writes them. A name is here only if it has one meaning: `Medicare` alone may be the
# employee's share or both, `Date` the payday or the end of the period, so they are not.
KNOWN = {
    "employer": ["employer", "employer name", "company", "company name", "company code", "client", "client name", "account"],
    "run": ["run", "run number", "run no", "pay run", "pay run number", "payroll number", "payroll no", "payroll run"],
    "payday": ["payday", "pay day", "pay date", "check date", "paycheck date", "cheque date"],
    "fit": ["fit", "fit withheld", "fed income tax", "federal income tax", "federal income tax withheld", "federal withholding", "fed withholding",
            "federal w h", "fed w h", "fwt"],
    "ss": ["ss both shares", "social security both shares", "both shares of social security"],
    "medicare": ["medicare both shares", "both shares of medicare"],
    "ss-employee": ["ss employee", "employee ss", "ss ee", "ee ss", "social security employee", "employee social security", "social security ee",
                    "ee social security", "oasdi ee", "oasdi employee", "employee oasdi"],
    "ss-employer": ["ss employer", "employer ss", "ss er", "er ss", "ss company", "social security employer", "employer social security",
                    "social security er", "er social security", "social security company", "oasdi er", "oasdi employer", "employer oasdi"],
    "medicare-employee": ["medicare employee", "employee medicare", "medicare ee", "ee medicare", "med ee", "med employee"],
    "medicare-employer": ["medicare employer", "employer medicare", "medicare er", "er medicare", "med er", "med employer", "medicare company"],
    "first_day": ["first day", "first day of wages"],
    "carried": ["carried"],
    "form": ["form", "tax form"],
    "period": ["period", "quarter", "tax period"],
    "amount": ["amount", "total tax", "payment amount", "amount paid", "deposit amount"],
    "payment": ["payment number", "payment no"],
    "paid": ["paid", "date paid", "paid on", "payment date", "deposit date"],
    "for": ["for", "for day", "liability date"],
}
# A column with one of these words in its name may be tax: it is left out only by its own name.
TAX_WORDS = set("federal fed fica fit fwt ss soc social oasdi medicare med 941 withholding withheld wh futa tax taxes ee er".split())

DATE_FORMS = {
    "m/d/y": "MDY/4", "d/m/y": "DMY/4", "d.m.y": "DMY.4", "m-d-y": "MDY-4", "d-m-y": "DMY-4",
    "m/d/yy": "MDY/2", "d/m/yy": "DMY/2", "d.m.yy": "DMY.2",
}
SPACES = "\u00a0\u2007\u202f"
GROUPS = {"point": f",'\u2019 {SPACES}", "comma": f".'\u2019 {SPACES}"}
DASH = "[$]? *[\u2013\u2014\u2212-]"
SIGNS = {"point": ".", "comma": ","}
SEPARATORS = {"comma": ",", "semicolon": ";", "tab": "\t"}


class Unclear(Exception):
    """What is unclear in a cell, and what to do about it."""


class Unreadable(Exception):
    """Why a file can't be read or written."""


class Merged:
    """A cell that a spreadsheet has merged with the one that has its value."""

    def __str__(self):
        return ""


class Broken:
    """A cell of a workbook that has no value to be read, and why."""

    def __init__(self, text, why):
        self.text, self.why = text, why

    def __str__(self):
        return self.text


class Faults:
    """What is unclear, cell by cell."""

    def __init__(self):
        self.found = []

    def add(self, row, at, where, what):
        """Something unclear at a row and the index of a column."""
        self.found.append(((row, at), f"{where}: {what}"))

    def stop(self):
        """Prints what was found, and exits, if anything was."""
        if not self.found:
            return
        lines = [line for _, line in sorted(self.found, key=lambda it: it[0])]
        for line in lines[:MOST_SHOWN]:
            print(line, file=sys.stderr)
        if len(lines) > MOST_SHOWN:
            print(f"and {len(lines) - MOST_SHOWN} more", file=sys.stderr)
        sys.exit(1)


class Grid:
    """The rows of a spreadsheet, by the numbers that it gives them, with the day from which it counts the days."""

    def __init__(self, rows, epoch=datetime.date(1899, 12, 30), hidden=()):
        self.rows, self.epoch, self.hidden = rows, epoch, set(hidden)

    def row(self, number):
        """The cells of a row."""
        return self.rows[number - 1]


def same_spaces(text):
    """The text with one space for each run of spaces, and none at its ends."""
    return " ".join(text.split())


def any_letters(text):
    """The text as it is compared with another one: in any letters, with any spaces."""
    return same_spaces(text).casefold()


def plain_name(text):
    """The words of a name alone."""
    return " ".join(re.findall(r"\w+", text.casefold().replace("_", " ")))


def letter(at):
    """The letter that a spreadsheet gives to the column at an index: A, B, .., AA."""
    text, at = "", at + 1
    while at:
        at, rest = divmod(at - 1, 26)
        text = chr(65 + rest) + text
    return text


def index(letters):
    """The index of the column that has these letters."""
    at = 0
    for it in letters.upper():
        at = at * 26 + ord(it) - 64
    return at - 1


def shown(cell):
    """The text of a cell as an error shows it."""
    text = "".join(it if it.isprintable() else "?" for it in same_spaces(str(cell)))
    return text if len(text) <= 40 else text[:37] + "..."


def is_empty(cell):
    """Whether a cell has nothing."""
    return isinstance(cell, Merged) or str(cell).strip() == ""


# Reading


def read_bytes(path):
    """The bytes of the file, or of standard input."""
    try:
        if path == "-":
            return sys.stdin.buffer.read()
        with open(path, "rb") as it:
            return it.read()
    except OSError as fault:
        raise Unreadable(f"{path}: {fault.strerror}") from fault


def decoded(data, encoding):
    """The text of the bytes: UTF-8 with or without its mark, UTF-16 with its mark, or what the option says."""
    if data.startswith((b"\xff\xfe", b"\xfe\xff")):
        name, encoding = "UTF-16", "utf-16"
    else:
        name, encoding = ("UTF-8", "utf-8-sig") if encoding == "utf-8" else (encoding, encoding)
    try:
        text = data.decode(encoding)
    except UnicodeDecodeError as fault:
        row = data[: fault.start].count(b"\n") + 1
        remedy = "save it as CSV UTF-8, or, if Excel wrote it as plain CSV on Windows, say --encoding windows-1252"
        raise Unclear(f"line {row}: the text is not {name}: {remedy}") from fault
    if "\0" in text:
        raise Unclear(f"line {text[: text.index(chr(0))].count(chr(10)) + 1}: there is a zero byte: save it as CSV UTF-8")
    return text


def split(text, separator):
    """The rows of cells of a text."""
    reader = csv.reader(io.StringIO(text, newline=""), delimiter=separator, strict=True)
    rows = []
    try:
        rows.extend([cell.strip() for cell in row] for row in reader)
    except csv.Error as fault:
        raise Unclear(f"line {reader.line_num}: {fault}: write a quote within a quoted cell twice, and close each") from fault
    return rows


def header_number(rows, wanted):
    """The number of the header row: the one that is said, or the first one that has anything."""
    first = next((at for at, row in enumerate(rows, 1) if not all(map(is_empty, row))), None)
    if first is None:
        raise Unclear("row 1: the spreadsheet is empty: is it the right file?")
    if wanted and (wanted > len(rows) or all(map(is_empty, rows[wanted - 1]))):
        raise Unclear(f"row {wanted}: there is nothing in the header row that --header-row names: say another one")
    return wanted or first


def text_rows(text, options):
    """The rows of a text, whose separator is the one that its header has, or what the option says."""
    said = re.match(r"sep=([,;\t])(\r\n|\r|\n)", text)
    if said:
        text = text[said.end():]
    separators = [SEPARATORS[options.separator]] if options.separator else [said[1]] if said else SEPARATORS.values()
    found, faults = [], []
    for it in separators:
        try:
            rows = split(text, it)
            number = header_number(rows, options.header_row)
            found.append((len(rows[number - 1]), number, rows))
        except Unclear as fault:
            faults.append(fault)
    if not found:
        raise faults[0]
    several = [it for it in found if it[0] > 1]
    if len(several) > 1:
        raise Unclear(f"row {several[0][1]}: more than one of comma, semicolon and tab is in the header: say --separator comma, semicolon or tab")
    if several or len(separators) == 1 or not faults:
        return (several or found)[0][2]
    raise faults[0]


def workbook_cell(value, formula):
    """A cell of a workbook: a text, a number, a day, or why there is none."""
    if type(value).__name__ == "MergedCell":
        return Merged()
    it, form = value.value, value.number_format or ""
    if it is None and formula.value is not None:
        return Broken(str(formula.value), "is a formula without its result: open the workbook in its program and save it; if the cell is to be empty, delete the formula")
    if value.data_type == "e":
        return Broken(str(it), "is an error of the spreadsheet: correct its formula")
    if isinstance(it, (bool, datetime.time, datetime.timedelta)):
        return Broken(str(it), "is neither a text, nor a number, nor a date: write it as one")
    if isinstance(it, (int, float)):
        if re.search("[%€£¥]", form):
            return Broken(f"{it} with the format {form}", "is not in dollars: give the column the format of a plain number")
        return Decimal(int(it)) if it == int(it) else Decimal(repr(it))
    return it.strip() if isinstance(it, str) else "" if it is None else it


def chosen_tab(book, name):
    """The worksheet that is said, or the only one that has anything."""
    tabs = [it for it in book.worksheets if any(cell.value is not None for row in it.iter_rows() for cell in row)]
    if name is not None:
        tabs = [it for it in book.worksheets if it.title == name]
    if len(tabs) == 1:
        return tabs[0].title
    names = ", ".join(f'"{it.title}"' for it in book.worksheets)
    if name is not None:
        raise Unclear(f'the workbook has no tab "{name}", only {names}: say --tab with one of these')
    raise Unclear(f"the workbook has {len(tabs)} tabs with something in them, of {names}: say --tab NAME")


def workbook_grid(data, options):
    """The rows of a workbook's tab."""
    try:
        import openpyxl
    except ImportError as fault:
        raise Unreadable("workbooks need openpyxl (Debian's python3-openpyxl): install it, or save the spreadsheet as CSV UTF-8") from fault
    try:
        with warnings.catch_warnings():
            warnings.simplefilter("ignore")
            values, formulas = (openpyxl.load_workbook(io.BytesIO(data), data_only=it) for it in (True, False))
    except Exception as fault:
        raise Unclear("the file is not a workbook that can be read: save it as .xlsx or as CSV UTF-8") from fault
    name = chosen_tab(values, options.tab)
    pairs = zip(values[name].iter_rows(), formulas[name].iter_rows())
    rows = [[workbook_cell(*it) for it in zip(*pair)] for pair in pairs]
    hidden = [number for number, it in values[name].row_dimensions.items() if it.hidden]
    return Grid(rows, values.epoch.date(), hidden)


def read_grid(options):
    """The rows of the spreadsheet."""
    data = read_bytes(options.spreadsheet)
    if data.startswith(b"PK\x03\x04"):
        return workbook_grid(data, options)
    if data.startswith(b"\xd0\xcf\x11\xe0"):
        raise Unclear("the file is a workbook of the old form .xls, or has a password: save it as .xlsx or as CSV UTF-8")
    if options.tab is not None:
        raise Unclear("the file is not a workbook, and has no tabs: leave out --tab")
    return Grid(text_rows(decoded(data, options.encoding), options))


# Columns


class Columns:
    """The header: which columns give each field, and which are left out."""

    def __init__(self, grid, number, options, faults):
        self.names = [same_spaces(str(it)) for it in grid.row(number)]
        self.grid, self.number, self.options, self.faults = grid, number, options, faults
        self.of, self.left_out = {}, set()
        self.fields = SHEETS[options.command]
        self.words = [*self.fields, *(it for field in self.fields for it in SHARES.get(field, ()))]

    def where(self, row, at):
        """The cell as the spreadsheet names it."""
        name = self.names[at] if at < len(self.names) else ""
        return f'row {row}, column "{name}" ({letter(at)}{row})' if name else f"row {row}, column {letter(at)} ({letter(at)}{row})"

    def fault(self, at, what):
        """Something unclear about a column."""
        self.faults.add(self.number, at, self.where(self.number, at), what)

    def said(self, at):
        """The column as an option names it."""
        return f'"{self.names[at]}"' if len(self.by_name(self.names[at])) == 1 else f"@{letter(at)}"

    def by_name(self, name):
        """The indexes of the columns of a name, or the one of a letter."""
        if re.fullmatch(r"@[A-Za-z]{1,3}", name):
            return [index(name[1:])]
        return [at for at, it in enumerate(self.names) if it and any_letters(it) == any_letters(name)]

    def one(self, name, option):
        """The one column of a name; None, and a fault, where there is none or more than one."""
        found = self.by_name(name)
        if len(found) == 1:
            return found[0]
        names = ", ".join(it for it in self.names if it)
        if not found:
            self.faults.add(self.number, -1, f"row {self.number}", f'no column is named "{name}", as {option} says; the columns are {names}')
        else:
            self.fault(found[1], f'column {letter(found[0])} has the same name: say @{letter(found[0])} or @{letter(found[1])} in {option}')
        return None

    def read(self):
        """Reads the header."""
        for name in self.options.ignore:
            self.left_out.update(self.by_name(name))
        taken = {}
        for word, name in self.options.column:
            at = self.one(name, "--column")
            if at is not None:
                if at in taken or at in self.left_out:
                    self.fault(at, f"is {word} and {taken.get(at, 'left out')} at once: name it once")
                taken[at] = word
                self.of.setdefault(word, []).append(at)
        other = self.other_header()
        if other:
            self.faults.add(self.number, -1, f"row {self.number}", f"no column is known by its name, and row {other} looks like the header: say --header-row {other} if it is")
            return
        for at, name in enumerate(self.names):
            if name and at not in taken and at not in self.left_out:
                self.know(at, name, {it for it, _ in self.options.column})
        self.complete()

    def own_names(self):
        """Whether the header has each column of the sheet by its own name: then `ss` and `medicare` are both shares."""
        there = {plain_name(it) for it in self.names}
        return all(plain_name(it) in there for it in self.fields)

    def know(self, at, name, said):
        """Finds what a column is by the names that are known, or leaves it out, or says that it is unclear."""
        plain = plain_name(name)
        word = next((it for it in self.words if plain in KNOWN.get(it, ()) or (self.own_names() and plain == plain_name(it))), None)
        if word and (word in said or self.of.get(word)):
            self.fault(at, f"is {word} by its name, as another column is: say --ignore {self.said(at)}, or --column {word}=NAME for each that counts")
        elif word:
            self.of[word] = [at]
        elif self.may_be_tax(plain):
            self.fault(at, self.tax_remedy(plain, self.said(at)))
        elif self.options.ignore_others:
            self.left_out.add(at)
        else:
            name = self.said(at)
            self.fault(at, f"is not known: say --column FIELD={name}, --ignore {name}, or --ignore-others for all such columns")

    def may_be_tax(self, plain):
        """Whether a column that is not known may be one of the taxes that are deposited."""
        return self.options.command == "import" and (not TAX_WORDS.isdisjoint(plain.split()) or re.search(r"\bw h\b", plain) is not None)

    @staticmethod
    def tax_remedy(plain, name):
        """What to do about a column that may be tax."""
        words = set(plain.split())
        field = "medicare" if words & {"medicare", "med"} else "ss" if words & {"ss", "soc", "social", "oasdi"} else None
        if field:
            ways = f"--column {field}={name} if it has both shares, --column {field}-employee={name} or {field}-employer={name} if it has one"
            return f"may be tax, and it is not clear which shares: say {ways}, or --ignore {name}"
        return f"may be tax: say --column FIELD={name} or --ignore {name}"

    def other_header(self):
        """The number of a row that looks like the header, where this one has no name that is known or said; None where there is none."""
        known = {name for word in self.words for name in KNOWN.get(word, ())}
        said = {any_letters(name) for _, name in self.options.column}
        counts = [sum(plain_name(str(it)) in known or any_letters(str(it)) in said for it in row) for row in self.grid.rows]
        if counts[self.number - 1] or self.of:
            return None
        return next((number for number, count in enumerate(counts, 1) if count > 1), None)

    def complete(self):
        """Looks for a column or a value for each field."""
        values = {word for word, _ in self.options.value}
        for field, kind in self.fields.items():
            there = [it for it in (field, *SHARES.get(field, ())) if it in self.of or it in values]
            for it in set(there) & values & set(self.of):
                self.fault(self.of[it][0], f"is {it}, which --value gives too: leave out one of them")
            if field in there and len(there) > 1:
                at = next((self.of[it][0] for it in there[1:] if it in self.of), 0)
                self.fault(at, f"{field} is there with both shares and with {there[1]}: ignore one of them")
            elif len(there) == 1 and there[0] != field:
                other = next(it for it in SHARES[field] if it not in there)
                at = self.of.get(there[0], [0])[0]
                self.fault(at, f"is one share of {field}, and there is no {other}: say --column {other}=NAME; it is not computed")
            elif not there and field not in NUMBERED_BY:
                doubt = "" if self.of else f"; is row {self.number} the header?"
                what = f"there is no column for {field}: say --column {field}=NAME, or --value {field}=TEXT for all rows{doubt}"
                self.faults.add(self.number, -1, f"row {self.number}", what)
            if kind != "amount" and len(self.of.get(field, ())) > 1:
                self.fault(self.of[field][1], f"is a second column for {field}: name one")


# Values


def account_of(cell, reading):
    """An account name, by the names that are said."""
    text = any_letters(str(cell))
    name = reading.accounts.get(text, str(cell))
    if not re.fullmatch(r"[a-z][a-z0-9-]{0,19}", name):
        raise Unclear(f'{shown(cell) or "nothing"} is not an account name: ' + (
            f'say --account "{shown(cell)}=ACCOUNT" with the name that it has at the desk' if text
            else "write it into the cell, say --fill-down for a column that names it once, or --leave-out for rows to leave out"))
    return name


def number_of(cell, reading):
    """A number of a run or a payment."""
    text = str(cell)
    if text == "":
        raise Unclear("there is no number, and other rows have one: write it, or --ignore the column to have all rows numbered by day")
    if not re.fullmatch("[0-9]{1,9}", text) or int(text) < 1:
        raise Unclear(f"{shown(cell)} is not a number from 1 to {MOST_NUMBER}: correct it, or --ignore the column to have all rows numbered by day")
    return str(int(text))


def without_time(text, reading):
    """The text without the time beside a day."""
    found = re.fullmatch(r"(.*?[0-9])(?:T| +)([0-9]{1,2}):([0-9]{2})(?::([0-9]{2})(?:\.0+)?)?(?: *([AaPp])\.?[Mm]\.?)?", text)
    if not found:
        return text
    hour = int(found[2]) % 12 if found[5] and found[5] in "Aa" else int(found[2])
    if (hour, int(found[3]), int(found[4] or 0)) != (0, 0, 0) and not reading.options.drop_times:
        raise Unclear(f"{shown(text)} has a time: say --drop-times if its day is the one that is meant")
    return found[1]


def by_form(text, form):
    """The day of a text in a form, or None where the text is not in it."""
    order, separator, digits = DATE_FORMS[form][:3], DATE_FORMS[form][3], DATE_FORMS[form][4]
    part = {"M": "([0-9]{1,2})", "D": "([0-9]{1,2})", "Y": f"([0-9]{{{digits}}})"}
    found = re.fullmatch(re.escape(separator).join(part[it] for it in order), text)
    if not found:
        return None
    values = dict(zip(order, map(int, found.groups())))
    year = values["Y"] + (2000 if digits == "2" else 0)
    try:
        return datetime.date(year, values["M"], values["D"])
    except ValueError:
        return None


def serial_day(count, reading):
    """The day that a spreadsheet counts so."""
    if count != int(count) and not reading.options.drop_times:
        raise Unclear(f"{count} has a time beside the day: say --drop-times if its day is the one that is meant")
    first = datetime.date(1904, 1, 1) if reading.options.epoch == "1904" else reading.grid.epoch
    if int(count) < 61 or int(count) > 109_574:
        raise Unclear(f"{count} is not a number of a day from 1900 to 2199: write the day as YYYY-MM-DD")
    return first + datetime.timedelta(int(count))


def bad_day(text, cell, forms):
    """Why a text is no day, and what to do."""
    could = [it for it in DATE_FORMS if by_form(text, it)]
    if could and not forms:
        ways = " or ".join(f"--dates {it}" for it in could)
        raise Unclear(f"{shown(cell)} is a date only by its form, which is not said: say {ways}")
    if could:
        raise Unclear(f"{shown(cell)} is not a date as --dates {' or '.join(forms)} says; as {' or '.join(could)} it is one: which is right?")
    if re.fullmatch(r"[0-9]{4,6}(\.[0-9]+)?", text):
        raise Unclear(f"{shown(cell)} is a number: give the column the format of a date, or say --dates serial if it counts days as spreadsheets do")
    if text == "":
        raise Unclear("there is no date: write it, or say --leave-out for rows to leave out")
    raise Unclear(f"{shown(cell)} is not a date: write it as YYYY-MM-DD, with a day that exists")


def day_of(cell, reading):
    """A day of the years that an import takes, and the form in which it is written."""
    day, form = any_day_of(cell, reading)
    if not FIRST_YEAR <= day.year <= LAST_YEAR:
        raise Unclear(f"{shown(cell)} is not a date from {FIRST_YEAR} to {LAST_YEAR}: correct it")
    return day, form


def any_day_of(cell, reading):
    """A day, and the form in which it is written."""
    forms = [it for it in reading.options.dates if it in DATE_FORMS]
    if isinstance(cell, datetime.datetime):
        if cell.time() != datetime.time() and not reading.options.drop_times:
            raise Unclear(f"{cell} has a time: say --drop-times if its day is the one that is meant")
        return cell.date(), "y-m-d"
    if isinstance(cell, datetime.date):
        return cell, "y-m-d"
    text = f"{cell:f}" if isinstance(cell, Decimal) else without_time(str(cell), reading)
    if re.fullmatch(r"[0-9]{4}-[0-9]{2}-[0-9]{2}", text):
        try:
            return datetime.date.fromisoformat(text), "y-m-d"
        except ValueError:
            bad_day(text, cell, forms)
    if "serial" in reading.options.dates and re.fullmatch(r"[0-9]{1,6}(\.[0-9]+)?", text):
        return serial_day(Decimal(text), reading), "serial"
    for form in forms:
        day = by_form(text, form)
        if day:
            return day, form
    return bad_day(text, cell, forms)


def cents_of_text(text, decimal):
    """The cents of an amount without a sign of minus, or None."""
    text = re.sub(r"^(\$|USD) ?| ?(\$|USD)$", "", text, count=1)
    point, groups = re.escape(SIGNS[decimal]), f"[{re.escape(GROUPS[decimal])}]"
    found = re.fullmatch(rf"([0-9]+|[0-9]{{1,3}}({groups})[0-9]{{3}}(?:\2[0-9]{{3}})*)?(?:{point}([0-9]{{1,2}}))?", text)
    if not found or not (found[1] or found[3]):
        return None
    whole = re.sub("[^0-9]", "", found[1] or "0")
    return int(whole) * 100 + int((found[3] or "").ljust(2, "0"))


def bad_amount(text, decimal):
    """Why a text is no amount, and what to do."""
    bare = same_spaces(re.sub("[()\u2212-]", "", text))
    if bare != text and cents_of_text(bare, decimal) is not None:
        return f"{shown(text)} is below zero: no run, payment or total is; void what it takes back (docs/MISTAKES.md), and correct the cell or leave out the row"
    if re.fullmatch(DASH, text):
        return f"{shown(text)} is no number: say --dash-is-zero if it is zero"
    other = "comma" if decimal == "point" else "point"
    if cents_of_text(bare, other) is not None:
        return f"{shown(text)} is no amount with a decimal {decimal}: say --decimal {other} if a {other} is before the cents, or else round it to cents"
    if re.search(rf"{re.escape(SIGNS[decimal])}[0-9]{{3,}}", text):
        return f"{shown(text)} has more than two digits of cents: round it in the spreadsheet"
    return f"{shown(text)} is no amount in dollars: write it like 1234.56"


def cents_of(cell, reading):
    """The cents of an amount; None for an empty cell."""
    decimal = reading.options.decimal
    if is_empty(cell):
        return None
    if isinstance(cell, datetime.date):
        raise Unclear(f"{shown(cell)} is a date, and no amount: give the cell the format of a number")
    if isinstance(cell, Decimal):
        if cell < 0:
            raise Unclear(bad_amount(f"{cell:f}", "point"))
        if cell * 100 != int(cell * 100):
            raise Unclear(f"{shown(cell)} has more than two digits of cents: round it in the spreadsheet, as with ROUND(.., 2)")
        cents = int(cell * 100)
    else:
        text = same_spaces(cell)
        dash = reading.options.dash_is_zero and re.fullmatch(DASH, text)
        cents = 0 if dash else cents_of_text(text, decimal)
        if cents is None:
            raise Unclear(bad_amount(text, decimal))
    if cents > MOST_CENTS:
        raise Unclear(f"{shown(cell)} is more than 999999999.99: is it the right column?")
    return cents


def period_of(cell, _):
    """A quarter, or a year."""
    text = same_spaces(str(cell)).upper()
    year, quarter = r"(?P<year>[0-9]{4})", r"(?:Q(?P<q>[1-4])|(?P<p>[1-4])Q)"
    for form in (year, rf"{year}[- /]?{quarter}", rf"{quarter}[- /]?{year}"):
        found = re.fullmatch(form, text)
        if found and FIRST_YEAR <= int(found["year"]) <= LAST_YEAR:
            number = "q" in found.groupdict() and (found["q"] or found["p"])
            return f"{found['year']}Q{number}" if number else found["year"]
    raise Unclear(f"{shown(cell) or 'nothing'} is not a quarter like 2024Q2, or a year like 2024: write it so")


def answer_of(cell, _):
    """Yes or no."""
    word = {"yes": "yes", "y": "yes", "true": "yes", "no": "no", "n": "no", "false": "no"}.get(any_letters(str(cell)))
    if not word:
        raise Unclear(f"{shown(cell) or 'nothing'} is not yes or no: write it, or say --value carried=no")
    return word


def form_of(cell, _):
    """A form of return."""
    found = re.fullmatch(r"(?:form ?)?(941|943)", any_letters(str(cell)))
    if not found:
        raise Unclear(f"{shown(cell) or 'nothing'} is not 941 or 943: write it, or say --value form=941")
    return found[1]


KINDS = {"account": account_of, "number": number_of, "day": day_of, "amount": cents_of, "period": period_of, "yes or no": answer_of, "form": form_of}


# Rows


class Reading:
    """The rows below the header, as records of the sheet."""

    def __init__(self, grid, columns, options, faults):
        self.grid, self.columns, self.options, self.faults = grid, columns, options, faults
        self.accounts = {any_letters(text): name for text, name in options.account}
        self.values = dict(options.value)
        self.records, self.forms, self.above, self.widths = [], {}, {}, {}
        self.filled = [it for it in (columns.one(name, "--fill-down") for name in options.fill_down) if it is not None]
        self.tests = [(columns.one(name, "--leave-out"), self.pattern(text)) for name, text in options.leave_out]

    @staticmethod
    def pattern(text):
        """What a cell is compared with: * stands for any text."""
        return ".*".join(re.escape(it) for it in any_letters(text).split("*"))

    def fault(self, row, at, what):
        """Something unclear in a cell."""
        self.faults.add(row, at, self.columns.where(row, at), what)

    def read(self):
        """Reads each row that is not empty and not left out."""
        for number in range(self.columns.number + 1, len(self.grid.rows) + 1):
            cells = self.grid.row(number)
            if all(map(is_empty, cells)):
                continue
            cells = [*cells, *[""] * (len(self.columns.names) - len(cells))]
            matched = [at for at, text in self.tests if at is not None and re.fullmatch(text, any_letters(str(self.cell(cells, at))), re.DOTALL)]
            is_bare = bool(self.filled) and self.has_amounts_alone(cells)
            self.fill(cells, matched)
            if matched:
                continue
            if is_bare:
                self.faults.add(number, -1, f"row {number}", "has amounts alone: say --leave-out if it is a row of totals, or write what --fill-down has to fill")
            self.row(number, cells)

    def has_amounts_alone(self, cells):
        """Whether a row says of nothing whose its amounts are, as a row of totals without a word does."""
        others = [at for word, found in self.columns.of.items() if self.columns.fields.get(word, "amount") != "amount" for at in found]
        texts = [it for it in cells if not is_empty(it) and not isinstance(it, Decimal)]
        is_text = lambda it: cents_of_text(same_spaces(str(it)), self.options.decimal) is None
        return all(is_empty(self.cell(cells, at)) for at in others) and not any(map(is_text, texts))

    @staticmethod
    def cell(cells, at):
        """The cell at an index, or an empty one."""
        return cells[at] if at < len(cells) else ""

    def fill(self, cells, matched):
        """Fills an empty cell of a column that names something once. A row that is left out by that very column names nothing."""
        for at in self.filled:
            if not is_empty(self.cell(cells, at)):
                self.above[at] = "" if at in matched else cells[at]
            elif at < len(cells):
                cells[at] = self.above.get(at, "")

    def row(self, number, cells):
        """Reads a row."""
        if number in self.grid.hidden:
            self.faults.add(number, -1, f"row {number}", "is hidden: show it, or delete it")
        for at, cell in enumerate(cells):
            is_named = at < len(self.columns.names) and self.columns.names[at]
            if not is_named and at not in self.columns.left_out and not any(at in it for it in self.columns.of.values()) and not is_empty(cell):
                self.fault(number, at, f"{shown(cell)} is below no name: is a comma within an amount not quoted? else name the column, or say --ignore @{letter(at)}")
        width = len(self.grid.row(number))
        self.widths.setdefault(width, []).append(number)
        record = {"": number}
        for field, kind in self.columns.fields.items():
            if kind == "amount":
                record[field] = self.amount(number, cells, width, field)
            elif field in self.columns.of or field in self.values:
                record[field] = self.value(number, cells, width, field, kind)
        amounts = [it for it, kind in self.columns.fields.items() if kind == "amount"]
        found = [at for it in self.amount_words(amounts) for at in self.columns.of.get(it, ())]
        if found and all(record[it] == "" for it in amounts if any(word in self.columns.of for word in self.amount_words([it]))):
            at = min(found)
            self.fault(number, at, "no amount is in this row: write 0.00, or say --leave-out for rows to leave out")
        if self.options.command == "import-payments" and record["amount"] == 0:
            self.fault(number, self.columns.of.get("amount", [0])[0], "is a payment of nothing, which the desk refuses: delete the row, or --leave-out such rows")
        self.records.append(record)

    @staticmethod
    def amount_words(fields):
        """The fields with their shares."""
        return [it for field in fields for it in (field, *SHARES.get(field, ()))]

    def value(self, number, cells, width, word, kind):
        """The value of a field, or None where it is unclear."""
        if word in self.values:
            found = KINDS[kind](self.values[word], self)
            return found[0] if kind == "day" else found
        return self.at(number, cells, width, self.columns.of[word][0], kind)

    def at(self, number, cells, width, at, kind):
        """The value of the cell at an index, or None where it is unclear."""
        cell = self.cell(cells, at)
        try:
            if at >= width and at not in self.filled:
                raise Unclear("the row ends before this column: write the cell, 0.00 for an amount of nothing; is the file cut off?")
            if isinstance(cell, Broken):
                raise Unclear(f"{shown(cell)} {cell.why}")
            if isinstance(cell, Merged) and at not in self.filled:
                raise Unclear("is merged with another cell: split the cells, and write each value")
            found = KINDS[kind]("" if isinstance(cell, Merged) else cell, self)
            if kind != "day":
                return found
            self.forms.setdefault(at, {}).setdefault(found[1], []).append(number)
            return found[0]
        except Unclear as fault:
            self.fault(number, at, str(fault))
            return None

    def part(self, number, cells, width, word):
        """The cents of one field or share, all its columns added up; None where all are empty, and False where one is unclear."""
        if word in self.values:
            return cents_of(self.values[word], self)
        before = len(self.faults.found)
        cents = [self.at(number, cells, width, at, "amount") for at in self.columns.of[word]]
        if len(self.faults.found) > before:
            return False
        return sum(it or 0 for it in cents) if any(it is not None for it in cents) else None

    def amount(self, number, cells, width, field):
        """The cents of a field; an empty text where all its cells are empty, and None where one is unclear."""
        words = [it for it in (field, *SHARES.get(field, ())) if it in self.columns.of or it in self.values]
        parts = {it: self.part(number, cells, width, it) for it in words}
        if any(it is False for it in parts.values()):
            return None
        for word, cents in parts.items():
            if cents is None and any(parts.values()):
                at = self.columns.of.get(word, [0])[0]
                self.fault(number, at, "one share is there, and this one is not: write it, 0.00 if there is none")
                return None
        of_cells = [parts[it] for it in words if it in self.columns.of]
        if of_cells and all(it is None for it in of_cells):
            return ""
        total = sum(it or 0 for it in parts.values())
        if total > MOST_CENTS:
            self.fault(number, self.columns.of.get(words[0], [0])[0], f"{field} is more than 999999999.99 with all its columns: is it the right column?")
        return total

    def check_widths(self):
        """All rows have as many cells as the header, or all as many as each other: one that has not may be shifted by a comma within an amount."""
        header = max([len(self.columns.names), *(at + 1 for at in self.columns.left_out)])
        for width, rows in self.widths.items():
            for row in rows if width != header and (len(self.widths) > 1 or width > header) else ():
                what = f"has {width} cells, and the header {header}: is a comma within an amount not quoted? else write as many in each row"
                what += f", or say --ignore @{letter(header)} if all rows have one more" if width == header + 1 else ""
                self.faults.add(row, -1, f"row {row}", what)

    def check_forms(self):
        """A column of dates has one form: where some are dates and some texts, a spreadsheet of another country may have swapped day and month."""
        for at, forms in self.forms.items():
            first = min(forms, key=lambda it: forms[it][0])
            for form, rows in forms.items():
                for row in rows if form != first else ():
                    what = f"is a date as {form}, and the one in row {forms[first][0]} is as {first}: a spreadsheet may have swapped days and months"
                    self.fault(row, at, f"{what}; write the whole column in one form")

    def number(self):
        """Numbers the records of each account by their days, where the spreadsheet has no numbers."""
        field = next((it for it in self.columns.fields if it in NUMBERED_BY), None)
        if field is None or field in self.columns.of or field in self.values:
            if self.options.after:
                self.faults.add(self.columns.number, -1, f"row {self.columns.number}", "there are no numbers to make: leave out --after, or --ignore the column of numbers")
            return
        by, last, seen = NUMBERED_BY[field], {}, {}
        after = dict(self.options.after)
        for record in sorted(self.records, key=lambda it: (it["employer"], it[by], it[""])):
            account, day = record["employer"], record[by]
            if (account, day) in seen and not self.options.number_each:
                at = self.columns.of.get(by, [0])[0]
                what = f"{account} has {day} in row {seen[account, day]} too: say --number-each if each is a {field} of its own, or correct it"
                self.fault(record[""], at, what)
            seen.setdefault((account, day), record[""])
            last[account] = last.get(account, after.get(account, after.get("", 0))) + 1
            record[field] = str(last[account])
            if last[account] > MOST_NUMBER:
                self.faults.add(record[""], -1, f"row {record['']}", f"its number would be more than {MOST_NUMBER}: say another --after")

    def check_keys(self):
        """No two records are of one number, account or period."""
        seen = {}
        fields = KEYS[self.options.command]
        for record in self.records:
            key = tuple(record.get(it) for it in fields)
            if key in seen:
                at = self.columns.of.get(fields[-1], self.columns.of.get(fields[0], [0]))[0]
                self.fault(record[""], at, f"{' '.join(key)} is in row {seen[key]} too: correct one of them, or delete it")
            seen.setdefault(key, record[""])


def written(fields, records):
    """The sheet of CSV."""
    out = io.StringIO()
    writer = csv.writer(out, lineterminator="\n")
    writer.writerow(fields)
    for record in records:
        cents = {it: f"{record[it] or 0:03d}" for it, kind in fields.items() if kind == "amount"}
        writer.writerow([f"{cents[it][:-2]}.{cents[it][-2:]}" if it in cents else str(record[it]) for it in fields])
    return out.getvalue()


def converted(options):
    """The sheet of CSV of the spreadsheet; exits where something is unclear."""
    faults = Faults()
    grid = read_grid(options)
    columns = Columns(grid, header_number(grid.rows, options.header_row), options, faults)
    columns.read()
    faults.stop()
    reading = Reading(grid, columns, options, faults)
    faults.stop()
    reading.read()
    reading.check_widths()
    reading.check_forms()
    if not reading.records and not faults.found:
        faults.add(columns.number, -1, f"row {columns.number}", "there is no row to import below the header: is it the right file, or does --leave-out name too much?")
    faults.stop()
    reading.number()
    faults.stop()
    reading.check_keys()
    faults.stop()
    text = written(columns.fields, reading.records)
    if len(text) > MOST_BYTES:
        raise Unclear("the sheet is longer than the 16 MiB that an import takes: split the spreadsheet")
    return text


# The command line


def pair(text):
    """NAME=TEXT."""
    name, sign, value = text.partition("=")
    if not sign or not name.strip():
        raise argparse.ArgumentTypeError(f"{text} is not of the form NAME=TEXT")
    return name.strip(), value.strip()


def account_pair(text):
    """TEXT=ACCOUNT."""
    value, sign, name = text.rpartition("=")
    if not sign or not re.fullmatch(r"[a-z][a-z0-9-]{0,19}", name.strip()):
        raise argparse.ArgumentTypeError(f"{text} is not of the form TEXT=ACCOUNT, with an account name")
    return value.strip(), name.strip()


def after_pair(text):
    """N or ACCOUNT=N."""
    name, _, number = text.rpartition("=")
    if not re.fullmatch(r"[0-9]{1,9}", number):
        raise argparse.ArgumentTypeError(f"{text} is not N or ACCOUNT=N")
    return name.strip(), int(number)


def row_number(text):
    """A number of a row."""
    if not re.fullmatch(r"[1-9][0-9]{0,6}", text):
        raise argparse.ArgumentTypeError(f"{text} is not the number of a row")
    return int(text)


def parser():
    """The options."""
    it = argparse.ArgumentParser(description=__doc__, epilog=HELP_BELOW, formatter_class=argparse.RawDescriptionHelpFormatter, allow_abbrev=False)
    add = it.add_argument
    add("spreadsheet", metavar="SPREADSHEET", help="a text with commas, semicolons or tabs, or a workbook (.xlsx); - is standard input")
    add("--for", dest="command", choices=SHEETS, default="import", help="the command that takes the sheet; import if missing")
    add("--output", metavar="FILE", help="where the sheet is written; standard output if missing")
    add("--map", action="append", default=[], metavar="FILE", help="a file of options, one a line")
    add("--column", action="append", default=[], type=pair, metavar="FIELD=NAME", help="the column that gives a field")
    add("--value", action="append", default=[], type=pair, metavar="FIELD=TEXT", help="a field that is the same in each row, as employer=ash")
    add("--account", action="append", default=[], type=account_pair, metavar="TEXT=ACCOUNT", help="the account that an employer's name or code stands for")
    add("--ignore", action="append", default=[], metavar="NAME", help="a column to leave out")
    add("--ignore-others", action="store_true", help="leave out each column that is not known, unless its name may be that of a tax")
    add("--leave-out", action="append", default=[], type=pair, metavar="NAME=TEXT", help="leave out rows with this text in the column, as Name=Total*; * is any text")
    add("--fill-down", action="append", default=[], metavar="NAME", help="an empty cell of this column has the value above it")
    add("--header-row", type=row_number, metavar="N", help="the row with the names; the first that is not empty if missing")
    add("--dates", action="append", default=[], choices=[*DATE_FORMS, "serial"], help="how dates are written; YYYY-MM-DD is always read")
    add("--epoch", choices=["1900", "1904"], help="with --dates serial: from which year a text counts days; a workbook says so itself, and else it is 1900")
    add("--drop-times", action="store_true", help="leave out times beside dates (0:00 is always left out)")
    add("--decimal", choices=["point", "comma"], default="point", help="what is before the cents; point if missing")
    add("--dash-is-zero", action="store_true", help="an amount that is a hyphen alone is zero")
    add("--after", action="append", default=[], type=after_pair, metavar="[ACCOUNT=]N", help="rows without numbers are numbered from N + 1, by day; from 1 if missing")
    add("--number-each", action="store_true", help="rows of one account and one day are numbered one after the other")
    add("--separator", choices=SEPARATORS, help="what is between the cells of a text, if the header leaves it open")
    add("--encoding", choices=["utf-8", "windows-1252"], default="utf-8", help="of a text without the mark of UTF-16; utf-8 if missing")
    add("--tab", metavar="NAME", help="which tab of a workbook")
    return it


def map_words(path, parse):
    """The words of a file of options."""
    try:
        with open(path, encoding="utf-8-sig") as it:
            lines = [line.strip() for line in it]
    except (OSError, UnicodeDecodeError) as fault:
        parse.error(f"{path}: {fault}")
    for line in lines:
        if line and not line.startswith("#"):
            option, _, rest = line.partition(" ")
            if option == "map":
                parse.error(f"{path}: a map names no map")
            yield f"--{option}={rest.strip()}" if rest.strip() else f"--{option}"


def check_words(options, parse):
    """Looks whether the options fit each other."""
    fields = SHEETS[options.command]
    words = [*fields, *(it for field in fields for it in SHARES.get(field, ()))]
    for option, pairs in (("--column", options.column), ("--value", options.value)):
        for word, _ in pairs:
            if word not in words:
                parse.error(f"argument {option}: {word} is no field of {options.command}, which are {', '.join(words)}")
    for name, them in (("--value", options.value), ("--after", options.after), ("--account", [(any_letters(text), it) for text, it in options.account])):
        if len({word for word, _ in them}) < len(them):
            parse.error(f"argument {name}: the same is given twice")
    forms = set(options.dates) & set(DATE_FORMS)
    if len({DATE_FORMS[it][3:] for it in forms}) < len(forms):
        parse.error("argument --dates: two forms by which one text may be two dates")
    check_values(options, fields, parse)


def check_values(options, fields, parse):
    """Looks whether each value that is given for all rows is one of its field."""
    reading = argparse.Namespace(options=options, accounts=dict((any_letters(text), it) for text, it in options.account), grid=Grid([]))
    for word, text in options.value:
        kind = fields.get(SHARE_OF.get(word, word))
        try:
            if KINDS[kind](text, reading) is None:
                raise Unclear("there is no amount")
        except Unclear as fault:
            parse.error(f"argument --value: {word}: {fault}")


def options_of(words):
    """The options of a command line, with those of its maps before them."""
    parse = parser()
    first = parse.parse_args(words)
    of_maps = [it for path in first.map for it in map_words(path, parse)]
    options = parse.parse_args([*of_maps, *words]) if of_maps else first
    check_words(options, parse)
    return options


def main():
    options = options_of(sys.argv[1:])
    try:
        text = converted(options)
        if options.output is None:
            sys.stdout.write(text)
            sys.stdout.flush()
            return 0
        with open(options.output, "w", encoding="ascii", newline="") as out:
            out.write(text)
    except Unclear as fault:
        print(fault, file=sys.stderr)
        return 1
    except (Unreadable, OSError) as fault:
        print(f"error: {fault}", file=sys.stderr)
        return 3
    return 0


if __name__ == "__main__":
    sys.exit(main())
