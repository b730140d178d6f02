#!/usr/bin/env python3
"""Random texts of accounts, reported totals, pay runs and payments, some of their records nonsense: each is tried with `--check`, imported, and
posted one by one with the commands `enrol`, `report`, `report-year`, `post` and `pay`. What a trial and an import say is compared with a plain
reading of the records and with what the commands said; the tables after a trial with those before it, and after an import with those of the commands.
Then what the desk lists as CSV is imported into another one, and the tables are compared.

    bench/sheets.py [PROGRAM [SEED [ROUNDS]]]"""

import csv
import datetime
import os
import random
import re
import shutil
import subprocess
import sys
import tempfile

from office import program_of, tables

FTD = program_of(sys.argv[1:])
SEED = int(sys.argv[2]) if len(sys.argv) > 2 else 20240115
ROUNDS = int(sys.argv[3]) if len(sys.argv) > 3 else 5
HEADERS = {
    "import-accounts": ["employer", "first_day", "carried", "form"],
    "import-reported": ["employer", "period", "amount"],
    "import": ["employer", "run", "payday", "fit", "ss", "medicare"],
    "import-payments": ["employer", "payment", "paid", "for", "amount"],
}


def ftd(*words):
    """What the program says to the words: its exit status, standard output and standard error."""
    done = subprocess.run([FTD, *words], stdout=subprocess.PIPE, stderr=subprocess.PIPE, text=True)
    return done.returncode, done.stdout, done.stderr


def is_name(text):
    return re.fullmatch(r"[a-z][a-z0-9-]{0,19}", text) is not None


def is_number(text):
    return re.fullmatch(r"[0-9]{1,9}", text) is not None and int(text) > 0


def is_day(text):
    if not re.fullmatch(r"[0-9]{4}-[0-9]{2}-[0-9]{2}", text):
        return False
    try:
        return 1900 <= datetime.date.fromisoformat(text).year <= 2199
    except ValueError:
        return False


def is_amount(text):
    return re.fullmatch(r"[0-9]{1,9}(\.[0-9]{1,2})?", text) is not None


def is_period(text):
    return re.fullmatch(r"[0-9]{4}", text) is not None or (
        re.fullmatch(r"[0-9]{4}Q[1-4]", text) is not None and 1900 <= int(text[:4]) <= 2199
    )


FIELDS = {
    "import-accounts": [is_name, is_day, lambda text: text in ("yes", "no"), lambda text: text in ("941", "943")],
    "import-reported": [is_name, is_period, is_amount],
    "import": [is_name, is_number, is_day, is_amount, is_amount, is_amount],
    "import-payments": [is_name, is_number, is_day, is_day, is_amount],
}


def bad_field(sheet, record):
    """The number of the least bad field; 0 where the record has other fields than the header; None where all are good."""
    if len(record) != len(HEADERS[sheet]):
        return 0
    return next((at for at, (is_good, text) in enumerate(zip(FIELDS[sheet], record), 1) if not is_good(text)), None)


def command(sheet, record):
    """The words by which the record is posted alone."""
    if sheet == "import-accounts":
        account, start, carried, form = record
        return ["enrol", account, start, "--form", form] + (["--carried"] if carried == "yes" else [])
    if sheet == "import-reported":
        account, period, amount = record
        return ["report" if "Q" in period else "report-year", account, period, amount]
    return ["post" if sheet == "import" else "pay", *record]


def nonsense(record, chosen):
    """The record with something wrong, or as it is."""
    record = list(record)
    at = chosen.randrange(len(record))
    what = chosen.randrange(6)
    if what == 0:
        del record[at]
    elif what == 1:
        record.insert(at, "1")
    else:
        record[at] = chosen.choice(["", "Ash", "0", "-1", "1.005", "2024-02-30", "2024Q5", "24", "yes", "maybe", "940", "1000000000", "a b", "1,5", "é"])
    return record


def any_amount(chosen, most):
    return chosen.choice([f"{chosen.randrange(most)}.{chosen.randrange(100):02}", f"{chosen.randrange(most)}", f"{chosen.randrange(most)}.{chosen.randrange(10)}"])


def any_day(chosen):
    years = ["2022", "2025"] if chosen.random() < 0.05 else ["2023", "2024"]
    return f"{chosen.choice(years)}-{chosen.randrange(1, 13):02}-{chosen.randrange(1, 29):02}"


def any_record(sheet, accounts, chosen):
    account = chosen.choice(accounts + ["nobody"] if chosen.random() < 0.1 else accounts)
    if sheet == "import-accounts":
        record = [account, chosen.choice(["2021-01-01", "2021-06-15", "2023-05-01"]), chosen.choice(["yes", "no", "no"]), chosen.choice(["941", "941", "943"])]
    elif sheet == "import-reported":
        year = chosen.randrange(2020, 2025)
        period = f"{year}Q{chosen.randrange(1, 5)}" if chosen.random() < 0.7 else str(year)
        record = [account, period, any_amount(chosen, 20_000)]
    elif sheet == "import":
        number = chosen.randrange(1, 60) if chosen.random() < 0.3 else chosen.randrange(1, 10_000)
        record = [account, str(number), any_day(chosen), any_amount(chosen, chosen.choice([40, 700, 60_000, 110_000])), any_amount(chosen, 300), "0"]
    else:
        record = [account, str(chosen.randrange(1, 200)), any_day(chosen), any_day(chosen), any_amount(chosen, chosen.choice([1, 900, 60_000]))]
    return nonsense(record, chosen) if chosen.random() < 0.1 else record


def write(path, sheet, records):
    with open(path, "w", newline="", encoding="utf-8") as out:
        writer = csv.writer(out, lineterminator="\n")
        writer.writerow(HEADERS[sheet])
        writer.writerows(records)


def one_by_one(db, sheet, records):
    """Posts the records one after the other, and gives what an import has to say of them."""
    posted = already = refused = malformed = 0
    notes = []
    for number, record in enumerate(records, 2):
        bad = bad_field(sheet, record)
        if bad is not None:
            malformed += 1
            notes.append(f"record {number} malformed field {bad}")
            continue
        status, out, err = ftd(*command(sheet, record), "--db", db)
        assert status in (0, 1), (record, err)
        posted += status == 0 and out != "already\n"
        already += out == "already\n"
        if status == 1:
            refused += 1
            notes.append(f"record {number} {err.splitlines()[0]}")
    text = "\n".join([f"posted {posted} already {already} refused {refused} malformed {malformed}", *notes]) + "\n"
    return (1 if refused or malformed else 0), text


def copy(old, new):
    for name in (new, new + "-wal"):
        if os.path.exists(name):
            os.remove(name)
    shutil.copy(old, new)


def key_of(sheet, record):
    """What a record is known by: an account by its name, another by its account and its number or period."""
    return record[:1] if sheet == "import-accounts" else record[:2]


def is_below(sheet, records, tried, said):
    """Whether a trial prints the lines of the import, but that it does not say how a record differs from another one of the same text."""
    if len(tried) != len(said):
        return False
    for line, other in zip(tried, said):
        if line == other:
            continue
        number = re.match(r"note: record (\d+), ", line)
        if not number or not other.startswith(line + ": "):
            return False
        at = int(number[1]) - 2
        if key_of(sheet, records[at]) not in [key_of(sheet, it) for it in records[:at]]:
            return False
    return True


def try_sheet(folder, db, sheet, accounts, chosen, told):
    """One text: tried, imported and posted one by one."""
    records = [any_record(sheet, accounts, chosen) for _ in range(120)]
    records = [it for it in records if it and it != [""]]
    text, other = os.path.join(folder, "text.csv"), os.path.join(folder, "other.db")
    write(text, sheet, records)
    copy(db, other)
    wanted = one_by_one(other, sheet, records)
    before = tables(db)
    tried = ftd(sheet, "--check", "--db", db, text)
    same = tables(db) == before
    said = ftd(sheet, "--db", db, text)
    told["texts"] += 1
    told["records"] += len(records)
    told["wrong"] += (tried[:2] != wanted) + (said[:2] != wanted) + (not same) + (tables(db) != tables(other))
    told["wrong"] += not is_below(sheet, records, tried[2].split("\n"), said[2].split("\n"))
    if told["wrong"]:
        print(sheet, wanted, tried, said, same, sep="\n")
        sys.exit(1)


def take_over(folder, db, accounts, told):
    """Imports what the desk lists as CSV into another one: but for what was voided, of which there is nothing here, the tables are the same."""
    other, text = os.path.join(folder, "taken.db"), os.path.join(folder, "list.csv")
    for name in (other, other + "-wal"):
        if os.path.exists(name):
            os.remove(name)

    def take(sheet, *words):
        status, out, err = ftd(*words, "--db", db, "--format", "csv")
        assert status == 0, (words, err)
        with open(text, "w", encoding="utf-8") as it:
            it.write(out)
        status, _, err = ftd(sheet, "--db", other, text)
        told["wrong"] += status != 0

    for year in ("2023", "2024", "2025"):
        ftd("calendar", year, f"{year}-07-04", "--db", other)
    take("import-accounts", "accounts")
    there = [row[0] for row in tables(db)["account"]]
    for account in there:
        take("import-reported", "reported", account)
        for row in sorted(it for it in tables(db)["year"] if it[0] == account):
            assert ftd("open-year", account, str(row[1]), "--db", other)[0] == 0
        for quarter in [f"{year}Q{number}" for year in (2023, 2024) for number in range(1, 5)]:
            if ftd("runs", account, quarter, "--db", db)[0] == 0:
                take("import", "runs", account, quarter)
                take("import-payments", "payments", account, quarter)
    told["taken over"] += 1
    told["wrong"] += tables(db) != tables(other)


def main():
    told = {"texts": 0, "records": 0, "taken over": 0, "wrong": 0}
    for round_number in range(ROUNDS):
        chosen = random.Random(SEED + round_number)
        accounts = ["ash", "birch", "cedar", "elm", "rye", "wheat-" + "x" * 14]
        with tempfile.TemporaryDirectory() as folder:
            db = os.path.join(folder, "office.db")
            for year in ("2023", "2024", "2025"):
                assert ftd("calendar", year, f"{year}-07-04", "--db", db)[0] == 0
            for sheet in ("import-accounts", "import-reported", "import-reported"):
                try_sheet(folder, db, sheet, accounts, chosen, told)
            for account in accounts:
                for year in (2020, 2021, 2022, 2023):
                    ftd("report-year", account, str(year), "30000.00", "--db", db)
                    for number in range(1, 5):
                        ftd("report", account, f"{year}Q{number}", "9000.00", "--db", db)
                for year in ("2023", "2024"):
                    ftd("open-year", account, year, "--db", db)
            for sheet in ("import", "import-payments", "import", "import-payments", "import-accounts", "import-reported"):
                try_sheet(folder, db, sheet, accounts, chosen, told)
            take_over(folder, db, accounts, told)
    print(", ".join(f"{name} {count}" for name, count in told.items()))
    sys.exit(1 if told["wrong"] else 0)


main()
