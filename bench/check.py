#!/usr/bin/env python3
"""What `ftd check` says of files that commands made, and of such files with one row changed, beside a plain reading that makes each file again.

    bench/check.py [PROGRAM [DESKS [FILES [ACCOUNTS RUNS]]]]

DESKS desks (40 if none is given) are made of random requests, corrections too: each has to be sound, with as many accounts, open years, runs, payments
and obligations as its tables have rows. Then FILES copies of them (2,000 if none is given) are written in which one value of one row is another, or one row
was taken out or stands twice; sums of pages are made again. What the check says of each is compared with a plain reading: the file is sound if a shell makes
all its tables again of its journal, and if its holidays and corrections stand in the order in which they can have come. The account that a check names
has to be that of the changed row. A file that can't be opened is counted apart. Last comes the time and the greatest memory of a check of an office of so
many accounts with so many runs each (300 and 1,000 if none is given), beside those of a command that opens the file and lists its accounts; with 0
accounts it is left out.
"""

import collections
import concurrent.futures
import contextlib
import os
import random
import re
import shutil
import sqlite3
import struct
import subprocess
import sys
import tempfile

from journal import is_change, made_of, made_office, measured, memory_of
from office import program_of, tables

REQUESTS = 300
HINT = "hint: something other than ftd changed the file: go back to a copy of it, or make a new file of a journal that you kept\n"
NUMBERED = {"corrected": "account, cal_year, quarter", "corrected_year": "account, cal_year", "changed_holiday": "day", "corrected_account": "account"}
COUNTED = {"accounts": "account", "years": "year", "runs": "run", "payments": "payment", "obligations": "bucket"}
# The tables whose rows are of no account: each account may rest on them.
OF_ALL = ("ftd_meta", "calendar_year", "holiday", "added_holiday", "changed_holiday")
DAYS = ("start", "day", "payday", "paid", "for_day", "turn", "first_day", "last_day", "due")
FLAGS = ("carried", "voided", "is_holiday", "opening", "form")
CENTS = ("fit", "ss", "medicare", "cents", "lookback")
LETTERS = "abcdefghijklmnopqrstuvwxyz-0A"
SECONDS = 120


def ran(*words):
    """A command, with what it prints."""
    return subprocess.run(words, stdin=subprocess.DEVNULL, capture_output=True, text=True, errors="replace", timeout=SECONDS)


def said_of(program, file):
    """What the check says of a file: its line, or the first line on standard error where it fails. The rest has to be as it is for such a line."""
    it = ran(program, "check", "--db", file)
    if it.returncode == 3:
        assert it.stdout == "", it.stdout
        return it.stderr.split("\n")[0]
    kind = it.stdout.split(" ")[0]
    wanted = {"sound": (0, ""), "unsound": (1, HINT)}.get(kind)
    assert (it.returncode, it.stderr) == wanted and it.stdout.count("\n") == 1 and it.stdout.endswith("\n"), (file, it)
    return it.stdout[:-1]


def sound_line(rows):
    """The line of a sound file with these tables."""
    return "sound " + " ".join(f"{name} {len(rows[table])}" for name, table in COUNTED.items())


# ---- how a file is changed


def sum_of(page):
    """The sum of a page, as SQLite's `cksumvfs` has it."""
    first = second = 0
    words = struct.unpack(f"<{len(page) // 4}I", page)
    for one, other in zip(words[::2], words[1::2]):
        first = (first + one + second) & 0xFFFFFFFF
        second = (second + other + first) & 0xFFFFFFFF
    return struct.pack("<2I", first, second)


def seal(file):
    """Makes the sums of all pages again, where they have room for one."""
    with open(file, "rb") as it:
        bytes_ = it.read()
    size = int.from_bytes(bytes_[16:18], "big")
    size = 65_536 if size == 1 else size
    if bytes_[20] == 8:
        pages = [bytes_[at : at + size - 8] for at in range(0, len(bytes_), size)]
        with open(file, "wb") as it:
            it.write(b"".join(page + sum_of(page) for page in pages))


@contextlib.contextmanager
def written(file):
    """A connection that writes to a file, in which there are no keys to other tables. All is in the one file afterwards."""
    with contextlib.closing(sqlite3.connect(file)) as conn:
        conn.execute("PRAGMA foreign_keys = OFF")
        yield conn
        conn.commit()
        conn.execute("PRAGMA wal_checkpoint(TRUNCATE)")
    for end in ("-wal", "-shm"):
        with contextlib.suppress(FileNotFoundError):
            os.remove(file + end)
    seal(file)


def without_keys(file):
    """Writes the file anew, with tables that have no keys."""
    with contextlib.closing(sqlite3.connect(file)) as conn:
        lines = [re.sub(r",\s*PRIMARY KEY \([^)]*\)| PRIMARY KEY", "", it) if it.startswith("CREATE TABLE") else it for it in conn.iterdump()]
    os.remove(file)
    with contextlib.closing(sqlite3.connect(file)) as conn:
        conn.executescript("\n".join(lines))


def other_text(rng, text, names):
    """Another account's name, or the text with another letter."""
    others = [name for name in names if name != text]
    if others and rng.random() < 0.5:
        return rng.choice(others)
    at = rng.randrange(len(text))
    return text[:at] + rng.choice([it for it in LETTERS if it != text[at]]) + text[at + 1 :]


def other_value(rng, column, value, names):
    """Another value for a cell of the column, of the same type."""
    if isinstance(value, str):
        return other_text(rng, value, names)
    if column == "turn" and (value is None or rng.random() < 0.3):
        return 19_000 + rng.randrange(2_200) if value is None else None
    if column in DAYS:
        return value + rng.choice([-1, 1]) * rng.choice([1, 1, 2, 7, rng.randrange(1, 400)])
    if column in FLAGS:
        return 2 if rng.random() < 0.05 else 1 - value
    if column == "rule":
        return rng.choice([it for it in range(4) if it != value])
    if column in CENTS:
        return value + rng.choice([-1, 1, 1, 100, 10_000_000])
    return value + rng.choice([-1, 1])


def change_value(rng, conn, table, names):
    """Gives one value of one row another value. It answers what was changed, and the names of accounts in the row before and after."""
    columns = [it[1] for it in conn.execute(f"PRAGMA table_info({table})")]
    (place,) = rng.choice(conn.execute(f"SELECT rowid FROM {table}").fetchall())
    row = conn.execute(f"SELECT * FROM {table} WHERE rowid = ?", (place,)).fetchone()
    at = rng.randrange(len(columns))
    value = other_value(rng, columns[at], row[at], names)
    conn.execute(f"UPDATE {table} SET {columns[at]} = ? WHERE rowid = ?", (value, place))
    return f"row {row}: {columns[at]} is {value!r}", names_in(columns, row) | {value}


def take_out(rng, conn, table, names):
    """Takes out one row."""
    columns = [it[1] for it in conn.execute(f"PRAGMA table_info({table})")]
    (place,) = rng.choice(conn.execute(f"SELECT rowid FROM {table}").fetchall())
    row = conn.execute(f"SELECT * FROM {table} WHERE rowid = ?", (place,)).fetchone()
    conn.execute(f"DELETE FROM {table} WHERE rowid = ?", (place,))
    return f"row {row}: taken out", names_in(columns, row)


def double(rng, conn, table, names):
    """Adds one row once more: as it is where the table has no keys, else with one value that is another."""
    columns = [it[1] for it in conn.execute(f"PRAGMA table_info({table})")]
    row = rng.choice(conn.execute(f"SELECT * FROM {table}").fetchall())
    new = list(row)
    if any(it[5] for it in conn.execute(f"PRAGMA table_info({table})")):
        at = rng.randrange(len(columns))
        new[at] = other_value(rng, columns[at], row[at], names)
    conn.execute(f"INSERT INTO {table} VALUES ({', '.join('?' * len(columns))})", new)
    return f"row {row}: once more as {tuple(new)}", names_in(columns, row) | names_in(columns, new)


def names_in(columns, row):
    return {value for column, value in zip(columns, row) if column in ("account", "name")}


def changed(rng, file, every):
    """Changes one row of the file. It answers the table, what was changed, and the names of accounts that this may concern."""
    kind = rng.random()
    way = change_value if kind < 0.9 else take_out if kind < 0.95 else double
    if way is double and rng.random() < 0.5:
        without_keys(file)
    names = [name for (name, *_) in every["account"]]
    filled = [table for table, rows in every.items() if rows]
    while True:
        table = rng.choice(filled)
        try:
            with written(file) as conn:
                what, concerned = way(rng, conn, table, names)
                return table, what, concerned
        except sqlite3.IntegrityError:
            continue


# ---- the plain reading


def is_in_order(file):
    """Whether the days of each calendar stand one calendar after the other, each rising, and the corrections of each kind in the order of their numbers."""
    with contextlib.closing(sqlite3.connect(file)) as conn:
        years = [year for (year,) in conn.execute("SELECT cal_year FROM calendar_year ORDER BY rowid")]
        days = conn.execute("SELECT cal_year, day FROM holiday ORDER BY rowid").fetchall()
        if days != sorted(days, key=lambda it: (years.index(it[0]) if it[0] in years else len(years), it[1])):
            return False
        for table, key in NUMBERED.items():
            count = collections.Counter()
            for number, *which in conn.execute(f"SELECT number, {key} FROM {table} ORDER BY rowid"):
                count[tuple(which)] += 1
                if number != count[tuple(which)]:
                    return False
    return True


def is_made_again(program, file, new, every):
    """Whether a shell makes all tables again of the file's journal: each of its lines is answered as done or posted."""
    journal = ran(program, "journal", "--db", file)
    if journal.returncode:
        return False
    script = f"{new}.txt"
    with open(script, "w", encoding="utf-8") as out:
        out.write(journal.stdout)
    lines = journal.stdout.splitlines()
    if not lines:
        return not any(rows for table, rows in every.items() if table != "ftd_meta")
    answers = ran(program, "shell", "--stop", "--db", new, script)
    if answers.returncode or not all(map(is_change, answers.stdout.splitlines())):
        return False
    assert len(answers.stdout.splitlines()) == len(lines), (file, answers)
    rows = tables(new)
    assert said_of(program, new) == sound_line(rows), f"{file}: what its journal makes is not sound"
    return rows == every


def opens(program, file):
    """What a shell says that answers no line: nothing, or why the file can't be opened."""
    it = ran(program, "shell", "--db", file, "/dev/null")
    return it.stderr.split("\n")[0] if it.returncode else ""


# ---- one file


class Judged:
    """What was found of one changed file."""

    def __init__(self, table, said):
        self.table, self.said = table, said
        # whether it is unsound by the order of its rows alone, what is wrong, and whether the named account is that of the row
        self.by_order, self.wrong, self.is_of_row = False, None, None

    def kind(self):
        """The verdict without the name of the account and the counts."""
        words = self.said.split(" ")
        return "sound" if words[0] == "sound" else " ".join(words[:2]) if words[0] == "unsound" else self.said


def judge(program, folder, base, seed):
    """Changes a copy of a file, and compares what the check says with the plain reading."""
    rng = random.Random(seed)
    file, new = os.path.join(folder, f"changed-{seed}.db"), os.path.join(folder, f"again-{seed}.db")
    shutil.copy(base, file)
    table, what, concerned = changed(rng, file, tables(base))
    before = tables(file)
    said = said_of(program, file)
    it = Judged(table, said)
    where = f"file {seed}, {table}, {what}: {said}"
    if said.startswith("failed"):
        why = opens(program, file)
        it.wrong = None if why == said else f"{where}, and the file is opened: {why!r}"
    else:
        if tables(file) != before:
            it.wrong = f"{where}, and changed the tables"
        is_again, is_ordered = is_made_again(program, file, new, before), is_in_order(file)
        it.by_order = is_again and not is_ordered
        if said.startswith("sound") != (is_again and is_ordered):
            it.wrong = f"{where}; made again: {is_again}, in order: {is_ordered}"
        elif said.startswith("sound") and said != sound_line(before):
            it.wrong = f"{where}, and not {sound_line(before)}"
        if it.kind() == "unsound account" and table not in OF_ALL:
            it.is_of_row = said.split(" ")[2] in concerned
            it.wrong = it.wrong or (None if it.is_of_row else f"{where}: another account")
    for path in (file, new, f"{new}.txt"):
        for end in ("", "-wal"):
            if os.path.exists(path + end):
                os.remove(path + end)
    return it


def judge_all(program, folder, bases, files):
    """Judges so many files, and prints what was found of each table. It answers what is wrong."""
    with concurrent.futures.ThreadPoolExecutor(os.cpu_count()) as pool:
        found = [*pool.map(lambda seed: judge(program, folder, bases[seed % len(bases)], seed), range(files))]
    for table in sorted({it.table for it in found}):
        kinds = collections.Counter(it.kind() for it in found if it.table == table)
        print(f"{table:18} {sum(kinds.values()):5} files: " + ", ".join(f"{kind} {count}" for kind, count in sorted(kinds.items())), flush=True)
    kinds = collections.Counter(it.kind().split(" ")[0] for it in found)
    named = [it.is_of_row for it in found if it.is_of_row is not None]
    print(f"{files} files with one row changed: {kinds['sound']} sound, {kinds['unsound']} unsound ({sum(it.by_order for it in found)} of them by the order of"
          f" their rows alone), {kinds['failed']} not opened; {sum(named)} of {len(named)} accounts named are those of the changed row", flush=True)
    return [it.wrong for it in found if it.wrong]


def speed(program, folder, accounts, runs):
    """The time and the memory of a check of an office, beside those of a list of its accounts."""
    file, _ = made_office(program, folder, accounts, runs)
    opening, check = ([program, word, "--db", file] for word in ("accounts", "check"))
    opened, checked = (min(measured(words) for _ in range(3)) for words in (opening, check))
    print(f"{accounts} accounts, {accounts * runs} runs: {said_of(program, file)}: {checked - opened:.2f} s beside {opened:.2f} s for the opening;"
          f" greatest memory {memory_of(check):.1f} MB, of which the opening takes {memory_of(opening):.1f}", flush=True)


def main():
    program = program_of(sys.argv[1:2])
    desks, files, accounts, runs = [*map(int, sys.argv[2:]), *[40, 2_000, 300, 1_000][len(sys.argv[2:]):]]
    with tempfile.TemporaryDirectory() as folder:
        bases = [os.path.join(folder, f"{seed}.db") for seed in range(1, desks + 1)]
        for seed, base in enumerate(bases, 1):
            made_of(program, base, seed, REQUESTS)
            said, rows = said_of(program, base), tables(base)
            assert said == sound_line(rows) and is_in_order(base), f"seed {seed}: {said}, and not {sound_line(rows)}"
        print(f"{desks} desks of random requests: each is sound, with the counts of its tables", flush=True)
        wrong = judge_all(program, folder, bases, files) if desks else []
        if wrong:
            sys.exit("\n".join([*wrong[:20], f"{len(wrong)} differences"]))
        print("0 differences", flush=True)
        if accounts:
            speed(program, folder, accounts, runs)


if __name__ == "__main__":
    main()
