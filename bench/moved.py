#!/usr/bin/env python3
"""Takes the file of a running `serve` away, and puts older pages back into a file.

    bench/moved.py PROGRAM [ROUNDS [PAGES]]

- ROUNDS times (60 where it is left out) a server is asked to record payments, and in the middle its file is moved, removed, replaced by
  a rename or by a copy, or cut short, or its log is removed, replaced or emptied. A payment that was answered 200 has to be kept in the
  file that was open, or the server has to end with status 3 and say why. What is answered after the change has to be 500.
- PAGES times (100 where it is left out) a page of a file is put back as it was some commands before, with its sum: `check` has to say
  `unsound` or the opening that the file is damaged, or else the file holds what it held (a page that had not changed, or is free).
The last line counts what went wrong."""

import http.client
import os
import random
import re
import shutil
import subprocess
import sys
import tempfile

PROGRAM = os.path.realpath(sys.argv[1])
ROUNDS = int(sys.argv[2]) if len(sys.argv) > 2 else 60
PAGES = int(sys.argv[3]) if len(sys.argv) > 3 else 100
PAGE = 4096
SET_UP = """calendar 2024 2024-01-01
calendar 2025 2025-01-01
enrol ash 2024-01-01
open-year ash 2024
post ash 1 2024-05-08 20000.00 16000.00 4000.00
"""


def ftd(*words, cwd):
    """A command's status, and what it printed on both outputs."""
    done = subprocess.run([PROGRAM, *words], cwd=cwd, capture_output=True, text=True)
    return done.returncode, done.stdout + done.stderr


def new_desk(folder, lines=SET_UP):
    """A new file office.db in the folder, made of lines."""
    with open(f"{folder}/script", "w") as it:
        it.write(lines)
    status, said = ftd("shell", "--db", "office.db", "script", cwd=folder)
    assert status == 0, said


def served(folder):
    """A server over the folder's file, and its port."""
    words = [PROGRAM, "serve", "--db", "office.db", "--port", "0", "--connections", "100000"]
    server = subprocess.Popen(words, cwd=folder, stdout=subprocess.PIPE, stderr=subprocess.PIPE, text=True)
    return server, int(server.stdout.readline().strip().rpartition(":")[2])


def pay(port, number):
    """The status of the answer to a payment under a number, None where there is none."""
    try:
        connection = http.client.HTTPConnection("127.0.0.1", port, timeout=10)
        body = '{"payment":%d,"paid":"2024-06-17","for":"2024-05-08","amount":"1.00"}' % number
        connection.request("POST", "/accounts/ash/payments", body)
        return connection.getresponse().status
    except (OSError, http.client.HTTPException):
        return None
    finally:
        connection.close()


def kept(file):
    """The numbers of the payments that a file holds, None where it can't be read."""
    folder, name = os.path.split(file)
    status, said = ftd("journal", "--db", name, cwd=folder)
    return {int(it) for it in re.findall(r"^pay ash (\d+) ", said, re.M)} if status == 0 else None


def changes(folder):
    """What may be done to the files of a server, by name, each with the file that was open after it."""
    db, log, away = f"{folder}/office.db", f"{folder}/office.db-wal", f"{folder}/away.db"
    other = f"{folder}/other.db"

    def replaced():
        shutil.copy(db, away)
        os.rename(away, db)

    def log_replaced():
        shutil.copy(log, away)
        os.rename(away, log)

    return {
        "file moved": (lambda: os.rename(db, other), other),
        "file removed": (lambda: os.remove(db), None),
        "file replaced": (replaced, None),
        "file moved, a new one in its place": (lambda: (os.rename(db, other), open(db, "w").close()), other),
        "file cut short": (lambda: os.truncate(db, PAGE), None),
        "log moved": (lambda: os.rename(log, other), db),
        "log removed": (lambda: os.remove(log), db),
        "log replaced": (log_replaced, db),
        "log emptied": (lambda: os.truncate(log, 0), None),
    }


def round_of(kind, rng):
    """What went wrong as the files of a server were changed so."""
    with tempfile.TemporaryDirectory() as folder:
        new_desk(folder)
        change, where = changes(folder)[kind]
        server, port = served(folder)
        answered = [it for it in range(1, rng.randrange(2, 60)) if pay(port, it) == 200]
        change()
        after = [pay(port, 1000 + it) for it in range(rng.randrange(1, 4))]
        try:
            status = server.wait(20)
        except subprocess.TimeoutExpired:
            server.kill()
            return f"{kind}: it goes on, {after}"
        said = server.stderr.read()
        if 200 in after:
            return f"{kind}: answered 200 after it"
        if status != 3 or "failed File" not in said or "hint: office.db:" not in said:
            return f"{kind}: status {status}, {said!r}"
        found = kept(where) if where else None
        if where and found != set(answered):
            return f"{kind}: {len(answered)} answered, kept {found and len(found)}: {said!r}"
        return None


def pages_of(file):
    """The bytes of the pages of a file."""
    with open(file, "rb") as it:
        bytes_of = it.read()
    return [bytes_of[at : at + PAGE] for at in range(0, len(bytes_of), PAGE)]


def put_back(rng):
    """What went wrong as a page was put back as it was some commands before."""
    with tempfile.TemporaryDirectory() as folder:
        new_desk(folder)
        before = pages_of(f"{folder}/office.db")
        lines = [f"pay ash {it} 2024-06-17 2024-05-08 {it}.00" for it in range(1, rng.randrange(2, 40))]
        lines += [f"post ash {it} 2024-{it % 11 + 1:02}-{it % 27 + 1:02} {it}000.00 160.00 40.00" for it in range(2, rng.randrange(3, 60))]
        rng.shuffle(lines)
        new_desk(folder, "\n".join(lines) + "\n")
        now = pages_of(f"{folder}/office.db")
        changed = [it for it in range(min(len(before), len(now))) if before[it] != now[it]]
        if not changed:
            return None
        at = rng.choice(changed)
        _, journal = ftd("journal", "--db", "office.db", cwd=folder)
        with open(f"{folder}/office.db", "r+b") as it:
            it.seek(at * PAGE)
            it.write(before[at])
        status, said = ftd("check", "--db", "office.db", cwd=folder)
        if status in (1, 3):
            return None
        if ftd("journal", "--db", "office.db", cwd=folder)[1] == journal:
            return None
        return f"page {at + 1} put back: {said!r}"


def main():
    rng = random.Random(7)
    kinds = list(changes("."))
    wrong = [it for it in (round_of(kinds[number % len(kinds)], rng) for number in range(ROUNDS)) if it]
    print(f"{ROUNDS} files and logs taken away: {len(wrong)} wrong", *wrong, sep="\n  ", flush=True)
    silent = [it for it in (put_back(rng) for _ in range(PAGES)) if it]
    print(f"{PAGES} older pages put back: {len(silent)} silent", *silent, sep="\n  ")
    return bool(wrong or silent)


if __name__ == "__main__":
    sys.exit(main())
