#!/usr/bin/env python3
"""Imports 200,000 pay runs of ten accounts by the program `ftd`, with a terminal, a file and a pipe as its standard error. On the terminal a line
tells how many records are done, once the import takes longer than a second and at most five times a second, and is cleared before
anything else is printed; the file and the pipe get nothing of it, and standard output is the same. An import that is over sooner, and one
that stops at its header, show nothing on the terminal but what the file gets."""

import os
import pty
import re
import subprocess
import sys
import tempfile
import time

from office import program_of

FTD = program_of(sys.argv[1:])
ACCOUNTS = [f"ash{number}" for number in range(10)]


def write_runs(path, count):
    """A text of so many pay runs of each account."""
    with open(path, "w") as out:
        out.write("employer,run,payday,fit,ss,medicare\n")
        for account in ACCOUNTS:
            for number in range(1, count + 1):
                out.write(f"{account},{number},2024-{number % 12 + 1:02}-{number % 28 + 1:02},1.00,0.62,0.14\n")


def new_desk(folder, name):
    """A file with the accounts enrolled and 2024 open."""
    db = os.path.join(folder, name)
    words = ["calendar 2024", "calendar 2025"]
    for account in ACCOUNTS:
        words += [f"enrol {account} 2024-01-01", f"open-year {account} 2024"]
    for line in words:
        done = subprocess.run([FTD, *line.split(), "--db", db], stdout=subprocess.PIPE)
        assert done.stdout == b"done\n"
    return db


def on_terminal(words):
    """What the program prints on standard output, and on a terminal as its standard error, with the seconds of each piece."""
    control, terminal = pty.openpty()
    start = time.monotonic()
    child = subprocess.Popen(words, stdout=subprocess.PIPE, stderr=terminal)
    os.close(terminal)
    pieces = []
    while True:
        try:
            piece = os.read(control, 65536)
        except OSError:
            # the program has closed the terminal
            break
        pieces.append((time.monotonic() - start, piece))
    printed = child.stdout.read()
    child.wait()
    os.close(control)
    return printed, pieces


def on_pipe(words):
    """What the program prints on standard output and on a pipe."""
    done = subprocess.run(words, stdout=subprocess.PIPE, stderr=subprocess.PIPE)
    return done.stdout, done.stderr


def on_file(words, path):
    """What the program prints on standard output and into a file."""
    with open(path, "wb") as err:
        done = subprocess.run(words, stdout=subprocess.PIPE, stderr=err)
    with open(path, "rb") as err:
        return done.stdout, err.read()


def notes(count, due):
    """What is said below an import that adds so many obligations to each account, with this earliest due date."""
    return "".join(f"note: {account}: obligations added: {count}, earliest due date {due}\n" for account in ACCOUNTS).encode()


def shown(text, below):
    """The counts that a terminal's text shows before what is said below, one after the other; at the end the line has to be cleared."""
    below = below.replace(b"\n", b"\r\n")
    assert text.endswith(below), text
    text = text.removesuffix(below)
    lines = re.fullmatch(rb"((?:\r[0-9]+ of [0-9]+ records)+)\r( +)\r", text)
    assert lines, text
    last = lines[1].rsplit(b"\r", 1)[1]
    assert len(lines[2]) == len(last), text
    return [tuple(map(int, pair)) for pair in re.findall(rb"([0-9]+) of ([0-9]+)", lines[1])]


def main():
    with tempfile.TemporaryDirectory() as folder:
        text = os.path.join(folder, "runs.csv")
        count = 200_000
        write_runs(text, count // len(ACCOUNTS))
        printed, pieces = on_terminal([FTD, "import", "--db", new_desk(folder, "terminal.db"), text])
        assert printed == b"posted 200000 already 0 refused 0 malformed 0\n", printed
        below = notes(12, "2024-02-15")
        counts = shown(b"".join(piece for _, piece in pieces), below)
        assert all(whole == count for _, whole in counts)
        assert counts == sorted(set(counts))
        first, last = pieces[0][0], pieces[-1][0]
        assert first >= 1
        assert len(counts) <= (last - first) * 5 + 1
        assert on_pipe([FTD, "import", "--db", new_desk(folder, "pipe.db"), text]) == (printed, below)
        err = os.path.join(folder, "err")
        assert on_file([FTD, "import", "--db", new_desk(folder, "file.db"), text], err) == (printed, below)
        print(f"{count} runs on a terminal: first told after {first:.2f} s, {len(counts)} times in {last - first:.2f} s, "
              "and the line cleared; a file and a pipe got nothing")
        write_runs(text, 1)
        db = new_desk(folder, "short.db")
        printed, pieces = on_terminal([FTD, "import", "--db", db, text])
        assert printed == b"posted 10 already 0 refused 0 malformed 0\n", printed
        below = notes(1, "2024-03-15").replace(b"\n", b"\r\n")
        assert b"".join(piece for _, piece in pieces) == below, pieces
        with open(text, "w") as out:
            out.write("employer,run\n")
        printed, pieces = on_terminal([FTD, "import", "--db", db, text])
        assert printed == b"posted 0 already 0 refused 0 malformed 0\n", printed
        told = b"refused header\r\nhint: the header is employer,run,payday,fit,ss,medicare, and not employer,run\r\n"
        assert b"".join(piece for _, piece in pieces) == told, pieces
        print("10 runs and a bad header: no progress on the terminal")


main()
