#!/usr/bin/env python3
"""Whether a script in a file, whose lines are answered together where they can be, is answered as one that comes by a pipe, line by line.

    bench/lists.py [PROGRAM [SCRIPTS [REQUESTS]]]

SCRIPTS scripts (200 if none is given) are made of the journals of desks of REQUESTS random requests (300 if none is given): lines stand twice or at
another place, so that they are refused or change what was entered, and between them are questions, comments, bad words, and numbers that are `next`.
Each is given to a shell over a new file twice: in a file, and by a pipe; with `--echo`, with `--stop`, or with neither. What is printed on both
outputs, the status and all rows of the tables have to be the same.
"""

import os
import random
import subprocess
import sys
import tempfile

from journal import made_of, text_of
from office import program_of, tables

OTHERS = ("", "# a comment", "owed 2024-06-30", "agenda 2024-01-01 2024-12-31", "accounts", "nonsense", "post elm", "post elm x 2024-01-05 1.00 1.00 1.00",
          "pay elm 1 2024-01-05 2024-01-05 -1.00", "status elm 2024-02-01", "ftd accounts", "post elm 007 2024-01-05 1.00 1.00 1.00",
          "pay elm next 2024-02-15 2024-01-12 5.00", "post elm next 2024-01-19 10 1 0.5", "plain", "help")


def changed(rng, lines):
    """The lines of a journal with others among them, some at another place, and some twice."""
    lines = list(lines)
    for _ in range(rng.randrange(12)):
        at = rng.randrange(len(lines))
        line = lines.pop(at) if rng.random() < 0.5 else lines[at]
        lines.insert(rng.randrange(len(lines) + 1), line)
    for _ in range(rng.randrange(20)):
        lines.insert(rng.randrange(len(lines) + 1), rng.choice(OTHERS))
    for _ in range(rng.randrange(4)):
        at = rng.randrange(len(lines))
        words = lines[at].split(" ")
        words[rng.randrange(len(words))] = rng.choice(("0", "2024-13-01", "999999999.99", "elm", "--form"))
        lines[at] = " ".join(words)
    return "".join(f"{line}\n" for line in lines)


def ran(words, script):
    """What a shell answers, by a pipe where a script is given."""
    done = subprocess.run(words, input=script, capture_output=True)
    return done.stdout, done.stderr, done.returncode


def compare(program, folder, seed, count):
    """Compares both ways of one script, and answers how many lines it has."""
    rng = random.Random(seed)
    first, whole, piped, script = (os.path.join(folder, f"{seed}{end}") for end in (".db", "-whole.db", "-piped.db", ".txt"))
    made_of(program, first, seed, count)
    text = changed(rng, text_of(program, first).splitlines()).encode()
    with open(script, "wb") as out:
        out.write(text)
    options = rng.choice(([], ["--echo"], ["--stop"], ["--echo", "--stop"]))
    one = ran([program, "shell", "--db", whole, *options, script], b"")
    # The name of the database stands in hints, and that of a pipe in no answer.
    other = ran([program, "shell", "--db", piped, *options, "-"], text)
    other = (other[0].replace(b"-piped.db", b"-whole.db"), other[1].replace(b"-piped.db", b"-whole.db"), other[2])
    assert one == other, f"seed {seed}, {options}: a file and a pipe are answered in other ways"
    assert tables(whole) == tables(piped), f"seed {seed}, {options}: the tables differ"
    for path in (first, whole, piped, script):
        os.remove(path)
    return text.count(b"\n"), one[2]


def main():
    program = program_of(sys.argv[1:2])
    scripts, count = [*map(int, sys.argv[2:]), *[200, 300][len(sys.argv[2:]):]]
    with tempfile.TemporaryDirectory() as folder:
        done = [compare(program, folder, seed, count) for seed in range(1, scripts + 1)]
    statuses = {status: sum(it[1] == status for it in done) for status in sorted({it[1] for it in done})}
    print(f"{scripts} scripts, {sum(it[0] for it in done)} lines: 0 differences; by status {statuses}", flush=True)


if __name__ == "__main__":
    main()
