#!/usr/bin/env python3
"""Refuses each allocation of the program in turn, through every command of worked examples.

It needs gcc. Each command of an example's text (examples/, docs/TUTORIAL.md) is run on the file that the commands before it left,
with one allocation refused to a second process of it (refuse.c). It has to print what it prints with memory and leave the same tables, but that a
note below its answer may be left out, as a hint may be; or say that there was no memory,
or that the store or the file failed, and end with status 3. Then the tables are those before the command, or those of an import up
to one of its records, or, where the store failed, those after the command; and where they are not those before it, the command run
again, with memory, ends with the tables of the command alone. What a command printed before it failed is the beginning of what it
prints with memory, but for an import, which prints what it did up to there. A command makes some 10,000 allocations, most of them to
open the file: the tutorial takes a quarter of an hour on four processors.
`bench/refused_program.py [PROGRAM [NAME ..]]` takes the program and which examples.
"""
import contextlib
import functools
import multiprocessing
import os
import shutil
import sqlite3
import subprocess
import sys
import tempfile

from office import program_of, tables

TOP = os.path.dirname(os.path.dirname(os.path.abspath(__file__)))
sys.path.insert(0, os.path.join(TOP, "examples"))
from run import examples_of  # noqa: E402

FAULTS = ("failed 21 Memory", "failed 22 Store", "failed File")
EXAMPLES = {
    "imports": ("examples/imports.txt", "Pay runs are imported twice"),
    "turn": ("examples/deposits.txt", "A turn and its void reach the next year"),
    "years": ("examples/deposits.txt", "A void reaches each later year that opens otherwise"),
    "tutorial": ("docs/TUTORIAL.md", "A bakery's first year, and a farm"),
}
FILES = ("office.db", "office.db-wal")
# The program begins with memory at hand, since the system is slow to give it page by page.
TUNABLES = "glibc.malloc.top_pad=33554432"
# What stands for the program while bash makes the words of its commands: it notes each word on a line, and an empty line below them.
NOTING = '#!/bin/bash\nprintf "%s\\n" "$@" "" >>"$NOTED"\n'


def example(name):
    """The example of that name."""
    text, title = EXAMPLES[name]
    return next(it for it in examples_of(text)[0] if it.title == title)


def said_by(status, out, err):
    """What the program says: its status, what it printed, and the lines of standard error but the hints, which may be left out."""
    return status, out.decode(), [it for it in err.decode().split("\n")[:-1] if not it.startswith("hint: ")]


def run(folder, words):
    """What the program says in the folder."""
    done = subprocess.run([program_of(sys.argv[1:2]), *words], capture_output=True, cwd=folder, stdin=subprocess.DEVNULL)
    return said_by(done.returncode, done.stdout, done.stderr)


def files_of(folder):
    """The bytes of the desk's file and its log, None for one that is not there."""
    paths = [os.path.join(folder, name) for name in FILES]
    return tuple(open(path, "rb").read() if os.path.exists(path) else None for path in paths)


@functools.lru_cache(64)
def rows_in(files):
    """All rows of the tables of such files. They are read in a copy, since sqlite3 copies the log into the file where it reads."""
    with tempfile.TemporaryDirectory(dir="/dev/shm") as folder:
        for name, held in zip(FILES, files):
            if held is not None:
                with open(os.path.join(folder, name), "wb") as file:
                    file.write(held)
        try:
            return tables(os.path.join(folder, FILES[0])) if files[0] is not None else {}
        except sqlite3.Error as fault:
            return {"no tables": [str(fault)]}


def rows_of(folder):
    """All rows of the tables of the desk's file in the folder."""
    return rows_in(files_of(folder))


def put(source, folder):
    """The folder holds the same files."""
    shutil.rmtree(folder, ignore_errors=True)
    shutil.copytree(source, folder, symlinks=True)


def is_note(line):
    return line.startswith("note: ")


def is_same(said, right):
    """Whether it says what it says with memory, but that notes may be left out."""
    rest = iter(filter(is_note, right[2]))
    others = [[it for it in told if not is_note(it)] for told in (said[2], right[2])]
    return said[:2] == right[:2] and others[0] == others[1] and all(it in rest for it in filter(is_note, said[2]))


def is_failed(said, right, verb):
    """Whether it says that it failed, after a part of what it says with memory. `open-years` says it in the line of the account, too."""
    status, out, told = said
    if verb == "open-years" and told:
        *lines, last = out.splitlines(keepends=True) or [""]
        out = "".join(lines) + ("" if last.endswith(f" {told[0]}\n") else last)
    return status == 3 and told and told[0] in FAULTS and (verb == "import" or right[1].startswith(out))


def states_within(here, words, folder):
    """What is said of each of the first records of an import, and the tables after them."""
    text = open(os.path.join(here, words[-1]), encoding="utf-8").read().splitlines(keepends=True)
    for end in range(1, len(text)):
        put(here, folder)
        with open(os.path.join(folder, words[-1]), "w", encoding="utf-8") as page:
            page.write("".join(text[:end]))
        yield run(folder, words), rows_of(folder)


def outcomes(results):
    """What each refused allocation came to, what the program said and its status, with the bytes of the files then."""
    states = {}
    with open(results, "rb") as file:
        while head := file.readline().split():
            if head[0] == b"state":
                states[int(head[1])] = tuple(None if int(it) < 0 else file.read(int(it)) for it in head[2:])
            else:
                number, status, state, *lengths = map(int, head)
                out, err = map(file.read, lengths)
                yield number, said_by(os.waitstatus_to_exitcode(status), out, err), states[state]


def refused_each(folder, words, library):
    """Runs the command with each of its allocations refused to a second process of it, and answers what became of each."""
    results = f"{folder}.each"
    env = dict(os.environ, LD_PRELOAD=library, REFUSE_EACH=results, REFUSE_FILES=":".join(FILES), GLIBC_TUNABLES=TUNABLES)
    with open(f"{folder}.out", "w+b") as out, open(f"{folder}.err", "w+b") as err:
        done = subprocess.run([program_of(sys.argv[1:2]), *words], stdin=subprocess.DEVNULL, stdout=out, stderr=err, cwd=folder, env=env)
    if done.returncode not in (0, 1, 2):
        raise RuntimeError(f"{words}: {done.returncode}, {open(f'{folder}.err', encoding='utf-8').read()}")
    return outcomes(results)


def tried(job):
    """Refuses each allocation of the command; how many there were, how often it failed, how often it left out a note, and what was wrong."""
    here, words, library = job
    folder = f"{library}.{os.getpid()}"
    put(here, folder)
    right = run(folder, words)
    before, fine = rows_of(here), [rows_of(folder)]
    fine += [before]
    if words[0] == "import":
        fine += [rows for _, rows in states_within(here, words, folder)]

    @functools.lru_cache(None)
    def ends_right(files):
        """Whether the command run again on the files, with memory, leaves the tables that it leaves alone."""
        put(here, folder)
        for name, held in zip(FILES, files):
            with contextlib.suppress(FileNotFoundError):
                os.remove(os.path.join(folder, name))
            if held is not None:
                with open(os.path.join(folder, name), "wb") as file:
                    file.write(held)
        run(folder, words)
        return rows_of(folder) == fine[0]

    put(here, folder)
    number, failed, unnoted, wrong = 0, 0, 0, []
    for number, said, files in refused_each(folder, words, library):
        found = rows_in(files)
        if is_same(said, right) and found == fine[0]:
            unnoted += said != right
            continue
        failed += 1
        is_new = not before and all(not rows for name, rows in found.items() if name != "ftd_meta")
        if not is_failed(said, right, words[0]) or not (found in fine or is_new):
            wrong.append(f"{words}, allocation {number}: {said}")
        elif files != files_of(here) and not ends_right(files):
            wrong.append(f"{words}, allocation {number}: the command run again leaves other tables")
    return number, failed, unnoted, wrong


def commands_of(step, here):
    """The words of each command of the program in the step, as bash makes them. What else the step does to the files is done."""
    name = step.file_name()
    if name and not os.path.exists(os.path.join(here, name)):
        with open(os.path.join(here, name), "w", encoding="utf-8") as page:
            page.write("".join(f"{line}\n" for line in step.printed))
        return []
    with tempfile.TemporaryDirectory() as room:
        noted, stand_in = os.path.join(room, "noted"), os.path.join(room, "ftd")
        for path, text in ((noted, ""), (stand_in, NOTING)):
            with open(path, "w", encoding="utf-8") as file:
                file.write(text)
        os.chmod(stand_in, 0o755)
        env = {**os.environ, "PATH": f"{room}:{os.environ['PATH']}", "NOTED": noted}
        subprocess.run(["bash", "-c", step.command], cwd=here, check=True, stdout=subprocess.DEVNULL, env=env)
        with open(noted, encoding="utf-8") as file:
            return [it.split("\n") for it in file.read().split("\n\n")[:-1]]


def begin(here):
    """A new folder for an example, with a link to what is beside its text."""
    os.mkdir(here)
    os.symlink(os.path.join(TOP, "examples"), os.path.join(here, "examples"))


def jobs_of(name, library, top):
    """The commands of the example, each with a folder of the files that the commands before it left."""
    here = os.path.join(top, name)
    begin(here)
    for step in example(name).steps:
        for words in commands_of(step, here):
            room = tempfile.mkdtemp(dir=top)
            put(here, room)
            yield room, words, library
            run(here, words)


def through(name, library, top, pool):
    """Runs the commands of the example, each with each of its allocations refused; how often that was wrong."""
    commands = allocations = failures = unnoted = wrong = 0
    jobs = list(jobs_of(name, library, top))
    for (_, words, _), (calls, failed, left_out, of_these) in zip(jobs, pool.imap(tried, jobs)):
        commands, allocations, failures, wrong = commands + 1, allocations + calls, failures + failed, wrong + len(of_these)
        unnoted += left_out
        print(*of_these, sep="\n", end="\n" if of_these else "", flush=True)
        so_far = f"{allocations} refused, {failures} told, {unnoted} without a note, {wrong} wrong"
        print(f"{name}, {commands}: {' '.join(words[:1])}: {so_far}", file=sys.stderr, flush=True)
    told = f"{failures} failures told, {unnoted} answers without a note"
    print(f"{name}: {commands} commands, {allocations} allocations refused, {told}, {wrong} wrong", flush=True)
    return wrong


def main():
    with tempfile.TemporaryDirectory(dir="/dev/shm") as top:
        library = os.path.join(top, "refuse.so")
        source = os.path.join(TOP, "bench", "refuse.c")
        subprocess.run(["gcc", "-shared", "-fPIC", "-O1", "-o", library, source, "-ldl"], check=True)
        with multiprocessing.Pool() as pool:
            return bool(sum(through(name, library, top, pool) for name in sys.argv[2:] or EXAMPLES))


if __name__ == "__main__":
    sys.exit(main())
