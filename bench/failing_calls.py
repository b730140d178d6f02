#!/usr/bin/env python3
"""Makes each call of the system fail in turn, through every command of worked examples.

It needs strace. Each command of an example's text (the examples of refused_program.py) is run on the files that the commands before it left: once to
list its calls, and then once for each of these and each error that fits its kind. That call is not made, and answered by the error. Then the command
has to print what it prints else, with the same status, and leave the same tables; only a hint or a note below the answer may be missing, or a line or
its end that standard error did not take. Or else it says that memory, the store, the file or standard output failed, in the first line of standard error, or
the first below a refusal or the notes of its answer, and ends with status 3: then what it printed is the beginning of what it prints else, and the tables are
those before it or those after it, and those after it if all of its answer was printed. An import may stop at one of its records: then the tables are
those of the records before it, and it counted no more of them. Standard output is told to have failed exactly where a call that wrote to it did, and
memory only where a call was refused for want of it. Whatever came of it, the same command is run again, with nothing that fails, on what is there: it
prints what it prints else, or what it prints a second time, and leaves the tables of the command alone.

A call that begins the program or ends it can't be refused sensibly. Those by which the system's loader reads the program's libraries are tried too:
where one of these fails, the program may not begin, print nothing and change nothing, which is counted apart.

`bench/failing_calls.py [PROGRAM [NAME ..]]` takes the program and which examples. Below the line of an example there is a line for each kind of call
and error: how many were tried, and what came of them.
"""
import collections
import multiprocessing
import os
import re
import signal
import subprocess
import sys
import tempfile

from office import program_of
from refused_program import EXAMPLES, FAULTS, begin, commands_of, example, is_same, put, rows_of, states_within

# The errors that fit a kind of call; of any other kind it is EIO.
ERRORS = {
    "write pwrite64 writev pwritev pwritev2": ["ENOSPC", "EIO", "EINTR"],
    "read pread64 readv preadv preadv2": ["EIO", "EINTR"],
    "open openat": ["EACCES", "EMFILE", "EIO"],
    "mmap mremap munmap mprotect madvise sigaltstack": ["ENOMEM"],
    "fcntl flock": ["ENOLCK"],
    "unlink unlinkat rename access": ["EACCES"],
    "clone clone3 futex getrandom": ["EAGAIN"],
    "poll ppoll": ["ENOMEM", "EINTR"],
}
ERRORS_OF = {kind: errors for kinds, errors in ERRORS.items() for kind in kinds.split()}
WRITES = ("write", "writev", "sendto")
NEVER = ("execve", "exit", "exit_group", "rt_sigreturn")
OUTPUT = "failed Output"
SECONDS = 60

# What a command says: its status, what it printed, the lines of standard error, and the hints among these.
Said = collections.namedtuple("Said", "status out told hints")
# A call of a kind, which one of that kind it is, the number of the file that it names, if it names one, and whether it is the loader's.
Call = collections.namedtuple("Call", "kind number file is_loader")


def run(folder, words, before=()):
    """What the program says in the folder."""
    how = {"cwd": folder, "stdin": subprocess.DEVNULL, "stdout": subprocess.PIPE, "stderr": subprocess.PIPE, "start_new_session": True}
    program = subprocess.Popen([*before, program_of(sys.argv[1:2]), *words], **how)
    try:
        out, err = (it.decode(errors="replace") for it in program.communicate(timeout=SECONDS))
    except subprocess.TimeoutExpired:
        os.killpg(program.pid, signal.SIGKILL)
        program.communicate()
        return Said(None, "", [f"no end within {SECONDS} seconds"], [])
    lines = err.split("\n")[:-1] if err.endswith("\n") or not err else err.split("\n")
    return Said(program.returncode, out, [it for it in lines if not it.startswith("hint: ")], [it for it in lines if it.startswith("hint: ")])


def calls_of(folder, words):
    """What the command says, and its calls. The loader's last one gives back the memory of its list of libraries."""
    listing, counted, calls, is_loader = f"{folder}.calls", collections.Counter(), {}, True
    said = run(folder, words, ["strace", "-f", "-qq", "-o", listing])
    with open(listing, encoding="utf-8", errors="replace") as lines:
        for line in lines:
            found = re.match(r"(\d+) +(\w+)\((\d*)", line)
            if found and found[2] not in NEVER:
                counted[found[1], found[2]] += 1
                call = Call(found[2], counted[found[1], found[2]], int(found[3] or -1), is_loader)
                calls.setdefault(call[:2], call)
                is_loader = is_loader and call.kind != "munmap"
    return said, list(calls.values())


def ways_of(call):
    """How the call is made to fail. The system answers a `brk` that fails by the end of the memory that there is, and not by an error."""
    return ["retval=0"] if call.kind == "brk" else [f"error={it}" for it in ERRORS_OF.get(call.kind, ["EIO"])]


def kept_in(folder):
    """The rows of the desk's file; a file without a row is as none."""
    rows = rows_of(folder)
    return rows if any(its for name, its in rows.items() if name != "ftd_meta") else {}


def is_part(lines, whole):
    """Whether the lines are some of the whole ones, in their order, each whole or cut short."""
    rest = iter(whole)
    return all(any(other.startswith(it) for other in rest) for it in lines)


def fault_of(said, right):
    """The line that says what failed: the first one of standard error, or the first below a refusal or the notes of an answer."""
    return next((it for it in said.told if it not in right.told), None)


def is_told(call, way, said, found, right, states, is_import):
    """Whether the command says that it failed, as it has to, with such tables."""
    fault = fault_of(said, right)
    if said.status != 3 or fault not in (*FAULTS, OUTPUT):
        return False
    if (fault == OUTPUT) != (call.kind in WRITES and call.file == 1):
        return False
    if fault == FAULTS[0] and "ENOMEM" not in way and call.kind != "brk":
        return False
    at = [it for it, (_, rows) in enumerate(states) if rows == found]
    if is_import and fault != OUTPUT:
        counted = [it for it, (out, _) in enumerate(states) if out == said.out]
        return bool(at and counted) and min(counted) <= max(at)
    return bool(at) and right.out.startswith(said.out) and (not right.out or said.out != right.out or found == states[-1][1])


def outcome(call, way, said, found, right, states, is_import):
    """What came of a call that failed, or None where that is wrong."""
    if said[:3] == right[:3] and found == states[-1][1]:
        return "the same" if said.hints == right.hints else "the same, but for a hint"
    if is_same(said, right) and found == states[-1][1]:
        return "the same, but for a note"
    if said[:2] == right[:2] and found == states[-1][1] and call.kind in WRITES and call.file == 2:
        return "the same, but for a line of standard error" if is_part(said.told + said.hints, right.told + right.hints) else None
    if call.is_loader and said.status != 0 and not said.out and found == states[0][1]:
        return "not begun"
    if is_told(call, way, said, found, right, states, is_import):
        return f"{fault_of(said, right)}{', Corrupt' if any(it.startswith('Corrupt') for it in said.told) else ''}"
    return None


def tried(job):
    """Makes one call of the command fail; the kind and the error, what came of it, and what is wrong, if anything is."""
    here, folder, words, call, way, right, twice, states = job
    folder = f"{folder}.{os.getpid()}"
    put(here, folder)
    inject = f"inject={call.kind}:{way}:when={call.number}"
    said = run(folder, words, ["strace", "-f", "--seccomp-bpf", "-qq", "-o", "/dev/null", "-e", f"trace={call.kind}", "-e", inject])
    found = kept_in(folder)
    if "no tables" in found and not states[0][1]:
        # A new file that was not made to its end is none that sqlite3 reads: the second run says whether the program takes it as new.
        found = {}
    came, wrong = outcome(call, way, said, found, right, states, words[0] == "import"), None
    name = f"{' '.join(words)}: {call.kind} {call.number}{f' of file {call.file}' if call.file >= 0 else ''}, {way}"
    if came is None:
        where = next((it for it, (_, rows) in enumerate(states) if rows == found), None)
        wrong = f"{name}: {said}, tables {'of another desk' if where is None else f'{where} of {len(states) - 1}'}"
    again = run(folder, words)
    if kept_in(folder) != states[-1][1] or again.status == 3 or words[0] != "import" and again[:3] not in (right[:3], twice[:3]):
        wrong = f"{wrong or f'{name}: {said}'}; again: {again}, tables {'as' if kept_in(folder) == states[-1][1] else 'not as'} those of the command"
    return (call.kind, way.partition("=")[2]), came or "wrong", wrong


def failed(here, words, folder, pool):
    """Makes each call of the command fail; how many calls there are, and for each kind and error how often what came of it."""
    put(here, folder)
    before = kept_in(folder)
    right, calls = calls_of(folder, words)
    after = kept_in(folder)
    twice = run(folder, words)
    states = [("", before)]
    if words[0] == "import":
        states += [(said[1], rows) for said, rows in states_within(here, words, folder)]
    states += [(right.out, after)]
    jobs = [(here, folder, words, call, way, right, twice, states) for call in calls for way in ways_of(call)]
    found, wrongs = collections.Counter(), 0
    for kind, came, wrong in pool.imap_unordered(tried, jobs, 8):
        found[(*kind, came)] += 1
        wrongs += bool(wrong)
        if wrong:
            print(wrong, flush=True)
    return len(calls), found, wrongs


def through(name, top, pool):
    """Runs the commands of the example one after the other, each with each of its calls failing before; how often that was wrong."""
    here, folder = os.path.join(top, name), os.path.join(top, "tried")
    begin(here)
    commands, count, found, wrongs = 0, 0, collections.Counter(), 0
    for step in example(name).steps:
        for words in commands_of(step, here):
            calls, its, wrong = failed(here, words, folder, pool)
            run(here, words)
            commands, count, found, wrongs = commands + 1, count + calls, found + its, wrongs + wrong
            print(f"{name}, {commands}: {words[0]}: {sum(its.values())} times, {wrong} wrong", file=sys.stderr, flush=True)
    told = sum(times for (_, _, came), times in found.items() if came.startswith("failed"))
    print(f"{name}: {commands} commands, {count} calls, {sum(found.values())} times one failed, {told} failures told, {wrongs} wrong", flush=True)
    for kind in sorted({it[:2] for it in found}):
        its = {came: times for (*of, came), times in found.items() if tuple(of) == kind}
        print(f"  {' '.join(kind)}: {sum(its.values())}: {', '.join(f'{times} {came}' for came, times in sorted(its.items()))}", flush=True)
    return wrongs


def main():
    os.nice(5)
    with tempfile.TemporaryDirectory(dir="/dev/shm") as top, multiprocessing.Pool() as pool:
        return bool(sum(through(name, top, pool) for name in sys.argv[2:] or EXAMPLES))


if __name__ == "__main__":
    sys.exit(main())
