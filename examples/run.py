#!/usr/bin/env python3
"""Runs the examples of texts and pages with the built program, and compares what each command prints with what stands below it.

    examples/run.py PROGRAM [TEXT ..]       PROGRAM is the path of `ftd`; with no TEXT it runs each text of examples/ and each page

A line `$ COMMAND` is a command of the shell; the lines below it, up to an empty line, the next command or the end of the block, are
what it prints on both outputs (empty lines of it are not compared; `(nothing)` stands where it prints nothing). Each line `# TITLE`
begins an example, in a new folder that has a copy of `examples/holidays`, a link to the built `ftd_example`, and nothing else. In a page
(`.md`) commands stand in blocks ```console, in a text (`.txt`) anywhere below a title; what else stands there is prose. The lines below
`cat NAME` are the file of that name where there is none yet; `$?` is the status of the command before. `curl` asks a `serve` over
`office.db` at port 8080, which is started before the first of them, for as many connections as there are.

With no TEXT it looks too whether README.md quotes the source of `ftd_example`: all of its `main.rt` but what stands at its head.

An example that keeps its file by more than one command runs a second time: each command in a folder of its own, with copies of the
files that the ones before left, and no log beside them. It runs a third time with a server: while office.db is there, a `serve` has it
open, and each command that takes `--at PORT` in the place of `--db office.db` is asked of that; for any other the server is killed. If all
its commands are lines of `ftd shell`, it runs once more, as one script of that: each line is answered as the command is, but that the file
was made is said at the end.

The last line is `N passed, M failed`, of examples. A wrong answer is told with the name of the text and the line; so are a command
with no answer, one that is not run, and a text with no command.
"""

import concurrent.futures
import glob
import os
import re
import shutil
import socket
import subprocess
import sys
import tempfile
import time

TOP = os.path.dirname(os.path.dirname(os.path.abspath(__file__)))
PAGES = ["README.md", "docs/TUTORIAL.md", "docs/MISTAKES.md", "docs/HTTP.md", "docs/FILES.md"]
HOLIDAYS = "examples/holidays"
QUOTED, BUILT = "crates/ftd_example/src/main.rt", "crates/ftd_example/out/ftd_example"
SECONDS = 60


class Step:
    """A command, the number of its line, and the lines below it."""

    def __init__(self, line, command):
        self.line, self.command, self.printed = line, command, []

    def first_word(self):
        """The first word of the command."""
        return self.command.split()[0]

    def file_name(self):
        """The name of the file that stands below the command, if it is one that shows a file."""
        name = re.fullmatch(r"cat ([\w.-]+)", self.command)
        return name and name[1]

    def served(self, port):
        """The command as it is asked of the server at the port, if it can be. A word in quotes is not sent, nor is a wait for the file or a time zone."""
        named = re.findall(r"\bftd ([a-z-]+)(?: --db office\.db)?", self.command)
        asked = self.command.replace(" --db office.db", f" --at {port}")
        is_sent = named and not any(re.fullmatch(r"serve|shell|backup|plain|help|import.*", it) for it in named)
        is_all = len(named) == self.command.count(" --db office.db") and not re.search(r"office\.db|FTD_DB|TZ=|--wait|--at=|\bftd [^|;&>]*['\"$]", asked.replace(f"--at {port}", ""))
        return asked if is_sent and is_all else None

    def shell_line(self):
        """The command as a line of `ftd shell` over office.db, if it can be one."""
        is_plain = re.fullmatch(r"ftd ([a-z-]+) --db office\.db(( [\w.,-]+)*)", self.command)
        return is_plain and is_plain[1] not in ("serve", "shell", "backup") and f"{is_plain[1]}{is_plain[2]}"


class Example:
    """The commands below a title."""

    def __init__(self, text, title):
        self.text, self.title, self.steps = text, title, []

    def keeps_a_file(self):
        """Whether more than one command works on a desk's file, none of them over a socket."""
        return sum("--db " in it.command for it in self.steps) > 1 and not self.requests()

    def is_script(self):
        """Whether its commands can be lines of one shell."""
        commands = [it for it in self.steps if not it.file_name() and it.command != "echo $?"]
        return len(commands) > 1 and all(it.shell_line() for it in commands) and not any("failed Missing" in it.printed for it in commands)

    def requests(self):
        """How many connections its commands make."""
        return sum(len(re.findall(r"\bcurl\b", it.command)) for it in self.steps)


def examples_of(text):
    """The examples of a text or page, and what is wrong with its form."""
    found, wrong, step = [], [], None
    in_page = text.endswith(".md")
    block = None if in_page else "console"
    with open(os.path.join(TOP, text), encoding="utf-8") as lines:
        for number, line in enumerate(lines.read().split("\n"), 1):
            if in_page and line.startswith("```"):
                block, step = (line[3:] if block is None else None), None
            elif line.startswith("# ") and (not in_page or block is None):
                found.append(Example(text, line[2:]))
                step = None
            elif re.match(r"\s*\$ ", line) and (block != "console" or not line.startswith("$ ") or not found):
                wrong.append(f"{text}:{number}: is never run: {line.strip()}")
            elif line.startswith("$ "):
                step = Step(number, line[2:])
                found[-1].steps.append(step)
            elif line == "":
                step = None
            elif step:
                step.printed.append(line)
    steps = [it for example in found for it in example.steps]
    wrong += [f"{text}:{it.line}: has no answer: {it.command}" for it in steps if it.first_word() in ("ftd", "curl") and not it.printed]
    wrong += [] if steps else [f"{text}:1: has no command"]
    return [it for it in found if it.steps], wrong


def free_port():
    with socket.socket() as it:
        it.bind(("127.0.0.1", 0))
        return it.getsockname()[1]


class Run:
    """One run of an example, in a folder of its own or, command by command, in new ones, or with a server."""

    def __init__(self, example, program, way):
        self.example, self.program, self.moves, self.is_served = example, program, way == "apart", way == "served"
        self.status, self.server, self.asked = 0, None, 0
        self.room = tempfile.mkdtemp(prefix="ftd-examples-")
        os.mkdir(f"{self.room}/bin")
        os.symlink(program, f"{self.room}/bin/ftd")
        self.folder = f"{self.room}/0"
        shutil.copytree(f"{TOP}/{HOLIDAYS}", f"{self.folder}/{HOLIDAYS}")
        os.makedirs(os.path.dirname(f"{self.folder}/{BUILT}"))
        os.symlink(f"{TOP}/{BUILT}", f"{self.folder}/{BUILT}")
        self.port = free_port() if example.requests() else None

    def move(self, number):
        """Goes on in a new folder, with copies of the files but the log."""
        shutil.copytree(self.folder, f"{self.room}/{number}", symlinks=True, ignore=shutil.ignore_patterns("*-wal"))
        shutil.rmtree(self.folder)
        self.folder = f"{self.room}/{number}"

    def serve(self):
        """Starts the server, and waits until it listens."""
        words = ["serve", "--db", "office.db", "--port", str(self.port), "--connections", str(self.example.requests())]
        self.server = subprocess.Popen([self.program, *words], cwd=self.folder, stdout=subprocess.PIPE, stderr=subprocess.DEVNULL, text=True)
        self.server.stdout.readline()

    def end_server(self):
        """Kills the server, if there is one."""
        if self.server:
            self.server.kill()
            self.server.wait()
            self.server = None

    def over_server(self, step):
        """The command as it is asked of a server over office.db, which is started where there is none; or as it is, with no server."""
        if not step.served(0) or not os.path.exists(f"{self.folder}/office.db"):
            self.end_server()
            return step.command
        if not self.server:
            words = ["serve", "--db", "office.db", "--port", "0", "--connections", "100000"]
            self.server = subprocess.Popen([self.program, *words], cwd=self.folder, stdout=subprocess.PIPE, stderr=subprocess.DEVNULL, text=True)
            self.at = self.server.stdout.readline().strip().rpartition(":")[2]
        self.asked += 1
        return step.served(self.at)

    def printed(self, step):
        """What the command prints."""
        command = f"(exit {self.status})\n{self.over_server(step) if self.is_served else step.command}"
        if self.port:
            command = command.replace(":8080/", f":{self.port}/")
        path = f"{self.room}/bin:{os.environ['PATH']}"
        how = {"cwd": self.folder, "env": {**os.environ, "PATH": path}, "stdin": subprocess.DEVNULL, "timeout": SECONDS}
        ran = subprocess.run(["bash", "-c", command], stdout=subprocess.PIPE, stderr=subprocess.STDOUT, text=True, errors="replace", **how)
        self.status = ran.returncode
        return [line for line in ran.stdout.split("\n") if line] or ["(nothing)"]

    def make_file(self, step):
        """Makes the file that stands below a command."""
        with open(f"{self.folder}/{step.file_name()}", "w", encoding="utf-8") as it:
            it.write("".join(f"{line}\n" for line in step.printed))

    def script(self):
        """Runs all commands as lines of one shell, and gives what is wrong."""
        for step in self.example.steps:
            if step.file_name():
                self.make_file(step)
        steps = [it for it in self.example.steps if it.shell_line()]
        with open(f"{self.room}/script", "w", encoding="utf-8") as it:
            it.write("".join(f"{step.shell_line()}\n" for step in steps))
        words = [self.program, "shell", "--db", "office.db", "--echo", f"{self.room}/script"]
        ran = subprocess.run(words, cwd=self.folder, stdin=subprocess.DEVNULL, stdout=subprocess.PIPE, stderr=subprocess.STDOUT, text=True)
        shutil.rmtree(self.room)
        parts = ran.stdout.removeprefix("$ ftd ").split("\n$ ftd ")
        wrong = [] if len(parts) == len(steps) else [f"{self.example.text}: lines of a shell: {len(parts)} answers of {len(steps)}: {self.example.title}"]
        for number, (step, part) in enumerate(zip(steps, parts), 1):
            lines = part.split("\n")
            is_made = re.compile(r"hint: office\.db: it was not there, so ftd made it")
            printed = [it for it in lines[1:] if it and it != f"line {number}: {step.shell_line()}" and not is_made.match(it)]
            wanted = [it for it in step.printed if it != "(nothing)" and not is_made.match(it)]
            if lines[0] != step.shell_line() or printed != wanted:
                wrong.append(f"{self.example.text}:{step.line}: differs as a line of a shell: {step.command}")
                wrong += [*[f"    printed  {it}" for it in printed], *[f"    wanted   {it}" for it in wanted]]
        return wrong

    def step(self, number, step):
        """Runs a command, and gives what is wrong with what it prints."""
        if self.moves and number:
            self.move(number)
        if self.port and not self.server and "curl" in step.command:
            self.serve()
        if step.file_name() and not os.path.exists(f"{self.folder}/{step.file_name()}"):
            self.make_file(step)
            return []
        wanted = step.printed or ["(nothing)"]
        try:
            printed = self.printed(step)
        except subprocess.TimeoutExpired:
            printed = [f"(no end within {SECONDS} seconds)"]
        if printed == wanted:
            return []
        where = ", in a folder of its own" if self.moves else ", asked of a server" if self.is_served else ""
        at = f"{self.example.text}:{step.line}: differs{where}: {step.command}"
        return [at, *[f"    printed  {it}" for it in printed], *[f"    wanted   {it}" for it in wanted]]

    def all(self):
        """Runs each command, and gives what is wrong."""
        wrong = []
        try:
            for number, step in enumerate(self.example.steps):
                wrong += self.step(number, step)
            if self.server and not self.is_served and self.server.wait(SECONDS):
                wrong.append(f"{self.example.text}: serve ended with status {self.server.returncode}: {self.example.title}")
        except subprocess.TimeoutExpired:
            wrong.append(f"{self.example.text}: serve had not ended: {self.example.title}")
        finally:
            self.end_server()
            shutil.rmtree(self.room)
        return wrong


def run(program, example, way):
    """Runs an example in one of the four ways, and gives what is wrong, and how many commands were asked of a server."""
    it = Run(example, program, way)
    return (it.script() if way == "script" else it.all()), it.asked


def never_run(texts):
    """Commands of files beside the texts and pages."""
    places = [*glob.glob(f"{TOP}/examples/*"), *glob.glob(f"{TOP}/docs/*"), *glob.glob(f"{TOP}/*.md")]
    for path in sorted(os.path.relpath(it, TOP) for it in places if not it.endswith((".py", ".sh", ".csv")) and os.path.isfile(it)):
        if path not in texts:
            with open(os.path.join(TOP, path), encoding="utf-8", errors="replace") as lines:
                for number, line in enumerate(lines, 1):
                    if line.startswith("$ "):
                        yield f"{path}:{number}: is never run: {line.strip()}"


def misquoted():
    """What is wrong with the program of the library that README.md quotes."""
    with open(f"{TOP}/{QUOTED}", encoding="utf-8") as source, open(f"{TOP}/README.md", encoding="utf-8") as page:
        code = re.sub(r"\A(?:(?:#!|//!).*\n)+\n", "", source.read())
        if f"\n```rust\n{code}```\n" not in page.read():
            yield f"README.md: has no block of what stands in {QUOTED}"


def main():
    if len(sys.argv) < 2 or not os.access(sys.argv[1], os.X_OK):
        sys.exit(__doc__.split("\n\n")[1])
    program = os.path.abspath(sys.argv[1])
    texts = [os.path.relpath(os.path.abspath(it), TOP) for it in sys.argv[2:]]
    every = texts or [*PAGES, *sorted(os.path.relpath(it, TOP) for it in glob.glob(f"{TOP}/examples/*.txt"))]
    wrong = [] if texts else [*never_run(every), *misquoted()]
    runs, began = [], time.monotonic()
    for text in every:
        found, of_text = examples_of(text)
        wrong += of_text
        runs += [(it, "whole") for it in found] + [(it, "apart") for it in found if it.keeps_a_file()]
        runs += [(it, "served") for it in found if it.keeps_a_file() and any(step.served(0) for step in it.steps)]
        runs += [(it, "script") for it in found if it.is_script()]
    with concurrent.futures.ThreadPoolExecutor(os.cpu_count()) as pool:
        done = [*pool.map(lambda it: run(program, *it), runs)]
    told = [lines for lines, _ in done]
    for line in [*wrong, *[line for it in told for line in it]]:
        print(line)
    commands = sum(len(it.steps) for it, _ in runs)
    failed = len(wrong) + sum(1 for it in told if it)
    print(f"{len(every)} texts and pages, {commands} commands, {sum(asked for _, asked in done)} of them asked of a server, {time.monotonic() - began:.0f} seconds")
    print(f"{len(runs) - sum(1 for it in told if it)} passed, {failed} failed")
    return 1 if failed else 0


if __name__ == "__main__":
    sys.exit(main())
