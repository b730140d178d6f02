"""What the help of the program says: its commands, in their order, with their words, options and examples, read of `ftd --help` and `ftd help COMMAND`.

Each line of help has to have a form that is known here; where one has another, the reader ends and shows it, so that nothing is left out in silence."""

import re
import subprocess
import sys

WORD = re.compile(r"  (?:<(?P<must>\w+)>|\[(?P<may>\w+)\])(?P<many>\.\.\.)?(?:  +(?P<said>\S.*))?")
OPTION = re.compile(r"  (?:(?P<short>-\w), |    )(?P<long>--[a-z-]+)(?: <(?P<value>\w+)>)?(?:  +(?P<said>\S.*))?")
COMMAND = re.compile(r"  (?P<name>[a-z][a-z-]*)  +(?P<said>\S.*)")
# How the values of a word are named in what help says of it, where they are fixed: by the name of the word's value.
VALUES = {
    "FORMAT": r": ((?:\w+, )*\w+ or \w+)(?: \[|$)",
    "FORM": r", (\w+ or \w+)(?: \[|$)",
    "HOLIDAY": r"^((?:yes|no) if .*, (?:yes|no) if )",
    "RUN": r", or (next)$",
    "PAYMENT": r", or (next)$",
}
# The words whose values are files.
FILES = ("FILE", "CSVFILE", "COPY", "SCRIPT")


class Word:
    """A word or an option of a command, and what help says of it. `value` is the name of its value; None of an option that is there or not."""

    def __init__(self, name, value, said, short=None, is_many=False):
        self.name, self.value, self.said, self.short, self.is_many = name, value, said, short, is_many

    def is_file(self):
        return self.value in FILES

    def values(self):
        """Its values, where they are fixed. `HOLIDAY` is also what `plain` calls its days, so a word may have no fixed ones, but no option."""
        if self.value not in VALUES:
            return []
        found = re.search(VALUES[self.value], self.said)
        if not found and self.name.startswith("--"):
            sys.exit(f"help names no values of {self.name}: {self.said}")
        if self.value == "HOLIDAY":
            return re.findall(r"\b(yes|no) if", found[1]) if found else []
        return re.split(", | or ", found[1]) if found else []

    def same_as(self, other):
        return (self.name, self.value, self.said) == (other.name, other.value, other.said)


class Command:
    """A command. `examples` are the lines at the end of its help."""

    def __init__(self, name, about):
        self.name, self.about, self.usage, self.words, self.options, self.examples = name, about, "", [], [], []


def said_by(program, *words):
    """What the program prints. Its usages have the name by which it was called."""
    return subprocess.run(["ftd", *words], executable=program, check=True, stdout=subprocess.PIPE, text=True).stdout


def fail(line):
    sys.exit(f"a line of help that has no form which is known here: {line!r}")


def parts(text):
    """The parts of a help: lines in a row. Entries that stand apart are of the part before."""
    found = []
    for part in text.strip("\n").split("\n\n"):
        lines = part.split("\n")
        if found and lines[0].startswith("  "):
            found[-1] += lines
        else:
            found.append(lines)
    return found


def entries(lines, form):
    """What is listed below a heading: each entry, with the lines that go on with it."""
    found = []
    for line in lines:
        entry = form.fullmatch(line)
        if entry:
            found.append((entry, [entry["said"]] if entry["said"] else []))
        elif found and re.match(r" {8}", line):
            found[-1][1].extend(line.split())
        else:
            fail(line)
    return [(entry, " ".join(said)) for entry, said in found]


def word_of(entry, said):
    name = entry["must"] or entry["may"]
    return Word(name, name, said, is_many=bool(entry["many"]))


def option_of(entry, said):
    return Word(entry["long"], entry["value"], said, entry["short"])


def read_command(program, name, about):
    """The help of a command."""
    command = Command(name, about)
    (first, *_), usage, *rest = parts(said_by(program, "help", name))
    if first != about or not usage[0].startswith("Usage: ftd "):
        fail(f"{first} {usage[0]}")
    command.usage = " ".join(line.strip() for line in usage).removeprefix("Usage: ")
    for heading, *lines in rest:
        if heading == "Arguments:":
            command.words = [word_of(*it) for it in entries(lines, WORD)]
        elif heading == "Options:":
            command.options = [option_of(*it) for it in entries(lines, OPTION)]
        elif heading.startswith("Example: "):
            command.examples = [heading.removeprefix("Example: "), *lines]
        else:
            fail(heading)
    if not command.usage.startswith(f"ftd {name}") or not command.options or not command.examples:
        fail(command.usage)
    return command


class Help:
    """All of it. `commands` lacks `help` itself."""

    def __init__(self, program):
        (self.about, *_), (usage,), *rest = parts(said_by(program, "--help"))
        self.version = said_by(program, "--version").strip().removeprefix("ftd ")
        self.usage, self.options, self.commands = usage.removeprefix("Usage: "), [], []
        for heading, *lines in rest:
            if heading == "Options:":
                self.options = [option_of(*it) for it in entries(lines, OPTION)]
            elif heading == "Commands:":
                listed = [(entry["name"], said) for entry, said in entries(lines, COMMAND)]
                self.commands = [read_command(program, *it) for it in listed if it[0] != "help"]
            else:
                fail(heading)
        if not self.commands or not self.options or not self.version:
            fail(self.about)
