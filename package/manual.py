#!/usr/bin/env python3
"""Writes the manual page ftd(1) to standard output: of what the help of the program says, and of sentences of the pages.

    package/manual.py PROGRAM FOLDER DAY        FOLDER is where the pages are when the program is installed, DAY the day of the page
"""

import os
import re
import sys
import textwrap

from help_texts import Help

TOP = os.path.dirname(os.path.dirname(os.path.abspath(__file__)))


def page(path):
    """The paragraphs of a page, each as one line."""
    with open(os.path.join(TOP, path), encoding="utf-8") as text:
        return [" ".join(it.split()) for it in text.read().split("\n\n")]


def sentences(path, *beginnings):
    """The sentences of a page that begin so."""
    said = [it for paragraph in page(path) for it in re.split(r"(?<=[a-z`)0-9]\.) (?=[A-Z`*[])", paragraph)]
    for beginning in beginnings:
        found = [it for it in said if it.startswith(beginning)]
        if len(found) != 1:
            sys.exit(f"{path}: {len(found)} sentences begin with {beginning!r}")
        yield found[0]


def escaped(text):
    """A text as the page has it: each byte stands for itself."""
    signs = {"\\": "\\e", "-": "\\-", "'": "\\(aq", "`": "\\(ga", "^": "\\(ha", "~": "\\(ti"}
    return "".join(signs.get(it, it) for it in text)


def bold(text):
    return f"\\fB{escaped(text)}\\fR"


def prose(text):
    """A sentence of a page: links as their words, and words in back quotes bold."""
    text = re.sub(r"\[([^\]]*)\]\([^)]*\)", r"\1", text).replace("**", "")
    return "".join(bold(it) if place % 2 else escaped(it) for place, it in enumerate(text.split("`")))


def lines(text):
    """A text in lines of at most 79 bytes, as readers of the page's source like them; none of them is taken for a request."""
    its = textwrap.wrap(text, 79, break_long_words=False, break_on_hyphens=False)
    return "".join(f"\\&{it}\n" if it[0] in ".'" else f"{it}\n" for it in its)


def paragraphs(*texts):
    return "".join(f".PP\n{lines(it)}" for it in texts)


def entry(head, *texts):
    return f".TP\n{head}\n" + "".join(map(lines, texts))


def head_of(word):
    """How a word or an option is written."""
    value = f" \\fI{escaped(word.value)}\\fR" if word.value and word.name.startswith("--") else ""
    short = f"{bold(word.short)}, " if word.short else ""
    name = bold(word.name) if word.name.startswith("--") else f"\\fI{escaped(word.name)}\\fR{' ...' * word.is_many}"
    return f"{short}{name}{value}"


def usage_of(command):
    """The usage of a command: what is typed is bold, and the name of a value is slanted."""
    words = re.split(r"(<\w+>|\[\w+\])", command.usage)
    return "".join(f"\\fI{escaped(it.strip('<>'))}\\fR" if place % 2 else bold(it) if it.strip(" .") else it for place, it in enumerate(words))


def shared_options(commands):
    """The options that all commands with `--db` have, in the same words; and the names of the commands without it."""
    with_file = [it for it in commands if any(option.name == "--db" for option in it.options)]
    shared = [option for option in with_file[0].options if all(any(option.same_as(its) for its in it.options) for it in with_file)]
    return shared, [it.name for it in commands if it not in with_file]


def command_section(command, shared):
    """What the page says of a command."""
    example, *more = command.examples
    words = [*command.words, *[it for it in command.options if not any(it.same_as(other) for other in shared)]]
    listed = "".join(entry(head_of(it), escaped(it.said)) for it in words)
    shown = f".PP\nExample:\n.PP\n.in +4n\n.EX\n{escaped(example)}\n.EE\n.in\n"
    return f".SS {command.name}\n{lines(usage_of(command))}" + paragraphs(f"{escaped(command.about)}.") + listed + shown + paragraphs(*map(escaped, more))


def statuses():
    """The exit statuses, of the sentence of README.md that has them all."""
    (said,) = sentences("README.md", "The exit status is 0")
    found = re.findall(r"(\d) for ([a-z ]+)", said)
    if [number for number, _ in found] != ["0", "1", "2", "3"]:
        sys.exit(f"README.md: not the four exit statuses: {said}")
    return "".join(entry(bold(number), escaped(what)) for number, what in found)


def pages_for_users(folder):
    """The pages for those who have deposits to make, as docs/README.md lists them."""
    with open(os.path.join(TOP, "docs/README.md"), encoding="utf-8") as text:
        table = text.read().partition("**You have deposits to make.**")[2].partition("\n**")[0]
    rows = re.findall(r"\| \[[^\]]+\]\(([^)]+)\) \| (.+) \|", table)
    if len(rows) < 5:
        sys.exit("docs/README.md: no table of pages for those who have deposits to make")
    path = lambda name: os.path.normpath(f"{folder}/docs/{name}")
    return "".join(entry(f"\\fI{escaped(path(name))}\\fR", prose(what)) for name, what in rows)


def options_section(said):
    """The options of all commands, and those of the program."""
    shared, without = shared_options(said.commands)
    own = [it.name for it in said.options]
    listed = lambda options: "".join(entry(head_of(it), escaped(it.said)) for it in options)
    both = [it.name for it in shared if it.name in own]
    return (
        lines(f"Each command but {' and '.join(map(bold, without))} takes these:") + listed([it for it in shared if it.name not in own])
        + paragraphs(f"Without a command {bold('ftd')} takes these; each command takes {' and '.join(map(bold, both))} too:") + listed(said.options)
    )


def environment_section():
    page_of = "docs/FORMATS.md"
    return entry(bold("FTD_DB"), *map(prose, sentences(page_of, "`--db FILE` is required"))) + entry(
        bold("TZ"), *map(prose, sentences(page_of, "Today is the day in the time zone"))
    )


def files_section(folder):
    page_of, holidays = "docs/FILES.md", sentences("README.md", "No holidays are built in")
    return (
        entry("\\fIFILE\\fR", *map(prose, sentences(page_of, "A desk is one file", "It holds pay data")))
        + entry("\\fIFILE\\-wal\\fR", *map(prose, sentences(page_of, "`FILE-wal`, next to the file, is the log", "While a command runs")))
        + entry(f"\\fI{escaped(folder)}/examples/holidays\\fR", *map(prose, holidays))
    )


def manual(said, folder, day):
    """The whole page."""
    shared, _ = shared_options(said.commands)
    what = said.about.rpartition(". ")[0]
    kept = ["`ftd` tells an employer", "Its rules are those", "What an employer enters", "Each but `plain` takes", "With `--at PORT`"]
    refused = ["A refusal is a line", "The same thing posted twice"]
    sections = {
        "NAME": f"ftd \\- {escaped(what[0].lower() + what[1:])}\n",
        "SYNOPSIS": f".B ftd\n.I COMMAND\n.RI [ WORD \" ...]\"\n.br\n{bold('ftd help')}\n.RI [ COMMAND ]\n.br\n{bold('ftd --version')}\n",
        "DESCRIPTION": "".join(lines(prose(it)) for it in sentences("README.md", *kept)),
        "OPTIONS": options_section(said),
        "COMMANDS": "".join(command_section(it, shared) for it in said.commands),
        "EXIT STATUS": statuses(),
        "DIAGNOSTICS": "".join(lines(prose(it)) for it in sentences("README.md", *refused)),
        "ENVIRONMENT": environment_section(),
        "FILES": files_section(folder),
        "SEE ALSO": pages_for_users(folder),
        "COPYRIGHT": "".join(lines(prose(it)) for it in sentences("README.md", "No licence has been chosen")),
    }
    head = f'.TH FTD 1 {day} "ftd {escaped(said.version)}" "User Commands"\n'
    return head + "".join(f".SH {name}\n{text}" for name, text in sections.items())


def main():
    if len(sys.argv) != 4:
        sys.exit(__doc__.split("\n\n")[1])
    print(manual(Help(os.path.abspath(sys.argv[1])), *sys.argv[2:]), end="")


if __name__ == "__main__":
    main()
