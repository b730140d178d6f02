#!/usr/bin/env python3
"""Tries the completions of `ftd` in bash, zsh and fish themselves.

    package/try_completions.py PROGRAM FOLDER       FOLDER is a prefix that the package was unpacked in, as /usr

In each shell every command is offered, at once and behind its first letters; of each command each option that its help names, and no other; behind `--format` and
`--form` exactly the values that its help names; behind `--db` the files of the folder. What is offered behind `--format` the program takes, and it takes no other.
It needs bash, zsh and fish, and prints how many lines were completed in each. It ends with status 1 at the first line that is completed otherwise.
"""

import os
import pty
import re
import subprocess
import sys
import tempfile
import time

from help_texts import Help

FORMATS = ["text", "csv", "json", "html", "ics"]
END = "--end--"
# Where the completions of a shell lie, below the folder that they were unpacked in.
PLACES = {
    "bash": ["share/bash-completion/completions/ftd"],
    "zsh": ["share/zsh/vendor-completions/_ftd", "share/zsh/site-functions/_ftd"],
    "fish": ["share/fish/vendor_completions.d/ftd.fish"],
}
BASH = """
source {file}
offers() {{
    COMP_WORDS=("$@") COMP_CWORD=$(($# - 1))
    _ftd
    printf '%s\\n' "${{COMPREPLY[@]}}" {end}
}}
"""
# Each TAB writes what it would offer to a file, and empties the line.
ZSH = """
PROMPT= RPROMPT=
unset zle_bracketed_paste
fpath=({folder} $fpath)
autoload -U compinit && compinit -u -D
compadd() {{
    if [[ ${{@[1,(i)(-|--)]}} == *-(O|A|D)\\ * ]]; then builtin compadd "$@"; return; fi
    local -a its
    builtin compadd -A its "$@"
    (( $#its )) && print -rl -- $its >> {said}
    builtin compadd "$@"
}}
offers() {{ zle complete-word; print -r -- {end} >> {said}; BUFFER= }}
zle -N offers
bindkey '^I' offers
print -r -- {end} >> {said}
"""


def parted(text):
    """What was offered for each line: a set."""
    return [set(part.split("\n")) - {""} for part in text.split(f"{END}\n")[:-1]]


def bash_offers(file, folder, lines):
    quoted = lambda words: " ".join(f"'{it}'" for it in words)
    script = BASH.format(file=file, end=END) + "".join(f"offers {quoted(re.split(' |(?<==)|(?==)', line))}\n" for line in lines)
    ran = subprocess.run(["bash", "--norc", "-c", script], cwd=folder, check=True, stdout=subprocess.PIPE, stderr=subprocess.STDOUT, text=True)
    return parted(ran.stdout)


def wait_for(path, count):
    """Waits until so many lines were completed."""
    until = time.monotonic() + 60
    while time.monotonic() < until:
        with open(path, encoding="utf-8") as it:
            text = it.read()
        if text.count(f"{END}\n") >= count:
            return text
        time.sleep(0.01)
    sys.exit(f"zsh completes nothing: {text[-300:]}")


def zsh_offers(file, folder, lines):
    """What zsh offers on a terminal."""
    with tempfile.TemporaryDirectory() as room:
        said, setting = f"{room}/said", f"{room}/setting"
        with open(said, "w", encoding="utf-8"), open(setting, "w", encoding="utf-8") as it:
            it.write(ZSH.format(folder=os.path.dirname(file), said=said, end=END))
        child, terminal = pty.fork()
        if not child:
            os.chdir(folder)
            os.execvp("zsh", ["zsh", "-f", "-i"])
        os.write(terminal, f"source {setting}\n".encode())
        wait_for(said, 1)
        for number, line in enumerate(lines, 2):
            os.write(terminal, f"{line}\t".encode())
            text = wait_for(said, number)
            os.read(terminal, 1 << 20)
        os.close(terminal)
        os.waitpid(child, 0)
        return parted(text)[1:]


def fish_offers(file, folder, lines):
    script = f"source {file}\n" + "".join(f"complete -C '{line}'\necho {END}\n" for line in lines)
    ran = subprocess.run(["fish", "--no-config", "-c", script], cwd=folder, check=True, stdout=subprocess.PIPE, stderr=subprocess.STDOUT, text=True)
    return [{it.split("\t")[0] for it in its} for its in parted(ran.stdout)]


OFFERS = {"bash": bash_offers, "zsh": zsh_offers, "fish": fish_offers}


def fixed(option):
    """The fixed values of an option, as its help names them."""
    words = {"FORMAT": rf"\b(?:{'|'.join(FORMATS)})\b", "FORM": r"\b94[13]\b"}
    return set(re.findall(words[option.value], option.said)) if option.value in words else set()


def wanted(said):
    """The lines that are completed, and what has to be offered for each. Of a set in a list all has to be offered, and more may be."""
    names = {it.name for it in said.commands} | {"help"}
    yield "ftd ", names
    yield "ftd --", {it.name for it in said.options}
    yield "ftd help ", names - {"help"}
    for name in names:
        yield f"ftd {name[:-1]}", {it for it in names if it.startswith(name[:-1])}
    for command in said.commands:
        options = {it.name for it in command.options}
        yield f"ftd {command.name} --", options
        yield f"ftd {command.name} -", options | {it.short for it in command.options if it.short}
        for option in command.options:
            yield f"ftd {command.name} {option.name[:-1]}", {it for it in options if it.startswith(option.name[:-1])}
            if fixed(option):
                yield f"ftd {command.name} {option.name} ", fixed(option)
                yield f"ftd {command.name} --wait 3 {option.name} t", {it for it in fixed(option) if it.startswith("t")}
            if option.value == "FILE":
                yield f"ftd {command.name} {option.name} off", {"office.db"}
    yield "ftd import --db office.db off", {"office.db"}
    yield "ftd change-holiday --db office.db 2024-01-01 ", {"yes", "no"}


def equal(offered, right):
    """Whether the same is offered; a long option may have its = behind it."""
    return {it.rstrip("=") for it in offered} == right


def compare(shell, file, folder, said):
    """Compares what a shell offers, and gives how many lines were completed."""
    lines = list(wanted(said))
    offered = OFFERS[shell](file, folder, [line for line, _ in lines])
    if len(offered) != len(lines):
        sys.exit(f"{shell}: {len(offered)} of {len(lines)} lines were completed")
    for (line, right), its in zip(lines, offered):
        if not equal(its, right):
            sys.exit(f"{shell}: {line!r}: offered {sorted(its)} in place of {sorted(right)}")
    return len(lines)


def compare_formats(program, folder, said):
    """The program takes the formats that help names, and no other: what it says of a bad one comes before it looks for the file."""
    count = 0
    for command in said.commands:
        for option in command.options:
            if option.value == "FORMAT":
                for name in FORMATS:
                    words = [program, command.name, "--db", "none.db", "--format", name, *[example(it.name) for it in command.words]]
                    ran = subprocess.run(words, cwd=folder, stdout=subprocess.PIPE, stderr=subprocess.PIPE, text=True)
                    if ("bad argument format" in ran.stderr) != (name not in fixed(option)) or ran.returncode == 2 and name in fixed(option):
                        sys.exit(f"{' '.join(words)}: {ran.stderr}")
                    count += 1
    return count


def example(name):
    return {"ACCOUNT": "elm", "QUARTER": "2024Q2", "YEAR": "2024"}.get(name, "2024-06-10")


def main():
    if len(sys.argv) != 3:
        sys.exit(__doc__.split("\n\n")[1])
    program, prefix = map(os.path.abspath, sys.argv[1:])
    said = Help(program)
    with tempfile.TemporaryDirectory() as folder:
        with open(f"{folder}/office.db", "w", encoding="utf-8"):
            pass
        for shell, places in PLACES.items():
            file = next(f"{prefix}/{it}" for it in places if os.path.exists(f"{prefix}/{it}"))
            print(f"{shell}: {compare(shell, file, folder, said)} lines completed as they have to be", flush=True)
        print(f"formats: {compare_formats(program, folder, said)} tried")


if __name__ == "__main__":
    main()
