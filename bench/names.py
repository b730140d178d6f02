#!/usr/bin/env python3
"""What the pages name, beside what is there: links, files and folders, names of the code, and commands of `ftd` with their options.

    bench/names.py [PAGE ..]       with no PAGE it reads README.md, CONTRIBUTING.md, CHANGELOG.md and docs/*.md

- A relative link leads to a file or folder.
- A path in back quotes is there: from the top, or in docs/, examples/ or bench/, or in the folder of a crate (its src/, specs/, proofs/ and must-fail/ too) that
  was named before in the section, or is in the same paragraph or row; of any crate, where none is; where ` of ` and a crate come next, of that one.
- A name in back quotes occurs in the code (comments aside), in a script or in an example: each part of it, between `::` or dots. Of `Type::method` a
  file of code has both, with a function of that name; where its first part is a crate, or one comes next as above, it is that crate's code.
- Behind a function and a colon, as in docs/PROVED.md, stand labels of clauses of its contract.
- `ftd COMMAND` is the command of a verb of `ftd_verbs`, or one of the table of `ftd_cli`, and `--OPTION` is one of its words; alone it may be one of
  `examples/sheets/to_ftd.py`.

It prints FILE:LINE and what is wrong for each finding, and exits with 1 then; else it prints nothing. Blocks of code are left out."""

import functools
import glob
import os
import re
import sys

TOP = os.path.dirname(os.path.dirname(os.path.abspath(__file__)))
ENDINGS = (".rt", ".antt", ".py", ".sh", ".md", ".txt", ".edit", ".csv")
CRATES = {os.path.basename(it) for it in glob.glob(f"{TOP}/crates/*")}
ROOTS = {"": ["", "docs", "examples", "bench", "crates"], **{it: [f"crates/{it}/{part}" for part in ("", "src", "specs", "proofs", "must-fail")] for it in CRATES}}
# What the pages name rightly though it is not in the repository.
ALLOWED = {
    *("crates/ftd/out/ftd", "payroll.csv"),  # made by the test command, and by the tutorial
    *("isatty", "fdatasync", "touch", "strace", "--help", "--version", "cksumvfs"),  # the system's, its commands, clap's options, a part of SQLite
    *("--at", "open_files_with", "open_with_sums"),  # the option of the client, which is no word of the table; calls of `sqlite` that are told of
    *("clap_mangen", "clap_complete"),  # crates that are not used
    *("~/.local/share/doc/ftd", "compinit"),  # where the tar file is unpacked, and a word of zsh
}


def read(path):
    with open(os.path.join(TOP, path), encoding="utf-8", errors="replace") as text:
        return text.read()


def files(*patterns):
    """The files of the repository under these patterns, from the top, but for this one."""
    found = {os.path.relpath(it, TOP) for pattern in patterns for it in glob.glob(f"{TOP}/{pattern}", recursive=True) if os.path.isfile(it)}
    return sorted(found - {os.path.relpath(os.path.abspath(__file__), TOP)})


@functools.cache
def code():
    """Each file of code with its text, comments aside."""
    comments = {".rt": r"//.*", ".antt": r"(?m)(^|\s)--( .*)?$"}
    return {it: re.sub(comments[os.path.splitext(it)[1]], "", read(it)) for it in files("crates/**/*.rt", "crates/**/*.antt")}


@functools.cache
def words(crate):
    """The words of a crate's code; where none is named of all, with those of scripts and examples."""
    texts = [text for it, text in code().items() if it.startswith(f"crates/{crate}/" if crate else "")]
    if not crate:
        scripts = files("*.py", "*.sh", "*.txt", "bench/**/*", "examples/**/*", "package/*", "crates/*/must-fail/*")
        texts += [*CRATES, *scripts, *map(read, scripts)]
    return {word for text in texts for word in re.findall(r"\w+", text)}


@functools.cache
def functions():
    """The functions by name: the labels of their clauses, and the words of the files that they stand in."""
    found = {}
    for text in code().values():
        beside = set(re.findall(r"\w+", text))
        for name, head in re.findall(r"\bfn (\w+)\b(.*?)(?=\bfn |\Z)", text, re.DOTALL):
            labels, near = found.setdefault(name, (set(), set()))
            labels.update(re.findall(r"\bensures\*? (\w+) \{", head))
            near.update(beside)
    return found


def crates_after(text):
    """The crates that are named next: ` of ` one, or one and another."""
    found = re.match(r"\s+of\s+`(ftd\w*)`(?:\s+and\s+`(ftd\w*)`)?", text)
    return CRATES.intersection(found.groups() if found else ())


def wrong_path(path, crates, after):
    """What is wrong with a path, or nothing. It is of one of these crates, and of each that is named after it."""
    forms = [path, f"{path}.antt", re.sub(r"\b[A-Z]{2,}\b", "*", path)]
    there = {it for it, roots in ROOTS.items() if any(glob.glob(os.path.join(TOP, root, form)) for root in roots for form in forms)}
    if "" not in there and not (there & crates and there >= crates_after(after)):
        yield f"no file or folder {path}" + (f" of a crate that is named here, but of {' and '.join(sorted(there)[:3])}" if there else "")


def wrong_name(name, after):
    """What is wrong with a name of the code, or nothing; `after` is what follows it on the page."""
    parts = re.findall(r"\w+", name)
    for crate in CRATES.intersection(parts[:1]) or crates_after(after) or {""}:
        missing = [it for it in parts if it not in words(crate) | CRATES]
        if missing:
            yield f"no {missing[0]} in {crate or 'the code'}: {name}"
    if "::" in name and parts[-1][0].islower() and parts[-2][0].isupper() and parts[-2] not in functions().get(parts[-1], [(), ()])[1]:
        yield f"no function {parts[-1]} beside {parts[-2]}: {name}"


def wrong_labels(text):
    """The labels behind a colon that none of the functions before it has, with the place of each."""
    for it in re.finditer(r"((?:`[\w:]+`(?:, | and )?)+): ((?:`[a-z_]+`(?: \([^)]*\))?(?:, )?)+)", text):
        names = [re.findall(r"\w+", name)[-1] for name in re.findall(r"`([^`]+)`", it[1])]
        there = set().union(*(functions()[name][0] for name in names if name in functions()))
        for label in re.findall(r"`([a-z_]+)`(?![^(]*\))", it[2]):
            if there and label not in there:
                yield it.start(2), f"no clause {label} of {' or '.join(names)}"


def wrong_command(text):
    """What is wrong with the command and the options of a text, or nothing."""
    known = set(re.findall(r'=> "([a-z-]+)"', read("crates/ftd_cli/src/table.rt")))
    known |= set(re.findall(r'command: "([a-z-]+)"', read("crates/ftd_verbs/src/rows.rt")))
    if text.startswith("--"):
        known |= set(re.findall(r'add\("--([a-z-]+)"', read("examples/sheets/to_ftd.py")))
    for command in re.findall(r"^ftd ([a-z][a-z-]*)", text):
        if command not in known:
            yield f"no command {command}: {text}"
    for option in re.findall(r"--[a-z][a-z-]*", text if text.startswith(("ftd ", "--")) else ""):
        if option[2:] not in known and option not in ALLOWED:
            yield f"no option {option}: {text}"


def findings(page):
    """What is wrong in a page, with the number of the line."""
    text = re.sub(r"(?ms)^```.*?^```", lambda it: re.sub(r"[^\n]", " ", it[0]), read(page))
    found = [*wrong_labels(text)]
    for it in re.finditer(r"\]\(([^)#\s]+)", text):
        if not re.match(r"\w+:", it[1]) and not os.path.exists(os.path.join(TOP, os.path.dirname(page), it[1])):
            found.append((it.start(), f"no file or folder {it[1]}"))
    for it in re.finditer(r"`([^`]+)`", text):
        said, after = " ".join(it[1].split()), text[it.end():it.end() + 99]
        path = said.split(" ")[0]
        is_path = ("/" in path or path.endswith(ENDINGS)) and not re.match(r"/|http|--|(text|application)/\w+$|\.\w+$", path)
        section = max(text.rfind("\n#", 0, it.start()), 0)
        end = re.compile(r"\n\n|\n\||\n- |\Z").search(text, it.end()).start()
        if said not in ALLOWED and is_path:
            named = {crate for crate in re.findall(r"`(?:crates/)?(ftd\w*)[`:/]", text[section:end])} & CRATES
            found += [(it.start(), wrong) for wrong in wrong_path(path, named or CRATES, after)]
        elif said not in ALLOWED:
            is_name = re.fullmatch(r"[A-Za-z_]\w*((::|\.)\w+)*(\(\))?", said)
            found += [(it.start(), wrong) for wrong in (wrong_name(said, after) if is_name else wrong_command(said))]
    return [(text.count("\n", 0, at) + 1, wrong) for at, wrong in sorted(found)]


def main():
    pages = sys.argv[1:] or files("README.md", "CONTRIBUTING.md", "CHANGELOG.md", "docs/*.md")
    told = [print(f"{page}:{line}: {wrong}") for page in pages for line, wrong in findings(page)]
    return 1 if told else 0


if __name__ == "__main__":
    sys.exit(main())
