#!/usr/bin/env python3
"""Wrong bodies that the prover has to refuse, of crates that the gate has no time to prove once more for them.

    bench/edits.py [CRATE ..]       those of bench/edits/CRATE, of all crates there where none is named

They are written as the edits of `must-fail/` are. `rt must-fail` tries them in a copy of the repository, beside none of those that the gate tries: it
proves the crate and those below it first, as `rt check` does, which takes half an hour for the highest of them. Its lines tell which were refused, and
it exits with 1 where one was not."""

import os
import shutil
import subprocess
import sys
import tempfile

TOP = os.path.dirname(os.path.dirname(os.path.abspath(__file__)))
EDITS = f"{TOP}/bench/edits"


def copy_to(room, crates):
    """Copies the files of the repository, with these crates' edits in place of those that the gate tries."""
    listed = subprocess.run(["git", "ls-files", "-z"], cwd=TOP, stdout=subprocess.PIPE, check=True, text=True).stdout
    for file in filter(None, listed.split("\0")):
        if "/must-fail/" not in file:
            os.makedirs(os.path.dirname(f"{room}/{file}"), exist_ok=True)
            shutil.copy(f"{TOP}/{file}", f"{room}/{file}")
    for crate in crates:
        shutil.copytree(f"{EDITS}/{crate}", f"{room}/crates/{crate}/must-fail")
    subprocess.run(["git", "init", "--quiet"], cwd=room, check=True)


def main(crates):
    crates = crates or sorted(os.listdir(EDITS))
    with tempfile.TemporaryDirectory() as room:
        copy_to(room, crates)
        return subprocess.run(["rt", "must-fail", *crates], cwd=room).returncode


if __name__ == "__main__":
    sys.exit(main(sys.argv[1:]))
