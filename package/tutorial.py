#!/usr/bin/env python3
"""Writes the commands of docs/TUTORIAL.md as a script of bash, and what they have to print, into a folder: for a system that has no Python.

    package/tutorial.py FOLDER

FOLDER gets `commands`, which is run where `examples/holidays` is, and `wanted`; neither has empty lines."""

import os
import sys

TOP = os.path.dirname(os.path.dirname(os.path.abspath(__file__)))
sys.path.insert(0, f"{TOP}/examples")
from run import examples_of  # noqa: E402

PAGE = "docs/TUTORIAL.md"


def main():
    if len(sys.argv) != 2:
        sys.exit(__doc__.split("\n\n")[1])
    found, wrong = examples_of(PAGE)
    if wrong:
        sys.exit("\n".join(wrong))
    with open(f"{sys.argv[1]}/commands", "w", encoding="utf-8") as commands, open(f"{sys.argv[1]}/wanted", "w", encoding="utf-8") as wanted:
        for step in (step for example in found for step in example.steps):
            lines = "".join(f"{it}\n" for it in step.printed if it != "(nothing)")
            if step.file_name():
                commands.write(f"cat > {step.file_name()} <<'END'\n{lines}END\n")
            else:
                commands.write(f"{{ {step.command}; }} 2>&1 | grep .\n")
                wanted.write(lines)


if __name__ == "__main__":
    main()
