#!/usr/bin/env python3
"""Writes to standard output what Debian's tools ask of a package, of what the program and the pages say.

    package/debian.py control PROGRAM FOLDER        FOLDER has the files of the package
    package/debian.py copyright PROGRAM
    package/debian.py changelog PROGRAM             one entry, which names CHANGELOG.md; its time is SOURCE_DATE_EPOCH

The maintainer is the author of the last commit, unless DEBFULLNAME and DEBEMAIL name another."""

import email.utils
import os
import re
import subprocess
import sys
import textwrap

from help_texts import Help
from manual import TOP, sentences

# The packages that have the libraries which the program may ask for.
LIBRARIES = {"libc.so.6": "libc6", "libm.so.6": "libc6", "libgcc_s.so.1": "libgcc-s1"}


def maintainer():
    if "DEBEMAIL" in os.environ:
        return f"{os.environ.get('DEBFULLNAME', 'ftd')} <{os.environ['DEBEMAIL']}>"
    return subprocess.run(["git", "log", "-1", "--format=%an <%ae>"], cwd=TOP, check=True, stdout=subprocess.PIPE, text=True).stdout.strip()


def plain(text):
    """A sentence of a page without its marks."""
    return re.sub(r"\[([^\]]*)\]\([^)]*\)", r"\1", text).replace("`", "")


def depends(program):
    """The line that names the packages of the libraries that the program asks for, with the version of the C library; none if it asks for none."""
    said = subprocess.run(["readelf", "-d", "-V", program], check=True, stdout=subprocess.PIPE, text=True).stdout
    needed = re.findall(r"\(NEEDED\)\s+Shared library: \[(.+)\]", said)
    if unknown := set(needed) - set(LIBRARIES):
        sys.exit(f"no package is known that has {unknown}")
    version = max(([int(it) for it in found.split(".")] for found in re.findall(r"Name: GLIBC_([\d.]+)", said)), default=[])
    least = f" (>= {'.'.join(map(str, version))})" if version else ""
    packages = sorted({LIBRARIES[it] for it in needed})
    return f"Depends: {', '.join(it + least * (it == 'libc6') for it in packages)}\n" if packages else ""


def size_of(folder):
    """How many kilobytes the files of the package have, and a kilobyte for each folder, as Debian counts them."""
    sizes = [os.path.getsize(os.path.join(at, it)) for at, _, its in os.walk(folder) for it in its]
    return sum(-(-size // 1024) for size in sizes) + sum(1 for _ in os.walk(folder))


def control(program, folder):
    said = Help(program)
    told = " ".join(map(plain, sentences("README.md", "`ftd` tells an employer", "Its rules are those", "What an employer enters")))
    return (
        f"Package: ftd\nVersion: {said.version}\nArchitecture: amd64\nMaintainer: {maintainer()}\nInstalled-Size: {size_of(folder)}\n{depends(program)}"
        f"Section: misc\nPriority: optional\nDescription: {said.about.rpartition('. ')[0]}\n"
        + "".join(f" {line}\n" for line in textwrap.wrap(told, 78))
    )


def copyright_of(_):
    """No licence is given here: that is left to the owner."""
    (said,) = sentences("README.md", "No licence has been chosen")
    return f"This is ftd, packaged by {maintainer()}.\n\nCopyright: the owner of the repository that it was built from.\n\n{plain(said)}\n"


def changelog(program):
    when = email.utils.formatdate(int(os.environ["SOURCE_DATE_EPOCH"]))
    return f"ftd ({Help(program).version}) unstable; urgency=medium\n\n  * CHANGELOG.md says what is new.\n\n -- {maintainer()}  {when.replace('-0000', '+0000')}\n"


FILES = {"control": (control, 2), "copyright": (copyright_of, 1), "changelog": (changelog, 1)}


def main():
    what, *words = sys.argv[1:] or [""]
    if what not in FILES or len(words) != FILES[what][1]:
        sys.exit(__doc__.split("\n\n")[1])
    print(FILES[what][0](*words), end="")


if __name__ == "__main__":
    main()
