#!/usr/bin/env python3
"""Makes the pictures of docs/PAGES.md: pages of the built program, in a real browser without a window.

    bench/pictures.py [PROGRAM]

It needs Debian's chromium. The desk is that of the first example of examples/office.txt. Each picture is written to docs/pictures, and may have at most
100,000 bytes; it ends with status 1 where one has more.
"""

import os
import re
import shutil
import subprocess
import sys
import tempfile

from office import TOP, Office, program_of

# Each picture: its file, the page, and how many pixels wide and high the window is.
PICTURES = [
    ("owed.png", "/owed/2024-06-17/2024-07-31/html", 1280, 560),
    ("reason.png", "/accounts/birch/explain/2024-06-12/html", 390, 1000),
]
MOST_BYTES = 100_000


def lines_of_example():
    """The commands of the first example, as lines of a shell."""
    with open(os.path.join(TOP, "examples", "office.txt"), encoding="utf-8") as text:
        first = text.read().split("\n# ")[1]
    found = re.findall(r"^\$ ftd (\S+) --db office\.db ?(.*)$", first, re.MULTILINE)
    return [f"{verb} {words}" for verb, words in found if re.fullmatch(r"calendar|enrol|open-year|post|pay", verb)]


def take(browser, folder, address, to, width, height):
    """Takes a picture of a page."""
    subprocess.run([browser, "--headless", "--no-sandbox", "--disable-gpu", "--hide-scrollbars", f"--user-data-dir={folder}/browser",
                    "--no-first-run", "--disable-background-networking", f"--window-size={width},{height}", f"--screenshot={to}", address],
                   check=True, stdout=subprocess.DEVNULL, stderr=subprocess.DEVNULL, timeout=120)


def main():
    program = program_of(sys.argv[1:2])
    browser = shutil.which("chromium") or sys.exit("needs chromium")
    pictures = os.path.join(TOP, "docs", "pictures")
    os.makedirs(pictures, exist_ok=True)
    with tempfile.TemporaryDirectory() as folder:
        file = os.path.join(folder, "office.db")
        script = "\n".join(lines_of_example()) + "\n"
        subprocess.run([program, "shell", "--db", file, "--stop"], input=script, text=True, check=True, stdout=subprocess.DEVNULL)
        office = Office(program, file, 10_000)
        try:
            for name, page, width, height in PICTURES:
                to = os.path.join(pictures, name)
                take(browser, folder, f"http://127.0.0.1:{office.port}{page}", to, width, height)
                size = os.path.getsize(to)
                print(f"{name}: {size} bytes")
                if size > MOST_BYTES:
                    sys.exit(f"{name} has more than {MOST_BYTES} bytes")
        finally:
            office.server.kill()
            office.server.wait()


if __name__ == "__main__":
    main()
