#!/usr/bin/env python3
"""Proves and builds the program alone, with the libraries that it stands on and nothing else, to crates/ftd/out/ftd.

    ./build.py

It needs Rattle's kit. Each crate is proved by `rattle`, once those that it stands on are, and the program is built by LLVM alone; the test
command asks for more: the layout of the files, the edits that the prover must refuse, the tests, and a second compiler.

The longest chain of crates that stand on one another sets the time. So each check may use all processors, as many checks run side by side as there
are processors and memory, and a crate gets a lower priority the shorter the chain is that waits for it.
"""

import os
import resource
import shutil
import subprocess
import sys
import tempfile
import threading
import time

TOP = os.path.dirname(os.path.abspath(__file__))
PROGRAM = "ftd"
# The memory that has to be free before one more check begins, in bytes.
ROOM = 4_000_000_000
PROCESSORS = len(os.sched_getaffinity(0))


def kit():
    """The folder of Rattle's kit."""
    said = subprocess.run(["rt", "doc"], stdout=subprocess.PIPE, check=True, text=True).stdout
    return os.path.dirname(said.split()[0])


def crates():
    """What each crate of the program stands on, by its name."""
    with open(f"{TOP}/crates.txt", encoding="utf-8") as lines:
        below = {line.split(":")[0].split()[0]: line.split(":")[1].split() for line in lines if ":" in line}

    def all_below(name):
        return {name}.union(*(all_below(it) for it in below[name] if it in below))

    return {name: below[name] for name in all_below(PROGRAM)}


def lines_of(name):
    """How many lines of code the crate has."""
    files = [f"{at}/{it}" for at, _, found in os.walk(f"{TOP}/crates/{name}/src") for it in found if it.endswith(".rt")]
    return sum(open(it, "rb").read().count(b"\n") for it in files)


def free_memory():
    """The memory that is free, in bytes."""
    with open("/proc/meminfo", encoding="utf-8") as lines:
        return next(1024 * int(line.split()[1]) for line in lines if line.startswith("MemAvailable:"))


class Build:
    """What is proved so far, and how the rest is."""

    def __init__(self, room):
        self.room, self.kit, self.below = room, kit(), crates()
        self.done, self.failed, self.running = set(), False, set()
        self.turn = threading.Condition()
        self.behind = {}
        for name in self.below:
            self.work_behind(name)

    def work_behind(self, name):
        """How many lines the longest chain of crates has that begins with this one."""
        if name not in self.behind:
            above = [it for it, its in self.below.items() if name in its]
            self.behind[name] = lines_of(name) + max((self.work_behind(it) for it in above), default=0)
        return self.behind[name]

    def words(self, name):
        """The words by which `rattle` proves and builds the crate."""
        words = ["build", "--crate-name", name, "src/main.rt" if name == PROGRAM else "src/lib.rt"]
        for it in [*self.below[name], "std"]:
            words += ["--extern", f"{it}={self.room if it in self.below else f'{self.kit}/rlibs'}/{it}.rlib"]
        words += ["-L", f"dependency={self.kit}/rlibs", "-L", f"dependency={self.room}", "--jobs", str(PROCESSORS)]
        words += ["--antt-project", f"{self.kit}/rattle/logic/antt-project.json", "--logic-built", f"{self.kit}/logic_built"]
        if name == PROGRAM:
            return [*words, "--toolchain", f"{self.kit}/toolchain", "--backend", "llvm", "-o", f"{self.room}/{name}.o"]
        return [*words, "--statements", "-o", f"{self.room}/{name}.rlib"]

    def slack(self, name):
        """How many lines the crate's chain is shorter than the longest chain that is not proved yet."""
        return max(self.behind[it] for it in self.below if it not in self.done) - self.behind[name]

    def prove(self, name, niceness):
        """Proves and builds one crate."""
        how = {"stdout": subprocess.PIPE, "stderr": subprocess.STDOUT, "text": True, "errors": "replace", "cwd": f"{TOP}/crates/{name}"}
        ran = subprocess.run(["nice", "-n", str(niceness), f"{self.kit}/bin/rattle", *self.words(name)], **how)
        is_proved = not ran.returncode and any(line.startswith("logic=proved ") for line in ran.stdout.split("\n"))
        with self.turn:
            self.running.remove(name)
            if is_proved:
                self.done.add(name)
                print(f"{name} is proved", flush=True)
            elif not self.failed:
                self.failed = True
                print(ran.stdout, end="", flush=True)
            self.turn.notify_all()

    def next_crate(self):
        """The crate with the most work behind it of those that can begin, if there is one."""
        ready = [it for it in self.below if it not in self.done and it not in self.running and not self.waits(it)]
        return max(ready, key=self.behind.get, default=None)

    def waits(self, name):
        """Whether a crate that this one stands on is not proved yet."""
        return any(it in self.below and it not in self.done for it in self.below[name])

    def is_full(self):
        """Whether one more check has to wait for a processor or for memory."""
        return len(self.running) >= PROCESSORS or bool(self.running) and free_memory() < ROOM

    def run(self):
        """Proves and builds all crates, and answers whether all are proved."""
        threads = []
        with self.turn:
            while not self.failed and len(self.done) < len(self.below):
                name = self.next_crate()
                if not name or self.is_full():
                    self.turn.wait()
                    continue
                self.running.add(name)
                threads.append(threading.Thread(target=self.prove, args=(name, min(19, self.slack(name) // 100))))
                threads[-1].start()
        for it in threads:
            it.join()
        return not self.failed

    def link(self):
        """Links the program."""
        words = ["--target", "x86_64-unknown-linux-gnu", "--toolchain", f"{self.kit}/toolchain", "-o", f"{self.room}/{PROGRAM}", f"{self.room}/{PROGRAM}.o"]
        words += [f"{self.kit}/c/libos_c.a", f"{self.kit}/c/liblibc_c.a"]
        return not subprocess.run([f"{self.kit}/bin/rattle-link", *words]).returncode


def main():
    began = time.monotonic()
    made = f"crates/{PROGRAM}/out/{PROGRAM}"
    with tempfile.TemporaryDirectory() as room:
        build = Build(room)
        if not (build.run() and build.link()):
            sys.exit("the program was not built")
        os.makedirs(os.path.dirname(f"{TOP}/{made}"), exist_ok=True)
        shutil.copy(f"{room}/{PROGRAM}", f"{TOP}/{made}.new")
        os.replace(f"{TOP}/{made}.new", f"{TOP}/{made}")
    used = resource.getrusage(resource.RUSAGE_CHILDREN)
    minutes, processor = (time.monotonic() - began) / 60, (used.ru_utime + used.ru_stime) / 60
    print(f"{made} is proved and built")
    print(f"took {minutes:.0f} minutes, {processor:.0f} minutes of processor time, {used.ru_maxrss / 1e6:.1f} GB in the largest check")


if __name__ == "__main__":
    main()
