#!/usr/bin/env python3
"""Random desks, whose pay runs and payments take the next number, and whose deposits are settled: what is printed is compared with a plain count.

    bench/settle.py [PROGRAM] [DESKS]     PROGRAM is crates/ftd/out/ftd where there is none, DESKS is 200

Each desk is made by one shell: accounts on both schedules, pay runs and payments under random numbers and under `next`, some of them voided. The number that
`next` prints has to be one more than the greatest that was given before. Then a second shell settles each due date of each account: the payments that it prints
have to be what is left by the agenda's rows as CSV, with the numbers that follow, and in the end nothing is owed, and each due date is `already`.
"""

import datetime
import os
import random
import subprocess
import sys
import tempfile

TOP = os.path.dirname(os.path.dirname(os.path.abspath(__file__)))
ACCOUNTS = ["ash", "birch", "elm"]
LAST = "2099-12-31"


def shell(program, folder, lines):
    """The answers of a shell to these lines, a list of lines each."""
    ran = subprocess.run([program, "shell", "--db", "desk.db", "--echo"], cwd=folder, input="".join(f"{it}\n" for it in lines), stdout=subprocess.PIPE, stderr=subprocess.DEVNULL, text=True)
    parts = f"\n{ran.stdout}".split("\n$ ftd ")[1:]
    answers = [it.split("\n") for it in parts]
    assert [it[0] for it in answers] == lines, "the shell did not answer each line"
    return [[line for line in it[1:] if line] for it in answers]


def a_day(rng):
    """A day of 2024."""
    return str(datetime.date(2024, 1, 1) + datetime.timedelta(rng.randrange(366)))


def amount(rng):
    """An amount, mostly of a small employer."""
    return f"{rng.choice([0, 1, 12.5, 800, 2400, 60000, 120000]) + rng.randrange(100) / 100:.2f}"


def entries(rng):
    """Lines that make a desk, and of each that takes the next number that number, else None."""
    lines, wanted = ["calendar 2024 2024-01-01 2024-05-27 2024-07-04", "calendar 2025 2025-01-01"], [None, None]
    used = {(kind, name): [] for kind in ("post", "pay") for name in ACCOUNTS}
    for name in ACCOUNTS:
        lines += [f"enrol {name} 2024-01-01{rng.choice(['', ' --carried'])}", f"open-year {name} 2024"]
        wanted += [None, None]
    for _ in range(rng.randrange(40, 90)):
        kind, name = rng.choice(["post", "post", "pay"]), rng.choice(ACCOUNTS)
        numbers = used[kind, name]
        number = rng.choice(["next", "next", rng.randrange(1, 60)])
        if number in numbers:
            continue
        numbers.append(max(numbers, default=0) + 1 if number == "next" else number)
        wanted.append(numbers[-1] if number == "next" else None)
        paid = max(float(amount(rng)), 0.01)
        lines.append(f"post {name} {number} {a_day(rng)} {amount(rng)} {amount(rng)} 0" if kind == "post" else f"pay {name} {number} {a_day(rng)} {a_day(rng)} {paid:.2f}")
        if rng.random() < 0.2:
            lines.append(f"{'void' if kind == 'post' else 'void-pay'} {name} {rng.choice(numbers)}")
            wanted.append(None)
    return lines, wanted, used


def cents(text):
    """An amount in cents."""
    return int(text.replace(".", ""))


def settled(rows, numbers, paid):
    """What settling each due date of each account has to print, its notes left out."""
    for due, name in sorted({(it["due"], it["account"]) for it in rows}):
        said = []
        for row in (it for it in rows if (it["due"], it["account"]) == (due, name)):
            left = cents(row["amount"]) - cents(row["paid"])
            if left > 0:
                numbers[name].append(max(numbers[name], default=0) + 1)
                said += [f"pay {name} {numbers[name][-1]} {paid} {row['first']} {left // 100}.{left % 100:02}", "done"]
        yield f"settle {name} {due} {paid}", said or ["already"]


def differences(program, seed):
    """What is wrong with one desk, and how many lines were asked."""
    rng = random.Random(seed)
    with tempfile.TemporaryDirectory() as folder:
        lines, wanted, used = entries(rng)
        agenda = f"agenda 2024-01-01 2025-12-31 {LAST} --format csv"
        answers = shell(program, folder, [*lines, agenda])
        wrong = [f"{line}: {answer}" for line, number, answer in zip(lines, wanted, answers) if number is not None and answer[0] != f"number {number}"]
        head, *table = [it.split(",") for it in answers[-1]]
        rows = [dict(zip(head, it)) for it in table]
        expected = [*settled(rows, {name: used["pay", name] for name in ACCOUNTS}, a_day(rng))]
        again = [line for line, _ in expected]
        asked = [*again, *again, f"owed {LAST} {LAST} --format csv"]
        answers = shell(program, folder, asked)
        for line, answer, want in zip(asked, answers, [*(it for _, it in expected), *[["already"]] * len(again), [",".join(head)]]):
            if answer != want:
                wrong.append(f"{line}: {answer}, and not {want}")
    return wrong, len(lines) + len(asked)


def main():
    program = os.path.abspath(sys.argv[1] if len(sys.argv) > 1 else f"{TOP}/crates/ftd/out/ftd")
    desks = int(sys.argv[2]) if len(sys.argv) > 2 else 200
    told = [differences(program, seed) for seed in range(desks)]
    for wrong, _ in told:
        for line in wrong:
            print(line)
    print(f"{desks} desks, {sum(count for _, count in told)} lines, {sum(len(wrong) for wrong, _ in told)} differences")
    return 1 if any(wrong for wrong, _ in told) else 0


if __name__ == "__main__":
    sys.exit(main())
