"""An employer by messages of HTTP, which a desk in memory answers, as office.c: office.py LIBRARY"""

import ctypes
import json
import os
import re
import sys

NO_ANSWERS = 2 ** (8 * ctypes.sizeof(ctypes.c_size_t)) - 1
MESSAGES = [
    ("POST", "/calendars", {"year": 2024, "days": ["2024-01-01", "2024-01-15", "2024-02-19"]}),
    ("POST", "/calendars", {"year": 2025, "days": []}),
    ("POST", "/accounts", {"account": "bakery", "start": "2022-07-01"}),
    ("POST", "/accounts/bakery/reported", {"quarter": "2022Q3", "amount": "10000.00"}),
    ("POST", "/accounts/bakery/reported", {"quarter": "2022Q4", "amount": "11000.00"}),
    ("POST", "/accounts/bakery/reported", {"quarter": "2023Q1", "amount": "12000.00"}),
    ("POST", "/accounts/bakery/reported", {"quarter": "2023Q2", "amount": "20000.00"}),
    ("POST", "/accounts/bakery/years", {"year": 2024}),
    ("POST", "/accounts/bakery/runs", {"run": 1, "payday": "2024-01-12", "fit": "5000.00", "ss": "3100.00", "medicare": "725.00"}),
    ("GET", "/owed/2024-01-16/2024-01-31/csv", None),
    ("GET", "/accounts/bakery/status/2025-01-02", None),
]


def bytes_of(method, target, body):
    text = "" if body is None else json.dumps(body)
    return f"{method} {target} HTTP/1.1\r\nContent-Length: {len(text)}\r\n\r\n{text}".encode()


def library(path):
    it, text, count = ctypes.CDLL(os.path.abspath(path)), ctypes.c_char_p, ctypes.c_size_t
    it.ftd_answer.argtypes, it.ftd_answer.restype = [text, count, text, count], count
    return it


def answers_to(ftd, messages):
    """The text of the answers: a first call says how much room they need."""
    count = ftd.ftd_answer(messages, len(messages), ctypes.create_string_buffer(1), 0)
    if count == NO_ANSWERS:
        sys.exit("no-memory")
    room = ctypes.create_string_buffer(count + 1)
    if ftd.ftd_answer(messages, len(messages), room, count) != count:
        sys.exit("no-memory")
    return room.raw[:count].decode()


def main():
    messages = b"".join(bytes_of(*message) for message in MESSAGES)
    answers = answers_to(library(sys.argv[1]), messages)
    while answers:
        head, _, rest = answers.partition("\r\n\r\n")
        length = int(re.search(r"Content-Length: (\d+)", head)[1])
        print(head.split()[1], rest[:length].removesuffix("\n"))
        answers = rest[length:]


if __name__ == "__main__":
    main()
