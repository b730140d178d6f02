#!/usr/bin/env python3
"""Sends hostile messages to `ftd serve` for so many minutes: heads and bodies of which bytes were changed, cut, doubled or put elsewhere, numbers
that are too long, targets with any byte, floods of fields, and bytes at random.

    bench/hostile.py PROGRAM [MINUTES [PROCESSES]]

Each process has a server of its own. After each thousand messages a question has to be answered; in the end the server has to live, its standard
error to have nothing but lines of connections, and its file to be sound. The last line
counts the messages, and what went wrong."""

import concurrent.futures
import http.client
import json
import os
import random
import re
import socket
import subprocess
import sys
import tempfile
import time

PROGRAM = os.path.realpath(sys.argv[1])
MINUTES = float(sys.argv[2]) if len(sys.argv) > 2 else 10
PROCESSES = int(sys.argv[3]) if len(sys.argv) > 3 else 3
SET_UP = "calendar 2024 2024-01-01\ncalendar 2025\nenrol ash 2024-01-01\nopen-year ash 2024\npost ash 1 2024-05-08 20000.00 16000.00 4000.00\n"
QUESTION = "/accounts/ash/due/2024Q2/2024-06-30/json"
TARGETS = [
    QUESTION, "/accounts/ash/status/2024-05-08", "/owed/2024-06-10/2024-06-17", "/journal", "/journal/ash", "/", "/accounts/ash/html", "/forms",
    "/lists/accounts", "/lists/holidays/2024", "/accounts/ash/schedule-b/2024Q2/html", "/agenda/2024-06-10/2024-06-17/2024-06-10/ics",
]
BODIES = [
    '{"run":2,"payday":"2024-06-05","fit":"1.00","ss":"1.00","medicare":"1.00"}', '{"carried":false,"form":941,"name":"elm","start":"2024-01-01"}',
    "status ash 2024-05-08\nowed 2024-06-10 2024-06-17\n", "account=ash&run=3&payday=2024-06-05&fit=1.00&ss=1.00&medicare=1.00", "[" * 2000, '{"a":' * 500,
    '{"run":99999999999999999999999999,"payday":"2024-06-05"}', '"\\ud800"', "",
]


def head_of(rng):
    """The head of a message that may be a good one, and its body."""
    body = rng.choice(BODIES).encode()
    method = rng.choice(["GET", "GET", "GET", "POST", "POST", "PUT", "DELETE", "HEAD", "OPTIONS", "G\0T"])
    target = rng.choice(TARGETS + ["/commands", "/accounts/ash/runs", "/forms/post", "/accounts", "*", "//", "/%00", "/" + "a/" * 300, "http://ash/"])
    fields = ["Host: 127.0.0.1"]
    for _ in range(rng.choice([0, 0, 1, 2, 90])):
        fields.append(rng.choice([
            "Transfer-Encoding: chunked", "Content-Length: 5", "Content-Length: -1", "Content-Length: 18446744073709551616", "Connection: close",
            "Origin: http://evil", "Sec-Fetch-Site: cross-site", "Host: evil", "Expect: 100-continue", "X: " + "y" * rng.randrange(3000), "Upgrade: websocket",
            "Connection: keep-alive, upgrade", " folded", "a:b", "Cookie: \xff",
        ]))
    if method in ("POST", "PUT") or rng.random() < 0.1:
        fields.append(f"Content-Length: {len(body)}")
    else:
        body = b""
    return f"{method} {target} HTTP/1.1\r\n".encode() + "".join(f"{it}\r\n" for it in fields).encode("latin-1") + b"\r\n" + body


def changed(said, rng):
    """The bytes with some changed."""
    said = bytearray(said)
    for _ in range(rng.choice([0, 1, 1, 2, 5])):
        at = rng.randrange(len(said) + 1)
        way = rng.randrange(5)
        if way == 0:
            said[at:at] = bytes([rng.randrange(256)])
        elif way == 1:
            del said[at : at + rng.randrange(1, 9)]
        elif way == 2 and at < len(said):
            said[at] = rng.randrange(256)
        elif way == 3:
            said[at:at] = said[max(0, at - 9) : at]
        else:
            said[at:at] = rng.choice([b"\r\n", b"\0", b"\n", b"%", b"\xc3\x28", b"9" * 40])
    return bytes(said)


def answer(port):
    """What the question is answered."""
    connection = http.client.HTTPConnection("127.0.0.1", port, timeout=30)
    connection.request("GET", QUESTION)
    said = connection.getresponse()
    found = (said.status, said.read())
    connection.close()
    return found


def send(port, rng, count):
    """Sends so many messages over connections."""
    left = count
    while left > 0:
        link = socket.create_connection(("127.0.0.1", port), timeout=30)
        batch = rng.randrange(1, 60)
        said = b"".join(head_of(rng) if rng.random() < 0.5 else changed(head_of(rng), rng) for _ in range(batch))
        if rng.random() < 0.02:
            said = rng.randbytes(rng.randrange(3000))
        left -= batch
        try:
            link.sendall(said)
            link.shutdown(socket.SHUT_WR)
            while link.recv(1 << 20):
                pass
        except OSError:
            pass
        link.close()


def tried(seed, until):
    """How many messages one server was sent, and what went wrong."""
    rng, count, wrong = random.Random(seed), 0, []
    with tempfile.TemporaryDirectory() as folder:
        with open(f"{folder}/script", "w") as it:
            it.write(SET_UP)
        subprocess.run([PROGRAM, "shell", "--db", "office.db", "script"], cwd=folder, check=True, capture_output=True)
        words = [PROGRAM, "serve", "--db", "office.db", "--port", "0", "--connections", "1000000", "--silence", "1"]
        with open(f"{folder}/said", "wb") as said:
            server = subprocess.Popen(words, cwd=folder, stdout=subprocess.PIPE, stderr=said)
        port = int(server.stdout.readline().decode().strip().rpartition(":")[2])
        while time.monotonic() < until and server.poll() is None:
            send(port, rng, 1000)
            count += 1000
            found = answer(port)
            if found[0] != 200 or not json.loads(found[1]):
                wrong.append(f"{seed}: after {count}: {found}")
                break
        if server.poll() is not None:
            wrong.append(f"{seed}: the server ended with status {server.returncode} after {count}")
        server.kill()
        server.wait()
        lines = open(f"{folder}/said", "rb").read().decode(errors="replace").splitlines()
        wrong += [f"{seed}: {it!r}" for it in lines if not re.fullmatch(r"connection \d+ failed (Read|Write|Memory|Accept)|and \d+ more", it)][:3]
        done = subprocess.run([PROGRAM, "check", "--db", "office.db"], cwd=folder, capture_output=True, text=True)
        if done.returncode != 0:
            wrong.append(f"{seed}: {done.stdout}{done.stderr}")
    return count, wrong


def main():
    until = time.monotonic() + MINUTES * 60
    seed = int(time.time())
    with concurrent.futures.ProcessPoolExecutor(PROCESSES) as pool:
        found = [it.result() for it in [pool.submit(tried, seed + it, until) for it in range(PROCESSES)]]
    wrong = [it for _, some in found for it in some]
    print(*wrong[:20], sep="\n")
    print(f"{sum(count for count, _ in found)} hostile messages: {len(wrong)} wrong")
    return bool(wrong)


if __name__ == "__main__":
    sys.exit(main())
