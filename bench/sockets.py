#!/usr/bin/env python3
"""Asks `ftd serve` over sockets: 10,000 requests in connections of 100 messages, each answer compared, beside Python's
`http.server` over `sqlite3` that answers the same posts and questions; then a million random bytes and 10,000 messages of which
bytes were changed: every connection has to end, the program to live, and the tables to hold the runs that were answered `posted`."""

import http.server
import json
import os
import random
import socket
import sqlite3
import subprocess
import sys
import tempfile
import threading
import time

from office import SET_UP, STATUS, post_of, program_of

FTD = program_of(sys.argv[1:])
PORT = 8095


def exchange(port, sent):
    """What comes back of the bytes, which go as one connection."""
    with socket.create_connection(("127.0.0.1", port), timeout=30) as peer:
        given = threading.Thread(target=lambda: send(peer, sent))
        given.start()
        said = b""
        try:
            while piece := peer.recv(65536):
                said += piece
        except ConnectionResetError:
            pass
        given.join()
        return said


def send(peer, sent):
    try:
        peer.sendall(sent)
        peer.shutdown(socket.SHUT_WR)
    except OSError:
        pass


def bodies(said):
    """The bodies of the answers, one after the other."""
    found = []
    while said:
        head, _, rest = said.partition(b"\r\n\r\n")
        length = next(int(line[16:]) for line in head.split(b"\r\n") if line.startswith(b"Content-Length: "))
        found.append((head[:12], rest[:length]))
        said = rest[length:]
    return found


def serve(db, connections):
    server = subprocess.Popen([FTD, "serve", "--db", db, "--port", str(PORT), "--connections", str(connections)],
                              stdout=subprocess.PIPE, stderr=subprocess.PIPE, text=True)
    assert server.stdout.readline() == f"listening 127.0.0.1:{PORT}\n"
    return server


def speed(folder, kind, one, right):
    """So many requests a second, of 10,000."""
    db = os.path.join(folder, f"{kind}.db")
    server = serve(db, 101)
    assert len(bodies(exchange(PORT, b"".join(SET_UP)))) == 4
    start = time.monotonic()
    wrong = 0
    lost = 10_000
    for connection in range(100):
        first = connection * 100 + 1
        for status, body in bodies(exchange(PORT, b"".join(one(number) for number in range(first, first + 100)))):
            lost -= 1
            wrong += status != b"HTTP/1.1 200" or not right(body)
    seconds = time.monotonic() - start
    server.wait()
    return f"{10_000 / seconds:.0f} {kind} requests a second, {lost} lost, {wrong} wrong"


class Baseline(http.server.BaseHTTPRequestHandler):
    protocol_version = "HTTP/1.1"
    db = None

    def log_message(self, *words):
        pass

    def say(self, body):
        self.send_response(200)
        self.send_header("Content-Length", str(len(body)))
        self.end_headers()
        self.wfile.write(body)

    def do_GET(self):
        known = Baseline.db.execute("SELECT count(*) FROM run WHERE account = 'ash' AND run = 1").fetchone()
        self.say(json.dumps({"known": known[0]}).encode())

    def do_POST(self):
        asked = json.loads(self.rfile.read(int(self.headers["Content-Length"])))
        row = ("ash", asked["run"], asked["payday"], asked["fit"])
        if Baseline.db.execute("SELECT 1 FROM run WHERE account = ? AND run = ?", row[:2]).fetchone() is None:
            Baseline.db.execute("INSERT INTO run VALUES (?, ?, ?, ?)", row)
            Baseline.db.commit()
        self.say(b'{"reply":"posted"}')


def python_speed(folder, kind, one):
    """The same of Python's server, in one thread, with the rows alone."""
    Baseline.db = sqlite3.connect(os.path.join(folder, f"python-{kind}.db"), check_same_thread=False)
    Baseline.db.execute("PRAGMA journal_mode=WAL")
    Baseline.db.execute("PRAGMA synchronous=FULL")
    Baseline.db.execute("CREATE TABLE run (account TEXT, run INTEGER, payday TEXT, fit TEXT, PRIMARY KEY (account, run))")
    server = http.server.HTTPServer(("127.0.0.1", 0), Baseline)
    threading.Thread(target=server.serve_forever, daemon=True).start()
    port = server.server_address[1]
    start = time.monotonic()
    for connection in range(100):
        first = connection * 100 + 1
        exchange(port, b"".join(one(number) for number in range(first, first + 100)))
    seconds = time.monotonic() - start
    server.shutdown()
    Baseline.db.close()
    return f"Python {10_000 / seconds:.0f}"


def changed(bytes_, chosen):
    """The message with some bytes changed, left out or doubled."""
    some = bytearray(bytes_)
    for _ in range(chosen.randrange(1, 4)):
        at = chosen.randrange(len(some))
        how = chosen.randrange(3)
        if how == 0:
            some[at] = chosen.randrange(256)
        elif how == 1:
            del some[at]
        else:
            some.insert(at, some[at])
    return bytes(some)


def hostile(folder, chosen):
    db = os.path.join(folder, "hostile.db")
    server = serve(db, 1 + 1_000 + 10_000)
    assert len(bodies(exchange(PORT, b"".join(SET_UP)))) == 4
    for _ in range(1_000):
        exchange(PORT, chosen.randbytes(1_000))
    posted = 0
    for number in range(1, 10_001):
        posted += exchange(PORT, changed(post_of(number), chosen)).count(b'"reply":"posted"')
    status = server.wait()
    failed = len(server.stderr.read().splitlines())
    conn = sqlite3.connect(db)
    kept = conn.execute("SELECT count(*) FROM run").fetchone()[0]
    whole = conn.execute("PRAGMA integrity_check").fetchone()[0]
    conn.close()
    print(f"11,000 connections of random bytes and changed messages: status {status}, {failed} failed, "
          f"{posted} runs posted, {kept} kept, file {whole}")


def main():
    chosen = random.Random(20240508)
    with tempfile.TemporaryDirectory() as folder:
        told = speed(folder, "status", lambda number: STATUS, lambda body: body.startswith(b'{"day":"2024-05-08"'))
        print(f"{told}; {python_speed(folder, 'status', lambda number: STATUS)}")
        told = speed(folder, "post", post_of, lambda body: body.endswith(b'"reply":"posted","to":' + body[-13:]))
        print(f"{told}; {python_speed(folder, 'post', post_of)}")
        hostile(folder, chosen)


main()
