#!/usr/bin/env python3
"""Tries `ftd serve` with clients that are idle, slow, or send on when the server closes, and kills it at random moments.

    bench/serving.py [PROGRAM ..]

- A hundred clients ask one after the other every 3 seconds and keep their connections: how long each waits for its answer.
- A client that sends a byte a second inside a message: when its connection ends.
- 10,000 messages in lists of 400 on one connection: each answer that was written has to arrive.
- 1,000 messages with a body that their heads refuse (413 and 501): each answer has to be read.
- 200 kills (or as many as KILLS of the environment says) under posts at random moments: what was acknowledged has to be kept, and the file has to open; the size of the log.
- How long a question and a post take over connections of 100 messages, in a file on the disk and in one in memory: lists of 2,000. Of
  several programs, as an old one and a new one, this alone is tried: each message goes to each in turn. The share of the first one's
  time has the bounds between which 95 of 100 random choices of the hundreds lie."""

import contextlib
import itertools
import os
import random
import socket
import sqlite3
import statistics
import subprocess
import sys
import tempfile
import threading
import time

from office import SET_UP, STATUS, free_port, message_of, post_of, programs_of

PROGRAMS = programs_of(sys.argv[1:])
FTD = PROGRAMS[0]
KILLS = int(os.environ.get("KILLS", "200"))
LISTS = 2 if len(PROGRAMS) == 1 else 6


def closing(messages):
    """The bytes of messages, at the last of which the server is to close the connection."""
    *others, last = messages
    return b"".join([*others, last.replace(b"\r\n\r\n", b"\r\nConnection: close\r\n\r\n", 1)])


class Server:
    """A server over a file, at a free port."""

    def __init__(self, program, db, connections, *words):
        words = [program, "serve", "--db", db, "--port", str(free_port()), "--connections", str(connections), *words]
        self.told = tempfile.TemporaryFile("w+")
        self.process = subprocess.Popen(words, stdout=subprocess.PIPE, stderr=self.told, text=True)
        self.address = ("127.0.0.1", int(self.process.stdout.readline().split(":")[1]))

    def peer(self):
        it = socket.create_connection(self.address, timeout=90)
        it.setsockopt(socket.IPPROTO_TCP, socket.TCP_NODELAY, 1)
        return it

    def ask(self, sent):
        """What comes back of the bytes, which go as one connection, and whether it ended in order."""
        with self.peer() as peer:
            given = threading.Thread(target=send, args=(peer, sent))
            given.start()
            said, whole = read_all(peer)
            given.join()
            return said, whole

    def lines(self):
        self.told.seek(0)
        return self.told.read()


def send(peer, sent):
    try:
        peer.sendall(sent)
    except OSError:
        pass


def read_all(peer):
    said = b""
    try:
        while piece := peer.recv(65536):
            said += piece
    except OSError:
        return said, False
    return said, True


def read_one(peer):
    """The bytes of one answer."""
    said = b""
    while b"\r\n\r\n" not in said:
        piece = peer.recv(65536)
        if not piece:
            return said
        said += piece
    head, _, body = said.partition(b"\r\n\r\n")
    length = next(int(line[16:]) for line in head.split(b"\r\n") if line.startswith(b"Content-Length: "))
    while len(body) < length:
        body += peer.recv(65536)
    return head + b"\r\n\r\n" + body


def answers(said):
    """How many whole answers stand in the bytes, and what is left of them."""
    count = 0
    while said:
        head, found, rest = said.partition(b"\r\n\r\n")
        if not found:
            break
        length = next(int(line[16:]) for line in head.split(b"\r\n") if line.startswith(b"Content-Length: "))
        if len(rest) < length:
            break
        count, said = count + 1, rest[length:]
    return count, said


def new_desk(folder, name):
    db = os.path.join(folder, name)
    server = Server(FTD, db, 1)
    assert answers(server.ask(closing(SET_UP))[0])[0] == 4
    server.process.wait()
    return db


def keepers(folder):
    server = Server(FTD, new_desk(folder, "keepers.db"), 100)
    waits, kept = [], []
    begun = time.monotonic()
    for number in range(100):
        time.sleep(max(0, begun + 3 * number - time.monotonic()))
        start = time.monotonic()
        kept.append(server.peer())
        kept[-1].sendall(STATUS)
        assert read_one(kept[-1]).startswith(b"HTTP/1.1 200")
        waits.append(time.monotonic() - start)
    server.process.wait(30)
    print(f"100 clients that keep their connections, one every 3 seconds: the longest wait {max(waits):.2f} s, "
          f"in the middle {statistics.median(waits):.3f} s; told: {server.lines() or 'nothing'}", flush=True)


def crowd(folder):
    """Ten clients at once, each of which keeps its connection."""
    server = Server(FTD, new_desk(folder, "crowd.db"), 10)
    kept = [server.peer() for _ in range(10)]
    start = time.monotonic()
    for peer in kept:
        peer.sendall(STATUS)
    for peer in kept:
        assert read_one(peer).startswith(b"HTTP/1.1 200")
    print(f"10 clients at once that keep their connections: the last answer after {time.monotonic() - start:.2f} s", flush=True)
    server.process.wait(30)


def slow(folder):
    for words in (["--silence", "2", "--duration", "6"], ["--silence", "1", "--duration", "60"]):
        server = Server(FTD, new_desk(folder, f"slow{words[1]}.db"), 1, *words)
        start = time.monotonic()
        with server.peer() as peer:
            pause = 1 if words[1] == "2" else 1.5
            try:
                for byte in STATUS:
                    peer.sendall(bytes([byte]))
                    time.sleep(pause)
            except OSError:
                pass
        server.process.wait(90)
        print(f"a byte every {pause} s under {' '.join(words)}: ended after {time.monotonic() - start:.1f} s; "
              f"told: {server.lines().strip()}", flush=True)


def pipelines(folder):
    server = Server(FTD, new_desk(folder, "pipelines.db"), 25)
    whole = missing = cut = 0
    for _ in range(25):
        said, in_order = server.ask(STATUS * 400)
        count, rest = answers(said)
        whole += count
        missing += count != 100
        cut += rest != b"" or not in_order
    server.process.wait(30)
    print(f"10,000 messages in lists of 400: {whole} answers in 25 connections, {missing} connections with another number than 100, "
          f"{cut} cut or reset", flush=True)


def refused(folder):
    server = Server(FTD, new_desk(folder, "refused.db"), 1000)
    lost = 0
    for number in range(1000):
        if number % 2:
            sent, status = b"POST /accounts HTTP/1.1\r\nContent-Length: 2000000\r\n\r\n" + b"x" * 60_000, b"HTTP/1.1 413"
        else:
            sent, status = b"POST /accounts HTTP/1.1\r\nTransfer-Encoding: chunked\r\n\r\n" + b"x" * 60_000, b"HTTP/1.1 501"
        said, in_order = server.ask(sent)
        lost += not (said.startswith(status) and in_order)
    server.process.wait(30)
    print(f"1,000 messages with bodies that are refused by their heads: {lost} answers lost", flush=True)


def kept_runs(db):
    """The runs that the file and its log hold, by account, once a command has opened it."""
    subprocess.run([FTD, "status", "--db", db, "ash", "2024-05-08"], stdout=subprocess.DEVNULL, check=True)
    with contextlib.closing(sqlite3.connect(db)) as it:
        return set(it.execute("SELECT account, run FROM run"))


def kills(folder):
    """Kills a server under posts, each time to a new account, and sees what the file holds after it."""
    db = new_desk(folder, "kills.db")
    random.seed(1)
    acknowledged, lost, logs = set(), 0, []
    for turn in range(KILLS):
        server = Server(FTD, db, 1_000_000)
        name = f"k{turn}"
        begin = closing([message_of(f"enrol {name} 2024-01-01"), message_of(f"open {name} 2024")])
        assert answers(server.ask(begin)[0])[0] == 2
        killer = threading.Timer(random.uniform(0.02, 0.5), server.process.kill)
        killer.start()
        number = 0
        try:
            while True:
                with server.peer() as peer:
                    for _ in range(100):
                        number += 1
                        peer.sendall(post_of(number, name))
                        if b" 200 OK" not in read_one(peer):
                            raise OSError
                        acknowledged.add((name, number))
        except OSError:
            pass
        killer.join()
        server.process.wait()
        logs.append(os.path.getsize(f"{db}-wal"))
        if turn % 20 == 19:
            lost += len(acknowledged - kept_runs(db))
    print(f"{KILLS} kills: {len(acknowledged)} posts acknowledged, {lost} lost; the log at a kill: "
          f"{statistics.median(logs):.0f} bytes in the middle, {max(logs)} at most", flush=True)


def asked(server, peer, sent):
    """How long an answer takes, and the connection, which is a new one where the server had closed it, as one that is idle."""
    while True:
        start = time.perf_counter()
        with contextlib.suppress(OSError):
            peer.sendall(sent)
            if read_one(peer):
                return time.perf_counter() - start, peer
        peer.close()
        peer = server.peer()


def hundreds(folder, kind):
    """How long each program takes for each hundred of 2,000 questions or posts. Each goes to each program in turn, so that what else the
    machine does meets all alike."""
    servers, took = [], [[] for _ in PROGRAMS]
    for place, program in enumerate(PROGRAMS):
        db = os.path.join(folder, f"{kind}{place}.db")
        first = Server(program, db, 1)
        first.ask(closing(SET_UP))
        first.process.wait()
        servers.append(Server(program, db, 1_000_000))
    for connection in range(20):
        peers, sums = [server.peer() for server in servers], [0] * len(servers)
        for at in range(100):
            sent = STATUS if kind == "questions" else post_of(connection * 100 + at + 1)
            for place in random.sample(range(len(peers)), len(peers)):
                seconds, peers[place] = asked(servers[place], peers[place], sent)
                sums[place] += seconds
        for place, peer in enumerate(peers):
            peer.close()
            took[place].append(sums[place])
    for server in servers:
        server.process.kill()
        server.process.wait()
    return took


def speed(_):
    for kind, where in itertools.product(("questions", "posts"), (None, "/dev/shm")):
        took = [[] for _ in PROGRAMS]
        for _ in range(LISTS):
            with tempfile.TemporaryDirectory(dir=where) as folder:
                took = [[*before, *more] for before, more in zip(took, hundreds(folder, kind))]
        for program, found in zip(PROGRAMS, took):
            draws = [random.choices(range(len(found)), k=len(found)) for _ in range(1000)]
            shares = sorted(sum(found[it] for it in draw) / sum(took[0][it] for it in draw) for draw in draws)
            print(f"{kind}, a file {'in memory' if where else 'on the disk'}, {program}: {10 * statistics.fmean(found):.3f} ms each, "
                  f"{sum(found) / sum(took[0]):.2f} of the first program's ({shares[25]:.2f} to {shares[974]:.2f})", flush=True)


def main():
    with tempfile.TemporaryDirectory() as folder:
        for trial in (crowd, slow, pipelines, refused, speed, kills, keepers) if len(PROGRAMS) == 1 else (speed,):
            trial(folder)


if __name__ == "__main__":
    main()
