#!/usr/bin/env python3
"""Tries `ftd serve` with connections on which nothing comes, as a browser opens them: they hold nobody up, and are closed.

    bench/waiting.py [PROGRAM]

- Five silent connections, and then 50 clients one after the other: how long each waits for its answer.
- A silent connection, with nobody else and while others ask: when it is closed.
- 100 silent connections at once, and 1,000 of them one after the other: how long the client behind them waits.
- A client that sends half a message, and the rest half a second later: it is answered, and the next one waits for it.
- 20 clients that send at once, behind one that does: they are answered in the order in which they came.
- Connections that end, or are reset, before anything came: the next client is answered.
- A server of 12 connections, of which four are silent: it answers eight, and ends."""

import contextlib
import os
import select
import socket
import struct
import subprocess
import sys
import tempfile
import time

from office import STATUS, free_port, program_of

FTD = program_of(sys.argv[1:])
HALF = len(STATUS) // 2
CLOSING = STATUS.replace(b"\r\n\r\n", b"\r\nConnection: close\r\n\r\n", 1)


@contextlib.contextmanager
def server(connections):
    """The address of a server over a new file, and its process."""
    with tempfile.TemporaryDirectory() as folder, tempfile.TemporaryFile() as told:
        words = [FTD, "serve", "--db", os.path.join(folder, "new.db"), "--port", str(free_port())]
        process = subprocess.Popen([*words, "--connections", str(connections)], stdout=subprocess.PIPE, stderr=told, text=True)
        try:
            yield ("127.0.0.1", int(process.stdout.readline().split(":")[1])), process
        finally:
            process.kill()
            process.wait()
            process.stdout.close()


def silent(address, count):
    """So many connections on which nothing comes."""
    return [socket.create_connection(address, timeout=30) for _ in range(count)]


def answer(peer):
    """What comes until the server closes the connection."""
    said = b""
    while piece := peer.recv(65536):
        said += piece
    return said


def ask(address):
    """For how many seconds a client waits for its answer."""
    start = time.monotonic()
    with socket.create_connection(address, timeout=30) as peer:
        peer.sendall(CLOSING)
        first = peer.recv(65536)
        waited = time.monotonic() - start
        assert first.startswith(b"HTTP/1.1 "), first
        answer(peer)
    return waited


def milliseconds(waits):
    waits = sorted(waits)
    return f"{1000 * waits[len(waits) // 2]:.1f} ms in the middle, {1000 * waits[-1]:.1f} ms at most"


def behind_five():
    with server(100) as (address, _):
        kept = silent(address, 5)
        waits = [ask(address) for _ in range(50)]
        open_ = sum(not select.select([it], [], [], 0)[0] for it in kept)
    print(f"behind five silent connections, {open_} of which are still open: {milliseconds(waits)}", flush=True)


def closed_after():
    with server(10_000) as (address, _):
        start = time.monotonic()
        (peer,) = silent(address, 1)
        assert answer(peer) == b""
        alone = time.monotonic() - start
        start = time.monotonic()
        (peer,) = silent(address, 1)
        while not select.select([peer], [], [], 0)[0]:
            ask(address)
        assert answer(peer) == b""
    print(f"a silent connection is closed after {alone:.2f} s, and after {time.monotonic() - start:.2f} s while others ask", flush=True)


def behind_a_hundred():
    with server(10_000) as (address, _):
        kept = silent(address, 100)
        first, second = ask(address), ask(address)
        open_ = sum(not select.select([it], [], [], 0)[0] for it in kept)
    print(f"behind 100 silent connections: {1000 * first:.1f} ms, the next one {1000 * second:.1f} ms; {open_} are still open", flush=True)
    with server(10_000) as (address, _):
        kept, waits = [], []
        for _ in range(20):
            kept += silent(address, 50)
            waits.append(ask(address))
    print(f"20 clients, each behind 50 more silent connections: {milliseconds(waits)}", flush=True)


def half_a_message():
    with server(100) as (address, _), socket.create_connection(address, timeout=30) as peer:
        peer.sendall(CLOSING[:HALF])
        time.sleep(0.1)
        with socket.create_connection(address, timeout=30) as other:
            other.sendall(CLOSING)
            time.sleep(0.4)
            held = not select.select([other], [], [], 0)[0]
            peer.sendall(CLOSING[HALF:])
            whole = [answer(it).startswith(b"HTTP/1.1 ") for it in (peer, other)]
    print(f"half a message: its client is answered {whole[0]}, the next one waits {held} and is answered {whole[1]}", flush=True)


def in_order():
    with server(100) as (address, _), socket.create_connection(address, timeout=30) as first:
        first.sendall(CLOSING[:HALF])
        time.sleep(0.1)
        peers = silent(address, 20)
        for peer in reversed(peers):
            peer.sendall(CLOSING)
        time.sleep(0.1)
        first.sendall(CLOSING[HALF:])
        order = []
        while len(order) < 20:
            ready = select.select([it for it in peers if it not in order], [], [], 30)[0]
            assert ready
            order += ready
            for peer in ready:
                assert answer(peer).startswith(b"HTTP/1.1 ")
    print(f"20 clients that wait at once are answered in the order of their connections: {order == peers}", flush=True)


def ended_or_reset():
    with server(100) as (address, _):
        for number, peer in enumerate(silent(address, 30)):
            if number % 2:
                peer.setsockopt(socket.SOL_SOCKET, socket.SO_LINGER, struct.pack("ii", 1, 0))
            peer.close()
        waits = [ask(address) for _ in range(10)]
    print(f"behind 30 connections that ended or were reset: {milliseconds(waits)}", flush=True)


def as_many_as_stated():
    with server(12) as (address, process):
        start = time.monotonic()
        kept = silent(address, 4)
        for _ in range(8):
            ask(address)
        status = process.wait(30)
        closed = sum(answer(it) == b"" for it in kept)
    print(f"12 connections: 8 answered, {closed} silent ones closed, status {status} after {time.monotonic() - start:.2f} s", flush=True)


def main():
    behind_five()
    closed_after()
    behind_a_hundred()
    half_a_message()
    in_order()
    ended_or_reset()
    as_many_as_stated()


main()
