"""What the scripts beside it share: the path of the program, the rows of a desk's file, and a desk that is asked over HTTP: requests as lines
of words, as `post elm 1 2024-05-08 40000.00`, and answers as lines."""

import contextlib
import json
import os
import socket
import sqlite3
import subprocess
import sys
import threading

TOP = os.path.dirname(os.path.dirname(os.path.abspath(__file__)))
FTD = os.path.join(TOP, "crates", "ftd", "out", "ftd")
# A connection has so many messages at most.
MESSAGES = 100
# How the texts begin that are compared as they are.
LISTS = ("OBLIGATION", "AGENDA", "OWED", "UNAPPLIED", "ACCOUNTS", "YEARS", "REPORTED", "HOLIDAYS", "RUNS", "PAYMENTS", "employer,")


def program_of(words):
    """The path of the program: the first word, or that of the build of this repository."""
    path = os.path.abspath(words[0] if words else FTD)
    if not os.access(path, os.X_OK):
        sys.exit(f"no program {path}: first run ./build.py or the test command")
    return path


def programs_of(words):
    """The paths of the programs."""
    return [program_of([it]) for it in words] or [program_of([])]


def tables(db):
    """All rows of the desk's tables, by the names of the tables."""
    with contextlib.closing(sqlite3.connect(db)) as conn:
        names = [name for (name,) in conn.execute("SELECT name FROM sqlite_schema WHERE type = 'table' ORDER BY name")]
        return {name: sorted(conn.execute(f"SELECT * FROM {name}"), key=repr) for name in names}


def body_of(words):
    """The method, the end of the target and the body of a request of an account."""
    verb, rest = words[0], words[2:]
    if verb == "report" and rest[0] == "year":
        return "POST", "reported-years", {"year": int(rest[1]), "amount": rest[2]}
    if verb == "report":
        return "POST", "reported", {"quarter": rest[0], "amount": rest[1]}
    if verb == "correct-report":
        yearly = rest[0] == "year"
        return "PUT", f"{'reported-years' if yearly else 'reported'}/{rest[-3]}/corrections/{rest[-2]}", {"amount": rest[-1]}
    if verb == "correct-account":
        return "PUT", f"corrections/{rest[0]}", {"start": rest[1], "carried": "carried" in rest}
    if verb == "open":
        return "POST", "years", {"year": int(rest[0])}
    if verb == "post":
        fit, ss, medicare = [*rest[2:], "0.00", "0.00"][:3]
        return "POST", "runs", {"run": int(rest[0]), "payday": rest[1], "fit": fit, "ss": ss, "medicare": medicare}
    if verb == "pay":
        return "POST", "payments", {"payment": int(rest[0]), "paid": rest[1], "for": rest[2], "amount": rest[3]}
    if verb in ("void", "void-pay"):
        return "DELETE", f"{'runs' if verb == 'void' else 'payments'}/{rest[0]}", None
    return "GET", "/".join([verb, *rest]), None


def message_of(line):
    """The bytes of a request's message."""
    words = line.split(" ")
    if words[0] == "calendar":
        method, target, body = "POST", "/calendars", {"year": int(words[1]), "days": words[2:]}
    elif words[0] == "add-holiday":
        method, target, body = "POST", "/holidays", {"day": words[1]}
    elif words[0] == "change-holiday":
        method, target, body = "PUT", f"/holidays/{words[1]}/changes/{words[2]}", {"holiday": words[3] == "yes"}
    elif words[0] == "enrol":
        form = "943" if "943" in words else "941"
        method, target = "POST", "/accounts"
        body = {"account": words[1], "start": words[2], "carried": "carried" in words, "form": form}
    elif words[0] in ("agenda", "owed", "unapplied"):
        method, target, body = "GET", "/" + "/".join(words), None
    elif words[0] in ("accounts", "holidays"):
        method, target, body = "GET", "/lists/" + "/".join(words), None
    elif words[0] in ("years", "reported", "runs", "payments"):
        method, target, body = "GET", "/".join(["/lists/accounts", words[1], words[0], *words[2:]]), None
    else:
        method, end, body = body_of(words)
        target = f"/accounts/{words[1]}/{end}"
    text = "" if body is None else json.dumps(body)
    length = f"Content-Length: {len(text)}\r\n" if method in ("POST", "PUT") else ""
    return f"{method} {target} HTTP/1.1\r\n{length}\r\n{text}".encode()


# What makes the desk that `serve` is tried with, and a question of it.
SET_UP = [message_of(line) for line in ("calendar 2024", "calendar 2025", "enrol ash 2024-01-01", "open ash 2024")]
STATUS = message_of("status ash 2024-05-08")


def post_of(number, account="ash"):
    """The message that posts a run of that number to it, at one of many days."""
    return message_of(f"post {account} {number} 2024-{number % 12 + 1:02}-{number % 28 + 1:02} 1.00 0.62 0.14")


def rows_of(text):
    """The lines of a due list or of Schedule B; the totals have to be those of the lines."""
    head, *lines = text.split("\n")[:-1]
    rows = [line.split() for line in lines]
    cents = lambda row, place: int(row[place].replace(".", ""))
    if head.startswith("DUE LIST"):
        *rows, total = rows
        assert total[0] == "TOTAL" and cents(total, 1) == sum(cents(row, 3) for row in rows), text
    else:
        days, months = [row for row in rows if len(row[0]) == 10], [row for row in rows if len(row[0]) == 7]
        for month in months:
            assert cents(month, 1) == sum(cents(row, 1) for row in days if row[0].startswith(month[0])), text
        assert len(months) == 3 and cents(rows[-1], 1) == sum(cents(row, 1) for row in days), text
        rows = days
    return "".join(" ".join(row) + "; " for row in rows)


def told(body):
    """The answer as a line; what is due over all accounts, and a list of what is kept, is its text."""
    if body.startswith(LISTS):
        return body
    if not body.startswith("{"):
        return rows_of(body)
    answer = json.loads(body)
    if "refused" in answer:
        word = "failed" if answer["refused"] in (21, 22) else "refused"
        named = [str(answer[key]) for key in ("detail", "count") if key in answer]
        return " ".join([word, str(answer["refused"]), answer["name"], *named])
    if "kind" in answer:
        return " ".join([answer["kind"], answer["reason"], *([answer["turn"]] if "turn" in answer else [])])
    if answer["reply"] == "posted":
        return f"{answer['from']}..{answer['to']} -{answer['removed']} +{answer['added']}"
    return answer["reply"]


class Office:
    """A server over a file, for so many requests; the connections are used one after the other."""

    def __init__(self, program, file, requests):
        self.left = -(-requests // MESSAGES)
        words = [program, "serve", "--db", file, "--port", str(free_port()), "--connections", str(self.left)]
        self.server = subprocess.Popen(words, stdout=subprocess.PIPE, text=True)
        said = self.server.stdout.readline()
        assert said.startswith("listening 127.0.0.1:"), said
        self.port = int(said.split(":")[1])

    def ask_some(self, lines):
        """The answers to at most a hundred requests, which go as one connection."""
        sent = b"".join(message_of(line) for line in lines)
        with socket.create_connection(("127.0.0.1", self.port), timeout=60) as peer:
            given = threading.Thread(target=send, args=(peer, sent))
            given.start()
            said = b""
            while piece := peer.recv(65536):
                said += piece
            given.join()
        self.left -= 1
        return [told(body) for body in bodies(said)]

    def ask(self, lines):
        """The answers to requests."""
        return [answer for place in range(0, len(lines), MESSAGES) for answer in self.ask_some(lines[place : place + MESSAGES])]

    def close(self):
        """Waits for the end of the server, all of whose connections were used."""
        assert self.left == 0, self.left
        if self.server.wait(60):
            sys.exit(f"serve ended with status {self.server.returncode}")


def free_port():
    with socket.socket() as it:
        it.bind(("127.0.0.1", 0))
        return it.getsockname()[1]


def send(peer, sent):
    """Sends the bytes, and then says that no more come."""
    peer.sendall(sent)
    peer.shutdown(socket.SHUT_WR)


def bodies(said):
    """The bodies of answers, one after the other."""
    while said:
        head, _, rest = said.partition(b"\r\n\r\n")
        length = next(int(line[16:]) for line in head.split(b"\r\n") if line.startswith(b"Content-Length: "))
        yield rest[:length].decode()
        said = rest[length:]
