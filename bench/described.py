#!/usr/bin/env python3
"""What a server answers, beside the description of its routes, docs/openapi.json.

    bench/described.py [PROGRAM [REQUESTS [SEED ..]]]

It needs `openapi_spec_validator` and `openapi_schema_validator`, which pip installs. The first has to find no fault in the description. Then the requests of the
pages and of the texts of `examples/` go to the server through a port that keeps what passes, and REQUESTS random ones (1,000 if none is given) of each seed
(1 to 8 if none is given), in all formats, some as forms, and one in ten with a member that was changed or left out. Of each answer has to hold:

- If a path of the description has the target and the method, the status is one that the operation has, and the body is of a type and a form that it has
  there: the second validator reads each that is JSON. Else the status is 404 or 405.
- A request that is answered 2xx has parts of the path and a body as they are described. One that has not is answered 400 or 409, or 404 where the operation
  says so, and one that has is not answered 400 or 404.

In the end each operation was answered as it should be at least once. It ends with status 1 at the first difference.
"""

import glob
import json
import os
import random
import re
import socket
import sys
import tempfile
import threading
import urllib.parse

import openapi_schema_validator
import openapi_spec_validator

import desk
import openapi
from code_tables import TOP
from office import MESSAGES, Office, message_of, program_of, send

sys.path.insert(0, f"{TOP}/examples")
import run  # noqa: E402

# The statuses of messages that are refused by their heads, whatever they ask.
BY_HEAD = (403, 411, 413, 501)
# What takes the place of a member's value.
WRONG = ["", "x", "Elm", "2024-02-30", "2024Q5", "1.005", "-1.00", -1, 0, 2000, 4_294_967_296, True, None, [], ["2024-13-01"], {}]


class Exchange:
    """A request and its answer."""

    def __init__(self, asked, said):
        (first, _, self.sent), (status, self.fields, self.body) = asked, said
        self.method, self.target = first.split(" ")[:2]
        self.status, self.type = int(status.split(" ")[1]), self.fields.get("content-type")

    def may_be_by_head(self):
        """Whether the message may be refused by its head, whatever it asks: the connection closes then."""
        return self.status in BY_HEAD or self.status == 400 and self.fields.get("connection") == "close" and not self.body


def messages_in(data):
    """The messages in these bytes: the first line, the fields and the body of each."""
    while data:
        head, _, rest = data.partition(b"\r\n\r\n")
        first, *lines = head.decode("latin-1").split("\r\n")
        fields = {name.lower(): value.strip() for name, _, value in (line.partition(":") for line in lines)}
        length = int(fields.get("content-length", "0"))
        yield first, fields, rest[:length]
        data = rest[length:]


def json_of(data):
    """The value of a text of JSON, and whether it is one. A number with a point is no whole number here, as it is none to the server."""
    try:
        return json.loads(data, parse_float=lambda text: {"a number with a point": text}), True
    except ValueError:
        return None, False


class Description:
    """The description, and what of it was seen."""

    def __init__(self, document):
        self.document, self.validators, self.seen, self.bodies = document, {}, set(), 0
        self.paths = sorted(document["paths"], key=lambda path: path.count("{"))

    def found(self, target):
        """The path of a target, and the texts of its parts."""
        for path in self.paths:
            parts = re.fullmatch(re.sub(r"\\{(\w+)\\}", r"(?P<\1>[^/]+)", re.escape(path)), target)
            if parts:
                return path, parts.groupdict()
        return None, {}

    def whole(self, schema):
        """A schema with what its references lead to in their place, which is read much faster."""
        if isinstance(schema, list):
            return [self.whole(it) for it in schema]
        if not isinstance(schema, dict):
            return schema
        return {name: self.whole(it) for name, it in {**self.part(schema, "schemas"), **schema}.items() if name != "$ref"}

    def faults(self, schema, value):
        """What is wrong with a value."""
        key = json.dumps(schema)
        if key not in self.validators:
            formats = openapi_schema_validator.oas31_format_checker
            self.validators[key] = openapi_schema_validator.OAS31Validator(self.whole(schema), format_checker=formats)
        return [it.message for it in self.validators[key].iter_errors(value)]

    def typed(self, schema, text):
        """The value of a text: a number where the description has one."""
        kinds = [self.part(it, "schemas").get("type") for it in schema.get("anyOf", [schema])]
        return int(text) if "integer" in kinds and re.fullmatch(r"[0-9]{1,10}", text) else text

    def part(self, its, of):
        """What a reference leads to."""
        return self.document["components"][of][its["$ref"].rpartition("/")[2]] if "$ref" in its else its

    def wrong_parts(self, operation, parts):
        """What is wrong with the parts of a path."""
        given = [self.part(it, "parameters") for it in operation.get("parameters", [])]
        return [fault for it in given for fault in self.faults(it["schema"], self.typed(it["schema"], parts[it["name"]]))]

    def wrong_body(self, operation, sent):
        """What is wrong with the body of a request."""
        content = operation.get("requestBody", {"content": {}})["content"]
        if "application/json" in content:
            value, is_json = json_of(sent)
            return self.faults(content["application/json"]["schema"], value) if is_json else ["no JSON"]
        if "application/x-www-form-urlencoded" not in content:
            return []
        schema, pairs = content["application/x-www-form-urlencoded"]["schema"], urllib.parse.parse_qsl(sent.decode(), keep_blank_values=True)
        if len(dict(pairs)) < len(pairs):
            return ["a field that comes twice"]
        filled = {name: text for name, text in pairs if text}
        return self.faults(schema, {name: self.typed(schema["properties"].get(name, {}), text) for name, text in filled.items()})

    def wrong_answer(self, operation, it):
        """What is wrong with an answer."""
        answer = operation["responses"].get(str(it.status))
        if answer is None:
            return [f"no answer of status {it.status}"]
        answer = self.part(answer, "responses")
        content, headers = answer.get("content", {}), answer.get("headers", {})
        wrong = [fault for name, header in headers.items() for fault in self.faults(header["schema"], it.fields.get(name.lower()))]
        if not it.body:
            return wrong + ([] if it.type is None or it.type in content else [f"the type {it.type} without a body"])
        if it.type not in content:
            return [f"a body of the type {it.type}"]
        is_json = it.type == "application/json"
        value, is_read = json_of(it.body) if is_json else (it.body.decode(), True)
        self.bodies += is_json
        return wrong + (self.faults(content[it.type]["schema"], value) if is_read else ["no JSON"])

    def judge(self, it):
        """What is wrong with an answer to a request."""
        path, parts = self.found(it.target)
        operation = self.document["paths"].get(path, {}).get(it.method.lower())
        if operation is None:
            wanted = (404,) if path is None else (405,)
            return [] if (it.status in wanted or it.may_be_by_head()) and not it.body else [f"{it.status}, and no operation is described"]
        wrong, bad = self.wrong_answer(operation, it), self.wrong_parts(operation, parts) + self.wrong_body(operation, it.sent)
        if bad and not (it.status in (400, 404, 409) or it.may_be_by_head()):
            wrong.append(f"{it.status} to a request that is none: {bad}")
        if it.status in (400, 404) and not bad and not it.may_be_by_head():
            wrong.append(f"{it.status} to a request as it is described")
        if it.status < 400:
            self.seen.add(operation["operationId"])
        return wrong

    def compare(self, exchanges):
        """Judges exchanges, and gives how many there were. Ends at the first that is wrong."""
        for it in exchanges:
            wrong = self.judge(it)
            if wrong:
                sys.exit(f"{it.method} {it.target} {it.sent.decode()}: {it.status} {it.body[:300]}\n" + "\n".join(wrong))
        return len(exchanges)

    def not_seen(self):
        every = {its["operationId"] for path in self.document["paths"].values() for its in path.values()}
        return sorted(every - self.seen)


# ---- the requests of pages and texts


class Keeper:
    """A port in front of another one, which keeps what passes, connection by connection."""

    def __init__(self, port):
        self.behind, self.kept = port, []
        self.listener = socket.create_server(("127.0.0.1", 0))
        self.port = self.listener.getsockname()[1]
        threading.Thread(target=self.accept, daemon=True).start()

    def accept(self):
        while True:
            peer, _ = self.listener.accept()
            threading.Thread(target=self.join, args=(peer,), daemon=True).start()

    def join(self, peer):
        """Passes on what comes from either side, until both have ended."""
        asked, said = bytearray(), bytearray()
        self.kept.append((asked, said))
        with peer, socket.create_connection(("127.0.0.1", self.behind)) as server:
            there = threading.Thread(target=pass_on, args=(peer, server, asked), daemon=True)
            there.start()
            pass_on(server, peer, said)
            there.join(1)

    def exchanges(self):
        return [Exchange(*pair) for asked, said in self.kept for pair in zip(messages_in(bytes(asked)), messages_in(bytes(said)))]


def pass_on(source, target, kept):
    """Passes on all that comes, and its end."""
    try:
        while piece := source.recv(65536):
            kept += piece
            target.sendall(piece)
        target.shutdown(socket.SHUT_WR)
    except OSError:
        pass


class Kept(run.Run):
    """A run of an example whose requests are kept."""

    def __init__(self, example, program):
        self.keeper = None
        super().__init__(example, program, "whole")

    def serve(self):
        super().serve()
        self.keeper = Keeper(self.port)
        self.port = self.keeper.port


def compare_examples(description, program):
    """Compares the requests of each page and text, and tells how many there were."""
    for text in [*run.PAGES, *sorted(os.path.relpath(it, TOP) for it in glob.glob(f"{TOP}/examples/*.txt"))]:
        count = 0
        for example in run.examples_of(text)[0]:
            if example.requests():
                its = Kept(example, program)
                wrong = its.all()
                if wrong:
                    sys.exit("\n".join(wrong))
                count += description.compare(its.keeper.exchanges())
        if count:
            print(f"{text}: {count} requests", flush=True)


# ---- random requests


def changed(rng, message):
    """The message, with a member of its body changed or left out."""
    head, _, body = message.partition(b"\r\n\r\n")
    value = json.loads(body)
    name = rng.choice(list(value))
    value[name] = rng.choice(WRONG)
    if rng.random() < 0.3:
        del value[name]
    text = json.dumps(value).encode()
    return re.sub(rb"Content-Length: \d+", b"Content-Length: %d" % len(text), head) + b"\r\n\r\n" + text


def formatted(rng, target, description):
    """The target in one of the formats that it has."""
    path = description.found(target)[0]
    ends = [it for it in ("/csv", "/json", "/html", "/ics") if path and path + it in description.paths]
    return target + rng.choice(["", "/json", "/json", *ends]) if ends else target


def as_form(message, description):
    """The message that sends the same as a form."""
    first, _, sent = next(messages_in(message))
    method, target = first.split(" ")[:2]
    path, parts = description.found(target)
    fields = parts | (json.loads(sent) if sent else {})
    text = urllib.parse.urlencode({name: control(name, value) for name, value in fields.items()})
    command = description.document["paths"][path][method.lower()]["operationId"].replace("_", "-")
    return f"POST /forms/{command} HTTP/1.1\r\nContent-Length: {len(text)}\r\n\r\n{text}".encode()


def control(name, value):
    """What a form sends for a value."""
    if isinstance(value, bool):
        return "yes" if value else "no" if name == "holiday" else ""
    return "\r\n".join(value) if isinstance(value, list) else value


def asked(rng, line, description):
    """The message of a line, in some format, or as a form, or changed."""
    message = message_of(line)
    first, rest = message.split(b"\r\n", 1)
    method, target, version = first.decode().split(" ")
    if method == "GET":
        return f"{method} {formatted(rng, target, description)} {version}\r\n".encode() + rest
    if rng.random() < 0.1:
        return as_form(message, description)
    return changed(rng, message) if b"{" in rest and rng.random() < 0.1 else message


def pages_of(rng, description):
    """Messages for the pages that no line asks."""
    name, day = rng.choice(desk.NAMES), desk.some_day(rng)
    targets = ["/", "/style.css", "/forms", f"/accounts/{name}/html", f"/forms/pay/{name}/{day}/{desk.amount(rng)}", "/journal", f"/journal/{name}"]
    targets += [path.replace("{account}", name) for path in description.paths if re.fullmatch(r"/forms/[a-z-]+(/\{account\})?", path)]
    yield from (f"GET {target} HTTP/1.1\r\n\r\n".encode() for target in targets)
    text = f"owed {day}\nstatus {name} {day}\nnone\n"
    yield f"POST /commands HTTP/1.1\r\nContent-Length: {len(text)}\r\n\r\n{text}".encode()


def exchanges(port, messages):
    """Sends the messages in one connection as long as it stays open, then in the next, and gives them with their answers."""
    while messages:
        some, said = messages[:MESSAGES], b""
        with socket.create_connection(("127.0.0.1", port), timeout=60) as peer:
            given = threading.Thread(target=send_some, args=(peer, b"".join(some)))
            given.start()
            while piece := peer.recv(65536):
                said += piece
            given.join()
        answers = list(messages_in(said))
        yield from (Exchange(next(messages_in(message)), answer) for message, answer in zip(some, answers))
        messages = messages[len(answers):]


def send_some(peer, sent):
    """Sends the bytes, as long as the server takes them: it closes after a page."""
    try:
        send(peer, sent)
    except OSError:
        pass


def compare_random(description, program, file, seed, count):
    """Compares the answers to random requests, and gives how many there were."""
    rng, reading, posted, paid = random.Random(seed), desk.Desk(), {}, {}
    lines = list(desk.preparing(rng))
    for line in lines:
        reading.ask(line)
    messages = [as_form(message_of(line), description) if rng.random() < 0.1 else message_of(line) for line in lines]
    for _ in range(count):
        line = desk.one(rng, reading, posted, paid)
        reading.ask(line)
        messages.append(asked(rng, line, description))
        question = rng.choice([desk.agenda, desk.owed, desk.unapplied, desk.kept])(rng)
        messages.append(asked(rng, question.removesuffix(" csv"), description))
    messages += pages_of(rng, description)
    office = Office(program, file, 100_000_000)
    compared = description.compare(list(exchanges(office.port, messages)))
    office.server.kill()
    office.server.wait()
    return compared


def main():
    program = program_of(sys.argv[1:2])
    count = int(sys.argv[2]) if len(sys.argv) > 2 else 1_000
    seeds = [int(it) for it in sys.argv[3:]] or range(1, 9)
    with open(os.path.join(TOP, openapi.PATH), encoding="utf-8") as text:
        document = json.load(text)
    openapi_spec_validator.validate(document)
    if document != openapi.description():
        sys.exit(f"{openapi.PATH} is old: run bench/openapi.py")
    description = Description(document)
    compare_examples(description, program)
    with tempfile.TemporaryDirectory() as folder:
        compared = sum(compare_random(description, program, f"{folder}/{seed}.db", seed, count) for seed in seeds)
    print(f"{len(seeds)} random desks: {compared} requests")
    if description.not_seen():
        sys.exit(f"never answered: {' '.join(description.not_seen())}")
    print(f"{description.bodies} answers of JSON and all {len(description.seen)} operations as they are described, 0 differences")


if __name__ == "__main__":
    main()
