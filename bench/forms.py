#!/usr/bin/env python3
"""Forms beside the words of the same commands.

    bench/forms.py [PROGRAM [DESKS [REQUESTS]]]

It needs Debian's python3-html5lib. Of each of DESKS random desks (40 if none is given) REQUESTS random requests that change something (250 if none is
given), nonsense and corrections too, are sent to a server as forms, as a browser sends them, and to another over a new file as commands. Of one in ten a
field gets a value that is none of its kind. The page has to tell what the command prints, with the status that its exit status has, and to be read by a
parser of HTML without a fault; its title has to say whether it was done; where it was not done, its form has to be filled in as it was sent, and a field that
has no value of its kind has to be named and marked, it alone; where it was done, it has to lead to what was changed, the page of the account or the
holidays of the year. The form of each account is asked for too, and has to have the next number. At the end all
rows of the tables have to be the same. It ends with status 1 at the first difference.
"""

import http.client
import json
import os
import random
import sys
import tempfile
import urllib.parse

import desk
from office import program_of, tables
from pages import XHTML, Server, read_page, text_of

STATUS = {0: 200, 1: 409, 2: 400}


def asked_by(line):
    """The command's words, and the fields of its form, of a request as a line; None of a question."""
    verb, *rest = line.split(" ")
    named = lambda *names: dict(zip(names, rest))
    if verb == "post":
        rest = [*rest, "0.00", "0.00"][:6]
        return ["post", *rest], named("account", "run", "payday", "fit", "ss", "medicare")
    if verb == "pay":
        return ["pay", *rest], named("account", "payment", "paid", "for", "amount")
    if verb in ("void", "void-pay"):
        return [verb, *rest], named("account", "run" if verb == "void" else "payment")
    if verb == "open":
        return ["open-year", *rest], named("account", "year")
    if verb == "report":
        return total_of("report", rest)
    if verb == "correct-report":
        *rest, number, amount = rest
        words, fields = total_of("correct-report", [*rest, amount])
        return [*words, "--number", number], fields | {"number": number}
    if verb == "correct-account":
        carried = ["--carried"] if "carried" in rest else []
        fields = {"account": rest[0], "number": rest[1], "start": rest[2]} | ({"carried": "yes"} if carried else {})
        return ["correct-account", rest[0], rest[2], *carried, "--number", rest[1]], fields
    if verb == "calendar":
        return ["calendar", *rest], {"year": rest[0], "days": "\r\n".join(rest[1:])}
    if verb == "add-holiday":
        return ["add-holiday", *rest], named("day")
    if verb == "change-holiday":
        return ["change-holiday", rest[0], rest[2], "--number", rest[1]], {"day": rest[0], "number": rest[1], "holiday": rest[2]}
    if verb == "enrol":
        form = "943" if "943" in rest else "941"
        carried = ["--carried"] if "carried" in rest else []
        fields = {"account": rest[0], "start": rest[1], "form": form} | ({"carried": "yes"} if carried else {})
        return ["enrol", *rest[:2], *carried, "--form", form], fields
    return None


def total_of(verb, rest):
    """The words and the fields of a total of a quarter, or of a year."""
    if rest[1] == "year":
        return [f"{verb}-year", rest[0], *rest[2:]], dict(zip(("account", "year", "amount"), [rest[0], *rest[2:]]))
    return [verb, *rest], dict(zip(("account", "quarter", "amount"), rest))


def without_number(rng, words, fields):
    """Now and then a correction whose number is left empty."""
    if "number" in fields and rng.random() < 0.5:
        return words[:-2], fields | {"number": ""}
    return words, fields


# Texts that are no values of a field's kind, by its name.
BAD = {
    **dict.fromkeys(("payday", "start", "day", "paid", "for"), ("2023-02-29", "2024-1-5", "2024/01/05", "1899-12-31", "soon")),
    **dict.fromkeys(("fit", "ss", "medicare", "amount"), ("1,000.00", "1.005", ".5", "5.", "1000000000", "five")),
    **dict.fromkeys(("run", "payment", "number", "year"), ("1.5", "seven", "0x10", "99999999999")),
    "quarter": ("2024Q5", "2024q1", "Q1", "24Q1"),
    "form": ("944", "x"),
    "holiday": ("maybe", "true"),
}


def with_bad_value(rng, words, fields):
    """Now and then a field whose text is no value of its kind, as a word of the command too; its name, if there is one."""
    names = [name for name in fields if name in BAD and words.count(fields[name]) == 1]
    if not names or rng.random() >= 0.1:
        return words, fields, None
    name = rng.choice(names)
    bad = rng.choice(BAD[name])
    return [bad if word == fields[name] else word for word in words], fields | {name: bad}, name


class Sender(Server):
    """A server that is sent messages with a body."""

    def post(self, target, body):
        peer = http.client.HTTPConnection("127.0.0.1", self.office.port, timeout=60)
        # a browser says where a form comes from
        own = {"Origin": f"http://127.0.0.1:{self.office.port}", "Sec-Fetch-Site": "same-origin"}
        peer.request("POST", target, body, own)
        said = peer.getresponse()
        answer = said.status, said.read().decode()
        peer.close()
        return answer


def printed(document):
    """What a page tells of what was printed."""
    return "".join(text_of(it) for it in document.iter(f"{XHTML}pre"))


def filled_in(document):
    """What the controls of a form have."""
    given = {it.get("name"): it.get("value") for it in document.iter(f"{XHTML}input") if it.get("type") != "checkbox"}
    given |= {it.get("name"): it.get("value") for it in document.iter(f"{XHTML}input") if it.get("type") == "checkbox" and it.get("checked") is not None}
    given |= {it.get("name"): text_of(it).replace("\n", "\r\n") for it in document.iter(f"{XHTML}textarea")}
    for choice in document.iter(f"{XHTML}select"):
        given |= {choice.get("name"): it.get("value") for it in choice if it.get("selected") is not None}
    return {name: text for name, text in given.items() if text}


def marked(document):
    """The names of the controls that are marked as bad, and those to which the page leads to correct them."""
    controls = [it.get("name") for kind in ("input", "select", "textarea") for it in document.iter(f"{XHTML}{kind}") if it.get("aria-invalid") == "true"]
    ways = [it.get("href")[1:] for it in document.iter(f"{XHTML}a") if it.get("href").startswith("#")]
    return controls, ways


def ways_to_changed(document):
    """Where a page leads to what was changed: to the page of an account, or to the holidays of a year."""
    ways = {it.get("href") for it in document.iter(f"{XHTML}a")}
    return {way for way in ways if way.startswith(("/accounts/", "/lists/holidays/"))}


def compare_ways(where, forms, document, fields):
    """A page that tells that something was done leads to what was changed."""
    year = fields.get("year") or fields.get("day", "")[:4]
    way = f"/accounts/{fields['account']}/html" if "account" in fields else f"/lists/holidays/{year}/html"
    assert ways_to_changed(document) == {way}, (where, fields, ways_to_changed(document))
    assert forms.get(way)[0] == 200, (where, way)


def compare(where, forms, commands, words, fields, bad=None):
    """Sends a form and its command, and compares what they tell. The name is that of the field that has no value of its kind, if it is known."""
    status, page = forms.post(f"/forms/{words[0]}", urllib.parse.urlencode(fields))
    answer = json.loads(commands.post("/commands", " ".join(words) + "\n")[1])
    assert status == STATUS[answer["status"]], (where, words, status, answer)
    document, title = read_page(page, where)
    assert title.startswith("Done: " if status == 200 else "Not done: "), (where, title)
    assert status == 400 or bad is None, (where, words, status)
    if status == 400:
        controls, ways = marked(document)
        assert len(controls) == 1 and controls == ways and bad in (None, controls[0]), (where, words, controls, ways, bad)
    else:
        assert marked(document) == ([], []), (where, words)
        wanted = answer["out"] + answer["err"] if status == 200 else answer["err"]
        wanted = wanted.replace("line 1: ", "").replace(f"commands.db", "forms.db")
        assert printed(document) == wanted, f"{where}: {words}\n  the page: {printed(document)}\n  the command: {wanted}"
    if status == 200:
        compare_ways(where, forms, document, fields)
    else:
        # a text that is none of those to choose from can't be shown as chosen
        typed = {name: text for name, text in fields.items() if text and not (name == bad and name in ("form", "holiday"))}
        assert filled_in(document) == typed, (where, filled_in(document), typed)
    return status


def compare_numbers(where, forms, name):
    """The forms of a new pay run and of a payment have the next number."""
    kept = {kind: [row for quarter in desk_quarters() for row in rows_of(forms, name, kind, quarter)] for kind in ("runs", "payments")}
    for verb, kind, field in (("post", "runs", "run"), ("pay", "payments", "payment")):
        document, _ = read_page(forms.get(f"/forms/{verb}/{name}")[2], where)
        given = filled_in(document)
        assert given["account"] == name and int(given[field]) == max([int(row[field]) for row in kept[kind]], default=0) + 1, (where, name, given)


def desk_quarters():
    return [f"{year}Q{quarter}" for year in range(2019, 2031) for quarter in range(1, 5)]


def rows_of(forms, name, kind, quarter):
    status, _, said = forms.get(f"/lists/accounts/{name}/{kind}/{quarter}/json")
    return json.loads(said)["rows"] if status == 200 else []


def compare_desk(program, folder, seed, count):
    """Compares a desk of forms with one of commands, and gives how many forms were answered with each status."""
    files = [os.path.join(folder, f"{name}.db") for name in ("forms", "commands")]
    forms, commands = Sender(program, files[0]), Sender(program, files[1])
    rng, reading, posted, paid = random.Random(seed), desk.Desk(), {}, {}
    counts, sent = {200: 0, 400: 0, 409: 0}, 0
    lines = list(desk.preparing(rng))
    while sent < count:
        line = lines.pop(0) if lines else desk.one(rng, reading, posted, paid)
        asked = asked_by(line)
        reading.ask(line)
        if asked is None:
            continue
        asked = without_number(rng, *asked)
        counts[compare(f"seed {seed}", forms, commands, *with_bad_value(rng, *asked))] += 1
        sent += 1
    accounts = json.loads(forms.get("/lists/accounts/json")[2])["rows"]
    for row in rng.sample(accounts, min(2, len(accounts))):
        compare_numbers(f"seed {seed}", forms, row["account"])
    forms.close(), commands.close()
    assert tables(files[0]) == tables(files[1]), f"seed {seed}: the tables differ"
    for file in files:
        for end in ("", "-wal"):
            if os.path.exists(file + end):
                os.remove(file + end)
    return counts


def main():
    program = program_of(sys.argv[1:2])
    desks, count = [*map(int, sys.argv[2:]), *[40, 250][len(sys.argv[2:]):]]
    sums = {200: 0, 400: 0, 409: 0}
    with tempfile.TemporaryDirectory() as folder:
        for seed in range(1, desks + 1):
            for status, some in compare_desk(program, folder, seed, count).items():
                sums[status] += some
    print(f"{desks} desks: {sum(sums.values())} forms, of them {sums[200]} done, {sums[409]} refused, {sums[400]} with a bad field; 0 differences")


if __name__ == "__main__":
    main()
