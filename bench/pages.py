#!/usr/bin/env python3
"""The pages of random desks, read by a parser of HTML, beside the same answers as JSON.

    bench/pages.py [PROGRAM [DESKS [REQUESTS]]]

It needs Debian's python3-html5lib. DESKS desks (300 if none is given) are made of REQUESTS random requests (60 if none is given), and served. Each list,
and why each obligation is so, is asked over HTTP as a page. Each page has to be read without a fault and to have a language, a title of its own, a caption
for each table, and a scope for each header cell; the cells have to be the values of its JSON, one by one. What is refused has to be a page too, of a sentence with what the refusal names. Each link of a page
has to lead to a page, and so has each of the page of an account.
It ends with status 1 at the first difference.
"""

import datetime
import http.client
import json
import os
import random
import re
import sys
import tempfile

import html5lib

import desk
from journal import made_of
from office import Office, program_of

XHTML = "{http://www.w3.org/1999/xhtml}"
TODAY = f"{datetime.date.today().year}Q{(datetime.date.today().month + 2) // 3}"
QUARTERS = [f"{year}Q{quarter}" for year in range(2022, 2028) for quarter in range(1, 5)]


class Server:
    """A server over a file, asked one message after the other, each by a connection of its own."""

    def __init__(self, program, file):
        self.office = Office(program, file, 100_000_000)

    def get(self, target):
        """The status, the fields and the text of an answer."""
        peer = http.client.HTTPConnection("127.0.0.1", self.office.port, timeout=60)
        peer.request("GET", target)
        said = peer.getresponse()
        answer = said.status, dict(said.getheaders()), said.read().decode()
        peer.close()
        return answer

    def close(self):
        self.office.server.kill()
        self.office.server.wait()


def text_of(element):
    """All text within an element."""
    return "".join(element.itertext())


def read_page(text, target):
    """The document of a page; no fault of HTML is let pass."""
    parser = html5lib.HTMLParser(strict=True)
    try:
        document = parser.parse(text)
    except html5lib.html5parser.ParseError as fault:
        sys.exit(f"{target}: {fault}: {parser.errors}")
    assert document.get("lang") == "en", target
    titles = [text_of(it) for it in document.iter(f"{XHTML}title")]
    assert len(titles) == 1 and titles[0], target
    assert len(list(document.iter(f"{XHTML}main"))) == 1, target
    assert not list(document.iter(f"{XHTML}script")), target
    for table in document.iter(f"{XHTML}table"):
        assert text_of(table.find(f"{XHTML}caption")), target
        for cell in table.iter(f"{XHTML}th"):
            assert cell.get("scope") in ("col", "row"), (target, text_of(cell))
    return document, titles[0]


def tables_of(document):
    """The tables: of each the caption, the names of the columns and the rows."""
    for table in document.iter(f"{XHTML}table"):
        names = [it.get("class") for it in table.find(f"{XHTML}thead").iter(f"{XHTML}th")]
        rows = [[text_of(cell) for cell in row] for row in table.find(f"{XHTML}tbody")]
        for row in table.find(f"{XHTML}tbody"):
            assert [cell.get("class") for cell in row] == names, names
        yield text_of(table.find(f"{XHTML}caption")), names, rows


def compare_list(server, path, titles):
    """Compares the page of a list with its JSON, and gives the document and the number of its cells."""
    status, _, said = server.get(f"{path}/json")
    assert status == 200, (path, status, said)
    rows = [{name: shown(value) for name, value in row.items()} for row in json.loads(said)["rows"]]
    status, fields, page = server.get(f"{path}/html")
    assert status == 200 and fields["Content-Type"].startswith("text/html"), (path, status)
    assert fields["Connection"] == "close" and "default-src 'none'" in fields["Content-Security-Policy"], path
    document, title = read_page(page, path)
    assert titles.setdefault(title, path) == path, f"{path} and {titles[title]} have one title"
    found = [[dict(zip(names, row)) for row in table] for _, names, table in tables_of(document)]
    assert found == ([rows] if rows else []), f"{path}: {found} in place of {rows}"
    return document, sum(map(len, rows))


def shown(value):
    """A value of JSON, as a cell shows it."""
    return {True: "yes", False: "no", None: ""}.get(value, value) if isinstance(value, (bool, type(None))) else str(value)


def compare_explanation(server, path):
    """Compares the page that explains an obligation with its JSON."""
    status, _, said = server.get(f"{path}/json")
    assert status == 200, (path, said)
    told = json.loads(said)
    status, _, page = server.get(f"{path}/html")
    assert status == 200, path
    document, _ = read_page(page, path)
    lists = [it for it in told.values() if isinstance(it, list)]
    found = {caption: [dict(zip(names, row)) for row in rows] for caption, names, rows in tables_of(document)}
    cells = 0
    for rows in lists:
        wanted = [{name: shown(value) for name, value in row.items()} for row in rows]
        assert not wanted or any(all(all(row.get(n) == v for n, v in want.items() if n in row) for row, want in zip(table, wanted))
                                 and len(table) == len(wanted) for table in found.values()), (path, wanted, found)
        cells += sum(map(len, wanted))
    return document, cells


def links_of(document):
    return {it.get("href") for it in document.iter(f"{XHTML}a")}


def read_refusal(server, path, status, said):
    """Reads the page of what is refused: a sentence, with the same status, and what the refusal names. Gives its links."""
    told = json.loads(said)
    found, fields, page = server.get(f"{path}/html")
    assert found == status and fields["Content-Type"].startswith("text/html"), (path, status, found)
    document, title = read_page(page, path)
    headings = [text_of(it) for it in document.iter(f"{XHTML}h1")]
    assert headings == [title] and title.endswith(".") and str(told.get("detail", told.get("count", ""))) in title, (path, told, title)
    return links_of(document)


def lists_of(server, rng):
    """The paths of the lists of a desk: over all accounts, and of each account."""
    first, last = sorted(f"{rng.randint(2022, 2027)}-{rng.randint(1, 12):02}-{rng.randint(1, 28):02}" for _ in range(2))
    yield from (f"/agenda/{first}/{last}/{last}", f"/owed/{first}/{last}", f"/unapplied/{last}", "/lists/accounts")
    yield from (f"/lists/holidays/{year}" for year in range(2022, 2028))
    for name in accounts_of(server):
        yield from (f"/lists/accounts/{name}/{kind}" for kind in ("years", "reported"))
        for quarter in rng.sample(QUARTERS, 4):
            yield from (f"/lists/accounts/{name}/{kind}/{quarter}" for kind in ("runs", "payments"))
            yield f"/accounts/{name}/due/{quarter}/{last}"
            yield f"/accounts/{name}/schedule-b/{quarter}"


def accounts_of(server):
    return [row["account"] for row in json.loads(server.get("/lists/accounts/json")[2])["rows"]]


def explained(server, rng, name):
    """The paths of explanations of an account's obligations."""
    for quarter in rng.sample(QUARTERS, 3):
        status, _, said = server.get(f"/accounts/{name}/due/{quarter}/2027-12-31/json")
        if status == 200:
            for row in json.loads(said)["rows"][:2]:
                yield f"/accounts/{name}/explain/{row['first']}"


def compare(program, folder, seed, count):
    """Compares the pages of a desk, and gives how many pages, cells and links there are."""
    file = os.path.join(folder, f"{seed}.db")
    made_of(program, file, seed, count)
    server, rng, titles = Server(program, file), random.Random(seed), {}
    pages = cells = 0
    links = set()
    for path in lists_of(server, rng):
        status, _, said = server.get(f"{path}/csv")
        if status != 200:
            links |= read_refusal(server, path, status, said)
            pages += 1
            continue
        document, some = compare_list(server, path, titles)
        pages, cells, links = pages + 1, cells + some, links | links_of(document)
    for name in accounts_of(server):
        for path in explained(server, rng, name):
            document, some = compare_explanation(server, path)
            pages, cells, links = pages + 1, cells + some, links | links_of(document)
    # the longest name of letters, which no random account has
    path = f"/lists/accounts/{'z' * 20}/years"
    links |= read_refusal(server, path, *server.get(f"{path}/csv")[::2])
    more = set()
    for link in sorted(links):
        status, _, page = server.get(link)
        assert status == 200, (seed, link, status)
        document, _ = read_page(page, link)
        more |= links_of(document) if re.fullmatch("/accounts/[^/]+/html", link) else set()
    # those of the page of an account; today's quarter may be refused, and is a page then too
    for link in sorted(more - links):
        status, _, page = server.get(link)
        assert status == 200 or status == 409 and TODAY in link, (seed, link, status)
        read_page(page, link)
    links |= more
    server.close()
    os.remove(file)
    return pages, cells, len(links)


def main():
    program = program_of(sys.argv[1:2])
    desks, count = [*map(int, sys.argv[2:]), *[300, 60][len(sys.argv[2:]):]]
    with tempfile.TemporaryDirectory() as folder:
        sums = [sum(it) for it in zip(*(compare(program, folder, seed, count) for seed in range(1, desks + 1)))]
    print(f"{desks} desks: {sums[0]} pages, {sums[1]} cells, {sums[2]} links, 0 differences")


if __name__ == "__main__":
    main()
