"""What the scripts beside it read of the code's tables: the verbs with their rows, the fields with their kinds, the rows of lists with the kinds of their
values, names of values, refusals, limits, and the checks of each request in docs/REQUESTS.md.

Each reader knows one form of its table and takes all of it. Where something else stands there, it ends and says where: nothing is left out in silence."""

import functools
import os
import re
import sys

TOP = os.path.dirname(os.path.dirname(os.path.abspath(__file__)))
# An arm of a match: its patterns, and a value that is a text, a name, or a text between braces.
PATTERN = r"(?:[\w:]+(?:\([\w:, ]*\))?)"
ARM = rf'\s*({PATTERN}(?:\s*\|\s*{PATTERN})*)\s*=>\s*(?:\{{\s*)?(\*?b?"(?:[^"\\]|\\.)*"|[\w:]+(?:\([\w, ]*\))?)(?:\s*\}})?,'
ROW = (
    r'const (\w+): Row = Row \{\n    command: "([a-z-]+)",\n    method: Method::(\w+),\n    path: &\[([^\]]*)\],\n'
    r"    fields: &\[([^\]]*)\],\n    formats: Formats::(\w+),\n\};\n"
)
# The value of a field of a row, and of a member of an object.
CELL = r"\((\w+)\[(\d+)\], Value::(\w+)\((.+?)\)\)[,;\]]"
MEMBER = r'\("(\w+)", Value::(\w+)\((.+?)\)\)[,;\]]'
NAME = r'(Both|Each|Json)\("(\w+)"(?:, "(\w+)")?\)'


def expect(is_so, where, what):
    """Ends where a table has another form."""
    if not is_so:
        sys.exit(f"{where}: {what}")


@functools.cache
def read(path):
    with open(os.path.join(TOP, path), encoding="utf-8") as text:
        return text.read()


def source(crate, file):
    return f"crates/{crate}/src/{file}.rt"


def items(text, pattern, where):
    """The items of a list, each of which has to match the pattern."""
    found = [it.strip() for it in re.split(r",(?![^()]*\))", text) if it.strip()]
    for it in found:
        expect(re.fullmatch(pattern, it), where, f"no item of its form: {it}")
    return [re.fullmatch(pattern, it) for it in found]


def function(path, name):
    """The text of a function."""
    found = re.findall(rf"(?ms)^( *)(?:pub(?:\(crate\))? )?fn {name}\b.*?^\1\}}\n", read(path))
    expect(len(found) == 1, path, f"{len(found)} functions {name}")
    return re.search(rf"(?ms)^( *)(?:pub(?:\(crate\))? )?fn {name}\b.*?^\1\}}\n", read(path))[0]


def arms(path, name):
    """The arms of the match that a function is: the value of each pattern, the type of which is left out."""
    text = function(path, name)
    body = re.search(r"(?ms)^( *)match \w+ \{\n(.*?)^\1\}", text)
    expect(body, path, f"{name} has no match")
    expect(re.fullmatch(rf"(?:{ARM})*\s*", body[2]), path, f"{name} has an arm of another form")
    found = {}
    for patterns, value in re.findall(ARM, body[2]):
        for pattern in re.split(r"\s*\|\s*", patterns):
            found[re.sub(r"\(.*\)$", "", pattern).split("::")[-1]] = value.lstrip("*b").strip('"') if '"' in value else value
    return found


def constant(path, name):
    """A number that the code names."""
    found = re.search(rf"const {name}: \w+ = ([\d_]+);", read(path))
    expect(found, path, f"no number {name}")
    return int(found[1].replace("_", ""))


class Verb:
    """A row of a verb: its path is a list of texts and of fields, as `("text", WORD)` and `("field", FIELD)`."""

    def __init__(self, name, command, method, path, fields, formats):
        self.name, self.command, self.method, self.path, self.fields, self.formats = name, command, method, path, fields, formats

    def path_fields(self):
        return [it for kind, it in self.path if kind == "field"]

    def body_fields(self):
        """The fields that are members of the body: those that the path does not give."""
        return [it for it in self.fields if key(it) not in map(key, self.path_fields())]

    def template(self):
        return "".join(f"/{it}" if kind == "text" else f"/{{{key(it)}}}" for kind, it in self.path)


def verb_of(name, found, where):
    path = [("text", it[1]) if it[1] else ("field", it[2]) for it in items(found[4], r'Text\("([a-z-]+)"\)|Of\((\w+)\)', where)]
    fields = [it[0] for it in items(found[5], r"\w+", where)]
    expect(set(it for kind, it in path if kind == "field") <= set(fields), where, f"{name} has a field in its path alone")
    return Verb(name, found[2], found[3], path, fields, found[6])


@functools.cache
def verbs():
    """The verbs, in the order of their list."""
    where = source("ftd_verbs", "rows")
    text = read(where)
    listed = re.search(r"pub const VERBS: \[Verb; (\d+)\] = \[(.*?)\];", text, re.DOTALL)
    names = [it[1] for it in items(listed[2], r"Verb::(\w+)", where)]
    rows = {it[1]: it for it in re.finditer(ROW, text)}
    consts = arms(where, "row")
    expect(len(rows) == text.count(": Row = Row {"), where, "a row has another form")
    expect(len(names) == int(listed[1]) and sorted(names) == sorted(consts), where, "the list of verbs is not that of their rows")
    expect(sorted(consts.values()) == sorted(rows), where, "a row is no verb's, or is missing")
    return [verb_of(name, rows[consts[name]], where) for name in names]


@functools.cache
def keys():
    return arms(source("ftd_verbs", "field"), "key")


@functools.cache
def kinds():
    return {field: kind.split("::")[-1] for field, kind in arms(source("ftd_verbs", "field"), "kind").items()}


def key(field):
    """The name of a field in a body and in a path."""
    return keys()[field]


def kind(field):
    return kinds()[field]


@functools.cache
def said_of_fields():
    """What the code says of each field, without what holds only where it is left out: over HTTP no field of a path is."""
    where = source("ftd_verbs", "field")
    listed = re.search(r"pub enum Field \{\n(.*?)\n\}", read(where), re.DOTALL)[1]
    expect(re.fullmatch(r"(?:\s*/// [^\n]+\n\s*\w+,\s*)+", listed), where, "a field has no line of its own that says what it is")
    said, last = {}, ""
    for text, name in re.findall(r"/// ([^\n]+)\n\s*(\w+),", listed):
        last = last if text.startswith("The same") else text.partition(";")[0].rstrip(".") + "."
        said[name] = last
    return said


def field_names(path):
    """The names of the fields of each kind of row: in CSV (None where it has no such column) and in JSON."""
    found = {}
    for name, count, listed in re.findall(r"static (\w+): \[FieldName; (\d+)\] = \[(.*?)\];", read(path), re.DOTALL):
        its = items(listed, NAME, path)
        expect(len(its) == int(count), path, f"{name} has not {count} names")
        found[name] = [(None if it[1] == "Json" else it[2], it[3] or it[2]) for it in its]
    return found


def list_rows(crate, file):
    """The rows of lists of a file of code, by their type: of each form that a row has its fields, as name in CSV, name in JSON and kind of the value."""
    path, found = source(crate, file), {}
    names = field_names(path)
    for row, text in re.findall(r"(?ms)^impl Row for (\w+) \{\n(.*?)^\}\n", read(path)):
        forms = {}
        cells = re.findall(CELL, text)
        expect(len(cells) == text.count("Value::"), path, f"{row} has a value of another form")
        for name, place, value, _ in cells:
            expect(int(place) == len(forms.setdefault(name, [])), path, f"{row} has its fields in another order")
            forms[name].append((*names[name][int(place)], value))
        expect(forms and all(len(its) == len(names[name]) for name, its in forms.items()), path, f"{row} has not all of its fields")
        found[row] = list(forms.values())
    return found


def members(crate, file, name):
    """The members of the object that a function gives or writes: the name and the kind of value of each."""
    path = source(crate, file)
    text = function(path, name)
    found = re.findall(MEMBER, text)
    expect(found and len(found) == text.count("Value::"), path, f"{name} has a member of another form")
    return [(member, value) for member, value, _ in found]


@functools.cache
def refusals():
    """The refusals by number: the name, and what kind of thing each names (Nothing, Year, Quarter or Number)."""
    path = source("ftd_machine", "replies")
    names, subjects = arms(path, "name"), re.findall(r"Refusal::(\w+)\(\w+\) => Subject::(\w+)\(", function(path, "subject"))
    numbers = {name: int(it) for name, it in arms(path, "number").items()}
    expect(sorted(names) == sorted(numbers) and all(names[it] == it for it in names), path, "a refusal has no number, or another name")
    expect(len(subjects) == function(path, "subject").count("Subject::") - 1, path, "a refusal names something in another form")
    return {number: (name, dict(subjects).get(name, "Nothing")) for name, number in sorted(numbers.items(), key=lambda it: it[1])}


def failures():
    """The numbers of the refusals that are failures."""
    path = source("ftd_machine", "replies")
    listed = re.search(r"matches!\(self, (.*?)\)\n", function(path, "is_failure"))
    names = [it[1] for it in items(listed[1].replace(" |", ","), r"Refusal::(\w+)", path)]
    return [number for number, (name, _) in refusals().items() if name in names]


class Checks:
    """What docs/REQUESTS.md says of a request: the numbers of its refusals, whether it may be answered `already`, its reply, and the first and the last
    year that it takes, where it says that."""

    def __init__(self, text, reply):
        years = re.search(r"(?:^|; )2 \((\d{4}) to (\d{4})\)", text)
        self.years = years and (int(years[1]), int(years[2]))
        self.already = "already" in text
        self.numbers = sorted({int(it) for it in re.findall(r"\b\d{1,2}\b", re.sub(r"\([^)]*\)", "", text))})
        self.reply = reply


@functools.cache
def requests():
    """The checks of each request, by the words of its row."""
    where = "docs/REQUESTS.md"
    table = re.search(r"\| Request \| Checks in order \| Reply \|\n\|---\|---\|---\|\n((?:\|.*\|\n)+)", read(where))
    expect(table, where, "no table of checks")
    rows = [line.strip("|").split("|") for line in table[1].splitlines()]
    expect(all(len(row) == 3 for row in rows), where, "a row of the checks has not three columns")
    found = {head.strip(): Checks(text.strip(), reply.strip()) for head, text, reply in rows}
    unknown = {it for checks in found.values() for it in checks.numbers} - set(refusals())
    expect(not unknown, where, f"no refusal has the number {unknown}")
    return found
