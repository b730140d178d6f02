#!/usr/bin/env python3
"""Writes the description of the routes of `ftd serve`, docs/openapi.json (OpenAPI 3.1), or compares it with what is there.

    bench/openapi.py            writes docs/openapi.json
    bench/openapi.py --check    ends with status 1 if docs/openapi.json is another description than the code's tables give

Paths, methods, fields and formats are those of the rows of the verbs, members of answers those of the rows of lists, refusals those of the code and of
docs/REQUESTS.md; `code_tables.py` reads them all. By hand stand here: how a value of each kind is spelled, which rows a list has, and the routes that no verb
has. Each object of an answer has exactly the members that are named; of a request the members that are not named are ignored.
`described.py` compares the description with what a server answers.
"""

import json
import os
import re
import sys

import code_tables
from code_tables import TOP, arms, constant, expect, key, kind, source, verbs

PATH = "docs/openapi.json"
# The row of docs/REQUESTS.md that has the checks of a verb.
CHECKS = {
    "Enrol": "Enter: Account { name, account }",
    "Calendar": "Enter: Calendar { year, days }",
    "AddHoliday": "Enter: Holiday { day }",
    "Report": "Enter: Total { account, period: Quarter, cents }",
    "ReportYear": "Enter: Total { account, period: Year, cents }",
    "OpenYear": "Enter: Year { account, year }",
    "Post": "Post { account, number, run }",
    "Void": "Void { account, number }",
    "Pay": "Pay { account, number, payment }",
    "VoidPay": "VoidPay { account, number }",
    "CorrectReport": "Correct: Total { account, period: Quarter, cents }",
    "CorrectReportYear": "Correct: Total { account, period: Year, cents }",
    "ChangeHoliday": "Correct: Holiday { day, is_holiday }",
    "CorrectAccount": "Correct: Account { account, beginning }",
    "Status": "Question: Status { account, day }",
    "Explain": "Question: Explain { account, day }",
    "DueList": "Question: DueList { account, quarter, as_of }",
    "ScheduleB": "Question: ScheduleB { account, quarter }",
    "Agenda": "Question: Agenda { from, to, as_of }",
    "Owed": "Question: Owed { until, as_of }",
    "Unapplied": "Question: Unapplied { until }",
    "Accounts": "Question: Kept: Accounts",
    "Years": "Question: Kept: Years { account }, Reported { account }",
    "Reported": "Question: Kept: Years { account }, Reported { account }",
    "Holidays": "Question: Kept: Holidays { year }",
    "Runs": "Question: Kept: Runs { account, quarter }, Payments { account, quarter }",
    "Payments": "Question: Kept: Runs { account, quarter }, Payments { account, quarter }",
}
# The list that a verb is answered: its name and that of its rows, the code's rows, and the function that writes the sums behind them.
LISTS = {
    "DueList": ("DueList", "Deposit", "due_rows", "DueRow", "write_due_json"),
    "ScheduleB": ("ScheduleB", "DayLiability", "due_rows", "DaySum", "write_b_json"),
    "Agenda": ("Agenda", "AgendaDeposit", "due_rows", "AgendaRow", "write_agenda_json"),
    "Owed": ("Agenda", "AgendaDeposit", "due_rows", "AgendaRow", "write_agenda_json"),
    "Unapplied": ("UnappliedList", "UnappliedMoney", "unapplied", "UnappliedRow", None),
    "Accounts": ("AccountList", "Account", "kept_rows", "KeptAccount", None),
    "Years": ("OpenYearList", "OpenYear", "kept_rows", "KeptYear", None),
    "Reported": ("ReportedList", "ReportedTotal", "kept_rows", "KeptTotal", None),
    "Holidays": ("HolidayList", "Holiday", "kept_rows", "KeptHoliday", None),
    "Runs": ("PayRunList", "PayRun", "kept_rows", "KeptRun", None),
    "Payments": ("PaymentList", "Payment", "kept_rows", "KeptPayment", None),
}
TAGS = {
    "Post": ("Enter", "What is entered. The same message once more is answered `already`."),
    "Put": ("Correct", "What was typed in wrongly, corrected under a number: 1 for the first correction, 2 for the next."),
    "Delete": ("Void", "Pay runs and payments that are made void."),
    "Get": ("Ask", "Questions. They change nothing."),
    "Browser": ("Browser", "Pages and forms, for a browser."),
    "Desk": ("Desk", "Commands, as a shell takes them, and the journal of the desk."),
}
ABOUT = (
    "What an employer enters, and what withheld federal tax must be deposited by which day, as `ftd serve` answers it on 127.0.0.1. docs/HTTP.md says the same "
    "in words, with an example of each route. The fields of a request's head are not read, but Host, Origin, Sec-Fetch-Site, Transfer-Encoding, "
    "Content-Length and Connection: a body is taken for what the route takes, whatever its Content-Type says. A target that has no path here is answered 404, "
    "and a method that its path has not 405, with the others in the field Allow; neither has a body. "
    "If the desk's file was moved, replaced or cut short, each answer is a 500 without a body."
)


def ref(name, part="schemas"):
    return {"$ref": f"#/components/{part}/{name}"}


def text(pattern=None, **more):
    return {"type": "string", **({"pattern": pattern} if pattern else {}), **more}


def choice(values):
    return {"type": "string", "enum": list(values)}


def fixed(value):
    return {"type": "string" if isinstance(value, str) else "integer", "const": value}


def or_null(schema):
    return {"oneOf": [schema, {"type": "null"}]}


def one_of(schemas):
    return schemas[0] if len(schemas) == 1 else {"oneOf": schemas}


def closed(members):
    """An object that has these members, each of them, and no other."""
    return {"type": "object", "required": list(members), "additionalProperties": False, "properties": members}


def value_schemas():
    """How the values are spelled that requests and answers have."""
    limits = source("ftd_days", "limits")
    first, last = constant(limits, "FIRST_CALENDAR_YEAR"), constant(limits, "LAST_CALENDAR_YEAR")
    expect(first % 100 == 0 and last % 100 == 99, limits, "the calendar does not have whole centuries")
    year = f"({'|'.join(str(it) for it in range(first // 100, last // 100 + 1))})[0-9]{{2}}"
    years = {"minimum": constant(source("ftd_machine", "limits"), "FIRST_REPORTED_YEAR"), "maximum": constant(limits, "LAST_YEAR")}
    named = lambda file, name: choice(arms(source("ftd_answers", file), name).values())
    return {
        "AccountName": text("^[a-z][a-z0-9-]{0,19}$", description="A lower-case letter, then lower-case letters, digits and hyphens.", examples=["elm"]),
        "Day": text(f"^{year}-[0-9]{{2}}-[0-9]{{2}}$", format="date", examples=["2024-05-27"]),
        "Quarter": text(f"^{year}Q[1-4]$", examples=["2024Q1"]),
        "Year": {"type": "integer", **years},
        "Amount": text(r"^[0-9]{1,9}(\.[0-9]{1,2})?$", description="Dollars, as they are entered.", examples=["1234.50"]),
        "Dollars": text(r"^(0|[1-9][0-9]*)\.[0-9]{2}$", description="Dollars, as they are answered.", examples=["1234.50"]),
        "EntryNumber": {"type": "integer", "minimum": 1, "maximum": constant(source("ftd_machine", "limits"), "MOST_NUMBER")},
        "Form": named("agendas", "form_bytes") | {"description": "The form that the employer files."},
        "Schedule": named("lines", "kind_bytes") | {"description": "A deposit schedule."},
        "Rule": named("values", "rule_name") | {"description": "The rule of a deposit."},
        "Verdict": named("values", "verdict_name") | {"description": "How a deposit stands."},
        "DayKind": named("explanations", "day_kind_name"),
    }


def checks_of(verb):
    """What docs/REQUESTS.md says of a verb, by its name."""
    expect(verb in CHECKS, "CHECKS", f"no row for {verb}")
    expect(CHECKS[verb] in code_tables.requests(), "docs/REQUESTS.md", f"no row {CHECKS[verb]}")
    return code_tables.requests()[CHECKS[verb]]


# ---- what is asked


def field_schema(verb, field):
    """The values of a field of a path or of a body of a verb."""
    named = {"Account": "AccountName", "Quarter": "Quarter", "Amount": "Amount", "Form": "Form"}
    named |= {it: "EntryNumber" for it in ("Number", "NewNumber", "NumberOrNext")} | {it: "Day" for it in ("Day", "DayOrOther", "DayOrToday")}
    its = kind(field)
    if its == "Year":
        years = checks_of(verb).years
        expect(years, "docs/REQUESTS.md", f"the years of {verb} are not said")
        return {"type": "integer", "minimum": years[0], "maximum": years[1]}
    if its == "Days":
        most = constant(source("ftd_days", "limits"), "MOST_HOLIDAYS")
        return {"type": "array", "items": ref("Day"), "maxItems": most, "description": "They rise, and lie in the year."}
    if its in ("Mark", "Answer"):
        return {"type": "boolean"}
    return ref(named[its])


def may_be_left_out(field):
    """Whether a body may lack the member: a box that is not marked, and the form."""
    return kind(field) in ("Mark", "Form")


def described(field, schema):
    left_out = {"Mark": {"default": False}, "Form": {"default": "941"}}
    return {**schema, "description": code_tables.said_of_fields()[field], **left_out.get(kind(field), {})}


def body_of(verb):
    """The body that a message of the verb has to have, if it has one."""
    members = {key(it): described(it, field_schema(verb.name, it)) for it in verb.body_fields()}
    required = [key(it) for it in verb.body_fields() if not may_be_left_out(it)]
    return {"type": "object", "required": required, "properties": members}


def control_schema(verb, field):
    """What a form sends for a field."""
    spelled = {"Mark": choice(["", "yes"]), "Answer": choice(["yes", "no"]), "Days": text(description="Days, with blanks or line ends between them.")}
    schema = spelled.get(kind(field), field_schema(verb, field))
    return schema if kind(field) != "NumberOrNext" else {"anyOf": [schema, choice([""])], "description": "The next number if it is empty."}


def form_of(verb):
    """What a form of the verb sends."""
    members = {key(it): control_schema(verb.name, it) for it in verb.fields}
    required = [key(it) for it in verb.fields if kind(it) not in ("Mark", "Form", "NumberOrNext", "Days")]
    return {"type": "object", "required": required, "additionalProperties": False, "properties": members}


def parameter(verb, field):
    """A field of the path of a verb."""
    said = code_tables.said_of_fields()[field]
    return {"name": key(field), "in": "path", "required": True, "description": said, "schema": field_schema(verb, field)}


def parameters(fields, verb=None):
    """The fields of a path: a year has the limits of its verb, and each other field is the same wherever it is."""
    its = [parameter(verb, it) if kind(it) == "Year" else ref(it, "parameters") for it in fields]
    return {"parameters": its} if its else {}


def shared_parameters():
    given = {it for verb in verbs() for it in verb.path_fields()} | {"Account", "Day", "Amount"}
    return {it: parameter(None, it) for it in code_tables.said_of_fields() if it in given and kind(it) != "Year"}


# ---- what is answered


def value_schema(name, value):
    """A value of a member of an answer."""
    if value == "Text":
        return {"account": ref("AccountName"), "is": ref("DayKind")}[name]
    if value in ("Number", "NumberOrNone"):
        number = {"year": ref("Year"), "run": ref("EntryNumber"), "payment": ref("EntryNumber")}[name]
        return number if value == "Number" else or_null(number)
    if value == "DayOrNone":
        return or_null(ref("Day"))
    plain = {"Flag": {"type": "boolean"}, "Count": {"type": "integer", "minimum": 0}}
    named = {"Amount": "Dollars", "Sum": "Dollars", "Kind": "Schedule"} | {it: it for it in ("Day", "Quarter", "Form", "Rule", "Verdict")}
    return plain[value] if value in plain else ref(named[value])


def row_schema(forms):
    return one_of([closed({name: value_schema(name, value) for _, name, value in form}) for form in forms])


def list_schemas():
    """The lists and their rows."""
    found = {}
    for name, row, file, rows, sums in LISTS.values():
        found[row] = row_schema(code_tables.list_rows("ftd_answers", file)[rows])
        totals = code_tables.members("ftd_answers", file, sums) if sums else []
        found[name] = closed({"rows": {"type": "array", "items": ref(row)}} | {it: value_schema(it, value) for it, value in totals})
    return found


def by_reason(plain, turned):
    """A deposit schedule with its reason: where that is that 100,000.00 was reached, the day has another form."""
    reasons = arms(source("ftd_answers", "explanations"), "reason_name")
    others = choice(it for name, it in reasons.items() if name != "Turned")
    schema = lambda members, reason: closed({it: reason if it == "reason" else value_schema(it, value) for it, value in members})
    return one_of([schema(plain, others), schema(turned, fixed(reasons["Turned"]))])


def explanation_schemas():
    """The deposit schedule of a day, and why an obligation is so."""
    members = lambda file, name: code_tables.members("ftd_answers", file, name)
    rows = code_tables.list_rows("ftd_answers", "explanation_objects")
    obligation = {it: value_schema(it, value) for it, value in members("explanation_objects", "obligation_members")}
    status = members("explanation_objects", "status_members")
    told = by_reason(status, [(it, value.removesuffix("OrNone")) for it, value in status])
    told["oneOf"][0]["properties"]["turn"] = {"type": "null"}
    asked = {"account": ref("AccountName"), "day": ref("Day")}
    lists = {"paydays": row_schema(rows["RunningSum"]), "days": row_schema(rows["CountedDay"])}
    lists = {it: {"type": "array", "items": schema} for it, schema in lists.items()}
    found = {"obligation": closed(obligation), "status": told, **lists, "return_due": ref("Day"), "payments": {"type": "array", "items": ref("Payment")}}
    return {
        "DaySchedule": by_reason(members("schedules", "schedule_members"), members("schedules", "turn_members")),
        "Explanation": one_of([closed(asked | found), closed(asked | {"obligation": {"type": "null"}})]),
    }


def reply_schemas():
    """The answers to what is entered, corrected or voided."""
    posted = code_tables.members("ftd_server", "respond", "posted")
    return {
        "Done": closed({"reply": fixed("done")}),
        "Already": closed({"reply": fixed("already")}),
        "Posted": closed({it: fixed("posted") if it == "reply" else value_schema(it, value) for it, value in posted})
        | {"description": "How many obligations were removed and added, and their first and last day."},
        "Printed": closed({"err": text(), "out": text(), "status": {"type": "integer", "minimum": 0, "maximum": 3}})
        | {"description": "What commands print to standard error and to standard output, and the greatest of their exit statuses."},
    }


def refusal_schema(number, name, subject):
    """A refusal, with what it names."""
    detail = {"Nothing": {}, "Year": {"detail": text("^[0-9]{4}$")}, "Quarter": {"detail": ref("Quarter")}}
    named = detail.get(subject, {"count": {"type": "integer", "minimum": 0}})
    return closed(named | {"name": fixed(name), "refused": fixed(number)})


def refusal(numbers):
    """One of the refusals of these numbers."""
    names = [code_tables.refusals()[it][0] for it in numbers]
    several = {"discriminator": {"propertyName": "name"}} if len(names) > 1 else {}
    return one_of([ref(it) for it in names]) | several


def schemas():
    refused = {name: refusal_schema(number, name, subject) for number, (name, subject) in code_tables.refusals().items()}
    return {**value_schemas(), **reply_schemas(), **explanation_schemas(), **list_schemas(), **refused}


# ---- the routes


def media(content):
    """The type of an answer's body, as the code names it."""
    line = arms(source("ftd_connections", "response"), "content_line")[content]
    return re.fullmatch(r"Content-Type: ([^\\]+)\\r\\n", line)[1]


def answer(description, schema=None, content="Json"):
    return {"description": description} | ({"content": {media(content): {"schema": schema}}} if schema else {})


PAGE = text("^<!DOCTYPE html>\n")
REFUSED = "The desk refuses it, and nothing changes."


def shared_answers():
    """The answers that many routes have."""
    return {
        "BadRequest": answer("A part of the path or the body is not of its form, or the head is none of HTTP or too long. There is no body."),
        "Forbidden": answer("A page of another site seems to have sent it. There is no body."),
        "LengthRequired": answer("It has no Content-Length. There is no body."),
        "ContentTooLarge": answer("The body has more than 1,048,576 bytes. There is no body."),
        "NotImplemented": answer("It has a Transfer-Encoding. There is no body."),
        "Failed": answer("Memory or the store failed.", refusal(code_tables.failures())),
        "FailedPage": answer("Memory or the store failed.", PAGE, "Page"),
        "FileMoved": answer("The desk's file was moved, replaced or cut short. There is no body."),
        "RefusedPage": answer(REFUSED, PAGE, "Page"),
        **{f"{it.name}Refused": answer(REFUSED, refusal(checks_of(it.name).numbers)) for it in verbs() if checks_of(it.name).numbers},
    }


def answers(own, failed, method):
    """The answers of a route: its own, and those that each has."""
    shared = {"400": "BadRequest", "403": "Forbidden", "413": "ContentTooLarge", "500": failed, "501": "NotImplemented"}
    shared |= {"411": "LengthRequired"} if method == "Post" else {}
    return dict(sorted(({status: ref(it, "responses") for status, it in shared.items()} | own).items()))


# A form shows what its target names, whether or not that is the name of an account.
FILLED_IN = {"name": "account", "in": "path", "required": True, "description": "What is filled in as the name of the account.", "schema": text("^[^/]+$")}


def operation(name, summary, tag, own, method, failed="Failed", **more):
    return {"operationId": name.replace("-", "_"), "tags": [TAGS[tag][0]], "summary": summary, **more, "responses": answers(own, failed, method)}


def formats(verb):
    """The formats in which the answer of a verb may be asked for: as help names them."""
    words = arms(source("ftd_cli", "help"), "formats_help")[verb.formats].rpartition(": ")[2]
    return re.split(", | or ", words)


def header_of(verb):
    """The first line of the CSV of a list."""
    _, _, file, rows, _ = LISTS[verb.name]
    form = code_tables.list_rows("ftd_answers", file)[rows][0]
    return ",".join(column for column, _, _ in form if column)


def told(verb, form):
    """The answer of a question in a format."""
    if form == "text":
        return answer("The answer as text.", text(), "Text")
    if form == "csv":
        return answer("A line for each row, below one that names the columns.", text(f"^{header_of(verb)}\n"), "Csv")
    if form == "ics":
        return answer("A calendar with an event for each deposit.", text("^BEGIN:VCALENDAR\r\n"), "Calendar")
    if form == "html":
        return answer("A page for a browser.", PAGE, "Page")
    return answer("The answer as JSON.", ref("Explanation" if verb.name == "Explain" else LISTS[verb.name][0]))


def summary_of(verb):
    return arms(source("ftd_cli", "help"), "verb_about")[verb.name]


def refused(verb, is_page=False):
    """The answer where the desk refuses what a verb asks: none where it refuses nothing."""
    return {"409": ref("RefusedPage" if is_page else f"{verb}Refused", "responses")} if checks_of(verb).numbers else {}


def question(verb, form):
    """The operation that asks a question in a format."""
    is_page, name = form == "html", verb.command if form == "text" else f"{verb.command}_{form}"
    own = {"200": told(verb, form)} | refused(verb.name, is_page)
    more = parameters(verb.path_fields(), verb.name)
    return operation(name, summary_of(verb), "Get", own, "Get", "FailedPage" if is_page else "Failed", **more)


def change(verb):
    """The operation that enters, corrects or voids something, or asks for what has one format."""
    checks = checks_of(verb.name)
    replies = {"Status": [ref("DaySchedule")], "Done": [ref("Done")], "Posted": [ref("Posted")]}[checks.reply]
    said = "The deposit schedule." if checks.reply == "Status" else "It is done, or was done before."
    own = {"200": answer(said, one_of(replies + [ref("Already")] * checks.already))} | refused(verb.name)
    more = parameters(verb.path_fields(), verb.name)
    if verb.method in ("Post", "Put"):
        more["requestBody"] = {"required": True, "content": {"application/json": {"schema": body_of(verb)}}}
    return operation(verb.command, summary_of(verb), verb.method, own, verb.method, **more)


def verb_routes(verb):
    """The paths of a verb, each with its operation."""
    names = formats(verb)
    if names == ["text"]:
        return [(verb.template(), verb.method, change(verb))]
    return [(verb.template() + (f"/{it}" if it != "text" else ""), "Get", question(verb, it)) for it in names]


def form_routes(verb):
    """The paths of the form of a verb."""
    target, shown = f"/forms/{verb.command}", {"200": answer("The form.", PAGE, "Page")}
    said = summary_of(verb)
    summary = f"The form to {said[0].lower()}{said[1:]}"
    sent = {"200": answer("What the command prints.", PAGE, "Page"), "409": answer("It was refused: the form, as it was filled in.", PAGE, "Page")}
    sent["400"] = answer("A field has no value of its kind, and the page says which; or a field is not the form's or comes twice, and there is no body.", PAGE, "Page")
    body = {"required": True, "content": {"application/x-www-form-urlencoded": {"schema": form_of(verb)}}}
    yield target, "Get", operation(f"form_{verb.command}", summary, "Browser", shown, "Get", "FailedPage")
    yield target, "Post", operation(f"send_{verb.command}", f"{said}, as its form sends it", "Browser", sent, "Post", "FailedPage", requestBody=body)
    if "Account" in verb.fields:
        more = {"parameters": [FILLED_IN]}
        yield f"{target}/{{account}}", "Get", operation(f"form_{verb.command}_of", f"{summary}, with an account filled in", "Browser", shown, "Get", "FailedPage", **more)


def browser_routes():
    """The other paths for a browser."""
    page, of_account = answer("The page.", PAGE, "Page"), parameters(["Account"])
    home = {"303": {"description": "The page of what is owed.", "headers": {"Location": {"required": True, "schema": text("^/owed/")}}}}
    home["500"] = answer("Today's date can't be read.", text(), "Text")
    yield "/", "Get", operation("home", "The address to begin with", "Browser", home, "Get")
    style = {"200": answer("The style sheet.", text(), "StyleSheet")}
    yield "/style.css", "Get", operation("style", "The style sheet of the pages", "Browser", style, "Get", "FileMoved")
    of_page = {"200": page} | refused("Years", True)
    yield "/accounts/{account}/html", "Get", operation("account_html", "The page of an account", "Browser", of_page, "Get", "FailedPage", **of_account)
    yield "/forms", "Get", operation("forms", "The page that lists forms", "Browser", {"200": page}, "Get", "FailedPage")
    filled = "The form of a payment for the deposit period of a day, with an amount"
    payable = {"parameters": [FILLED_IN, *parameters(["Day", "Amount"])["parameters"]]}
    of_payment = {"200": page, "404": answer("The day is no day, or the amount no amount. There is no body.")}
    yield "/forms/pay/{account}/{day}/{amount}", "Get", operation("form_pay_for", filled, "Browser", of_payment, "Get", "FailedPage", **payable)


def desk_routes():
    """The paths of commands and of the journal."""
    lines = {"required": True, "content": {media("Text"): {"schema": text(description="Commands, a line each.")}}}
    printed = {"200": answer("What the commands print.", ref("Printed"))}
    yield "/commands", "Post", operation("commands", "Answer commands, a line each", "Desk", printed, "Post", "FileMoved", requestBody=lines)
    journal = {"200": answer("The commands that make the same desk, a line each.", text(), "Text")}
    yield "/journal", "Get", operation("journal", "The commands that make the same desk", "Desk", journal, "Get")
    own = journal | refused("Years")
    yield "/journal/{account}", "Get", operation("journal_of", "The commands that make the same account", "Desk", own, "Get", **parameters(["Account"]))


def routes():
    for verb in verbs():
        yield from verb_routes(verb)
    yield from desk_routes()
    yield from browser_routes()
    for verb in verbs():
        if verb.method != "Get":
            yield from form_routes(verb)


def version():
    """The version of the program."""
    where = source("ftd_cli", "command")
    found = re.search(r'\.version\("([^"]+)"\)', code_tables.read(where))
    expect(found, where, "no version")
    return found[1]


def description():
    """The whole description."""
    paths = {}
    for target, method, its in routes():
        expect(method.lower() not in paths.setdefault(target, {}), target, "two operations of one method")
        paths[target][method.lower()] = its
    server = {"url": "http://127.0.0.1:{port}", "variables": {"port": {"default": "8080", "description": "The port that `ftd serve --port` names."}}}
    return {
        "openapi": "3.1.0",
        "info": {"title": "ftd, the federal tax deposit desk", "version": version(), "description": ABOUT},
        "servers": [server],
        "tags": [{"name": name, "description": said} for name, said in TAGS.values()],
        "paths": paths,
        "components": {"schemas": schemas(), "parameters": shared_parameters(), "responses": shared_answers()},
    }


def main():
    if sys.argv[1:] not in ([], ["--check"]):
        sys.exit(__doc__.split("\n\n")[1])
    path, made = os.path.join(TOP, PATH), json.dumps(description(), indent=1) + "\n"
    if not sys.argv[1:]:
        with open(path, "w", encoding="utf-8") as it:
            it.write(made)
    elif not os.path.exists(path) or code_tables.read(PATH) != made:
        sys.exit(f"{PATH} is not what bench/openapi.py makes of the code's tables: run it, and look at what changed")


if __name__ == "__main__":
    main()
