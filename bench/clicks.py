#!/usr/bin/env python3
"""The desk in a real browser without a window: gone through by clicks and typing alone, read, asked by foreign pages, kept waiting, and pictured.

    bench/clicks.py [PROGRAM [PART ..]]

It needs Debian's chromium, chromium-driver and python3-selenium. The parts are run in the order in which they are named, all in this one if none is:

- `walk`: each line of docs/TUTORIAL.md that enters or corrects something is done by a form, which is reached by clicks from the start page. The page
  that answers has to show what the tutorial has below the line. The lists that the tutorial asks for are opened as pages, and their tables compared
  with CSV, cell by cell. At the end all rows of the tables have to be those that the tutorial's commands make.
- `reading`: each kind of page, light and dark, at 390 and at 1,280 pixels: its title, captions, header cells and labels, the contrast of each text, the
  order of focus and its outline, and that it is not wider than the window. Then a payment is recorded by the keyboard alone.
- `foreign`: pages of other origins, of a file, and of a name that is bound again, send a form or show the desk in a frame. None may come through.
- `idle`: how long a page of what 300 employers owe takes with five idle connections in front of it, and with those that the browser keeps open.
- `pictures=FOLDER`: pictures of pages at both widths and in print are put into the folder, or into a new one, which is named.

It ends with status 1 and a sentence at the first difference; a line for each part tells what was done.
"""

import base64
import collections
import contextlib
import csv
import datetime
import http.client
import os
import re
import shutil
import socket
import statistics
import subprocess
import sys
import tempfile
import threading
import time
from unittest import mock

from selenium import webdriver
from selenium.common.exceptions import StaleElementReferenceException, WebDriverException
from selenium.webdriver.chrome.service import Service
from selenium.webdriver.common.action_chains import ActionChains
from selenium.webdriver.common.keys import Keys
from selenium.webdriver.support.ui import Select, WebDriverWait

from browser import FOREIGN, SECONDS, Pages, Relay, serve, wait_for
from office import TOP, free_port, program_of, tables
from pictures import lines_of_example

WIDTHS = (390, 1280)
LEAST_CONTRAST, LEAST_OUTLINE = 4.5, 3
ACCOUNTS = "/lists/accounts/html"


def open_browser(folder):
    """A browser without a window, which takes the foreign name for this computer. Its dates are typed month, day, year."""
    options = webdriver.ChromeOptions()
    options.binary_location = shutil.which("chromium") or sys.exit("needs chromium")
    for word in ("headless=new", "no-sandbox", "disable-gpu", "lang=en-US", "no-first-run", "hide-scrollbars", "disable-background-networking",
                 f"user-data-dir={folder}/browser", f"host-resolver-rules=MAP {FOREIGN} 127.0.0.1"):
        options.add_argument(f"--{word}")
    service = Service(shutil.which("chromedriver") or sys.exit("needs chromedriver"), env={**os.environ, "LANGUAGE": "en_US"})
    return webdriver.Chrome(service=service, options=options)


def is_gone(element):
    """Whether the page of the element is shown no more. Where it is left just then, the driver says so in other words."""
    try:
        element.is_enabled()
        return False
    except StaleElementReferenceException:
        return True
    except WebDriverException as fault:
        if "does not belong to the document" in str(fault):
            return True
        raise


class Desk:
    """A desk in a file of its own, which is served, and a browser."""

    def __init__(self, program, folder, lines=()):
        self.program, self.file, self.counts = program, os.path.join(folder, "office.db"), collections.Counter()
        if lines:
            script = "\n".join(lines) + "\n"
            done = subprocess.run([program, "shell", "--db", self.file, "--stop"], input=script, text=True, capture_output=True)
            if done.returncode:
                sys.exit(f"the desk can't be made: {done.stderr}")
            self.made = tables(self.file)
        self.server, self.port = serve(self.file)
        self.top = f"http://127.0.0.1:{self.port}"
        self.browser = open_browser(folder)

    def stop(self):
        self.server.kill()
        self.server.wait()

    def close(self):
        self.browser.quit()
        self.stop()

    def command(self, *words):
        """What a command prints that is asked of the server: the answer, and hints."""
        done = subprocess.run([self.program, words[0], "--at", str(self.port), *words[1:]], text=True, capture_output=True, timeout=SECONDS)
        return done.stdout, done.stderr

    def csv(self, *words):
        return list(csv.DictReader(self.command(*words, "--format", "csv")[0].splitlines()))

    def run(self, script, *words):
        return self.browser.execute_script(script, *words)

    def go(self, path, status=200):
        self.browser.get(self.top + path)
        self.must_be(status)

    def must_be(self, *statuses):
        found = self.run("return performance.getEntriesByType('navigation')[0].responseStatus")
        if found not in statuses:
            sys.exit(f"{self.place()} is answered {found} in place of {' or '.join(map(str, statuses))}")

    def place(self):
        return self.browser.current_url.removeprefix(self.top)

    def all(self, selector):
        return self.browser.find_elements("css selector", selector)

    def find(self, selector):
        found = self.all(selector)
        return found[0] if found else sys.exit(f"{self.place()} has no {selector}")

    def leave(self, act):
        """Does what leads to another page, and waits until that is there."""
        page = self.find("html")
        act()
        wait = WebDriverWait(self.browser, SECONDS)
        wait.until(lambda _: is_gone(page))
        wait.until(lambda it: it.execute_script("return document.readyState") == "complete")

    def click(self, element):
        self.counts["clicks"] += 1
        element.click()

    def follow(self, *addresses):
        """Clicks links one after the other, each on the page to which the one before leads."""
        for address in addresses:
            link = self.find(f'a[href="{address}"]')
            self.leave(lambda: self.click(link))
            self.must_be(200)

    def keys(self, *keys):
        ActionChains(self.browser).send_keys(*keys).perform()

    def open_form(self, verb, account):
        """Goes to a form by clicks from the start page."""
        self.go("/")
        if account:
            self.follow(ACCOUNTS, f"/accounts/{account}/html", f"/forms/{verb}/{account}")
        else:
            self.follow("/forms", f"/forms/{verb}")

    def filled_in(self, name):
        return self.find(f"[name={name}]").get_property("value")

    def type_in(self, name, text):
        """Clicks the label of a field, and types."""
        control = self.find(f"[name={name}]")
        self.click(self.find(f"label[for={name}]"))
        self.counts["fields typed"] += 1
        if control.tag_name == "select":
            Select(control).select_by_value(text)
        elif control.get_property("type") == "date":
            self.keys(text[5:7], text[8:10], text[:4])
        else:
            ActionChains(self.browser).key_down(Keys.CONTROL).send_keys("a").key_up(Keys.CONTROL).send_keys(Keys.DELETE, text).perform()

    def fill_in(self, fields):
        """Types what is not filled in already."""
        for name, text in fields.items():
            if self.filled_in(name) == text:
                self.counts["fields filled in"] += 1
            else:
                self.type_in(name, text)
                if self.filled_in(name) != text:
                    sys.exit(f"{self.place()}: {name} has {self.filled_in(name)!r} where {text!r} was typed")

    def send(self):
        """Presses the button, and gives what the next page shows as printed."""
        self.counts["forms"] += 1
        self.leave(lambda: self.click(self.find("main form button")))
        self.must_be(200, 400, 409)
        return self.printed()

    def printed(self):
        return "".join(it.get_property("textContent") for it in self.all("pre")).replace(self.file, "office.db")

    def tables(self):
        """The rows of all tables by the names of their columns, and the sums below them."""
        return self.run("""return [...document.querySelectorAll('table')].map(table => {
            const names = [...table.tHead.rows[0].cells].map(it => it.className), text = it => it.textContent;
            return {rows: [...table.tBodies[0].rows].map(row => Object.fromEntries([...row.cells].map((it, at) => [names[at], text(it)]))),
                    sums: table.tFoot ? [...table.tFoot.querySelectorAll('td[class]')].map(text) : []}})""")


# The tutorial.

FIELDS = {
    "enrol": "account start", "open-year": "account year", "post": "account run payday fit ss medicare", "void": "account run",
    "pay": "account payment paid for amount", "void-pay": "account payment", "report": "account quarter amount",
    "report-year": "account year amount", "add-holiday": "day",
}
# The address of each question, by its words and by the days in the first line of its answer.
ADDRESSES = {
    "due": lambda words, days: f"/accounts/{words[0]}/due/{words[1]}/{words[2]}/html",
    "schedule-b": lambda words, days: f"/accounts/{words[0]}/schedule-b/{words[1]}/html",
    "owed": lambda words, days: f"/owed/{days[1]}/{days[0]}/html",
    "agenda": lambda words, days: f"/agenda/{days[0]}/{days[1]}/{days[2]}/html",
    "unapplied": lambda words, days: f"/unapplied/{days[0]}/html",
    "status": None,
}


def steps_of_tutorial():
    """The lines of the tutorial that are typed, each with what is below it."""
    with open(os.path.join(TOP, "docs", "TUTORIAL.md"), encoding="utf-8") as text:
        blocks = re.findall(r"```console\n(.*?)```", text.read(), re.DOTALL)
    return [step.partition("\n")[::2] for block in blocks for step in re.split(r"^\$ ", block, flags=re.MULTILINE)[1:]]


def commands_in(line):
    """The commands of a line, as the shell reads it: the verb and the words of each, without the file."""
    said = subprocess.run(["sh", "-c", f"ftd() {{ echo \"$@\"; }}; {line}"], cwd=TOP, text=True, capture_output=True, check=True).stdout
    return [command.replace(" --db office.db", "").split() for command in said.splitlines()]


def fields_of(verb, words):
    """What is typed into the form of a command."""
    if verb == "calendar":
        return {"year": words[0], "days": "\n".join(words[1:])}
    if verb not in FIELDS:
        sys.exit(f"the tutorial has {verb}, whose fields are not known here")
    fields = dict(zip(FIELDS[verb].split(), words))
    return fields | ({"form": words[words.index("--form") + 1]} if "--form" in words else {})


class Walk:
    """The tutorial, gone through in a browser. The file that it imports is kept as a text."""

    def __init__(self, desk):
        self.desk, self.payroll = desk, ""

    def step(self, line, printed):
        if line.startswith("cat "):
            self.payroll = printed
        elif line.startswith("sed "):
            self.payroll = self.payroll.replace(*line.split("/")[1:3])
        elif "ftd " in line:
            told = "".join(self.done(verb, words, printed) for verb, *words in commands_in(line))
            if told != printed:
                sys.exit(f"{line}: the pages tell\n{told}and the tutorial has\n{printed}")

    def done(self, verb, words, printed):
        """What is told where a command is done in the browser."""
        if verb in ADDRESSES:
            return self.ask(verb, words, printed)
        if verb == "settle":
            return self.settle(*words, printed.split("\n")[0])
        if verb == "import":
            return self.post_all() + printed.partition("\n")[2]
        if verb == "open-years":
            return self.open_years(words[0])
        fields = fields_of(verb, words)
        self.desk.open_form(verb, verb != "enrol" and fields.get("account"))
        self.desk.fill_in(fields)
        return self.desk.send()

    def settle(self, account, due, paid, line):
        """Clicks what is left of the deposit in the due list; only the day on which it is paid is typed."""
        wanted = fields_of("pay", line.split()[1:])
        self.desk.go(f"/accounts/{account}/due/{due[:4]}Q{(int(wanted['for'][5:7]) + 2) // 3}/{paid}/html")
        place = [row["due"] for row in self.desk.tables()[0]["rows"]].index(due) + 1
        link = self.desk.find(f"tbody tr:nth-child({place}) td.left a")
        self.desk.leave(lambda: self.desk.click(link))
        filled = {name: self.desk.filled_in(name) for name in wanted if name != "paid"}
        if wanted != filled | {"paid": paid}:
            sys.exit(f"the form of the payment has {filled} where the tutorial has {wanted}")
        self.desk.fill_in(wanted)
        return f"{line}\n{self.desk.send()}"

    def post_all(self):
        """Posts the runs of the file one by one, and gives the line that an import prints of them."""
        words = [self.post(row.pop("employer"), row) for row in csv.DictReader(self.payroll.splitlines())]
        return " ".join(f"{word} {words.count(word)}" for word in ("posted", "already", "refused", "malformed")) + "\n"

    def post(self, account, fields):
        """How a run is answered. One on a day that no calendar has is not sent by the browser."""
        self.desk.open_form("post", account)
        self.desk.fill_in({name: text for name, text in fields.items() if name != "payday"})
        self.desk.type_in("payday", fields["payday"])
        if self.desk.filled_in("payday") == fields["payday"]:
            return self.desk.send().split()[0]
        self.desk.click(self.desk.find("main form button"))
        if self.desk.place() != f"/forms/post/{account}":
            sys.exit(f"the browser has sent a form with {fields}")
        return "malformed"

    def open_years(self, year):
        """Opens the year of each account, and gives the lines that the command prints."""
        told = {row["employer"]: self.done("open-year", [row["employer"], year], "").strip() for row in self.desk.csv("accounts")}
        words = list(told.values())
        lines = "".join(f"{name} {word}\n" for name, word in told.items())
        return f"{lines}opened {words.count('done')} already {words.count('already')} refused {len(words) - words.count('done') - words.count('already')}\n"

    def ask(self, verb, words, printed):
        """What the desk tells; the page of a list is compared with its CSV."""
        head, *lines = printed.splitlines() or [""]
        address = ADDRESSES[verb] and ADDRESSES[verb](words, re.findall(r"\d{4}-\d\d-\d\d", head))
        if address and head.startswith("refused"):
            self.desk.go(address, 409)
        elif address:
            self.desk.go(address)
            self.compare(address, self.desk.csv(verb, *words), [line.split()[-1] for line in lines if line.startswith("TOTAL")])
        return "".join(self.desk.command(verb, *words)).replace(self.desk.file, "office.db")

    def compare(self, address, wanted, total):
        found = self.desk.tables()
        if [it["rows"] for it in found] != ([wanted] if wanted else []):
            sys.exit(f"{address} shows {found} in place of {wanted}")
        if wanted and not set(total) <= set(found[0]["sums"]):
            sys.exit(f"{address} has the sums {found[0]['sums']} in place of {total}")
        self.desk.counts.update({"lists": 1, "cells": sum(map(len, wanted))})


def made_by_commands(program, folder):
    """The rows of a desk that the tutorial's own commands make."""
    os.symlink(program, os.path.join(folder, "ftd"))
    os.symlink(os.path.join(TOP, "examples"), os.path.join(folder, "examples"))
    for line, printed in steps_of_tutorial():
        if line.startswith("cat "):
            with open(os.path.join(folder, line.split()[1]), "w", encoding="utf-8") as file:
                file.write(printed)
        else:
            subprocess.run(["sh", "-c", line], cwd=folder, env={**os.environ, "PATH": f"{folder}:{os.environ['PATH']}"}, capture_output=True)
    return tables(os.path.join(folder, "office.db"))


def walk(program, folder, _):
    with contextlib.closing(Desk(program, folder)) as desk, tempfile.TemporaryDirectory() as beside:
        walking = Walk(desk)
        for line, printed in steps_of_tutorial():
            walking.step(line, printed)
        desk.stop()
        if tables(desk.file) != made_by_commands(program, beside):
            sys.exit("the tables are not those that the commands of the tutorial make")
        said = ", ".join(f"{desk.counts[what]} {what}" for what in ("forms", "fields typed", "fields filled in", "clicks", "lists", "cells"))
        return f"{said}; the tables are those of the commands"


# The pages of the first example of examples/office.txt, read.

STRUCTURE = """
const faults = [], count = it => document.querySelectorAll(it).length, here = it => it.outerHTML.slice(0, 150), has_text = it => it && it.textContent.trim();
const expect = (right, words, it) => right || faults.push(words + ': ' + here(it));
expect(document.documentElement.lang === 'en', 'the page has no language', document.documentElement);
expect(count('h1') ? count('h1') === 1 : count('caption') === 1, 'not one heading', document.body);
for (const it of document.querySelectorAll('table')) expect(has_text(it.caption) && it.querySelector('thead th'), 'no caption or no header cells', it);
for (const it of document.querySelectorAll('th')) expect(['col', 'row'].includes(it.scope), 'no scope', it);
for (const it of document.querySelectorAll('input, select, textarea')) {
  expect(it.id && has_text(document.querySelector(`label[for="${it.id}"]`)), 'no label', it);
  expect((it.getAttribute('aria-describedby') || '').split(' ').every(id => id && has_text(document.getElementById(id))), 'no help', it);
}
return faults;
"""
# The contrast of two colors, as WCAG 2 defines it, and the first background of an element that is opaque.
COLORS = """
const parts = text => { const found = text.match(/[\\d.]+/g).map(Number); return found.length < 4 ? [...found, 1] : found; };
const linear = it => it / 255 <= 0.04045 ? it / 255 / 12.92 : ((it / 255 + 0.055) / 1.055) ** 2.4;
const luminance = ([red, green, blue]) => 0.2126 * linear(red) + 0.7152 * linear(green) + 0.0722 * linear(blue);
const contrast = (one, other) => { const [dark, light] = [luminance(one), luminance(other)].sort((a, b) => a - b); return (light + 0.05) / (dark + 0.05); };
const color = it => parts(getComputedStyle(it).backgroundColor);
const ground = it => !it ? [255, 255, 255, 1] : color(it)[3] === 1 ? color(it) : ground(it.parentElement);
"""
# The least contrast of a text, also of one that the style sheet adds, and the text.
CONTRAST = COLORS + """
const seen = [];
const look = (it, pseudo, text) => it.getClientRects().length
  && seen.push([contrast(parts(getComputedStyle(it, pseudo).color), ground(it)), `${text.trim().slice(0, 40)} in ${it.tagName}.${it.className}`]);
for (const it of document.body.querySelectorAll('*')) {
  for (const node of it.childNodes) if (node.nodeType === Node.TEXT_NODE && node.data.trim()) look(it, null, node.data);
  for (const pseudo of ['::before', '::after'])
    if (!['none', 'normal'].includes(getComputedStyle(it, pseudo).content)) look(it, pseudo, getComputedStyle(it, pseudo).content);
  if (it.matches('input, select, textarea')) look(it, null, it.value);
}
return seen.sort((a, b) => a[0] - b[0])[0];
"""
# By how many pixels the page is wider than the window, and by how many what scrolls by itself is wider than its room.
OVERFLOW = """
const wider = it => it.scrollWidth - it.clientWidth, scrolls = it => ['auto', 'scroll'].includes(getComputedStyle(it).overflowX);
return [wider(document.documentElement), Math.max(0, ...[...document.body.querySelectorAll('*')].filter(scrolls).map(wider))];
"""
CONTROLS = """
window.controls = [...document.querySelectorAll('a[href], button, input, select, textarea')].filter(it => it.getClientRects().length);
return window.controls.length;
"""
# Which control has the focus, -1 if nothing, -2 if what scrolls by itself, and the contrast of its outline, 0 if there is no outline.
FOCUS = COLORS + """
const it = document.activeElement, at = window.controls.indexOf(it), style = getComputedStyle(it);
const is_shown = style.outlineStyle !== 'none' && parseFloat(style.outlineWidth) >= 1;
return [at === -1 && it !== document.body ? -2 : at, is_shown ? contrast(parts(style.outlineColor), ground(it.parentElement)) : 0];
"""
PAGES = [
    "/owed/2024-06-18/2024-07-18/html", "/owed/2024-05-01/2024-05-08/html", "/agenda/2024-06-01/2024-06-30/2024-06-18/html", "/unapplied/2024-12-31/html",
    ACCOUNTS, "/lists/holidays/2024/html", "/accounts/birch/html", "/accounts/birch/due/2024Q2/2024-06-18/html", "/accounts/birch/schedule-b/2024Q2/html",
    "/accounts/birch/explain/2024-06-12/html", "/lists/accounts/birch/runs/2024Q2/html", "/lists/accounts/birch/payments/2024Q2/html",
    "/lists/accounts/birch/payments/2024Q4/html", "/lists/accounts/birch/years/html", "/lists/accounts/elder/reported/html", "/accounts/oak/html", "/forms",
    *(f"/forms/{verb}" for verb in [*FIELDS, "calendar", "change-holiday", "correct-report", "correct-report-year", "correct-account"]),
]
# Forms that are sent: the form, what is typed, the status of the answer, and how what it tells begins.
SENT = [
    ("open-year/ash", {"year": "2030"}, 409, "refused 16 CalendarMissing 2030"),
    ("pay/ash", {"for": "2024-05-10", "amount": "12,50"}, 400, ""),
    ("post/ash", {"payday": "2024-05-17", "fit": "100.00", "ss": "124.00", "medicare": "29.00"}, 200, "posted 2024-05-01 2024-05-31"),
    ("add-holiday", {"day": "2024-12-24"}, 200, "done"),
]
# What the desk of the example has besides: a void payment, a void run, and a reported total; and an employer with a payday today.
BESIDES = ["pay birch 3 2024-06-17 2024-06-11 1.00", "void-pay birch 3", "post birch 5 2024-06-18 10.00 0.00 0.00", "void birch 5",
           "report elder 2024Q1 10.00"]


def lines_of_today(known):
    """An employer with a payday today, and the calendars for that, if they are not there."""
    today = datetime.date.today()
    calendars = [commands_in(f"ftd calendar {year} $(grep -o '^[0-9-]*' examples/holidays/{year})")[0] for year in (today.year, today.year + 1)]
    yield from (" ".join(words) for words in calendars if not any(line.startswith(f"calendar {words[1]} ") for line in known))
    yield from (f"enrol oak {today.year}-01-01", f"open-year oak {today.year}", f"post oak 1 {today} 3000.00 2400.00 600.00")


def office_desk(program, folder):
    lines = lines_of_example() + BESIDES
    return Desk(program, folder, [*lines, *lines_of_today(lines)])


def show(desk, width, scheme="light"):
    desk.browser.execute_cdp_cmd("Emulation.setDeviceMetricsOverride", {"width": width, "height": 900, "deviceScaleFactor": 1, "mobile": False})
    desk.browser.execute_cdp_cmd("Emulation.setEmulatedMedia", {"features": [{"name": "prefers-color-scheme", "value": scheme}]})


class Reading:
    """The pages that were read."""

    def __init__(self, desk):
        self.desk, self.titles, self.lowest, self.stops, self.scrolling = desk, {}, 21.0, 0, []
        desk.go("/style.css")
        self.schemes = ("light", "dark") if "prefers-color-scheme:dark" in desk.find("body").text else ("light",)

    def read(self, name):
        """Reads the page that is shown."""
        title, place = self.desk.browser.title, self.desk.place()
        if not title or self.titles.setdefault(title, place) != place:
            sys.exit(f"{name} has the title {title!r}, as {self.titles.get(title)}")
        for fault in self.desk.run(STRUCTURE):
            sys.exit(f"{name}: {fault}")
        for width, scheme in ((width, scheme) for width in WIDTHS for scheme in self.schemes):
            show(self.desk, width, scheme)
            self.look(f"{name} at {width} pixels, {scheme}")
        self.go_through(name)
        self.desk.counts["pages"] += 1

    def look(self, where):
        lowest, text = self.desk.run(CONTRAST)
        if lowest < LEAST_CONTRAST:
            sys.exit(f"{where}: a contrast of {lowest:.2f}: {text}")
        self.lowest = min(self.lowest, lowest)
        wider, within = self.desk.run(OVERFLOW)
        if wider > 0:
            sys.exit(f"{where}: wider than the window by {wider} pixels")
        if within > 0:
            self.scrolling.append(f"{where} by {within} pixels")

    def go_through(self, name):
        """Presses TAB from the top until no control has the focus. A date has several stops, the last of which has an outline of its own."""
        count, order, outlines = self.desk.run(CONTROLS), [], collections.Counter()
        while order[-1:] != [-1] and len(order) <= 2 * count:
            self.desk.keys(Keys.TAB)
            at, outline = self.desk.run(FOCUS)
            outlines[at] = max(outlines[at], outline)
            order += [at] if at not in (-2, *order[-1:]) else []
        if order != [*range(count), -1]:
            sys.exit(f"{name}: TAB reaches the {count} controls in the order {order}")
        if min(outlines[at] for at in range(count)) < LEAST_OUTLINE:
            sys.exit(f"{name}: the contrasts of the outlines are {outlines}")
        self.stops += count


def focus_on(desk, selector):
    """Presses TAB until that has the focus."""
    for _ in range(200):
        if desk.run("return document.activeElement.matches(arguments[0])", selector):
            return
        desk.keys(Keys.TAB)
    sys.exit(f"{desk.place()}: TAB does not reach {selector}")


def pay_by_keyboard(desk):
    """Records a payment by the keyboard alone, from the start page."""
    desk.go("/")
    for address in (ACCOUNTS, "/accounts/ash/html", "/forms/pay/ash"):
        focus_on(desk, f'a[href="{address}"]')
        desk.leave(lambda: desk.keys(Keys.RETURN))
    for name, keys in (("paid", "06172024"), ("for", "05102024"), ("amount", "6000.00")):
        focus_on(desk, f"[name={name}]")
        desk.keys(keys)
    focus_on(desk, "main form button")
    desk.leave(lambda: desk.keys(Keys.SPACE))
    if not desk.printed().startswith("done\nnote: counts for 2024-05-01 to 2024-05-31"):
        sys.exit(f"a payment by the keyboard is answered {desk.printed()!r}")


def send_form(desk, form, fields, status, told):
    """Sends a form, which has to be answered so."""
    desk.go(f"/forms/{form}")
    desk.fill_in(fields)
    said = desk.send()
    desk.must_be(status)
    if not said.startswith(told) or (status == 400) != bool(desk.all("p.bad")):
        sys.exit(f"{form} with {fields} is answered {said!r}")


def reading(program, folder, _):
    with contextlib.closing(office_desk(program, folder)) as desk:
        reads = Reading(desk)
        for address in PAGES:
            desk.go(address)
            reads.read(address)
        for sent in SENT:
            send_form(desk, *sent)
            reads.read(f"{sent[0]} that is answered {sent[2]}")
        pay_by_keyboard(desk)
        said = f"{desk.counts['pages']} pages, {reads.stops} stops of TAB, the lowest contrast {reads.lowest:.2f} ({' and '.join(reads.schemes)})"
        return f"{said}; {len(reads.scrolling)} scroll within{': ' if reads.scrolling else ''}{'; '.join(reads.scrolling)}"


# Pages of others.

RUN = {"account": "ash", "run": "7", "payday": "2024-05-17", "fit": "1.00", "ss": "0.62", "medicare": "0.14"}
FETCH = """const [address, fields, done] = arguments;
fetch(address, {method: 'POST', mode: 'no-cors', body: new URLSearchParams(fields)}).then(it => done(it.status), fault => done(String(fault)));"""


class OlderRelay(Relay):
    """Hands messages on as an older browser sends them, which does not tell from where it asks."""

    def hand_on(self, peer):
        asked = re.sub(rb"(?i)sec-fetch-[a-z]+:[^\r]*\r\n", b"", peer.recv(65536))
        told = mock.Mock(wraps=peer, recv=lambda size: asked)
        super().hand_on(told)


def address_of(relay):
    return f"http://127.0.0.1:{relay.listener.getsockname()[1]}"


def must_answer(relay, what, act, wanted):
    """Does something, and waits until the desk has answered it so: the method, the target and the status."""
    before = len(relay.lines)
    asked = lambda: [(*first.split()[:2], int(said.split()[1])) for first, said in relay.lines[before:] if first.split()[1] == wanted[1]]
    act()
    wait_for(asked, what)
    if asked() != [wanted]:
        sys.exit(f"{what}: {asked()} in place of {wanted}")


def sent_from(desk, relay, page, target, by_script=True):
    """A form is sent from the page that is shown, by its button and by a script. Both are refused."""
    refused = ("post", "/forms/post", 403)
    if by_script:
        must_answer(relay, f"a script of {page}", lambda: desk.browser.execute_async_script(FETCH, f"{target}/forms/post", RUN), refused)
    must_answer(relay, f"a form of {page}", lambda: desk.leave(desk.find("button").click), refused)
    return 1 + by_script


def form_page(target):
    """A page with the form of a pay run, filled in."""
    fields = "".join(f'<input name="{name}" value="{text}">' for name, text in RUN.items())
    return f'<!DOCTYPE html><title>other</title><form method="post" action="{target}/forms/post">{fields}<button>go</button></form>'


def bound_again(desk):
    """A page of a name that then stands for the desk asks what it takes for its own server."""
    port, name = free_port(), "a name that is bound again"
    top = f"http://{FOREIGN}:{port}"
    pages = Pages(port, form_page(top))
    desk.browser.get(top)
    pages.end()
    relay = Relay(port, desk.port)
    # The browser may have connections open to the server that is gone: it asks until those are used up.
    wait_for(lambda: desk.run("fetch('/none')") or relay.lines, name)
    sent = sent_from(desk, relay, name, top)
    must_answer(relay, f"a page of {name}", lambda: desk.browser.get(top + ACCOUNTS), ("get", ACCOUNTS, 403))
    relay.end()
    return sent + 1


def framed(desk, relay, name, status):
    """A page of another origin shows the accounts in a frame. They are answered so, and nothing of them is shown."""
    pages = Pages(free_port(), f'<!DOCTYPE html><title>other</title><iframe src="{address_of(relay)}{ACCOUNTS}"></iframe>')
    must_answer(relay, f"a frame of {name}", lambda: desk.browser.get(f"http://{name}:{pages.server_port}/"), ("get", ACCOUNTS, status))
    desk.browser.switch_to.frame(0)
    shown = desk.run("return document.title + document.documentElement.textContent")
    desk.browser.switch_to.default_content()
    pages.end()
    if "birch" in shown or "Accounts" in shown:
        sys.exit(f"a frame of {name} shows {shown!r}")
    return 1


def foreign(program, folder, _):
    # The thread of a connection that the browser leaves open fails in the end, which says nothing.
    threading.excepthook = lambda _: None
    with contextlib.closing(office_desk(program, folder)) as desk:
        relay, older, file = Relay(free_port(), desk.port), OlderRelay(free_port(), desk.port), os.path.join(folder, "page.html")
        pages, sent, frames = Pages(free_port(), form_page(address_of(relay))), 0, 0
        with open(file, "w", encoding="utf-8") as text:
            text.write(pages.page)
        for name in ("127.0.0.1", FOREIGN):
            desk.browser.get(f"http://{name}:{pages.server_port}/")
            sent += sent_from(desk, relay, f"a page of {name} at another port", address_of(relay))
            frames += framed(desk, relay, name, 403) + framed(desk, older, name, 200)
        desk.browser.get(f"file://{file}")
        sent += sent_from(desk, relay, "a file", address_of(relay), by_script=False) + bound_again(desk)
        desk.stop()
        if tables(desk.file) != desk.made:
            sys.exit("a page of another origin has changed the tables")
        return f"{sent} messages answered 403, {frames} frames that show nothing, the tables as they were"


# Connections on which nothing comes.

EMPLOYERS, IDLE, TIMES = 300, 5, 7


def many_lines():
    yield from (it for it in lines_of_example() if it.startswith("calendar"))
    for number in range(EMPLOYERS):
        yield from (f"enrol e{number} 2024-01-01", f"open-year e{number} 2024", f"post e{number} 1 2024-05-{number % 28 + 1:02} 3000.00 2400.00 600.00")


def asked_by_program(desk):
    """The seconds of the page for a program that asks for it."""
    start = time.monotonic()
    peer = http.client.HTTPConnection("127.0.0.1", desk.port, timeout=SECONDS)
    peer.request("GET", PAGES[0])
    rows = peer.getresponse().read().count(b"<tr class=")
    peer.close()
    return time.monotonic() - start if rows == EMPLOYERS else sys.exit(f"the page has {rows} rows in place of {EMPLOYERS}")


def asked_by_browser(desk):
    """The seconds of the page in the browser, until it is there with its style."""
    desk.go(PAGES[0])
    return desk.run("return performance.getEntriesByType('navigation')[0].domComplete") / 1000


def median_of(desk, asked, before):
    """The median of the seconds of the page, each time after something, and after the server has had the time to be rid of what came earlier."""
    found = []
    for _ in range(TIMES):
        time.sleep(1.5)
        with contextlib.ExitStack() as opened:
            before(desk, opened)
            found.append(asked(desk))
    return statistics.median(found)


def idle_connections(desk, opened):
    for _ in range(IDLE):
        opened.enter_context(socket.create_connection(("127.0.0.1", desk.port)))
    time.sleep(0.05)


def page_in_browser(desk, opened):
    """The browser keeps spare connections after a page."""
    desk.go(PAGES[0])


def idle(program, folder, _):
    with contextlib.closing(Desk(program, folder, list(many_lines()))) as desk:
        said, late = [], []
        for name, asked in (("a program", asked_by_program), ("a browser", asked_by_browser)):
            alone = median_of(desk, asked, lambda *_: None)
            said.append(f"{name} alone {alone:.3f} s")
            for what, before in ((f"behind {IDLE} idle connections", idle_connections), ("after a page in the browser", page_in_browser)):
                seconds = median_of(desk, asked, before)
                said.append(f"{what} {seconds:.3f} s")
                late += [f"{name} {what}"] if seconds > 2 * alone + 0.2 else []
        figures = f"{EMPLOYERS} employers: {', '.join(said)}"
        return figures if not late else sys.exit(f"too late: {', '.join(late)}; {figures}")


# Pictures.

def put(to, name, said):
    with open(os.path.join(to, name), "wb") as file:
        file.write(base64.b64decode(said["data"]))


def take(desk, to, name):
    """A picture of the page that is shown at each width, and one in print."""
    for width in WIDTHS:
        show(desk, width)
        clip = {"x": 0, "y": 0, "width": width, "height": desk.run("return document.documentElement.scrollHeight"), "scale": 1}
        put(to, f"{name}-{width}.png", desk.browser.execute_cdp_cmd("Page.captureScreenshot", {"captureBeyondViewport": True, "clip": clip}))
    put(to, f"{name}.pdf", desk.browser.execute_cdp_cmd("Page.printToPDF", {"preferCSSPageSize": True}))


def pictures(program, folder, to):
    to = to or tempfile.mkdtemp()
    os.makedirs(to, exist_ok=True)
    with contextlib.closing(office_desk(program, folder)) as desk:
        for name, address in (("owed", PAGES[0]), ("account", "/accounts/oak/html"), ("form", "/forms/post/birch"),
                              ("explanation", "/accounts/birch/explain/2024-06-12/html")):
            desk.go(address)
            take(desk, to, name)
        for sent in SENT[:3]:
            send_form(desk, *sent)
            take(desk, to, f"answered-{sent[2]}")
    return f"{len(os.listdir(to))} files in {to}"


PARTS = {it.__name__: it for it in (walk, reading, foreign, idle, pictures)}


def main():
    program = program_of(sys.argv[1:2])
    for name, _, to in (it.partition("=") for it in sys.argv[2:] or PARTS):
        if name not in PARTS:
            sys.exit(f"no part {name}: the parts are {', '.join(PARTS)}")
        with tempfile.TemporaryDirectory(ignore_cleanup_errors=True) as folder:
            print(f"{name}: {PARTS[name](program, folder, to)}", flush=True)


if __name__ == "__main__":
    main()
