#!/usr/bin/env python3
"""Shows pages in a real browser (Debian's chromium, without a window) that ask `ftd serve`, and tells what was answered.

    bench/browser.py [PROGRAM]

- A page of another port: five posts by `fetch` without leave, and a form whose text is JSON.
- A page of a foreign name that is then made to point to the server (DNS rebinding): GET and DELETE.
- A page of the server's own address, as its user may put one there: it reads JSON.

The first two have to be answered 403 each time, and the tables have to stay as they were."""

import contextlib
import http.server
import json
import os
import shutil
import socket
import sqlite3
import subprocess
import sys
import tempfile
import threading
import time

from office import free_port, program_of

FTD = program_of(sys.argv[1:])
FOREIGN = "desk.example"
SECONDS = 40


class Pages(http.server.ThreadingHTTPServer):
    """Gives a page to each GET, and keeps what pages report by POST."""

    allow_reuse_address = True

    def __init__(self, port, page):
        self.page, self.reports, self.asked = page, [], threading.Event()
        super().__init__(("127.0.0.1", port), Answers)
        threading.Thread(target=self.serve_forever, daemon=True).start()

    def end(self):
        self.shutdown()
        self.server_close()


class Answers(http.server.BaseHTTPRequestHandler):
    def do_GET(self):
        body = self.server.page.encode()
        self.send_response(200)
        self.send_header("Content-Type", "text/html")
        self.send_header("Content-Length", str(len(body)))
        self.send_header("Connection", "close")
        self.end_headers()
        self.wfile.write(body)
        self.server.asked.set()

    def do_POST(self):
        said = self.rfile.read(int(self.headers["Content-Length"]))
        self.send_response(200)
        self.send_header("Content-Length", "0")
        self.send_header("Access-Control-Allow-Origin", "*")
        self.end_headers()
        self.server.reports.append(json.loads(said))

    def log_message(self, *words):
        pass


class Relay:
    """Hands connections on to the server, and keeps the first line of each message and answer."""

    def __init__(self, port, to):
        self.to, self.lines, self.closed = to, [], False
        self.listener = socket.create_server(("127.0.0.1", port), reuse_port=False)
        threading.Thread(target=self.run, daemon=True).start()

    def run(self):
        while not self.closed:
            try:
                peer, _ = self.listener.accept()
            except OSError:
                return
            threading.Thread(target=self.hand_on, args=(peer,), daemon=True).start()

    def hand_on(self, peer):
        peer.settimeout(SECONDS)
        asked = b""
        while b"\r\n\r\n" not in asked:
            piece = peer.recv(65536)
            if not piece:
                return
            asked += piece
        head, _, body = asked.partition(b"\r\n\r\n")
        fields = [line.lower() for line in head.split(b"\r\n")]
        length = next((int(it[15:]) for it in fields if it.startswith(b"content-length:")), 0)
        while len(body) < length:
            body += peer.recv(65536)
        with socket.create_connection(("127.0.0.1", self.to)) as desk:
            desk.sendall(head + b"\r\n\r\n" + body)
            desk.shutdown(socket.SHUT_WR)
            said = b""
            while piece := desk.recv(65536):
                said += piece
        self.lines.append((fields[0].decode(), said.split(b"\r\n")[0].decode()))
        # one answer for each connection
        peer.sendall(said.replace(b"\r\n", b"\r\nConnection: close\r\n", 1) if b"Connection: close" not in said else said)
        peer.close()

    def end(self):
        self.closed = True
        self.listener.close()


def serve(db, connections=1_000_000):
    server = subprocess.Popen([FTD, "serve", "--db", db, "--port", str(free_port()), "--connections", str(connections)],
                              stdout=subprocess.PIPE, stderr=subprocess.DEVNULL, text=True)
    return server, int(server.stdout.readline().split(":")[1])


def browse(address, folder):
    """Shows the address; the browser is left alone until it is ended."""
    program = shutil.which("chromium") or shutil.which("chromium-browser") or sys.exit("needs chromium")
    words = [program, "--headless", "--no-sandbox", "--disable-gpu", f"--user-data-dir={folder}/browser{time.monotonic()}",
             "--no-first-run", "--disable-background-networking", f"--host-resolver-rules=MAP {FOREIGN} 127.0.0.1",
             "--remote-debugging-port=0", address]
    return subprocess.Popen(words, stdout=subprocess.DEVNULL, stderr=subprocess.DEVNULL)


def wait_for(what, told):
    end = time.monotonic() + SECONDS
    while not what():
        if time.monotonic() > end:
            sys.exit(f"{told}: nothing within {SECONDS} seconds")
        time.sleep(0.05)


def tables(db):
    """All rows of the tables, once the log is copied."""
    subprocess.run([FTD, "status", "--db", db, "ash", "2024-05-08"], stdout=subprocess.DEVNULL, check=True)
    with contextlib.closing(sqlite3.connect(db)) as it:
        return list(it.iterdump())


POSTS = [
    ("/accounts", {"account": "elm", "start": "2024-01-01"}),
    ("/calendars", {"year": 2026, "days": []}),
    ("/accounts/ash/runs", {"run": 7, "payday": "2024-02-05", "fit": "1.00", "ss": "0.62", "medicare": "0.14"}),
    ("/accounts/ash/payments", {"payment": 7, "paid": "2024-02-05", "for": "2024-01-05", "cents": "1.00"}),
    ("/accounts/ash/quarters", {"quarter": "2022Q3", "cents": "1.00"}),
]


def foreign_page(desk, reports):
    """Five posts without leave, and then a form whose name and value are JSON together."""
    return f"""<form id=f method=post enctype=text/plain action="http://127.0.0.1:{desk}/accounts" target=i>
<input name='{{"account":"oak","start":"2024-01-01","x":"' value='"}}'></form><iframe name=i></iframe><script>
(async () => {{
  for (const [target, body] of {json.dumps(POSTS)}) {{
    try {{
      await fetch("http://127.0.0.1:{desk}" + target,
        {{method: "POST", mode: "no-cors", headers: {{"Content-Type": "text/plain"}}, body: JSON.stringify(body)}});
    }} catch (fault) {{ }}
  }}
  document.getElementById("f").submit();
  setTimeout(() => fetch("http://127.0.0.1:{reports}/", {{method: "POST", mode: "no-cors", body: "[]"}}), 1500);
}})();
</script>"""


def own_page(reports):
    """Asks its own address again and again, until another server stands there, and reports what is answered."""
    return f"""<script>
(async () => {{
  const report = it => fetch("http://127.0.0.1:{reports}/", {{method: "POST", mode: "no-cors", body: JSON.stringify(it)}});
  const ask = async (method, target) => {{
    for (;;) {{
      try {{
        const said = await fetch(target, {{method}});
        const text = await said.text();
        if (!text.includes("<script>")) return [method, said.status, text];
      }} catch (fault) {{ }}
      await new Promise(done => setTimeout(done, 200));
    }}
  }};
  await report(await ask("GET", "/accounts/ash/status/2024-05-08"));
  await report(await ask("DELETE", "/accounts/ash/runs/1"));
}})();
</script>"""


def of_another_port(folder, db):
    server, to = serve(db)
    reports = Pages(free_port(), "")
    relay = Relay(free_port(), to)
    at = relay.listener.getsockname()[1]
    pages = Pages(free_port(), foreign_page(at, reports.server_port))
    browser = browse(f"http://127.0.0.1:{pages.server_port}/", folder)
    wait_for(lambda: reports.reports, "the page of another port")
    browser.kill()
    server.kill()
    server.wait()
    asked = [it for it in relay.lines if it[0].startswith("post ")]
    passed = [it for it in asked if "403" not in it[1]]
    print(f"a page of another port: {len(asked)} posts, {len(passed)} not answered 403 {passed or ''}")
    return len(asked) == 6 and not passed


def swapped(folder, db, name, wanted):
    """A page that was given by another server at the port where the desk then stands."""
    reports, port = Pages(free_port(), ""), free_port()
    pages = Pages(port, own_page(reports.server_port))
    browser = browse(f"http://{name}:{port}/", folder)
    wait_for(pages.asked.is_set, "the first page")
    time.sleep(1)
    pages.end()
    server, to = serve(db)
    relay = Relay(port, to)
    wait_for(lambda: len(reports.reports) == 2, f"the page of {name}")
    browser.kill()
    relay.end()
    server.kill()
    server.wait()
    print(f"a page of {name}, where the desk then stands: {reports.reports}")
    return [it[1] for it in reports.reports] == wanted


def main():
    with tempfile.TemporaryDirectory(ignore_cleanup_errors=True) as folder:
        db = os.path.join(folder, "office.db")
        for words in (["calendar", "2024"], ["calendar", "2025"], ["enrol", "ash", "2024-01-01"], ["open-year", "ash", "2024"],
                      ["post", "ash", "1", "2024-01-05", "500.00", "310.00", "72.50"]):
            subprocess.run([FTD, words[0], "--db", db, *words[1:]], stdout=subprocess.DEVNULL, check=True)
        before = tables(db)
        right = of_another_port(folder, db)
        right &= swapped(folder, db, FOREIGN, [403, 403])
        same = tables(db) == before
        print(f"the tables are {'as they were' if same else 'CHANGED'}")
        right &= swapped(folder, db, "127.0.0.1", [200, 200])
        sys.exit(0 if right and same else 1)


if __name__ == "__main__":
    main()
