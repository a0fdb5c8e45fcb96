#!/usr/bin/env python3
"""Opens the page of the program as a server in Chromium: two pages edit one sheet by the keyboard, kill -9 of the server comes
in between, and each page tells what became of its edits. The last line counts the rows.
    tests/browser.py [--is-there] PROGRAM
--is-there only says, by the exit status, whether there is a Chromium.
"""
import contextlib
import json
import os
import random
import shutil
import signal
import socket
import subprocess
import sys
import tempfile
import time

SECONDS, KILLS = 60, 6
NAMES = ("chromium", "chromium-browser", "google-chrome")
CODES = {"Enter": 13, "Tab": 9, "Escape": 27, "Delete": 46, "F2": 113, "ArrowRight": 39, "ArrowDown": 40, "ArrowLeft": 37, "ArrowUp": 38}
passed = 0


def row(what, got, wanted):
    """A row is as it has to be."""
    global passed
    if got != wanted:
        raise AssertionError(f"{what}: {got!r}, and not {wanted!r}")
    passed += 1
    print(f"browser: {what} ... ok", flush=True)


def found():
    """Where Chromium is, or nothing."""
    return next((path for name in NAMES if (path := shutil.which(name))), None)


class Server:
    """The program as a server with a store, at ports of its own; it can be killed and started again."""

    def __init__(self, program, room):
        self.ports = [self.free_port(), self.free_port()]
        listen, http = (f"127.0.0.1:{port}" for port in self.ports)
        self.words = [program, "serve", "--listen", listen, "--http", http, "--store", f"{room}/sheet.db", "--columns", "3",
                      "--rows", "4", "--processes", "4", "--forever"]
        self.start()

    @staticmethod
    def free_port():
        with socket.socket() as it:
            it.bind(("127.0.0.1", 0))
            return it.getsockname()[1]

    def start(self):
        """Starts it, and waits until it answers."""
        self.process = subprocess.Popen(self.words, stdin=subprocess.PIPE, stderr=subprocess.DEVNULL)
        end = time.monotonic() + SECONDS
        while time.monotonic() < end:
            with contextlib.suppress(OSError):
                return self.get("/healthz")
            time.sleep(0.05)
        raise AssertionError("the server does not answer")

    def get(self, path):
        """The body of an answer of status 200; else an OSError."""
        with socket.create_connection(("127.0.0.1", self.ports[1]), timeout=SECONDS) as it:
            it.sendall(f"GET {path} HTTP/1.1\r\nhost: localhost\r\nconnection: close\r\n\r\n".encode())
            head, _, body = b"".join(iter(lambda: it.recv(65536), b"")).decode().partition("\r\n\r\n")
        if " 200 " not in head.split("\r\n")[0]:
            raise OSError(head)
        return body

    def values(self):
        """The values of the sheet, row by row; it is asked again where all processes are taken."""
        while True:
            with contextlib.suppress(OSError):
                return json.loads(self.get("/sheet"))["rows"]
            time.sleep(0.05)

    def kill(self):
        self.process.send_signal(signal.SIGKILL)
        self.process.wait(SECONDS)


class Browser:
    """Chromium, by its debugging pipes: messages of JSON, each ended by a zero byte."""

    def __init__(self, path, room):
        theirs_in, self.out = os.pipe()
        self.into, theirs_out = os.pipe()
        words = [path, "--headless=new", "--no-sandbox", "--disable-gpu", "--disable-dev-shm-usage", "--no-first-run",
                 "--remote-debugging-pipe", f"--user-data-dir={room}/profile"]

        def place_pipes():
            os.dup2(theirs_in, 63), os.dup2(theirs_out, 64)
            os.dup2(63, 3), os.dup2(64, 4)

        quiet = subprocess.DEVNULL
        self.process = subprocess.Popen(words, stdin=quiet, stdout=quiet, stderr=quiet, close_fds=False, preexec_fn=place_pipes)
        os.close(theirs_in), os.close(theirs_out)
        self.count, self.rest = 0, b""

    def ask(self, method, session=None, **given):
        """The answer to a message."""
        self.count += 1
        message = {"id": self.count, "method": method, "params": given} | ({"sessionId": session} if session else {})
        os.write(self.out, json.dumps(message).encode() + b"\0")
        while True:
            while b"\0" not in self.rest:
                more = os.read(self.into, 65536)
                if not more:
                    raise AssertionError("Chromium has ended")
                self.rest += more
            line, self.rest = self.rest.split(b"\0", 1)
            answer = json.loads(line)
            if answer.get("id") == self.count:
                if "error" in answer:
                    raise AssertionError(f"{method}: {answer['error']}")
                return answer["result"]

    def open(self, address):
        target = self.ask("Target.createTarget", url="about:blank")["targetId"]
        page = Page(self, self.ask("Target.attachToTarget", targetId=target, flatten=True)["sessionId"])
        page.ask("Page.enable")
        page.ask("Page.navigate", url=address)
        return page

    def close(self):
        self.process.kill()
        self.process.wait()


class Page:
    """A page that is open: what stands in it, and keys that are pressed in it."""

    def __init__(self, browser, session):
        self.browser, self.session = browser, session

    def ask(self, method, **given):
        return self.browser.ask(method, self.session, **given)

    def get(self, what):
        """The value of an expression in the page."""
        answer = self.ask("Runtime.evaluate", expression=what, returnByValue=True)
        return answer["result"].get("value")

    def wait(self, what, wanted):
        """Waits until an expression has this value, and gives the last one."""
        end = time.monotonic() + SECONDS
        while (value := self.get(what)) != wanted and time.monotonic() < end:
            time.sleep(0.05)
        return value

    def press(self, key):
        about = {"key": key, "code": key, "windowsVirtualKeyCode": CODES[key]}
        self.ask("Input.dispatchKeyEvent", type="rawKeyDown", **about)
        self.ask("Input.dispatchKeyEvent", type="keyUp", **about)

    def type(self, text):
        """Types a text key by key, and sends it."""
        for letter in text:
            self.ask("Input.dispatchKeyEvent", type="keyDown", key=letter, text=letter)
            self.ask("Input.dispatchKeyEvent", type="keyUp", key=letter)
        self.press("Enter")

    def edit(self, cell, text):
        """Goes to a cell, types a text there and sends it."""
        self.get(f"pick({ord(cell[0]) - 65}, {int(cell[1:]) - 1}, true)")
        self.type(text)

    def cell(self, name):
        return f"document.getElementById('c{name}')?.textContent"

    def is_open(self):
        return self.wait("document.getElementById('link').dataset.state", "open")

    def said(self):
        return self.get("document.getElementById('said').textContent")

    def looks(self, width, scheme):
        """How many pixels the page is wider than a window of this width."""
        self.ask("Emulation.setDeviceMetricsOverride", width=width, height=900, deviceScaleFactor=1, mobile=False)
        self.ask("Emulation.setEmulatedMedia", features=[{"name": "prefers-color-scheme", "value": scheme}])
        return max(0, self.get("document.documentElement.scrollWidth - window.innerWidth"))


def edits(first, second):
    """Two pages edit one sheet, and see each other's edits."""
    row("both pages are connected", (first.is_open(), second.is_open()), ("open", "open"))
    row("they have two processes", first.get("mine") != second.get("mine"), True)
    first.wait(first.cell("A1"), "")
    first.edit("A1", "7")
    row("it is acknowledged", first.wait("document.getElementById('said').dataset.kind", "good"), "good")
    row("the other page sees it", second.wait(second.cell("A1"), "7"), "7")
    row("the next cell down is picked", first.get("document.getElementById('where').textContent"), "A2")
    second.edit("B1", "=A1+SUM(A1:A2)")
    row("a formula as people write it", first.wait(first.cell("B1"), "14"), "14")
    first.edit("A2", "5")
    row("what refers to a cell follows", second.wait(second.cell("B1"), "19"), "19")
    second.edit("C1", "=1+")
    fault = "document.getElementById('fault').textContent"
    wanted = "   ^ a number, a reference, a function or ( could stand here"
    row("a fault has a caret, and what could stand there", second.wait(fault, wanted), wanted)
    second.press("Escape")
    row("it is left", second.wait(fault, ""), "")
    first.get("pick(0, 1, true)")
    first.press("Delete")
    row("a cell is cleared", second.wait(second.cell("B1"), "14"), "14")


def notes(program, page):
    """What the page says of a fault is what the program says of it."""
    texts = ["7.5", "hello", "+3x", "=1+", "=AVERAGE(1)", "=SUM(1", "=1/2", "=[.Z9]", "=ABS(1;2)", "=1!=2", "=[.A1", '=1+"x"', "=(1+2 3", "=2&3"]
    for text in texts:
        ran = subprocess.run([program, "run"], input=f"set 0 A1 {text}\n", capture_output=True, text=True, timeout=SECONDS, check=True)
        kind, offset = ran.stdout.split()[3:5]
        wanted = next(line for line in ran.stderr.splitlines() if line.lstrip().startswith("^ ")).lstrip(" ^")
        row(f"what is said of {text}", page.get(f"noteOf({json.dumps(text)}, {json.dumps(kind)}, {offset})"), wanted)


def drawer(program, page):
    """What becomes of a script, as the program says; and its pictures."""
    script = "sheet 1 1 2\nset 1 A1 3\nbegin 0 set A1 1\n"
    ran = subprocess.run([program, "explore", "--crashes", "--json"], input=script, capture_output=True, text=True, timeout=SECONDS, check=True)
    figures, *outcomes = map(json.loads, ran.stdout.splitlines())
    endings = len({outcome["report"] for outcome in outcomes})
    page.get("document.getElementById('drawer').open = true")
    page.get(f"document.getElementById('script').value = {json.dumps(script)}")
    page.get("document.querySelector('#ask-script button').click()")
    wanted = f"{figures['found']['states']} states, {figures['found']['orders']} orders: nothing wrong, {endings} endings."
    found = "document.getElementById('found').textContent"
    row("what all orders come to", page.wait(found, wanted), wanted)
    row("a row for each ending", page.get("document.querySelectorAll('#endings td button').length"), endings)
    drawn = "document.querySelector('#picture img')?.naturalWidth > 100"
    page.get("document.querySelector('#endings td button').click()")
    row("the run of an ending is drawn", page.wait(drawn, True), True)
    page.get("document.getElementById('draw').click()")
    page.wait("document.querySelector('#picture img') === null", True)
    row("the run of the script is drawn", page.wait(drawn, True), True)
    page.get("document.getElementById('script').value = 'set 0 A1 1\\nfoo'")
    page.get("document.querySelector('#ask-script button').click()")
    row("a line that is no command", page.wait(found, "line 2: unknown command"), "line 2: unknown command")
    row("nothing of it is in the sheet", page.get(page.cell("A1")), "7")


def kill(server, first, second):
    """The server is killed and started again: what was acknowledged counts."""
    server.kill()
    gone = "document.getElementById('link').dataset.state"
    row("the page says that the server is gone", first.wait(gone, "broken"), "broken")
    row("nothing is in doubt", first.said(), "The server is gone. Every edit that was acknowledged counts.")
    first.edit("C2", "3")
    server.start()
    row("both pages join again", (first.is_open(), second.is_open()), ("open", "open"))
    row("what was typed in between is sent then", second.wait(second.cell("C2"), "3"), "3")
    row("what was acknowledged counts", server.values()[0][:2], ["7", "14"])


def doubt(server, page):
    """The server is halted, so that an edit is sent and not answered; it is killed, and the page tells what became of it."""
    server.process.send_signal(signal.SIGSTOP)
    page.edit("A3", "1")
    row("an edit is in doubt", page.wait("doubt !== null", True), True)
    server.kill()
    page.wait("document.getElementById('link').dataset.state", "broken")
    server.start()
    row("the page is connected again", page.is_open(), "open")
    row("its edit is resolved", page.wait("doubt === null", True), True)
    row("it did not count, and its text is in the bar", (page.said(), page.get("document.getElementById('text').value")),
        ("Resolved: the edit of A3 did not count. Its text is in the bar again.", "1"))
    page.press("Escape")


def kills(server, page, rounds):
    """Kills at drawn moments while edits are made: what the page says is what the sheet has."""
    drawn = random.Random(20261128)
    for turn in range(rounds):
        text = str(100 + turn)
        page.wait("doubt === null && queue.length === 0 && mine !== null", True)
        page.edit("B4", text)
        time.sleep(drawn.random() * 0.02)
        server.kill()
        server.start()
        page.is_open()
        page.wait("doubt === null && queue.length === 0 && asked === null || asked.kind === 'report'", True)
        told = page.get("log[0]")
        counted = server.values()[3][1] == text
        row(f"kill {turn + 1}: the page tells whether its edit counted", ("acknowledged" in told or "it counted" in told, counted), (counted, counted))


def play(path, program):
    with tempfile.TemporaryDirectory(ignore_cleanup_errors=True) as room:
        server, browser = Server(program, room), Browser(path, room)
        try:
            address = f"http://127.0.0.1:{server.ports[1]}/"
            first, second = browser.open(address), browser.open(address)
            edits(first, second)
            notes(program, first)
            drawer(program, first)
            kill(server, first, second)
            doubt(server, first)
            kills(server, first, KILLS)
            for width in (400, 1600):
                for scheme in ("light", "dark"):
                    row(f"nothing is cut off at {width} pixels, {scheme}", first.looks(width, scheme), 0)
        finally:
            browser.close()
            server.kill()


def main():
    path = found()
    if "--is-there" in sys.argv:
        sys.exit(path is None)
    if path is None:
        sys.exit("browser: there is no Chromium")
    play(path, sys.argv[-1])
    print(f"browser: {passed} passed, 0 failed")


if __name__ == "__main__":
    main()
