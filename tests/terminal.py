#!/usr/bin/env python3
"""Types lines to `dsheet connect` on a terminal, and compares what stands on it then; and what a long run shows there of
how far it is. The last line counts the rows.
    tests/terminal.py PROGRAM
"""
import os
import pty
import select
import subprocess
import sys
import time

SECONDS = 60
HELP = ("set CELL TEXT   sets the text of a cell, as set A1 =1+2\r\nundo CELL       sets the text that the cell had before its last edit\r\n"
        "report          shows all values\r\nview            shows all values, also without a process\r\n"
        "get CELL        shows the value of a cell, its last edit that counts, and its text\r\n"
        "history [FROM]  shows the edits that count, from a place on, at most 100\r\n"
        "outcome KEY     shows the edit with a key; where none has it, none ever will\r\n"
        "last            reports what became of the last edit of the process\r\nhelp            shows these lines\r\n"
        "quit            ends, as the end of the input does\r\n")
FAULT = "expected: set CELL TEXT, undo CELL, report, view, get CELL, history [FROM], outcome KEY or last; help shows what each line does\r\n"


class Terminal:
    """A client on a terminal of its own; its standard output may be a pipe."""

    def __init__(self, program, port, *words, output=None):
        self.ours, theirs = pty.openpty()
        words = [program, "connect", f"127.0.0.1:{port}", *words]
        self.client = subprocess.Popen(words, stdin=theirs, stdout=output or theirs, stderr=theirs, start_new_session=True)
        os.close(theirs)
        self.shown = ""

    def read(self, seconds):
        """What comes within this time, or nothing at the end."""
        if not select.select([self.ours], [], [], seconds)[0]:
            return None
        try:
            return os.read(self.ours, 65536).decode()
        except OSError:
            return ""

    def wait_for(self, text):
        """Waits until this stands at the end of what is shown, and gives what was shown since the last look."""
        end = time.monotonic() + SECONDS
        while not self.shown.endswith(text):
            more = self.read(max(0.0, end - time.monotonic()))
            if not more:
                raise AssertionError(f"wanted {text!r}, came {self.shown!r}")
            self.shown += more
        shown, self.shown = self.shown, ""
        return shown

    def type(self, text, wanted):
        """Types a text, and gives what is shown up to this."""
        os.write(self.ours, text.encode())
        return self.wait_for(wanted)

    def end(self):
        """What is shown up to the end, and the status."""
        while more := self.read(SECONDS):
            self.shown += more
        os.close(self.ours)
        return self.shown, self.client.wait(SECONDS)


class Rows:
    """The rows, and how many are as they have to be."""

    def __init__(self):
        self.passed, self.failed = 0, 0

    def check(self, what, came, wanted):
        if came == wanted:
            self.passed += 1
            print(f"terminal: {what} ... ok")
        else:
            self.failed += 1
            print(f"tests/terminal.py: {what}: wanted {wanted!r}, came {came!r}", file=sys.stderr)


def play(rows, program, port):
    """Types lines, on a sheet of two columns and two rows."""
    client = Terminal(program, port, "--process", "0")
    rows.check("a join, and a prompt", client.wait_for("0> "), "0 nothing\r\n0> ")
    rows.check("an edit", client.type("set A1 =1+2\n", "0> "), "set A1 =1+2\r\n0 0 done\r\n0> ")
    client.type("set B1 =QUOTIENT(1;0)\n", "0> ")
    client.type("set B2 -12345\n", "0> ")
    rows.check("a table of values", client.type("report\n", "0> "), "report\r\nsettled\r\n   A        B\r\n1  3  #DIV/0!\r\n2      -12345\r\n0> ")
    rows.check("help", client.type("help\n", "0> "), f"help\r\n{HELP}0> ")
    rows.check("a line that is no call ends nothing", client.type("work A1\n", "0> "), f"work A1\r\n{FAULT}0> ")
    rows.check("an empty line", client.type("\n", "0> "), "\r\n0> ")
    shown = client.type("set A1 =7.5\n", "0> ")
    rows.check("a text that is refused", shown.split("\r\n")[1:3], ["0 refused 1 NotWhole 2", "    set A1 =7.5"])
    rows.check("the last edit", client.type("last\n", "0> "), "last\r\n0 last 2 B2 done\r\n0> ")
    os.write(client.ours, b"\x04")
    rows.check("at the end of input no prompt is left on the line", client.end(), ("\r\n", 0))

    client = Terminal(program, port, "--process", "1")
    client.wait_for("1> ")
    os.write(client.ours, b"quit\n")
    rows.check("quit ends", client.end(), ("quit\r\n", 0))

    client = Terminal(program, port)
    client.wait_for("> ")
    rows.check("reading without a process", client.type("get B2\n", "> "), "get B2\r\ngot B2 -12345 0 2 -12345\r\n> ")
    rows.check("a view", client.type("view\n", "> "), "view\r\nsettled\r\n   A        B\r\n1  3  #DIV/0!\r\n2      -12345\r\n> ")
    rows.check("an edit joins any process", client.type("set A2 4\n", "1> "), "set A2 4\r\n1 nothing\r\n1 0 done\r\n1> ")
    rows.check("an undo", client.type("undo A2\n", "1> "), "undo A2\r\n1 1 done\r\n1> ")
    rows.check("the edits that count", client.type("history 2\n", "1> "), "history 2\r\nedits 2 of 5\r\n0 2 B2 -12345\r\n1 0 A2 4\r\n1 1 A2\r\n1> ")
    os.write(client.ours, b"quit\n")
    client.end()

    ours, theirs = os.pipe()
    client = Terminal(program, port, "--process", "0", output=theirs)
    os.close(theirs)
    client.wait_for("0> ")
    client.type("report\n", "0> ")
    os.write(client.ours, b"quit\n")
    client.end()
    with os.fdopen(ours) as out:
        rows.check("standard output is no terminal", out.read(), "0 last 2 B2 done\nsettled\n3,#DIV/0!\n,-12345\n")

    calls = b"report\nhelp\nreport\n"
    ran = subprocess.run([program, "connect", f"127.0.0.1:{port}", "--process", "0"], input=calls, capture_output=True, timeout=SECONDS)
    rows.check("not on a terminal", (ran.returncode, ran.stdout, ran.stderr),
               (1, b"0 last 2 B2 done\nsettled\n3,#DIV/0!\n,-12345\n", b"line 2: expected: set CELL TEXT, undo CELL, report, view, get CELL, history [FROM], outcome KEY or last\n"))


def play_progress(rows, program):
    """A long run shows on a terminal how far it is, and takes that back; elsewhere it shows nothing."""
    script, words = b"set 0 A1 1\n" * 4, [program, "run", "--stops"]
    ours, theirs = pty.openpty()
    ran = subprocess.Popen(words, stdin=subprocess.PIPE, stdout=subprocess.DEVNULL, stderr=theirs, start_new_session=True)
    os.close(theirs)
    ran.stdin.write(script)
    ran.stdin.close()
    shown = b""
    while select.select([ours], [], [], SECONDS)[0]:
        try:
            shown += os.read(ours, 4096)
        except OSError:
            break
    os.close(ours)
    rows.check("how far a run is", (shown, ran.wait(SECONDS)), (b"\rdsheet: 64 stops\r" + b" " * 34 + b"\r", 0))
    said = subprocess.run(words, input=script, capture_output=True, timeout=SECONDS).stderr
    rows.check("not on a terminal: nothing of it", said, b"")


def main():
    program, rows = os.path.realpath(sys.argv[1]), Rows()
    words = [program, "serve", "--listen", "127.0.0.1:0", "--forever", "--columns", "2", "--rows", "2", "--processes", "2"]
    with subprocess.Popen(words, stdin=subprocess.PIPE, stderr=subprocess.PIPE, text=True) as server:
        try:
            port = int(server.stderr.readline().rsplit(":", 1)[1])
            play(rows, program, port)
            play_progress(rows, program)
        except (AssertionError, subprocess.TimeoutExpired) as error:
            rows.failed += 1
            print(f"tests/terminal.py: {error}", file=sys.stderr)
        finally:
            server.kill()
    print(f"terminal: {rows.passed} passed, {rows.failed} failed")
    return 1 if rows.failed else 0


if __name__ == "__main__":
    sys.exit(main())
