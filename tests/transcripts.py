#!/usr/bin/env python3
"""Plays the rows of tests/transcripts/ by the program: what each is given, and what it has to answer. The last line
counts the rows.
    tests/transcripts.py [--quick] PROGRAM [FILE ..]        all files of tests/transcripts/, where none is named
A row begins with a line '== WORDS', the words of its command line. Where the first one is `serve`, the row is what
clients of a new server say and are answered, one after the other. Its other lines are
    > TEXT      a line of standard input; with a number after the >, as many times
    < TEXT      a line of standard output, or as many; all of them, in their order, are what is answered
    * TEXT      standard output has this text in it
    - TEXT      standard output has it nowhere
    ~           the next client: what was given so far has ended
    ! TEXT      the first line of standard error
    ? STATUS    the exit status; where no line says it, it is 0, and nothing is said on standard error
    @ slow      an unproved program takes long for it: --quick leaves the row out
    # TEXT      a comment, as are lines before the first row
In a text, \\xHH is a byte, \\\\ a backslash, and \\c at the end of a line of input says that no line feed ends it. A
picture has to be well-formed XML, too.
"""
import difflib
import os
import re
import socket
import subprocess
import sys
import xml.etree.ElementTree
from concurrent.futures import ThreadPoolExecutor

TOP = os.path.dirname(os.path.dirname(os.path.realpath(__file__)))
SECONDS = 300
# What stands between the texts of two clients: no text has it.
NEXT = b"\0next\0"
ESCAPE = re.compile(rb"\\(x[0-9a-f]{2}|\\|c$)")


class Row:
    """One run of the program, and what it has to come to."""

    def __init__(self, place, words):
        self.place, self.words, self.status = place, words, 0
        self.given, self.answers, self.has, self.lacks, self.said = [], [], [], [], None
        self.is_slow = False

    def take(self, mark, text):
        """Takes a line of the row in."""
        times = int(mark[1:] or b"1") if mark[:1] in (b">", b"<") else 1
        if mark[:1] == b">":
            self.given += [text] * times
        elif mark[:1] == b"<":
            self.answers += [text + b"\n"] * times
        elif mark == b"~":
            self.given.append(NEXT)
        elif mark == b"*":
            self.has.append(text)
        elif mark == b"-":
            self.lacks.append(text)
        elif mark == b"!":
            self.said = text
        elif mark == b"?":
            self.status = int(text)
        elif (mark, text) == (b"@", b"slow"):
            self.is_slow = True
        else:
            sys.exit(f"{self.place}: a line begins with {mark!r}")

    def wrong(self, program):
        """What the program does otherwise, or nothing."""
        if self.words[0] == "serve":
            return differing(b"".join(self.answers), served(program, self.words, b"".join(self.given)))
        try:
            given = b"".join(self.given)
            ran = subprocess.run([program, *self.words], input=given, capture_output=True, timeout=SECONDS)
        except subprocess.TimeoutExpired:
            return f"no end after {SECONDS} seconds"
        out, said = ran.stdout, ran.stderr.split(b"\n")[0] if ran.stderr else None
        if ran.returncode != self.status:
            return f"wanted status {self.status}, came {ran.returncode}; standard error: {ran.stderr[:300]!r}"
        if said != self.said:
            return f"the first line of standard error: wanted {self.said!r}, came {said!r}"
        if not self.has and not self.lacks and out != b"".join(self.answers):
            return differing(b"".join(self.answers), out)
        missing = [it for it in self.has if it not in out] + [b"not: " + it for it in self.lacks if it in out]
        if missing:
            return f"the answer should have this, or should not: {missing!r}"
        if out.startswith(b"<svg"):
            xml.etree.ElementTree.fromstring(out)
        return None


def differing(wanted, answered):
    """Where an answer is not the one that is wanted: the first lines of their difference, or nothing."""
    if wanted == answered:
        return None
    texts = [it.decode(errors="backslashreplace").splitlines() for it in (wanted, answered)]
    lines = list(difflib.unified_diff(*texts, "wanted", "came", lineterm="", n=1))[:40]
    return "\n    ".join(["another answer:", *(lines or [f"wanted {wanted!r}", f"came {answered!r}"])])


def served(program, words, given):
    """What a server with these words answers to clients that say these texts, one after the other."""
    words = [program, *words, "--listen", "127.0.0.1:0", "--forever"]
    out = b""
    with subprocess.Popen(words, stdin=subprocess.PIPE, stderr=subprocess.PIPE) as server:
        try:
            port = int(server.stderr.readline().rsplit(b":", 1)[1])
            for text in given.split(NEXT):
                with socket.create_connection(("127.0.0.1", port), timeout=SECONDS) as client:
                    client.sendall(text)
                    client.shutdown(socket.SHUT_WR)
                    while more := client.recv(65536):
                        out += more
            server.stdin.write(b"stop\n")
            server.stdin.close()
            server.wait(timeout=SECONDS)
        finally:
            server.kill()
    return out


def meant(escape):
    """The byte that an escape stands for; of the last one of a line none."""
    name = escape[1]
    return bytes([int(name[1:], 16)]) if name[:1] == b"x" else name.replace(b"c", b"")


def text_of(text, is_given):
    """The bytes that a text stands for: of a line of input with its line feed, unless it says that none ends it."""
    ends = is_given and not text.endswith(b"\\c")
    return ESCAPE.sub(meant, text) + b"\n" * ends


def rows_of(path):
    """The rows of a file."""
    rows = []
    with open(path, "rb") as it:
        for number, line in enumerate(it.read().split(b"\n"), 1):
            mark, _, text = line.partition(b" ")
            if mark == b"==":
                rows.append(Row(f"{os.path.relpath(path, TOP)}:{number}", text.decode().split()))
            elif line and mark != b"#" and rows:
                rows[-1].take(mark, text_of(text, mark[:1] == b">"))
    return rows


def play(what, words, rows):
    """Plays rows beside each other by the program that the words name, and reports those that come to something else:
    the exit status of the test. With --quick the slow ones are left out."""
    is_quick, program = words[0] == "--quick", os.path.realpath(words[-1])
    played, failed = [row for row in rows if not (is_quick and row.is_slow)], 0
    with ThreadPoolExecutor(len(os.sched_getaffinity(0))) as pool:
        for row, wrong in zip(played, pool.map(lambda row: row.wrong(program), played)):
            if wrong:
                failed += 1
                print(f"{row.place}: dsheet {' '.join(row.words)}: {wrong}", file=sys.stderr)
    left = f", {len(rows) - len(played)} left out" if len(rows) > len(played) else ""
    print(f"{what}: {len(played) - failed} passed, {failed} failed{left}")
    return 1 if failed else 0


def main():
    words = sys.argv[1:]
    count = 1 + (words[0] == "--quick")
    folder = f"{TOP}/tests/transcripts"
    paths = words[count:] or sorted(f"{folder}/{it}" for it in os.listdir(folder))
    return play("transcripts", words[:count], [row for path in paths for row in rows_of(path)])


if __name__ == "__main__":
    sys.exit(main())
