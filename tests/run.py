#!/usr/bin/env python3
"""Plays the tests of the program, two parts at a time, with a line for each part: its name, its rows and its seconds. The
last line counts all rows. Nothing is proved by it.
    tests/run.py [--quick] --program FILE [PART ..]        all parts, where none is named
    ./dsheet test [PART ..]                                 by a program of the sources as they stand
--quick leaves out what takes an unproved program long. A row that is otherwise is named with its file and line, what was
wanted and what came. Exit status 1 where any is.
Parts: """
import argparse
import os
import re
import signal
import subprocess
import sys
import threading
import time
from collections import namedtuple
from concurrent.futures import ThreadPoolExecutor

TOP = os.path.dirname(os.path.dirname(os.path.realpath(__file__)))
AT_ONCE, SECONDS = 2, 3600
# A part: its file in tests/, whether it takes a program, whether it knows --quick, and whether no unproved program can play
# it.
Part = namedtuple("Part", "file takes_program knows_quick needs_proved", defaults=(True, False, False))
# Those that take long come first.
PARTS = {
    "drawn": Part("drawn.py", knows_quick=True),
    "store": Part("store.py", knows_quick=True),
    "transcripts": Part("transcripts.py", knows_quick=True),
    "steps": Part("steps.py", knows_quick=True),
    "computed": Part("computed.py", knows_quick=True),
    "migrations": Part("migrations.sh", knows_quick=True),
    "wrapper": Part("wrapper.sh", takes_program=False),
    "serving": Part("serving.sh"),
    "load": Part("load.py", knows_quick=True),
    "http": Part("http.py", knows_quick=True),
    "keys": Part("keys.py", knows_quick=True),
    "browser": Part("browser.py"),
    "connect": Part("connect.sh"),
    "terminal": Part("terminal.py"),
    "json": Part("json_answers.py", knows_quick=True),
    "program": Part("program.sh"),
    "examples": Part("examples.sh"),
    "pictures": Part("pictures.py"),
    "growths": Part("growths.py", needs_proved=True),
    "embedding": Part("embedding.sh", takes_program=False),
    "queue": Part("queue.sh", takes_program=False),
}
# The libraries for C that parts need.
LIBRARIES = {"embedding": "ds_c", "queue": "pq_c"}
COUNTS = re.compile(r"^(\w+): (\d+) passed, (\d+) failed(?:, (\d+) left out)?$")
# What a part came to: rows, and what it printed of those that are otherwise.
Result = namedtuple("Result", "name passed failed left seconds said")


class Tests:
    """The parts under way: they end with this program."""

    def __init__(self, program, is_quick):
        self.program, self.is_quick = program, is_quick
        self.running, self.lock, self.is_over = set(), threading.Lock(), False

    def start(self, part):
        """Starts a part, in a group of processes of its own."""
        quick = ["--quick"] if self.is_quick and part.knows_quick else []
        words = [f"{TOP}/tests/{part.file}", *quick, *[self.program] * part.takes_program]
        pipes = {"stdin": subprocess.DEVNULL, "stdout": subprocess.PIPE, "stderr": subprocess.PIPE}
        with self.lock:
            if self.is_over:
                return None
            ran = subprocess.Popen(words, cwd=TOP, text=True, errors="replace", start_new_session=True, **pipes)
            self.running.add(ran)
        return ran

    def play(self, name):
        """Plays a part: what it came to, or nothing where the tests are over."""
        begun, ran = time.monotonic(), self.start(PARTS[name])
        if ran is None:
            return None
        try:
            out, said = ran.communicate(timeout=SECONDS)
        except subprocess.TimeoutExpired:
            self.end(ran)
            out, said = ran.communicate()
            said += f"no end after {SECONDS} seconds\n"
        with self.lock:
            self.running.discard(ran)
        counts = COUNTS.match((out.rstrip().splitlines() or [""])[-1])
        passed, failed, left = (int(it or 0) for it in counts.groups()[1:]) if counts else (0, 0, 0)
        if not counts or ran.returncode and not failed:
            failed += 1
            said += f"{name}: it ended with status {ran.returncode}, and no row of it was otherwise\n"
        return Result(name, passed, failed, left, time.monotonic() - begun, said if failed else "")

    def end(self, ran):
        """Ends a part with all that it has started."""
        try:
            os.killpg(ran.pid, signal.SIGKILL)
        except ProcessLookupError:
            pass

    def end_all(self, number, _frame):
        """Ends all, where this program is to end."""
        with self.lock:
            self.is_over = True
            for ran in self.running:
                self.end(ran)
        os._exit(128 + number)


def report(result):
    """The line of a part, and what it said of rows that are otherwise."""
    left = f", {result.left} left out" if result.left else ""
    line = f"{result.name}: {result.passed} passed, {result.failed} failed{left}, {result.seconds:.0f} s"
    print(f"dsheet test: {line}", flush=True)
    for said in result.said.splitlines()[:200]:
        print(f"    {said}", flush=True)


def lack_of(name, is_quick):
    """What a part needs that is not there, or nothing."""
    if PARTS[name].needs_proved and is_quick:
        return "the proved program: ./dsheet build"
    if name in LIBRARIES:
        built = subprocess.run([f"{TOP}/tests/{PARTS[name].file}", "--is-built"], stderr=subprocess.DEVNULL)
        return f"the library for C: (cd crates/{LIBRARIES[name]} && rt lib)" if built.returncode else None
    if name == "browser" and subprocess.run([f"{TOP}/tests/browser.py", "--is-there"]).returncode:
        return "Chromium"
    return None


def chosen(names, is_quick):
    """The parts that are asked for, without those that cannot be played; of these it says why."""
    lacks = {name: lack_of(name, is_quick) for name in names or PARTS}
    for name, lack in lacks.items():
        if lack:
            print(f"dsheet test: {name}: not played: needs {lack}", flush=True)
    return [name for name, lack in lacks.items() if not lack]


def main():
    reader = argparse.ArgumentParser(description=__doc__ + ", ".join(PARTS), formatter_class=argparse.RawTextHelpFormatter,
                                     usage=argparse.SUPPRESS)
    reader.add_argument("--program", required=True, metavar="FILE")
    reader.add_argument("--quick", action="store_true")
    reader.add_argument("parts", nargs="*", choices=[*PARTS, []], metavar="PART")
    words = reader.parse_args()
    tests = Tests(os.path.realpath(words.program), words.quick)
    for number in (signal.SIGINT, signal.SIGTERM, signal.SIGHUP):
        if signal.getsignal(number) is not signal.SIG_IGN:
            signal.signal(number, tests.end_all)
    results = []
    with ThreadPoolExecutor(AT_ONCE) as pool:
        for coming in [pool.submit(tests.play, name) for name in chosen(words.parts, words.quick)]:
            coming.add_done_callback(lambda it: (results.append(it.result()), report(it.result())))
    passed, failed = sum(it.passed for it in results), sum(it.failed for it in results)
    print("dsheet test: nothing was proved by these tests; the proof is `rt ci`")
    print(f"{passed} passed, {failed} failed")
    return 1 if failed else 0


if __name__ == "__main__":
    sys.exit(main())
