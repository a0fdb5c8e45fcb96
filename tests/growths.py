#!/usr/bin/env python3
"""Runs scripts by the program with one growth of memory refused, for each growth in turn: where one is refused, either
the command is refused by name, and everything after it is answered as if it had not been there; or the script ends there
with status 4, and says why. After each script stand a settle and a report, which show the sheet. Needs cc, and a program
that takes its memory from the C library, as the proved one does. The last line counts the growths.
    tests/growths.py PROGRAM
"""
import os
import subprocess
import sys
import tempfile
from collections import namedtuple

TOP = os.path.dirname(os.path.dirname(os.path.realpath(__file__)))
SECONDS = 60
END = ["settle 0", "report 0"]
SCRIPTS = {
    "an edit": ["set 0 A1 =1+2"],
    "a circle": ["set 0 A1 =[.A2]", "set 0 A2 =[.A1]", "set 0 B1 =[.A1]+1"],
    "functions": ["sheet 2 3 2", "set 0 A2 5", "set 0 B1 =MIN([.A1:.A2])", "set 0 B2 =MAX([.A1])", "set 0 B3 =[.A1]+1"],
    "a stopped work and a crash": [
        "set 0 A1 5", "begin 1 work A1", "run 1 to stored", "stop 1", "recover 1", "set 0 B1 =[.A1]", "work 0 B1", "crash",
        "recover 0", "recover 1", "set 0 A1"],
}
# How a command is refused that lacks memory: before it does anything, or a work as it reads a text.
REFUSALS = ("refused 5 NoMemory", "nomemory")
SAID = ("dsheet: out of memory\n", "error: out of memory\n")
# The answers to each command, with it; the status; what was said; whether a growth was refused.
Run = namedtuple("Run", "answers status said is_refused")


class Failed(Exception):
    """Something is not as it has to be."""


def expect(what, wanted, came):
    """What came is what is wanted."""
    if wanted != came:
        raise Failed(f"{what}\n    wanted {wanted}\n    came   {came}")


def answers_of(script, out):
    """The answer to each command, as far as there are some: of a settled report with its values."""
    rows = int(script[0].split()[2]) if script[0].startswith("sheet ") else 2
    lines, answers = out.splitlines(), []
    for command in script:
        if command.startswith("sheet ") or not lines:
            continue
        count = 1 + rows if lines[0] == "settled" else 1
        answers.append((command, "\n".join(lines[:count])))
        del lines[:count]
    expect("answers beyond the last command", [], lines)
    return answers


class Growths:
    """A program whose growths are refused."""

    def __init__(self, program, room):
        self.program, self.refuses = program, f"{room}/growths.so"
        words = ["cc", "-shared", "-fPIC", "-O1", "-Wall", "-Werror", "-o", self.refuses, f"{TOP}/tests/growths.c"]
        subprocess.run(words, check=True)

    def run(self, script, number=0):
        """A run of a script with this growth refused; with 0 none is."""
        given = "".join(f"{line}\n" for line in script).encode()
        end, to = os.pipe()
        more = {"LD_PRELOAD": self.refuses, "REFUSED_GROWTH": str(number), "REFUSAL_TO": str(to)}
        ran = subprocess.run([self.program, "run"], input=given, capture_output=True, timeout=SECONDS, pass_fds=[to],
                             env={**os.environ, **more})
        os.close(to)
        with os.fdopen(end, "rb") as it:
            is_refused = it.read() != b""
        return Run(answers_of(script, ran.stdout.decode()), ran.returncode, ran.stderr.decode(), is_refused)

    def check(self, script, whole, run):
        """What has to hold of a run with one growth refused, where this is the run with all of them."""
        if run.status == 4:
            if run.said not in SAID:
                raise Failed(f"what is said of a script that ends without memory\n    came   {run.said!r}")
            expect("what was answered before", whole.answers[:len(run.answers)], run.answers)
            return
        expect("the status, and what is said", (0, ""), (run.status, run.said))
        expect("how many answers there are", len(whole.answers), len(run.answers))
        differing = (at for at, (one, other) in enumerate(zip(whole.answers, run.answers)) if one != other)
        at = next(differing, None)
        if at is not None:
            command, answer = run.answers[at]
            if answer.partition(" ")[2] not in REFUSALS:
                raise Failed(f"the answer to {command}\n    wanted {whole.answers[at][1]}, or a refusal\n    came   {answer}")
            self.check_rest(script, run.answers, at, whole.answers[-1][1])

    def check_rest(self, script, answers, at, shown):
        """The answers after a refused command are those of the script without it. A work that was cut, and a settle, leave
        marks: until the next settle, a report may say so, and after it the sheet shows the same."""
        commands = [command for command, _ in answers]
        verb, *words = commands[at].split()
        left = [at]
        if verb == "run":
            left.append(max(it for it in range(at) if commands[it].startswith(f"begin {words[0]} ")))
        head = script[:len(script) - len(commands)]
        without = self.run(head + [it for number, it in enumerate(commands) if number not in left])
        wanted, leaves_marks = without.answers[at - len(left) + 1:], verb in ("settle", "work", "run")
        for (command, one), (_, other) in zip(wanted, answers[at + 1:]):
            leaves_marks = leaves_marks and not command.startswith("settle")
            if leaves_marks and command.startswith("report") and (other.startswith("unsettled mark") or other == shown):
                continue
            expect(f"the answer to {command}, after {commands[at]} was refused", one, other)

    def play(self, script):
        """Refuses each growth of a script in turn: how many there were."""
        script, number = [*script, *END, *END], 0
        whole = self.run(script)
        expect("with all its memory: the status, and what is said", (0, ""), (whole.status, whole.said))
        while (run := self.run(script, number + 1)).is_refused:
            number += 1
            try:
                self.check(script, whole, run)
            except Failed as wrong:
                raise Failed(f"growth {number} refused: {wrong}") from None
        expect("with all its memory, once more", whole, run)
        expect("whether it grows at all", True, number > 0)
        return number


def main(program):
    passed, failed = 0, 0
    with tempfile.TemporaryDirectory() as room:
        growths = Growths(os.path.realpath(program), room)
        for name, script in SCRIPTS.items():
            try:
                count = growths.play(script)
                passed += count
                print(f"growths: {name}: {count} refused in turn ... ok", flush=True)
            except Failed as wrong:
                print(f"tests/growths.py: {name}: {wrong}", file=sys.stderr)
                failed += 1
    print(f"growths: {passed} passed, {failed} failed")
    return 1 if failed else 0


if __name__ == "__main__":
    sys.exit(main(*sys.argv[1:]))
