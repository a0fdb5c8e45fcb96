#!/usr/bin/env python3
"""Plays drawn scripts of single events by the program: begins, steps, evictions, stops, crashes, recoveries and
migrations, and processes that meet at a cell. Behind each event it holds the heads, the states, the texts and the
values of all cells, and the version of the sheet, against a recount that it makes of the script and its answers alone.
The last line counts the lists.
    tests/steps.py [--quick] PROGRAM [SEED [LISTS]]       seed 2026 and 160 lists, where no numbers are given (10 of an
                                                          unproved program, by --quick)
A list that is answered otherwise is printed up to there, as a script for `dsheet run`. Lists are played beside each
other, as many as there are processors that the tool may use. Whole runs have to meet answers of each kind.
"""
import os
import subprocess
import sys
from collections import Counter
from concurrent.futures import ThreadPoolExecutor

import values
from steps_draw import KINDS, Draw
from steps_looks import Failed, expect
from steps_recount import Recount

SECONDS = 600
LISTS, QUICK = 160, 10
# How many answers of each kind the lists of a whole run meet at least.
LEAST = {
    "done": 5000, "overtaken": 50, "counted": 1500, "uncounted": 300, "nothing": 100, "published": 200, "again": 200,
    "notdirty": 200, "missed": 10, "settled": 300, "unsettled": 100, "migrated": 15, "already": 100, "Busy": 2000,
    "Stopped": 200, "RecordsFull": 15, "Migrating": 20, "NotStopped": 100, "OutsideSheet": 100, "TooLong 120": 10,
    "TooLong 240": 40, "not-enabled": 1000, "a head taken back": 150, "a head kept by an eviction": 150, "quiet": 5000,
    "Err:522": 1000, "#NUM!": 40, "copied words": 200, "a layout taken back": 1, "a layout kept by a migration": 10,
    "a layout kept by a recovery": 1, "a layout kept by an eviction": 1, "later texts": 20}


def looks_at(grid):
    """The lines of a script that look at a sheet."""
    return [line for cell in grid.cells for line in (f"word head {cell}", f"peek {cell}")] + ["word version"]


def answers_of(program, lines, grid):
    """What the program answers to the lines of a script, one after the other; a report's with its values."""
    given = "\n".join(lines) + "\n"
    ran = subprocess.run([program, "run"], input=given, capture_output=True, text=True, timeout=SECONDS)
    out = iter(ran.stdout.splitlines())
    for line in out:
        yield "\n".join([line, *[next(out, "") for _ in range(grid.rows)]]) if line == "settled" else line
    faults = values.faults_shown(ran.stderr)
    is_whole = faults == values.faults_answered(ran.stdout.splitlines())
    yield f"status {ran.returncode}: {'' if is_whole else ran.stderr}"


def play(program, seed, number):
    """Plays a list; how many events it had, what it met, and what was answered otherwise, if anything was."""
    kind = KINDS[number % len(KINDS)]
    draw = Draw(seed, number, kind)
    block = looks_at(kind.grid)
    lines = [line for event, looks in draw.lines for line in [event] + block * looks]
    answers = answers_of(program, lines, kind.grid)
    recount, events, answer = Recount(kind, draw.processes), 0, None
    try:
        for at, (line, looks) in enumerate(draw.lines):
            if not line.startswith(("sheet ", "layout ")):
                events += not line.startswith("word ")
                answer = next(answers, "nothing")
                recount.happen(line, answer, [next(answers, "nothing") for _ in block] if looks else None)
        at, line = len(draw.lines), "the end"
        expect("the script ends", "status 0: ", next(answers, "nothing"))
    except (Failed, LookupError, ValueError) as wrong:
        script = "\n".join(line for line, _ in draw.lines[:at + 1])
        what = wrong if isinstance(wrong, Failed) else f"an answer that can not be: {wrong!r}; answered: {answer}"
        return events, recount.met, f"seed {seed}, list {number}:\n{script}\nat {line!r}: {what}"
    return events, recount.met, None


def differing(program, seed, count):
    """Plays lists: how many were answered as they have to be until the first one that was not, what was wrong
    with that, and how many answers of each kind there were."""
    passed, events, met = 0, 0, Counter()
    with ThreadPoolExecutor(len(os.sched_getaffinity(0))) as pool:
        for more, counts, wrong in pool.map(lambda number: play(program, seed, number), range(count)):
            if wrong:
                pool.shutdown(cancel_futures=True)
                return passed, f"tests/steps.py: {wrong}", met
            passed, events, met = passed + 1, events + more, met + counts
    print(f"steps: {passed} lists of {events} events as recounted")
    return passed, None, met


def main(*words):
    is_quick = words[0] == "--quick"
    program, *numbers = words[is_quick:]
    seed, count = [*numbers, *("2026", QUICK if is_quick else LISTS)[len(numbers):]]
    passed, wrong, met = differing(os.path.realpath(program), seed, int(count))
    few = [f"{met[it]} times {it}" for it, least in LEAST.items() if met[it] < least]
    if not wrong and few and int(count) >= LISTS:
        wrong = f"tests/steps.py: seed {seed} met only {', '.join(few)}"
    if wrong:
        print(wrong, file=sys.stderr)
    print(f"steps: {passed} passed, {1 if wrong else 0} failed")
    return 1 if wrong else 0


if __name__ == "__main__":
    sys.exit(main(*sys.argv[1:]))
