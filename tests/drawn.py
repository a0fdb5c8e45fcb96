#!/usr/bin/env python3
"""Plays scripts that are drawn at random by the program, and holds each line of its answers against a second way to
carry the scripts out. At the first line that differs it prints the script, and ends with status 1; so it does where no
script of a whole run met some kind of answer. The last line counts the scripts.
    tests/drawn.py [--quick] PROGRAM [SEED [SCRIPTS]]      2,000 scripts by one fixed seed, where no numbers are given
                                                           (300 of an unproved program, by --quick)
A script has 40 drawn commands, on a sheet of at most two columns and three rows in either layout, for two to four
processes: whole calls, begins, runs to a point or to the end, stops, crashes, evictions, settles, peeks and words. Then
both sides of all words are asked for; each process ends its call and recovers; the sheet is settled and reported; and
all cells and words are asked for once more.
The second way shares no code with the program. It packs words by arithmetic of its own, evaluates texts as sums, and
knows no steps: a call that is driven from one point to the next meets no other call between them, so each point is one
move of the words, and what is stored there is persisted there, but for what waits for a later point. What happens
between two steps of one point is left to tests/steps.py.
"""
import os
import random
import re
import subprocess
import sys
from collections import defaultdict
from concurrent.futures import ThreadPoolExecutor
from dataclasses import dataclass
from itertools import zip_longest

import values

SEED, SCRIPTS, QUICK, COMMANDS, SECONDS = 20261123, 2000, 300, 40, 120
PENDING, DONE, NOT_DONE = 1, 2, 3
BLANK, NUMBER, DIVISION, CIRCLE = 0, 1, 2, 4
IDLE, STOPPED = "idle", "stopped"
# The points of each call, in their order.
POINTS = {
    "set": ("written", "announced", "indexed", "helped", "swung", "kept", "marked", "answered"),
    "work": ("held", "stored", "valued", "spread", "cleared"),
    "report": (),
    "show": (),
    "recover": ("freed", "kept", "marked", "answered"),
    "migrate": ("copied", "switched"),
}
# The commands, and how often each is drawn.
WEIGHTS = {
    "crash": 2, "stop {process}": 4, "evict {place}": 6, "word {place}": 6, "peek {cell}": 4, "settle {process}": 4,
    "set {process} {cell} {text}": 6, "work {process} {cell}": 4, "report {process}": 4, "recover {process}": 1,
    "migrate {process}": 1, "begin {process} set {cell} {text}": 8, "begin {process} work {cell}": 6,
    "begin {process} show": 1, "begin {process} recover": 1, "begin {process} migrate": 1,
    "run {process}": 6, "run {process} to {point}": 20,
}
TEXTS = (
    "", "7", "-4", values.DIVISION_TEXT, "=[.{one}]", "=[.{one}]+1", "=[.{one}]+[.{other}]", "=SUM([.A1:.{one}];3)",
    "=[.{one}]+[.{other}]+2", "=[.{one}]+[.{beyond}]",
)
# What the answers have to come to: N is a number there and C a cell, and formulas are left out.
KINDS = {
    "N N done", "N N overtaken by N N", "N published changed", "N published same", "N again", "N notdirty", "N missed",
    "N last N C done", "N last N C not-done", "N nothing", "N migrated", "N already", "settled", "unsettled mark C N",
    "unsettled announce N N", "N begun", "N begun N", "N refused N OutsideSheet N", "N refused N Busy",
    "N refused N Stopped", "N refused N Migrating", "N refused N NotStopped", "N stopped", "N not-enabled", "crashed",
    "evicted", "clean", "left N", "N N", "C clean N", "C clean blank", "C clean #DIV/N!", "C clean Err:N", "C dirty N",
    "C dirty blank", "C dirty #DIV/N!", "C dirty Err:N", "C held N N", "C held N blank", "C held N #DIV/N!",
    "C held N Err:N",
} | {f"N at {point}" for points in POINTS.values() for point in points}


def edit_of(head):
    """The process and the number of a head's edit, or nothing of a head without one."""
    return divmod(head % 65536, 256) if head >= 65536 else None


def announcement_word(number, phase):
    return (number + 1) * 4 + phase


def mark_word(generation, holder, dirty):
    """A mark that this process holds, or nobody."""
    return generation * 32 + (0 if holder is None else holder + 1) * 2 + dirty


def holder_of(mark):
    return mark // 2 % 16 - 1 if mark // 2 % 16 else None


def is_clean(mark):
    return mark % 32 == 0


def is_marked(mark):
    return mark % 32 == 1


def evaluate(text, words, endless):
    """Value and kind of a cell with this text, from those of all cells; references of this height never end. A crash
    may leave a value beside the kind of another one: it counts where the kind says that it is a number."""
    if not text:
        return 0, BLANK
    inputs = {cell: words(cell) for cell in values.cells_of(text)}
    height = min(endless, max((kind // 8 + 1 for _, kind in inputs.values()), default=0))
    if height == endless:
        return 0, height * 8 + CIRCLE
    found = values.value_of(text, {cell: value_in(*word) for cell, word in inputs.items()})
    return (0, height * 8 + DIVISION) if found == values.DIVISION else (found % 2**64, height * 8 + NUMBER)


def value_in(value, kind):
    """The value that two words of a cell are, which is not circular."""
    number = value - 2**64 if value >= 2**63 else value
    return {BLANK: None, NUMBER: number, DIVISION: values.DIVISION}[kind % 8]


@dataclass
class Call:
    """A call of a process: its name, its moves from point to point, and how many points it has passed."""

    name: str
    moves: object
    behind: int = 0

    def go_on(self):
        """To the next point; the answer, where that comes first."""
        try:
            self.behind = POINTS[self.name].index(next(self.moves)) + 1
        except StopIteration as end:
            return end.value
        return None


class Sheet:
    """The words of a sheet by their places, each on two sides, the records of its edits, and what its processes do."""

    def __init__(self, columns, rows, processes, layout):
        self.rows = [[f"{chr(65 + column)}{row + 1}" for column in range(columns)] for row in range(rows)]
        self.cells = [cell for row in self.rows for cell in row]
        self.cached, self.persisted, self.records = defaultdict(int), defaultdict(int), {}
        self.put("version", layout - 1)
        self.calls, self.numbers = [IDLE] * processes, [0] * processes

    def keep(self, *places):
        """Cached sides are persisted: evicted, or flushed and written back with no other step between."""
        for place in places:
            self.persisted[place] = self.cached[place]

    def put(self, place, word):
        """Stores a word and keeps it."""
        self.cached[place] = word
        self.keep(place)

    def join(self, place, bits):
        """Sets bits of a word and keeps it."""
        self.put(place, self.cached[place] | bits)

    def mark(self, cell):
        return self.cached[f"mark {cell}"]

    def words(self, cell):
        return self.cached[f"value {cell}"], self.cached[f"kind {cell}"]

    def text(self, cell):
        edit = edit_of(self.cached[f"head {cell}"])
        return self.records[edit][1] if edit else ""

    def shown(self, cell):
        """The value that a cell shows."""
        value, kind = self.words(cell)
        number = value - 2**64 if value >= 2**63 else value
        return {BLANK: "", NUMBER: str(number), DIVISION: "#DIV/0!", CIRCLE: "Err:522"}[kind % 8]

    def edit(self, process, cell, text):
        """An edit from point to point, and its answer."""
        number, head, announcement = self.numbers[process], f"head {cell}", f"announce {process}"
        self.records[process, number] = cell, text
        yield "written"
        self.put(announcement, announcement_word(number, PENDING))
        yield "announced"
        for other in values.cells_of(text):
            self.join(f"index {other} 0", 1 << self.cells.index(cell))
        yield "indexed"
        noted = self.cached[head]
        if edit_of(noted):
            other, its_number = edit_of(noted)
            self.keep(head)
            self.join(f"done {other} 0", 1 << its_number)
        yield "helped"
        met = self.cached[head]
        if met == noted:
            self.cached[head] = (noted // 65536 + 1) * 65536 + process * 256 + number
            yield "swung"
            self.keep(head)
            yield "kept"
            self.join(f"mark {cell}", 1)
        yield "marked"
        self.put(announcement, announcement_word(number, DONE if met == noted else NOT_DONE))
        yield "answered"
        self.numbers[process] = number + 1
        if met == noted:
            return f"{process} {number} done"
        other, its_number = edit_of(met)
        return f"{process} {number} overtaken by {other} {its_number}"

    def work(self, process, cell):
        """Work from point to point, and its answer."""
        value, kind, mark, generation = f"value {cell}", f"kind {cell}", f"mark {cell}", self.mark(cell) // 32 + 1
        if not is_marked(self.mark(cell)):
            return f"{process} {'notdirty' if is_clean(self.mark(cell)) else 'missed'}"
        held = mark_word(generation, process, 0)
        self.put(mark, held)
        yield "held"
        found = evaluate(self.text(cell), self.words, len(self.cells))
        has_changed = found != self.words(cell)
        if has_changed:
            self.cached[value], self.cached[kind] = found
            yield "stored"
            self.keep(value, kind)
            yield "valued"
            self.mark_row(cell)
        yield "spread"
        is_untouched = self.mark(cell) == held
        self.put(mark, mark_word(generation + 1, None, 0 if is_untouched else 1))
        yield "cleared"
        if not is_untouched:
            return f"{process} again"
        return f"{process} published {'changed' if has_changed else 'same'}"

    def mark_row(self, cell):
        """Each cell of the index row is marked."""
        for number, other in enumerate(self.cells):
            if self.cached[f"index {cell} 0"] >> number & 1:
                self.join(f"mark {other}", 1)

    def recovery(self, process):
        """A recovery from point to point, and its answer."""
        self.free(process)
        yield "freed"
        announcement = f"announce {process}"
        number, phase = self.cached[announcement] // 4 - 1, self.cached[announcement] % 4
        if number < 0:
            return f"{process} nothing"
        cell, _ = self.records[process, number]
        if phase == PENDING:
            phase = self.outcome(process, number, cell)
            yield "kept"
            self.join(f"mark {cell}", 1)
        yield "marked"
        self.put(announcement, announcement_word(number, phase))
        yield "answered"
        self.numbers[process] = number + 1
        return f"{process} last {number} {cell} {'done' if phase == DONE else 'not-done'}"

    def free(self, process):
        """Each cell that the process holds is given back dirty."""
        for cell in self.cells:
            mark = self.mark(cell)
            if holder_of(mark) == process:
                self.keep(f"value {cell}", f"kind {cell}")
                self.mark_row(cell)
                self.put(f"mark {cell}", mark_word(mark // 32 + 1, None, 1))

    def outcome(self, process, number, cell):
        """How an edit ended whose announcement is pending: by its head, which is kept then, or else by its done bit."""
        if edit_of(self.cached[f"head {cell}"]) == (process, number):
            self.keep(f"head {cell}")
            return DONE
        return DONE if self.cached[f"done {process} 0"] >> number & 1 else NOT_DONE

    def migration(self, process):
        """A migration from point to point, and its answer."""
        if self.cached["version"]:
            return f"{process} already"
        yield "copied"
        self.put("version", 1)
        yield "switched"
        return f"{process} migrated"

    def report(self, _process):
        """A report, which has no points: its answer."""
        yield from ()
        for other in range(len(self.calls)):
            word = self.cached[f"announce {other}"]
            if word % 4 == PENDING:
                return f"unsettled announce {other} {word}"
        for cell in self.cells:
            if not is_clean(self.mark(cell)):
                return f"unsettled mark {cell} {self.mark(cell)}"
        rows = [",".join(self.shown(cell) for cell in row) for row in self.rows]
        return "\n".join(["settled", *(row or '""' for row in rows)])

    def refusal(self, process, name, *more):
        """Why a call cannot begin, if it cannot."""
        call = self.calls[process]
        if isinstance(call, Call):
            return f"{process} refused 2 Busy"
        if name == "migrate":
            return None if self.are_stopped() else f"{process} refused 7 NotStopped"
        if name == "recover":
            is_migrated = any(isinstance(it, Call) and it.name == "migrate" for it in self.calls)
            return f"{process} refused 6 Migrating" if is_migrated else None
        if call is STOPPED:
            return f"{process} refused 3 Stopped"
        for at, cells in values.references(more[1]) if name == "set" else ():
            if not set(cells) <= set(self.cells):
                return f"{process} refused 1 OutsideSheet {at}"
        return None

    def are_stopped(self):
        return all(call is STOPPED for call in self.calls)

    def begin(self, process, name, *more):
        """A call begins; what is answered."""
        refused = self.refusal(process, name, *more)
        if refused:
            return refused
        moves = {"set": self.edit, "work": self.work, "recover": self.recovery, "migrate": self.migration}
        self.calls[process] = Call(name, moves.get(name, self.report)(process, *more))
        return f"{process} begun {self.numbers[process]}" if name == "set" else f"{process} begun"

    def run(self, process, point=None):
        """A call goes on to a point, or to its end; what is answered."""
        call = self.calls[process]
        if not isinstance(call, Call):
            return f"{process} not-enabled"
        while point not in POINTS[call.name][: call.behind]:
            answer = call.go_on()
            if answer:
                self.calls[process] = STOPPED if call.name == "migrate" else IDLE
                return answer
        return f"{process} at {point}"

    def whole(self, process, name, *more):
        answer = self.begin(process, name, *more)
        return answer if "refused" in answer else self.run(process)

    def stop(self, process):
        if self.calls[process] is STOPPED:
            return f"{process} not-enabled"
        self.calls[process] = STOPPED
        return f"{process} stopped"

    def crash(self):
        """What is not persisted is lost, and all processes stop."""
        self.cached = self.persisted.copy()
        self.calls = [STOPPED] * len(self.calls)
        return "crashed"

    def settle(self, process):
        """Rounds of works on the cells that are marked; what is answered."""
        for _ in range(len(self.cells) + 2):
            has_found = False
            for cell in self.cells:
                if is_marked(self.mark(cell)):
                    has_found = True
                    answer = self.whole(process, "work", cell)
                    if "refused" in answer:
                        return answer
            if not has_found:
                break
        left = sum(not is_clean(self.mark(cell)) for cell in self.cells)
        return f"left {left}" if left else "clean"

    def peek(self, cell):
        """What a cell shows, and its text."""
        mark, holder = self.mark(cell), holder_of(self.mark(cell))
        state = f"held {holder}" if holder is not None else "clean" if is_clean(mark) else "dirty"
        return f"{cell} {state} {self.shown(cell) or 'blank'} {self.text(cell)}".rstrip()

    def answer(self, line):
        """Carries a line out; what is answered."""
        match line.split(" "):
            case ["crash"]:
                return self.crash()
            case ["evict", *place]:
                self.keep(" ".join(place))
                return "evicted"
            case ["word", *place]:
                return f"{self.cached[' '.join(place)]} {self.persisted[' '.join(place)]}"
            case ["peek", cell]:
                return self.peek(cell)
            case ["stop", process]:
                return self.stop(int(process))
            case ["settle", process]:
                return self.settle(int(process))
            case ["run", process, *to]:
                return self.run(int(process), *to[1:])
            case ["begin", process, name, *more]:
                return self.begin(int(process), name, *more)
            case [name, process, *more]:
                return self.whole(int(process), name, *more)


class Script:
    """A drawn script, and what each of its lines is to answer."""

    def __init__(self, draw, number):
        self.draw, self.number, self.answers = draw, number, []
        columns, rows, processes, layout = (draw.randint(*it) for it in ((1, 2), (1, 3), (2, 4), (1, 2)))
        self.lines = [f"sheet {columns} {rows} {processes}"] + ["layout 1"] * (layout == 1)
        self.sheet, self.beyond = Sheet(columns, rows, processes, layout), f"{chr(65 + columns)}1"
        self.places = [f"{word} {cell}" for cell in self.sheet.cells for word in ("head", "mark", "value", "kind")]
        self.places += [f"index {cell} 0" for cell in self.sheet.cells] + ["version"]
        self.places += [it for process in range(processes) for it in (f"announce {process}", f"done {process} 0")]
        for _ in range(COMMANDS):
            self.add(self.draw_line())
        words = [f"word {place}" for place in self.places]
        ends = [f"{word} {process}" for word in ("run", "recover") for process in range(processes)]
        shown = [f"peek {cell}" for cell in self.sheet.cells]
        for line in [*words, *ends, "settle 0", "report 1", *shown, *words]:
            self.add(line)

    def add(self, line):
        """A line, and the lines that it is to answer."""
        self.lines.append(line)
        self.answers += [(line, it) for it in self.sheet.answer(line).split("\n")]

    def draw_line(self):
        """One command. A stopped process mostly recovers, or migrates the sheet where all are stopped; an idle one
        mostly begins a call where it was to go on or stop, and one in a call mostly goes on where it was to begin."""
        draw, process = self.draw, self.draw.randrange(len(self.sheet.calls))
        call, command = self.sheet.calls[process], draw.choices(list(WEIGHTS), WEIGHTS.values())[0]
        if call is STOPPED and draw.randrange(3):
            name = "migrate" if self.sheet.are_stopped() and not draw.randrange(3) else "recover"
            command = f"{name} {process}" if draw.randrange(3) else f"begin {process} {name}"
        elif call is IDLE and command.startswith(("run", "stop")) and draw.randrange(8):
            command = draw.choice(("begin {process} set {cell} {text}", "begin {process} work {cell}"))
        elif isinstance(call, Call) and command.startswith(("begin", "set", "work")) and draw.randrange(4):
            command = "run {process} to {point}"
        points = POINTS[call.name if isinstance(call, Call) else "set"]
        if not points:
            command = command.replace(" to {point}", "")
        point = draw.choice(points or [None])
        cell = self.draw_cell("work" in command)
        return command.format(process=process, cell=cell, text=self.draw_text(), place=self.draw_place(), point=point)

    def draw_cell(self, works=False):
        """A1 more often than the others, so that calls meet; for works mostly one that is marked."""
        cells = self.sheet.cells
        marked = [cell for cell in cells if is_marked(self.sheet.mark(cell))]
        if works and marked and self.draw.randrange(4):
            return self.draw.choice(marked)
        return self.draw.choice(cells[1:] or cells) if self.draw.randrange(2) else cells[0]

    def draw_text(self):
        """A text, one in ten with a fault."""
        one, other = (self.draw.choice(self.sheet.cells) for _ in range(2))
        return self.draw.choice(TEXTS).format(one=one, other=other, beyond=self.beyond)

    def draw_place(self):
        """The place of a word whose sides differ; where there is none, of any, most often of a head or a mark."""
        sheet, cell = self.sheet, self.draw_cell()
        places = [it for it in self.places if sheet.cached[it] != sheet.persisted[it]]
        return self.draw.choice(places or [f"head {cell}", f"mark {cell}", *self.places])

    def wrong(self, program):
        """What the program answers otherwise, or nothing."""
        given = "".join(f"{line}\n" for line in self.lines)
        try:
            ran = subprocess.run([program, "run"], input=given.encode(), capture_output=True, timeout=SECONDS)
        except subprocess.TimeoutExpired:
            return f"no end after {SECONDS} seconds"
        lines = ran.stdout.decode(errors="replace").split("\n")[:-1]
        if ran.returncode or values.faults_shown(ran.stderr.decode()) != values.faults_answered(lines):
            return f"status {ran.returncode}; standard error: {ran.stderr[:300]!r}"
        pairs = enumerate(zip_longest(self.answers, lines, fillvalue=None))
        differs = next((at for at, (wanted, answered) in pairs if not wanted or wanted[1] != answered), None)
        if differs is None:
            return None
        line, wanted = (self.answers + [("", "no more")])[differs]
        answered = (lines + ["no more"])[differs]
        return f"line {differs + 1} of the answers, of '{line}'\n    wanted   {wanted}\n    answered {answered}"


def kind_of(answer):
    """An answer with N for each number and C for each cell, and without its formula."""
    return re.sub(r"-?\b\d+\b", "N", re.sub(r"\b[A-Z]\d\b", "C", answer.partition(" =")[0]))


def differing(program, seed, scripts):
    """Plays scripts: how many were answered as they have to be until the first one that was not, what was wrong
    with that, and which kinds of answers there were."""
    draw, kinds, passed = random.Random(seed), set(), 0
    drawn = (Script(draw, number) for number in range(1, scripts + 1))
    with ThreadPoolExecutor(len(os.sched_getaffinity(0))) as pool:
        for script, wrong in pool.map(lambda script: (script, script.wrong(program)), drawn):
            if wrong:
                pool.shutdown(cancel_futures=True)
                lines = "\n".join(script.lines)
                return passed, f"{lines}\ntests/drawn.py: seed {seed}, script {script.number}: {wrong}", kinds
            passed += 1
            kinds.update(kind_of(answer) for _, answer in script.answers)
    return passed, None, kinds


def main(*words):
    is_quick = words[0] == "--quick"
    program, *numbers = words[is_quick:]
    seed, scripts = (int(it) for it in [*numbers, *(SEED, QUICK if is_quick else SCRIPTS)[len(numbers):]])
    passed, wrong, kinds = differing(os.path.realpath(program), seed, scripts)
    if not wrong and scripts >= SCRIPTS and KINDS - kinds:
        wrong = f"tests/drawn.py: seed {seed}: no answer like these: {', '.join(sorted(KINDS - kinds))}"
    if wrong:
        print(wrong, file=sys.stderr)
    print(f"drawn: {passed} passed, {1 if wrong else 0} failed")
    return 1 if wrong else 0


if __name__ == "__main__":
    sys.exit(main(*sys.argv[1:]))
