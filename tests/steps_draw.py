"""What steps.py draws: the lists of events."""
import random
from collections import namedtuple

PROCESSES = 3
# How many edits a process may begin, and how many steps a migration has that copies the texts of three processes.
EDITS = 256
MIGRATION = 15360 * PROCESSES + 5
# A sheet: its columns and rows, and its cells in their order, and how often each one is drawn.
Grid = namedtuple("Grid", "columns rows cells weights formulas")
SQUARE = Grid(2, 2, ("A1", "B1", "A2", "B2"), (5, 1, 1, 1),
              ("=[.B2]*[.A1]+[.A2]", "=[.A1]*[.A1]+1", "=SUM([.A1:.B2];1)", "=SUM([.A2:.B2];5)"))
COLUMN = Grid(1, 3, ("A1", "A2", "A3"), (6, 1, 1),
              ("=[.A3]*[.A1]+[.A2]", "=[.A1]*[.A1]+1", "=SUM([.A1:.A3];1)", "=SUM([.A2:.A3];5)"))
NUMBERS = ("7", "-9223372036854775808", "9223372036854775807")
# Of 121, 240 and 241 bytes.
LONG_TEXTS = ("=[.A1]+[.A2]+" + "1".zfill(108), "=[.A2]*" + "2".zfill(233), "=[.A2]*" + "2".zfill(234))
# What is drawn for the lists, and how many draws each has; how many edits process 0 has spent before.
Kind = namedtuple("Kind", "what grid layout draws spent", defaults=(0,))
KINDS = (
    Kind("edits", SQUARE, 2, 400), Kind("events", SQUARE, 2, 110), Kind("migrations", SQUARE, 1, 200),
    Kind("events", COLUMN, 2, 400), Kind("events", SQUARE, 2, 110), Kind("edits", SQUARE, 2, 400, 240),
    Kind("events", SQUARE, 2, 110), Kind("migrations", COLUMN, 1, 400), Kind("events", SQUARE, 2, 110, 253),
    Kind("migrations", SQUARE, 1, 200))
# How often each event is drawn: in lists of edits, of all events, and of these on sheets of the first layout.
WEIGHTS = {
    "edits": {"edit": 2, "evict": 1, "step": 7},
    "events": {"crash": 1, "stop": 2, "calm": 3, "whole": 4, "recover": 3, "show": 5, "evict": 9, "step": 3, "work": 17,
               "edit": 13, "loss": 4, "race": 4, "help": 2, "migrate": 3, "migration": 2, "steps": 42}}
WEIGHTS["migrations"] = {**WEIGHTS["events"], "migration": 6}


class Draw:
    """A list of one kind as it is drawn: the lines of its script, each with whether the sheet is looked at after it.
    What it knows of the processes only leads the draws, and may be wrong: it does not know when a call ends."""

    def __init__(self, seed, number, kind):
        self.random = random.Random(f"{seed} {number}")
        self.kind, self.grid, self.lines = kind, kind.grid, []
        self.processes = 2 if kind.what == "edits" else PROCESSES
        self.stopped, self.migrating, self.left = set(), None, 0
        # How many single steps of migrations the list may have yet, and whether a migration finds the texts copied.
        self.room, self.is_new = 60_000, kind.layout == 2
        self.lines.append((f"sheet {self.grid.columns} {self.grid.rows} {self.processes}", False))
        if kind.layout == 1:
            self.lines.append(("layout 1", False))
        for _ in range(kind.spent):
            self.add(f"set 0 {self.cell()} {self.below(100)}")
        names, weights = zip(*WEIGHTS[kind.what].items())
        for name in self.random.choices(names, weights, k=kind.draws - 1):
            self.next(name)
        self.calm()

    def below(self, bound):
        return self.random.randrange(bound)

    def process(self):
        return self.below(self.processes)

    def cell(self):
        """The first one more often than the others, so that edits meet."""
        return self.random.choices(self.grid.cells, self.grid.weights)[0]

    def text(self):
        """One of them has a fault, and some are long."""
        way = self.below(8)
        if way == 0:
            return self.random.choice(LONG_TEXTS)
        return self.random.choice(NUMBERS if way < 4 else ("", "=[.A1]", "=[.C1]", *self.grid.formulas))

    def place(self):
        """A word of the sheet."""
        cell, process, number = self.random.choice(self.grid.cells), self.process(), self.below(4)
        return self.random.choice((
            f"head {cell}", f"mark {cell}", f"value {cell}", f"kind {cell}", f"index {cell} 0", f"announce {process}",
            f"header {process} {number}", f"done {process} 0", f"head {self.grid.cells[0]}", "version", "mark A1",
            f"{self.random.choice(('text', 'newtext'))} {process} {number} {self.below(3)}"))

    def next(self, name):
        """One draw of this name; a stopped process mostly recovers instead."""
        process = self.process()
        if process in self.stopped and self.below(3) != 0:
            name = "recover"
        getattr(self, name)(process)

    def add(self, line, looks=True):
        self.lines.append((line, looks))

    def edit(self, process, cell=None, text=None):
        cell, text = cell or self.cell(), self.text() if text is None else text
        self.add(f"begin {process} set {cell} {text}")

    def work(self, process, cell=None):
        self.add(f"begin {process} work {cell or self.cell()}")

    def show(self, process):
        self.add(f"begin {process} show")

    def recover(self, process):
        self.add(f"begin {process} recover")
        if self.migrating is None:
            self.stopped.discard(process)

    def migrate(self, process):
        self.add(f"begin {process} migrate")
        if len(self.stopped) == self.processes:
            self.stopped.discard(process)
            self.migrating, self.left = process, 4 if self.is_new else MIGRATION

    def whole(self, process):
        """A whole call by one command, of a process that mostly has none under way."""
        if self.below(3) != 0:
            self.run(process)
        self.add(self.random.choice((
            f"set {process} {self.cell()} {self.text()}", f"work {process} {self.cell()}", f"report {process}",
            f"recover {process}", f"migrate {process}")))
        if self.lines[-1][0].startswith("recover") and self.migrating is None:
            self.stopped.discard(process)

    def step(self, process):
        self.steps(process, 1)

    def steps(self, process, count=None):
        for _ in range(self.below(12) + 1 if count is None else count):
            self.add(f"step {process}")
            self.has_made(process, 1)

    def has_made(self, process, count):
        """More steps of a migration; the last but one persists what it has done."""
        if self.migrating == process:
            self.left -= count
            self.is_new = self.is_new or self.left <= 1
            if self.left <= 0:
                self.migrating = None
                self.stopped.add(process)

    def run(self, process):
        """All steps, the first ones of which are mostly not looked at."""
        if self.migrating != process and self.below(4) == 0:
            self.steps(process, self.below(40) + 1)
        self.add(f"run {process}")
        self.has_made(process, MIGRATION)

    def evict(self, process, place=None):
        """What the word is before and after it is looked at, too."""
        place = place or self.place()
        for line in (f"word {place}", f"evict {place}", f"word {place}"):
            self.add(line, line.startswith("evict"))

    def stop(self, process):
        self.add(f"stop {process}")
        self.stopped.add(process)
        if self.migrating == process:
            self.migrating = None

    def crash(self, _process=None):
        """Some words are looked at before and after it."""
        places = [self.place() for _ in range(3)]
        for line in (*[f"word {place}" for place in places], "crash", *[f"word {place}" for place in places]):
            self.add(line, line == "crash")
        self.stopped, self.migrating = set(range(self.processes)), None

    def rest(self, process):
        """It ends its call, and recovers if it is stopped. A migration, for which a recovery waits, ends first."""
        for it in (self.migrating, process):
            if it is not None:
                self.run(it)
        if process in self.stopped:
            self.recover(process)
            self.run(process)

    def calm(self, _process=None):
        """All processes end what they do, and the sheet settles: then a report is settled. In another one an edit comes
        between."""
        for process in range(self.processes):
            self.rest(process)
        self.add(f"settle {self.process()}")
        self.add(f"report {self.process()}")
        if self.below(2) == 0:
            self.show(0)
            self.steps(0, self.below(3))
            self.add(f"set 1 {self.cell()} {self.text()}")
            self.add("settle 1")
            self.add("run 0")

    def meet(self, process):
        """Another process has edited a cell, and an edit of it by this one begins; the other one, and the cell."""
        other, cell = (process + 1 + self.below(2)) % PROCESSES, self.cell()
        self.rest(process)
        self.rest(other)
        self.edit(other, cell, "3")
        self.run(other)
        self.edit(process, cell)
        return other, cell

    def swing(self, process):
        """The edit goes on up to where it has just taken the head, or some steps."""
        if self.below(4) == 0:
            self.steps(process, self.below(28) + 8)
        else:
            self.add(f"run {process} to swung")

    def loss(self, process):
        """The other process works on the cell where the edit has just taken the head; then a crash comes."""
        other, cell = self.meet(process)
        self.swing(process)
        self.work(other, cell)
        self.run(other)
        self.crash()

    def help(self, process):
        """The other process takes the head where the edit has just taken it; it is evicted, and then a crash comes."""
        other, cell = self.meet(process)
        self.swing(process)
        self.edit(other, cell, "=[.A2]+1")
        self.add(f"run {other} to swung")
        self.evict(other, f"head {cell}")
        self.crash()

    def race(self, process):
        """The other process edits the cell during the edit, which then ends."""
        other, cell = self.meet(process)
        self.steps(process, self.below(28) + 8)
        self.edit(other, cell, "")
        self.run(other)
        self.run(process)

    def leap(self, process, count):
        """A number of steps of a migration, without looks between them, as far as the list has room for them."""
        count = min(count, 8 if self.is_new else self.room)
        self.room -= count
        self.lines += [(f"step {process}", False)] * count
        self.has_made(process, count)

    def migration(self, process):
        """All processes stop, and one makes some steps of a migration, some of its last ones, all, or any; it goes on
        then, stops, or a crash comes, before which the version's word is evicted or is not."""
        for it in range(self.processes):
            self.stop(it)
        self.migrate(process)
        way = self.below(8)
        if way < 3:
            self.leap(process, (self.below(60), self.below(MIGRATION), MIGRATION - self.below(8))[way])
        elif way < 5:
            self.run(process)
            self.compare()
        else:
            self.add(f"run {process} to copied")
            self.has_made(process, self.left - 4 if self.left > 4 else 4)
            self.steps(process, self.random.choice((1, 1, 2, 2, 3, 4)))
        ending = self.random.choice(("stays", "stops", "crashes", "evicts"))
        self.is_new = self.is_new or (self.left <= 3 and ending in ("stops", "evicts"))
        if ending == "stops":
            self.stop(process)
        elif ending == "evicts":
            self.evict(process, "version")
        if ending in ("crashes", "evicts"):
            self.crash()

    def compare(self):
        """The words of some texts, in both layouts."""
        for process in range(self.processes):
            for number in {self.below(8), self.below(20)}:
                for part in range(15):
                    self.add(f"word text {process} {number} {part}", False)
                    self.add(f"word newtext {process} {number} {part}", False)
