"""What a sheet has to look like after each event of steps.py: its heads, its states, its texts and its values."""
import re
from collections import Counter

from values import scratch


class Failed(Exception):
    """Something is answered otherwise."""


def expect(what, wanted, answered):
    """What is answered is what is wanted."""
    if wanted != answered:
        raise Failed(f"{what}\nwanted:   {wanted}\nanswered: {answered}")


class Call:
    """What a process is in: its kind, its cell, and the number of an edit; how many steps a recovery has made, or a
    migration has left, and what that will answer; the texts that a report may show, and whether it must be settled."""

    def __init__(self, kind, cell=None):
        self.kind, self.cell, self.number, self.since = kind, cell, None, 0
        self.made, self.left, self.ends = 0, 0, None
        self.texts, self.is_calm = set(), False


class Process:
    """The call that it is in, if any; the layout that it noted, its next number, its edit that is not answered, and the
    cell that it may hold."""

    def __init__(self, layout):
        self.call, self.is_stopped, self.layout = None, False, layout
        self.next, self.open, self.holding = 0, None, None


class Looks:
    """What the sheet has to look like, from the script and its answers alone."""

    def __init__(self, kind, processes):
        self.grid = kind.grid
        self.processes = [Process(kind.layout) for _ in range(processes)]
        # The layouts that both sides of the version's word say, and whether its texts have just been copied.
        self.seen_layout = self.kept_layout = kind.layout
        self.is_copied = False
        # Each edit as it was begun last under its process and number: its cell and its text.
        self.issued = {}
        # The cells that an edit was to let refer to themselves.
        self.loops = set()
        # Of each cell the heads that count, from none on, and which of them its persisted side has.
        self.heads = {cell: [0] for cell in self.grid.cells}
        self.kept = dict.fromkeys(self.grid.cells, 0)
        self.texts = dict.fromkeys(self.grid.cells, "")
        # What each cell has shown last, and the text that it had to have then.
        self.seen = {cell: (f"{cell} clean blank", "") for cell in self.grid.cells}
        self.states = dict.fromkeys(self.grid.cells, "clean")
        self.values = dict.fromkeys(self.grid.cells, "blank")
        # Both sides of words that were looked at, where nothing has happened since that may have changed them.
        self.words = {}
        self.met = Counter()

    def keep(self, cell, heads):
        """The linearized edits of the cell are these, and its text is that of the last one."""
        self.heads[cell] = heads
        self.texts[cell] = self.issued[heads[-1] >> 8 & 255, heads[-1] & 255][1] if heads[-1] else ""

    def move(self, cell, answer):
        """The head of a cell is not what it was: a step of an edit has taken it, or has persisted the one before, or a
        recovery has persisted its own."""
        heads, kept = self.heads[cell], self.kept[cell]
        number, call = self.mover or (None, None)
        if call is None or call.kind not in ("set", "recover"):
            expect(f"nothing moves the head of {cell}", f"{heads[-1]} {heads[kept]}", answer)
        cached, persisted = map(int, answer.split())
        if cached != heads[-1]:
            wanted = (heads[-1] >> 16) + 1 << 16 | number << 8 | (call.number or 0)
            expect(f"who takes the head of {cell}", ("set", cell, wanted), (call.kind, call.cell, cached))
            expect("an edit takes the head once", 0, self.position((number, call.number)))
            if self.is_step:
                expect("the head before is persisted", heads[-1], persisted)
            self.keep(cell, heads + [cached])
        heads = self.heads[cell]
        first = max(kept, len(heads) - 2)
        if persisted not in heads[first:]:
            raise Failed(f"the persisted head of {cell}\nwanted one of: {heads[first:]}\nanswered: {persisted}")
        self.kept[cell] = heads.index(persisted, first)

    def is_quiet(self):
        """Whether no edit is open and each cell is clean."""
        are_clean = all(state == "clean" for state in self.states.values())
        return are_clean and all(process.open is None for process in self.processes)

    def look(self, looks, is_crash):
        """The cells and the version are as they have to be. Each cell is as it was where nothing has moved, and nothing
        but a work of it gives it a value, claims it or makes it clean; a crash may do all of this."""
        _, call = self.mover or (None, Call("none"))
        expect("both sides of the version", f"{self.seen_layout - 1} {self.kept_layout - 1}", looks[-1])
        for cell, peek in zip(self.grid.cells, looks[1::2]):
            if (peek, self.texts[cell]) == self.seen[cell] and self.states[cell] in ("clean", "dirty"):
                continue
            found = re.fullmatch(r"(\S+) (clean|dirty|held (\d)) (\S+) ?(.*)", peek)
            expect("a peek", cell, found[1] if found else peek)
            expect(f"the text of {cell}", self.texts[cell], found[5])
            if self.mover is None and not is_crash:
                expect(f"{cell}, which nothing has moved", self.seen[cell][0], peek)
            if not is_crash and (found[4] != self.values[cell] or found[2] not in ("dirty", self.states[cell])):
                expect(f"what makes {cell} {found[2]} {found[4]}", ("work", cell), (call.kind, call.cell or cell))
            if found[3]:
                expect(f"process {found[3]} holds {cell}", cell, self.processes[int(found[3])].holding)
            self.seen[cell], self.states[cell], self.values[cell] = (peek, self.texts[cell]), found[2], found[4]
        for process in self.processes:
            if process.call and process.call.kind == "show":
                process.call.texts.add(tuple(self.texts.values()))
        if self.is_quiet():
            self.quiet()

    def quiet(self):
        """The values are those from scratch."""
        values = scratch(self.grid.cells, tuple(self.texts.values()))
        expect("the values of a quiet sheet", values, self.values)
        self.met.update({"quiet": 1, **{it: 1 for it in ("Err:522", "#NUM!") if it in values.values()}})
