"""The recount of steps.py: each command, and what it is answered."""

from steps_answers import Answers
from steps_draw import EDITS, MIGRATION
from steps_looks import Call, expect
from values import cells_of

# How many bytes a text may have, by layout.
LONGEST = {1: 120, 2: 240}
# The kind of call of each command that carries out a whole one.
WHOLE = {"set": "set", "work": "work", "recover": "recover", "report": "show", "migrate": "migrate"}


def fault_of(text, layout):
    """Why a text that is drawn is refused in a layout, if it is."""
    if len(text) > LONGEST[layout]:
        return f"TooLong {LONGEST[layout]}"
    return "OutsideSheet 1" if text == "=[.C1]" else None


class Recount(Answers):
    """What the sheet has to be, from the script and its answers alone."""

    def happen(self, line, answer, looks):
        """A command was answered this, and then the sheet looked so: its heads, its cells, its version."""
        verb, *fields = line.split(" ", 1)
        self.mover, self.is_step = None, verb == "step"
        if verb in WHOLE:
            ended = self.whole(WHOLE[verb], *fields, answer)
        else:
            ended = getattr(self, verb)(*fields, answer=answer)
        if looks:
            for cell, head in zip(self.grid.cells, looks[0::2]):
                if head != f"{self.heads[cell][-1]} {self.heads[cell][self.kept[cell]]}":
                    self.move(cell, head)
        if ended:
            self.end(*ended, answer)
        if self.mover or verb == "crash":
            self.disturb(verb)
        if looks:
            self.look(looks, verb == "crash")

    def refused(self, number, kind, text):
        """Why a call of the process may not begin, if it may not."""
        process = self.processes[number]
        others = [it for it in self.processes if it is not process]
        if process.call:
            return "2 Busy"
        if kind == "recover":
            return "6 Migrating" if any(it.call and it.call.kind == "migrate" for it in others) else None
        if kind == "migrate":
            return None if all(it.is_stopped for it in self.processes) else "7 NotStopped"
        if process.is_stopped:
            return "3 Stopped"
        if kind == "set":
            fault = fault_of(text, process.layout)
            return f"1 {fault}" if fault else "4 RecordsFull" if process.next == EDITS else None
        return None

    def enter(self, number, kind, cell, text, answer):
        """A call of the process begins, or is refused; the call."""
        refusal = self.refused(number, kind, text)
        if refusal:
            expect("a refusal", f"{number} refused {refusal}", answer)
            self.met[refusal[2:] if "TooLong" in refusal else refusal.split()[1]] += 1
            return None
        process, call = self.processes[number], Call(kind, cell)
        process.call, process.is_stopped = call, False
        if kind == "set":
            expect("no edit of the process is open", None, process.open)
            call.number, call.since = process.next, len(self.heads[cell])
            process.open = call.number
            self.issued[number, call.number] = cell, text
            self.loops |= {cell} & set(cells_of(text))
            self.is_copied = False
        elif kind == "work":
            process.holding = cell
        elif kind == "show":
            call.texts, call.is_calm = {tuple(self.texts.values())}, self.is_quiet()
        elif kind == "migrate":
            call.left, call.ends = (MIGRATION, "migrated") if self.seen_layout == 1 else (4, "already")
        return call

    def begin(self, fields, answer):
        number, kind, cell, text = (fields.split(" ", 3) + ["", ""])[:4]
        call = self.enter(int(number), kind, cell, text, answer)
        if call:
            expect("a begin", f"{number} begun" + (f" {call.number}" if kind == "set" else ""), answer)

    def whole(self, kind, fields, answer):
        """A call from its begin to its end."""
        number, cell, text = (fields.split(" ", 2) + ["", ""])[:3]
        call = self.enter(int(number), kind, cell, text, answer)
        if call is None:
            return None
        self.run(number, answer)
        if kind == "work":
            wanted = {"clean": "notdirty", "dirty": "published"}.get(self.states[cell], "missed")
            told = answer.split()[1]
            # It marks its own cell, where an edit has said in the index that the cell refers to itself.
            expect("a whole work", wanted, "published" if told == "again" and cell in self.loops else told)
        return int(number), call

    def advance(self, process, call):
        """A step of a recovery or of a migration, and what it makes of the version's word. A recovery's first one notes
        the layout, and its third one persists it. So does a migration's last one but one; its fourth one from the end
        swaps the word, where the texts were copied."""
        if call.kind == "recover":
            if call.made == 0:
                process.layout = self.seen_layout
            if call.made == 2:
                self.keep_layout("a recovery")
            call.made += 1
        elif call.kind == "migrate":
            if call.left == 4 and call.ends == "migrated":
                self.seen_layout = 2
            if call.left == 2:
                self.keep_layout("a migration")
            call.left -= 1

    def keep_layout(self, what):
        """Something persists the version's word."""
        self.met[f"a layout kept by {what}"] += self.seen_layout != self.kept_layout
        self.kept_layout = self.seen_layout

    def step(self, fields, answer):
        number = int(fields)
        process = self.processes[number]
        call = process.call
        if call is None:
            return self.not_enabled(number, answer)
        self.mover = number, call
        self.advance(process, call)
        if call.kind == "migrate":
            expect("a step of a migration", f"{number} {'stepped' if call.left else call.ends}", answer)
        return None if answer == f"{number} stepped" else (number, call)

    def not_enabled(self, number, answer):
        self.met["not-enabled"] += 1
        expect("of a process in no call", f"{number} not-enabled", answer)

    def run(self, fields, answer):
        number, _, point = fields.split(" ", 1)[0], *fields.partition(" to ")[1:]
        process = self.processes[int(number)]
        call = process.call
        if call is None:
            return self.not_enabled(number, answer)
        self.mover = int(number), call
        if call.kind == "recover":
            while call.made < 3:
                self.advance(process, call)
        if call.kind == "migrate":
            # The texts are copied after the step before the swap. Where there are none to copy, it comes to no point.
            left = 4 if point and call.ends == "migrated" else 0
            call.left = min(call.left, 4)
            while call.left > left:
                self.advance(process, call)
            expect("a migration", f"{number} {'at ' + point if left else call.ends}", answer)
        return None if answer == f"{number} at {point}" else (int(number), call)

    def settle(self, fields, answer):
        expect("a settle of processes that are idle", "clean", answer)
        self.mover = int(fields), Call("work")

    def stop(self, fields, answer):
        process = self.processes[int(fields)]
        expect("a stop", f"{fields} {'not-enabled' if process.is_stopped else 'stopped'}", answer)
        process.call, process.is_stopped = None, True

    def crash(self, answer):
        """What is not persisted is lost: the last edit of a cell, where it is open yet."""
        expect("a crash", "crashed", answer)
        for cell, heads in self.heads.items():
            for head in heads[self.kept[cell] + 1:]:
                process, number = head >> 8 & 255, head & 255
                expect(f"a crash takes edit {number} of {process}: it is open", self.processes[process].open, number)
                self.met["a head taken back"] += 1
            self.keep(cell, heads[:self.kept[cell] + 1])
        self.met["a layout taken back"] += self.seen_layout != self.kept_layout
        self.seen_layout = self.kept_layout
        self.words = {place: (kept, kept) for place, (_, kept) in self.words.items()}
        for process in self.processes:
            process.call, process.is_stopped = None, True

    def evict(self, place, answer):
        expect("an eviction", "evicted", answer)
        if place in self.words:
            self.words[place] = (self.words[place][0],) * 2
        kind, *fields = place.split()
        if kind == "version":
            self.keep_layout("an eviction")
        if kind == "head" and self.kept[fields[0]] + 1 < len(self.heads[fields[0]]):
            self.kept[fields[0]] += 1
            self.met["a head kept by an eviction"] += 1

    def word(self, place, answer):
        """A word is as it was seen before, and that of a text in the second layout is the one of the first."""
        seen = tuple(answer.split())
        if place in self.words:
            expect(f"both sides of {place}", self.words[place], seen)
        self.words[place] = seen
        old = self.words.get(place.replace("newtext", "text"))
        if place.startswith("newtext") and self.is_copied and old:
            expect(f"{place}, as it was copied", (old[0],) * 2, seen)
            self.met["copied words"] += 1

    def disturb(self, verb):
        """Words may have changed; a report is calm only as long as no other process does anything."""
        if verb != "crash":
            self.words.clear()
        for number, process in enumerate(self.processes):
            if process.call and process.call.is_calm and self.mover and self.mover[0] != number:
                process.call.is_calm = False
