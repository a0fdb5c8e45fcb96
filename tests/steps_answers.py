"""What the calls of steps.py may answer."""
from steps_looks import Failed, Looks, expect
from values import scratch

# How a work may end.
WORK_ENDS = ("published changed", "published same", "again", "notdirty", "missed")


def table(grid, values):
    """The values as a report writes them: a row of one blank cell is no empty line."""
    shown = ["" if values[cell] == "blank" else values[cell] for cell in grid.cells]
    rows = [",".join(shown[row * grid.columns:(row + 1) * grid.columns]) for row in range(grid.rows)]
    return [row or '""' for row in rows]


class Answers(Looks):
    """What each call may answer at its end, from what the sheet looked like meanwhile."""

    def position(self, edit):
        """Where an edit stands among those of its cell that count; 0, where it does not count."""
        cell, _ = self.issued[edit]
        found = [at for at, head in enumerate(self.heads[cell]) if at and (head >> 8 & 255, head & 255) == edit]
        return found[0] if found else 0

    def close(self, number, edit):
        """The open edit of the process was answered: its number is spent."""
        process = self.processes[number]
        expect(f"the open edit of {number}", process.open, edit)
        process.open, process.next = None, edit + 1

    def forget(self, number, following):
        """The open edit of the process, if there is one, was never announced: its number is given out again."""
        process = self.processes[number]
        if process.open is not None:
            expect(f"an edit of {number} that was never announced", process.open, following)
            expect(f"edit {following} of {number} does not count", 0, self.position((number, following)))
        expect(f"the next number of {number}", following, process.next)
        process.open = None

    def is_safe(self, edit):
        """Whether the edit counts, and no crash takes it."""
        return 0 < self.position(edit) <= self.kept[self.issued[edit][0]]

    def end(self, number, call, answer):
        """The call of the process was answered."""
        self.processes[number].call = None
        words = answer.split("\n")[0].split()
        if words[0] == str(number):
            words = words[1:]
        getattr(self, f"end_{call.kind}")(number, call, words, answer)

    def end_set(self, number, call, words, answer):
        edit = number, call.number
        if words == [str(call.number), "done"]:
            expect(f"edit {edit} is done: it counts, and is persisted", True, self.is_safe(edit))
        else:
            expect("an edit ends", [str(call.number), "overtaken", "by"], words[:3])
            other = int(words[3]), int(words[4])
            expect(f"edit {edit} is overtaken: it does not count", 0, self.position(edit))
            expect(f"edit {other} overtakes: its cell", call.cell, self.issued.get(other, [None])[0])
            expect(f"edit {other} overtakes: it counts since", True, self.position(other) >= call.since)
        self.met[words[1]] += 1
        self.close(number, call.number)

    def end_work(self, number, call, words, answer):
        expect("a work ends", True, " ".join(words) in WORK_ENDS)
        self.processes[number].holding = None
        self.met[words[0]] += 1

    def end_show(self, number, call, words, answer):
        self.met[words[0]] += 1
        if words[0] == "settled":
            tables = [table(self.grid, scratch(self.grid.cells, texts)) for texts in call.texts]
            self.met["later texts"] += len(tables) > 1
            if answer.split("\n")[1:] not in tables:
                raise Failed(f"a settled report\nwanted one of: {tables}\nanswered: {answer}")
        else:
            expect("a report on a quiet sheet", False, call.is_calm)
            expect("a report ends", "unsettled", words[0])
            expect("what is not settled", True, words[1] in ("mark", "announce"))

    def end_recover(self, number, call, words, answer):
        self.processes[number].holding = None
        if words == ["nothing"]:
            self.met["nothing"] += 1
            return self.forget(number, 0)
        expect("a recovery ends", True, words[0] == "last" and words[3] in ("done", "not-done"))
        edit = number, int(words[1])
        expect(f"the cell of edit {edit}", self.issued.get(edit, [None])[0], words[2])
        if self.processes[number].open == edit[1]:
            self.close(number, edit[1])
        else:
            self.forget(number, edit[1] + 1)
        counts = words[3] == "done"
        expect(f"edit {edit} counts, and is persisted", (counts, counts), (self.position(edit) > 0, self.is_safe(edit)))
        self.met["counted" if counts else "uncounted"] += 1

    def end_migrate(self, number, call, words, answer):
        expect("a migration ends", [call.ends], words)
        self.processes[number].is_stopped = True
        self.is_copied = self.is_copied or call.ends == "migrated"
        self.met[call.ends] += 1
