"""dsheet for Python, by ctypes over the shared object that examples/c/Makefile links.

The library is looked for where DSHEET_LIBRARY says, else where the Makefile leaves it.

>>> with World(columns=2, rows=2, processes=2) as world:
...     world.edit(0, "A1", "20").name
...     world.edit(0, "B1", "=[.A1]*2+2").name
...     world.settle(0).number
...     world.report(1).name
...     world.values(1)
'DONE'
'DONE'
0
'SETTLED'
[20, 42, None, None]

A crash in mid-edit: the edit was announced, and its cell's head was not persisted.

>>> with World(columns=2, rows=2, processes=2) as world:
...     world.begin_edit(0, "A1", "5").name
...     while world.word("HEAD", 0) == (0, 0):
...         _ = world.step(0)
...     world.word("HEAD", 0)[1]
...     world.crash()
...     told = world.recover(0)
...     told.name, told.holds
'BEGUN'
0
('LAST', 0)

A sheet of the first layout is migrated to the second one, which has room for longer texts.

>>> with World(columns=1, rows=1, processes=1, first_layout=True) as world:
...     world.edit(0, "A1", "7").name, world.edit(0, "A1", 121 * "0").why
...     world.crash()
...     world.migrate(0).name, world.migrate(0).name
...     told = world.recover(0)
...     told.name, told.holds
...     world.edit(0, "A1", 240 * "0").name, world.edit(0, "A1", 241 * "0").why
...     world.edit(0, "A1", 200 * "0").name, world.text("A1") == 200 * "0"
('DONE', 'TOO_LONG')
('MIGRATED', 'ALREADY')
('LAST', 1)
('DONE', 'TOO_LONG')
('DONE', True)

What is wrong has a name.

>>> World(columns=27, rows=1, processes=1)
Traceback (most recent call last):
    ...
dsheet.Refused: BAD_SHAPE
>>> with World(columns=1, rows=1, processes=1) as world:
...     world.edit(1, "A1", "1")
Traceback (most recent call last):
    ...
dsheet.Refused: NO_PROCESS
>>> with World(columns=1, rows=1, processes=1) as world:
...     answer = world.edit(0, "A1", "=1+")
...     answer.name, answer.why, answer.number
('REFUSED', 'UNFINISHED', 3)

A sheet that threads share: each has a seat of its own, and ctypes lets them run at once.

>>> sheet = Sheet(columns=2, rows=1, processes=2)
>>> seats = [sheet.take(process) for process in range(2)]
>>> def edit(seat, cell):
...     for number in range(50):
...         seat.edit(cell, str(number))
>>> threads = [threading.Thread(target=edit, args=job) for job in zip(seats, ["A1", "B1"])]
>>> for thread in threads: thread.start()
>>> for thread in threads: thread.join()
>>> seats[0].edit("A1", "7", steps=12).name
'STOPPED'
>>> sheet.close()
Traceback (most recent call last):
    ...
dsheet.Refused: SEAT_TAKEN
>>> for seat in seats: seat.free()
>>> closed = sheet.close()
>>> closed.text("A1"), closed.text("B1")
('49', '49')
>>> closed.crash(lambda word: False)
>>> with closed.reopen() as sheet:
...     with sheet.take(0) as seat:
...         told = seat.recover()
...         told.name, told.number, bool(told.holds)
('LAST', 50, False)
"""

import ctypes
import os
import pathlib
import threading

STATUSES = ("OK EMPTY FULL BAD_SHAPE NO_PROCESS NO_CELL NO_WORD NO_TASK TOO_SMALL NO_MEMORY NULL "
            "WRONG_HANDLE SEAT_TAKEN").split()
KINDS = ("_ BEGUN ENTERED REFUSED STEPPED WRONG_TASK EVICTED STOPPED CRASHED NOT_ENABLED DONE OVERTAKEN NOT_DIRTY MISSED "
         "WORN PUBLISHED AGAIN WORK_NO_MEMORY LAST NOTHING SETTLED UNSETTLED_MARK UNSETTLED_ANNOUNCEMENT UNSETTLED_WORD "
         "LEFT MIGRATED ALREADY").split()
CAUSES = "_ TEXT BUSY STOPPED RECORDS_FULL NO_MEMORY MIGRATING NOT_STOPPED".split()
FAULTS = ("_ TOO_LONG BAD_TOKEN NOT_WHOLE NUMBER_TOO_LARGE UNKNOWN_FUNCTION WRONG_ARGUMENTS OUTSIDE_SHEET "
          "RANGE_NOT_ALLOWED TOO_DEEP UNFINISHED NO_MEMORY").split()
PLACES = "VERSION HEAD MARK VALUE KIND INDEX ANNOUNCE HEADER TEXT DONE NEW_TEXT".split()
ERRORS = {2: "#DIV/0!", 3: "#NUM!", 4: "Err:522"}


class Refused(Exception):
    """A call was not carried out, and nothing has changed: its message is the name of the status."""


class _World(ctypes.Structure):
    _fields_ = [("held", ctypes.c_uint64), ("at", ctypes.c_void_p)]


class Answer(ctypes.Structure):
    """What was replied to an event, answered by a call, or the end of a settle: struct dsheet_answer."""

    _fields_ = [("kind", ctypes.c_uint32), ("cause", ctypes.c_uint32), ("fault", ctypes.c_uint32),
                ("holds", ctypes.c_uint32), ("number", ctypes.c_size_t), ("process", ctypes.c_size_t),
                ("other", ctypes.c_size_t), ("cell", ctypes.c_size_t), ("seen", ctypes.c_uint64)]

    @property
    def name(self):
        """The name of its kind, as in the header."""
        return KINDS[self.kind]

    @property
    def why(self):
        """The name of the cause of a refusal, of a text that of its fault; None of other answers."""
        if self.name != "REFUSED":
            return None
        return FAULTS[self.fault] if CAUSES[self.cause] == "TEXT" else CAUSES[self.cause]


class _Value(ctypes.Structure):
    _fields_ = [("kind", ctypes.c_uint32), ("number", ctypes.c_int64)]

    def read(self):
        return {0: None, 1: self.number}.get(self.kind, ERRORS.get(self.kind))


class Mark(ctypes.Structure):
    """The mark of a cell: struct dsheet_mark. state is 0 clean, 1 marked, 2 held."""

    _fields_ = [("state", ctypes.c_uint32), ("dirty", ctypes.c_uint32), ("holder", ctypes.c_size_t),
                ("generation", ctypes.c_uint64)]


class Size(ctypes.Structure):
    """How large a sheet is: struct dsheet_size."""

    _fields_ = [("columns", ctypes.c_size_t), ("rows", ctypes.c_size_t), ("processes", ctypes.c_size_t)]


class _Place(ctypes.Structure):
    _fields_ = [("kind", ctypes.c_uint32), ("owner", ctypes.c_size_t), ("number", ctypes.c_size_t),
                ("part", ctypes.c_size_t)]


class _Word(ctypes.Structure):
    _fields_ = [("cached", ctypes.c_uint64), ("persisted", ctypes.c_uint64)]


_at = os.environ.get("DSHEET_LIBRARY") or pathlib.Path(__file__).parents[2] / "crates/ds_c/out/libdsheet.so"
_library = ctypes.CDLL(str(_at))
_number = ctypes.c_size_t
_signatures = {
    "make": [_number, _number, _number], "make_first": [_number, _number, _number], "free": [],
    "begin_edit": [_number, _number, _number, ctypes.c_char_p, _number, ctypes.POINTER(Answer)],
    "begin_work": [_number, _number, _number, ctypes.POINTER(Answer)],
    "begin_report": [_number, ctypes.POINTER(Answer)], "begin_recovery": [_number, ctypes.POINTER(Answer)],
    "begin_migration": [_number, ctypes.POINTER(Answer)], "migrate": [_number, ctypes.POINTER(Answer)],
    "step": [_number, ctypes.POINTER(Answer)], "offer": [_number, ctypes.POINTER(Answer)],
    "stop": [_number, ctypes.POINTER(Answer)], "evict": [ctypes.POINTER(_Place)], "crash": [],
    "edit": [_number, _number, _number, ctypes.c_char_p, _number, ctypes.POINTER(Answer)],
    "work": [_number, _number, _number, ctypes.POINTER(Answer)],
    "report": [_number, ctypes.POINTER(Answer)], "recover": [_number, ctypes.POINTER(Answer)],
    "settle": [_number, ctypes.POINTER(Answer)], "size": [ctypes.POINTER(Size)],
    "value": [_number, _number, ctypes.POINTER(_Value)], "mark": [_number, _number, ctypes.POINTER(Mark)],
    "word": [ctypes.POINTER(_Place), ctypes.POINTER(_Word)],
    "text": [_number, _number, ctypes.c_char_p, _number, ctypes.POINTER(_number)],
    "values": [_number, ctypes.POINTER(_Value), _number, ctypes.POINTER(_number)],
}
_steps = ctypes.c_uint64
_shared = {
    "sheet_make": [_number, _number, _number], "sheet_take": [_number, ctypes.POINTER(_World)],
    "sheet_close": [ctypes.POINTER(_World)], "sheet_free": [],
    "seat_edit": [_number, _number, ctypes.c_char_p, _number, _steps, ctypes.POINTER(Answer)],
    "seat_work": [_number, _number, _steps, ctypes.POINTER(Answer)],
    "seat_recover": [_steps, ctypes.POINTER(Answer)], "seat_report": [_steps, ctypes.POINTER(Answer)],
    "seat_values": [ctypes.POINTER(_Value), _number, ctypes.POINTER(_number)], "seat_free": [],
    "closed_size": [ctypes.POINTER(Size)], "closed_value": [_number, _number, ctypes.POINTER(_Value)],
    "closed_mark": [_number, _number, ctypes.POINTER(Mark)],
    "closed_text": [_number, _number, ctypes.c_char_p, _number, ctypes.POINTER(_number)],
    "closed_crash": [ctypes.c_char_p, _number, ctypes.POINTER(_number)],
    "closed_reopen": [ctypes.POINTER(_World)], "closed_free": [],
}
_signatures = {"world_" + _name: _arguments for _name, _arguments in _signatures.items()} | _shared
_functions = {}
for _name, _arguments in _signatures.items():
    _function = getattr(_library, "dsheet_" + _name)
    _function.restype = ctypes.c_uint32
    _function.argtypes = [ctypes.POINTER(_World)] + _arguments
    _functions[_name] = _function

NO_FUSE = 2 ** 64 - 1


def _cell(name):
    """The column and the row of a cell, each from 0: "B3" is 1 and 2."""
    return ord(name[0]) - ord("A"), int(name[1:]) - 1


class _Handle:
    """A handle of the library. One thread at a time may use it. Each method is a function of the header."""

    _prefix = ""

    def __init__(self):
        self._handle = _World()

    def __enter__(self):
        return self

    def __exit__(self, *_):
        self.free()

    def _call(self, name, *arguments):
        status = _functions[self._prefix + name](ctypes.byref(self._handle), *arguments)
        if status:
            raise Refused(STATUSES[status])

    def _ask(self, row, name, *arguments):
        self._call(name, *arguments, ctypes.byref(row))
        return row

    def free(self):
        self._call("free")


class World(_Handle):
    """A sheet and its processes. In the first layout texts have at most 120 bytes, until a process has migrated it."""

    _prefix = "world_"

    def __init__(self, columns, rows, processes, first_layout=False):
        super().__init__()
        self._call("make_first" if first_layout else "make", columns, rows, processes)

    def begin_edit(self, process, cell, text):
        data = text.encode()
        return self._ask(Answer(), "begin_edit", process, *_cell(cell), data, len(data))

    def begin_work(self, process, cell):
        return self._ask(Answer(), "begin_work", process, *_cell(cell))

    def begin_report(self, process):
        return self._ask(Answer(), "begin_report", process)

    def begin_recovery(self, process):
        return self._ask(Answer(), "begin_recovery", process)

    def begin_migration(self, process):
        return self._ask(Answer(), "begin_migration", process)

    def migrate(self, process):
        """Every process has to be stopped, and is stopped after it."""
        return self._ask(Answer(), "migrate", process)

    def step(self, process):
        return self._ask(Answer(), "step", process)

    def offer(self, process):
        return self._ask(Answer(), "offer", process)

    def stop(self, process):
        return self._ask(Answer(), "stop", process)

    def evict(self, kind, owner=0, number=0, part=0):
        self._call("evict", ctypes.byref(_Place(PLACES.index(kind), owner, number, part)))

    def crash(self):
        self._call("crash")

    def edit(self, process, cell, text):
        data = text.encode()
        return self._ask(Answer(), "edit", process, *_cell(cell), data, len(data))

    def work(self, process, cell):
        return self._ask(Answer(), "work", process, *_cell(cell))

    def report(self, process):
        return self._ask(Answer(), "report", process)

    def recover(self, process):
        return self._ask(Answer(), "recover", process)

    def settle(self, process):
        return self._ask(Answer(), "settle", process)

    def size(self):
        return self._ask(Size(), "size")

    def value(self, cell):
        """None for a blank, a number, or the text of an error."""
        return self._ask(_Value(), "value", *_cell(cell)).read()

    def mark(self, cell):
        return self._ask(Mark(), "mark", *_cell(cell))

    def word(self, kind, owner=0, number=0, part=0):
        """Its cached side and its persisted one."""
        word = self._ask(_Word(), "word", ctypes.byref(_Place(PLACES.index(kind), owner, number, part)))
        return word.cached, word.persisted

    def text(self, cell):
        buffer, length = ctypes.create_string_buffer(240), _number()
        self._call("text", *_cell(cell), buffer, 240, ctypes.byref(length))
        return buffer.raw[:length.value].decode("latin-1")

    def values(self, process):
        """Those of the process's last settled report, row by row from the left."""
        size = self.size()
        buffer, count = (_Value * (size.columns * size.rows))(), _number()
        self._call("values", process, buffer, len(buffer), ctypes.byref(count))
        return [value.read() for value in buffer[:count.value]]


class Sheet(_Handle):
    """A sheet that threads share, in the hands of its owner. After a close it holds nothing."""

    _prefix = "sheet_"

    def __init__(self, columns=None, rows=None, processes=None):
        super().__init__()
        if columns is not None:
            self._call("make", columns, rows, processes)

    def take(self, process):
        """The seat of a process, for one thread at a time."""
        seat = Seat()
        self._call("take", process, ctypes.byref(seat._handle))
        return seat

    def close(self):
        closed = ClosedSheet()
        self._call("close", ctypes.byref(closed._handle))
        return closed


class Seat(_Handle):
    """A seat of a sheet. Each call makes at most `steps` steps, and is answered STOPPED before the next one."""

    _prefix = "seat_"

    def edit(self, cell, text, steps=NO_FUSE):
        data = text.encode()
        return self._ask(Answer(), "edit", *_cell(cell), data, len(data), steps)

    def work(self, cell, steps=NO_FUSE):
        return self._ask(Answer(), "work", *_cell(cell), steps)

    def recover(self, steps=NO_FUSE):
        return self._ask(Answer(), "recover", steps)

    def report(self, steps=NO_FUSE):
        return self._ask(Answer(), "report", steps)

    def values(self):
        """Those of the seat's last settled report, row by row from the left."""
        buffer, count = (_Value * 1024)(), _number()
        self._call("values", buffer, len(buffer), ctypes.byref(count))
        return [value.read() for value in buffer[:count.value]]


class ClosedSheet(_Handle):
    """The words of a sheet that is closed. After a reopening it holds nothing."""

    _prefix = "closed_"

    def size(self):
        return self._ask(Size(), "size")

    def value(self, cell):
        """None for a blank, a number, or the text of an error."""
        return self._ask(_Value(), "value", *_cell(cell)).read()

    def mark(self, cell):
        return self._ask(Mark(), "mark", *_cell(cell))

    def text(self, cell):
        buffer, length = ctypes.create_string_buffer(240), _number()
        self._call("text", *_cell(cell), buffer, 240, ctypes.byref(length))
        return buffer.raw[:length.value].decode("latin-1")

    def crash(self, choice):
        """A crash, before which the words were evicted for whose numbers the choice says True."""
        words = _number()
        try:
            self._call("crash", b"", 0, ctypes.byref(words))
        except Refused:
            data = bytes(choice(word) for word in range(words.value))
            self._call("crash", data, len(data), ctypes.byref(words))

    def reopen(self):
        sheet = Sheet()
        self._call("reopen", ctypes.byref(sheet._handle))
        return sheet


def main():
    """What examples/c/crash.c does, with the same words."""

    def show_value(world):
        value = world.value("A1")
        return "A1 is blank" if value is None else f"A1 is {value}"

    def make():
        world = World(columns=1, rows=2, processes=2)
        world.edit(1, "A1", "9")
        return world

    def edit_partly(world, steps):
        world.begin_edit(0, "A1", "5")
        return any(world.step(0).name == "DONE" for _ in range(steps))

    def crash_and_ask(world):
        world.crash()
        told = world.recover(0)
        world.recover(1)
        world.settle(0)
        if told.name == "NOTHING":
            return "was never announced"
        return "is done" if told.holds else "is not done"

    answered, before, steps = False, "", 0
    while not answered:
        with make() as world:
            answered = edit_partly(world, steps)
            told = crash_and_ask(world)
            if told != before:
                print(f"a crash behind step {steps}: the edit {told}; {show_value(world)}")
            before, steps = told, steps + 1
    print("and it is so to its answer")

    steps, found = 0, False
    while not found:
        with make() as world:
            edit_partly(world, steps)
            cached, persisted = world.word("HEAD", 0)
            found = cached != persisted
            if found:
                world.evict("HEAD", 0)
                print(f"evicted before the crash: the edit {crash_and_ask(world)}; {show_value(world)}")
            steps += 1


if __name__ == "__main__":
    main()
