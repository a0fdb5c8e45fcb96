#!/usr/bin/env python3
"""Plays by the program what no file should hold: the large sheets of bench/ whose values have closed forms, inputs at
their limits and over them, sessions among them, refusals at each step of an edit, and what a crash or a stop after
each step of an edit, of a work and of a migration leaves. The last line counts the rows.
    tests/computed.py [--quick] PROGRAM        --quick leaves out what takes an unproved program long
"""
import sys

from transcripts import TOP, Row, play

sys.path.insert(0, f"{TOP}/bench")
import sheets  # noqa: E402

COUNT, COLUMNS = sheets.COUNT, sheets.COLUMNS
LIMIT = 1_048_576


# Sheets of which a script's settle makes many rounds: an unproved program takes a minute and more.
AGAINST_THE_ORDER = (
    "chain_backwards", "chain_shuffled", "below", "below_nine_times", "all_above_one_circle", "all_circular",
    "all_circular_ten_times")


def row(name, words, given, answers=b"", said=None, status=0):
    """A run on these bytes that is answered those, its standard error beginning with this line."""
    made = sys._getframe(1)
    it = Row(f"tests/computed.py:{made.f_lineno}: {name}", words.split())
    it.given, it.answers = [given], [answers]
    it.said, it.status = said and said.encode(), status
    return it


def number(value):
    """The text of a sum: that of a whole number of 64 bits, or of an overflow."""
    return str(value) if value < 1 << 63 else "#NUM!"


def closed_forms():
    """The values of the sheets of bench/ by closed forms, by their names."""
    cells = range(COUNT)
    fibonacci = [1, 1]
    while len(fibonacci) < 40:
        fibonacci.append(fibonacci[-2] + fibonacci[-1])
    above = ["1" if k < COLUMNS else number(16 * 17 ** (k // COLUMNS - 1)) for k in cells]
    return {
        "one_cell": ["0"],
        "chain": [str(k + 1) for k in cells],
        "chain_backwards": [str(COUNT - k) for k in cells],
        "sums_of_two": [str(it) for it in fibonacci],
        "row_sums": [number(16 ** (k // COLUMNS)) for k in cells],
        "all_above": above,
        "all_above_one_circle": above[:-1] + ["Err:522"],
        "constants": [str(7 * k - 3000) for k in range(1000)] + [""] * 24,
        "circle_in_constants": ["Err:522"] + [str(7 * k - 3000) for k in cells[1:]],
        "all_circular": ["Err:522"] * COUNT,
        "all_circular_ten_times": ["Err:522"] * COUNT,
    }


def in_order(texts):
    """The values of a chain whose links stand in any order: each cell's text names the one before it."""
    links = {text.split("]")[0].lstrip("=[."): k for k, text in enumerate(texts) if text != "1"}
    values, at = [""] * COUNT, texts.index("1")
    for link in range(1, COUNT + 1):
        values[at] = str(link)
        at = links.get(sheets.name(at))
    return values


def large():
    """Each sheet with a closed form, as a grid and as a script."""
    known = closed_forms()
    for name, texts, columns in sheets.sheets():
        values = in_order(texts) if name == "chain_shuffled" else known.get(name)
        if values is None:
            continue
        shown = sheets.grid(values, columns)
        numbers, done = {}, []
        for k, text in enumerate(texts):
            if text:
                process = k // 256
                done.append(f"{process} {numbers.get(process, 0)} done\n")
                numbers[process] = numbers.get(process, 0) + 1
        told = "".join(done) + "clean\nsettled\n" + shown
        yield row(name, "report", sheets.grid(texts, columns).encode(), shown.encode())
        by_edits = row(name, "run", sheets.script(texts, columns).encode(), told.encode())
        by_edits.is_slow = name in AGAINST_THE_ORDER
        yield by_edits


def recalculated():
    """Sheets against the order of their cells, which a recalculation works on in the order of the references."""
    for name, texts, columns in sheets.sheets():
        if name in ("chain_backwards", "chain_shuffled", "below"):
            values = ["1"] * COUNT if name == "below" else in_order(texts)
            given = sheets.script(texts, columns).replace("settle 0", "recalc 0")
            done = "".join(f"{k // 256} {k % 256} done\n" for k in range(COUNT))
            told = f"{done}clean\nsettled\n{sheets.grid(values, columns)}"
            yield row(f"{name}, recalculated", "run", given.encode(), told.encode())


def limits():
    """Inputs of just as many bytes, lines or edits as the limits say, and of one more."""
    lines = b"settle 0\n" + (b"#" * 511 + b"\n") * 2048
    too_long = f"dsheet: script too long: more than {LIMIT} bytes"
    yield row("a script within its limit", "run", lines[:LIMIT], b"clean\n")
    yield row("a script over it", "run", lines, b"clean\n", too_long, 3)
    edit = b"set 0 A1 7\n" + (b"#" * 511 + b"\n") * 2048
    yield row("stops within the limit", "run --stops", edit[:LIMIT], blocks("A1", "7,\n,\n", 13, 20))
    yield row("stops over it", "run --stops", edit, blocks("A1", "7,\n,\n", 13, 20), too_long, 3)
    comments = row("explore of a megabyte of comments", "explore --summary", b"begin 0 set A1 7\n" + lines[9:-8 * 512])
    comments.has = [b"states 21\norders 1\n"]
    yield comments
    for words in ("trace", "explore"):
        yield row(f"{words} over the limit", words, b"\n" * (LIMIT + 1), b"", too_long, 3)
    ten = row("a run of ten edits", "trace", b"set 0 A1 7\n" * 10)
    ten.has = [b"</svg>"]
    yield ten
    many = "dsheet: run too long: more than 1000 events"
    yield row("a run of too many events", "trace", b"set 0 A1 7\n" * 100, b"", many, 3)
    yield row("64 rows", "report", b"1\n" * 64, b"1\n" * 64)
    yield row("65 rows", "report", b"1\n" * 65, b"", "grid too large", 1)
    yield row("a grid within its limit", "report", b"1" * (LIMIT - 1) + b"\n", b"", "cell A1: TooLong 240", 1)
    too_long = f"dsheet: grid too long: more than {LIMIT} bytes"
    yield row("a grid over it", "report", b"1" * LIMIT + b"\n", b"", too_long, 3)


def block(cell, values, kept, stop):
    """What is answered after a step of one edit of process 0: it is announced after step 9, and kept after this one."""
    last, shown = "0 nothing", ",\n,\n"
    if stop >= 9:
        last = f"0 last 0 {cell} not-done"
    if stop >= kept:
        last, shown = f"0 last 0 {cell} done", values
    return f"stop {stop}\n{last}\n1 nothing\nclean\nsettled\n{shown}"


def blocks(cell, values, kept, last, first=1):
    """So for the stops from one to another."""
    return "".join(block(cell, values, kept, stop) for stop in range(first, last + 1)).encode()


def stops():
    """An edit of a number has 20 steps and is kept after 13, one of a reference 23 and 16. A fault comes after it."""
    yield row("stops of a number", "run --stops", b"set 0 A1 7\n", blocks("A1", "7,\n,\n", 13, 20))
    yield row("stops of a reference", "run --stops", b"set 0 B1 =[.A1]\n", blocks("B1", ",0\n,\n", 16, 23))
    for first, last in ((1, None), (1, 3), (1, 1), (9, 13), (19, 21), (20, None), (21, None), (2, 65_535)):
        words = f"run --stops --from {first}" + (f" --to {last}" if last is not None else "")
        told = blocks("A1", "7,\n,\n", 13, min(20 if last is None else last, 20), first)
        yield row(words, words, b"set 0 A1 7\nfly\n", told, "line 2: unknown command", 1)
    backwards = "run --stops --from 5 --to 4"
    yield row(backwards, backwards, b"set 0 A1 7\nfly\n", b"", "dsheet: --to: not below --from; 0: to the end", 2)


def refusal(code, name):
    """A refusal of a line of a session."""
    return b'{"code":%d,"error":"%s"}\n' % (code, name.encode())


def sessions():
    """Lines of 4,096 bytes and of one more, brackets within brackets as deep as the parser reads and one deeper, a
    session of just the most bytes and one byte more, and the 257th edit of a process."""
    not_json, unknown = refusal(1, "not-json"), refusal(2, "unknown-op")
    field, long = refusal(3, "bad-field"), refusal(5, "line-too-long")
    lines = ((4095, b"5\n", field), (4096, b"5\n", long), (4095, b"5\r\n", long), (4094, b"5\r\n", field))
    for spaces, behind, told in lines:
        yield row(f"{spaces} spaces", "serve", b" " * spaces + behind + b'{"op":"fly"}\n', told + unknown)
    fly = b'{"op":"fly","x":'
    nested = ((b"", 127, b"", field), (b"", 128, b"", not_json), (fly, 126, b"}", unknown), (fly, 127, b"}", not_json))
    for front, depth, behind, told in nested:
        yield row(f"{depth} arrays", "serve", front + b"[" * depth + b" " + b"]" * depth + behind + b"\n", told)
    lines = (b" " * 1023 + b"\n") * 1024
    yield row("a session within its limit", "serve", lines, not_json * 1024)
    yield row("a session over it", "serve", lines + b"\n", not_json * 1024 + refusal(17, "too-long"))
    join, edit = b'{"op":"join","process":0}\n', b'{"op":"set","cell":"A1","text":"1"}\n'
    told = b'{"last":null,"ok":"join","process":0}\n' + b"".join(b'{"number":%d,"ok":"done"}\n' % k for k in range(600))
    last = b'{"last":{"cell":"A1","number":599,"outcome":"done"},"ok":"last"}\n'
    yield row("600 edits", "serve", join + edit * 600 + b'{"op":"last"}\n', told + last)


def stepped(process, steps, last, answer):
    """The answers to a number of steps of a call, the last of which is answered this."""
    return f"{process} stepped\n" * min(steps, last - 1) + f"{process} {answer}\n" * (steps == last)


def works():
    """A work of 24 steps on a cell that another one refers to: after each a crash, or a stop of both processes.
    What comes before it has 23, 20, 24 + 23 and 25 steps: the last edit finds the one before it there."""
    before = "set 0 B1 =[.A1]+1\nset 0 A1 5\nsettle 0\nset 0 A1 6\n"
    told = "0 last 2 A1 done\n1 nothing\nclean\nsettled\n6,7\n,\n"
    crashed = "".join(f"stop {stop}\n{told}" for stop in range(115, 140))
    yield row("stops of a work", "run --stops --from 115", f"{before}work 1 A1\n".encode(), crashed.encode())
    begun = "0 0 done\n0 1 done\nclean\n0 2 done\n1 begun\n"
    behind = "recover 0\nrecover 1\nsettle 1\nreport 1\n"
    for steps in range(25):
        given = f"{before}begin 1 work A1\n" + "step 1\n" * steps
        answers = begun + stepped(1, steps, 24, "published changed")
        for end, ended in (("crash\n", "crashed\n"), ("stop 0\nstop 1\n", "0 stopped\n1 stopped\n")):
            name = f"{end.split()[0]} behind {steps} steps of a work"
            yield row(name, "run", f"{given}{end}{behind}".encode(), f"{answers}{ended}{told}".encode())


def refusals():
    """Texts with a fault, before each step of an edit of process 0, and after it."""
    texts = (("=1.5", "NotWhole 2"), ("=[.C1]", "OutsideSheet 1"), ("1" * 241, "TooLong 240"))
    asked = "".join(f"begin 0 set A2 {text}\nbegin 1 set A2 {text}\n" for text, _ in texts)
    told = "".join(f"0 refused 2 Busy\n1 refused 1 {fault}\n" for _, fault in texts)
    given = "begin 0 set A1 1\n" + f"{asked}step 0\n" * 20 + "".join(f"begin 0 set A1 {text}\n" for text, _ in texts)
    answers = "0 begun 0\n" + f"{told}0 stepped\n" * 19 + f"{told}0 0 done\n"
    answers += "".join(f"0 refused 1 {fault}\n" for _, fault in texts)
    yield row("refusals at each step of an edit", "run", given.encode(), answers.encode(), "line 3: NotWhole 2")


def records():
    """256 edits step by step, and one of the other process: each but the first finds the one before it there, and says
    of it that it counts and is superseded, by a bit of the words that are shown."""
    given, answers, full = "", "", (1 << 64) - 1
    for number in range(256):
        steps = 25 if number else 20
        given += "begin 0 set A1 1\n" + "step 0\n" * steps
        answers += f"0 begun {number}\n" + stepped(0, steps, steps, f"{number} done")
    given += "word head A1\nbegin 0 set A1 2\nbegin 0 set A2\nbegin 0 set A1 =1.5\n"
    said = f"line {given.count(chr(10))}: NotWhole 2"
    answers += "16777471 16777471\n0 refused 4 RecordsFull\n0 refused 4 RecordsFull\n0 refused 1 NotWhole 2\n"
    given += "".join(f"word done 0 {part}\n" for part in range(4))
    answers += f"{full} {full}\n" * 3 + f"{full // 2} {full // 2}\n"
    given += "begin 1 set A1 3\n" + "step 1\n" * 25 + "word done 0 3\npeek A1\n"
    answers += "1 begun 0\n" + stepped(1, 25, 25, "0 done") + f"{full} {full}\nA1 dirty blank 3\n"
    yield row("256 edits step by step", "run", given.encode(), answers.encode(), said)


# 120 bytes, so that each part of the record has some.
LONG = "=SUM([.A1:.B1];[.A2];" + "".join(f"{digit}000000000;" for digit in range(1, 9)) + "900000000) "

# How many steps a migration of one process has.
MIGRATION = 15365


def migrated(steps, end):
    """One edit is done, another one has taken its head on the cached side alone, and a migration ends so after n
    steps; then one is begun anew. After both the texts are as they are without one, and a recovery reports the same.
    The version's word is swapped in the fourth step from the end, and persisted in the last one but one."""
    cached, persisted = int(steps >= MIGRATION - 3), int(steps >= MIGRATION - 1)
    text, value, kept, ended = f" {LONG}", "36900000003", "done", "0 stopped" if steps < MIGRATION else "0 not-enabled"
    if end == "crash":
        cached, text, value, kept, ended = persisted, "", "", "not-done", "crashed"
    again, answer = (4, "already") if cached else (MIGRATION, "migrated")
    given = f"sheet 2 2 1\nlayout 1\nset 0 A1 =1+2\nsettle 0\nbegin 0 set B2 {LONG}\n" + "step 0\n" * 62
    answers = "0 0 done\nclean\n0 begun 1\n" + "0 stepped\n" * 62
    given += "word head B2\nstop 0\nbegin 0 migrate\n" + "step 0\n" * steps
    answers += "65537 0\n0 stopped\n0 begun\n" + stepped(0, steps, MIGRATION, "migrated")
    given += f"{end}\nword version\npeek A1\npeek B2\nbegin 0 migrate\n" + "step 0\n" * again
    texts = f"A1 clean 3 =1+2\nB2 clean blank{text}\n"
    answers += f"{ended}\n{cached} {persisted}\n{texts}0 begun\n" + stepped(0, again, again, answer)
    given += "word version\npeek A1\npeek B2\nrecover 0\npeek B2\nsettle 0\nreport 0\nset 0 B1 4\n"
    answers += f"1 1\n{texts}0 last 1 B2 {kept}\nB2 dirty blank{text}\nclean\nsettled\n3,\n,{value}\n0 2 done\n"
    return row(f"{end} behind {steps} steps of a migration", "run", given.encode(), answers.encode())


def migrations():
    """A crash, or a stop, after the first steps of a migration, some of the others and the last ones."""
    for steps in sorted({*range(41), *range(0, MIGRATION, 997), *range(MIGRATION - 10, MIGRATION + 1)}):
        yield migrated(steps, "crash")
        yield migrated(steps, "stop 0")


def main():
    parts = (large, recalculated, limits, stops, works, refusals, records, migrations, sessions)
    return play("computed", sys.argv[1:], [it for part in parts for it in part()])


if __name__ == "__main__":
    sys.exit(main())
