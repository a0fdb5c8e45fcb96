#!/usr/bin/env python3
"""Draws the runs of docs/pictures again by the program, and checks each picture: that it is well-formed, the same as the
one in docs/pictures, of at most 1 MiB, with a lane for each process, a title in each bar and event, and the packed words
in the titles; and that a run with more events than fit gets the message that says so. Of each run it draws the brief
picture too, and checks it against the other one: which events it keeps, what its bars are at each of them, that it is at
most 850 pixels wide, and that no text lies on a rail, a bar's edge or another text. The last line counts the rows.
    tests/pictures.py PROGRAM
"""
import os
import re
import subprocess
import sys
import xml.etree.ElementTree

TOP = os.path.dirname(os.path.dirname(os.path.realpath(__file__)))
TAG = "{http://www.w3.org/2000/svg}"
RUNS = ("taken_back", "kept", "recovery_crashes")
BRIEF_RUNS = RUNS + ("overtaken", "unsettled", "work")
# The brief pictures of docs/pictures, each with its run.
SHOWN = {"taken_back": "crash"}
LETTER = 7.25
# A colour by a variable, and a plain one before it: what knows no variables draws that.
BY_VARIABLE, AFTER_PLAIN = re.compile(rb"(?:fill|stroke):var"), re.compile(rb"(fill|stroke):#[0-9a-f]{3,6};\1:var")
PACKED = re.compile(r"^(.+), (cached|persisted): (\d+)( \(.+\))?(; .+)?$")
SECONDS = 120


def is_titled(element):
    """Whether a part of a picture has a title."""
    return element.find(TAG + "title") is not None


def has_plain_colours(drawn):
    """Whether a picture is drawn in its colours also where variables are not known, as by librsvg."""
    return len(BY_VARIABLE.findall(drawn)) == len(AFTER_PLAIN.findall(drawn)) > 0


def rows_of(name, drawn):
    """What has to hold of a picture, each with whether it does."""
    with open(f"{TOP}/docs/pictures/{name}.svg", "rb") as it:
        yield "it is the picture of docs/pictures", drawn == it.read()
    yield "it has at most 1 MiB", len(drawn) <= 1_048_576
    yield "each colour by a variable has a plain one before it", has_plain_colours(drawn)
    root = xml.etree.ElementTree.fromstring(drawn)
    yield "its root is an svg", root.tag == TAG + "svg"
    heads = [text.text for text in root.iter(TAG + "text") if text.get("class", "").split()[:1] == ["h"]]
    lanes = [head for head in heads if head.startswith("process ")]
    yield "a lane for each process, in order", lanes and lanes == [f"process {it}" for it in range(len(lanes))]
    words = [head for head in heads if head not in lanes]
    yield "a lane for each word, once", words and len(set(words)) == len(words)
    groups = list(root.iter(TAG + "g"))
    events = [group for group in groups if group.get("class") == "event"]
    yield "each event has a title", events and all(map(is_titled, events))
    bars = [group for row in groups if row.get("class") == "word" for group in row.iter(TAG + "g")]
    bars = [group for group in bars if group.get("class", "").split()[:1] in (["c"], ["p"])]
    yield "each bar has a title", bars and all(map(is_titled, bars))
    titles = [PACKED.match(group.find(TAG + "title").text) for group in bars if is_titled(group)]
    yield "each bar's title is a word, its side and its packed number", all(titles)
    yield "the titles are of the words of the lanes, and of each", {it[1] for it in titles if it} == set(words)


def number_in(title):
    """The number of the event that a title names."""
    return int(re.search(r"event (\d+)", title)[1])


def bars_of(root, top, row):
    """The bars of a picture: (word, side, from, to, number), by its rows."""
    for column in root.iter(TAG + "g"):
        for group in column.iter(TAG + "g") if column.get("class") == "word" else ():
            if group.get("class", "").split()[:1] in (["c"], ["p"]):
                word, side, number = PACKED.match(group.find(TAG + "title").text).groups()[:3]
                bar = group.find(TAG + "rect")
                first = (int(bar.get("y")) - top) // row
                yield word, side, first, first + int(bar.get("height")) // row, int(number)


def decides(word, sides):
    """Whether the change of these sides of a word is shown: of a head any, of announcements and marks the persisted."""
    return word.startswith("head ") or word.startswith(("announce ", "mark ")) and "persisted" in sides


def kept_of(root):
    """Which events of a whole picture a brief one has to keep, and the number of each side of each word at each line."""
    at, turned = {}, {}
    for word, side, first, end, number in bars_of(root, 62, 20):
        for line in range(first, end):
            at[word, side, line] = number
        if first > 0:
            turned.setdefault((first, word), set()).add(side)
    kept = {line for (line, word), sides in turned.items() if decides(word, sides)}
    words = {word for (_, word), sides in turned.items() if decides(word, sides)}
    for group in root.iter(TAG + "g"):
        texts = [it for it in group.findall(TAG + "text") if it.get("class") in ("b", "w")]
        if group.get("class") == "event" and texts:
            is_refused = group.find(TAG + "path") is not None
            if texts[0].get("class") == "b" or is_refused:
                kept.add(number_in(group.find(TAG + "title").text))
        elif group.get("class") in ("crash", "stop"):
            kept.add((int(texts[0].get("y")) + 4 - 62) // 20)
    return kept, words, at


def boxes_of(root):
    """Where the texts of a brief picture above its legend are: left, right, base."""
    legend = {id(it) for group in root.iter(TAG + "g") if group.get("id") == "legend" for it in group.iter()}
    for text in root.iter(TAG + "text"):
        if id(text) not in legend:
            wide, x = len(text.text) * LETTER, int(text.get("x"))
            left = x - wide / 2 if "m" in text.get("class").split() else x
            yield left, left + wide, int(text.get("y"))


def looks_of(root):
    """What has to hold of where things stand in a brief picture."""
    width = int(root.get("width"))
    yield "it is at most 850 pixels wide", width <= 850
    boxes = sorted(boxes_of(root), key=lambda it: (it[2], it[0]))
    yield "each text lies within it", all(0 <= left and right <= width for left, right, _ in boxes)
    pairs = zip(boxes, boxes[1:])
    yield "no two texts overlap", all(one[2] != two[2] or one[1] <= two[0] for one, two in pairs)
    rails = [int(re.match(r"M(\d+) ", path.get("d"))[1]) for path in root.iter(TAG + "path") if path.get("class") == "rail"]
    rows = [group for group in root.iter(TAG + "g") if group.get("class") in ("event", "crash")]
    lefts = [int(text.get("x")) for row in rows for text in row.iter(TAG + "text")]
    yield "no text of a row lies on a rail or a sign", lefts and max(rails) + 8 <= min(lefts)
    bars = [group for group in root.iter(TAG + "g") if group.get("class", "").split()[:1] in (["c"], ["p"])]
    fits = [len(bar.find(TAG + "text").text) * LETTER <= int(bar.find(TAG + "rect").get("width")) for bar in bars if bar.find(TAG + "title") is not None]
    yield "each label lies within its bar", fits and all(fits)


def brief_of(name, whole, drawn):
    """What has to hold of a brief picture, beside the whole one of the same run."""
    yield "each colour by a variable has a plain one before it", has_plain_colours(drawn)
    root = xml.etree.ElementTree.fromstring(drawn)
    if name in SHOWN:
        with open(f"{TOP}/docs/pictures/{SHOWN[name]}.svg", "rb") as it:
            yield f"it is docs/pictures/{SHOWN[name]}.svg", drawn == it.read()
    kept, words, at = kept_of(xml.etree.ElementTree.fromstring(whole))
    rows = [group for group in root.iter(TAG + "g") if group.get("class") in ("event", "crash")]
    lines = [number_in(row.find(TAG + "title").text.rsplit("(", 1)[1]) for row in rows]
    yield "it keeps the events that it has to, and no other, in their order", lines == sorted(kept)
    bars = list(bars_of(root, 46, 20))
    shown = {word for word, *_ in bars}
    hidden = re.search(rb"have no room here: (\d+)<", drawn)
    yield "it shows words that decide, and says how many it hides", shown <= words and len(words - shown) == int(hidden[1] if hidden else 0)
    right = [at.get((word, side, lines[row])) == number for word, side, first, end, number in bars for row in range(first, end)]
    yield "each bar is what that side is then", right and all(right)
    crashes = sum(row.get("class") == "crash" for row in rows)
    yield "each side of each word has a bar at each row but crashes", len(right) == 2 * len(shown) * (len(rows) - crashes)
    yield from looks_of(root)


def too_long(program):
    """A run of more than 1,000 events: what has to hold, with whether it does."""
    given = b"set 0 A1 =1+2\n" * 150
    ran = subprocess.run([program, "trace"], input=given, capture_output=True, timeout=SECONDS)
    yield "a run of more than 1,000 events ends with status 3", ran.returncode == 3
    yield "a run of more than 1,000 events is not drawn", not ran.stdout
    yield "a run of more than 1,000 events: the message", b"run too long: more than 1000 events" in ran.stderr


def judged(rows):
    """The rows, and one more, which does not hold, where a picture is no XML."""
    try:
        yield from rows
    except xml.etree.ElementTree.ParseError as why:
        yield f"it is XML: {why}", False


def main(program):
    program, passed, failed = os.path.realpath(program), 0, 0
    parts = [("a long run", too_long(program))]
    for name in RUNS:
        with open(f"{TOP}/examples/{name}", "rb") as script:
            ran = subprocess.run([program, "trace"], stdin=script, capture_output=True, timeout=SECONDS)
        parts.append((f"examples/{name}", rows_of(name, ran.stdout)))
    for name in BRIEF_RUNS:
        ran = []
        for words in (["trace"], ["trace", "--brief"]):
            with open(f"{TOP}/examples/{name}", "rb") as script:
                ran.append(subprocess.run([program, *words], stdin=script, capture_output=True, timeout=SECONDS).stdout)
        parts.append((f"examples/{name}, brief", brief_of(name, *ran)))
    for name, rows in parts:
        for what, holds in judged(rows):
            passed, failed = passed + bool(holds), failed + (not holds)
            if not holds:
                print(f"{name}: not so: {what}", file=sys.stderr)
    print(f"pictures: {passed} passed, {failed} failed")
    return 1 if failed else 0


if __name__ == "__main__":
    sys.exit(main(*sys.argv[1:]))
