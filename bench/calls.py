#!/usr/bin/env python3
"""Writes the scripts of calls that bench/run.sh measures into a folder: python3 bench/calls.py FOLDER

Each script comes with one that has the same lines but for the calls that are measured, which are comments there: what
both take beside those calls is subtracted.
"""
import sys

SIZES = ((2, 2), (16, 64))
COUNTS = (1, 16, 256, 2048)
TEXTS = ("=[.A1]+[.B1]", "=[.A1]+[.B1]+1")


def edits(columns, rows, count):
    """Edits of one cell, by as many processes as they need: the text has two references, and changes each time."""
    return [f"set {k // 256} B2 {TEXTS[k % 2]}" for k in range(count)]


def works(columns, rows, count):
    """Each of these edits, and work on its cell, whose value it changes."""
    return [line for edit in edits(columns, rows, count) for line in (edit, "work 7 B2")]


def scripts():
    """The name, the lines before and the measured lines of each script, and how many calls are measured."""
    for word, kind, lines in (("edits", "set", edits), ("works", "work", works)):
        for columns, rows in SIZES:
            for count in COUNTS:
                name = f"{count}_{word}_{columns}_by_{rows}"
                yield name, kind, (f"sheet {columns} {rows} 8", lines(columns, rows, count)), count


def main():
    folder = sys.argv[1]
    for name, kind, (sheet, lines), _ in scripts():
        without = [f"#{line}" if line.startswith(kind) else line for line in lines]
        for ending, body in (("script", lines), ("before", without)):
            with open(f"{folder}/{name}.{ending}", "w") as file:
                file.write("\n".join([sheet, *body, ""]))


if __name__ == "__main__":
    main()
