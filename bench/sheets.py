#!/usr/bin/env python3
"""Writes the sheets that bench/ times into a folder, each as a grid and as a script: python3 bench/sheets.py FOLDER"""
import random
import sys

COLUMNS, ROWS = 16, 64
COUNT = COLUMNS * ROWS


def name(number, columns=COLUMNS):
    """The cell with this number, row by row from the left."""
    return f"{chr(ord('A') + number % columns)}{number // columns + 1}"


def grid(texts, columns=COLUMNS):
    """The texts, row by row, as CSV."""
    rows = [texts[k:k + columns] for k in range(0, len(texts), columns)]
    return "".join(",".join(row) + "\n" for row in rows)


def chain(order):
    """The first cell of the order is 1, each further one is the one before it plus 1."""
    texts = {order[0]: "1"}
    for before, cell in zip(order, order[1:]):
        texts[cell] = f"=[.{name(before)}]+1"
    return [texts[k] for k in range(COUNT)]


def below(times):
    """Each cell reads its right neighbour, and so often all rows below it."""
    texts = []
    for k in range(COUNT):
        right = [f"[.{name(k + 1)}]"] if k + 1 < COUNT else ["1"]
        rows = [f"[.A{k // COLUMNS + 2}:.P64]"] * times if k // COLUMNS + 1 < ROWS else []
        texts.append(f"=MAX({';'.join(right + rows)})")
    return texts


def folds_above():
    """Each cell is COUNT, AND or OR of all rows above it, by turns."""
    folds = ["COUNT", "AND", "OR"]
    return ["1" if k < COLUMNS else f"={folds[k % 3]}([.A1:.P{k // COLUMNS}])" for k in range(COUNT)]


def budget():
    """Totals in the first row and the first columns, of twelve months each."""
    texts = [""] * 3 + [f"=SUM([.{c}2:.{c}64])" for c in "DEFGHIJKLMNO"] + [""]
    for row in range(2, ROWS + 1):
        sums = [f"=IF([.B{row}]>400;[.B{row}]-400;0)", f"=QUOTIENT([.C{row}];12)", f"=SUM([.D{row}:.O{row}])"]
        texts += sums + [str((row * 37 + month * 11) % 900) for month in range(12)] + [""]
    return texts


def script(texts, columns=COLUMNS):
    """A script that sets the cells to the texts that are not blank, settles and reports."""
    rows = -(-len(texts) // columns)
    sets = [f"set {k // 256} {name(k, columns)} {text}" for k, text in enumerate(texts) if text]
    return "\n".join([f"sheet {columns} {rows} 4", *sets, "settle 0", "report 0", ""])


def sheets():
    """The texts and the columns of each sheet by its name; the eight after the first are those that have a target of
    three times the plain program, and the last one has one of one and a half times."""
    places = list(range(COUNT))
    shuffled = random.Random(5).sample(places, COUNT)
    all_above = ["1" if k < COLUMNS else f"=SUM([.A1:.P{k // COLUMNS}])" for k in places]
    yield "one_cell", ["0"], 1
    yield "chain", chain(places), COLUMNS
    yield "chain_backwards", chain(places[::-1]), COLUMNS
    yield "chain_shuffled", chain(shuffled), COLUMNS
    yield "sums_of_two", ["1", "1"] + [f"=[.A{k - 1}]+[.A{k}]" for k in range(2, 40)], 1
    yield "row_sums", ["1" if k < COLUMNS else f"=SUM([.A{k // COLUMNS}:.P{k // COLUMNS}])" for k in places], COLUMNS
    yield "all_above", all_above, COLUMNS
    yield "all_above_one_circle", all_above[:-1] + ["=[.P64]+SUM([.A1:.P63])"], COLUMNS
    yield "constants", [str(7 * k - 3000) for k in range(1000)] + [""] * 24, COLUMNS
    yield "budget", budget(), COLUMNS
    yield "circle_in_constants", ["=[.A1]"] + [str(7 * k - 3000) for k in places[1:]], COLUMNS
    yield "all_circular", ["=SUM([.A1:.P63])"] * COUNT, COLUMNS
    yield "all_circular_ten_times", ["=SUM(" + ";".join(["[.A1:.P64]"] * 10) + ")"] * COUNT, COLUMNS
    yield "below", below(1), COLUMNS
    yield "below_nine_times", below(9), COLUMNS
    yield "folds_above", folds_above(), COLUMNS


def main():
    folder = sys.argv[1]
    for label, texts, columns in sheets():
        for ending, form in (("csv", grid), ("script", script)):
            with open(f"{folder}/{label}.{ending}", "w") as file:
                file.write(form(texts, columns))


if __name__ == "__main__":
    main()
