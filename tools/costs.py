#!/usr/bin/env python3
"""Prints the table of docs/COSTS.md: of crates of crates.txt their lines of code, definitions and proofs, their edits
(of must-fail, and of more-edits), and the processor minutes that their proofs and tests took, as read from what
tools/gate_minutes.py wrote to these files; the last file that has a figure counts. Crates that take less than four
minutes are left out, and so are those of less than 3,000 lines that were not measured.
    tools/costs.py FILE ..
"""
import os
import re
import sys

TOP = os.path.dirname(os.path.dirname(os.path.realpath(__file__)))
# A line of the table, which stands as it is.
LINE = "    {:20} {:20} {:8} {:6} {}"
LEAST_MINUTES = 4
LEAST_LINES = 3_000
ROW = re.compile(r"\| `(\w+)` \| ([\d.]+) \| ([\d.]+) \| ([\d.]+) \| ")


def crates():
    """The crates, in the order of crates.txt."""
    with open(f"{TOP}/crates.txt", encoding="utf-8") as listed:
        return [line.split(":")[0].split()[0] for line in listed if line.strip() and line[0] != "#"]


def files(crate, part, ending):
    """The files of a part of a crate that end so."""
    found = []
    for folder, _, names in os.walk(f"{TOP}/crates/{crate}/{part}"):
        found += [f"{folder}/{name}" for name in names if name.endswith(ending)]
    return found


def lines(crate, part, ending):
    """How many lines a part of a crate has, to the ten."""
    count = 0
    for name in files(crate, part, ending):
        with open(name, encoding="utf-8") as it:
            count += sum(1 for _ in it)
    return round(count, -1)


def minutes(names):
    """The minutes of each crate's proof, edits and tests."""
    found = {}
    for name in names:
        with open(name, encoding="utf-8") as log:
            for crate, *figures in ROW.findall(log.read()):
                row = found.setdefault(crate, [0.0, 0.0, 0.0])
                found[crate] = [float(new) or old for new, old in zip(figures, row)]
    return found


def main():
    times = minutes(sys.argv[1:])
    print(LINE.format("crate", "code/specs/proofs", "edits", "proof", "tests").rstrip())
    for crate in crates():
        counts = [lines(crate, "src", ".rt"), lines(crate, "specs", ".antt"), lines(crate, "proofs", ".antt")]
        edits = [len(files(crate, part, ".edit")) for part in ("must-fail", "more-edits")]
        proof, _tried, tests = times.get(crate, [0.0, 0.0, 0.0])
        if proof + tests < LEAST_MINUTES and (proof or sum(counts) < LEAST_LINES):
            continue
        figures = [f"{proof:.1f}" if proof else "-", f"{tests:.1f}" if tests else ""]
        cells = [crate, "/".join(f"{it:,}" for it in counts), f"{edits[0]}+{edits[1]}", *figures]
        print(LINE.format(*cells).rstrip())


if __name__ == "__main__":
    main()
