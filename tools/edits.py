#!/usr/bin/env python3
"""Checks that the wrong bodies of crates/*/must-fail and more-edits can be tried: each line of an edit begins with
'file: ', 'old: ' or 'new: ', in that order, each file is there, and each old text stands in it exactly once when its
turn comes. It does not compile them. The last line counts the edits.
    tools/edits.py
"""
import glob
import os
import re
import sys

TOP = os.path.dirname(os.path.dirname(os.path.realpath(__file__)))
EDIT = re.compile(r"(?:file: (.+)\n(?:old: (.+)\nnew: (.*)\n)+)+")
LINE = re.compile(r"(file|old|new): (.*)")


def flaw(path):
    """What is wrong with an edit, or None."""
    with open(path, encoding="utf-8") as it:
        text = it.read()
    if not EDIT.fullmatch(text):
        return "its lines are not file, old, new"
    crate, texts, name, old = os.path.dirname(os.path.dirname(path)), {}, None, None
    for kind, rest in LINE.findall(text):
        if kind == "file":
            name = f"{crate}/{rest}"
            if not os.path.isfile(name):
                return f"there is no {rest}"
        elif kind == "old":
            if name not in texts:
                with open(name, encoding="utf-8") as it:
                    texts[name] = it.read()
            old = rest
            if texts[name].count(old) != 1:
                return f"its text stands {texts[name].count(old)} times: {old.strip()}"
        else:
            texts[name] = texts[name].replace(old, rest)
    return None


def main():
    edits = sorted(glob.glob(f"{TOP}/crates/*/must-fail/*.edit") + glob.glob(f"{TOP}/crates/*/more-edits/*.edit"))
    flaws = [(path, it) for path in edits if (it := flaw(path))]
    for path, it in flaws:
        print(f"{os.path.relpath(path, TOP)}: {it}", file=sys.stderr)
    print(f"{len(edits) - len(flaws)} passed, {len(flaws)} failed")
    sys.exit(bool(flaws))


if __name__ == "__main__":
    main()
