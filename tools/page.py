#!/usr/bin/env python3
"""Makes the source file of the page that `dsheet serve --http` answers: crates/ds_http/src/page.rt, of
crates/ds_http/page/index.html. What the page says of faults of texts is that of the table in ds_script_hints.
    tools/page.py            writes it
    tools/page.py --check    says whether it is as it would be written; exit status 1 where it is not
"""
import json
import os
import re
import sys

TOP = f"{os.path.dirname(os.path.realpath(__file__))}/.."
PAGE, SOURCE = f"{TOP}/crates/ds_http/page/index.html", f"{TOP}/crates/ds_http/src/page.rt"
HINTS, LIMITS = f"{TOP}/crates/ds_script_hints/src", f"{TOP}/crates/ds_formula/src/reading.rt"
MOST = 40_000
# Where the page wants what is said of faults.
PLACE = "const WORDS = {};"
HEAD = "//! The page for people, as `tools/page.py` makes it of `page/index.html`.\n\n"


def read(path):
    with open(path, encoding="utf-8") as it:
        return it.read()


def notes():
    """What is said of each kind of fault, with the limits that it names, as of a text in brackets."""
    limits = dict(re.findall(r"pub const (\w+): usize = (\d+);", read(LIMITS)))
    limits |= {"mark": ";", "most": limits["TEXT_LIMIT"]}
    source = read(f"{HINTS}/notes.rt")
    said = re.findall(r'TextNote::(\w+)(?:\(\w+\))? => (?:\{[^"{}]*?)?(?:f\.write_str|write!)\(\s*(?:f,\s*)?"([^"]*)"', source)
    said += zip(("NotEqual", "Equal"), re.findall(r'TextNote::Comparison\("([^"]*)"\)', source), strict=True)
    texts = {kind: re.sub(r"\{(\w+)\}", lambda it: limits[it[1]], text) for kind, text in said}
    return {kind: text.replace("{} to {}", f"{-2**63} to {2**63 - 1}").partition("; --a1")[0] for kind, text in texts.items()}


def words():
    """All that the page says of faults: of kinds, of functions that there are, of their arguments, and of those elsewhere."""
    functions = read(f"{HINTS}/functions.rt")
    known = re.findall(r"Function::(\w+),", functions.partition("];")[0])
    elsewhere = dict(re.findall(r'\("(\w+)", "([^"]*)"\)', functions))
    groups = re.findall(r'((?:Function::\w+\s*\|?\s*)+)=> "([^"]*)"', functions)
    arguments = {name.upper(): text for names, text in groups for name in re.findall(r"::(\w+)", names)}
    return {"notes": notes(), "functions": " and ".join([", ".join(it.upper() for it in known[:-1]), known[-1].upper()]), "arguments": arguments, "elsewhere": elsewhere}


def source_of(page):
    """The source file of a page."""
    if page.count(PLACE) != 1:
        sys.exit(f"{PAGE}: it has not {PLACE} once")
    page = page.replace(PLACE, f"const WORDS = {json.dumps(words(), sort_keys=True)};")
    literal = page.replace("\\", "\\\\").replace('"', '\\"').replace("\n", "\\n")
    return f"{HEAD}/// The page: HTML that has all of its code and style.\npub const PAGE: &str =\n    \"{literal}\";\n"


def main():
    with open(PAGE, encoding="ascii") as it:
        page = it.read()
    if len(page) > MOST:
        sys.exit(f"{PAGE}: {len(page)} bytes, and not {MOST} at most")
    source = source_of(page)
    if sys.argv[1:] == ["--check"]:
        with open(SOURCE, encoding="ascii") as it:
            if it.read() != source:
                sys.exit("crates/ds_http/src/page.rt is not of page/index.html: tools/page.py")
        return
    with open(SOURCE, "w", encoding="ascii") as it:
        it.write(source)


if __name__ == "__main__":
    main()
