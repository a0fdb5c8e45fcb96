#!/usr/bin/env python3
"""Checks the pages of this repository (*.md) against the rest of it, and says where they differ:
    words      at most the words of LIMITS, of all pages, of README.md, of a crate's page and of some others
    filled     no {{ in a page: a number that was to be filled in
    links      each relative link leads to a file
    paths      each path in backticks that looks like a file is there
    crates     each crate of crates.txt stands in docs/MAP.md; no page names a crate that is not there
    names      a path of code in backticks, as `ds_core::take::run`, ends in something that its crate defines
    edits      each edit in the third column of docs/THEOREMS.md is there
    examples   the lines of code in a crate's page stand so in some source file, one below the other
    numbers    a limit in a page, or in a comment of dsheet.h, is the constant of the code (NUMBERS)
    language   no word of a list of retired ones, outside of code (RETIRED)
    page       crates/ds_http/src/page.rt is made of page/index.html
    comments   none of them in comments of crates/*/src, crates/*/specs, examples/ and dsheet.h (IN_COMMENTS)
Each failure is a line `FILE:LINE: what`; the last line is `pages: N checks, M failed`. Exit status 1 where any failed.
    tools/pages.py [FOLDER]        the repository, where no folder is named
"""
import glob
import os
import re
import shutil
import subprocess
import sys

TOP = os.path.realpath(sys.argv[1] if len(sys.argv) > 1 else f"{os.path.dirname(os.path.realpath(__file__))}/..")

# The most words of a page, by its path; of docs/COSTS.md those outside of its table. A word is what white space parts,
# and has a letter or a digit.
ALL_WORDS = 25_000
LIMITS = [
    (r"README\.md", 900),
    (r"crates/\w+/README\.md", 200),
    (r"bench/README\.md", 900),
    (r"docs/PROVING\.md", 1_500),
    (r"docs/COSTS\.md", 500),
]

# What is measured, the pages, where they say it, and the constant of the code: a file and its line. A number of the
# code is an expression of literals, as `1 << 58` or `1_048_576`.
PAGES = r"README\.md|docs/\w+\.md|crates/\w+/README\.md"
HEADER = "crates/ds_c/include/dsheet.h"
NUMBERS = [
    ("columns", PAGES, r"(\d+) columns", "crates/ds_formula/src/cells.rt", r"COLUMN_LIMIT: usize = (.+);"),
    ("rows", PAGES, r"columns, (\d+) rows", "crates/ds_formula/src/cells.rt", r"ROW_LIMIT: usize = (.+);"),
    ("cells", PAGES, r"rows(?: and|,) ([\d,]+) cells", "crates/ds_formula/src/cells.rt", r"CELL_LIMIT: usize = (.+);"),
    ("processes", PAGES, r"(\d+) processes,", "crates/ds_layout/src/layout.rt", r"PROCESS_LIMIT: usize = (.+);"),
    ("edits of a process", PAGES, r"(?<![\d,])(\d+) edits (?:each|of each|over all lives)",
     "crates/ds_layout/src/place.rt", r"RECORDS: usize = (.+);"),
    ("bytes of a text", PAGES, r"(\d+) bytes(?: a text|; a formula)", "crates/ds_formula/src/reading.rt",
     r"TEXT_LIMIT: usize = (.+);"),
    ("nodes", PAGES, r"(\d+) nodes", "crates/ds_formula/src/reading.rt", r"NODE_LIMIT: usize = (.+);"),
    ("depth", PAGES, r"(?:and depth|deeper than) (\d+)", "crates/ds_formula/src/reading.rt",
     r"DEPTH_LIMIT: usize = (.+);"),
    ("bytes of a script", PAGES, r"(?:script or grid \||a script has at most|a script of at most) ([\d,]+)",
     "crates/ds_script_io/src/line.rt", r"INPUT_LIMIT: usize = (.+);"),
    ("bytes of a script's line", PAGES, r"(?:a script's line|line ends with LF \([^)]*\), and has at most) (\d+)",
     "crates/ds_script_io/src/line.rt", r"LINE_LIMIT: usize = (.+);"),
    ("bytes of a session", PAGES, r"(?:\| session \||a session(?: at most)?) (\d[\d,]+)",
     "crates/ds_server/src/session.rt", r"SESSION_LIMIT: usize = (.+);"),
    ("bytes of a session's line", PAGES, r"(?:bytes; a line|A line has at most) ([\d,]+)",
     "crates/ds_server/src/session.rt", r"LINE_LIMIT: usize = (.+);"),
    ("entries of a buffer", PAGES, r"(?:buffer of|holds) (\d+) entries", "crates/ds_words/src/words.rt",
     r"BUFFER_ENTRIES: usize = (.+);"),
    ("events of a recording", PAGES, r"(?:At most|at most|of more than) ([\d,]+) events",
     "crates/ds_trace/src/turn.rt", r"EVENT_LIMIT: usize = (.+);"),
    ("bytes of a picture", PAGES, r"picture of at most ([\d,]+) bytes", "crates/ds_trace_picture/src/script.rt",
     r"PICTURE_LIMIT: usize = (.+);"),
    ("generation that a work claims", PAGES, r"generation (?:was above|is above|of at most|above) (2\^\d+)",
     "crates/ds_work/src/machine.rt", r"LAST_GENERATION: u64 = (.+);"),
    ("columns", HEADER, r"columns(?: \(|; +/\* )1 to (\d+)", "crates/ds_formula/src/cells.rt",
     r"COLUMN_LIMIT: usize = (.+);"),
    ("rows", HEADER, r"rows(?: \(|; +/\* )1 to (\d+)", "crates/ds_formula/src/cells.rt", r"ROW_LIMIT: usize = (.+);"),
    ("cells", HEADER, r"at most(?:\n \*)? ([\d,]+)(?:\n \*)? cells", "crates/ds_formula/src/cells.rt",
     r"CELL_LIMIT: usize = (.+);"),
    ("processes", HEADER, r"processes(?: \(|; +/\* )1 to (\d+)", "crates/ds_layout/src/layout.rt",
     r"PROCESS_LIMIT: usize = (.+);"),
    ("edits of a process", HEADER, r"its (\d+) records", "crates/ds_layout/src/place.rt", r"RECORDS: usize = (.+);"),
    ("bytes of a text", HEADER, r"(?:linearized edit, at most|more than|up to) (\d+) bytes",
     "crates/ds_formula/src/reading.rt", r"TEXT_LIMIT: usize = (.+);"),
]

# Words that have a usual one, which comes after them. A blank is any white space.
RETIRED = [
    (r"want of memory|lack of memory|memory (?:is|was) wanting", "out of memory"),
    (r"\bso many\b", "a number, or 'as many .. as'"),
    (r"\bcan not\b", "cannot"),
    (r"ends ill", "say what happens"),
    (r"\btold\b|\btells (?:of|what)\b", "reported, answered"),
    (r"\bbehind (?:a|the|its|each|every|one) (?:crash|step|stop|close|answer|call|recovery|edit|work|report)", "after"),
    (r"\bcome to count\b|\bcame to count\b|\bcounted edits\b", "linearized"),
    (r"\bquiet (?:world|moment|sheet)", "quiescent"),
]

# What comments may not say besides; and the files whose comments are not looked at yet.
IN_COMMENTS = RETIRED + [
    (r"\bbehind\b(?! (?:a|the|its|one) lock)", "after, passed, below"),
    (r"\b(?:comes|coming) to count\b", "is linearized"),
]
FILE_ENDINGS = r"\.(?:md|py|sh|txt|rt|antt|cpp|svg|c|h|edit)"
FOLDERS = "crates docs tools tests bench examples transcripts specs src proofs must-fail more-edits .ci".split()


class Checks:
    """How many checks were made, and what failed."""

    def __init__(self):
        self.made, self.failed = 0, []

    def check(self, holds, page, line, what):
        self.made += 1
        if not holds:
            self.failed.append(f"{page}:{line}: {what}")

    def none(self, page, found):
        """One check, which fails in each of these lines, for what stands beside it."""
        self.made += 1
        self.failed += [f"{page}:{line}: {what}" for line, what in found]


def read(path):
    with open(f"{TOP}/{path}", encoding="utf-8") as it:
        return it.read()


def files(*endings):
    """The files of the repository with these endings, but those that are built."""
    listed = ["git", "-C", TOP, "ls-files", "-co", "--exclude-standard"]
    names = subprocess.run(listed, stdout=subprocess.PIPE, text=True, check=True).stdout.split("\n")
    return [it for it in names if it.endswith(endings) and os.path.exists(f"{TOP}/{it}")]


def line_of(text, at):
    return text.count("\n", 0, at) + 1


def prose(text):
    """The text, with blanks in place of blocks of code and of what stands in backticks."""
    blank = lambda it: re.sub(r"[^\n]", " ", it[0])
    return re.sub(r"`[^`\n]*`", blank, re.sub(r"(?m)^(?: {4}|\t).*$", blank, text))


def value(text):
    """The number that a page or the code has, as 1,024 or 2^58 or `1 << 58`."""
    text = re.sub(r"[,_\s]", "", text).replace("^", "**")
    return eval(text, {"__builtins__": {}}) if re.fullmatch(r"[\d*+<-]+", text) else None


def words(text):
    return sum(any(it.isalnum() for it in word) for word in text.split())


def check_words(checks, pages):
    total = sum(words(text) for text in pages.values())
    checks.check(total <= ALL_WORDS, "README.md", 1, f"all pages have {total} words, at most {ALL_WORDS}")
    for page, text in pages.items():
        for pattern, most in LIMITS:
            if re.fullmatch(pattern, page):
                if page == "docs/COSTS.md":
                    text = re.sub(r"(?m)^    .*$", "", text)
                count = words(text)
                checks.check(count <= most, page, 1, f"{count} words, at most {most}")


def is_there(path, page, names):
    """Whether a page's path is a file or a folder: from the top, the page, or of a crate, also without ending."""
    places = [TOP, f"{TOP}/{os.path.dirname(page)}", f"{TOP}/crates", f"{TOP}/docs"]
    if path.split("/")[0] in ("specs", "proofs", "src", "must-fail", "more-edits"):
        places += [f"{TOP}/crates/{it}" for it in names]
    found = [f"{place}/{path}{ending}" for place in places for ending in ("", ".antt", ".rt")]
    return any(glob.glob(it) for it in found)


def check_paths(checks, page, text, names):
    for link in re.finditer(r"\]\(([^)#:]+)\)", text):
        holds = os.path.exists(f"{TOP}/{os.path.dirname(page)}/{link[1]}")
        checks.check(holds, page, line_of(text, link.start()), f"no file {link[1]}")
    for quoted in re.finditer(r"`([\w.*/<>-]+)`", text):
        path = quoted[1]
        first = path.split("/")[0]
        looks = "/" in path and (first in FOLDERS or first in names) or re.search(FILE_ENDINGS + "$", path)
        if looks and "out" not in path.split("/"):
            checks.check(is_there(path, page, names), page, line_of(text, quoted.start()), f"no file {path}")


def check_names(checks, page, text, names, sources):
    """Crates that a page names are there, and what it names of them is theirs. Exports for C begin as a crate does."""
    for named in re.finditer(r"\b(?:ds|test|bench)_[a-z0-9_]+", text):
        holds = named[0] in names or named[0].startswith("ds_c_")
        checks.check(holds, page, line_of(text, named.start()), f"no crate {named[0]}")
    for path in re.finditer(r"`((?:ds|test|bench)_\w+)((?:::\w+)+)`", text):
        last = path[2].split("::")[-1]
        own = "".join(it for name, it in sources.items() if name.startswith(f"crates/{path[1]}/src/"))
        defines = (rf"\b(?:fn|struct|enum|trait|type|const|mod) {last}\b|^pub use .*\b{last}\b"
                   rf"|^// crates/{path[1]}/src/{last}\.rt$")
        checks.check(re.search(defines, own, re.M), page, line_of(text, path.start()), f"no {path[1]}{path[2]}")


def check_edits(checks, pages):
    page = "docs/THEOREMS.md"
    edits = {os.path.basename(it)[:-5] for it in files(".edit")}
    for number, line in enumerate(pages.get(page, "").split("\n"), 1):
        cells = line.split("|")
        for edit in re.findall(r"`(\w+)`", cells[3]) if len(cells) > 4 else []:
            checks.check(edit in edits, page, number, f"no edit {edit}")


def check_map(checks, pages, names):
    page = "docs/MAP.md"
    for name in names:
        holds = re.search(rf"\b{name}\b", pages.get(page, ""))
        checks.check(holds, page, 1, f"the crate {name} is not named")


def check_page(checks):
    """The source of the page for people is as its tool makes it."""
    made = subprocess.run([f"{TOP}/tools/page.py", "--check"], capture_output=True, text=True, check=False)
    checks.check(made.returncode == 0, "crates/ds_http/page/index.html", 1, made.stderr.strip())


def check_examples(checks, page, text, bare):
    """Blocks of code of a crate's page: their lines stand in a source file, one below the other."""
    for block in re.finditer(r"(?m)(?:^ {4}.*\n?)+", text):
        lines = [line.strip() for line in block[0].rstrip("\n").split("\n")]
        if any(line.endswith((";", "{", ",", "}", ")")) for line in lines):
            wanted = "\n" + "\n".join(lines) + "\n"
            holds = any(wanted in it for it in bare)
            checks.check(holds, page, line_of(text, block.start()), f"no source has the example: {lines[0]}")


def check_numbers(checks, pages):
    for what, where, pattern, source, constant in NUMBERS:
        code = re.search(constant, read(source)) if os.path.exists(f"{TOP}/{source}") else None
        wanted = value(code[1]) if code else None
        checks.check(wanted is not None, source, 1, f"no constant: {what}")
        found = 0
        for page, text in pages.items():
            for match in re.finditer(pattern, text) if re.fullmatch(where, page) else []:
                found += 1
                checks.check(value(match[1]) == wanted, page, line_of(text, match.start()),
                             f"{what}: {match[1]}, and {wanted} in {source}")
        checks.check(found, HEADER if where == HEADER else "README.md", 1, f"no page says: {what}")


def check_filled(checks, page, text):
    lines = [number for number, line in enumerate(text.split("\n"), 1) if "{{" in line]
    checks.none(page, [(line, "{{: a number that is not filled in") for line in lines])


def check_toolchain(checks, pages):
    """A page that names toolchains names the one that is here, if one is, and its logic. As `rattle-kit-1a and 1b, logic
    0f`, it may name others besides."""
    if shutil.which("rt") is None:
        return
    kit, _, logic = subprocess.run(["rt", "version"], capture_output=True, text=True).stdout.strip().partition(" logic ")
    for page, text in pages.items():
        found = list(re.finditer(r"rattle-kit-(\w+(?:(?:, | and )\d\w*)*)(?:,? logic (\w+))?", text))
        names = [f"rattle-kit-{name}" for it in found for name in re.split(", | and ", it[1])]
        for it in found:
            line = line_of(text, it.start())
            checks.check(kit in names, page, line, f"{it[0]}, and {kit} is here")
            checks.check(it[2] in (None, logic), page, line, f"logic {it[2]}, and {logic} is here")


def retired(plain, patterns):
    """Where retired words stand in a text: the line, and what it is."""
    for pattern, usual in patterns:
        for found in re.finditer(pattern.replace(" ", r" *[ \n] *"), plain, re.I):
            yield line_of(plain, found.start()), f"retired: {' '.join(found[0].split())} ({usual})"


def check_language(checks, page, text):
    checks.none(page, retired(prose(text), RETIRED))


def comments(path, text):
    """The text's comments, each in its line, and blank lines in place of what is no comment."""
    if path.endswith((".rt", ".antt")):
        ranges = [it.span("text") for it in re.finditer(r"(?m)^ *(?://[/!]?|--)(?P<text>.*)$", text)]
    elif path.endswith((".c", ".h")):
        ranges = [it.span() for it in re.finditer(r"(?s)/\*.*?\*/", text)]
    elif path.endswith(".py"):
        ranges = [it.span() for it in re.finditer(r'(?s)""".*?"""|(?m:^ *#.*$)', text)]
    else:
        ranges = [it.span() for it in re.finditer(r"(?m)^ *#.*$", text)]
    blank = list(re.sub(r"[^\n]", " ", text))
    for begin, end in ranges:
        blank[begin:end] = text[begin:end]
    plain = re.sub(r"(?m)^(?: *\*| *(?:>>>|\.\.\.).*$)", lambda it: " " * len(it[0]), "".join(blank))
    return re.sub(r"`[^`\n]*`", lambda it: " " * len(it[0]), plain)


def check_comments(checks):
    looked = r"crates/\w+/src/.*\.rt|crates/\w+/specs/.*\.antt|examples/(?!.*\.(?:stdout|args|answers)$).*"
    for path in files(""):
        if path == HEADER or re.fullmatch(looked, path):
            checks.none(path, retired(comments(path, read(path)), IN_COMMENTS))


def main():
    checks = Checks()
    pages = {it: read(it) for it in files(".md")}
    names = [line.split(":")[0].split()[0] for line in read("crates.txt").split("\n") if line and line[0] != "#"]
    sources = {it: f"// {it}\n" + read(it) for it in files(".rt", ".c", ".h", ".py", ".sh")}
    bare = ["\n" + "\n".join(line.strip() for line in it.split("\n")) + "\n" for it in sources.values()]
    check_words(checks, pages)
    check_map(checks, pages, names)
    check_page(checks)
    check_edits(checks, pages)
    check_numbers(checks, {**pages, HEADER: read(HEADER)})
    check_comments(checks)
    check_toolchain(checks, pages)
    for page, text in pages.items():
        check_paths(checks, page, text, names)
        check_names(checks, page, text, names, sources)
        check_filled(checks, page, text)
        check_language(checks, page, text)
        if page.startswith("crates/"):
            check_examples(checks, page, text, bare)
    print("\n".join(checks.failed + [f"pages: {checks.made} checks, {len(checks.failed)} failed"]))
    sys.exit(1 if checks.failed else 0)


if __name__ == "__main__":
    main()
