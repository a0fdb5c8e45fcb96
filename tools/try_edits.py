#!/usr/bin/env python3
"""Tries edits on a copy of a crate, one after the other: the prover has to refuse each. It judges as `rt must-fail` does,
but each check takes what the first one has proved, of the crate as it is, so none begins from nothing. The libraries below
are built by `rt check`, where they are not; then the prover is called as that calls it, since to see again that they are
built takes minutes high up. The crate has to be proved before and after; else no edit counts as refused. Each edit is a
line; exit status 1 where any was not refused.
    tools/try_edits.py CRATE EDIT ..        CRATE: the folder of the copy, whose files are changed for a while
RT_JOBS says how many processors a check uses.
"""
import functools
import os
import re
import subprocess
import sys

from build_library import toolchain
from edits import LINE

# An error of a file that was edited, or of code or definitions: at a place, of an obligation that it names, or not.
ERROR = re.compile(r"(?:\./)?(\S+?):\d+:\d+: error: (?:(`[^`]*`): )?(.*)")
# What the prover says where it cannot read a text.
UNREAD = re.compile(r"is not in scope|has no field|is no name|operand is missing|expected the end|cannot continue")
JOBS = ["--jobs", os.environ["RT_JOBS"]] if os.environ.get("RT_JOBS") else []


@functools.cache
def prover(folder):
    """The words by which `rt check` calls the prover in a crate's folder, over what it keeps, once that has built the libraries
    below; `rt check` itself, where the toolchain is another one."""
    plain = ["rt", "check", *JOBS]
    try:
        rtlib = toolchain()
        subprocess.run(plain, cwd=folder, stdin=subprocess.DEVNULL, stdout=subprocess.DEVNULL, check=False)
        crate = rtlib.Crate(folder, rtlib.root_above(folder), {})
        return [rtlib.RATTLE, "check", *crate.words(JOBS or ["--jobs", "1"]), *rtlib.KEPT]
    except (AttributeError, ImportError, OSError, TypeError, subprocess.CalledProcessError):
        return plain


def check(crate):
    """Checks the crate over what was kept: the status, and the lines that were said."""
    how = {"stdin": subprocess.DEVNULL, "stdout": subprocess.PIPE, "stderr": subprocess.STDOUT, "errors": "replace"}
    ran = subprocess.run(prover(os.path.realpath(crate)), cwd=crate, **how)
    return ran.returncode, ran.stdout.split("\n")


def is_proved(crate):
    status, said = check(crate)
    return status == 0 and any(line.startswith("logic=proved") for line in said)


def edited(crate, edit):
    """The texts of the files that an edit changes, by their names; tools/edits.py says what is wrong with one."""
    texts, name, old = {}, None, None
    with open(edit, encoding="utf-8") as it:
        for kind, rest in LINE.findall(it.read()):
            if kind == "file":
                name = rest
                if name not in texts:
                    with open(f"{crate}/{name}", encoding="utf-8") as source:
                        texts[name] = source.read()
            elif kind == "old":
                old = rest
                if texts[name].count(old) != 1:
                    return None
            else:
                texts[name] = texts[name].replace(old, rest)
    return texts


def write(crate, texts):
    for name, text in texts.items():
        with open(f"{crate}/{name}", "w", encoding="utf-8") as it:
            it.write(text)


def is_unread(line, names):
    """Whether the prover could not read a text, so that no contract was tried."""
    found = ERROR.match(line)
    if not found or found[1] not in names and not found[1].startswith(("src/", "specs/")):
        return False
    return not found[2] or bool(UNREAD.search(re.sub(r"`[^`]*`", "", found[3])))


def judge(crate, edit):
    """Whether an edit is refused, and what to say of it."""
    texts = edited(crate, edit)
    if not texts:
        return False, "BAD EDIT: a text of it does not stand once in its file"
    old = {}
    for name in texts:
        with open(f"{crate}/{name}", encoding="utf-8") as it:
            old[name] = it.read()
    write(crate, texts)
    try:
        status, said = check(crate)
    finally:
        write(crate, old)
    unread = next((line for line in said if is_unread(line, texts)), "")
    if unread:
        return False, f"BAD EDIT: the prover cannot read the edited text: {unread[:200]}"
    if status == 1 and any(line.startswith("logic=not-proved") for line in said):
        first = next((line for line in said if ERROR.match(line) or re.match(r"note: \S+:\d+:\d+:", line)), "")
        return True, f"refused, as it must be: {first[:160]}"
    if status == 0:
        return False, "NOT REFUSED: the crate is still proved with this edit"
    return False, "BAD EDIT: it did not reach the prover: " + " | ".join(said[:6])[:600]


def main(crate, *edits):
    name = os.path.basename(os.path.realpath(crate))
    if not is_proved(crate):
        print(f"{name}: NOT PROVED, so no edit is tried", flush=True)
        return 1
    lines = []
    for edit in edits:
        refused, said = judge(crate, edit)
        lines.append((refused, f"must-fail {name}/{os.path.basename(edit)}: {said}"))
        # (a refusal counts once the crate was seen to be proved after all of them)
        print(f"{name}: {os.path.basename(edit)}, {len(lines)} of {len(edits)}: {said[:60]}", flush=True)
    if not is_proved(crate):
        print(f"{name}: NOT PROVED after its edits, so none counts", flush=True)
        return 1
    print("\n".join(line for _, line in lines), flush=True)
    return 0 if all(refused for refused, _ in lines) else 1


if __name__ == "__main__":
    sys.exit(main(*sys.argv[1:]))
