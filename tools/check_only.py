#!/usr/bin/env python3
"""Checks functions of a crate over the sources of the libraries below it, of which none has to be proved before: some
minutes, where all of them take an hour. It keeps nothing, and what it says counts for nothing: `rt ci` proves.
    tools/check_only.py [--test] [--edit NAME] CRATE FUNCTION ..
A FUNCTION is named whole, as ds_analyze::trace::detail_of, or by its module, as ds_analyze::trace. With --test tests are
checked, too. With --edit a copy of the crate is checked, with that edit of its more-edits or must-fail.
"""
import argparse
import os
import shutil
import subprocess
import sys
import tempfile

from build_library import TOP, toolchain
from try_edits import edited, write


def check(rtlib, crate, folder, asked):
    """The status of a check of the crate, whose files lie in this folder."""
    flags = ["--jobs", "1", *(["--test"] if asked.test else [])]
    words = crate.words(flags, tests=asked.test, keeps=False, as_source=True)
    only = [word for function in asked.functions for word in ("--only", function)]
    return subprocess.run([rtlib.RATTLE, "check", *words, *only], cwd=folder, check=False).returncode


def edit_of(crate, name):
    """The file of an edit of a crate; none where it has no such edit."""
    files = [f"{crate.folder}/{part}/{name.removesuffix('.edit')}.edit" for part in ("more-edits", "must-fail")]
    return next((it for it in files if os.path.exists(it)), None)


def main():
    parser = argparse.ArgumentParser(usage=__doc__)
    parser.add_argument("--test", action="store_true")
    parser.add_argument("--edit")
    parser.add_argument("crate")
    parser.add_argument("functions", nargs="+")
    asked = parser.parse_args()
    rtlib = toolchain()
    crate = next((it for it in rtlib.crates_below(TOP) if it.name == asked.crate), None)
    if crate is None:
        parser.error(f"there is no crate {asked.crate}")
    if asked.edit is None:
        return check(rtlib, crate, crate.folder, asked)
    edit = edit_of(crate, asked.edit)
    texts = edit and edited(crate.folder, edit)
    if not texts:
        parser.error(f"there is no edit {asked.edit}, or it fits its file no more")
    with tempfile.TemporaryDirectory() as room:
        for part in ("src", "specs", "proofs"):
            if os.path.isdir(f"{crate.folder}/{part}"):
                shutil.copytree(f"{crate.folder}/{part}", f"{room}/{part}")
        write(room, texts)
        return check(rtlib, crate, room, asked)


if __name__ == "__main__":
    sys.exit(main())
