#!/usr/bin/env python3
"""Builds a library for C over the libraries that an `rt ci` has proved and left in crates/*/out, by the toolchain's own code:
`rt lib` would prove all of them once more. It proves the crate itself, and builds crates/NAME/out/libNAME.a. It is for tests:
what is proved `rt ci` says. Exit status 1 where no `rt ci` has left them so, or the toolchain is another one: `rt lib` is left
then.
    tools/build_library.py NAME
"""
import os
import subprocess
import sys

TOP = os.path.dirname(os.path.dirname(os.path.realpath(__file__)))


def toolchain():
    """The module by which rt works."""
    page = subprocess.run(["rt", "doc"], capture_output=True, text=True, check=True).stdout.strip()
    sys.path.insert(0, f"{os.path.dirname(page)}/bin")
    import rtlib  # pylint: disable=import-error,import-outside-toplevel
    return rtlib


def is_left(library):
    """Whether `rt ci` has left a library: one that rt keeps for its other commands has a stamp."""
    return os.path.isdir(library.rlib) and not os.path.exists(f"{library.folder}/out/rlib/stamp")


def main(name):
    os.chdir(TOP)
    try:
        crate = next(it for it in toolchain().crates_below(TOP) if it.name == name)
        if not all(is_left(it) for it in crate.below()):
            return 1
        os.makedirs(f"{crate.folder}/out", exist_ok=True)
        return crate.build_static([])
    except (AttributeError, ImportError, OSError, StopIteration, TypeError, subprocess.CalledProcessError) as why:
        print(f"build_library: {name}: {why}", file=sys.stderr)
        return 1


if __name__ == "__main__":
    sys.exit(main(*sys.argv[1:]))
