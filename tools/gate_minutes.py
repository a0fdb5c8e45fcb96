#!/usr/bin/env python3
"""Runs a command, `rt ci` if none is named, and prints where its processor minutes went: for each crate its proof, its
must-fail edits and its tests. The processor time of the prover's processes is read twice a second, so that other work
on the machine changes little.
    tools/gate_minutes.py [COMMAND ..]
"""
import os
import subprocess
import sys
import time

TICKS = os.sysconf("SC_CLK_TCK")
KINDS = ("proof", "edits", "tests", "build")


def read(path):
    """The bytes of a file of /proc, none where the process has ended."""
    try:
        with open(path, "rb") as it:
            return it.read()
    except OSError:
        return b""


def parents():
    """The parent of each process."""
    found = {}
    for name in os.listdir("/proc"):
        if name.isdigit():
            fields = read(f"/proc/{name}/stat").rpartition(b")")[2].split()
            if fields:
                found[int(name)] = int(fields[1])
    return found


def below(root):
    """The processes that a process has started, itself or by others."""
    tree, found = parents(), {root}
    grown = True
    while grown:
        more = {it for it, parent in tree.items() if parent in found} - found
        grown, found = bool(more), found | more
    return found


def kind_of(words, folder):
    """What a process of the prover is for, by its words and the folder that it works in."""
    if "rt-edit-" in folder:
        return "edits"
    if "--test" in words:
        return "tests"
    return "proof" if words[1] == "check" or "--crate-checked" not in words else "build"


def seen(process):
    """The crate, the kind and the processor seconds of a process of the prover, or nothing."""
    words = [it.decode(errors="replace") for it in read(f"/proc/{process}/cmdline").split(b"\0")]
    if not words[0].endswith("/rattle") or "--crate-name" not in words:
        return None
    try:
        folder = os.readlink(f"/proc/{process}/cwd")
    except OSError:
        return None
    fields = read(f"/proc/{process}/stat").rpartition(b")")[2].split()
    if len(fields) < 13:
        return None
    seconds = (int(fields[11]) + int(fields[12])) / TICKS
    return words[words.index("--crate-name") + 1], kind_of(words, folder), seconds


def table(times):
    """Prints the minutes of each crate, the most first, and their sums."""
    crates = {}
    for crate, kind, seconds in times.values():
        row = crates.setdefault(crate, dict.fromkeys(KINDS, 0.0))
        row[kind] += seconds / 60
    print("| Crate | " + " | ".join(KINDS) + " | all |")
    print("|---|" + "---|" * (len(KINDS) + 1))
    for crate, row in sorted(crates.items(), key=lambda it: -sum(it[1].values())):
        print(f"| `{crate}` | " + " | ".join(f"{row[it]:.1f}" for it in KINDS) + f" | {sum(row.values()):.1f} |")
    sums = [sum(row[it] for row in crates.values()) for it in KINDS]
    print("| all | " + " | ".join(f"{it:.1f}" for it in sums) + f" | {sum(sums):.1f} |")


def main():
    began = time.monotonic()
    started = subprocess.Popen(sys.argv[1:] or ["rt", "ci"])
    times = {}
    while started.poll() is None:
        for process in below(started.pid):
            found = seen(process)
            if found:
                times[process, *found[:2]] = found
        time.sleep(0.5)
    print(f"{(time.monotonic() - began) / 60:.1f} minutes, status {started.returncode}")
    table(times)
    return started.returncode


if __name__ == "__main__":
    sys.exit(main())
