#!/usr/bin/env python3
"""Runs two builds of bench_threads in turn, and prints what an edit and a work after it take with each, by the text that the
edits give: python3 bench/kept.py ONE OTHER RUNS [THREADS ..]

A time is that of the calls of all threads by their number, the least of that number of runs. That of a work is what an edit with
a work takes more than an edit.
"""
import os
import subprocess
import sys

TEXTS = ("number", "two", "range", "sixteen", "greatest")
SHEETS = "8"


def nanoseconds(program, kind, text, threads):
    """The mean of a call."""
    words = [program, "shared", kind, text, str(threads), SHEETS]
    lines = subprocess.run(words, check=True, capture_output=True, text=True).stdout.splitlines()
    count, time, _ = next(tuple(map(int, line.split()[1:])) for line in lines if line.startswith("edits"))
    return time / count


def measured(programs, text, threads, runs):
    """The least time of an edit, and of an edit with a work, by each program."""
    best = {}
    for _ in range(runs):
        for kind in ("own", "work"):
            for program in programs:
                time = nanoseconds(program, kind, text, threads)
                best[kind, program] = min(time, best.get((kind, program), time))
    return best


def main():
    programs, runs = sys.argv[1:3], int(sys.argv[3])
    print(f"{runs} runs each, load {os.getloadavg()[0]:.1f} at the beginning, {os.cpu_count()} processors")
    print()
    print("| Text | Threads | an edit, ns | by the other | a work, ns | by the other | both, ns | by the other |")
    print("|---|---|---|---|---|---|---|---|")
    for threads in map(int, sys.argv[4:] or ["1"]):
        for text in TEXTS:
            best = measured(programs, text, threads, runs)
            edits = [best["own", program] for program in programs]
            both = [best["work", program] for program in programs]
            works = [whole - edit for whole, edit in zip(both, edits)]
            numbers = [f"{time:.0f}" for pair in (edits, works, both) for time in pair]
            print("| " + " | ".join([text, str(threads), *numbers]) + " |", flush=True)


if __name__ == "__main__":
    main()
