#!/usr/bin/env python3
"""Runs the program of bench/structures.sh in turn, and prints what its operations took: python3 bench/structures.py PROGRAM RUNS

A rate is that of all operations by the time from the first one to the last; of a run the best of TRIES, since other work
takes the processors from some; and of the runs the median.
"""
import os
import statistics
import subprocess
import sys

KINDS = ("proved", "plain", "volatile")
THREADS = (1, 2, 4, 8)
QUEUES = 4
TRIES = 5


def run(*words):
    """What the program printed."""
    return subprocess.run(words, check=True, capture_output=True, text=True).stdout.split()


def measured(program, threads, runs):
    """The median rate of each kind of queue, in thousand operations a second, and the flushes an operation."""
    rates, flushes = {kind: [] for kind in KINDS}, []
    for _ in range(runs):
        best = dict.fromkeys(KINDS, 0.0)
        for _ in range(TRIES):
            for kind in KINDS:
                count, nanoseconds, flushed, is_whole = run(program, kind, str(threads), str(QUEUES))
                if is_whole != "whole":
                    sys.exit(f"{kind}: a value was lost, or taken twice")
                best[kind] = max(best[kind], int(count) / int(nanoseconds) * 1e6)
                if kind == "plain":
                    flushes.append(int(flushed) / int(count))
        for kind in KINDS:
            rates[kind].append(best[kind])
    return {kind: statistics.median(rates[kind]) for kind in KINDS}, statistics.median(flushes)


def main():
    program, runs = sys.argv[1], int(sys.argv[2])
    print(f"{runs} runs each, load {os.getloadavg()[0]:.1f} at the beginning, {os.cpu_count()} processors")
    print("steps alone:", *run(program, "steps"))
    print()
    print("| Threads | proved, thousand a second | plain C++ | no persistence | proved to plain | flushes an operation |")
    print("|---|---|---|---|---|---|")
    for threads in THREADS:
        rates, flushes = measured(program, threads, runs)
        numbers = [f"{rates[kind]:.0f}" for kind in KINDS]
        print("| " + " | ".join([str(threads), *numbers, f"{rates['proved'] / rates['plain']:.2f}", f"{flushes:.2f}"]) + " |", flush=True)


if __name__ == "__main__":
    main()
