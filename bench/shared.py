#!/usr/bin/env python3
"""Runs the programs that bench/shared.sh names in turn, and prints what their calls took: python3 bench/shared.py DS_PACE PLAIN APART RUNS

Each thread makes 256 calls on each of some sheets, enough of them that waking a thread takes little of the time. A rate is
that of all calls of a kind by the time from the first one to the last, and of the runs the greatest.
"""
import os
import subprocess
import sys

KINDS = (
    ("own", "edits of own cells"),
    ("one", "edits of one cell"),
    ("work", "edits and works of own cells"),
    ("report", "reports beside these"),
)
THREADS = (1, 2, 4, 8)
SHEETS = {"plain": 32, "apart": 32, "shared": 32, "locked": 8}


def tallies(words):
    """What a run printed: of each kind of calls how many there were, in how many nanoseconds, and how many ended well."""
    lines = subprocess.run(words, check=True, capture_output=True, text=True).stdout.splitlines()
    return {line.split()[0]: tuple(map(int, line.split()[1:])) for line in lines}


def measured(programs, kind, threads, runs):
    """The greatest rate of each program, in calls a second."""
    best = dict.fromkeys(programs, 0.0)
    calls = "reports" if kind == "report" else "edits"
    for _ in range(runs):
        for name, words in programs.items():
            texts = [] if name in ("plain", "apart") else ["number"]
            found = tallies([*words, kind, *texts, str(threads), str(SHEETS[name])])
            count, nanoseconds, _ = found[calls]
            best[name] = max(best[name], count / nanoseconds * 1e9)
    return best


def main():
    pace, plain, apart, runs = *sys.argv[1:4], int(sys.argv[4])
    programs = {"plain": [plain], "apart": [apart], "shared": [pace, "shared"], "locked": [pace, "locked"]}
    print(f"{runs} runs each, load {os.getloadavg()[0]:.1f} at the beginning, {os.cpu_count()} processors")
    print()
    print("| Calls | Threads | shared, thousand a second | plain C++ | with each word apart | locked | shared to plain | to that | to locked | to one thread |")
    print("|---|---|---|---|---|---|---|---|---|---|")
    for kind, name in KINDS:
        alone = None
        for threads in THREADS:
            best = measured(programs, kind, threads, runs)
            shared = best["shared"]
            alone = alone or shared
            numbers = [f"{best[program] / 1000:.0f}" for program in ("shared", "plain", "apart", "locked")]
            ratios = [f"{shared / best['plain']:.2f}", f"{shared / best['apart']:.2f}", f"{shared / best['locked']:.1f}", f"{shared / alone:.2f}"]
            print("| " + " | ".join([name, str(threads), *numbers, *ratios]) + " |", flush=True)


if __name__ == "__main__":
    main()
