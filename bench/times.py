#!/usr/bin/env python3
"""Prints how long programs take for the sheets of a folder, as medians of interleaved runs, and ratios.

times.py plain PROGRAM BASELINE FOLDER RUNS     `dsheet report` beside the plain program, on every grid
times.py scripts PROGRAM STEPS FOLDER RUNS      `dsheet run` beside `dsheet report`, the plain program of the steps, and
                                                ssconvert where there is one
times.py calls PROGRAM STEPS FOLDER RUNS        `dsheet run` beside the plain program of the steps, on scripts of calls,
                                                by time
times.py instructions PROGRAM STEPS FOLDER RUNS the same by instructions, where there is valgrind
"""
import os
import re
import shutil
import statistics
import subprocess
import sys
import time

sys.path.insert(0, os.path.dirname(os.path.abspath(__file__)))
import calls
import sheets


def answer(command, path):
    with open(path, "rb") as file:
        return subprocess.run(command, stdin=file, stdout=subprocess.PIPE, check=True).stdout


def seconds(command, path):
    """How long one run takes, from its start to its end."""
    with open(path, "rb") as file, open(os.devnull, "wb") as sink:
        start = time.perf_counter()
        process = subprocess.Popen(command, stdin=file, stdout=sink, stderr=sink)
        process.wait()
        return time.perf_counter() - start


def measured(jobs, runs):
    """The median and the least of each job's times in milliseconds; the jobs take turns."""
    times = {key: [] for key in jobs}
    for _ in range(runs):
        for key, (command, path) in jobs.items():
            times[key].append(seconds(command, path) * 1000)
    return {key: (statistics.median(values), min(values)) for key, values in times.items()}


def same_answers(program, baseline, path):
    if answer(program, path) != answer(baseline, path):
        sys.exit(f"{path}: the programs answer differently")


def instructions(command, path):
    """How many instructions one run takes, as callgrind counts them."""
    counter = ["valgrind", "--tool=callgrind", "--callgrind-out-file=/dev/null"]
    with open(path, "rb") as file:
        told = subprocess.run(counter + command, stdin=file, stdout=subprocess.DEVNULL, stderr=subprocess.PIPE, check=True).stderr
    return int(re.search(rb"Collected : (\d+)", told).group(1))


def plain(program, baseline, folder, runs):
    names = [label for label, _, _ in sheets.sheets()]
    both = ([program, "report"], [baseline])
    for name in names:
        same_answers(*both, f"{folder}/{name}.csv")
    times = measured({(which, name): (both[which], f"{folder}/{name}.csv") for name in names for which in (0, 1)}, runs)
    print("| Sheet | dsheet, ms | plain program, ms | ratio | ratio of the least | times one cell |")
    print("|---|---|---|---|---|---|")
    for name in names:
        (ours, our_least), (theirs, their_least) = times[0, name], times[1, name]
        one = times[0, "one_cell"][0]
        print(f"| {name} | {ours:.2f} | {theirs:.2f} | {ours / theirs:.2f} | {our_least / their_least:.2f} | {ours / one:.1f} |")


def same_beginning(program, baseline, path):
    """The plain program reports nothing: its answers are the first ones of the program's."""
    if not answer(program, path).startswith(answer(baseline, path)):
        sys.exit(f"{path}: the programs answer differently")


def scripts(program, steps, folder, runs):
    names = ["chain", "chain_backwards", "chain_shuffled", "all_above", "constants"]
    for name in names:
        same_beginning([program, "run"], [steps], f"{folder}/{name}.script")
    jobs = {("report", name): ([program, "report"], f"{folder}/{name}.csv") for name in names}
    jobs.update({("run", name): ([program, "run"], f"{folder}/{name}.script") for name in names})
    jobs.update({("plain", name): ([steps], f"{folder}/{name}.script") for name in names})
    other = shutil.which("ssconvert")
    if other:
        jobs.update({("other", name): ([other, f"{folder}/{name}.csv", f"{folder}/{name}.out.csv"], os.devnull) for name in names})
    else:
        print("ssconvert is not here (Debian: apt-get install gnumeric); its columns stay empty")
    times = measured(jobs, runs)
    print("| Sheet | report, ms | run, ms | plain steps, ms | run to plain steps | ssconvert, ms | report to ssconvert | run to ssconvert |")
    print("|---|---|---|---|---|---|---|---|")
    for name in names:
        report, run, plain_steps = (times[which, name][0] for which in ("report", "run", "plain"))
        others = " | | "
        if other:
            theirs = times["other", name][0]
            others = f"{theirs:.0f} | {report / theirs:.3f} | {run / theirs:.3f}"
        print(f"| {name} | {report:.2f} | {run:.2f} | {plain_steps:.2f} | {run / plain_steps:.1f} | {others} |")


def of_calls(program, steps, folder, runs):
    """By time: fewer than 2,048 calls are over too soon for that."""
    rows = [(name, count) for name, _, _, count in calls.scripts() if count == 2048]
    both = ([program, "run"], [steps])
    for name, _ in rows:
        same_answers(*both, f"{folder}/{name}.script")
    jobs = {(which, name, part): (both[which], f"{folder}/{name}.{part}") for name, _ in rows for which in (0, 1) for part in ("script", "before")}
    times = measured(jobs, runs)
    print("| Script | dsheet, microseconds a call | plain program | ratio of the least | ratio of the medians |")
    print("|---|---|---|---|---|")
    for name, count in rows:
        median, least = ([(times[which, name, "script"][by] - times[which, name, "before"][by]) * 1000 / count for which in (0, 1)] for by in (0, 1))
        print(f"| {name} | {least[0]:.2f} | {least[1]:.2f} | {least[0] / least[1]:.2f} | {median[0] / median[1]:.2f} |")


def counted(program, steps, folder, _):
    """By instructions, which are the same in each run: the calls of each script, less the script without them."""
    if not shutil.which("valgrind"):
        print("valgrind is not here (Debian: apt-get install valgrind): no table of instructions")
        return
    both = ([program, "run"], [steps])
    print("| Script | calls | dsheet, instructions a call | plain program | ratio |")
    print("|---|---|---|---|---|")
    for name, _, _, count in calls.scripts():
        same_answers(*both, f"{folder}/{name}.script")
        whole, before = ([instructions(command, f"{folder}/{name}.{part}") for command in both] for part in ("script", "before"))
        ours, theirs = ((whole[which] - before[which]) / count for which in (0, 1))
        print(f"| {name} | {count} | {ours:,.0f} | {theirs:,.0f} | {ours / theirs:.2f} |")


def main():
    if len(sys.argv) < 2:
        sys.exit(__doc__)
    kind, *paths, runs = sys.argv[1:]
    {"plain": plain, "scripts": scripts, "calls": of_calls, "instructions": counted}[kind](*paths, int(runs))


if __name__ == "__main__":
    main()
