#!/usr/bin/env python3
"""What the second layout costs: python3 bench/layouts.py PROGRAM [RUNS]

Whole runs of `dsheet run` in turn: a small script on sheets for 1 and for 8 processes, which differ by 102,000 words that
nobody touches; and 256 edits of each of 8 processes on a sheet of the first layout and on one of the second, with texts of
one word and of 15. A migration by the script is timed beside a sheet that is not migrated."""
import os
import statistics
import subprocess
import sys
import tempfile
import time


def edits(layout, text):
    """256 edits of each of 8 processes."""
    lines = ["sheet 2 2 8", f"layout {layout}"]
    lines += [f"set {process} A1 {text}" for _ in range(256) for process in range(8)]
    return "\n".join(lines) + "\n"


SMALL = "set 0 A1 =1+2\nsettle 0\nreport 0\n"
MIGRATED = "sheet 2 2 8\nlayout 1\ncrash\nmigrate 0\n"
CASES = [
    ("a small script, 8 processes beside 1", "sheet 2 2 1\n" + SMALL, "sheet 2 2 8\n" + SMALL),
    ("2,048 edits of one word, layout 2 beside 1", edits(1, "7"), edits(2, "7")),
    ("2,048 edits of 15 words, layout 2 beside 1", edits(1, "7".rjust(120, "0")), edits(2, "7".rjust(120, "0"))),
    ("a migration of 122,885 steps beside none", MIGRATED.replace("migrate 0\n", ""), MIGRATED),
]


def seconds(program, path):
    with open(path, "rb") as script, open(os.devnull, "wb") as sink:
        start = time.perf_counter()
        subprocess.run([program, "run"], stdin=script, stdout=sink, check=True)
        return time.perf_counter() - start


def main():
    program = sys.argv[1]
    runs = int(sys.argv[2]) if len(sys.argv) > 2 else 41
    print("| What | ms | ms | ratio |\n|---|---|---|---|")
    with tempfile.TemporaryDirectory() as folder:
        for what, *scripts in CASES:
            paths = []
            for number, script in enumerate(scripts):
                paths.append(os.path.join(folder, str(number)))
                with open(paths[-1], "w") as file:
                    file.write(script)
            times = [[], []]
            for _ in range(runs):
                for which, path in enumerate(paths):
                    times[which].append(seconds(program, path) * 1000)
            first, second = (statistics.median(each) for each in times)
            print(f"| {what} | {first:.2f} | {second:.2f} | {second / first:.2f} |")


if __name__ == "__main__":
    main()
