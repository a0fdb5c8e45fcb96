#!/usr/bin/env python3
"""Runs each script of tests/transcripts/ with --json, and compares what its lines say with the answers of the row, which are
those without --json: the same, word by word; and each line is compact, with sorted keys. The last line counts the scripts.
    tests/json_answers.py [--quick] PROGRAM
--quick leaves out what takes an unproved program long.
"""
import csv
import io
import json
import os
import subprocess
import sys

from transcripts import SECONDS, TOP, differing, play, rows_of


def table_of(rows):
    """The values of a report as CSV."""
    text = io.StringIO()
    csv.writer(text, lineterminator="\n").writerows(rows)
    return text.getvalue()


def refusal(answer):
    """The words of a refusal."""
    why = f"{answer['fault']} {answer['offset']}" if answer["code"] == 1 else answer["error"]
    return f"{answer['process']} refused {answer['code']} {why}\n"


def last_edit(process, last):
    """The words for the last edit of a process, or for none."""
    if last is None:
        return f"{process} nothing\n"
    return f"{process} last {last['number']} {last['cell']} {last['outcome']}\n"


def words_of(answer):
    """The words of an answer."""
    if "code" in answer:
        return refusal(answer)
    name, process = answer["ok"], answer.get("process")
    if name == "overtaken":
        return f"{process} {answer['number']} overtaken by {answer['by']['process']} {answer['by']['number']}\n"
    if name == "done":
        return f"{process} {answer['number']} done\n"
    if name == "begun" and "number" in answer:
        return f"{process} begun {answer['number']}\n"
    if name == "published":
        return f"{process} published {'changed' if answer['changed'] else 'same'}\n"
    if name == "last":
        return last_edit(process, answer["last"])
    if name == "settled":
        return "settled\n" + table_of(answer["rows"])
    if name == "unsettled":
        return f"unsettled {answer['place']} {answer['word']}\n"
    if name == "left":
        return f"left {answer['left']}\n"
    if name == "at":
        return f"{process} at {answer['point']}\n"
    if name == "peek":
        words = [answer["cell"], answer["state"], answer["value"] or "blank", *([answer["text"]] if answer["text"] else [])]
        return " ".join(words) + "\n"
    if name == "word":
        return f"{answer['cached']} {answer['persisted']}\n"
    return f"{name}\n" if process is None else f"{process} {name}\n"


class JsonRow:
    """A row of a transcript, whose script is run with --json."""

    def __init__(self, row):
        self.row, self.place, self.words, self.is_slow = row, row.place, [*row.words, "--json"], row.is_slow

    def wrong(self, program):
        """What the program does otherwise, or nothing."""
        given = b"".join(self.row.given)
        ran = subprocess.run([program, *self.words], input=given, capture_output=True, timeout=SECONDS)
        said = ran.stderr.split(b"\n")[0] if ran.stderr else None
        if (ran.returncode, said) != (self.row.status, self.row.said):
            return f"wanted status {self.row.status} and {self.row.said!r}, came {ran.returncode} and {ran.stderr[:300]!r}"
        lines = ran.stdout.decode().splitlines(keepends=True)
        for line in lines:
            wanted = json.dumps(json.loads(line), sort_keys=True, separators=(",", ":"), ensure_ascii=False) + "\n"
            if line != wanted:
                return f"a line is not compact, or its keys are not sorted: {line!r}"
        return differing(b"".join(self.row.answers), "".join(words_of(json.loads(line)) for line in lines).encode())


def main():
    folder = f"{TOP}/tests/transcripts"
    rows = [row for it in sorted(os.listdir(folder)) for row in rows_of(f"{folder}/{it}")]
    scripts = [row for row in rows if row.words[0] == "run" and not {"--stops", "--json"} & set(row.words)]
    return play("json", sys.argv[1:], [JsonRow(row) for row in scripts if not row.has and not row.lacks])


if __name__ == "__main__":
    sys.exit(main())
