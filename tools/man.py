#!/usr/bin/env python3
"""Writes the manual page of dsheet, from what the program says of itself by --help and --version, and the help of each
command, which ./dsheet shows where nothing is built; or, with --check, compares them with those that are there.
    tools/man.py [--check] PROGRAM [FOLDER]       FOLDER: examples, where none is named; FOLDER/man, FOLDER/help
Exit status 1 where a file is otherwise, and --check was given.
"""
import os
import re
import sys

from completions import TOP, commands_of, options_in, read_help, section

# Characters that groff would show as others, or take for its own.
ESCAPES = {"\\": "\\e", "-": "\\-", "'": "\\(aq", "`": "\\(ga", "^": "\\(ha", "~": "\\(ti"}


def plain(text):
    """A line of text, as groff shows it letter by letter."""
    line = "".join(ESCAPES.get(letter, letter) for letter in text)
    return f"\\&{line}" if line.startswith(".") else line


def usage(text):
    return re.search(r"^Usage: (.*)$", text, re.M).group(1)


def rows(lines):
    """The rows of a section: each a name and what it is."""
    for line in lines:
        found = re.match(r"  (?:-\w, |    )?(\S.*?)(?:  +(.*))?$", line)
        yield found.group(1).strip(), found.group(2) or ""


def table(name, lines):
    """The rows of a section, if it has any, below its name."""
    named = [f".TP\n.B {plain(word)}\n{plain(about)}" for word, about in rows(lines) if about]
    return [f".PP\n{plain(name)}", ".RS", *named, ".RE"] if named else []


def after(text):
    """What stands after the sections of a help."""
    return re.split(r"^Options:\n(?:  .*\n)*\n?", text, maxsplit=1, flags=re.M)[1]


def body(text):
    """Paragraphs, which are filled, and lines that are indented, which are shown as they are."""
    shown = []
    for paragraph in re.split(r"\n\n+", text.strip("\n")):
        shown += [".PP"]
        for line in paragraph.split("\n"):
            is_literal = line.startswith("  ")
            if is_literal and not shown[-1].startswith("\t"):
                shown += [".RS 4", ".nf"]
            if not is_literal and shown[-1].startswith("\t"):
                shown += [".fi", ".RE"]
            shown += [("\t" if is_literal else "") + plain(line.strip() if not is_literal else line[2:])]
        if shown[-1].startswith("\t"):
            shown += [".fi", ".RE"]
    return [line[1:] if line.startswith("\t") else line for line in shown]


def command_page(program, command):
    """The part of a command."""
    text = read_help(program, command.name)
    parts = [f'.SS "dsheet {command.name}"', plain(command.about) + ".", ".PP", f".B {plain(usage(text))}"]
    parts += table("Arguments:", section(text, "Arguments")) + table("Options:", section(text, "Options"))
    return parts + body(after(text))


def page(program):
    """The page of a program."""
    text = read_help(program)
    about, commands = text.split("\n", 1)[0], list(commands_of(program))
    version = os.popen(f"'{program}' --version").read().split()[1]
    lines = ['.\\" The manual page of dsheet: made by tools/man.py of what the program says by --help',
             f'.TH DSHEET 1 "" "dsheet {version}" "User Commands"', ".nh", ".ad l", ".SH NAME", f"dsheet \\- {plain(about[:1].lower() + about[1:])}",
             ".SH SYNOPSIS"]
    for command in commands:
        lines += [f".B {plain(usage(read_help(program, command.name)))}", ".br"]
    lines += [".B dsheet help", ".RI [ COMMAND ]", ".SH DESCRIPTION", plain(about) + ".", ".SH COMMANDS"]
    for command in commands:
        lines += command_page(program, command)
    lines += [".SH EXAMPLES", *body(after(text).removeprefix("Examples:\n"))]
    return "\n".join(lines) + "\n"


def main(*words):
    checks = words[:1] == ("--check",)
    program, *folders = words[checks:]
    program = os.path.realpath(program)
    texts = {"man/dsheet.1": page(program), "help/dsheet": read_help(program)}
    texts |= {f"help/{command.name}": read_help(program, command.name) for command in commands_of(program)}
    status = 0
    for name, text in texts.items():
        path = os.path.join(folders[0] if folders else f"{TOP}/examples", name)
        if not checks:
            os.makedirs(os.path.dirname(path), exist_ok=True)
            with open(path, "w", encoding="utf-8") as file:
                file.write(text)
        elif not os.path.exists(path) or open(path, encoding="utf-8").read() != text:
            print(f"{path}: not of this program; tools/man.py PROGRAM writes it anew", file=sys.stderr)
            status = 1
    return status


if __name__ == "__main__":
    sys.exit(main(*sys.argv[1:]))
