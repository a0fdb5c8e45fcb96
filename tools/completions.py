#!/usr/bin/env python3
"""Writes the completions of dsheet for bash, zsh and fish, from what the program says of itself by --help; or, with
--check, compares them with those that are there.
    tools/completions.py [--check] PROGRAM [FOLDER]       FOLDER: examples/completions, where none is named
Exit status 1 where a file is otherwise, and --check was given.
"""
import os
import re
import subprocess
import sys
from collections import namedtuple

TOP = os.path.dirname(os.path.dirname(os.path.realpath(__file__)))
# A command, with its options, and whether it takes words that are no options.
Command = namedtuple("Command", "name about options takes_words")
# An option of a command; its value is the name of what stands after it, or nothing.
Option = namedtuple("Option", "name value about")
NOTE = "of dsheet: made by tools/completions.py of what the program says by --help"
# Names of values and arguments that are files.
FILES = ("FILE", "NEW", "COPY")


def section(text, name):
    """The lines of a section of a help."""
    found = re.search(rf"^{name}:\n((?:  .*\n)*)", text, re.M)
    return found.group(1).splitlines() if found else []


def read_help(program, *words):
    return subprocess.run([program, *words, "--help"], capture_output=True, text=True, check=True).stdout


def options_in(text):
    """The options of a help, without that for it."""
    for line in section(text, "Options"):
        found = re.match(r"  (?:-\w, |    )--([\w-]+)(?: <(\w+)>)?  +(.*)$", line)
        if found and found.group(1) != "help":
            about = re.sub(r" \[default: [^]]*\]$", "", found.group(3))
            yield Option(found.group(1), found.group(2) or "", about)


def commands_of(program):
    """The commands of a program, in the order of its help."""
    for line in section(read_help(program), "Commands"):
        name, about = line.split(None, 1)
        if name != "help":
            text = read_help(program, name)
            yield Command(name, about, list(options_in(text)), bool(section(text, "Arguments")))


def in_bash(commands):
    """The completions for bash."""
    names = " ".join(command.name for command in commands)
    lines = [f"# The completions for bash {NOTE}.", "# shellcheck shell=bash disable=SC2207", "_dsheet() {",
             "    local word=${COMP_WORDS[COMP_CWORD]} before=${COMP_WORDS[COMP_CWORD - 1]}",
             "    local options='' files='' others='' takes_words=", "    COMPREPLY=()", '    if [ "$COMP_CWORD" = 1 ]; then',
             f'        COMPREPLY=($(compgen -W "{names} help --help --version" -- "$word"))', "        return", "    fi",
             "    case ${COMP_WORDS[1]} in"]
    for command in commands:
        words = " ".join(f"--{option.name}" for option in [*command.options, Option("help", "", "")])
        files = " ".join(f"--{option.name}" for option in command.options if option.value in FILES)
        others = " ".join(f"--{option.name}" for option in command.options if option.value and option.value not in FILES)
        lines += [f"        {command.name})", f"            options='{words}'"]
        lines += [f"            {name}='{value}'" for name, value in (("files", files), ("others", others)) if value]
        lines += ["            takes_words=1"] if command.takes_words else []
        lines += ["            ;;"]
    lines += [f"        help) options='{names}' ;;", "    esac",
              '    if [[ " $files " == *" $before "* ]]; then', '        COMPREPLY=($(compgen -f -- "$word"))',
              '    elif [[ " $others " == *" $before "* ]]; then', "        return",
              '    elif [[ $word == -* || -z $takes_words ]]; then', '        COMPREPLY=($(compgen -W "$options" -- "$word"))',
              "    else", '        COMPREPLY=($(compgen -f -- "$word"))', "    fi", "}", "complete -o filenames -F _dsheet dsheet"]
    return "\n".join(lines) + "\n"


def for_zsh(text):
    return re.sub(r"([\[\]:\\])", r"\\\1", text).replace("'", r"'\''")


def in_zsh(commands):
    """The completions for zsh."""
    lines = ["#compdef dsheet", f"# The completions for zsh {NOTE}.", "_dsheet() {", "    local -a commands", "    commands=("]
    lines += [f"        '{command.name}:{for_zsh(command.about)}'" for command in commands]
    lines += ["        'help:Prints the help of a command'", "    )", "    if ((CURRENT == 2)); then", "        _describe command commands", "        return", "    fi",
              "    local name=$words[2]", "    shift words", "    ((CURRENT--))", "    case $name in"]
    for command in commands:
        parts = []
        for option in command.options:
            value = f":{option.value}:{'_files' if option.value in FILES else ''}" if option.value else ""
            parts.append(f"'--{option.name}[{for_zsh(option.about)}]{value}'")
        parts += ["'--help[Prints help]'"] + (["'*:file:_files'"] if command.takes_words else [])
        lines += [f"        {command.name})", "            _arguments \\"] + [f"                {part} \\" for part in parts[:-1]] + [f"                {parts[-1]}", "            ;;"]
    lines += ["        help) _describe command commands ;;", "    esac", "}", '_dsheet "$@"']
    return "\n".join(lines) + "\n"


def for_fish(text):
    return text.replace("\\", "\\\\").replace("'", r"\'")


def in_fish(commands):
    """The completions for fish."""
    lines = [f"# The completions for fish {NOTE}.", "complete -c dsheet -f", "complete -c dsheet -n __fish_use_subcommand -l version -d 'Prints the version'",
             "complete -c dsheet -l help -d 'Prints help'"]
    for command in commands:
        lines += [f"complete -c dsheet -n __fish_use_subcommand -a {command.name} -d '{for_fish(command.about)}'"]
    lines += ["complete -c dsheet -n __fish_use_subcommand -a help -d 'Prints the help of a command'",
              f"complete -c dsheet -n '__fish_seen_subcommand_from help' -a '{' '.join(command.name for command in commands)}'"]
    for command in commands:
        seen = f"complete -c dsheet -n '__fish_seen_subcommand_from {command.name}'"
        for option in command.options:
            value = (" -rF" if option.value in FILES else " -x") if option.value else ""
            lines += [f"{seen} -l {option.name}{value} -d '{for_fish(option.about)}'"]
        if command.takes_words:
            lines += [f"{seen} -F"]
    return "\n".join(lines) + "\n"


def main(*words):
    checks = words[:1] == ("--check",)
    program, *folders = words[checks:]
    folder = folders[0] if folders else os.path.join(TOP, "examples/completions")
    commands = list(commands_of(program))
    failed = 0
    for name, text in (("dsheet.bash", in_bash(commands)), ("_dsheet", in_zsh(commands)), ("dsheet.fish", in_fish(commands))):
        path = os.path.join(folder, name)
        if not checks:
            os.makedirs(folder, exist_ok=True)
            with open(path, "w", encoding="utf-8") as file:
                file.write(text)
        elif not os.path.exists(path) or open(path, encoding="utf-8").read() != text:
            print(f"{path}: not of this program; tools/completions.py PROGRAM writes it anew", file=sys.stderr)
            failed = 1
    return failed


if __name__ == "__main__":
    sys.exit(main(*sys.argv[1:]))
