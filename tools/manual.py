#!/usr/bin/env python3
"""Compares the manual docs/msc.1 with the help of a program, and runs the examples of the manual.

    tools/manual.py PROGRAM

The sections COMMANDS, OPTIONS and EXIT STATUS have to list what `PROGRAM --help` and the help of
each command list, and nothing else: the commands, the options with their values and the commands
that take them, where `all` are those that take FILE, and the statuses. Nowhere may the manual name
another command, option or value.

An example is a display in the section EXAMPLES. The command after its `$ ` is run by a shell, in a
folder with links to the files of the repository. It has to print the lines below it, if there are
any, and to end with the status that the text above it names, or else with 0.

`mandoc -T lint` has to be silent; if mandoc is not installed, that is said. Prints what differs.
The exit status is 1 if something does.
"""
import argparse
import collections
import os
import pathlib
import re
import shutil
import subprocess
import sys
import tempfile

sys.dont_write_bytecode = True
from options import arguments_in, commands_of, help_of, options_in, section, status_of
from options import with_file

TOP = pathlib.Path(__file__).resolve().parent.parent
PAGE = "docs/msc.1"
# the macros of mdoc(7) that the manual has inside of lines, and marks between their words
MACROS = {"Ar", "Cm", "Em", "Ev", "Fl", "It", "Ns", "Op", "Pa", "Pf", "Pq", "Ql", "Sy"}
MARKS = {",", ".", ":", ";", "|"}
# the characters that a display does not write as they are
ESCAPES = {r"\-": "-", r"\(aq": "'", r"\&": "", r"\e": "\\"}


def sections(text):
    """The lines of each section, by its title."""
    parts = re.split(r"(?m)^\.Sh (.*)\n", text)
    found = ((title, lines.splitlines()) for title, lines in zip(parts[1::2], parts[2::2]))
    return collections.defaultdict(list, found)


def words(line):
    """The words and marks of a line of macros, each after the macro that it is an argument of."""
    macro = None
    for word in line[1:].split() if line.startswith(".") else ():
        if word in MACROS:
            macro = word
        else:
            yield macro, f"-{word}" if macro == "Fl" and word not in MARKS else word


def tag(line):
    """The tag of an item, as a help has it: that of `.It Fl -most Ar N` is `--most N`."""
    return " ".join(word for _, word in words(line)).replace(" | ", "|").replace(" ,", ",")


def options_of_manual(lines, files):
    """The options of the manual, each with the commands that take it: those in parentheses, or else
    those that its part names before its list. `files` are the commands that take FILE."""
    takers, before, is_before = {}, [], True
    for line, below in zip(lines, [*lines[1:], ""]):
        if line.startswith(".Ss"):
            before, is_before = [], True
        elif line.startswith(".Bl"):
            is_before = False
        elif line.startswith(".Cm") and is_before:
            before += [word for _, word in words(line)]
        elif line.startswith(".It Fl"):
            own = {word for _, word in words(below)} if below.startswith(".Pq") else {*before}
            takers[tag(line)] = (own | {*files} if "all" in own else own) - {"all", *MARKS}
    return takers


def options_of_help(program, commands):
    """The options of the program, each with the commands that take it."""
    takers = {}
    for command in [(), *((name,) for name in commands)]:
        for name, _ in options_in(help_of(program, *command)):
            takers.setdefault(re.sub("[<>]", "", name), set()).update(command)
    return takers


def compared(what, manual, help):
    """For each name of the two what is wrong with it, or None."""
    for name in sorted({*manual, *help}):
        if name not in manual or name not in help:
            yield f"{what} {name} is only in the {'manual' if name in manual else 'help'}"
        elif manual[name] != help[name]:
            own, others = (", ".join(sorted(it[name])) for it in (manual, help))
            yield f"{what} {name} is for {own}; in the help for {others}"
        else:
            yield None


def values_of(program, commands):
    """The words that the arguments of the commands are one of."""
    pages = [help_of(program, command) for command in commands]
    return [value for page in pages for _, values in arguments_in(page) for value in values]


def strangers(lines, known, options):
    """The words that should be a command, an option or a value, and are none, or None. `known` are
    the commands, and the words that arguments are one of."""
    known = {"--", *MARKS, *known, *(it for name in options for it in re.split("[ ,|]+", name))}
    found = {word for line in lines for macro, word in words(line) if macro in ("Fl", "Cm")}
    unknown = " ".join(sorted(found - known))
    return f"no command, option or value: {unknown}" if unknown else None


def examples(lines):
    """The text above each display, and its lines."""
    text, display = [], None
    for line in lines:
        if line.startswith(".Bd"):
            display = []
        elif line == ".Ed":
            yield " ".join(text), display
            text, display = [], None
        else:
            (text if display is None else display).append(line)


def answer(program, command):
    """What a command prints, in lines, and its exit status."""
    with tempfile.TemporaryDirectory() as room:
        folder, path = pathlib.Path(room, "folder"), pathlib.Path(room, "path")
        folder.mkdir()
        path.mkdir()
        (path / "msc").symlink_to(program)
        for it in TOP.glob("[!.]*"):
            (folder / it.name).symlink_to(it)
        ended = subprocess.run(
            ["sh", "-c", command], cwd=folder, env={**os.environ, "PATH": f"{path}:{os.defpath}"},
            stdin=subprocess.DEVNULL, stdout=subprocess.PIPE, stderr=subprocess.STDOUT,
        )
    return ended.stdout.decode("latin-1").splitlines(), ended.returncode


def tried(program, text, display):
    """What an example does otherwise than the manual says, or None."""
    shown = "\n".join(display)
    for escape, character in ESCAPES.items():
        shown = shown.replace(escape, character)
    parts = re.fullmatch(r"\$ ((?:.*\\\n)*.*)\n?([^$]*)", shown)
    if not parts:
        return f"no example of one command: {shown}"
    lines, status = answer(program, parts[1])
    named = re.search(r"exit status is (\d)", text)
    if status != int(named[1] if named else 0):
        return f"$ {parts[1]}: the status is {status}"
    if parts[2] and parts[2].split("\n") != lines:
        return "\n".join([f"$ {parts[1]}", *lines])
    return None


def lint():
    """What mandoc says of the form of the manual, or None."""
    run = ["mandoc", "-T", "lint", PAGE]
    ended = subprocess.run(run, cwd=TOP, capture_output=True, text=True)
    return (ended.stdout + ended.stderr).strip() or None


def findings(program, text):
    """For each thing that is compared what is wrong with it, or None."""
    parts, commands = sections(text), commands_of(program)
    named, options = [*commands, "help"], options_of_help(program, commands)
    files, values = with_file(program), values_of(program, commands)
    items = [tag(line).split()[0] for line in parts["COMMANDS"] if line.startswith(".It")]
    yield from compared("command", dict.fromkeys(items), dict.fromkeys(named))
    yield from compared("option", options_of_manual(parts["OPTIONS"], files), options)
    items = [tag(line) for line in parts["EXIT STATUS"] if line.startswith(".It")]
    statuses = [status for status, _ in section(help_of(program), "Exit status")]
    yield from compared("status", dict.fromkeys(items), dict.fromkeys(statuses))
    yield strangers(text.splitlines(), [*named, *values], options)
    displays = [*examples(parts["EXAMPLES"])]
    for text, display in displays or [("", [])]:
        yield tried(program, text, display)
    if shutil.which("mandoc"):
        yield lint()
    else:
        print("mandoc is not installed, so the form of the manual was not checked")


def main():
    style = argparse.RawDescriptionHelpFormatter
    arguments = argparse.ArgumentParser(description=__doc__, formatter_class=style)
    arguments.add_argument("program", metavar="PROGRAM")
    program = pathlib.Path(arguments.parse_args().program).resolve()
    return status_of("manual", findings(program, (TOP / PAGE).read_text()))


if __name__ == "__main__":
    sys.exit(main())
