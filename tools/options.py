#!/usr/bin/env python3
"""Compares the tables of options and exit statuses in docs/OUTPUT.md with the help of a program.

    tools/options.py PROGRAM            compares
    tools/options.py --write PROGRAM    writes the tables

The tables of a kind stand between the lines `<!-- NAME -->` and `<!-- end of NAME -->`. The options
are those of `PROGRAM COMMAND --help`, with a table for each of its groups; commands that print the
same text for an option share a row. The statuses are those of `PROGRAM --help`. The exit status is
1 if a table differs, or if the page does not have these lines once.
"""
import argparse
import pathlib
import re
import subprocess
import sys

PAGE = pathlib.Path(__file__).resolve().parent.parent / "docs/OUTPUT.md"
# an option or a status, and the beginning of what the help says of it
BEGINS = re.compile(r"  (?:(\d)  | *(-\S.*?)(?:  |$))\s*(.*)")
# the heading of a group of options
HEADING = re.compile(r"(\w+):")
# an argument, and the words that it is one of
ARGUMENT = re.compile(r"  <(\w+)>.*?(?: \[possible values: (.*)\])?")


def help_of(program, *command):
    """The lines of a help."""
    run = [program, *command, "--help"]
    return subprocess.run(run, capture_output=True, check=True, text=True).stdout.splitlines()


def section(lines, title):
    """The rows of a section of a help: what each begins with, and its text in one line."""
    rows, is_inside = [], False
    for line in lines:
        if line and not line.startswith(" "):
            is_inside = line == f"{title}:"
        elif is_inside and (begun := BEGINS.match(line)):
            rows.append([begun[1] or begun[2], begun[3]])
        elif is_inside and rows:
            rows[-1][1] = f"{rows[-1][1]} {line.strip()}".strip()
    return rows


def groups(lines):
    """The groups of options of a help: the heading, and the rows."""
    for heading in filter(None, map(HEADING.fullmatch, lines)):
        rows = [row for row in section(lines, heading[1]) if row[0].startswith("-")]
        if rows:
            yield heading[1], rows


def options_in(lines):
    """The rows of all options of a help."""
    return [row for _, rows in groups(lines) for row in rows]


def arguments_in(lines):
    """The arguments of a help, each with the words that it is one of, if it is one of some."""
    found = filter(None, map(ARGUMENT.fullmatch, lines))
    return [(it[1], it[2].split(", ") if it[2] else []) for it in found]


def commands_of(program):
    """The names of the commands, in the order of the help."""
    lines = help_of(program)
    first = lines.index("Commands:") + 1
    names = [line.split()[0] for line in lines[first : lines.index("", first)]]
    return [name for name in names if name != "help"]


def status_of(name, found):
    """Prints what was found wrong, and how much; what is right is nothing. Gives the exit status."""
    found = [*found]
    wrong = [it for it in found if it]
    for it in wrong:
        print(f"{name}: {it}")
    print(f"{name}: {len(found) - len(wrong)} passed, {len(wrong)} failed")
    return int(bool(wrong))


def code(text):
    """A text as code in a cell."""
    return "`" + text.replace("|", "\\|") + "`"


def table(head, rows):
    """A table in lines."""
    lines = ["| " + " | ".join(cells) + " |" for cells in [head, *rows]]
    return [lines[0], "|---" * len(head) + "|", *lines[1:]]


def in_order(lists):
    """The items of lists in one order: an item precedes those that follow it in each list."""
    order = []
    for items in lists:
        at = len(order)
        for item in reversed(items):
            if item in order:
                at = order.index(item)
            else:
                order.insert(at, item)
    return order


def with_file(program):
    """The commands that take FILE."""
    pages = ((command, help_of(program, command)) for command in commands_of(program))
    return [command for command, page in pages if ("FILE", []) in arguments_in(page)]


def in_words(takers, files):
    """The commands that take an option, in words; `files` are those that take FILE."""
    if not {*files} <= {*takers}:
        return ", ".join(takers)
    return ", ".join(["all with FILE", *(it for it in takers if it not in files)])


def options_of(program):
    """The rows of all options, by their group: the name, the commands that take it, and what it
    does."""
    takers, lists = {}, []
    for command in commands_of(program):
        own = [(group, *row) for group, rows in groups(help_of(program, command)) for row in rows]
        for group, name, text in own:
            takers.setdefault((group, name), {}).setdefault(text, []).append(command)
        lists.append([(group, name) for group, name, _ in own if name != "-h, --help"])
    found, files = {}, with_file(program)
    for group, name in in_order(lists):
        for text, own in takers[group, name].items():
            found.setdefault(group, []).append((code(name), in_words(own, files), text))
    return found


def tables(program):
    """The tables of each kind, in lines."""
    options, statuses = [], section(help_of(program), "Exit status")
    for group, rows in options_of(program).items():
        options += [f"**{group}**", "", *table(["Option", "Commands", "Effect"], rows), ""]
    return {"options": options[:-1], "statuses": table(["Status", "Meaning"], statuses)}


def main():
    style = argparse.RawDescriptionHelpFormatter
    words = argparse.ArgumentParser(description=__doc__, formatter_class=style)
    words.add_argument("program", metavar="PROGRAM")
    words.add_argument("--write", action="store_true", help="write the tables")
    options = words.parse_args()
    text, failed = PAGE.read_text(), 0
    for name, lines in tables(str(pathlib.Path(options.program).resolve())).items():
        parts = re.split(f"(<!-- (?:end of )?{name} -->)", text)
        made = "\n".join(["", "", *lines, "", ""])
        if len(parts) != 5:
            print(f"options: docs/OUTPUT.md does not have the lines around {name} once")
            failed += 1
        elif options.write:
            text = "".join([*parts[:2], made, *parts[3:]])
        elif parts[2] != made:
            print(f"options: the {name} differ from the help: tools/options.py --write PROGRAM")
            failed += 1
    if options.write:
        PAGE.write_text(text)
    print(f"options: 2 compared, {failed} failed")
    return int(failed > 0)


if __name__ == "__main__":
    sys.exit(main())
