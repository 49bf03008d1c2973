#!/usr/bin/env python3
"""Looks whether each definition that docs/MODEL.md names is there, and whether each entry of the
page names one. Prints what is not so; the exit status is 1 then.

    tools/model.py           looks
    tools/model.py --show    prints each line that names definitions, and below it their comments

`CRATE.FILE.NAME` is the definition NAME of crates/CRATE/specs/FILE.antt. Without CRATE it is of the
crate whose folder the section gives after `Definitions:`.
"""
import argparse
import itertools
import re
import sys
import textwrap

sys.dont_write_bytecode = True
from contracts import CRATES, TOP

PAGE = "docs/MODEL.md"
HOME = re.compile(r"Definitions: `crates/(\w+)/specs`")
NAME = re.compile(r"`(?:([a-z]\w*)\.)?([A-Z]\w*)\.([\w-]+)`")
DEFINITION = r"(?m)^(?:(?:abbrev|unfoldable|opaque) )?pub (?:(?:data|record) )?{}(?=[\s:(])"


def comment_of(crate, file, name):
    """The comment of a definition, or None if there is no such definition."""
    path = CRATES / crate / f"specs/{file}.antt"
    text = path.read_text() if path.is_file() else ""
    found = re.search(DEFINITION.format(re.escape(name)), text)
    if not found:
        return None
    above = reversed(text[: found.start()].splitlines())
    lines = [*itertools.takewhile(lambda it: it.startswith("--"), above)]
    return " ".join(it[2:].strip() for it in reversed(lines))


def named_in(text):
    """Each line of a page with its number, and the crate, the file and the name of each definition
    that it names."""
    crate = "no crate"
    for number, line in enumerate(text.split("\n"), 1):
        home = HOME.search(line)
        if home or line.startswith("## "):
            crate = home[1] if home else "no crate"
        yield number, line, [(of or crate, file, name) for of, file, name in NAME.findall(line)]


def faults(text):
    """What a page names that is not there, and the entries that name no definition."""
    for number, line, names in named_in(text):
        for it in names:
            if comment_of(*it) is None:
                yield f"{PAGE}:{number}: there is no {'.'.join(it)}"
        if line.startswith("- ") and not names:
            yield f"{PAGE}:{number}: an entry without a definition"


def show(text):
    """Prints the lines that name definitions, with the comments of these."""
    for _, line, names in named_in(text):
        if names:
            print(textwrap.fill(line, 100))
        for it in names:
            said = f"{'.'.join(it)}: {comment_of(*it) or 'no comment'}"
            print(textwrap.fill(said, 100, initial_indent="    ", subsequent_indent="      "))


def main():
    parser = argparse.ArgumentParser(
        description=__doc__, formatter_class=argparse.RawDescriptionHelpFormatter
    )
    parser.add_argument("--show", action="store_true", help="print the comments of definitions")
    asked, text = parser.parse_args(), (TOP / PAGE).read_text()
    if asked.show:
        show(text)
    found = [*faults(text)]
    print("\n".join([*found, f"model: {len(found)} faults"] if found else [PASSED]))
    return int(bool(found))


PASSED = "model: each definition that docs/MODEL.md names is there"

if __name__ == "__main__":
    sys.exit(main())
