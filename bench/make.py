#!/usr/bin/env python3
"""Writes the texts that the benchmarks read.

    make.py FOLDER

Most texts are made at a quarter, a half and all of the limit of 1,048,576 bytes, so that a program
whose work grows faster than its text shows it. Each is mostly made of one thing.
"""
import pathlib
import sys

LIMIT = 1_048_576
SIZES = [LIMIT // 4, LIMIT // 2, LIMIT]


def filled(size, before, repeated, after):
    """A text of `size` bytes: `repeated` as often as there is room, then blanks behind `after`."""
    room = size - len(before) - len(after)
    return (before + repeated * (room // len(repeated)) + after).ljust(size)


def coregions(count):
    return "msc t;instance a;" + "concurrent;endconcurrent;" * count + "endinstance;endmsc;"


def messages(count):
    """Messages with names of 64 letters, in one order on both lines."""
    names = [
        "m" * 60 + "".join(chr(97 + n // 26**k % 26) for k in (3, 2, 1, 0)) for n in range(count)
    ]
    outputs = "".join(f"out {name} to b;" for name in names)
    inputs = "".join(f"in {name} from a;" for name in names)
    return f"msc t;instance a;{outputs}endinstance;instance b;{inputs}endinstance;endmsc;"


def texts():
    """The name and the bytes of each text."""
    name = "n" * 64
    comment = "comment '" + "it''s a text. " * 16 + "'"
    coregion = f"concurrent {comment};endconcurrent {comment};"
    # what is repeated, and what stands before and behind it
    patterns = {
        "names of 64 letters": (f"msc t;inst {name}", f",{name}", ";endmsc;"),
        "short notes": ("msc t;", "/* a note */", "endmsc;"),
        "one note": ("msc t;/*", "*", "*/endmsc;"),
        "texts in comments": ("msc t;instance a;", coregion, "endinstance;endmsc;"),
        "one text": ("msc t comment '", "''", "';endmsc;"),
        "blanks": ("msc t;", " \t\r\n", "endmsc;"),
        "statements": ("msc t;instance a;", "out m to b;", "endinstance;endmsc;"),
        "events of a coregion": (
            "msc t;instance a;concurrent;",
            "out m to b;",
            "endconcurrent;endinstance;endmsc;",
        ),
        "sections": ("msc t;", "instance a;endinstance;", "endmsc;"),
        "inst statements": ("msc t;", "inst a;", "endmsc;"),
        "header names": ("msc t;inst a", ",a", ";endmsc;"),
        "parameters": ("msc t;instance a;out m(x", ",x", ")to b;endinstance;endmsc;"),
    }
    yield "empty chart", "msc t;endmsc;"
    for thing, pattern in patterns.items():
        for size in SIZES:
            yield thing, filled(size, *pattern)
    # In a chart about half of the bytes are marks at most, so this text is refused, at its last
    # byte.
    for size in SIZES:
        yield "marks, refused", (";,:()" * size)[: size - 1] + "?"
    for count in (10_000, 20_000, 40_000):
        yield "empty coregions", coregions(count)
    yield "1,024 messages", messages(1024)


def write(folder):
    """Writes each text into the folder; answers the names of the texts and their files."""
    made = []
    for thing, text in texts():
        file = pathlib.Path(folder) / f"{thing.replace(' ', '-').replace(',', '')}-{len(text)}.msc"
        file.write_bytes(text.encode("ascii"))
        made.append((thing, file))
    return made


if __name__ == "__main__":
    if len(sys.argv) != 2:
        sys.exit(__doc__.strip())
    for _, file in write(sys.argv[1]):
        print(file)
