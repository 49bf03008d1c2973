#!/usr/bin/env python3
"""Gives the program files with names of every sort, with and without a fault, and names of no file,
and looks at each answer.

    file_names.py PROGRAM

What is printed of a file is what is printed of its text as standard input, with the file's name in
each place; and of the name each byte below 32, and 127, is `?`, on both streams. A file that is not
there is told on standard error, its name and the cause with `--places`, and on standard output with
`--format lines`. Wrong words with such names are refused, and shown in the same way; so are rules
for links. Prints what differs, and last `N passed, M failed`.
"""
import errno
import os
import pathlib
import re
import sys
import tempfile

from program import QUEUES, TOP, Answer, Count, arguments, run
from limits import of_events
from generators import link_examples

NAMES = ("t.msc", "a b.msc", "gr\u00f6\u00dfe.msc", "\u56f3\u9762.msc", "%s{}`$(x)`.msc",
         "\x1b[31mred\x1b[0m.msc", "\x01\x1f\x7f\t\r\n.msc", "t.msc:1:1: error: none", "x" * 250)
DIAGRAM = b"sequenceDiagram\nA->>B: a\nC->>B: b\n"
# texts that have an answer, and those that have none: of charts, of diagrams
CHARTS = {
    "races": (TOP / "charts/two_senders.msc").read_bytes(),
    "marks": (TOP / "charts/commands/marked.msc").read_bytes(),
    "never": (TOP / "charts/urgent_overtakes.msc").read_bytes(),
    "no token": b"msc t;\ninstance a?;", "no end": b"msc t;\n/* x", "long": b"msc " + b"x" * 65,
    "not supported": b"msc t; instance env;", "no semicolon": b"msc t;\ninstance a\n  out m to b;",
    "other": b"msc t;\ninstance a;\nout in to b;", "too long": b" " * 1048577,
    "deadlock": (TOP / "charts/refused/deadlock.msc").read_bytes(),
    "address": b"msc t;\ninst caler;\ninstance caller;\nout m to caler;\nout m to caler;\n"
               b"in n from caller;\nendinstance;\ninstance caller;\nendinstance; endmsc;",
    "ends": b"msc t;\ninstance a;\nout m to b;\nout n to b;\nendinstance;\ninstance b;\n"
            b"in m from a;\nin o from a;\nin m from a;\nendinstance; endmsc;",
    "reason": b"msc t;\ninstance a;\naction 'x' comment 'race ok';\nendinstance; endmsc;",
    "part": b"msc t;\ninstance a;\naction 'x' comment 'race ok by';\nendinstance; endmsc;",
    "many": of_events(1025), "rounds": of_events(513), "instances": b"msc t; " + b"".join(
        b"instance i%d; endinstance;\n" % i for i in range(33)) + b"endmsc;",
    "diagram": DIAGRAM, "queues": b"msc t\ncomment 'queues pair;\nsingle \x1b\xff'; endmsc;",
    "slip": b"msc t\ncomment 'queues pairs';\ninstance a; endinstance; endmsc;",
    "links": link_examples.CELL.encode(),
}
DIAGRAMS = {
    "races": DIAGRAM, "no arrow": b"sequenceDiagram\nA=>>B: a",
    "no end": b"sequenceDiagram\nloop x",
    "left": b"sequenceDiagram\nA/|-B: x", "outside": b"sequenceDiagram\nopt x\nelse\nend",
    "crosses": b"sequenceDiagram\n" + b"A-xB: x\n" * 13, "too long": b" " * 1048577,
    "par": b"sequenceDiagram\npar x\nA->>B: a\nand y\nA->>C: b\nA->>B: c\nend",
    "flow": b"flowchart TD\nA-->B", "front": b"---\ntitle: x", "nothing": b"",
    "queues": DIAGRAM + b"%% queues pair; pair A; single A", "slip": DIAGRAM + b"%% queues pairs",
    "links": DIAGRAM + b"%% queues pair; mailbox B",
    "stale": DIAGRAM + b"%% race ok: a", "reason": DIAGRAM + b"%% race ok",
    "unread": DIAGRAM + b"%% race ok with: a",
    "page": b"```mermaid\n" + DIAGRAM + b"```\n\n~~~mermaid\nsequenceDiagram\nA->B\n~~~\n",
}
ON_CHARTS = (
    ["check", "--queues", "mailbox", "--show", "0"],
    ["check", "--queues", "pair", "--places", "--why", "--accept"],
    ["check", "--queues", "mailbox", "--format", "lines"],
    ["check", "--queues", "mailbox", "--format", "lines", "--accept", "--again"],
    ["check", "--queues", "mailbox", "--format", "count"], ["read", "--places"],
    ["check", "--queues", "own", "--places"], ["check", "--queues", "own", "--format", "lines"],
    ["follow", "--queues", "own", "--single", "b", "--places"],
    ["follow", "--queues", "pair", "--places"],
    ["check", "--queues", "pair", "--format", "lines", "--again"],
    ["list", "--places"], ["ready", "--queues", "mailbox", "--places", "--again"],
    ["draw", "--queues", "pair", "--places"], ["report", "--queues", "pair", "--places"],
    ["explain", "--queues", "pair", "--places", "FILE", "1", "2"],
    ["reverse", "--queues", "pair", "--places", "FILE", "1", "2"],
    ["import", "--name", "t", "--places"],
)
ON_DIAGRAMS = (
    ["check", "--from", "any", "--queues", "mailbox", "--name", "t"],
    ["check", "--from", "any", "--queues", "mailbox", "--name", "t", "--places", "--why"],
    ["check", "--from", "any", "--queues", "mailbox", "--format", "lines"],
    ["check", "--from", "any", "--queues", "mailbox", "--format", "count"],
    ["check", "--from", "any", "--queues", "own", "--name", "t", "--places"],
    ["check", "--from", "any", "--queues", "own", "--format", "lines", "--single", "B"],
    ["check", "--from", "any", "--queues", "pair", "--name", "t", "--places", "--accept"],
    ["check", "--from", "any", "--queues", "pair", "--format", "lines", "--accept"],
    ["import", "--name", "t", "--places"], ["import", "--name", "t", "--list"],
    ["import", "--name", "t", "--fence", "3", "--places"],
    ["report", "--from", "any", "--queues", "pair", "--name", "t", "--places"],
    ["draw", "--from", "any", "--queues", "pair", "--name", "t", "--places"],
    ["check", "--queues", "pair", "--places"],
)


def shown(name):
    return "".join("?" if ord(letter) < 32 or ord(letter) == 127 else letter for letter in name)


def with_file(words, file):
    """The words with a file, behind the others where its place is not said."""
    words = words if "FILE" in words else [*words, "FILE"]
    return [file if word == "FILE" else word for word in words]


def place_of(words):
    """Where an answer to these words has `-`, the name of standard input."""
    if "count" in words:
        return re.compile(r"(?<= )-(?=$|#\d+$)")
    if words[:2] == ["report", "--from"]:
        return re.compile(r"(?<=[ >])-(?=:)")
    return re.compile(r"(?<![^ ])-(?=:\d+:\d+)")


def renamed(text, name, place):
    """What is printed of standard input, as it is of a file."""
    lines = text.decode("latin-1").split("\n")
    # the line of the text that is shown has two blanks before it, and is left as it is
    is_text = [line.startswith("  ") and not line.startswith("  at ") for line in lines]
    own = name.encode().decode("latin-1")
    return "\n".join(line if kept else place.sub(lambda _: own, line)
                     for line, kept in zip(lines, is_text)).encode("latin-1")


def is_clean(answer):
    """Whether nothing is printed that a terminal would not show."""
    return not re.search(rb"[\x00-\x09\x0b-\x1f\x7f]", answer.output + answer.error)


def named_files(count, program, folder):
    """Compares what is printed of files with what is printed of standard input."""
    for texts, commands in ((CHARTS, ON_CHARTS), (DIAGRAMS, ON_DIAGRAMS)):
        for kind, text in texts.items():
            for words in commands:
                plain = run([program, *with_file(words, "-")], text)
                for name in NAMES if len(text) < 1000 else NAMES[:1]:
                    (folder / name).write_bytes(text)
                    got = run([program, *with_file(words, name)], cwd=folder)
                    place = place_of(words)
                    parts = (renamed(part, shown(name), place) for part in plain[:2])
                    wanted = Answer(*parts, plain.status)
                    count.compare(got, wanted, kind, *words, repr(name))
                    count.add(is_clean(got), "bytes that are not shown", kind, *words, repr(name))


def missing_files(count, program, folder):
    """Looks at what is told of files that are not there, and of a folder."""
    (folder / "folder").mkdir()
    for name in (*(f"no {name}"[:250] for name in NAMES), "folder", "x" * 256):
        number = {"folder": errno.EISDIR, "x" * 256: errno.ENAMETOOLONG}.get(name, errno.ENOENT)
        cause = f"file {shown(name)}: {os.strerror(number)} (os error {number})\n"
        for words in (*ON_CHARTS, *ON_DIAGRAMS):
            told = cause if "--places" in words else ""
            error, at = "device fault\n", f"{shown(name)}:1:1:"
            lines = f"{at} error: {error}{at} note: {cause}" if "lines" in words else ""
            wanted = Answer(lines.encode(), (error + told).encode(), 4)
            count.compare(run([program, *with_file(words, name)], cwd=folder), wanted,
                          *words, repr(name))


def wrong_words(count, program):
    """Looks at what is told of wrong words that hold such names."""
    for name in NAMES[:-1]:
        for words in (["read", "a", name], [name], ["read", f"--{name}"], ["check", "--queues", name],
                      ["follow", "--queues", name, "a"], ["follow", "--queues", "pair", "a", name],
                      ["explain", "--queues", "pair", "a", name, "1"], ["import", "--choose", name]):
            got = run([program, *words])
            is_refused = got.status == 2 and not got.output and got.error.startswith(b"error: ")
            count.add(is_refused and is_clean(got), "refused, and shown", *map(repr, words))


def names_of_links(count, program):
    """Looks at what is told of rules with such names, which no instance has."""
    for name in NAMES:
        wanted = Answer(b"", f"link fault 2: no instance {shown(name)}\n".encode(), 2)
        for kind in QUEUES:
            for words in (["check", "--queues", kind], ["run", "--queues", "own"],
                          ["check", "--from", "any", "--queues", kind]):
                text = DIAGRAM if "--from" in words else link_examples.CELL.encode()
                for link in (name, f"{name} > base", f"{name}>{name}"):
                    got = run([program, *words, f"--{kind}", link, "-"], text)
                    count.compare(got, wanted, *words, kind, repr(link))


def main():
    options, count = arguments(__doc__).parse_args(), Count()
    program = str(pathlib.Path(options.program).resolve())
    with tempfile.TemporaryDirectory() as name:
        named_files(count, program, pathlib.Path(name))
        missing_files(count, program, pathlib.Path(name))
    wrong_words(count, program)
    names_of_links(count, program)
    return count.end()


if __name__ == "__main__":
    sys.exit(main())
