#!/usr/bin/env python3
"""Runs `msc` with its streams on a terminal, and compares what it prints there.

    tools/terminal.py PROGRAM

If standard error is a terminal, notes follow the line of a fault; they do so anywhere with
`--places`, and nowhere with `--plain`. Standard output is the same everywhere, but for the colours
of `--format full`: these are printed to a terminal, unless `NO_COLOR` or `TERM` forbids it, or as
`--color` says. Prints how many runs were compared. The exit status is 1 if one prints something
else.
"""
import itertools
import os
import pathlib
import pty
import re
import subprocess
import sys

ROOT = pathlib.Path(__file__).resolve().parent.parent
DEADLOCK = "charts/refused/deadlock.msc"
RELAY = "charts/relay.msc"
ARROW = "charts/import/refused/unknown_arrow.mmd"
SLIP, NOBODY = "charts/commands/queues_slip.msc", "charts/commands/queues_of_nobody.msc"
TWO_KINDS = "charts/commands/two_kinds.mmd"

# Words, and whether notes are told where standard error is no terminal, and where it is one.
FAULTS = [
    (["check", "--queues", "pair", DEADLOCK], False, True),
    (["check", "--queues", "pair", "--plain", DEADLOCK], False, False),
    (["check", "--queues", "pair", "--places", DEADLOCK], True, True),
    (["list", DEADLOCK], False, True),
    (["ready", "--queues", "pair", DEADLOCK], False, True),
    (["run", "--queues", "pair", DEADLOCK], False, True),
    (["explain", "--queues", "pair", DEADLOCK, "0", "1"], False, True),
    (["follow", "--queues", "pair", DEADLOCK], False, True),
    (["follow", "--queues", "pair", "--plain", DEADLOCK], False, False),
    (["check", "--queues", "pair", "-q", DEADLOCK], False, True),
    (["check", "--queues", "pair", "--format", "count", DEADLOCK], False, True),
    (["draw", DEADLOCK], False, True),
    (["draw", "--plain", DEADLOCK], False, False),
    (["reverse", "--queues", "pair", DEADLOCK, "0", "1"], False, True),
    (["report", "--queues", "pair", DEADLOCK], False, True),
    (["import", ARROW], False, True),
    (["import", "--places", ARROW], True, True),
    (["check", "--from", "any", "--queues", "pair", ARROW], False, True),
    (["check", "--from", "any", "--queues", "pair", "--plain", ARROW], False, False),
    (["check", "--queues", "own", SLIP], False, True),
    (["run", "--queues", "own", "--plain", SLIP], False, False),
    (["report", "--queues", "own", NOBODY], False, True),
    (["check", "--from", "any", "--queues", "own", TWO_KINDS], False, True),
    (["check", "--queues", "pair", "no/such/\x1b[31mfile"], False, True),
    (["read", "charts/no_such_chart.msc"], False, True),
    (["read", "--plain", "charts/no_such_chart.msc"], False, False),
]

# Words that are answered: what goes to standard output is the same on a terminal.
ANSWERS = [
    ["check", "--queues", "pair", RELAY],
    ["check", "--queues", "pair", "--places", "--why", RELAY],
    ["list", RELAY],
    ["explain", "--queues", "pair", RELAY, "2", "3"],
    ["follow", "--queues", "pair", "--words", RELAY],
    ["follow", "--queues", "pair", "charts/urgent_overtakes.msc"],
    ["scan", "--format", "text", RELAY, "no/such/\x1b[31mfile"],
    ["scan", "--format", "lines", RELAY, DEADLOCK],
]

# findings and a fault as people read them
FULL = [
    ["check", "--queues", "pair", "--format", "full", "charts/two_phase_commit.msc"],
    ["ready", "--queues", "mailbox", "--format", "full", "charts/two_phase_commit.msc"],
    ["check", "--queues", "pair", "--format", "full", "charts/refused/repeated_message.msc"],
    ["scan", "charts/two_phase_commit.msc", "charts/refused/repeated_message.msc"],
]

# Variables, what `--color` says, and whether there are colours on a terminal, and elsewhere.
COLOURS = [
    ({"TERM": "xterm"}, None, True, False),
    ({"TERM": "xterm"}, "auto", True, False),
    ({"TERM": "xterm"}, "always", True, True),
    ({"TERM": "xterm"}, "never", False, False),
    ({"TERM": "xterm", "NO_COLOR": ""}, None, True, False),
    ({"TERM": "xterm", "NO_COLOR": "1"}, None, False, False),
    ({"TERM": "xterm", "NO_COLOR": "1"}, "always", True, True),
    ({"TERM": "dumb"}, None, False, False),
    ({"TERM": "dumb"}, "always", True, True),
    ({}, None, True, False),
]
# the sequences of colours
SEQUENCE = re.compile(rb"\x1b\[[0-9;]*m")


def read_all(descriptor):
    """What is written to a terminal, until it is closed."""
    parts = []
    while True:
        try:
            part = os.read(descriptor, 65536)
        except OSError:
            break
        if not part:
            break
        parts.append(part)
    return b"".join(parts).replace(b"\r\n", b"\n")


def run(program, words, terminal, variables=None):
    """What a run writes to standard output and to standard error, if that stream of these two is a
    terminal."""
    main, own = pty.openpty()
    streams = {"stdout": subprocess.PIPE, "stderr": subprocess.PIPE, terminal: own}
    with subprocess.Popen(
        [program, *words], cwd=ROOT, stdin=subprocess.DEVNULL, env=variables, **streams
    ) as ended:
        os.close(own)
        shown = read_all(main)
        os.close(main)
        piped = (ended.stdout or ended.stderr).read()
    return (shown, piped) if terminal == "stdout" else (piped, shown)


def plain(program, words, variables=None):
    """What a run writes to both streams if neither is a terminal."""
    ended = subprocess.run(
        [program, *words], cwd=ROOT, stdin=subprocess.DEVNULL, capture_output=True, env=variables
    )
    return ended.stdout, ended.stderr


def has_wrong_colours(program, command, variables, color, on_terminal, elsewhere):
    """Whether a run with these variables has colours where it should not, or none where it should,
    or prints something else besides."""
    words = [*command, *([] if color is None else ["--color", color])]
    answers = [run(program, words, "stdout", variables), plain(program, words, variables)]
    bare = plain(program, [*command, "--color", "never"])
    found = [bool(SEQUENCE.search(output)) for output, _ in answers]
    texts = {(SEQUENCE.sub(b"", output), faults) for output, faults in answers}
    return found != [on_terminal, elsewhere] or texts != {bare} or bare[1]


def failures(program):
    """The runs that print something else than they have to."""
    for words, piped, on_terminal in FAULTS:
        output, faults = plain(program, words)
        line, told = faults.split(b"\n", 1)
        if output or bool(told) != piped:
            yield words
        whole = plain(program, [words[0], "--places", *(w for w in words[1:] if w[:3] != "--p")])[1]
        if run(program, words, "stderr") != (b"", whole if on_terminal else line + b"\n"):
            yield words
        if run(program, words, "stdout") != (b"", faults):
            yield words
    for words in ANSWERS:
        if not plain(program, words) == run(program, words, "stdout") == run(program, words, "stderr"):
            yield words
    for command, (variables, color, *wanted) in itertools.product(FULL, COLOURS):
        if has_wrong_colours(program, command, variables, color, *wanted):
            yield command, variables, color


def main():
    program = os.path.abspath(sys.argv[1])
    failed = list(failures(program))
    for words in failed:
        print("terminal: another answer:", words)
    runs = 3 * (len(FAULTS) + len(ANSWERS) + len(FULL) * len(COLOURS))
    print(f"terminal: {runs} runs, {len(failed)} others")
    return 1 if failed else 0


if __name__ == "__main__":
    sys.exit(main())
