"""Laws of the form `full`, of random charts, diagrams and lines, as the models print them.

Without the sequences of colours the bytes are the same; every character is shown; each race that is
listed has a block; and marks stand below what they underline, whatever the line has.
"""
import re

from comparisons.full_charts import queues_of, text_of, words_of
from comparisons.full_diagrams import tried
from harness import Wrong, want
from models.answers import diagram_check_answer, fault_of, full_answer
from models.chart import Chart
from models.diagnostic import WINDOW, Mark, windows
from models.own import of_chart
from models.races import closest_of
from models.spoken import columns, is_shown, text_shown

NEEDS_PROGRAM = False
OPTIONS = {"number": 50, "messages": 6, "lines": 4, "uniform": False}
COLOUR = re.compile("\x1b\\[([0-9;]*)m")
PIECES = [b"a", b"bc ", b" ", b"\t", "\u00e9".encode(), "\u7f51".encode(), "\u7edc\u7edc".encode(),
          "\u0301".encode(), "\u202e".encode(), "\u200d".encode(), b"\xff", b"\xe2\x82", b"\x1b[0m"]


def plain(coloured):
    """The text without colours, each of which ends in its row."""
    for row in coloured.split("\n"):
        ends = [found == "0" for found in COLOUR.findall(row)]
        want(ends == [False, True] * (len(ends) // 2), f"colours do not end in their row: {row!r}")
    return COLOUR.sub("", coloured)


def check_forms(never, always):
    """The same text without and with colours."""
    want(plain(always.output.decode()) == never.output.decode(), "colours add something")
    want(all(it == "\n" or is_shown(it) for it in never.output.decode()), "not all is shown")


def check_chart(trial):
    """A chart, and the number of its blocks."""
    pick = trial.pick
    given, text = queues_of(trial, text_of(trial))
    command = pick.choice(["check", "ready"])
    words = words_of(pick, command)
    at = words.index("--color")
    del words[at:at + 2]
    check_forms(*(full_answer(text, command, given, [*words, "--color", it])
                  for it in ("never", "always")))
    told = full_answer(text, "check", given).output.decode()
    if fault_of(text) or "\nerror[link" in "\n" + told:
        return
    drawn = Chart(text.decode("latin-1"), of_chart(text, given))
    count = len(re.findall(r"^(?:warning|error)\[(?!never)", told, re.M))
    want(count == len(closest_of(drawn, drawn.races())), f"{count} blocks")
    trial.noted["races"] += count


def check_diagram(trial):
    text, words = tried(trial.pick, trial.options.uniform)
    at = words.index("--format")
    words[at + 1] = "full"
    words = [it for it in words if it not in ("--color", "always", "never", "--quiet")]
    check_forms(*(diagram_check_answer(text, [*words, "--color", it])
                  for it in ("never", "always")))


def line_of(pick):
    """A line, and some parts of it."""
    parts = [pick.choice(PIECES) for _ in range(pick.choice([1, 5, 40, 100, 400]))]
    starts = [0]
    for part in parts:
        starts.append(starts[-1] + len(part))
    found = []
    for _ in range(pick.choice([1, 1, 2, 3])):
        first, past = sorted(pick.sample(range(len(starts)), 2))
        found.append(Mark(starts[first], max(starts[past], starts[first] + 1), "^"))
    return b"".join(parts), found


def check_line(trial):
    """What is shown of a line, and where its marks stand."""
    held, marks = line_of(trial.pick)
    count = 0
    for text, below in windows(held, marks):
        want(columns(text) <= WINDOW + 6, "the window is too wide")
        row = text + " " * WINDOW
        for column, wide, mark in below:
            count += 1
            own = text_shown(held[mark.first:mark.past])
            begins = [i for i in range(len(row)) if columns(row[:i]) == column]
            is_whole = any(row[i:].startswith(own.rstrip(" ")) for i in begins)
            fits = columns(own) <= wide
            want(is_whole or not fits, f"{own!r} does not stand at {column} of {text!r}")
            want(wide == max(columns(own), 1) or not fits, f"{own!r} has {wide} columns")
            trial.noted["marks"] += 1
    want(count == len(marks), "a mark is lost")


def compare(trial):
    for check, number in ((check_chart, 1), (check_diagram, 1), (check_line, 20)):
        for _ in range(trial.options.number * number):
            try:
                check(trial)
                trial.add(True)
            except Wrong as wrong:
                trial.add(False, f"{check.__name__}: {wrong}")
