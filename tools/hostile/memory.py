#!/usr/bin/env python3
"""Refuses each allocation of each command on charts of charts/, by tools/refuse; or lets the system
do so.

    memory.py [--most N] [--every K] [--commands C,..] [--limit] PROGRAM [CHART ..]

Every chart of charts/ and of charts/refused/ is read, and checked, followed, run, drawn, reported
and asked for sticks with each kind of queues, checked and run with rules for links, asked of two
rounds under `mailbox`, and for its sticks in the formats `lines` and `count`, and every diagram of
charts/import/ is imported and checked, where these are not given; so are, always, a chart and a
diagram that name their queues. Of the runs with more than N allocations (400 where it is not said)
each K-th allocation alone is refused. What a refused run has to answer says tools/refuse/refuse.py.
With --limit no call is refused, but each command has less and less address space for a chart at the
limits, down to too little for the program to begin. Prints for each run how many allocations it
makes or how many limits there are, what does not end well, and last `N passed, M failed`.
"""
import pathlib
import random
import re
import resource
import signal
import sys
import tempfile

from load import INSTANCES, MESSAGES, drawn
from program import QUEUES, TOP, Count, add_commands, arguments, run
from generators import link_examples
from generators.imports import at_the_limits
from models.links import Given
from refuse import Program, Shim, is_well, refuse_each
from threads import star

# the steps of address space, in bytes
STEP = 256 * 1024


def ruled(names, queues="mailbox"):
    """What a command line says of the queues of a chart with these instances."""
    rules = [("single", names[0]), ("pair", f" {names[-1]} > {names[0]}"), ("pair", names[-1])]
    return Given(queues, rules if len(set(names)) > 1 else rules[:2])


def commands(wanted, names=()):
    """The words of each command on a chart with these instances, and whether it has threads."""
    if "read" in wanted:
        yield ["read", "-"], False
    for command in wanted:
        # a chart need not have a race for `reverse`, which tools/refuse tries
        if command not in ("read", "reverse", "import"):
            yield from (([command, "--queues", queues, "-"], command == "run") for queues in QUEUES)
        if command in ("check", "ready"):
            yield [command, "--queues", "mailbox", "--again", "-"], False
        if command == "ready":
            for more in (["lines"], ["count"], ["lines", "--again"]):
                yield ["ready", "--queues", "mailbox", "--format", *more, "-"], False
        if command in ("check", "run") and names:
            yield [command, *ruled(names).words(), "-"], command == "run"


def imports(wanted):
    """The words of each command on diagrams."""
    if "import" in wanted:
        main_one = ["import", "--choose", "main"]
        yield from ([*main_one, *more, "-"] for more in ([], ["--list"], ["--self", "message"]))
    if "check" in wanted:
        check = ["check", "--from", "any", "--queues"]
        yield [*check, "pair", "-"]
        yield [*check, "mailbox", "--closest", "--why", "--show", "1", "--rounds", "1", "-"]
        # (the places of all races that are listed may take more than the limits are about)
        yield [*check, "single", "--closest", "--format", "lines", "--limit", "2", "-"]
        yield [*check, "pair", "--accept", "--choose", "main", "-"]


def commands_on(chart, text, wanted):
    """The words of each command on a file with this text, and whether it has threads."""
    if chart.suffix == ".mmd":
        return ((words, False) for words in imports(wanted))
    names = re.findall(r"(?i)\binstance\s+(\w+)", text.decode("latin-1"))
    return commands(wanted, names)


def examples(wanted):
    """Texts that name their queues, and the words of commands on them, with rules too that are
    right or faulty."""
    cell, some = link_examples.CELL.encode(), ruled(["radio", "base"], "own").words()
    own, faulty = ["--queues", "own"], link_examples.in_chart("queues pair; single a>")
    for words in (own, some, [*own, "--format", "lines"], [*some, "--single", "a>"],
                  [*some, "--single", "a>", "--places"]):
        yield from ((text, ["check", *words, "-"]) for text in (cell, faulty) if "check" in wanted)
    check = ["check", "--from", "any", *own]
    for comment in ("%% queues pair; single b, a>b", "%% queues pair; serves c; single b"):
        text = link_examples.in_diagram(comment)
        yield from ((text, words) for words in (["import", "-"], [*check, "-"],
                    [*check, "--mailbox", "b", "-"], [*check, "--pair", "d", "-"])
                    if words[0] in wanted)


def in_space(most):
    """What is done in a process before it becomes the program: it may have so much space."""
    return lambda: resource.setrlimit(resource.RLIMIT_AS, (most, most))


def is_unborn(ended):
    """Whether the loader had no room for the program and its libraries."""
    return ended.status == 127 or ended.status == -signal.SIGSEGV and not ended.error


def limit_each(program, wanted):
    """Runs each command with less and less address space."""
    count = Count()
    taken = (text for text, _ in at_the_limits() if text.count("->>") <= MESSAGES)
    largest = max(taken, key=lambda text: text.count("->>")).encode()
    on_diagrams = ((words, False) for words in imports(wanted))
    for words, has_threads in [*commands(wanted, ["i0", "i1"]), *on_diagrams]:
        messages = MESSAGES // 2 if "--again" in words else MESSAGES
        text = star(INSTANCES) if has_threads else drawn(random.Random(1), INSTANCES, messages)
        is_diagram = words[0] == "import" or "--from" in words
        if is_diagram:
            text = largest
        if words[0] in ("check", "ready") and not is_diagram:
            words[-1:] = ["--show", "0", "-"]
        full = run([program, *words], text)
        full = full.status, full.output, full.error
        limits = refused = 0
        # each thread has a stack of its own
        step = 16 * STEP if has_threads else STEP
        for space in range(step, 96 * step, step):
            ended = run([program, *words], text, preexec_fn=in_space(space))
            if is_unborn(ended):
                continue
            limits, refused = limits + 1, refused + (ended.status == 4)
            ended = ended.status, ended.output, ended.error
            count.add(is_well(full, ended, has_threads), *words, f"{space} bytes", ended)
        count.add(0 < refused < limits, *words, "some limits are to be too small, and some not")
        print(f"msc {' '.join(words)}: {limits} limits, {refused} of them too small")
    return count.end()


def tried(options):
    """Texts, the words of commands on them, their names, and whether a command has threads."""
    diagrams = sorted(TOP.glob("charts/import/*.mmd"))
    charts = options.charts or [*sorted(TOP.glob("charts/**/*.msc")), *diagrams]
    for chart in map(pathlib.Path, charts):
        text = chart.read_bytes()
        for words, has_threads in commands_on(chart, text, options.commands):
            yield text, words, chart.name, has_threads
    for text, words in examples(options.commands):
        yield text, words, "an example of links", False


def refuse_all(options):
    passed = failed = 0
    with tempfile.TemporaryDirectory() as folder:
        shim = Shim(folder)
        for text, words, told, has_threads in tried(options):
            program = Program([options.program, *words], text, shim)
            told = f"msc {' '.join(words)} < {told}"
            right, wrong = refuse_each(program, told, has_threads, options.most, options.every)
            passed, failed = passed + right, failed + wrong
    print(f"{passed} passed, {failed} failed")
    return int(failed > 0 or passed == 0)


def main():
    words = arguments(__doc__)
    words.add_argument("--most", type=int, default=400, metavar="N")
    words.add_argument("--every", type=int, default=97, metavar="K")
    words.add_argument("--limit", action="store_true")
    add_commands(words)
    words.add_argument("charts", nargs="*", metavar="CHART")
    options = words.parse_args()
    return limit_each(options.program, options.commands) if options.limit else refuse_all(options)


if __name__ == "__main__":
    sys.exit(main())
