"""What `msc explain` prints of every pair of events of random charts, line by line.

Each chart is tried with each kind of queues, in part with rules for links, and with all pairs of
numbers from 0 up to that of its events. Each text is checked again without one of its lines, and
has to be wrong then. Some pairs are tried again with --places, and the events by their lines: only
the places may be added. Some are tried with --short: only the run may differ.
"""
import functools

from generators.charts import chart
from generators.links import some_queues
from harness import run
from models.chart import Chart, is_enforced
from models.explanations import Wrong, check, fault, name_of, with_places
from models.short_runs import short_witness
from models.shown import places_of

NEEDS_PROGRAM = True
OPTIONS = {"number": 24, "messages": 6, "uniform": False}


def is_refused_without(drawn, e, f, lines, place):
    """Whether the text is wrong without this line."""
    try:
        check(drawn, e, f, lines[:place] + lines[place + 1:])
    except (Wrong, IndexError, ValueError):
        return True
    return False


def lines_of(held):
    return held.decode("latin-1").splitlines()


def check_pair(pick, drawn, e, f, done):
    """Raises Wrong where a run of the program did not end as it has to."""
    output, errors = lines_of(done.output), lines_of(done.error)
    line = fault(len(drawn.events), e, f)
    if line:
        if (output, errors, done.status) != ([], [line], 2):
            raise Wrong(f"wanted {line!r} and status 2")
        return
    check(drawn, e, f, output)
    if (errors, done.status) != ([], 1 - is_enforced(drawn, e, f)):
        raise Wrong(f"status {done.status}, errors {errors}")
    if not is_refused_without(drawn, e, f, output, pick.randrange(len(output))):
        raise Wrong("right without one of its lines too")


def check_again(words, text, wanted, plain):
    """Raises Wrong where a run with more options prints other lines, or has another status."""
    done = run(words, text.encode("latin-1"))
    got = lines_of(done.output)
    if (got, done.error, done.status) != (wanted, b"", plain.status):
        raise Wrong(f"{words}: wanted {wanted}, got {got}")


def check_placed(program, text, places, e, f, plain):
    """Raises Wrong where places, or other names of the events, change anything else."""
    words = [*program, "--places", "-", name_of(places, e), name_of(places, f)]
    check_again(words, text, list(with_places(lines_of(plain.output), places)), plain)


def check_short(program, text, drawn, e, f, plain):
    """Raises Wrong where --short changes anything but the run, or shows no short run."""
    wanted = lines_of(plain.output)
    if wanted[-1].startswith("run "):
        wanted[-1] = " ".join(map(str, ["run", *short_witness(drawn, e, f)[0]]))
    check_again([*program, "--short", "-", str(e), str(f)], text, wanted, plain)


def check_one(trial, asked, text, places, drawn, e, f):
    """Checks what the program prints of a pair."""
    done = run([*asked, "-", str(e), str(f)], text.encode("latin-1"))
    try:
        check_pair(trial.pick, drawn, e, f, done)
        if done.status < 2 and trial.pick.random() < 0.2:
            check_placed(asked, text, places, e, f, done)
        if done.status < 2 and trial.pick.random() < 0.2:
            check_short(asked, text, drawn, e, f, done)
    except (Wrong, IndexError, ValueError) as wrong:
        trial.add(False, f"{text!r}\n{asked} {e} {f}: {wrong}", done.output.decode("latin-1"))
    else:
        trial.add(True)


def compare(trial):
    for _ in range(trial.options.number):
        end = trial.pick.choice(["", "\n", "\r\n  "])
        text = chart(trial.pick, trial.options.messages, True).replace(";", ";" + end)
        places = places_of(text.encode("latin-1"))
        for given, queues in some_queues(trial.pick, text, trial.options.uniform):
            drawn = Chart(text, queues)
            drawn.witness = functools.cache(drawn.witness)
            asked = [trial.program, "explain", *given.words()]
            numbers = range(len(drawn.events) + 1)
            for e, f in ((e, f) for e in numbers for f in numbers):
                check_one(trial, asked, text, places, drawn, e, f)
