"""What `msc check --short` prints of random charts.

Before these come two charts whose short runs were worked out by hand, in one of them a run that has
more than the past of its last event.
"""
from generators.charts import chart
from generators.links import some_queues
from harness import Answer, joined
from models.chart import Chart
from models.short_runs import short_witness, verdict

NEEDS_PROGRAM = True
OPTIONS = {"number": 60, "messages": 12, "uniform": False}

# The past of the second input of k is no run under mailbox: for q to take m2 first, and z m3, the
# four outputs of a and b would go round in a ring.
RING = (
    "msc t; instance a; out m1 to q; out m3 to z; endinstance;"
    "instance b; out m4 to z; out m2 to q; endinstance;"
    "instance q; in m2 from b; out x to w; in m1 from a; endinstance;"
    "instance z; in m3 from a; out y to w; in m4 from b; endinstance;"
    "instance w; in x from q; in y from z; out v to k; endinstance;"
    "instance k; in u from j; in v from w; endinstance;"
    "instance j; out u to k; endinstance; endmsc;"
)

# Under mailbox the output of m1 is held, and waits for that of m2.
WAITING = (
    "msc t; instance a; out m1 to b; out x to d; in z from d; endinstance;"
    "instance b; in m2 from c; out y to d; in m1 from a; endinstance;"
    "instance c; out m2 to b; endinstance;"
    "instance d; in x from a; in y from b; out z to a; endinstance; endmsc;"
)

# the same, with the runs of some pairs: architecture, pair, run, and whether it is the past alone
BY_HAND = [
    (RING, "mailbox", 13, 14, ([0, 1, 2, 3, 6, 4, 5, 7, 8, 9, 10, 11, 12, 14], False)),
    (RING, "pair", 13, 14, ([0, 1, 2, 3, 4, 5, 7, 8, 10, 11, 12, 14], True)),
    (WAITING, "mailbox", 5, 9, ([6, 0, 1, 3, 4, 7, 8, 9], True)),
    (WAITING, "pair", 5, 9, ([0, 1, 6, 3, 4, 7, 8, 9], True)),
]


def texts(trial):
    """The two charts, and random ones; first the model is compared with what is by hand."""
    for text, queues, e, f, wanted in BY_HAND:
        got = short_witness(Chart(text, queues), e, f)
        trial.add(got == wanted, f"by hand {wanted}, got {got}")
    yield from (RING, WAITING)
    for _ in range(trial.options.number):
        yield chart(trial.pick, trial.options.messages, True)


def compare(trial):
    for text in texts(trial):
        for given, queues in some_queues(trial.pick, text, trial.options.uniform):
            drawn = Chart(text, queues)
            races = drawn.races()
            trial.noted["runs"] += len(races)
            trial.noted["runs of more"] += sum(not short_witness(drawn, *race)[1] for race in races)
            wanted = Answer(joined(verdict(drawn)), b"", int(bool(races)))
            words = ["check", *given.words(), "--short", "-"]
            trial.compare(words, text.encode("latin-1"), wanted)
