"""Rounds of small random charts: what two rounds show of one to four.

Order within a round is that of the chart, and none leads back to an earlier round. Closest races
are within a round, or between a round and the next, where they are those of two rounds, from the
last segment of a line to its first. The sticks between a round and the next are those of two
rounds; more rounds than two stick where two do, and never finish where one round never does. If all
rounds have few events, all states of runs are searched too, as in ready_search.py. Two of three
charts have rules for links, which keep their kinds in every round.
"""
import itertools

from comparisons.ready_search import examine
from generators.charts import small_chart
from generators.links import some_queues
from harness import Wrong, want
from models.ready import Ready
from models.rounds import Several

NEEDS_PROGRAM = False
OPTIONS = {"number": 60, "messages": 4, "lines": 3, "events": 12}
# the rounds that are compared
MOST = 4


def want_rounds(charts, order_of, what):
    """The order of several rounds is within each that of one, and leads back to none before."""
    one = order_of(charts[0])
    for drawn in charts:
        order = order_of(drawn)
        for x, y in itertools.product(drawn.all, drawn.all):
            (e, r), (f, s) = drawn.place[x], drawn.place[y]
            holds = bool(order[x] >> y & 1)
            want(not holds or r <= s, f"{what} leads back from {drawn.numbered(x)}")
            want(r != s or holds == bool(one[e] >> f & 1), f"{what} within round {r}: {e} {f}")


def want_closest(trial, charts):
    """Closest races are those within a round, and those of two rounds between one and the next."""
    one, two = charts[:2]
    own, next_one = one.placed(one.closest(), (1, 1)), two.placed(two.closest(), (1, 2))
    trial.noted["closest races"] += len(next_one)
    for e, f in next_one:
        before = (it.segment for it in one.events if it.line == one.events[e].line)
        ends = (one.events[f].segment, one.events[e].segment)
        every = list(before)
        want(ends == (min(every), max(every)), f"{e} is not last, or {f} is not first")
    for drawn in charts:
        found, wanted = drawn.closest(), 0
        for r, s in itertools.product(range(1, drawn.rounds + 1), repeat=2):
            pairs = own if r == s else next_one if r + 1 == s else set()
            want(drawn.placed(found, (r, s)) == pairs, f"closest races of rounds {r} and {s}")
            wanted += len(pairs)
        want(len(found) == wanted, "closest races back in time")
        if drawn.rounds > 1:
            want(bool(found) == bool(two.races()), f"passing of {drawn.rounds} rounds")


def want_sticks(trial, charts, lines):
    """The sticks of more rounds than two, by those of two."""
    systems = [Ready(drawn, lines) for drawn in charts]
    want_rounds(charts, lambda drawn: systems[drawn.rounds - 1].order, "the ready order")
    one, two = systems[:2]
    next_one = charts[1].placed(two.sticks, (1, 2))
    trial.noted["sticks"] += len(next_one)
    for drawn, system in zip(charts, systems):
        for r in range(1, drawn.rounds + 1):
            own = drawn.placed(system.sticks, (r, r))
            want(own == set(one.sticks), f"sticks within round {r} of {drawn.rounds}")
            if r < drawn.rounds:
                pairs = drawn.placed(system.sticks, (r, r + 1))
                want(pairs == next_one, f"sticks between round {r} of {drawn.rounds} and the next")
        if drawn.rounds > 1:
            want(bool(system.sticks) == bool(two.sticks), f"sticking of {drawn.rounds} rounds")
        want(system.may_finish() == one.may_finish(), f"finishing of {drawn.rounds} rounds")


def search(trial, text, given, queues):
    """Looks at a chart under an architecture."""
    charts = [Several(text, queues, rounds) for rounds in range(1, MOST + 1)]
    lines = range(len(charts[0].names))
    some = {i for i in lines if trial.pick.random() < 0.5}
    try:
        want_rounds(charts, lambda drawn: drawn.enforced, "the enforced order")
        want_closest(trial, charts)
        for ready_lines in (set(), some, set(lines)):
            want_sticks(trial, charts, ready_lines)
            for drawn in charts:
                if len(drawn.events) <= trial.options.events:
                    examine(trial, drawn, ready_lines)
    except Wrong as wrong:
        trial.add(False, f"{text}\n{given}, ready {some}: {wrong}")
    else:
        trial.add(True)


def compare(trial):
    for _ in range(trial.options.number):
        text = small_chart(trial.pick, trial.options.lines, trial.options.messages)
        for given, queues in some_queues(trial.pick, text):
            search(trial, text, given, queues)
