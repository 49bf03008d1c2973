"""Instances that are ready, by a search over all states of runs of small random charts.

All states that ready runs reach are looked at with each kind of queues, in part with rules for
links, with all instances ready and with some: a run sticks exactly where there is a stick; some run
is whole exactly where no ring is found; some stick is first; each first stick has its run, and the
system has stuck after it; once its outputs were sent in the other order no continuation is whole;
where nothing sticks, the pairs of the other lines that runs reverse are those that are named; more
ready instances end no sticking; a chart that passes never sticks.
"""
import itertools

from generators.charts import small_chart
from generators.links import some_queues
from harness import Wrong, want
from models.chart import Chart
from models.links import architecture
from models.ready import Ready

NEEDS_PROGRAM = False
OPTIONS = {"number": 60, "messages": 5, "lines": 4}


def examine(trial, drawn, ready):
    """Looks at all states that ready runs reach; returns whether one of them is stuck."""
    system = Ready(drawn, ready)
    states = system.reach(system.empty())
    stuck = any(not system.next_events(state) and not system.is_whole(state) for state in states)
    whole = any(system.is_whole(state) for state in states)
    trial.noted["stuck"] += stuck
    want(stuck == bool(system.sticks), f"stuck {stuck}, sticks {system.sticks}")
    want(whole == system.may_finish(), f"whole {whole}")
    firsts = [(e, f) for e, f in system.sticks if not system.ahead(f)]
    want(bool(firsts) == bool(system.sticks), "no stick is first")
    for e, f in firsts:
        trial.noted["first sticks"] += 1
        run, state = system.stick_run(f), system.empty()
        for x in run:
            want(system.may_come(state, x), f"run {run} at {x}")
            state = system.after(state, x)
        want(not system.next_events(state) and not system.is_whole(state), f"run {run} goes on")
        first, second = drawn.partner[e], drawn.partner[f]
        want(second in run and first not in run[: run.index(second)], f"run {run} for {e} {f}")
    for e, f in system.sticks:
        first, second = drawn.partner[e], drawn.partner[f]
        wrong = {s for s in states if s[0] >> second & 1 and not s[0] >> first & 1}
        for state in list(wrong)[:3]:
            later = system.reach(state)
            want(not any(system.is_whole(s) for s in later), f"stick {e} {f} is not final")
    if not stuck:
        reversed_by_some = {
            (e, f)
            for e, f in itertools.product(drawn.all, drawn.all)
            if drawn.before(e, f) and not system.is_ready(e)
            and any(s[0] >> f & 1 and not s[0] >> e & 1 for s in states)
        }
        want(reversed_by_some == set(system.races()), "races that are left")
    trial.add(True)
    return stuck


def search(trial, text, given, queues):
    """Looks at a chart, with three choices of ready instances."""
    drawn = Chart(text, queues)
    lines = range(len(drawn.names))
    some = {i for i in lines if trial.pick.random() < 0.5}
    more = some | {i for i in lines if trial.pick.random() < 0.5}
    try:
        stuck = [examine(trial, drawn, ready) for ready in (some, more, set(lines))]
        want(stuck[0] <= stuck[1] <= stuck[2], "more ready end sticking")
        want(drawn.races() or not stuck[2], "a chart that passes sticks")
        want(queues != architecture("single") or not stuck[2], "single sticks")
    except Wrong as wrong:
        trial.add(False, f"{text}\n{given}, ready {some} and {more}: {wrong}")


def compare(trial):
    for _ in range(trial.options.number):
        text = small_chart(trial.pick, trial.options.lines, trial.options.messages)
        for given, queues in some_queues(trial.pick, text):
            search(trial, text, given, queues)
