"""Short runs of small random charts, by a search over all states of runs.

Of each chart with each kind of queues, in part with rules for links, the pairs (e, f) are taken in
which e is not f and not enforced before it. The short run has to be a run whose last event is f,
and that does not have e; and where it has just the past of f, no run that has f may be shorter.
"""
from comparisons.short_runs import texts
from generators.links import some_queues
from models.chart import Chart, is_enforced
from models.short_runs import State, is_run, short_witness

NEEDS_PROGRAM = False
OPTIONS = {"number": 40, "messages": 5}


def lengths(drawn):
    """For each event the length of the shortest runs that have it, by a search over all states."""
    found, states, length = {}, [State(drawn)], 0
    while states:
        length, later = length + 1, {}
        for state in states:
            for x in filter(state.may_come, drawn.all):
                found.setdefault(x, length)
                state_after = state.after(x)
                later[state_after.key()] = state_after
        states = list(later.values())
    return found


def fault(drawn, e, f, shortest):
    """What is wrong with the short run of e and f, if anything is."""
    events, is_past = short_witness(drawn, e, f)
    if not is_run(drawn, events) or events[-1] != f or e in events:
        return f"no run that ends with {f} and lacks {e}: {events}"
    if is_past and len(events) != shortest[f]:
        return f"a run of {f} has {shortest[f]} events, not {len(events)}"
    return None


def compare(trial):
    for text in texts(trial):
        for given, queues in some_queues(trial.pick, text):
            drawn = Chart(text, queues)
            shortest = lengths(drawn)
            for e, f in ((e, f) for e in drawn.all for f in drawn.all):
                if e != f and not is_enforced(drawn, e, f):
                    wrong = fault(drawn, e, f, shortest)
                    trial.add(not wrong, f"{text!r}\n{given}: {wrong}")
                    trial.noted["runs of more"] += not short_witness(drawn, e, f)[1]
