"""Drawings that can happen, by a search over all runs of small random charts.

All states of runs that keep the drawn order are looked at with each kind of queues, in part with
rules for links, without a word of steps. A whole one is reached exactly if the steps have no ring.
In each state that a whole run passes, the events with which such a run goes on are those that may
come and to which no step leads from one that has not come. The least of them, again and again, are
the following run, which is whole and keeps the drawn order.

A ring is one of different events. By the closed steps no event below its first is on a ring. Of all
paths that lead from its first event back to it, tried one after the other, none of fewer events is
a ring, nor any of as many that is less. A chart that passes can happen; one that cannot has a race;
under `single` no output has to be ahead of another, and all can happen.

Every second chart is such that its rings are long, if it has some. Scenarios of random diagrams are
tried too: no arrow of a diagram rises, so all can happen.
"""
from generators.charts import crossed_chart, small_chart
from generators.diagram_checks import diagram
from generators.links import some_queues
from harness import Wrong, want
from models.chart import Chart, is_enforced
from models.courses import scenarios
from models.explanations import is_whole_run
from models.following import Steps, ring_steps
from models.links import architecture
from models.mermaid import one_text
from models.ready import closed
from models.scenarios import options_of
from models.short_runs import State
from models.source import Refused, source_of

NEEDS_PROGRAM = False
OPTIONS = {"number": 400, "messages": 5, "lines": 4}
SINGLE = architecture("single")


def kept_states(drawn):
    """The states that runs reach that keep the drawn order, each with the events that may be next
    and the states after these."""
    start = State(drawn)
    found, left = {start.key(): (start, [])}, [start]
    while left:
        state = left.pop()
        for x in drawn.all:
            if state.may_come(x) and not drawn.drawn_before[x] & ~state.past:
                later = state.after(x)
                found[state.key()][1].append((x, later.key()))
                if later.key() not in found:
                    found[later.key()] = later, []
                    left.append(later)
    return found


def passed_by_whole_runs(drawn):
    """The states of whole runs that keep the drawn order, each with the events that may be next."""
    found, passed = kept_states(drawn), {}
    # a state has fewer events than those that follow it
    for key in sorted(found, key=lambda it: -found[it][0].past.bit_count()):
        state, later = found[key]
        more = {x for x, other in later if other in passed}
        if more or state.past == (1 << len(drawn.all)) - 1:
            passed[key] = state, more
    return list(passed.values())


def first_return(steps, e):
    """The first path from e back to it: of the shortest, event by event; by trying all."""
    def paths(path, left):
        for y in steps.next[path[-1]]:
            if left == 1 and y == e:
                yield path
            elif left > 1 and y not in path:
                yield from paths([*path, y], left - 1)

    every = (path for length in range(1, len(steps.all) + 1) for path in paths([e], length))
    return next(every, None)


def may_follow(steps, state):
    """The events that may come, and to which no step leads from an event that has not come yet."""
    return {x for x in steps.all if state.may_come(x) and all(
        state.past >> y & 1 for y in steps.all if steps.word(y, x))}


def check_run(drawn, steps):
    """Looks at the following run."""
    run = steps.following_run()
    want(is_whole_run(drawn, run), f"{run} is no whole run")
    places = {x: place for place, x in enumerate(run)}
    want(all(places[d] < places[e] for d in drawn.all for e in drawn.all if drawn.before(d, e)),
         f"{run} is not as drawn")
    state = State(drawn)
    for x in run:
        may = may_follow(steps, state)
        want(min(may) == x, f"{run}: {x} is not the least of {may}")
        state = state.after(x)


def check_ring(steps):
    """Looks at the ring that is printed."""
    ring = steps.ring
    want(len(set(ring)) == len(ring) > 1, f"{ring} repeats an event")
    want(all(steps.word(x, y) for x, y in ring_steps(ring)), f"{ring} lacks a step")
    after = closed(len(steps.all), [(x, y) for x in steps.all for y in steps.next[x]])
    want(not any(after[x] >> x & 1 for x in range(ring[0])), f"{ring} does not begin at the least")
    want(first_return(steps, ring[0]) == ring, f"{ring} is not the first of the shortest")


def examine(trial, drawn):
    """Looks at a chart under an architecture."""
    steps, races = Steps(drawn), drawn.races()
    passed = passed_by_whole_runs(drawn)
    want(bool(passed) == (steps.ring is None), f"search {bool(passed)}, ring {steps.ring}")
    for state, more in passed:
        want(more == may_follow(steps, state), f"not {more} may follow {state.past:b}")
    want(races or passed, "it passes, and cannot happen")
    words = {steps.word(x, y) for x in steps.all for y in steps.next[x]}
    want(drawn.queues != SINGLE or passed and "ahead" not in words, "single")
    if passed:
        check_run(drawn, steps)
    else:
        check_ring(steps)
        trial.noted["never"] += 1
        trial.noted["longer rings"] += len(steps.ring) > 2
        trial.noted["never without always"] += not any(
            is_enforced(drawn, f, e) for e, f in races)
    trial.noted["races and yet as drawn"] += bool(races and passed)
    trial.add(True)


def of_diagram(pick):
    """The texts of the first scenarios of a random diagram, if it has some."""
    options = options_of(["--queues", "pair", "--self", pick.choice(["action", "message"]), "-"])
    text = diagram(pick).encode()
    try:
        every = list(scenarios(one_text(source_of(text), options).diagram(options), options))
    except Refused:
        return []
    return [course.text("t") for course in every[:3]]


def compare(trial):
    pick, it = trial.pick, trial.options
    for number in range(it.number):
        made = crossed_chart if number % 2 else small_chart
        text = made(pick, it.lines, it.messages + 3 * (number % 2))
        for given, queues in some_queues(pick, text):
            try:
                examine(trial, Chart(text, queues))
            except Wrong as wrong:
                trial.add(False, f"{text}\n{given}: {wrong}")
        for text in of_diagram(pick):
            for given, queues in some_queues(pick, text):
                trial.add(Steps(Chart(text, queues)).ring is None, text, given, "never happens")
                trial.noted["scenarios"] += 1
