"""Whether the drawing of a chart can happen, and what `msc follow` prints, straight from the
definitions of docs/MODEL.md.

    tools/naive/print.py following [--words] [--places FILE] [RULE]..
                                   pair|mailbox|single|own < CHART

prints what `msc follow` prints. Each definition is a function of its own, written for a reader and
not for speed. The text has to be a chart: it names no fault but those of links. It is read as
bytes, each of which is a character here. The exit status is 0 if some whole run keeps the drawn
order, and 1 if none does.
"""
import functools
import sys

from harness import Answer, joined, parser, put
from models.chart import Chart
from models.links import add_queues, given_of
from models.own import of_chart
from models.shown import pair_line, places_of, run_lines
from models.short_runs import State


class Steps:
    """The steps between the events of a chart under an architecture."""

    def __init__(self, drawn):
        self.drawn, self.all = drawn, drawn.all

    def is_sent(self, x, y):
        """y is the input of x."""
        return self.drawn.is_output(x) and self.drawn.partner[x] == y

    def is_ahead(self, x, y):
        """x and y are outputs of one queue, and the input of x is drawn before that of y."""
        drawn = self.drawn
        return (
            drawn.is_output(x) and drawn.is_output(y) and drawn.queue(x) == drawn.queue(y)
            and drawn.before(drawn.partner[x], drawn.partner[y])
        )

    def word(self, x, y):
        """The word for the step from x to y, or None if there is no step."""
        if self.is_sent(x, y):
            return "sent"
        if self.drawn.before(x, y):
            return "drawn"
        return "ahead" if self.is_ahead(x, y) else None

    @functools.cached_property
    def next(self):
        """For each event those to which a step leads from it, ascending."""
        return [[y for y in self.all if self.word(x, y)] for x in self.all]

    @functools.cached_property
    def earlier(self):
        """For each event the set of those from which a step leads to it."""
        sets = [0 for _ in self.all]
        for x in self.all:
            for y in self.next[x]:
                sets[y] |= 1 << x
        return sets

    def ring_through(self, e):
        """Of the shortest rings through e the least, event by event, or None if there is none."""
        far, reached, length = {}, [x for x in self.all if e in self.next[x]], 0
        while reached:
            length += 1
            for x in reached:
                far[x] = length
            reached = [
                x for x in self.all if x not in far and any(y in reached for y in self.next[x])
            ]
        if e not in far:
            return None
        ring = [e]
        while far[ring[-1]] > 1:
            left = far[ring[-1]] - 1
            ring.append(next(y for y in self.next[ring[-1]] if y != e and far.get(y) == left))
        return ring

    @functools.cached_property
    def ring(self):
        """The ring that is printed: through the least event that is on any ring; or None."""
        rings = (self.ring_through(e) for e in self.all)
        return next((ring for ring in rings if ring), None)

    def following_run(self):
        """At each point the least event that may come next and to which no step leads from an event
        that has not come yet, until there is none."""
        run, state = [], State(self.drawn)
        while True:
            may = (
                x for x in self.all if state.may_come(x) and not self.earlier[x] & ~state.past
            )
            x = next(may, None)
            if x is None:
                return run
            run.append(x)
            state = state.after(x)


def ring_steps(ring):
    """The steps of a ring: from each event to the next, and from the last to the first."""
    return list(zip(ring, [*ring[1:], ring[0]]))


def answer(text, queues, words=False, file=None):
    """The lines of `msc follow`, with places if a file is named, and the exit status."""
    drawn, places = Chart(text, queues), places_of(text.encode("latin-1"), file)
    steps = Steps(drawn)
    if steps.ring is None:
        return [*drawn.head(), "follows", *run_lines(drawn, steps.following_run(), words)], 0
    told = [*drawn.head(), "never"]
    for x, y in ring_steps(steps.ring):
        told.append(pair_line(drawn, steps.word(x, y), x, y))
        if file is not None:
            told.append(f"at {places[x]} {places[y]}")
    return told, 1


def never_lines(drawn, places):
    """The lines for editors of a drawing that never happens; none of another one."""
    steps = Steps(drawn)
    if steps.ring is None:
        return
    yield f"{places[steps.ring[0]]}: error: no run follows the drawing [never]"
    for x, y in ring_steps(steps.ring):
        yield f"{places[x]}: note: {pair_line(drawn, steps.word(x, y), x, y)}"


def main(given):
    words = parser(__doc__)
    words.add_argument("--words", action="store_true")
    words.add_argument("--places", metavar="FILE")
    add_queues(words, "queues")
    it = words.parse_args(given)
    text = sys.stdin.buffer.read()
    queues = of_chart(text, given_of(it))
    lines, status = answer(text.decode("latin-1"), queues, it.words, it.places)
    return put(Answer(joined(lines), b"", status))
