"""Instances that are ready: sticks, and what `msc ready` prints, straight from the definitions.

    tools/naive/print.py ready [--only NAME].. [--show N] [--words] [--places FILE] [--format F]
                               [RULE].. pair|mailbox|single|own < CHART

prints what `msc ready` prints. F is text, count or lines. An instance that is ready takes a message
only when all that is drawn before has happened, and leaves the others in their queues. Each
definition is a function of its own, written for a reader and not for speed. It shares nothing with
the crates. The text has to be a chart: it names no fault but those of links, and that of a name
that no instance has. It is read as bytes, each of which is a character here. The exit status is 0
where the chart finishes without races, 1 where it does not, 2 for a fault.
"""
import functools
import itertools
import sys

from harness import Answer, joined, parser, put
from models.chart import Chart
from models.links import add_queues, given_of
from models.own import of_chart
from models.shown import pair_line, places_of, run_lines

ALL = 2 ** 32 - 1


def closed(count, pairs):
    """The least transitive relation that holds these pairs, as a set of those after each number."""
    after = [0] * count
    for x, y in pairs:
        after[x] |= 1 << y
    for middle in range(count):
        for x in range(count):
            if after[x] >> middle & 1:
                after[x] |= after[middle]
    return after


class Ready:
    """A chart under an architecture, with the lines that are ready."""

    def __init__(self, drawn, ready):
        self.drawn, self.ready = drawn, ready
        self.events, self.all, self.partner = drawn.events, drawn.all, drawn.partner

    def is_ready(self, e):
        return self.events[e].line in self.ready

    def is_input(self, e):
        return self.events[e].is_input

    def waits(self, e):
        """The event comes only when all that is drawn before it has come."""
        return self.drawn.is_controlled(e) or self.is_ready(e)

    def share_queue(self, e, f):
        return self.is_input(e) and self.is_input(f) and self.drawn.queue(e) == self.drawn.queue(f)

    def plain(self):
        """What is drawn before an event that waits for it, and outputs before their inputs."""
        for x, y in itertools.product(self.all, self.all):
            if self.drawn.before(x, y) and self.waits(y):
                yield x, y
        for s in self.all:
            if self.drawn.is_output(s):
                yield s, self.partner[s]

    @functools.cached_property
    def order(self):
        """The ready order: for each event the set of those after it."""
        pairs = set(self.plain())
        while True:
            after = closed(len(self.events), pairs)
            more = {
                (r, u)
                for r, u in itertools.product(self.all, self.all)
                if self.share_queue(r, u) and not self.is_ready(u)
                and after[self.partner[r]] >> self.partner[u] & 1
            }
            if more <= pairs:
                return after
            pairs |= more

    def stands_before(self, x, y):
        return bool(self.order[x] >> y & 1)

    def lined(self):
        """Pairs of inputs of one queue on a ready line, the first drawn before the second."""
        for e, f in itertools.product(self.all, self.all):
            if self.drawn.before(e, f) and self.share_queue(e, f) and self.is_ready(f):
                yield e, f

    @functools.cached_property
    def sticks(self):
        return [
            (e, f)
            for e, f in self.lined()
            if not self.stands_before(self.partner[e], self.partner[f])
        ]

    def ahead(self, f):
        """The sticks whose second output stands before that of f."""
        return [
            (g, h)
            for g, h in self.sticks
            if self.stands_before(self.partner[h], self.partner[f])
        ]

    def may_finish(self):
        """No ring leads along what has to come before what in a whole ready run."""
        pairs = set(self.plain())
        pairs |= {(self.partner[e], self.partner[f]) for e, f in self.lined()}
        after = closed(len(self.events), pairs)
        return not any(after[x] >> x & 1 for x in self.all)

    def races(self):
        """Pairs drawn on a line that is not ready and not in the ready order."""
        return [
            (e, f)
            for e, f in itertools.product(self.all, self.all)
            if self.drawn.before(e, f) and not self.is_ready(e) and not self.stands_before(e, f)
        ]

    def empty(self):
        """A state: the events that have come, and what is in each queue."""
        return 0, ()

    def may_come(self, state, x):
        past, queues = state
        if past >> x & 1 or self.waits(x) and self.drawn.drawn_before[x] & ~past:
            return False
        if not self.is_input(x):
            return True
        first = next((s for q, s in queues if q == self.drawn.queue(x)), None)
        return first == self.partner[x]

    def after(self, state, x):
        past, queues = state
        if self.drawn.is_output(x):
            queues = (*queues, (self.drawn.queue(x), x))
        elif self.is_input(x):
            queues = tuple(message for message in queues if message[1] != self.partner[x])
        return past | 1 << x, queues

    def next_events(self, state):
        return [x for x in self.all if self.may_come(state, x)]

    def stick_run(self, f):
        """Up to the output of f: the least event up to it that may come, or else the least input
        that may; then the least event that may come, until none may."""
        second = self.partner[f]
        up_to = [x for x in self.all if x == second or self.stands_before(x, second)]
        run, state = [], self.empty()
        while True:
            may = self.next_events(state)
            if any(not state[0] >> x & 1 for x in up_to):
                ahead = [x for x in may if x in up_to]
                may = ahead or [x for x in may if self.is_input(x)]
            if not may:
                return run
            run.append(may[0])
            state = self.after(state, may[0])

    def is_whole(self, state):
        return state[0] == (1 << len(self.events)) - 1

    def reach(self, start):
        """All states that ready runs reach from a state."""
        found, left = {start}, [start]
        while left:
            state = left.pop()
            for x in self.next_events(state):
                later = self.after(state, x)
                if later not in found:
                    found.add(later)
                    left.append(later)
        return found


def pair_words(drawn, word, e, f):
    first, second = drawn.events[e], drawn.events[f]
    return f"{word} {e} {f} on {drawn.names[first.line]}: {first.text}; {second.text}"


def signal(event):
    """A message as an input of it says it: its name, and from whom."""
    return event.text.removeprefix("in ")


def unknown_name(drawn, only):
    """The line of the fault that a name is that of no instance, or None."""
    lacking = [name for name in only if name not in drawn.names]
    return f"ready fault 1: no instance {lacking[0]}" if lacking else None


def system_of(drawn, only):
    """The chart with these ready instances, or with all."""
    return Ready(drawn, {i for i, name in enumerate(drawn.names) if name in only or not only})


def refused(line, form):
    """What is printed of a fault without a place, in a format."""
    told = joined([f"-:1:1: error: {line}"]) if form == "lines" else b""
    return Answer(told, joined([line]), 2)


def tally(system, file):
    """The line of a count."""
    if not system.sticks:
        return f"finishes {file}"
    first = sum(not system.ahead(f) for _, f in system.sticks)
    return f"sticks {len(system.sticks)} first {first} {file}"


def editor_lines(drawn, word, pairs, places, level, name):
    """Pairs of events as editors read them."""
    for e, f in pairs:
        yield f"{places[e]}: {level}: {pair_words(drawn, word, e, f)} [{name}]"
        yield f"{places[f]}: note: the event drawn below it"


def for_editors(text, queues, only):
    """The sticks as editors read them, the races that are left, and the exit status."""
    drawn, places = Chart(text, queues), places_of(text.encode("latin-1"))
    system = system_of(drawn, only)
    races = system.races() if only and not system.sticks else []
    sticks = list(editor_lines(drawn, "stick", system.sticks, places, "error", "stick"))
    left = list(editor_lines(drawn, "race", races, places, "warning", "race"))
    return sticks, left, int(bool(system.sticks or races))


def formatted(text, queues, only, form):
    """The lines of `msc ready` in a format that is not text, and the exit status."""
    sticks, left, status = for_editors(text, queues, only)
    if form == "count":
        return [tally(system_of(Chart(text, queues), only), "-")], status
    return [*sticks, *left], status


def answer(text, queues, only=(), show=ALL, words=False, file=None):
    """The lines of `msc ready` as text, and the exit status."""
    drawn = Chart(text, queues)
    fault = unknown_name(drawn, only)
    if fault:
        return [fault], 2
    places = places_of(text.encode("latin-1"))
    system = system_of(drawn, only)
    lines = system.ready
    told = drawn.head()

    def at(*events):
        if file is not None:
            told.append("at " + " ".join(f"{file}{places[e][1:]}" for e in events))

    if only:
        told.append(" ".join(["ready", *(drawn.names[i] for i in sorted(lines))]))
    if not system.sticks:
        told.append("finishes")
        races = system.races() if only else []
        if only:
            told.append(f"races {len(races)}")
        for e, f in races:
            told.append(pair_words(drawn, "race", e, f))
            at(e, f)
        return told, int(bool(races))
    verdict = "may stick" if system.may_finish() else "never finishes"
    told.append(f"{verdict} {len(system.sticks)}")
    shown = 0
    for e, f in system.sticks:
        told.append(pair_words(drawn, "stick", e, f))
        at(e, f)
        first, second = drawn.partner[e], drawn.partner[f]
        told.append(pair_line(drawn, "needs", first, second))
        at(first, second)
        if words:
            told.append(
                f"{drawn.names[drawn.events[e].line]} waits for {signal(drawn.events[e])}; "
                f"in its queue {signal(drawn.events[f])} stands first"
            )
        ahead = system.ahead(f)
        if ahead:
            told.append(f"behind {ahead[0][0]} {ahead[0][1]}")
        elif shown < show:
            shown += 1
            told.extend(run_lines(drawn, system.stick_run(f), words))
    return told, 1


def in_format(text, queues, only, form, plain, others):
    """What is printed in a format: `plain` answers in text, and `others` in any other format."""
    fault = unknown_name(Chart(text, queues), only)
    if fault:
        return refused(fault, form)
    lines, status = plain() if form == "text" else others(text, queues, only, form)
    return Answer(joined(lines), b"", status)


def answered(text, queues, only, show, words, file, form):
    """What `msc ready` prints in a format."""
    return in_format(text, queues, only, form,
                     lambda: answer(text, queues, only, show, words, file), formatted)


def main(given):
    words = parser(__doc__)
    words.add_argument("--only", action="append", default=[], metavar="NAME")
    words.add_argument("--show", type=int, default=ALL, metavar="N")
    words.add_argument("--words", action="store_true")
    words.add_argument("--places", metavar="FILE")
    words.add_argument("--format", default="text", choices=["text", "count", "lines"])
    add_queues(words, "queues")
    it = words.parse_args(given)
    text = sys.stdin.buffer.read()
    queues, held = of_chart(text, given_of(it)), text.decode("latin-1")
    return put(answered(held, queues, it.only, it.show, it.words, it.places, it.format))
