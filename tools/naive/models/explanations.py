"""What `msc explain` may print of two events, line by line.

If the first is enforced before the second by the order of chart.py, it is a chain of rules of
docs/MODEL.md between them, and otherwise a whole run that has the second first, with what races.py
says of a race. A chain is checked step by step against the drawing alone, and then whether it is
the one of the rule there.
"""
import re

from models.chart import is_enforced
from models.races import race_words, why


class Wrong(Exception):
    """A line that is not as it has to be."""


def last_link(drawn, x, y):
    """The last controlled event below x that is y or enforced before it; none where there is
    none."""
    links = (z for z in drawn.all if drawn.before(x, z) and drawn.is_controlled(z))
    return max((z for z in links if z == y or is_enforced(drawn, z, y)), default=None)


def ruled(drawn, x, y):
    """The chain from x to y by the rule of docs/MODEL.md."""
    while x != y:
        link = last_link(drawn, x, y)
        x = drawn.partner[x] if link is None else link
        yield x


def is_caused(drawn, x, y):
    """Whether a chain leads from x to y."""
    return (
        is_enforced(drawn, x, y) if drawn.is_controlled(x) else last_link(drawn, x, y) is not None
    )


def first_mate(drawn, e, f):
    """The first input to which the rule of queues leads from input e, and that is f or leads to
    it."""
    inputs = (
        u for u in drawn.all if not drawn.is_controlled(u) and drawn.queue(u) == drawn.queue(e)
    )
    return next(u for u in inputs if is_enforced(drawn, drawn.partner[e], drawn.partner[u])
                and (u == f or is_caused(drawn, u, f)))


class Reader:
    """The lines of a text, read one by one."""

    def __init__(self, drawn, lines):
        self.drawn, self.lines = drawn, list(lines)

    def has(self, *words):
        return bool(self.lines) and self.lines[0].startswith(words)

    def take(self, wanted):
        if self.lines[:1] != [wanted]:
            raise Wrong(f"wanted {wanted!r}, got {self.lines[:1]}")
        del self.lines[0]

    def named(self, word, x, y):
        """The line of a word and two events."""
        events = (self.drawn.events[z] for z in (x, y))
        first, second = (f"{self.drawn.names[event.line]} {event.text}" for event in events)
        return f"{word} {x} {y}: {first}; {second}"

    def step(self, blanks, x):
        """A step from event x; gives the event that it leads to."""
        y = int(self.lines[0].split()[2].rstrip(":"))
        if self.has(f"{blanks}sent "):
            rule, is_right = "sent", self.drawn.is_output(x) and self.drawn.partner[x] == y
        else:
            rule, is_right = "drawn", self.drawn.before(x, y) and self.drawn.is_controlled(y)
        self.take(blanks + self.named(rule, x, y))
        if not is_right:
            raise Wrong(f"{rule} {x} {y} is no rule")
        return y

    def chain(self, blanks, x):
        """Steps from event x; gives the event that they lead to."""
        events = [x]
        while self.has(f"{blanks}drawn ", f"{blanks}sent "):
            events.append(self.step(blanks, events[-1]))
        if events[1:] != list(ruled(self.drawn, x, events[-1])):
            raise Wrong(f"{events} is another chain than that of the rule")
        return events[-1]

    def mate(self, e):
        """The rule of queues from input e; gives the input that it leads to."""
        drawn, u = self.drawn, int(self.lines[0].split()[2].rstrip(":"))
        self.take(self.named("queue", e, u))
        are_inputs = all(not drawn.is_controlled(x) for x in (e, u))
        if not are_inputs or drawn.queue(e) != drawn.queue(u) or not self.has("  "):
            raise Wrong(f"queue {e} {u} is no rule")
        if self.chain("  ", drawn.partner[e]) != drawn.partner[u]:
            raise Wrong(f"the outputs of {e} and {u} are not chained")
        return u

    def shown(self, e, f):
        """What shows that e is enforced before f: one line or more."""
        if not self.has("queue ", "drawn ", "sent "):
            raise Wrong("no chain")
        at = e
        if self.has("queue "):
            at = self.mate(e)
            if is_caused(self.drawn, e, f) or at != first_mate(self.drawn, e, f):
                raise Wrong("another pair of inputs than that of the rule")
        if self.chain("", at) != f:
            raise Wrong(f"the chain does not lead to {f}")


def is_whole_run(drawn, run):
    """Each event occurs once, an output or an action after what is drawn above it, an input while
    its message is the first of its queue."""
    past, queues = set(), {}
    for x in run:
        if drawn.is_controlled(x):
            if any(drawn.before(y, x) and y not in past for y in drawn.all):
                return False
        elif queues.get(drawn.queue(x), [])[:1] != [x]:
            return False
        if drawn.is_output(x):
            queues.setdefault(drawn.queue(x), []).append(drawn.partner[x])
        elif not drawn.is_controlled(x):
            del queues[drawn.queue(x)][0]
        past.add(x)
    return sorted(run) == list(drawn.all)


def check_free(reader, e, f):
    """What is printed of a pair that is not enforced, behind the head."""
    drawn = reader.drawn
    if drawn.before(e, f):
        reader.take(race_words(drawn, e, f))
        for line in why(drawn, e, f)[1]:
            reader.take(line)
    else:
        reader.take(reader.named("free", e, f))
    if is_enforced(drawn, f, e):
        reader.take(f"always {f} {e}")
        reader.shown(f, e)
    if not reader.has("run "):
        raise Wrong("no run")
    run = list(map(int, reader.lines[0].split()[1:]))
    if not is_whole_run(drawn, run) or run.index(f) > run.index(e):
        raise Wrong("no whole run that reverses the pair")
    reader.take(" ".join(map(str, ["run", *drawn.witness(e)])))


def check(drawn, e, f, lines):
    """Raises Wrong where the lines are no right text of the pair."""
    reader = Reader(drawn, lines)
    for line in drawn.head():
        reader.take(line)
    if is_enforced(drawn, e, f):
        reader.take(reader.named("enforced", e, f))
        reader.shown(e, f)
    else:
        check_free(reader, e, f)
    if reader.lines:
        raise Wrong(f"more lines than wanted: {reader.lines}")


def fault(count, e, f):
    """The line of the fault of a pair, if it has one."""
    for number in (e, f):
        if number >= count:
            return f"pair fault 1: no event {number}"
    return f"pair fault 2: {e} and {e} are one event" if e == f else None


SHOWS_TWO = re.compile(r"( *)(?:enforced|free|race|needs|drawn|sent|queue) (\d+) (\d+)[ :]")


def with_places(lines, places):
    """The lines of an answer that tells places too."""
    for line in lines:
        yield line
        shown = SHOWS_TWO.match(line)
        if shown:
            blanks, x, y = shown.groups()
            yield f"{blanks}at {places[int(x)]} {places[int(y)]}"


def name_of(places, e):
    """How an event is named: by the line of its text, where it is the first one there."""
    lines = [it.split(":")[1] for it in places]
    return f":{lines[e]}" if lines.index(lines[e]) == e else str(e)
