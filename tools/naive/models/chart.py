"""Charts, straight from the definitions of docs/MODEL.md: events, the enforced order, races, and
the run that is chosen for a race.

    tools/naive/print.py chart [--show N] [RULE].. pair|mailbox|single|own < CHART

prints what `msc check` prints. Each definition is a function of its own, written for a reader and
not for speed; sets of events are numbers, with a bit for each event. It shares nothing with the
crates, so that expected outputs can be taken from it. The text has to be a chart: it names no
fault but those of links. It is read as bytes, each of which is a character here. The exit status is
0 for `pass`, 1 for races.
"""
import functools
import re
import sys

from harness import Answer, joined, parser, put
from models.links import KINDS as QUEUES
from models.links import add_queues, architecture, given_of
from models.own import of_chart

TOKEN = re.compile(r"\s+|/\*.*?\*/|(?:'[^']*')+|\w+|.", re.DOTALL | re.ASCII)
SIGNAL = re.compile(r"(in|out) (\w+)(?: , (\w+))?(?: \( [^)]*\))? (?:from|to) (\w+)", re.IGNORECASE)


def statements(text):
    """The statements of a text, without notes and comments: each the list of its tokens before its
    `;`. A quoted text is one token, so what stands in it ends no statement."""
    statement = []
    for token in TOKEN.findall(text):
        if token == ";":
            has_comment = len(statement) > 1 and statement[-2].lower() == "comment"
            yield statement[:-2] if has_comment else statement
            statement = []
        elif not token.isspace() and not token.startswith("/*"):
            statement.append(token)


def action_text(token):
    """What is printed of an action: what its text holds, with apostrophes doubled, and `?` for each
    byte below 32 or above 126."""
    held = token[1:-1].replace("''", "'")
    shown = "".join(byte if 32 <= ord(byte) <= 126 else "?" for byte in held)
    return "action '" + shown.replace("'", "''") + "'"


class Event:
    """An event on a line: an output, an input, or a local event, which is an action."""

    def __init__(self, line, segment, statement, names):
        self.line, self.segment, self.word = line, segment, statement[0].lower()
        self.is_output, self.is_input = self.word == "out", self.word == "in"
        self.is_local = self.word == "action"
        # the instance decides when it comes
        self.is_controlled = self.is_output or self.is_local
        if self.is_local:
            self.text = action_text(statement[1])
        else:
            self.read_signal(" ".join(statement), names)

    def read_signal(self, signal, names):
        """An output or an input: the message's key is sender, receiver, name and number."""
        _, name, number, address = SIGNAL.fullmatch(signal).groups()
        ends = [self.line, names.index(address)]
        self.sender, self.receiver = ends if self.is_output else reversed(ends)
        self.key = (self.sender, self.receiver, name, number)
        message = name if number is None else f"{name}, {number}"
        self.text = f"{self.word} {message} {'to' if self.is_output else 'from'} {address}"


class Chart:
    def __init__(self, text, queues):
        """The chart of a text under an architecture, or with one kind for each link."""
        lines = list(statements(text))
        self.name, self.queues = lines[0][1], architecture(queues)
        self.names = [statement[1] for statement in lines if statement[0].lower() == "instance"]
        self.events = []
        line, segment, shared = -1, 0, False
        for statement in lines:
            word = statement[0].lower()
            if word == "instance":
                line, segment = line + 1, 0
            elif word in ("concurrent", "endconcurrent"):
                shared, segment = word == "concurrent", segment + 1
            elif word in ("in", "out", "action"):
                self.events.append(Event(line, segment, statement, self.names))
                segment += not shared
        self.all = range(len(self.events))
        self.partner = [self.partner_of(e) for e in self.all]
        self.drawn_before = [
            self.set_of(d for d in self.all if self.before(d, e)) for e in self.all
        ]

    @staticmethod
    def set_of(numbers):
        return sum(1 << number for number in numbers)

    def partner_of(self, e):
        """The event at the other end of the message of e; a local event is its own."""
        if self.events[e].is_local:
            return e
        key = self.events[e].key
        ends = [x for x in self.all if not self.events[x].is_local and self.events[x].key == key]
        return next(x for x in ends if x != e)

    def is_output(self, e):
        return self.events[e].is_output

    def is_controlled(self, e):
        return self.events[e].is_controlled

    def before(self, d, e):
        """d is drawn before e."""
        first, second = self.events[d], self.events[e]
        return first.line == second.line and first.segment < second.segment

    def queue(self, e):
        """The queue of the message of e, which is no local event: that of its link, the mailbox of
        its receiver, or one of its own, by the kind of its link."""
        event = self.events[e]
        queues = {
            "pair": (event.sender, event.receiver),
            "mailbox": event.receiver,
            "single": event.key,
        }
        return queues[self.queues.kind(event.sender, event.receiver)]

    def head(self):
        """The lines that an answer begins with."""
        return [f"chart {self.name}", *self.queues.lines(self.names)]

    @functools.cached_property
    def enforced(self):
        """For each event the set of those that are enforced after it: the least relation of four
        rules, made by adding what a rule asks for until none asks for more."""
        after = [0 for _ in self.all]
        for e in self.all:
            for f in self.all:
                is_drawn = self.before(e, f) and self.is_controlled(f)
                is_sent = self.is_output(e) and self.partner[e] == f
                if is_drawn or is_sent:
                    after[e] |= 1 << f
        outputs = [e for e in self.all if self.is_output(e)]
        while True:
            earlier = list(after)
            for middle in self.all:
                for e in self.all:
                    if after[e] >> middle & 1:
                        after[e] |= after[middle]
            for s in outputs:
                for t in outputs:
                    if after[s] >> t & 1 and self.queue(s) == self.queue(t):
                        after[self.partner[s]] |= 1 << self.partner[t]
            if after == earlier:
                return after

    def races(self):
        """The pairs that are drawn in an order which is not enforced, ascending."""
        return [
            (e, f)
            for e in self.all
            for f in self.all
            if self.before(e, f) and not self.enforced[e] >> f & 1
        ]

    def is_free(self, e, x):
        """x is another event than e that is not enforced after e."""
        return x != e and not self.enforced[e] >> x & 1

    def witness(self, e):
        """While free events are left, the least of them that may come next and does not wait; then
        the least event that may come next; until all events have occurred."""
        free = self.set_of(x for x in self.all if self.is_free(e, x))
        passed_on = [
            s
            for s in self.all
            if self.is_output(s) and free >> s & 1 and free >> self.partner[s] & 1
        ]
        run, past, sent = [], 0, {self.queue(x): [] for x in self.all if self.is_output(x)}

        def may_come(x):
            if past >> x & 1:
                return False
            if self.is_controlled(x):
                return not self.drawn_before[x] & ~past
            return sent[self.queue(x)][:1] == [self.partner[x]]

        def waits(x):
            is_held = self.is_output(x) and not free >> self.partner[x] & 1
            return is_held and any(
                self.queue(t) == self.queue(x) and not past >> t & 1 for t in passed_on
            )

        while len(run) < len(self.all):
            if free & ~past:
                x = next(x for x in self.all if free >> x & 1 and may_come(x) and not waits(x))
            else:
                x = next(x for x in self.all if may_come(x))
            run.append(x)
            past |= 1 << x
            if self.is_output(x):
                sent[self.queue(x)].append(x)
            elif not self.is_controlled(x):
                sent[self.queue(x)].pop(0)
        return run

    def verdict(self, show=2 ** 32 - 1):
        """What `msc check` prints, line by line."""
        yield from self.head()
        races = self.races()
        yield f"races {len(races)}" if races else "pass"
        runs = {}
        for place, (e, f) in enumerate(races):
            first, second = self.events[e], self.events[f]
            yield f"race {e} {f} on {self.names[first.line]}: {first.text}; {second.text}"
            if place < show:
                if e not in runs:
                    runs[e] = " ".join(map(str, ["run", *self.witness(e)]))
                yield runs[e]


def is_enforced(drawn, e, f):
    return bool(drawn.enforced[e] >> f & 1)


def main(given):
    words = parser(__doc__)
    words.add_argument("--show", type=int, default=2 ** 32 - 1, metavar="N")
    add_queues(words, "queues")
    options = words.parse_args(given)
    text = sys.stdin.buffer.read()
    chart = Chart(text.decode("latin-1"), of_chart(text, given_of(options)))
    return put(Answer(joined(chart.verdict(options.show)), b"", int(bool(chart.races()))))
