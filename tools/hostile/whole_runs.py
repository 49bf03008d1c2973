"""Whether what `msc run` printed is a whole run of a chart, and what `msc follow` printed shows
whether the drawing can happen, in time that grows with the chart alone: for large charts and many
runs. The models of executions and of drawings in tools/naive say more of small ones."""
import collections
import re

from models.chart import action_text
from models.links import architecture
from models.reading import Draft, key


def shown(event):
    """What is printed of an event: a message without its parameters, an action with its text as it
    is shown."""
    if event.way == "action":
        return action_text("'" + event.name.decode("latin-1") + "'")
    return event._replace(parameters=[]).text().decode()


class Drawn:
    """A chart: of each event its line, its item there, its message, and its line in a trace."""

    def __init__(self, text):
        draft = Draft(text)
        self.name, self.names = draft.name.decode(), draft.instances()
        self.events = list(draft.events())
        self.keys = [event.way != "action" and key(line, event, self.names)
                     for line, _, event in self.events]
        self.lines = [f"{e} {self.names[line].decode()} {shown(event)}"
                      for e, (line, _, event) in enumerate(self.events)]
        self.known = set(self.lines)

    def head(self, queues):
        """The lines that an answer begins with."""
        names = [name.decode() for name in self.names]
        return [f"chart {self.name}", *architecture(queues).lines(names)]

    def queue(self, e, queues):
        sender, receiver = self.keys[e][:2]
        kind = architecture(queues).kind(*map(self.names.index, (sender, receiver)))
        return {"pair": (sender, receiver), "mailbox": receiver, "single": self.keys[e]}[kind]

    def wrong(self, queues, printed):
        """What is wrong with a printed execution in which all instances finish, or None."""
        ends = [f"instance {name.decode()} finished" for name in self.names]
        head = [*self.head(queues), *ends, f"trace {len(self.events)}"]
        *lines, last = printed.split("\n")
        if lines[:len(head)] != head or last:
            return f"another head than {head}"
        told = lines[len(head):]
        trace = [int(line.split(" ")[0]) for line in told if line in self.known]
        if sorted(trace) != list(range(len(self.events))) or len(told) != len(trace):
            return "the lines of the trace are not those of the chart's events"
        return next((f"event {e} may not come there" for e in self.misplaced(queues, trace)), None)

    def misplaced(self, queues, trace):
        """The events of a list that may not come where they do, in a run: outputs and actions
        before what is drawn before them, inputs whose message is not the first of its queue."""
        left, waiting = collections.Counter((line, item) for line, item, _ in self.events), {}
        above = collections.defaultdict(list)
        for line, item in left:
            above[line].append(item)
        for e in trace:
            line, item, event = self.events[e]
            if event.way == "in":
                first = waiting.setdefault(self.queue(e, queues), collections.deque())
                if not first or first.popleft() != self.keys[e]:
                    yield e
            elif any(left[line, earlier] for earlier in above[line] if earlier < item):
                yield e
            if event.way == "out":
                waiting.setdefault(self.queue(e, queues), collections.deque()).append(self.keys[e])
            left[line, item] -= 1


    def wrong_drawing(self, queues, printed):
        """What is wrong with a printed answer on the drawing, or None."""
        *lines, last = printed.split("\n")
        head = self.head(queues)
        if lines[:len(head)] != head or last:
            return "another head"
        verdict, *told = lines[len(head):]
        if verdict == "follows" and len(told) == 1:
            return self.wrong_following(queues, list(map(int, told[0].split()[1:])))
        return self.wrong_ring(queues, told) if verdict == "never" else "another verdict"

    def wrong_following(self, queues, run):
        """What is wrong with a run that is to be whole and as drawn, or None."""
        if sorted(run) != list(range(len(self.events))):
            return "the run does not have each event once"
        e = next(self.misplaced(queues, run), None)
        if e is not None:
            return f"event {e} may not come there"
        # the items of each line come in their order
        reached = {}
        for e in run:
            line, item, _ = self.events[e]
            if reached.setdefault(line, item) > item:
                return f"event {e} comes after one that is drawn below it"
            reached[line] = item
        return None

    def is_step(self, queues, word, x, y):
        """Whether a step with this word leads from x to y."""
        if word == "sent":
            return self.is_output(x) and self.other_end(x) == y
        if word == "drawn":
            return self.is_drawn(x, y)
        if word != "ahead" or not (self.is_output(x) and self.is_output(y)):
            return False
        is_one = self.queue(x, queues) == self.queue(y, queues)
        return is_one and self.is_drawn(self.other_end(x), self.other_end(y))

    def is_output(self, e):
        return self.events[e][2].way == "out"

    def is_drawn(self, x, y):
        """Whether x is drawn before y."""
        (line, above, _), (other, below, _) = self.events[x], self.events[y]
        return line == other and above < below

    def other_end(self, s):
        """The input of an output."""
        ends = (e for e, key in enumerate(self.keys) if key == self.keys[s] and e != s)
        return next(ends)

    def wrong_ring(self, queues, told):
        """What is wrong with the lines of a ring, or None."""
        steps = [re.match(r"(\w+) (\d+) (\d+): ", line) for line in told]
        if not all(steps):
            return "a line that is no step"
        steps = [(it[1], int(it[2]), int(it[3])) for it in steps]
        firsts, seconds = [x for _, x, _ in steps], [y for _, _, y in steps]
        if len(set(firsts)) != len(steps) or len(steps) < 2 or seconds != firsts[1:] + firsts[:1]:
            return "the steps are no ring"
        for line, (word, x, y) in zip(told, steps):
            (_, first), (_, second) = (self.lines[e].split(" ", 1) for e in (x, y))
            wanted = f"{word} {x} {y}: {first}; {second}"
            if line != wanted or not self.is_step(queues, word, x, y):
                return f"{line} is no step"
        return None


def spoiled(printed):
    """Texts that are no execution in which all finish, made of one that is and whose last event is
    an input: its last event is left out, comes first, and twice; an instance ends otherwise; a line
    has another number."""
    *lines, last, _ = printed.split("\n")
    first = next(n for n, line in enumerate(lines) if line.startswith("trace ")) + 1
    starved = [line.replace("finished", "starved") for line in [*lines, last]]
    early = [*lines[:first], last, *lines[first:]]
    for wrong in (lines, early, [*lines[:-1], last, last], starved, [*lines, f"1{last}"]):
        yield "".join(line + "\n" for line in wrong)
