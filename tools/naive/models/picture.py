"""Pictures in text, of a chart and of a run that reverses a race.

    tools/naive/print.py picture [--queues QUEUES [RULE]..] [--race E F] < CHART

prints one. With --queues the closest races of the chart are marked. With --race E F too it is the
run of the race (E, F) that is drawn. Of a scenario of a diagram the rows keep the order of its text. The drawing order, the rows and the places of the text are
functions of their own, written for a reader and not for speed; the picture shares nothing with the
crates, so that expected outputs can be taken from it. The text has to be a chart, and (E, F) a
race.
"""
import sys

from harness import Answer, joined, parser, put
from models.chart import Chart
from models.links import add_queues, given_of
from models.own import of_chart
from models.races import closest_of


def label(event):
    """What a message is called."""
    _, _, name, number = event.key
    return name if number is None else f"{name}, {number}"


def shown(event):
    """What is shown of the text of an action."""
    text = event.text[len("action '") : -1].replace("''", "'")
    return text if len(text) <= 40 else text[:38] + ".."


class Order:
    """The order in which events are drawn: levels of each line, and queues with their outputs; and
    in a diagram the ranks of the events, the numbers of their arrows."""

    def __init__(self, drawn, levels, queues, ranks):
        self.drawn, self.ranks = drawn, ranks
        self.needs = {e: set() for e in drawn.all}
        for line in levels:
            above = set()
            for level in line:
                for e in level:
                    self.needs[e] |= above
                above |= set(level)
        for queue in queues:
            for first, second in zip(queue, queue[1:]):
                self.needs[second].add(first)
        for e in drawn.all:
            if drawn.events[e].is_input:
                self.needs[e].add(drawn.partner[e])
        self.events = []
        while len(self.events) < len(drawn.all):
            self.events.append(self.next())

    def may_follow(self, e, past):
        return e not in past and self.needs[e] <= set(past)

    def next(self):
        drawn, past = self.drawn, self.events
        if past and drawn.is_output(past[-1]):
            answer = drawn.partner[past[-1]]
            if self.may_follow(answer, past):
                return answer
        ready = [e for e in drawn.all if self.may_follow(e, past)]
        if self.ranks is not None:
            return min(ready, key=lambda e: (self.ranks[e], e))
        still = [e for e in ready if not drawn.is_output(e)]
        level = [e for e in ready if self.may_follow(drawn.partner[e], past + [e])]
        return (still or level or ready)[0]


def rows(drawn, order):
    """The events of each row."""
    found = []
    for e in order:
        if found and drawn.events[e].is_input and found[-1][-1] == drawn.partner[e]:
            found[-1].append(e)
        else:
            found.append([e])
    return found


def segments(drawn):
    """The events of each segment, by line and from above."""
    found = {}
    for e in drawn.all:
        found.setdefault((drawn.events[e].line, drawn.events[e].segment), []).append(e)
    return list(found.values())


class Places:
    """The columns of the instances, and the width of a line."""

    def __init__(self, drawn):
        self.drawn, names = drawn, drawn.names
        self.messages = [e for e in drawn.all if drawn.is_output(e)]
        self.gaps = [
            max(14, (len(names[i]) + len(names[i + 1])) // 2 + 3, self.room(i) + 1)
            for i in range(len(names) - 1)
        ]
        for s in sorted(self.messages, key=self.span):
            self.widen(s)
        self.columns = [max(4, len(names[0]) // 2 + 2)]
        for gap in self.gaps:
            self.columns.append(self.columns[-1] + gap)
        last = max(2, len(names[-1]) // 2 + 2, self.room(len(names) - 1))
        self.width = self.columns[-1] + last

    def room(self, i):
        own = [e for e in self.drawn.all if self.drawn.events[e].line == i]
        selves = [e for e in own if e in self.messages and self.span(e) == 0]
        wide = [len(label(self.drawn.events[e])) + 8 for e in selves]
        acts = [len(shown(self.drawn.events[e])) + 3 for e in own if self.drawn.events[e].is_local]
        return max([0] + wide + acts)

    def ends(self, s):
        return self.drawn.events[s].sender, self.drawn.events[s].receiver

    def span(self, s):
        sender, receiver = self.ends(s)
        return abs(sender - receiver)

    def widen(self, s):
        first, past = min(self.ends(s)), max(self.ends(s))
        if first < past:
            lacks = len(label(self.drawn.events[s])) + 12 - sum(self.gaps[first:past])
            self.gaps[past - 1] += max(0, lacks)


def arrow(drawn, places, row):
    """What a row shows, and at which column it begins."""
    e = row[0]
    event = drawn.events[e]
    own = places.columns[event.line]
    if event.is_local:
        return own + 1, f"[{shown(event)}]"
    name = label(event)
    a, b = (places.columns[i] for i in (event.sender, event.receiver))
    if len(row) == 2 and a == b:
        return a + 1, f"<- {name} --)"
    if len(row) == 2:
        n = abs(b - a) - 3 - len(name)
        line = "-" * (n - n // 2) + f" {name} " + "-" * (n // 2)
        return min(a, b) + 1, line[:-1] + ">" if a < b else "<" + line[1:]
    if event.is_output and a <= b:
        return a + 1, f"-- {name} .."
    if event.is_output:
        return a - len(name) - 6, f".. {name} --"
    if a < b:
        return b - len(name) - 6, f".. {name} ->"
    return b + 1, f"<- {name} .."


def write(line, at, text):
    line[at : at + len(text)] = text


def picture(drawn, order, bands, marks):
    """The lines of a picture. A band is a list of events, a mark two."""
    if not drawn.names:
        return [""]
    places, found = Places(drawn), rows(drawn, order)
    row_of = {e: place for place, row in enumerate(found) for e in row}
    head = [" "] * places.width
    for name, column in zip(drawn.names, places.columns):
        write(head, column - len(name) // 2, name)
    lines = ["".join(head).rstrip()]
    for place, row in enumerate(found):
        line = [" "] * places.width
        for column in places.columns:
            line[column] = "|"
        for band in bands:
            if min(row_of[e] for e in band) <= place <= max(row_of[e] for e in band):
                line[places.columns[drawn.events[band[0]].line]] = ":"
        write(line, *arrow(drawn, places, row))
        for e in (e for mark in marks for end in mark for e in end if row_of[e] == place):
            line[places.columns[drawn.events[e].line]] = "*"
        lines.append("".join(line) + "  " + " ".join(map(str, row)))
    return lines


def closest_marks(drawn):
    """For each segment the ends of the closest races from it to the next."""
    closest = closest_of(drawn, drawn.races())
    for segment in segments(drawn):
        pairs = [pair for pair in closest if pair[0] in segment]
        if pairs:
            yield [sorted(set(ends)) for ends in zip(*pairs)]


def chart_picture(drawn, marked, ranks=None):
    levels = [
        [own for own in segments(drawn) if drawn.events[own[0]].line == i]
        for i in range(len(drawn.names))
    ]
    bands = [own for own in segments(drawn) if len(own) > 1]
    marks = list(closest_marks(drawn)) if marked else []
    return picture(drawn, Order(drawn, levels, [], ranks).events, bands, marks)


def run_picture(drawn, e, f, ranks=None):
    run = drawn.witness(e)
    levels = [
        [[x] for x in run if drawn.events[x].line == i] for i in range(len(drawn.names))
    ]
    queues = {}
    for x in run:
        if drawn.is_output(x):
            queues.setdefault(drawn.queue(x), []).append(x)
    order = Order(drawn, levels, queues.values(), ranks).events
    return picture(drawn, order, [], [[[f], [e]]])


def main(given):
    words = parser(__doc__)
    add_queues(words, "--queues")
    words.add_argument("--race", nargs=2, type=int, metavar=("E", "F"))
    options = words.parse_args(given)
    text = sys.stdin.buffer.read()
    queues = of_chart(text, given_of(options)) if options.queues else "pair"
    drawn = Chart(text.decode("latin-1"), queues)
    if options.race:
        lines = run_picture(drawn, *options.race)
    else:
        lines = chart_picture(drawn, options.queues is not None)
    return put(Answer(joined(lines), b"", 0))
