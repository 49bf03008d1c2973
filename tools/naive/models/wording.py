"""Findings in words, as `--format full` has them: races, sticks and drawings that never happen.

A speech knows what people call the events of a chart and where these stand in the text. Here are
those of charts; full_diagrams.py has the one of diagrams. Sentences, marks and notes are made from
a speech, so that they are the same for both.
"""
from typing import NamedTuple

from models.chart import is_enforced
from models.diagnostic import Block, Mark, Note
from models.following import Steps, ring_steps
from models.races import kind, share_queue
from models.reading import tokens
from models.spoken import cut, quoted, text_shown

# the events of a ring that are marked, and its steps that are told
RING = 8


class Statement(NamedTuple):
    """The statement of an event of a chart: its first byte, the one behind its `;`, and of an
    action its text."""
    first: int
    past: int
    held: bytes = b""


def statements_of(text):
    """The statements of a chart's events, in the order of the text."""
    found = tokens(text)
    for n, it in enumerate(found):
        if it.kind in ("out", "in", "action"):
            end = next(other for other in found[n:] if other.kind == ";")
            held = found[n + 1].bytes[1:-1].replace(b"''", b"'") if it.kind == "action" else b""
            yield Statement(it.at, end.at + 1, held)


class ChartSpeech:
    """The speech of a chart's events."""

    def __init__(self, drawn, text, page):
        self.drawn, self.statements, self.page = drawn, list(statements_of(text)), page

    def name(self, line):
        return self.drawn.names[line]

    def owner(self, e):
        return self.drawn.events[e].line

    def way(self, e):
        event = self.drawn.events[e]
        return "action" if event.is_local else event.word

    def is_lost(self, e):
        return False

    def peer(self, e):
        """The line at the other end of the message of e."""
        event = self.drawn.events[e]
        return event.receiver if event.is_output else event.sender

    def line(self, e):
        """The line of the text on which e stands."""
        return self.page.line(self.statements[e].first)

    def span(self, e):
        return self.statements[e][:2]

    def message(self, e):
        event = self.drawn.events[e]
        if event.is_local:
            text = cut(text_shown(self.statements[e].held))
            return quoted(text) if text else f"the action of line {self.line(e)}"
        _, _, name, number = event.key
        return quoted(name if number is None else f"{name}, {number}")


class RoundSpeech:
    """The speech of the events of two rounds of a chart."""

    def __init__(self, speech, two):
        self.speech, self.two, self.page = speech, two, speech.page

    def __getattr__(self, word):
        """The same call for the event of the chart."""
        said = getattr(self.speech, word)
        if word == "name":
            return said
        return lambda k: said(self.two.place[k][0])

    def round(self, k):
        return self.two.place[k][1]


def in_line(speech, e):
    return f" (line {speech.line(e)})"


def other(speech, e):
    """The instance at the other end of the message of e, as a sentence names it."""
    return "itself" if speech.peer(e) == speech.owner(e) else speech.name(speech.peer(e))


def lost(speech, e):
    return " (lost)" if speech.is_lost(e) else ""


def does(speech, e):
    said, way = speech.message(e), speech.way(e)
    if way == "action":
        return f"does {said}"
    if way == "out":
        return f"sends {said} to {other(speech, e)}{lost(speech, e)}"
    return f"receives {said} from {other(speech, e)}"


def has_done(speech, e, reader):
    """The past tense of `does`, without the receiver of a message if it is the line `reader`."""
    said, way = speech.message(e), speech.way(e)
    if way == "action":
        return f"has done {said}"
    if way == "in":
        return f"has received {said} from {other(speech, e)}"
    is_known = speech.peer(e) == reader and speech.owner(e) != reader
    return f"has sent {said}" + ("" if is_known else f" to {other(speech, e)}") + lost(speech, e)


def next_round(is_next):
    return "the next round's " if is_next else ""


class Pair:
    """A race or a stick: two events of one line. `is_next` says that f is of the next round."""

    def __init__(self, speech, drawn, e, f, is_next=False):
        self.speech, self.drawn, self.e, self.f, self.is_next = speech, drawn, e, f, is_next
        self.line = speech.owner(f)

    @property
    def second(self):
        return next_round(self.is_next) + self.speech.message(self.f)

    def is_always(self):
        return is_enforced(self.drawn, self.f, self.e)

    def sentence(self):
        """The sentence of a race."""
        speech, e, f = self.speech, self.e, self.f
        verb = "always receives" if self.is_always() else "can receive"
        start = f"{speech.name(self.line)} {verb} {self.second}"
        if speech.way(e) != "in":
            return f"{start} from {other(speech, f)} before it {does(speech, e)}"
        first = speech.message(e)
        if speech.peer(e) != speech.peer(f):
            return f"{start} from {other(speech, f)} before {first} from {other(speech, e)}"
        if first == speech.message(f) and speech.line(e) != speech.line(f):
            return (f"{start}{in_line(speech, f)} before {first}{in_line(speech, e)}, "
                    f"both from {other(speech, f)}")
        return f"{start} before {first}, both from {other(speech, f)}"

    def marks(self):
        """The marks of a race."""
        happens = "always happens first" if self.is_always() else "can happen first"
        first, second = (self.speech.span(x) for x in (self.e, self.f))
        if first == second:
            return (Mark(*first, "^", f"drawn first, but a later round {happens}"),)
        rounds = (", in one round", ", in the next round") if self.is_next else ("", "")
        return (Mark(*first, "^", "drawn first" + rounds[0]),
                Mark(*second, "-", happens + rounds[1]))

    def reason(self):
        """The reason for a race."""
        speech, sort = self.speech, kind(self.drawn, self.e, self.f)
        if sort == "early":
            sender = speech.peer(self.f)
            if self.is_always():
                return "no run has the drawn order"
            if sender == self.line:
                return "nothing orders the two"
            return f"nothing makes {speech.name(sender)} wait for that"
        end = {"queues": "nothing orders them", "unordered": "nothing orders the two sends",
               "overtaken": f"{self.second} is sent first"}[sort]
        if self.is_always() and sort != "overtaken":
            end = "no run has the drawn order"
        return f"{way_of(self.drawn, self.e, self.f)}, and {end}"

    def needs(self):
        """The events of which the first would have to come before the second."""
        share = share_queue(self.drawn, self.e, self.f)
        return self.drawn.partner[self.e] if share else self.e, self.drawn.partner[self.f]

    def help(self, start, marks):
        """The help: which order would prevent it."""
        speech, (needed, output) = self.speech, self.needs()
        marked = {speech.page.line(mark.first) for mark in marks}

        def where(x):
            return "" if speech.line(x) in marked else in_line(speech, x)

        sender, doer = speech.owner(output), speech.owner(needed)
        who = "it" if sender == doer else speech.name(doer)
        return Note("help", (
            f"{start} if {speech.name(sender)} sends {next_round(self.is_next)}"
            f"{speech.message(output)}{where(output)} only after {who} "
            f"{has_done(speech, needed, self.line)}{where(needed)}"))


def way_of(drawn, e, f):
    """How the messages of two inputs arrive."""
    kinds = kinds_of_links(drawn, e, f)
    if share_queue(drawn, e, f):
        is_mailbox = kinds[0] == "mailbox"
        return "they come " + ("through one mailbox" if is_mailbox else "over one connection")
    if kinds == ["single", "single"]:
        return "each travels by itself"
    return "they come " + ("over two connections" if kinds == ["pair", "pair"]
                           else "through two queues")


def kinds_of_links(drawn, e, f):
    ends = (drawn.events[x] for x in (e, f))
    return [drawn.queues.kind(it.sender, it.receiver) for it in ends]


class Step(NamedTuple):
    """An event of a run in words: its statement, the line of that, and what happens."""
    span: tuple
    line: int
    text: str


def run_steps(speech, run, has_rounds=False):
    """The events of a run in words."""
    steps = []
    for x in run:
        of_round = f"round {speech.round(x)}: " if has_rounds else ""
        text = f"{of_round}{speech.name(speech.owner(x))} {does(speech, x)}"
        steps.append(Step(speech.span(x), speech.line(x), text))
    return tuple(steps)


def run_note(steps):
    """The note that shows a run, step by step."""
    gap = len(str(len(steps)))
    rows = (f"{number:>{gap}}. {step.text} (line {step.line})"
            for number, step in enumerate(steps, 1))
    return Note("note", "a run that shows it:", tuple(rows))


def race_block(pair, where=None, run=None):
    """The block of a race, with a note on scenarios and a run, if it has them."""
    level, marks = "error" if pair.is_always() else "warning", pair.marks()
    notes = [Note("note", pair.reason()), where and Note("note", where),
             pair.help("the order holds", marks), run]
    ident = kind(pair.drawn, pair.e, pair.f)
    return Block(level, ident, pair.sentence(), marks, tuple(filter(None, notes)))


class Finding(NamedTuple):
    """A finding: its block, a name that stays when its lines move, and the steps of the run that
    the block shows, if it shows one."""
    block: Block
    name: str = ""
    steps: tuple = ()


def race_finding(pair, name, where=None, steps=()):
    """The finding of a race. The note `where` is on scenarios."""
    return Finding(race_block(pair, where, run_note(steps) if steps else None), name, steps)


class LeftPair(Pair):
    """A race that `ready --only` leaves. It can happen first; whether it always does is not said."""

    def is_always(self):
        return False


def left_block(pair):
    """The block of a race that `ready --only` leaves."""
    return Block("warning", "race", pair.sentence(), pair.marks())


def stick_block(pair, more):
    """The block of a stick; `more` is the note with its run, or on the stick before it."""
    speech, e, f = pair.speech, pair.e, pair.f
    is_mailbox = kinds_of_links(pair.drawn, e, f)[0] == "mailbox"
    second = f"{pair.second} from {other(speech, f)} is first in its mailbox"
    if not is_mailbox:
        second = f"{pair.second} is ahead of it in their connection"
    sentence = (f"{speech.name(pair.line)} can block: it waits for {speech.message(e)} "
                f"from {other(speech, e)}, and {second}")
    label = "first in its mailbox" if is_mailbox else "ahead of it"
    marks = (Mark(*speech.span(e), "^", "waits for this"), Mark(*speech.span(f), "-", label))
    notes = [pair.help("it cannot block here", marks), more]
    return Block("error", "stick", sentence, marks, tuple(filter(None, notes)))


def ring_marks(spans):
    """The marks of the events of a ring."""
    return tuple(Mark(*span, "-" if at else "^") for at, span in enumerate(spans[:RING]))


def ring_notes(said):
    """The notes of the steps of a ring."""
    left = len(said) - RING
    more = [f"and {left} more step{'s' if left > 1 else ''}"] if left > 0 else []
    return tuple(Note("note", text) for text in [*said[:RING], *more])


def step_said(speech, drawn, word, x, y):
    """A step of a ring."""
    if word == "sent":
        return (f"{speech.message(x)} is sent{in_line(speech, x)} before it is received"
                f"{in_line(speech, y)}")
    if word == "drawn":
        return (f"{speech.name(speech.owner(x))} {does(speech, x)}{in_line(speech, x)} before it "
                f"{does(speech, y)}{in_line(speech, y)}, as drawn")
    way = way_of(drawn, drawn.partner[x], drawn.partner[y])
    return (f"{speech.message(x)}{in_line(speech, x)} has to be sent before {speech.message(y)}"
            f"{in_line(speech, y)}: {speech.name(speech.peer(x))} receives it first, and {way}")


def never_block(speech, drawn):
    """The block of a drawing that can never happen, or None."""
    steps = Steps(drawn)
    if steps.ring is None:
        return None
    said = [step_said(speech, drawn, steps.word(x, y), x, y) for x, y in ring_steps(steps.ring)]
    marks = ring_marks([speech.span(e) for e in steps.ring])
    sentence = "this chart can never happen as it is drawn"
    return Block("error", "never", sentence, marks, ring_notes(said))


def stale_block(span, has_arrow=True):
    """The block of a mark that accepts no race."""
    sentence = "this mark accepts no race" if has_arrow else "this mark has no arrow below it"
    notes = (Note("help", "remove it, or correct what it says"),)
    return Block("warning", "stale", sentence, (Mark(*span, "^"),), notes)
