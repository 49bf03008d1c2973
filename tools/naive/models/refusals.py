"""Refusals of charts with `--format full`: their sentences, marks and notes. notes.py finds the
faults and their places.
"""
import re
from typing import NamedTuple

from models.diagnostic import Block, Mark, Note
from models.mermaid import has_diagram
from models.notes import MOST, TOGETHER, Faults, Placed, bytes_hint, grammar_notes, numbered
from models.notes import place_before
from models.reading import PIECE, PLACES, Draft, Refused, chart_faults, tokens
from models.spoken import all_shown, cut, quoted, text_shown
from models.wording import ring_marks, ring_notes, statements_of

NAME = re.compile(rb"[A-Za-z0-9_]*")
A_MARK = "a mark is: race ok [in ARCH, ..] [with ID; ..]: REASON"
# sentences and helps of the faults of marks
ACCEPT = {
    1: ("this mark cannot be read", A_MARK),
    2: ("this mark gives no reason", A_MARK),
    3: ("this mark is part of the arrow's label", "put it in a line of its own, above the arrow"),
    4: ("the arrow below has a mark already", "a race can be accepted at either of its arrows"),
}
QUEUES_HELP = "queues ARCH; KIND LINK, LINK; .."
# what is expected in words, and not as the mark or the word of the text
IN_WORDS = ("a ", "an ", "the ")


class Told(NamedTuple):
    """The blocks of a refusal, the number of further faults that have none, and the faults of the
    blocks, if they are asked for."""
    blocks: list
    further: int = 0
    faults: Faults = None


def error(stage, sentence, marks=(), notes=(), file=""):
    return Block("error", stage, sentence, tuple(marks), tuple(notes), file)


def helps(*texts):
    return tuple(Note("help", text) for text in texts)


def lexical(text, number, at, file, hints):
    """A fault of the tokens."""
    stage, mark = f"lexical {number}", Mark(at, at + 1, "^")
    if number == 1:
        return error(stage, "the text is longer than 1048576 bytes", file=file)
    if number == 2:
        byte = text[at]
        what = f"character {quoted_byte(byte)}" if 33 <= byte <= 126 else f"byte {byte}"
        own = [bytes_hint(text, at).removeprefix("hint ")]
        return error(stage, f"unexpected {what}", [mark], helps(*(hints or own)))
    if number == 3:
        own = ["notes are /* .. */"]
        return error(stage, "this note has no end", [mark], helps(*(hints or own)))
    if number == 4:
        own = ["texts are '..'; an apostrophe inside is doubled"]
        return error(stage, "this text has no end", [mark], helps(*(hints or own)))
    count = len(PIECE.match(text, at)[0])
    sentence = f"a name of {count} bytes; at most 64 are allowed"
    return error(stage, sentence, [mark._replace(past=at + count)], helps(*hints))


def quoted_byte(byte):
    return "'\"'" if byte == ord('"') else f'"{chr(byte)}"'


def wanted(place):
    """What is expected at a place of the grammar."""
    what = PLACES[place][0]
    if what == "the end of the statement":
        return '";"'
    return what if what.startswith(IN_WORDS) else f'"{what}"'


def found(token):
    """The token that was found, in words."""
    if token is None:
        return "the end of the text"
    return "a text" if token.kind == "text" else f'"{token.bytes.decode()}"'


def grammar(text, number, at, hints):
    """A fault of the grammar."""
    every = tokens(text)
    state, _ = place_before(every, at)
    token = next((it for it in every if it.at == at), None)
    notes = grammar_notes(text, number, at)
    behind = next((note.at for note in notes if note.text == "behind"), None)
    mark = Mark(at, at + len(token.bytes) if token else at + 1, "^")
    marks = [mark]
    if behind is not None:
        marks = [mark._replace(label="found here"),
                 Mark(behind - 1, behind, "-", "expected behind this")]
    own = [it.text.removeprefix("hint ") for it in notes if it.text.startswith("hint ")]
    sentence = f"expected {wanted(state)}, found {found(token)}"
    if number == 2:
        sentence = f"{found(token)} is not supported"
    return error(f"grammar {number}", sentence, marks, helps(*(hints or own)))


class ChartFaults:
    """The faults of a draft that is no chart."""

    def __init__(self, text, page):
        self.text, self.page, self.placed = text, page, Placed(text)
        self.statements = list(statements_of(text))

    def mark(self, e, sign="^", label=""):
        """The statement of an event."""
        return Mark(*self.statements[e][:2], sign, label)

    def name_mark(self, at, sign="^", label=""):
        """The name that stands at a place."""
        return Mark(at, NAME.match(self.text, at).end(), sign, label)

    def nearest(self, name):
        """The mark at the section whose name may be meant."""
        if not self.placed.nearest(name):
            return []
        own = self.placed.nearest(name)[0].text.split()[1].encode()
        at = self.placed.sections[self.placed.names.index(own)]
        return [self.name_mark(at, "-", "is this one meant?")]

    def ident(self, e):
        """The ID of a message."""
        event = self.placed.events[e][2]
        number = b"" if event.number is None else b", " + event.number
        return (event.name + number).decode()

    def block(self, number, n, line):
        """The block of a fault."""
        placed, stage = self.placed, f"chart {number}"
        if number == 2:
            name = placed.names[n]
            first = placed.sections[placed.names.index(name)]
            return error(stage, f'the instance "{name.decode()}" is defined twice', [
                self.name_mark(placed.sections[n], "^", "defined again here"),
                self.name_mark(first, "-", "first defined here")])
        if number in (3, 4):
            name = placed.draft.header[n].name if number == 3 else placed.events[n][2].address
            sentence = f'no instance is named "{name.decode()}"'
            if number == 3:
                sentence = f'the header names "{name.decode()}", but no instance has this name'
            mark = self.name_mark(placed.place_of(number, n))
            return error(stage, sentence, [mark, *self.nearest(name)])
        if number in (6, 7, 8):
            return self.message_block(number, n)
        if number == 9:
            return self.ring_block(n)
        at = placed.place_of(number, n)
        mark = self.name_mark(at)
        if number != 1:
            mark = self.mark(placed.begins.index(at))
        return error(stage, line.partition(": ")[2], [mark])

    def message_block(self, number, e):
        """The block of a message that is there twice, or lacks one of its ends."""
        placed, ident = self.placed, self.ident(e)
        line, _, event = placed.events[e]
        other, own = event.address.decode(), placed.names[line].decode()
        way = f"sent to {other}" if event.way == "out" else f"received from {other}"
        if number == 6:
            first = placed.keys.index(placed.keys[e])
            told = placed.apart(e).removeprefix("hint ").removesuffix(" tells them apart")
            return error("chart 6", f'"{ident}" is {way} twice',
                         [self.mark(e, "^", "again here"), self.mark(first, "-", "first here")],
                         helps(f"a number tells them apart: {told}"))
        near, is_output = placed.near(e), number == 7
        lacks = "receives" if is_output else "sends"
        marks = [self.mark(e, "^", "sent here" if is_output else "received here")]
        if near is not None:
            label = "this input has no output" if is_output else "this output has no input"
            marks.append(self.mark(near, "-", label))
        needed = f"in {ident} from {own}" if is_output else f"out {ident} to {own}"
        return error(f"chart {number}", f'"{ident}" is {way}, which never {lacks} it', marks,
                     helps(f"{other} needs: {needed}"))

    def ring_block(self, e):
        """The block of events that wait for each other."""
        placed, ring = self.placed, self.placed.ring(e)
        said = [self.step(x, y) for x, y in zip(ring, [*ring[1:], e])]
        marks = ring_marks([self.statements[x][:2] for x in ring])
        sentence = "these events wait for each other, so none of them can happen"
        return error("chart 9", sentence, marks, ring_notes(said))

    def line(self, e):
        return self.page.line(self.statements[e].first)

    def step(self, x, y):
        keys = self.placed.keys
        if keys[x] and keys[x][0] == "out" and y in self.placed.partners(x):
            return (f'"{self.ident(x)}" is sent (line {self.line(x)}) before it is received '
                    f"(line {self.line(y)})")
        own = self.placed.names[self.placed.events[x][0]].decode()
        return (f"{own} {self.does(x)} (line {self.line(x)}) before it {self.does(y)} "
                f"(line {self.line(y)}), as drawn")

    def does(self, e):
        line, _, event = self.placed.events[e]
        if event.way == "action":
            text = cut(text_shown(self.statements[e].held))
            return f"does {quoted(text) if text else f'the action of line {self.line(e)}'}"
        own = event.address == self.placed.names[line]
        other = "itself" if own else event.address.decode()
        way = "sends" if event.way == "out" else "receives"
        return f'{way} "{self.ident(e)}" {"to" if event.way == "out" else "from"} {other}'

    def told(self):
        """The blocks of the faults, or none if the draft is a chart."""
        faults = map(numbered, chart_faults(self.placed.draft))
        first = next(faults, None)
        if not first:
            return Told([])
        if first[0] not in TOGETHER:
            return Told([self.block(first[0], first[1], first[2].removeprefix("chart fault "))])
        together = [first]
        for it in faults:
            if it[0] == 9:
                break
            together += [it] if it[0] in TOGETHER else []
        others = self.placed.further(together)
        blocks = [self.block(number, n, line) for number, n, line in [first, *others[:MOST]]]
        return Told(blocks, max(len(others) - MOST, 0))


def of_chart_text(text, page, hint):
    """The refusal of a text that is no chart; `hint` is the one for diagrams."""
    try:
        Draft(text)
        return ChartFaults(text, page).told()
    except Refused as refused:
        return Told([text_block(text, page.file, str(refused), hint)])


def text_block(text, file, line, hint):
    """The block of a lexical or a grammar fault, from its line."""
    stage, number, at = re.match(r"(\w+) fault (\d)(?: at (\d+))?", line).groups()
    hints = [hint.removeprefix("hint ")] if has_diagram_in(text) else []
    if stage == "lexical":
        return lexical(text, int(number), int(at or 0), file, hints)
    return grammar(text, int(number), int(at), hints)


def has_diagram_in(text):
    return len(text) <= 1048576 and has_diagram(text)


def of_fixed_line(line, file):
    """The block of a fault without a place, in the words of its line."""
    stage, number, words = re.match(r"(\w+) fault (\d+): (.*)", line).groups()
    return error(f"{stage} {number}", words, file=file)


def of_link(fault, file, span):
    """The block of a fault of links; `span` is the comment if the text has the rule."""
    stage = f"link {fault.number}"
    marks = [Mark(*span, "^")] if fault.at is not None else []
    if fault.number == 4:
        return error(stage, "this does not say which queues", marks, helps(QUEUES_HELP), file)
    return error(stage, all_shown(fault.words), marks, file=file)


def of_accept(number, span):
    """The block of a fault of a mark."""
    sentence, advice = ACCEPT[number]
    return error(f"accept {number}", sentence, [Mark(*span, "^")], helps(advice))


def of_device(file, cause):
    """The block of a file that cannot be read."""
    return error("device", f"cannot read {file}: {re.sub(r' .os error [0-9]+.$', '', cause)}")
