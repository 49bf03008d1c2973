"""Marks of diagrams, comment lines that accept the races of the next arrow below them, and the
comments that stand for them in the chart of a scenario.

A mark is `race ok`, perhaps ` in ARCH, ARCH..`, perhaps ` with ID; ID..`, then `: REASON`. An ID is
the label of the other arrow between quotes, or its number.
"""
import copy
import re
from typing import NamedTuple

from models.courses import all_items
from models.diagrams import Arrow, made
from models.marks import ARCHITECTURE, FAULTS
from models.source import SPACE, Refused, trimmed
from models.spoken import spoken

IDENT = r'(?:"[^"]*"|[0-9]+)'
PARTS = re.compile(
    rf"race ok(?: in ({ARCHITECTURE}(?:, {ARCHITECTURE})*))?(?: with ({IDENT}(?:; {IDENT})*))?"
    .encode())
# a mark behind an arrow, which is a part of its label
IN_LABEL = re.compile(rb"%%%%%s*race ok" % SPACE)
WORDS = {**FAULTS, 3: "a mark stands in a line of its own", 4: "a second mark for one arrow"}


class AcceptFault(Refused):
    """The fault of a mark, and the byte behind it."""
    stage = "accept"

    def __init__(self, number, at, past):
        super().__init__(number, WORDS[number], at)
        self.past = past


class Mark(NamedTuple):
    """A mark, and the arrow below it, if there is one. `kinds` and `others` are None if it is for
    all."""
    kinds: list
    others: list
    reason: bytes
    at: int
    past: int
    arrow: Arrow

    def is_for(self, usual):
        return self.kinds is None or usual in self.kinds

    def fits(self, other):
        """The mark accepts races of its arrow with the other one."""
        return self.others is None or any(means(ident, other) for ident in self.others)


def means(ident, arrow):
    """The ID names this arrow."""
    if ident.startswith(b'"'):
        return spoken(ident[1:-1]) == spoken(arrow.label.held)
    return int(ident) == arrow.number


def reading(held):
    """Reads the text of a comment: the architectures, the IDs and the reason of a mark; the number
    of a fault; or None if it is neither."""
    if not held.startswith(b"race ok"):
        return None
    parts = PARTS.match(held)
    rest = held[parts.end():]
    if rest and not rest.startswith(b":"):
        return 1
    if not any(byte > 32 for byte in rest[1:]):
        return 2
    kinds, others = parts.groups()
    return (kinds and kinds.decode().split(", "), others and re.findall(IDENT.encode(), others),
            trimmed(rest[1:]))


def arrows_of(diagram):
    return [it for it in all_items(diagram.items) if isinstance(it, Arrow)]


def comments_of(diagram):
    """The comments that begin like marks: what they say, their places, and the arrows below."""
    arrows = arrows_of(diagram)
    for held, at in diagram.comments:
        said = reading(trimmed(held))
        if said is not None:
            below = next((it for it in arrows if it.at > at), None)
            yield said, at, at + 2 + len(held), below


def marks_of(diagram):
    """The marks that can be read, but a second one of an arrow."""
    found = []
    for said, at, past, below in comments_of(diagram):
        taken = below and any(mark.arrow == below for mark in found)
        if not isinstance(said, int) and not taken:
            found.append(Mark(*said, at, past, below))
    return found


def faults_of(diagram):
    """The faults of marks, in the order of the text."""
    found, marked = [], set()
    for said, at, past, below in comments_of(diagram):
        if isinstance(said, int):
            found.append(AcceptFault(said, at, past))
        elif below:
            if below.number in marked:
                found.append(AcceptFault(4, at, past))
            marked.add(below.number)
    for arrow in arrows_of(diagram):
        if IN_LABEL.search(arrow.label.held):
            found.append(AcceptFault(3, arrow.at, arrow.statement.past))
    return sorted(found, key=lambda fault: fault.at)


def accepting(marks, one, other):
    """The marks of these two arrows that accept a race of theirs."""
    return [mark for mark in marks
            if mark.arrow and (mark.arrow.number == one.number and mark.fits(other)
                               or mark.arrow.number == other.number and mark.fits(one))]


def idents(mark, course):
    """What a chart calls the messages of the arrows that a mark names; an ID that names none of this
    course is a name made of its bytes."""
    found = []
    for ident in mark.others:
        own = [name for arrow, name in course.met if means(ident, arrow)]
        if not own:
            held = ident[1:-1] if ident.startswith(b'"') else b""
            own = [made(held, b"m").decode()]
        found += own
    return list(dict.fromkeys(found))


def comment(mark, course):
    """A mark as a comment of a chart."""
    said = "race ok"
    if mark.kinds is not None:
        said += f" in {', '.join(mark.kinds)}"
    if mark.others is not None:
        said += f" with {'; '.join(idents(mark, course))}"
    reason = mark.reason.decode("utf-8", "surrogateescape").replace("'", "''")
    return f" comment '{said}: {reason}'"


def with_marks(course):
    """The scenario with the marks of its arrows as comments of their events."""
    found = {mark.arrow.number: comment(mark, course)
             for mark in marks_of(course.diagram) if mark.arrow}
    own = copy.copy(course)
    own.segments = {
        line: [[event._replace(text=event.text + found.get(event.arrow.number, ""))
                for event in segment] for segment in segments]
        for line, segments in course.segments.items()
    }
    return own
