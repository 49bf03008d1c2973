"""Diagrams of any language, from their statements on: the names of their lines, and their blocks.
mermaid_words.py makes the statements of its language, and courses.py goes through a diagram.
"""
import re
from typing import NamedTuple

from models.source import Note, Place, Refused, Span

# blocks inside each other, and lines
DEPTH, LINES = 10, 32
RESERVED = (b"msc endmsc inst instance endinstance in from out to action concurrent endconcurrent"
            b" comment env condition set reset timeout create stop").split()
# the words that begin a further branch, each with its block
BRANCHES = {"else": "alt", "and": "par", "option": "critical"}
# an entity of Mermaid, which a text that is shown has in the place of a character
ENTITY = rb"#[A-Za-z0-9_]+;"
# a tag of a shown text
TAG = rb"(?i)</?(?:br|b|i|u|s|color|size|back|font)(?:[^A-Za-z0-9<>][^<>]*)?>"


# Statements


class Line(NamedTuple):
    ident: Span
    shown: Span = None


class Arrow(NamedTuple):
    left: Span
    right: Span
    label: Span
    statement: Span
    # a cross stands at its end
    is_crossed: bool
    # both of its lines send
    is_both: bool
    # what becomes of its message: it `arrives`, is `lost`, or `either`
    fate: str = "arrives"
    place: Place = None
    # its count in the text, from 1
    number: int = 0

    @property
    def at(self):
        return self.statement.first

    def is_own(self):
        """It goes from a line to the same one."""
        return self.left.held == self.right.held


def instance_number(arrow, rounds):
    """The message instance name of an arrow's message: the arrow's count, and the rounds of the
    loops around it."""
    return "_".join(str(n) for n in (arrow.number, *rounds))


class Event(NamedTuple):
    """One end of an arrow: what is printed of it, and which end it is: `out`, `in` or `action`. A
    message that is lost goes out. `rounds` are those of the loops around it."""
    text: str
    way: str
    arrow: Arrow
    rounds: tuple = ()


class Begin(NamedTuple):
    kind: str
    word: str
    at: int
    label: bytes


class Branch(NamedTuple):
    word: str
    at: int
    label: bytes


class End(NamedTuple):
    at: int


# Names


def made(held, empty):
    """A name of any bytes."""
    held = re.sub(rb"\\[nlrt]", b" ", re.sub(TAG, b" ", held))
    name = re.sub(rb"[^A-Za-z0-9_]+", b"_", held).strip(b"_")[:56].rstrip(b"_") or empty
    return name + b"_" if name.lower() in RESERVED else name


def made_of_text(held, empty):
    """A name of a label or a shown name, whose entities are blanks."""
    return made(re.sub(ENTITY, b" ", held), empty)


class Names:
    """The lines of a diagram, in the order in which they are met."""

    def __init__(self):
        self.idents, self.names, self.shown, self.spans = [], [], [], []

    def meet(self, ident, shown):
        if ident.held not in self.idents:
            if len(self.idents) == LINES:
                raise Refused(7, f"more than {LINES} instances", ident.first)
            name, n = made(ident.held, b"p"), 1
            while (name if n == 1 else b"%s_%d" % (name, n)) in self.names:
                n += 1
            self.idents.append(ident.held)
            self.spans.append(ident)
            self.names.append(name if n == 1 else b"%s_%d" % (name, n))
            self.shown.append(None)
        at = self.idents.index(ident.held)
        if shown is not None and self.shown[at] is None:
            self.shown[at] = shown

    def find(self, name):
        """The number of the line with a name: its own, else the shown one, else that of its
        instance; or None."""
        shown = [it and it.held for it in self.shown]
        return next((names.index(name) for names in (self.idents, shown, self.names)
                     if name in names), None)

    def decl(self, at):
        kind = made_of_text(self.shown[at].held, b"") if self.shown[at] else b""
        return self.names[at] + (b" : " + kind if kind not in (b"", self.names[at]) else b"")


# Blocks


class Block:
    """A block with the items of its branches, and the statements with which these begin."""

    def __init__(self, begin):
        self.kind, self.word, self.at = begin.kind, begin.word, begin.at
        self.branches, self.begins = [[]], [begin]

    def counts(self):
        """It is not left out whole."""
        return self.kind == "break" or any(
            isinstance(it, Arrow) or it.counts() for branch in self.branches for it in branch)


class Diagram:
    def __init__(self, source, statements, comments):
        """The diagram of these statements: its lines and its items, those being arrows and
        blocks; and with these comments, each a text and its place."""
        self.source, self.names, self.arrows = source, Names(), 0
        top = Block(Begin("", "", 0, b""))
        inside = [top]
        for it in statements:
            if isinstance(it, Line):
                self.names.meet(it.ident, it.shown)
            elif isinstance(it, Arrow):
                inside[-1].branches[-1].append(self.met(it))
            elif isinstance(it, Begin):
                if len(inside) > DEPTH:
                    raise Refused(6, f"more than {DEPTH} blocks inside each other", it.at)
                block = Block(it)
                inside[-1].branches[-1].append(block)
                inside.append(block)
            elif isinstance(it, Branch):
                if inside[-1].kind != BRANCHES[it.word]:
                    raise outside(it.word, it.at, inside)
                inside[-1].branches.append([])
                inside[-1].begins.append(it)
            else:
                if len(inside) == 1:
                    raise outside("end", it.at, inside)
                inside.pop()
        if len(inside) > 1:
            hint = Note(f"hint {inside[-1].word} needs its own end")
            raise Refused(4, "block without end", inside[-1].at, [hint])
        self.items, self.comments = top.branches[0], list(comments)

    def met(self, arrow):
        """The arrow with its number and its place."""
        self.names.meet(arrow.left, None)
        self.names.meet(arrow.right, None)
        self.arrows += 1
        return arrow._replace(number=self.arrows, place=self.source.place(arrow.at))


def outside(word, at, inside):
    """The fault of a word outside of its block."""
    notes = []
    if len(inside) > 1:
        notes = [Note(f"inside {inside[-1].word}", inside[-1].at)]
    return Refused(5, f"{word} outside of its block", at, notes)
