"""Refusals of diagrams with `--format full`: their sentences, marks and notes. The importer finds
the faults and their places.
"""
import re

from models.diagnostic import Mark
from models.diagrams import Arrow, Line
from models.hints import RUN
from models.mermaid_lines import Cutter
from models.mermaid_words import Statement
from models.refusals import error, helps, of_accept, of_link
from models.source import Refused
from models.spoken import all_shown

# what is expected as it stands in a text, and not in words
AS_WRITTEN = ("---", "}%%", "}", "sequenceDiagram")
KIND = re.compile(r"hint (\S+) is no sequence diagram")
# what is said at the places of notes
OPEN = {"opened": "opened here", "inside": "this block is open"}
LONGEST = 40


def line_past(source, at):
    """The end of the line of a place."""
    row = source.row(at)
    return row.start + len(row.held)


def statement_ends(source, text):
    """The place of each statement, and that of its end."""
    try:
        for piece in Cutter(source, text.rows, text.in_markup).pieces():
            if piece.held:
                yield piece.at(0), piece.places[piece.past - 1] + 1
    except Refused:
        return


def statement_past(source, text, at):
    """The end of the statement that has a place, or None."""
    ends = statement_ends(source, text) if text else ()
    return next((past for first, past in ends if first <= at < past), None)


def name_past(source, text, at):
    """The end of the name that stands at a place, or None."""
    try:
        for piece in Cutter(source, text.rows, text.in_markup).pieces():
            said = Statement(source, piece).read()
            spans = [said.ident] if isinstance(said, Line) else []
            spans = [said.left, said.right] if isinstance(said, Arrow) else spans
            for span in spans:
                if span.first == at:
                    return span.past
    except Refused:
        pass
    return None


def found_past(source, fault, found):
    """The end of what was found at the place of a fault."""
    if found in ("the end of the line", "the end of the text"):
        return fault.at + 1
    if found == source.found(fault.at):
        rest = source.text[fault.at:line_past(source, fault.at)]
        word = rest.lstrip(b" ").split(b" ")[0][:LONGEST]
        return fault.at + len(rest) - len(rest.lstrip(b" ")) + len(word)
    run = RUN.match(source.text, fault.at)
    return run.end() if run else fault.at + 1


class ImportRefusal:
    """The fault of a diagram; `text` has its lines, if it was found."""

    def __init__(self, source, fault, text):
        self.source, self.fault, self.text = source, fault, text
        told = [note.text for note in fault.notes]
        self.found = next((it.removeprefix("found").lstrip(" ") for it in told
                           if it.split(" ")[0] == "found"), None)
        self.kind = next(filter(None, map(KIND.fullmatch, told)), None)

    def sentence(self):
        number, words = self.fault.number, self.fault.words
        if number == 3:
            return f'"{words.removesuffix(" is not supported")}" is not supported'
        if number == 4:
            return "this block has no end"
        if number == 5:
            return f'"{words.removesuffix(" outside of its block")}" stands outside of its block'
        if number != 2:
            return words
        if words == "expected a statement":
            return "this is no statement of a sequence diagram"
        if words == "expected a label":
            return "this arrow has no label"
        if self.kind:
            return f'"{self.kind[1]}" is no sequence diagram'
        what = words.removeprefix("expected ")
        what = f'"{what}"' if what in AS_WRITTEN else what
        is_end = self.found in ("the end of the line", "the end of the text")
        found = self.found if is_end else f'"{self.found}"'
        return f"expected {what}, found {found}"

    def past(self):
        """The end of what is underlined."""
        source, fault, at = self.source, self.fault, self.fault.at
        if fault.number == 3:
            return at + len(fault.words.removesuffix(" is not supported").encode())
        if fault.number == 7:
            return name_past(source, self.text, at) or at + 1
        is_stray = fault.number == 5 and fault.words.startswith("sequenceDiagram")
        if is_stray:
            return at + len("sequenceDiagram")
        if fault.number == 2 and fault.words != "expected a statement":
            return found_past(source, fault, self.found)
        past = statement_past(source, self.text, at)
        if past is None and fault.number == 2:
            # a directive behind a statement, which goes on to the end of the line
            past = line_past(source, at)
        return past or found_past(source, fault, self.found or source.found(at))

    def marks(self):
        if self.fault.at is None:
            return
        yield Mark(self.fault.at, self.past(), "^")
        for note in self.fault.notes:
            word = note.text.split(" ")[0]
            if word in OPEN and note.at is not None:
                past = line_past(self.source, note.at)
                if word == "inside":
                    past = statement_past(self.source, self.text, note.at) or past
                yield Mark(note.at, past, "-", OPEN[word])

    def helps(self):
        for note in self.fault.notes:
            word, _, rest = note.text.partition(" ")
            if word == "nearest":
                yield f'is "{rest}" meant?'
            elif word == "hint" and not (self.kind and note.text == self.kind[0]):
                yield rest

    def block(self):
        stage = f"{self.fault.stage} {self.fault.number}"
        file = all_shown(self.source.file)
        return error(stage, self.sentence(), self.marks(), helps(*self.helps()), file)


def refusal_of(source, fault, text):
    """The block of a fault of a diagram, of its queues or of its marks."""
    if fault.stage == "accept":
        return of_accept(fault.number, (fault.at, fault.past))
    if fault.stage == "link":
        span = fault.at is not None and (fault.at, line_past(source, fault.at))
        return of_link(fault, all_shown(source.file), span)
    return ImportRefusal(source, fault, text).block()
