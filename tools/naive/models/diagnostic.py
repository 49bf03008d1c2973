"""Diagnostics as people read them: a sentence, the lines of the text with marks below them, and
notes; with colours if wanted.

A block is plain data. Its rows are lists of pieces, each a text and its colour, so that without
colours the bytes are the same but for these.
"""
import bisect
from typing import NamedTuple

from models.spoken import all_shown, characters, shown, size, width

# the columns of a window, and those in it before its first mark
WINDOW, BEFORE = 100, 49
BOLD, BLUE, BOLD_BLUE = "1", "34", "1;34"
COLOURS = {"error": "1;31", "warning": "1;33"}


class Mark(NamedTuple):
    """A part of the text, from its first byte to the one after its last, the character that
    underlines it, and its label."""
    first: int
    past: int
    sign: str
    label: str = ""


class Note(NamedTuple):
    """A note or a help; its text may have further rows."""
    word: str
    text: str
    rows: tuple = ()


class Block(NamedTuple):
    """`file` is shown if there are no marks; it may be empty."""
    level: str
    ident: str
    sentence: str
    marks: tuple = ()
    notes: tuple = ()
    file: str = ""


class Page:
    """The lines of a text, each with the place of its first byte."""

    def __init__(self, file, rows):
        self.file, self.rows = file, rows
        self.starts = [start for start, _ in rows]

    def index(self, at):
        """The index of the line of a place."""
        return max(bisect.bisect_right(self.starts, at) - 1, 0)

    def line(self, at):
        """The number of the line of a place."""
        return self.index(at) + 1

    def place(self, at):
        start, held = self.rows[self.index(at)]
        before = held[:at - start]
        column = 1 + sum(not 128 <= byte < 192 for byte in before)
        return f"{self.file}:{self.line(at)}:{column}"

    def clipped(self, mark):
        """The mark by bytes of its line, without later lines and blanks at the end, and with at
        least one byte."""
        start, held = self.rows[self.index(mark.first)]
        first = mark.first - start
        past = first + len(held[first:max(mark.past - start, 0)].rstrip(b" \t"))
        return mark._replace(first=first, past=max(past, first + 1))


def page_of_chart(text, file):
    """The lines of a chart."""
    rows, start = [], 0
    parts = text.split(b"\n")
    for held in parts[:-1]:
        rows.append((start, held.removesuffix(b"\r")))
        start += len(held) + 1
    return Page(file, [*rows, (start, parts[-1])])


def page_of(source):
    """The lines of a diagram's file."""
    return Page(all_shown(source.file), [(row.start, row.held) for row in source.rows])


class Cell(NamedTuple):
    """What is shown of a character, the place of its first byte, and its columns."""
    text: str
    at: int
    column: int
    width: int


def cells(held):
    """The characters of a line that are shown."""
    found, at, column = [], 0, 0
    for char in characters(held):
        text = shown(char)
        if text:
            found.append(Cell(text, at, column, width(text)))
            column += found[-1].width
        at += size(char)
    return found


def columns_at(held, at):
    """The columns of a line before a byte."""
    column, place = 0, 0
    for char in characters(held):
        if place >= at:
            break
        place += size(char)
        column += sum(map(width, shown(char)))
    return column + max(at - place, 0)


class Placed(NamedTuple):
    """A mark by the columns of its line."""
    first: int
    past: int
    mark: Mark


def placed(held, marks):
    """The marks of a line by its columns, ordered."""
    found = []
    for mark in sorted(marks, key=lambda it: (it.first, it.past)):
        first = columns_at(held, mark.first)
        found.append(Placed(first, max(columns_at(held, mark.past), first + 1), mark))
    return found


def window_at(total, marks):
    """The first column of the window on a line of so many columns."""
    begin = max(min(marks[0].first - BEFORE, total - WINDOW), 0)
    last = max(mark.past for mark in marks)
    return last - WINDOW if begin < last - WINDOW <= marks[0].first else begin


def windows(held, marks):
    """The windows on a line: the text of each, and the marks below it, each with the columns before
    it and the columns that it takes."""
    line, left = cells(held), placed(held, marks)
    total = max((cell.column + cell.width for cell in line), default=0)
    if total <= WINDOW:
        below = [(it.first, it.past - it.first, it.mark) for it in left]
        yield "".join(cell.text for cell in line).rstrip(" "), below
        return
    while left:
        begin = window_at(total, left)
        past = begin + WINDOW
        inside = [it for it in line if begin <= it.column and it.column + it.width <= past]
        front = "..." if inside[:1] != line[:1] else ""
        back = "..." if inside[-1:] != line[-1:] else ""
        begins = [it for it in left if it.first < past] or left[:1]
        found = []
        for it in begins:
            before = sum(cell.width for cell in inside if cell.at < it.mark.first)
            own = sum(cell.width for cell in inside if it.mark.first <= cell.at < it.mark.past)
            beyond = max(it.first - total, 0)
            found.append((len(front) + before + beyond, max(own, 1), it.mark))
        text = front + "".join(cell.text for cell in inside)
        yield text + back if back else text.rstrip(" "), found
        left = left[len(begins):]


class Rows:
    """The rows of a block."""

    def __init__(self, page, block):
        self.page, self.block = page, block
        self.colour = COLOURS[block.level]
        self.by_line = {}
        for mark in block.marks:
            line = page.index(mark.first)
            self.by_line.setdefault(line, []).append(page.clipped(mark))
        self.numbered = self.shown_lines()
        self.gap = len(str(max(self.numbered, default=0) + 1))

    def shown_lines(self):
        """The lines with marks, and each single line between two of them."""
        lines = sorted(self.by_line)
        between = [a + 1 for a, b in zip(lines, lines[1:]) if b == a + 2]
        return sorted([*lines, *between])

    def bar(self, number=""):
        return BOLD_BLUE, f"{number:>{self.gap}} |"

    def rows(self):
        block, blanks = self.block, " " * self.gap
        yield [(self.colour, f"{block.level}[{block.ident}]"), (BOLD, f": {block.sentence}")]
        if block.marks:
            place = self.page.place(block.marks[0].first)
            yield [(None, blanks), (BOLD_BLUE, "-->"), (None, f" {place}")]
            yield [self.bar()]
            yield from self.source_rows()
        elif block.file:
            yield [(None, blanks), (BOLD_BLUE, "-->"), (None, f" {block.file}")]
        if block.marks and block.notes:
            yield [self.bar()]
        for note in block.notes:
            yield [(None, blanks), (BOLD_BLUE, " = "), (BOLD, note.word), (None, f": {note.text}")]
            for row in note.rows:
                yield [(None, " " * (self.gap + 3) + row)]
        yield []

    def source_rows(self):
        last = None
        for line in self.numbered:
            if last is not None and line > last + 1:
                yield [(BOLD_BLUE, "...")]
            last = line
            _, held = self.page.rows[line]
            marks = self.by_line.get(line)
            shown_parts = windows(held, marks) if marks else [(plain(held), [])]
            for text, below in shown_parts:
                yield [self.bar(line + 1), (None, f" {text}" if text else "")]
                for column, count, mark in below:
                    label = f" {mark.label}" if mark.label else ""
                    colour = self.colour if mark.sign == "^" else BLUE
                    yield [self.bar(), (None, " " * (column + 1)),
                           (colour, mark.sign * count + label)]


def plain(held):
    """A line without marks: its beginning, if it is long."""
    text, _ = next(windows(held, [Mark(0, 1, "^")]))
    return text


def painted(row, has_colours):
    """A row as it is printed."""
    return "".join(
        f"\x1b[{colour}m{text}\x1b[0m" if colour and text and has_colours else text
        for colour, text in row
    )


def printed(page, blocks, has_colours=False):
    """The lines of blocks."""
    return [painted(row, has_colours) for block in blocks for row in Rows(page, block).rows()]
