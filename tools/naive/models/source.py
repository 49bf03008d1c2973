"""The bytes of a file, its lines and places, and what is printed of a fault that stands in it.

A place is a byte of the file, from 0, or the file's length. LF, CR LF and CR each end a line; a
byte order mark at the front belongs to no line.
"""
import bisect
import re
from typing import NamedTuple

# bytes of a text, columns that are shown of a source line, and those before its place
MOST, WIDTH, BEFORE = 1048576, 100, 49
MARK = b"\xef\xbb\xbf"
# the white space of JavaScript but for line ends
SPACES = {char.encode() for char in "\t\x0b\x0c \xa0\u1680\u2000\u2001\u2002\u2003\u2004\u2005"
          "\u2006\u2007\u2008\u2009\u200a\u2028\u2029\u202f\u205f\u3000\ufeff"}
# the same as a part of patterns
SPACE = b"(?:" + b"|".join(map(re.escape, sorted(SPACES))) + b")"


class Place(NamedTuple):
    line: int
    column: int


class Row(NamedTuple):
    """A line of the file, or a part of one that counts."""
    number: int
    # the place of its first byte
    start: int
    held: bytes


class Span(NamedTuple):
    """Bytes of the file, from their first place to the place behind the last."""
    held: bytes
    first: int
    past: int


class Note(NamedTuple):
    """A line that follows a fault, with its own place if it has one, and what editors read then. A
    line that shows two events has two places."""
    text: str
    at: int = None
    said: str = None
    second: int = None


def note_lines(note, where):
    """The lines of a note; `where` prints a place."""
    if note.second is not None:
        return [note.text, f"at {where(note.at)} {where(note.second)}"]
    return [note.text if note.at is None else f"{note.text} {where(note.at)}"]


def editor_line(note, own, where):
    """The line of a note that editors read; it is at `own` if the note has no place."""
    place = own if note.at is None else where(note.at)
    return f"{place}: note: {note.said or note.text}"


def found_note(shown):
    """What stands at a place, as a note: the word alone if nothing of it can be shown."""
    return Note(f"found {shown}" if shown else "found")


class Refused(Exception):
    """The first fault of a text: its number, its words, its place if it has one, and its notes."""
    # what is refused, and whether the line of the fault says where
    stage, tells_place = "import", True

    def __init__(self, number, words, at=None, notes=()):
        super().__init__(words)
        self.number, self.words, self.at, self.notes = number, words, at, list(notes)

    def line(self, at):
        """The line of the fault; `at` is what it says of its place."""
        place = f" at {at}" if self.at is not None and self.tells_place else ""
        return f"{self.stage} fault {self.number}{place}: {self.words}"


def after_space(held, at, end=None):
    """The first place from this one on that begins no white space."""
    end = len(held) if end is None else end
    while at < end:
        size = next((n for n in (1, 2, 3) if held[at:at + n] in SPACES), 0)
        if size == 0 or at + size > end:
            return at
        at += size
    return at


def before_space(held, end, at=0):
    """The last place up to this one behind which there is only white space."""
    while end > at:
        size = next((n for n in (1, 2, 3) if held[end - n:end] in SPACES), 0)
        if size == 0 or end - size < at:
            return end
        end -= size
    return end


def trimmed(held):
    """The bytes without white space at both ends."""
    start = after_space(held, 0)
    return held[start:before_space(held, len(held), start)]


def is_word(held, word, at=0):
    """This word stands here, and no further byte of a word."""
    behind = held[at + len(word):at + len(word) + 1]
    return held.startswith(word, at) and not re.match(rb"\w", behind, re.ASCII)


def row_shown(held):
    """Bytes as a source line shows them."""
    return "".join(
        " " if byte == 9 else chr(byte) if 32 <= byte < 127 else "?"
        for byte in held
        if not 128 <= byte < 192
    )


def file_shown(file):
    """The name of a file as it is printed."""
    return "".join("?" if ord(byte) < 32 or ord(byte) == 127 else byte for byte in file)


class Source:
    def __init__(self, text, file="-"):
        self.text, self.file = text, file_shown(file)
        self.begin = len(MARK) if text.startswith(MARK) else 0
        self.end = len(text)
        self.rows, start = [], self.begin
        for found in re.finditer(rb"\r\n|\n|\r", text):
            self.rows.append(Row(len(self.rows) + 1, start, text[start:found.start()]))
            start = found.end()
        self.rows.append(Row(len(self.rows) + 1, start, text[start:]))
        self.starts = [row.start for row in self.rows]

    def row(self, at):
        """The line of a place."""
        return self.rows[max(bisect.bisect_right(self.starts, at) - 1, 0)]

    def place(self, at):
        row = self.row(at)
        before = self.text[row.start:max(at, row.start)]
        return Place(row.number, 1 + sum(not 128 <= byte < 192 for byte in before))

    def where(self, at):
        """A place as it is printed."""
        return "{}:{}:{}".format(self.file, *self.place(at))

    def excerpt(self, at):
        """The source line of a place, and the line with the caret below it."""
        row, column = row_shown(self.row(at).held), self.place(at).column
        first = max(column - BEFORE, 1)
        shown = max(min(column - 1, len(row)) - (first - 1), 0)
        return ["  " + row[first - 1:first - 1 + WIDTH], "  " + " " * shown + "^"]

    def found(self, at):
        """What stands at a place: the bytes up to the next space, or the end that it is."""
        row = self.row(at)
        rest = row.held[at - row.start:]
        if not trimmed(rest):
            return "the end of the text" if row is self.rows[-1] else "the end of the line"
        return row_shown(rest.lstrip(b" ").split(b" ")[0][:40])

    def fault_line(self, fault):
        """The fixed line of a fault."""
        return fault.line(None if fault.at is None else self.place(fault.at).line)

    def fault_lines(self, fault):
        """The lines of a fault with its place and its notes."""
        yield self.fault_line(fault)
        if fault.at is not None:
            yield f"at {self.where(fault.at)}"
            yield from self.excerpt(fault.at)
        for note in fault.notes:
            yield from note_lines(note, self.where)

    def editor_lines(self, fault, has_notes=True):
        """The same as lines that editors read; without notes the line of the fault alone."""
        if not has_notes:
            line = 1 if fault.at is None else self.place(fault.at).line
            yield f"{self.file}:{line}:1: error: {self.fault_line(fault)}"
            return
        where = f"{self.file}:1:1" if fault.at is None else self.where(fault.at)
        yield f"{where}: error: {self.fault_line(fault)}"
        for note in fault.notes:
            yield editor_line(note, where, self.where)


def source_of(text, file="-"):
    """The source of a text that is not too long."""
    if len(text) > MOST:
        raise Refused(1, f"text longer than {MOST} bytes")
    return Source(text, file)
