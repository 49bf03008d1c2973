"""The lines of a sequence diagram of Mermaid, cut into statements.

Front matter, directives, comments and descriptions are left out here; mermaid_words.py reads what
a statement says.
"""
import itertools
import re
from typing import NamedTuple, Sequence

from models.source import SPACE, Note, Refused, after_space, before_space, found_note, is_word
from models.source import trimmed

HEAD = b"sequenceDiagram"
ENTITY = re.compile(rb"#[A-Za-z0-9_]+;")
# what may end a statement
ENDS = re.compile(rb"#[A-Za-z0-9_]+;|[;#]")
TITLED = re.compile(rb"(?:accTitle|accDescr)%s*:" % SPACE, re.IGNORECASE)
DESCRIBED = re.compile(rb"accDescr%s*\{" % SPACE, re.IGNORECASE)
# the statements behind which a comment may stand
COMMENTED = re.compile(
    rb"(?:autonumber(?:%s+(?:off|[0-9]+(?:%s+[0-9]+)?))?|end)(?=%s*%%%%)" % (SPACE, SPACE, SPACE),
    re.IGNORECASE)
NO_NAME = re.compile(rb"[+<=>:,;]|%%|\(\)|-[/\\|]|^-|-$")
DECLARING = re.compile(
    rb"(?:create%s+)?(?:participant|actor)(?![A-Za-z0-9_])%s*" % (SPACE, SPACE), re.IGNORECASE)
AS = re.compile(rb"%s+as(?=%s)" % (SPACE, SPACE), re.IGNORECASE)
# an entity that a browser reads before Mermaid does
MARKUP = re.compile(rb"&#?[A-Za-z0-9]+;")


class Piece(NamedTuple):
    """A statement: a part of a line, without white space at both ends."""
    line: bytes
    first: int
    past: int
    # the place of each byte of the line, and of its end
    places: Sequence[int]
    # no statement stands before it on its line
    is_first: bool
    # a `@{` in it has no end
    is_open: bool = False
    # where it ends on its first line
    stop: int = 0

    @property
    def held(self):
        return self.line[self.first:self.past]

    def at(self, index):
        """The place of a byte of the statement."""
        return self.places[self.first + index]


def bare(held):
    """The bytes with letters in the place of entities."""
    return ENTITY.sub(lambda it: b"\xff" * len(it[0]), held)


def opened(at):
    return Note("opened", at, "it is opened here")


def expected(source, what, at, *notes):
    """A fault 2, which tells what was found."""
    return Refused(2, f"expected {what}", at, [found_note(source.found(at)), *notes])


def without_front(source, rows):
    """The lines behind the front matter."""
    first = next((i for i, row in enumerate(rows) if trimmed(row.held)), None)
    if first is None or trimmed(rows[first].held) != b"---":
        return rows
    for i in range(first + 1, len(rows)):
        if trimmed(rows[i].held) == b"---":
            return rows[i + 1:]
    begin = rows[first].start + after_space(rows[first].held, 0)
    raise expected(source, "---", source.end, opened(begin))


def nothing_after(source, held, places, at):
    """Refuses what stands behind this byte of a line."""
    at = after_space(held, at)
    if at < len(held):
        raise expected(source, "the end of the line", places[at])


def check_comment(source, row):
    """Refuses a comment with a directive that does not end on its line."""
    at = row.held.find(b"%%{")
    while at >= 0:
        at = row.held.find(b"}%%", at + 3)
        if at < 0:
            raise expected(source, "}%%", row.start + len(row.held))
        at = row.held.find(b"%%{", at + 3)


def places_of(row):
    return range(row.start, row.start + len(row.held) + 1)


def parted(source, rows):
    """The lines that are neither empty nor front matter or directives, and whether each is a
    comment."""
    rows = iter(without_front(source, rows))
    for row in rows:
        begin = after_space(row.held, 0)
        if begin == len(row.held):
            continue
        if row.held.startswith(b"%%{", begin):
            at, place = begin + 3, row.start + begin
            while row is not None and row.held.find(b"}%%", at) < 0:
                row, at = next(rows, None), 0
            if row is None:
                raise expected(source, "}%%", source.end, opened(place))
            end = row.held.find(b"}%%", at) + 3
            nothing_after(source, row.held, places_of(row), end)
        elif row.held.startswith(b"%%", begin):
            check_comment(source, row)
            yield row, True
        else:
            yield row, False


def counting(source, rows):
    """The lines that are left: those of these that are no comments."""
    return (row for row, is_comment in parted(source, rows) if not is_comment)


def comments(source, rows):
    """The text of each line that is a comment, and of one behind the word that begins the diagram,
    without white space at its end; each with its place."""
    head = None
    for row, is_comment in parted(source, rows):
        begin = after_space(row.held, 0)
        if not is_comment and head is None:
            head = row
            begin = after_space(row.held, begin + len(HEAD))
            is_comment = row.held.startswith(b"%%", begin)
        if is_comment:
            yield row.held[begin + 2:before_space(row.held, len(row.held), begin + 2)], row.start + begin


def check_line(source, row, in_markup):
    """Refuses a directive behind other bytes of a line, and in markup an entity."""
    at = row.held.find(b"%%{")
    if at >= 0:
        raise expected(source, "a statement", row.start + at)
    found = in_markup and MARKUP.search(row.held)
    if found:
        words = f"{found[0].decode()} is not supported"
        hint = Note("hint write the character itself")
        raise Refused(3, words, row.start + found.start(), [hint])


def statement_end(held, at):
    """Where the statement that goes on here ends: at a `;`, at a `#`, or with the line."""
    for found in ENDS.finditer(held, at):
        if len(found[0]) == 1:
            return found.start()
    return len(held)


def config_of(held, at):
    """The place behind the `@{` of the line that is declared here, if it has one and a name."""
    found = DECLARING.match(held, at)
    brace = held.find(b"@{", found.end(), statement_end(held, at)) if found else -1
    if brace < 0 or AS.search(held, found.end(), brace):
        return None
    name = trimmed(bare(held[found.end():brace]))
    return brace + 2 if name and not NO_NAME.search(name) else None


class Cutter:
    """Goes along the lines that count, from statement to statement."""

    def __init__(self, source, rows, in_markup=False):
        self.source, self.in_markup = source, in_markup
        self.rows = counting(source, rows)
        # the line, the places of its bytes, and where its next statement begins
        self.held, self.places, self.at = b"", [], 0

    def pieces(self):
        """The statements, in order."""
        first = next(self.rows, None)
        if first is None:
            raise expected(self.source, HEAD.decode(), self.source.end)
        begin = after_space(first.held, 0)
        if not is_word(first.held, HEAD, begin):
            raise expected(self.source, HEAD.decode(), first.start + begin)
        for row in itertools.chain([first], self.rows):
            check_line(self.source, row, self.in_markup)
            self.held, self.places = row.held, places_of(row)
            self.at, self.is_first = begin + len(HEAD) if row is first else 0, True
            while self.at is not None:
                piece = self.piece()
                if piece is not None:
                    yield piece
                self.is_first = False

    def join_to(self, mark, at, in_markup):
        """Joins the lines up to the first that has this mark; the place of the mark in them, or -1
        if it does not come."""
        found = self.held.find(mark, at)
        if found >= 0:
            return found
        parts, places, size = [self.held], [*self.places], len(self.held) + 1
        for row in self.rows:
            check_line(self.source, row, in_markup)
            parts.append(row.held)
            places += places_of(row)
            found = row.held.find(mark)
            if found >= 0:
                break
            size += len(row.held) + 1
        if found < 0:
            return -1
        self.held, self.places = b"\n".join(parts), places
        return size + found

    def piece(self):
        """The statement that begins here, if one does."""
        at = after_space(self.held, self.at)
        titled, described = TITLED.match(self.held, at), DESCRIBED.match(self.held, at)
        self.at = None
        if titled and after_space(self.held, titled.end()) < len(self.held):
            return None
        if described:
            begin = self.places[described.end()]
            end = self.join_to(b"}", described.end(), False)
            if end < 0:
                raise expected(self.source, "}", self.source.end, opened(begin))
            nothing_after(self.source, self.held, self.places, end + 1)
        elif not self.held.startswith(b"%%", at):
            return self.statement(at)
        return None

    def statement(self, at):
        """The statement that begins here; the next one of its line goes on behind its `;`."""
        commented, end = COMMENTED.match(self.held, at), statement_end(self.held, at)
        config = config_of(self.held, at)
        stop, is_open = self.places[before_space(self.held, end, at)], False
        if commented:
            end = commented.end()
        elif config is not None and self.held.find(b"}", config, end) < 0:
            # it goes on where nothing follows it on its line
            is_last = end == len(self.held)
            brace = self.join_to(b"}", config, self.in_markup) if is_last else -1
            is_open = brace < 0
            end = end if is_open else statement_end(self.held, brace)
        if self.held.startswith(b";", end):
            self.at = end + 1
        past = before_space(self.held, end, at)
        return Piece(self.held, at, past, self.places, self.is_first, is_open, stop)
