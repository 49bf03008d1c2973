"""The blocks of a text of Markdown, as fences, directives, shortcodes and HTML write them, and
which of them are sequence diagrams.
"""
import re

from models.mermaid_lines import HEAD, counting
from models.source import Note, Refused, Row, after_space, is_word, trimmed

# blanks, marks of block quotes and marks of list items
PREFIX = re.compile(rb"(?:[ \t]|>|(?:[-*+]|[0-9]{1,9}[.)])(?=[ \t]))*")
QUOTED = re.compile(rb"[ \t>]*")
BACKQUOTES = re.compile(rb"(`{3,})([^`]*)\Z")
TILDES = re.compile(rb"(~{3,})(.*)\Z", re.DOTALL)
COLONS = re.compile(rb":::[ \t]*mermaid[ \t]*\Z", re.IGNORECASE)
MERMAID = re.compile(rb"[ \t]*(?:\{\.?)?mermaid(?![A-Za-z0-9_])", re.IGNORECASE)
OTHERS = re.compile(rb"[ \t]*(?:plantuml|puml|mscgen)(?![A-Za-z0-9_])")
MYST = re.compile(rb"[ \t]*\{mermaid(?![A-Za-z0-9_])", re.IGNORECASE)
OPTION = re.compile(rb":[A-Za-z0-9_-]+:")
# the marks with which a shortcode ends, by those with which it begins
KINDS = {b"<": b">", b"%": b"%"}
SHORTCODE = re.compile(rb"\{\{([<%])[ \t]*mermaid")
TAG = re.compile(rb"<(pre|div)(?=[ \t>])[^>]*>", re.IGNORECASE)
CLASS = re.compile(rb"""[ \t]class[ \t]*=[ \t]*(?:"([^"]*)"|'([^']*)'|([^ \t"'>]+))""",
                   re.IGNORECASE)


def shortcode_end(kind):
    mark = KINDS[kind]
    return re.compile(rb"\{\{%s[ \t]*/[ \t]*mermaid[ \t]*%s\}\}" % (kind, mark))


SHORTCODE_ENDS = {kind: shortcode_end(kind) for kind in KINDS}


class Start:
    """How a block starts: the number of marks `>` before it, what ends it, the place on its line
    from which on its text may stand, if it may stand there, and what it is."""

    def __init__(self, quotes, end, behind=None, is_marked=True, in_markup=False,
                 has_options=False):
        self.quotes, self.end, self.behind, self.is_marked = quotes, end, behind, is_marked
        self.in_markup, self.has_options = in_markup, has_options

    def split(self, held, at):
        """What of a line belongs to the block, from this place on, and whether the block ends."""
        if self.behind is None:
            is_end = self.end.fullmatch(held[at:].strip(b" \t"))
            return (b"" if is_end else held[at:]), bool(is_end)
        found = self.end.search(held, at)
        return (held[at:found.start()], True) if found else (held[at:], False)


class Block:
    """A marked block: its first line and all that are read, and whether a browser reads it before
    Mermaid does. Of one line outside of all blocks `stray` is the place of its first word."""

    def __init__(self, number, line, rows, in_markup=False, stray=None):
        self.number, self.line, self.rows = number, line, rows
        self.in_markup, self.stray = in_markup, stray


def fence_start(quotes, held, at):
    for pattern, mark in ((BACKQUOTES, b"`"), (TILDES, b"~")):
        found = pattern.match(held, at)
        if found:
            end = re.compile(rb"%s{%d,}" % (mark, len(found[1])))
            is_marked = MERMAID.match(found[2]) or OTHERS.match(found[2])
            return Start(quotes, end, None, bool(is_marked), False, bool(MYST.match(found[2])))
    return None


def shortcode_start(quotes, held, at, last_ends, number):
    found = SHORTCODE.match(held, at)
    if not found:
        return None
    kind, behind = found[1], found.end()
    past = held.find(KINDS[kind] + b"}}", behind)
    is_word_end = past == behind or held[behind:behind + 1] in (b" ", b"\t")
    if past < 0 or not is_word_end or held[past - 1:past] == b"/":
        return None
    end = SHORTCODE_ENDS[kind]
    if last_ends[kind] <= number and not end.search(held, past):
        return None
    return Start(quotes, end, past + 3, True, True)


def tag_start(quotes, held, at):
    found = TAG.match(held, at)
    named = found and CLASS.search(found[0])
    if not named:
        return None
    classes = next(group for group in named.groups() if group is not None)
    if b"mermaid" not in classes.lower().split():
        return None
    end = re.compile(rb"</%s>" % found[1], re.IGNORECASE)
    return Start(quotes, end, found.end(), True, True)


def start_of(row, last_ends):
    """The start of a block on a line outside of blocks, or None."""
    held = row.held
    at = PREFIX.match(held).end()
    quotes = held.count(b">", 0, at)
    if COLONS.match(held, at):
        return Start(quotes, re.compile(rb":::"))
    return (fence_start(quotes, held, at) or tag_start(quotes, held, at)
            or shortcode_start(quotes, held, at, last_ends, row.number))


def inside(held, quotes):
    """The place on a line behind so many marks `>` and blanks, or None if it has fewer."""
    marks = QUOTED.match(held).end()
    if held.count(b">", 0, marks) < quotes:
        return None
    at = 0
    for _ in range(quotes):
        at = held.index(b">", at) + 1
    return at


def part(row, held, at):
    """The part of a line that begins at this place, with blanks before it."""
    return Row(row.number, row.start, b" " * at + held)


def without_options(rows):
    """The lines with the options of MyST left out."""
    for i, row in enumerate(rows):
        held = trimmed(row.held)
        if held and not OPTION.match(held):
            return rows[i:]
    return []


def rows_of(rows, i, start):
    """The lines of the block that starts on line i, and the number of the next line outside."""
    found, first = [], start.behind
    if first is None:
        i, first = i + 1, None
    while i < len(rows):
        at = inside(rows[i].held, start.quotes) if first is None else first
        if at is None:
            break
        held, is_end = start.split(rows[i].held, at)
        found.append(part(rows[i], held, at))
        i, first = i + 1, None
        if is_end:
            if start.behind is None:
                found.pop()
            break
    return (without_options(found) if start.has_options else found), i


def blocks_of(source):
    """The marked blocks of a text, in order."""
    rows, found, strays, i = source.rows, [], [], 0
    last_ends = {kind: 0 for kind in KINDS}
    for row in rows:
        for kind, end in SHORTCODE_ENDS.items():
            if b"{{" in row.held and end.search(row.held):
                last_ends[kind] = row.number
    while i < len(rows):
        start = start_of(rows[i], last_ends)
        if start is None:
            at = QUOTED.match(rows[i].held).end()
            if is_word(rows[i].held, HEAD, at):
                stray = rows[i].start + at
                strays.append((i, Block(None, rows[i].number, [rows[i]], stray=stray)))
            i += 1
            continue
        own, behind = rows_of(rows, i, start)
        if start.is_marked:
            line = rows[i].number + (not start.in_markup)
            found.append((i, Block(None, line, own, start.in_markup)))
        i = behind
    if not found:
        return []
    blocks = [block for _, block in sorted([*found, *strays], key=lambda it: it[0])]
    for number, block in enumerate(blocks, 1):
        block.number = number
    return blocks


def names_sequence(row):
    """The first word of a line begins like the word for sequence diagrams, in any case."""
    at = after_space(row.held, 0)
    return row.held[at:at + 8].lower() == b"sequence"


def is_sequence(source, block):
    """The block is a sequence diagram, if perhaps a wrong one."""
    if block.stray is not None:
        return True
    try:
        first = next(counting(source, block.rows), None)
    except Refused:
        return any(HEAD in row.held for row in block.rows)
    return first is not None and names_sequence(first)


def stray_fault(at):
    hint = Note("hint in Markdown a diagram stands between ```mermaid and ```")
    return Refused(5, "sequenceDiagram outside of its block", at, [hint])
