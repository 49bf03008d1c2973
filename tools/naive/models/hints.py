"""The notes on a faulty statement of Mermaid: what was found, and hints."""
import re

from models.nearness import distance
from models.source import Note, Refused, found_note, row_shown

ARROWS_HINT = "hint arrows are ->> -->> -> --> -x --x -) --) <<->> <<-->>"
# the words that a misspelt one may have been
NEAR = sorted(b"""participant actor create destroy loop alt opt par par_over critical break rect
box else and option end note over off activate deactivate autonumber links link properties details
title acctitle accdescr""".split())
KINDS = b"""flowchart graph classDiagram stateDiagram erDiagram gantt pie journey gitGraph mindmap
timeline quadrantChart requirementDiagram C4Context C4Container C4Component C4Dynamic C4Deployment
sankey xychart block packet kanban architecture zenuml radar treemap info""".split()
# U+2190 to U+21FF, U+27F0 to U+27FF, U+2900 to U+297F; U+2013, U+2014, U+2212
DRAWN = rb"\xe2(?:[\x86\x87][\x80-\xbf]|\x9f[\xb0-\xbf]|\xa4[\x80-\xbf]|\xa5[\x80-\xbf])"
DASH = rb"\xe2(?:\x80[\x93\x94]|\x88\x92)"
RUN = re.compile(rb"(?:[<>=~|/\\-]|%s|%s)+" % (DRAWN, DASH))
HOLDS = re.compile(rb"->|=>|~>|<-|<=|--|==|-\||>>|%s|%s>" % (DRAWN, DASH))
WIDE_COLON = b"\xef\xbc\x9a"


def arrow_run(bare, at):
    """The run of arrow bytes around a place: where it begins and ends."""
    return next(run.span() for run in RUN.finditer(bare) if run.start() <= at < run.end())


def arrows_run(bare, arrow):
    """The first run before the first colon that is like an arrow, and is none."""
    for run in RUN.finditer(bare.partition(b":")[0]):
        if HOLDS.search(run[0]) and not arrow.fullmatch(run[0]):
            return run
    return None


def nearest(word, others):
    """The word that is most like this one, if one is like it."""
    far = [distance(word.lower(), other.lower()) for other in others]
    i = far.index(min(far))
    is_near = 3 * far[i] <= max(len(word), len(others[i]))
    return [f"nearest {others[i].decode()}"] if is_near else []


def kind_hints(held, at):
    """What a text is whose first line that counts has this word."""
    word = re.match(rb"\w*", held[at:], re.ASCII)[0]
    if word in KINDS:
        return [f"hint {word.decode()} is no sequence diagram"]
    if word.lower() == b"sequencediagram":
        hint = "hint write sequenceDiagram, with a capital D"
        return [] if word == b"sequenceDiagram" else [hint]
    return nearest(word, [b"sequenceDiagram"])


class Hints:
    def __init__(self, source, piece, bare):
        self.source, self.piece, self.bare = source, piece, bare

    def fault(self, what, at, hints, run=None):
        found = self.source.found(self.piece.at(at)) if run is None else row_shown(run)
        notes = [found_note(found), *map(Note, hints)]
        return Refused(2, f"expected {what}", self.piece.at(at), notes)

    def semicolon(self):
        """The hint on the semicolon before a statement."""
        if self.piece.is_first:
            return []
        before = self.piece.line[:self.piece.first].rstrip()
        named = re.search(rb"&([A-Za-z0-9_]+);\Z", before)
        if named:
            word = named[1].decode()
            return [f"hint write #{word}; for &{word};"]
        return ["hint a semicolon ends a statement; inside a text write #59;"]

    def no_statement(self, arrow, is_key_word, *hints):
        run = arrows_run(self.bare, arrow)
        word = re.match(rb"\w*", self.bare, re.ASCII)[0]
        more = list(hints)
        if run:
            more.insert(0, ARROWS_HINT)
        elif self.piece.is_first and not is_key_word:
            more += nearest(word, NEAR)
        at, held = (run.start(), run[0]) if run else (0, None)
        return self.fault("a statement", at, [*more, *self.semicolon()], held)

    def no_name(self, at, *hints, run=None):
        return self.fault("a name", at, [*hints, *self.semicolon()], run)

    def cross_in_a_name(self, cross, other):
        """The fault of a name in which `-x` or `--x` stands."""
        name = row_shown(self.piece.held[:other.start()].strip())
        hint = f"hint {cross[0].decode()} is an arrow: call it participant P as {name}"
        return self.no_name(cross.start(), hint)

    def no_label(self, behind):
        """The fault of an arrow without a label; `behind` is where the arrow ends."""
        wide = self.bare.find(WIDE_COLON, behind)
        if wide >= 0:
            return self.fault("a label", wide, ["hint the colon is :, not the wide one"])
        hint = "hint a colon follows the receiver, and a text that may be empty"
        return self.fault("a label", len(self.bare), [hint])
