"""What a statement of Mermaid says: the rows of the table of statements, and arrows.

Of each statement comes a Line, an Arrow, a Begin, a Branch, an End, or nothing; of one that fits
no row a fault.
"""
import re

from models.diagrams import Arrow, Begin, Branch, End, Line
from models.hints import ARROWS_HINT, Hints, arrow_run
from models.mermaid_lines import AS, NO_NAME, bare, expected
from models.source import SPACE, Note, Refused, Span, after_space, before_space

BLOCKS = b"loop alt opt par par_over critical break rect box".split()
BRANCH_WORDS = b"else and option".split()
KEY_WORDS = frozenset([*BLOCKS, *BRANCH_WORDS, *b"""participant actor create destroy end note over
off activate deactivate autonumber links link properties details""".split()])
# arrows to the right, those with two heads, and those to the left
RIGHT = rb"""-> --> ->> -->> -) --) -|\ --|\ -|/ --|/ -\\ --\\ -// --// -x --x""".split()
BOTH = b"<<->> <<-->>".split()
LEFT = rb"""/|- /|-- \|- \|-- //- //-- \\- \\--""".split()
LONGEST = sorted([*RIGHT, *BOTH, *LEFT], key=len, reverse=True)
ARROW = re.compile(b"|".join(map(re.escape, LONGEST)), re.IGNORECASE)
WORD = re.compile(rb"[A-Za-z0-9_]*")
NOTE = re.compile(rb"%s*(?:left of|right of|over)(?![A-Za-z0-9_])([^:]*):" % SPACE, re.IGNORECASE)
NUMBERED = re.compile(rb"(?:%s+(?:off|[0-9]+(?:%s+[0-9]+)?))?" % (SPACE, SPACE), re.IGNORECASE)
TITLE = re.compile(rb"title:?%s+." % SPACE, re.IGNORECASE | re.DOTALL)
WRAP = re.compile(rb":?(?:no)?wrap:", re.IGNORECASE)
ALIAS = re.compile(rb"""[\s{,](["']?)alias\1\s*:\s*(?:"([^"]*)"|'([^']*)'|([^\s,"'][^,\n]*))""")


class Statement:
    """A statement that is being read."""

    def __init__(self, source, piece):
        self.source, self.piece = source, piece
        self.held, self.bare = piece.held, bare(piece.held)
        self.word = WORD.match(self.bare)[0].lower()
        self.hints = Hints(source, piece, self.bare)

    def span(self, first, past):
        """The bytes between two places without white space at their ends."""
        first = after_space(self.bare, first, past)
        past = before_space(self.bare, past, first)
        return Span(self.held[first:past], self.piece.at(first), self.piece.at(past))

    def text(self, first, past):
        """A text that is shown, without what says how it is wrapped."""
        first = after_space(self.bare, first, past)
        wrap = WRAP.match(self.held, first, past)
        return self.span(wrap.end() if wrap else first, past)

    def whole(self):
        return self.span(0, len(self.held))

    def no_statement(self, *hints):
        """The fault of a statement that fits no row."""
        return self.hints.no_statement(ARROW, self.word in KEY_WORDS, *hints)

    def name(self, first, past, arrow=None, second=None):
        """The name that stands between two places; `arrow` is what it stands before, and `second`
        the match of the arrow that it stands behind."""
        first = after_space(self.bare, first, past)
        past = before_space(self.bare, past, first)
        held = self.bare[first:past]
        if held and not NO_NAME.search(held):
            return self.span(first, past)
        if held and arrow and held.endswith((b"<", b"-")):
            run = arrow_run(self.bare, arrow.start())
            raise self.hints.no_name(run[0], ARROWS_HINT, run=self.bare[run[0]:run[1]])
        hints = []
        if re.search(rb"[<=>]", held):
            hints.append(ARROWS_HINT)
        behind_cross = second and second[0].lower().endswith(b"x")
        if behind_cross and re.match(rb"\w", self.bare[second.end():], re.ASCII):
            other = ARROW.search(self.bare, second.end(), past)
            if other:
                raise self.hints.cross_in_a_name(second, other)
        if self.word in (b"participant", b"actor", b"create") and b":" in held:
            hints.append("hint a shown name follows as")
        if b"()" in held:
            hints.append("hint () goes between a name and an arrow, once")
        raise self.hints.no_name(first, *hints)

    def read(self):
        """What the statement says, or None."""
        word, at = self.word, len(self.word)
        if not self.held:
            return None
        if word in KEY_WORDS:
            arrow = ARROW.match(self.bare, after_space(self.bare, at))
            if arrow or self.bare.startswith(b"-", at):
                raise self.no_statement(self.key_word_hint(arrow))
        if word in (b"create", b"participant", b"actor"):
            return self.declared()
        if word == b"destroy":
            return self.name(at, len(self.held))
        if word in BLOCKS:
            kind = "par" if word == b"par_over" else word.decode()
            return Begin(kind, word.decode(), self.start, self.span(at, len(self.held)).held)
        if word in BRANCH_WORDS:
            return Branch(word.decode(), self.start, self.span(at, len(self.held)).held)
        if word == b"end":
            if self.held[at:]:
                raise self.no_statement("hint end stands alone")
            return End(self.start)
        if word in KEY_WORDS:
            return self.passed()
        if TITLE.match(self.bare):
            return None
        return self.arrow()

    @property
    def start(self):
        return self.piece.at(0)

    def key_word_hint(self, arrow):
        if self.word in BRANCH_WORDS and arrow:
            return "hint a label cannot begin with an arrow here"
        word = self.held[:len(self.word)].decode()
        return f"hint {word} is a key word; no participant has such a name"

    def passed(self):
        """A statement that says nothing of lines and arrows."""
        word, at = self.word, len(self.word)
        if word in (b"activate", b"deactivate"):
            self.name(at, len(self.held))
        elif word == b"note":
            found = NOTE.match(self.bare, at)
            if not found or ARROW.search(found[1]):
                raise self.no_statement("hint note left of, right of or over NAME: TEXT")
        elif word == b"autonumber":
            if not NUMBERED.fullmatch(self.bare, at):
                raise self.no_statement()
        elif word in (b"links", b"link", b"properties", b"details"):
            colon = self.bare.find(b":", at)
            if colon < 0 or after_space(self.bare, at) == at:
                raise self.no_statement()
            self.name(at, colon)
        else:
            raise self.no_statement()
        return None

    def declared(self):
        """The line that is declared."""
        at = len(self.word)
        if self.word == b"create":
            at = after_space(self.bare, at)
            second = WORD.match(self.bare, at)
            if second[0].lower() not in (b"participant", b"actor"):
                raise self.no_statement()
            at = second.end()
        at = after_space(self.bare, at)
        brace, named = self.bare.find(b"@{", at), AS.search(self.bare, at)
        if brace >= 0 and not (named and named.start() < brace):
            return self.configured(self.name(at, brace), brace)
        if named:
            return Line(self.name(at, named.start()), self.text(named.end(), len(self.held)))
        return Line(self.name(at, len(self.held)), None)

    def configured(self, ident, brace):
        """The line that is declared with something between braces."""
        if self.piece.is_open:
            raise expected(self.source, "}", self.piece.stop)
        end = self.held.index(b"}", brace)
        alias, shown = ALIAS.search(self.held[:end], brace + 1), None
        if alias:
            group = next(n for n in (2, 3, 4) if alias[n] is not None)
            shown = self.span(*alias.span(group))
        behind = after_space(self.bare, end + 1)
        named = re.compile(rb"as(?=%s)" % SPACE, re.IGNORECASE).match(self.bare, behind)
        if named:
            shown = self.text(named.end(), len(self.held))
        elif behind < len(self.held):
            at = min(self.piece.at(behind), self.piece.stop)
            raise expected(self.source, "the end of the statement", at)
        return Line(ident, shown if shown and shown.held else None)

    def arrow(self):
        """The arrow of a statement."""
        found = ARROW.search(self.bare)
        if not found:
            raise self.no_statement()
        if found[0] in LEFT:
            hint = Note("hint the arrow goes to the left: write it the other way round")
            words = f"{found[0].decode()} is not supported"
            raise Refused(3, words, self.piece.at(found.start()), [hint])
        left = self.sender(found)
        at = after_space(self.bare, found.end())
        second = ARROW.match(self.bare, at)
        if second and second[0].startswith(b"-"):
            raise self.hints.no_name(at)
        if self.bare.startswith((b"+", b"-"), at):
            at += 1
        elif self.bare.startswith(b"()", at):
            at += 2
        colon = self.bare.find(b":", at)
        if colon < 0:
            raise self.hints.no_label(found.end())
        right = self.name(at, colon, second=found)
        label = self.text(colon + 1, len(self.held))
        head = found[0].lower()
        return Arrow(left, right, label, self.whole(), head.endswith(b"x"), head in BOTH)

    def sender(self, found):
        """The name before an arrow, perhaps with `()` between."""
        past = before_space(self.bare, found.start())
        if not self.bare[:past].endswith(b"()"):
            return self.name(0, past, arrow=found)
        name = self.name(0, past - 2)
        if re.search(rb"[-/\\(]", bare(name.held)):
            raise self.hints.no_name(0, "hint a name before () has none of - / \\ (")
        return name
