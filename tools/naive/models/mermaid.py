"""Sequence diagrams of Mermaid, read a second time: the chart of a scenario.

    tools/naive/print.py mermaid [--from mermaid|any] [--name NAME] [--choose C] [--list FILE]
                                 [--into FOLDER] [--shown] [--places] [--limit N] [--rounds R,R..]
                                 [--self action|message] [--cross lost|arrives] [--par drawn]
                                 [--fence N] < TEXT

prints what `msc import` prints: the chart of one scenario, with the queues that the diagram names
and with its marks as comments, or on standard error the line of the first fault. With --list the events
stand in place of the chart, with the places of their arrows in FILE; with --into the charts of all
scenarios are written; with --shown the bytes of the text that are shown to people stand there; with
--places the place and the notes follow a fault.

The text is cut into statements (mermaid_lines.py, mermaid_words.py), those are put into blocks
(diagrams.py), and a scenario goes through these with its choices (courses.py); markdown.py finds
the diagrams of a text of Markdown. Each step is a function of its own, written for a reader and not
for speed. It shares nothing with the crates. The exit status is 0, or 2 if the text is refused.
"""
import os
import sys

from harness import Answer, parser, put
from models.courses import SCENARIOS, count_of, course_of, scenarios
from models.diagram_marks import with_marks
from models.diagrams import Arrow, Diagram, made
from models.hints import kind_hints
from models.markdown import blocks_of, is_sequence, stray_fault
from models.mermaid_lines import HEAD, Cutter, comments, counting
from models.mermaid_words import Statement
from models.own import imported
from models.source import Note, Refused, Source, Span, after_space, found_note, is_word, source_of
from models.source import trimmed


def statements(source, rows, cross, in_markup=False):
    """What the lines say, statement by statement. A cross of an arrow from or to a line that is
    destroyed arrives."""
    dying = set()
    for piece in Cutter(source, rows, in_markup).pieces():
        said = Statement(source, piece).read()
        if isinstance(said, Arrow):
            ends_here = dying & {said.left.held, said.right.held}
            if said.is_crossed and not ends_here:
                said = said._replace(fate=fate_of(said, cross))
            dying = set()
            yield said
        elif isinstance(said, Span):
            dying.add(said.held)
        elif said is not None:
            yield said


def fate_of(arrow, cross):
    """What becomes of the message of an arrow with a cross."""
    if cross is None:
        return "arrives" if arrow.is_own() else "either"
    return cross


def first_row(source, rows):
    """The first line that counts, or None if there is none."""
    try:
        return next(counting(source, rows), None)
    except Refused:
        return None


def begins_one(row):
    """The line begins a sequence diagram."""
    return is_word(row.held, HEAD, after_space(row.held, 0))


def no_diagram(source, rows):
    """The fault of lines of which none begins a diagram."""
    row = next((row for row in rows if trimmed(row.held)), None)
    at = source.end if row is None else row.start + after_space(row.held, 0)
    return Refused(2, "expected a diagram", at, [found_note(source.found(at))])


def kind_notes(source, rows, fault):
    """What a text is instead of a sequence diagram."""
    first = first_row(source, rows)
    if first is None:
        return []
    begin = after_space(first.held, 0)
    is_its_line = source.row(fault.at).number == first.number
    own = None if is_its_line else first.start + begin
    return [Note(text, own) for text in kind_hints(first.held, begin)]


def numbers_hint(numbers):
    """The hint on the diagrams of a text of Markdown."""
    if not numbers:
        return []
    if len(numbers) == 1:
        return [Note(f"hint there is one diagram here: --fence {numbers[0]}")]
    told = ", ".join(map(str, numbers[:20])) + (", .." if len(numbers) > 20 else "")
    return [Note(f"hint there are {len(numbers)} diagrams here: --fence {told}")]


class Text:
    """The lines of a diagram, which may be refused: of a block of Markdown, with its number, or of
    the whole file. `notes` follow any fault of them, and `others` one of what they are."""

    def __init__(self, source, rows, block=None, notes=(), others=()):
        self.source, self.rows, self.notes, self.others = source, rows, notes, others
        self.number, self.line = block and block.number, block and block.line
        self.in_markup = block is not None and block.in_markup
        self.stray = block and block.stray

    def diagram(self, options):
        source, rows = self.source, self.rows
        if self.stray is not None:
            raise stray_fault(self.stray)
        try:
            if options.language == "any" and not any(map(begins_one, rows)):
                raise no_diagram(source, rows)
            said = statements(source, rows, options.cross, self.in_markup)
            return Diagram(source, said, comments(source, rows))
        except Refused as fault:
            if fault.words in ("expected a diagram", "expected sequenceDiagram"):
                fault.notes += [*kind_notes(source, rows, fault), *self.others]
            fault.notes += self.notes
            raise


def texts_of(source, options):
    """The diagrams of a file that are asked for, and whether they are all of Markdown."""
    first = first_row(source, source.rows)
    if options.fence is None and first is not None and begins_one(first):
        return [Text(source, source.rows)], False
    blocks = blocks_of(source)
    own = [block for block in blocks if is_sequence(source, block)]
    none = [] if own or not blocks else [Note("hint no block of this text is a sequence diagram")]
    if options.fence is not None:
        hint = numbers_hint([block.number for block in own])
        if not 1 <= options.fence <= len(blocks):
            raise Refused(17, f"no diagram {options.fence}", None, hint)
        block = blocks[options.fence - 1]
        return [Text(source, block.rows, block, [] if block in own else hint, none)], False
    if own:
        return [Text(source, block.rows, block) for block in own], True
    return [Text(source, source.rows, others=none)], False


def has_diagram(text):
    """The text is a sequence diagram, or one of Markdown that has one."""
    source = source_of(text)
    first = first_row(source, source.rows)
    if first is not None and begins_one(first):
        return True
    return any(is_sequence(source, block) for block in blocks_of(source))


def one_text(source, options):
    """The one diagram of a file."""
    texts, _ = texts_of(source, options)
    if len(texts) > 1:
        hint = numbers_hint([text.number for text in texts])
        raise Refused(20, f"{len(texts)} diagrams, say --fence", None, hint)
    return texts[0]


def all_scenarios(diagram, name, options):
    """Writes the charts of all scenarios into a folder, and tells which ones there are."""
    every = list(scenarios(diagram, options))
    os.makedirs(options.into, exist_ok=True)
    for i, course in enumerate(every, 1):
        own = name if len(every) == 1 else f"{name}_{i}"
        path = os.path.join(options.into, own + ".msc")
        with open(path, "w", errors="surrogateescape") as out:
            out.write(with_marks(course).text(own, imported(diagram)))
        chosen = " choose " + ",".join(map(str, course.taken)) if course.taken else ""
        yield f"{own}.msc{chosen}\n"


def only_scenario(diagram, options):
    """Refuses a diagram of several scenarios."""
    count = count_of(diagram, options.rounds)
    hint = "hint --choose main takes each first branch of an alt, each opt, one round of each loop"
    if count > SCENARIOS:
        raise Refused(12, f"more than {SCENARIOS} scenarios, say --choose", None, [Note(hint)])
    if count > 1:
        raise Refused(12, f"{count} scenarios, say --choose", None, [Note(hint)])


def choices_of(held):
    """The choices of a scenario; the main ones follow them."""
    return [] if held in (None, "main") else [int(n) for n in held.split(",")]


def answer(source, options):
    """What is printed."""
    diagram = one_text(source, options).diagram(options)
    name = made(options.name.encode(), b"diagram").decode()
    if options.into is not None:
        return "".join(all_scenarios(diagram, name, options)).encode()
    if options.choose is None:
        only_scenario(diagram, options)
    course = course_of(diagram, choices_of(options.choose), options)
    if options.shown:
        return b"".join(course.shown())
    if options.list:
        return course.list(name, options.list).encode()
    text = with_marks(course).text(name, imported(diagram))
    return text.encode("utf-8", "surrogateescape")


def rounds_of(held):
    """The numbers of rounds that loops get, each once, ascending."""
    return sorted({int(n) for n in held.split(",")})


def words_on_diagrams(about):
    """The words that say what a diagram is, of a command with this description."""
    words = parser(about)
    words.add_argument("--from", dest="language", choices=("mermaid", "any"), default="any")
    words.add_argument("--name")
    words.add_argument("--limit", type=int, default=64)
    words.add_argument("--rounds", type=rounds_of, default="0,2")
    words.add_argument("--self", dest="own", choices=("action", "message"), default="action")
    words.add_argument("--cross", choices=("lost", "arrives"))
    words.add_argument("--par", choices=("drawn",))
    words.add_argument("--fence", type=int)
    words.add_argument("--places", action="store_true")
    return words


def options_of(given):
    """The options of these words."""
    words = words_on_diagrams(__doc__)
    words.set_defaults(name="diagram")
    words.add_argument("--choose")
    words.add_argument("--list", metavar="FILE")
    words.add_argument("--into", metavar="FOLDER")
    words.add_argument("--shown", action="store_true")
    return words.parse_args(given)


def answered(text, options):
    """What is printed on both streams, and the exit status."""
    source = None
    try:
        source = source_of(text)
        return answer(source, options), b"", 0
    except Refused as fault:
        return b"", fault_bytes(source or Source(b""), fault, options.places), 2


def fault_bytes(source, fault, has_notes):
    """What is told of a fault on standard error."""
    lines = [*source.fault_lines(fault)]
    return "".join(line + "\n" for line in (lines if has_notes else lines[:1])).encode()


def main(given):
    return put(Answer(*answered(sys.stdin.buffer.read(), options_of(given))))
