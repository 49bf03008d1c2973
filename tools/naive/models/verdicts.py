"""What a check finds of charts and diagrams, for `msc scan` and for JSON: verdicts, and refusals.

A verdict is on a chart, or on all scenarios of a diagram, under one architecture. A refusal is of a
text under all architectures, or of a file or a folder that fails. Both have these parts, so that a
form prints them in one way:

    file, number  the name of the file, and the number of a diagram in Markdown, else None
    label         the name that text forms print
    status        the exit status that `msc check` has
    page          the lines of the text
    findings()    the findings that the form `full` prints
    closing()     FILE of the closing line and what this line says, or None
    lines(form)   the lines of the form `text`, `count` or `lines`
"""
from argparse import Namespace
from typing import Callable, NamedTuple

from models import closing
from models.diagnostic import Page, page_of, page_of_chart
from models.full import Checked, fault_told
from models.full_diagrams import findings_of, label_of_file, verdict_said
from models.import_refusals import refusal_of
from models.notes import Fault, Faults, position
from models.own import in_chart, in_diagram
from models.races import KINDS as SORTS
from models.races import count_words, study
from models.ready import ALL
from models.refusals import of_device, of_fixed_line
from models.rounds import check_answer
from models.scenarios import Output, Verdict, name_of
from models.shown import places_of
from models.source import Note, Refused, file_shown
from models.spoken import all_shown
from models.wording import Finding

FORMATS = ("full", "text", "count", "lines", "json", "sarif")


def with_number(name, number):
    """A name, with the number of a diagram in Markdown."""
    return name if number is None else f"{name}#{number}"


class ChartVerdict:
    """The verdict on a chart under an architecture."""
    number, help = None, closing.OF_CHARTS

    def __init__(self, text, queues, options):
        self.text, self.file, self.label = text, options.file, file_shown(options.file)
        show = ALL if options.show is None else options.show
        self.options = Namespace(**{**vars(options), "show": show})
        self.page = page_of_chart(text, all_shown(self.label))
        self.found = Checked(text, self.page, queues, self.options)
        self.drawn, self.queues, self.status = self.found.drawn, queues, self.found.status
        self.name, self.names = self.drawn.name, self.drawn.names
        self.accepted = len(self.found.named) - len(self.found.left)
        self.has_races = bool(self.found.left or self.found.between)
        self.lists_races, self.has_mark = bool(self.found.closest), self.found.has_mark()
        self.names_queues = in_chart(text) is not None

    def findings(self):
        return self.found.findings(self.options.most, self.options.show)

    def closing(self):
        return self.page.file, self.found.verdict(self.options.most)

    def lines(self, form):
        found, held = self.found, self.text.decode("latin-1")
        if form == "count":
            return [f"{count_words(found.races, found.closest)} {self.label}"]
        asked = {**vars(self.options), "format": form, "quiet": False}
        if self.options.again:
            return check_answer(held, self.queues, asked, found.marks, self.label)[0]
        return study(self.drawn, places_of(self.text, self.label), asked, found.marks)[0]


class DiagramVerdict:
    """The verdict on a diagram, whose text is one of mermaid.py, under an architecture."""
    help = closing.OF_DIAGRAMS

    def __init__(self, text, diagram, options):
        self.text, self.options, self.file, self.number = text, options, options.file, text.number
        self.page, self.found = page_of(text.source), Verdict(diagram, options)
        self.queues, self.names = self.found.queues, self.found.names
        self.status = self.found.status()
        self.label = with_number(text.source.file, self.number)
        self.name = with_number(name_of(options), self.number)
        self.accepted = len(self.found.accepted())
        self.has_races = self.lists_races = bool(self.found.listed)
        self.has_mark = bool(self.found.marks)
        self.names_queues = in_diagram(diagram) is not None

    def findings(self):
        return findings_of(self.found, self.page, self.options.most, self.options.show)

    def closing(self):
        said = verdict_said(self.found, self.options.most)
        return label_of_file(self.text.source, self.text), said

    def lines(self, form):
        output = Output(Namespace(**{**vars(self.options), "format": form}))
        output.judged(self.found, name_of(self.options), self.text, self.number is not None)
        return output.lines


# Refusals


class Refusal(NamedTuple):
    """A text that is refused, or a file or a folder that fails: its faults, and the block of each.
    `position` gives the line and the column of a byte of the text."""
    file: str
    number: int
    status: int
    page: Page
    faults: list
    blocks: list
    # FILE of the closing line, and what this line says
    ends: tuple
    # the lines of the faults with their notes, and the lines for editors
    fault_lines: list
    editor_lines: list
    position: Callable
    is_chart: bool
    has_notes: bool

    @property
    def label(self):
        return with_number(file_shown(self.file), self.number)

    def findings(self):
        return [Finding(block) for block in self.blocks]

    def closing(self):
        return self.ends

    def lines(self, form):
        if form == "count":
            return [f"{'failed' if self.status == 4 else 'refused'} {self.label}"]
        if form == "lines":
            return self.editor_lines
        return self.fault_lines if self.has_notes else self.fault_lines[:1]


def refused_chart(text, page, told, options):
    """The refusal of a chart; `told` is what full.py has of it."""
    faults, shown = told.faults, file_shown(options.file)
    ends = page.file, closing.refused(told.further)
    return Refusal(options.file, None, 2, page, faults.printed, told.blocks, ends,
                   faults.lines(shown), faults.editor_lines(shown),
                   lambda at: position(text, at), True, options.places)


def refused_diagram(source, fault, text, options):
    """The refusal of a diagram; `text` has its lines, if it was found."""
    found = Fault(source.fault_line(fault), fault.at, tuple(fault.notes))
    ends = label_of_file(source, text), closing.refused()
    return Refusal(options.file, text and text.number, 2, page_of(source), [found],
                   [refusal_of(source, fault, text)], ends, list(source.fault_lines(fault)),
                   list(source.editor_lines(fault)), source.place, False, options.places)


def failed(name, cause, options):
    """The refusal of a file or a folder that fails. `cause` is an OSError, or the line of a
    fault."""
    shown = file_shown(name)
    page = page_of_chart(b"", all_shown(shown))
    if isinstance(cause, str):
        fault, block = Fault(cause), of_fixed_line(cause, page.file)
    else:
        number = f" (os error {cause.errno})" if cause.errno else ""
        fault = Fault("device fault", None, (Note(f"file {shown}: {cause.strerror}{number}"),))
        block = of_device(page.file, cause.strerror)
    faults = Faults(b"", (fault,))
    return Refusal(name, None, 4, page, faults.printed, [block], None, faults.lines(shown),
                   faults.editor_lines(shown), None, False, options.places)


# Checks


def add_check_options(words):
    """Puts the options of `check` that `scan` has too, but those on queues and on diagrams."""
    for flag in ("--closest", "--why", "--again", "--words", "--short", "--plain"):
        words.add_argument(flag, action="store_true")
    words.add_argument("-q", "--quiet", action="store_true")
    words.add_argument("--most", type=int, metavar="N")
    words.add_argument("--show", type=int, metavar="N")
    words.add_argument("--allow", action="append", default=[], choices=SORTS)
    words.add_argument("--format", choices=FORMATS)
    words.add_argument("--color", choices=("auto", "always", "never"), default="never")
    words.set_defaults(only=[])


def options_under(options, file):
    """The options of the checks of a file, for each architecture."""
    return [Namespace(**{**vars(options), "queues": queues, "file": file})
            for queues in options.architectures]


def each_once(verdicts):
    """The verdicts with different queues, of those with the same queues the first."""
    found = {}
    for it in verdicts:
        found.setdefault(tuple(it.queues.lines(it.names)), it)
    return list(found.values())


def chart_verdicts(text, file, options):
    """The verdicts on a chart under its architectures, or its refusal."""
    page, found = page_of_chart(text, all_shown(file_shown(file))), []
    for asked in options_under(options, file):
        told, queues = fault_told(text, page, asked)
        if told.blocks:
            return [refused_chart(text, page, told, asked)]
        found.append(ChartVerdict(text, queues, asked))
    return each_once(found)


def diagram_verdicts(text, file, options):
    """The verdicts on a diagram under its architectures, or its refusal."""
    asked = options_under(options, file)
    try:
        diagram = text.diagram(options)
        return each_once([DiagramVerdict(text, diagram, it) for it in asked])
    except Refused as fault:
        return [refused_diagram(text.source, fault, text, asked[0])]
