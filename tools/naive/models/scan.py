"""What `msc scan` prints of many files.

    tools/naive/print.py scan [--version V] [WORD ..] PATH ..

prints it. WORD is an option of `msc scan`, and V the version of `msc`, which JSON and SARIF have.
paths.py finds the files, and verdicts.py has what checks find; record.py and sarif.py write JSON
and SARIF. Here are the diagrams of a file, the other forms, and what is counted of all files.
Nothing is shared with the crates. `--jobs` changes nothing, and there is no progress. The exit
status is 0, or the worst of these: 1 for races or stale marks, 2 for a diagram that is refused, and
4 for what fails.
"""
import collections
import pathlib
import re
import sys
from argparse import Namespace

from harness import Answer, put
from models import closing, record, sarif
from models.diagnostic import BOLD, painted, printed
from models.json_text import written
from models.links import KINDS, add_queues
from models.markdown import names_sequence
from models.mermaid import Text, has_diagram, texts_of, words_on_diagrams
from models.mermaid_lines import HEAD, counting
from models.paths import CHART, MARKDOWN, MERMAID, entries_of
from models.ready import ALL
from models.source import Refused, Source, source_of
from models.verdicts import Refusal, add_check_options, chart_verdicts, diagram_verdicts, failed
from models.verdicts import refused_diagram

NOTHING = "scan fault 1: no chart and no sequence diagram here"
# the numbers of races and of runs of each diagram, without --most and --show
MOST, SHOW = {"sarif": 5000}, {"full": 0, "sarif": 100}


# Diagrams; each is a list of the verdicts on it, or of its refusal


def status_of(diagram):
    """The worst status of a diagram."""
    return max(it.status for it in diagram)


def is_sequence(source):
    """The text of a Mermaid file is a sequence diagram, if perhaps a wrong one. If it cannot be told
    which line is the first that counts, it is one if the word for it stands somewhere."""
    try:
        first = next(counting(source, source.rows), None)
    except Refused:
        return HEAD in source.text
    return first is not None and names_sequence(first)


def too_long(file, fault, options):
    """The refusal of a text that is too long to look for diagrams in it."""
    return refused_diagram(Source(b"", file), fault, None,
                           Namespace(**{**vars(options), "file": file}))


def diagrams_in(text, file, options):
    """The diagrams of a text, which is read by the end of the name of its file, or else by its
    content."""
    if file.endswith(CHART):
        return [chart_verdicts(text, file, options)]
    try:
        source = source_of(text, file)
    except Refused as fault:
        if file.endswith((*MERMAID, *MARKDOWN)):
            return [[too_long(file, fault, options)]]
        return [chart_verdicts(text, file, options)]
    if file.endswith(MERMAID):
        asked = Namespace(**{**vars(options), "language": "mermaid"})
        whole = Text(source, source.rows)
        return [diagram_verdicts(whole, file, asked)] if is_sequence(source) else []
    if has_diagram(text):
        texts, _ = texts_of(source, options)
        return [diagram_verdicts(it, file, options) for it in texts]
    return [] if file.endswith(MARKDOWN) else [chart_verdicts(text, file, options)]


def diagrams_of(entry, options, stdin):
    """The diagrams of a file, or what failed."""
    if entry.cause:
        return [[failed(entry.name, entry.cause, options)]]
    try:
        text = stdin if entry.name == "-" else pathlib.Path(entry.name).read_bytes()
    except OSError as cause:
        return [[failed(entry.name, cause, options)]]
    return diagrams_in(text, entry.name, options)


def files_of(path, options, stdin):
    """The diagrams of each file of a PATH; one of these files at least has some."""
    entries = entries_of(path, set(options.skip))
    files = [diagrams_of(entry, options, stdin) for entry in entries]
    return files if any(files) else [[[failed(path, NOTHING, options)]]]


# Numbers


class Totals:
    """All diagrams, and what is counted of them. Under several architectures a diagram counts as
    under the worst one."""

    def __init__(self, files):
        self.diagrams = [diagram for file in files for diagram in file]
        self.every = [it for diagram in self.diagrams for it in diagram]
        self.by_status = collections.Counter(map(status_of, self.diagrams))
        self.status = max(self.by_status)
        # files with a diagram that is checked or refused
        self.files = sum(any(status_of(it) != 4 for it in file) for file in files)
        checked = [diagram for diagram in self.diagrams if status_of(diagram) < 2]
        self.with_races = sum(any(it.has_races for it in diagram) for diagram in checked)
        self.accepted = sum(max(it.accepted for it in diagram) for diagram in checked)
        # diagrams that say nothing of their queues
        self.silent = sum(not diagram[0].names_queues for diagram in checked)
        verdicts = [it for diagram in checked for it in diagram]
        self.has_mark = any(it.has_mark for it in verdicts)
        # how a race is accepted, in the words for the first diagram with races
        self.help = next((it.help for it in verdicts if it.lists_races), None)

    def parts(self):
        """How many diagrams pass, have races or stale marks, and are refused."""
        passed, found, refused = (self.by_status[status] for status in (0, 1, 2))
        if not (found or refused):
            return "no races"
        parts = [(passed, "passes", "pass"), (self.with_races, "has races", "have races"),
                 (found - self.with_races, "has stale marks", "have stale marks"),
                 (refused, "is refused", "are refused")]
        return ", ".join(closing.counted(*part) for part in parts if part[0])

    def last_line(self):
        """The last line of the form `full`."""
        count, lost = len(self.diagrams) - self.by_status[4], self.by_status[4]
        said = "nothing was checked"
        if count:
            said = (f"checked {closing.counted(count, 'diagram', 'diagrams')} in "
                    f"{closing.counted(self.files, 'file', 'files')}: {self.parts()}")
        if self.accepted:
            said += f"; {closing.counted(self.accepted, 'race is', 'races are')} accepted"
        return said + (f"; {closing.counted(lost, 'path', 'paths')} failed" if lost else "")

    def total_line(self):
        """The last line of the form `text`."""
        passed, races, refused, lost = (self.by_status[status] for status in (0, 1, 2, 4))
        return (f"total {len(self.diagrams)}: {passed} passed, {races} with races, "
                f"{refused} refused, {lost} failed")

    def queues_note(self):
        """The note on diagrams that say nothing of their queues."""
        said = f"{self.silent} diagrams say nothing of their"
        if self.silent == 1:
            said = "1 diagram says nothing of its"
        return (f': {said} queues: checked as "pair", a connection for each sender and receiver '
                "(msc scan --help)")


# Forms


def blocks_of(it, has_colours):
    """The blocks of a verdict with findings, or of a refusal, and the closing line."""
    found, ends = it.findings(), it.closing()
    if not found and not it.status:
        return []
    lines = printed(it.page, [finding.block for finding in found], has_colours)
    return [*lines, closing.closing(*ends, has_colours), ""] if ends else lines


def full_lines(totals, options):
    """The form `full`."""
    colours = options.color == "always"
    lines = [line for it in totals.every for line in blocks_of(it, colours)]
    if totals.help and not totals.has_mark:
        lines.append(closing.help_line(totals.help, colours))
    if totals.silent and options.architectures == ["own"]:
        lines.append(painted([(BOLD, "note"), (None, totals.queues_note())], colours))
    last = painted([(BOLD, totals.last_line())], colours)
    return [last] if options.quiet else [*lines, last]


def is_left_out(it, options):
    """The command line leaves out a verdict that passes."""
    return options.only_races and not it.status


def text_lines(totals, options):
    """The form `text`."""
    lines = []
    for diagram in totals.diagrams:
        some = [it for it in diagram if not is_left_out(it, options)]
        lines += [f"file {it.label}" for it in some[:1]]
        lines += [line for it in some for line in it.lines("text")]
    last = totals.total_line()
    return [last] if options.quiet else [*lines, last]


def queues_of(it, options):
    """The queues of a verdict and a blank, if the command line names several architectures."""
    is_several = len(options.architectures) > 1 and not isinstance(it, Refusal)
    return f"{it.queues.usual} " if is_several else ""


def count_lines(totals, options):
    """The form `count`."""
    return [queues_of(it, options) + line for it in totals.every if not is_left_out(it, options)
            for line in it.lines("count")]


def editor_lines(totals, options):
    """The form `lines`; what a finding is stands in brackets at the end of its line."""
    return [re.sub(r"\[(?=\w+\]$)", f"[{queues_of(it, options)}", line)
            for it in totals.every for line in it.lines("lines")]


def json_lines(totals, options):
    """The form `json`."""
    return [record.line_of(it, options.version) for it in totals.every
            if not is_left_out(it, options)]


def sarif_lines(totals, options):
    """The form `sarif`."""
    has_queues = len(options.architectures) > 1
    document = sarif.document(totals.every, totals.status, has_queues, options.version)
    return [written(document)]


FORMS = {"full": full_lines, "text": text_lines, "count": count_lines, "lines": editor_lines,
         "json": json_lines, "sarif": sarif_lines}


# The command


def architectures_of(given):
    """The values of `--queues`, each once."""
    every = [it for word in given or ["own"] for it in (KINDS if word == "all" else [word])]
    return list(dict.fromkeys(every))


def options_of(given):
    """The options of a command line."""
    words = words_on_diagrams(__doc__)
    words.set_defaults(command="scan", passes_over=True, choose=None)
    add_queues(words, "--queues", others=("own", "all"), action="append")
    add_check_options(words)
    words.add_argument("--accept", action="store_true", default=True)
    words.add_argument("--no-accept", dest="accept", action="store_false")
    words.add_argument("--skip", action="append", default=[], metavar="NAME")
    words.add_argument("--only-races", action="store_true")
    words.add_argument("--jobs", type=int, metavar="N")
    words.add_argument("--version", default="0")
    words.add_argument("paths", nargs="+", metavar="PATH")
    options = words.parse_args(given)
    options.format = options.format or "full"
    options.architectures = architectures_of(options.queues)
    options.most = MOST.get(options.format, ALL) if options.most is None else options.most
    options.show = shown_by(options) if options.show is None else options.show
    return options


def shown_by(options):
    """How many races have a run without --show; None stands for all of them."""
    if options.format in ("text", "json") and not (options.words or options.short):
        return 0
    return SHOW.get(options.format)


def answer(given, stdin=b""):
    """What is printed, and the exit status; `stdin` is the text on standard input."""
    options = options_of(given)
    files = [file for path in options.paths for file in files_of(path, options, stdin)]
    totals = Totals(files)
    lines = FORMS[options.format](totals, options)
    if options.quiet and options.format not in ("full", "text"):
        lines = []
    output = "".join(f"{line}\n" for line in lines)
    return Answer(output.encode("utf-8", "surrogateescape"), b"", totals.status)


def main(given):
    has_input = "-" in options_of(given).paths
    return put(answer(given, sys.stdin.buffer.read() if has_input else b""))
