"""What `msc check` and `msc ready` are to print of charts with `--format full`. The program does
not have this form yet.

    tools/naive/print.py full check [--allow KIND].. [--accept] [--again] [--most N] [--show N]
                                    [--short] [-q] [--color always|never]
                                    [RULE].. pair|mailbox|single|own FILE
    tools/naive/print.py full ready [--only NAME].. [--again] [--show N] [--color always|never]
                                    [RULE].. pair|mailbox|single|own FILE

FILE is `-` for standard input. full_ready.py finds what instances that are ready can meet;
wording.py says what a finding is in words, refusals.py what a fault is, and diagnostic.py how
blocks are laid out. Nothing is shared with the crates. The exit status is 0 if nothing is found, 1
for findings, 2 for a fault of the text, and 4 for a file that cannot be read.
"""
import pathlib
import re
import sys

from harness import Answer, joined, parser, put
from models import closing
from models.chart import Chart
from models.diagnostic import page_of_chart, printed
from models.full_ready import ready_lines
from models.links import LinkFault, add_queues, given_of
from models.marks import comments, marks_for
from models.marks import fault_of as fault_of_marks
from models.notes import DIAGRAM_HINTS, Fault, Faults, faults_of, link_faults
from models.own import of_chart
from models.races import KINDS, chosen, shown_run
from models.reading import tokens
from models.ready import ALL
from models.refusals import Told, error, of_accept, of_chart_text, of_device, of_fixed_line, of_link
from models.rounds import Several, fault_of_rounds
from models.shown import named
from models.source import file_shown
from models.spoken import all_shown
from models.wording import ChartSpeech, Finding, Pair, RoundSpeech, never_block, race_finding
from models.wording import run_steps, stale_block


class Printed:
    """Lines in UTF-8, and a status."""

    def __init__(self, lines, status, error_lines=()):
        self.lines, self.status, self.error_lines = lines, status, error_lines

    def answer(self):
        told = "".join(f"{line}\n" for line in self.lines).encode("utf-8", "surrogateescape")
        return Answer(told, joined(self.error_lines), self.status)


def refusal(page, told, has_colours):
    """What is printed of a text that is refused."""
    lines = printed(page, told.blocks, has_colours)
    lines.append(closing.closing(page.file, closing.refused(told.further), has_colours))
    return Printed(lines, 2)


def text_span(text, at):
    """The quoted text that stands at a place."""
    token = next(it for it in tokens(text) if it.at == at)
    return at, at + len(token.bytes)


def fault_told(text, page, options):
    """The refusal of a text, without blocks if it is not refused, and the architecture."""
    is_check = options.command == "check"
    told = of_chart_text(text, page, DIAGRAM_HINTS[not is_check])
    if told.blocks:
        return told._replace(faults=faults_of(text, is_check)), None
    try:
        queues = of_chart(text, given_of(options))
    except LinkFault as fault:
        span = None if fault.at is None else text_span(text, fault.at)
        return Told([of_link(fault, page.file, span)], 0, link_faults(text, fault)), None
    held = text.decode("latin-1")
    found = options.accept and fault_of_marks(held)
    if found:
        number, at = map(int, re.findall(r"\d+", found)[:2])
        faults = Faults(text, (Fault(found, at),))
        return Told([of_accept(number, text_span(text, at))], 0, faults), None
    names = Chart(held, queues).names
    lacking = next((name for name in options.only if name not in names), None)
    if lacking is not None:
        sentence = f'no instance is named "{all_shown(file_shown(lacking))}"'
        return Told([error("ready 1", sentence, file=page.file)]), None
    found = options.again and fault_of_rounds(held, queues)
    if found:
        return Told([of_fixed_line(found, page.file)], 0, Faults(text, (Fault(found),))), None
    return Told([]), queues


def races_said(count, between):
    """The number of races, of a round and between rounds; `between` is None without `--again`."""
    told = closing.counted(count, "race", "races")
    if between is None:
        return told
    return f"{told} in a round, {between or 'none'} between rounds"


class Checked:
    """What `check` finds of a chart: the races that count and the stale marks, and with `--again`
    the races between two rounds."""

    def __init__(self, text, page, queues, options):
        held = text.decode("latin-1")
        self.text, self.options, self.drawn = text, options, Chart(held, queues)
        self.speech = ChartSpeech(self.drawn, text, page)
        self.never = never_block(self.speech, self.drawn)
        self.marks = marks_for(held, queues) if options.accept else {}
        self.races, self.named, self.left, self.closest, self.stale = chosen(
            self.drawn, vars(options), self.marks)
        self.comments = comments(held)
        self.two = Several(held, queues, 2) if options.again else None
        self.between = self.two.between(options.allow) if options.again else []
        self.status = int(bool(self.left or self.stale or self.between))

    def has_mark(self):
        """The text has a mark, and marks count."""
        said = [comment[1] for comment in self.comments if comment]
        return self.options.accept and any(it.startswith("race ok") for it in said)

    def pair(self, e, f, is_next):
        """A race, whose events are of two rounds if `is_next`."""
        if is_next:
            return Pair(RoundSpeech(self.speech, self.two), self.two, e, f, True)
        return Pair(self.speech, self.drawn, e, f)

    def event_of(self, x, is_next):
        """The event of the chart that is meant by an event of a race."""
        return self.two.place[x][0] if is_next else x

    def race_finding(self, e, f, is_next, has_run):
        """The finding of a race."""
        pair, steps = self.pair(e, f, is_next), ()
        if has_run:
            steps = run_steps(pair.speech, shown_run(pair.drawn, e, f, True), is_next)
        first, second = (self.event_of(x, is_next) for x in (e, f))
        name = f"{named(self.drawn, first)}; {self.drawn.events[second].text}"
        return race_finding(pair, "again " * is_next + name, steps=steps)

    def stale_finding(self, e):
        block = stale_block(text_span(self.text, self.comments[e][0]))
        return Finding(block, f"stale {named(self.drawn, e)}")

    def findings(self, most, show):
        """The findings, with so many races, and with a run for so many of these."""
        pairs = [*((e, f, False) for e, f in self.closest),
                 *((e, f, True) for e, f in self.between)]
        races = [self.race_finding(*pair, number < show)
                 for number, pair in enumerate(pairs[:most])]
        of_round = min(most, len(self.closest))
        never = [Finding(self.never, "never")] if self.never else []
        stale = map(self.stale_finding, self.stale)
        return [*never, *races[:of_round], *stale, *races[of_round:]]

    def verdict(self, most):
        """What the closing line says, if so many races are printed."""
        count = len(self.closest) + len(self.between)
        between = len(self.between) if self.two else None
        parts = closing.parts(
            len(self.left) - len(self.closest), len(self.races) - len(self.named),
            len(self.named) - len(self.left), len(self.stale), most if most < count else None)
        said = ", ".join([races_said(len(self.closest), between), *parts])
        said += "; it can never happen as it is drawn" if self.never else ""
        return closing.verdict_on(said, self.drawn.queues, self.drawn.names)


def check(text, page, queues, options):
    """What `check` prints of a chart."""
    found = Checked(text, page, queues, options)
    blocks = [it.block for it in found.findings(options.most, options.show)]
    lines = printed(page, blocks, options.colours)
    lines.append(closing.closing(page.file, found.verdict(options.most), options.colours))
    if found.closest and not found.has_mark():
        lines.append(closing.help_line(closing.OF_CHARTS, options.colours))
    return Printed([] if options.quiet else lines, found.status)


def answer(text, options):
    """What is printed of the bytes of a chart."""
    file = file_shown(options.file)
    page = page_of_chart(text, all_shown(file))
    told, queues = fault_told(text, page, options)
    if not told.blocks and options.command == "check":
        return check(text, page, queues, options)
    if not told.blocks:
        return Printed(*ready_lines(text, page, queues, options))
    done = refusal(page, told, options.colours)
    return Printed([], 2) if options.quiet else done


def read(file):
    return sys.stdin.buffer.read() if file == "-" else pathlib.Path(file).read_bytes()


def device_answer(file, cause, has_colours):
    """What is printed of a file that cannot be read."""
    page = page_of_chart(b"", all_shown(file_shown(file)))
    return Printed(printed(page, [of_device(page.file, cause)], has_colours), 4)


def options_of(given):
    """The options of a command line."""
    words = parser(__doc__)
    commands = words.add_subparsers(dest="command", required=True, metavar="COMMAND")
    for name in ("check", "ready"):
        command = commands.add_parser(name)
        command.add_argument("--again", action="store_true")
        command.add_argument("--show", type=int, default=0, metavar="N")
        command.add_argument("--color", choices=("always", "never", "auto"), default="never")
        command.add_argument("--most", type=int, default=ALL, metavar="N")
        command.add_argument("--allow", action="append", default=[], choices=KINDS)
        command.add_argument("--only", action="append", default=[], metavar="NAME")
        for flag in ("--accept", "--short", "--quiet"):
            command.add_argument(flag, action="store_true")
        add_queues(command, "queues")
        command.add_argument("file", metavar="FILE")
    options = words.parse_args(given)
    options.colours = options.color == "always"
    return options


def main(given):
    options = options_of(given)
    try:
        text = read(options.file)
    except OSError as fault:
        return put(device_answer(options.file, fault.strerror, options.colours).answer())
    return put(answer(text, options).answer())
