"""All scenarios of a diagram, or of those of a text of Markdown, and their races.

    tools/naive/print.py scenarios --queues pair|mailbox|single|own [RULE].. [--closest] [--why]
                                   [--most N] [--show N] [--allow KIND] [--format text|count|lines]
                                   [--quiet] [--words] [--short] [--places] [--from mermaid|any]
                                   [--name NAME] [--rounds R,R..] [--limit N]
                                   [--self action|message] [--cross lost|arrives] [--par drawn]
                                   [--fence N] [--accept] [--choose C] [--color always|never] FILE

prints what `msc check --from` prints: the scenarios, and their races, each by its two arrows once;
or on standard error the line of the first fault, and with `--format lines` on standard output too.
With `--format full` all is told on standard output, as full_diagrams.py has it. The scenarios are
those of courses.py, their races and what is told of them those of chart.py and races.py, and marks
those of diagram_marks.py. It shares nothing with the crates. The exit status is 0, 1 if a race or a
stale mark is listed, or 2 if a diagram is refused.
"""
import functools
import pathlib
import sys

from harness import Answer, put
from models.chart import Chart
from models.courses import course_of, scenarios
from models.diagram_marks import accepting, faults_of, marks_of
from models.diagrams import made
from models.full_diagrams import FullOutput
from models.links import add_queues, given_of
from models.mermaid import choices_of, fault_bytes, texts_of, words_on_diagrams
from models.own import of_diagram
from models.races import KINDS, closest_of, editor_lines, kind, race_words, shown_run, why
from models.shown import run_lines
from models.source import Refused, Source, source_of

STACKED = "pass, parallel branches drawn one below the other"
ALL = 2 ** 32 - 1


class Scenario:
    """A scenario as a chart under an architecture, with its races, the places of its events, and
    the marks that accept races."""

    def __init__(self, course, queues, file, choices=None, marks=()):
        self.course, self.events, self.marks = course, list(course.events()), marks
        self.choices = course.taken if choices is None else choices
        self.is_stacked = course.is_stacked
        self.drawn = Chart(course.text("t"), queues)
        self.races = self.drawn.races()
        places = [event.arrow.place for _, event in self.events]
        self.places = [f"{file}:{place.line}:{place.column}" for place in places]

    def accepting(self, race):
        """The marks that accept a race."""
        return accepting(self.marks, *(self.events[e][1].arrow for e in race))

    def left(self, allow, closest):
        """The races that count, or the closest of them."""
        named = [race for race in self.races if kind(self.drawn, *race) not in allow]
        left = [race for race in named if not self.accepting(race)]
        return closest_of(self.drawn, left) if closest else left

    def ends(self, race):
        """The place of a race: its line, and which ends of which arrows race on it."""
        line, _ = self.events[race[0]]
        ends = [event for _, event in map(self.events.__getitem__, race)]
        return line, *((event.arrow.number, event.way) for event in ends)


class Verdict:
    """The races of all scenarios of a diagram, or of the one that is chosen, by their places."""

    def __init__(self, diagram, options):
        self.diagram, self.options, file = diagram, options, diagram.source.file
        courses = list(scenarios(diagram, options)) if options.choose is None else [
            course_of(diagram, choices_of(options.choose), options)]
        self.queues = of_diagram(diagram, given_of(options))
        # the marks of the text that are told of if they accept no race
        self.marks = marks_of(diagram) if options.accept else []
        for fault in faults_of(diagram) if options.accept else []:
            raise fault
        self.names = [name.decode() for name in diagram.names.names]
        own = [mark for mark in self.marks if mark.is_for(self.queues.usual)]
        given = None if options.choose is None else choices_of(options.choose)
        self.every = [Scenario(it, self.queues, file, given, own) for it in courses]
        self.allow, self.is_closest = options.allow, options.closest
        self.places = {it.ends(race) for it in self.every for race in it.races}
        self.listed = self.first_races(options.closest)
        self.stale = [mark for mark in self.marks if self.is_stale(mark)]

    def is_stale(self, mark):
        """No arrow stands below the mark, or it accepts no race of any kind; one of an arrow that
        the chosen scenario does not meet may accept others."""
        if not mark.arrow:
            return True
        if not mark.is_for(self.queues.usual):
            return False
        if self.options.choose is not None:
            met = [arrow.number for arrow, _ in self.every[0].course.met]
            if mark.arrow.number not in met:
                return False
        return not any(mark in it.accepting(race) for it in self.every for race in it.races)

    def counting(self, closest):
        """The places of races that count, or of the closest ones."""
        return {it.ends(race) for it in self.every for race in it.left(self.allow, closest)}

    def allowed(self):
        """The places of which all races are of kinds that are left out."""
        return self.places - {it.ends(race) for it in self.every for race in it.races
                              if kind(it.drawn, *race) not in self.allow}

    def accepted(self):
        """The places that neither count nor are allowed."""
        return self.places - self.counting(False) - self.allowed()

    @functools.cached_property
    def where_counted(self):
        """For each place in how many scenarios a race counts there."""
        found = {}
        for scenario in self.every:
            for place in {scenario.ends(race) for race in scenario.left(self.allow, False)}:
                found[place] = found.get(place, 0) + 1
        return found

    def status(self):
        """The exit status of a check of the diagram."""
        return int(bool(self.listed or self.stale))

    def free(self):
        """How many scenarios have no race that counts."""
        return sum(not it.left(self.allow, False) for it in self.every)

    def first_races(self, closest):
        """For each place the first race there that counts, or that is a closest one, with the
        number of its scenario."""
        told, found = set(), []
        for i, scenario in enumerate(self.every):
            for race in scenario.left(self.allow, closest):
                if scenario.ends(race) not in told:
                    told.add(scenario.ends(race))
                    found.append((i, race))
        return found

    def numbers(self):
        """The lines that sum up the races, if the options ask for them."""
        if not (self.allow or self.is_closest or self.options.accept):
            return [] if self.places else [self.passed()]
        lines = [f"races {len(self.places)}"] if self.places else [self.passed()]
        if self.allow:
            lines.append(f"allowed {len(self.allowed())}")
        if self.options.accept:
            lines.append(f"accepted {len(self.accepted())}")
        if self.is_closest:
            lines.append(f"closest {len(self.counting(True))}")
        return lines

    def passed(self):
        """What is told of a diagram without races."""
        return STACKED if any(it.is_stacked for it in self.every) else "pass"

    def count(self):
        closest = len(self.counting(True))
        return f"races {len(self.places)} closest {closest}" if self.places else "pass"


def runs_of(options):
    """How many races have a run in other forms than `full`."""
    if options.show is not None:
        return options.show
    return ALL if options.words or options.short else 0


class Output:
    """What is printed of the diagrams of a file, in other forms than `full`."""

    def __init__(self, options):
        self.options, self.lines, self.error, self.status = options, [], b"", 0
        self.most, self.show = options.most, runs_of(options)

    def refused(self, source, fault, name=None, text=None):
        """Tells of a diagram that is refused; it has a name if others may follow."""
        form, file = self.options.format, source.file + number_of(text, name is not None)
        if form == "lines":
            self.lines += source.editor_lines(fault, self.options.notes)
        elif name is not None:
            is_count = form == "count"
            self.lines += [f"refused {file}"] if is_count else [f"diagram {name}", "refused"]
        self.error += fault_bytes(source, fault, self.options.places)
        self.status = 2

    def judged(self, verdict, name, text, is_all):
        """Tells of a diagram that is checked, one of several if all of a text are."""
        number = number_of(text, is_all)
        name, file = name + number, text.source.file + number
        if self.options.format == "lines":
            self.lines += self.findings(verdict)
        elif self.options.format == "count":
            self.lines.append(f"{verdict.count()} {file}")
        else:
            self.lines += self.whole(verdict, name)
        self.status = max(self.status, verdict.status())

    def end(self):
        """Nothing follows the last diagram."""

    def taken(self):
        """Whether one more race is told, and whether with a run."""
        is_told, has_run = self.most > 0, self.most > 0 and self.show > 0
        self.most, self.show = self.most - is_told, self.show - has_run
        return is_told, has_run

    def findings(self, verdict):
        for i, race in verdict.listed:
            if self.taken()[0]:
                scenario = verdict.every[i]
                yield from editor_lines(scenario.drawn, scenario.places, *race)
        for mark in verdict.stale:
            yield f"{verdict.diagram.source.where(mark.at)}: warning: stale [stale]"

    def whole(self, verdict, name):
        """The lines of text of a diagram."""
        yield f"diagram {name}"
        yield from verdict.queues.lines(verdict.names)
        yield f"scenarios {len(verdict.every)}"
        yield from verdict.numbers()
        if not verdict.places:
            yield from self.stale_lines(verdict)
            return
        for i, scenario in enumerate(verdict.every):
            own = [race for at, race in verdict.listed if at == i]
            if own:
                chosen = ",".join(map(str, scenario.choices))
                yield f"scenario {i + 1}" + (f" choose {chosen}" if chosen else "")
                yield f"races {len(scenario.races)}"
            for race in own:
                is_told, has_run = self.taken()
                if is_told:
                    yield from self.race_lines(scenario, race, has_run)
        yield from self.stale_lines(verdict)
        yield f"listed {len(verdict.listed)}"
        yield f"passed {verdict.free()}"

    def stale_lines(self, verdict):
        """What is told of marks that accept no race."""
        for mark in verdict.stale:
            yield "stale"
            yield f"at {verdict.diagram.source.where(mark.at)}"

    def race_lines(self, scenario, race, has_run):
        """What is told of a race."""
        drawn, places = scenario.drawn, scenario.places
        yield race_words(drawn, *race)
        yield f"at {places[race[0]]} {places[race[1]]}"
        if self.options.why:
            (needed, output), told = why(drawn, *race)
            yield from told
            yield f"at {places[needed]} {places[output]}"
        if has_run:
            run = shown_run(drawn, *race, self.options.short)
            yield from run_lines(drawn, run, self.options.words)


def name_of(options):
    """The diagram's name."""
    if options.name is not None:
        return made(options.name.encode(), b"diagram").decode()
    own = "" if options.file == "-" else options.file.rpartition("/")[2]
    stem, dot, _ = own.rpartition(".")
    return made((stem if dot else own).encode(), b"diagram").decode()


def judge(source, options, output):
    """Checks the diagrams of a file."""
    texts, is_all = texts_of(source, options)
    for text in texts:
        try:
            output.judged(Verdict(text.diagram(options), options), name_of(options), text, is_all)
        except Refused as fault:
            name = name_of(options) + number_of(text, True) if is_all else None
            output.refused(source, fault, name, text)


def number_of(text, is_all):
    """The number of a diagram, if all of a text of Markdown are checked."""
    return f"#{text.number}" if is_all else ""


def answer(text, options):
    """What goes to both streams, and the exit status."""
    is_full = options.format == "full" and not options.quiet
    output = FullOutput(options) if is_full else Output(options)
    source = Source(b"", options.file)
    try:
        source = source_of(text, options.file)
        judge(source, options, output)
    except Refused as fault:
        output.refused(source, fault)
    output.end()
    lines = [] if options.quiet else output.lines
    told = "".join(line + "\n" for line in lines)
    return told.encode("utf-8", "surrogateescape"), output.error, output.status


def options_of(given):
    """The options of these words."""
    words = words_on_diagrams(__doc__)
    add_queues(words, "--queues", required=True)
    for option in ("--closest", "--why", "--quiet", "--words", "--short"):
        words.add_argument(option, action="store_true")
    words.add_argument("--most", type=int, default=ALL)
    words.add_argument("--show", type=int)
    words.add_argument("--allow", choices=KINDS, action="append", default=[])
    words.add_argument("--format", choices=("text", "count", "lines", "full"), default="text")
    words.add_argument("--accept", action="store_true")
    words.add_argument("--choose")
    words.add_argument("--color", choices=("always", "never", "auto"), default="never")
    words.set_defaults(notes=True)
    words.add_argument("file")
    return words.parse_args(given)


def main(given):
    options = options_of(given)
    is_input = options.file == "-"
    text = sys.stdin.buffer.read() if is_input else pathlib.Path(options.file).read_bytes()
    return put(Answer(*answer(text, options)))
