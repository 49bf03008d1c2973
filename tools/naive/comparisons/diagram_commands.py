"""What each command with `--from` prints of a scenario of a random Mermaid diagram.

It is what the command prints of the chart that `msc import` prints of it, but for places and pictures:
places of a chart become those of the arrows, which `msc import --list` prints; and the rows of pictures
keep the order of the text, as models/picture.py draws them. If the import is refused, each
command refuses the diagram in the same way. Two lines of the diagram name two events by a rule that
is written here again.
"""
import itertools
import re

from generators.imports import tried
from harness import Answer, joined, run, shown
from models.chart import Chart
from models.courses import course_of
from models.links import Given
from models.mermaid import choices_of, one_text, options_of
from models.own import of_chart
from models.picture import chart_picture, run_picture
from models.source import source_of

NEEDS_PROGRAM = True
OPTIONS = {"number": 100}
COMMENT = re.compile(rb" comment '(?:[^']|'')*';")
OF_CHART = re.compile(rb"\Amsc \w+ comment ")
PLACE = re.compile(rb"-:(\d+:\d+)")
SVG = re.compile(rb"(?s)<svg.*?</svg>")
EVENT = re.compile(rb"(?m)^\d+ (\S+) (out|in|action) .*\nat -:(\d+):(\d+)$")


class Imported:
    """The chart of a scenario, and its events: their instances, kinds, lines and places."""

    def __init__(self, trial, words, text):
        self.trial, self.text = trial, text
        self.words = ["--from", "any", *words]
        self.given = words
        self.chart = run([trial.program, "import", *words, "-"], text)
        self.noted = run([trial.program, "import", *words, "--places", "-"], text)
        self.listed = run([trial.program, "import", *words, "--list", "-"], text)
        self.events = [(name, kind, int(line)) for name, kind, line, _ in
                       EVENT.findall(self.listed.output)]
        own = run([trial.program, "list", "--places", "-"], self.chart.output)
        places = (PLACE.findall(it.output) for it in (own, self.listed))
        self.places = dict(itertools.zip_longest(*places))

    def moved(self, answer):
        """An answer on the chart, with the places of the arrows."""
        output = PLACE.sub(lambda it: b"-:" + self.places[it[1]], answer.output)
        return Answer(output, answer.error, answer.status)

    def compare(self, command, *words, events=(), named=()):
        """Compares a command on the diagram with that on the chart; `named` are the events in other
        words."""
        wanted = self.noted if "--places" in words else self.chart
        if self.chart.status == 0:
            said = [self.trial.program, command, *words, "-", *map(str, events)]
            wanted = self.moved(run(said, self.chart.output))
        said = [command, *words, *self.words, "-", *map(str, named or events)]
        self.trial.compare(said, self.text, wanted)

    def drawn(self, queues):
        """The chart under an architecture, and the ranks of its events."""
        text = self.chart.output
        kind = of_chart(text, Given(queues[1], [])) if queues else "pair"
        options = options_of(self.given)
        diagram = one_text(source_of(self.text), options).diagram(options)
        ranks = course_of(diagram, choices_of(options.choose), options).ranks()
        return Chart(text.decode("latin-1"), kind), ranks

    def draw(self, queues):
        """Compares the picture of the chart."""
        wanted = self.chart
        if wanted.status == 0:
            drawn, ranks = self.drawn(queues)
            wanted = Answer(joined(chart_picture(drawn, bool(queues), ranks)), b"", 0)
        self.trial.compare(["draw", *queues, *self.words, "-"], self.text, wanted)

    def reverse(self, queues, pair, named):
        """Compares the picture of a run that reverses a race."""
        drawn, ranks = self.drawn(queues)
        wanted = Answer(joined(run_picture(drawn, *pair, ranks)), b"", 0)
        self.trial.compare(["reverse", *queues, *self.words, "-", *named], self.text, wanted)

    def report(self, queues):
        """Compares the report of a chosen scenario, but for its pictures."""
        if "--choose" not in self.words:
            return
        said = ["report", *queues, *self.words, "-"]
        done = run([self.trial.program, *said], self.text)
        wanted = self.chart
        if wanted.status == 0:
            wanted = run([self.trial.program, "report", *queues, "-"], self.chart.output)
        pages = [(SVG.sub(b"", it.output), it.error, it.status) for it in (done, wanted)]
        self.trial.add(pages[0] == pages[1], shown(self.text), *said, done, wanted)

    def pair(self, first, second):
        """The events that two lines name, or none if it is one event."""
        at = [[e for e, it in enumerate(self.events) if it[2] == line] for line in (first, second)]
        for e, f in itertools.product(*at):
            (here, _, _), (there, kind, _) = self.events[e], self.events[f]
            if e != f and here == there and kind == b"in":
                return e, f
        e, f = (next(e for e in among if self.events[e][1] != b"in") for among in at)
        return (e, f) if e != f else None


def queues_of(pick, it):
    """Random queues, or those that the text names, if the chart has them: it has none if they have a
    fault."""
    if OF_CHART.match(it.chart.output) and pick.random() < 0.5:
        return ["--queues", "own"]
    return ["--queues", pick.choice(["pair", "mailbox", "single"])]


def compare_pairs(trial, it):
    """Compares the commands on two events."""
    pick, count = trial.pick, len(it.events)
    for _ in range(3):
        queues, events = queues_of(pick, it), (pick.randrange(count + 1), pick.randrange(count + 1))
        flags = [flag for flag in ("--places", "--words", "--short") if pick.random() < 0.4]
        it.compare("explain", *queues, *flags, events=events)
        lines = [pick.choice(it.events)[2] for _ in range(2)]
        named, pair = [f":{line}" for line in lines], it.pair(*lines)
        if pair:
            it.compare("explain", *queues, *flags, events=pair, named=named)
            trial.noted["pairs by lines"] += 1
            done = run([trial.program, "reverse", *queues, "-", *map(str, pair)], it.chart.output)
            if done.status == 0:
                it.reverse(queues, pair, named)
                trial.noted["reversed"] += 1


def compare_run(trial, it, queues):
    """Compares the executions, which may have their events in different orders."""
    done = [run([trial.program, "run", *queues, *words, "-"], text)
            for words, text in (([], it.chart.output), (it.words, it.text))]
    if it.chart.status:
        done[0] = it.chart
    chart, diagram = ((sorted(got.output.splitlines()), *got[1:]) for got in done)
    trial.add(chart == diagram, shown(it.text), "run", *queues, *it.words, *done)


def compare(trial):
    pick = trial.pick
    for _ in range(trial.options.number):
        text, words, _ = tried(pick, False)
        words = [word for at, word in enumerate(words)
                 if "--from" not in (word, words[at - 1])]
        it = Imported(trial, words, text)
        canonical = Answer(COMMENT.sub(b";", it.chart.output), it.chart.error, it.chart.status)
        trial.compare(["read", *it.words, "-"], text, canonical)
        trial.compare(["list", *it.words, "-"], text, it.listed)
        queues = queues_of(pick, it)
        for command in ("follow", "ready"):
            it.compare(command, *queues)
        it.report(queues)
        compare_run(trial, it, queues)
        it.compare("follow", *queues, "--places", "--words")
        it.compare("ready", *queues, "--places", "--again")
        it.draw(queues if pick.random() < 0.5 else [])
        trial.noted["refused" if it.chart.status else "imported"] += 1
        if it.chart.status == 0:
            it.compare("ready", *queues, "--format", "lines")
            if it.events:
                compare_pairs(trial, it)
