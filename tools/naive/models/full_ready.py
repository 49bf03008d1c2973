"""What `msc ready --format full` prints: sticks, those between two rounds, and races that are left.
"""
from models import closing
from models.chart import Chart
from models.diagnostic import Note, printed
from models.ready import Ready
from models.rounds import Several
from models.wording import ChartSpeech, LeftPair, Pair, RoundSpeech, left_block, run_note, run_steps
from models.wording import stick_block


class Runs:
    """Counts the sticks that get a run."""

    def __init__(self, show):
        self.show = show

    def take(self):
        """Whether one more stick gets a run."""
        self.show -= 1
        return self.show >= 0


class Sticks:
    """The sticks of a chart, those between two of its rounds, and the races that are left."""

    def __init__(self, text, queues, options):
        self.drawn = Chart(text, queues)
        self.system = Ready(self.drawn, self.ready(self.drawn, options))
        self.sticks, self.two, self.between = self.system.sticks, None, []
        if options.again:
            self.two = Several(text, queues, 2)
            self.double = Ready(self.two, self.ready(self.two, options))
            self.between = [stick for stick in self.double.sticks if self.two.crosses(*stick)]
        has_rest = options.only and not self.sticks
        self.left = self.system.races() if has_rest else []
        self.status = int(bool(self.sticks or self.between or self.left))

    @staticmethod
    def ready(drawn, options):
        """The lines that are ready."""
        return {i for i, name in enumerate(drawn.names) if name in options.only or not options.only}

    def verdict(self, options):
        ways = closing.counted(len(self.sticks), "way to block", "ways to block")
        parts = [ways if self.sticks else "no instance can block"]
        if options.again:
            between = closing.counted(len(self.between), "way", "ways") if self.between else "none"
            parts = [f"{parts[0]} in a round", f"{between} between rounds"]
        if self.sticks and not self.system.may_finish():
            parts.append("no run finishes")
        if options.only and not self.sticks:
            parts.append(closing.counted(len(self.left), "race left", "races left"))
        return ", ".join(parts)


def stick_blocks(speech, system, sticks, runs, has_rounds=False):
    """The blocks of sticks."""
    for e, f in sticks:
        ahead, more = system.ahead(f), None
        if ahead:
            first = ahead[0][0]
            name, line = speech.name(speech.owner(first)), speech.line(first)
            more = Note("note", f"{name} blocks at line {line} before that")
        elif runs.take():
            more = run_note(run_steps(speech, system.stick_run(f), has_rounds))
        yield stick_block(Pair(speech, system.drawn, e, f, has_rounds), more)


def lines_of(found, speech, page, file, names, options):
    """The lines for sticks with this speech, in a file of this name; the closing line has these
    names of instances."""
    runs = Runs(options.show)
    blocks = list(stick_blocks(speech, found.system, found.sticks, runs))
    if found.two:
        rounds = RoundSpeech(speech, found.two)
        blocks += stick_blocks(rounds, found.double, found.between, runs, True)
    blocks += [left_block(LeftPair(speech, found.drawn, e, f)) for e, f in found.left]
    verdict = closing.verdict_on(found.verdict(options), found.drawn.queues, names)
    lines = printed(page, blocks, options.colours)
    return [*lines, closing.closing(file, verdict, options.colours)]


def ready_lines(text, page, queues, options):
    """The lines for a chart, and the exit status."""
    found = Sticks(text.decode("latin-1"), queues, options)
    speech = ChartSpeech(found.drawn, text, page)
    return lines_of(found, speech, page, page.file, found.drawn.names, options), found.status
