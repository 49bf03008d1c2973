"""What `msc check --from` prints of diagrams with `--format full`.

scenarios.py finds the races and the stale marks. wording.py makes blocks of races, with the speech
of diagrams that is here, and import_refusals.py makes blocks of faults.
"""
from models import closing
from models.diagrams import Arrow
from models.diagnostic import page_of, printed
from models.import_refusals import refusal_of
from models.short_runs import short_witness
from models.spoken import cut, quoted, spoken, spoken_name, text_shown
from models.wording import Finding, Pair, does, race_finding, run_steps, stale_block

# the choices of a scenario that are told
CHOICES = 8
TIMES = {0: "skipped", 1: "once", 2: "twice"}


def names_of(diagram):
    """The names of all lines; the identifier tells those apart that would have the same."""
    names = diagram.names
    said = [shown and cut(spoken_name(shown.held)) or cut(spoken(ident))
            for shown, ident in zip(names.shown, names.idents)]
    return [f"{name} ({cut(text_shown(ident))})" if said.count(name) > 1 else name
            for name, ident in zip(said, names.idents)]


def idents_of(diagram):
    """The identifiers of all lines, as the closing line names them."""
    return [cut(spoken(ident)) for ident in diagram.names.idents]


def loops_of(items, around=()):
    """For each arrow the loops around it, outermost first."""
    found = {}
    for it in items:
        if isinstance(it, Arrow):
            found[it.number] = around
            continue
        inside = (*around, it) if it.kind == "loop" else around
        for branch in it.branches:
            found.update(loops_of(branch, inside))
    return found


def label_of(arrow):
    """The label of an arrow, or what stands for it."""
    text, line = cut(spoken(arrow.label.held)), arrow.place.line
    if text:
        return quoted(text)
    return f"the {'step' if arrow.is_own() else 'message'} of line {line}"


class DiagramSpeech:
    """The speech of a scenario's events."""

    def __init__(self, diagram, scenario, page):
        self.diagram, self.events, self.page = diagram, scenario.events, page
        self.names, self.loops = names_of(diagram), loops_of(diagram.items)

    def arrow(self, e):
        return self.events[e][1].arrow

    def name(self, line):
        return self.names[line]

    def owner(self, e):
        return self.events[e][0]

    def is_lost(self, e):
        event = self.events[e][1]
        return event.way == "out" and event.text.startswith("action ")

    def way(self, e):
        return self.events[e][1].way

    def peer(self, e):
        """The line at the other end of the message of e."""
        ends = [self.diagram.names.idents.index(end.held)
                for end in (self.arrow(e).left, self.arrow(e).right)]
        return ends[1] if ends[0] == self.owner(e) else ends[0]

    def line(self, e):
        return self.arrow(e).place.line

    def span(self, e):
        return self.arrow(e).statement[1:]

    def message(self, e):
        return label_of(self.arrow(e))

    def is_next(self, e, f):
        """They are in different rounds of a loop around both."""
        ours = [self.loops[self.arrow(x).number] for x in (e, f)]
        rounds = [self.events[x][1].rounds for x in (e, f)]
        return any(one is other and n != m for one, other, n, m in zip(*ours, *rounds))


# Scenarios


def choice_said(it, taken):
    """A choice in words: of a cross, or of a block."""
    if isinstance(it, Arrow):
        fate = "arrives" if taken else "is lost"
        text = cut(spoken(it.label.held))
        line = it.place.line
        said = f"{quoted(text)} (line {line})" if text else f"the message of line {line}"
        return f"{said} {fate}"
    several = len(it.begins) > 1
    begin, state = it.begins[0], " taken" if taken else " skipped"
    if it.kind == "alt" and several:
        begin, state = it.begins[taken], ""
    elif it.kind == "alt" or it.kind == "opt":
        begin = it.begins[max(taken - 1, 0)]
    elif it.kind == "critical":
        begin, state = it.begins[taken], "" if taken else " without an option"
    elif it.kind == "loop":
        state = " " + TIMES.get(taken, f"{taken} times")
    return begin, state


def choices_said(scenario, source):
    """The choices of a scenario in words."""
    found = []
    for it, taken in zip(scenario.course.asked, scenario.course.taken):
        said = choice_said(it, taken)
        if not isinstance(said, str):
            begin, state = said
            text = cut(spoken(begin.label))
            label = f" {quoted(text)}" if text else ""
            said = f"{begin.word}{label} (line {source.place(begin.at).line}){state}"
        found.append(said)
    left = len(found) - CHOICES
    more = [f"and {left} more choice{'s' if left > 1 else ''}"] if left > 0 else []
    return ", ".join([*found[:CHOICES], *more])


def where(verdict, at, race):
    """The note on the scenarios in which a race counts, or None if there is one scenario."""
    place, every = verdict.every[at].ends(race), verdict.every
    count, several = verdict.where_counted[place], len(every)
    if several == 1:
        return None
    if count == several:
        return "in both scenarios" if several == 2 else f"in all {several} scenarios"
    words = choices_said(every[at], verdict.diagram.source)
    if count == 1:
        return f"in scenario {at + 1} of {several}: {words}"
    return f"in {count} of {several} scenarios, such as scenario {at + 1}: {words}"


# What is printed


def label_of_file(source, text):
    """FILE, or in Markdown FILE:LINE with the first line of the block."""
    file = page_of(source).file
    return f"{file}:{text.line}" if text is not None and text.number is not None else file


def race_finding_of(verdict, page, at, race, has_run):
    """The finding of a race of this scenario."""
    scenario, steps = verdict.every[at], ()
    speech = DiagramSpeech(verdict.diagram, scenario, page)
    if has_run:
        steps = run_steps(speech, short_witness(scenario.drawn, *race)[0])
    pair = Pair(speech, scenario.drawn, *race, speech.is_next(*race))
    first, second = (does(speech, e) for e in race)
    name = f"{speech.name(pair.line)} {first}; {second}"
    return race_finding(pair, name, where(verdict, at, race), steps)


def stale_finding(diagram, mark):
    """The finding of a stale mark. One without an arrow below it has the number that this arrow
    would have."""
    number = mark.arrow.number if mark.arrow else diagram.arrows + 1
    return Finding(stale_block((mark.at, mark.past), mark.arrow), f"stale {number}")


def findings_of(verdict, page, most, show):
    """The findings of a diagram, with so many races, and with a run for so many of these."""
    races = verdict.first_races(True)[:most]
    found = [race_finding_of(verdict, page, at, race, number < show)
             for number, (at, race) in enumerate(races)]
    return [*found, *(stale_finding(verdict.diagram, mark) for mark in verdict.stale)]


def verdict_said(verdict, most):
    """What the closing line says of a diagram, if so many races are printed."""
    several, count = len(verdict.every), len(verdict.first_races(True))
    said = closing.counted(count, "race", "races")
    if several > 1:
        said = closing.counted(count, "distinct race", "distinct races")
        said = said if count else f"no races in {several} scenarios"
    wider = len(verdict.counting(False)) - count
    parts = closing.parts(wider, len(verdict.allowed()), len(verdict.accepted()),
                          len(verdict.stale), most if most < count else None)
    said = ", ".join([said, *parts])
    if several > 1 and count:
        said += closing.free_part(verdict.free(), several)
    return closing.verdict_on(said, verdict.queues, idents_of(verdict.diagram))


class FullOutput:
    """What is printed of the diagrams of a file."""

    def __init__(self, options):
        self.options, self.lines, self.error, self.status = options, [], b"", 0
        self.colours = options.color == "always"
        self.most, self.show = options.most, options.show or 0
        self.has_races = self.has_mark = False

    def refused(self, source, fault, name=None, text=None):
        """Prints a diagram that is refused; it has a name if others may follow."""
        page = page_of(source)
        block = refusal_of(source, fault, text)
        self.lines += printed(page, [block], self.colours)
        self.close(label_of_file(source, text), closing.refused(), name is not None)
        self.status = 2

    def close(self, file, verdict, is_all):
        self.lines.append(closing.closing(file, verdict, self.colours))
        self.lines += [""] * is_all

    def judged(self, verdict, name, text, is_all):
        """Prints a diagram that is checked, one of several if all of a text are."""
        page = page_of(text.source)
        found = findings_of(verdict, page, self.most, self.show)
        said = verdict_said(verdict, self.most)
        count = min(self.most, len(verdict.first_races(True)))
        self.most, self.show = self.most - count, max(self.show - count, 0)
        self.lines += printed(page, [it.block for it in found], self.colours)
        self.close(label_of_file(text.source, text), said, is_all)
        self.has_races |= bool(verdict.first_races(True))
        self.has_mark |= bool(verdict.marks)
        self.status = max(self.status, verdict.status())

    def end(self):
        """What follows the last diagram."""
        if self.has_races and not self.has_mark:
            self.lines.append(closing.help_line(closing.OF_DIAGRAMS, self.colours))
