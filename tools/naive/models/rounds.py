"""Rounds of a chart, and what `msc check --again` and `msc ready --again` print, straight from the
definitions of docs/MODEL.md.

    tools/naive/print.py rounds check [--closest] [--why] [--most N] [--show N] [--allow KIND]
                                      [--accept] [--format F] [-q] [--words] [--short] [--places]
                                      [RULE].. pair|mailbox|single|own < CHART
    tools/naive/print.py rounds ready [--only NAME].. [--show N] [--words] [--places] [--format F]
                                      [RULE].. pair|mailbox|single|own < CHART

print what these print. Rounds of a chart are made as a text: each instance has its statements
again in each round, and each message its round in its message instance name. The chart of that text
is read by chart.py, and its races, kinds and runs, and its sticks, are those of races.py,
short_runs.py and ready.py. The text has to be a chart: of faults only those of links and of
`--again` itself are named.
"""
import sys

from harness import Answer, joined, parser, put
from models import ready
from models.chart import Chart, is_enforced, statements
from models.links import add_queues, given_of
from models.marks import fault_of, marks_for
from models.own import of_chart
from models.races import KINDS, chosen, closest_of, kind, share_queue, shown_run, study
from models.ready import ALL, for_editors, formatted, in_format, pair_words, refused, signal
from models.ready import system_of, unknown_name
from models.shown import named, places_of

# messages and actions of a chart, of which two rounds are a chart too
MESSAGES, ACTIONS = 512, 512
# the options of `check` where none is given
PLAIN = {"closest": False, "why": False, "most": ALL, "show": ALL, "allow": [], "format": "text",
         "quiet": False, "words": False, "short": False, "accept": False, "places": False}


def in_round(statement, r):
    """A statement of round r: a message has the round in its message instance name."""
    if statement[0].lower() not in ("in", "out"):
        return statement
    word, name, *rest = statement
    number = ""
    if rest[0] == ",":
        number, rest = rest[1], rest[2:]
    return [word, name, ",", f"{number}_{r}", *rest]


def repeated(text, rounds):
    """The text of so many rounds."""
    told, section = [], []
    for statement in statements(text):
        word = statement[0].lower()
        if word in ("in", "out", "action", "concurrent", "endconcurrent"):
            section.append(statement)
            continue
        if word == "endinstance":
            told += [in_round(it, r) for r in range(1, rounds + 1) for it in section]
            section = []
        told.append(statement)
    return "".join(" ".join(statement) + ";\n" for statement in told)


class Several(Chart):
    """So many rounds of a chart; rounds are numbered from 1."""

    def __init__(self, text, queues, rounds):
        super().__init__(repeated(text, rounds), queues)
        self.one, self.rounds = Chart(text, queues), rounds
        self.place = [
            (e, r)
            for line in range(len(self.names))
            for r in range(1, rounds + 1)
            for e in self.one.all
            if self.one.events[e].line == line
        ]

    def numbered(self, k):
        return "{}.{}".format(*self.place[k])

    def placed(self, pairs, rounds):
        """Of these pairs, those of an event of the one round and one of the other, by their events
        of the chart."""
        (first, second), found = rounds, set()
        for x, y in pairs:
            (e, r), (f, s) = self.place[x], self.place[y]
            if (r, s) == (first, second):
                found.add((e, f))
        return found

    def crosses(self, x, y):
        """x is of the first round, and y of the second."""
        return (self.place[x][1], self.place[y][1]) == (1, 2)

    def closest(self):
        return closest_of(self, self.races())

    def between(self, allow):
        """The closest races of the first round and the second, but those of the kinds `allow`."""
        pairs = [race for race in self.closest() if self.crosses(*race)]
        return [race for race in pairs if kind(self, *race) not in allow]


def said(two, x):
    """An event as it is told in words: behind the name of its instance, without its round."""
    return named(two.one, two.place[x][0])


def heading(two, x, y):
    return pair_words(two.one, "again", two.place[x][0], two.place[y][0])


def needs(two, x, y):
    return f"needs {two.numbered(x)} {two.numbered(y)}: {said(two, x)}; {said(two, y)}"


def at(two, places, x, y):
    return f"at {places[two.place[x][0]]} {places[two.place[y][0]]}"


def run_lines(two, run, words):
    numbers = [two.numbered(k) for k in run]
    if not words:
        return [" ".join(["run", *numbers])]
    return [f"steps {len(run)}", *(f"{it} {said(two, k)}" for it, k in zip(numbers, run))]


def race_lines(two, places, options, pairs, listed):
    """The closest races between two rounds, behind so many races that are listed above them."""
    yield f"again {len(pairs)}"
    for number, (x, y) in enumerate(pairs, listed):
        if number >= options["most"]:
            break
        yield heading(two, x, y)
        if options["places"]:
            yield at(two, places, x, y)
        if options["why"]:
            needed, output = two.partner[x] if share_queue(two, x, y) else x, two.partner[y]
            always = " always" if is_enforced(two, y, x) else ""
            yield f"kind {kind(two, x, y)}{always}"
            yield needs(two, needed, output)
            if options["places"]:
                yield at(two, places, needed, output)
        if number < options["show"]:
            yield from run_lines(two, shown_run(two, x, y, options["short"]), options["words"])


def editor_lines(two, places, options, pairs, listed):
    """The same as editors read them."""
    for number, (x, y) in enumerate(pairs, listed):
        if number < options["most"]:
            (e, _), (f, _) = two.place[x], two.place[y]
            level = "error" if is_enforced(two, y, x) else "warning"
            yield f"{places[e]}: {level}: {heading(two, x, y)} [{kind(two, x, y)}]"
            yield f"{places[f]}: note: the event of the next round"


def check_answer(text, queues, options=PLAIN, marks=(), file="-"):
    """The lines of `msc check --again` of a file of this name, and the exit status."""
    two, places = Several(text, queues, 2), places_of(text.encode("latin-1"), file)
    lines, status = study(two.one, places, options, marks)
    pairs = two.between(options["allow"])
    _, _, left, closest, _ = chosen(two.one, options, marks)
    listed = len(closest if options["closest"] else left)
    status = int(status or bool(pairs))
    if options["quiet"] or options["format"] == "count":
        return lines, status
    more = editor_lines if options["format"] == "lines" else race_lines
    return [*lines, *more(two, places, options, pairs, listed)], status


def stick_lines(two, system, places, pairs, show, words):
    """The sticks between two rounds; `places` is None where none are told."""
    yield f"again {len(pairs)}"
    for x, y in pairs:
        first, second = two.partner[x], two.partner[y]
        yield heading(two, x, y)
        if places:
            yield at(two, places, x, y)
        yield needs(two, first, second)
        if places:
            yield at(two, places, first, second)
        if words:
            waiting, other = (two.one.events[two.place[k][0]] for k in (x, y))
            yield (f"{two.names[waiting.line]} waits for {signal(waiting)}; "
                   f"in its queue {signal(other)} stands first")
        ahead = system.ahead(y)
        if ahead:
            yield "behind {} {}".format(*map(two.numbered, ahead[0]))
        elif show > 0:
            show -= 1
            yield from run_lines(two, system.stick_run(y), words)


def sticks_between(text, queues, only):
    """Two rounds of a chart, as a system, and the sticks between them."""
    two = Several(text, queues, 2)
    system = system_of(two, only)
    return two, system, [stick for stick in system.sticks if two.crosses(*stick)]


def ready_answer(text, queues, only=(), show=ALL, words=False, placed=False):
    """The lines of `msc ready --again` as text, and the exit status."""
    lines, status = ready.answer(text, queues, only, show, words, "-" if placed else None)
    if status == 2:
        return lines, status
    two, system, pairs = sticks_between(text, queues, only)
    alone = system_of(two.one, only)
    first = sum(not alone.ahead(f) for _, f in alone.sticks)
    places = places_of(text.encode("latin-1")) if placed else None
    more = stick_lines(two, system, places, pairs, max(show - first, 0), words)
    return [*lines, *more], int(status or bool(pairs))


def editor_sticks(two, places, pairs):
    """The sticks between two rounds as editors read them."""
    for x, y in pairs:
        (e, _), (f, _) = two.place[x], two.place[y]
        yield f"{places[e]}: error: {heading(two, x, y)} [stick]"
        yield f"{places[f]}: note: the event of the next round"


def ready_formatted(text, queues, only, form):
    """The lines of `msc ready --again` in a format that is not text, and the exit status. Races
    that are left come last."""
    two, _, pairs = sticks_between(text, queues, only)
    sticks, left, status = for_editors(text, queues, only)
    status = int(status or bool(pairs))
    if form == "count":
        return formatted(text, queues, only, form)[0], status
    places = places_of(text.encode("latin-1"))
    return [*sticks, *editor_sticks(two, places, pairs), *left], status


def ready_answered(text, queues, only, show, words, placed, form):
    """What `msc ready --again` prints in a format."""
    return in_format(text, queues, only, form,
                     lambda: ready_answer(text, queues, only, show, words, placed),
                     ready_formatted)


def fault_of_rounds(text, queues):
    """Why two rounds of a chart are no chart, if they are none."""
    events = Chart(text, queues).events
    if sum(event.is_output for event in events) > MESSAGES:
        return f"again fault 1: more than {MESSAGES} messages"
    if sum(event.is_local for event in events) > ACTIONS:
        return f"again fault 2: more than {ACTIONS} actions"
    return None


def check_answered(text, queues, given):
    """What `msc check --again` prints; of a fault its line."""
    fault = given.accept and fault_of(text) or fault_of_rounds(text, queues)
    if fault:
        return Answer(b"", joined([fault]), 2)
    lines, status = check_answer(text, queues, vars(given), marks_for(text, queues))
    return Answer(joined(lines), b"", status)


def printed(given):
    """What the command that is given prints."""
    held = sys.stdin.buffer.read()
    text, queues = held.decode("latin-1"), of_chart(held, given_of(given))
    if given.command == "check":
        return check_answered(text, queues, given)
    fault = unknown_name(Chart(text, queues), given.only) or fault_of_rounds(text, queues)
    if fault:
        return refused(fault, given.format)
    return ready_answered(text, queues, given.only, given.show, given.words, given.places,
                          given.format)


def arguments(about, given):
    """The words of a command line."""
    words = parser(about)
    commands = words.add_subparsers(dest="command", required=True, metavar="COMMAND")
    for name in ("check", "ready"):
        command = commands.add_parser(name)
        command.add_argument("--show", type=int, default=ALL, metavar="N")
        command.add_argument("--words", action="store_true")
        command.add_argument("--places", action="store_true")
        add_queues(command, "queues")
        command.add_argument("--format", default="text", choices=["text", "count", "lines"])
        if name == "ready":
            command.add_argument("--only", action="append", default=[], metavar="NAME")
            continue
        command.add_argument("--most", type=int, default=ALL, metavar="N")
        command.add_argument("--allow", action="append", default=[], choices=KINDS)
        command.add_argument("-q", "--quiet", action="store_true")
        for flag in ("closest", "why", "accept", "short"):
            command.add_argument(f"--{flag}", action="store_true")
    return words.parse_args(given)


def main(given):
    return put(printed(arguments(__doc__, given)))
