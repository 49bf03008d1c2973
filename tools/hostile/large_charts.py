#!/usr/bin/env python3
"""Gives each command charts and diagrams of some hundred events, and the largest ones, with ample
memory, and looks whether it answers.

    large_charts.py [--events N,..] [--seed S] PROGRAM

Of a random chart of each of these numbers of events (201, 257 and 300 if none is given) and of a
diagram whose chart has as many, each command prints what the definitions of tools/naive say, byte
for byte, of the second number with rules for links; SVG and reports are read by tools/picture, and
traces by whole_runs.py. Of the largest charts that docs/LANGUAGE.md allows each command answers:
its status is 0 or 1, standard error is empty, and its answer begins as it has to; whole_runs.py
reads whether their drawings can happen, and `follow` says so within seconds. A run is made only if
it is shown. Prints what differs, and last `N passed, M failed`.
"""
import random
import sys
import tempfile
import time
import xml.etree.ElementTree

from limits import of_events
from load import INSTANCES, MESSAGES, drawn
from program import QUEUES, TOP, Answer, Count, arguments, mixed, run
from whole_runs import Drawn
from comparisons.explanations import check_placed, check_short
from generators import charts
from generators.check_options import words_of
from models import notes, ready, rounds
from models.answers import diagram_check_answer, follow_answer, import_answer, lines_answer
from models.answers import read_answer
from models.chart import Chart, is_enforced
from models.explanations import Wrong, check
from models.links import Given
from models.marks import marks_for
from models.own import of_chart
from models.picture import chart_picture, run_picture
from models.races import listing, study
from models.shown import places_of
from refuse import Shim

sys.path.append(str(TOP / "tools/picture"))
import readers

SIZES = (201, 257, 300)
# in which a drawing of the largest charts is answered
FEW_SECONDS = 10
# what is asked of the races of a chart: each differs from rounds.PLAIN in this
STUDIES = (
    {"show": 2}, {"show": 2, "words": True, "short": True, "why": True, "closest": True},
    {"show": 1, "most": 5, "places": True, "why": True}, {"show": 0, "accept": True},
    {"format": "lines"}, {"format": "lines", "accept": True}, {"format": "count"},
    {"quiet": True}, {"quiet": True, "accept": True}, {"show": 1, "allow": ["early"]},
)
# and of two rounds: one for each number of events
AGAIN = ({"show": 2, "why": True, "closest": True}, {"format": "lines", "closest": True},
         {"show": 2, "words": True, "short": True, "places": True, "most": 9})
# and of diagrams
OF_DIAGRAMS = ([], ["--closest", "--why", "--show=2"], ["--words", "--short", "--most=3"],
               ["--format=count"], ["--format=lines"], ["--quiet"])


def random_chart(pick, events):
    """A chart of so many events, one in ten of them actions, each on a line of its own of the text;
    some have a mark."""
    messages = events * 9 // 20
    lines = charts.events(pick, 16, messages, 0)
    for _ in range(events - 2 * messages):
        line = pick.choice(lines)
        line.insert(pick.randint(0, len(line)), "action 'x';")
    text = "msc t;\n"
    for name, line in enumerate(lines):
        marked = (it.replace(";", " comment 'race ok: known';") if pick.random() < 0.1 else it
                  for it in line)
        text += f"instance i{name};\n" + "".join(f"{it}\n" for it in marked) + "endinstance;\n"
    return text + "endmsc;"


def random_diagram(pick, events):
    """A diagram with one scenario, whose chart has so many events."""
    own = 1 if events % 2 else 2
    arrows = [(*pick.sample("ABCDE", 2), k) for k in range((events - own) // 2)]
    arrows += [("A", "A", k) for k in range(own)]
    pick.shuffle(arrows)
    return "sequenceDiagram\n" + "".join(f"{a}->>{b}: m{k}\n" for a, b, k in arrows)


def deadlock(events):
    """A chart of so many events, a multiple of four, that are all in one ring, the shortest one
    through the first: what b and c send is taken by the other above what it sent before."""
    hops = events // 2 - 2
    lines = {"a": [["in z from b;", "out y to b;"]], "b": [], "c": []}
    message, sender, own = "y", "a", "b"
    for hop in range(hops):
        other = "c" if own == "b" else "b"
        lines[own].append([f"in {message} from {sender};", f"out u{hop} to {other};"])
        message, sender, own = f"u{hop}", own, other
    lines[own].append([f"in {message} from {sender};", "out z to a;"])
    text = "msc t;\n"
    for name, pairs in lines.items():
        told = "".join(f"{it}\n" for pair in reversed(pairs) for it in pair)
        text += f"instance {name};\n{told}endinstance;\n"
    return text + "endmsc;"


def answers_on_charts(pick, text, given, queues, more):
    """Words, and what is printed of a chart under an architecture."""
    chart, places = Chart(text, queues), places_of(text.encode())
    asked, races = given.words(), chart.races()
    yield ["read", "-"], read_answer(text.encode())
    for placed in (False, True):
        lines = listing(chart, places, placed)
        yield ["list", *["--places"] * placed, "-"], lines_answer(lines, 0)
    yield ["draw", "-"], lines_answer(chart_picture(chart, False), 0)
    yield ["draw", *asked, "-"], lines_answer(chart_picture(chart, True), 0)
    for words, placed in ((False, False), (True, True)):
        more_words = ["--words"] * words + ["--places"] * placed
        told = follow_answer(text.encode(), queues, words, "-" if placed else None)
        yield ["follow", *asked, *more_words, "-"], told
    e, f = pick.choice(races)
    yield ["reverse", *asked, "-", str(e), str(f)], lines_answer(run_picture(chart, e, f), 0)
    for given in STUDIES:
        options, marks = {**rounds.PLAIN, **given}, marks_for(text, queues)
        told = lines_answer(*study(chart, places, options, marks))
        yield ["check", *asked, *words_of(options), "-"], told
    told = lines_answer(*rounds.check_answer(text, queues, {**rounds.PLAIN, **more}))
    yield ["check", *asked, "--again", *words_of({**rounds.PLAIN, **more}), "-"], told
    yield ["check", *asked, "--again", "-q", "-"], (b"", b"", told[2])


def answers_of_ready(text, given, queues):
    """Words of `ready`, and what is printed of a chart under an architecture."""
    asked = ["ready", *given.words()]
    yield [*asked, "--show", "2", "-"], ready.answer(text, queues, [], 2)
    words = [*asked, "--words", "--places", "--show", "1", "--only", "i1", "-"]
    yield words, ready.answer(text, queues, ["i1"], 1, True, "-")
    words = [*asked, "--again", "--show", "1", "-"]
    yield words, rounds.ready_answer(text, queues, [], 1)


def answers_on_diagrams(text, given):
    """Words, and what is printed of a diagram."""
    for more in OF_DIAGRAMS:
        words = ["--from", "any", *given.words(), *more]
        yield ["check", *words, "-"], diagram_check_answer(text, words)
    for is_listed in (False, True):
        wanted = import_answer(text, ["--name", "t"], is_listed)
        yield ["import", "--name", "t", *["--list"] * is_listed, "-"], wanted


def explanations(count, program, pick, text, given, queues):
    """Looks at what is told of a race, and of two events that are enforced."""
    chart = Chart(text, queues)
    pairs = [(e, f) for e in chart.all for f in chart.all if is_enforced(chart, e, f)]
    for e, f in (pick.choice(chart.races()), pick.choice(pairs), pick.choice(pairs)[::-1]):
        asked = [program, "explain", *given.words()]
        words = [*asked, "-", str(e), str(f)]
        plain = run(words, text.encode())
        try:
            check(chart, e, f, plain.output.decode().splitlines())
            wrong = plain[1:] != (b"", int(not is_enforced(chart, e, f)))
            check_placed(asked, text, places_of(text.encode()), e, f, plain)
            check_short(asked, text, chart, e, f, plain)
        except (Wrong, IndexError, ValueError) as told:
            wrong = told
        count.add(not wrong, *words[1:], wrong, plain[1:])


def pictures(count, program, pick, text):
    """Reads what is drawn and reported of a chart."""
    for words in (["draw", "--svg"], *(["report", "--queues", queues] for queues in QUEUES)):
        answer = run([program, *words, "-"], text.encode())
        count.add(answer[1:] == (b"", 0), *words, answer[1:])
    try:
        readers.check_all(program, text.encode(), pick)
        wrong = None
    except (readers.Wrong, SystemExit, xml.etree.ElementTree.ParseError) as told:
        wrong = told
    count.add(wrong is None, "draw, reverse and report", str(wrong).split("\n")[-1][:200])


def faults(count, program, text):
    """Compares the notes of the fault of a chart, and of the further ones."""
    found = notes.faults_of(text)
    lines = found.lines()
    for words, output, error in (
        (["--places"], [], lines), (["--format", "lines"], found.editor_lines(), lines[:1]),
    ):
        wanted = (*(lines_answer(lines, 2)[0] for lines in (output, error)), 2)
        words = ["check", "--queues", "pair", *words, "-"]
        count.compare(run([program, *words], text), Answer(*wanted), *words, text[:60])


def of_size(count, program, pick, place, events):
    """What is answered of a chart and of a diagram of so many events."""
    text, more = random_chart(pick, events), AGAIN[place % len(AGAIN)]
    given = of_diagram = Given(QUEUES[place % 3])
    if place % 3 == 1:
        given, of_diagram = mixed(pick, [f"i{n}" for n in range(16)]), mixed(pick, "ABCDE")
    queues = of_chart(text.encode(), given)
    tried = [(text, *it) for it in answers_on_charts(pick, text, given, queues, more)]
    tried += ((text, words, lines_answer(lines, status))
              for words, (lines, status) in answers_of_ready(text, given, queues))
    diagram = random_diagram(pick, events)
    tried += ((diagram, *it) for it in answers_on_diagrams(diagram.encode(), of_diagram))
    for held, words, wanted in tried:
        count.compare(run([program, *words], held.encode()), Answer(*wanted), events, *words)
    explanations(count, program, pick, text, given, queues)
    pictures(count, program, pick, text)
    words = ["run", *given.words(), "-"]
    answer = run([program, *words], text.encode())
    wrong = answer[1:] != (b"", 0) or Drawn(text.encode()).wrong(queues, answer.output.decode())
    count.add(not wrong, events, *words, wrong, answer[1:])
    faults(count, program, deadlock(events + -events % 4).encode())
    faults(count, program, text.replace(" to i3", " to j3").encode())


# all messages are overtaken
REVERSED = of_events(1024, step=-1)


def largest_charts():
    """The texts of the largest charts, and whether each architecture's verdict is `pass`."""
    yield of_events(1024, 1024), {"pair": True, "mailbox": True, "single": False}
    yield REVERSED, dict.fromkeys(QUEUES, False)
    wide = drawn(random.Random(1), INSTANCES, MESSAGES)
    yield wide, dict.fromkeys(QUEUES, False)
    for number in range(INSTANCES):
        # names of 64 bytes
        wide = wide.replace(b"i%d;" % number, b"%064d;" % number)
    yield wide, dict.fromkeys(QUEUES, False)


def asked_of_the_largest(text, queues, passes):
    """Words of each command on a chart, what its answer begins with, and its status, None if it is
    not told here."""
    head, asked = f"chart t\nqueues {queues}\n", ["--queues", queues]
    first = f"{head}pass\n" if passes else f"{head}races "
    status = int(not passes)
    for more in (["--show", "3"], ["--closest", "--why", "--show", "3", "--places"],
                 ["--closest", "--words", "--short", "--show", "3"], ["--accept", "--most", "9"]):
        yield ["check", *asked, *more, "-"], first, status
    yield ["check", *asked, "--format", "lines", "-"], "" if passes else "-:1:", status
    yield ["check", *asked, "--format", "count", "-"], "pass" if passes else "races ", status
    yield ["check", *asked, "-q", "-"], "", status
    # the name of the second instance
    only = text.split(b"instance ")[2].split(b";")[0].decode()
    for more in ([], ["--words", "--places", "--show", "1"], ["--only", only]):
        # of the other one each two messages are a stick, which makes 60 MB
        if text != REVERSED:
            yield ["ready", *asked, *more, "-"], head, None
    ends = ["2000", "1030"]
    yield ["explain", *asked, "-", *ends], head, None
    yield ["explain", *asked, "--short", "--words", "--places", "-", *ends], head, None
    yield ["follow", *asked, "--words", "--places", "-"], head, None
    yield ["draw", *asked, "-"], " ", 0
    yield ["draw", *asked, "--svg", "-"], "<svg ", 0
    yield ["report", *asked, "-"], "<!DOCTYPE html>", 0
    yield ["run", *asked, "-"], head, 0


def asked_of_rounds():
    """The largest charts of which two rounds are one, words of commands, what their answers begin
    with, and their statuses, None if it is not told here."""
    for text in (of_events(512, 512), drawn(random.Random(1), INSTANCES, MESSAGES // 2)):
        for queues in QUEUES:
            asked, head = ["--queues", queues, "--again"], f"chart t\nqueues {queues}\n"
            for more in (["--show", "3"], ["--why", "--closest", "--places", "--show", "1"],
                         ["--closest", "--words", "--short", "--show", "3"]):
                yield text, ["check", *asked, *more, "-"], head, 1
            yield text, ["check", *asked, "--format", "lines", "-"], "-:1:", 1
            yield text, ["check", *asked, "-q", "-"], "", 1
            yield text, ["ready", *asked, "--words", "--show", "3", "-"], head, None


def asked_of_diagrams():
    """The same of a diagram whose chart is as large as it may be."""
    pick = random.Random(1)
    arrows = (f"P{pick.randrange(32)}->>P{pick.randrange(32)}: m" for _ in range(MESSAGES))
    text = "sequenceDiagram\n" + "\n".join(arrows)
    for queues in QUEUES:
        asked = ["check", "--from", "any", "--queues", queues]
        head = f"diagram diagram\nqueues {queues}\nscenarios 1\n"
        for more in (["--show", "3"], ["--closest", "--why", "--words", "--short", "--most", "5"]):
            yield text.encode(), [*asked, *more, "-"], head, 1
        yield text.encode(), [*asked, "--format", "lines", "-"], "-:", 1
        yield text.encode(), [*asked, "--format", "count", "-"], "races ", 1
        yield text.encode(), [*asked, "-q", "-"], "", 1
    yield text.encode(), ["import", "-"], "msc diagram;\n", 0
    yield text.encode(), ["import", "--list", "-"], "chart diagram\nevents ", 0


def are_answered(count, program, tried):
    """Looks whether these words are answered of these texts, as it is told of them."""
    for text, words, first, status in tried:
        answer = run([program, *words], text)
        is_answered = answer.error == b"" and answer.output.startswith(first.encode())
        is_answered = is_answered and answer.status in ((0, 1) if status is None else (status,))
        count.add(is_answered, len(text), *words, answer.error, answer.status, answer.output[:60])


def races_of(program, text, queues):
    """The first race that is told of a chart, if there is one."""
    words = [program, "check", "--queues", queues, "--most", "1", "--show", "0", "-"]
    lines = run(words, text).output.decode().splitlines()
    return lines[-1].split()[1:3] if lines[-1].startswith("race ") else None


def of_the_largest(count, program):
    """Looks whether each command answers of the largest charts."""
    for text, verdicts in largest_charts():
        listed = ["chart t", f"events {len(Drawn(text).lines)}", *Drawn(text).lines]
        count.compare(run([program, "list", "-"], text), Answer(*lines_answer(listed, 0)), "list")
        count.compare(run([program, "read", "-"], text), Answer(*read_answer(text)), "read")
        tried = [(["draw", "-"], " ", 0), (["list", "--places", "-"], "chart t\n", 0)]
        for queues, passes in verdicts.items():
            tried += asked_of_the_largest(text, queues, passes)
            race = races_of(program, text, queues)
            for more in ([], ["--svg"]) if race else ():
                words = ["reverse", "--queues", queues, *more, "-", *race]
                tried.append((words, "<svg " if more else " ", 0))
        are_answered(count, program, [(text, *it) for it in tried])
    are_answered(count, program, [*asked_of_rounds(), *asked_of_diagrams()])


def drawings(count, program):
    """Looks at what is told of the drawings of the largest charts, and how long that takes."""
    order = random.Random(1).sample(range(MESSAGES), MESSAGES)
    taken = "".join(f"in m{number} from a;" for number in order)
    head = of_events(MESSAGES, inputs=0).decode().removesuffix("endinstance;endmsc;")
    texts = [text for text, _ in largest_charts()]
    texts.append(f"{head}{taken}endinstance;endmsc;".encode())
    for text in texts:
        for queues in QUEUES:
            begun = time.monotonic()
            answer = run([program, "follow", "--queues", queues, "-"], text)
            seconds = time.monotonic() - begun
            wrong = answer.error or Drawn(text).wrong_drawing(queues, answer.output.decode())
            is_right = not wrong and answer.status == int("\nnever\n" in answer.output.decode())
            is_right = is_right and (queues != "single" or answer.status == 0)
            count.add(is_right and seconds < FEW_SECONDS, "follow", queues, text[:40], wrong,
                      f"{seconds:.1f} seconds", answer.output[:100])


def runs_that_are_made(count, program):
    """Looks whether a run is made only if it is shown: of a chart whose races begin at 100 events,
    more allocations are made with --show 1 than with --show 0, and many more without --show."""
    words = [program, "check", "--queues", "single"]
    with tempfile.TemporaryDirectory() as folder:
        shim, taken = Shim(folder), []
        for more in (["--show", "0"], ["--show", "1"], []):
            run([*words, *more, "-"], of_events(101), env=shim.env())
            taken.append(shim.made()[0])
        none, one, each = taken
        count.add(none < one and 99 * (one - none) // 2 < each - one, "runs that are made", taken)


def main():
    words = arguments(__doc__)
    words.add_argument("--events", default=SIZES, metavar="N,..",
                       type=lambda text: list(map(int, text.split(","))))
    words.add_argument("--seed", type=int, default=1, metavar="S")
    options, count = words.parse_args(), Count()
    pick = random.Random(options.seed)
    for place, events in enumerate(options.events):
        of_size(count, options.program, pick, place, events)
    of_the_largest(count, options.program)
    drawings(count, options.program)
    runs_that_are_made(count, options.program)
    return count.end()


if __name__ == "__main__":
    sys.exit(main())
