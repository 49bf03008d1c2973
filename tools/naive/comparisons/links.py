"""What commands print of charts and diagrams with rules for links, and of queues that a text names.

First come the examples of generators/link_examples.py. Random charts and diagrams follow, most with
a comment that may name their queues, checked with `--queues own` or another value, and with rules
of which some are faulty; some diagrams stand in one text of Markdown. A fault of links is the same
in all commands; without one each prints what its model does, and pictures and reports tell the
queues. A picture of a chart takes no rules without `--queues`.
"""
import html

from generators import link_examples
from generators.charts import chart, marked
from generators.diagram_checks import diagram
from generators.links import faulty_rules, page_of, rules, some_words, with_comments, with_own
from harness import Answer, joined, run
from models import explanations, notes
from models.answers import again_answer, check_answer, diagram_check_answer, draw_answer
from models.answers import follow_answer, import_answer, ready_answer
from models.chart import QUEUES, Chart
from models.executions import PATIENCE, Wrong, is_execution
from models.links import KINDS, Given, LinkFault, written
from models.marks import answer as accept_lines
from models.own import of_chart
from models.picture import run_picture
from models.reading import Draft

NEEDS_PROGRAM = True
OPTIONS = {"number": 100, "messages": 6}
# commands with a fault that comes after those of links, or with none
REFUSED = ("check", "check --accept", "check --again -q", "check --format count", "follow", "run",
           "draw", "draw --svg", "report", "ready --again", "ready --only nobody")
NO_QUEUES = b"error: the following required arguments were not provided:\n  --queues "


def is_head(answer, wanted):
    """Whether an answer has these lines on queues in its head, or this line of a fault."""
    if isinstance(wanted, str):
        return answer == (b"", f"link fault {wanted}\n".encode(), 2)
    lines = answer.output.decode().splitlines()
    return answer.error == b"" and wanted == [
        line for line in lines[1:] if line.startswith(("queues ", "link "))]


def rows_of(text):
    """The rows of a canonical text."""
    return [row.strip() for row in text.split(";") if row.strip()]


def compare_examples(trial):
    """Compares what is printed of the examples."""
    for text, given, wanted in link_examples.heads():
        is_diagram = text.startswith(b"sequence")
        words = ["check", *["--from=any"] * is_diagram, *given.words(), "-"]
        place = link_examples.LINE if is_diagram else link_examples.BYTE
        wanted = wanted.replace("K", str(place)) if isinstance(wanted, str) else wanted
        got = run([trial.program, *words], text)
        trial.add(is_head(got, wanted), text, words, f"wanted {wanted}", got)
    for text, words, printed in link_examples.CHECKS:
        wanted = Answer(printed.encode(), b"", int("races" in printed))
        trial.compare(["check", *words, "-"], text.encode(), wanted)
    for text, rows in link_examples.imports():
        got = run([trial.program, "import", "-"], text)
        trial.add(rows_of(got.output.decode()) == rows, text, f"wanted {rows}", got)


def compare_usage(trial):
    """A picture of a chart is refused if it has rules and no usual kind, even of no chart."""
    for kind in KINDS:
        for more in ([], ["--svg"]):
            words = ["draw", *more, f"--{kind}", "b", "-"]
            got = run([trial.program, *words], link_examples.WORKER.encode())
            is_right = (got.output, got.status) == (b"", 2) and got.error.startswith(NO_QUEUES)
            trial.add(is_right, words, got)


def told(lines):
    return "".join(f"{line}\n" for line in lines).encode()


def compare_fault(trial, text, given, fault):
    """Compares what each command prints of a chart with a fault of its links."""
    asked, faults = given.words(), notes.link_faults(text, fault)
    lines = faults.lines()
    for command in REFUSED:
        trial.compare([*command.split(), *asked, "-"], text, Answer(b"", told(lines[:1]), 2))
    for command in ("explain", "reverse"):
        words = [command, *asked, "-", "0", "9999"]
        trial.compare(words, text, Answer(b"", told(lines[:1]), 2))
    trial.compare(["check", *asked, "--places", "-"], text, Answer(b"", told(lines), 2))
    wanted = Answer(told(faults.editor_lines()), told(lines[:1]), 2)
    trial.compare(["check", *asked, "--format", "lines", "-"], text, wanted)


def answers_of(pick, text, given, queues):
    """The words of commands on a chart without a fault, and what they print."""
    held = text.decode("latin-1")
    yield ["check", "--show", "1"], [], check_answer(text, given, 1)
    yield ["check", "--again"], [], again_answer(text, "check", given)
    yield ["ready", "--again"], [], again_answer(text, "ready", given)
    yield ["ready"], [], ready_answer(text, given)
    yield ["follow"], [], follow_answer(text, given)
    yield ["draw"], [], draw_answer(text, given)
    lines, fault, status, _ = accept_lines(held, queues)
    wanted = Answer(joined(lines), fault.encode("latin-1"), status)
    yield ["check", "--accept", "--show", "0"], [], wanted
    drawn = Chart(held, queues)
    for e, f in drawn.races()[:1]:
        lines = run_picture(drawn, e, f)
        yield ["reverse"], [str(e), str(f)], Answer(joined(lines), b"", 0)


def wrong_of(check, *given):
    """What a model says is wrong, or None."""
    try:
        check(*given)
    except (Wrong, explanations.Wrong, IndexError, ValueError) as wrong:
        return f"wrong: {wrong}"
    return None


def compare_judged(trial, text, asked, drawn):
    """Compares with their models what is printed of a run, and of why events are ordered."""
    done = run([trial.program, "run", *asked, "-"], text)
    wrong = wrong_of(is_execution, drawn, PATIENCE, done.output.decode("latin-1"), done.status)
    trial.add(wrong is None, text, asked, wrong, done)
    if len(drawn.events) > 1:
        e, f = trial.pick.sample(drawn.all, 2)
        done = run([trial.program, "explain", *asked, "-", str(e), str(f)], text)
        lines = done.output.decode("latin-1").splitlines()
        wrong = wrong_of(explanations.check, drawn, e, f, lines)
        trial.add(wrong is None, text, asked, (e, f), wrong, done)


def compare_pages(trial, text, asked, drawn):
    """A picture in SVG and a report tell the queues of a chart."""
    queues = written(drawn.queues.usual, drawn.queues.others(drawn.names))
    for command, wanted in (("draw --svg", f">{queues}: "), ("report", f"({queues})")):
        done = run([trial.program, *command.split(), *asked, "-"], text)
        is_right = done.status == 0 and wanted in html.unescape(done.output.decode())
        trial.add(is_right, text, command, asked, f"wanted {wanted}", done)


def compare_chart(trial):
    """Compares what commands print of a random chart."""
    pick = trial.pick
    text = chart(pick, trial.options.messages, True)
    text = marked(pick, text) if pick.random() < 0.3 else text
    text = (with_own(pick, text) if pick.random() < 0.8 else text).encode("latin-1")
    names = [name.decode() for name in Draft(text).instances()]
    some = pick.choice([lambda *_: [], rules, rules, faulty_rules])(pick, names)
    given = Given(pick.choice(["own", "own", "own", *QUEUES]), some)
    try:
        queues = of_chart(text, given)
    except LinkFault as fault:
        trial.noted[f"link fault {fault.number}"] += 1
        return compare_fault(trial, text, given, fault)
    trial.noted["charts with other links"] += bool(queues.kinds)
    for words, events, wanted in answers_of(pick, text, given, queues):
        trial.compare([*words, *given.words(), "-", *events], text, wanted)
    drawn = Chart(text.decode("latin-1"), queues)
    compare_pages(trial, text, given.words(), drawn)
    return compare_judged(trial, text, given.words(), drawn)


def compare_diagram(trial):
    """Compares what is printed of one or more random diagrams, and the chart of one."""
    pick = trial.pick
    texts = [with_comments(pick, diagram(pick).encode()) for _ in range(pick.choice([1, 1, 2, 3]))]
    text = page_of(pick, texts) if len(texts) > 1 else texts[0]
    words = some_words(pick, text, ["--queues", pick.choice(QUEUES), "--from", "any"])
    wanted = diagram_check_answer(text, words, "-", True)
    trial.compare(["check", *words, "-"], text, wanted)
    trial.noted["diagrams " + ("that pass", "with races", "refused")[wanted.status]] += 1
    words = ["--choose", "main", *["--fence", str(len(texts))] * (len(texts) > 1)]
    trial.compare(["import", *words, "-"], text, import_answer(text, words))


def compare(trial):
    compare_examples(trial)
    compare_usage(trial)
    for _ in range(trial.options.number):
        compare_chart(trial)
        compare_diagram(trial)
