"""What `msc follow` prints, and what lines for editors say of drawings, by the model of drawings.

Random charts and those of charts/ are tried with each kind of queues, in part with rules for links:
with `follow`, with its options, and with `check --format lines` and a random choice of the options
of generators/check_options.py, which choose races but not whether the drawing can happen; now and
then with `--again`. Some charts have random line ends, and some have marks. The charts of charts/
are files. Of texts with mistakes `follow` prints the fault, and with `--places` its notes.
"""
import pathlib

from generators.charts import chart, crossed_chart, marked, small_chart
from generators.check_options import some_options, words_of
from generators.links import some_queues
from generators.mistakes import mistaken
from harness import Answer, joined
from models import notes
from models.answers import fault_of, follow_answer
from models.chart import QUEUES, Chart
from models.marks import fault_of as fault_of_marks
from models.marks import marks_for
from models.races import study
from models.ready import ALL
from models.rounds import check_answer, fault_of_rounds
from models.shown import places_of

NEEDS_PROGRAM = True
OPTIONS = {"number": 150, "messages": 7, "uniform": False}
TOP = pathlib.Path(__file__).resolve().parents[3]


def options_for(pick, text, queues):
    """Options of `check` with `--format lines`, and whether `--again` is one."""
    options = {**some_options(pick), "format": "lines", "quiet": pick.random() < 0.05}
    options["accept"] = options["accept"] and not fault_of_marks(text)
    options["most"] = pick.choice([options["most"], ALL])
    return options, pick.random() < 0.3 and not fault_of_rounds(text, queues)


def compare_check(trial, text, given, queues, file):
    """Compares the lines for editors of a chart; `text` is one of characters."""
    options, is_again = options_for(trial.pick, text, queues)
    marks = marks_for(text, queues)
    if is_again:
        lines, status = check_answer(text, queues, options, marks, file)
    else:
        places = places_of(text.encode("latin-1"), file)
        lines, status = study(Chart(text, queues), places, options, marks)
    asked = ["check", *given.words(), *["--again"] * is_again, *words_of(options)]
    wanted = Answer(joined(lines), b"", status)
    trial.compare([*asked, file], text.encode("latin-1"), wanted, cwd=TOP)


def compare_chart(trial, text, file="-"):
    """Compares what is printed of a chart, on standard input or in a file."""
    told = text.decode("latin-1")
    for given, queues in some_queues(trial.pick, told, trial.options.uniform):
        for words, placed in ((False, False), (True, False), (False, True), (True, True)):
            asked = ["follow", *given.words(), *["--words"] * words, *["--places"] * placed]
            wanted = follow_answer(text, queues, words, file if placed else None)
            trial.compare([*asked, file], text, wanted, cwd=TOP)
        trial.noted["never"] += wanted.status
        compare_check(trial, told, given, queues, file)


def compare_mistaken(trial, text):
    """Compares what is printed of a text with a mistake."""
    asked = ["follow", "--queues", trial.pick.choice(QUEUES)]
    told = notes.answer(text, is_check=False)
    trial.noted["refused"] += bool(told)
    for more, lines in ([], told[:1]), (["--places"], told):
        if told:
            trial.compare([*asked, *more, "-"], text, Answer(b"", joined(lines), 2))


def compare(trial):
    for file in sorted(TOP.glob("charts/**/*.msc")):
        if not fault_of(file.read_bytes()):
            compare_chart(trial, file.read_bytes(), str(file.relative_to(TOP)))
    pick = trial.pick
    for number in range(trial.options.number):
        messages = trial.options.messages
        if number % 3 == 0:
            text = chart(pick, messages, True)
        else:
            text = (small_chart, crossed_chart)[number % 2](pick, 4, messages + number % 2)
        text = text.replace(";", ";" + pick.choice(["", "\n", "\r\n", "\n\t "]))
        text = marked(pick, text) if pick.random() < 0.3 else text
        compare_chart(trial, text.encode("latin-1"))
        compare_mistaken(trial, mistaken(pick))
