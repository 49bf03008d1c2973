"""What `msc check` prints of random charts with its options, and what `msc list` prints.

The charts have random line ends, and some have marks. Each is listed, and checked with each kind of
queues, in part with rules for links, and with a random choice of the options of
generators/check_options.py.
"""
from generators.charts import chart, marked
from generators.check_options import some_options, words_of
from generators.links import some_queues
from harness import Answer, joined
from models.chart import Chart
from models.marks import fault_of, marks_for
from models.races import listing, study
from models.shown import places_of

NEEDS_PROGRAM = True
OPTIONS = {"number": 150, "messages": 10, "uniform": False}


def tasks(pick, text, is_uniform):
    """The words of runs over a chart's text, and what each prints and its exit status."""
    places = places_of(text.encode("latin-1"))
    placed = pick.random() < 0.5
    yield ["list", *["--places"] * placed], listing(Chart(text, "pair"), places, placed), 0
    faulty = fault_of(text)
    for given, queues in some_queues(pick, text, is_uniform):
        options = some_options(pick)
        if faulty and options["accept"]:
            options["accept"] = False
        lines, status = study(Chart(text, queues), places, options, marks_for(text, queues))
        yield ["check", *given.words(), *words_of(options)], lines, status


def compare(trial):
    pick = trial.pick
    for _ in range(trial.options.number):
        end = pick.choice(["", "\n", "\r\n", "\n\t "])
        text = chart(pick, trial.options.messages, True).replace(";", ";" + end)
        text = marked(pick, text) if pick.random() < 0.5 else text
        for asked, lines, status in tasks(pick, text, trial.options.uniform):
            trial.noted["races"] += sum(line.startswith("race ") for line in lines)
            trial.compare([*asked, "-"], text.encode("latin-1"), Answer(joined(lines), b"", status))
