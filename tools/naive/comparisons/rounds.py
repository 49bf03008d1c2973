"""What `msc check --again` and `msc ready --again` print of random charts with their options.

The closest races are compared with those that the program prints of the text of two rounds, too.
"""
from generators.charts import chart, marked, small_chart
from generators.check_options import some_options, words_of
from generators.links import some_queues
from harness import Answer, joined
from models.chart import Chart
from models.marks import fault_of, marks_for
from models.races import study
from models.ready import ALL
from models.rounds import PLAIN, check_answer, ready_answered, repeated

NEEDS_PROGRAM = True
OPTIONS = {"number": 150, "messages": 6, "uniform": False}


def closest_words(text, queues):
    """What is printed of the text of two rounds with --closest, without runs."""
    options = {**PLAIN, "closest": True, "why": True, "show": 0}
    return study(Chart(text, queues), [], options, {})


def told(lines, status):
    """What is printed of these lines."""
    return Answer(joined(lines), b"", status)


def tasks(pick, text, is_uniform):
    """The words of runs over a chart, the text that is given, and what is printed."""
    faulty = fault_of(text)
    for given, queues in some_queues(pick, text, is_uniform):
        options, asked = some_options(pick), [*given.words(), "--again"]
        options["accept"] = options["accept"] and not faulty
        options["most"] = pick.choice([options["most"], ALL, ALL])
        checked = check_answer(text, queues, options, marks_for(text, queues))
        yield ["check", *asked, *words_of(options)], text, told(*checked)
        names = [*Chart(text, queues).names, "nobody"]
        only = [pick.choice(names) for _ in range(pick.choice([0, 0, 0, 1, 2]))]
        show, words, placed = pick.choice([0, 1, 2, ALL]), pick.random() < 0.4, pick.random() < 0.4
        form = pick.choice(["text", "text", "count", "lines", "lines"])
        more = [word for name in only for word in ("--only", name)]
        more += ["--words"] * words + ["--places"] * placed
        more += ["--show", str(show), *["--format", form] * (form != "text")]
        answer = ready_answered(text, queues, only, show, words, placed, form)
        yield ["ready", *asked, *more], text, answer
        if pick.random() < 0.3:
            two = repeated(text, 2)
            words = ["check", *given.words(), "--closest", "--why", "--show", "0"]
            yield words, two, told(*closest_words(two, queues))


def compare(trial):
    pick, messages = trial.pick, trial.options.messages
    for _ in range(trial.options.number):
        if pick.random() < 0.5:
            text = small_chart(pick, 4, messages)
        else:
            text = chart(pick, messages, True)
        text = text.replace(";", ";" + pick.choice(["", "\n", "\r\n", "\n\t "]))
        text = marked(pick, text) if pick.random() < 0.4 else text
        for words, asked_of, wanted in tasks(pick, text, trial.options.uniform):
            shown = wanted.output.decode("latin-1").splitlines()
            trial.noted["pairs"] += sum("again " in line and ":" in line for line in shown)
            trial.noted["with races left"] += b"[race]" in wanted.output
            trial.compare([*words, "-"], asked_of.encode("latin-1"), wanted)
