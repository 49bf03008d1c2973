"""Pictures in text that the program prints of random charts.

Of each is drawn the chart, the chart with its closest races with each kind of queues, in part with
rules for links, and for one of the races a run that reverses it; of one pair that is no race the
program has to say so.
"""
from generators.charts import chart
from generators.links import some_queues
from harness import Answer, joined
from models.chart import Chart
from models.picture import chart_picture, run_picture

NEEDS_PROGRAM = True
OPTIONS = {"number": 150, "messages": 12, "uniform": False}


def tasks(pick, text, is_uniform):
    """The words of runs over a chart's text, with the lines and the fault that each prints."""
    yield ["draw"], chart_picture(Chart(text, "pair"), False), ""
    for given, queues in some_queues(pick, text, is_uniform):
        drawn = Chart(text, queues)
        yield ["draw", *given.words()], chart_picture(drawn, True), ""
        races = drawn.races()
        reverse = ["reverse", *given.words()]
        if races:
            e, f = pick.choice(races)
            yield [*reverse, str(e), str(f)], run_picture(drawn, e, f), ""
        if len(drawn.all) > 1:
            e, f = pick.sample(drawn.all, 2)
            if (e, f) not in races:
                yield [*reverse, str(e), str(f)], [], f"pair fault 3: {e} {f} is no race\n"


def compare(trial):
    for _ in range(trial.options.number):
        text = chart(trial.pick, trial.options.messages, True)
        for (verb, *options), lines, fault in tasks(trial.pick, text, trial.options.uniform):
            flags, events = (options[:-2], options[-2:]) if verb == "reverse" else (options, [])
            wanted = Answer(joined(lines), fault.encode(), 2 if fault else 0)
            trial.noted["pictures of runs"] += verb == "reverse" and not fault
            trial.compare([verb, *flags, "-", *events], text.encode("latin-1"), wanted)
