"""What `msc check` prints of random charts, by the model of charts.

Each chart is checked with each kind of queues, in part with rules for links, and with a random
number of runs. With --plain PROGRAM is bench/plain/out/release/checks, and there are no actions and
no rules, which it does not know.
"""
from generators.charts import chart
from generators.links import some_queues
from harness import Answer, joined
from models.chart import Chart

NEEDS_PROGRAM = True
OPTIONS = {"number": 200, "messages": 12, "plain": False, "uniform": False}


def compare(trial):
    it = trial.options
    for _ in range(it.number):
        text = chart(trial.pick, it.messages, not it.plain)
        for given, queues in some_queues(trial.pick, text, it.plain or it.uniform):
            show, drawn = trial.pick.choice([0, 1, 3, 2 ** 32 - 1]), Chart(text, queues)
            words = [given.queues, str(show)]
            if not it.plain:
                words = ["check", *given.words(), "--show", str(show), "-"]
            wanted = Answer(joined(drawn.verdict(show)), b"", int(bool(drawn.races())))
            trial.noted["races"] += len(drawn.races())
            trial.compare(words, text.encode("latin-1"), wanted)
