"""What `msc check --accept` prints of random charts with marks.

Some statements have a comment: a mark that is right, one that fits no race, a faulty one, or any
other text. Each chart is checked with each kind of queues, in part with rules for links; a mark
that names kinds is for the usual one.
"""
from generators.charts import chart, marked
from generators.links import some_queues
from harness import Answer, joined
from models.marks import answer

NEEDS_PROGRAM = True
OPTIONS = {"number": 200, "messages": 10, "uniform": False}


def compare(trial):
    for _ in range(trial.options.number):
        text = marked(trial.pick, chart(trial.pick, trial.options.messages, True))
        for given, queues in some_queues(trial.pick, text, trial.options.uniform):
            lines, fault, status, (taken, left) = answer(text, queues)
            trial.noted["races accepted"] += taken
            trial.noted["marks stale"] += left
            trial.noted["comments faulty"] += status == 2
            words = ["check", *given.words(), "--accept", "--show", "0", "-"]
            wanted = Answer(joined(lines), fault.encode("latin-1"), status)
            trial.compare(words, text.encode("latin-1"), wanted)
