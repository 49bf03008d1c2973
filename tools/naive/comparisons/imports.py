"""What `msc import` prints of random Mermaid diagrams, and of diagrams at the limits.

Half of the texts have a mistake in their lines or their bytes, and some stand in Markdown; faults
have their places and notes. Some name their queues in a comment, and so does the chart; some have
marks, and so have its events. `msc read` prints what is printed as a chart again, but for these
comments, and `msc check` judges it, with the same queues as the diagram if it names some.
"""
import re

from generators.imports import at_the_limits, tried
from harness import Answer, run, shown
from models.answers import import_answer

NEEDS_PROGRAM = True
OPTIONS = {"number": 2000, "uniform": False}
COMMENT = re.compile(rb" comment '(?:[^']|'')*';")


def texts(trial):
    """The texts, the options, and whether the events are listed."""
    for text, words in at_the_limits():
        yield text.encode(), words, False
    for _ in range(trial.options.number):
        yield tried(trial.pick, trial.options.uniform)


def compare(trial):
    for text, words, listed in texts(trial):
        words = [*words, "--places"]
        wanted = import_answer(text, words, listed)
        trial.compare(["import", *words, *["--list"] * listed, "-"], text, wanted)
        found = re.match(rb"import fault \d+", wanted.error)
        trial.noted[found[0].decode() if found else "no fault"] += 1
        if not listed and wanted.status == 0:
            canonical = COMMENT.sub(b";", wanted.output)
            trial.compare(["read", "-"], wanted.output, Answer(canonical, b"", 0))
            queues = "own" if COMMENT.search(wanted.output.split(b"\n")[0] + b"\n") else "pair"
            trial.noted["charts with marks"] += b" comment 'race ok" in wanted.output
            judged = [trial.program, "check", "--queues", queues, "--quiet", "-"]
            done = run(judged, wanted.output)
            trial.noted["charts that name their queues"] += queues == "own"
            trial.add(done.status in (0, 1), shown(text), f"is no chart: {done.error!r}")
