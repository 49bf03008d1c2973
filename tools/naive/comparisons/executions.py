"""What `msc run` prints of random charts is an execution, and what its trace reverses is a race.

Each chart is run with each kind of queues, in part with rules for links, with the patience that
`msc run` has without one, and with small ones, so that instances do not finish. With --plain
PROGRAM is bench/plain/out/release/executions; there are no actions, no rules, and no other
patience, which it does not know.
"""
from generators.charts import chart
from generators.links import some_queues
from harness import run
from models.chart import Chart
from models.executions import PATIENCE, Wrong, expect, is_execution, reversals

NEEDS_PROGRAM = True
OPTIONS = {"number": 100, "messages": 16, "plain": False, "uniform": False}


def tasks(trial):
    """Texts of charts, what is said of their queues, the charts, and how patient their instances
    are."""
    it = trial.options
    for _ in range(it.number):
        text = chart(trial.pick, it.messages, not it.plain)
        few = () if it.plain else (0, trial.pick.randint(1, 30))
        for given, queues in some_queues(trial.pick, text, it.plain or it.uniform):
            drawn = Chart(text, queues)
            for patience in (PATIENCE, PATIENCE, *few):
                yield text, given, drawn, patience


def compare(trial):
    for text, given, drawn, patience in tasks(trial):
        words = [given.queues]
        if not trial.options.plain:
            words = ["run", *given.words(), "--patience", str(patience), "-"]
        done = run([trial.program, *words], text.encode("latin-1"))
        printed = done.output.decode("latin-1")
        try:
            ends, trace = is_execution(drawn, patience, printed, done.status)
            reversed_pairs = reversals(drawn, trace)
            expect(set(reversed_pairs) <= set(drawn.races()), "what the trace reverses is no race")
        except Wrong as wrong:
            trial.add(False, f"{text!r}\n{given}, patience {patience}: {wrong}\n{printed}")
            continue
        trial.add(True)
        trial.noted["executions that reverse a race"] += bool(reversed_pairs)
        trial.noted.update(f"instances {end}" for end in ends)
