"""What `msc ready` prints of small random charts with its options."""
from generators.charts import small_chart
from generators.links import some_queues
from models.ready import ALL, answered

NEEDS_PROGRAM = True
OPTIONS = {"number": 100, "messages": 5, "lines": 4, "uniform": False}


def compare_one(trial, text, given, queues):
    """Compares what is printed of a chart."""
    pick, names = trial.pick, [f"p{i}" for i in range(trial.options.lines)]
    only = [pick.choice(names) for _ in range(pick.choice([0, 0, 1, 2]))]
    show = pick.choice([0, 1, ALL])
    words, placed = pick.random() < 0.5, pick.random() < 0.5
    form = pick.choice(["text", "text", "count", "lines", "lines"])
    wanted = answered(text, queues, only, show, words, "-" if placed else None, form)
    asked = ["ready", *given.words(), "--show", str(show), *["--format", form] * (form != "text")]
    asked += [word for name in only for word in ("--only", name)]
    asked += ["--words"] * words + ["--places"] * placed + ["-"]
    trial.noted["sticks"] += wanted.output.count(b"stick ")
    trial.noted["in lines"] += wanted.output.count(b"[stick]")
    trial.noted["left in lines"] += wanted.output.count(b"[race]")
    trial.compare(asked, text.encode("latin-1"), wanted)


def compare(trial):
    for _ in range(trial.options.number):
        text = small_chart(trial.pick, trial.options.lines, trial.options.messages)
        for given, queues in some_queues(trial.pick, text, trial.options.uniform):
            compare_one(trial, text, given, queues)
