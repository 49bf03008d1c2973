"""What `msc ready --from` prints of a scenario of a random diagram with `--format full`."""
import re
from types import SimpleNamespace

from generators.imports import tried
from harness import Answer, run
from models.full_ready_diagrams import answer
from models.links import Given

NEEDS_PROGRAM = True
OPTIONS = {"number": 200}
HEAD = re.compile(rb"^(?:\x1b\[[0-9;]*m)?(?:error|warning)\[(\w+)", re.MULTILINE)
NAME = re.compile(rb"(?m)^instance (\w+)")
OF_CHART = re.compile(rb"\Amsc \w+ comment ")


def asked_of(pick, chart):
    """What is asked of the chart of a scenario."""
    queues = ["pair", "mailbox", "mailbox", "single", *["own"] * bool(OF_CHART.match(chart))]
    names = [name.decode() for name in NAME.findall(chart)]
    only = pick.sample(names, min(len(names), pick.choice([0, 0, 0, 1, 2])))
    return SimpleNamespace(
        queues=Given(pick.choice(queues)), show=pick.choice([0, 1, 2 ** 32 - 1]), only=only,
        again=pick.random() < 0.3, colours=pick.random() < 0.3,
    )


def compare(trial):
    pick = trial.pick
    for _ in range(trial.options.number):
        text, words, _ = tried(pick, False)
        chart = run([trial.program, "import", *words, "-"], text)
        if chart.status:
            trial.noted["refused"] += 1
            continue
        asked = asked_of(pick, chart.output)
        said = ["ready", *words, *asked.queues.words(), "--format", "full"]
        said += ["--show", str(asked.show), *["--again"] * asked.again]
        said += ["--color", "always" if asked.colours else "never"]
        said += [word for name in asked.only for word in ("--only", name)]
        said += ["--from", "any"] * ("--from" not in words)
        lines, status = answer(text, "-", words, asked)
        told = "".join(f"{line}\n" for line in lines)
        wanted = Answer(told.encode("utf-8", "surrogateescape"), b"", status)
        trial.compare([*said, "-"], text, wanted)
        trial.noted.update(word.decode() for word in HEAD.findall(wanted.output))
