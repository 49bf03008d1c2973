"""What `msc check` and `msc ready` print of random charts with `--format full`.

The charts have random line ends, and some have marks or name their queues; others of the texts have
mistakes.
"""
import re

from generators.charts import chart, crossed_chart, marked, small_chart
from generators.links import some_queues, with_own
from generators.mistakes import mistaken
from models.answers import fault_of, full_answer
from models.links import KINDS, Given
from models.races import KINDS as SORTS

NEEDS_PROGRAM = True
OPTIONS = {"number": 300, "messages": 8, "lines": 4, "uniform": False}
ENDS = ["", "\n", "\n", "\r\n", "\n\t ", " " * 90]


def text_of(trial):
    """A random text; one of three has a mistake."""
    pick, options = trial.pick, trial.options
    sort = pick.randrange(6)
    if sort < 2:
        return mistaken(pick)
    if sort == 2:
        text = small_chart(pick, options.lines, options.messages)
    elif sort == 3:
        text = crossed_chart(pick, options.lines, options.messages)
    else:
        text = chart(pick, options.messages, True)
    text = text.replace(";", ";" + pick.choice(ENDS))
    return (marked(pick, text) if pick.random() < 0.5 else text).encode("latin-1")


def words_of(pick, command):
    """Random options."""
    words = ["--show", str(pick.choice([0, 0, 1, 2, 2 ** 32 - 1]))]
    words += ["--again"] * (pick.random() < 0.3)
    words += ["--color", pick.choice(["always", "never"])]
    if command == "check":
        words += ["--most", str(pick.choice([0, 1, 2]))] * (pick.random() < 0.3)
        words += ["--accept"] * (pick.random() < 0.4)
        return words + [word for sort in SORTS if pick.random() < 0.15
                        for word in ("--allow", sort)]
    names = [*(f"p{i}" for i in range(4)), *(f"i{i}" for i in range(4)), "nobody"]
    only = [pick.choice(names) for _ in range(pick.choice([0, 0, 1, 2]))]
    return words + [word for name in only for word in ("--only", name)]


def queues_of(trial, text):
    """What a command line says of queues."""
    pick = trial.pick
    if fault_of(text):
        return Given(pick.choice(KINDS)), text
    if pick.random() < 0.2 and not trial.options.uniform:
        return Given("own"), with_own(pick, text.decode("latin-1")).encode("latin-1")
    held = text.decode("latin-1")
    return pick.choice([given for given, _ in some_queues(pick, held, trial.options.uniform)]), text


def compare(trial):
    pick = trial.pick
    for _ in range(trial.options.number):
        given, text = queues_of(trial, text_of(trial))
        command = pick.choice(["check", "check", "ready"])
        words = words_of(pick, command)
        wanted = full_answer(text, command, given, words)
        trial.compare([command, "--format", "full", *words, *given.words(), "-"], text, wanted)
        found = re.findall(rb"^(?:\x1b\[[0-9;]*m)?(?:error|warning)\[(\w+)", wanted.output, re.M)
        trial.noted.update(word.decode() for word in found)
