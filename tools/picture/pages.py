"""Pictures and reports that a program prints, for the commands beside this file."""
import pathlib
import random
import subprocess
import sys

sys.dont_write_bytecode = True
TOP = pathlib.Path(__file__).resolve().parent.parent.parent
sys.path.insert(0, str(TOP / "tools" / "naive"))
from generators.charts import chart
from models.chart import QUEUES, Chart


def texts(number, messages, seed):
    """The charts of charts/, and so many random ones."""
    for path in sorted((TOP / "charts").glob("*.msc")):
        yield path.read_bytes()
    pick = random.Random(seed)
    for _ in range(number):
        yield chart(pick, messages, True).encode("latin-1")


def printed(program, words, text, events=()):
    """What the program prints of a text; it has to succeed."""
    words = [program, *words, "-", *map(str, events)]
    done = subprocess.run(words, input=text, capture_output=True)
    if done.returncode or done.stderr:
        raise SystemExit(f"{text!r}\n{words}: status {done.returncode}, {done.stderr!r}")
    return done.stdout


def drawn_of(text, queues):
    return Chart(text.decode("latin-1"), queues)
