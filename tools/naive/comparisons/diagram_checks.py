"""What `msc check --from` prints of random Mermaid diagrams, and of diagrams at the limits.

Most of the texts are small diagrams without a mistake; some stand in a file, and some in Markdown.
Two of three have rules for links, and some name their queues in a comment. Faults have their places
and notes. Before these come wrong words.
"""
import pathlib
import re
import tempfile

from generators.diagram_checks import tried, wrong_words
from harness import Answer
from models.answers import diagram_check_answer

NEEDS_PROGRAM = True
OPTIONS = {"number": 600, "uniform": False}


def compare_words(trial):
    """Compares what is said of wrong words."""
    for words, said in wrong_words():
        wanted = f"error: {said}\n\nFor more information, try '--help'.\n".encode()
        trial.compare(["check", "--queues", "pair", *words, "-"], b"", Answer(b"", wanted, 2))


def compare(trial):
    compare_words(trial)
    with tempfile.TemporaryDirectory() as folder:
        options = trial.options
        for text, words, file in tried(trial.pick, options.number, options.uniform):
            if file != "-":
                pathlib.Path(folder, file).write_bytes(text)
            wanted = diagram_check_answer(text, words, file, True)
            trial.compare(["check", *words, file], text, wanted, cwd=folder)
            found = re.match(rb"(accept|import|link) fault \d+", wanted.error)
            trial.noted[found[0].decode() if found else ("pass", "races")[wanted.status]] += 1
            trial.noted["races told"] += len(re.findall(rb"^race ", wanted.output, re.M))
