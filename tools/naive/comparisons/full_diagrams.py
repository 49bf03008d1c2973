"""What `msc check --from` prints of random diagrams with `--format full`, and what `msc import` makes
of their marks.
"""
import pathlib
import re
import tempfile

from generators.diagram_checks import FILES, one
from generators.diagram_marks import with_marks
from generators.imports import words_of as import_words
from models.answers import diagram_check_answer, import_answer

NEEDS_PROGRAM = True
HEAD = re.compile(rb"^(?:\x1b\[[0-9;]*m)?(?:error|warning)\[(\w+)", re.MULTILINE)
OPTIONS = {"number": 300, "uniform": False}


def tried(pick, is_uniform):
    """A text and the words on it."""
    text, words = one(pick, is_uniform)
    text = with_marks(pick, text) if pick.random() < 0.7 else text
    if "--format" in words:
        at = words.index("--format")
        del words[at:at + 2]
    return text, [*words, "--format", "full", "--color", pick.choice(["always", "never"])]


def compare(trial):
    pick = trial.pick
    with tempfile.TemporaryDirectory() as folder:
        for _ in range(trial.options.number):
            text, words = tried(pick, trial.options.uniform)
            file = pick.choice(["-", "-", *FILES])
            if file != "-":
                pathlib.Path(folder, file).write_bytes(text)
            wanted = diagram_check_answer(text, words, file, True)
            trial.compare(["check", *words, file], text, wanted, cwd=folder)
            found = HEAD.findall(wanted.output)
            trial.noted.update(word.decode() for word in found)
            words = [*import_words(pick), "--places"]
            wanted = import_answer(text, words)
            trial.noted["marks of charts"] += wanted.output.count(b"comment 'race ok")
            trial.compare(["import", *words, "-"], text, wanted)
