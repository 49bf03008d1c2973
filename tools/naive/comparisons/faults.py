"""What `msc check --places` and `msc read --places` write of the faults of random texts.

The texts are charts with mistakes, and half of them diagrams; every second one is standard input,
the others are files. With --format lines `check` prints the faults as lines for editors, on
standard output. `read` is given the diagrams.
"""
import pathlib
import re
import tempfile

from generators.diagrams import in_markdown, text_of
from generators.mistakes import mistaken
from harness import Answer, joined, run, shown
from models.notes import answer, faults_of

NEEDS_PROGRAM = True
OPTIONS = {"number": 2000}
# the file that has a text, and what is printed of its name
FILE, SHOWN = "some\x01 text.msc", "some? text.msc"


def diagram(pick):
    """A diagram, or a text of Markdown with some."""
    text = text_of(pick)
    return in_markdown(pick, text)[0] if pick.random() < 0.5 else text


def compare_check(trial, text, faults, folder):
    """Compares what `check` prints of a text, on a file of a folder or on standard input."""
    if folder:
        (folder / FILE).write_bytes(text)
    asked, file = ["check", "--queues", "pair"], FILE if folder else "-"
    shown_file = SHOWN if folder else "-"
    if not faults.printed:
        done = run([trial.program, *asked, "--places", file], text, cwd=folder)
        told = f"wanted no fault, got {done.error!r}, status {done.status}"
        trial.add(done.error == b"" and done.status in (0, 1), shown(text), told)
        return
    lines = faults.lines(shown_file)
    wanted = Answer(b"", joined(lines), 2)
    trial.compare([*asked, "--places", file], text, wanted, cwd=folder)
    wanted = Answer(joined(faults.editor_lines(shown_file)), joined(lines[:1]), 2)
    trial.compare([*asked, "--format", "lines", file], text, wanted, cwd=folder)


def compare_read(trial, text):
    """Compares what `read` writes to standard error of a diagram."""
    done = run([trial.program, "read", "--places", "-"], text)
    wanted = joined(answer(text, is_check=False))
    trial.add(done.error == wanted, shown(text), f"read: wanted {wanted!r}\ngot {done.error!r}")


def compare(trial):
    with tempfile.TemporaryDirectory() as folder:
        for number in range(trial.options.number):
            is_diagram = trial.pick.random() < 0.5
            text = diagram(trial.pick) if is_diagram else mistaken(trial.pick)
            faults = faults_of(text)
            compare_check(trial, text, faults, pathlib.Path(folder) if number % 2 else None)
            if is_diagram:
                compare_read(trial, text)
            lines = faults.lines()
            trial.noted[re.match(r"\w+ fault \d+", lines[0])[0] if lines else "no fault"] += 1
            trial.noted.update({f"with {line.split()[0]}" for line in lines[4:]})
