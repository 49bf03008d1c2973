"""What is stored of `msc check` and `msc import` in the transcripts of charts/import.

Both streams and the status have to be what the models print. With --write what differs is stored.
"""
import pathlib
import shlex
import sys

from models.answers import diagram_check_answer, import_answer

TOP = pathlib.Path(__file__).resolve().parents[3]
sys.path.append(str(TOP / "tools"))
import transcripts

NEEDS_PROGRAM = False
OPTIONS = {"write": False}


def wanted_of(command):
    """What a command has to print, or None if no model says it."""
    program, *words = shlex.split(command)
    if "|" in words or program != "msc":
        return None
    verb, *options, path = words
    text = (TOP / path).read_bytes()
    if verb == "check":
        return diagram_check_answer(text, options, path, True)
    listed = ["--list", path] if "--list" in options else []
    options = ["--name", pathlib.Path(path).stem, *(it for it in options if it != "--list")]
    return import_answer(text, [*options, *listed])


def compare(trial):
    for file in sorted((TOP / "charts/import").rglob("*.cases")):
        head, cases = transcripts.cases_of(file)
        answered = [(case, wanted_of(case.command)) for case in cases]
        if trial.options.write:
            transcripts.write(file, head, answered)
        for case, wanted in answered:
            if wanted:
                is_stored = case.is_answered(wanted)
                if not is_stored:
                    transcripts.show(file, case, wanted)
                trial.add(is_stored)
