"""What is stored of `msc follow`, and of lines for editors, in the transcripts of charts/.

Both streams and the status have to be what the models print. With --write what differs is stored.
"""
import pathlib
import shlex
import sys

from harness import Answer, joined
from models import notes
from models.answers import fault_of, follow_answer
from models.chart import Chart
from models.links import LinkFault, parted
from models.marks import fault_of as fault_of_marks
from models.marks import marks_for
from models.own import of_chart
from models.races import study
from models.rounds import arguments, check_answer
from models.shown import places_of

TOP = pathlib.Path(__file__).resolve().parents[3]
sys.path.append(str(TOP / "tools"))
import transcripts

NEEDS_PROGRAM = False
OPTIONS = {"write": False}
# the options of `follow`, and those of `check` that its model has
ON_DRAWINGS = ([], ["--words"], ["--places"], ["--plain"], ["--words", "--places"])
ON_LINES = {"--format", "--closest", "--most", "--allow", "--accept", "--again", "--plain", "-q"}


def read(words):
    """The name of the file that these words end with, and its text."""
    is_input = words[-1].startswith("<")
    path = TOP / words[-1].removeprefix("<")
    return "-" if is_input else words[-1], path.read_bytes() if path.is_file() else None


def options_of(words):
    """What the words before the file say of queues, and the others of them."""
    return parted(words[: -2 if words[-1].startswith("<") else -1])


def faults_of_links(text, given):
    """The fault of a chart's links, or none."""
    try:
        of_chart(text, given)
    except LinkFault as fault:
        return notes.link_faults(text, fault)
    return notes.Faults(text)


def follow_wanted(words):
    """What `follow` has to print, or None if no model says it."""
    file, text = read(words)
    given, options = options_of(words) if text is not None else (None, None)
    if options not in ON_DRAWINGS:
        return None
    placed = file if "--places" in options else None
    if placed:
        found = notes.faults_of(text, is_check=False)
        found = found if found.printed else faults_of_links(text, given)
        if found.printed:
            return Answer(b"", joined(found.lines(file)), 2)
    return follow_answer(text, given, "--words" in options, placed)


def lines_wanted(words):
    """What `check --format lines` has to print of a chart, or None if no model says it."""
    file, text = read(words)
    given, options = options_of(words)
    if text is None or {it for it in options if it[0] == "-"} - ON_LINES or fault_of(text):
        return None
    found = faults_of_links(text, given)
    if found.printed:
        return Answer(joined(found.editor_lines(file)), joined(found.lines()[:1]), 2)
    again, told, queues = "--again" in options, text.decode("latin-1"), of_chart(text, given)
    if "--accept" in options and fault_of_marks(told):
        return None
    options = [it for it in options if it not in ("--again", "--plain")]
    options, marks = vars(arguments(__doc__, ["check", *options, "own"])), marks_for(told, queues)
    if again:
        lines, status = check_answer(told, queues, options, marks, file)
    else:
        lines, status = study(Chart(told, queues), places_of(text, file), options, marks)
    return Answer(joined(lines), b"", status)


def wanted_of(command):
    """What a command has to print, or None if no model says it."""
    program, *words = shlex.split(command)
    if program != "msc" or not words or "|" in words or "--queues" not in words:
        return None
    if words[0] == "follow":
        return follow_wanted(words[1:])
    is_lines = words[0] == "check" and "--format lines" in " ".join(words)
    return lines_wanted(words[1:]) if is_lines else None


def compare(trial):
    for file in sorted((TOP / "charts").rglob("*.cases")):
        head, cases = transcripts.cases_of(file)
        answered = [(case, wanted_of(case.command)) for case in cases]
        if trial.options.write and any(wanted for _, wanted in answered):
            transcripts.write(file, head, answered)
        for case, wanted in answered:
            if wanted:
                is_stored = trial.options.write or case.is_answered(wanted)
                if not is_stored:
                    transcripts.show(file, case, wanted)
                trial.add(is_stored)
