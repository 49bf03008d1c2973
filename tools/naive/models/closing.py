"""The closing line of `--format full`, of a file or of a diagram in Markdown, and the help on
marks.
"""
from models.diagnostic import BOLD, painted
from models.links import written

OF_CHARTS = "the comment 'race ok: REASON' of one of its events"
OF_DIAGRAMS = 'the line "%% race ok: REASON" above one of its arrows'


def counted(number, one, several):
    """A number of things, with `no` for 0."""
    return f"{number or 'no'} {one if number == 1 else several}"


def parts(wider=0, left_out=0, accepted=0, stale=0, shown=None):
    """The further parts of what `check` found; `shown` is there if the list was cut."""
    if wider:
        word = "wider one" if wider == 1 else "wider ones"
        yield f"{wider} {word}, across these, not shown"
    if left_out:
        yield f"{left_out} left out by --allow"
    if accepted:
        yield f"{accepted} accepted"
    if stale:
        yield counted(stale, "stale mark", "stale marks")
    if shown is not None:
        yield f"{shown} shown"


def free_part(free, scenarios):
    """The scenarios without a race."""
    return f"; {free} of {scenarios} scenarios {'is' if free == 1 else 'are'} free of races"


def closing(file, verdict, has_colours):
    return painted([(BOLD, f"{file}: "), (None, verdict)], has_colours)


def verdict_on(said, queues, names):
    """What is found, and with which queues."""
    return f"{said} (queues: {written(queues.usual, queues.others(names))})"


def refused(further=0):
    word = "fault" if further == 1 else "faults"
    return "refused" + (f", {further} more {word} not shown" if further else "")


def help_line(way, has_colours):
    text = f": a race that is meant is accepted by {way}"
    return painted([(BOLD, "help"), (None, text)], has_colours)
