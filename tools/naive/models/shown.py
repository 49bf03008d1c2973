"""How the events and runs of a chart are printed, and where its events are in the text."""
from models.notes import place
from models.reading import tokens


def places_of(text, file="-"):
    """The place of each event in a file of this name, in the order of the text."""
    found = tokens(text)
    return [place(text, it.at, file) for it in found if it.kind in ("out", "in", "action")]


def named(drawn, e):
    """An event behind the name of its instance."""
    event = drawn.events[e]
    return f"{drawn.names[event.line]} {event.text}"


def pair_line(drawn, word, e, f):
    """A line of a word and two events."""
    return f"{word} {e} {f}: {named(drawn, e)}; {named(drawn, f)}"


def run_lines(drawn, run, words):
    """A run by the numbers of its events, or in words."""
    if not words:
        return [" ".join(map(str, ["run", *run]))]
    return [f"steps {len(run)}", *(f"{e} {named(drawn, e)}" for e in run)]
