"""Marks of the text that accept races, by the definitions of docs/MODEL.md."""
import re

from models.chart import TOKEN, Chart
from models.links import architecture

ARCHITECTURE = "(?:pair|mailbox|single)"
IDENT = r"\w+(?:, \w+)?"
PARTS = re.compile(
    f"race ok(?: in ({ARCHITECTURE}(?:, {ARCHITECTURE})*))?(?: with ({IDENT}(?:; {IDENT})*))?",
    re.ASCII,
)
FAULTS = {1: "expected in, with or a reason", 2: "no reason"}


def reading(held):
    """What the text of a comment says: a mark, as its architectures and the other events, each none
    where it is for all; the number of a fault; or none."""
    if not held.startswith("race ok"):
        return None
    head, colon, reason = held.partition(":")
    parts = PARTS.fullmatch(head)
    if not parts:
        return 1
    if not any(ord(byte) > 32 for byte in reason):
        return 2
    queues, others = parts.groups()
    return queues and queues.split(", "), others and others.split("; ")


def comments(text):
    """For each event the place and the text of its comment, or none."""
    found, at, begun, last = [], 0, False, None
    for token in TOKEN.findall(text):
        if token.lower() in ("out", "in", "action"):
            found.append(None)
            begun = True
        elif token == ";":
            begun = False
        elif begun and token.startswith("'") and last == "comment":
            found[-1] = at, token[1:-1].replace("''", "'")
        if not token.isspace() and not token.startswith("/*"):
            last = token.lower()
        at += len(token)
    return found


def called(drawn, e):
    """What a mark calls event e."""
    event = drawn.events[e]
    if event.is_local:
        return "action"
    _, _, name, number = event.key
    return name if number is None else f"{name}, {number}"


def fault_of(text):
    """The line of the first comment that is to be a mark and is none, if there is one."""
    for comment in comments(text):
        said = comment and reading(comment[1])
        if isinstance(said, int):
            return f"accept fault {said} at {comment[0]}: {FAULTS[said]}"
    return None


def marks_for(text, queues):
    """The marks of events that are for an architecture, by its usual kind: for each the other
    events, or none where it is for all."""
    marks, usual = {}, architecture(queues).usual
    for e, comment in enumerate(comments(text)):
        said = comment and reading(comment[1])
        if said and not isinstance(said, int) and (said[0] is None or usual in said[0]):
            marks[e] = said[1]
    return marks


def verdict_on(drawn, races, marks):
    """Which races marks accept, and the events whose marks fit none."""

    def fits(e, f):
        return e in marks and (marks[e] is None or called(drawn, f) in marks[e])

    taken = [(e, f) for e, f in races if fits(e, f) or fits(f, e)]
    stale = [
        e
        for e in sorted(marks)
        if not any(e == x and fits(x, y) or e == y and fits(y, x) for x, y in races)
    ]
    return taken, stale


def answer(text, queues):
    """What is printed to standard output, line by line, and to standard error, the exit status, and
    how many races are accepted, and marks stale."""
    fault = fault_of(text)
    if fault:
        return [], fault + "\n", 2, (0, 0)
    drawn = Chart(text, queues)
    races = drawn.races()
    taken, stale = verdict_on(drawn, races, marks_for(text, queues))
    left = [race for race in races if race not in taken]
    lines = [*drawn.head(), f"races {len(races)}" if races else "pass"]
    lines.append(f"accepted {len(taken)}")
    for e, f in left:
        first, second = drawn.events[e], drawn.events[f]
        lines.append(f"race {e} {f} on {drawn.names[first.line]}: {first.text}; {second.text}")
    for e in stale:
        event = drawn.events[e]
        lines.append(f"stale {e} on {drawn.names[event.line]}: {event.text}")
    return lines, "", int(bool(left or stale)), (len(taken), len(stale))
