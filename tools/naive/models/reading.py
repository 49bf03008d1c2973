"""The texts of charts, read as docs/LANGUAGE.md says: tokens, drafts, and the first fault.

    tools/naive/print.py reading [--chart] < TEXT

prints what `msc read` prints: the canonical text, or on standard error the line of its first fault.
With --chart faults of charts are named too, as `msc check` does. Words, the places of the grammar
and faults are tables as there, written for a reader and not for speed. It shares nothing with the
crates, so that what a text is answered can be taken from it. The exit status is 0, or 2 where the
text is refused.
"""
import re
import sys
from typing import NamedTuple

from harness import Answer, parser, put

# bytes of a text, bytes of a name, instances, messages, actions
MOST, LONGEST, INSTANCES, MESSAGES, ACTIONS = 1048576, 64, 32, 1024, 1024
SUPPORTED = ("msc endmsc inst instance endinstance in from out to action"
             " concurrent endconcurrent comment").split()
UNSUPPORTED = "env condition set reset timeout create stop".split()
# the sorts of pieces that a text is made of
PIECE = re.compile(rb"""(?P<space>[ \t\r\n]+) | (?P<note>/\*.*?\*/) | (?P<text>'(?:[^']|'')*'(?!'))
                        | (?P<run>[A-Za-z0-9_]+) | (?P<mark>[;,:()])""", re.DOTALL | re.VERBOSE)


class Refused(Exception):
    """What is said of a text that is refused: the line of its first fault."""


class Token(NamedTuple):
    at: int
    # `name`, `text`, a mark, or a reserved word in small letters
    kind: str
    bytes: bytes


def token(at, piece, found):
    """The token of a piece that is neither white space nor a note."""
    if piece == "run":
        word = found.decode().lower()
        kind = word if word in SUPPORTED or word in UNSUPPORTED else "name"
        if kind == "name" and len(found) > LONGEST:
            raise Refused(f"lexical fault 5 at {at}: name longer than {LONGEST} bytes")
        return Token(at, kind, found)
    return Token(at, found.decode() if piece == "mark" else "text", found)


def flaw(text, at):
    """The fault at a place where no piece begins."""
    if text.startswith(b"/*", at):
        return Refused(f"lexical fault 3 at {at}: note without end")
    if text.startswith(b"'", at):
        return Refused(f"lexical fault 4 at {at}: text without end")
    return Refused(f"lexical fault 2 at {at}: byte that begins no token")


def tokens(text):
    """The tokens of a text, in order."""
    if len(text) > MOST:
        raise Refused(f"lexical fault 1: text longer than {MOST} bytes")
    found, at = [], 0
    while at < len(text):
        piece = PIECE.match(text, at)
        if not piece:
            raise flaw(text, at)
        if piece.lastgroup not in ("space", "note"):
            found.append(token(at, piece.lastgroup, piece[0]))
        at = piece.end()
    return found


def places():
    """What is expected at each place, and for each token that may follow there the next place."""
    table = {}

    def end(place, then, **more):
        """A place where a statement ends, or one of these tokens follows."""
        follow = {";": then, "comment": f"{place} comment", **more}
        table[place] = "the end of the statement", follow
        table[f"{place} comment"] = "a text", {"text": f"{place} comment text"}
        table[f"{place} comment text"] = "the end of the statement", {";": then}

    def kind(place, then, **more):
        """The place behind the name of an instance, which may have a kind."""
        end(place, then, **{":": f"{place} :"}, **more)
        table[f"{place} :"] = "a name", {"name": f"{place} kind"}
        end(f"{place} kind", then, name=f"{place} kind name", **more)
        end(f"{place} kind name", then, **more)

    def signal(place, word, then):
        """The place behind `out` or `in`."""
        address, parameters, past = f"{place} {word}", f"{place} (", f"{place} )"
        table[place] = "a name", {"name": f"{place} name"}
        table[f"{place} name"] = word, {",": f"{place} ,", "(": parameters, word: address}
        table[f"{place} ,"] = "a name", {"name": f"{place} number"}
        table[f"{place} number"] = word, {"(": parameters, word: address}
        table[parameters] = "a parameter list", {"name": f"{place} parameter", ")": past}
        table[f"{place} parameter"] = "a parameter list", {",": f"{place} ( ,", ")": past}
        table[f"{place} ( ,"] = "a name", {"name": f"{place} parameter"}
        table[past] = word, {word: address}
        table[address] = "a name", {"name": f"{address} name"}
        end(f"{address} name", then)

    def events(place, what, **more):
        """The beginning of a statement that may be an event."""
        ways = {way: f"{place} {way}" for way in ("out", "in", "action")}
        table[place] = what, {**ways, **more}
        signal(ways["out"], "to", place)
        signal(ways["in"], "from", place)
        table[ways["action"]] = "a text", {"text": f"{place} action text"}
        end(f"{place} action text", place)

    table["start"] = "msc", {"msc": "msc"}
    table["msc"] = "a name", {"name": "msc name"}
    end("msc name", "header")
    table["header"] = "a section", {"inst": "inst", "instance": "instance", "endmsc": "endmsc"}
    table["inst"] = "a name", {"name": "inst name"}
    kind("inst name", "header", **{",": "inst"})
    table["instance"] = "a name", {"name": "instance name"}
    kind("instance name", "items")
    events("items", "an item", concurrent="concurrent", endinstance="endinstance")
    end("concurrent", "events")
    events("events", "an event", endconcurrent="endconcurrent")
    end("endconcurrent", "items")
    end("endinstance", "sections")
    table["sections"] = "a section", {"instance": "instance", "endmsc": "endmsc"}
    end("endmsc", "past")
    table["past"] = "the end of the text", {}
    return table


PLACES = places()


def expected(at, place):
    return Refused(f"grammar fault 3 at {at}: expected {PLACES[place][0]}")


def accept(found, length):
    """Goes from place to place along the tokens of a text of this length."""
    place = "start"
    for at, kind, _ in found:
        follow = PLACES[place][1]
        if kind in UNSUPPORTED:
            raise Refused(f"grammar fault 2 at {at}: {kind} is not supported")
        if kind not in follow:
            raise expected(at, place)
        place = follow[kind]
    if place != "past":
        raise expected(length, place)


class Decl(NamedTuple):
    name: bytes
    kind: list

    def text(self):
        return b" ".join([self.name, *([b":", *self.kind] if self.kind else [])])


class Event(NamedTuple):
    # `out`, `in` or `action`
    way: str
    # of an action its text alone, between its outer apostrophes
    name: bytes
    number: bytes = None
    parameters: list = []
    address: bytes = None

    def text(self):
        """The statement of the event, without its `;`."""
        if self.way == "action":
            return b"action '" + self.name + b"'"
        number = b", " + self.number if self.number is not None else b""
        listed = b"(" + b", ".join(self.parameters) + b")" if self.parameters else b""
        towards = b" to " if self.way == "out" else b" from "
        return self.way.encode() + b" " + self.name + number + listed + towards + self.address


class Section(NamedTuple):
    decl: Decl
    # each a list of events: one that stands by itself as a tuple, a coregion as a list
    items: list


def statements(found):
    """The tokens of each statement, without its comment and its `;`."""
    statement = []
    for it in found:
        if it.kind == ";":
            kinds = [it.kind for it in statement]
            yield statement[:kinds.index("comment")] if "comment" in kinds else statement
            statement = []
        else:
            statement.append(it)


def decl(run):
    """The instance of these tokens: its name, and behind a `:` its kind."""
    return Decl(run[0].bytes, [it.bytes for it in run[2:]])


def event(run):
    """The event of a statement's tokens."""
    way, kinds, names = run[0].kind, [it.kind for it in run], [it.bytes for it in run]
    if way == "action":
        return Event(way, names[1][1:-1])
    listed = names[kinds.index("("):kinds.index(")")] if "(" in kinds else []
    parameters = [name for name in listed if name not in (b"(", b",")]
    return Event(way, names[1], names[3] if kinds[2] == "," else None, parameters, names[-1])


class Draft:
    """What a text says: the chart's name, the names of its header, and its sections."""

    def __init__(self, text):
        found = tokens(text)
        accept(found, len(text))
        self.header, self.sections, shared = [], [], None
        for run in statements(found):
            word = run[0].kind
            if word == "msc":
                self.name = run[1].bytes
            elif word == "inst":
                commas = [n for n, it in enumerate(run) if it.kind == ","]
                bounds = zip([0, *commas], [*commas, len(run)])
                self.header += [decl(run[start + 1:past]) for start, past in bounds]
            elif word == "instance":
                self.sections.append(Section(decl(run[1:]), []))
            elif word == "concurrent":
                shared = []
                self.sections[-1].items.append(shared)
            elif word == "endconcurrent":
                shared = None
            elif word in ("out", "in", "action"):
                if shared is None:
                    self.sections[-1].items.append((event(run),))
                else:
                    shared.append(event(run))

    def canonical(self):
        """The canonical text."""
        lines = [b"msc " + self.name + b";"]
        if self.header:
            lines.append(b"inst " + b", ".join(it.text() for it in self.header) + b";")
        for section in self.sections:
            lines.append(b"instance " + section.decl.text() + b";")
            for item in section.items:
                if isinstance(item, tuple):
                    lines.append(b"  " + item[0].text() + b";")
                else:
                    inner = [b"    " + it.text() + b";" for it in item]
                    lines += [b"  concurrent;", *inner, b"  endconcurrent;"]
            lines.append(b"endinstance;")
        return b"".join(line + b"\n" for line in [*lines, b"endmsc;"])

    def instances(self):
        return [section.decl.name for section in self.sections]

    def events(self):
        """Each event, with the numbers of its section and of its item there."""
        for line, section in enumerate(self.sections):
            for place, item in enumerate(section.items):
                yield from ((line, place, it) for it in item)

    def fault(self):
        """Why the draft is no chart, or None: the fault that stands first in docs/LANGUAGE.md, at
        its least place."""
        return next((f"chart fault {line}" for line in chart_faults(self)), None)


def key(line, event, names):
    """What tells a message from others: its sender, its receiver, its name and its message instance
    name."""
    own, other = names[line], event.address
    return (own, other, *event[1:3]) if event.way == "out" else (other, own, *event[1:3])


def chart_faults(draft):
    """The faults of a draft, in their order, and of each kind from its least place on."""
    names, events = draft.instances(), list(draft.events())
    if len(names) > INSTANCES:
        yield f"1: more than {INSTANCES} instances"
    for i, name in enumerate(names):
        if name in names[:i]:
            yield f"2: section {i} repeats an instance name"
    for k, it in enumerate(draft.header):
        if it.name not in names:
            yield f"3: header name {k} has no section"
    for e, (_, _, it) in enumerate(events):
        if it.way != "action" and it.address not in names:
            yield f"4: event {e} has an unknown address"
    count = {way: sum(it.way == way for _, _, it in events) for way in ("out", "in", "action")}
    if max(count["out"], count["in"]) > MESSAGES:
        yield f"5: more than {MESSAGES} messages"
    if count["action"] > ACTIONS:
        yield f"11: more than {ACTIONS} actions"
    yield from end_faults([(it.way, key(line, it, names)) for line, _, it in events])
    after = {e: set(followers(e, events, names)) for e in range(len(events))}
    for e in after:
        if e in reached(e, after):
            yield f"9: event {e} precedes itself"


def end_faults(ends):
    """The faults of messages that stand twice, or at one end alone."""
    for e, end in enumerate(ends):
        if end[0] != "action" and end in ends[:e]:
            yield f"6: event {e} repeats a message"
    for number, way, other, name in ((7, "out", "in", "output"), (8, "in", "out", "input")):
        for e, end in enumerate(ends):
            if end[0] == way and (other, end[1]) not in ends:
                yield f"{number}: {name} {e} has no {'input' if way == 'out' else 'output'}"


def followers(e, events, names):
    """The events that a rule of the visual order puts right after e: those drawn after it on its
    line, and the input of its message."""
    line, place, it = events[e]
    for f, (other, later, end) in enumerate(events):
        if line == other and place < later:
            yield f
        elif it.way == "out" and end.way == "in" and key(line, it, names) == key(other, end, names):
            yield f


def reached(e, after):
    """All that comes after e by one rule or by several."""
    found, waiting = set(), set(after[e])
    while waiting:
        x = waiting.pop()
        found.add(x)
        waiting |= after[x] - found
    return found


def main(given):
    words = parser(__doc__)
    words.add_argument("--chart", action="store_true")
    has_chart = words.parse_args(given).chart
    try:
        draft = Draft(sys.stdin.buffer.read())
        if has_chart and draft.fault():
            raise Refused(draft.fault())
        return put(Answer(draft.canonical(), b"", 0))
    except Refused as fault:
        return put(Answer(b"", f"{fault}\n".encode(), 2))
