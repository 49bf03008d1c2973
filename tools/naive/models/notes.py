"""Places and notes of the faults of charts: what follows the line of a text's fault with --places,
and further faults of a draft. reading.py names the first fault itself. Faults are plain data, and
are printed as lines of text or as lines for editors.

    tools/naive/print.py notes < TEXT

prints what `msc check --queues pair --places -` prints on standard error. It is written for a
reader and not for speed. The exit status is 0, or 2 where the text is refused.
"""
import re
import sys
from typing import NamedTuple

from harness import Answer, joined, parser, put
from models.mermaid import has_diagram
from models.nearness import distance
from models.reading import ACTIONS, INSTANCES, MESSAGES, PIECE, PLACES, SUPPORTED, UNSUPPORTED
from models.reading import Draft, Refused, chart_faults, followers, key, statements, tokens
from models.source import Note, editor_line, note_lines

# columns that are shown of a source line, those before its place, and further faults that are told
WIDTH, BEFORE, MOST = 100, 49, 20
# the faults of charts that are told together
TOGETHER = (2, 3, 4, 6, 7, 8)
MARK = b"\xef\xbb\xbf"


def position(text, at):
    """The line and the column of a place, from 1."""
    start = text.rfind(b"\n", 0, at) + 1
    column = sum(not 128 <= byte < 192 for byte in text[start:at])
    return text.count(b"\n", 0, at) + 1, column + 1


def place(text, at, file="-"):
    return "{}:{}:{}".format(file, *position(text, at))


def excerpt(text, at):
    """The source line of a place, and the line with the caret below it."""
    start, end = text.rfind(b"\n", 0, at) + 1, text.find(b"\n", at)
    line = text[start:] if end < 0 else text[start:end]
    row = "".join(
        " " if byte == 9 else chr(byte) if 32 <= byte < 127 else "?"
        for byte in line.removesuffix(b"\r")
        if not 128 <= byte < 192
    )
    column = position(text, at)[1]
    first = max(column - BEFORE, 1)
    shown = max(min(column - 1, len(row)) - (first - 1), 0)
    return ["  " + row[first - 1:first - 1 + WIDTH], "  " + " " * shown + "^"]


class Fault(NamedTuple):
    """A fault of a text: its line, its place if it has one, and its notes."""
    line: str
    at: int = None
    notes: tuple = ()


class Faults(NamedTuple):
    """The faults of a text that are printed, none if there is no fault. `further` is the number of
    all faults after the first one."""
    text: bytes
    printed: tuple = ()
    further: int = 0

    def where(self, file):
        """What prints a place in a file of this name."""
        return lambda at: place(self.text, at, file)

    def lines(self, file="-"):
        """The line of each fault, its place and its notes; the first has its source line too."""
        where, lines = self.where(file), []
        for number, fault in enumerate(self.printed):
            lines += [f"further {self.further}"] if number == 1 else []
            lines.append(fault.line)
            if fault.at is not None:
                lines.append(f"at {where(fault.at)}")
                lines += excerpt(self.text, fault.at) if number == 0 else []
            for note in fault.notes:
                lines += note_lines(note, where)
        return lines

    def editor_lines(self, file="-"):
        """The same as lines that editors read: each fault and each note at a place."""
        where, lines = self.where(file), []
        for fault in self.printed:
            own = f"{file}:1:1" if fault.at is None else where(fault.at)
            lines.append(f"{own}: error: {fault.line}")
            lines += (editor_line(note, own, where) for note in fault.notes)
        return lines


def bytes_hint(text, at):
    """The hint on a byte that begins no token."""
    if at == 0 and text.startswith(MARK):
        return "hint the text begins with a byte order mark"
    if text[at] == ord("/"):
        return "hint notes are /* .. */"
    if text[at] == ord('"'):
        return "hint texts are '..'"
    return "hint names are letters, digits and underscores"


def lexical_notes(text, number, at):
    if number == 2:
        byte = text[at]
        found = f"character {chr(byte)}" if 33 <= byte <= 126 else f"byte {byte}"
        return [Note(f"found the {found}"), Note(bytes_hint(text, at))]
    if number == 5:
        return [Note(f"found {len(PIECE.match(text, at)[0])} bytes")]
    return []


def place_before(found, at):
    """The place of the grammar behind the tokens before a byte, and the last of these tokens."""
    state, last = "start", None
    for token in found:
        if token.at >= at:
            break
        state, last = PLACES[state][1][token.kind], token
    return state, last


def grammar_notes(text, number, at):
    found = tokens(text)
    state, last = place_before(found, at)
    token = next((it for it in found if it.at == at), None)
    notes = []
    if number == 3:
        notes.append(Note(f"found {words_of(token)}"))
        end = last.at + len(last.bytes) if last else None
        if last and position(text, end)[0] != position(text, at)[0]:
            notes.append(Note("behind", end, "what stands before ends here"))
    if token and token.kind in (*SUPPORTED, *UNSUPPORTED) and PLACES[state][0] == "a name":
        word = token.bytes.decode()
        notes.append(Note(f"hint {word} is reserved in any case; {word}_ is a name"))
    return notes


def words_of(token):
    """A token in words."""
    if token is None:
        return "the end of the text"
    if token.kind == "name":
        return f"the name {token.bytes.decode()}"
    if token.kind == "text":
        return "a text"
    return f"the reserved word {token.kind}" if token.kind.isalpha() else token.kind


def first_note(at):
    return Note("first", at, "the first one stands here")


class Placed:
    """A draft with the places of its parts."""

    def __init__(self, text):
        self.text, self.draft = text, Draft(text)
        self.names = self.draft.instances()
        self.events = list(self.draft.events())
        self.sections, self.header, self.begins, self.addresses = [], [], [], []
        for run in statements(tokens(text)):
            word = run[0].kind
            if word == "instance":
                self.sections.append(run[1].at)
            elif word == "inst":
                before = [it for it, after in zip(run, run[1:]) if it.kind in ("inst", ",")]
                self.header += [run[run.index(it) + 1].at for it in before]
            elif word in ("out", "in", "action"):
                self.begins.append(run[0].at)
                self.addresses.append(run[-1].at)
        self.keys = [
            (it.way, key(line, it, self.names)) if it.way != "action" else None
            for line, _, it in self.events
        ]

    def shown(self, e):
        """An event behind the name of its instance, as a trace has it."""
        line, _, it = self.events[e]
        own = self.names[line].decode()
        if it.way == "action":
            inner = "".join(chr(byte) if 32 <= byte <= 126 else "?" for byte in it.name)
            return f"{own} action '{inner}'"
        number = "" if it.number is None else f", {it.number.decode()}"
        towards = "to" if it.way == "out" else "from"
        return f"{own} {it.way} {it.name.decode()}{number} {towards} {it.address.decode()}"

    def place_of(self, number, n):
        """The byte at which a fault stands; n is the section, the header name or the event."""
        if number == 1:
            return self.sections[INSTANCES]
        if number == 2:
            return self.sections[n]
        if number == 3:
            return self.header[n]
        if number == 4:
            return self.addresses[n]
        if number in (5, 11):
            return self.begins[self.one_too_many(number)]
        return self.begins[n]

    def one_too_many(self, number):
        """The first event that is one too many."""
        ways = [it.way for _, _, it in self.events]
        limits = {"action": ACTIONS} if number == 11 else {"out": MESSAGES, "in": MESSAGES}
        each = ([e for e, other in enumerate(ways) if other == way] for way in limits)
        most = ACTIONS if number == 11 else MESSAGES
        return min(found[most] for found in each if len(found) > most)

    def nearest(self, name):
        """The note of the section's name that is most like a name, if one is like it."""
        far = [distance(name.lower(), other.lower()) for other in self.names]
        if not far:
            return []
        i = far.index(min(far))
        if 3 * far[i] > max(len(name), len(self.names[i])):
            return []
        return [Note(f"nearest {self.names[i].decode()}", self.sections[i])]

    def partners(self, e):
        """The other ends of the message of an event."""
        way, own = self.keys[e]
        other = "in" if way == "out" else "out"
        return [f for f, it in enumerate(self.keys) if it == (other, own)]

    def near(self, e):
        """The event that may have been meant as the other end of a message, if there is one."""
        way, (sender, receiver, name, number) = self.keys[e]
        alone = [
            f
            for f, it in enumerate(self.keys)
            if it is not None and it[0] != way and not self.partners(f)
        ]
        for like in (
            lambda s, r, n, k: (s, r, n) == (sender, receiver, name),
            lambda s, r, n, k: (n, k) == (name, number),
            lambda s, r, n, k: (s, r) == (sender, receiver),
        ):
            for f in alone:
                if like(*self.keys[f][1]):
                    return f
        return None

    def wanted(self, e):
        """The other end that is missing."""
        way, (sender, receiver, name, number) = self.keys[e]
        number = b"" if number is None else b", " + number
        ident, sender, receiver = (name + number).decode(), sender.decode(), receiver.decode()
        if way == "out":
            return f"wanted in {ident} from {sender} on {receiver}"
        return f"wanted out {ident} to {receiver} on {sender}"

    def apart(self, e):
        """What would tell the message of an event apart."""
        name = self.events[e][2].name
        taken = {it.number for _, _, it in self.events if it.way != "action" and it.name == name}
        number = 2
        while str(number).encode() in taken:
            number += 1
        return f"hint {name.decode()}, {number} tells them apart"

    def ring(self, e):
        """Of the shortest rings through an event the least."""
        every = range(len(self.events))
        after = [sorted(set(followers(f, self.events, self.names))) for f in every]
        back, waiting, far = {}, [e], 0
        while waiting:
            far += 1
            waiting = [
                f for f in every if f not in back and any(g in after[f] for g in waiting)
            ]
            back.update(dict.fromkeys(waiting, far))
        ring = [e]
        while back[ring[-1]] > 1:
            left = back[ring[-1]] - 1
            ring.append(next(f for f in after[ring[-1]] if f != e and back.get(f) == left))
        return ring

    def steps(self, e):
        """The notes of the ring through an event."""
        ring = self.ring(e)
        for x, y in zip(ring, [*ring[1:], e]):
            sent = self.keys[x] and self.keys[x][0] == "out" and y in self.partners(x)
            word = "sent" if sent else "drawn"
            said = f"{word} {x} {y}: {self.shown(x)}; {self.shown(y)}"
            yield Note(said, self.begins[x], second=self.begins[y])

    def notes(self, number, n):
        """The notes of a fault."""
        if number == 2:
            first = self.sections[self.names.index(self.names[n])]
            return [Note(f"name {self.names[n].decode()}"), first_note(first)]
        if number in (3, 4):
            name = self.draft.header[n].name if number == 3 else self.events[n][2].address
            return [Note(f"name {name.decode()}"), *self.nearest(name)]
        if number == 6:
            first = self.begins[self.keys.index(self.keys[n])]
            return [first_note(first), Note(self.apart(n))]
        if number in (7, 8):
            near = self.near(n)
            like = [] if near is None else [Note(f"near {self.shown(near)}", self.begins[near])]
            return [Note(self.wanted(n)), *like]
        return list(self.steps(n)) if number == 9 else []

    def fault(self, number, n, line):
        """A fault with its place and its notes."""
        return Fault(line, self.place_of(number, n), tuple(self.notes(number, n)))

    def further(self, faults):
        """Of the faults behind the first those that are told."""
        named, told = set(), []
        for number, n, line in faults:
            if number >= 4:
                if n in named or (number == 8 and self.near(n) in named):
                    continue
                named.add(n)
            told.append((number, n, line))
        return told[1:]


def numbered(line):
    """The number of a chart's fault, and the number of its section, header name or event."""
    number, words = line.split(": ")
    found = re.search(r"^(?:section|header name|event|output|input) (\d+)", words)
    return int(number), int(found[1]) if found else None, f"chart fault {line}"


def draft_faults(text):
    """The faults of a text's draft."""
    placed = Placed(text)
    faults = map(numbered, chart_faults(placed.draft))
    first = next(faults, None)
    if not first:
        return Faults(text)
    others = []
    if first[0] in TOGETHER:
        together = [first]
        for it in faults:
            if it[0] == 9:
                break
            together += [it] if it[0] in TOGETHER else []
        others = placed.further(together)
    printed = tuple(placed.fault(*it) for it in [first, *others[:MOST]])
    return Faults(text, printed, len(others))


def link_faults(text, fault):
    """The fault of a chart's links: one of the text's own rules has a place."""
    return Faults(text, (Fault(fault.line(fault.at), fault.at),))


# the hint on a text that is no chart but a diagram, in `check` and in other commands
DIAGRAM_HINTS = ("hint this is a sequence diagram of Mermaid: --from any reads it",
                 "hint this is a sequence diagram of Mermaid: msc import makes a chart of it")


def with_diagram_hint(text, notes, hint):
    """The notes of a fault, of a text that is a diagram with this hint in the place of others."""
    if not has_diagram(text):
        return notes
    found = [note for note in notes if note.text.startswith("found ")]
    others = [note for note in notes if not note.text.startswith(("found ", "hint "))]
    return [*found, Note(hint), *others]


def faults_of(text, is_check=True):
    """The faults of a chart's text, as `check` or another command prints them."""
    try:
        return draft_faults(text)
    except Refused as refused:
        line = str(refused)
        found = re.match(r"(lexical|grammar) fault (\d) at (\d+)", line)
        if not found:
            return Faults(text, (Fault(line),))
        number, at = int(found[2]), int(found[3])
        notes = lexical_notes if found[1] == "lexical" else grammar_notes
        hint = DIAGRAM_HINTS[0 if is_check else 1]
        notes = with_diagram_hint(text, notes(text, number, at), hint)
        return Faults(text, (Fault(line, at, tuple(notes)),))


def answer(text, is_check=True):
    """What is printed on standard error, line by line, by `check` or by another command."""
    return faults_of(text, is_check).lines()


def main(given):
    parser(__doc__).parse_args(given)
    lines = answer(sys.stdin.buffer.read())
    return put(Answer(b"", joined(lines), 2 if lines else 0))
