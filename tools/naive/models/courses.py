"""The scenarios of a diagram: the ways through its blocks and crosses, each with its chart, and
how many there are.
"""
import argparse

from models.diagrams import Arrow, Block, Event, instance_number, made_of_text
from models.source import Note, Refused

# arrows, rounds, scenarios
ARROWS, ROUNDS, SCENARIOS = 1024, 1024, 4096


def choices(it):
    """The choices that an arrow or a block has, and the main one; none if it takes no choice."""
    if isinstance(it, Arrow):
        return (1, 0) if it.fate == "either" else None
    n = len(it.branches)
    if it.kind == "alt" and n > 1:
        return n - 1, 0
    if it.kind in ("alt", "opt"):
        return n, 1
    if it.kind == "loop":
        return ROUNDS, 1
    if it.kind == "break":
        return 1, 0
    if it.kind == "critical" and n > 1:
        return n - 1, 0
    return None


class Course:
    """One way through a diagram: the choices that are taken, and what each line does."""

    def __init__(self, diagram, given, options, most=ARROWS):
        self.diagram, self.given, self.options, self.most = diagram, given, options, most
        self.taken, self.asked, self.arrows = [], [], 0
        # the arrows as they are met, each with what the chart calls its message
        self.met = []
        # the same by their numbers, each with the rounds of the loops around it
        self.path = []
        # some parallel branches are drawn one below the other
        self.is_stacked = False
        self.segments, _ = self.through(diagram.items, ())

    def choice(self, it):
        most, main = choices(it)
        taken = self.given[len(self.taken)] if len(self.taken) < len(self.given) else main
        self.taken.append(taken)
        self.asked.append(it)
        if taken > most:
            raise Refused(13, f"choice {len(self.taken)} is more than {most}", it.at)
        return taken

    def through(self, items, rounds):
        """The segments of each line along these items, and whether a break ended them."""
        found = {}
        for it in items:
            if isinstance(it, Arrow):
                more, broken = self.drawn(it, rounds), False
            elif it.counts():
                more, broken = self.block(it, rounds)
            else:
                continue
            for line, segments in more.items():
                found.setdefault(line, []).extend(segments)
            if broken:
                return found, True
        return found, False

    def block(self, it, rounds):
        if it.kind == "par":
            return self.par(it, [self.through(branch, rounds)[0] for branch in it.branches]), False
        if choices(it) is None:
            return self.through(it.branches[0], rounds)
        taken = self.choice(it)
        if it.kind == "loop":
            return self.loop(it.branches[0], rounds, taken), False
        if it.kind == "break":
            return self.through(it.branches[0], rounds)[0] if taken else {}, bool(taken)
        if it.kind == "critical":
            found, broken = self.through(it.branches[0], rounds)
            if taken and not broken:
                return joined(found, self.through(it.branches[taken], rounds)[0]), False
            return found, False
        if it.kind == "alt" and len(it.branches) > 1:
            return self.through(it.branches[taken], rounds)[0], False
        return self.through(it.branches[taken - 1], rounds)[0] if taken else {}, False

    def loop(self, items, rounds, taken):
        found = {}
        for n in range(1, taken + 1):
            more, broken = self.through(items, (*rounds, n))
            found = joined(found, more)
            if broken:
                break
        return found

    def par(self, block, branches):
        """Parallel branches: on a line where each has at most one segment, a coregion."""
        found = {}
        for line in range(len(self.diagram.names.names)):
            own = [branch[line] for branch in branches if branch.get(line)]
            if len(own) > 1 and all(len(segments) == 1 for segments in own):
                found[line] = [[event for (segment,) in own for event in segment]]
            elif own:
                if len(own) > 1 and self.options.par != "drawn":
                    name = self.diagram.names.names[line].decode()
                    hint = Note("hint --par drawn draws the branches one below the other")
                    raise Refused(16, f"parallel branches share {name}", block.at, [hint])
                self.is_stacked |= len(own) > 1
                found[line] = [segment for segments in own for segment in segments]
        return found

    def drawn(self, it, rounds):
        """The events of an arrow, each on its line."""
        names = self.diagram.names
        left, right = names.idents.index(it.left.held), names.idents.index(it.right.held)
        is_both = it.is_both and left != right
        self.arrows += 2 if is_both else 1
        is_lost = it.fate == "lost" or it.fate == "either" and self.choice(it) == 0
        if self.arrows > self.most:
            raise Refused(15, f"more than {ARROWS} arrows", it.at)
        key = f"{made_of_text(it.label.held, b'm').decode()}, {instance_number(it, rounds)}"
        sender, receiver = names.names[left].decode(), names.names[right].decode()
        is_action = is_lost or left == right and self.options.own != "message"
        self.met.append((it, "action" if is_action else key))
        self.path.append((it.number, rounds))
        out = Event(f"out {key} to {receiver}", "out", it, rounds)
        taken = Event(f"in {key} from {sender}", "in", it, rounds)
        if is_both:
            back, back_taken = f"out {key} to {sender}", f"in {key} from {receiver}"
            return {left: [[out, Event(back_taken, "in", it, rounds)]],
                    right: [[Event(back, "out", it, rounds), taken]]}
        if is_lost:
            lost = f"action 'lost {key} to {receiver}'"
            return {left: [[Event(lost, "out", it, rounds)]]}
        if left == right:
            is_message = self.options.own == "message"
            own = [[Event(f"action '{key}'", "action", it, rounds)]]
            return {left: [[out], [taken]] if is_message else own}
        return {left: [[out]], right: [[taken]]}

    def text(self, name, comment=""):
        """The canonical text of the chart, with a comment behind its name."""
        lines = [f"msc {name}{comment};"]
        for at in range(len(self.diagram.names.names)):
            lines.append(f"instance {self.diagram.names.decl(at).decode()};")
            for segment in self.segments.get(at, []):
                if len(segment) == 1:
                    lines.append(f"  {segment[0].text};")
                else:
                    inner = [f"    {event.text};" for event in segment]
                    lines += ["  concurrent;", *inner, "  endconcurrent;"]
            lines.append("endinstance;")
        return "".join(line + "\n" for line in [*lines, "endmsc;"])

    def events(self):
        """The events by their numbers, each with the number of its line."""
        for line in range(len(self.diagram.names.names)):
            for segment in self.segments.get(line, []):
                yield from ((line, event) for event in segment)

    def ranks(self):
        """For each event the number of its arrow among those that are met."""
        at = {arrow: number for number, arrow in enumerate(self.path)}
        return [at[event.arrow.number, event.rounds] for _, event in self.events()]

    def list(self, name, file):
        """The events with their numbers, and the places of their arrows."""
        lines, names = [], self.diagram.names.names
        for number, (at, event) in enumerate(self.events()):
            line, column = event.arrow.place
            lines.append(f"{number} {names[at].decode()} {event.text}")
            lines.append(f"at {file}:{line}:{column}")
        head = [f"chart {name}", f"events {len(lines) // 2}"]
        return "".join(line + "\n" for line in [*head, *lines])

    def shown(self):
        """The spans of what is shown to people, and the bytes there."""
        names = self.diagram.names
        for name, ident, shown in zip(names.names, names.spans, names.shown):
            yield b"line %s %d %d %s\n" % (name, ident.first, ident.past, ident.held)
            if shown:
                yield b"shown %s %d %d %s\n" % (name, shown.first, shown.past, shown.held)
        for number, (_, event) in enumerate(self.events()):
            label, whole = event.arrow.label, event.arrow.statement
            spans = number, label.first, label.past, whole.first, whole.past, label.held
            yield b"%d %d %d %d %d %s\n" % spans


def joined(found, more):
    return {line: found.get(line, []) + more.get(line, []) for line in {**found, **more}}


def course_of(diagram, given, options):
    """The scenario with these choices."""
    course = Course(diagram, given, options)
    if len(given) > len(course.taken):
        raise Refused(14, f"{len(given)} choices for {len(course.taken)} blocks")
    return course


def capped(n):
    return min(n, SCENARIOS + 1)


def counted(items, rounds):
    """The numbers of ways through these items to their end, and to a break in them."""
    through, broken = 1, 0
    for it in items:
        if isinstance(it, Arrow):
            through = capped(through * (2 if choices(it) else 1))
            continue
        if not it.counts():
            continue
        ways = [counted(branch, rounds) for branch in it.branches]
        c, b = ways[0]
        every = [sum(way) for way in ways]
        if it.kind == "break":
            c, b = 1, every[0]
        elif it.kind == "alt" and len(ways) > 1:
            c, b = sum(every), 0
        elif it.kind in ("alt", "opt"):
            c, b = 1 + sum(every), 0
        elif it.kind == "loop":
            c, b = counted_rounds(c, b, rounds), 0
        elif it.kind == "critical" and len(ways) > 1:
            c, b = c + b + sum(c * option + b for option in every[1:]), 0
        elif it.kind == "par":
            c, b = 1, 0
            for n in every:
                c *= n
        through, broken = capped(through * c), capped(broken + through * b)
    return through, broken


def counted_rounds(through, broken, rounds):
    """The number of ways through these numbers of rounds, of a body with so many ways: all rounds
    to their end, or some, and then one that a break ends."""
    total, whole, ended, asked = 0, 1, 0, set(rounds)
    for n in range(max(rounds) + 1):
        total += whole + ended if n in asked else 0
        ended = capped(ended + whole * broken)
        whole = capped(whole * through)
    return total


def count_of(diagram, rounds):
    """The number of scenarios, or one more than the most."""
    return capped(sum(counted(diagram.items, rounds)))


def all_items(items):
    """The arrows and blocks of these, and all in them."""
    for it in items:
        yield it
        if not isinstance(it, Arrow):
            for branch in it.branches:
                yield from all_items(branch)


def has_rounds(it):
    """A loop with an arrow in it."""
    if isinstance(it, Arrow) or it.kind != "loop":
        return False
    return any(isinstance(inner, Arrow) for inner in all_items(it.branches[0]))


def too_many(diagram, count, options):
    """The fault of more scenarios than the limit."""
    every, notes = [*all_items(diagram.items)], []
    if count <= SCENARIOS:
        notes.append(Note(f"hint there are {count}: --limit {count} checks them all"))
    if len(options.rounds) > 1 and any(map(has_rounds, every)):
        notes.append(Note("hint --rounds 2 gives each loop two rounds only"))
    if any(isinstance(it, Arrow) and it.fate == "either" for it in every):
        notes.append(Note("hint --cross arrives, or --cross lost, fixes each cross"))
    return Refused(11, f"more than {options.limit} scenarios", None, notes)


def scenarios(diagram, options):
    """All scenarios, in the order of their choices."""
    count = count_of(diagram, options.rounds)
    if count > options.limit:
        raise too_many(diagram, count, options)
    waiting = [[]]
    while waiting:
        given = waiting.pop()
        asked = next_choice(diagram, given, options)
        if asked is None:
            yield course_of(diagram, given, options)
        else:
            is_loop = isinstance(asked, Block) and asked.kind == "loop"
            every = options.rounds if is_loop else range(choices(asked)[0] + 1)
            waiting += [[*given, n] for n in sorted(every, reverse=True)]


def next_choice(diagram, given, options):
    """The arrow or block that takes the next choice behind these."""
    drawn = argparse.Namespace(**{**vars(options), "par": "drawn"})
    walk = Course(diagram, given, drawn, most=10 ** 9)
    return walk.asked[len(given)] if len(walk.asked) > len(given) else None
