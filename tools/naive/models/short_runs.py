"""Short runs that show a race, by their definition in docs/MODEL.md."""
from models.chart import is_enforced


class State:
    """How far a run has come: the events that have come, and what is in the queues."""

    def __init__(self, drawn):
        self.drawn, self.past, self.sent = drawn, 0, {}

    def may_come(self, x):
        drawn = self.drawn
        if self.past >> x & 1:
            return False
        if drawn.is_controlled(x):
            return not drawn.drawn_before[x] & ~self.past
        return self.sent.get(drawn.queue(x), ())[:1] == (drawn.partner[x],)

    def after(self, x):
        """The state after x."""
        drawn, later = self.drawn, State(self.drawn)
        later.past, later.sent = self.past | 1 << x, dict(self.sent)
        if drawn.is_output(x):
            later.sent[drawn.queue(x)] = later.sent.get(drawn.queue(x), ()) + (x,)
        elif not drawn.is_controlled(x):
            later.sent[drawn.queue(x)] = later.sent[drawn.queue(x)][1:]
        return later

    def key(self):
        return self.past, tuple(sorted((str(q), sent) for q, sent in self.sent.items() if sent))


def is_run(drawn, events):
    state = State(drawn)
    for x in events:
        if not state.may_come(x):
            return False
        state = state.after(x)
    return True


def past_of(drawn, f):
    """f and all that is enforced before it."""
    return [x for x in drawn.all if x == f or is_enforced(drawn, x, f)]


def needed_run(drawn, f):
    """The past of f, each time the least event of it that may come and is no waiting output; none
    where that does not come to an end with all of it."""
    needed = past_of(drawn, f)
    taken = [t for t in needed if drawn.is_output(t) and drawn.partner[t] in needed]
    events, state = [], State(drawn)

    def waits(x):
        is_held = drawn.is_output(x) and x not in taken
        return is_held and any(
            drawn.queue(t) == drawn.queue(x) and not state.past >> t & 1 for t in taken
        )

    while True:
        nexts = (x for x in needed if state.may_come(x) and not waits(x))
        x = next(nexts, None)
        if x is None:
            return events if len(events) == len(needed) else None
        events.append(x)
        state = state.after(x)


def short_witness(drawn, e, f):
    """The short run, and whether it has just the past of f."""
    events = needed_run(drawn, f)
    if events is not None:
        return events, True
    chosen = drawn.witness(e)
    return chosen[:chosen.index(f) + 1], False


def verdict(drawn):
    """What the program prints, line by line."""
    races = drawn.races()
    yield from drawn.head()
    yield f"races {len(races)}" if races else "pass"
    for e, f in races:
        first, second = drawn.events[e], drawn.events[f]
        yield f"race {e} {f} on {drawn.names[first.line]}: {first.text}; {second.text}"
        yield " ".join(map(str, ["run", *short_witness(drawn, e, f)[0]]))
