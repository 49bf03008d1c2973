"""What `msc check` prints of races with its options, and what `msc list` prints.

Which races are listed, their kinds and what they lack is made pair by pair from the enforced order
of chart.py; marks.py says which are accepted, short_runs.py has the short runs, following.py says
whether the drawing can happen, and places are those of the tokens of the text.
"""
from models.chart import is_enforced
from models.following import never_lines
from models.marks import verdict_on
from models.short_runs import short_witness
from models.shown import named, pair_line, run_lines

KINDS = ("early", "queues", "unordered", "overtaken")


def is_within(drawn, e, f, g, h):
    """(g, h) lies within (e, f): g is e or drawn after it, and h is f or drawn before it."""
    return (g == e or drawn.before(e, g)) and (h == f or drawn.before(h, f))


def is_closest(drawn, e, f, races):
    """Within the race (e, f) lies no other one of these."""
    return not any((g, h) != (e, f) and is_within(drawn, e, f, g, h) for g, h in races)


def closest_of(drawn, races):
    """Those of these races within which lies no other one of them; one that does is of the same
    line."""
    own = {}
    for e, f in races:
        own.setdefault(drawn.events[e].line, []).append((e, f))
    return [(e, f) for e, f in races if is_closest(drawn, e, f, own[drawn.events[e].line])]


def share_queue(drawn, e, f):
    """e and f, a race, are inputs of one queue."""
    return not drawn.is_controlled(e) and drawn.queue(e) == drawn.queue(f)


def kind(drawn, e, f):
    if drawn.is_controlled(e):
        return "early"
    if not share_queue(drawn, e, f):
        return "queues"
    return "overtaken" if is_enforced(drawn, drawn.partner[f], drawn.partner[e]) else "unordered"


def race_words(drawn, e, f):
    """Which events race, on which line, and what both of them do."""
    first, second = drawn.events[e], drawn.events[f]
    return f"race {e} {f} on {drawn.names[first.line]}: {first.text}; {second.text}"


def editor_lines(drawn, places, e, f):
    """The two lines of a race that editors read."""
    level = "error" if is_enforced(drawn, f, e) else "warning"
    yield f"{places[e]}: {level}: {race_words(drawn, e, f)} [{kind(drawn, e, f)}]"
    yield f"{places[f]}: note: the event drawn below it"


def listing(drawn, places, placed):
    """What is printed of the events of a chart."""
    lines = [f"chart {drawn.name}", f"events {len(drawn.events)}"]
    for e in range(len(drawn.events)):
        lines.append(f"{e} {named(drawn, e)}")
        if placed:
            lines.append(f"at {places[e]}")
    return lines


def why(drawn, e, f):
    """The pair that a race lacks, and the lines of its kind and of this pair."""
    needed = drawn.partner[e] if share_queue(drawn, e, f) else e
    output = drawn.partner[f]
    assert needed != output and not is_enforced(drawn, needed, output)
    always = " always" if is_enforced(drawn, f, e) else ""
    told = pair_line(drawn, "needs", needed, output)
    return (needed, output), [f"kind {kind(drawn, e, f)}{always}", told]


def stale_lines(drawn, places, stale, options):
    """The lines of marks that accept no race."""
    for e in stale:
        event = drawn.events[e]
        told = f"stale {e} on {drawn.names[event.line]}: {event.text}"
        if options["format"] == "lines":
            yield f"{places[e]}: warning: {told} [stale]"
            continue
        yield told
        if options["places"]:
            yield f"at {places[e]}"


def shown_run(drawn, e, f, short):
    """The run that shows a race."""
    return short_witness(drawn, e, f)[0] if short else drawn.witness(e)


def chosen(drawn, options, marks):
    """The races, those of them that are of no kind that is left out, those of these that count, the
    closest of these, and the stale marks."""
    races = drawn.races()
    named = [race for race in races if kind(drawn, *race) not in options["allow"]]
    left, stale = named, []
    if options["accept"]:
        taken, stale = verdict_on(drawn, races, marks)
        left = [race for race in named if race not in taken]
    return races, named, left, closest_of(drawn, left), stale


def count_words(races, closest):
    """The verdict of `--format count`."""
    return f"races {len(races)} closest {len(closest)}" if races else "pass"


def study(drawn, places, options, marks):
    """What is printed, line by line, and the exit status; `options` are as the command's words."""
    races, named, left, closest, stale = chosen(drawn, options, marks)
    status = int(bool(left or stale))
    if options["quiet"]:
        return [], status
    if options["format"] == "count":
        return [f"{count_words(races, closest)} -"], status
    listed = closest if options["closest"] else left
    if options["format"] == "lines":
        told = [never_lines(drawn, places)]
        told += (editor_lines(drawn, places, e, f) for e, f in listed[:options["most"]])
        told.append(stale_lines(drawn, places, stale, options))
        return [line for lines in told for line in lines], status
    verdict = f"races {len(races)}" if races else "pass"
    lines = [*drawn.head(), verdict]
    if options["allow"]:
        lines.append(f"allowed {len(races) - len(named)}")
    if options["accept"]:
        lines.append(f"accepted {len(named) - len(left)}")
    if options["closest"]:
        lines.append(f"closest {len(listed)}")
    for number, (e, f) in enumerate(listed[:options["most"]]):
        lines.append(race_words(drawn, e, f))
        if options["places"]:
            lines.append(f"at {places[e]} {places[f]}")
        if options["why"]:
            (needed, output), told = why(drawn, e, f)
            lines.extend(told)
            if options["places"]:
                lines.append(f"at {places[needed]} {places[output]}")
        if number < options["show"]:
            run = shown_run(drawn, e, f, options["short"])
            lines.extend(run_lines(drawn, run, options["words"]))
    lines.extend(stale_lines(drawn, places, stale, options))
    return lines, status
