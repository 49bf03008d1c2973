"""The charts that are drawn for the benchmarks of building and of orders, each of so many
messages."""
import random


def chart(lines, coregions=0):
    """The text of a chart; `lines` has for each instance its events (way, message, address), in so
    many coregions of one size each, or in none."""
    text = "msc t;"
    for name, events in lines.items():
        text += f"instance {name};"
        texts = [
            f"{way} m{message} {'to' if way == 'out' else 'from'} {address};"
            for way, message, address in events
        ]
        for k in range(coregions):
            segment = texts[k * len(texts) // coregions:(k + 1) * len(texts) // coregions]
            text += "concurrent;" + "".join(segment) + "endconcurrent;"
        text += "" if coregions else "".join(texts)
        text += "endinstance;"
    return text + "endmsc;"


def zigzag_lines(messages):
    """Two lines on which each message is answered before the next goes out."""
    lines = {"a": [], "b": []}
    for m in range(messages):
        here, there = ("a", "b") if m % 2 == 0 else ("b", "a")
        lines[here].append(("out", m, there))
        lines[there].append(("in", m, here))
    return lines


def zigzag(messages):
    """The chart of these two lines: its events have one order."""
    return chart(zigzag_lines(messages))


def in_order(messages):
    """All messages go from a to b, drawn in one order."""
    ends = range(messages)
    return chart({"a": [("out", m, "b") for m in ends], "b": [("in", m, "a") for m in ends]})


def in_reverse(messages):
    """All messages go from a to b, the inputs drawn in the reverse order of the outputs."""
    ends = range(messages)
    inputs = [("in", m, "a") for m in reversed(ends)]
    return chart({"a": [("out", m, "b") for m in ends], "b": inputs})


def one_by_one(names, ends):
    """Messages with these senders and receivers, drawn as one run of the chart in which each
    message is taken before the next goes out."""
    lines = {name: [] for name in names}
    for m, (sender, receiver) in enumerate(ends):
        lines[sender].append(("out", m, receiver))
        lines[receiver].append(("in", m, sender))
    return chart(lines)


def at_random(messages, instances=32):
    """Messages between instances at random."""
    pick = random.Random(7)
    names = [f"i{k}" for k in range(instances)]
    return one_by_one(names, [pick.sample(sorted(names), 2) for _ in range(messages)])


def relay(messages, instances=32):
    """Messages round a ring of instances, each sent once the one before it has come."""
    names = [f"i{k}" for k in range(instances)]
    ends = [(names[m % instances], names[(m + 1) % instances]) for m in range(messages)]
    return one_by_one(names, ends)


def to_one(messages, senders=31):
    """Messages from the senders in turn to one receiver."""
    names = [f"i{k}" for k in range(senders)]
    return one_by_one([*names, "r"], [(names[m % senders], "r") for m in range(messages)])


def coregions(messages):
    """All outputs in one coregion, all inputs in another, drawn in reverse."""
    lines = {"a": [("out", m, "b") for m in range(messages)]}
    lines["b"] = [("in", m, "a") for m in reversed(range(messages))]
    return chart(lines, coregions=1)


def coregions_in_turn(messages):
    """On one line a coregion of outputs and then one of inputs, on the other the inputs and then
    outputs that answer."""
    first, answers = range(messages // 2), range(messages // 2, messages)
    lines = {"a": [("out", m, "b") for m in first] + [("in", m, "b") for m in reversed(answers)]}
    lines["b"] = [("in", m, "a") for m in reversed(first)] + [("out", m, "a") for m in answers]
    return chart(lines, coregions=2)


def cycle(messages):
    """The zigzag with the last two events of its first line exchanged: it has a cycle."""
    lines = zigzag_lines(messages)
    lines["a"][-2:] = reversed(lines["a"][-2:])
    return chart(lines)


# those whose answers grow in ways of their own, by name
GROWING = {
    "in order": in_order,
    "in reverse": in_reverse,
    "32 lines at random": at_random,
    "31 senders to one": to_one,
    "two coregions": coregions,
}
