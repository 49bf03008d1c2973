"""Texts and options for `msc import`: random ones, and diagrams at each limit and one past it."""
from generators.diagram_marks import with_marks
from generators.diagrams import in_markdown, text_of
from generators.links import with_comments


def words_of(pick):
    """Random options."""
    words = ["--name", pick.choice(["t", "a b", "", "in"])]
    if pick.random() < 0.9:
        count = pick.choice([0, 0, 0, 0, 0, 1, 1, 2, 3, 5])
        numbers = [str(pick.choice([0, 0, 1, 1, 2, 3])) for _ in range(count)]
        words += ["--choose", ",".join(numbers) or "main"]
    for option, values in (("--self", ["action", "message"]), ("--par", ["drawn"]),
                           ("--cross", ["lost", "arrives"]), ("--from", ["mermaid", "any"])):
        if pick.random() < 0.4:
            words += [option, pick.choice(values)]
    return words


def tried(pick, is_uniform):
    """A random text, random options, and whether its events are listed."""
    text, words = text_of(pick), words_of(pick)
    text = text if is_uniform else with_comments(pick, text)
    text = with_marks(pick, text) if pick.random() < 0.4 else text
    if pick.random() < 0.3:
        text, more = in_markdown(pick, text)
        words += more
    return text, words, pick.random() < 0.2


def at_the_limits():
    """Diagrams at each limit and one past it, with options."""
    head, main = "sequenceDiagram\n", ["--choose", "main"]
    for n in (1024, 1025):
        yield head + "A->>B: a\n" * n, main
        yield head + "loop\nA->>B: " + "x" * 80 + "\nend\n", ["--choose", str(n)]
        long = "y" * 80
        yield head + f"{long}->>{long}2: {long}\n" * n, main
    for n in (32, 33):
        yield head + "".join(f"participant P{i}\n" for i in range(n)), []
    for n in (10, 11):
        yield head + "opt\n" * n + "A->>B: a\n" + "end\n" * n, main
    for n in (12, 13):
        yield head + "opt\nA->>B: a\nend\n" * n, []
    for n in (1048576, 1048577):
        yield head + "A->>B: a\n" + "%" * (n - len(head) - 9), []
    yield head + "loop\nbreak\nend\nend\nA->>B: a\n", ["--choose", "1024"]
    yield head + "loop\nbreak\nend\nend\nA->>B: a\n", ["--choose", "4294967295"]
    yield head + "A->>B: a\n", ["--choose", ",".join(["0"] * 3000)]
    for n in (512, 513):
        yield head + "A<<->>B: a\n" * n, []
    for n in (12, 13):
        yield head + "A-xB: a\n" * n, []
    yield head + "A-xB: a\n" * 1024, ["--choose", ",".join(["1"] * 1025)]
    yield head + "A-xB: a\n", ["--choose", "2"]
    yield head + "loop\nA--xB: a\nend\n", ["--choose", "3,1,0,1"]
    yield "", []
