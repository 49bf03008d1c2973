"""Texts and options for `msc check --from`: random ones, diagrams at each limit and one past it,
and wrong words.
"""
from generators import diagrams
from generators.diagram_marks import with_marks
from generators.diagrams import NAMES, in_markdown, items
from generators.links import some_words, with_comments
from models.chart import QUEUES
from models.races import KINDS

FLAGS = ("--closest", "--why", "--words", "--short", "--places", "--accept")
FILES = ["t.mmd", "a b.x.mmd", ".mmd", "in", "t\x01\x7f.md"]
# options that are of diagrams alone, with a value each
OF_DIAGRAMS = ("--choose=0", "--rounds=1", "--limit=2", "--fence=1", "--name=t", "--self=action",
               "--cross=lost", "--par=drawn")


def wrong_words():
    """Words that are refused, and what is said of them."""
    yield ["--from=any", "--again"], "the argument '--from <mermaid|any>' cannot be used with '--again'"
    lacking = "the following required arguments were not provided:\n  --from <mermaid|any>"
    yield from (([option], lacking) for option in OF_DIAGRAMS)
    yield from (([*OF_DIAGRAMS, option], lacking) for option in ("--accept", "--again"))
    for rounds in ("x", "", "1025", "0,2,", "1,,2", "-1", "+1", "1 2", "4294967296", "\u0661"):
        told = "expected numbers up to 1024 with commas"
        said = f"invalid value '{rounds}' for '--rounds <R,R..>': {told}"
        yield ["--from=any", f"--rounds={rounds}"], said
    for choices in ("x", "", "0,", "-1", "mains"):
        told = "expected main, or numbers with commas"
        yield (["--from=any", f"--choose={choices}"],
               f"invalid value '{choices}' for '--choose <C>': {told}")
    for limit in (0, 4097, 4294967295):
        said = f"invalid value '{limit}' for '--limit <N>': {limit} is not in 1..=4096"
        yield ["--from=mermaid", f"--limit={limit}"], said


def diagram(pick):
    """The text of a small diagram."""
    names = pick.sample(NAMES, pick.choice([2, 3, 3, 4]))
    rows = [line for _ in range(pick.choice([2, 4, 6, 8])) for line in items(pick, names, 2)]
    return "\n".join(["sequenceDiagram", *rows, ""])


def text_of(pick):
    if pick.random() < 0.2:
        return diagrams.text_of(pick)
    return diagram(pick).encode()


def words_of(pick):
    """Random options."""
    words = ["--from", pick.choice(["mermaid", "any"]), "--queues", pick.choice(QUEUES)]
    words += [flag for flag in FLAGS if pick.random() < 0.3]
    words += ["--quiet"] * (pick.random() < 0.05)
    for option, share, values in (
        ("--most", 0.3, [0, 1, 2, 5]), ("--show", 0.5, [0, 1, 3, 2 ** 32 - 1]),
        ("--format", 0.3, ["text", "count", "lines"]), ("--limit", 0.2, [1, 2, 7, 64, 4096]),
        ("--rounds", 0.4, ["0", "1", "1,2", "2,0,2", "03,1", "0,1,2,3"]),
        ("--name", 0.3, ["t", "a b", "", "in"]), ("--par", 0.5, ["drawn"]),
        ("--self", 0.4, ["action", "message"]), ("--cross", 0.4, ["lost", "arrives"]),
        ("--allow", 0.2, KINDS), ("--allow", 0.2, KINDS),
        ("--choose", 0.15, ["main", "0", "1", "0,1", "1,0", "2", "02,1,1", "4294967295"]),
    ):
        if pick.random() < share:
            words += [option, str(pick.choice(values))]
    return words


def at_the_limits():
    """Diagrams at each limit and one past it, with options; their scenarios are small."""
    head, pair = "sequenceDiagram\n", ["--from", "any", "--queues", "pair"]
    arrow = "A->>B: a\n"
    wide = head + "alt\n" + "else\n".join([arrow] * 64) + "{}end\nC->>B: b\n"
    for more in ("", "else\nB->>A: a\n"):
        yield wide.format(more), pair
        yield wide.format(more), [*pair, "--limit", "65"]
    for n in (6, 7, 12, 13):
        yield head + "opt\nA->>B: a\nend\n" * n, [*pair, "--limit", "64"]
    for n in (10, 11):
        yield head + "opt\n" * n + arrow + "end\n" * n, pair
    for n in (4096, 4097):
        branches = "else\n".join(["A->>A: a\n"] * n)
        yield head + "alt\n" + branches + "end\n", [*pair, "--limit", "4096"]
    for n in (1048576, 1048577):
        yield head + arrow + "%" * (n - len(head) - len(arrow)), [*pair, "--fence", "1"]
    yield head + arrow * 1025, [*pair, "--limit", "1"]
    yield head + "loop\nloop\nbreak\nend\nend\nend\n", [*pair, "--rounds", "3,1"]
    yield head + "loop\nA->>B: a\nend\n" * 3, [*pair, "--rounds", "0,0,1"]
    yield head + "C->>B: b\nA->>B: a\n", [*pair, "--rounds", "1024"]
    for n in (6, 7, 12, 13, 64):
        yield head + "A-xB: a\n" * n, pair
        yield head + "A-xB: a\n" * n, [*pair, "--limit", "128" if n < 12 else "64"]
    yield head + "loop\nA-xB: a\nend\n", [*pair, "--limit", "5"]
    yield head + "loop\nA-xB: a\nend\n", [*pair, "--limit", "4"]
    yield head + "A<<->>B: a\n" * 513, pair


def one(pick, is_uniform=False):
    """A random text, and random options."""
    text, words = text_of(pick), words_of(pick)
    text = with_marks(pick, text) if pick.random() < 0.4 else text
    if not is_uniform:
        text = with_comments(pick, text)
        words = some_words(pick, text, words)
    if pick.random() < 0.25:
        text, more = in_markdown(pick, text)
        words += more
    return text, words


def tried(pick, texts, is_uniform):
    """The texts with the words on them, and the file that a text stands in, or `-`."""
    yield from ((text.encode(), words, "-") for text, words in at_the_limits())
    for _ in range(texts):
        yield *one(pick, is_uniform), pick.choice(["-", "-", *FILES])
