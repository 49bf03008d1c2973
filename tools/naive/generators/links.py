"""Random rules for links, of charts and of diagrams, and random texts of QUEUES."""
from models.links import KINDS, Given
from models.mermaid import options_of, texts_of
from models.mermaid_lines import HEAD
from models.own import of_chart
from models.reading import Draft
from models.source import Refused, source_of

BLANKS = ["", "", "", "", " ", "  ", "\t"]
# LINKs that are none, and names that no instance has
NO_LINKS = ["", " ", ">", "a>", ">a", "a>b>c", "a> >b", ">>", "a>>b"]
NOBODY = ["nobody", "I0", "i0 i1", "-x", "\u00e9", "i0,i1", "no\x01body", "x" * 70]
# comments that say nothing of queues, or what cannot be read
OTHERS = [
    "queues are per connection", "queues", "queues ", "Queues pair", "queue pair", "queues PAIR",
    "queues pair of workers", "queues: pair", "a; queues pair", "%% queues pair", "queues fifo",
    "queues Pair", "queues pairs", "queues mailbx", "queues ;", "queues singel; pair a", "",
    "queues\tpair", "queues mailbox,", "queues ''mailbox''", "queues pair;",
]


def blank(pick):
    return pick.choice(BLANKS)


def link(pick, names):
    """A LINK of these names."""
    ends = [pick.choice(names) for _ in range(pick.choice([1, 2]))]
    return blank(pick) + f"{blank(pick)}>{blank(pick)}".join(ends) + blank(pick)


def bare(link):
    """A LINK without blanks around its names."""
    return ">".join(name.strip() for name in link.split(">"))


def rules(pick, names):
    """Rules that give each LINK one kind; some are there twice, and some change nothing."""
    kinds, found = {}, []
    for _ in range(pick.choice([1, 1, 2, 3, 5])):
        it = link(pick, names)
        found.append((kinds.setdefault(bare(it), pick.choice(KINDS)), it))
    return found


def faulty_rules(pick, names):
    """Rules of which some may have a fault."""
    found = rules(pick, names)
    for _ in range(pick.choice([1, 1, 2])):
        it = pick.choice([pick.choice(NO_LINKS), link(pick, [*names, pick.choice(NOBODY)]),
                          pick.choice(found)[1]])
        found.insert(pick.randrange(len(found) + 1), (pick.choice(KINDS), it))
    return found


def some_queues(pick, text, is_uniform=False):
    """With each usual kind what a command line says of queues, and the architecture that this gives
    to a chart; two of three have rules, unless all links are to have one kind."""
    names = [name.decode() for name in Draft(text.encode("latin-1")).instances()]
    for usual in KINDS:
        is_plain = is_uniform or not names or pick.random() < 0.34
        given = Given(usual, [] if is_plain else rules(pick, names))
        yield given, of_chart(text.encode("latin-1"), given)


def names_in(text):
    """The names of the first diagram of a text: those of its lines, shown ones, and those of
    instances; others if there is none."""
    options = options_of([])
    try:
        names = texts_of(source_of(text), options)[0][0].diagram(options).names
    except Refused:
        return ["A", "B"]
    held = [*names.idents, *(it.held for it in names.shown if it), *names.names]
    found = [name.replace(b"\0", b"").decode(errors="ignore") for name in held]
    return found or ["A", "B"]


def some_words(pick, text, words):
    """The words of a command on a diagram: two of three have rules too, and some `--queues own`."""
    if pick.random() < 0.34:
        return words
    made = faulty_rules if pick.random() < 0.1 else rules
    found = made(pick, names_in(text)) if pick.random() < 0.7 else []
    at = words.index("--queues") + 1
    given = Given("own" if pick.random() < 0.6 else words[at], found)
    return [*words[:at - 1], *given.words(), *words[at + 1:]]


# Texts of QUEUES


def own(pick, names, in_diagram=False):
    """QUEUES, or what is almost that."""
    if pick.random() < 0.15:
        return pick.choice(OTHERS)
    parts = [f"{blank(pick)}queues {blank(pick)}{pick.choice(KINDS)}{blank(pick)}"]
    is_faulty = pick.random() < 0.15
    for kind, it in (faulty_rules if is_faulty else rules)(pick, names):
        if pick.random() < 0.7:
            parts.append(f"{blank(pick)}{kind} {it}")
        elif len(parts) > 1:
            parts[-1] += f",{it}"
    if in_diagram and pick.random() < 0.1:
        some = ",".join(pick.choice(names) for _ in range(pick.choice([1, 2])))
        parts.insert(pick.randint(1, len(parts)), f"{blank(pick)}serves {some}")
    text = ";".join(parts)
    return spoiled(pick, text) if pick.random() < 0.15 else text


def spoiled(pick, text):
    """The text with a mistake somewhere."""
    at, kind = pick.randrange(len(text) + 1), pick.choice(KINDS)
    return pick.choice([
        text[:at] + pick.choice([",", ";", ">", " ", "x", "', '"]) + text[at:],
        text[:at] + text[at + 1:],
        text.replace(kind, kind.capitalize()),
        text.replace(kind, kind[:-1]),
        text + pick.choice([",", ";", ", ,", "; pair", "; fifo a"]),
    ])


def with_comments(pick, text):
    """A diagram with comments that may name its queues: lines, or behind the word of its head."""
    names, lines = names_in(text), text.split(b"\n")
    heads = [i for i, line in enumerate(lines) if line.strip() == HEAD]
    for _ in range(pick.choice([0, 0, 1, 1, 1, 2])):
        space = pick.choice(["", "  ", "\t"])
        comment = f"{space}%%{blank(pick)}{own(pick, names, True)}{blank(pick)}".encode()
        if heads and pick.random() < 0.2:
            lines[heads.pop()] += comment
        else:
            at = pick.randrange(len(lines) + 1)
            lines.insert(at, comment)
            heads = [i + (i >= at) for i in heads]
    return b"\n".join(lines)


def page_of(pick, texts):
    """A text of Markdown with these diagrams."""
    lines = [b"# Diagrams"]
    for text in texts:
        lines += [b"", pick.choice([b"```mermaid", b"~~~mermaid"]), text.rstrip(b"\n")]
        lines += [lines[-2][:3], b"", b"%% queues single"]
    return b"\n".join(lines) + b"\n"


def with_own(pick, text):
    """A chart with a comment behind its name that may name its queues."""
    names = [name.decode() for name in Draft(text.encode("latin-1")).instances()] or ["i0"]
    space = pick.choice([" ", " ", "\n"])
    first = pick.choice(["queues ", "queues ", f"queues{space}"])
    held = own(pick, names).replace(" ", space).replace(f"queues{space}", first, 1)
    quoted = held.encode().decode("latin-1").replace("'", "''")
    return text.replace(";", f" comment '{quoted}';", 1)
