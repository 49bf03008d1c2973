"""Marks in diagrams: comment lines that accept races, some of them faulty."""
from generators.diagrams import LABELS
from models.links import KINDS

IDENTS = ["1", "2", "3", "04", '"a"', '"in"', '""', '"a #35; b"', '"nobody"', '"a: b"']
REASONS = [": known", ":x", ": it's: so", ": \u20ac", ": #59;"]
FAULTY = ["race okay: x", "race ok", "race ok:", "race ok: \t", "race ok  in pair: x",
          "race ok in fifo: x", "race ok with a: x", 'race ok with "a: x', "race ok with 1;2: x",
          "race ok with 1; : x", "race ok in pair,mailbox: x", 'race ok with "a"']
NONE = ["race", "a race ok: x", "Race ok: x", "queues pair"]


def mark(pick, is_faulty):
    """The text of a comment: a mark most of the time."""
    if pick.random() < 0.05:
        return pick.choice(NONE)
    if is_faulty and pick.random() < 0.3:
        return pick.choice(FAULTY)
    said = "race ok"
    if pick.random() < 0.3:
        said += " in " + ", ".join(pick.sample(KINDS, pick.randint(1, 3)))
    if pick.random() < 0.6:
        labels = [*IDENTS, *(f'"{label}"' for label in LABELS)]
        said += " with " + "; ".join(pick.choice(labels) for _ in range(pick.choice([1, 1, 2, 4])))
    return said + pick.choice(REASONS)


def with_marks(pick, text):
    """A diagram with some comments; in some it has more of them than arrows."""
    lines, is_faulty = text.split(b"\n"), pick.random() < 0.25
    for _ in range(pick.choice([1, 1, 2, 3, 6])):
        said = pick.choice(["", "  "]) + pick.choice(["%% ", "%%", "%%\t"]) + mark(pick, is_faulty)
        lines.insert(pick.randint(min(1, len(lines)), len(lines)), said.encode())
    if pick.random() < 0.04:
        lines.insert(len(lines) // 2, b"A->>B: a %% race ok: b")
    return b"\n".join(lines)
