"""What `msc import` makes of texts of Mermaid that are easily taken for something else.

Each stands for a mistake that a reader of Mermaid makes: a name that is cut in two or taken for
another one, an arrow that is lost or found where Mermaid draws none. The program and the model have
to print the chart of these lines, kinds and arrows, or to refuse the text with this fault.
"""
import re

from harness import run
from models.answers import import_answer
from models.source import SPACES

NEEDS_PROGRAM = True
OPTIONS = {}
# texts, behind their first line, and what they are: lines (a kind behind a colon) and arrows, or
# the line of the fault and what was expected
LINES = [
    # a name is cut in two
    ("A->>()B: x", "A B", "A->B x"),
    ("A()->>B: x", "A B", "A->B x"),
    ("A()->>()B: x", "A B", "A->B x"),
    *((f"A{space.decode()}->>{space.decode()}B: x\nB->>{space.decode()}A:y\nA->>B: z", "A B",
       "A->B x, B->A y, A->B z") for space in sorted(SPACES)),
    ("participant A\u00a0\nA->>B: x", "A B", "A->B x"),
    ("\u3000A\u200b->>B: x\nA->>B: y", "A B A_2", "A->B x, A_2->B y"),
    # two names are taken for one
    ("A#1;->>B: x\nA#2;->>B: y", "A_1 B A_2", "A_1->B x, A_2->B y"),
    ("A#1;->>B: x\nA#1;->>B: y", "A_1 B", "A_1->B x, A_1->B y"),
    # an arrow is lost
    ("accTitle ->> B: x", "accTitle B", "accTitle->B x"),
    ("accDescr ->> B: x", "accDescr B", "accDescr->B x"),
    # an arrow is found that is none
    ("A->>B: x; accTitle: t; B->>A: y", "A B", "A->B x"),
    ("A->>B: x; accDescr: t; B->>A: y", "A B", "A->B x"),
    ("A->>B: x; %% c; B->>A: y", "A B", "A->B x"),
    ("accDescr {\n%% }\nA->>B: x: }\nA->>B: y", "A B", "A->B y"),
    ("accTitle: a # b; A->>B: y\nA->>B: x", "A B", "A->B x"),
    ("autonumber %% a; A->>B: y\nA->>B: x", "A B", "A->B x"),
    # what is shown is taken from the wrong place
    ("participant A@{ \"alias\": \"Data as Service\" }\nA->>B: x",
     "A:Data_as_Service B", "A->B x"),
    ("participant A@{ 'type': 'queue',\n  'alias': 'Q'\n}\nA->>B: x", "A:Q B", "A->B x"),
    ("participant A@{\n  alias: Q\n  type: queue\n}\nA->>B: x", "A:Q B", "A->B x"),
    ("participant A@{\nB->>A: y\n}; B->>A: z\nA->>B: x", "A B", "B->A z, A->B x"),
    ("participant A@{ \"alias\": \"Q\" } as P\nA->>B: x", "A:P B", "A->B x"),
    ("A->>B: :wrap: x", "A B", "A->B x"),
    ("A->>B: :nowrap: x", "A B", "A->B x"),
    ("A->>B: nowrap:x", "A B", "A->B x"),
    ("participant A as wrap: X\nA->>B: x", "A:X B", "A->B x"),
    # a key word is only one as a whole word
    ("loopback->>B: x", "loopback B", "loopback->B x"),
    ("(a)->>1: x", "a 1", "a->1 x"),
]
REFUSED = [
    ("link-svc->>A: x", 2, "a statement"),
    ("details: x ->> y", 2, "a statement"),
    ("links: x ->> y", 2, "a statement"),
    ("Note over A->>B: x", 2, "a statement"),
    ("title:A->>B: x", 2, "a name"),
    ("loop-back->>B: x\nend", 2, "a statement"),
    ("loop ->> B: x\nend", 2, "a statement"),
    ("loop\u00a0->> B: x\nend", 2, "a statement"),
    ("opt a\nA->>B: x\nend-b ->> A: x", 4, "a statement"),
    ("A->>B: x\n%% was %%{init: {\nB->>A: y\n%% }}%%", 3, "}%%"),
    ("A->>B: x %%{init}%%\nB->>A: y", 2, "a statement"),
    ("A->>B: x; %% %%{init}%%", 2, "a statement"),
    ("participant f()\nf()->>B: x", 2, "a name"),
    ("f()()->>B: x", 2, "a name"),
    ("A->>+()B: x", 2, "a name"),
    ("A->>()-B: x", 2, "a name"),
    ("A->>-xB: y", 2, "a name"),
    ("a-b()->>C: x", 2, "a name"),
    ("envoy-xds->>B: x", 2, "a name"),
    ("A--->>B: x", 2, "a name"),
    ("A<->B: x", 2, "a name"),
    ("A->>B: a; b", 2, "a statement"),
    ("A->>B: a &lt; b", 2, "a statement"),
    ("accDescr { a } A->>B: x", 2, "the end of the line"),
]
NOT_SUPPORTED = [(f"A{arrow}B: x", 2, arrow) for arrow in
                 ("/|-", "/|--", "\\|-", "\\|--", "//-", "//--", "\\\\-", "\\\\--")]


def drawn(chart):
    """The lines of a chart, and its arrows by their numbers."""
    lines, arrows, line = [], {}, ""
    for row in chart.decode().splitlines():
        instance = re.fullmatch(r"instance (\w+)(?: : (\w+))?;", row)
        out = re.fullmatch(r" +out (\w+), (\w+) to (\w+);", row)
        if instance:
            line = instance[1]
            lines.append(":".join(part for part in instance.groups() if part))
        if out:
            arrows[int(out[2])] = f"{line}->{out[3]} {out[1]}"
    return " ".join(lines), ", ".join(arrows[k] for k in sorted(arrows))


def cases():
    """Texts, and what is made of them: the lines and arrows of a chart, or what is written of a
    fault."""
    for text, lines, arrows in LINES:
        yield text, (lines, arrows)
    for text, line, wanted in REFUSED:
        yield text, f"import fault 2 at {line}: expected {wanted}\n"
    for text, line, arrow in NOT_SUPPORTED:
        yield text, f"import fault 3 at {line}: {arrow} is not supported\n"


def is_right(output, error, status, wanted):
    if isinstance(wanted, str):
        return (output, error.decode(), status) == (b"", wanted, 2)
    return (error, status) == (b"", 0) and drawn(output) == wanted


def compare(trial):
    words = ["--choose", "main"]
    for text, wanted in cases():
        whole = f"sequenceDiagram\n{text}\n".encode()
        answers = {
            "the program": run([trial.program, "import", *words, "-"], whole),
            "the model": import_answer(whole, words),
        }
        for name, answer in answers.items():
            trial.add(is_right(*answer, wanted), f"{text!r}\n  wanted {wanted}\n  {name} {answer}")
