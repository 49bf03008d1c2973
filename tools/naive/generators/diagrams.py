"""Random texts of Mermaid: diagrams, some of them with mistakes, and texts of Markdown in which
they stand.
"""
from models.mermaid_words import BOTH, LEFT, RIGHT
from models.source import SPACES

# bytes that come into a text by mistake
MISTAKEN = [b"%%", b"()", b"->>", b"#1;", b"\xe2\x80", b"\r"]
WHITE = [space.decode() for space in sorted(SPACES)]
NAMES = [
    "A", "B", "C", "a-b", "Order Service", "Order-Service", "in", "x", "\u00e9t\u00e9", "9", "p",
    "p_2", "long" * 20, "A#1;", "A#2;", "f(x", "x)", "\u7528\u6237", "\u200bA", "Title",
    "loopback", "a/b", "a|b", "a\\b", "B x", "a@b", "{a}",
]
LABELS = [
    "a", "in", "", "GET /x?y=1", "<br/>a\\nb_", "a: b", "wrap: a", "nowrap:a", ":wrap: a",
    ":nowrap: b", "WRAP:c", "\u20ac", "x" * 80, "endmsc", "a #35; b", "a # b", " ", "a ->> b: c",
    "a %% b", "()", "#9829;", "&amp", "SELECT 1#59; COMMIT",
]
PLAIN = [head.decode() for head in RIGHT if not head.endswith(b"x")]
CROSSES, TWO_HEADS = ["-x", "--x", "-X", "--X"], [head.decode() for head in BOTH]
TURNED = [head.decode() for head in LEFT]
BLOCKS = ["alt", "opt", "loop", "break", "critical", "par", "par", "par_over", "rect", "box"]
BRANCHES = {"alt": "else", "critical": "option", "par": "and", "par_over": "and"}
# lines that fit between others
QUIET = [
    "", "%% a comment", "%% a; b ->> c: d", "%% %%{init}%% a", "Note over A: a",
    "note left of A: b", "Note over A,B: a->>b: c", "activate A", "deactivate A", "autonumber",
    "autonumber 10 10", "AutoNumber off", "autonumber %% a; A->>B: b", "autonumber 10 5%% a",
    "title a", "title: a", "title a; A->>B: b", "accTitle: a; b # c", "accDescr : a; A->>B: b",
    "accDescr { a }", "accDescr {\na\n%% }\nb }", "%%{init: {}}%%",
    "%%{init: {\n'a': 'b'\n}}%% ", "links A: {}", "link A: b @ c", "properties A: {}",
    "details A: b", "destroy A", "destroy B", "create participant D as E", "actor F",
    "participant A as A <b>c</b>", "participant B as wrap: X",
    "participant Z@{ \"type\": \"queue\" } as b", "participant A@{ \"alias\": \"Data as X\" }",
    "participant Y@{ 'type' : 'queue',\n  alias: An A }",
    "participant A@{\n\n alias: D\n %% b }\n type: queue\n%%{init}%%\n}; A->>B: a",
    "participant B@{\n} as E; accTitle: a\n", "A->>B: a; %% b; B->>A: c",
    "accTitle ->> B: x", "accDescr ->> A: x", "A->>+B: a;B-->>-A: b", "A()->>B: a", "A->>()B: a",
    "B() -->> ()A: b", "loop a\nend %% b; A->>B: c", "A->>B: a # b; B->>A: c", "opt a\nend",
    "rect rgb(0, 0, 0)\nend", "A->>end: a", "loopback->>A: b",
]
# lines that mostly do not
WRONG = [
    "a }", "%%{", "}%%", "accDescr {", "accTitle:", "end", "else", "and b", "option", "loop",
    "alt", "note A", "title -> A", "A->>B", "A: b", "over a", "autonumber x", "---", "off",
    "end loop", "participant f()", "f()->>B: x", "a-b()->>B: x", "link-svc->>A: x",
    "details: x ->> y", "link A", "Note over A->>B: x", "title:A->>B: x", "loop-back->>B: x",
    "loop ->> B: a", "else -> a", "A=>>B: a", "A<->B: a", "A--->>B: a", "envoy-xds->>B: a",
    "A->>+()B: a", "A->>()+B: a", "A()->>+B: a", "A->>-xB: a", "A->>->B: a", "A-->--B: a",
    "A/|-B: a", "A \\\\-- B: a", "A->>B%%: a", "A->>B\uff1a a", "A \u2192 B: a",
    "participant A: B", "participant A@{ a", "participant A@{ a } b", "participant A@{\na } b",
    "participant A@{ b; a }", "participant <@{\n}", "participant A@{ # }",
    "participant A@{\n a %%{b}%% }", "create A", "participant",
    "destroy", "A->>B: a %%{b}%%", "%% a %%{ b", "A->>B: a; lop: b", "A->>B: a &lt; b",
    "sequenceDiagram", "particpant A", "A,B->>C: a", "A->>B;C: a", "end-a", "accTitle a",
    "activate", "deactivate A->>B", "->>B: a", "A->>: a", "()->>A: b",
]
FLOW = "flowchart LR\nA --> B"


def white(pick, share=0.12):
    """Now and then white space."""
    if pick.random() > share:
        return ""
    return "".join(pick.choice(WHITE) for _ in range(pick.choice([1, 1, 2])))


def head_of(pick):
    """An arrow's head; one in ten is a cross."""
    kind = pick.random()
    if kind < 0.78:
        return pick.choice([*["->>", "-->>", "->", "-)"] * 3, *PLAIN])
    if kind < 0.88:
        return pick.choice(CROSSES)
    return pick.choice(TWO_HEADS) if kind < 0.995 else pick.choice(TURNED)


def arrow(pick, names):
    left, right = pick.choice(names), pick.choice(names)
    if pick.random() < (0.01 if set(left) & set("-/\\(") else 0.1):
        left += white(pick) + "()"
    sign = pick.choice([*[""] * 14, "+", "-", "()", "() "])
    spaces = [white(pick) for _ in range(5)]
    sides = f"{left}{spaces[0]}{head_of(pick)}{spaces[1]}{sign}{spaces[2]}{right}{spaces[3]}"
    return f"{sides}:{pick.choice([' ', ' ', ''])}{spaces[4]}{pick.choice(LABELS)}"


def declared(pick, names):
    """A line that is declared, perhaps with a shown name."""
    word, name = pick.choice(["participant", "Actor", "create participant"]), pick.choice(names)
    shown = pick.choice(["", f"{white(pick)} as {white(pick)}{pick.choice(LABELS)}"])
    return f"{word} {white(pick)}{name}{shown}"


def items(pick, names, depth):
    """Some lines of statements, with their blocks."""
    lines = []
    for _ in range(pick.choice([0, 1, 1, 2, 3])):
        kind = pick.random()
        if kind < 0.65 or depth > 3:
            lines.append(arrow(pick, names))
        elif kind < 0.71:
            lines.append(declared(pick, names))
        elif kind < 0.78:
            lines += pick.choice(QUIET).split("\n")
        else:
            lines += block(pick, names, depth)
    return lines


def block(pick, names, depth):
    word = pick.choice(BLOCKS)
    lines = [f"{word} a", *items(pick, names, depth + 1)]
    while word in BRANCHES and pick.random() < 0.5:
        lines += [f"{BRANCHES[word]} b", *items(pick, names, depth + 1)]
    return [*lines, "end"]


def front(pick):
    """The lines up to the first one that counts."""
    before = pick.choice(["", "", "", "---\ntitle: a\n---", "\n --- \na\n---\t", "%% a",
                          "%%{init}%%",
                          "%%{init: {\na\n}}%%", "\u00a0\n%% a", "---\n---"])
    behind = pick.choice(["", "", "", ";", " %% a; b", "; A->>B: a", "#35"])
    return [*before.split("\n"), white(pick) + "sequenceDiagram" + behind]


def diagram(pick):
    """The lines of a diagram."""
    names = pick.sample(NAMES, pick.choice([2, 3, 4]))
    rows = [line for _ in range(pick.choice([1, 2, 3])) for line in items(pick, names, 0)]
    return [*front(pick), *rows]


def with_mistake(pick, lines):
    """The lines with one dropped, doubled, put elsewhere, or another one among them."""
    lines, at = list(lines), pick.randrange(len(lines))
    kind = pick.randrange(5)
    if kind == 0:
        lines.pop(at)
    elif kind == 1:
        lines.insert(at, lines[pick.randrange(len(lines))])
    elif kind == 2:
        lines.insert(pick.randrange(len(lines)), lines.pop(at))
    else:
        lines.insert(pick.choice([at, len(lines)]), pick.choice([*WRONG, *WRONG, *QUIET]))
    return lines


def changed(pick, text):
    """The bytes with some of them changed."""
    held = bytearray(text)
    for _ in range(pick.choice([1, 1, 2, 4])):
        at = pick.randrange(len(held) + 1)
        kind = pick.randrange(4)
        if kind == 0:
            held[at:at] = bytes([pick.choice(b"->:;#%x\xc3\t+<()/\\|{}&@\x0b")])
        elif kind == 1:
            held[at:at] = pick.choice([*sorted(SPACES), *MISTAKEN])
        elif kind == 2:
            del held[at:at + pick.choice([1, 2, 9])]
        elif at < len(held):
            held[at] = pick.randrange(256)
    return bytes(held)


def text_of(pick, lines=None):
    """A text: half of them have a mistake in their lines, or in their bytes."""
    lines, sort = lines or diagram(pick), pick.randrange(4)
    if sort == 1:
        lines = with_mistake(pick, lines)
    lines = [pick.choice(["", "", "  "]) + line + white(pick, 0.03) for line in lines]
    end = pick.choice(["\n", "\n", "\n", "\r\n", "\r"])
    text = (end.join(lines) + pick.choice([end, ""])).encode()
    if pick.random() < 0.05:
        text = b"\xef\xbb\xbf" + text
    return changed(pick, text) if sort == 2 else text


# Markdown

# how blocks begin and end; those between are of fences that are no diagrams, or nearly begin one
FORMS = [
    *[("```mermaid", "```")] * 12, ("~~~ Mermaid title", "~~~~"), ("````mermaid", "````"),
    ("``` {.mermaid .x}", "```"), ("```{mermaid} a", "```"),
    ("```{mermaid}\n:zoom:\n\n:a-b: c", "```"), ("~~~{MERMAID}\n\n:align: center", "~~~"),
    (":::mermaid", ":::"), ("::: Mermaid ", " ::: "), ("{{< mermaid >}}", "{{< /mermaid >}}"),
    ("{{%mermaid a=\"b\"%}}", "{{% / mermaid %}}"), ("<pre class=\"mermaid\">", "</pre>"),
    ("<DIV id='a' class='b Mermaid'>", "</div>"), ("<div class=mermaid>", "a</DIV> b"),
    ("```puml", "```"), ("```mscgen x", "```"), ("```mermaid;", "```"), ("```mermaidx", "```"),
    ("```sh", "```"), ("```text", "```"), ("~~~", "~~~"), ("::: mermaid x", ":::"),
    (":::: mermaid", "::::"), ("{{< mermaid />}}", ""),
    ("{{< mermaidx >}}", "{{< /mermaidx >}}"), ("<pre class=\"mermaidx\">", "</pre>"),
    ("<pre id=\"mermaid\">", "</pre>"), ("<prex class=\"mermaid\">", "</prex>"),
    ("``` mermaid `x`", "```"), ("{{< mermaid >}}", ""),
]
WRONG_ENDS = ["", "``", "``` x", "~~~", ":::", "</pre>", "````"]
MARKS = [
    *[("", "")] * 8, ("> ", "> "), (">", ">"), ("> > ", "> > "), ("- ", "  "), ("12. ", "    "),
    ("1) > ", "   > "), ("* > - ", "  >   "), ("> ", ">"), (">> ", "> "),
]
BETWEEN = ["", "", "# a", "text", "> a", "- b", "---", "sequenceDiagram", "> sequenceDiagram a",
           "- sequenceDiagram", "```", "`a`", "<!-- -->", "{{< /mermaid >}}"]


def marked(pick, lines):
    """The lines with marks of quotes or lists before them, mostly of one kind."""
    first, others = (mark.encode() for mark in pick.choice(MARKS))
    shorter = others.rstrip()
    return [(first if n == 0 else others if line or pick.random() < 0.5 else shorter) + line
            for n, line in enumerate(lines)]


def block_of(pick, text):
    """The lines of a block of Markdown with this text."""
    begin, end = pick.choice(FORMS)
    if pick.random() < 0.05:
        end = pick.choice(WRONG_ENDS)
    lines = [begin.encode(), *text.replace(b"\r\n", b"\n").split(b"\n"), end.encode()]
    lines = [part for line in lines for part in line.split(b"\n")]
    if begin.startswith(("<", "{")) and pick.random() < 0.3:
        lines[:2] = [lines[0] + lines[1]]
        lines[-2:] = [lines[-2] + lines[-1]]
    return marked(pick, lines)


def in_markdown(pick, text):
    """The text in a block of Markdown among others, and the words for one of them, or none."""
    blocks = [text]
    for _ in range(pick.choice([0, 1, 1, 2])):
        other = pick.choice([FLOW, "a", "%%{init}%%\npie", None, None])
        blocks.append(other.encode() if other else text_of(pick))
    pick.shuffle(blocks)
    lines = [pick.choice(BETWEEN).encode()]
    for block in blocks:
        lines += block_of(pick, block)
        lines.append(pick.choice(BETWEEN).encode())
    whole = pick.choice([b"\n", b"\n", b"\r\n"]).join(lines)
    if pick.random() < 0.1:
        whole = changed(pick, whole)
    return whole, pick.choice([[], [], ["--fence", str(pick.choice([1, 1, 1, 2, 2, 3, 9]))]])
