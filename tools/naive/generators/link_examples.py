"""Rules for links, and queues that texts name, with what they give; all by hand.

Most are of a chart and a diagram with the lines a, b and c. What is wanted is the lines on queues
in the head of an answer, or the line of a fault, in which K is the place of the comment.
"""
from models.links import Given

CHART = ("msc t{}; instance a; out m1 to b; endinstance;"
         " instance b; in m1 from a; in m2 from c; endinstance;"
         " instance c; out m2 to b; endinstance; endmsc;")
DIAGRAM = "sequenceDiagram\n{}\n a->>b: m1\n c->>b: m2\n"
# where a comment has its text, in the chart and in the diagram
BYTE, LINE = len("msc t comment "), 2
UNREAD = "4 at K: queues expected"
# texts of comments, and what `--queues own` makes of them
READINGS = [
    ("queues pair", ["queues pair"]),
    ("queues mailbox", ["queues mailbox"]),
    ("  queues single  ", ["queues single"]),
    ("\t\tqueues \t single\t; pair b", ["queues single", "link b pair"]),
    ("queues pair; mailbox b", ["queues pair", "link b mailbox"]),
    ("queues mailbox;single b ; pair  a > b",
     ["queues mailbox", "link a>b pair", "link b>b single", "link c>b single"]),
    ("queues pair; single c>b, b>a, a>b",
     ["queues pair", "link b>a single", "link a>b single", "link c>b single"]),
    ("queues pair; single b; single a>b, b>b", ["queues pair", "link b single"]),
    ("queues single; pair b; single a>b, b>b, c>b", ["queues single"]),
    ("queues mailbox; mailbox a, b>c; mailbox a", ["queues mailbox"]),
    # these say nothing of queues
    ("", ["queues pair"]),
    ("queues", ["queues pair"]),
    ("queues are per connection", ["queues pair"]),
    ("queues pair of workers; mailbox b", ["queues pair"]),
    ("queues fifo; mailbox b", ["queues pair"]),
    ("queues MAILBOX", ["queues pair"]),
    ("Queues mailbox", ["queues pair"]),
    ("its queues mailbox", ["queues pair"]),
    ("queues\tmailbox", ["queues pair"]),
    ("queuesmailbox", ["queues pair"]),
    ("queues; mailbox b", ["queues pair"]),
    ("queues mailbox, single b", ["queues pair"]),
    ("queues ''single''", ["queues pair"]),
    ("queues p", ["queues pair"]),
    ("queues mailboxing", ["queues pair"]),
    ("queues single mailbox", ["queues pair"]),
    # these are slips
    ("queues Mailbox", UNREAD),
    ("queues mailboxes", UNREAD),
    ("queues pai ; mailbox b", UNREAD),
    ("queues pa", UNREAD),
    ("queues sinlge", UNREAD),
    ("queues pair\x0b; mailbox b", UNREAD),
    ("queues pair\u00a0; mailbox b", UNREAD),
    ("queues pair;", UNREAD),
    ("queues pair; mailbox", UNREAD),
    ("queues pair; mailbox b,", UNREAD),
    ("queues pair; mailbox , b", UNREAD),
    ("queues pair; mailbox a,, b", UNREAD),
    ("queues pair; Mailbox b", UNREAD),
    ("queues pair; fifo b", UNREAD),
    ("queues pair;; mailbox b", UNREAD),
    ("queues pair; single d; mailbox", UNREAD),
    # and these have faulty rules
    ("queues pair; single a>", "1: a> is no link"),
    ("queues pair; single a>b>c; single d", "1: a>b>c is no link"),
    ("queues pair; single d > e", "2: no instance d"),
    ("queues pair; single a> d", "2: no instance d"),
    ("queues pair; single A", "2: no instance A"),
    ("queues pair; single ''b''", "2: no instance ''b''"),
    ("queues pair; single b; mailbox  b ", "3: b has two kinds"),
    ("queues pair; single a > b; single b; mailbox a>b", "3: a>b has two kinds"),
]
# rules of a command line with `--queues mailbox`
RULES = [
    ([("mailbox", "b"), ("mailbox", "a>b")], ["queues mailbox"]),
    ([("single", " a > b "), ("pair", "b")],
     ["queues mailbox", "link a>b single", "link b>b pair", "link c>b pair"]),
    ([("pair", "c"), ("single", "a>a"), ("pair", "a>c")],
     ["queues mailbox", "link a>a single", "link c pair"]),
    ([("pair", "")], "1:  is no link"),
    ([("pair", " > ")], "1: > is no link"),
    ([("mailbox", "a>b>c")], "1: a>b>c is no link"),
    ([("mailbox", ">b")], "1: >b is no link"),
    ([("single", "a b")], "2: no instance a b"),
    ([("single", "d\x01>e")], "2: no instance d?"),
    ([("single", "a>\u00e9")], "2: no instance \u00e9"),
    # those for `pair` come first, and of one kind they keep their order
    ([("single", "d"), ("pair", "a>")], "1: a> is no link"),
    ([("pair", "b"), ("single", "a > b"), ("mailbox", "a>b")], "3: a > b has two kinds"),
    ([("mailbox", "d"), ("mailbox", ">"), ("single", "b"), ("pair", "b")], "2: no instance d"),
]
# texts of comments, and rules of a command line with `--queues own`
BOTH = [
    ("queues mailbox; single b", [("pair", "b")], ["queues mailbox", "link b pair"]),
    ("queues mailbox; single a>b", [("pair", "b")],
     ["queues mailbox", "link a>b single", "link b>b pair", "link c>b pair"]),
    ("queues mailbox; single b", [("pair", "a>b")],
     ["queues mailbox", "link a>b pair", "link b>b single", "link c>b single"]),
    ("queues are per connection", [("single", "b")], ["queues pair", "link b single"]),
    ("queues pair; single d", [("pair", "")], "2: no instance d"),
    ("queues Pair", [("pair", "")], UNREAD),
]
# further lines of the diagram with `--queues own`
LINES = [
    ("%%queues mailbox", ["queues mailbox"]),
    ("%% queues mailbox\x0b\u00a0", ["queues mailbox"]),
    ("\u00a0%% queues mailbox\n%% queues single", ["queues mailbox"]),
    ("%% queues are per connection\n%% queues single", ["queues single"]),
    ("%%\u00a0queues mailbox", ["queues pair"]),
    ("%% queues pair\n%% queues mailbx", ["queues pair"]),
    ("%% queues mailbx\n%% queues pair", UNREAD),
    ("%% queues pair; serves b, The A; mailbox b", UNREAD),
    ("%% queues pair; single d; serves b", UNREAD),
    ("participant a as The A\n%% queues pair; single b>The A", ["queues pair", "link b>a single"]),
    ("participant a as b\n%% queues pair; single b", ["queues pair", "link b single"]),
    ("participant o r\n%% queues pair; single o r; pair o_r>a",
     ["queues pair", "link o_r single"]),
    ("%%% queues mailbox\n a->>b: x %% queues mailbox", ["queues pair"]),
    ("%% queues pair; serves", UNREAD),
    ("\n%% queues pair; single \u00e9", "2: no instance ?"),
]
# what stands behind the word that begins the diagram, with `--queues own`
BEHIND = [
    (" %% queues mailbox\n%% queues single", ["queues mailbox"]),
    ("%%queues pairs", "4 at 1: queues expected"),
    (" %% queues are per connection\n%% queues single", ["queues single"]),
    ("; %% queues mailbox", ["queues pair"]),
]
# lines of the diagram, and the comment of its chart
IMPORTS = [
    ("%% queues pair; single c>b,b>a ; mailbox a, b ;single a > b",
     "queues pair; mailbox a, b; single c>b, b>a, a>b"),
    ("%% queues mailbox; mailbox b, b; serves b; pair c", "queues mailbox; pair c; mailbox b"),
    ("participant a as The A\n%% queues single; single The A, a", "queues single; single a"),
    ("%% queues pair", "queues pair"),
    ("%% queues are per connection\n%% queues mailbox", "queues mailbox"),
    ("%% queues pair; serves b; single b>c, b>b, b", "queues pair; single b>c, b>b, b"),
    ("%% queues pair; single d", None),
    ("%% queues pair; single b; pair b", None),
    ("%% queues pair; serves b,", None),
    ("%% queues Pair\n%% queues pair", None),
    ("%% queues are per connection", None),
]
# a worker reads what two services write to its mailbox, and has a connection to its database
WORKER = ("msc worker comment 'queues pair; mailbox worker; pair db>worker'; instance a; out job, 1"
          " to worker; endinstance; instance b; out job, 2 to worker; endinstance; instance worker;"
          " in job, 1 from a; in job, 2 from b; out query to db; in row from db; endinstance;"
          " instance db; in query from worker; out row to worker; endinstance; endmsc;")
# a radio cell sends datagrams, and has a connection to its worker
CELL = ("msc cell comment 'queues pair; single radio>base, base>radio'; instance radio; out m, 1 to"
        " base; out m, 2 to base; endinstance; instance base; in m, 1 from radio; in m, 2 from"
        " radio; out r1 to worker; out r2 to worker; endinstance; instance worker; in r1 from base;"
        " in r2 from base; endinstance; endmsc;")
CELL_HEAD = "chart cell\nqueues pair\nlink base>radio single\n"
# charts, words of `check`, and what it prints
CHECKS = [
    (WORKER, ["--queues", "own"],
     "chart worker\nqueues pair\nlink a>worker mailbox\nlink b>worker mailbox\n"
     "link worker>worker mailbox\nraces 1\n"
     "race 2 3 on worker: in job, 1 from a; in job, 2 from b\nrun 1 0 3 2 4 6 7 5\n"),
    (WORKER, ["--queues", "single"], "chart worker\nqueues single\nraces 1\n"
     "race 2 3 on worker: in job, 1 from a; in job, 2 from b\nrun 0 1 3 2 4 6 7 5\n"),
    (CELL, ["--queues", "own"], CELL_HEAD + "link radio>base single\nraces 1\n"
     "race 2 3 on base: in m, 1 from radio; in m, 2 from radio\nrun 0 1 3 2 4 5 6 7\n"),
    (CELL, ["--queues", "own", "--pair", "radio>base"], CELL_HEAD + "pass\n"),
    (CELL, ["--queues", "mailbox"], "chart cell\nqueues mailbox\npass\n"),
]


def in_chart(comment):
    return CHART.format(f" comment '{comment}'").encode()


def in_diagram(lines):
    return DIAGRAM.format(lines).encode()


def heads():
    """Charts and diagrams, what a command line says of their queues, and what is wanted."""
    for comment, wanted in READINGS:
        yield in_chart(comment), Given("own"), wanted
        yield in_diagram(f"%% {comment}"), Given("own"), wanted
    yield in_chart("queues pair; serves b"), Given("own"), UNREAD
    for rules, wanted in RULES:
        yield CHART.format("").encode(), Given("mailbox", rules), wanted
        yield in_diagram(""), Given("mailbox", rules), wanted
    for comment, rules, wanted in BOTH:
        yield in_chart(comment), Given("own", rules), wanted
        yield in_diagram(f"%% {comment}"), Given("own", rules), wanted
    for lines, wanted in LINES:
        yield in_diagram(lines), Given("own"), wanted
    for rest, wanted in BEHIND:
        yield in_diagram("").replace(b"\n", rest.encode() + b"\n", 1), Given("own"), wanted


def imports():
    """Diagrams, and the texts of their charts."""
    for lines, comment in IMPORTS:
        said, kind = f" comment '{comment}'" if comment else "", " : The_A" * ("The A" in lines)
        text = CHART.format(said).replace("m1", "m1, 1").replace("m2", "m2, 2")
        text = text.replace("msc t", "msc diagram").replace("instance a", f"instance a{kind}")
        rows = [row.strip() for row in text.split(";") if row.strip()]
        yield in_diagram(lines), rows
