"""Whether the model of executions takes right ones for right, and wrong ones for wrong.

Each wrong one is a right one with some edits, and has to be refused for the reason that stands with
it. The executions were written by hand.
"""
import pathlib

from models.chart import Chart
from models.executions import PATIENCE, Wrong, is_execution
from models.links import Architecture

NEEDS_PROGRAM = False
OPTIONS = {}
CHARTS = pathlib.Path(__file__).resolve().parents[3] / "charts"

RELAY = ("relay", "mailbox", PATIENCE, 0, """chart t
queues mailbox
instance a finished
instance b finished
instance c finished
trace 6
0 a out m1 to b
1 a out x to c
2 b in m1 from a
4 c in x from a
5 c out m2 to b
3 b in m2 from c
""")

# m2 is taken first, though m1 was sent before it
OVERTAKEN = ("relay", "pair", PATIENCE, 0, """chart t
queues pair
instance a finished
instance b finished
instance c finished
trace 6
0 a out m1 to b
1 a out x to c
4 c in x from a
5 c out m2 to b
3 b in m2 from c
2 b in m1 from a
""")

# c loses its patience before x comes; b takes what a sent, and the end marks of both
GIVEN_UP = ("relay", "pair", 7, 3, """chart t
queues pair
instance a finished
instance b starved
instance c impatient
trace 3
0 a out m1 to b
1 a out x to c
2 b in m1 from a
""")

# m2 is taken first; so under the mailbox it was sent first
REVERSED = ("two_senders", "mailbox", PATIENCE, 0, """chart t
queues mailbox
instance a finished
instance b finished
instance c finished
trace 4
3 c out m2 to b
0 a out m1 to b
2 b in m2 from c
1 b in m1 from a
""")

ACTIONS = ("local_events", "single", PATIENCE, 0, """chart t
queues single
instance a finished
instance b finished
trace 4
0 a action 'go'
1 a out m to b
2 b in m from a
3 b action 'done'
""")

NOBODY_TAKES = ("in_turn", "pair", 0, 3, """chart t
queues pair
instance a finished
instance b impatient
instance c impatient
trace 1
0 a out m1 to b
""")

# the same mailbox, of an instance that has connections too
MIXED = ("two_senders", Architecture("pair", {(0, 1): "mailbox", (2, 1): "mailbox"}), PATIENCE, 0,
         REVERSED[4].replace("mailbox", "pair\nlink a>b mailbox\nlink c>b mailbox"))

RIGHT = [RELAY, OVERTAKEN, GIVEN_UP, REVERSED, ACTIONS, NOBODY_TAKES, MIXED]

# what is wrong, the right execution, its edits, and what is said of it; behind that may stand other
# queues, another patience and another status
WRONG = [
    ("another chart's name", RELAY, [("chart t", "chart u")], "chart's name"),
    ("another architecture's word", RELAY, [("queues mailbox", "queues pair")], "architecture"),
    ("a link is left out", MIXED, [("link c>b mailbox\n", "")], "architecture"),
    ("a link has another kind", MIXED, [("c>b mailbox", "c>b single")], "architecture"),
    ("links in another order", MIXED, [("a>b", "d>b"), ("c>b", "a>b")], "architecture"),
    ("the mailbox is two connections", MIXED, [("link a>b mailbox\nlink c>b mailbox\n", "")],
     "a lesser run", "pair"),
    ("an instance is left out", RELAY, [("instance b finished\n", "")], "no line of instance b"),
    ("two instances exchanged", GIVEN_UP,
     [("b starved", "c starved"), ("c impatient", "b impatient")], "no line of instance b"),
    ("no trace", RELAY, [(RELAY[4][RELAY[4].index("trace"):], "no trace\n")], "there is no trace"),
    ("another number of events", RELAY, [("trace 6", "trace 5")], "number of the trace's events"),
    ("the last line has no end", RELAY, [("3 b in m2 from c\n", "3 b in m2 from c")], "has no end"),
    ("a line behind the trace", RELAY, [("m2 from c\n", "m2 from c\npass\n")], "no event"),
    ("an event of no chart", RELAY, [("3 b in", "6 b in")], "no event"),
    ("a number with a zero before it", RELAY, [("3 b in", "03 b in")], "not as event 3 says"),
    ("an event on another instance", RELAY, [("2 b in", "2 c in")], "not as event 2 says"),
    ("another message", RELAY, [("in m1", "in m2")], "not as event 2 says"),
    ("another other end", RELAY, [("m2 from c", "m2 from a")], "not as event 3 says"),
    ("another event's number", RELAY, [("2 b in m1", "3 b in m1")], "not as event 3 says"),
    ("another text of an action", ACTIONS, [("'go'", "'gone'")], "not as event 0 says"),
    ("an event twice", RELAY,
     [("trace 6", "trace 7"), ("m2 from c\n", "m2 from c\n3 b in m2 from c\n")], "stands twice"),
    ("the last event is left out", RELAY,
     [("trace 6", "trace 5"), ("3 b in m2 from c\n", "")], "b is finished with the log"),
    ("the first event is left out", RELAY,
     [("trace 6", "trace 5"), ("0 a out m1 to b\n", "")], "not the first ones"),
    ("an output is left out", RELAY,
     [("trace 6", "trace 5"), ("1 a out x to c\n", "")], "4 may not come"),
    ("an output before the input above it", RELAY,
     [("4 c in x from a\n5 c out m2 to b\n", "5 c out m2 to b\n4 c in x from a\n")],
     "5 before what is drawn before it"),
    ("an action before the input above it", ACTIONS,
     [("2 b in m from a\n3 b action 'done'\n", "3 b action 'done'\n2 b in m from a\n")],
     "3 before what is drawn before it"),
    ("outputs against the order of the text", RELAY,
     [("0 a out m1 to b\n1 a out x to c\n", "1 a out x to c\n0 a out m1 to b\n")],
     "not the first ones"),
    ("an input before its output", ACTIONS,
     [("1 a out m to b\n2 b in m from a\n", "2 b in m from a\n1 a out m to b\n")],
     "2 may not come"),
    ("a message before the first of its queue", OVERTAKEN,
     [("queues pair", "queues mailbox")], "3 may not come", "mailbox"),
    ("two events that a lesser run has the other way round", RELAY,
     [("2 b in m1 from a\n4 c in x from a\n", "4 c in x from a\n2 b in m1 from a\n")],
     "a lesser run"),
    ("the least run of other queues", REVERSED,
     [("queues mailbox", "queues pair")], "a lesser run", "pair"),
    ("whole, but not finished", RELAY, [("b finished", "b impatient")], "b is impatient with"),
    ("finished, but not whole", GIVEN_UP, [("b starved", "b finished")], "b is finished with"),
    ("starved beside a message that is not taken", GIVEN_UP,
     [("c impatient", "c starved")], "c is starved, but some sender"),
    ("stopped, though no gate says no", GIVEN_UP,
     [("b starved", "b stopped")], "b cannot end as stopped"),
    ("a strange message", GIVEN_UP, [("b starved", "b foreign 1")], "no line of instance b"),
    ("an output that could come is left out", RELAY,
     [("trace 6", "trace 4"), ("5 c out m2 to b\n3 b in m2 from c\n", ""),
      ("b finished", "b impatient"), ("c finished", "c impatient")], "c ends before what could"),
    ("a patience lost that nobody loses", NOBODY_TAKES, [], "lost its patience", "pair", PATIENCE),
    ("a message taken without patience", RELAY, [], "takes with a patience of 0", "mailbox", 0),
    ("an end mark taken without patience", NOBODY_TAKES,
     [("c impatient", "c starved")], "c takes with a patience of 0"),
    ("not finished, with the status of finished", GIVEN_UP, [], "the status is 0", "pair", 7, 0),
    ("finished, with the status of races", RELAY, [], "the status is 1", "mailbox", PATIENCE, 1),
]


def fault(name, queues, patience, status, text):
    """What the model says of an execution of a chart; nothing where it is right."""
    drawn = Chart((CHARTS / f"{name}.msc").read_text(), queues)
    try:
        is_execution(drawn, patience, text, status)
    except Wrong as wrong:
        return str(wrong)
    return ""


def edited(execution, edits, others):
    """An execution with its edits, and other queues, patience and status where they are given."""
    name, queues, patience, status, text = execution
    for old, new in edits:
        assert text.count(old) == 1, old
        text = text.replace(old, new)
    given = (*others, *(queues, patience, status)[len(others):])
    return (name, *given, text)


def compare(trial):
    for right in RIGHT:
        said = fault(*right)
        trial.add(not said, f"a right one is refused, {said}:", right[4])
    for what, execution, edits, why, *others in WRONG:
        said = fault(*edited(execution, edits, others))
        trial.add(why in said, f'{what}: wanted "{why}", got "{said}"')
