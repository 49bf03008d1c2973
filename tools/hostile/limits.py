#!/usr/bin/env python3
"""Meets each limit of docs/LANGUAGE.md from both sides, and looks at the answers.

    limits.py [--quick] [--commands C,..] PROGRAM

Texts at the limit are read or checked, and texts one past it are refused with the limit's line;
texts that are as large as a text may be, each made of one thing, are read (with --quick those of
few tokens alone, since the naive reader takes its time for the others). Wanted answers are those of
tools/naive or stand here; the limits of diagrams are met by its comparisons imports and
diagram_checks too. The largest charts and diagrams are answered the same with a stack of 128
KiB, for each thread too. Prints what differs, and last `N passed, M failed`.
"""
import random
import resource
import sys

from load import INSTANCES, MESSAGES, drawn
from program import LINKS, QUEUES, Answer, Count, add_commands, arguments, check_words, run
from generators import diagram_checks, imports
from models.answers import check_answer, diagram_check_answer, import_answer, read_answer
from models.links import Given
from models.shown import run_lines

LIMIT = 1048576
# bytes of a small stack
STACK = 128 * 1024
TOO_LONG = "lexical fault 1: text longer than 1048576 bytes"
# the texts of a chart's head, and of its ends
HEAD, END = b"msc t;", b"endmsc;"


def filled(before, some, behind, length=LIMIT):
    """A text of this length: a beginning, as many of these bytes as have room, and an end."""
    times = (length - len(before) - len(behind)) // len(some)
    text = before + some * times + behind
    return text + b" " * (length - len(text))


SECTION, REST = HEAD + b"instance a;", b"endinstance;" + END
# what texts of few tokens, and of as many as have room, are made of: a beginning, what is repeated,
# and an end
FEW = [
    (b"", b" ", HEAD + END), (HEAD, b" ", END),
    (HEAD, b"/**/", END), (HEAD + b"/*", b"*", b"*/" + END),
    (b"msc t comment '", b"''", b"';" + END), (SECTION + b"action '", b"\xff", b"';" + REST),
    (b"", b"/*", b""), (b"", b"'a", b""), (b"", b"'", b""), (b"", b"x", b""), (b"", b"/", b""),
    (b"", b" ", b""),
    (b"", b"\0", b""),
]
MANY = [
    (HEAD + b"inst a", b",a", b";" + END), (HEAD, b"inst a : process p;", END),
    (HEAD, b"instance a;endinstance;", END), (SECTION, b"concurrent;endconcurrent;", REST),
    (SECTION, b"action '';", REST), (SECTION, b"in m from a;", REST),
    (SECTION + b"out m(x", b",x", b") to a;" + REST),
    (b"", b"(", b""), (b"", b"msc ", b""), (b"", b"x ", b""),
    (HEAD, b"inst ", b""), (SECTION, b"concurrent;", b""),
    (SECTION + b"out m(x", b",", b""),
]


def long_texts(parts):
    """Texts at the limit and past it, and what is answered."""
    for part in parts:
        yield filled(*part), read_answer(filled(*part))
        for more in (1, 2, LIMIT):
            yield filled(*part, LIMIT + more), (b"", f"{TOO_LONG}\n".encode(), 2)


def named(length, count=1):
    """A chart's name of this length, and as many instances of such names."""
    names = [str(number).encode().rjust(length, b"n") for number in range(count)]
    sections = (b"instance " + name + b";endinstance;" for name in names)
    return b"msc " + names[0] + b";" + b"".join(sections) + END


def of_instances(count):
    sections = (f"instance i{number};endinstance;".encode() for number in range(count))
    return HEAD + b"".join(sections) + END


def of_events(messages, actions=0, inputs=None, step=1):
    """A chart with so many messages from a to b, taken in the other order where the step is -1, and
    actions of b."""
    out = "".join(f"out m{number} to b;" for number in range(messages))
    inputs = messages if inputs is None else inputs
    taken = "".join(f"in m{number} from a;" for number in range(inputs)[::step])
    own = "action '';" * actions
    text = f"msc t;instance a;{out}endinstance;instance b;{taken}{own}endinstance;endmsc;"
    return text.encode()


def passes(queues):
    """What is printed of a chart without races."""
    return Answer(f"chart t\nqueues {queues}\npass\n".encode(), b"", 0)


def fault(line):
    return Answer(b"", f"{line}\n".encode(), 2)


def charts():
    """Texts, architectures, how many races get a run, and what is printed."""
    for text in (of_instances(0), of_instances(32), of_events(1024), of_events(1024, 1024),
                 of_events(0, 1024)):
        yield from ((text, queues, None, passes(queues)) for queues in ("pair", "mailbox"))
    for text, line in [
        (of_instances(33), "chart fault 1: more than 32 instances"),
        (of_instances(30000), "chart fault 1: more than 32 instances"),
        (of_events(1025), "chart fault 5: more than 1024 messages"),
        (of_events(1025, 1025), "chart fault 5: more than 1024 messages"),
        (of_events(1025, 0, 0), "chart fault 5: more than 1024 messages"),
        (of_events(0, 0, 1025), "chart fault 5: more than 1024 messages"),
        (of_events(20000), "chart fault 5: more than 1024 messages"),
        (of_events(1024, 1025), "chart fault 11: more than 1024 actions"),
        (of_events(0, 60000), "chart fault 11: more than 1024 actions"),
        (of_events(1024, 1024, 1023), "chart fault 7: output 1023 has no input"),
        (of_events(1023, 1024, 1024), "chart fault 8: input 2046 has no output"),
    ]:
        yield from ((text, queues, None, fault(line)) for queues in QUEUES)


# comments that fill a text: what comes before and behind many times the same
COMMENTS = [
    (b"queues", b" ", b"pair"), (b"queues pair", b";", b""), (b"queues ", b"p", b""),
    (b"queues pair; single i0", b",", b""), (b"queues pair; single i0", b", i0", b""),
    (b"queues pair; single i0", b";single i0", b""), (b"", b" ", b"queues pair; mailbox i0"),
    (b"queues pair; single ", b">", b""), (b"queues pair; single ", b"i", b""),
    (b"queues pair; single i0>", b"\xff", b""), (b"queues pair; single ", b"''", b""),
    (b"queues pair; single i0, i1", b" ", b"; mailbox i1"),
]
# the same of diagrams, with lines
LINES = [
    (b"%% queues mailbox", b" "), (b"%% queues pair; serves A", b",A"), (b"%%", b" "),
    (b"%% queues pair; single A", b">"), (b"%% queues pair; single A", b", A"),
    (b"", b"%% queues are\n"), (b"%% queues pair; single ", b"\xc3\xa9"),
    (b"%% queues pair; mailbox B\n", b"%% queues single\n"),
]


def of_links(is_quick):
    """Charts of 32 instances, of which each of 1,024 links has a rule of its own; many rules of one
    link; words that are no LINKs; and comments that fill the text."""
    text, names = of_instances(32), [f"i{number}" for number in range(32)]
    links = [f"{sender}>{receiver}" for sender in names for receiver in names]
    kinds = [QUEUES[(sender + receiver) % 3] for sender in range(32) for receiver in range(32)]
    every = list(zip(kinds, links))
    for some in (every, [*every, *((kind, name) for kind, name in zip(kinds, names))],
                 [("pair", link) for link in links], [("single", "i0>i1")] * 2000,
                 [*every, ("pair", links[1])], *([("pair", link)] for link in LINKS)):
        yield text, Given("single", some)
    queues = "; ".join(f"{kind} {link}" for kind, link in every)
    for held in (f"queues pair; {queues}", f"queues pair; {queues}; mailbox i0",
                 f"queues pair; {queues}; pair i0>i1"):
        yield text.replace(b"msc t", f"msc t comment '{held}'".encode()), Given("own")
    for before, some, behind in COMMENTS[:2 if is_quick else None]:
        rest = behind + text.replace(b"msc t;", b"';")
        yield filled(b"msc t comment '" + before, some, rest), Given("own")


def checks_of_links(count, program, options):
    """Compares what is printed of these, and of diagrams with comments."""
    for text, given in of_links(options.quick):
        answer, told = run(check_words(program, given), text), " ".join(given.words())
        count.compare(answer, check_answer(text, given), told[:200], text[:60])
    for before, some in LINES[:2 if options.quick else None]:
        text = filled(b"sequenceDiagram\n" + before, some, b"\nA->>B: a\nC->>B: b\n")
        words = ["check", "--from", "any", "--queues", "own", "-"]
        wanted = diagram_check_answer(text, words[1:-1])
        count.compare(run([program, *words], text), wanted, *words, text[:60])
        if "import" in options.commands:
            answer = run([program, "import", "-"], text)
            count.compare(answer, import_answer(text, []), "import", text[:60])


def numbers_of_races():
    """Charts at the limits, architectures, and how many races and closest races there are."""
    # 1,024 messages of one sender under `single`, or overtaken all: each two of them race
    yield of_events(1024), "single", 1024 * 1023 // 2, 1023
    yield of_events(1024, step=-1), "pair", 1024 * 1023 // 2, 1023
    # 1,024 actions are drawn before each of 1,024 inputs
    many = of_events(1024).replace(b"in m0 ", b"action '';" * 1024 + b"in m0 ")
    yield many, "pair", 1024 * 1024, 1


def numbers_of_sticks():
    """Charts at the limits, architectures, and what is told of their sticks, and how many there are."""
    yield of_events(1024), "pair", "finishes", 0
    # all are overtaken: each two are a stick, and the first message that is waited for comes last
    yield of_events(1024, step=-1), "pair", f"never finishes {1024 * 1023 // 2}", 1024 * 1023 // 2


def drawings():
    """Charts at the limits, architectures, what is printed of their drawings, and the status."""
    # all outputs come first, since they are the least
    for messages, actions in ((0, 0), (1024, 1024), (0, 1024)):
        text, run_of_all = of_events(messages, actions), range(2 * messages + actions)
        for queues in QUEUES:
            yield text, queues, ["follows", *run_lines(None, run_of_all, False)], 0
    # m0 is sent first and taken last, so each other message has to be ahead of it
    ring = ["drawn 0 1: a out m0 to b; a out m1 to b", "ahead 1 0: a out m1 to b; a out m0 to b"]
    for queues in ("pair", "mailbox"):
        yield of_events(1024, step=-1), queues, ["never", *ring], 1
    yield of_events(1024, step=-1), "single", ["follows", *run_lines(None, range(2048), False)], 0


def checks_of_drawings(count, program):
    """Compares what is printed of the drawings of charts at the limits."""
    for text, queues, lines, status in drawings():
        told = "".join(f"{line}\n" for line in ["chart t", f"queues {queues}", *lines])
        words = ["follow", "--queues", queues, "-"]
        got = run([program, *words], text)
        count.compare(got, Answer(told.encode(), b"", status), *words, text[:60])


def of_two_senders(messages):
    """A chart in which c takes so many messages of a, and then as many of b."""
    taken, text = "", "msc t;"
    for sender in "ab":
        sent = "".join(f"out {sender}{n} to c;" for n in range(messages))
        taken += "".join(f"in {sender}{n} from {sender};" for n in range(messages))
        text += f"instance {sender};{sent}endinstance;"
    return f"{text}instance c;{taken}endinstance;endmsc;".encode()


def rounds():
    """Charts at the limits of two rounds, commands, how many pairs there are between the rounds,
    and the first of them."""
    # all messages of a round are sent before those of the next
    for text in (of_events(512), of_events(512, step=-1)):
        yield text, ["check", "--queues", "pair"], 0, None
        yield text, ["ready", "--queues", "mailbox"], 0, None
    yield of_events(0, 512), ["check", "--queues", "single"], 0, None
    # the first input of b's next round can come before its last action
    pair = "again 1535 512 on b: action ''; in m0 from a"
    yield of_events(512, 512), ["check", "--queues", "pair"], 1, pair
    # nothing orders what a sends in a round and b in the next, or b in a round and a in the next
    two = of_two_senders(256)
    pair = "again 1023 512 on c: in b255 from b; in a0 from a"
    yield two, ["check", "--queues", "mailbox"], 1, pair
    pair = "again 512 768 on c: in a0 from a; in b0 from b"
    yield two, ["ready", "--queues", "mailbox"], 2 * 256 * 256, pair


# an output with a mark that accepts no race
MARKED = b"m0 to b comment 'race ok: none'"


def faults_of_rounds():
    """Charts whose two rounds are no chart, words, and what is told."""
    messages = "again fault 1: more than 512 messages"
    actions = "again fault 2: more than 512 actions"
    for command in ("check", "ready"):
        for text, line in ((of_events(513), messages), (of_events(513, 513), messages),
                           (of_events(1024, 1024), messages), (of_events(512, 513), actions),
                           (of_events(0, 513), actions), (of_events(0, 1024), actions)):
            yield text, [command], line
        yield of_events(513), [command, "--places"], messages
        yield of_events(513, step=-1), [command], messages
        # what is told of a chart alone comes first
        yield of_events(1025), [command], "chart fault 5: more than 1024 messages"
        yield of_events(513, 0, 512), [command], "chart fault 7: output 512 has no input"
    # also where the races of one round, or a mark of it, would tell the status
    for more in (["-q"], ["-q", "--accept"], ["--format", "count"]):
        for step in (1, -1):
            yield of_events(513, step=step), ["check", *more], messages
        yield of_events(512, 513), ["check", *more], actions
        yield of_events(513).replace(b"m0 to b", MARKED), ["check", *more], messages
    yield of_events(513), ["ready", "--only", "b"], messages
    yield of_events(513), ["ready", "--only", "c"], "ready fault 1: no instance c"
    faulty = of_events(513).replace(b"m0 to b", b"m0 to b comment 'race ok'")
    at = faulty.index(b"'")
    yield faulty, ["check"], messages
    yield faulty, ["check", "--accept"], f"accept fault 2 at {at}: no reason"


def checks_of_rounds(count, program, commands):
    """Compares what is printed with --again at the limits."""
    for text, words, pairs, first in rounds():
        if words[0] not in commands:
            continue
        words = [*words, "--again"]
        answer = run([program, *words, "--show", "0", "-"], text)
        lines = [line for line in answer.output.decode().splitlines() if line.startswith("again ")]
        is_told = lines[:1] == [f"again {pairs}"] and len(lines) == pairs + 1
        is_told = is_told and (pairs == 0 or lines[1] == first and answer.status == 1)
        count.add(is_told, *words, lines[:2], len(lines), answer.status, answer.output[:100])
        if words[0] == "check":
            quiet = run([program, *words, "-q", "-"], text)
            count.compare(quiet, Answer(b"", b"", answer.status), *words, "-q")
    for text, words, line in faults_of_rounds():
        if words[0] in commands:
            words = [*words, "--queues", "pair", "--again", "-"]
            count.compare(run([program, *words], text), fault(line), *words, text[:100])
    words = ["check", "--queues", "pair", "--again", "--format", "lines", "-"]
    line = b"again fault 1: more than 512 messages\n"
    if "check" in commands:
        wanted = Answer(b"-:1:1: error: " + line, line, 2)
        count.compare(run([program, *words], of_events(513)), wanted, *words)


def are_listed(count, answer, head, races):
    """Counts whether an answer has this head and so many races."""
    is_told = answer.output.startswith(head.encode()) and answer.status == 1
    count.add(is_told and answer.output.count(b"\nrace ") == races, head, answer.output[:100])


def nested(depth, body):
    """A diagram of so many loops inside each other."""
    return "sequenceDiagram\n" + "loop\n" * depth + body + "end\n" * depth


def diagrams():
    """Diagrams at the limits, options, and how many scenarios pass, or the line of the fault."""
    head, arrow = "sequenceDiagram\n", "A->>B: a\n"
    for limit in (64, 4096):
        words = [] if limit == 64 else ["--limit", str(limit)]
        branches = "alt\n" + "else\n".join([arrow] * limit)
        yield head + branches + "end\n", words, limit
        too_many = f"import fault 11: more than {limit} scenarios"
        yield head + branches + "else\nend\n", words, too_many
    yield head + arrow * 1024, [], 1
    yield head + arrow * 1025, [], "import fault 15 at 1026: more than 1024 arrows"
    yield nested(1, arrow), ["--rounds", "1024"], 1
    yield nested(2, arrow), ["--rounds", "1024"], "import fault 15 at 4: more than 1024 arrows"
    yield nested(9, "break\nend\n"), ["--rounds", "1024"], "import fault 11: more than 64 scenarios"
    yield nested(10, arrow), ["--rounds", "0"], 1


def checks_of_diagrams(count, program):
    """Compares what is printed of all scenarios of these diagrams."""
    for text, more, wanted in diagrams():
        words = ["check", "--from", "mermaid", "--queues", "pair", *more, "-"]
        if isinstance(wanted, str):
            answer = fault(wanted)
        else:
            told = f"diagram diagram\nqueues pair\nscenarios {wanted}\npass\n"
            answer = Answer(told.encode(), b"", 0)
        count.compare(run([program, *words], text.encode()), answer, *words, text[:60])
    # the choices of a scenario may take more room than there is before its 1,025th arrow is reached
    words = ["check", "--from", "mermaid", "--queues", "pair", "--rounds", "1024", "-"]
    got = run([program, *words], nested(10, "A->>B: a\n").encode())
    ends = fault("import fault 15 at 12: more than 1024 arrows"), Answer(b"", b"memory fault\n", 4)
    count.add(got in ends, *words, got)


def small_stack():
    resource.setrlimit(resource.RLIMIT_STACK, (STACK, STACK))


# how a process has one
SMALL = {"preexec_fn": small_stack, "env": {}}


def stacks(count, program, commands):
    """Runs the largest charts and diagrams with a small stack; of `run`, whose traces differ, only that it
    succeeds."""
    for text in (of_events(1024, 1024), drawn(random.Random(1), INSTANCES, MESSAGES)):
        ways = [[program, "read", "-"], *(check_words(program, queues, 3) for queues in QUEUES)]
        for command in ("follow", "run", "draw", "report", "ready"):
            if command in commands:
                ways += [[program, command, "--queues", queues, "-"] for queues in QUEUES]
        for words in ways:
            full = run(words, text)
            small = run(words, text, **SMALL)
            is_same = small[1:] == (b"", 0) if words[1] == "run" else small == full
            count.add(is_same, *words[1:], f"with a stack of {STACK} bytes", small[1:])
    for text in (of_events(512, 512), drawn(random.Random(1), INSTANCES, MESSAGES // 2)):
        for command in ("check", "ready") if "ready" in commands else ("check",):
            words = [program, command, "--queues", "mailbox", "--again", "--show", "3", "-"]
            full, small = run(words, text), run(words, text, **SMALL)
            count.add(small == full, *words[1:], f"with a stack of {STACK} bytes", small[1:])
    largest = [(["import", *words], text) for text, words in imports.at_the_limits()]
    largest += ((["check", *words], text) for text, words in diagram_checks.at_the_limits())
    largest += ((["check", "--from", "any", "--queues", "pair", *words], text)
                for text, words, _ in diagrams())
    for words, text in largest:
        if words[0] not in commands:
            continue
        words = [program, *words, "-"]
        full, small = (run(words, text.encode(), **how) for how in ({}, SMALL))
        count.add(small == full, *words[1:4], f"with a stack of {STACK} bytes", small[1:])


def main():
    words = arguments(__doc__)
    words.add_argument("--quick", action="store_true")
    add_commands(words)
    options = words.parse_args()
    program, count = options.program, Count()
    for text, wanted in long_texts(FEW if options.quick else FEW + MANY):
        count.compare(run([program, "read", "-"], text), wanted, len(text), text[:60])
    for length in (1, 63, 64, 65, 66, 1000):
        for instances in (1, 32):
            text = named(length, min(instances, 10 ** length))
            answer = run([program, "read", "-"], text)
            count.compare(answer, read_answer(text), f"names of {length}")
    empty = HEAD + b"instance a;" + b"concurrent;endconcurrent;" * 40000 + b"endinstance;" + END
    written = run([program, "read", "-"], empty)
    lengths = len(empty), len(written.output), written.status
    count.add(lengths == (1000036, 1240040, 0), "empty coregions", lengths)
    answer = run([program, "read", "-"], written.output)
    count.compare(answer, fault(TOO_LONG), "their canonical text")
    for text, queues, show, wanted in charts():
        count.compare(run(check_words(program, queues, show), text), wanted, queues, text[:100])
    for text, queues, races, closest in numbers_of_races():
        head = f"chart t\nqueues {queues}\nraces {races}\n"
        words = check_words(program, queues, 0)
        are_listed(count, run(words, text), head, races)
        answer = run([*words[:-1], "--closest", "-"], text)
        are_listed(count, answer, f"{head}closest {closest}\n", closest)
    for text, queues, told, sticks in numbers_of_sticks():
        answer = run([program, "ready", "--queues", queues, "--show", "0", "-"], text)
        is_told = answer.output.startswith(f"chart t\nqueues {queues}\n{told}\n".encode())
        is_told = is_told and answer.output.count(b"\nstick ") == sticks
        count.add(is_told and answer.status == int(bool(sticks)), told, answer.output[:100])
    if "follow" in options.commands:
        checks_of_drawings(count, program)
    checks_of_rounds(count, program, options.commands)
    if "check" in options.commands:
        checks_of_links(count, program, options)
        checks_of_diagrams(count, program)
    stacks(count, program, options.commands)
    return count.end()


if __name__ == "__main__":
    sys.exit(main())
