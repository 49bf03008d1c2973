#!/usr/bin/env python3
"""Gives a program random texts, and compares what it answers with what the models of tools/naive do.

    fuzz.py [--texts N] [--seconds S] [--seed S] [--only T] [--jobs J] [--commands C,..] PROGRAM

The texts 0 to N - 1 of a seed are tried (for at most S seconds), and `--only T` prints one of them
and tries it. Text T of a seed is always the same. Some go from place to place of the grammar, now
and then to a token that may not follow; some are charts with header, kinds, message instance names,
parameters and coregions, spelled with any white space and notes; some are tokens in any order. Of
each sort many are then changed: tokens or bytes are taken away, put in, doubled, exchanged, or the
text is cut. Each text is given to `msc read`, and to `msc check`, `msc follow`, `msc run`, `msc
draw`, `msc ready` and `msc report` with one kind of queues, a third of them with rules for links or
a comment that may name its queues, which may be faulty: both streams and the status are to be
the same, for a chart that is run the trace has to be a whole run of it, and a report has to be read
as XML. With `--places` nothing else may be printed but places, and behind the line of a fault what
is said of it, all of it of bytes that move no cursor. As lines for editors, with marks, all that is
printed is such lines, of such bytes, and a refusal is the first of them. Each third text is checked
and asked for sticks with `--again` too. Each fourth number has a diagram of Mermaid too, of which
`msc check --from` has to print what the model does. Prints what differs, how many texts got which
answer, and last `N passed, M failed`.
"""
import collections
import multiprocessing
import os
import random
import re
import sys
import time
import xml.etree.ElementTree

from program import LINKS, QUEUES, Count, add_commands, arguments, check_words, queue_words, run
from generators import diagram_checks, links
from generators.charts import chart
from models.answers import ALL, again_answer, check_answer, diagram_check_answer, draw_answer
from models.answers import follow_answer, read_answer, ready_answer
from models.links import Given
from models.own import of_chart
from models.reading import PLACES, SUPPORTED, UNSUPPORTED, Draft, Event, tokens
from whole_runs import Drawn

MARKS = [";", ",", ":", "(", ")"]
# the first nine are those that are drawn mostly
NAMES = [b"a", b"b", b"c", b"m", b"x1", b"1", b"_", b"i0", b"i1",
         b"A", b"outer", b"x" * 64, b"x" * 65]
TEXTS = [b"''", b"'go'", b"'it''s'", b"''''", b"'; /* */'", b"'\n\xff\x00'", b"' comment '",
         b"'race ok: known'", b"'race ok with m0; 1: \xff'", b"'race ok'"]
SPACES = [b" ", b" ", b" ", b"\n", b"\t", b"\r\n",
          b"/**/", b"/* ' ; */", b"/***/ ", b" /* endmsc; /* */"]
# how many texts a process tries at a time; each which of them has a diagram beside it; and each
# which of them is asked about two rounds
BATCH, DIAGRAMS, ROUNDS = 50, 4, 3
HEAD = re.compile(rb"(\s*msc\s+\w+\s*);", re.IGNORECASE)


def spelled(pick, kind):
    """A token of a kind: a mark, a text, a name, or a reserved word in any case."""
    if kind in MARKS:
        return kind.encode()
    if kind == "text":
        return pick.choice(TEXTS)
    if kind == "name":
        return pick.choice(NAMES[:9] if pick.random() < 0.98 else NAMES)
    return (kind if pick.random() < 0.9 else pick.choice([kind.upper(), kind.title()])).encode()


def any_kind(pick):
    return pick.choice([*MARKS, "text", "name", "name", *SUPPORTED, pick.choice(UNSUPPORTED)])


def steps():
    """For each place of the grammar how many tokens stand at least between it and the end of the
    text."""
    left, length = {"past": 0}, 0
    while len(left) < len(PLACES):
        length += 1
        nearer = set(left)
        left |= {place: length for place, (_, follow) in PLACES.items()
                 if place not in left and nearer & set(follow.values())}
    return left


STEPS = steps()


def walk(pick):
    """The tokens of a way through the grammar, which may stop before its end, or goes there
    straight from some token on; at some steps of some ways stands a token that may not follow."""
    place, found = "start", []
    wrong = pick.choice([0, 0, 0.01, 0.05])
    most, straight = pick.randrange(1, 150), pick.randrange(100)
    while place != "past" and len(found) < most:
        follow = PLACES[place][1]
        kinds = [kind for kind in follow if kind != "comment" or pick.random() < 0.1]
        if len(found) > straight:
            kinds = [min(follow, key=lambda kind: STEPS[follow[kind]])]
        kind = pick.choice(kinds or list(follow))
        if pick.random() < wrong:
            found.append(spelled(pick, any_kind(pick)))
        else:
            found.append(spelled(pick, kind))
            place = follow[kind]
    return found


def soup(pick):
    """Tokens in any order."""
    return [spelled(pick, any_kind(pick)) for _ in range(pick.randrange(12))]


def renamed(pick, event, numbered):
    """An event with any parameters, its message perhaps told apart by a message instance name."""
    if event.way == "action":
        return event
    parameters = [pick.choice(NAMES[:9]) for _ in range(pick.choice([0, 0, 1, 3]))]
    named = {"name": b"m", "number": event.name} if numbered else {}
    return event._replace(parameters=parameters, **named)


def drawn(pick):
    """The tokens of a chart; more may stand in it than generators/charts.py draws."""
    draft = Draft(chart(pick, pick.choice([2, 5, 9]), True).encode("latin-1"))
    numbered = pick.random() < 0.3
    for number, section in enumerate(draft.sections):
        kind = [pick.choice(NAMES[:9]) for _ in range(pick.choice([0, 0, 0, 1, 2]))]
        items = [type(item)(renamed(pick, event, numbered) for event in item)
                 for item in section.items]
        decl = section.decl._replace(kind=kind)
        draft.sections[number] = section._replace(decl=decl, items=items)
    if pick.random() < 0.4:
        draft.header = [pick.choice(draft.sections).decl for _ in range(pick.randrange(4))]
    section = pick.choice(draft.sections)
    if pick.random() < 0.1:
        section.items.insert(0, (Event("in", b"m0", None, [], section.decl.name),))
    if pick.random() < 0.2:
        # perhaps an event comes before itself then
        pick.shuffle(section.items)
    return [it.bytes for it in tokens(draft.canonical())]


def changed(pick, found):
    """A list in which one or two items of it, from a place on, are taken away, doubled, or
    exchanged with others."""
    place, other = sorted(pick.randrange(len(found) + 1) for _ in range(2))
    some = found[place:place + pick.choice([1, 1, 2, 5])]
    past = place + len(some)
    return pick.choice([
        found[:place] + found[past:],
        found[:past] + some + found[past:],
        found[:place] + found[other:other + 1] + found[place + 1:other] + some + found[other + 1:],
        found[:other] + some + found[other:],
    ])


def joined(pick, found):
    """The text of these tokens, with white space and notes between them: always between two words
    or names and between two quoted texts."""
    text, wide = b"", pick.random() < 0.5
    for token in found:
        is_close = re.search(rb"[A-Za-z0-9_]$", text) and re.match(rb"[A-Za-z0-9_]", token)
        if is_close or text[-1:] == token[:1] == b"'" or (wide and pick.random() < 0.5):
            text += pick.choice(SPACES)
        text += token
    return text


def random_bytes(pick, text):
    """The text with some of its bytes replaced by random ones, or with such put in."""
    for _ in range(pick.choice([1, 1, 2, 4])):
        place = pick.randrange(len(text) + 1)
        byte = pick.choice([b"'", b"*", b"/", b";", bytes([pick.randrange(256)])])
        text = text[:place] + byte + text[place + pick.randrange(2):]
    return text


def text_of(seed, number):
    """The text of this number, and how it is checked: the architecture, and how many races get a
    run."""
    pick = random.Random(f"{seed} {number}")
    found = pick.choice([walk, walk, drawn, drawn, drawn, soup])(pick)
    for _ in range(pick.choice([0, 0, 0, 1, 2])):
        found = changed(pick, found)
    text = joined(pick, found)
    if pick.random() < 0.1:
        text = random_bytes(pick, text)
    if pick.random() < 0.1:
        text = bytes(changed(pick, list(text)))
    if pick.random() < 0.05:
        text = text[:pick.randrange(len(text) + 1)]
    queues, show = pick.choice(QUEUES), pick.choice([None, None, 0, 1, 3])
    other = random.Random(f"{seed} {number} links")
    text, queues = with_links(other, text, queues) if other.random() < 0.34 else (text, queues)
    return text, queues, show


def with_links(pick, text, queues):
    """The text, perhaps with a comment that may name its queues, and what is said of them."""
    names, head = [name.decode() for name in NAMES[:10]], HEAD.match(text)
    if head and pick.random() < 0.5:
        held = links.own(pick, names).replace("'", "''").encode()
        if pick.random() < 0.2:
            held = random_bytes(pick, held).replace(b"'", b"''")
        text = head[1] + b" comment '" + held + b"'" + text[head.end() - 1:]
        queues = "own"
    rules = pick.choice([lambda *_: [], links.rules, links.faulty_rules])(pick, names)
    if pick.random() < 0.3:
        rules = [*rules, (pick.choice(QUEUES), pick.choice(LINKS))]
    return text, Given(queues, rules)


def kind_of(answer):
    """What an answer is, for the table of answers."""
    if answer[2] == 2:
        return re.match(r"\w+ fault \d+", answer[1].decode("latin-1"))[0]
    return "pass" if answer[2] == 0 else "races"


def wrong_run(text, queues, wanted, got):
    """What is wrong with a run of a text of which this is wanted of `msc check`, or None."""
    if wanted[2] == 2:
        return None if got == wanted else wanted
    if got[1:] != (b"", 0):
        return "a whole run"
    queues = of_chart(text, queues) if isinstance(queues, Given) else queues
    return Drawn(text).wrong(queues, got.output.decode("latin-1"))


def wrong_places(wanted, got):
    """What is wrong with an answer that tells places, where this is wanted without them, or None."""
    output, line, status = wanted
    bare = b"".join(it for it in got.output.splitlines(True) if not it.startswith(b"at -:"))
    if (bare, got.status) != (output, status) or not got.error.startswith(line):
        return wanted
    if status != 2 and got.error:
        return "no fault"
    # the line may have what the command line says
    return "bytes that are shown" if moves(got.error[len(line):]) else None


def moves(stream):
    """A stream has a byte that may move a cursor."""
    return any(byte != 10 and not 32 <= byte <= 126 for byte in stream)


def wrong_lines(wanted, got):
    """What is wrong with lines for editors, of races that marks do not accept, where this is wanted
    of the text without options, or None."""
    line = wanted[1] if wanted[2] == 2 else got.error
    told = line if line.startswith(b"link ") else b""
    if moves(got.output.replace(told, b"")) or moves(got.error.replace(told, b"")):
        return "bytes that are shown"
    if got.error != line or (got.status == 2) != bool(line) or got.status not in (0, 1, 2):
        return wanted
    lines = got.output.splitlines(True)
    if line and not (lines and re.fullmatch(rb"-:\d+:\d+: error: " + re.escape(line), lines[0])):
        return "the refusal first"
    if not all(re.match(rb"-:\d+:\d+: (error|warning|note): .", it) for it in lines):
        return "lines for editors"
    return None


def wrong_page(wanted, got):
    """What is wrong with a report, where this is wanted of the verdict, or None."""
    if wanted[2] == 2:
        return None if got == wanted else wanted
    if got[1:] != (b"", 0) or moves(got.output):
        return "a page of bytes that are shown"
    try:
        xml.etree.ElementTree.fromstring(got.output)
    except xml.etree.ElementTree.ParseError as error:
        return f"a page that is read as XML: {error}"
    return None


def tried_diagram(program, seed, number):
    """What differs for the diagram of this number, if anything does."""
    text, words = diagram_checks.one(random.Random(f"{seed} {number} diagram"))
    wanted, words = diagram_check_answer(text, words, "-", True), ["check", *words, "-"]
    got = run([program, *words], text)
    return [] if got == wanted else [(words, text, got, wanted)]


def tried(program, seed, number, commands):
    """What differs for a text, as the words of a run, what it answered and what it should; and its
    kind of answer."""
    text, queues, show = text_of(seed, number)
    checked = check_answer(text, queues, ALL if show is None else show)
    told, asked = [], queue_words(queues)
    read, check = [program, "read", "-"], check_words(program, queues, show)
    for words, wanted in ((read, read_answer(text)), (check, checked)):
        got = run(words, text) if words[1] in commands else wanted
        if got != wanted:
            told.append((words[1:], text, got, wanted))
    if "check" in commands:
        got = run([*check[:-1], "--places", "-"], text)
        wrong = wrong_places(checked, got)
        if wrong:
            told.append(([*check[1:], "--places"], text, got, wrong))
        words = ["check", *asked, "--accept", "--format", "lines", "-"]
        got = run([program, *words], text)
        wrong = wrong_lines(checked, got)
        if wrong:
            told.append((words, text, got, wrong))
        if number % DIAGRAMS == 0:
            told += tried_diagram(program, seed, number)
    answers = {"draw": draw_answer, "follow": follow_answer, "ready": ready_answer}
    for command, answered in answers.items():
        if command in commands:
            words, wanted = [command, *asked, "-"], answered(text, queues)
            got = run([program, *words], text)
            if got != wanted:
                told.append((words, text, got, wanted))
    for command in ("check", "ready") if number % ROUNDS == 0 else ():
        if command in commands:
            words = [command, *asked, "--again", "-"]
            got, wanted = run([program, *words], text), again_answer(text, command, queues)
            if got != wanted:
                told.append((words, text, got, wanted))
    if "report" in commands:
        words = ["report", *asked, "-"]
        got = run([program, *words], text)
        wrong = wrong_page(checked, got)
        if wrong:
            told.append((words, text, got, wrong))
    if "run" in commands:
        got = run([program, "run", *asked, "-"], text)
        wrong = wrong_run(text, queues, checked, got)
        if wrong:
            told.append((["run", *asked], text, got, wrong))
    return told, number, kind_of(checked)


def batch(task):
    program, seed, numbers, commands, until = task
    return [tried(program, seed, number, commands) for number in numbers if time.time() < until]


def main():
    words = arguments(__doc__)
    words.add_argument("--texts", type=int, default=2000, metavar="N")
    words.add_argument("--seconds", type=float, default=float("inf"), metavar="S")
    words.add_argument("--seed", type=int, default=1, metavar="S")
    words.add_argument("--only", type=int, metavar="T")
    words.add_argument("--jobs", type=int, default=len(os.sched_getaffinity(0)), metavar="J")
    add_commands(words)
    options = words.parse_args()
    numbers = range(options.texts)
    if options.only is not None:
        numbers = range(options.only, options.only + 1)
        print(*text_of(options.seed, options.only))
    until = time.time() + options.seconds
    parts = (numbers[first:first + BATCH] for first in range(0, len(numbers), BATCH))
    tasks = ((options.program, options.seed, part, options.commands, until) for part in parts)
    count, kinds = Count(), collections.Counter()
    with multiprocessing.Pool(options.jobs) as pool:
        for told, number, kind in (one for part in pool.imap(batch, tasks) for one in part):
            kinds[kind] += 1
            checks = 2 + (number % DIAGRAMS == 0) if "check" in options.commands else 0
            checks += len({"check", "ready"} & set(options.commands)) * (number % ROUNDS == 0)
            count.passed += len(options.commands) + checks - len(told)
            for words, text, got, wanted in told:
                count.compare(got, wanted, f"text {number} of seed {options.seed}:", *words, text)
    print(", ".join(f"{kind}: {times}" for kind, times in sorted(kinds.items())))
    return count.end()


if __name__ == "__main__":
    sys.exit(main())
