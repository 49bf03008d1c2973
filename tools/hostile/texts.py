#!/usr/bin/env python3
"""Cuts texts at every byte, leaves every byte out, and puts each of 40 telling bytes in the place
of every byte; compares what the program answers with what the models of tools/naive do.

    texts.py [--every K] PROGRAM [CHART ..]

The charts are charts/kinds_and_comments.msc and charts/texts_of_actions.msc where none is given,
and charts/import/websocket_chat.mmd. Each text, or each K-th, is given to `msc read`, and where it
has a draft also to `msc check` under each architecture, to `msc follow`, `msc draw` and `msc ready`
under one, and to `check` and `ready` with `--again`. Those of a diagram are given to `msc import`,
and where a scenario has a draft to `msc check --from`, and compared with these too. A chart and
diagrams that name their queues stand here: of the comment each byte is changed, and `--queues own`
reads it. Each byte of a LINK is changed too. Prints what differs, for each chart how many texts had
a draft, and last `N passed, M failed`.
"""
import pathlib
import sys

from program import QUEUES, TOP, Count, arguments, check_words, run
from models.answers import again_answer, check_answer, diagram_check_answer, draw_answer
from models.answers import follow_answer, import_answer, read_answer, ready_answer
from models.links import Given

CHARTS = [TOP / "charts/kinds_and_comments.msc", TOP / "charts/texts_of_actions.msc",
          TOP / "charts/import/websocket_chat.mmd"]
# texts before, in and behind a comment that names queues, and whether they are a diagram; rules of
# the command line stand with them
OF_QUEUES = [
    (b"msc t comment", b" 'queues pair; mailbox b;single a > b, c>b'",
     b"; instance a; out m to b; endinstance; instance b; in m from a; in n from c; endinstance;"
     b" instance c; out n to b; endinstance; endmsc;", False),
    (b"sequenceDiagram\nparticipant b as The B\n", b" %% queues mailbox; pair b, a>The B",
     b"\na->>b: m\nc->>b: n\n", True),
    (b"sequenceDiagram", b" %% queues pair;serves b, a; single b", b"\na->>b: m\nc->>b: n\n",
     True),
]
BESIDE = [("single", "c"), ("pair", "c>b")]
# a LINK of these texts; a rule for another one stands with it
LINKS = [(0, " a > b"), (1, "a >The B")]
# marks and white space, the first and last bytes of what names are made of with their neighbours,
# letters that make other words of reserved ones, and bytes that begin no token
TELLING = b";,:()'/* \t\r\n09AZaz_^@[`{emotEM\0\x0b\x1f.\"\\-\x7f\xc3\xff"
# the same of diagrams: marks, parts of arrows and of tags, letters of key words
IN_DIAGRAMS = b";,:()#%+-=<>@{} \t\r\n/09AZaz_xndbi\0\"\\\x7f\xbf\xef\xc3\xff"


def cut(text):
    """Each proper prefix."""
    return (text[:length] for length in range(len(text)))


def left_out(text):
    """The text without each of its bytes."""
    return (text[:place] + text[place + 1:] for place in range(len(text)))


def replaced(text, telling):
    """The text with each of its bytes replaced by each telling one."""
    for place in range(len(text)):
        for byte in telling:
            yield text[:place] + bytes([byte]) + text[place + 1:]


def compare_chart(count, program, text):
    """Compares what is answered of a chart; whether it has a draft."""
    wanted = read_answer(text)
    count.compare(run([program, "read", "-"], text), wanted, text)
    if wanted[2] != 0:
        return False
    for queues in QUEUES:
        answer = run(check_words(program, queues), text)
        count.compare(answer, check_answer(text, queues), queues, text)
    answers = {"draw": draw_answer, "follow": follow_answer, "ready": ready_answer}
    for command, answered in answers.items():
        answer = run([program, command, "--queues", "mailbox", "-"], text)
        count.compare(answer, answered(text, "mailbox"), command, text)
    for command in ("check", "ready"):
        answer = run([program, command, "--queues", "mailbox", "--again", "-"], text)
        count.compare(answer, again_answer(text, command, "mailbox"), command, "--again", text)
    return True


def compare_diagram(count, program, text):
    """Compares what is imported of a diagram and what all its scenarios are answered; whether a
    scenario of it has a draft."""
    words, of_all = ["--choose", "main"], ["--from", "any", "--queues", "pair"]
    wanted = import_answer(text, words)
    count.compare(run([program, "import", *words, "-"], text), wanted, text)
    if wanted[2] != 0:
        return False
    checked = diagram_check_answer(text, of_all)
    count.compare(run([program, "check", *of_all, "-"], text), checked, text)
    return True


def compare_rules(count, program, text, is_diagram, given):
    """Compares what is answered of a text with these queues."""
    words = [*given.words(), *["--from", "any"] * is_diagram]
    wanted = diagram_check_answer(text, words) if is_diagram else check_answer(text, given)
    count.compare(run([program, "check", *words, "-"], text), wanted, *words, text)


def compare_queues(count, program, text, is_diagram):
    """Compares what is answered of a text that may name its queues; whether it has a draft."""
    if not is_diagram and read_answer(text)[2] != 0:
        return False
    for rules in ([], BESIDE):
        compare_rules(count, program, text, is_diagram, Given("own", rules))
    if is_diagram:
        count.compare(run([program, "import", "-"], text), import_answer(text, []), text)
    return True


def words_of(link):
    """LINKs with a byte changed that a command line can have."""
    link = link.encode()
    for made in (*cut(link), *left_out(link), *replaced(link, TELLING)):
        if made.isascii() and b"\0" not in made:
            yield made.decode()


def main():
    assert len(set(TELLING)) == len(set(IN_DIAGRAMS)) == 40
    words = arguments(__doc__)
    words.add_argument("--every", type=int, default=1, metavar="K")
    words.add_argument("charts", nargs="*", default=CHARTS, metavar="CHART")
    options = words.parse_args()
    count = Count()
    for chart in map(pathlib.Path, options.charts):
        text, is_diagram = chart.read_bytes(), chart.suffix == ".mmd"
        telling = IN_DIAGRAMS if is_diagram else TELLING
        compare = compare_diagram if is_diagram else compare_chart
        texts = [*cut(text), *left_out(text), *replaced(text, telling)][::options.every]
        drafts = sum(compare(count, options.program, made) for made in texts)
        print(f"{chart.name}: {len(texts)} texts, {drafts} of them have a draft")
    for before, comment, behind, is_diagram in OF_QUEUES:
        telling = IN_DIAGRAMS if is_diagram else TELLING
        made = [*cut(comment), *left_out(comment), *replaced(comment, telling)][::options.every]
        texts = [before + it + behind for it in made]
        drafts = sum(compare_queues(count, options.program, it, is_diagram) for it in texts)
        print(f"{comment.decode()}: {len(texts)} texts, {drafts} of them have a draft")
    for number, link in LINKS:
        before, comment, behind, is_diagram = OF_QUEUES[number]
        for made in list(words_of(link))[::options.every]:
            given = Given("pair", [("single", made), ("mailbox", "b")])
            compare_rules(count, options.program, before + comment + behind, is_diagram, given)
    return count.end()


if __name__ == "__main__":
    sys.exit(main())
