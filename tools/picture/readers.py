#!/usr/bin/env python3
"""Reads the pictures and reports that a program prints with the readers of Python.

    readers.py [--charts N] [--messages M] [--seed S] [--uniform] PROGRAM

The charts are those of charts/, and random ones of naive/generators. Of each are read, with each
kind of queues, and in part with rules for links unless `--uniform` is given, the picture of the
chart in SVG, that of a run that reverses one of its races, and the report. Each is of the bytes 32
to 126 and LF, is read as XML, and names nothing on the network but the name space of SVG; in a
report each element is closed in its place for an HTML reader too. A picture has a head and an axis
for each instance, an arrow for each message, from the axis of its sender to that of its receiver
and never upwards, a box for each action on its axis, and the names, labels and numbers of the
chart. A report has the first 50 closest races, and the canonical text. Both say what the queues
are. Prints how many were read. The exit status is 1 at the first that is wrong, whose chart is
printed.
"""
import argparse
import collections
import html.parser
import random
import re
import sys
import xml.etree.ElementTree

from pages import drawn_of, printed, texts
from generators.links import some_queues
from models.links import written
from models.picture import label
from models.races import closest_of
from models.reading import Draft

SPACE = "http://www.w3.org/2000/svg"
ARROW = re.compile(r"M(\d+),(\d+)(?:L(\d+),(\d+)|h\d+V(\d+)H(\d+))")


class Wrong(Exception):
    """What is wrong with a page."""


def expect(is_right, *told):
    if not is_right:
        raise Wrong(*told)


class Closed(html.parser.HTMLParser):
    """Each element that is opened is closed in its place."""

    def __init__(self, page):
        super().__init__()
        self.open = []
        self.feed(page)
        expect(not self.open, "left open", self.open)

    def handle_starttag(self, tag, attributes):
        self.open.append(tag)

    def handle_startendtag(self, tag, attributes):
        pass

    def handle_endtag(self, tag):
        expect(self.open and self.open.pop() == tag, "closed out of place", tag)


def read(page):
    """The tree of a page of bytes that are shown."""
    expect(all(byte == 10 or 32 <= byte <= 126 for byte in page), "bytes that are not shown")
    text = page.decode("ascii")
    expect("http" not in text.replace(f'xmlns="{SPACE}"', ""), "a place on the network")
    return xml.etree.ElementTree.fromstring(re.sub(f' xmlns="{SPACE}"', "", text))


def of_class(tree, *names):
    return [it for it in tree.iter() if it.get("class") in names]


def number(element, name):
    return int(element.get(name))


def middle(rect):
    return number(rect, "x") + number(rect, "width") // 2


def shown(tree, *names):
    return collections.Counter(it.text for it in of_class(tree, *names))


def ends(path):
    """The places from which and to which an arrow goes."""
    found = ARROW.fullmatch(path.get("d"))
    expect(found, "an arrow", path.get("d"))
    x, y, over, down, back_down, back = (part and int(part) for part in found.groups())
    return (x, y), (over, down) if over is not None else (back, back_down)


def check_picture(tree, drawn):
    """The elements of a picture are those of a chart."""
    heads = of_class(tree, "head")
    axes = [middle(head) for head in heads]
    expect([it.text for it in of_class(tree, "name")] == drawn.names, "names")
    expect(len(heads) == len(of_class(tree, "axis")) == len(drawn.names), "heads and axes")
    expect(axes == sorted(set(axes)), "axes from left to right", axes)
    outputs = [drawn.events[e] for e in drawn.all if drawn.is_output(e)]
    arrows = [ends(path) for path in of_class(tree, "arrow")]
    wanted = [(axes[s.sender], axes[s.receiver]) for s in outputs]
    expect([(start[0], end[0]) for start, end in arrows] == wanted, "arrows")
    expect(all(start[1] <= end[1] for start, end in arrows), "an arrow that rises")
    boxes = [middle(box) for box in of_class(tree, "action", "action hit")]
    lines = [axes[drawn.events[e].line] for e in drawn.all if drawn.events[e].is_local]
    expect(sorted(boxes) == sorted(lines), "boxes of actions")
    labels = collections.Counter(label(s) for s in outputs)
    expect(shown(tree, "label", "right", "left") == labels, "labels")
    numbers = collections.Counter(map(str, drawn.all))
    expect(shown(tree, "number right", "number left") == numbers, "numbers")


def queues_of(drawn):
    """The queues of a chart in words."""
    return written(drawn.queues.usual, drawn.queues.others(drawn.names))


def check_verdict(tree, drawn, races, closest):
    """The line below the heading of a picture tells the queues, and how many races there are."""
    found = f"{len(races)} race{'s' * (len(races) != 1)}, {len(closest)} closest"
    wanted = f"{queues_of(drawn)}: {found if races else 'pass'}"
    expect([it.text for it in of_class(tree, "verdict")] == [wanted], "verdict", wanted)


def masked(text):
    return "".join(chr(b) if b == 10 or 32 <= b <= 126 else "?" for b in text)


def check_report(page, text, drawn, closest):
    """A report tells of a chart and of these closest races."""
    Closed(page.decode("ascii"))
    tree = read(page)
    figures = [figure.find("svg") for figure in tree.iter("figure")]
    articles = list(tree.iter("article"))
    expect(len(articles) == min(50, len(closest)), "articles")
    told = [article.get("id") for article in articles]
    expect(told == [f"race-{k + 1}" for k in range(len(articles))], "numbers of articles")
    for figure in figures:
        check_picture(figure, drawn)
    expect(bool(figures) == bool(drawn.names), "the picture of the chart")
    expect(tree.find(".//pre").text == masked(Draft(text).canonical()), "the canonical text")
    expect(f"({queues_of(drawn)})" in of_class(tree, "soft")[0].text, "queues", queues_of(drawn))


def check_all(program, text, pick, is_uniform=False):
    """Reads what is printed of a chart; answers how many pages that were."""
    pages = 1
    check_picture(read(printed(program, ["draw", "--svg"], text)), drawn_of(text, "pair"))
    for given, queues in some_queues(pick, text.decode("latin-1"), is_uniform):
        drawn, asked = drawn_of(text, queues), given.words()
        races = drawn.races()
        closest = closest_of(drawn, races)
        tree = read(printed(program, ["draw", *asked, "--svg"], text))
        check_picture(tree, drawn)
        check_verdict(tree, drawn, races, closest)
        check_report(printed(program, ["report", *asked], text), text, drawn, closest)
        if races:
            run = printed(program, ["reverse", *asked, "--svg"], text, pick.choice(races))
            check_picture(read(run), drawn)
        pages += 2 + bool(races)
    return pages


def main():
    style = argparse.RawDescriptionHelpFormatter
    words = argparse.ArgumentParser(description=__doc__, formatter_class=style)
    words.add_argument("--charts", type=int, default=60, metavar="N")
    words.add_argument("--messages", type=int, default=12, metavar="M")
    words.add_argument("--seed", type=int, default=1, metavar="S")
    words.add_argument("--uniform", action="store_true")
    words.add_argument("program", metavar="PROGRAM")
    given = words.parse_args()
    pick, pages = random.Random(given.seed), 0
    for text in texts(given.charts, given.messages, given.seed):
        try:
            pages += check_all(given.program, text, pick, given.uniform)
        except (Wrong, xml.etree.ElementTree.ParseError) as wrong:
            print(f"{text!r}\n{wrong}")
            return 1
    print(f"{pages} pictures and reports are read")
    return 0


if __name__ == "__main__":
    sys.exit(main())
