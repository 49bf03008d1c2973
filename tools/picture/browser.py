#!/usr/bin/env python3
"""Measures every text of the pictures that a program prints in a browser.

    browser.py [--charts N] [--messages M] [--seed S] [--browser NAME] PROGRAM

The charts are those of charts/, and random ones of naive/generators; the pictures are in SVG: of each
chart with its closest races under each architecture, and of a run that reverses one of its races.
They are put into a page that asks for the box of each text: no two texts of a picture meet, and none
leaves it; the text of an action is in a box, and the number of a mark in its badge; and no other
text, but for the names and the heading, meets an axis, a box or a badge. Where the browser (Debian's
chromium) is not installed, that is said, and the exit status is 0. Prints how many pictures and
texts were measured, and what is wrong, with status 1.
"""
import argparse
import json
import pathlib
import random
import re
import shutil
import subprocess
import sys
import tempfile

from pages import QUEUES, drawn_of, printed, texts

# what a box may reach into another by, in pixels: fonts differ
ROOM = 0.5
MEASURE = """
const ROOM = %s, found = [];
let pictures = 0, texts = 0;
const meets = (a, b) => a.left < b.right - ROOM && b.left < a.right - ROOM
  && a.top < b.bottom - ROOM && b.top < a.bottom - ROOM;
const holds = (a, b) => a.left <= b.left + ROOM && b.right <= a.right + ROOM
  && a.top <= b.top + ROOM && b.bottom <= a.bottom + ROOM;
const boxes = (svg, names) => [...svg.querySelectorAll(names)].map(it => it.getBoundingClientRect());
for (const svg of document.querySelectorAll("svg")) {
  const all = [...svg.querySelectorAll("text")], whole = svg.getBoundingClientRect();
  const box = all.map(it => it.getBoundingClientRect());
  const axes = boxes(svg, ".axis"), acts = boxes(svg, ".action"), counts = boxes(svg, ".count");
  const tell = (what, it) => found.push([pictures, what, it.textContent]);
  all.forEach((it, i) => {
    const kind = it.getAttribute("class").split(" ");
    if (!holds(whole, box[i])) tell("leaves the picture", it);
    for (let j = 0; j < i; j++) if (meets(box[i], box[j])) tell("meets " + all[j].textContent, it);
    if (kind.includes("words")) {
      if (!acts.some(act => holds(act, box[i]))) tell("is in no box", it);
    } else if (kind.includes("badge")) {
      if (!counts.some(count => holds(count, box[i]))) tell("is in no badge", it);
    } else if (!["title", "verdict", "name", "kind"].includes(kind[0])) {
      if ([...axes, ...acts, ...counts].some(it => meets(it, box[i]))) tell("lies on a line", it);
    }
  });
  pictures += 1;
  texts += all.length;
}
document.body.replaceChildren();
const told = document.createElement("pre");
told.id = "told";
told.textContent = JSON.stringify({ pictures, texts, found });
document.body.append(told);
"""


def pictures(program, text, pick):
    """The pictures of a chart."""
    for queues in QUEUES:
        asked = ["--queues", queues, "--svg"]
        yield printed(program, ["draw", *asked], text)
        races = drawn_of(text, queues).races()
        if races:
            yield printed(program, ["reverse", *asked], text, pick.choice(races))


def measured(browser, shown):
    """What the browser tells of a page with these pictures."""
    body = "".join(f"<div>{picture.decode('ascii')}</div>" for picture in shown)
    page = f"<!DOCTYPE html><meta charset=\"utf-8\"/><body>{body}<script>{MEASURE % ROOM}</script>"
    with tempfile.TemporaryDirectory() as folder:
        file = pathlib.Path(folder) / "page.html"
        file.write_text(page)
        words = [browser, "--headless", "--no-sandbox", "--disable-gpu", "--dump-dom",
                 f"--user-data-dir={folder}/profile", file.as_uri()]
        done = subprocess.run(words, capture_output=True, text=True, timeout=600, check=True)
    told = re.search(r'<pre id="told">(.*?)</pre>', done.stdout, re.DOTALL)
    return json.loads(told[1].replace("&lt;", "<").replace("&gt;", ">").replace("&amp;", "&"))


def main():
    style = argparse.RawDescriptionHelpFormatter
    words = argparse.ArgumentParser(description=__doc__, formatter_class=style)
    words.add_argument("--charts", type=int, default=40, metavar="N")
    words.add_argument("--messages", type=int, default=12, metavar="M")
    words.add_argument("--seed", type=int, default=1, metavar="S")
    words.add_argument("--browser", default="chromium", metavar="NAME")
    words.add_argument("program", metavar="PROGRAM")
    given = words.parse_args()
    if not shutil.which(given.browser):
        print(f"{given.browser} is not installed, so no text was measured")
        return 0
    pick = random.Random(given.seed)
    charts = texts(given.charts, given.messages, given.seed)
    shown = [it for text in charts for it in pictures(given.program, text, pick)]
    told = measured(given.browser, shown)
    for place, what, text in told["found"][:20]:
        print(f"{text!r} {what}, in\n{shown[place].decode('ascii')}")
    print(f"{told['pictures']} pictures with {told['texts']} texts, {len(told['found'])} are wrong")
    return int(bool(told["found"]) or told["pictures"] != len(shown))


if __name__ == "__main__":
    sys.exit(main())
