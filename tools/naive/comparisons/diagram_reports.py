"""What `msc report --from` prints of all scenarios of a random Mermaid diagram.

It is a page that is XML. Its articles are the findings that `msc check --format full` prints, in their
order, and above them stands the closing line; a scenario has a picture, or a command that draws it, if
a race is listed first there, and the numbers at its races are those of its articles. The findings and
the scenarios are those of models/scenarios.py. A diagram that `msc check` refuses is refused with the
same line.
"""
import contextlib
import re
import xml.etree.ElementTree

from generators.imports import tried
from harness import Answer, run, shown
from models.answers import diagram_check_answer
from models.mermaid import options_of, texts_of
from models.source import Refused, source_of

NEEDS_PROGRAM = True
OPTIONS = {"number": 150}
PICTURES = 8
HEAD = re.compile(rb"^scenario (\d+)(?: choose (\S+))?$")


def words_of(words):
    """The words without those on one scenario, and without the language."""
    left = iter(words)
    return [it for word in left
            for it in ([] if word in ("--choose", "--from") and next(left) else [word])]


def is_of_several(text, words):
    """Whether `msc check` takes all diagrams of a text, and a report none."""
    with contextlib.suppress(Refused):
        return texts_of(source_of(text), options_of(words[2:]))[1]
    return False


def scenarios_of(output):
    """The number and the choices of each scenario with listed races, and how many there are."""
    found = []
    for line in output.splitlines():
        head = HEAD.match(line)
        if head:
            found.append([int(head[1]), (head[2] or b"").decode(), 0])
        elif line.startswith(b"race "):
            found[-1][2] += 1
    return found


def badges(section):
    """The numbers of races in a picture."""
    for badge in section.iter("text"):
        if badge.get("class") == "badge":
            first, _, last = badge.text.partition("-")
            yield from range(int(first), int(last or first) + 1)


def sections_of(main):
    """The parts of the page that begin with a heading, each with its elements."""
    found = []
    for it in main:
        if it.tag == "h2":
            found.append([it])
        elif found:
            found[-1].append(it)
    return found


def faults(page, full, listed):
    """What is wrong with a page, by the findings as people read them and in lines."""
    main = xml.etree.ElementTree.fromstring(page).find("body/main")
    *findings, closing = full.output.decode().split("\n\n")
    told = [it.find("pre").text for it in main.iter("article")]
    if told != findings:
        yield "the articles are not the findings"
    if [it.get("id") for it in main.iter("article")] != [f"race-{k + 1}" for k in range(len(told))]:
        yield "the articles are not numbered"
    verdict = next(it for it in main.iter("p") if (it.get("class") or "").startswith("verdict"))
    if verdict.text != closing.split("\n")[0]:
        yield "the verdict is not the closing line"
    scenarios = scenarios_of(listed.output)
    sections = sections_of(main)[:len(scenarios)]
    count, = re.findall(rb"^scenarios (\d+)$", listed.output, re.M)
    first = 0
    for at, ((number, choices, races), section) in enumerate(zip(scenarios, sections, strict=True)):
        heading = f"Scenario {number} of {int(count)}: "
        if int(count) > 1 and not section[0].text.startswith(heading):
            yield f"{section[0].text} is not {heading}"
        if at < PICTURES:
            numbers = sorted(badges(section[1]))
            if numbers != list(range(first + 1, first + races + 1)):
                yield f"{section[0].text} has the races {numbers}"
        elif section[1].find("code").text != f"msc draw --choose {choices}":
            yield f"{section[0].text} has no command"
        if len([it for it in section if it.tag == "article"]) != races:
            yield f"{section[0].text} has other races"
        first += races


def compare(trial):
    pick = trial.pick
    for _ in range(trial.options.number):
        text, words, _ = tried(pick, False)
        queues = ["--queues", pick.choice(["pair", "mailbox", "single", "own"])]
        words = [*queues, "--from", "any", *words_of(words)]
        if is_of_several(text, words):
            continue
        done = run([trial.program, "report", *words, "-"], text)
        limit = ["--limit", "4096"]
        full = diagram_check_answer(text, [*words, *limit, "--format", "full"], "-", True)
        listed = diagram_check_answer(text, [*words, *limit, "--closest"], "-", True)
        if full.status == 2:
            wanted = Answer(b"", listed.error, 2)
            trial.add(done == wanted, shown(text), "report", *words, done, wanted)
            trial.noted["refused"] += 1
            continue
        wrong = [done.error] if done.status else list(faults(done.output, full, listed))
        trial.add(not wrong, shown(text), "report", *words, *wrong)
        trial.noted["races" if listed.status else "pass"] += 1
