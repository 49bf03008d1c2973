"""JSON and SARIF of random folders, as the models write them.

Python's json reads each line, and what it writes without blanks is the same line. Objects say of
each verdict what the form `text` prints: numbers, races, kinds, runs and places. The results of a
document are the blocks of the form `full`, and documents keep the rules of tools/sarif_rules.py.
"""
import contextlib
import json
import pathlib
import re
import sys
import tempfile

from generators.scans import make_tree, text_for, words_of
from harness import Wrong, shown, want
from models import scan
from models.json_text import written

TOP = pathlib.Path(__file__).resolve().parents[3]
sys.path.append(str(TOP / "tools"))
import sarif_rules

NEEDS_PROGRAM = False
OPTIONS = {"number": 20}
CHARACTERS = [*map(chr, range(0, 34)), "\\", "/", "\x7f", "\x85", "\u2028", "\ufeff", "\ud7ff",
              "\ufffd", "\U0001f600", "a", "u0000"]
# lines of the form `text`
NUMBER = re.compile(r"(scenarios|races|allowed|accepted|closest|passed|again) (\d+)")
RACE = re.compile(r"(race|again) (\d+) (\d+) on .*")
KIND = re.compile(r"kind (\w+)( always)?")
NEEDS = re.compile(r"needs ([\d.]+) ([\d.]+): .*")
PLACES = re.compile(r"at .*:(\d+):(\d+) .*:(\d+):(\d+)")
FAULT_AT = re.compile(r"at .*:(\d+):(\d+)")
STALE = re.compile(r"stale(?: (\d+) on .*)?")
SCENARIO = re.compile(r"scenario (\d+)(?: choose ([\d,]+))?")
BEGIN = re.compile(r"(chart|diagram) (\S+)")
# and of the form `full`
HEAD = re.compile(r"(error|warning)\[(\w+)[ \w]*\]: (.*)")
PLACE = re.compile(r" +--> .*:(\d+):(\d+)")
STEP = re.compile(r" +\d+\. (.*) \(line (\d+)\)")


# Lines


def check_line(line):
    """What Python reads of a line."""
    value = json.loads(line)
    again = json.dumps(value, ensure_ascii=False, separators=(",", ":"))
    want(again == line, f"{line!r} is written as {again!r}")
    return value


def check_texts(pick):
    """Random strings of JSON."""
    for _ in range(100):
        text = "".join(pick.choice(CHARACTERS) for _ in range(pick.randrange(9)))
        want(check_line(written(text)) == text, f"{text!r} is written as {written(text)!r}")


# JSON and the form `text`


def event_number(word):
    """The number of an event, or its number and its round."""
    numbers = [int(number) for number in word.split(".")]
    return numbers if len(numbers) > 1 else numbers[0]


class Printed:
    """What the form `text` prints of a verdict."""

    def __init__(self, name):
        self.name, self.numbers, self.links, self.races, self.stale = name, {}, 0, [], []
        self.scenario, self.verdict, self.queues = (None, None), "pass", None

    def read(self, line, last):
        """Takes in a line; `last` is the one above it."""
        if found := RACE.fullmatch(line):
            self.races.append({"word": found[1], "events": [int(found[2]), int(found[3])],
                               "scenario": self.scenario})
        elif found := SCENARIO.fullmatch(line):
            self.scenario = int(found[1]), [int(n) for n in (found[2] or "").split(",") if n]
        elif found := KIND.fullmatch(line):
            self.races[-1]["kind"] = found[1], bool(found[2])
        elif found := NEEDS.fullmatch(line):
            self.races[-1]["needs"] = [event_number(word) for word in found.groups()]
        elif (found := PLACES.fullmatch(line)) and RACE.fullmatch(last):
            self.races[-1]["places"] = [int(number) for number in found.groups()]
        elif found := STALE.fullmatch(line):
            self.stale.append(found[1] and int(found[1]))
        elif line.startswith("run "):
            self.races[-1]["run"] = [event_number(word) for word in line.split()[1:]]
        elif line.startswith("queues "):
            self.queues = line.split()[1]
        elif line.startswith("link "):
            self.links += 1
        elif (found := NUMBER.fullmatch(line)) and not self.is_of_scenario(line):
            self.numbers[found[1]] = int(found[2])

    def is_of_scenario(self, line):
        """The line has the number of the races of a scenario."""
        return line.startswith("races ") and self.scenario != (None, None)


def printed_verdicts(lines):
    """What the form `text` prints: of each verdict, and of each refusal the line of its fault and
    the place."""
    found, last = [], ""
    for line in lines:
        if begun := BEGIN.fullmatch(line):
            found.append(Printed(begun[2]))
        elif re.match(r"\w+ fault", line) and last.startswith("file "):
            found.append((line, None))
        elif found and found[-1] == (last, None):
            place = FAULT_AT.fullmatch(line)
            found[-1] = last, place and tuple(map(int, place.groups()))
        elif found and isinstance(found[-1], Printed) and not line.startswith(("file ", "total ")):
            found[-1].read(line, last)
        last = line
    return found


def entry_of(it):
    """What an entry of a list says, in the same way."""
    ends = it["first"], it["second"]
    found = {"word": "again" if "again" in it else "race", "events": [end["event"] for end in ends],
             "scenario": (it.get("scenario"), it.get("choose")), "needs": it["needs"],
             "kind": (it["kind"], it["always"]),
             "places": [end[name] for end in ends for name in ("line", "column")]}
    return {**found, **({"run": it["run"]} if "run" in it else {})}


def check_object(it, printed):
    """What an object says is what is printed of a verdict."""
    if "fault" in it:
        fault = it["fault"]
        place = (fault["line"], fault["column"]) if "line" in fault else None
        want((fault["text"], place) == printed, f"{printed} is {fault}")
        return
    name = it.get("chart") or it["diagram"] + (f"#{it['fence']}" if "fence" in it else "")
    want(name == printed.name, f"{printed.name} is {name}")
    want(it["queues"] == printed.queues, "the queues differ")
    want(len(it.get("links", [])) == printed.links, "the links differ")
    numbers = {word: it[word] for word in ("scenarios", "allowed", "accepted", "closest", "again")
               if word in it}
    if it["races"]:
        numbers["races"] = it["races"]
    if it["races"] and "diagram" in it:
        numbers["passed"] = it["free"]
        # without these options the number of races is that of the lines
        if not {"allowed", "accepted", "closest"} & set(it):
            numbers.pop("races")
    want(numbers == printed.numbers, f"{printed.numbers} is {numbers}")
    want(it["verdict"] == ("races" if it["races"] else "pass"), "the verdict differs")
    entries = [entry_of(entry) for entry in it["list"]]
    want(entries == printed.races, f"{printed.races}\n is {entries}")
    stale = [entry.get("event") for entry in it.get("stale", [])]
    want(stale == printed.stale, f"{printed.stale} is {stale}")


def check_objects(words, stdin):
    """The objects of a scan, and its text."""
    words = [word for word in words if word not in ("--words", "--quiet")]
    done = scan.answer(["--version=1", *words, "--format=json"], stdin)
    text = scan.answer([*words, "--format=text", "--why", "--places"], stdin)
    objects = [check_line(line) for line in done.output.decode().split("\n")[:-1]]
    printed = printed_verdicts(text.output.decode().split("\n"))
    want(len(objects) == len(printed), f"{len(objects)} objects, {len(printed)} verdicts")
    want(done.status == text.status, "the statuses differ")
    for it, other in zip(objects, printed):
        check_object(it, other)
    return objects


# SARIF and the form `full`


def printed_blocks(lines):
    """What the form `full` prints of each block: its first word, its level and its sentence, its
    place, and the steps of a run."""
    found = []
    for line in lines:
        if head := HEAD.fullmatch(line):
            found.append([*head.groups(), None, []])
        elif (place := PLACE.fullmatch(line)) and found[-1][3] is None:
            found[-1][3] = int(place[1]), int(place[2])
        elif step := STEP.fullmatch(line):
            found[-1][4].append((step[1], int(step[2])))
    return found


def region_of(location):
    return location["physicalLocation"].get("region")


def steps_of(result):
    """The steps of the run of a result."""
    for flow in result.get("codeFlows", []):
        for step in flow["threadFlows"][0]["locations"]:
            location = step["location"]
            yield location["message"]["text"], region_of(location)["startLine"]


def check_result(it, block):
    """A result says what its block says."""
    level, word, sentence, place, steps = block
    want((it["level"], it["ruleId"]) == (level, word), f"{level}[{word}] is {it['ruleId']}")
    text = it["message"]["text"]
    rest = re.sub(r"^ \[(?:pair|mailbox|single)\]", "", text.removeprefix(sentence))
    want(text.startswith(sentence) and (not rest or rest.startswith(": ")),
         f"{sentence!r} is {text!r}")
    region = region_of(it["locations"][0])
    own = region and (region["startLine"], region["startColumn"])
    want(own == place, f"{place} is {own}")
    want(list(steps_of(it)) == steps, "the run differs")
    want(("partialFingerprints" in it) == (word in FOUND), "the fingerprints differ")


# the rules for findings, and not for refusals
FOUND = ("early", "queues", "unordered", "overtaken", "never", "stale")


def check_document(words, stdin):
    """The document of a scan, and the blocks of the same scan."""
    words = [word for word in words if word != "--quiet" and "--color" not in word]
    done = scan.answer(["--version=1", *words, "--format=sarif"], stdin)
    wrong = list(sarif_rules.violations(done.output))
    want(not wrong, "\n".join(wrong[:5]))
    document, = map(check_line, done.output.decode().split("\n")[:-1])
    limits = [f"--{name}={number}" for name, number in (("most", 5000), ("show", 100))
              if not any(word.startswith(f"--{name}") for word in words)]
    full = scan.answer([*words, *limits, "--format=full"], stdin)
    blocks = printed_blocks(full.output.decode().split("\n"))
    run, = document["runs"]
    results = run["results"]
    lost = [it for it in blocks if it[1] in ("device", "scan")]
    blocks = [it for it in blocks if it[1] not in ("device", "scan")]
    want(len(results) == len(blocks), f"{len(results)} results, {len(blocks)} blocks")
    for it, block in zip(results, blocks):
        check_result(it, block)
    ended, = run["invocations"]
    said = [it["message"]["text"] for it in ended.get("toolExecutionNotifications", [])]
    want(said == [it[2] for it in lost], "the notifications differ")
    want(ended["exitCode"] == done.status == full.status, "the statuses differ")
    return results


def check_folder(trial, folder):
    """Scans of a random folder."""
    pick = trial.pick
    tree = make_tree(pick, folder)
    for _ in range(2):
        words = [word for word in words_of(pick, tree, ["count"]) if "--format" not in word]
        words, stdin = [*words, *tree.paths(pick)], text_for(pick, pick.choice(["a.msc", "a.md"]))
        try:
            with contextlib.chdir(folder):
                trial.noted["objects"] += len(check_objects(words, stdin))
                trial.noted["results"] += len(check_document(words, stdin))
            trial.add(True)
        except Wrong as wrong:
            files = [f"{path.relative_to(folder)}: {shown(path.read_bytes())}"
                     for path in sorted(folder.rglob("*")) if path.is_file()]
            trial.add(False, *files, words, shown(stdin), wrong)


def compare(trial):
    check_texts(trial.pick)
    for _ in range(trial.options.number):
        with tempfile.TemporaryDirectory() as name:
            check_folder(trial, pathlib.Path(name))
