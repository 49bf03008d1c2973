"""The form `json` of `msc check` and `msc scan`: an object in a line for each verdict or refusal.

    tools/naive/print.py record [--version V] [--from mermaid|any] [WORD ..] FILE

prints what `msc check --format json` prints. WORD is an option of `msc check`, and V the version of
`msc`. verdicts.py has what is found, and wording.py sentences and notes.
"""
import re

from harness import Answer, put
from models.diagrams import instance_number
from models.following import Steps
from models.full import read
from models.full_diagrams import DiagramSpeech, where
from models.json_text import decoded, written
from models.links import add_queues
from models.mermaid import texts_of, words_on_diagrams
from models.notes import position
from models.races import kind, shown_run
from models.ready import ALL
from models.scenarios import name_of, runs_of
from models.source import Refused, Source, source_of
from models.verdicts import ChartVerdict, Refusal, add_check_options, chart_verdicts
from models.verdicts import diagram_verdicts, failed, refused_diagram
from models.wording import Pair, race_block

# the number of this form
FORM = 1


def head(it, version):
    """The first members of each object."""
    fence = {} if it.number is None else {"fence": it.number}
    return {"msc": FORM, "version": version, "file": it.file, **fence, "status": it.status}


def queues_members(it):
    """The queues, and the links whose kind is not the usual one."""
    links = []
    for link, sort in it.queues.others(it.names):
        *sender, receiver = link.split(">")
        links.append({**({"from": sender[0]} if sender else {}), "to": receiver, "kind": sort})
    return {"queues": it.queues.usual, **({"links": links} if links else {})}


def numbers(options, races, allowed, accepted, closest):
    """The verdict, and the numbers that the options ask for."""
    return {"verdict": "races" if races else "pass", "races": races,
            **({"allowed": allowed} if options.allow else {}),
            **({"accepted": accepted} if options.accept else {}),
            **({"closest": closest} if options.closest else {})}


def race_members(pair, note=None):
    """What an entry says of a race in words; `note` is on scenarios."""
    notes = [it.text for it in race_block(pair, note).notes]
    return {"kind": kind(pair.drawn, pair.e, pair.f), "always": pair.is_always(),
            "sentence": pair.sentence(), "notes": notes}


# Charts


def chart_event(it, e):
    """An event of a chart."""
    event, speech = it.drawn.events[e], it.found.speech
    statement = speech.statements[e]
    said = {"text": decoded(statement.held)}
    if not event.is_local:
        _, _, name, number = event.key
        said = {"message": name, "number": number, "other": it.names[speech.peer(e)]}
    line, column = position(it.text, statement.first)
    return {"event": e, "way": speech.way(e), **said, "line": line, "column": column,
            "byte": statement.first, "length": statement.past - statement.first}


def chart_entry(it, e, f, is_next, has_run):
    """The entry of a race of a chart, whose events are of two rounds if `is_next`."""
    found, pair = it.found, it.found.pair(e, f, is_next)

    def number(x):
        return list(found.two.place[x]) if is_next else x

    first, second = (chart_event(it, found.event_of(x, is_next)) for x in (e, f))
    entry = {"instance": it.names[pair.line], **({"again": True} if is_next else {}),
             **race_members(pair), "first": first, "second": second,
             "needs": [number(x) for x in pair.needs()]}
    if has_run:
        run = shown_run(pair.drawn, e, f, it.options.short)
        entry["run"] = [number(x) for x in run]
    return entry


def chart_members(it):
    """What an object says of a chart."""
    found, options = it.found, it.options
    said = {"chart": it.name, **queues_members(it), **numbers(
        options, len(found.races), len(found.races) - len(found.named), it.accepted,
        len(found.closest))}
    ring = Steps(it.drawn).ring
    said |= {"follows": ring is None, **({"ring": ring} if ring else {})}
    if options.again:
        said["again"] = len(found.between)
    if options.accept:
        said["stale"] = [chart_event(it, e) for e in found.stale]
    listed = found.closest if options.closest else found.left
    pairs = [*((e, f, False) for e, f in listed), *((e, f, True) for e, f in found.between)]
    said["list"] = [chart_entry(it, *pair, number < options.show)
                    for number, pair in enumerate(pairs[:options.most])]
    return said


# Diagrams


def diagram_event(speech, e):
    """An event of a diagram."""
    arrow, way = speech.arrow(e), speech.way(e)
    label = decoded(arrow.label.held)
    said = {"text": label}
    if way != "action":
        other = speech.diagram.names.idents[speech.peer(e)]
        number = instance_number(arrow, speech.events[e][1].rounds)
        said = {"message": label, "number": number, "other": decoded(other)}
    return {"event": e, "way": way, **said, "line": arrow.place.line, "column": arrow.place.column}


def diagram_entry(it, at, race, has_run):
    """The entry of a race of this scenario."""
    found, scenario = it.found, it.found.every[at]
    speech = DiagramSpeech(found.diagram, scenario, it.page)
    pair = Pair(speech, scenario.drawn, *race, speech.is_next(*race))
    first, second = (diagram_event(speech, e) for e in race)
    entry = {"scenario": at + 1, "choose": scenario.choices,
             "scenarios": found.where_counted[scenario.ends(race)],
             "instance": decoded(found.diagram.names.idents[pair.line]),
             **race_members(pair, where(found, at, race)), "first": first, "second": second,
             "needs": pair.needs()}
    if has_run:
        entry["run"] = shown_run(scenario.drawn, *race, it.options.short)
    return entry


def diagram_members(it):
    """What an object says of a diagram."""
    found, options = it.found, it.options
    said = {"diagram": name_of(options), **queues_members(it), "scenarios": len(found.every),
            **numbers(options, len(found.places), len(found.allowed()), it.accepted,
                      len(found.counting(True))),
            "free": found.free()}
    if options.accept:
        places = [found.diagram.source.place(mark.at) for mark in found.stale]
        said["stale"] = [{"line": line, "column": column} for line, column in places]
    said["list"] = [diagram_entry(it, *race, number < runs_of(options))
                    for number, race in enumerate(found.listed[:options.most])]
    return said


# Refusals


def place_members(it, at):
    """The place of a fault or of a note, if it has one."""
    if at is None:
        return {}
    line, column = it.position(at)
    return {"line": line, "column": column, **({"byte": at} if it.is_chart else {})}


def fault_members(it, fault, block):
    """What an object says of a fault."""
    stage, number = re.match(r"(\w+) fault(?: (\d+))?", fault.line).groups()
    notes = [{"text": note.text, **place_members(it, note.at)} for note in fault.notes]
    return {"stage": stage, "number": number and int(number), "text": fault.line,
            "sentence": block.sentence, **place_members(it, fault.at), "notes": notes}


def refusal_members(it):
    """What an object says of a refusal: the first fault, and further ones."""
    pairs = zip(it.faults, it.blocks, strict=True)
    first, *others = [fault_members(it, *pair) for pair in pairs]
    return {"fault": {**first, **({"further": others} if others else {})}}


def line_of(it, version):
    """The line of a verdict or of a refusal."""
    members = diagram_members
    if isinstance(it, (ChartVerdict, Refusal)):
        members = chart_members if isinstance(it, ChartVerdict) else refusal_members
    return written({**head(it, version), **members(it)})


# The command


def verdicts_of(text, options):
    """What `msc check` finds of a text."""
    if options.language is None:
        return chart_verdicts(text, options.file, options)
    source = Source(b"", options.file)
    try:
        source = source_of(text, options.file)
        texts, _ = texts_of(source, options)
    except Refused as fault:
        return [refused_diagram(source, fault, None, options)]
    return [it for own in texts for it in diagram_verdicts(own, options.file, options)]


def options_of(given):
    """The options of `msc check`."""
    words = words_on_diagrams(__doc__)
    words.set_defaults(language=None, command="check")
    add_queues(words, "--queues", required=True)
    add_check_options(words)
    words.add_argument("--accept", action="store_true")
    words.add_argument("--choose")
    words.add_argument("--version", default="0")
    words.add_argument("file", metavar="FILE")
    options = words.parse_args(given)
    options.architectures = [options.queues]
    options.most = ALL if options.most is None else options.most
    return options


def main(given):
    options = options_of(given)
    try:
        found = verdicts_of(read(options.file), options)
    except OSError as cause:
        found = [failed(options.file, cause, options)]
    lines = [] if options.quiet else [line_of(it, options.version) for it in found]
    # faults go to standard error too, as in other forms
    refused = [line for it in found if isinstance(it, Refusal) for line in it.lines("text")]
    output, error = ("".join(f"{line}\n" for line in it).encode() for it in (lines, refused))
    return put(Answer(output, error, max(it.status for it in found)))
