"""The form `sarif` of `msc scan`: one document (SARIF 2.1.0) for all files.

Each block of the form `full` is a result. verdicts.py has what is found, and wording.py the blocks.
"""
from urllib.parse import quote

from models.diagnostic import Mark
from models.verdicts import Refusal

SCHEMA, VERSION = "https://json.schemastore.org/sarif-2.1.0.json", "2.1.0"
# the rules by their IDs, which are the first words of those of blocks
RULES = {
    "early": "race: the input can come before what is drawn above it",
    "queues": "race: the inputs come by two queues, and nothing makes the first one come first",
    "unordered":
        "race: the inputs come by one queue, and nothing makes the first one be sent first",
    "overtaken": "race: the inputs come by one queue, and the second one is sent first",
    "never": "no run follows the drawing",
    "lexical": "the text has a fault of its tokens",
    "grammar": "the text has a fault of its grammar",
    "chart": "the text is no chart",
    "again": "two rounds of the chart are no chart",
    "stale": "the mark accepts no race",
    "accept": "the text has a mark that cannot be read",
    "link": "the text's queues cannot be read",
    "import": "the text is no diagram that can be taken",
}


def uri_of(name):
    """The name of a file as a URI."""
    return "stdin" if name == "-" else quote(name, safe="/")


def said(text):
    return {"text": text}


def characters(held):
    """The number of characters that begin in these bytes."""
    return sum(not 128 <= byte < 192 for byte in held)


def region(page, mark):
    """The lines and columns of what a mark underlines, at least one column."""
    line, (_, held) = page.line(mark.first), page.rows[page.index(mark.first)]
    own = page.clipped(mark)
    column = 1 + characters(held[:own.first])
    past = column + max(characters(held[own.first:own.past]), 1)
    return {"startLine": line, "startColumn": column, "endLine": line, "endColumn": past}


def location(it, mark=None):
    """The place of a mark in a file, or the file."""
    place = {"artifactLocation": {"uri": uri_of(it.file)}}
    if mark:
        place["region"] = region(it.page, mark)
    return {"physicalLocation": place}


def related(it, number, mark):
    """The place of a mark that is not the first one."""
    label = mark.label or f"line {it.page.line(mark.first)}"
    return {"id": number, **location(it, mark), "message": said(label)}


def step_location(it, step):
    """The place of an event of a run."""
    return {"location": {**location(it, Mark(*step.span, "^")), "message": said(step.text)}}


def message(it, block, has_queues):
    """The sentence of a block and its notes in one line. The steps of a run are not among them."""
    queues = f" [{it.queues.usual}]" if has_queues and not isinstance(it, Refusal) else ""
    notes = [note.text for note in block.notes if not note.rows]
    return block.sentence + queues + (": " + "; ".join(notes) if notes else "")


def result(it, finding, has_queues):
    """The result of a finding."""
    block = finding.block
    first, *others = block.marks or [None]
    found = {"ruleId": block.ident.split()[0], "level": block.level,
             "message": said(message(it, block, has_queues)), "locations": [location(it, first)]}
    if others:
        found["relatedLocations"] = [related(it, *other) for other in enumerate(others)]
    if finding.steps:
        steps = [step_location(it, step) for step in finding.steps]
        found["codeFlows"] = [{"threadFlows": [{"locations": steps}]}]
    if finding.name:
        name = f"{it.name} {it.queues.usual} {finding.name}"
        found["partialFingerprints"] = {"race/v1": name}
    return found


def invocation(every, status):
    """How the scan ended, and what failed."""
    failures = [{"level": "error", "message": said(it.blocks[0].sentence),
                 "locations": [location(it)]} for it in every if it.status == 4]
    notifications = {"toolExecutionNotifications": failures} if failures else {}
    return {"executionSuccessful": status != 4, "exitCode": status, **notifications}


def document(every, status, has_queues, version):
    """The document of verdicts and refusals; `has_queues` says that messages name the queues."""
    rules = [{"id": name, "shortDescription": said(text)} for name, text in RULES.items()]
    results = [result(it, finding, has_queues)
               for it in every if it.status != 4 for finding in it.findings()]
    files = dict.fromkeys(uri_of(it.file) for it in every)
    run = {"tool": {"driver": {"name": "msc", "version": version, "rules": rules}},
           "columnKind": "unicodeCodePoints", "results": results,
           "artifacts": [{"location": {"uri": uri}} for uri in files],
           "invocations": [invocation(every, status)]}
    return {"$schema": SCHEMA, "version": VERSION, "runs": [run]}
