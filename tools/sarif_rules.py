#!/usr/bin/env python3
"""Checks documents against the rules of SARIF 2.1.0, as far as they concern the members that `msc`
writes.

    tools/sarif_rules.py [--braces] FILE ..

FILE is `-` for standard input. SHAPES has the members of each object: the type of the value, and
whether the member is required. Other members of the standard are not known here and count as
violations. Further rules are about lines and columns, URIs, IDs, and references in messages. With
--braces each brace in a message has to be doubled, as the standard asks; without it a brace is
wrong only if a reader would take it for the place of an argument, such as `{0}`.

Prints each violation with its place in the document, and last how many documents and violations
there are. The exit status is 1 if there is a violation.
"""
import argparse
import json
import pathlib
import re
import sys

URI = re.compile(r"(?:[A-Za-z0-9._~:/?#\[\]@!$&'()*+,;=-]|%[0-9A-Fa-f]{2})+")
SCHEME = re.compile(r"[A-Za-z][A-Za-z0-9+.-]*:")
# what stands in a message for an argument, and for a link to a location of the result
PLACEHOLDER = re.compile(r"(?<!\{)\{[0-9]+\}(?!\})")
LINK = re.compile(r"\[(?:[^\[\]\\]|\\.)*\]\(([0-9]+)\)")
SINGLE_BRACE = re.compile(r"(?<!\{)(?:\{\{)*\{(?!\{)|(?<!\})(?:\}\})*\}(?!\})")


# Types: each yields what is wrong with a value at a place of the document


def text(value, at):
    if not isinstance(value, str):
        yield f"{at}: no string"


def uri(value, at):
    yield from text(value, at)
    if not isinstance(value, str):
        return
    first = value.split("/")[0]
    if not URI.fullmatch(value) or ":" in first and not SCHEME.match(value):
        yield f"{at}: no URI: {value!r}"


def truth(value, at):
    if not isinstance(value, bool):
        yield f"{at}: neither true nor false"


def one_of(*words):
    def check(value, at):
        if value not in words:
            yield f"{at}: {value!r} is none of {', '.join(words)}"
    return check


def whole(least=None):
    def check(value, at):
        if not isinstance(value, int) or isinstance(value, bool):
            yield f"{at}: no whole number"
        elif least is not None and value < least:
            yield f"{at}: {value} is less than {least}"
    return check


def many(inner, least=0, unique=False):
    def check(value, at):
        if not isinstance(value, list):
            yield f"{at}: no array"
            return
        if len(value) < least:
            yield f"{at}: fewer than {least} elements"
        if unique and len({json.dumps(it, sort_keys=True) for it in value}) < len(value):
            yield f"{at}: two elements are equal"
        for number, it in enumerate(value):
            yield from inner(it, f"{at}[{number}]")
    return check


def texts(value, at):
    """An object whose members are strings."""
    if not isinstance(value, dict):
        yield f"{at}: no object"
        return
    for name, it in value.items():
        yield from text(it, f"{at}.{name}")


def shape(name):
    """An object with the members of SHAPES, and with the further rules of RULES."""
    def check(value, at):
        if not isinstance(value, dict):
            yield f"{at}: no object"
            return
        types = {it.rstrip("!"): inner for it, inner in SHAPES[name].items()}
        required = [it.rstrip("!") for it in SHAPES[name] if it.endswith("!")]
        wrong = [f"{at}: lacks {it}" for it in required if it not in value]
        wrong += [f"{at}: unknown member {it}" for it in value if it not in types]
        for it, inner in types.items():
            if it in value:
                wrong += inner(value[it], f"{at}.{it}")
        yield from wrong
        if not wrong and name in RULES:
            yield from RULES[name](value, at)
    return check


LEVEL = one_of("none", "note", "warning", "error")
# the members of objects; those with a mark are required
SHAPES = {
    "log": {"$schema": uri, "version!": one_of("2.1.0"), "runs!": many(shape("run"))},
    "run": {"tool!": shape("tool"), "columnKind": one_of("utf16CodeUnits", "unicodeCodePoints"),
            "results": many(shape("result")), "artifacts": many(shape("artifact"), unique=True),
            "invocations": many(shape("invocation"))},
    "tool": {"driver!": shape("component")},
    "component": {"name!": text, "version": text, "rules": many(shape("rule"), unique=True)},
    "rule": {"id!": text, "shortDescription": shape("description")},
    "description": {"text!": text},
    "result": {"ruleId!": text, "level": LEVEL, "message!": shape("message"),
               "locations": many(shape("location")),
               "relatedLocations": many(shape("location"), unique=True),
               "codeFlows": many(shape("flow")), "partialFingerprints": texts},
    "message": {"text!": text},
    "location": {"id": whole(-1), "physicalLocation": shape("place"), "message": shape("message")},
    "place": {"artifactLocation!": shape("file"), "region": shape("region")},
    "file": {"uri!": uri},
    "region": {"startLine!": whole(1), "startColumn": whole(1), "endLine": whole(1),
               "endColumn": whole(1)},
    "flow": {"threadFlows!": many(shape("thread"), least=1)},
    "thread": {"locations!": many(shape("step"), least=1)},
    "step": {"location": shape("location")},
    "artifact": {"location": shape("file")},
    "invocation": {"executionSuccessful!": truth, "exitCode": whole(),
                   "toolExecutionNotifications": many(shape("notification"))},
    "notification": {"level": LEVEL, "message!": shape("message"),
                     "locations": many(shape("location"))},
}


# Further rules


def region_rules(value, at):
    """A region ends where it begins, or further on."""
    line, column = value["startLine"], value.get("startColumn", 1)
    past = value.get("endLine", line), value.get("endColumn")
    if past[0] < line or past[0] == line and past[1] is not None and past[1] < column:
        yield f"{at}: ends before it begins"


def name_rules(value, at):
    """What has a name has one that is not empty."""
    name = value["name"] if "name" in value else value["id"]
    if not name:
        yield f"{at}: an empty name"


def result_rules(value, at):
    """The IDs of locations differ, and links in messages are such IDs."""
    places = [*value.get("locations", []), *value.get("relatedLocations", [])]
    ids = [it["id"] for it in places if it.get("id", -1) >= 0]
    if len(set(ids)) < len(ids):
        yield f"{at}: two locations have one id"
    for target in LINK.findall(value["message"]["text"]):
        if int(target) not in ids:
            yield f"{at}.message: a link to {target}, which no location has"


def message_rules(value, at):
    """No message has the place of an argument, since none has arguments."""
    for found in PLACEHOLDER.findall(value["text"]):
        yield f"{at}: {found} stands for an argument"


def run_rules(value, at):
    """Rules have different IDs, and each result has the ID of a rule."""
    rules = [it["id"] for it in value["tool"]["driver"].get("rules", [])]
    if len(set(rules)) < len(rules):
        yield f"{at}.tool: two rules have one id"
    for number, it in enumerate(value.get("results", [])):
        if it["ruleId"] not in rules:
            yield f"{at}.results[{number}]: no rule is called {it['ruleId']}"


RULES = {"region": region_rules, "component": name_rules, "rule": name_rules,
         "result": result_rules, "message": message_rules, "run": run_rules}


def single_braces(value, at):
    """Each brace of a message is doubled."""
    if isinstance(value, list):
        for number, it in enumerate(value):
            yield from single_braces(it, f"{at}[{number}]")
    elif isinstance(value, dict):
        for name, it in value.items():
            is_message = name == "message" and isinstance(it, dict)
            if is_message and SINGLE_BRACE.search(it.get("text", "")):
                yield f"{at}.message: a brace that is not doubled"
            yield from single_braces(it, f"{at}.{name}")


def members_once(pairs):
    """An object, whose members have different names."""
    found = dict(pairs)
    if len(found) < len(pairs):
        raise ValueError("two members have one name")
    return found


def violations(held, with_braces=False):
    """What is wrong with a document of these bytes."""
    try:
        document = json.loads(held.decode(), object_pairs_hook=members_once)
    except ValueError as wrong:
        yield f"no JSON: {wrong}"
        return
    yield from shape("log")(document, "$")
    if with_braces:
        yield from single_braces(document, "$")


def main():
    style = argparse.RawDescriptionHelpFormatter
    words = argparse.ArgumentParser(description=__doc__, formatter_class=style)
    words.add_argument("--braces", action="store_true", help="braces of messages are doubled")
    words.add_argument("files", metavar="FILE", nargs="+")
    options = words.parse_args()
    count = 0
    for file in options.files:
        held = sys.stdin.buffer.read() if file == "-" else pathlib.Path(file).read_bytes()
        for wrong in violations(held, options.braces):
            print(f"{file}: {wrong}")
            count += 1
    print(f"sarif_rules: {len(options.files)} documents, {count} violations")
    return int(count > 0)


if __name__ == "__main__":
    sys.exit(main())
