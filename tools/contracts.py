"""Reads from the sources what the crates' public calls promise and what each edit turns, and makes
a page of it for each crate.
"""
import dataclasses
import functools
import pathlib
import re

TOP = pathlib.Path(__file__).resolve().parent.parent
CRATES = TOP / "crates"
PAGES = TOP / "docs/contracts"
# where the edits of a crate stand: those that `rt ci` tries, and those that are tried by hand
PLACES = {"": "crates/{}/must-fail", "by hand ": "tools/more_edits/{}"}

FUNCTION = re.compile(r"( *)(pub(?:\([a-z]+\))? )?(?:const )?fn (\w+)")
IMPL = re.compile(r"impl(?:<.*?>)? (?:(.+?) for )?([\w:]+)(?:<.*>)?(?: where .*)? \{$")
TYPE = re.compile(r"pub (?:struct|enum|trait) (\w+)")
CLAUSE = re.compile(r" *(requires|ensures|ghost)(?: (\w+))?(?: [=:]|:)? (\{.*)")
USE = re.compile(r"ghost use Rattle\.(\w+)\.specs\.([\w.]+)\.\{([^}]*)\};")
WORD = re.compile(r"(?<![\w.])[A-Za-z_][\w-]*")


@dataclasses.dataclass
class Item:
    """What a source file has: a type, a trait that a type has, or a function. A method is one of a
    trait that a type has."""

    file: pathlib.Path
    kind: str
    owner: str
    name: str
    is_open: bool
    doc: str
    # the first line, from 0, and the one behind the last
    lines: tuple
    clauses: list

    @property
    def path(self):
        return f"{self.owner}::{self.name}" if self.owner else self.name


def sentence(doc):
    """The first sentence of a docstring, with names in place of links."""
    paragraph = " ".join(doc.strip().split("\n\n")[0].split())
    first = re.match(r".*?[.!?](?= [A-Z`\[]|$)", paragraph)
    return re.sub(r"\[(`[^`]+`)\](\([^)]*\))?", r"\1", first[0] if first else paragraph)


def doc_above(lines, at):
    """The docstring above a line, over attributes and comments."""
    found = []
    while at > 0 and re.match(r" *(//|#\[)", lines[at - 1]):
        at -= 1
        found += [it[3:].strip() for it in [lines[at].strip()] if it.startswith("///")]
    return "\n".join(reversed(found))


def head_doc(file):
    """What the `//!` lines of a file say."""
    lines = [it for it in file.read_text().split("\n") if it.startswith("//!")]
    return "\n".join(it[3:].strip() for it in lines)


def clause_at(lines, at):
    """The kind, the name and the text of the clause that begins at a line, and the line behind."""
    kind, name, text = CLAUSE.match(lines[at]).groups()
    while text.count("{") > text.count("}"):
        at += 1
        text += f" {lines[at].strip()}"
    return (kind, name or "", text.rstrip(";").strip()[1:-1].strip()), at + 1


def function_end(lines, at):
    """The clauses of the function that begins at a line, and the line behind it."""
    indent, clauses = FUNCTION.match(lines[at])[1], []
    while lines[at].strip().startswith("//") or not re.search(r"(^| )\{\}?$|;$", lines[at]):
        at += 1
        while CLAUSE.match(lines[at]):
            clause, at = clause_at(lines, at)
            clauses.append(clause)
            if lines[at - 1].endswith(";"):
                return clauses, at
    if lines[at].endswith(("{}", ";")):
        return clauses, at + 1
    return clauses, lines.index(f"{indent}}}", at) + 1


def block_end(lines, at):
    """The line behind the block that begins at a line, in the first column."""
    if lines[at].endswith((";", "{}")):
        return at + 1
    return lines.index("}", at) + 1


def header(lines, at):
    """The head of the block that begins at a line, in one line."""
    end = at
    while lines[at].startswith("impl") and not lines[end].endswith(("{", "{}")):
        end += 1
    return " ".join(it.strip() for it in lines[at : end + 1])


def ghosts(lines):
    """The ghost clauses of a block."""
    at = [at for at, it in enumerate(lines) if it.startswith("    ghost ") and CLAUSE.match(it)]
    return [clause_at(lines, it)[0] for it in at]


@functools.cache
def items_of(file):
    """The items of a file, in order. A model is left out, since it is no call, and so are tests."""
    lines, found, block = file.read_text().split("\n"), [], None
    for at, line in enumerate(lines):
        impl, named = IMPL.match(header(lines, at)), TYPE.match(line)
        function = FUNCTION.match(line)
        if line == "#[cfg(test)]":
            break
        if block and at >= block.lines[1]:
            block = None
        if impl or named:
            kind = "type" if named else "trait" if impl[1] else "impl"
            owner, name = ("", named[1]) if named else (impl[2], impl[1] or "")
            span = at, block_end(lines, at)
            said = ghosts(lines[slice(*span)])
            block = Item(file, kind, owner, name, True, doc_above(lines, at), span, said)
            if kind != "impl" and name != "Model":
                found.append(block)
        elif function and (not function[1] or block and len(function[1]) == 4):
            clauses, end = function_end(lines, at)
            owner = "" if not function[1] else block.owner or block.name
            kind = "method" if block and block.kind == "trait" else "call"
            is_open = function[2] == "pub " or bool(block) and block.kind == "type"
            doc = doc_above(lines, at)
            found.append(Item(file, kind, owner, function[3], is_open, doc, (at, end), clauses))
    return found


def sources(crate):
    """The source files of a crate, as they are walked over."""
    return sorted((CRATES / crate / "src").rglob("*.rt"))


def source(crate, file):
    """A source file's path in its crate."""
    return file.relative_to(CRATES / crate).as_posix()


def exposed(crate):
    """The public modules of a crate, the names that it exposes of its own, and those of others."""
    text = (CRATES / crate / "src/lib.rt").read_text()
    names, others = {it[1] for it in TYPE.finditer(text)}, {}
    for module, one, more in re.findall(r"(?m)^pub use (\w+)::(?:(\w+)|\{([^}]*)\});", text):
        found = [one] if one else re.findall(r"\w+", more)
        if (CRATES / crate / f"src/{module}.rt").is_file():
            names |= set(found)
        else:
            others.setdefault(module, []).extend(found)
    return set(re.findall(r"(?m)^pub mod (\w+);", text)), names, others


def is_public(item, modules, names):
    """Whether a crate that exposes these modules and names has the item in sight."""
    in_module = item.file.stem in modules and item.file.parent.name == "src"
    seen = (item.owner or item.name) in names or in_module
    return item.is_open and item.kind != "method" and seen


def public_items(crate):
    """The items of a crate that are in sight, in the order of its sources."""
    modules, names, _ = exposed(crate)
    every = [it for file in sources(crate) for it in items_of(file)]
    return [it for it in every if is_public(it, modules, names)]


@functools.cache
def imports(file):
    """Of each definition that a file imports from `specs/` its crate and its file."""
    found = {}
    for crate, place, names in USE.findall(file.read_text()):
        if not place.startswith("declared") and (CRATES / crate).is_dir():
            path = f"specs/{place.replace('.', '/')}"
            found.update({it: (crate, path) for it in re.findall(r"[\w-]+", names)})
    return found


def cited(crate, file, text):
    """The definitions that a clause cites, each file of them once; or its text, if it has none."""
    places, known = {}, imports(file)
    for word in WORD.findall(text):
        if word in known:
            names = places.setdefault(known[word], [])
            names += [f"`{word}`"] * (f"`{word}`" not in names)
    told = []
    for (other, path), names in places.items():
        of = f"`{path}`" if other == crate else f"`{other}`, `{path}`"
        told.append(f"{', '.join(names)} ({of})")
    return "; ".join(told) or f"`{text}`"


def pairs_of(edit):
    """The file, the old text and the new one of each change of an edit."""
    path, old = None, None
    for line in edit.read_text().split("\n"):
        kind, _, text = line.partition(": ")
        if kind == "file":
            path = text.strip()
        elif kind == "old":
            old = text
        elif kind.rstrip(":") == "new":
            yield path, old, text


def turned(crate, edit):
    """The lines that an edit turns, by their files; or what hinders it."""
    texts = {}
    for path, old, new in pairs_of(edit):
        file = CRATES / crate / path
        if not file.is_file():
            return [], f"there is no {path}"
        text = texts.setdefault(file, file.read_text())
        if text.count(old) != 1:
            return [], f"an old text stands in {path} {text.count(old)} times"
        texts[file] = text.replace(old, new)
    # neither text of a change has a line's end, so the lines keep their numbers
    both = [(file, file.read_text().split("\n"), text.split("\n")) for file, text in texts.items()]
    return [
        (file, at)
        for file, before, after in both
        for at, (one, other) in enumerate(zip(before, after))
        if one != other
    ], None


@functools.cache
def edits_of(crate):
    """Of each edit of a crate its name, how it is tried, what it turns, and what hinders it."""
    return [
        (edit.stem, when, *turned(crate, edit))
        for when, place in PLACES.items()
        for edit in sorted((TOP / place.format(crate)).glob("*.edit"))
    ]


def edits_at(crate, item):
    """The edits that turn an item, those first that `rt ci` tries."""
    found = {}
    for name, when, places, _ in edits_of(crate):
        if any(file == item.file and line in range(*item.lines) for file, line in places):
            found.setdefault(when, []).append(f"`{name}`")
    return "; ".join(f"{when}{', '.join(names)}" for when, names in found.items())


def shown(crate, item):
    """The lines of a page on a type, a trait that a type has, or a call."""
    name = f"{item.owner}: {item.name}" if item.kind == "trait" else item.path
    if item.kind == "call" and item.file.stem in exposed(crate)[0] and not item.owner:
        name = f"{item.file.stem}::{name}"
    yield f"- **`{name}`** {sentence(item.doc)}".rstrip()
    clauses = [*item.clauses]
    for it in items_of(item.file) if item.kind == "trait" else []:
        if it.kind == "method" and it.lines[0] in range(*item.lines):
            clauses += [(kind, f"{it.name}: {named}", *more) for kind, named, *more in it.clauses]
    for kind, clause, text in clauses:
        words = ["wants"] * (kind == "requires") + [f"`{clause}`"] * bool(clause)
        yield f"  - {' '.join(words) or 'answers'}: {cited(crate, item.file, text)}"
    edits = edits_at(crate, item) if item.kind != "type" else ""
    if edits:
        yield f"  - wrong bodies: {edits}"


def inner(crate, items):
    """The lines of a page on what edits turn behind the public calls."""
    for item in items:
        edits = edits_at(crate, item)
        if edits and item.kind in ("call", "method"):
            yield f"- `{item.path}` in `{source(crate, item.file)}`: {edits}"


def is_within(item, other):
    """Whether an item is part of another."""
    return item.file == other.file and item.lines[0] in range(*other.lines)


def page(crate):
    """The lines of a crate's page."""
    public, others = public_items(crate), exposed(crate)[2]
    yield from (f"# `{crate}`", "", sentence(head_doc(CRATES / crate / "src/lib.rt")))
    for other, found in others.items():
        yield f"It hands on {', '.join(f'`{it}`' for it in found)} of [`{other}`]({other}.md)."
    for file in dict.fromkeys(it.file for it in public if it.kind != "type"):
        yield from ("", f"## `{source(crate, file)}`", "", sentence(head_doc(file)), "")
        for item in [it for it in public if it.file == file]:
            yield from shown(crate, item)
    every = [it for file in sources(crate) for it in items_of(file)]
    within = [it for it in every if it not in public and it.kind != "type"]
    traits = [it for it in public if it.kind == "trait"]
    lines = list(inner(crate, [it for it in within if not any(is_within(it, t) for t in traits)]))
    if lines:
        yield from ("", "## Behind these calls", "", *lines)


def has_calls(crate):
    """Whether a crate is a library with a contract on a public call; tests have none in sight."""
    if not (CRATES / crate / "src/lib.rt").is_file():
        return False
    return any(it.clauses for it in public_items(crate))


INDEX = """# Contracts

Made of the sources by `tools/promises.py --write`, and compared with them in `./test`; what all of
it comes to stands in [PROMISES](../PROMISES.md). Each page has a crate's public calls in the order
of its sources: the first sentence of what is said of the call, what it wants of its caller, and its
clauses by their names, each with the definitions that it cites, or with its text where it cites
none. A clause without a name stands as `answers`. The wrong bodies are edits that the prover
refuses: those of the crate's folder `must-fail`, which `rt ci` tries, and by hand those of
`tools/more_edits`.
"""


def pages():
    """All pages, by their paths."""
    names = re.findall(r"(?m)^(\w+)[^:#\n]*:", (TOP / "crates.txt").read_text())
    crates = [it for it in names if has_calls(it)]
    found = {PAGES / f"{it}.md": "\n".join(page(it)) + "\n" for it in crates}
    rows = ["| Crate | Is | Edits: `rt ci` | by hand |", "|---|---|---:|---:|"]
    for crate in crates:
        told = sentence(head_doc(CRATES / crate / "src/lib.rt"))
        tried = [sum(it[1] == when for it in edits_of(crate)) for when in PLACES]
        rows.append(f"| [`{crate}`]({crate}.md) | {told} | {tried[0]} | {tried[1]} |")
    head = re.sub(r"(?<=\S)\n(?=\S)", " ", INDEX)
    found[PAGES / "README.md"] = "\n".join([head, *rows]) + "\n"
    return found
