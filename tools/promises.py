#!/usr/bin/env python3
"""Looks whether what docs/PROMISES.md and docs/PROOFS.md name is there: calls and their clauses,
laws, definitions and lemmas in the files that stand behind them, and tests; whether each public
call with a contract has a docstring, which docs/contracts shows; whether each edit can be applied;
whether docs/contracts is what the sources say; and whether the links and paths of all documents
lead to something. Prints what is not so; the exit status is 1 then.

    tools/promises.py            looks
    tools/promises.py --write    makes docs/contracts anew, and then looks
"""
import argparse
import functools
import re
import sys

sys.dont_write_bytecode = True
import contracts
from contracts import CRATES, PAGES, TOP

# names, and behind them the file that they stand in, of this crate or another
LISTED = re.compile(r"((?:`[^`]+`, )*`[^`]+`) \((?:`(\w+)`, )?`((?:specs|proofs)/[\w/]+)`\)")
LAWS = re.compile(r"`(?:(\w+)::)?laws::(\w+)`((?:: (?:`\w+`(?:, )?)+)?)")
# the crates of tests
TESTS = ("program_tests", "chart_tests", "import_tests")
# a link to a file or a heading, without the address of another place
LINK = re.compile(r"\]\((?!\w+:)([^)#\s]*)#?([^)\s]*)\)")
WORDS = r"(?m)^\s*(?:(?:pub|abbrev|unfoldable|opaque|data|record)\s+)*{}(?=[\s:(])"


def is_defined(name, file):
    """Whether a file of definitions or lemmas begins a line with this name."""
    word = re.escape(name.split(".")[-1])
    return file.is_file() and bool(re.search(WORDS.format(word), file.read_text()))


def missing_words(crate, text):
    """The names of a text that do not stand in the file behind them, which is that of the crate
    before it, or of this one."""
    for names, other, place in LISTED.findall(text):
        file = CRATES / (other or crate or "") / f"{place}.antt"
        for name in re.findall(r"`([^`]+)`", names):
            if not is_defined(name, file):
                yield f"{name} in {place}"


@functools.cache
def named(crate):
    """The items of a crate by each of their names: the bare one, that with the type, and that with
    the module."""
    found = {}
    for it in [it for file in contracts.sources(crate) for it in contracts.items_of(file)]:
        for name in {it.name, it.path, f"{it.file.stem}::{it.name}"}:
            found.setdefault(name, []).append(it)
    return found


def crate_of(crate, call):
    """The crate of a call, which may stand before its name, and the name."""
    first, _, rest = call.partition("::")
    return (first, rest) if rest and (CRATES / first).is_dir() else (crate or "", call)


def missing_calls(crate, cell):
    """The calls of a cell, parted by `;`, that the crate before their name, or else this one, has
    not, and the clauses behind `:` that none of these calls has; behind a type may stand a trait
    that it has."""
    for part in cell.split(";"):
        lists = [re.findall(r"`([^`/]+)`", it) for it in re.split(r":(?=\s)", part)]
        calls, *clauses = [names for names in lists if names] or [[]]
        calls = [crate_of(crate, it) for it in calls if "laws::" not in it]
        yield from (f"{name} in {of or 'no crate'}" for of, name in calls if name not in named(of))
        found = [it for of, name in calls for it in named(of).get(name, ())]
        known = {clause for it in found for _, clause, _ in it.clauses}
        every = [(it, of) for of, _ in calls for items in named(of).values() for it in items]
        traits = [it.name for it, of in every if it.kind == "trait" and (of, it.owner) in calls]
        known |= {re.sub(r"<.*", "", it).split("::")[-1] for it in traits}
        for name in clauses[0] if calls and clauses else []:
            if name not in known:
                yield f"clause {name} of {', '.join(name for _, name in calls)}"


def missing_in_prose(line):
    """The calls of a line, each behind its crate, that are not there."""
    for call in re.findall(r"`(\w+::\w[\w:]*)`", line):
        if (CRATES / call.split("::")[0]).is_dir():
            yield from missing_calls(None, f"`{call}`")


def missing_laws(crate, text):
    """The laws of a text that are not there: `laws::NAME` of this crate, or that of another; and
    the clauses behind them."""
    for other, name, more in LAWS.findall(text):
        file = CRATES / (other or crate or "") / "src/laws.rt"
        if not file.is_file() or f"pub fn {name}(" not in file.read_text():
            yield f"law {name}"
            continue
        law = [it for it in contracts.items_of(file) if it.name == name]
        known = {clause for it in law for _, clause, _ in it.clauses}
        asked = re.findall(r"`(\w+)`", more)
        yield from (f"clause {it} of {name}" for it in asked if it not in known)


def missing_tests(cell):
    """What a cell names that is there neither as a test, MODULE::NAME, nor as a module with tests,
    nor as a tool."""
    for module, name in re.findall(r"`(\w+)(?:::(\w+))?`", cell):
        files = [CRATES / it / f"src/{module}.rt" for it in TESTS]
        said = "".join(it.read_text() for it in files if it.is_file())
        if f"fn {name}(" not in said if name else "#[test]" not in said:
            yield f"{module}::{name}" if name else f"test in {module}"
    for tool in re.findall(r"`(tools/[\w./]+)`", cell):
        if not (TOP / tool).is_file():
            yield tool


def missing(text):
    """Each line's number and what it names that is not there."""
    crate, columns = None, None
    for number, line in enumerate(text.split("\n"), 1):
        if line.startswith("## "):
            named = re.search(r"\(`(\w+)`\)", line)
            crate = named and named[1]
        cells = line.strip("| ").split(" | ")
        found = []
        if not line.startswith("|"):
            columns = None
            found = [*missing_in_prose(line)]
        elif columns is None:
            columns = cells
        elif line.startswith("| ") and columns[1] == "Test":
            found = [*missing_tests(cells[1])]
        elif line.startswith("| ") and columns[1] == "Call":
            found = [*missing_calls(crate, cells[1])]
        found += [*missing_laws(crate, line), *missing_words(crate, line)]
        yield from ((number, it) for it in found)


def unsaid():
    """The public calls with a contract and no docstring, of which docs/contracts says nothing in
    words."""
    for crate in filter(contracts.has_calls, sorted(it.name for it in CRATES.iterdir())):
        for it in contracts.public_items(crate):
            if it.kind == "call" and it.clauses and not it.doc:
                yield f"{it.path} of {crate} has a contract and no docstring"


def is_path(path):
    """Whether the repository has a path, from its top or from its crates. CRATE and NAME stand for
    any name, and the ending of definitions can be left out."""
    pattern = re.sub(r"\b(?:CRATE|NAME)\b", "*", path.removeprefix("./"))
    roots = (TOP, CRATES)
    return any(any(it.glob(pattern + end)) for it in roots for end in ("", ".antt"))


def anchors(page):
    """The names by which links reach the headings of a page."""
    heads = re.findall(r"(?m)^#+ (.*)$", page.read_text())
    return {re.sub(r"[^\w -]", "", head.lower()).replace(" ", "-") for head in heads}


def missing_paths(page):
    """Each line's number, and the links and paths of the line that lead to nothing. A path is a
    word in backquotes that begins with a folder of the top or a crate; what a build makes is none.
    Blocks are left out."""
    known = {it.name for root in (TOP, CRATES) for it in root.iterdir()}
    is_block = False
    for number, line in enumerate(page.read_text().split("\n"), 1):
        is_block ^= line.lstrip().startswith("```")
        for link, anchor in () if is_block else LINK.findall(line):
            to = page.parent / link if link else page
            if not to.exists() or anchor and anchor not in anchors(to):
                yield number, f"{link}#{anchor}".removesuffix("#")
        for word in () if is_block else " ".join(re.findall(r"`([^`]+)`", line)).split():
            parts = word.removeprefix("./").split("/")
            is_named = parts[1:] and parts[0] in known and "out" not in parts
            if is_named and not is_path(word):
                yield number, word


def stale():
    """The pages that are not what the sources say, and edits that cannot be applied."""
    made = contracts.pages()
    for path in sorted({*made, *PAGES.glob("*.md")}):
        if not path.is_file() or path.read_text() != made.get(path):
            yield f"{path.relative_to(TOP)}: not what the sources say: tools/promises.py --write"
    for crate in sorted(it.name for it in CRATES.iterdir()):
        for name, _, _, hindered in contracts.edits_of(crate):
            if hindered:
                yield f"edit {crate}/{name}: {hindered}"


def write():
    """Makes the pages anew, and takes away those of no crate."""
    made = contracts.pages()
    PAGES.mkdir(exist_ok=True)
    for path in {*PAGES.glob("*.md")} - {*made}:
        path.unlink()
    for path, text in made.items():
        path.write_text(text)


def main():
    parser = argparse.ArgumentParser(
        description=__doc__, formatter_class=argparse.RawDescriptionHelpFormatter
    )
    parser.add_argument("--write", action="store_true", help="make docs/contracts anew")
    if parser.parse_args().write:
        write()
    found = [*stale(), *unsaid()]
    for page in ("docs/PROMISES.md", "docs/PROOFS.md"):
        text = (TOP / page).read_text()
        found += [f"{page}:{number}: there is no {it}" for number, it in missing(text)]
    for page in sorted([*TOP.glob("*.md"), *TOP.glob("docs/*.md"), *TOP.glob("bench/*.md")]):
        name = page.relative_to(TOP)
        found += [f"{name}:{number}: there is no {it}" for number, it in missing_paths(page)]
    print("\n".join([*found, f"promises: {len(found)} faults"] if found else PASSED))
    return int(bool(found))


PASSED = ["promises: all that is named is there, and docs/contracts is what the sources say"]

if __name__ == "__main__":
    sys.exit(main())
