"""Folders for `msc scan` with random charts, diagrams, pages of Markdown and other files, and
random options.
"""
import os
import pathlib
import random
from typing import NamedTuple

from generators.charts import chart, crossed_chart, marked, small_chart
from generators.diagram_marks import with_marks
from generators.diagrams import FLOW, NAMES, in_markdown, items, text_of
from generators.links import page_of, with_comments, with_own
from generators.mistakes import mistaken
from models.links import KINDS
from models.races import KINDS as SORTS

# names that are taken, other ones, and names of folders
FILES = ["a.msc", "b c.msc", "-x.msc", "target.msc", "z.msc", "\u00fc.mmd", "%41 #?.mmd",
         "x.mermaid", "t\x01\x7f.mmd", "page.md", "it's \"x\".md", "\u202e\u7f51.md",
         "NOTES.markdown", "a.b.md"]
OTHERS = ["A.MSC", "a.msc.bak", "msc", "a.txt", ".hidden.msc", ".mmd", "target", "README"]
FOLDERS = ["a", "a", "x", "a b", "d.md", ".git", "node_modules", "target"]
# a name that is no UTF-8
NO_NAME = b"n\xff.msc"
ENDS = ["", "", "\n", "\r\n", "\n\t "]
WORDS = [FLOW, "", "\n", "text", "sequencediagram\nA->>B: a", "%% sequenceDiagram", "sequence",
         "---\ntitle: sequenceDiagram", "%%{init: {\nsequenceDiagram", "msc t; endmsc;",
         "\ufeffsequenceDiagram\nA->>B: a", "---\na: b\n---\n%% a\n  SEQUENCEDIAGRAM",
         "Sequence diagrams are nice"]
PAGES = ["# No diagram\n\nsequenceDiagram stands here\n", "```mermaid\nflowchart LR\n```\n",
         "```mermaid\nsequencediagram\n```\n", "~~~mermaid\n%% sequenceDiagram\n~~~\n",
         "```sh\nmake\n```\nsequenceDiagram\n",
         "<div class=\"mermaid\">\nsequenceDiagram\nA->>B: a\n"]
CHART = ("msc t{}; instance a; out x to b; out y to b; endinstance; instance b;\n"
         "in {} from a{};\nin {} from a;\nendinstance; endmsc;\n")
DIAGRAM = "sequenceDiagram\n{}\nA->>B: a\n{}\nC->>B: b\n"
MARK, STALE = "race ok: known", "race ok in single with 9: known"
QUEUES = ["queues pair", "queues single", "queues mailbox; pair b", "queues pair; single nobody"]


def comment(said):
    """The comment of a statement, or none."""
    return said and f" comment '{said}'"


def short_chart(order, queues="", mark=""):
    """A chart that races under some architectures, or that never happens as it is drawn, with
    comments if these are not empty."""
    return CHART.format(comment(queues), order[0], comment(mark), order[1]).encode()


def short_diagram(queues="", mark=""):
    """A diagram that races, with comments if these are not empty."""
    return DIAGRAM.format(*(said and f"%% {said}" for said in (queues, mark))).encode()


def examples():
    """Names of files, and their texts."""
    for order in ("xy", "yx"):
        for name, mark in (("", ""), ("known", MARK), ("stale", STALE)):
            yield f"{order}{name}.msc", short_chart(order, "", mark)
    for number, queues in enumerate(QUEUES):
        yield f"{number}.msc", short_chart("xy", queues)
        yield f"{number}.mmd", short_diagram(queues)
    yield "known.mmd", short_diagram("", MARK)
    yield "page.md", page_of(random.Random(1), [short_diagram("", MARK), short_diagram(QUEUES[1])])


# Texts


def chart_text(pick):
    """A chart, with marks or queues now and then; some have mistakes."""
    if pick.random() < 0.3:
        return short_chart(pick.choice(["xy", "yx"]), pick.choice(["", *QUEUES]),
                           pick.choice(["", MARK, STALE]))
    if pick.random() < 0.1:
        return mistaken(pick)
    sort = pick.randrange(3)
    if sort < 2:
        text = (small_chart, crossed_chart)[sort](pick, 3, 4)
    else:
        text = chart(pick, 4, True)
    text = text.replace(";", ";" + pick.choice(ENDS))
    text = marked(pick, text) if pick.random() < 0.4 else text
    return (with_own(pick, text) if pick.random() < 0.3 else text).encode("latin-1")


def diagram_text(pick):
    """A diagram, with marks or queues now and then; some have mistakes."""
    if pick.random() < 0.3:
        return short_diagram(pick.choice(["", *QUEUES]), pick.choice(["", MARK, STALE]))
    names = pick.sample(NAMES, pick.choice([2, 3]))
    rows = [row for _ in range(pick.choice([2, 3, 4, 6])) for row in items(pick, names, 2)]
    text = "\n".join(["sequenceDiagram", *rows, ""]).encode()
    text = text_of(pick) if pick.random() < 0.1 else text
    text = with_marks(pick, text) if pick.random() < 0.4 else text
    return with_comments(pick, text) if pick.random() < 0.4 else text


def page_text(pick):
    """A page of Markdown with diagrams, or without one."""
    if pick.random() < 0.2:
        return pick.choice(PAGES).encode()
    if pick.random() < 0.5:
        return in_markdown(pick, diagram_text(pick))[0]
    return page_of(pick, [diagram_text(pick) for _ in range(pick.choice([1, 2, 3]))])


def text_for(pick, name):
    """A text for a file of this name; a few are of another sort."""
    if pick.random() < 0.05:
        return pick.choice(WORDS).encode()
    sorts = {".msc": chart_text, ".mmd": diagram_text, ".mermaid": diagram_text}
    own = sorts.get(pathlib.Path(name).suffix, page_text)
    if own == page_text and pick.random() < 0.2 or pick.random() < 0.05:
        own = pick.choice([chart_text, diagram_text, page_text])
    return own(pick)


# Folders


class Tree(NamedTuple):
    """What was made in a folder, by names from there: all files and links, and all folders; and
    whether some name is no UTF-8."""
    files: list
    folders: list
    is_odd: bool

    def paths(self, pick):
        """Random PATHs."""
        found = []
        for _ in range(pick.choice([1, 1, 1, 2, 3])):
            every = [*self.folders, *(f"{it}/" for it in self.folders), *self.files]
            other = pick.choice([*every, *every, "nofile.msc", "nobody/a.md"])
            found.append(pick.choice([".", ".", ".", "./", other]))
        if pick.random() < 0.1:
            found.insert(pick.randrange(len(found) + 1), "-")
        return [f"./{it}" if it.startswith("-") and it != "-" else it for it in found]

    def names(self):
        """What `--skip` may name."""
        whole = [*self.files, *self.folders]
        return [*whole, *(it.rpartition("/")[2] for it in whole), "nobody"]


def linked(pick, folder, files, folders):
    """Makes links to files and folders, and now and then to nothing and in a ring."""
    for name in pick.sample(["l.msc", "l.mmd", "l.md", "r.msc"], pick.choice([0, 0, 0, 1, 2])):
        some = [*files, *folders] if pick.random() < 0.9 else ["nobody", name]
        target = pick.choice(some)
        where = pathlib.Path(pick.choice(["", *folders]), name)
        if not os.path.lexists(folder / where):
            os.symlink(folder / target if target != name else name, folder / where)
            files.append(str(where))


def make_tree(pick, folder, most=7):
    """Makes a tree of random files in a folder."""
    folders = []
    for _ in range(pick.choice([0, 1, 2, 3])):
        own = pathlib.Path(pick.choice(["", *folders]), pick.choice(FOLDERS))
        if not (folder / own).exists():
            (folder / own).mkdir()
            folders.append(str(own))
    files = []
    for _ in range(pick.randint(1, most)):
        name = pick.choice([*["a.msc", "x.mermaid"] * 2, *FILES, *FILES, *OTHERS])
        own = pathlib.Path(pick.choice(["", *folders]), name)
        if not (folder / own).exists():
            (folder / own).write_bytes(text_for(pick, name))
            files.append(str(own))
    linked(pick, folder, files, folders)
    is_odd = pick.random() < 0.04
    if is_odd:
        where = os.fsencode(folder / pick.choice(["", *folders]))
        pathlib.Path(os.fsdecode(os.path.join(where, NO_NAME))).write_bytes(b"")
    return Tree(files, folders, is_odd)


# Options


def queues_of(pick):
    """Random values of `--queues`, and rules for links."""
    words = []
    if pick.random() < 0.5:
        some = [*KINDS, "own", "own", "all"]
        words += [it for _ in range(pick.choice([1, 2, 2, 3]))
                  for it in ("--queues", pick.choice(some))]
    names = [*NAMES[:4], "p0", "p1", "i0", "i1", "nobody"]
    for _ in range(pick.choice([0, 0, 0, 1, 2])):
        link = ">".join(pick.choice(names) for _ in range(pick.choice([1, 2])))
        link = ">" if pick.random() < 0.02 else link
        words.append(f"--{pick.choice(KINDS)}={link}")
    return words


def words_of(pick, tree, forms):
    """Random options of `msc scan`, with one of these forms."""
    words = queues_of(pick)
    for flag, share in (("--closest", 0.3), ("--why", 0.3), ("--again", 0.3), ("--words", 0.2),
                        ("--short", 0.2), ("--places", 0.3), ("--no-accept", 0.25),
                        ("--only-races", 0.3), ("--quiet", 0.08)):
        words += [flag] * (pick.random() < share)
    for option, share, values in (
        ("--most", 0.25, [0, 1, 2, 5]), ("--show", 0.4, [0, 1, 2, 2 ** 32 - 1]),
        ("--limit", 0.3, [1, 4, 64]), ("--rounds", 0.3, ["0", "1", "1,2", "0,1"]),
        ("--self", 0.3, ["action", "message"]), ("--cross", 0.4, ["lost", "arrives"]),
        ("--par", 0.5, ["drawn"]), ("--allow", 0.15, SORTS), ("--allow", 0.15, SORTS),
        ("--jobs", 0.3, [1, 2, 7, 64]), ("--color", 0.3, ["always", "never"]),
        ("--skip", 0.2, tree.names()), ("--skip", 0.1, tree.names()),
    ):
        if pick.random() < share:
            words.append(f"{option}={pick.choice(values)}")
    if tree.is_odd:
        # the cause of what fails is printed in the other forms
        form = pick.choice([form for form in ("count", "text") if form in forms])
        words = [word for word in words if word != "--places"]
    else:
        form = pick.choice(["", *forms])
    return [*words, *[f"--format={form}"] * bool(form)]
