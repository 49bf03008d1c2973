#!/usr/bin/env python3
"""Gives `msc check --from any` and `msc import` diagrams and texts of Markdown that are as large
as they may be, each made of one thing, and looks at the answers.

    large_diagrams.py [--seconds S] [--bytes B] PROGRAM

Each run has S seconds of a processor (10 if it is not said) and B bytes of address space (512
MiB). Wanted answers stand here. Prints what differs, and last `N passed, M failed`.
"""
import resource
import sys

from program import Answer, Count, arguments, run

# bytes of a text, and blocks or statements of the smallest ones that have room in it
LIMIT, MANY = 1048576, 100000
HEAD, ARROW = b"sequenceDiagram\n", b"A->>B: x"
CHECK = ["check", "--from", "any", "--queues", "pair"]
NO_DIAGRAM = "import fault 2 at 1: expected a diagram"
# white space of one, two and three bytes
SPACES = [b" ", b"\t", b"\x0b", b"\xc2\xa0", b"\xe3\x80\x80", b"\xef\xbb\xbf"]


def filled(before, some, behind=b""):
    """A text of the most bytes: a beginning, as many of these bytes as have room, and an end."""
    return before + some * ((LIMIT - len(before) - len(behind)) // len(some)) + behind


def last_line(text):
    return text.count(b"\n") + 1


def fault(line, output=b""):
    return Answer(output, f"{line}\n".encode(), 2)


def expected(line, what):
    return fault(f"import fault 2 at {line}: expected {what}")


def passes(scenarios=1, name="diagram"):
    told = f"diagram {name}\nqueues pair\nscenarios {scenarios}\npass\n"
    return Answer(told.encode(), b"", 0)


def chart(*lines):
    rows = ["msc diagram;", *lines, "endmsc;"]
    return Answer("".join(row + "\n" for row in rows).encode(), b"", 0)


def texts_of_one_thing():
    """Texts that are no diagram."""
    for some in (b">", b">\n", b"> ", b"- ", b"1. ", b"`", b"~", b"`\n", b"```\n", b"{{%", b"&",
                 b"#", b"{", b"{{< mermaid >}}\n", b"<pre class=\"mermaid\"",
                 b"<div class=\"mermaid\">\n", b"::: mermaid\n", b"%%", b"}%%", b"\xff",
                 b"\xe2\x80", b"sequence", b"--"):
        yield filled(b"", some), CHECK, fault(NO_DIAGRAM)
    yield filled(b"", b">"), [*CHECK, "--fence", "1"], fault("import fault 17: no diagram 1")
    for space in [*SPACES, b"\n"]:
        text = filled(b"", space)
        yield text, CHECK, expected(last_line(text), "a diagram")
        too_long = fault(f"import fault 1: text longer than {LIMIT} bytes")
        yield text + HEAD, CHECK, too_long


def long_lines():
    """Diagrams with a long line of one thing."""
    for space in SPACES:
        yield filled(b"", space, HEAD + ARROW), CHECK, passes()
        yield filled(HEAD + b"A", space, b"->>B: x"), CHECK, passes()
        yield filled(HEAD + ARROW, space), CHECK, passes()
    yield b"sequenceDiagram" + b";" * MANY + ARROW, CHECK, passes()
    yield filled(b"sequenceDiagram", b";", ARROW), CHECK, passes()
    yield filled(HEAD, b"; ", ARROW), CHECK, passes()
    for some in (b"%%", b"#", b"#a", b"#a;", b"a", b"->>", b"()", b"wrap:", b"<br>", b"\xff",
                 b"\\n"):
        yield filled(HEAD + b"A->>B: ", some), CHECK, passes()
    for some in (b"#", b"#a", b"#_"):
        yield filled(HEAD + b"A", some, b"->>B: x"), CHECK, expected(2, "a statement")
    for some in (b"#1;", b"a", b"\xff", b"(", b"a-"):
        yield filled(HEAD, some, b"A->>B: x"), CHECK, passes()
    for some in (b"-", b"<", b"=", b"()", b":", b","):
        yield filled(HEAD + b"A", some, b" ->>B: x"), CHECK, expected(2, "a name")
    yield filled(HEAD + b"A->>B: x\nA", b"-x", b"A: x"), CHECK, expected(3, "a name")


def many_lines():
    """Diagrams with many lines of one thing."""
    for before, some, end in (
        (b"accTitle:a", b";", b"\n"), (b"title a", b"-", b"\n"), (b"%%", b"%%{}%%", b"\n"),
        (b"accDescr {", b"a", b"}\n"), (b"accDescr {", b"{\n", b"}\n"),
        (b"", b"%%{init}%%\n", b""), (b"", b"%%\n", b""), (b"%%{", b"\n", b"}%%\n"),
        (b"%%{", b"%\n", b"}%%\n"),
        (b"participant A@{", b"\n", b"}\n"), (b"participant A@{", b"@{\n", b"}\n"),
    ):
        yield filled(HEAD + before, some, end + ARROW), CHECK, passes()
    for before, what in ((b"accDescr {", "}"), (b"%%{", "}%%")):
        text = filled(HEAD + before, b"\n")
        yield text, CHECK, expected(last_line(text), what)
    for some in (b"\n", b"@{\n", b"a\n", b"%%\n"):
        yield filled(HEAD + b"participant A@{", some), CHECK, expected(2, "}")
    yield filled(HEAD, b"participant A@{\n}\n", ARROW), CHECK, passes()
    text = filled(b"---\n", b"\n", HEAD)
    yield text, CHECK, expected(last_line(text), "---")
    yield filled(HEAD + ARROW, b"\nnote over A: a->>b"), CHECK, passes()
    yield filled(HEAD + ARROW + b"\n", b"destroy A\n"), CHECK, passes()
    yield filled(HEAD, b"loop\nend\n"), CHECK, passes()
    too_many = fault("import fault 15 at 1026: more than 1024 arrows")
    yield filled(HEAD, b"A->>B: x\n"), CHECK, too_many


def choices():
    """Diagrams with many choices."""
    most, limit = fault("import fault 11: more than 4096 scenarios"), [*CHECK, "--limit", "4096"]
    yield HEAD + b"A-xB: x\n" * 12, limit, passes(4096)
    for count in (13, 64, 1024):
        yield HEAD + b"A-xB: x\n" * count, limit, most
    yield filled(HEAD, b"A-xB: x\n"), limit, most
    rounds = [*CHECK, "--rounds", ",".join(map(str, range(1025)))]
    too_many = fault("import fault 11: more than 64 scenarios")
    for depth, times in ((1, 4000), (10, 1), (10, 400)):
        nested = b"loop\n" * depth + b"A->>B: x\n" + b"end\n" * depth
        yield HEAD + nested * times, rounds, too_many
    yield HEAD + b"loop\nbreak\nA-xB: x\nend\nend\n" * 4000, rounds, too_many
    yield HEAD + b"par\nA-xB: x\nand\nC-xD: x\nend\n" * 4000, CHECK, too_many
    told = "import fault 12: more than 4096 scenarios, say --choose"
    yield HEAD + b"A-xB: x\n" * 64, ["import"], fault(told)
    rows = [f"  action 'lost x, {k} to B';" for k in range(1, 65)]
    lines = ["instance A;", *rows, "endinstance;", "instance B;", "endinstance;"]
    zeros = ["import", "--choose", ",".join(["0"] * 64)]
    yield HEAD + b"A-xB: x\n" * 64, zeros, chart(*lines)


def pages():
    """Texts of Markdown with many blocks."""
    diagram = b"```mermaid\n" + HEAD + ARROW + b"\n```\n"
    # an empty line ends each block, as it has no mark
    many = b">```puml\n\n" * MANY + diagram
    yield many, CHECK, passes(name=f"diagram#{MANY + 1}")
    for number, answer in ((MANY + 1, passes()), (MANY, expected(last_line(many), "a diagram")),
                           (MANY + 2, fault(f"import fault 17: no diagram {MANY + 2}"))):
        yield many, [*CHECK, "--fence", str(number)], answer
    yield b"```\n```\n" * MANY + diagram, CHECK, passes(name="diagram#1")
    no_first = expected(1, "sequenceDiagram")
    yield b"<pre class=mermaid>\n" * (MANY // 2) + diagram, CHECK, no_first
    yield b"{{< mermaid >}}\n" * (MANY // 2) + diagram, CHECK, passes(name="diagram#1")
    few = b"~~~mermaid\n" + HEAD + b"~~~\n"
    count = LIMIT // len(few)
    numbers = range(1, count + 1)
    told = "".join(f"diagram diagram#{n}\nqueues pair\nscenarios 1\npass\n" for n in numbers)
    yield few * count, CHECK, Answer(told.encode(), b"", 0)
    yield few * count, ["import"], fault(f"import fault 20: {count} diagrams, say --fence")
    strays, outside = MANY // 2, "sequenceDiagram outside of its block"
    told = "".join(f"diagram diagram#{n}\nrefused\n" for n in range(2, strays + 2))
    lines = "".join(f"import fault 5 at {n}: {outside}\n" for n in range(4, strays + 4))
    page = b"```mermaid\npie\n```\n" + b"sequenceDiagram\n" * strays
    yield page, CHECK, Answer(told.encode(), lines.encode(), 2)
    in_html = b"<pre class=\"mermaid\">\n" + HEAD + b"A->>B: "
    yield filled(in_html, b"&a"), CHECK, passes(name="diagram#1")


def of_queues(queues, *links):
    """The answer on a diagram that passes with these queues."""
    told = "".join(f"{line}\n" for line in ["diagram diagram", f"queues {queues}", *links])
    return Answer(f"{told}scenarios 1\npass\n".encode(), b"", 0)


def comments():
    """Diagrams with comments that name queues, or may seem to."""
    own, behind, begin = [*CHECK[:-1], "own"], b"\n" + ARROW, HEAD + b"%% queues pair; single "
    single = of_queues("pair", "link A single")
    yield filled(begin + b"A", b", A", behind), own, single
    yield filled(begin + b"A", b";single A", behind), own, single
    yield filled(begin, b" ", b"A" + behind), own, single
    yield filled(begin, b" ", b"A" + behind), CHECK, passes()
    unread, served = fault("link fault 4 at 2: queues expected"), begin + b"A; serves B"
    rows = ["instance A;", "  out x, 1 to B;", "endinstance;",
            "instance B;", "  in x, 1 from A;", "endinstance;"]
    wanted = chart(*rows).output.replace(b"diagram", b"diagram comment 'queues pair; single A'", 1)
    for before, some in ((begin + b"A", b", A"), (served, b", B")):
        yield filled(before, some, behind), ["import"], Answer(wanted, b"", 0)
    yield filled(served, b", B", behind), own, unread
    for some in (b",", b";", b"; A", b", "):
        text = filled(begin + b"A", some, behind)
        yield text, own, unread
        yield text, ["import"], chart(*rows)
    for some, told in ((b"A>", "1: {} is no link"), (b"A", "2: no instance {}")):
        text = filled(begin, some, behind)
        link = text[len(begin):-len(behind)].decode()
        yield text, own, fault(f"link fault {told.format(link)}")
    yield filled(HEAD + b"%%", b" ", b"queues mailbox" + behind), own, of_queues("mailbox")
    yield filled(HEAD + b"%% queues mailbox", b" ", behind), own, of_queues("mailbox")
    yield filled(HEAD, b"%% queues single\n", ARROW), own, of_queues("single")
    on_head = filled(HEAD[:-1], b" ", b"%% queues single\n" + ARROW)
    yield on_head, own, of_queues("single")
    for some in (b"%% queues are\n", b"%% queues\n", b"%% queue pair\n"):
        yield filled(HEAD, some, b"%% queues mailbox" + behind), own, of_queues("mailbox")
    for some in (b"p", b"pair ", b"%", b" "):
        yield filled(HEAD + b"%% queues x", some, behind), own, of_queues("pair")


def bytes_that_are_no_text():
    """Diagrams with bytes that are no UTF-8, which are letters of names."""
    lines = ["instance p;", "  out m, 1 to p_2;", "endinstance;",
             "instance p_2;", "  in m, 1 from p;", "endinstance;"]
    for left, right in ((b"\xff", b"\xfe"), (b"\x80", b"\xbf"), (b"\xe2\x80", b"\xe2"),
                        (b"\xc2", b"\xa0"), (b"\xef\xbb", b"\xed\xa0\x80"), (b"\xf0", b"\x00")):
        text = HEAD + left + b"->>" + right + b": \xff\xfe"
        yield text, ["import"], chart(*lines)
        yield text, CHECK, passes()


def stale(*lines):
    """The answer on a diagram without races whose marks in these lines accept none."""
    told = "".join(f"stale\nat -:{line}:1\n" for line in lines)
    return Answer(f"diagram diagram\nqueues pair\nscenarios 1\npass\naccepted 0\n{told}".encode(),
                  b"", 1)


def marks():
    """Diagrams with many marks, or long ones."""
    accept, mark, behind = [*CHECK, "--accept"], b"%% race ok: x\n", b"\n" + ARROW
    text = filled(HEAD + ARROW + b"\n", mark)
    yield text, accept, stale(*range(3, last_line(text)))
    yield filled(HEAD, mark, ARROW), accept, fault("accept fault 4 at 3: a second mark for one arrow")
    yield HEAD + (mark + ARROW + b"\n") * 1024, accept, stale(*range(2, 2050, 2))
    for some in (b" ", b"x", b"\xff", b"#", b"&", b":"):
        yield filled(HEAD + b"%% race ok: x", some, behind), accept, stale(2)
    for front, some in ((b"in pair", b", pair"), (b"with 1", b"; 1")):
        begin = HEAD + b"%% race ok " + front
        yield filled(begin, some, b": x" + behind), accept, stale(2)
        yield filled(begin, some, behind), accept, fault("accept fault 2 at 2: no reason")
    begin, some = HEAD + b"%% race ok with \"a", b"\"; \"a"
    yield filled(begin, some, b"\": x" + behind), accept, stale(2)
    unread = fault("accept fault 1 at 2: expected in, with or a reason")
    yield filled(begin, some, behind), accept, unread


def tried():
    """Texts, words and answers of all kinds."""
    kinds = texts_of_one_thing, long_lines, many_lines, choices, pages, comments, marks
    for kind in (*kinds, bytes_that_are_no_text):
        yield from kind()


def main():
    words = arguments(__doc__)
    words.add_argument("--seconds", type=int, default=10, metavar="S")
    words.add_argument("--bytes", type=int, default=2 ** 29, metavar="B")
    options, count = words.parse_args(), Count()

    def bounded():
        resource.setrlimit(resource.RLIMIT_CPU, (options.seconds, options.seconds))
        resource.setrlimit(resource.RLIMIT_AS, (options.bytes, options.bytes))

    for text, given, wanted in tried():
        got = run([options.program, *given, "-"], text, preexec_fn=bounded)
        count.compare(got, wanted, *given[:6], len(text), text[:60], text[-40:])
    return count.end()


if __name__ == "__main__":
    sys.exit(main())
