"""Random texts with mistakes as people make them: a lost semicolon, a mistyped name, a message that
is there twice, a reserved word for a name, bytes that begin no token, a deadlock. They are laid out
as people lay them out, too: with blanks, tabs, notes and comments, letters beyond ASCII in these,
and line ends of all kinds.
"""
from generators.charts import chart
from models.reading import SUPPORTED, UNSUPPORTED, tokens

LINES = [b"caller", b"network", b"callee", b"Gate_1", b"gate_1", b"a", b"b", b"server", b"servers"]
WORDS = [b"SETUP", b"CONNECT", b"CONNECT_ACK", b"ack", b"Ack", b"data", b"data2", b"m", b"n"]
RESERVED = [word.encode() for word in (*SUPPORTED, *UNSUPPORTED)]
SPACE = [b" ", b" ", b" ", b"  ", b"\t", b"\n", b"\r\n", b" /* it's; in */ ", b"/* \xc3\xa9\n */"]
COMMENTS = [b" comment 'in; out'", b" comment 'it''s \xe2\x82\xac\r\n'", b" COMMENT ''"]
BYTES = [b"\xef\xbb\xbf", b"/", b"//", b'"', b"-", b".", b"\x00", b"\x07", b"\x7f", b"\xc3\xa9"]
BYTES += [b"\xff", b"\xe2\x82\xac", b"'", b"/*", b"*/", b";", b",", b"(", b":", b"\t", b"\r", b"\n"]


def swapped_case(pick, name):
    return name.upper() if pick.random() < 0.5 else name.lower()


def typo(pick, name):
    """A name that is mistyped in one place."""
    at, letter = pick.randrange(len(name)), bytes([pick.choice(b"abcNXyz_019")])
    return pick.choice([
        name[:at] + name[at + 1:] or letter,
        name[:at] + letter + name[at:],
        name[:at] + letter + name[at + 1:],
        swapped_case(pick, name),
    ])


def statements(text):
    """The statements of a text, each as the bytes of its tokens, its `;` the last."""
    statement = []
    for token in tokens(text):
        statement.append(token.bytes)
        if token.kind == ";":
            yield statement
            statement = []


def drawn(pick):
    """The statements of a random chart, with names as charts have them."""
    text = chart(pick, pick.choice([2, 4, 8]), True).encode("latin-1")
    names = {b"i%d" % n: [line] for n, line in enumerate(pick.sample(LINES, 8))}
    words, messages = pick.sample(WORDS, pick.choice([2, len(WORDS)])), set()
    for n in range(8):
        name = pick.choice(words)
        number = [] if name not in messages else [b",", b"%d" % pick.randrange(2, 12)]
        messages.add(name)
        names[b"m%d" % n] = [name, *number]
    runs = []
    for run in statements(text):
        runs.append([name for word in run for name in names.get(word, [word])])
    if pick.random() < 0.6:
        header = [run[1] for run in runs if run[0] == b"instance"]
        pick.shuffle(header)
        listed = [word for name in header for word in (b",", name)][1:]
        if listed:
            runs.insert(1, [b"inst", *listed, b";"])
    return runs


def names_of(runs):
    """The places of all names: which statement, and which word of it."""
    return [
        (n, at)
        for n, run in enumerate(runs)
        for at, word in enumerate(run)
        if word[:1].isalnum() and word.lower() not in RESERVED
    ]


def events_of(runs):
    """The statements of events."""
    return [n for n, run in enumerate(runs) if run and run[0] in (b"in", b"out", b"action")]


def mistyped_name(pick, runs):
    for n, at in pick.sample(names_of(runs), 1):
        runs[n][at] = typo(pick, runs[n][at])


def other_name(pick, runs):
    """A name in the place of another one."""
    found = names_of(runs)
    (n, at), (m, other) = pick.choice(found), pick.choice(found)
    runs[n][at] = runs[m][other]


def repeated_event(pick, runs):
    for at in events_of(runs)[:pick.randint(1, 9)][-1:]:
        runs.insert(at, list(runs[at]))


def lost_event(pick, runs):
    for at in events_of(runs)[:pick.randint(1, 9)][-1:]:
        runs.pop(at)


def swapped_events(pick, runs):
    """Two events in the place of each other, which may be a deadlock."""
    events = events_of(runs)
    if len(events) > 1:
        n = pick.randrange(len(events) - 1)
        one, other = events[n], pick.choice([events[n + 1], pick.choice(events)])
        runs[one], runs[other] = runs[other], runs[one]


def header_name(pick, runs):
    runs.insert(1, [b"inst", typo(pick, pick.choice(LINES)), b";"])


def many_sections(pick, runs):
    for n in range(pick.choice([1, 2, 25, 33])):
        runs[-1:-1] = [[b"instance", b"x%d" % (n % 32), b";"], [b"endinstance", b";"]]


def repeated_section(pick, runs):
    """A section with the name of another one."""
    begins = [n for n, run in enumerate(runs) if run and run[0] == b"instance"]
    if begins:
        runs[pick.choice(begins)][1] = runs[pick.choice(begins)][1]


def many_events(pick, runs):
    """One event so often, as one message or as many."""
    begins = [n for n, run in enumerate(runs) if run and run[0] == b"instance"]
    if begins:
        way = pick.choice([[b"out", b"m", b"to"], [b"in", b"m", b"from"], [b"action", b"'m'"]])
        to = [pick.choice(LINES)] if way[0] != b"action" else []
        numbers, section = pick.random() < 0.5, pick.choice(begins)
        for n in range(pick.choice([3, 22, 30])):
            number = [b",", b"%d" % n] if numbers and to else []
            runs.insert(section + 1, [*way[:2], *number, *way[2:], *to, b";"])


def lost_semicolon(pick, runs):
    run = pick.choice(runs)
    if run[-1:] == [b";"]:
        run.pop()


def lost_statement(pick, runs):
    runs.pop(pick.randrange(len(runs)))


def repeated_statement(pick, runs):
    at = pick.randrange(len(runs))
    runs.insert(pick.choice([at, pick.randrange(len(runs) + 1)]), list(runs[at]))


def reserved_word(pick, runs):
    word = pick.choice(RESERVED)
    for n, at in pick.sample(names_of(runs), 1):
        runs[n][at] = pick.choice([word, word.upper(), word.capitalize()])


def long_name(pick, runs):
    for n, at in pick.sample(names_of(runs), 1):
        runs[n][at] = b"n" * pick.choice([64, 65, 66, 300])


def lost_token(pick, runs):
    run = pick.choice(runs)
    if run:
        run.pop(pick.randrange(len(run)))


def added_token(pick, runs):
    run = pick.choice(runs)
    token = pick.choice([b";", b",", b"(", b")", b":", b"'x'", b"a", b"in", b"2", b"RESET"])
    run.insert(pick.randrange(len(run) + 1), token)


# mistakes that leave a draft, and others
OF_CHARTS = [
    mistyped_name, mistyped_name, other_name, repeated_event, lost_event, lost_event,
    swapped_events, swapped_events, swapped_events, header_name, many_sections, repeated_section,
    many_events,
]
OF_TEXTS = [
    lost_semicolon, lost_statement, repeated_statement, reserved_word, long_name, lost_token,
    added_token,
]


def laid_out(pick, runs):
    """A text of these statements."""
    lines_end = pick.choice([b"\n", b"\n", b"\r\n", b" ", b"\r"])
    odd, text = pick.choice([0, 0, 0.05, 0.3]), b""
    for run in runs:
        text += pick.choice([b"", b"  ", b"\t"])
        for n, word in enumerate(run):
            comment = word == b";" and pick.random() < odd / 2
            text += pick.choice(COMMENTS) if comment else b""
            close = word in (b";", b",", b"(", b")", b":") and pick.random() < 0.9
            between = b"" if n == 0 or close else b" "
            text += (pick.choice(SPACE) if pick.random() < odd else between) + word
        text += lines_end
    return text if pick.random() < 0.7 else text.rstrip()


def mistaken_bytes(pick, text):
    """A text with a byte that begins no token somewhere, or one that is cut off."""
    at = pick.randrange(len(text) + 1)
    return pick.choice([
        text[:at],
        text[:at] + pick.choice(BYTES) + text[at:],
        text[:at] + text[at + 1:],
        pick.choice(BYTES) + text,
        text + pick.choice(BYTES),
        b" " * pick.choice([50, 99, 120]) + text,
    ])


def mistaken(pick):
    """A random text with up to five mistakes."""
    runs = drawn(pick)
    for _ in range(pick.choice([0, 1, 1, 2, 2, 3, 5])):
        pick.choice(OF_CHARTS)(pick, runs)
    if pick.random() < 0.2:
        pick.choice(OF_TEXTS)(pick, runs)
    text = laid_out(pick, runs)
    return mistaken_bytes(pick, text) if pick.random() < 0.15 else text
