"""Random texts of charts, and marks for their statements."""
import re

from models.chart import QUEUES, TOKEN


def action(pick):
    """An action whose text is of any bytes, most of them such as could be taken for something else;
    some have a comment."""
    some = "".join(
        pick.choice("';, /*\n\\~?" + chr(pick.randrange(256))) for _ in range(pick.randrange(8))
    )
    comment = pick.choice(["", "", " comment 'it''s; action'"])
    return "action '" + some.replace("'", "''") + f"'{comment};"


def events(pick, lines, messages, acting):
    """For each line its events, from a list in which each output comes before its input; such a
    share of them are actions."""
    drawn = [[] for _ in range(lines)]
    sent, number = [], 0
    while number < messages or sent:
        if pick.random() < acting:
            drawn[pick.randrange(lines)].append(action(pick))
        elif number < messages and (not sent or pick.random() < 0.6):
            sender, receiver = pick.randrange(lines), pick.randrange(lines)
            drawn[sender].append(f"out m{number} to i{receiver};")
            sent.append((receiver, f"in m{number} from i{sender};"))
            number += 1
        else:
            # mostly the message that went out first
            receiver, text = sent.pop(0 if pick.random() < 0.7 else pick.randrange(len(sent)))
            drawn[receiver].append(text)
    return drawn


def chart(pick, most, has_actions):
    """The text of a random chart, with up to 8 lines and so many messages, drawn as a list of
    events in which an output comes before its input; in some of them many events are in coregions,
    or are actions."""
    share, acting = pick.choice([0, 0, 0.1, 0.4]), pick.choice([0, 0.1, 0.3]) if has_actions else 0
    text = "msc t;"
    for name, line in enumerate(events(pick, pick.randint(1, 8), pick.randint(0, most), acting)):
        text += f"instance i{name};"
        while line:
            size = pick.randint(1, 4) if pick.random() < share else 0
            group = "".join(line[:max(size, 1)])
            text += f"concurrent;{group}endconcurrent;" if size else group
            del line[:max(size, 1)]
        text += "endinstance;"
    return text + "endmsc;"


def small_chart(pick, lines, messages):
    """A small chart: a list of events in which an output comes before its input, line by line, some
    in coregions, with actions and messages to oneself."""
    count = pick.randint(2, lines)
    sent, taken, drawn = 0, [], [[] for _ in range(count)]
    most = pick.randint(1, messages)
    while sent < most or taken:
        if sent < most and (not taken or pick.random() < 0.5):
            sender, receiver = pick.randrange(count), pick.randrange(count)
            drawn[sender].append(f"out m{sent} to p{receiver};")
            taken.append((sent, sender, receiver))
            sent += 1
        elif pick.random() < 0.1:
            drawn[pick.randrange(count)].append("action 'x';")
        else:
            number, sender, receiver = taken.pop(pick.randrange(len(taken)))
            drawn[receiver].append(f"in m{number} from p{sender};")
    text = "msc t;"
    for i, events in enumerate(drawn):
        text += f" instance p{i}; "
        while events:
            size = pick.choice([1, 1, 1, 1, 2, 3])
            part, events = events[:size], events[size:]
            # both ends of a message in one coregion are no chart: an event would precede itself
            own = [event for event in part if event.endswith(f" p{i};")]
            shared = size > 1 and len(own) < 2
            text += " ".join(["concurrent;", *part, "endconcurrent;"] if shared else part) + " "
        text += "endinstance;"
    return text + " endmsc;"


def crossed_chart(pick, lines, messages):
    """A small chart in which each line sends all its messages and then takes those that it gets, of
    each sender in their order; some are in coregions. Many rings are long under `mailbox`."""
    count = pick.randint(2, lines)
    sent, text = [[[] for _ in range(count)] for _ in range(count)], "msc t;"
    drawn = [[] for _ in range(count)]
    for number in range(pick.randint(2, messages)):
        sender, receiver = pick.randrange(count), pick.randrange(count)
        drawn[sender].append(f"out m{number} to p{receiver};")
        sent[receiver][sender].append(f"in m{number} from p{sender};")
    for i, (outputs, inputs) in enumerate(zip(drawn, sent)):
        taken = []
        while any(inputs):
            taken.append(pick.choice([it for it in inputs if it]).pop(0))
        text += f" instance p{i}; "
        for part in (outputs, taken):
            cut = pick.choice([0, 0, 0, pick.randint(0, len(part))])
            shared = ["concurrent;", *part[:cut], "endconcurrent;"] if cut > 1 else part[:cut]
            text += " ".join([*shared, *part[cut:]]) + " "
        text += "endinstance;"
    return text + " endmsc;"


def mark(pick, faulty):
    """A comment: a mark most of the time, and a faulty one now and then where some may be."""
    head = "race ok"
    if pick.random() < 0.4:
        head += " in " + ", ".join(pick.sample(QUEUES, pick.randint(1, 3)))
    if pick.random() < 0.6:
        names = ["action", *(f"m{number}" for number in range(6))]
        head += " with " + "; ".join(pick.choice(names) for _ in range(pick.randint(1, 4)))
    if faulty and pick.random() < 0.3:
        cut = pick.randrange(len(head) + 1)
        head = head[:cut] + pick.choice(["", " ", ",", ";", "x", ", 2", " with"]) + head[cut:]
    if faulty and pick.random() < 0.2:
        return head + pick.choice(["", ":", ": ", ":\t\n"])
    return head + pick.choice([": known", ":x", ": it''s: so", ":\xff"])


def marked(pick, text):
    """The chart with comments at some statements, and some numbers of messages."""
    faulty, share, word, out = pick.random() < 0.3, pick.choice([0.05, 0.2, 0.6]), "", []
    tokens = TOKEN.findall(text)
    for i, token in enumerate(tokens):
        if token.lower() in ("out", "in", "action", "instance", "concurrent"):
            word = token.lower()
        before = "".join(tokens[max(i - 3, 0):i]).lower()
        bare = token == ";" and not re.search(r"comment\s*'", before)
        if bare and word in ("out", "in", "action", "instance") and pick.random() < share:
            other = pick.choice(["race", "", "a race ok: x"])
            said = other if pick.random() < 0.1 else mark(pick, faulty)
            out.append(f" comment '{said}'")
        if token == ";":
            word = ""
        out.append(token)
    # the same number at both ends of a message
    return re.sub(r"\bm([135]) (from|to)\b", r"m\1, 2 \2", "".join(out))
