"""Architectures: the kind of each link, what rules say of it, and how it is printed.

A link is an ordered pair of instances, a sender and a receiver. A rule names a LINK and a kind:
`NAME` stands for all links to an instance, `NAME>NAME` for one of them. Instances are numbers here,
and the words of rules are bytes.
"""
from typing import NamedTuple

from models.source import Refused, file_shown, row_shown

KINDS = ("pair", "mailbox", "single")
BLANKS = b" \t\r\n"


class LinkFault(Refused):
    """The first fault of some rules. That of rules of a text has the place of their comment."""
    stage = "link"

    @property
    def tells_place(self):
        return self.number == 4


class Architecture(NamedTuple):
    """The usual kind, and those that rules give: of a link by both of its ends, and of all links to
    a receiver by None and the receiver."""
    usual: str
    kinds: dict = {}

    def kind(self, sender, receiver):
        """The kind of a link: a rule for the link itself comes before one for its receiver."""
        of_receiver = self.kinds.get((None, receiver), self.usual)
        return self.kinds.get((sender, receiver), of_receiver)

    def others(self, names):
        """The links whose kind is not the usual one, each with its kind; all links to an instance
        by its name if they have one kind."""
        found = []
        for receiver, name in enumerate(names):
            kinds = [self.kind(sender, receiver) for sender in range(len(names))]
            if len(set(kinds)) == 1:
                found.append((name, kinds[0]))
            else:
                found += ((f"{other}>{name}", kind) for other, kind in zip(names, kinds))
        return [(link, kind) for link, kind in found if kind != self.usual]

    def lines(self, names):
        """The lines on queues in the head of an answer."""
        return [f"queues {self.usual}", *(f"link {it} {kind}" for it, kind in self.others(names))]


def architecture(queues):
    """An architecture, or the one with this kind for each link."""
    return queues if isinstance(queues, Architecture) else Architecture(queues)


def written(usual, others):
    """An architecture in words, from the usual kind, and links with their kinds."""
    parts = [usual]
    for kind in KINDS:
        links = [link for link, other in others if other == kind]
        parts += [f"{kind} {', '.join(links)}"] if links else []
    return "; ".join(parts)


def names_of(link):
    """The names of a LINK, or none if it is no LINK."""
    names = [name.strip(BLANKS) for name in link.split(b">")]
    return names if len(names) <= 2 and all(names) else []


def kinds_of(rules, find, shown=row_shown):
    """The kinds that these rules give. `find` gives the number of an instance by its name, or None,
    and `shown` what is printed of bytes."""
    kinds = {}
    for kind, link in rules:
        link = link.strip(BLANKS)
        names = names_of(link)
        if not names:
            raise LinkFault(1, f"{shown(link)} is no link")
        ends = [find(name) for name in names]
        if None in ends:
            raise LinkFault(2, f"no instance {shown(names[ends.index(None)])}")
        if kinds.setdefault((None, *ends)[-2:], kind) != kind:
            raise LinkFault(3, f"{shown(link)} has two kinds")
    return kinds


class Given(NamedTuple):
    """What a command line says of queues: the value of `--queues`, and rules, each a kind and a
    LINK. A command for many files passes over the rules that name an instance that a text lacks."""
    queues: str
    rules: list = []
    passes_over: bool = False

    def words(self):
        """The words of the command line."""
        words = ["--queues", self.queues]
        for kind, link in self.rules:
            words += [f"--{kind}={link}"] if link.startswith("-") else [f"--{kind}", link]
        return words

    def kinds(self, find):
        """The kinds that the rules give; those for `pair` come first, whatever their order."""
        ordered = sorted(self.rules, key=lambda rule: KINDS.index(rule[0]))
        rules = [(kind, link.encode()) for kind, link in ordered]
        if self.passes_over:
            rules = [(kind, link) for kind, link in rules if None not in map(find, names_of(link))]
        return kinds_of(rules, find, lambda held: file_shown(held.decode()))


def parted(words):
    """What words say of queues, and the other ones; a second `--queues` is one of these."""
    queues, rules, others, words = None, [], [], iter(words)
    for word in words:
        if word == "--queues" and queues is None:
            queues = next(words)
        elif word in [f"--{kind}" for kind in KINDS]:
            rules.append((word[2:], next(words)))
        else:
            others.append(word)
    return Given(queues, rules), others


def add_queues(words, name, others=("own",), **more):
    """Puts the options on queues, of which `name` is the one of the usual kind. It takes the kinds
    and these others."""
    words.add_argument(name, choices=(*KINDS, *others), **more)
    for kind in KINDS:
        words.add_argument(f"--{kind}", action="append", default=[], metavar="LINK")


def given_of(options):
    """What these options say of queues."""
    rules = [(kind, it) for kind in KINDS for it in vars(options)[kind]]
    return Given(options.queues, rules, vars(options).get("passes_over", False))
