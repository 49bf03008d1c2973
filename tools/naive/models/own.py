"""The queues that a text itself names, for `--queues own`: QUEUES in the comment after a chart's
name, or in a comment of a diagram.

QUEUES is `queues KIND`, and any number of `; KIND LINK, LINK..`. Rules of the command line win over
those of the text for the same LINK. In a diagram `; serves NAME, NAME..` may stand there too: the
chart of the diagram leaves it out, and a check refuses it, as in a chart.
"""
import re
from typing import NamedTuple

from models.links import BLANKS, KINDS, Architecture, LinkFault, kinds_of, written
from models.nearness import distance
from models.reading import Draft, tokens

# the most changes that make a kind of a word, if it is a slip, and the most bytes of such a word
SLIP, LONGEST = 2, 9
BEGIN = re.compile(rb"queues [ \t\r\n]*([^ \t\r\n;]{1,%d})[ \t\r\n]*(?:;|\Z)" % LONGEST)
PART = re.compile(rb"([^ \t\r\n]+)[ \t\r\n]+(.+)", re.DOTALL)


class Comment(NamedTuple):
    """The text of a comment that names queues, and its place."""
    held: bytes
    at: int

    def fault(self):
        return LinkFault(4, "queues expected", self.at)

    def usual(self):
        """The usual kind."""
        word = BEGIN.match(self.held)[1].decode("latin-1")
        if word not in KINDS:
            raise self.fault()
        return word

    def rules(self, may_serve):
        """The rules, each a kind and a LINK; neither the LINK nor its names are looked at."""
        rules = []
        for part in self.held.split(b";")[1:]:
            found = PART.fullmatch(part.strip(BLANKS))
            word = found and found[1].decode("latin-1")
            links = found[2].split(b",") if found else [b""]
            is_known = word in KINDS or word == "serves" and may_serve
            if not is_known or not all(link.strip(BLANKS) for link in links):
                raise self.fault()
            rules += [(word, link) for link in links] if word in KINDS else []
        return rules

    def kinds(self, find, may_serve=False):
        """The kinds that the rules give; servers are refused unless they may be named."""
        rules = self.rules(may_serve)
        try:
            return kinds_of(rules, find)
        except LinkFault as fault:
            fault.at = self.at
            raise


def naming(held, at):
    """The comment with this text, if it names queues: a kind, or what is a slip of one."""
    held = held.strip(BLANKS)
    found = BEGIN.match(held)
    is_near = found and min(distance(found[1], kind.encode()) for kind in KINDS) <= SLIP
    return Comment(held, at) if is_near else None


def in_chart(text):
    """The comment of a chart that names its queues, or None."""
    found = tokens(text)[2:4]
    if found[0].kind != "comment":
        return None
    return naming(found[1].bytes[1:-1], found[1].at)


def in_diagram(diagram):
    """The first comment of a diagram that names its queues, or None."""
    found = (naming(held, at) for held, at in diagram.comments)
    return next((it for it in found if it), None)


def resolved(given, comment, find):
    """The architecture that a command line gives to a text with this comment."""
    if given.queues != "own":
        return Architecture(given.queues, given.kinds(find))
    if comment is None:
        return Architecture("pair", given.kinds(find))
    return Architecture(comment.usual(), {**comment.kinds(find), **given.kinds(find)})


def of_chart(text, given):
    """The architecture that a command line gives to a chart."""
    names = Draft(text).instances()
    find = lambda name: names.index(name) if name in names else None
    return resolved(given, in_chart(text) if given.queues == "own" else None, find)


def of_diagram(diagram, given):
    """The architecture that a command line gives to a diagram."""
    return resolved(given, in_diagram(diagram), diagram.names.find)


def imported(diagram):
    """What stands after the name of a chart of a diagram: the comment with its queues, if it has
    them and they have no fault."""
    comment, names = in_diagram(diagram), [name.decode() for name in diagram.names.names]
    if comment is None:
        return ""
    try:
        usual, kinds = comment.usual(), comment.kinds(diagram.names.find, True)
    except LinkFault:
        return ""
    links = [(">".join(names[end] for end in ends if end is not None), kind)
             for ends, kind in kinds.items()]
    return f" comment 'queues {written(usual, links)}'"
