"""Characters as people see them: which are shown, how wide they are, and how names and labels of
diagrams are spoken.

A text is decoded as UTF-8. No byte of it can move a cursor or reorder a line: what is not shown
becomes `?`, or is dropped. Widths are those of single characters, as Unicode's East Asian Width
and the marks without a width have them; the few characters with a rule of their own are left out.
"""
import re
import unicodedata

from models.diagrams import TAG

# the most columns of a name, a label or the text of an action
MOST = 40
# characters that look like blanks and are none
UNSEEN = "\u115f\u1160\u3164\uffa0"
# characters that only join or part their neighbours
JOINERS = "\u200c\u200d"
NAMED = {"quot": '"', "amp": "&", "lt": "<", "gt": ">", "nbsp": "\xa0", "infin": "\u221e"}
ENTITY = re.compile(r"#(?:([0-9]{1,7})|(%s));" % "|".join(NAMED))
ESCAPE = re.compile(rb"\\[nlrt]")


def characters(held):
    """The characters of bytes; each byte that is part of none is a lone surrogate."""
    return held.decode("utf-8", "surrogateescape")


def size(char):
    """The bytes of a character."""
    return len(char.encode("utf-8", "surrogateescape"))


def is_shown(char):
    kind = unicodedata.category(char)
    return (kind[0] in "LMNPS" or kind == "Zs") and char not in UNSEEN


def shown(char):
    """What is shown of a character."""
    if char in JOINERS:
        return ""
    if char == "\t":
        return " "
    return char if is_shown(char) else "?"


def all_shown(text):
    return "".join(map(shown, text))


def text_shown(held):
    """What is shown of bytes."""
    return all_shown(characters(held))


def width(char):
    """The columns of a character that is shown."""
    has_none = unicodedata.category(char) in ("Mn", "Me")
    is_jamo = "\u1160" <= char <= "\u11ff" or "\ud7b0" <= char <= "\ud7ff"
    if has_none or is_jamo:
        return 0
    return 2 if unicodedata.east_asian_width(char) in ("W", "F") else 1


def columns(text):
    return sum(map(width, text))


def cut(text):
    """The text, cut if it has too many columns."""
    if columns(text) <= MOST:
        return text
    first, left = "", MOST
    for char in text:
        left -= width(char)
        if left < 0:
            break
        first += char
    return first.rstrip(" ") + "..."


def entity(found):
    """The character that stands for an entity, or the entity if there is none."""
    number, name = found.groups()
    if name:
        return NAMED[name]
    number = int(number)
    is_one = number <= 0x10ffff and not 0xd800 <= number <= 0xdfff
    return chr(number) if is_one else found[0]


def spoken(held):
    """A name or a label of a diagram as it is spoken, in its full length."""
    text = characters(ESCAPE.sub(b" ", re.sub(TAG, b" ", held)))
    return re.sub(" +", " ", all_shown(ENTITY.sub(entity, text))).strip(" ")


def spoken_name(held):
    """A shown name as it is spoken, without one pair of quotes around it."""
    text = spoken(held)
    inner = text[1:-1].strip(" ")
    is_quoted = len(text) > 2 and text[0] == text[-1] == '"'
    return inner if is_quoted and inner else text


def quoted(text):
    """A text between quotes, or apostrophes if it has a quote."""
    return f"'{text}'" if '"' in text else f'"{text}"'
