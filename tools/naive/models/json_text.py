"""JSON as `msc` writes it: without blanks, with the members of an object in their order, and with
few escapes in strings.
"""
import re

SHORT = {"\b": "\\b", "\t": "\\t", "\n": "\\n", "\f": "\\f", "\r": "\\r", '"': '\\"', "\\": "\\\\"}
ESCAPED = re.compile(r'[\x00-\x1f"\\]')


def escape(found):
    """What stands for a character in a string."""
    return SHORT.get(found[0]) or f"\\u{ord(found[0]):04x}"


def written(value):
    """A value as JSON: of strings, numbers, truth values, None, lists and dicts."""
    if isinstance(value, str):
        return '"' + ESCAPED.sub(escape, value) + '"'
    if isinstance(value, dict):
        return "{" + ",".join(f"{written(name)}:{written(it)}" for name, it in value.items()) + "}"
    if isinstance(value, (list, tuple)):
        return "[" + ",".join(map(written, value)) + "]"
    if value is None:
        return "null"
    return str(value).lower() if isinstance(value, bool) else str(value)


def decoded(held):
    """The text of bytes; U+FFFD stands for what is no UTF-8."""
    return held.decode("utf-8", "replace")
