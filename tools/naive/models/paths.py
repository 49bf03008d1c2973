"""The files that a PATH of `msc scan` stands for, and what fails before a file is read."""
import os
from typing import NamedTuple

# the ends of the names of files that are taken in a folder
CHART, MERMAID, MARKDOWN = (".msc",), (".mmd", ".mermaid"), (".md", ".markdown")
# folders that are passed over by their names, and the levels of folders that are entered
PASSED_OVER, LEVELS = ("node_modules", "target"), 64
TOO_DEEP = f"scan fault 2: more than {LEVELS} levels of folders"
# the cause of a name that is not UTF-8; the words are not compared
NO_NAME = OSError(None, "stream did not contain valid UTF-8")


class Entry(NamedTuple):
    """A file, or a folder that fails: then `cause` is an OSError, or the line of a fault."""
    name: str
    cause: object = None


def is_utf_8(name):
    try:
        return bool(name.encode())
    except UnicodeEncodeError:
        return False


def name_below(folder, name):
    """The whole name of what a folder has under this name."""
    if folder in (".", "./"):
        return name
    return folder + name if folder.endswith("/") else f"{folder}/{name}"


def is_passed_over(entry, whole, skip):
    """What a folder has is left out; `whole` is its whole name, and `skip` has the names that the
    command line leaves out."""
    is_folder = entry.is_dir(follow_symlinks=False)
    is_hidden = entry.name.startswith(".")
    return is_hidden or is_folder and entry.name in PASSED_OVER or bool({entry.name, whole} & skip)


def is_taken(entry):
    """A file of a folder is read: by the end of its name, and also if it is a link to a file or to
    nothing. Folders, pipes and devices are not, nor links to them."""
    is_link = entry.is_symlink() and not os.path.exists(entry.path)
    return entry.name.endswith((*CHART, *MERMAID, *MARKDOWN)) and (is_link or entry.is_file())


def below(folder, skip, level=0):
    """What is below a folder, in no order; `level` is the number of folders above it."""
    try:
        with os.scandir(folder) as found:
            entries = list(found)
    except OSError as cause:
        yield Entry(folder, cause)
        return
    for entry in entries:
        if not is_utf_8(entry.name):
            yield Entry(folder, NO_NAME)
            continue
        whole = name_below(folder, entry.name)
        if is_passed_over(entry, whole, skip):
            continue
        if not entry.is_dir(follow_symlinks=False):
            yield from [Entry(whole)] if is_taken(entry) else []
        elif level == LEVELS:
            yield Entry(whole, TOO_DEEP)
        else:
            yield from below(whole, skip, level + 1)


def entries_of(path, skip):
    """What a PATH stands for, by the bytes of the whole names."""
    if path == "-" or not os.path.isdir(path):
        return [Entry(path)]
    return sorted(below(path, skip), key=lambda entry: entry.name.encode())
