"""Random options of `msc check`."""
from models.races import KINDS


def some_options(pick):
    """Options by their names."""
    return {
        "closest": pick.random() < 0.5,
        "why": pick.random() < 0.5,
        "most": pick.choice([0, 1, 2, 2 ** 32 - 1]),
        "show": pick.choice([0, 1, 2 ** 32 - 1]),
        "allow": [pick.choice(KINDS) for _ in range(pick.choice([0, 0, 1, 2]))],
        "format": pick.choice(["text", "text", "text", "lines", "count"]),
        "quiet": pick.random() < 0.1,
        "words": pick.random() < 0.3,
        "short": pick.random() < 0.3,
        "accept": pick.random() < 0.4,
        "places": pick.random() < 0.5,
    }


def words_of(options):
    """The words of a command line that give these options."""
    words = []
    for name, given in options.items():
        if isinstance(given, bool):
            words += [f"--{name}"] * given
        else:
            for value in given if isinstance(given, list) else [given]:
                words += [f"--{name}", str(value)]
    return words
