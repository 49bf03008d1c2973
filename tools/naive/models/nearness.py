"""The edit distance of two names, for hints at the nearest one."""


def distance(one, other):
    """How many bytes have to be put in, dropped or changed at least."""
    row = list(range(len(other) + 1))
    for n, byte in enumerate(one, 1):
        above, row = row, [n]
        for m, wanted in enumerate(other, 1):
            row.append(min(row[-1] + 1, above[m] + 1, above[m - 1] + (byte != wanted)))
    return row[-1]
