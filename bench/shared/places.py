"""Cells of the first face, by their numbers."""

# A wide cell has level 6 and holds so many of level 13. New intents are in these, one after the other, and in each at
# another altitude, so that none meets one before it.
NARROW = 4 ** (13 - 6)


def cell(place):
    """Returns the token of the cell of that number of level 13."""
    return f"{place << 35 | 1 << 34:016x}".rstrip("0")


def wide_cell(number):
    """Returns the token of the cell of that number of level 6."""
    return f"{number << 49 | 1 << 48:016x}".rstrip("0")
