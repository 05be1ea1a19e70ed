"""Which crate of the repository uses which, as a text of SVG, read from crates.txt.

Each layer has a column and a colour. A crate stands above those that it uses. A line is left out if another way leads
to the same crate, and so are crates for tests."""
import functools
import pathlib

TOP = pathlib.Path(__file__).resolve().parent.parent
CRATES = TOP / "crates.txt"
FOR_TESTS = "test_"
# The layers: of each how the names of its crates begin, the colour of their boxes and that of their lines. The first
# layer that fits counts.
LAYERS = {
    "program": (("dss", "server", "database_", "client_"), "#e4ecf7", "#3b6aa0"),
    "wire": (("wire_", "token_"), "#fdeedd", "#c1741c"),
    "service and policy": (("service_", "policy_"), "#e3f3e6", "#3a8a4d"),
    "entities and cells": (("entity_", "grid_"), "#efe6f6", "#7a4ba0"),
    "space in SQL": (("space_sql", "space_rows"), "#e0f2f4", "#23808c"),
    "space in memory": (("space_",), "#fbe6ea", "#b23a55"),
    "admin": (("admin_",), "#f3efd8", "#8f7f1d"),
    "pool": (("pool_",), "#e9ecf0", "#566273"),
}
COLUMNS = "pool", "program", "wire", "service and policy", "entities and cells", "space in memory", "space in SQL", "admin"
# a box, what lies between columns and between rows, the margin, and the line of titles
WIDE, HIGH, BETWEEN, BELOW, MARGIN, TITLE = 122, 26, 46, 20, 28, 30
# how often each crate is moved nearer its lines
TURNS = 8


def layer_of(crate):
    """The layer of a crate."""
    return next(name for name, (begins, _, _) in LAYERS.items() if crate.startswith(begins))


def uses():
    """Of each crate, those of the repository that it uses."""
    lines = [it.split(":") for it in CRATES.read_text().splitlines() if it and not it.startswith("#")]
    of = {name.split()[0]: used.split() for name, used in lines}
    return {name: [it for it in used if it in of] for name, used in of.items() if not name.startswith(FOR_TESTS)}


def lines_of(below):
    """The pairs of a crate and one that it uses, to which no other way leads."""

    @functools.cache
    def all_below(name):
        return set(below[name]).union(*map(all_below, below[name]))

    return [(it, low) for it in below for low in below[it] if not any(low in all_below(other) for other in below[it])]


def rows(below):
    """Returns the row of each crate, lowest first: above all that it uses, alone in its column, and near its lines."""

    @functools.cache
    def height(name):
        return 1 + max(map(height, below[name]), default=-1)

    row, top = {}, dict.fromkeys(COLUMNS, -1)
    for name in sorted(below, key=lambda it: (height(it), it)):
        layer = layer_of(name)
        row[name] = max([top[layer], *(row[it] for it in below[name])]) + 1
        top[layer] = row[name]
    near = {it: [pair[pair[0] == it] for pair in lines_of(below) if it in pair] for it in below}
    for name in sorted(below, key=lambda it: (-row[it], it)) * TURNS:
        least = max((row[it] for it in below[name]), default=-1) + 1
        most = min((row[it] for it in below if name in below[it]), default=row[name] + 1)
        taken = {row[it] for it in below if layer_of(it) == layer_of(name) and it != name}
        free = [it for it in range(least, most) if it not in taken]
        row[name] = min(free, key=lambda at: (sum(abs(at - row[it]) for it in near[name]), -at))
    return row


def path_of(above, low):
    """Returns the line from a box to a lower one, by their upper left corners. It passes beside boxes between them."""
    (x, y), (to_x, to_y) = above, low
    if x == to_x and to_y - y > HIGH + BELOW:
        side = x + WIDE
        bend = f"{side + min(14 + (to_y - y) / 14, BETWEEN - 4):.0f}"
        return f"M{side} {y + HIGH / 2:.0f}C{bend} {y + HIGH:.0f} {bend} {to_y:.0f} {side} {to_y + HIGH / 2:.0f}"
    begin, end, drop = x + WIDE / 2, to_x + WIDE / 2, min((to_y - y - HIGH) / 2, 60)
    return f"M{begin:.0f} {y + HIGH}C{begin:.0f} {y + HIGH + drop:.0f} {end:.0f} {to_y - drop:.0f} {end:.0f} {to_y}"


def picture():
    """The text of the picture."""
    below = uses()
    row = rows(below)
    wide = MARGIN * 2 + len(COLUMNS) * (WIDE + BETWEEN) - BETWEEN
    high = MARGIN * 2 + TITLE + (max(row.values()) + 1) * (HIGH + BELOW) - BELOW
    left = {name: MARGIN + at * (WIDE + BETWEEN) for at, name in enumerate(COLUMNS)}
    place = {it: (left[layer_of(it)], high - MARGIN - HIGH - row[it] * (HIGH + BELOW)) for it in below}
    lines = [
        f'<svg xmlns="http://www.w3.org/2000/svg" width="{wide}" height="{high}" '
        'font-family="sans-serif" font-size="12">',
        f'<rect width="{wide}" height="{high}" fill="white"/>',
    ]
    for name, x in left.items():
        style = f'text-anchor="middle" font-weight="bold" fill="{LAYERS[name][2]}"'
        lines += [f'<text x="{x + WIDE / 2:.0f}" y="{MARGIN + 12}" {style}>{name}</text>']
    for it, low in lines_of(below):
        style = f'fill="none" stroke="{LAYERS[layer_of(it)][2]}" stroke-opacity="0.55"'
        lines += [f'<path d="{path_of(place[it], place[low])}" {style}/>']
    for it, (x, y) in place.items():
        _, fill, line = LAYERS[layer_of(it)]
        lines += [f'<rect x="{x}" y="{y}" width="{WIDE}" height="{HIGH}" rx="4" fill="{fill}" stroke="{line}"/>']
        lines += [f'<text x="{x + WIDE / 2:.0f}" y="{y + HIGH / 2 + 4:.0f}" text-anchor="middle">{it}</text>']
    return "\n".join([*lines, "</svg>", ""])
