"""SQL statements of queries and changes read rows of `cell` and `subscription_cell` by index only.

They select by position, by entity or by subscription, never all rows: the cost of a call depends on what it finds,
not on what is stored. Only space_sql_load reads whole tables, in the module that opening a database and listing all
entities of a kind need. So does the upgrade of tables in the old order, and space_sql_check reads them in pieces. Code
that finds, reads single rows and changes them is in the other crates over tables, which must not call these."""
import re

from program import TOP

WHOLE_TABLES = (
    "crates/space_sql_load/src/tables.rt", "crates/space_sql_open/src/old_rows.rt",
    "crates/space_sql_check/src/source.rt", "crates/space_sql_check/src/ends.rt",
)
SOURCES = sorted(it for it in TOP.glob("crates/space_*/src/*.rt") if not str(it).endswith(WHOLE_TABLES))
# The crates that select rows, and whose calls never need all.
NARROW = ("space_sql_search", "space_sql_lookup", "space_sql_write")
# Functions that read whole tables.
READS_ALL = re.compile(r"\b(?:read_(?:airspace(?:_in)?|tables)|check_(?:airspace|in_pieces))\b")
LITERAL = re.compile(r'"((?:[^"\\]|\\.)*)"', re.DOTALL)
CELLS = r"(?:subscription_)?cell\b"
ON_CELLS = re.compile(rf"\b(?:(?:from|join)\s+(?:\w+\s*,\s*)*|update\s+){CELLS}", re.IGNORECASE)
# The first condition is on a column with an index. Later ones narrow it.
BY_INDEX = r"(?:cell\s+where\s+(?:entity|lo)|subscription_cell\s+where\s+(?:subscription|lo))\s+(?:=|between)\s+\?"
NARROWED = re.compile(rf"\bfrom\s+{BY_INDEX}", re.IGNORECASE)
WIDENED = re.compile(rf"\bor\b|\bunion\b|\bjoin\b|,\s*{CELLS}", re.IGNORECASE)
# The fewest statements on each table of cells: by both kinds of positions, and by what it belongs to, to read and to
# remove.
MIN = 4


def literals(source):
    """Returns the string literals of a source without comments, those over several lines joined."""
    code = re.sub(r"^\s*//.*$", "", source, flags=re.MULTILINE)
    return [re.sub(r"\\\n\s*", "", it) for it in LITERAL.findall(code)]


def unnarrowed(source):
    """Returns the statements of a source that select rows of a table of cells without an index."""
    return [it for it in literals(source) if ON_CELLS.search(it) and (not NARROWED.search(it) or WIDENED.search(it))]


# Sources that must be reported, and some that must not.
PLANTED = {
    '"SELECT entity FROM cell"': True,
    '"SELECT entity FROM cell WHERE hi >= ?1 AND lo <= ?2"': True,
    '"SELECT entity FROM cell WHERE lo = ?1 OR hi = ?2"': True,
    '"SELECT num FROM entity, cell WHERE entity = num"': True,
    '"SELECT entity, volume, place, token, lo, hi \\\n         FROM cell ORDER BY entity, volume, place"': True,
    '"DELETE FROM cell"': True,
    '"SELECT subscription FROM subscription_cell"': True,
    '"SELECT subscription FROM subscription_cell WHERE hi >= ?1 AND lo <= ?2"': True,
    '"SELECT subscription FROM subscription_cell WHERE place = ?1"': True,
    '"SELECT num FROM subscription, subscription_cell WHERE subscription = num"': True,
    '"SELECT id FROM subscription JOIN subscription_cell ON subscription = num WHERE id = ?1"': True,
    '"UPDATE subscription_cell SET place = ?1"': True,
    '"SELECT entity FROM cell WHERE lo = ?1 AND hi = ?2"': False,
    '"SELECT subscription FROM subscription_cell WHERE lo BETWEEN ?1 AND ?2"': False,
    '"SELECT subscription, place, token, lo, hi FROM subscription_cell \\\n         WHERE subscription = ?1 ORDER BY place"': False,
    '"DELETE FROM subscription_cell WHERE subscription = ?1"': False,
    '"INSERT INTO subscription_cell (subscription, place, token, lo, hi) VALUES (?1, ?2, ?3, ?4, ?5)"': False,
    '"CREATE INDEX subscription_cell_range ON subscription_cell (lo, hi)"': False,
    '// "SELECT entity FROM cell"': False,
    '"SELECT num FROM entity"': False,
}


def on_cells():
    """No statement of a query or change reads all rows of a table of cells. A planted one is found."""
    found, seen = [], {"cell": 0, "subscription_cell": 0}
    for file in SOURCES:
        name, source = str(file.relative_to(TOP)), file.read_text()
        found += [f"{name}: {it!r} selects all cells" for it in unnarrowed(source)]
        asked = [it for it in literals(source) if ON_CELLS.search(it)]
        for table in seen:
            seen[table] += sum(re.search(rf"(?<!_){table}\b", it) is not None for it in asked)
        if any(f"/{it}/" in name for it in NARROW) and READS_ALL.search(source):
            found.append(f"{name} reads whole tables")
    found += [f"{count} statements on {table} found, too few" for table, count in seen.items() if count < MIN]
    for text, is_wrong in PLANTED.items():
        planted = f"fn planted() {{\n    query(\n        tx,\n        {text},\n    )\n}}\n"
        found += [f"{text}: planted, and {'not ' * is_wrong}found"] if bool(unnarrowed(planted)) != is_wrong else []
    return found


CASES = {"statements-on-cells": on_cells}
