"""The tables of a database in both formats, as in docs/DATABASE.md, and SQLite files with them."""
import contextlib
import re
import sqlite3

# The tables of format 1, those that format 2 added, and the index of a later version of format 2, in the order in which
# versions before 0.7.0 made them: each index follows its table.
FIRST = """
CREATE TABLE meta (one INTEGER PRIMARY KEY NOT NULL CHECK (one = 1), format INTEGER NOT NULL,
  serial INTEGER NOT NULL CHECK (serial >= 0)) STRICT;
CREATE TABLE entity (num INTEGER PRIMARY KEY NOT NULL, kind INTEGER NOT NULL CHECK (kind IN (0, 1)),
  id TEXT NOT NULL, manager TEXT NOT NULL, state INTEGER NOT NULL CHECK (state BETWEEN 0 AND 4),
  version INTEGER NOT NULL CHECK (version BETWEEN 1 AND 2147483647),
  serial INTEGER NOT NULL CHECK (serial >= 0), ovn TEXT NOT NULL, url TEXT NOT NULL, UNIQUE (kind, id)) STRICT;
CREATE TABLE volume (entity INTEGER NOT NULL REFERENCES entity (num) ON DELETE CASCADE, place INTEGER NOT NULL,
  alt_lower INTEGER NOT NULL, alt_upper INTEGER NOT NULL, time_start INTEGER NOT NULL, time_end INTEGER NOT NULL,
  PRIMARY KEY (entity, place), CHECK (alt_lower <= alt_upper), CHECK (time_start <= time_end)) STRICT;
CREATE TABLE cell (entity INTEGER NOT NULL, volume INTEGER NOT NULL, place INTEGER NOT NULL, token TEXT NOT NULL,
  lo INTEGER NOT NULL, hi INTEGER NOT NULL, PRIMARY KEY (entity, volume, place),
  FOREIGN KEY (entity, volume) REFERENCES volume (entity, place) ON DELETE CASCADE, CHECK (lo <= hi)) STRICT;
CREATE INDEX cell_range ON cell (lo, hi);
CREATE TABLE availability (uss TEXT NOT NULL PRIMARY KEY,
  state INTEGER NOT NULL CHECK (state BETWEEN 0 AND 2), version TEXT NOT NULL) STRICT;
"""
LATER = """
CREATE TABLE subscription (num INTEGER PRIMARY KEY NOT NULL, id TEXT NOT NULL UNIQUE, manager TEXT NOT NULL,
  serial INTEGER NOT NULL CHECK (serial >= 0), version TEXT NOT NULL, notes INTEGER NOT NULL CHECK (notes >= 0),
  url TEXT NOT NULL, for_intents INTEGER NOT NULL CHECK (for_intents IN (0, 1)),
  for_constraints INTEGER NOT NULL CHECK (for_constraints IN (0, 1)),
  alt_lower INTEGER NOT NULL, alt_upper INTEGER NOT NULL, time_start INTEGER NOT NULL, time_end INTEGER NOT NULL,
  CHECK (for_intents = 1 OR for_constraints = 1), CHECK (alt_lower <= alt_upper),
  CHECK (time_start <= time_end)) STRICT;
CREATE TABLE subscription_cell (
  subscription INTEGER NOT NULL REFERENCES subscription (num) ON DELETE CASCADE, place INTEGER NOT NULL,
  token TEXT NOT NULL, lo INTEGER NOT NULL, hi INTEGER NOT NULL, PRIMARY KEY (subscription, place),
  CHECK (lo <= hi)) STRICT;
CREATE INDEX subscription_cell_range ON subscription_cell (lo, hi);
CREATE TABLE naming (entity INTEGER PRIMARY KEY NOT NULL REFERENCES entity (num) ON DELETE CASCADE,
  subscription INTEGER NOT NULL REFERENCES subscription (num) ON DELETE RESTRICT) STRICT;
"""
INDEX = "CREATE INDEX naming_subscription ON naming (subscription);"


def statements(text):
    return [it.strip() for it in text.split(";") if it.strip()]


def named(text):
    """Returns the statements that make tables and indexes, by the names of these."""
    return {re.match(r"CREATE \w+ (\w+)", it)[1]: it for it in statements(text)}


def tables_of(text):
    return [name for name, it in named(text).items() if it.startswith("CREATE TABLE")]


def indexes_last(text):
    """Returns the same statements, those that make indexes last. `VACUUM` leaves this order."""
    return "".join(f"{it};\n" for it in sorted(statements(text), key=lambda it: it.startswith("CREATE INDEX")))


FIRST_TABLES, LATER_TABLES = tables_of(FIRST), tables_of(LATER)
TABLES = FIRST_TABLES + LATER_TABLES
# Format 2 as versions before 0.7.0 made it, and as they made it of format 1 after `VACUUM`; and both formats as they are
# made.
OLD_ORDER = FIRST + LATER + INDEX
MIXED_ORDER = indexes_last(FIRST) + LATER + INDEX
FORMATS = {1: FIRST, 2: indexes_last(OLD_ORDER)}


@contextlib.contextmanager
def opened(file):
    """Opens a connection of SQLite itself. Its changes are committed and it is closed at the end."""
    database = sqlite3.connect(file)
    try:
        with database:
            yield database
    finally:
        database.close()


@contextlib.contextmanager
def unguarded(file):
    """Opens the same, with the checks and references of the tables off."""
    with opened(file) as database:
        database.execute("PRAGMA foreign_keys = OFF")
        database.execute("PRAGMA ignore_check_constraints = ON")
        database.execute("PRAGMA legacy_alter_table = ON")
        yield database


def make(file, number, rows=None, text=None):
    """Makes a file with the tables of a format, and with rows by table in addition to that of meta; with a log, as the
    program makes it, or from other statements."""
    with opened(file) as database:
        database.execute("PRAGMA journal_mode = WAL")
        for statement in statements(text or FORMATS[number]):
            database.execute(statement)
        for table, all_ in ({"meta": [(1, number, 0)]} | (rows or {})).items():
            for row in all_:
                database.execute(f"INSERT INTO {table} VALUES ({', '.join('?' * len(row))})", row)


def without_index(file):
    """Makes of a file with the tables of format 2 one that an earlier version made, without the index on `naming`."""
    with opened(file) as database:
        database.execute("DROP INDEX naming_subscription")


def has_index(file):
    return "naming_subscription" in schema_in(file)


def rows_in(file):
    """Returns the rows of each table, by its name, sorted."""
    with opened(file) as database:
        names = [it for (it,) in database.execute("SELECT name FROM sqlite_schema WHERE type = 'table' ORDER BY name")]
        return {it: sorted(database.execute(f"SELECT * FROM {it}").fetchall()) for it in names}


def columns_in(file):
    """Returns the columns of the tables, each with its table."""
    with opened(file) as database:
        return [(table, it) for table in TABLES for (it,) in database.execute(f"SELECT name FROM pragma_table_info('{table}')")]


def schema_in(file):
    """Returns SQLite's statements for tables and indexes, without blanks, by the names."""
    with opened(file) as database:
        return {name: "".join(text.split()) for name, text in database.execute("SELECT name, sql FROM sqlite_schema WHERE sql NOT NULL")}


def order_in(file):
    """Returns the names of tables and indexes, those of keys too, with their rowids, on which their order depends."""
    with opened(file) as database:
        return database.execute("SELECT rowid, name FROM sqlite_schema ORDER BY rowid").fetchall()


def wrong_in(file):
    """Returns what SQLite finds wrong with a file."""
    with opened(file) as database:
        found = [it for statement in ("integrity_check", "foreign_key_check") for it in database.execute(f"PRAGMA {statement}")]
    return [] if found == [("ok",)] else [f"SQLite: {found}"]
