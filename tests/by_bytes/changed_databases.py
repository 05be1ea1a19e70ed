"""Databases of both formats are changed by SQLite statements and then opened. A file that is rejected stays as it was."""
import itertools
import pathlib

import lengths
import seeds
import tables
from databases import NOT_A_DSS, ROWS, VERSION, Room

# One of so many choices of tables is tried.
STEP = lengths.of(8, 1)
# Statements for a filled database, run without checks and references, and the expected fault, or None if the file is
# accepted. SQLite itself reports rows that break a rule of their own table (a check, a reference): the file then holds
# no airspace. These statements concern tables that both formats have, and so run on both.
OF_BOTH = [
    ("DELETE FROM meta", NOT_A_DSS),
    ("UPDATE meta SET format = 7", VERSION),
    ("UPDATE meta SET format = 3", VERSION),
    ("UPDATE meta SET format = 0", VERSION),
    ("UPDATE meta SET serial = 7", NOT_A_DSS),
    ("UPDATE meta SET serial = -1", NOT_A_DSS),
    ("UPDATE meta SET serial = 9223372036854775807", None),
    ("UPDATE meta SET one = 2", NOT_A_DSS),
    ("INSERT INTO meta VALUES (2, 1, 8)", NOT_A_DSS),
    ("ALTER TABLE meta DROP COLUMN format", NOT_A_DSS),
    ("ALTER TABLE availability RENAME TO others", NOT_A_DSS),
    ("CREATE TABLE more (x)", None),
    # Another format is reported before missing tables, as long as meta exists.
    ("UPDATE meta SET format = 7; DROP TABLE cell", VERSION),
    ("UPDATE meta SET format = 7; ALTER TABLE volume RENAME COLUMN place TO number", VERSION),
    ("UPDATE meta SET format = 7; ALTER TABLE meta DROP COLUMN serial", NOT_A_DSS),
    ("DELETE FROM meta; DROP TABLE cell", NOT_A_DSS),
    # An unknown kind, a state that no intent has, an intent as a constraint.
    ("UPDATE entity SET kind = 2 WHERE num = 1", NOT_A_DSS),
    ("UPDATE entity SET state = 4 WHERE num = 1", NOT_A_DSS),
    ("UPDATE entity SET kind = 1 WHERE num = 1", NOT_A_DSS),
    ("UPDATE entity SET kind = 1, state = 4 WHERE num = 1", None),
    ("UPDATE entity SET state = 0 WHERE num = 3", NOT_A_DSS),
    # Versions are from 1 to 2,147,483,647.
    ("UPDATE entity SET version = 0 WHERE num = 1", NOT_A_DSS),
    ("UPDATE entity SET version = 2147483647 WHERE num = 1", None),
    ("UPDATE entity SET version = 2147483648 WHERE num = 1", NOT_A_DSS),
    # The serial of creation is from 1 to that of the last put, which is at most that of meta.
    ("UPDATE entity SET serial = 1 WHERE num = 1", None),
    ("UPDATE entity SET serial = 8 WHERE num = 1", None),
    ("UPDATE entity SET serial = 9 WHERE num = 1", NOT_A_DSS),
    ("UPDATE entity SET serial = 0 WHERE num = 1", NOT_A_DSS),
    ("UPDATE entity SET serial = -7 WHERE num = 1", NOT_A_DSS),
    ("UPDATE entity SET num = 4 WHERE num = 3", NOT_A_DSS),
    # Texts.
    ("UPDATE entity SET id = upper(id) WHERE num = 1", NOT_A_DSS),
    ("UPDATE entity SET id = 'a1' WHERE num = 1", NOT_A_DSS),
    ("UPDATE entity SET manager = 'uss a' WHERE num = 1", NOT_A_DSS),
    ("UPDATE entity SET ovn = '0123456789abcde' WHERE num = 1", NOT_A_DSS),
    ("UPDATE entity SET ovn = '0123456789abcde!' WHERE num = 1", None),
    ("UPDATE entity SET url = '' WHERE num = 1", NOT_A_DSS),
    ("UPDATE entity SET url = CAST(x'ff' AS TEXT) WHERE num = 1", NOT_A_DSS),
    ("UPDATE availability SET uss = 'uss b'", NOT_A_DSS),
    ("UPDATE availability SET version = '0123'", NOT_A_DSS),
    ("UPDATE availability SET state = 3", NOT_A_DSS),
    # Volumes: a gap, a missing entity, no volume at all.
    ("UPDATE volume SET place = 2 WHERE entity = 1 AND place = 1", NOT_A_DSS),
    ("UPDATE volume SET place = 1 WHERE entity = 3", NOT_A_DSS),
    ("UPDATE volume SET entity = 4 WHERE entity = 1 AND place = 1", NOT_A_DSS),
    ("DELETE FROM volume WHERE entity = 1 AND place = 1", NOT_A_DSS),
    ("DELETE FROM volume WHERE entity = 3", NOT_A_DSS),
    ("UPDATE volume SET place = 1 WHERE entity = 3; UPDATE cell SET volume = 1 WHERE entity = 3", NOT_A_DSS),
    ("DELETE FROM volume WHERE entity = 3; DELETE FROM cell WHERE entity = 3", NOT_A_DSS),
    ("DELETE FROM volume WHERE entity = 1 AND place = 1; DELETE FROM cell WHERE volume = 1", None),
    ("UPDATE entity SET num = 4 WHERE num = 3; UPDATE volume SET entity = 4 WHERE entity = 3;"
     " UPDATE cell SET entity = 4 WHERE entity = 3", NOT_A_DSS),
    ("DELETE FROM entity WHERE num = 3", NOT_A_DSS),
    # Values beyond a limit, and bounds in the wrong order.
    ("UPDATE volume SET alt_lower = -100001 WHERE entity = 1 AND place = 0", NOT_A_DSS),
    ("UPDATE volume SET alt_upper = 1000001 WHERE entity = 1 AND place = 1", NOT_A_DSS),
    ("UPDATE volume SET alt_lower = 1200, alt_upper = -100 WHERE entity = 1", NOT_A_DSS),
    ("UPDATE volume SET time_start = -1 WHERE entity = 1 AND place = 0", NOT_A_DSS),
    ("UPDATE volume SET time_end = 253402300800 WHERE entity = 1 AND place = 1", NOT_A_DSS),
    ("UPDATE volume SET time_start = 2000, time_end = 900 WHERE entity = 1 AND place = 0", NOT_A_DSS),
    # Cells: a gap, a missing volume, a missing entity, a volume without cells.
    ("UPDATE cell SET place = 2 WHERE entity = 1 AND volume = 0 AND place = 1", NOT_A_DSS),
    ("UPDATE cell SET volume = 2 WHERE entity = 1 AND volume = 1", NOT_A_DSS),
    ("UPDATE cell SET entity = 4 WHERE entity = 1 AND volume = 1", NOT_A_DSS),
    ("UPDATE cell SET volume = 0, place = 2 WHERE entity = 1 AND volume = 1", NOT_A_DSS),
    ("DELETE FROM cell WHERE volume = 1", NOT_A_DSS),
    ("DELETE FROM cell WHERE entity = 3", NOT_A_DSS),
    # A token in another spelling, of another cell, and an invalid one.
    ("UPDATE cell SET token = '89C25904' WHERE place = 0 AND volume = 0 AND entity = 1", NOT_A_DSS),
    ("UPDATE cell SET token = '89c259040' WHERE volume = 1", NOT_A_DSS),
    ("UPDATE cell SET token = '0' WHERE volume = 1", NOT_A_DSS),
    ("UPDATE cell SET token = '89c5' WHERE entity = 3", NOT_A_DSS),
    # A range that is not the cell's.
    ("UPDATE cell SET lo = 288901919 WHERE place = 1", NOT_A_DSS),
    ("UPDATE cell SET hi = 288901924 WHERE place = 1", NOT_A_DSS),
]

LATER_GONE = "DROP TABLE naming; DROP TABLE subscription_cell; DROP TABLE subscription"
# The cells of one subscription, as many as it may have.
MANY = (
    "WITH RECURSIVE more (place) AS (VALUES (1) UNION ALL SELECT place + 1 FROM more WHERE place < {})"
    " INSERT INTO subscription_cell SELECT 6, place, '89c2590c', 288901921, 288901921 FROM more"
)

# The same for tables that format 2 added.
OF_LATER = [
    # Each format with the tables of the other one.
    ("UPDATE meta SET format = 1", NOT_A_DSS),
    ("UPDATE meta SET format = 1; DROP TABLE naming", NOT_A_DSS),
    (LATER_GONE, NOT_A_DSS),
    (f"UPDATE meta SET format = 1; {LATER_GONE}", None),
    (f"UPDATE meta SET format = 7; {LATER_GONE}", VERSION),
    ("UPDATE meta SET format = 7; DROP TABLE naming", VERSION),
    # The serial of creation is from 1 to that of the last put. That one and the index are at most the serial of meta.
    ("UPDATE subscription SET serial = 8 WHERE num = 5", None),
    ("UPDATE subscription SET serial = 9 WHERE num = 5", NOT_A_DSS),
    ("UPDATE subscription SET serial = 5 WHERE num = 6", NOT_A_DSS),
    ("UPDATE subscription SET serial = 6 WHERE num = 6", None),
    ("UPDATE subscription SET serial = 0 WHERE num = 5", NOT_A_DSS),
    ("UPDATE subscription SET serial = -1 WHERE num = 5", NOT_A_DSS),
    ("UPDATE subscription SET notes = 0 WHERE num = 5", None),
    ("UPDATE subscription SET notes = 8 WHERE num = 5", None),
    ("UPDATE subscription SET notes = 9 WHERE num = 5", NOT_A_DSS),
    ("UPDATE subscription SET notes = -1 WHERE num = 5", NOT_A_DSS),
    ("UPDATE meta SET serial = 9223372036854775807; UPDATE subscription SET notes = 9223372036854775807", None),
    ("UPDATE subscription SET num = 4 WHERE num = 6; UPDATE subscription_cell SET subscription = 4 WHERE subscription = 6", None),
    ("UPDATE subscription SET num = 0 WHERE num = 6; UPDATE subscription_cell SET subscription = 0 WHERE subscription = 6",
     NOT_A_DSS),
    ("UPDATE subscription SET num = 4 WHERE num = 6", NOT_A_DSS),
    # Texts. A subscription's id may equal an entity's.
    ("UPDATE subscription SET id = upper(id) WHERE num = 5", NOT_A_DSS),
    ("UPDATE subscription SET id = 'd1' WHERE num = 5", NOT_A_DSS),
    ("UPDATE subscription SET id = (SELECT id FROM entity WHERE num = 1) WHERE num = 5", None),
    ("UPDATE subscription SET manager = 'uss b' WHERE num = 5", NOT_A_DSS),
    ("UPDATE subscription SET version = '0123456789abcde' WHERE num = 5", NOT_A_DSS),
    ("UPDATE subscription SET version = '0123456789abcde!' WHERE num = 5", None),
    ("UPDATE subscription SET url = '' WHERE num = 5", NOT_A_DSS),
    ("UPDATE subscription SET url = CAST(x'ff' AS TEXT) WHERE num = 5", NOT_A_DSS),
    # The kinds of entities that a subscription is for.
    ("UPDATE subscription SET for_intents = 0 WHERE num = 5", None),
    ("UPDATE subscription SET for_intents = 0 WHERE num = 6", NOT_A_DSS),
    ("UPDATE subscription SET for_intents = 2 WHERE num = 5", NOT_A_DSS),
    ("UPDATE subscription SET for_constraints = 2 WHERE num = 5", NOT_A_DSS),
    # Values beyond a limit, and bounds in the wrong order.
    ("UPDATE subscription SET alt_lower = -100000, alt_upper = 1000000 WHERE num = 5", None),
    ("UPDATE subscription SET alt_lower = -100001 WHERE num = 5", NOT_A_DSS),
    ("UPDATE subscription SET alt_upper = 1000001 WHERE num = 5", NOT_A_DSS),
    ("UPDATE subscription SET alt_lower = 701 WHERE num = 5", NOT_A_DSS),
    ("UPDATE subscription SET time_start = 0, time_end = 253402300799 WHERE num = 5", None),
    ("UPDATE subscription SET time_start = -1 WHERE num = 5", NOT_A_DSS),
    ("UPDATE subscription SET time_end = 253402300800 WHERE num = 5", NOT_A_DSS),
    ("UPDATE subscription SET time_end = 899 WHERE num = 5", NOT_A_DSS),
    # Cells: a gap, another subscription, a missing one, none at all, the maximum and one more.
    ("UPDATE subscription_cell SET place = 2 WHERE subscription = 5 AND place = 1", NOT_A_DSS),
    ("UPDATE subscription_cell SET place = 1 WHERE subscription = 6", NOT_A_DSS),
    ("UPDATE subscription_cell SET subscription = 6, place = 1 WHERE subscription = 5 AND place = 1", None),
    ("UPDATE subscription_cell SET subscription = 7 WHERE subscription = 6", NOT_A_DSS),
    ("DELETE FROM subscription_cell WHERE subscription = 5 AND place = 1", None),
    ("DELETE FROM subscription_cell WHERE subscription = 6", NOT_A_DSS),
    (MANY.format(511), None),
    (MANY.format(512), NOT_A_DSS),
    # A token in another spelling, of another cell, and an invalid one; a range that is not the cell's.
    ("UPDATE subscription_cell SET token = '89C2590c' WHERE subscription = 6", NOT_A_DSS),
    ("UPDATE subscription_cell SET token = '89c2590c0' WHERE subscription = 6", NOT_A_DSS),
    ("UPDATE subscription_cell SET token = '0' WHERE subscription = 6", NOT_A_DSS),
    ("UPDATE subscription_cell SET token = '89c25904' WHERE subscription = 6", NOT_A_DSS),
    ("UPDATE subscription_cell SET lo = 288901919 WHERE place = 1", NOT_A_DSS),
    ("UPDATE subscription_cell SET hi = 288901924 WHERE place = 1", NOT_A_DSS),
    # References: an intent without one, one to another USS's subscription, one to a missing subscription, one from a
    # constraint, one from nothing.
    ("DELETE FROM naming", None),
    ("UPDATE naming SET subscription = 6", None),
    ("INSERT INTO naming VALUES (1, 5)", None),
    ("UPDATE naming SET subscription = 7", NOT_A_DSS),
    ("INSERT INTO naming VALUES (3, 5)", NOT_A_DSS),
    ("UPDATE entity SET kind = 1, state = 4 WHERE num = 8", NOT_A_DSS),
    ("UPDATE naming SET entity = 7", NOT_A_DSS),
    # A subscription is removed alone, with its cells, and with its references.
    ("DELETE FROM subscription WHERE num = 6", NOT_A_DSS),
    ("DELETE FROM subscription WHERE num = 6; DELETE FROM subscription_cell WHERE subscription = 6", None),
    ("DELETE FROM subscription WHERE num = 5; DELETE FROM subscription_cell WHERE subscription = 5", NOT_A_DSS),
    ("DELETE FROM naming; DELETE FROM subscription WHERE num = 5; DELETE FROM subscription_cell WHERE subscription = 5", None),
]


class Filled(Room):
    """A room whose database has the rows of a filled one, in a given format, made by other statements if they are
    given."""

    def __init__(self, number, text=None):
        self.number, self.text = number, text

    def __enter__(self):
        super().__enter__()
        names = tables.tables_of(tables.FORMATS[self.number])
        rows = {it: ROWS[it] for it in names} | {"meta": [(1, self.number, 8)]}
        tables.make(self.database, self.number, rows, self.text)
        self.saved = self.database.read_bytes()
        return self

    def again(self):
        """Restores the original file, without the files beside it."""
        for file in pathlib.Path(self.folder.name).glob("dss.db*"):
            file.unlink()
        self.database.write_bytes(self.saved)

    def opened_after(self, statements, fault):
        """Returns what is wrong if the database is opened after SQLite statements. Without a fault it must be accepted."""
        self.again()
        with tables.unguarded(self.database) as database:
            for statement in statements:
                database.execute(statement)
        before = self.database.read_bytes()
        got = self.command("report")
        is_right = got[0] == 0 and self.readable() if fault is None else got == (1, b"", fault) and self.database.read_bytes() == before
        return [] if is_right else [f"format {self.number}, {'; '.join(statements)}: wanted {fault!r}, got {got!r}"]


def done_to_it():
    """Each changed database gives the expected fault and stays as it was, also in the old order. If no fault is expected,
    it can be read."""
    found = []
    for number, order, done in (1, None, OF_BOTH), (2, None, OF_BOTH + OF_LATER), (2, tables.OLD_ORDER, OF_BOTH + OF_LATER):
        with Filled(number, order) as room:
            for text, fault in done:
                found += room.opened_after(text.split("; "), fault)
    return found


def some_of(name, names):
    """Yields choices of some but not all tables. The short form yields those of one and of all but one, and of the others
    one of so many, with new ones in each run."""
    (first,) = seeds.new(name, 1)
    for count in range(1, len(names)):
        for number, some in enumerate(itertools.combinations(names, count), first):
            if count in (1, len(names) - 1) or number % STEP == 0:
                yield some


def lacking_tables():
    """A database with some but not all tables of its format is rejected, whichever they are. So is one of format 1 with
    some or all of the later tables. A file without any of them becomes a new database."""
    found = []
    for number in (1, 2):
        names = tables.tables_of(tables.FORMATS[number])
        with Filled(number) as room:
            found += room.opened_after([], None)
            for gone in some_of(f"format {number}", names):
                found += room.opened_after([f"DROP TABLE {it}" for it in gone], NOT_A_DSS)
            room.again()
            with tables.unguarded(room.database) as database:
                for name in names:
                    database.execute(f"DROP TABLE {name}")
            got = room.command("report")
            found += [f"format {number}, without all: {got!r}"] if got != (0, b"serial 0\n", b"") else []
            made = tables.rows_in(room.database)
            found += [] if made == dict.fromkeys(sorted(tables.TABLES), []) | {"meta": [(1, 2, 0)]} else [f"a new database has {made}"]
    with Filled(1) as room:
        made = [tables.named(tables.LATER)[it] for it in tables.LATER_TABLES]
        for count in range(1, len(made) + 1):
            for more in itertools.combinations(made, count):
                found += room.opened_after(more, NOT_A_DSS)
    return found


def lacking_columns():
    """A database with a column of another name is rejected."""
    found = []
    for number in (1, 2):
        with Filled(number) as room:
            for table, column in tables.columns_in(room.database):
                found += room.opened_after([f"ALTER TABLE {table} RENAME COLUMN {column} TO another"], NOT_A_DSS)
    return found


CASES = {
    "databases-that-were-changed": done_to_it,
    "databases-that-lack-tables": lacking_tables,
    "databases-that-lack-columns": lacking_columns,
}
