"""A machine stops at each change of the database's files.

Whatever the disk may have persisted, the next start finds the airspace before or after the change, and the one after
it if the change was acknowledged. If an old database is opened, of format 1 or without the index of format 2, its
tables are found as they were, or in format 2 with the index."""
import pathlib
import shutil

import lengths
import seeds
import tables
import wire
from changed_databases import Filled
from databases import CONSTRAINT, INTENT, NAMED, NAMING, NOW, SUBSCRIPTION, Room, ask, filled, sub_put, vacuumed, volume
from devices import library
from old_databases import HELD, MOVED, moved_wrong, unpacked
from program import run

STOPPED = 99
KEPT = ("all", "synced", "half")
# One of so many stops is tried, with new ones in each run.
STEP = lengths.of(9, 1)
# Changes that are also tried over a database that SQLite's `VACUUM` made.
AFTER_VACUUM = "a creation that names and notifies", "a deletion of a subscription"
# Ids that nothing has yet.
OTHER, ANOTHER = (f"00000000-0000-4000-8000-0000000000{end}" for end in ("b2", "d3"))

# Requests on the recovered airspace that show any difference.
SEEN = [
    ask("GET", f"{wire.INTENTS}/{INTENT}", "tok-a"),
    *(ask("GET", f"{wire.INTENTS}/{it}", "tok-b") for it in (NAMING, OTHER)),
    ask("GET", f"{wire.CONSTRAINTS}/{CONSTRAINT}", "tok-c"),
    ask("POST", f"{wire.INTENTS}/query", "tok-a", {"area_of_interest": {"cells": ["89c3"]}}),
    ask("POST", f"{wire.INTENTS}/query", "tok-a", {"area_of_interest": {"cells": ["89c25904"], "altitude_upper": -101}}),
    ask("POST", f"{wire.CONSTRAINTS}/query", "tok-c", {"area_of_interest": {"cells": ["89c3"]}}),
    *(ask("GET", f"{wire.AVAILABILITY}/{it}", "tok-a") for it in ("uss-a", "uss-b")),
    *(ask("GET", f"{wire.SUBSCRIPTIONS}/{it}", "tok-b") for it in (NAMED, ANOTHER)),
    ask("GET", f"{wire.SUBSCRIPTIONS}/{SUBSCRIPTION}", "tok-a"),
    *(
        ask("POST", f"{wire.SUBSCRIPTIONS}/query", token, {"area_of_interest": {"cells": [cell]}})
        for token in ("tok-a", "tok-b")
        for cell in ("89c3", "89c25904", "89c2590c", "89c25914")
    ),
]


def changes():
    """Returns each change with those before it. Most notify one subscription or two."""
    made = filled()
    moved = {
        "extents": [volume(["89c2590c"], (0, 100), (900, 2000)), volume(["89c2591"], (200, 300), (900, 2000))],
        "state": "Activated",
        "uss_base_url": "https://a.example/moved",
        "key": [wire.ovn(8)],
    }
    closed = {"extents": [volume(["89c2590c"], (0, 500), (900, 2000))], "uss_base_url": "https://c.example/moved"}
    settings = {"old_version": wire.ovn(4), "availability": "Normal"}
    named = {"extents": [volume(["89c25904"], (0, 10), (900, 2000))], "state": "Accepted", "subscription_id": NAMED}
    named |= {"uss_base_url": "https://b.example", "key": [wire.ovn(it) for it in (2, 3, 8)]}
    new = sub_put("https://b.example/new", ["89c25904", "89c25914"], (0, 700), True, False)
    return {
        "the first of a new database": ([], made[0]),
        "a creation": (made[:2], made[2]),
        "a creation that names and notifies": (made, ask("PUT", f"{wire.INTENTS}/{OTHER}", "tok-bc", named)),
        "an update that notifies two": (made, ask("PUT", f"{wire.INTENTS}/{INTENT}/{wire.ovn(2)}", "tok-a", moved)),
        "an update that names none": (
            made,
            ask("PUT", f"{wire.INTENTS}/{NAMING}/{wire.ovn(8)}", "tok-bc", {it: named[it] for it in named if it != "subscription_id"}),
        ),
        "an update of a constraint": (made, ask("PUT", f"{wire.CONSTRAINTS}/{CONSTRAINT}/{wire.ovn(3)}", "tok-c", closed)),
        "a deletion": (made, ask("DELETE", f"{wire.INTENTS}/{INTENT}/{wire.ovn(2)}", "tok-a")),
        "a deletion of what names": (made, ask("DELETE", f"{wire.INTENTS}/{NAMING}/{wire.ovn(8)}", "tok-b")),
        "a setting": (made, ask("PUT", f"{wire.AVAILABILITY}/uss-b", "tok-v", settings)),
        "a subscription": (made, ask("PUT", f"{wire.SUBSCRIPTIONS}/{ANOTHER}", "tok-b", new)),
        "an update of a subscription": (made, ask("PUT", f"{wire.SUBSCRIPTIONS}/{NAMED}/{wire.ovn(5)}", "tok-b", new)),
        "a deletion of a subscription": (made, ask("DELETE", f"{wire.SUBSCRIPTIONS}/{SUBSCRIPTION}/{wire.ovn(7)}", "tok-a")),
    }


def stops(name, calls):
    """Yields stops at each call, with each thing that the disk keeps. The short form tries one stop of so many."""
    (first,) = seeds.new(name, 1)
    for number, kept in enumerate(KEPT):
        for at in range(1, calls + 1):
            if (first + number + at) % STEP == 0:
                yield at, kept


class Machine:
    """A room whose database is made once, and then used in its original state again and again."""

    def __init__(self, room, made):
        self.room, self.library = room, library("crash", room.folder.name)
        self.saved = pathlib.Path(room.folder.name, "saved")
        self.used = pathlib.Path(room.folder.name, "used")
        self.saved.mkdir()
        if made:
            room.serve(made, database=self.saved / "dss.db")

    def again(self):
        """Restores the original database."""
        shutil.rmtree(self.used, ignore_errors=True)
        shutil.copytree(self.saved, self.used)
        return self.used / "dss.db"

    def run(self, words, requests=(), at=0, kept="all"):
        """Returns the status and output of a run that stops at that call, and the number of its calls if it did not
        stop."""
        counted = pathlib.Path(self.room.folder.name, "calls")
        counted.unlink(missing_ok=True)
        more = {"LD_PRELOAD": self.library, "CRASH_AT": f"{at}", "CRASH_KEEPS": kept, "CRASH_CALLS": f"{counted}"}
        status, output, _ = run(words, b"".join(requests), more=more)
        return status, output, int(counted.read_text()) if counted.exists() else None

    def serve(self, database, requests, at=0, kept="all"):
        return self.run(self.room.words(NOW, database), requests, at, kept)

    def seen(self, database):
        """Returns what a newly opened database contains, and what SQLite finds wrong with it."""
        got = self.room.serve(SEEN, database=database)
        return tables.wrong_in(database) or got


def of_change(name, made, change, *rewrites):
    """Returns what is wrong after a stop at any call of one change, and the number of stops. What was made before is
    rewritten first."""
    found, count = [], 0
    with Room() as room:
        machine = Machine(room, made)
        for rewrite in rewrites:
            rewrite(machine.saved / "dss.db")
        before = machine.seen(machine.again())
        database = machine.again()
        status, answer, calls = machine.serve(database, [change])
        after = machine.seen(database)
        if status or not calls or before == after or before[0] or after[0]:
            return [f"{name}: {status}, {answer!r}, {calls} calls, {before!r}, {after!r}"], 0
        for at, kept in stops(name, calls):
            database = machine.again()
            status, output, _ = machine.serve(database, [change], at, kept)
            seen = machine.seen(database)
            count += 1
            is_right = seen == after if output == answer else seen in (before, after) and not output
            if status != STOPPED or not is_right:
                found += [f"{name}, call {at} of {calls}, {kept} kept: {status}, {output!r}, then {seen!r}"]
    return found, count


def each_call():
    found, sum = [], 0
    for name, (made, change) in changes().items():
        wrong, count = of_change(name, made, change)
        found, sum = found + wrong, sum + count
    for name in AFTER_VACUUM:
        wrong, count = of_change(f"{name} after VACUUM", *changes()[name], vacuumed)
        found, sum = found + wrong, sum + count
    print(f"the machine stopped {sum} times among the calls that change the files")
    return found


def copied(database):
    """Copies a database with the files beside it, for SQLite to read: SQLite checkpoints the log."""
    folder = database.parent / "copied"
    shutil.rmtree(folder, ignore_errors=True)
    shutil.copytree(database.parent, folder, ignore=shutil.ignore_patterns("copied"))
    return folder / database.name


def of_move(name, fill, told):
    """Returns what is wrong after a stop at any call while `upgrade` upgrades an old database and prints this, and the
    number of stops."""
    found, count = [], 0
    with Room() as room:
        machine = Machine(room, [])
        fill(machine.saved)
        before = tables.rows_in(copied(machine.again()))

        def upgrade(database, *how):
            return machine.run([*room.words_of("upgrade")[:-1], str(database)], (), *how)

        database = machine.again()
        status, output, calls = upgrade(database)
        after = machine.seen(database)
        if (status, output) != told[:2] or not calls or after[0]:
            return [f"{name}: {status}, {output!r}, {calls} calls, {after!r}"], 0
        for at, kept in stops(name, calls):
            database = machine.again()
            status, output, _ = upgrade(database, at, kept)
            left = copied(database)
            is_old = not tables.has_index(left)
            count += 1
            where = f"{name}, call {at} of {calls}, {kept} kept"
            found += [f"{where}: {status}, {output!r}"] if (status, output) != (STOPPED, b"") else []
            found += [f"{where}: {it}" for it in tables.wrong_in(left)]
            if is_old:
                found += [] if tables.rows_in(left) == before else [f"{where}: other rows"]
            else:
                found += moved_wrong(where, before, left)
            # The next start finds it upgraded or not, and then upgrades it.
            got = upgrade(database)[:2], upgrade(database)[:2]
            wanted = (told if is_old else HELD)[:2], HELD[:2]
            found += [f"{where}: then {got}"] if got != wanted else []
            found += [f"{where}: then other answers"] if machine.seen(database) != after else []
    return found, count


def moves():
    """The same for old databases: filled ones, empty ones, one of a killed service, with its log, and what SQLite's
    `VACUUM` makes of filled ones; with what `upgrade` prints for each. Those of format 2 have the old order."""

    def first(folder, *rewrites):
        with Filled(1) as room:
            for rewrite in rewrites:
                rewrite(room.database)
            shutil.copy(room.database, folder / "dss.db")

    def second(folder, *rewrites):
        with Filled(2, tables.OLD_ORDER) as room:
            for rewrite in rewrites:
                rewrite(room.database)
            shutil.copy(room.database, folder / "dss.db")

    def second_of_nothing(folder):
        tables.make(folder / "dss.db", 2, text=tables.OLD_ORDER)
        tables.without_index(folder / "dss.db")

    return {
        "a move": (first, MOVED),
        "a move of nothing": (lambda folder: tables.make(folder / "dss.db", 1), MOVED),
        "a move of what was killed": (lambda folder: unpacked(folder, "killed"), MOVED),
        "a move after VACUUM": (lambda folder: first(folder, vacuumed), MOVED),
        "an order": (second, HELD),
        "an order without the index": (lambda folder: second(folder, tables.without_index), HELD),
        "an order of nothing": (second_of_nothing, HELD),
        "an index after VACUUM": (lambda folder: second(folder, tables.without_index, vacuumed), HELD),
    }


def each_move():
    found, sum = [], 0
    for name, (fill, told) in moves().items():
        wrong, count = of_move(name, fill, told)
        found, sum = found + wrong, sum + count
    print(f"the machine stopped {sum} times among the calls that upgrade an old database")
    return found


CASES = {"machine-that-stops-in-a-change": each_call, "machine-that-stops-in-an-upgrade": each_move}
