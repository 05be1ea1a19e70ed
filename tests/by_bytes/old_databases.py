"""Databases of format 1 are upgraded to format 2 when they are opened. Those of format 2 that lack its index get it.
Those in the old order get the order of a new one. Their contents stay, and nothing else is added.

The last release that knew no other format made those of tests/data/format_1 from its calls.json: `closed.db` when it
exited, `killed.db` with its log when it was killed after the last response."""
import gzip
import json
import pathlib

import connections
import drawn_calls
import plain_policy
import reports
import tables
import wire
from changed_databases import Filled
from databases import NOT_A_DSS, STORE, VERSION, Room, dumped, vacuumed, wrong_with
from plain_policy import CONSTRAINT, INTENT
from program import BUILT, TOP, first_difference, run
from serving import Service

FOLDER = TOP / "tests" / "data" / "format_1"
MADE = ("closed", "killed")
MOVED, HELD = (0, b"format 2, was 1\n", b""), (0, b"format 2\n", b"")
NOTHING = b"purged 0 intents, 0 constraints, 0 subscriptions\n"
# Calls that are drawn after an upgrade, subscriptions included.
MORE, SEED = 60, 5


def upgrade(database):
    return run([BUILT, "upgrade", "--db", str(database)])


def unpacked(folder, name):
    """Puts a database that the release made into a directory as `dss.db`, with its log beside it if it left one."""
    for file in FOLDER.glob(f"{name}.db*.gz"):
        end = file.name.removeprefix(name).removesuffix(".gz")
        pathlib.Path(folder, f"dss{end}").write_bytes(gzip.decompress(file.read_bytes()))


def kept():
    """Returns the contents after the calls that made them."""
    airspace = plain_policy.Airspace(drawn_calls.NOW, drawn_calls.ALL_TOKENS)
    for method, target, authorization, body in json.loads((FOLDER / "calls.json").read_text()):
        airspace.ask(method, target, authorization, None if body is None else body.encode())
    return airspace


def report_of(airspace):
    """Returns the report of the contents."""
    lines = []
    for kind, word in (INTENT, "intent"), (CONSTRAINT, "constraint"):
        for it in (it for (_, it) in sorted(airspace.entities.items()) if it.kind == kind):
            times = min(each.times[0] for each in it.put.extents), max(each.times[1] for each in it.put.extents)
            lines.append(reports.line(word, it.id, it.version, it.put.state or "-", times, it.manager))
    return "".join(lines + [f"serial {airspace.serial}\n"]).encode()


def readings(airspace):
    """Returns reads and queries that return all contents."""
    cells = {"area_of_interest": {"cells": ["01", "0000001", "000000ff", "00001", "3"]}}
    for (kind, id_), _ in sorted(airspace.entities.items()):
        yield "GET", f"{plain_policy.PATHS[kind]}/{id_}", "Bearer tok-bc", None
    for kind in INTENT, CONSTRAINT, plain_policy.SUBSCRIPTION:
        yield "POST", f"{plain_policy.PATHS[kind]}/query", "Bearer tok-bc", wire.compact(cells).encode()
    for uss in drawn_calls.SUPPLIERS:
        yield "GET", f"{wire.AVAILABILITY}/{uss}", "Bearer tok-a", None


def later_calls(airspace):
    """Returns calls after an upgrade, with the plain policy's responses."""
    drawn = drawn_calls.Drawn(drawn_calls.Draw(SEED), airspace)
    calls, wanted = [], []
    for call in readings(airspace):
        calls.append(call)
        wanted.append(airspace.ask(*call).text())
    for _ in range(MORE):
        calls.append(drawn.call())
        wanted.append(airspace.ask(*calls[-1]).text())
    return calls, wanted


def went_on(name, room):
    """Returns what is wrong with an upgraded database when it is read and then used, with subscriptions."""
    calls, wanted = later_calls(kept())
    got = []
    for at in range(0, len(calls), 40):
        status, output, error = room.serve([wire.request(*it) for it in calls[at : at + 40]], drawn_calls.NOW)
        if (status, error) != (0, b""):
            return [f"{name}: {status}, {error!r}"]
        got += wire.answers_of(output)
    why = first_difference(wanted, got)
    return ([f"{name}, after the move: {why}"] if why else []) + [f"{name}: {it}" for it in wrong_with(room)]


def moved_wrong(name, before, file):
    """Returns how the tables differ from those before the upgrade, with format 2 and the later tables."""
    rows = tables.rows_in(file)
    (one, _, serial), *_ = before["meta"]
    wanted = dict.fromkeys(tables.LATER_TABLES, []) | before | {"meta": [(one, 2, serial)]}
    found = [f"{name}: {it} has {rows[it]}, not {wanted[it]}" for it in wanted if rows.get(it) != wanted[it]]
    return found + ([f"{name}: {sorted(rows)}"] if sorted(rows) != sorted(wanted) else [])


def made_anew():
    """Returns the schema of a database that the program makes, and the order of its tables and indexes."""
    with Room() as room:
        room.command("report")
        return tables.schema_in(room.database), tables.order_in(room.database)


def has_mirror(database):
    """Returns true if the program can mirror a database, without which it purges nothing."""
    return run([BUILT, "purge", "--db", str(database), "--until", "1"]) == (0, NOTHING, b"")


def as_released():
    """`upgrade` upgrades the release's databases to the schema and the order of a new database. They have a mirror, and
    can be used afterwards."""
    found, (made, order) = [], made_anew()
    for name in MADE:
        with Room() as room:
            unpacked(room.folder.name, name)
            # Uses a copy, because SQLite checkpoints the log.
            with Room() as other:
                unpacked(other.folder.name, name)
                before = tables.rows_in(other.database)
            serial = kept().serial
            found += [f"{name}: {before['meta']}"] if before["meta"] != [(1, 1, serial)] else []
            for wanted in MOVED, HELD:
                got = room.command("upgrade")
                found += [f"{name}: wanted {wanted}, got {got}"] if got != wanted else []
            found += moved_wrong(name, before, room.database)
            schema = tables.schema_in(room.database)
            found += [f"{name}: {schema}, not {made}"] if schema != made else []
            after = tables.order_in(room.database)
            found += [f"{name}: {after}, not {order}"] if after != order else []
            found += [] if has_mirror(room.database) else [f"{name}: no mirror"]
            found += went_on(name, room)
    return found


def silently():
    """`run`, `report` and `serve` upgrade a database when they open it, and print nothing more than for one of format
    2."""
    found, report = [], report_of(kept())
    for name in MADE:
        with Room() as room:
            unpacked(room.folder.name, name)
            got = room.command("report")
            found += [f"{name}: {got}, not {report!r}"] if got != (0, report, b"") else []
            found += [f"{name}, after report: {it}" for it in [room.command("upgrade")] if it != HELD]
        with Room() as room:
            unpacked(room.folder.name, name)
            found += went_on(name, room)
            found += [f"{name}, after run: {it}" for it in [room.command("upgrade")] if it != HELD]
        service = Service(drawn_calls.ALL_TOKENS, count=1)
        unpacked(service.folder, name)
        with service:
            asked = wire.request("GET", f"{wire.AVAILABILITY}/uss-b", "Bearer tok-a", fields=["Connection: close"])
            wanted = kept().ask("GET", f"{wire.AVAILABILITY}/uss-b", "Bearer tok-a").text(closes=True)
            got = service.exchange(asked)
            found += [f"{name}, serve: {got!r}, not {wanted!r}"] if got != wanted else []
            ended = service.ended()
            found += [f"{name}, serve: {ended}"] if ended != (0, b"", service.listening) else []
            after = upgrade(service.folder / "dss.db")
            found += [f"{name}, after serve: {after}"] if after != HELD else []
    return found


def worked_example():
    """An old database with the first step of a worked example, as format 1 stores it, gives the responses of its other
    steps."""
    rows = {
        "meta": [(1, 1, 1)],
        "entity": [(1, 0, "00000000-0000-4000-8000-0000000000a1", "uss-a", 0, 1, 1, wire.ovn(1), "https://a.example")],
        "volume": [(1, 0, 0, 1200, 900, 2000)],
        "cell": [(1, 0, 0, "89c25904", 288901920, 288901920)],
    }
    with Room() as room:
        tables.make(room.database, 1, rows)
        got = [room.command(it) for it in ("upgrade", "upgrade", "report")]
        wanted = [MOVED, HELD, (0, reports.OF_THE_EXAMPLE, b"")]
        return [f"wanted {wanted}, got {got}"] if got != wanted else []


def serials():
    """The serial stays, the minimum and the maximum, even if nothing else is stored."""
    found = []
    for serial in (0, 77, 2**63 - 1):
        with Room() as room:
            tables.make(room.database, 1, {"meta": [(1, 1, serial)]})
            before = tables.rows_in(room.database)
            got = [room.command(it) for it in ("upgrade", "report", "upgrade")]
            wanted = [MOVED, (0, f"serial {serial}\n".encode(), b""), HELD]
            found += [f"wanted {wanted}, got {got}"] if got != wanted else []
            found += moved_wrong(f"serial {serial}", before, room.database)
    return found


def of_others():
    """`upgrade` makes a database if no file exists, reports no upgrade for one of format 2, and reports the faults of
    opening. If its output cannot be written, the upgrade is complete."""
    found = []

    def compare(name, got, wanted):
        found.extend([f"{name}: wanted {wanted}, got {got}"] if got != wanted else [])

    with Room() as room:
        compare("no file", room.command("upgrade"), HELD)
        compare("what it made", tables.rows_in(room.database)["meta"], [(1, 2, 0)])
        compare("no folder", upgrade(f"{room.folder.name}/none/dss.db"), (1, b"", STORE))
        compare("a folder", upgrade(room.folder.name), (1, b"", STORE))
    for number in (1, 2):
        with Filled(number) as room:
            for text, fault in (
                ("UPDATE meta SET format = 3", VERSION),
                ("DROP TABLE entity", NOT_A_DSS),
                ("UPDATE meta SET serial = 7", NOT_A_DSS),
                ("UPDATE entity SET kind = 2 WHERE num = 1", NOT_A_DSS),
            ):
                room.again()
                with tables.unguarded(room.database) as database:
                    database.execute(text)
                before = room.database.read_bytes()
                compare(f"format {number}, {text}", room.command("upgrade"), (1, b"", fault))
                compare(f"format {number}, {text}: the file", room.database.read_bytes() == before, True)
    with connections.Room() as device, Filled(1) as room:
        more = {"LD_PRELOAD": device.library, "WRITE_FAILS": "1"}
        compare("not written", room.command("upgrade", more=more), (1, b"", b"dss: output\n"))
        compare("after it", room.command("upgrade"), HELD)
    return found


def of_sqlite():
    """A database of format 1 that SQLite itself rewrote is upgraded, and gives the same responses."""
    found = []
    for write in vacuumed, dumped:
        with Room() as room:
            unpacked(room.folder.name, "closed")
            before = tables.rows_in(room.database)
            write(room.database)
            got = room.command("upgrade")
            found += [f"{write.__name__}: {got}"] if got != MOVED else []
            found += moved_wrong(write.__name__, before, room.database)
            found += went_on(write.__name__, room)
    return found


# A database of each history: its format, whether it lacks the index on naming, and the statements that made it.
HISTORIES = {
    "format 1": (1, False, tables.FIRST),
    "format 2 without the index": (2, True, tables.OLD_ORDER),
    "format 2 in the old order": (2, False, tables.OLD_ORDER),
    "format 1 after VACUUM, upgraded by an earlier version": (2, False, tables.MIXED_ORDER),
    "a new one": (2, False, tables.FORMATS[2]),
    "a new one without the index": (2, True, tables.FORMATS[2]),
}


def of_history(name, rewrite, made):
    """Returns what is wrong with a database of a history that SQLite rewrote, or left, when the program opens it. Only
    a dump keeps it from the order of a new one, since it has the tables by their names."""
    number, lacks, text = HISTORIES[name]
    with Filled(number, text) as room:
        if lacks:
            tables.without_index(room.database)
        rewrite(room.database)
        before, saved = tables.rows_in(room.database), room.database.read_bytes()
        is_ready = number == 2 and not lacks and (rewrite is not left or name == "a new one")
        report = room.command("report")
        found = [f"{report}"] if report[0] else []
        found += moved_wrong(name, before, room.database) + tables.wrong_in(room.database)
        schema, order = tables.schema_in(room.database), tables.order_in(room.database)
        found += [f"{schema}, not {made[0]}"] if schema != made[0] else []
        found += [f"in order: {order}"] if (order == made[1]) != (rewrite is not dumped) else []
        found += ["the file was written"] if is_ready and room.database.read_bytes() != saved else []
        saved = room.database.read_bytes()
        found += [f"{it}" for it in [room.command("upgrade")] if it != HELD]
        found += ["the file was written again"] if room.database.read_bytes() != saved else []
        found += ["another report"] if room.command("report") != report else []
        found += ["a mirror"] if has_mirror(room.database) != (rewrite is not dumped) else []
        return found + (of_vacuum(room, made[1], report) if rewrite is not dumped else [])


def left(file):
    """Leaves a file as it is."""


def of_vacuum(room, order, report):
    """Returns what is wrong with a database that SQLite's `VACUUM` rewrote."""
    vacuumed(room.database)
    after = tables.order_in(room.database)
    found = [f"VACUUM: {after}, not {order}"] if after != order else []
    found += [] if has_mirror(room.database) else ["VACUUM: no mirror"]
    return found + (["VACUUM: another report"] if room.command("report") != report else [])


def of_each_history():
    """A database without the index of format 2 gets it at its first opening, whichever command that is, and one in the
    old order that of a new one. Any other is not written. The contents stay. Each has a mirror then, and `VACUUM` keeps
    the order. What Python dumps is by name: it keeps its order and has no mirror."""
    found, made = [], made_anew()
    for name in HISTORIES:
        for word, rewrite in {"as it was": left, "VACUUM": vacuumed, "dump": dumped}.items():
            found += [f"{name}, {word}: {it}" for it in of_history(name, rewrite, made)]
    return found


# Statements that add something to tables in the old order: with it, they cannot get the new one.
BESIDE = (
    "CREATE TABLE another (number INTEGER) STRICT",
    "CREATE INDEX another ON entity (serial)",
    "CREATE VIEW another AS SELECT num FROM entity",
    "ALTER TABLE availability ADD COLUMN note TEXT",
)


def beside_others():
    """Tables in the old order keep it beside anything else, and nothing of it is lost. They are accepted without a
    mirror."""
    found = []
    for text in BESIDE:
        with Filled(2, tables.OLD_ORDER) as room:
            with tables.opened(room.database) as database:
                database.execute(text)
            before, order = tables.rows_in(room.database), tables.order_in(room.database)
            got = room.command("upgrade")
            found += [f"{text}: {got}"] if got != HELD else []
            found += [f"{text}: the rows"] if tables.rows_in(room.database) != before else []
            found += [f"{text}: the order"] if tables.order_in(room.database) != order else []
            found += [f"{text}: a mirror"] if has_mirror(room.database) else []
    return found


def without_space():
    """An upgrade for which the disk has no room is reported as Store and leaves format 1. Once there is room, it
    succeeds."""
    found, refused = [], 0
    for most in range(8, 104, 8):
        with Room() as room:
            unpacked(room.folder.name, "closed")
            before = tables.rows_in(room.database)
            command = f"trap '' XFSZ; ulimit -f {most}; exec \"$@\""
            status, output, error = run(["bash", "-c", command, "bash", *room.words_of("upgrade")])
            if (status, output, error) == (1, b"", STORE):
                refused += 1
                rows = tables.rows_in(room.database)
                found += [f"{most}: the tables are others"] if rows != before else []
                wanted = MOVED
            else:
                # If the log cannot be checkpointed, that is reported, and the log has the upgrade.
                told = ((0, MOVED[1], b""), (1, b"", b"dss: db: fault\n"))
                found += [f"{most}: {status}, {output!r}, {error!r}"] if (status, output, error) not in told else []
                wanted = HELD
            got = room.command("upgrade")
            found += [f"{most}: wanted {wanted}, got {got}"] if got != wanted else []
            found += moved_wrong(f"{most}", before, room.database)
            found += went_on(f"{most}", room) if wanted == MOVED and refused == 1 else []
    return found + ([] if refused else ["no move was refused"])


CASES = {
    "old-databases-of-the-release": as_released,
    "old-databases-upgraded-silently": silently,
    "old-database-worked-example": worked_example,
    "old-databases-keep-their-serial": serials,
    "old-databases-that-sqlite-wrote-anew": of_sqlite,
    "old-databases-of-each-history": of_each_history,
    "old-databases-beside-others": beside_others,
    "old-databases-without-space": without_space,
    "upgrade-of-others": of_others,
}
