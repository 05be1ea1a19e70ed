"""`dss purge` removes what has ended by a given time.

It works in chunks, each complete or not done at all. All other rows stay exactly the same."""
import collections
import contextlib
import fcntl
import itertools
import math
import pathlib
import re
import signal
import sqlite3
import subprocess
import tempfile
import time

import connections
import crashes
import drawn_calls
import lengths
import plain_policy
import seeds
import tables
import wire
from changed_databases import Filled
from databases import NOT_A_DSS, STORE, Room, ask, filled, sub_put, volume
from backup_command import LOCK_AT, LOCK_LENGTH
from devices import library
from failing_files import NOT_CLOSED, Failing
from admin_port import AdminService
from program import BUILT, TOP, first_difference, run
from sockets import difference
from without_memory import each_refused
from arguments import PURGE_IN_FUTURE

# The time of the calls, and one that is past for a purge.
NOW, LATER = 1_000, 10_000
# At least so many intents, constraints and subscriptions are removed in one transaction, except the last.
MIN = 64
FUTURE = f"{PURGE_IN_FUTURE}\n"
CLOCK, MEMORY = b"dss: clock\n", b"dss: memory\n"
SEEDS, CHUNK, CHUNKS = range(40, 44), 25, 8
# A scene of many: intents and subscriptions that end at once, and those that stay.
ENDED, STAYING = 600, 60
# Positions among the calls on files at which a machine stops, and how often the program is killed: more often, up to a
# bound, while the kills leave too few different parts.
STOPS, KILLS, MAX_KILLS = lengths.of(8, 16), lengths.of(4, 8), 100
# The fractions of the multiples of this number are spread evenly.
SPREAD = 0.618034
# One of so many memory allocations is refused. Calls on files fail alone or with all after it, in turn: one of so many
# of these ways is tried.
STEP, CALLS_STEP = lengths.of(251, 61), 9
# How many end, and how many stay, while memory allocations are refused: a few chunks suffice in a short run, and two if
# each allocation is refused in turn.
REFUSED, FEWEST = lengths.of((80, STAYING), (ENDED // 2, STAYING)), (30, 10)
CELL = ("89c25904", 288901920, 288901920)
ID = "00000000-0000-4000-8000-{:012x}".format


def printed(intents, constraints, subscriptions):
    """Returns the output of a purge that removed that many."""
    return f"purged {intents} intents, {constraints} constraints, {subscriptions} subscriptions\n".encode()


def done(*counts):
    return 0, printed(*counts), b""


class PurgeRoom(Room):
    """A room whose database is purged."""

    def purge_arguments(self, until, now=LATER, database=None):
        moment = [] if now is None else ["--now", f"{now}"]
        return [BUILT, "purge", "--db", str(database or self.database), "--until", f"{until}", *moment]

    def purge(self, until, now=LATER, database=None, more=None):
        return run(self.purge_arguments(until, now, database), more=more)


# ---- the rows that a purge leaves


def purged_rows(rows, until):
    """Returns the rows after a purge, given those before it."""
    ends = collections.defaultdict(list)
    for entity, _, _, _, _, end in rows["volume"]:
        ends[entity].append(end)
    entities = {num for num, all_ in ends.items() if max(all_) > until}
    named = {subscription for entity, subscription in rows["naming"] if entity in entities}
    subscriptions = {num for num, *_, end in rows["subscription"] if end > until or num in named}
    stay = dict.fromkeys(("entity", "volume", "cell", "naming"), entities)
    stay |= dict.fromkeys(("subscription", "subscription_cell"), subscriptions)
    return {table: [it for it in all_ if table not in stay or it[0] in stay[table]] for table, all_ in rows.items()}


def gone(before, after):
    """Returns how many intents, constraints and subscriptions are in the rows before and not in those after."""
    kinds = [collections.Counter(kind for _, kind, *_ in rows["entity"]) for rows in (before, after)]
    entities = [kinds[0][it] - kinds[1][it] for it in (0, 1)]
    return *entities, len(before["subscription"]) - len(after["subscription"])


def wrong_part(before, database, until):
    """Returns what is wrong with a partly purged database: each row is one of those before, and a purge of it would
    leave what a purge of the rows before would leave."""
    rows = tables.rows_in(database)
    found = tables.wrong_in(database)
    found += [f"{it}: more than before" for it in rows if not set(rows[it]) <= set(before[it])]
    return found + difference("what is left of it", purged_rows(rows, until) == purged_rows(before, until), True)


def wrong_chunks(parts, before, after):
    """Returns whether aborted purges left the expected number of different parts: that of the chunks, and not that of
    the rows."""
    most = sum(gone(before, after)) // MIN + 3
    return [] if 2 < len(parts) <= most else [f"{len(parts)} parts of at most {most}: {dict(sorted(parts.items()))}"]


# ---- by hand


UNTIL = 3_000
A1, A2, A3, A4, A5, C1, C2, D1, D2, D3, D4, D5 = (
    f"00000000-0000-4000-8000-0000000000{it}" for it in ("a1", "a2", "a3", "a4", "a5", "c1", "c2", "d1", "d2", "d3", "d4", "d5")
)
# These have not ended by then, or are referenced by such.
STAY = {(0, A2), (0, A4), (1, C2)}, {D1, D4, D5}


def put_intent(id_, token, height, times, names=None):
    """Returns an intent at an altitude of its own, with a volume for each time."""
    extents = [volume(["89c25904"], (height, height + 5), it) for it in times]
    put = {"extents": extents, "state": "Accepted", "uss_base_url": "https://a.example", "key": []}
    return "PUT", f"{wire.INTENTS}/{id_}", token, put | ({"subscription_id": names} if names else {})


def put_constraint(id_, times):
    put = {"extents": [volume(["89c2591"], (-500, -400), it) for it in times], "uss_base_url": "https://c.example"}
    return "PUT", f"{wire.CONSTRAINTS}/{id_}", "tok-c", put


def put_subscription(id_, token, times):
    put = sub_put("https://s.example", ["89c25904"], (0, 1_000), True, False)
    put["extents"] |= dict(zip(("time_start", "time_end"), times))
    return "PUT", f"{wire.SUBSCRIPTIONS}/{id_}", token, put


def by_hand_calls():
    """Returns calls that store, of each kind, what ended before, just at and just after the time, with volumes of both
    kinds. Subscriptions are referenced by what stays, by what is purged, by both and by nothing."""
    return [
        put_subscription(D1, "tok-b", (900, 2_000)),
        put_subscription(D2, "tok-b", (900, UNTIL)),
        put_subscription(D3, "tok-a", (900, 2_500)),
        put_subscription(D4, "tok-a", (900, UNTIL + 1)),
        put_subscription(D5, "tok-a", (900, 2_000)),
        put_intent(A1, "tok-a", 0, [(900, UNTIL)]),
        put_intent(A2, "tok-a", 10, [(900, 2_000), (900, UNTIL + 1)], D5),
        put_intent(A3, "tok-a", 20, [(900, 2_000), (1_500, 2_500)], D3),
        put_intent(A4, "tok-b", 30, [(900, 4_000)], D1),
        put_intent(A5, "tok-a", 40, [(900, 1_500)], D5),
        put_constraint(C1, [(900, UNTIL - 1), (5, 7)]),
        put_constraint(C2, [(5, 7), (900, UNTIL + 1)]),
        ("PUT", f"{wire.AVAILABILITY}/uss-b", "tok-v", {"old_version": "", "availability": "Down"}),
    ]


def looks():
    """Returns reads of everything, which change nothing; then a change, which takes the next serial, and one that
    references what was purged."""
    seen = [("GET", f"{wire.INTENTS}/{it}", "tok-a", None) for it in (A1, A2, A3, A4, A5)]
    seen += [("GET", f"{wire.CONSTRAINTS}/{it}", "tok-c", None) for it in (C1, C2)]
    seen += [("GET", f"{wire.SUBSCRIPTIONS}/{it}", token, None) for it in (D1, D2, D3, D4, D5) for token in ("tok-a", "tok-b")]
    for area in {"cells": ["89c2591"]}, {"cells": ["89c2591"], "time_start": UNTIL + 1}:
        area = {"area_of_interest": area}
        seen += [("POST", f"{wire.INTENTS}/query", "tok-a", area), ("POST", f"{wire.CONSTRAINTS}/query", "tok-c", area)]
        seen += [("POST", f"{wire.SUBSCRIPTIONS}/query", it, area) for it in ("tok-a", "tok-b")]
    seen += [("GET", f"{wire.AVAILABILITY}/uss-b", "tok-a", None)]
    return [
        *seen,
        put_intent(A1, "tok-b", 0, [(900, 9_000)]),
        put_intent(A3, "tok-a", 20, [(900, 9_000)], D3),
        put_intent(A5, "tok-b", 50, [(900, 9_000)], D1),
        ("DELETE", f"{wire.INTENTS}/{A2}/{wire.ovn(7)}", "tok-a", None),
        ("GET", f"{wire.SUBSCRIPTIONS}/{D5}", "tok-a", None),
        ("DELETE", f"{wire.SUBSCRIPTIONS}/{D5}/{wire.ovn(5)}", "tok-a", None),
        put_subscription(D2, "tok-a", (900, 9_000)),
    ]


def policy():
    return plain_policy.Airspace(NOW, drawn_calls.ALL_TOKENS)


def differs(room, airspace, calls, now=NOW):
    """Returns how responses to calls over a database differ from the plain policy's."""
    wanted = [
        airspace.ask(method, target, f"Bearer {token}", None if body is None else wire.compact(body).encode()).text()
        for method, target, token, body in calls
    ]
    status, output, error = room.serve([ask(*it) for it in calls], now)
    why = first_difference(wanted, wire.answers_of(output))
    return difference("the stream", (status, error), (0, b"")) + ([why] if why else [])


def by_hand():
    """A purge removes and leaves the expected rows, and reads give the expected responses before and after it. A second
    purge, and one until an earlier time, find nothing. The next change has the next serial."""
    with PurgeRoom() as room:
        airspace = policy()
        found = differs(room, airspace, by_hand_calls())
        before = tables.rows_in(room.database)
        found += difference("until the first end", room.purge(1_499), done(0, 0, 0))
        found += difference("its rows", tables.rows_in(room.database), before)
        counts = airspace.purge(UNTIL)
        found += difference("the plain policy", counts, (3, 1, 2))
        found += difference("a purge", room.purge(UNTIL), done(3, 1, 2))
        rows = tables.rows_in(room.database)
        stay = {(kind, id_) for _, kind, id_, *_ in rows["entity"]}, {id_ for _, id_, *_ in rows["subscription"]}
        found += difference("what stays", stay, STAY) + difference("rows", rows, purged_rows(before, UNTIL))
        for until in UNTIL, UNTIL - 1, 0:
            found += difference(f"again until {until}", room.purge(until), done(0, 0, 0))
        found += difference("rows then", tables.rows_in(room.database), rows) + tables.wrong_in(room.database)
        found += differs(room, airspace, looks())
        # What referenced it was purged, so the next purge removes it.
        found += difference("one that was freed", room.purge(UNTIL), done(*airspace.purge(UNTIL)))
        found += difference("all", room.purge(9_000, 9_000), done(*airspace.purge(9_000)))
        left = {it: len(rows) for it, rows in tables.rows_in(room.database).items() if rows}
        found += difference("what is left", left, {"availability": 1, "meta": 1})
        return found + differs(room, airspace, [put_intent(A1, "tok-a", 0, [(900, 20_000)])])


def reported():
    """The report has neither line nor cell of what was purged, and the same serial."""
    with PurgeRoom() as room:
        differs(room, policy(), by_hand_calls())
        found = []
        for flags, wanted in ([], [A2, A4, C2]), (["--cells"], [A2, A2, A4, C2, C2]):
            with tempfile.TemporaryDirectory() as folder:
                copy = pathlib.Path(folder, "dss.db")
                copy.write_bytes(room.database.read_bytes())
                words = [BUILT, "report", "--db", str(copy), *flags]
                before = run(words)
                found += difference("a purge", room.purge(UNTIL, database=copy)[0], 0)
                after = run(words)
                lines = [it for it in before[1].splitlines() if it.startswith(b"serial") or it.split()[1].decode() in wanted]
                found += difference(f"the report {flags}", after, (0, b"".join(it + b"\n" for it in lines), b""))
                ids = [it.split()[1].decode() for it in after[1].splitlines() if not it.startswith(b"serial")]
                found += difference(f"its lines {flags}", ids, wanted)
        return found


def not_reported():
    """If the system gives no time, nothing is opened. If the output cannot be written, that is reported, and the purge
    is done."""
    with PurgeRoom() as room, connections.Room() as devices:
        none = pathlib.Path(room.folder.name, "none.db")
        found = difference("no time", room.purge(1, None, none, {"LD_PRELOAD": devices.library, "CLOCK_FAILS": "1"}), (1, b"", CLOCK))
        found += difference("a file that was made", none.exists(), False)
        differs(room, policy(), by_hand_calls())
        before = tables.rows_in(room.database)
        got = room.purge(UNTIL, more={"LD_PRELOAD": devices.library, "WRITE_FAILS": "1"})
        found += difference("not written", got, (1, b"", b"dss: output\n"))
        return found + difference("its rows", tables.rows_in(room.database), purged_rows(before, UNTIL))


def of_nothing():
    """An empty database, and one that does not exist: `purge` makes it, as `report` does."""
    with PurgeRoom() as room:
        found = difference("no file", room.purge(UNTIL), done(0, 0, 0))
        found += difference("its rows", {it: rows for it, rows in tables.rows_in(room.database).items() if rows}, {"meta": [(1, 2, 0)]})
        return found + difference("nothing", room.purge(LATER), done(0, 0, 0))


def refused():
    """A time in the future is rejected before anything is opened, by the clock or by `--now`. A file that is no
    database or is held is reported as by other commands. Nothing is changed."""
    found, clock = [], int(time.time())
    with PurgeRoom() as room:
        differs(room, policy(), by_hand_calls())
        before = room.database.read_bytes()
        for until, now in (clock + 3_600, None), (UNTIL + 1, UNTIL), (253_402_300_799, None), (1, 0):
            got = room.purge(until, now)
            found += difference(f"until {until} at {now}", got, (1, b"", FUTURE.encode()))
            got = room.purge(until, now, f"{room.folder.name}/none.db")
            found += difference(f"until {until} at {now}, of no file", got, (1, b"", FUTURE.encode()))
        found += difference("a file that was made", pathlib.Path(room.folder.name, "none.db").exists(), False)
        text = pathlib.Path(room.folder.name, "text")
        text.write_text("no database, but 4096 bytes of text\n" * 120)
        for name in text, room.folder.name, f"{room.folder.name}/no/dss.db":
            found += difference(f"{name}", room.purge(UNTIL, database=name), (1, b"", STORE))
        found += difference("its bytes", room.database.read_bytes() == before, True)
        with room.database.open("r+b") as file:
            fcntl.lockf(file, fcntl.LOCK_EX, LOCK_LENGTH, LOCK_AT)
            found += difference("a database in use", room.purge(UNTIL), (1, b"", STORE))
        # By the clock this is long past, and with --now it is just past.
        found += difference("by the clock", room.purge(1_500, None), done(1, 0, 0))
        found += difference("now", room.purge(UNTIL, UNTIL), done(2, 1, 2))
        room.query("DROP TABLE naming")
        return found + difference("another database", room.purge(UNTIL), (1, b"", NOT_A_DSS))


# ---- compared with the plain policy


def stored_by(airspace):
    """Returns what the plain policy stores, as rows."""
    entities = {(int(kind != plain_policy.INTENT), id_, it.version, it.serial) for (kind, id_), it in airspace.entities.items()}
    return entities, {(id_, it.serial, it.index) for id_, it in airspace.subscriptions.items()}, airspace.serial


def stored_in(room):
    rows = tables.rows_in(room.database)
    entities = {(kind, id_, version, serial) for _, kind, id_, _, _, version, serial, *_ in rows["entity"]}
    return entities, {(it[1], it[3], it[5]) for it in rows["subscription"]}, rows["meta"][0][2]


def drawn():
    """Drawn calls with a purge after every few of them get the responses of the plain policy, purged at the same times."""
    found, went = [], collections.Counter()
    for seed in [*SEEDS, *seeds.new("purge", 1)]:
        draw, airspace = drawn_calls.Draw(seed), plain_policy.Airspace(drawn_calls.NOW, drawn_calls.ALL_TOKENS)
        drawer = drawn_calls.Drawn(draw, airspace)
        with PurgeRoom() as room:
            for at in range(CHUNKS):
                calls, wanted = [], []
                for _ in range(CHUNK):
                    calls.append(drawer.call())
                    wanted.append(airspace.ask(*calls[-1]).text())
                status, output, error = room.serve([wire.request(*it) for it in calls], drawn_calls.NOW)
                why = first_difference(wanted, wire.answers_of(output))
                found += [f"seed {seed}, call {at * CHUNK}: {status}, {error!r}, {why}"] if why or status else []
                until = drawn_calls.NOW + draw.below(1_000)
                counts = airspace.purge(until)
                went.update(dict(zip(("intents", "constraints", "subscriptions"), counts)))
                found += difference(f"seed {seed}, purge {at}", room.purge(until), done(*counts))
                found += difference(f"seed {seed}, kept after {at}", stored_in(room), stored_by(airspace))
            found += [f"seed {seed}: {it}" for it in tables.wrong_in(room.database)]
    print(f"purges among drawn calls removed {dict(went)}")
    return found + [f"no {it} went" for it, count in went.items() if not count]


# ---- in chunks


def many(ended=ENDED, staying=STAYING):
    """Returns rows of many intents and constraints of one cell, every second one with a subscription, which it
    references if it is an intent. Those that end do so before `UNTIL`. Of the subscriptions of those that stay half
    have ended, and are referenced."""
    rows, serial = collections.defaultdict(list), 0
    for number in range(ended + staying):
        end = UNTIL - number % 7 if number < ended else LATER
        kind = int(number % 4 == 3)
        if number % 2:
            serial += 1
            its_end = UNTIL - 5 if number % 4 == 1 else end
            rows["subscription"] += [(serial, ID(number), "uss-a", serial, wire.ovn(serial), 0, "https://s.example", 1, 0, 0, 9, 900, its_end)]
            rows["subscription_cell"] += [(serial, 0, *CELL)]
        serial += 1
        state = 4 if kind else 0
        rows["entity"] += [(serial, kind, ID(number), "uss-a", state, 1, serial, wire.ovn(serial), "https://a.example")]
        rows["volume"] += [(serial, 0, 20, 30, 900, end)]
        rows["cell"] += [(serial, 0, 0, *CELL)]
        rows["naming"] += [(serial, serial - 1)] if number % 4 == 1 else []
    rows["meta"] = [(1, 2, serial + 7)]
    return dict(rows)


def made_of(file, rows, text=None):
    """Makes a database with these rows, as the program closes it, or from other statements; returns its rows."""
    tables.make(file, 2, {it: all_ for it, all_ in rows.items() if it != "meta"}, text)
    with tables.opened(file) as database:
        database.execute(f"UPDATE meta SET serial = {rows['meta'][0][2]}")
    run([BUILT, "report", "--db", str(file)])
    return tables.rows_in(file)


def in_chunks():
    """One purge removes many, and all that stays is as it was."""
    with PurgeRoom() as room:
        before = made_of(room.database, many())
        after = purged_rows(before, UNTIL)
        counts = gone(before, after)
        found = difference("a purge", room.purge(UNTIL), done(*counts))
        found += difference("its rows", tables.rows_in(room.database) == after, True) + tables.wrong_in(room.database)
        size = room.database.stat().st_size
        # Freed pages are used again.
        for at in range(3):
            status, output, _ = room.serve([ask(*put_intent(ID(5_000 + at * 50 + it), "tok-a", 100, [(20_000 + it, 20_000 + it)])) for it in range(50)])
            found += difference("creations", (status, output.count(b"HTTP/1.1 201 ")), (0, 50 * (at == 0)))
        return found + difference("its size", room.database.stat().st_size, size)


def finished(name, room, database, before):
    """Returns what is wrong with an aborted purge, and with the one that completes it."""
    found = [f"{name}: {it}" for it in wrong_part(before, database, UNTIL)]
    rest = gone(tables.rows_in(database), purged_rows(before, UNTIL))
    found += difference(f"{name}: the rest", room.purge(UNTIL, database=database), done(*rest))
    return found + difference(f"{name}: rows", tables.rows_in(database) == purged_rows(before, UNTIL), True)


def machine_stops():
    """A machine stops between the chunks. Whatever a disk may have persisted, whole chunks are found, and the next
    purge completes the work."""
    found, parts = [], collections.Counter()
    with PurgeRoom() as room:
        machine = crashes.Machine(room, [])
        before = made_of(machine.saved / "dss.db", many())
        words = lambda database: room.purge_arguments(UNTIL, database=database)
        status, _, calls = machine.run(words(machine.again()))
        if status or not calls:
            return [f"a purge: {status}, {calls} calls"]
        places = sorted({1, 2, calls - 1, calls} | {1 + at * (calls - 1) // STOPS for at in range(STOPS)})
        for kept in crashes.KEPT:
            for at in places:
                database = machine.again()
                status, output, _ = machine.run(words(database), at=at, kept=kept)
                found += difference(f"call {at} of {calls}, {kept} kept", (status, output if at < calls else b""), (crashes.STOPPED, b""))
                parts[sum(gone(before, tables.rows_in(crashes.copied(database))))] += 1
                found += finished(f"call {at} of {calls}, {kept} kept", room, database, before)
    print(f"a machine that stopped among {calls} calls on files left these parts: {dict(sorted(parts.items()))}")
    return found + wrong_chunks(parts, before, purged_rows(before, UNTIL))


def killed_at(room, size):
    """Kills a purge as soon as its log has that many bytes. Returns the most bytes that were seen, and its status."""
    log, most = room.database.with_name("dss.db-wal"), 0
    with subprocess.Popen(room.purge_arguments(UNTIL), stdout=subprocess.DEVNULL, stderr=subprocess.DEVNULL) as program:
        while program.poll() is None and most < size:
            with contextlib.suppress(FileNotFoundError):
                most = max(most, log.stat().st_size)
            time.sleep(0.0002)
        program.kill()
    return most, program.returncode


def killed():
    """The same if the program is killed in the middle. A busy machine may run it at another speed each time, so the
    moments follow the size of its log, and there are more of them until the parts differ."""
    found, parts = [], collections.Counter()
    with PurgeRoom() as room:
        before = made_of(room.database, many(3 * ENDED))
        saved = room.database.read_bytes()
        most, status = killed_at(room, math.inf)
        found += difference("a purge", status, 0)
        for at in range(1, MAX_KILLS):
            room.database.write_bytes(saved)
            room.database.with_name("dss.db-wal").unlink(missing_ok=True)
            seen, status = killed_at(room, at * SPREAD % 1 * most)
            found += difference(f"kill {at}", status in (0, -signal.SIGKILL), True)
            most = max(most, seen)
            copy = crashes.copied(room.database)
            parts[sum(gone(before, tables.rows_in(copy)))] += 1
            found += finished(f"kill {at}", room, room.database, before)
            if at >= KILLS and len(parts) > 2:
                break
    print(f"a program that was killed left these parts: {dict(sorted(parts.items()))}")
    return found + wrong_chunks(parts, before, purged_rows(before, UNTIL))


def files_fail():
    """Calls on files fail, one in so many, alone and with all after it: that is reported, completed chunks stay, and
    the next purge completes the work."""
    found, ends = [], collections.Counter()

    class Place(Failing, PurgeRoom):
        """A room of both kinds."""

    with Place() as room:
        before = made_of(room.database, many(ENDED // 2))
        saved = room.database.read_bytes()

        def again():
            room.database.write_bytes(saved)
            room.database.with_name("dss.db-wal").unlink(missing_ok=True)

        for more in itertools.islice(room.ways(room.purge_arguments(UNTIL), b"", again), 0, None, CALLS_STEP):
            again()
            status, output, error = room.run(room.purge_arguments(UNTIL), b"", more)
            ends[(status, error)] += 1
            is_right = (error == b"" and output != b"") if status == 0 else status == 1 and output == b"" and error in (STORE, NOT_CLOSED)
            found += [] if is_right else [f"{more}: {status}, {output!r}, {error!r}"]
            found += finished(f"{more}", room, room.database, before)
    print(f"a purge: of {room.count} calls on files some failed, alone and with all after it: {dict(ends)}")
    return found + ([] if {status for status, _ in ends} == {0, 1} else [f"only {dict(ends)}"])


def without_memory(step=STEP, scene=REFUSED):
    """The same if memory allocations are refused in turn, for so many that end and stay."""
    found, ends = [], collections.Counter()
    with PurgeRoom() as room:
        before = made_of(room.database, many(*scene))
        saved = room.database.read_bytes()

        def again():
            room.database.write_bytes(saved)
            room.database.with_name("dss.db-wal").unlink(missing_ok=True)

        for at, (status, output, error), is_refused in each_refused(room.purge_arguments(UNTIL), step=step, before=again):
            ends[(status, error)] += 1
            told = error == b"" and output != b"" if status == 0 else is_refused and status == 1 and output == b"" and error in (STORE, NOT_CLOSED, MEMORY)
            found += [] if told else [f"allocation {at}: {status}, {output!r}, {error!r}"]
            found += finished(f"allocation {at}", room, room.database, before)
    print(f"a purge: one of {step} of its memory allocations refused: {dict(ends)}")
    return found


# ---- other files


def older():
    """A database of format 1 is upgraded when it is opened, and purged."""
    with Filled(1) as old, PurgeRoom() as room:
        room.database.write_bytes(old.database.read_bytes())
        before = tables.rows_in(room.database)
        ends = [end for *_, end in before["volume"]]
        found = difference("a purge until the first end", room.purge(min(ends) - 1)[::2], (0, b""))
        rows = tables.rows_in(room.database)
        found += difference("its format", rows["meta"][0][1], 2) + difference("its entities", rows["entity"], before["entity"])
        got = room.purge(max(ends) - 1, max(ends))
        return found + difference("a purge", got, done(*gone(rows, purged_rows(rows, max(ends) - 1)))) + tables.wrong_in(room.database)


def small_file():
    """The command of docs/OPERATE.md makes the file smaller, with the same rows and report. It has a mirror, also if an
    older version made the file. One with another table is accepted without a mirror.

    Python's module runs the SQL of the command, so that the tests do not need the command itself."""
    page = (TOP / "docs" / "OPERATE.md").read_text().partition("### Shrinking the database file\n")[2]
    command = re.search(r"(?m)^    sqlite3 -bail dss\.db (.*)$", page)[1]
    found = []
    for text in None, tables.OLD_ORDER:
        with PurgeRoom() as room:
            made_of(room.database, many(4 * ENDED), text)
            found += difference("a purge", room.purge(UNTIL)[0], 0)
            before = tables.rows_in(room.database), run([BUILT, "report", "--db", str(room.database)])
            mode, sizes = room.database.stat().st_mode, [room.database.stat().st_size]
            with contextlib.closing(sqlite3.connect(room.database, isolation_level=None)) as database:
                database.execute(command)
            sizes.append(room.database.stat().st_size)
            after = tables.rows_in(room.database), run([BUILT, "report", "--db", str(room.database)])
            found += difference("rows and report", after == before, True) + tables.wrong_in(room.database)
            found += [] if 3 * sizes[1] < sizes[0] else [f"sizes: {sizes}"]
            found += difference("mode", room.database.stat().st_mode, mode)
            found += mirrored(room.database, "1")
            found += difference("a purge after it", room.purge(UNTIL)[::2], (0, b""))
            with tables.opened(room.database) as database:
                database.execute("CREATE TABLE another (number INTEGER) STRICT")
            found += difference("another table", run([BUILT, "report", "--db", str(room.database)])[0], 0)
            # This one gets no mirror, without which it does not know what has ended.
            found += difference("a purge of it", room.purge(UNTIL), (1, b"", NOT_CLOSED))
            found += mirrored(room.database, "0")
    return found


def mirrored(file, is_up):
    """Returns what is wrong if a service over a copy of the file does not tell this of its mirror."""
    with AdminService() as started:
        started.kill()
        for end in "", "-wal":
            started.folder.joinpath(f"dss.db{end}").unlink(missing_ok=True)
        started.folder.joinpath("dss.db").write_bytes(file.read_bytes())
        started.start()
        return difference(f"a mirror of {file.name}", started.counted()["dss_mirror_up"], is_up)


CASES = {
    "purge-by-hand": by_hand,
    "purge-reported": reported,
    "purge-not-reported": not_reported,
    "purge-of-nothing": of_nothing,
    "purge-rejected": refused,
    "purge-among-drawn-calls": drawn,
    "purge-in-chunks": in_chunks,
    "machine-that-stops-in-a-purge": machine_stops,
    "killed-in-a-purge": killed,
    "purge-whose-calls-fail": files_fail,
    "purge-without-memory": without_memory,
    "purge-of-an-older-database": older,
    "purge-and-a-small-file": small_file,
}
