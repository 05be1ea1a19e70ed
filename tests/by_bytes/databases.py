"""An airspace in a database gets the same responses as in memory.

SQLite reads and checks its file. Other files are rejected."""
import collections
import json
import pathlib
import sqlite3
import subprocess
import tempfile

import drawn_calls
import seeds
import tables
import wire
from program import BUILT, SECONDS, TOP, first_difference, run
from streams import CAUSES, kept_open

NOW = 1000
# The drawn calls of a stream. Each stream has its own run of the program over one database, and all of them together in
# memory.
CHUNK = 20
SEEDS = range(1, 9)
# How often subscriptions must be notified for each cause.
MIN_PER_CAUSE = 5
NOT_A_DSS, VERSION, STORE = (f"dss: db: fault {it}\n".encode() for it in ("1 NotADss", "2 Version", "3 Store"))

# Two USSs: an intent of two volumes that was updated once, a constraint and an availability; two subscriptions, one of
# them updated; and an intent that references the other one and notified both.
INTENT, CONSTRAINT, NAMING, NAMED, SUBSCRIPTION = (
    f"00000000-0000-4000-8000-0000000000{end}" for end in ("a1", "c1", "b1", "d1", "d2")
)
# The rows stored for them, as SQLite reads them. The ranges are those of Google's S2.
ROWS = {
    "meta": [(1, 2, 8)],
    "entity": [
        (1, 0, INTENT, "uss-a", 1, 2, 2, wire.ovn(2), "https://a.example"),
        (3, 1, CONSTRAINT, "uss-c", 4, 1, 3, wire.ovn(3), "https://c.example"),
        (8, 0, NAMING, "uss-b", 0, 1, 8, wire.ovn(8), "https://b.example"),
    ],
    "volume": [
        (1, 0, -100, 1200, 900, 2000), (1, 1, -100000, 1000000, 0, 253402300799), (3, 0, 0, 500, 900, 2000),
        (8, 0, 0, 400, 900, 2000),
    ],
    "cell": [
        (1, 0, 0, "89c25904", 288901920, 288901920),
        (1, 0, 1, "89c2591", 288901920, 288901923),
        (1, 1, 0, "89c25904", 288901920, 288901920),
        (3, 0, 0, "89c3", 288899072, 288915455),
        (8, 0, 0, "89c2590c", 288901921, 288901921),
    ],
    "availability": [("uss-b", 2, wire.ovn(4))],
    "subscription": [
        (5, NAMED, "uss-b", 5, wire.ovn(5), 1, "https://b.example", 1, 1, -50, 700, 900, 2000),
        (6, SUBSCRIPTION, "uss-a", 7, wire.ovn(7), 1, "https://a.example/new", 1, 0, 0, 1200, 900, 2000),
    ],
    "subscription_cell": [
        (5, 0, "89c25904", 288901920, 288901920),
        (5, 1, "89c2591", 288901920, 288901923),
        (6, 0, "89c2590c", 288901921, 288901921),
    ],
    "naming": [(8, 5)],
}


class Room:
    """A directory with a token file, where a database can be made."""

    def __enter__(self):
        self.folder = tempfile.TemporaryDirectory()
        self.tokens = pathlib.Path(self.folder.name, "tokens.toml")
        self.tokens.write_text(wire.token_file(drawn_calls.ALL_TOKENS))
        self.database = pathlib.Path(self.folder.name, "dss.db")
        return self

    def __exit__(self, *_):
        self.folder.cleanup()

    def words(self, now=NOW, database=None):
        return [BUILT, "run", "--tokens", str(self.tokens), "--now", str(now), "--db", str(database or self.database), "-"]

    def serve(self, requests, now=NOW, database=None):
        """Returns the status, output and error of a stream over the database."""
        return run(self.words(now, database), b"".join(requests))

    def query(self, text):
        """Returns the rows that SQLite itself reads."""
        with tables.opened(self.database) as database:
            return database.execute(text).fetchall()

    def words_of(self, command):
        """Returns the arguments of a command that takes only a database."""
        return [BUILT, command, "--db", str(self.database)]

    def command(self, name, more=None):
        """Returns the status, output and error of such a command."""
        return run(self.words_of(name), more=more)

    def readable(self):
        """Returns whether a read over the database gives the stored values of `ROWS`."""
        status, output, error = self.serve([ask("GET", f"{wire.AVAILABILITY}/uss-b", "tok-a")])
        return (status, error) == (0, b"") and b'"availability":"Down"' in output


def ask(method, target, token, body=None):
    return wire.request(method, target, f"Bearer {token}", None if body is None else wire.compact(body).encode())


def volume(cells, altitudes, times):
    (lower, upper), (start, end) = altitudes, times
    return {"cells": cells, "altitude_lower": lower, "altitude_upper": upper, "time_start": start, "time_end": end}


def sub_put(url, cells, altitudes, intents, constraints):
    flags = {"notify_for_operational_intents": intents, "notify_for_constraints": constraints}
    return {"extents": volume(cells, altitudes, (900, 2000)), "uss_base_url": url, **flags}


def filled():
    """Returns the calls that fill a database. The first four store no subscription."""
    first = {"extents": [volume(["89c25904"], (0, 1200), (900, 2000))], "state": "Accepted"}
    second = {
        "extents": [
            volume(["89c25904", "89c2591"], (-100, 1200), (900, 2000)),
            volume(["89c25904"], (-100000, 1000000), (0, 253402300799)),
        ],
        "state": "Activated",
    }
    closed = {"extents": [volume(["89c3"], (0, 500), (900, 2000))]}
    named = sub_put("https://b.example", ["89c25904", "89c2591"], (-50, 700), True, True)
    old = sub_put("https://a.example", ["89c2591", "89c25914"], (0, 100), True, False)
    new = sub_put("https://a.example/new", ["89c2590c"], (0, 1200), True, False)
    naming = {"extents": [volume(["89c2590c"], (0, 400), (900, 2000))], "state": "Accepted", "subscription_id": NAMED}
    naming |= {"key": [wire.ovn(2), wire.ovn(3)], "uss_base_url": "https://b.example"}
    return [
        ask("PUT", f"{wire.INTENTS}/{INTENT}", "tok-a", first | {"uss_base_url": "https://a.example"}),
        ask("PUT", f"{wire.INTENTS}/{INTENT}/{wire.ovn(1)}", "tok-a", second | {"uss_base_url": "https://a.example"}),
        ask("PUT", f"{wire.CONSTRAINTS}/{CONSTRAINT}", "tok-c", closed | {"uss_base_url": "https://c.example"}),
        ask("PUT", f"{wire.AVAILABILITY}/uss-b", "tok-v", {"old_version": "", "availability": "Down"}),
        ask("PUT", f"{wire.SUBSCRIPTIONS}/{NAMED}", "tok-bc", named),
        ask("PUT", f"{wire.SUBSCRIPTIONS}/{SUBSCRIPTION}", "tok-a", old),
        ask("PUT", f"{wire.SUBSCRIPTIONS}/{SUBSCRIPTION}/{wire.ovn(6)}", "tok-a", new),
        ask("PUT", f"{wire.INTENTS}/{NAMING}", "tok-bc", naming),
    ]


def worked_examples():
    """Each worked example gives the same bytes over a database as in memory, in one stream and with one run of the
    program for each step."""
    found = []
    for example in json.loads((TOP / "tests" / "data" / "worked_examples.json").read_text()):
        requests = [step["request"].encode("latin-1") for step in example["steps"]]
        answers = [step["answer"].encode("latin-1") for step in example["steps"]]
        with Room() as room:
            for at, (request, answer) in enumerate(zip(requests, answers), 1):
                got = room.serve([request], example["now"])
                if got != (0, answer, b""):
                    found += [f"{example['name']}, step {at}: wanted {answer!r}, got {got!r}"]
        if example["in_one_stream"]:
            with Room() as room:
                got = room.serve(kept_open(requests), example["now"])
                wanted = (0, b"".join(kept_open(answers)), b"")
                found += [f"{example['name']}: wanted {wanted!r}, got {got!r}"] if got != wanted else []
    return found


def drawn_over(room, seed, between=lambda: None, notified=None):
    """Returns how drawn calls over one database, in successive runs of the program, differ from the plain policy.
    `between` changes the file between two runs."""
    requests, outcomes = drawn_calls.stream(seed, notified=notified)
    found, got = [], []
    for at in range(0, len(requests), CHUNK):
        status, output, error = room.serve(requests[at : at + CHUNK], drawn_calls.NOW)
        found += [f"seed {seed}, call {at}: {status}, {error!r}"] if (status, error) != (0, b"") else []
        got += wire.answers_of(output)
        between()
    # The last call of a full stream closes its connection.
    got = [it.replace(b"Connection: close\r\n", b"") for it in got]
    why = first_difference([it.text(closes=False) for it in outcomes], got)
    return found + ([f"seed {seed}: {why}"] if why else []) + wrong_with(room)


def drawn():
    """Drawn calls get the same responses as in memory, and SQLite then finds nothing wrong with the file."""
    found, notified = [], collections.Counter()
    for seed in [*SEEDS, *seeds.new("calls-over-a-database", 1)]:
        with Room() as room:
            found += drawn_over(room, seed, notified=notified)
    rare = [it for it in CAUSES if notified[it] < MIN_PER_CAUSE]
    return found + ([f"too few of {rare} in {dict(notified)}"] if rare else [])


def wrong_with(room):
    """Returns what SQLite finds wrong with the file."""
    return tables.wrong_in(room.database)


def as_rows():
    """SQLite reads the expected tables and rows in a filled database."""
    found = []
    with Room() as room:
        status, output, error = room.serve(filled())
        done = output.count(b"HTTP/1.1 200 OK") + output.count(b"HTTP/1.1 201 Created")
        if (status, error, done) != (0, b"", len(filled())):
            return [f"{status}, {output!r}, {error!r}"]
        for table, rows in tables.rows_in(room.database).items():
            found += [f"{table}: wanted {ROWS.get(table)}, got {rows}"] if rows != ROWS.get(table) else []
        said = tables.schema_in(room.database)
        for name, text in tables.named(tables.FORMATS[2]).items():
            if said.get(name) != "".join(text.split()):
                found += [f"{name}: wanted {text!r}, got {said.get(name)!r}"]
        found += wrong_with(room)
    return found


def vacuumed(file):
    with tables.opened(file) as database:
        database.execute("VACUUM")


def dumped(file):
    """Replaces a file by a new one, made of SQLite's `.dump`."""
    with tables.opened(file) as database:
        text = "".join(f"{line}\n" for line in database.iterdump())
    file.unlink()
    with tables.opened(file) as database:
        database.executescript(text)


def written_anew():
    """A file that SQLite rewrote between two calls of a stream is accepted, and the responses stay the same."""
    found = []
    for write in vacuumed, dumped:
        with Room() as room:
            found += [f"{write.__name__}: {it}" for it in drawn_over(room, SEEDS[0], lambda: write(room.database))]
    return found


# Rows that the constraints of the tables accept or reject, one after the other.
RULED = [
    ("INSERT INTO meta VALUES (2, 1, 0)", False),
    ("UPDATE meta SET serial = -1", False),
    ("UPDATE meta SET format = 7", True),
    ("INSERT INTO entity VALUES (1, 0, 'a', 'm', 3, 2147483647, 0, 'o', 'u')", True),
    ("INSERT INTO entity VALUES (2, 1, 'a', 'm', 4, 1, 1, 'o', 'u')", True),
    # An existing pair of kind and id, and an existing number.
    ("INSERT INTO entity VALUES (3, 0, 'a', 'm', 0, 1, 1, 'o', 'u')", False),
    ("INSERT INTO entity VALUES (1, 0, 'b', 'm', 0, 1, 1, 'o', 'u')", False),
    ("INSERT INTO entity VALUES (3, 2, 'b', 'm', 0, 1, 1, 'o', 'u')", False),
    ("INSERT INTO entity VALUES (3, 0, 'b', 'm', 5, 1, 1, 'o', 'u')", False),
    ("INSERT INTO entity VALUES (3, 0, 'b', 'm', 0, 0, 1, 'o', 'u')", False),
    ("INSERT INTO entity VALUES (3, 0, 'b', 'm', 0, 2147483648, 1, 'o', 'u')", False),
    ("INSERT INTO entity VALUES (3, 0, 'b', 'm', 0, 1, -1, 'o', 'u')", False),
    ("INSERT INTO entity VALUES (3, 0, 'b', 'm', 0, 1, 1, 'o', NULL)", False),
    ("INSERT INTO volume VALUES (1, 0, -5, -5, 7, 7)", True),
    ("INSERT INTO volume VALUES (1, 0, 0, 1, 0, 1)", False),
    ("INSERT INTO volume VALUES (3, 0, 0, 1, 0, 1)", False),
    ("INSERT INTO volume VALUES (1, 1, 1, 0, 0, 1)", False),
    ("INSERT INTO volume VALUES (1, 1, 0, 1, 1, 0)", False),
    ("INSERT INTO cell VALUES (1, 0, 0, '1', 5, 5)", True),
    ("INSERT INTO cell VALUES (1, 0, 0, '1', 5, 6)", False),
    ("INSERT INTO cell VALUES (1, 1, 0, '1', 5, 6)", False),
    ("INSERT INTO cell VALUES (1, 0, 1, '1', 6, 5)", False),
    ("INSERT INTO availability VALUES ('m', 2, 'v')", True),
    ("INSERT INTO availability VALUES ('m', 0, 'v')", False),
    ("INSERT INTO availability VALUES ('n', 3, 'v')", False),
    ("INSERT INTO subscription VALUES (4, 'a', 'm', 0, 'v', 0, 'u', 1, 0, -5, -5, 7, 7)", True),
    ("INSERT INTO subscription VALUES (1, 'b', 'm', 1, 'v', 1, 'u', 0, 1, 0, 1, 0, 1)", True),
    # An existing id, and an existing number.
    ("INSERT INTO subscription VALUES (6, 'a', 'm', 1, 'v', 1, 'u', 1, 1, 0, 1, 0, 1)", False),
    ("INSERT INTO subscription VALUES (4, 'c', 'm', 1, 'v', 1, 'u', 1, 1, 0, 1, 0, 1)", False),
    ("INSERT INTO subscription VALUES (6, 'c', 'm', -1, 'v', 1, 'u', 1, 1, 0, 1, 0, 1)", False),
    ("INSERT INTO subscription VALUES (6, 'c', 'm', 1, 'v', -1, 'u', 1, 1, 0, 1, 0, 1)", False),
    # A subscription for nothing, and values that are neither 0 nor 1.
    ("INSERT INTO subscription VALUES (6, 'c', 'm', 1, 'v', 1, 'u', 0, 0, 0, 1, 0, 1)", False),
    ("INSERT INTO subscription VALUES (6, 'c', 'm', 1, 'v', 1, 'u', 2, 1, 0, 1, 0, 1)", False),
    ("INSERT INTO subscription VALUES (6, 'c', 'm', 1, 'v', 1, 'u', 1, 2, 0, 1, 0, 1)", False),
    ("INSERT INTO subscription VALUES (6, 'c', 'm', 1, 'v', 1, 'u', 1, 1, 1, 0, 0, 1)", False),
    ("INSERT INTO subscription VALUES (6, 'c', 'm', 1, 'v', 1, 'u', 1, 1, 0, 1, 1, 0)", False),
    ("INSERT INTO subscription VALUES (6, 'c', 'm', 1, 'v', 1, NULL, 1, 1, 0, 1, 0, 1)", False),
    ("INSERT INTO subscription_cell VALUES (4, 0, '1', 5, 5)", True),
    ("INSERT INTO subscription_cell VALUES (1, 0, '1', 5, 6)", True),
    ("INSERT INTO subscription_cell VALUES (4, 0, '1', 5, 6)", False),
    ("INSERT INTO subscription_cell VALUES (6, 0, '1', 5, 6)", False),
    ("INSERT INTO subscription_cell VALUES (4, 1, '1', 6, 5)", False),
    ("INSERT INTO naming VALUES (1, 4)", True),
    # An entity references at most one subscription, and both exist.
    ("INSERT INTO naming VALUES (1, 1)", False),
    ("INSERT INTO naming VALUES (3, 4)", False),
    ("INSERT INTO naming VALUES (2, 6)", False),
    # A referenced subscription stays, and so do its rows in other tables.
    ("DELETE FROM subscription WHERE num = 4", False),
    ("UPDATE subscription SET notes = notes + 1 WHERE id = 'a'", True),
    ("UPDATE subscription SET notes = -1 WHERE id = 'a'", False),
    ("UPDATE subscription SET num = 6 WHERE num = 4", False),
    ("DELETE FROM subscription WHERE num = 1", True),
]


def rules_of_tables():
    """SQLite enforces the constraints of the tables that the program made. Removing an entity removes its rows in other
    tables and its reference. Removing a subscription removes its rows once no entity references it."""
    found = []
    with Room() as room:
        room.serve([])
        if room.query("SELECT * FROM meta") != [(1, 2, 0)]:
            found += [f"meta: {room.query('SELECT * FROM meta')}"]
        # Eight tables, six indexes of their keys, those on the ranges of cells, and that on references.
        if room.query("SELECT count(*) FROM sqlite_schema") != [(17,)]:
            found += [f"{room.query('SELECT name FROM sqlite_schema')}"]
        with tables.opened(room.database) as database:
            database.execute("PRAGMA foreign_keys = ON")
            for statement, is_accepted in RULED:
                try:
                    database.execute(statement)
                    got = True
                except sqlite3.IntegrityError:
                    got = False
                found += [f"{statement}: wanted {is_accepted}"] if got != is_accepted else []

            def compare(counts):
                for table, count in counts.items():
                    got = database.execute(f"SELECT count(*) FROM {table}").fetchone()[0]
                    found.extend([f"{table}: wanted {count}, got {got}"] if got != count else [])

            database.execute("DELETE FROM entity WHERE num = 1")
            compare({"volume": 0, "cell": 0, "naming": 0, "entity": 1, "subscription": 1, "subscription_cell": 1})
            database.execute("DELETE FROM subscription WHERE num = 4")
            compare({"entity": 1, "subscription": 0, "subscription_cell": 0})
    return found


# The responses to two availability changes that begin at the last serial but one.
LAST = (
    b"HTTP/1.1 200 OK\r\nContent-Type: application/json\r\nContent-Length: 125\r\nConnection: close\r\n\r\n"
    b'{"status":{"availability":"Down","uss":"uss-b"},'
    b'"version":"bec24f9ff872b851ce8df23fed0c9e6626b1b2760c2358888916a354292ff62f"}'
)
NONE_LEFT = (
    b"HTTP/1.1 503 Service Unavailable\r\nContent-Type: application/json\r\nContent-Length: 23\r\n"
    b'Connection: close\r\n\r\n{"message":"P15 LIMIT"}'
)


def at_serial(room, serial):
    """Makes the database, and sets its serial to that number."""
    room.serve([])
    with tables.opened(room.database) as database:
        database.execute(f"UPDATE meta SET serial = {serial}")


def max_serial():
    """A change is stored with the maximum serial, and no change after it."""
    found = []
    body = {"old_version": "", "availability": "Down"}
    with Room() as room:
        at_serial(room, 2**63 - 2)
        for uss, wanted in ("uss-b", LAST), ("uss-c", NONE_LEFT):
            target = f"{wire.AVAILABILITY}/{uss}"
            request = wire.request("PUT", target, "Bearer tok-v", wire.compact(body).encode(), ["Connection: close"])
            got = room.serve([request])
            found += [f"{uss}: wanted {wanted!r}, got {got!r}"] if got != (0, wanted, b"") else []
    with Room() as room:
        at_serial(room, 2**63 - 2)
        status, output, error = room.serve(filled()[2:3])
        found += [f"{status}, {output!r}, {error!r}"] if status or b" 201 " not in output or error else []
        got = room.query("SELECT num, kind, serial FROM entity")
        found += [f"{got}"] if got != [(2**63 - 1, 1, 2**63 - 1)] else []
        found += wrong_with(room)
    return found


def max_index():
    """A change gives a subscription the maximum index, together with the maximum serial. After it no change is
    possible, and so no index exceeds the maximum."""
    most, found = 2**63 - 1, []
    moved = ask("DELETE", f"{wire.INTENTS}/{NAMING}/{wire.ovn(8)}", "tok-b")
    again = ask("DELETE", f"{wire.INTENTS}/{INTENT}/{wire.ovn(2)}", "tok-a")
    reading = ask("GET", f"{wire.SUBSCRIPTIONS}/{NAMED}", "tok-b")
    with Room() as room:
        tables.make(room.database, 2, ROWS)
        with tables.opened(room.database) as database:
            database.execute(f"UPDATE meta SET serial = {most - 1}")
            database.execute(f"UPDATE subscription SET notes = {most - 1} WHERE num = 5")
        status, output, error = room.serve([moved, again, reading])
        answers = [it.partition(b"\r\n\r\n") for it in wire.answers_of(output)]
        if (status, len(answers), error) != (0, 3, b""):
            return [f"{status}, {output!r}, {error!r}"]
        told = [{"notification_index": most, "subscription_id": NAMED}], [{"notification_index": 2, "subscription_id": SUBSCRIPTION}]
        told = [{"subscriptions": it, "uss_base_url": url} for it, url in zip(told, ("https://b.example", "https://a.example/new"))]
        wanted = sorted(told, key=lambda it: it["uss_base_url"])
        got = json.loads(answers[0][2])["subscribers"]
        found += [f"told: wanted {wanted}, got {got}"] if got != wanted else []
        found += [f"the next: {answers[1]}"] if answers[1][2] != b'{"message":"P15 LIMIT"}' else []
        got = json.loads(answers[2][2])["subscription"]
        is_right = (got["notification_index"], got["version"]) == (most, wire.ovn(5))
        found += [] if is_right else [f"read: {got}"]
        got = room.query("SELECT num, serial, notes FROM subscription ORDER BY num")
        found += [f"{got}"] if got != [(5, 5, most), (6, 7, 2)] else []
        found += wrong_with(room)
    return found


def rejected():
    """These are rejected: a file that is no database, a directory, a name in a missing directory, a database that
    another process holds."""
    reading = [ask("GET", f"{wire.AVAILABILITY}/uss-b", "tok-a")]
    found = []
    with Room() as room:
        text = pathlib.Path(room.folder.name, "text")
        text.write_text("no database, but 4096 bytes of text\n" * 120)
        before = text.read_bytes()
        for database in (text, room.folder.name, f"{room.folder.name}/no/dss.db", ":memory:", "file:dss.db"):
            got = room.serve(reading, database=database)
            found += [f"{database}: {got!r}"] if got != (1, b"", STORE) else []
        # The program makes a file of that name before SQLite refuses the name.
        pathlib.Path("file:dss.db").unlink(missing_ok=True)
        found += ["the text was changed"] if text.read_bytes() != before else []
        room.serve(filled())
        held = subprocess.Popen(room.words(), stdin=subprocess.PIPE, stdout=subprocess.PIPE)
        # It has the database open once it has answered.
        held.stdin.write(reading[0])
        held.stdin.flush()
        found += [] if held.stdout.readline().startswith(b"HTTP/1.1 200") else ["the program that held it did not answer"]
        got = room.serve(reading)
        found += [f"while it is held: {got!r}"] if got != (1, b"", STORE) else []
        held.communicate(timeout=SECONDS)
        found += ["the program that held it failed"] if held.returncode else []
        got = room.serve(reading)
        found += [f"once it is free: {got!r}"] if got[0] or got[2] else []
    return found


def cut_short():
    """If a file reaches its maximum size in the middle of a stream, no acknowledged change is lost."""
    found = []
    made = [ask("PUT", f"{wire.AVAILABILITY}/uss-{it}", "tok-v", {"old_version": "", "availability": "Down"}) for it in range(99)]
    for most in (64, 96, 128, 192):
        with Room() as room:
            room.serve(made[:1])
            command = f"trap '' XFSZ; ulimit -f {most}; exec \"$@\""
            status, output, error = run(["bash", "-c", command, "bash", *room.words()], b"".join(made[1:]))
            answers = wire.answers_of(output)
            kept = 1 + sum(it.startswith(b"HTTP/1.1 200") for it in answers)
            found += [f"{most}: nothing failed"] if status == 0 and kept == 99 else []
            stood = room.query("SELECT count(*) FROM availability")[0][0] if status == 0 else None
            room.serve([])
            got = room.query("SELECT count(*) FROM availability")[0][0]
            found += [f"{most}: {kept} were acknowledged, {got} stand ({stood})"] if not kept <= got <= kept + 1 else []
            found += wrong_with(room)
    return found


CASES = {
    "worked-examples-over-a-database": worked_examples,
    "drawn-calls-over-a-database": drawn,
    "database-as-sqlite-reads-it": as_rows,
    "rules-of-the-tables": rules_of_tables,
    "max-serial-in-a-database": max_serial,
    "max-index-in-a-database": max_index,
    "databases-that-sqlite-wrote-anew": written_anew,
    "databases-that-are-rejected": rejected,
    "database-that-is-cut-short": cut_short,
}
