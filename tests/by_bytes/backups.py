"""Backups made while the service runs are whole beside clients that change all the time, or do not exist."""
import contextlib
import errno
import json
import math
import pathlib
import socket
import sqlite3
import statistics
import struct
import tempfile
import threading
import time

import wire
from devices import WRITES, Page, library
from lateness import again, exceeded
from admin_port import METRICS, AdminService, asks, said
from program import BUILT, SECONDS, run
from serving import until_closed
from sockets import difference

CHANGERS = 6
# A table of another program, so that the file is copied in many chunks: the number of rows, and the bytes of each.
ROWS, BYTES = 64, 100_000
# The most seconds that a client waits during a backup. It is seldom more than 0.01, but the machine does other work.
PATIENCE = 1.0
# The seconds in which clients change before the first backup. Where they wait long then, they also do so beside backups.
ALONE = 1
SERIALS = {wire.ovn(it): it for it in range(1, 60_000)}
TOKENS = {**wire.TOKENS, "tok-w": ("uss-w", {wire.ARBITRATION})}
NAMES = b"name: 1 to 64 letters, digits, - and _\n"
EXISTS = b"exists: there is a backup of that name\n"
BUSY = b"busy: another backup is running\n"
UNWRITTEN = b"failed: the backup directory cannot be written\n"
NO_FOLDER = b"dss: backup: fault 3 Write\n"


def backs_up(name):
    return asks("POST", f"/backup?name={name}", ["Content-Length: 0"])


def row(number):
    return bytes([number]) * BYTES


class Backed(AdminService):
    """`dss serve` with a backup directory on a file system in memory, where a sync takes no time."""

    def __init__(self, **more):
        super().__init__(**{"disk": "/dev/shm", "tokens": TOKENS, **more})
        self.backups = self.folder / "backups"
        self.backups.mkdir()
        self.options = ("--backup-dir", str(self.backups))
        database = self.folder / "dss.db"
        run([BUILT, "upgrade", "--db", str(database)])
        with contextlib.closing(sqlite3.connect(database)) as opened, opened:
            opened.execute("CREATE TABLE other (content BLOB)")
            opened.executemany("INSERT INTO other VALUES (?)", [(row(it),) for it in range(ROWS)])

    def checkpoints(self):
        """Returns the checkpoint counter in the log's salt."""
        with (self.folder / "dss.db-wal").open("rb") as log:
            return struct.unpack(">I", log.read(32)[16:20])[0]

    def all(self):
        return sorted(it.name for it in self.backups.iterdir())


class Changer(threading.Thread):
    """A client that sets the availability of its own USS again and again, until it is stopped."""

    def __init__(self, service, supplier):
        super().__init__()
        self.service, self.supplier = service, supplier
        self.ends, self.version, self.told, self.waits, self.wrong = False, "", [], [], None

    def change(self, connection, turn):
        state = ("Normal", "Down")[turn % 2]
        body = json.dumps({"old_version": self.version, "availability": state}).encode()
        began = time.monotonic()
        connection.sendall(wire.request("PUT", f"{wire.AVAILABILITY}/{self.supplier}", "Bearer tok-w", body))
        answer = connection.recv(1 << 16)
        self.waits.append((began, time.monotonic()))
        self.version = json.loads(answer.partition(b"\r\n\r\n")[2])["version"]
        self.told.append((SERIALS[self.version], state, self.version))

    def run(self):
        try:
            for start in range(0, 1 << 20, wire.MAX_REQUESTS):
                with self.service.connect() as connection:
                    for turn in range(start, start + wire.MAX_REQUESTS):
                        if self.ends:
                            return
                        self.change(connection, turn)
        except (OSError, ValueError, KeyError) as error:
            self.wrong = repr(error)


@contextlib.contextmanager
def changing(service):
    """Runs clients that change all the time."""
    changers = [Changer(service, f"uss-{it}") for it in range(CHANGERS)]
    for it in changers:
        it.start()
    try:
        yield changers
    finally:
        for it in changers:
            it.ends = True
        for it in changers:
            it.join()


def longest_wait(changers, since, until):
    """Returns the longest time that a client waited for a response which it did not have yet at some moment between these."""
    waits = [it for changer in changers for it in list(changer.waits)]
    return max((ended - began for began, ended in waits if began < until and ended > since), default=0)


def last_serial(changers):
    return max((it.told[-1][0] for it in changers if it.told), default=0)


def content(backup):
    """Returns what SQLite reads in a backup: its integrity, its serial, the rows of the other table, and the
    availabilities."""
    with contextlib.closing(sqlite3.connect(f"file:{backup}/dss.db?mode=ro", uri=True)) as database:
        ask = lambda text: database.execute(text).fetchall()
        states = {uss: (state, version) for uss, state, version in ask("SELECT uss, state, version FROM availability")}
        others = [it for (it,) in ask("SELECT content FROM other ORDER BY content")]
        return ask("PRAGMA integrity_check"), ask("SELECT serial FROM meta"), others == [row(it) for it in range(ROWS)], states


def states_at(changers, serial):
    """Returns the availabilities after the change with that serial."""
    of = {}
    for it in changers:
        for at, state, version in it.told:
            if at <= serial:
                of[it.supplier] = (("Unknown", "Normal", "Down").index(state), version)
    return of


def checked(backup, changers, least, most):
    """Returns what is wrong with a backup that was requested after change `least` was answered, and was complete when
    change `most` was made."""
    whole, [(serial,)], others, states = content(backup)
    found = difference("whole", whole, [("ok",)]) + difference("the other table", others, True)
    found += [] if least <= serial <= most else [f"serial {serial}, which is not from {least} to {most}"]
    found += difference("availabilities", states, states_at(changers, serial))
    status, report, error = run([BUILT, "report", "--db", f"{backup}/dss.db"])
    last = report.splitlines()[-1:] if report else []
    found += difference("the report", (status, last, error), (0, [b"serial %d" % serial], b""))
    return [f"{backup.name}: {it}" for it in found]


def beside_changes():
    """Backups made beside clients that change all the time, and during checkpoints, contain an airspace between two
    changes. They contain all changes that were answered before. No client waits long."""
    with Backed() as started:
        before, taken, times, found = started.checkpoints(), [], [], []
        with changing(started) as changers:
            time.sleep(ALONE)
            alone = longest_wait(changers, 0, math.inf)
            until = time.monotonic() + SECONDS
            while (started.checkpoints() < before + 3 or len(taken) < 8) and time.monotonic() < until:
                least = last_serial(changers)
                began = time.monotonic()
                answer = started.asked(backs_up(f"b{len(taken)}"))
                taken.append((least, answer))
                times.append((began, time.monotonic()))
                time.sleep(0.05)
            checkpoints = started.checkpoints() - before
        found += [it.wrong for it in changers if it.wrong]
        found += [] if checkpoints >= 3 else [f"{checkpoints} checkpoints"]
        # Beside most backups, since a machine that stands still does so beside some.
        waited = statistics.median(longest_wait(changers, *it) for it in times)
        found += exceeded(waited, max(PATIENCE, 2 * alone), "a client waited beside a backup")
        most = last_serial(changers)
        found += difference("names", started.all(), sorted(f"b{it}" for it in range(len(taken))))
        for at, (least, answer) in enumerate(taken):
            backup = started.backups / f"b{at}"
            size = sum(it.stat().st_size for it in backup.iterdir())
            found += difference(f"b{at}", answer, said(200, b"made: %d bytes\n" % size))
            found += checked(backup, changers, least, most)
        return found


def refusals():
    """Each refused backup has its status, and makes no file."""
    with Backed() as started:
        table = [
            ("no name", "/backup", 400, NAMES),
            ("an empty name", "/backup?name=", 400, NAMES),
            ("a dot", "/backup?name=a.b", 400, NAMES),
            ("a slash", "/backup?name=a/b", 400, NAMES),
            ("a sign that is escaped", "/backup?name=a%2Db", 400, NAMES),
            ("a second name", "/backup?name=a&name=b", 400, NAMES),
            ("another field", "/backup?nam=a", 400, NAMES),
            ("a long name", f"/backup?name={65 * 'a'}", 400, NAMES),
            ("another path", "/backups?name=a", 404, b"no such path\n"),
        ]
        found = []
        for name, target, status, body in table:
            found += difference(name, started.asked(asks("POST", target)), said(status, body))
        found += difference("a GET", started.asked(asks("GET", "/backup?name=a")), said(405, b"method not allowed\n", allow="POST"))
        found += difference("what was made", started.all(), [])
        longest = 64 * "a"
        found += difference("a name", started.asked(backs_up("Az-09_"))[:12], b"HTTP/1.1 200")
        found += difference("the longest name", started.asked(backs_up(longest))[:12], b"HTTP/1.1 200")
        found += difference("again", started.asked(backs_up("Az-09_")), said(409, EXISTS))
        found += difference("modes", [oct(it.stat().st_mode)[-3:] for it in (started.backups / longest).iterdir()], ["600", "600"])
        (started.backups / "file").write_text("")
        found += difference("a file of that name", started.asked(backs_up("file")), said(409, EXISTS))
        found += difference("all", started.all(), sorted(["Az-09_", longest, "file"]))
    with AdminService() as plain:
        found += difference("without a folder", plain.asked(backs_up("a")), said(404, b"no such path\n"))
    return found


def folders():
    """If the backup directory does not exist or cannot be written, `serve` does not start: it prints one line and
    closes the database."""
    found = []
    with tempfile.TemporaryDirectory() as room:
        folder = pathlib.Path(room)
        (folder / "tokens.toml").write_text(wire.token_file())
        (folder / "file").write_text("")
        words = [BUILT, "serve", "--tokens", f"{folder}/tokens.toml", "--db", f"{folder}/dss.db", "--port", "1", "--admin-port", "2"]
        for name in ("missing", "file"):
            found += difference(name, run([*words, "--backup-dir", str(folder / name)]), (1, b"", NO_FOLDER))
        found += difference("the database", run([BUILT, "report", "--db", f"{folder}/dss.db"]), (0, b"serial 0\n", b""))
    return found


def one_at_a_time():
    """While a backup is made, another one is refused, and clients and operators get responses. An operator who
    disconnects aborts nothing."""
    with Backed() as started:
        found = []
        with started.paused():
            first, second, gone = started.operator(), started.operator(), started.operator()
            first.sendall(backs_up("first"))
            second.sendall(backs_up("second"))
            gone.sendall(METRICS)
        answers = sorted([until_closed(first), until_closed(second)])
        found += difference("the one that is made", answers[0].partition(b"made: ")[0][:12], b"HTTP/1.1 200")
        found += difference("the one that is refused", answers[1], said(503, BUSY))
        found += difference("figures meanwhile", until_closed(gone)[:12], b"HTTP/1.1 200")
        with started.operator() as leaving:
            leaving.sendall(backs_up("left"))
            leaving.setsockopt(socket.SOL_SOCKET, socket.SO_LINGER, struct.pack("ii", 1, 0))
            # A reset takes away what was not read.
            started.until_read(leaving)
        until = time.monotonic() + SECONDS
        while "left" not in started.all() and time.monotonic() < until:
            time.sleep(0.01)
        found += difference("the one that nobody waits for", "left" in started.all(), True)
        return found + difference("half made", [it for it in started.all() if it.startswith(".")], [])


def until_begun(started, name):
    """Waits until the backup of that name is in progress or made."""
    end = time.monotonic() + SECONDS
    while time.monotonic() < end and not any(it.startswith(".") or it == name for it in started.all()):
        pass


def killed():
    """If `serve` is killed during a backup, the next start removes the incomplete file. Complete backups stay."""
    with Backed() as started:
        found = difference("one before", started.asked(backs_up("before"))[:12], b"HTTP/1.1 200")
        halves = at = 0
        # On a busy machine few kills come while a backup is made, so there are more of them.
        while at < 40 or not halves and at < 400:
            with started.operator() as operator:
                operator.sendall(backs_up(f"k{at}"))
                if at % 2:
                    until_begun(started, f"k{at}")
                else:
                    time.sleep(0.0005 * (at % 40))
                started.kill()
            halves += any(it.startswith(".") for it in started.all())
            for name in started.all():
                if not name.startswith("."):
                    found += difference(f"{name}", content(started.backups / name)[0], [("ok",)])
            started.start()
            found += difference(f"after kill {at}", [it for it in started.all() if it.startswith(".")], [])
            at += 1
        found += [] if halves else ["no kill came while one was being made"]
        return found + difference("the one before", "before" in started.all(), True)


def full_disk():
    """If the disk fills up at the first or a later write of a backup, the response says so and no file is left. Once
    there is room, a backup succeeds."""
    with tempfile.TemporaryDirectory() as room:
        page = Page(room)
        with Backed(more=page.environment(library("fail_files", room))) as started:
            found = []
            for at in (1, 2, 3, 5):
                page.set(at=at, row=1 << 30, error=errno.ENOSPC, kinds=WRITES)
                answer = started.asked(backs_up("full"))
                page.set()
                found += difference(f"full from write {at} on", answer, said(503, UNWRITTEN))
                found += difference("what is left", started.all(), [])
            return found + difference("afterwards", started.asked(backs_up("full"))[:12], b"HTTP/1.1 200")


CASES = {
    "backups-during-changes": again(beside_changes),
    "backups-refused": refusals,
    "backups-in-no-directory": folders,
    "backups-one-at-a-time": one_at_a_time,
    "backups-killed": killed,
    "backups-on-a-full-disk": full_disk,
}
