"""`dss backup` makes a whole backup of a database or none. SQLite and `report` read it like the database itself."""
import contextlib
import fcntl
import pathlib
import resource
import signal
import subprocess

import tables
from databases import NOT_A_DSS, STORE, Room, filled
from devices import library
from program import BUILT, SECONDS, run

EXISTS, READ, WRITE = (f"dss: backup: fault {it}\n".encode() for it in ("1 Exists", "2 Read", "3 Write"))
MEMORY, NOT_CLOSED = b"dss: memory\n", b"dss: db: fault\n"
DONE = (0, b"", b"")
# The position of SQLite's lock, and a number of bytes that is less than a backup has and more than opening a database
# writes.
LOCK_AT, LOCK_LENGTH = 1 << 30, 512
FEW_BYTES = 8_192


class Copied(Room):
    """A room with a filled database."""

    def __enter__(self):
        super().__enter__()
        self.serve(filled())
        self.copy = pathlib.Path(self.folder.name, "copy.db")
        self.begun = pathlib.Path(self.folder.name, "copy.db.begun")
        return self

    def backup(self, to=None, more=None):
        return run([BUILT, "backup", "--db", str(self.database), str(to or self.copy)], more=more)

    def bounded(self, dies):
        """Returns the status and error of a backup that may write only few bytes to a file, and is killed or gets an
        error beyond that."""

        def bound():
            signal.signal(signal.SIGXFSZ, signal.SIG_DFL if dies else signal.SIG_IGN)
            resource.setrlimit(resource.RLIMIT_FSIZE, (FEW_BYTES, FEW_BYTES))

        words = [BUILT, "backup", "--db", str(self.database), str(self.copy)]
        done = subprocess.run(words, capture_output=True, preexec_fn=bound, restore_signals=False, timeout=SECONDS)
        return done.returncode, done.stderr

    def wrong_in_backup(self, copy=None):
        """Returns how a backup differs from the database."""
        copy = copy or self.copy
        found = tables.wrong_in(copy)
        rows, wanted = tables.rows_in(copy), tables.rows_in(self.database)
        found += [f"rows: wanted {wanted}, got {rows}"] if rows != wanted else []
        reports = [run([BUILT, "report", "--db", str(it)]) for it in (self.database, copy)]
        found += [f"reports: {reports}"] if reports[0] != reports[1] or reports[0][0] else []
        return found

    def nothing_left(self):
        return [f"{it} is there" for it in (self.copy, self.begun) if it.exists()]


def told(name, got, wanted):
    return [] if got == wanted else [f"{name}: wanted {wanted!r}, got {got!r}"]


def whole():
    """A backup has the bytes and the permissions of the database, whether its name is in the same directory or another.
    It removes the incomplete file of an aborted backup."""
    with Copied() as room:
        room.database.chmod(0o640)
        found = told("a copy", room.backup(), DONE) + told("its bytes", room.copy.read_bytes(), room.database.read_bytes())
        found += told("its access", room.copy.stat().st_mode & 0o777, 0o640)
        found += room.wrong_in_backup()
        # Reading the database has left a log beside it.
        for end in "", "-wal":
            pathlib.Path(f"{room.copy}{end}").unlink(missing_ok=True)
        room.begun.write_bytes(b"x" * 100_000)
        found += told("after one that was broken off", room.backup(), DONE) + room.wrong_in_backup()
        words = [BUILT, "backup", "--db", "dss.db", "again.db"]
        found += told("in its folder", run(words, folder=room.folder.name), DONE)
        again = pathlib.Path(room.folder.name, "again.db")
        return found + room.wrong_in_backup(again) + [f"{room.begun} is there"] * room.begun.exists()


def with_log():
    """A backup includes changes that are only in the log beside a database, as after a crash."""
    with Copied() as room:
        with contextlib.closing(tables.sqlite3.connect(room.database)) as database:
            database.execute("PRAGMA journal_mode = WAL")
            database.execute("PRAGMA wal_autocheckpoint = 0")
            database.execute("UPDATE availability SET state = 1")
            database.commit()
            file, log = (room.database.with_name(it).read_bytes() for it in ("dss.db", "dss.db-wal"))
        room.database.write_bytes(file)
        room.database.with_name("dss.db-wal").write_bytes(log)
        found = told("a copy", room.backup(), DONE) + room.wrong_in_backup()
        found += told("the state", tables.rows_in(room.copy)["availability"][0][1], 1)
        return found + ([] if log else ["the log was empty"])


def refused():
    """An existing destination, and a database that is rejected, are reported, and no file is left."""
    found = []
    with Copied() as room:
        for end in "", "-wal", "-journal":
            taken = pathlib.Path(f"{room.copy}{end}")
            taken.write_bytes(b"mine")
            found += told(f"a file {taken.name}", room.backup(), (1, b"", EXISTS)) + told("it", taken.read_bytes(), b"mine")
            taken.unlink()
        found += told("a link to nothing", (room.copy.symlink_to("nothing"), room.backup())[1], (1, b"", EXISTS))
        room.copy.unlink()
        found += told("the database itself", room.backup(room.database), (1, b"", EXISTS))
        found += told("its log", room.backup(f"{room.database}-wal"), (1, b"", EXISTS))
        found += told("no folder", room.backup(f"{room.folder.name}/none/copy.db"), (1, b"", WRITE))
        with room.database.open("r+b") as file:
            fcntl.lockf(file, fcntl.LOCK_EX, LOCK_LENGTH, LOCK_AT)
            found += told("a database in use", room.backup(), (1, b"", STORE))
        found += room.nothing_left()
        none = pathlib.Path(room.folder.name, "none.db")
        got = run([BUILT, "backup", "--db", str(none), str(room.copy)])
        found += told("no database", got, (1, b"", STORE)) + ([f"{none} was made"] if none.exists() else [])
        found += told("a folder", run([BUILT, "backup", "--db", room.folder.name, str(room.copy)]), (1, b"", STORE))
        room.query("DROP TABLE naming")
        return found + told("another database", room.backup(), (1, b"", NOT_A_DSS)) + room.nothing_left()


def broken_off():
    """A backup that cannot be written is reported and leaves nothing. A killed one leaves no file at the destination."""
    with Copied() as room:
        if room.database.stat().st_size <= FEW_BYTES:
            return ["the database is too small"]
        found = told("a full disk", room.bounded(dies=False), (1, WRITE)) + room.nothing_left()
        found += told("killed", room.bounded(dies=True), (-signal.SIGXFSZ, b""))
        found += [f"{room.copy} is there"] if room.copy.exists() else []
        found += [] if room.begun.exists() else ["it was killed before it wrote"]
        return found + told("after it", room.backup(), DONE) + room.wrong_in_backup()


def each_call():
    """Each call on files fails in turn: a backup is whole, or the fault is reported and no backup exists."""
    found, ends = [], set()
    with Copied() as room:
        failing, counted = library("fail_files", room.folder.name), pathlib.Path(room.folder.name, "calls")
        room.backup(more={"LD_PRELOAD": failing, "FAIL_CALLS": str(counted)})
        for at in range(1, int(counted.read_text()) + 1):
            room.copy.unlink(missing_ok=True)
            status, output, error = room.backup(more={"LD_PRELOAD": failing, "FAIL_AT": str(at)})
            ends.add(error)
            found += told(f"call {at}, its output", output, b"")
            found += told(f"call {at}, its status", status, 1 if error else 0)
            found += [f"call {at}: {it}" for it in (room.nothing_left() if error else room.wrong_in_backup())]
    wanted = {STORE, WRITE, NOT_CLOSED, b"", READ, MEMORY}
    return found + ([f"the faults {ends}"] if not ends <= wanted or WRITE not in ends else [])


CASES = {
    "backup-whole": whole,
    "backup-with-log": with_log,
    "backup-refused": refused,
    "backup-aborted": broken_off,
    "backup-each-call": each_call,
}
