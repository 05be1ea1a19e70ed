"""`dss backup --live` copies a database that the service changes, and `dss verify` reads it without changing it."""
import errno
import os
import pathlib
import shutil
import signal
import subprocess
import tempfile
import time

from admin_port import STOP
from backup_command import DONE, EXISTS, READ, WRITE, Copied, told
from backups import SERIALS, Backed, changing, checked, content, last_serial, states_at
from databases import NOT_A_DSS
from devices import WRITES, Page, library
from program import BUILT, SECONDS, run
from sockets import difference

TOO_MANY, DAMAGED = (f"dss: backup: fault {it}\n".encode() for it in ("4 TooManyChanges", "5 Damaged"))
MEMORY = b"dss: memory\n"
# Requests that are answered while the disk of a backup is stuck.
MEANWHILE = 1000
# How often a backup is stopped in the middle, and for how long.
STOPS, PAUSE = 12, 0.3
# The bytes that a backup writes before a sync.
CHUNK = 1 << 20
# The memory in which a damaged backup is verified, in KiB. A wrong page number leads to no more.
ROOM = 800_000


def live(started, name):
    return [BUILT, "backup", "--live", "--db", str(started.folder / "dss.db"), str(started.backups / name)]


def backed_up(started, name, more=None):
    return run(live(started, name), more=more)


def verified(file):
    return run([BUILT, "verify", str(file)])


def verified_in_room(file):
    return run(["sh", "-c", f'ulimit -v {ROOM}; exec "$0" verify "$1"', BUILT, str(file)])


def unchanged(folder):
    """Returns the names, contents and times in a directory."""
    files = sorted(pathlib.Path(folder).iterdir())
    return [(it.name, it.read_bytes(), it.stat().st_mtime_ns) for it in files], os.stat(folder).st_mtime_ns


def same_report(backup):
    """Returns how the output of `verify` differs from that of `report`. Only `report` may change the files."""
    before = unchanged(backup)
    got = verified(backup)
    found = difference(f"{backup.name} after verify", unchanged(backup) == before, True)
    return found + difference(f"{backup.name}, verified", got, run([BUILT, "report", "--db", f"{backup}/dss.db"]))


def beside_changes():
    """Backups made beside clients that change all the time, and during checkpoints, contain every change that was
    answered before, and an airspace between two changes."""
    with Backed() as started:
        before, taken, found = started.checkpoints(), [], []
        with changing(started) as changers:
            until = time.monotonic() + SECONDS
            while (started.checkpoints() < before + 3 or len(taken) < 8) and time.monotonic() < until:
                least = last_serial(changers)
                taken.append((least, backed_up(started, f"b{len(taken)}")))
                time.sleep(0.05)
            checkpoints = started.checkpoints() - before
        found += [it.wrong for it in changers if it.wrong]
        found += [] if checkpoints >= 3 else [f"{checkpoints} checkpoints"]
        most = last_serial(changers)
        found += difference("names", started.all(), sorted(f"b{it}" for it in range(len(taken))))
        for at, (least, got) in enumerate(taken):
            backup = started.backups / f"b{at}"
            # `report` recovers a backup, so SQLite checks a copy of it.
            pair = shutil.copytree(backup, started.folder / backup.name) if backup.is_dir() else backup
            found += told(f"b{at}", got, DONE) + checked(pair, changers, least, most) + same_report(backup)
        return found


def has_begun(started, copying):
    """Waits until a backup has its temporary directory; returns whether it has, and has not ended."""
    until = time.monotonic() + SECONDS
    while copying.poll() is None and time.monotonic() < until:
        if any(it.endswith(".live") for it in started.all()):
            return True
        time.sleep(0.0002)
    return False


def paused():
    """A backup that is stopped in the middle, while clients change and checkpoints are made, is whole or fails by
    name."""
    with Backed() as started:
        found, made, halted, at = [], [], 0, -1
        with changing(started) as changers:
            # On a busy machine a backup may end before it is stopped, so there are more of them.
            while (at := at + 1) < STOPS or (2 * halted <= STOPS or not made) and at < 5 * STOPS:
                least, name = last_serial(changers), f"b{at}"
                copying = subprocess.Popen(live(started, name), stdout=subprocess.PIPE, stderr=subprocess.PIPE)
                began = has_begun(started, copying)
                time.sleep(0.001 * (at % 12))
                copying.send_signal(signal.SIGSTOP)
                before = started.checkpoints()
                until = time.monotonic() + PAUSE * 10
                while started.checkpoints() == before and time.monotonic() < until and at % 3:
                    time.sleep(0.01)
                time.sleep(0.01 * (at % 7))
                halted += began and copying.poll() is None
                copying.send_signal(signal.SIGCONT)
                output, error = copying.communicate(timeout=SECONDS)
                if error != TOO_MANY:
                    made.append((name, least))
                    found += told(name, (copying.returncode, output, error), DONE)
        found += [it.wrong for it in changers if it.wrong]
        most = last_serial(changers)
        found += difference("names", started.all(), sorted(name for name, _ in made))
        for name, least in made:
            found += checked(started.backups / name, changers, least, most)
        return found + ([] if halted > STOPS / 2 and made else [f"{halted} stops, {len(made)} backups"])


def unlike(backup, changers, least, most):
    """Returns what is wrong with a backup of a service that was killed. It may have changes that were not answered."""
    whole, [(serial,)], others, states = content(backup)
    found = difference("whole", (whole, others), ([("ok",)], True))
    found += [] if least <= serial <= most else [f"serial {serial}, which is not from {least} to {most}"]
    answered = states_at(changers, serial).items()
    lost = [uss for uss, (_, version) in answered if not SERIALS[version] <= SERIALS[states[uss][1]] <= serial]
    return found + difference("lost changes", lost, [])


def stopped_meanwhile():
    """A backup of a service that ends meanwhile has its last state, whether the service makes a last checkpoint or is
    killed."""
    found = []
    for at in range(8):
        with Backed() as started:
            with changing(started) as changers:
                time.sleep(0.2)
                least = last_serial(changers)
                copying = subprocess.Popen(live(started, "a"), stdout=subprocess.PIPE, stderr=subprocess.PIPE)
                time.sleep(0.002 * at)
                copying.send_signal(signal.SIGSTOP)
                if at % 2:
                    started.asked(STOP)
                    started.ended()
                else:
                    started.kill()
                copying.send_signal(signal.SIGCONT)
                output, error = copying.communicate(timeout=2 * SECONDS)
            got = told(f"{at}", (copying.returncode, output, error), DONE)
            most = last_serial(changers) + len(changers)
            found += got or [f"{at}: {it}" for it in unlike(started.backups / "a", changers, least, most)]
            found += got or same_report(started.backups / "a")
    return found


def cleared():
    """A backup that begins while the first byte of the log's header is cleared waits for the next header, and has the state
    of that log. If none comes, it has the state of the file alone."""
    with Backed() as started:
        with changing(started) as changers:
            while last_serial(changers) < 40:
                time.sleep(0.01)
        started.kill()
        found, database = [], started.folder / "dss.db"
        good = verified(database)
        alone = run([BUILT, "verify", str(shutil.copy(database, started.folder / "alone.db"))])
        log = database.with_name("dss.db-wal")
        before = log.read_bytes()
        # A service that writes a header, one that was killed, and one that ends and cuts the log.
        ends = {"next": lambda it: it.write(before[:1]), "none": lambda it: None, "cut": lambda it: it.truncate(0)}
        for name, wanted in ("next", good), ("none", alone), ("cut", alone):
            with log.open("r+b") as opened:
                opened.write(b"\0")
            copying = subprocess.Popen(live(started, name), stdout=subprocess.PIPE, stderr=subprocess.PIPE)
            found += [] if has_begun(started, copying) else [f"{name}: it did not begin"]
            time.sleep(0.5)
            found += difference(f"{name}: while it waits", (copying.poll(), name in started.all()), (None, False))
            with log.open("r+b") as opened:
                ends[name](opened)
            found += told(name, (copying.communicate(timeout=2 * SECONDS), copying.returncode), ((b"", b""), 0))
            found += difference(f"{name}: its state", verified(started.backups / name), wanted)
            log.write_bytes(before)
        return found


def touched():
    """A backup of a file without a log begins anew if the file changes meanwhile. If it changes all the time, the fault is
    reported, and nothing is left."""
    with Backed() as started, tempfile.TemporaryDirectory() as room:
        started.asked(STOP)
        started.ended()
        (started.folder / "dss.db-wal").unlink()
        # The backup itself changes the file: on a busy machine it may read the whole file before another process does.
        got = backed_up(started, "a", {"LD_PRELOAD": library("touch_files", room)})
        found = told("a file that changes", got, (1, b"", TOO_MANY)) + difference("what is left", started.all(), [])
        return found + told("afterwards", backed_up(started, "a"), DONE) + same_report(started.backups / "a")


def slow_disk():
    """The service answers while a backup waits for its disk."""
    with tempfile.TemporaryDirectory() as room:
        page = Page(room)
        with Backed() as started:
            page.set(waits=1)
            more = {**os.environ, **page.environment(library("fail_files", room))}
            with changing(started) as changers:
                least = last_serial(changers)
                copying = subprocess.Popen(live(started, "a"), stdout=subprocess.PIPE, stderr=subprocess.PIPE, env=more)
                until = time.monotonic() + SECONDS
                while not page.get("syncs") and time.monotonic() < until:
                    time.sleep(0.001)
                begun, answered = page.get("syncs"), sum(len(it.told) for it in changers)
                while sum(len(it.told) for it in changers) < answered + MEANWHILE and time.monotonic() < until:
                    time.sleep(0.001)
                answered = sum(len(it.told) for it in changers) - answered
                found = difference("syncs meanwhile", (begun, page.get("syncs"), copying.poll()), (1, 1, None))
                found += [] if answered >= MEANWHILE else [f"{answered} answers meanwhile"]
                found += difference("what is seen meanwhile", [it for it in started.all() if not it.startswith(".")], [])
                page.set()
                output, error = copying.communicate(timeout=SECONDS)
            found += told("the backup", (copying.returncode, output, error), DONE)
            chunks = (started.backups / "a" / "dss.db").stat().st_size // CHUNK
            found += [] if page.get("syncs") >= chunks > 1 else [f"{page.get('syncs')} more syncs for {chunks} chunks"]
            return found + checked(started.backups / "a", changers, least, last_serial(changers))


def full_disk():
    """If the disk is full at a write of a backup, nothing is left. Once there is room, a backup succeeds."""
    with tempfile.TemporaryDirectory() as room:
        page = Page(room)
        with Backed() as started:
            more, found = page.environment(library("fail_files", room)), []
            for at in (1, 2):
                page.set(at=at, row=1 << 30, error=errno.ENOSPC, kinds=WRITES)
                found += told(f"full from write {at} on", backed_up(started, "a", more), (1, b"", WRITE))
                found += difference("what is left", started.all(), [])
            page.set()
            return found + told("afterwards", backed_up(started, "a", more), DONE)


def each_call():
    """Each call on files fails in turn: a backup is whole, or the fault is reported and nothing is left."""
    found, ends = [], set()
    with Copied() as room, tempfile.TemporaryDirectory() as folder:
        failing, counted = library("fail_files", room.folder.name), pathlib.Path(room.folder.name, "calls")
        to = pathlib.Path(folder, "a")
        words = [BUILT, "backup", "--live", "--db", str(room.database), str(to)]
        found += told("without a failure", run(words, more={"LD_PRELOAD": failing, "FAIL_CALLS": str(counted)}), DONE)
        for at in range(1, int(counted.read_text()) + 1):
            shutil.rmtree(to, ignore_errors=True)
            status, output, error = run(words, more={"LD_PRELOAD": failing, "FAIL_AT": str(at)})
            ends.add(error)
            found += told(f"call {at}", (status, output), (1 if error else 0, b""))
            left = sorted(it.name for it in pathlib.Path(folder).iterdir())
            found += difference(f"call {at}, what is left", left, [] if error else ["a"])
            found += same_report(to) if not error else []
    wanted = {READ, WRITE, MEMORY, b""}
    return found + ([f"the faults {ends}"] if not ends <= wanted or not {READ, WRITE} <= ends else [])


def refused():
    """An existing destination, and a database that is rejected, are reported, and nothing is left."""
    with Copied() as room:
        folder = pathlib.Path(room.folder.name, "to")
        folder.mkdir()
        copy = folder / "a"
        back_up = lambda to, database=None: run([BUILT, "backup", "--live", "--db", str(database or room.database), str(to)])
        found = told("a copy", back_up(f"{copy}/"), DONE) + same_report(copy)
        found += difference("modes", [oct(it.stat().st_mode)[-3:] for it in (copy, *sorted(copy.iterdir()))], ["700", "600", "600"])
        found += told("a second one", back_up(copy), (1, b"", EXISTS))
        (folder / "file").write_text("mine")
        (folder / "link").symlink_to("nothing")
        found += told("a file", back_up(folder / "file"), (1, b"", EXISTS))
        found += told("a link", back_up(folder / "link"), (1, b"", EXISTS))
        found += told("no folder", back_up(folder / "none" / "a"), (1, b"", WRITE))
        none = folder / "none.db"
        found += told("no database", back_up(folder / "b", none), (1, b"", READ))
        found += told("a folder", back_up(folder / "b", folder), (1, b"", READ))
        found += told("no database to verify", verified(none), (1, b"", READ))
        journal = room.database.with_name("dss.db-journal")
        for given, wanted in (b"", DONE), (b"\0" * 512, DONE), (b"\xd9\xd5\x05\xf9", (1, b"", READ)):
            journal.write_bytes(given)
            found += told(f"a journal of {len(given)} bytes", back_up(folder / "b"), wanted)
            found += difference("its directory", (folder / "b").is_dir(), wanted == DONE)
            shutil.rmtree(folder / "b", ignore_errors=True)
        found += told("a journal, to verify", verified(room.database), (1, b"", READ))
        journal.unlink()
        alone = pathlib.Path(shutil.copytree(copy, folder / "alone"))
        (alone / "dss.db-wal").unlink()
        found += told("a backup without its log", verified(alone), (1, b"", DAMAGED))
        found += told("its file", verified(alone / "dss.db")[::2], (0, b""))
        (alone / "dss.db").unlink()
        found += told("a directory without a database", verified(alone), (1, b"", READ))
        alone.rmdir()
        empty = folder / "empty.db"
        empty.write_bytes(b"")
        found += told("an empty file", back_up(folder / "b", empty), (1, b"", NOT_A_DSS))
        empty.unlink()
        found += told("in its folder", run([BUILT, "backup", "--live", "--db", "dss.db", "here"], folder=room.folder.name), DONE)
        found += told("outside", verified(pathlib.Path(room.folder.name, "here")), verified(room.database))
        room.query("DROP TABLE naming")
        found += told("another database", back_up(folder / "b"), (1, b"", NOT_A_DSS))
        return found + difference("what is there", sorted(it.name for it in folder.iterdir()), ["a", "file", "link"])


def damaged():
    """A backup that was cut or changed is rejected, and is not changed. One that cannot be written is read."""
    with Backed() as started:
        with changing(started) as changers:
            while last_serial(changers) < 40:
                time.sleep(0.01)
        found = told("a backup", backed_up(started, "a"), DONE)
        backup, broken = started.backups / "a", started.folder / "broken"
        file, log = ((backup / it).read_bytes() for it in ("dss.db", "dss.db-wal"))
        good = verified(backup)
        found += difference("a whole one", (good[0], good[1].splitlines()[-1:], good[2]), (0, [b"serial %d" % last_serial(changers)], b""))
        found += difference("by its file", verified(backup / "dss.db"), good)

        def flipped(content, at):
            return content[:at] + bytes([content[at] ^ 0x40]) + content[at + 1 :]

        cases = [
            ("the file is cut", file[: len(file) // 2], log), ("a page is missing", file[:-4096], log[:0]),
            ("the log is cut", file, log[:-1]),
            ("the file's first byte", flipped(file, 0), log[:0]), ("the first page's kind", flipped(file, 100), log[:0]),
            ("a frame of the log", file, flipped(log, 32 + 24 + 100)), ("the last frame", file, flipped(log, len(log) - 100)),
            ("the page number of a frame", file, flipped(log, 32)), ("its last byte", file, flipped(log, 32 + 3)),
            ("the log's header", file, flipped(log, 20)), ("the log's first byte", file, flipped(log, 0)),
        ]
        for name, first, second in cases:
            broken.mkdir()
            (broken / "dss.db").write_bytes(first)
            (broken / "dss.db-wal").write_bytes(second)
            before = unchanged(broken)
            found += told(name, verified_in_room(broken), (1, b"", DAMAGED))
            found += difference(f"{name}: its files", unchanged(broken) == before, True)
            shutil.rmtree(broken)
        for it in backup.iterdir():
            it.chmod(0o400)
        backup.chmod(0o500)
        found += difference("one that is read-only", verified(backup), good)
        backup.chmod(0o700)
        return found


def running():
    """The database of a running service can be verified."""
    with Backed() as started:
        with changing(started) as changers:
            while last_serial(changers) < 20:
                time.sleep(0.01)
            least = last_serial(changers)
            status, output, error = verified(started.folder / "dss.db")
        return difference("beside changes", (status, int(output.split()[-1]) >= least, error), (0, True, b""))


CASES = {
    "live-backups-during-changes": beside_changes,
    "live-backups-paused": paused,
    "live-backups-of-an-ending-service": stopped_meanwhile,
    "live-backups-of-a-cleared-log": cleared,
    "live-backups-of-a-file-that-changes": touched,
    "live-backups-on-a-slow-disk": slow_disk,
    "live-backups-on-a-full-disk": full_disk,
    "live-backups-each-call": each_call,
    "live-backups-refused": refused,
    "verify-damaged": damaged,
    "verify-running": running,
}
