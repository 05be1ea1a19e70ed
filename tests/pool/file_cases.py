"""Cases of the files of a pool: `dss follow` writes them, and an instance starts from the newest one."""
import base64
import concurrent.futures
import contextlib
import fcntl
import http.client
import json
import pathlib
import random
import re
import resource
import shutil
import signal
import sqlite3
import subprocess
import time

from cases import SETTINGS, TOKENS, Judge, admin, get, put, with_pool
from doors import Door, answer, create, until
from ports import free_port

NAME = re.compile(r"\d{20}-\d{20}-\d{20}\.db")
COMPACTED = "dss: pool: compacted: etcd no longer has the entries behind the start; use --files with a newer file"
NO_FILE = "dss: pool: files: the directory has no file REVISION-SETTINGS-BEGINNING.db; run dss follow or dss begin"
UNUSABLE = "dss: pool: files: cannot read or write the directory; check that it exists, its permissions and its disk"
BUSY = "dss: pool: files: another dss follow or dss begin uses the directory; wait until it ends"
NO_AIRSPACE = "dss: pool: files: the newest file is gone, or has no airspace; move it away, and start again"
NO_CHAIN = "dss: pool: files: the chain of the newest file is gone or damaged; copy the file and its chain again"
OTHER = "its name or its content is that of another file"
SILENT = "dss: pool: etcd does not answer; check --pool and that a majority of its members runs"


def folder_of(pool, name="files"):
    folder = pathlib.Path(pool.room) / name
    folder.mkdir()
    return folder


def names(folder):
    """Returns the names of the files of a pool in a directory, the oldest first."""
    return sorted(it.name for it in folder.iterdir() if NAME.fullmatch(it.name))


def chain_of(name):
    """Returns the name of the chain of a file."""
    return f"{name.removesuffix('.db')}.chain"


def with_chains(*files):
    """Returns the names of files and of their chains. The first file of a pool has none."""
    return {*files, *(chain_of(it) for it in files if int(it[:20]))}


def copy_file(file, folder):
    """Copies a file of a pool to a directory, its chain first."""
    for it in file.with_suffix(".chain"), file:
        shutil.copy(it, folder)


def followed(pool, folder):
    """Runs `dss follow`. Returns the name that it prints, which is that of the newest file."""
    status, printed, errors = pool.follow(folder, TOKENS)
    assert (status, errors) == (0, ""), (status, errors)
    assert NAME.fullmatch(printed.removesuffix("\n")), printed
    kept = names(folder)
    assert kept[-1] == printed.removesuffix("\n") and len(kept) <= 2, (kept, printed)
    assert {it.name for it in folder.iterdir() if not it.name.endswith("-wal")} - {"turn"} == {"lock", *with_chains(*kept)}
    return kept[-1]


def started(pool, name, folder):
    """Starts an instance from the files, and returns it once it answers."""
    door = pool.add(name, TOKENS, options=("--files", folder))
    pool.ready([door])
    return door


def pages(port):
    """Returns all pages of the airspace that an instance holds."""
    found, after = [], ""
    while True:
        status, body = admin(port, f"/airspace{after}")
        assert status == 200, body
        found.append(json.loads(body))
        if "next" not in found[-1]:
            return found
        after = f"?after={found[-1]['next']}"


def same_pages(ports):
    """Waits until two instances hold the same airspace. A call of unknown outcome may be made late."""
    until(lambda: pages(ports[0]) == pages(ports[1]), "the airspaces differ")


class Killer:
    """Kills processes at any time of their run, some of them before they end."""

    def __init__(self, seed, took):
        self.draw, self.took, self.killed = random.Random(seed), took, 0

    def kill(self, process):
        """Kills a process at a drawn time. After one that has ended before, the times are shorter."""
        with contextlib.suppress(subprocess.TimeoutExpired):
            process.wait(self.draw.uniform(0, self.took))
        process.kill()
        process.communicate()
        self.killed += process.returncode < 0
        self.took *= 1 if process.returncode < 0 else 0.9


def written(pool):
    """The revision of the newest file grows with the changes, the two newest are kept, and an instance goes on from there."""
    judge, folder = Judge(pool, 23), folder_of(pool)
    first = followed(pool, folder)
    assert names(folder) == [first]
    judge.calls(150)
    second = followed(pool, folder)
    assert names(folder) == [first, second]
    assert followed(pool, folder) == second, "a file without a new entry"
    judge.calls(150)
    third = followed(pool, folder)
    assert names(folder) == [second, third]
    judge.calls(100)
    late = started(pool, "late", folder)
    judge.calls(300)
    judge.mark_all()
    late.kill()
    judge.calls(50, pool.doors[:3])
    late.start()
    judge.mark_all()
    assert followed(pool, folder) > third


def idle(pool):
    """Changes without an entry make a new file once they are 1,000, so that etcd can drop them."""
    folder = folder_of(pool)
    create(pool.doors[0], put(95))
    first = followed(pool, folder)
    key, value = (base64.b64encode(it).decode() for it in (b"in/other", b"no entry"))
    revisions = [int(first[:20])]

    def change(_):
        """Makes a change without an entry, if etcd answers."""
        with contextlib.suppress(OSError):
            made = pool.cluster.ask(0, "/v3/kv/put", {"key": key, "value": value}, 60)
            revisions.append(int(made["header"]["revision"]))

    def fill(count):
        """Makes changes until there are so many since the first file. Several at once share a sync of etcd's disk."""
        with concurrent.futures.ThreadPoolExecutor(16) as threads:
            until(lambda: list(threads.map(change, range(16))) and max(revisions) - revisions[0] >= count, "etcd makes no changes")
    fill(900)
    assert followed(pool, folder) == first
    fill(1_000)
    second = followed(pool, folder)
    assert names(folder) == [first, second] and int(second[:20]) - int(first[:20]) >= 1_000, (first, second)
    door = started(pool, "late", folder)
    assert answer(door, get(95))[0] == 200


def same_airspace(pool):
    """An instance that starts from a file holds the airspace of one that reads the log from its beginning."""
    judge, folder = Judge(pool, 29), folder_of(pool)
    judge.calls(200)
    followed(pool, folder)
    judge.calls(200)
    ports = [free_port(), free_port()]
    pool.add("whole", TOKENS, options=("--admin-port", ports[0]))
    pool.add("from-file", TOKENS, options=("--admin-port", ports[1], "--files", folder))
    pool.ready()
    judge.mark_all()
    same_pages(ports)


def compacted(pool):
    """After a compaction to the older file an instance starts from the files, and one without them ends."""
    judge, folder, old = Judge(pool, 31), folder_of(pool), folder_of(pool, "old")
    judge.calls(100)
    first = followed(pool, folder)
    judge.calls(50)
    second = followed(pool, folder)
    judge.mark_all()
    pool.cluster.control("compaction", str(int(first[:20])))
    judge.calls(50)
    started(pool, "late", folder)
    assert pool.add("bare", TOKENS).end() == (1, COMPACTED)
    pool.doors.pop()
    judge.calls(100)
    # the older file is the last one that is of use
    copy_file(folder / first, old)
    pool.add("older", TOKENS, options=("--files", old))
    pool.ready()
    judge.mark_all()
    third = followed(pool, folder)
    assert names(folder) == [second, third]
    judge.mark_all()
    pool.cluster.control("compaction", str(int(third[:20])))
    assert pool.add("too-late", TOKENS, options=("--files", old)).end() == (1, COMPACTED)
    pool.doors.pop()
    assert pool.follow(old, TOKENS) == (1, "", f"{COMPACTED}\n")
    assert names(old) == [first]
    empty = folder_of(pool, "empty")
    assert pool.follow(empty, TOKENS) == (1, "", f"{COMPACTED}\n")
    assert [it.name for it in empty.iterdir()] == ["lock"]
    judge.calls(100)
    judge.mark_all()
    assert followed(pool, folder) > third


def refused(pool):
    """Directories and files that cannot be used end the commands, with a message, and change nothing."""
    folder, empty, none = folder_of(pool), folder_of(pool, "empty"), pathlib.Path(pool.room) / "none"
    serve = lambda where, **more: pool.fails("i9", TOKENS, options=("--files", where), **more)
    assert serve(empty) == (1, [NO_FILE])
    assert serve(none) == (1, [UNUSABLE])
    assert pool.follow(none, TOKENS) == (1, "", f"{UNUSABLE}\n")
    status, _, errors = pool.follow(none, TOKENS, options=("--verbose",))
    assert status == 1 and errors.splitlines()[-2] == UNUSABLE, errors
    assert errors.splitlines()[-1].startswith(f"dss: cause: {none}: "), errors
    create(pool.doors[0], put(90))
    first = followed(pool, folder)
    create(pool.doors[0], put(91))
    second = followed(pool, folder)
    # the files are of a pool with another salt
    assert serve(folder, salt="another") == (1, [SETTINGS])
    assert pool.follow(folder, TOKENS, salt="another") == (1, "", f"{SETTINGS}\n")
    assert names(folder) == [first, second]
    # another process writes
    with open(folder / "lock", "w") as lock:
        fcntl.flock(lock, fcntl.LOCK_EX)
        assert pool.follow(folder, TOKENS) == (1, "", f"{BUSY}\n")
    # the settings are compared before the chain is read
    chain = folder / chain_of(second)
    chain.rename(folder / "moved")
    assert serve(folder, salt="another") == (1, [SETTINGS])
    assert pool.follow(folder, TOKENS, salt="another") == (1, "", f"{SETTINGS}\n")
    (folder / "moved").rename(chain)
    # what a stopped process left, also a chain without its file, and files of others
    lone = chain_of(f"{1:020}{first[20:]}")
    for name in "next.db", "next.db-wal", "next.db.begun", "next.chain", lone, "other.db", f"{first}.copy":
        (folder / name).write_bytes(b"x" * 9_000)
    create(pool.doors[0], put(92))
    status, printed, errors = pool.follow(folder, TOKENS)
    third = printed.removesuffix("\n")
    assert (status, errors) == (0, "") and names(folder) == [second, third] and third > second, (status, printed, errors)
    assert {it.name for it in folder.iterdir()} == {"lock", "turn", "other.db", f"{first}.copy"} | with_chains(second, third)
    two = [pool.add(f"late-{it}", TOKENS, options=("--files", folder)) for it in range(2)]
    pool.ready(two)
    # a damaged file: the one before is of use
    whole = (folder / third).read_bytes()
    (folder / third).write_bytes(whole[: len(whole) // 2])
    status, lines = serve(folder)
    assert (status, lines[-2:]) == (1, [NO_CHAIN, f"dss: cause: {folder / third}: {OTHER}"]), (status, lines)
    (folder / third).unlink()
    door = started(pool, "late", folder)
    assert [answer(door, get(it))[0] for it in (90, 91, 92)] == [200] * 3


def with_tables(file, *statements):
    """Makes a database with SQLite."""
    with contextlib.closing(sqlite3.connect(file)) as database:
        for it in statements:
            database.execute(it)


# How a file is made that has no airspace.
WITHOUT_AIRSPACE = {
    "0 bytes": lambda file: file.write_bytes(b""),
    "other bytes": lambda file: file.write_bytes(b"x" * 9_000),
    "no table": lambda file: with_tables(file, "PRAGMA user_version = 1"),
    "another table": lambda file: with_tables(file, "CREATE TABLE other (value)"),
    "a directory": lambda file: file.mkdir(),
    "a link to nothing": lambda file: file.symlink_to("nothing"),
}


def without_airspace(pool):
    """A newest file without an airspace is refused with its name, and nothing is changed. The one before is of use."""
    folder = folder_of(pool)
    create(pool.doors[0], put(96))
    first = followed(pool, folder)
    create(pool.doors[0], put(97))
    second = followed(pool, folder)
    file = folder / f"{int(second[:20]) + 1:020}{second[20:]}"
    shutil.copy(folder / chain_of(second), folder / chain_of(file.name))
    content = lambda: file.read_bytes() if file.is_file() else None
    for name, make in WITHOUT_AIRSPACE.items():
        make(file)
        before = content()
        status, lines = pool.fails("i9", TOKENS, options=("--files", folder))
        assert (status, lines[-2:-1]) == (1, [NO_AIRSPACE]) and lines[-1].startswith(f"dss: cause: {file}: "), (name, status, lines)
        status, printed, errors = pool.follow(folder, TOKENS)
        assert (status, printed, errors.splitlines()) == (1, "", lines[-2:]), (name, status, printed, errors)
        assert content() == before and names(folder) == [first, second, file.name], (name, names(folder))
        assert not (folder / "nothing").exists() and not (folder / f"{file.name}-wal").exists(), name
        file.rmdir() if file.is_dir() else file.unlink()
    door = started(pool, "late", folder)
    assert [answer(door, get(it))[0] for it in (96, 97)] == [200] * 2


def waits_for(process, file):
    """Returns true once a process waits for a lock of a file."""
    found = f"{file.stat().st_ino} 0 EOF"
    return any("->" in it and f" {process.pid} " in it and it.endswith(found) for it in pathlib.Path("/proc/locks").read_text().splitlines())


def next_turn(pool):
    """While an instance waits for its turn, `follow` removes no file. The instance starts from the newest one, and makes none."""
    folder = folder_of(pool)
    create(pool.doors[0], put(98))
    made = [followed(pool, folder)]
    follow = lambda: pool.follow(folder, TOKENS)
    with open(folder / "turn", "w") as turn, concurrent.futures.ThreadPoolExecutor(1) as threads:
        fcntl.flock(turn, fcntl.LOCK_EX)
        door = Door.__new__(Door)
        start = threads.submit(door.__init__, pool.room, pool.cluster.addresses(), "late", TOKENS, options=("--files", folder))
        try:
            until(lambda: hasattr(door, "process") and waits_for(door.process, folder / "turn"), "the instance does not wait")
            for index in 99, 100, 101:
                create(pool.doors[0], put(index))
                status, printed, errors = follow()
                assert (status, errors) == (0, ""), (status, printed, errors)
                made.append(printed.removesuffix("\n"))
            assert names(folder) == made, (names(folder), made)
        finally:
            fcntl.flock(turn, fcntl.LOCK_UN)
        start.result()
    pool.doors.append(door)
    pool.ready([door])
    assert [answer(door, get(it))[0] for it in (98, 99, 100, 101)] == [200] * 4
    assert names(folder) == made
    create(pool.doors[0], put(102))
    assert names(folder)[0] == made[0] and followed(pool, folder) > made[-1]


def for_their_owner(pool):
    """Under a umask that lets all others read, the files of a pool are for their owner."""
    folder = folder_of(pool)
    modes = lambda end: {it.stat().st_mode & 0o777 for it in folder.iterdir() if it.name.endswith(end)}
    for index in 103, 104, 105:
        create(pool.doors[0], put(index))
        status, _, errors = pool.follow(folder, TOKENS, umask=0o022)
        assert (status, errors) == (0, ""), (status, errors)
        assert modes(".db") == {0o600} and not any(it & 0o007 for it in modes("")), (modes(".db"), modes(""))
    (folder / names(folder)[-1]).chmod(0o644)
    create(pool.doors[0], put(106))
    assert pool.follow(folder, TOKENS, umask=0o022)[0] == 0
    assert (folder / names(folder)[-1]).stat().st_mode & 0o777 == 0o640, modes(".db")


def limited(bytes_per_file):
    """Returns what limits the length of files of a process. A write beyond it fails, as on a full disk."""
    def limit():
        signal.signal(signal.SIGXFSZ, signal.SIG_IGN)
        resource.setrlimit(resource.RLIMIT_FSIZE, (bytes_per_file, bytes_per_file))
    return limit


def full_disk(pool):
    """If the disk is full, `follow` fails, and the two newest files stay. Afterwards it succeeds."""
    judge, folder = Judge(pool, 37), folder_of(pool)
    judge.calls(100)
    first = followed(pool, folder)
    judge.calls(100)
    second = followed(pool, folder)
    judge.calls(100)
    length = (folder / second).stat().st_size
    for bytes_per_file in 0, 4_096, length // 2, length:
        status, printed, errors = pool.follow(folder, TOKENS, preexec_fn=limited(bytes_per_file), restore_signals=False)
        assert (status, printed) == (1, ""), (bytes_per_file, status, printed)
        assert errors.startswith((f"{UNUSABLE}\n", "dss: db: fault")), (bytes_per_file, errors)
        assert names(folder) == [first, second]
        found = {it.name for it in folder.iterdir()}
        assert found == {"lock"} | with_chains(first, second), (bytes_per_file, errors, sorted(found))
    third = followed(pool, folder)
    assert names(folder) == [second, third]
    started(pool, "late", folder)
    judge.mark_all()


def killed(pool):
    """`follow` is killed at any time. The newest files stay, and the next run goes on."""
    judge, folder = Judge(pool, 41), folder_of(pool)
    judge.calls(300)
    followed(pool, folder)
    judge.calls(10)
    began = time.monotonic()
    newest = followed(pool, folder)
    killer = Killer(43, time.monotonic() - began)
    for _ in range(30):
        before = names(folder)
        judge.calls(10)
        killer.kill(pool.start_follow(folder, TOKENS))
        after = names(folder)
        assert before[-1] in after, (before, after)
    assert killer.killed, "none was killed"
    # A run that is killed between its two renames leaves a chain without its file.
    for chain in folder.glob("*.chain"):
        if not chain.with_suffix(".db").exists():
            chain.unlink()
    assert followed(pool, folder) > newest
    started(pool, "late", folder)
    judge.calls(100)
    judge.mark_all()


def silent_log(pool):
    """Without a majority of etcd, `follow` ends within a minute, and the files stay."""
    folder = folder_of(pool)
    create(pool.doors[0], put(93))
    first = followed(pool, folder)
    for it in (0, 1):
        pool.cluster.stop(it)
    began = time.monotonic()
    status, printed, errors = pool.follow(folder, TOKENS)
    took = time.monotonic() - began
    assert (status, printed, errors.splitlines()[-1]) == (1, "", SILENT), (status, printed, errors)
    assert 25 < took < 60, took
    assert {it.name for it in folder.iterdir()} == {"lock"} | with_chains(first)
    for it in (0, 1):
        pool.cluster.go_on(it)
    pool.cluster.await_leader()
    pool.ready()
    create(pool.doors[0], put(94))
    assert followed(pool, folder) > first


def maker_of(pool, folder, name="maker"):
    """Starts an instance from the files, which can write them. Returns it and its admin port."""
    port = free_port()
    door = pool.add(name, TOKENS, options=("--files", folder, "--admin-port", port))
    pool.ready([door])
    return door, port


def write_file(port, folder):
    """Requests a file of an instance. Returns its name."""
    status, body = admin(port, "/file", "POST")
    assert status == 200, (status, body)
    newest = names(folder)[-1]
    assert body == f"made: {(folder / newest).stat().st_size} bytes\n", body
    return newest


def by_instance(pool):
    """A running instance writes a file while clients change the airspace. Others start from it, also after a compaction up to the head."""
    judge, folder = Judge(pool, 47), folder_of(pool)
    judge.calls(100)
    first = followed(pool, folder)
    _, port = maker_of(pool, folder)
    judge.calls(150)
    with concurrent.futures.ThreadPoolExecutor(1) as threads:
        made = threads.submit(write_file, port, folder)
        judge.calls(150)
        second = made.result()
    assert names(folder) == [first, second] and second[20:] == first[20:], names(folder)
    judge.calls(50)
    third = write_file(port, folder)
    assert names(folder) == [second, third]
    assert {it.name for it in folder.iterdir() if not it.name.endswith("-wal")} - {"turn"} == {"lock", *with_chains(second, third)}
    judge.mark_all()
    head = int(pool.cluster.ask(0, "/v3/kv/range", {"key": base64.b64encode(b"in/").decode()}, 60)["header"]["revision"])
    pool.cluster.control("compaction", str(head))
    assert pool.follow(folder, TOKENS)[0] in (0, 1), "it fails if the head is behind the file"
    fourth = write_file(port, folder)
    assert int(fourth[:20]) >= int(third[:20])
    _, late = maker_of(pool, folder, "late")
    judge.calls(100)
    judge.mark_all()
    same_pages((port, late))
    assert followed(pool, folder) >= fourth


def without_etcd(pool):
    """An instance writes a file also if etcd is gone. Its file begins a new pool with all changes that it was given."""
    judge, folder = Judge(pool, 53), folder_of(pool)
    judge.calls(100)
    followed(pool, folder)
    door, port = maker_of(pool, folder)
    judge.calls(100)
    judge.mark_all()
    for it in (0, 1):
        pool.cluster.stop(it)
    newest = write_file(port, folder)
    assert write_file(port, folder) == newest, "without a change"
    before = pages(port)
    for it in (0, 1):
        pool.cluster.go_on(it)
    pool.cluster.await_leader()
    _, late = maker_of(pool, folder, "late")
    until(lambda: pages(late) == before, "the airspaces differ")
    judge.mark_all()


def refused_by_instance(pool):
    """An instance that cannot write a file says why, and goes on. A file that was stopped leaves nothing that counts."""
    judge, folder = Judge(pool, 59), folder_of(pool)
    judge.calls(50)
    first = followed(pool, folder)
    door, port = maker_of(pool, folder)
    judge.calls(50)
    with open(folder / "lock", "w") as lock:
        fcntl.flock(lock, fcntl.LOCK_EX)
        assert admin(port, "/file", "POST") == (503, "busy: another backup is running\n")
    assert admin(port, "/file")[0] == 405
    hidden = folder.with_name("hidden")
    folder.rename(hidden)
    assert admin(port, "/file", "POST") == (503, "failed: the backup directory cannot be written\n")
    hidden.rename(folder)
    for name in "next.db", "next.chain":
        (folder / name).write_bytes(b"x" * 9_000)
    second = write_file(port, folder)
    assert names(folder) == [first, second]
    assert not (folder / "next.db").exists() and not (folder / "next.chain").exists()
    draw = random.Random(61)
    for _ in range(8):
        judge.calls(10)
        with concurrent.futures.ThreadPoolExecutor(1) as threads:
            asked = threads.submit(admin, port, "/file", "POST")
            time.sleep(draw.uniform(0, 0.2))
            door.kill()
            with contextlib.suppress(OSError, http.client.HTTPException):
                asked.result()
        door.start()
        pool.ready([door])
    write_file(port, folder)
    judge.mark_all()
    judge.calls(50)
    with concurrent.futures.ThreadPoolExecutor(1) as threads:
        asked = threads.submit(admin, port, "/file", "POST")
        time.sleep(0.01)
        assert admin(port, "/stop", "POST")[0] == 200
        with contextlib.suppress(OSError, http.client.HTTPException):
            asked.result()
    assert door.end()[0] == 0, door.lines
    assert not (folder / "next.db").exists() and not (folder / "next.chain").exists()
    door.start()
    pool.ready([door])
    judge.mark_all()


def of_another_file(pool):
    """A file whose name or content is not what its chain says is refused. A chain of an earlier release says nothing of them."""
    judge, folder, other = Judge(pool, 67), folder_of(pool), folder_of(pool, "other")
    judge.calls(30)
    first = followed(pool, folder)
    judge.calls(30)
    second = followed(pool, folder)
    serve = lambda: pool.fails("i9", TOKENS, options=("--files", other))
    refused = lambda lines, name: lines[-2:] == [NO_CHAIN, f"dss: cause: {other / name}: {OTHER}"]
    renamed = f"{int(second[:20]) + 1:020}{second[20:]}"
    changed = bytearray((folder / second).read_bytes())
    changed[-1] ^= 1
    for name, database, chain in (
        (second, folder / first, folder / chain_of(second)),
        (second, folder / second, folder / chain_of(first)),
        (renamed, folder / second, folder / chain_of(second)),
    ):
        shutil.copy(chain, other / chain_of(name))
        shutil.copy(database, other / name)
        status, lines = serve()
        assert status == 1 and refused(lines, name), (name, lines)
        status, printed, errors = pool.follow(other, TOKENS)
        assert (status, printed) == (1, "") and refused(errors.splitlines(), name), errors
        for it in other.glob("0*"):
            it.unlink()
    shutil.copy(folder / chain_of(second), other)
    (other / second).write_bytes(changed)
    assert refused(serve()[1], second)
    # a chain of a release before names no file
    text = (folder / chain_of(second)).read_text().split("\n")
    numbers = text[0].split()
    text[0] = f"dss-chain 1 {numbers[2]} {numbers[3]}"
    (other / chain_of(second)).write_text("\n".join(text))
    shutil.copy(folder / second, other)
    started(pool, "late", other)
    judge.mark_all()


CASES = {
    "files written": with_pool(written),
    "files of an idle pool": with_pool(idle),
    "files with the same airspace": with_pool(same_airspace),
    "files and compaction": with_pool(compacted),
    "files refused": with_pool(refused),
    "files without an airspace": with_pool(without_airspace),
    "files in turn": with_pool(next_turn),
    "files of a pool for their owner": with_pool(for_their_owner),
    "files on a full disk": with_pool(full_disk),
    "files of a killed process": with_pool(killed),
    "files of a silent log": with_pool(silent_log),
    "files by an instance": with_pool(by_instance),
    "files without etcd": with_pool(without_etcd),
    "files refused by an instance": with_pool(refused_by_instance),
    "files of another name or content": with_pool(of_another_file),
}
