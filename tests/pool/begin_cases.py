"""Cases of a pool that begins with the airspace of a database: `dss begin` writes its first file."""
import contextlib
import fcntl
import hashlib
import json
import pathlib
import re
import shutil
import subprocess
import time

import doors
import tables
import wire
from cases import SETTINGS, TOKENS, Judge, get, intent_body, put, with_pool
from doors import LIMIT, Exchange, Pool, Single, answer, begin, create, until
from file_cases import BUSY, COMPACTED, NAME, NO_CHAIN, NO_FILE, OTHER, UNUSABLE, Killer, folder_of, followed, limited, names, same_pages
from ports import free_port
from program import TOP
from real_etcd import PATIENT, Cluster

HAS_FILE = "dss: pool: files: the directory has a file of a pool; move its files away, or give another directory"
STORE = "dss: db: fault 3 Store"
# `POLICY` of pool_etcd.
POLICY = 2
FAULT = re.compile(r"dss: (db|backup): fault( \d+ \w+)?\n")
WATCHED = f"{wire.SUBSCRIPTIONS}/00000000-0000-4000-8000-00000000beef"
SUBSCRIBED = json.dumps({
    "extents": json.loads(intent_body(2))["extents"][0], "uss_base_url": "https://b.example", "notify_for_operational_intents": True,
}).encode()


def with_cluster(case, members=3):
    """A case with members of etcd, and a pool without instances."""
    def run(room):
        cluster = Cluster(room, members)
        pool = Pool(room, cluster, TOKENS, count=0)
        try:
            case(pool)
        finally:
            pool.close()
            cluster.close()
    return run


def filled(pool, judge, name="one.db", count=300):
    """Makes a database with the calls of the judge, over a service of its own. Returns the file, whose service was killed."""
    database = pathlib.Path(pool.room) / name
    single = Single(pool.room, database, TOKENS)
    judge.calls(count, [single])
    assert Exchange(single).ask(("GET", f"{wire.AVAILABILITY}/uss-n", "Bearer tok-v", None))[0] == 200
    single.kill()
    return database


def first_number(message):
    """Returns the number that the first 8 bytes of a digest are."""
    return int.from_bytes(hashlib.sha256(message).digest()[:8], "big")


def begun(pool, database, folder, salt=wire.SALT):
    """Runs `dss begin`. Returns the name of the file, which has the digest of the database."""
    status, printed, errors = begin(pool.room, database, folder, TOKENS, salt)
    assert (status, errors) == (0, ""), (status, printed, errors)
    name = printed.removesuffix("\n")
    assert NAME.fullmatch(name) and names(folder) == [name], (name, names(folder))
    assert {it.name for it in folder.iterdir()} == {"lock", name}
    whole = (folder / name).read_bytes()
    assert whole == database.read_bytes()
    beginning = first_number(whole)
    settings = first_number(f"dss-settings 3\n{POLICY} {beginning}\n{salt}".encode())
    assert name == f"{0:020}-{settings:020}-{beginning:020}.db", (name, settings, beginning)
    return name


def three(pool, file, **more):
    """Starts three instances, each with a copy of the file in a directory of its own. Returns the directories."""
    folders = []
    for it in range(3):
        folders.append(folder_of(pool, f"files-{len(pool.doors)}"))
        shutil.copy(file, folders[-1])
        pool.add(f"i{it}", TOKENS, options=("--files", folders[-1]), **more)
    pool.ready()
    return folders


def ends_with(pool, *options, lines=SETTINGS):
    """Another instance ends with this line, after it has read the first fence of the log."""
    door = pool.add("stranger", TOKENS, options=options)
    pool.doors.pop()
    try:
        assert door.end() == (1, lines), door.lines
    finally:
        door.kill()


def with_database(pool):
    """A pool begins with a database that has flights and a subscription: each door shows them, and goes on from there."""
    judge, folder = Judge(pool, 53), folder_of(pool)
    single = Single(pool.room, folder / "one.db", TOKENS)
    ask = lambda door, *call: judge.client.ask(door.connect, call)
    assert ask(single, *put(1)) and ask(single, "PUT", WATCHED, "Bearer tok-b", SUBSCRIBED)
    judge.calls(300, [single])
    wanted = [Exchange(single).ask(it) for it in (get(1), ("GET", WATCHED, "Bearer tok-b", None))]
    assert [it[0] for it in wanted] == [200, 200], wanted
    single.kill()
    files = folder_of(pool, "first")
    first = begun(pool, folder / "one.db", files)
    folders = three(pool, files / first)
    for door in pool.doors:
        assert [answer(door, it) for it in (get(1), ("GET", WATCHED, "Bearer tok-b", None))] == wanted, door.name
    # a first file with another byte
    changed = folder_of(pool, "changed")
    content = bytearray((files / first).read_bytes())
    content[-1] ^= 1
    (changed / first).write_bytes(content)
    status, lines = pool.fails("i9", TOKENS, options=("--files", changed))
    assert (status, lines[-2:]) == (1, [NO_CHAIN, f"dss: cause: {changed / first}: {OTHER}"]), (status, lines)
    # a change notifies the subscription, with its next index
    until(lambda: ask(pool.doors[0], *put(2)), "the change is not made")
    judge.calls(300)
    judge.mark_all()
    # the number of the beginning goes on to each next file
    second = followed(pool, folders[0])
    assert names(folders[0]) == [first, second] and second[20:] == first[20:], (first, second)
    judge.calls(50)
    third = followed(pool, folders[0])
    assert names(folders[0]) == [second, third] and third[20:] == first[20:], (first, third)
    judge.calls(50)
    ports = [free_port(), free_port()]
    pool.add("from-first", TOKENS, options=("--admin-port", ports[0], "--files", folders[1]))
    pool.add("from-third", TOKENS, options=("--admin-port", ports[1], "--files", folders[0]))
    pool.ready()
    judge.calls(100)
    judge.mark_all()
    same_pages(ports)


def strangers(pool):
    """An instance that begins with another airspace than the pool, or with none, ends at the first fence, and changes nothing."""
    judge, folder, other = Judge(pool, 59), folder_of(pool), folder_of(pool, "other")
    database = filled(pool, judge)
    first = begun(pool, database, folder)
    three(pool, folder / first)
    judge.calls(50)
    # another airspace
    shutil.copy(database, other / "one.db")
    single = Single(pool.room, other / "one.db", TOKENS)
    assert Exchange(single).ask(put(10))[0] == 201
    single.kill()
    others = folder_of(pool, "others")
    foreign = begun(pool, other / "one.db", others)
    assert foreign[:20] == first[:20] and foreign[21:41] != first[21:41] and foreign[42:] != first[42:], (first, foreign)
    ends_with(pool, "--files", others)
    assert pool.follow(others, TOKENS) == (1, "", f"{SETTINGS}\n")
    assert names(others) == [foreign]
    # the empty one
    ends_with(pool)
    none = folder_of(pool, "none")
    assert pool.follow(none, TOKENS) == (1, "", f"{SETTINGS}\n")
    assert names(none) == []
    # the right file, with another salt, or under another name
    serve = lambda where, **more: pool.fails("stranger", TOKENS, options=("--files", where), **more)
    assert serve(folder, salt="another") == (1, [SETTINGS])
    assert pool.follow(folder, TOKENS, salt="another") == (1, "", f"{SETTINGS}\n")
    for name in f"{first[:42]}{foreign[42:]}", f"{foreign[:42]}{first[42:]}", f"{'1' * 20}-{foreign[21:41]}-{first[42:]}":
        renamed = folder_of(pool, name.removesuffix(".db"))
        shutil.copy(folder / first, renamed / name)
        assert serve(renamed) == (1, [SETTINGS]), name
    old = folder_of(pool, "old")
    shutil.copy(folder / first, old / f"{first[:41]}.db")
    assert serve(old) == (1, [NO_FILE])
    judge.calls(50)
    judge.mark_all()


def empty_pool(pool):
    """An instance with the file of a beginning ends in a pool that began with the empty airspace."""
    judge, folder = Judge(pool, 61), folder_of(pool)
    database = pathlib.Path(pool.room) / "one.db"
    single = Single(pool.room, database, TOKENS)
    assert Exchange(single).ask(put(10))[0] == 201
    single.kill()
    begun(pool, database, folder)
    judge.calls(20)
    ends_with(pool, "--files", folder)
    judge.calls(20)
    judge.mark_all()


def refused(pool):
    """`begin` refuses directories and databases that it cannot use, with a message, and leaves no file."""
    judge, folder, room = Judge(pool, 67), folder_of(pool), pathlib.Path(pool.room)
    database = filled(pool, judge, count=100)
    run = lambda given=database, where=folder, **more: begin(room, given, where, TOKENS, **more)
    left = lambda: {it.name for it in folder.iterdir()}
    assert run(where=room / "none") == (1, "", f"{UNUSABLE}\n")
    status, printed, errors = run(where=room / "none", options=("--verbose",))
    assert (status, printed) == (1, "") and errors.splitlines()[-2] == UNUSABLE, errors
    assert errors.splitlines()[-1].startswith(f"dss: cause: {room / 'none'}: "), errors
    # no database
    assert run(room / "none.db") == (1, "", f"{STORE}\n")
    assert not (room / "none.db").exists() and left() == {"lock"}
    assert run(folder) == (1, "", f"{STORE}\n")
    # one that is open
    single = Single(room, database, TOKENS)
    assert run() == (1, "", f"{STORE}\n")
    status, printed, errors = run(options=("--verbose",))
    assert (status, printed) == (1, ""), (status, printed, errors)
    assert errors.splitlines()[-1] == f"dss: cause: {database}: another process has it open; stop it first", errors
    single.kill()
    # damaged ones
    whole = room / "whole.db"
    assert subprocess.run([doors.PROGRAM, "backup", "--db", database, whole]).returncode == 0
    damaged = room / "damaged.db"
    for bytes_of in (b"x" * 9_000, whole.read_bytes()[: whole.stat().st_size // 2]):
        damaged.write_bytes(bytes_of)
        status, printed, errors = run(damaged)
        assert (status, printed) == (1, "") and FAULT.fullmatch(errors), (status, printed, errors)
        assert left() == {"lock"}
    shutil.copy(whole, damaged)
    with tables.opened(damaged) as rows:
        rows.execute("UPDATE meta SET format = 9")
    status, printed, errors = run(damaged)
    assert (status, printed) == (1, "") and FAULT.fullmatch(errors), (status, printed, errors)
    assert left() == {"lock"}
    # another process writes
    with open(folder / "lock", "w") as lock:
        fcntl.flock(lock, fcntl.LOCK_EX)
        assert run() == (1, "", f"{BUSY}\n")
    # a full disk
    for bytes_per_file in 0, 4_096, whole.stat().st_size // 2:
        status, printed, errors = run(whole, preexec_fn=limited(bytes_per_file), restore_signals=False)
        assert (status, printed) == (1, "") and (errors == f"{UNUSABLE}\n" or FAULT.fullmatch(errors)), (status, printed, errors)
        assert left() == {"lock"}
    # what a stopped process left, and files of others
    for name in "next.db", "next.db-wal", "next.db.begun", "other.db":
        (folder / name).write_bytes(b"x" * 9_000)
    status, printed, errors = run()
    first = printed.removesuffix("\n")
    assert (status, errors, names(folder)) == (0, "", [first]), (status, printed, errors)
    assert left() == {"lock", "other.db", first}
    # a directory with a file
    kept = (folder / first).read_bytes()
    assert run() == (1, "", f"{HAS_FILE}\n")
    assert left() == {"lock", "other.db", first} and (folder / first).read_bytes() == kept
    # the same database gives the same file
    again = folder_of(pool, "again")
    assert begun(pool, database, again) == first
    three(pool, folder / first)
    judge.mark_all()


def killed(pool):
    """`begin` is killed at any time. The directory has the whole file, or none and the next run writes it."""
    judge, room = Judge(pool, 71), pathlib.Path(pool.room)
    database = filled(pool, judge, count=200)
    began = time.monotonic()
    first = begun(pool, database, folder_of(pool, "first"))
    killer = Killer(73, time.monotonic() - began)
    for it in range(20):
        folder = folder_of(pool, f"killed-{it}")
        words = [doors.PROGRAM, "begin", "--tokens", room / "begin.toml", "--db", database, "--files", folder]
        process = subprocess.Popen(list(map(str, words)), stdin=subprocess.DEVNULL, stdout=subprocess.PIPE, stderr=subprocess.PIPE)
        killer.kill(process)
        if names(folder):
            assert names(folder) == [first]
            assert (folder / first).read_bytes() == database.read_bytes()
        else:
            assert begun(pool, database, folder) == first
    assert killer.killed, "none was killed"


def next_pool(pool):
    """A pool ends: its newest file is a database for `dss serve --db`, and a new pool over another etcd begins with it."""
    judge, folder, room = Judge(pool, 79), folder_of(pool), pathlib.Path(pool.room)
    judge.calls(200)
    judge.client.reached([pool.doors[0].connect], LIMIT)
    last = followed(pool, folder)
    assert last[42:62] == "0" * 20, last
    pool.close()
    database = room / "left.db"
    shutil.copy(folder / last, database)
    single = Single(room, database, TOKENS)
    judge.calls(100, [single])
    single.kill()
    with contextlib.ExitStack() as stack:
        (room / "next").mkdir()
        cluster = Cluster(room / "next")
        stack.callback(cluster.close)
        later = Pool(room / "next", cluster, TOKENS, count=0)
        stack.callback(later.close)
        judge.pool, files = later, folder_of(later)
        first = begun(later, database, files)
        assert first[21:41] != last[21:41] and first[42:62] != "0" * 20, (last, first)
        three(later, files / first)
        judge.mark_all()
        judge.calls(200)
        judge.mark_all()
        assert followed(later, files)[20:] == first[20:]


def other_salt(pool):
    """A pool begins with another salt: the flights stay, with their OVNs, and OVNs of later changes come from the new salt."""
    database, folder = pathlib.Path(pool.room) / "one.db", folder_of(pool)
    single = Single(pool.room, database, TOKENS)
    assert Exchange(single).ask(put(20))[0] == 201
    wanted = Exchange(single).ask(get(20))
    single.kill()
    first = begun(pool, database, folder, salt="another")
    assert pool.fails("stranger", TOKENS, options=("--files", folder)) == (1, [SETTINGS])
    three(pool, folder / first, salt="another")
    for door in pool.doors:
        assert answer(door, get(20)) == wanted
    create(pool.doors[1], put(21))
    status, body = answer(pool.doors[1], get(21))
    ovn = json.loads(body)["operational_intent_reference"]["ovn"]
    assert status == 200 and ovn in {wire.ovn(it, "another") for it in range(10)}, body


def marked(pool):
    """`mark` and `compact` keep the whole log while an organization needs the file of `begin`. After a compaction up to the head, `mark`
    has its instance write a file, and goes on from it."""
    room, folder, first_only = pathlib.Path(pool.room), folder_of(pool), folder_of(pool, "first-only")
    database, file = room / "one.db", room / "root.user"
    single = Single(room, database, TOKENS)
    assert Exchange(single).ask(put(30))[0] == 201
    single.kill()
    first = begun(pool, database, folder)
    shutil.copy(folder / first, first_only)
    for words in ("user", "add", "root:r"), ("user", "grant-role", "root", "root"), ("auth", "enable"):
        pool.cluster.control(*words)
    file.write_text("root:r\n")
    given = {"FILES": folder, "TOKENS": room / "begin.toml", "ETCD_USER": file, "ENDPOINTS": pool.cluster.addresses(), "DSS": doors.PROGRAM}
    given = {"PATH": f"{folder_of(pool, 'bin')}:/usr/bin:/bin", **{name: str(it) for name, it in given.items()}}
    (room / "bin" / "etcdctl").write_text(f'#!/bin/sh\nexec /usr/bin/etcdctl {" ".join(PATIENT)} "$@"\n')
    (room / "bin" / "etcdctl").chmod(0o755)

    def runs(script):
        words = [TOP / "deploy" / "pool" / script, "a0"]
        return subprocess.run(words, env=given, stdin=subprocess.DEVNULL, capture_output=True, text=True, timeout=4 * LIMIT)

    def run(script):
        """Runs a script of deploy/pool. Returns what it printed."""
        done = runs(script)
        assert done.returncode == 0, (script, done)
        return done.stdout

    def add(name, where, *options):
        door = pool.add(name, TOKENS, options=("--etcd-user", file, "--files", where, *options))
        pool.ready([door])
        return door
    mark = lambda: pool.cluster.control("--user", "root:r", "get", "mark/a0", "--print-value-only").split()[:1]
    # nothing has changed: there is one file, and no mark
    assert run("mark") == f"{first}\n" and names(folder) == [first] and mark() == []
    assert run("compact") == "compact: there is no mark yet\n"
    one = add("one", folder)
    create(one, put(31))
    second = run("mark").removesuffix("\n")
    assert names(folder) == [first, second] and mark() == ["0"], (names(folder), mark())
    for _ in range(2):
        assert run("compact") == "compact: the log begins behind revision 0\n"
    add("two", first_only)
    create(one, put(32))
    third = run("mark").removesuffix("\n")
    assert names(folder) == [second, third] and mark() == [f"{int(second[:20])}"], (names(folder), mark())
    assert run("compact") == f"compact: the log begins behind revision {int(second[:20])}\n"
    ends_with(pool, "--etcd-user", file, "--files", first_only, lines=COMPACTED)
    given["ADMIN"] = f"127.0.0.1:{free_port()}"
    late = add("late", folder, "--admin-port", given["ADMIN"].split(":")[1])
    assert [answer(late, get(it))[0] for it in (30, 31, 32)] == [200] * 3
    create(late, put(33))
    head = re.search(r'"Revision" : (\d+)', pool.cluster.control("--user", "root:r", "get", "in/", "-w", "fields"))[1]
    pool.cluster.control("--user", "root:r", "compaction", head)
    failed = runs("mark")
    newest = names(folder)[-1]
    said = f"dss follow failed; the instance at {given['ADMIN']} has written a file (made: {(folder / newest).stat().st_size} bytes)"
    assert (failed.returncode, failed.stderr.splitlines()[-1]) == (1, f"mark: {said}"), failed
    assert newest > third and run("mark") >= f"{newest}\n"
    door = add("last", folder)
    assert [answer(door, get(it))[0] for it in (30, 31, 32, 33)] == [200] * 4


CASES = {
    "begin with a database": with_cluster(with_database),
    "begin and other beginnings": with_cluster(strangers),
    "begin and an empty pool": with_pool(empty_pool),
    "begin refused": with_cluster(refused),
    "begin killed": with_cluster(killed, 1),
    "begin after another pool": with_pool(next_pool),
    "begin with another salt": with_cluster(other_salt),
    "begin, mark and compact": with_cluster(marked),
}
