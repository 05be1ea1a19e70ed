"""Cases of the supplier list: for which USSs each organization of a pool may act."""
import base64
import json
import pathlib
import socket
import subprocess
import threading
import time

import doors
import drawn_calls
import wire
from begin_cases import begun, with_cluster
from cases import READ, Judge, admin, intent_body, put, until
from doors import Door, Exchange, Pool, Single
from file_cases import COMPACTED, copy_file, folder_of, followed, names, pages
from history import HEADER, MARKS, SCOPES
from ports import free_port
from program import TOP
from purge_cases import metric
from real_etcd import Cluster

LIST = "in/@suppliers"
UNASSIGNED = (503, b'{"message":"unassigned"}')
REFUSED = "dss: pool: suppliers: this organization may not act for USS {}; add it to the supplier list"
FORBIDDEN = "dss: pool: suppliers: the list forbids a USS of an own entry; change --tokens, or add it to the list"
# A USS that each list gives to all organizations, so that it can read the intents at every door.
TOKENS = {**drawn_calls.ALL_TOKENS, "tok-w": ("uss-w", {wire.STRATEGIC})}
EVERYWHERE = ("uss-v", "uss-w")
# The number of the process that writes the entries of a test.
NUMBER = 77
WATCHED = f"{wire.SUBSCRIPTIONS}/00000000-0000-4000-8000-00000000beef"
# How many calls an entry has at most, and how many flights each of them meets in the case of large replies.
MOST_CALLS, FLIGHTS = 64, 4_096
# How many kilobytes an entry of another organization may add to the peak memory. All its replies together have over 100 MB.
LITTLE = 32_768


def with_organizations(case):
    """A case with one instance of each of the organizations a, b and c."""
    def run(room):
        cluster, pool, ports = Cluster(room), None, [free_port() for _ in range(3)]
        try:
            pool = Pool(room, cluster, TOKENS, named=lambda at: f"{'abc'[at]}1", options=lambda at: ("--admin-port", ports[at]))
            pool.ports = ports
            pool.ready()
            case(pool)
        finally:
            if pool:
                pool.close()
            cluster.close()
    return run


# ---- the list, and entries that the test itself writes


def code(text):
    return base64.b64encode(text if isinstance(text, bytes) else text.encode()).decode()


def write(pool, key, value):
    """Puts a value under a key of etcd."""
    pool.cluster.ask(0, "/v3/kv/put", {"key": code(key), "value": code(value)})


def list_of(all_of_them="abc", **given):
    """Returns a list that gives these USSs to organizations, and to all of them those that each list gives."""
    lines = [f"{name} {uss}" for name in all_of_them for uss in (*EVERYWHERE, *given.pop(name, ()))]
    assert not given, given
    return "".join(f"{it}\n" for it in lines)


def announce(pool, **given):
    """Puts a list, and waits until each instance has it."""
    write(pool, LIST, list_of(**given))
    catch_up(pool)


def catch_up(pool):
    """Reads at each door. A read is answered once the instance has received the log up to its end."""
    for door in pool.doors:
        got = ask(door, READ)
        assert got[0] == 200, (door.name, got, door.lines[-5:])


def entry(*calls):
    """Returns a value of the log: a batch of what these calls ask."""
    # the link of no changes, which every instance has
    value = f"{NUMBER} 0 {64 * '0'}\n".encode() + HEADER
    for method, path, authorization, body in calls:
        uss, scopes = TOKENS[authorization.removeprefix("Bearer ")]
        letters = "".join(mark if scope in scopes else "-" for mark, scope in zip(MARKS, SCOPES))
        parts = [it if isinstance(it, bytes) else it.encode() for it in (method, path, body or b"")]
        fields = [str(int(time.time())).encode(), b"%d:%s" % (len(uss), uss.encode()), letters.encode()]
        value += b" ".join([*fields, *(b"%d:%s" % (len(it), it) for it in parts)]) + b"\n"
    return value


def lie(pool, key, *calls):
    """Writes an entry of these calls under a key, as an organization can that does not run the program."""
    write(pool, key, entry(*calls))


# ---- what the doors answer


def ask(door, call):
    way = Exchange(door)
    try:
        return way.ask(call)
    finally:
        way.close()


def intent(index, token="tok-w"):
    return "GET", f"{wire.INTENTS}/00000000-0000-4000-8000-{index:012x}", f"Bearer {token}", None


def removal(index, ovn, token="tok-a"):
    return "DELETE", f"{wire.INTENTS}/00000000-0000-4000-8000-{index:012x}/{ovn}", f"Bearer {token}", None


def created(door, index, token="tok-a"):
    """Creates an intent. Returns its OVN."""
    status, body = ask(door, put(index, token))
    assert status == 201, (door.name, status, body)
    return json.loads(body)["operational_intent_reference"]["ovn"]


def seen(door, indexes):
    """Returns which of the intents an instance has."""
    got = {it: ask(door, intent(it))[0] for it in indexes}
    assert set(got.values()) <= {200, 404}, (door.name, got)
    return [it for it, status in got.items() if status == 200]


def all_see(pool, indexes, wanted):
    """Checks which of the intents each instance has."""
    for door in pool.doors:
        assert seen(door, indexes) == wanted, (door.name, seen(door, indexes), wanted)


def counts(pool):
    """Returns how many entries each instance has taken, up to the end of the log."""
    catch_up(pool)
    return [metric(port, "dss_pool_entries_total") for port in pool.ports]


def queries(token):
    """Returns reads and changes of a USS."""
    area = json.dumps({"area_of_interest": json.loads(intent_body(1))["extents"][0]}).encode()
    subscription = {"extents": json.loads(intent_body(1))["extents"][0], "uss_base_url": "https://b.example"}
    subscription["notify_for_operational_intents"] = True
    caller = f"Bearer {token}"
    return [
        put(9, token), intent(1, token), intent(9, token), removal(1, "0" * 64, token), ("POST", f"{wire.INTENTS}/query", caller, area),
        ("PUT", WATCHED, caller, json.dumps(subscription).encode()), ("GET", WATCHED, caller, None),
        ("POST", f"{wire.SUBSCRIPTIONS}/query", caller, area), ("GET", READ[1], caller, None),
    ]


# Requests that break one of P1 to P6, most of them of uss-b.
STATELESS = (
    ("GET", "/dss/v1/none", "Bearer tok-b", None), ("POST", intent(1)[1], "Bearer tok-b", b"{}"), intent(1, "nobody"),
    ("GET", intent(1)[1], None, None), intent(1, "tok-n"), intent(1, "tok-c"), ("PUT", intent(1)[1], "Bearer tok-b", b"{}"),
    ("GET", f"{wire.INTENTS}/none", "Bearer tok-b", None),
    ("PUT", intent(1)[1], "Bearer tok-b", intent_body(1).replace(b'"89c25904"', b'"1"')),
)


def begin_from(pool, name, folder, tokens=None):
    """Starts an instance from files. Returns it, and its admin port."""
    port = free_port()
    door = pool.add(name, tokens or TOKENS, options=("--admin-port", port, "--files", folder))
    pool.ready([door])
    return door, port


# ---- cases


def unassigned(pool):
    """A USS that the list does not give to an organization gets 503 unassigned there, for each request that needs the state."""
    a, b, c = pool.doors
    denied = [ask(b, it) for it in STATELESS]
    assert [it[0] for it in denied] == [404, 405, 401, 401, 403, 403, 400, 400, 413], denied
    began = time.monotonic()
    announce(pool, a=["uss-a"], b=["uss-b"])
    created(a, 1)
    for door, token in ((a, "tok-b"), (b, "tok-a"), (c, "tok-a"), (c, "tok-b"), (a, "tok-bc")):
        for it in queries(token):
            assert ask(door, it) == UNASSIGNED, (door.name, it, ask(door, it))
    for door in pool.doors:
        assert [ask(door, it) for it in STATELESS] == denied, door.name
    all_see(pool, (1, 9), [1])
    # another organization serves it
    created(b, 2, "tok-b")
    assert [ask(b, it)[0] for it in (intent(1, "tok-b"), intent(2, "tok-b"))] == [200, 200]
    assert [ask(a, it)[0] for it in (intent(1, "tok-a"), intent(2, "tok-a"))] == [200, 200]
    # an instance that refuses a USS does not fail
    for door, port in zip(pool.doors, pool.ports):
        assert admin(port, "/health") == (200, "serving\n"), (door.name, admin(port, "/health"))
    line = REFUSED.format("uss-b")
    until(lambda: line in a.lines, f"{a.name} says nothing: {a.lines}")
    said = [it for it in a.lines if it.startswith("dss: pool: suppliers:")]
    assert set(said) == {line} and len(said) <= 1 + (time.monotonic() - began) // 60, said
    said = [it for it in c.lines if it.startswith("dss: pool: suppliers:")]
    assert said and set(said) <= {REFUSED.format(it) for it in ("uss-a", "uss-b")}, c.lines


def reassigned(pool):
    """A USS is served as soon as the list has it, and no longer once the list lacks it. Its flights stay."""
    a, b, c = pool.doors
    pids = [it.process.pid for it in pool.doors]
    announce(pool, a=["uss-a"], b=["uss-b"])
    ovn = created(a, 1)
    for round_ in range(3):
        assert [ask(b, it) for it in (intent(1, "tok-a"), put(10 + round_))] == [UNASSIGNED] * 2
        write(pool, LIST, list_of(a=["uss-a"], b=["uss-b", "uss-a"]))
        until(lambda: ask(b, intent(1, "tok-a")) != UNASSIGNED, "the USS is not served", 20)
        created(b, 20 + round_)
        assert ask(b, intent(1, "tok-a"))[0] == 200
        write(pool, LIST, list_of(a=["uss-a"], b=["uss-b"]))
        until(lambda: ask(b, intent(1, "tok-a")) == UNASSIGNED, "the USS is still served", 20)
    all_see(pool, (1, 10, 11, 12, 20, 21, 22), [1, 20, 21, 22])
    # it is served by another organization, and its flights are its own there
    announce(pool, c=["uss-a"])
    assert ask(a, intent(1, "tok-a")) == UNASSIGNED
    assert ask(c, removal(1, ovn))[0] == 200
    all_see(pool, (1, 20), [20])
    assert [it.process.poll() for it in pool.doors] == [None] * 3 and [it.process.pid for it in pool.doors] == pids


def lies(pool):
    """An entry with a USS that the list does not give to its writer changes nothing at any instance, nor in a file."""
    a, folder = pool.doors[0], folder_of(pool)
    ovn = created(a, 1)
    # without a list it has its effect
    lie(pool, "in/c2", put(2))
    all_see(pool, (1, 2), [1, 2])
    announce(pool, a=["uss-a"], b=["uss-b"], c=["uss-d"])
    before = counts(pool)
    for key in "in/c2", "in/c", "in/c-1", "in/aa", "in/a.", "in/A1", "in/x", "in/7":
        lie(pool, key, put(3))
        lie(pool, key, removal(1, ovn))
    lie(pool, "in/a2", put(3, "tok-b"))
    lie(pool, "in/b2", put(3, "tok-d"))
    assert counts(pool) == before, (before, counts(pool))
    all_see(pool, (1, 2, 3, 4, 5), [1, 2])
    # what it may write
    lie(pool, "in/c2", put(4, "tok-d"))
    lie(pool, "in/a77", put(5))
    assert counts(pool) == [it + 2 for it in before], (before, counts(pool))
    all_see(pool, (1, 2, 3, 4, 5), [1, 2, 4, 5])
    followed(pool, folder)
    door, port = begin_from(pool, "a2", folder)
    assert seen(door, (1, 2, 3, 4, 5)) == [1, 2, 4, 5]
    assert pages(port) == pages(pool.ports[0]) == pages(pool.ports[1]) == pages(pool.ports[2])


def mixed(pool):
    """An entry with one call of a USS that is another organization's has no effect, and none of its other calls has."""
    announce(pool, a=["uss-a"], c=["uss-d"])
    before = counts(pool)
    own, foreign = put(1, "tok-d"), put(2)
    for calls in (own, foreign), (foreign, own), (own, foreign, put(3, "tok-d")), (put(3, "tok-d"), own, intent(1, "tok-a")):
        lie(pool, "in/c2", *calls)
    assert counts(pool) == before, (before, counts(pool))
    all_see(pool, (1, 2, 3), [])
    lie(pool, "in/c2", own, put(3, "tok-d"))
    assert counts(pool) == [it + 1 for it in before], (before, counts(pool))
    all_see(pool, (1, 2, 3), [1, 3])


def in_turn(pool):
    """A list counts from its place on: entries before it do not know it. An instance that reads the whole log does the same."""
    folder, wanted = folder_of(pool), []
    lists = [None, list_of(c=["uss-d"]), list_of(c=["uss-a", "uss-d"]), list_of(a=["uss-a"]), "", list_of(a=["uss-a"], b=["uss-a"])]
    for round_, text in enumerate([*lists, *reversed(lists[1:])]):
        if text is not None:
            write(pool, LIST, text)
        for at, token in enumerate(("tok-a", "tok-d")):
            index = 10 * round_ + at
            lie(pool, "in/c2", put(index, token))
            if not text or f"c {TOKENS[token][0]}\n" in text:
                wanted.append(index)
    write(pool, LIST, list_of(a=["uss-a"]))
    indexes = [10 * round_ + at for round_ in range(2 * len(lists) - 1) for at in range(2)]
    assert 8 < len(wanted) < len(indexes) - 8, wanted
    all_see(pool, indexes, wanted)
    port = free_port()
    whole = pool.add("a2", TOKENS, options=("--admin-port", port))
    pool.ready([whole])
    assert seen(whole, indexes) == wanted
    followed(pool, folder)
    _, from_file = begin_from(pool, "a3", folder)
    assert pages(port) == pages(from_file) == pages(pool.ports[0])


def behind_files(pool):
    """An instance that starts behind a file knows the list at the revision of the file, also after a compaction up to there."""
    a, folder, older = pool.doors[0], folder_of(pool), folder_of(pool, "older")
    write(pool, LIST, list_of(b=["uss-a", "uss-d"]))
    announce(pool, a=["uss-a", "uss-d"], c=["uss-d"])
    created(a, 1)
    first = followed(pool, folder)
    copy_file(folder / first, older)
    created(a, 2), created(a, 3)
    second = followed(pool, folder)
    assert names(folder) == [first, second]
    # by the list of the files, and then by another one
    lie(pool, "in/c2", put(10, "tok-d"))
    lie(pool, "in/c2", put(11))
    write(pool, LIST, list_of(a=["uss-a"], c=["uss-a"]))
    lie(pool, "in/c2", put(12))
    lie(pool, "in/c2", put(13, "tok-d"))
    indexes, wanted = (1, 2, 3, 10, 11, 12, 13), [1, 2, 3, 10, 12]
    all_see(pool, indexes, wanted)
    pool.cluster.control("compaction", str(int(first[:20])))
    for name, where in (("a2", folder), ("a3", older)):
        door, port = begin_from(pool, name, where)
        assert seen(door, indexes) == wanted, (name, seen(door, indexes))
        assert pages(port) == pages(pool.ports[0]), name
        assert ask(door, intent(1, "tok-d")) == UNASSIGNED and ask(door, intent(1, "tok-a"))[0] == 200
    pool.cluster.control("compaction", str(int(second[:20])))
    assert pool.add("a4", TOKENS, options=("--files", older)).end() == (1, COMPACTED)
    pool.doors.pop()
    door, port = begin_from(pool, "a4", folder)
    assert seen(door, indexes) == wanted and pages(port) == pages(pool.ports[0])
    # the next file, and a list behind the newest one
    third = followed(pool, folder)
    assert names(folder) == [second, third]
    pool.cluster.control("compaction", str(int(third[:20])))
    write(pool, LIST, list_of(a=["uss-d"]))
    door, port = begin_from(pool, "a5", folder)
    assert seen(door, indexes) == wanted and pages(port) == pages(pool.ports[0])
    assert ask(door, intent(1, "tok-a")) == UNASSIGNED and ask(door, intent(1, "tok-d"))[0] == 200


def from_a_beginning(pool):
    """An instance that starts with the file of `dss begin` reads no later list before its place."""
    database, folder = pathlib.Path(pool.room) / "one.db", folder_of(pool)
    single = Single(pool.room, database, TOKENS)
    created(single, 1)
    single.kill()
    begun(pool, database, folder)
    one, port = begin_from(pool, "a1", folder)
    lie(pool, "in/c2", put(2))
    write(pool, LIST, list_of(a=["uss-a"], c=["uss-d"]))
    lie(pool, "in/c2", put(3))
    assert seen(one, (1, 2, 3)) == [1, 2]
    two, later = begin_from(pool, "a2", folder)
    assert seen(two, (1, 2, 3)) == [1, 2]
    assert pages(later) == pages(port)
    assert ask(two, intent(1, "tok-d")) == UNASSIGNED and ask(two, intent(1, "tok-a"))[0] == 200


def everyone(pool):
    """With the empty list every organization acts for every USS again, also after a start, and behind a file."""
    c, folder = pool.doors[2], folder_of(pool)
    announce(pool, a=["uss-a"])
    assert ask(c, put(1)) == UNASSIGNED
    lie(pool, "in/c2", put(2))
    write(pool, LIST, "")
    until(lambda: ask(c, intent(1, "tok-a")) != UNASSIGNED, "the USS is not served", 20)
    created(c, 1)
    lie(pool, "in/x", put(3))
    all_see(pool, (1, 2, 3), [1, 3])
    c.kill()
    c.start()
    pool.ready([c])
    assert ask(c, intent(1, "tok-a"))[0] == 200
    followed(pool, folder)
    door, port = begin_from(pool, "x1", folder)
    created(door, 4)
    lie(pool, "in/x", put(5))
    all_see(pool, (1, 2, 3, 4, 5), [1, 3, 4, 5])
    assert pages(port) == pages(pool.ports[2])


def purges(pool):
    """A purge names no USS: the list stops none."""
    announce(pool, a=["uss-a"])
    call = put(1)
    now = int(time.time())
    body = json.loads(call[3])
    body["extents"][0] |= {"time_start": now, "time_end": now + 60}
    assert ask(pool.doors[0], (*call[:3], json.dumps(body).encode()))[0] == 201
    created(pool.doors[0], 2)
    before = counts(pool)
    write(pool, "in/c2", f"{NUMBER} 0 {64 * '0'}\ndss-purge 1\n{now + 61}\n")
    assert counts(pool) == [it + 1 for it in before], (before, counts(pool))
    all_see(pool, (1, 2), [2])


def one_service(pool):
    """While lists come that give all USSs to all organizations, drawn calls have exactly the responses of one service."""
    given = {name: ["uss-a", "uss-b", "uss-c", "uss-d"] for name in "abc"}
    judge = Judge(pool, 83)
    for it in range(6):
        write(pool, LIST, list_of("abc" + "z" * it, **given))
        answered = judge.calls(50)
        assert answered == 50, (answered, judge.client.answers)
    judge.mark_all()
    assert pages(pool.ports[0]) == pages(pool.ports[1]) == pages(pool.ports[2])


def peak(door):
    """Returns the peak memory of an instance, in kilobytes."""
    status = pathlib.Path(f"/proc/{door.process.pid}/status").read_text()
    return next(int(it.split()[1]) for it in status.splitlines() if it.startswith("VmHWM:"))


def large_replies(pool):
    """An instance keeps no reply to a call of others: 64 large ones in one entry cost the memory of one."""
    for first in range(0, FLIGHTS, MOST_CALLS):
        lie(pool, "in/d1", *map(put, range(first, first + MOST_CALLS)))
    ends = [0, FLIGHTS - 1]
    all_see(pool, ends, ends)
    # each of these meets every flight, and has no key
    area = json.loads(intent_body(0))
    area["extents"][0]["time_end"] = json.loads(intent_body(FLIGHTS))["extents"][0]["time_end"]
    denied = [(*put(FLIGHTS + it, "tok-b")[:3], json.dumps(area).encode()) for it in range(MOST_CALLS)]
    taken, before = counts(pool), [peak(it) for it in pool.doors]
    lie(pool, "in/d2", *denied)
    assert counts(pool) == [it + 1 for it in taken], (taken, counts(pool))
    after = [peak(it) for it in pool.doors]
    assert all(new < old + LITTLE for old, new in zip(before, after)), (before, after)
    status, body = ask(pool.doors[0], denied[0])
    assert (status, len(json.loads(body)["missing_operational_intents"])) == (409, FLIGHTS), (status, body[:500])
    created(pool.doors[1], 2 * FLIGHTS)
    all_see(pool, [*ends, FLIGHTS, 2 * FLIGHTS], [*ends, 2 * FLIGHTS])
    assert [it.process.poll() for it in pool.doors] == [None] * 3, [it.lines[-5:] for it in pool.doors]


class Gate:
    """Connects an instance to a member of etcd, and can hold what the watch gives, at once or after some lines."""

    def __init__(self, cluster, lines=None):
        self.cluster, self.flows, self.left = cluster, threading.Event(), lines
        self.flows.set()
        self.listener = socket.create_server(("127.0.0.1", 0))
        threading.Thread(target=self.accept, daemon=True).start()

    def address(self):
        return f"127.0.0.1:{self.listener.getsockname()[1]}"

    def accept(self):
        while True:
            try:
                client, _ = self.listener.accept()
                member = socket.create_connection((self.cluster.hosts[0], self.cluster.clients[0]))
            except OSError:
                return
            threading.Thread(target=self.serve, args=(client, member), daemon=True).start()

    def serve(self, client, member):
        """Passes the bytes of a client on. Its first ones tell whether it watches."""
        first = client.recv(1 << 16)
        is_watch = first.startswith(b"POST /v3/watch ")
        threading.Thread(target=self.pass_on, args=(member, client, is_watch), daemon=True).start()
        try:
            member.sendall(first)
        except OSError:
            pass
        self.pass_on(client, member, False)

    def pass_on(self, source, target, is_held):
        """Passes bytes on, and then the end. A line that is received while the gate holds waits until it lets go."""
        lines = source.makefile("rb")
        try:
            while piece := lines.readline() if is_held else source.recv(1 << 16):
                if is_held:
                    self.flows.wait()
                target.sendall(piece)
                # the end of a long line is a chunk of its own
                if is_held and self.left and (piece == b"\n" or piece.endswith(b"}\n")):
                    self.left -= 1
                    if not self.left:
                        self.hold()
        except OSError:
            pass
        for it in source, target:
            try:
                it.shutdown(socket.SHUT_RDWR)
            except OSError:
                pass

    def hold(self):
        self.flows.clear()

    def let_go(self):
        self.flows.set()

    def close(self):
        self.listener.close()


def own_entry(pool):
    """The list takes a USS away between an offer and its place. The instance ends, and its next process refuses the USS."""
    gate = Gate(pool.cluster)
    door = Door(pool.room, gate.address(), "d1", TOKENS)
    pool.doors.append(door)
    all_of_them = "abcd"
    write(pool, LIST, list_of(all_of_them, d=["uss-a"]))
    catch_up(pool)
    created(door, 1)
    # The instance does not receive the next list, and its entry comes behind it.
    gate.hold()
    write(pool, LIST, list_of(all_of_them))
    way, own = Exchange(door), lambda: pool.cluster.ask(0, "/v3/kv/range", {"key": code("in/d1")})["kvs"][0]
    before = own()["mod_revision"]
    way.connection, way.left = door.connect(), 1
    way.connection.sendall(wire.request(*put(2)))
    until(lambda: own()["mod_revision"] != before, "the instance offers nothing", 10)
    assert b"\ndss-batch 1\n" in base64.b64decode(own()["value"]), own()
    assert door.process.poll() is None
    gate.let_go()
    assert door.end() == (1, FORBIDDEN), door.lines
    assert way.receive()[0] == 503
    way.close()
    pool.doors.remove(door)
    all_see(pool, (1, 2), [1])
    # the entry is of an earlier process now
    door.start()
    pool.doors.append(door)
    pool.ready([door])
    assert ask(door, put(3)) == UNASSIGNED
    all_see(pool, (1, 2, 3), [1])
    write(pool, LIST, list_of(all_of_them, d=["uss-a"]))
    until(lambda: ask(door, intent(1, "tok-a")) != UNASSIGNED, "the USS is not served", 20)
    created(door, 3)
    all_see(pool, (1, 2, 3), [1, 3])
    assert door.process.poll() is None
    gate.close()


def at_a_start(pool):
    """An instance that has not received the list yet offers nothing that the list forbids, so its start does not end it."""
    ending = pool.cluster.ask(0, "/v3/kv/range", {"key": code("in/")})["header"]["revision"]
    # etcd gives at most 1,000 of these changes in a line
    for _ in range(int(ending), 1_100):
        write(pool, "in/z", "no entry")
    announce(pool, a=["uss-a"])
    gate = Gate(pool.cluster, lines=2)
    door = Door(pool.room, gate.address(), "a2", TOKENS)
    pool.doors.append(door)
    own = lambda: [base64.b64decode(it["value"]) for it in pool.cluster.ask(0, "/v3/kv/range", {"key": code("in/a2")}).get("kvs", ())]
    until(lambda: own() and not gate.flows.is_set(), "the instance does not begin")
    way = Exchange(door)
    way.connection, way.left = door.connect(), 1
    way.connection.sendall(wire.request(*put(1, "tok-b")))
    end = time.monotonic() + 1
    while time.monotonic() < end and b"\n" not in own()[0]:
        time.sleep(0.05)
    gate.let_go()
    assert way.receive()[0] == 503
    way.close()
    pool.ready([door], 20)
    assert ask(door, put(1, "tok-b")) == UNASSIGNED
    all_see(pool, (1,), [])
    assert door.process.poll() is None, door.lines
    gate.close()


def by_script(pool):
    """deploy/pool/suppliers checks a list before it puts it, as root only, and shows the one in force."""
    room, scripts = pathlib.Path(pool.room), TOP / "deploy" / "pool"
    given = {"PATH": "/usr/bin:/bin", "ENDPOINTS": pool.cluster.addresses()}

    def run(script, *words, **more):
        done = subprocess.run(
            [scripts / script, *words], env={**given, **more}, cwd=room, stdin=subprocess.DEVNULL, capture_output=True, text=True, timeout=doors.LIMIT
        )
        return done.returncode, done.stdout, done.stderr

    def file(text):
        (room / "list").write_bytes(text if isinstance(text, bytes) else text.encode())
        return "list"

    def kept():
        root = (room / "root.user").read_text().strip()
        return pool.cluster.control("--user", root, "get", LIST, "--print-value-only").removesuffix("\n")

    empty = "suppliers: the list is empty: every organization may act for every USS\n"
    put_list = lambda *words, **more: run("suppliers", *words, **more)
    assert put_list("--show") == (1, "", "suppliers: cannot read root.user; ETCD_USER names the file with NAME:PASSWORD\n")
    for wrong in "b", "b-file", "12":
        why = f"make-users: {wrong}: a name ends with digits, and without them is the name of the organization, as b0 or b1\n"
        assert run("make-users", "a1", wrong) == (1, "", why), wrong
    assert run("make-users", "a1", "b0")[0] == 0
    assert put_list("--show") == (0, "", empty) and kept() == ""
    assert put_list(file("a uss-a\nb uss-b\na uss.c_2-x")) == (0, "added: a uss-a\nadded: a uss.c_2-x\nadded: b uss-b\n", "")
    assert kept() == "a uss-a\nb uss-b\na uss.c_2-x\n"
    assert put_list("--show") == (0, kept(), "")
    assert put_list(file("b uss-b\na uss-a\na uss.c_2-x\n")) == (0, "suppliers: nothing changes\n", "")
    changed, before = "added: .Org- uss-b\nremoved: a uss.c_2-x\nremoved: b uss-b\n", kept()
    refused = "suppliers: nothing was put: the list removes lines, whose USSs would no longer be served; to put it, run: suppliers --remove list\n"
    assert put_list(file("a uss-a\n.Org- uss-b\n")) == (1, "", changed + refused) and kept() == before
    assert put_list("--remove", "list") == (0, changed, "")
    assert put_list("--remove", "--everyone") == (1, "", "suppliers: --remove takes a file\n")
    wrong = {
        "a uss-a\nb uss-b\n\n": "list:3: a blank line", "a uss-a\nb uss-b\na uss-a\n": "list:3: the same as line 1",
        "a uss-a\na1 uss-a\n": "list:2: a1 is no organization: it is the name of its instances without the digits at the end",
        "a  uss-a\n": "list:1: not ORGANIZATION USS with one space between them", "a\n": "list:1: not ORGANIZATION USS with one space between them",
        "a uss-a \n": "list:1: not ORGANIZATION USS with one space between them", "a uss-a\r\n": "list:1: a carriage return; lines end with a line feed alone",
        "a/b uss-a\n": "list:1: a/b is no organization: 1 to 64 of A-Z a-z 0-9 . _ -", "a u@a\n": "list:1: u@a is no USS: 1 to 64 of A-Z a-z 0-9 . _ -",
        f"a {'u' * 65}\n": f"list:1: {'u' * 65} is no USS: 1 to 64 of A-Z a-z 0-9 . _ -", "a uss\0-a\n": "list has a zero byte",
        "": "list is empty; --everyone lets every organization act for every USS",
    }
    before = kept()
    for text, why in wrong.items():
        assert put_list(file(text)) == (1, "", f"suppliers: {why}\n"), (text, put_list("list"))
    for words in (), ("--all",), ("list", "list"):
        assert put_list(*words) == (1, "", "suppliers: takes a file, --everyone or --show\n"), words
    assert put_list("none") == (1, "", "suppliers: cannot read none\n")
    assert kept() == before
    # a user of an instance, or of dss follow, shows the list and cannot put it
    for user in "a1.user", "b0.user":
        assert put_list("--show", ETCD_USER=user) == (0, before, "")
        for words in ("--everyone",), ("--remove", file("a uss-x\n")):
            status, printed, errors = put_list(*words, ETCD_USER=user)
            assert (status, printed) == (1, "") and "permission denied" in errors, (words, status, printed, errors)
    assert put_list("--show") == (0, before, "")
    one = pool.add("a1", TOKENS, options=("--etcd-user", room / "a1.user"))
    assert put_list("--remove", file(list_of("a", a=["uss-a"])))[0] == 0
    pool.ready([one])
    assert (ask(one, intent(1, "tok-a"))[0], ask(one, intent(1, "tok-b"))) == (404, UNASSIGNED)
    status, printed, errors = put_list("--everyone")
    assert (status, sorted(printed.splitlines()), errors) == (0, ["removed: a uss-a", "removed: a uss-v", "removed: a uss-w"], "")
    until(lambda: ask(one, intent(1, "tok-b"))[0] == 404, "the USS is not served", 20)
    assert put_list("--show") == (0, "", empty)


CASES = {
    "suppliers at reads and changes": with_organizations(unassigned),
    "suppliers that change": with_organizations(reassigned),
    "suppliers and lies": with_organizations(lies),
    "suppliers and mixed entries": with_organizations(mixed),
    "suppliers in turn": with_organizations(in_turn),
    "suppliers behind files": with_organizations(behind_files),
    "suppliers and a beginning": with_cluster(from_a_beginning, 1),
    "suppliers for everyone": with_organizations(everyone),
    "suppliers and purges": with_organizations(purges),
    "suppliers and one service": with_organizations(one_service),
    "suppliers and an own entry": with_organizations(own_entry),
    "suppliers at a start": with_organizations(at_a_start),
    "suppliers by a script": with_cluster(by_script, 1),
    "large replies of others": with_organizations(large_replies),
}
