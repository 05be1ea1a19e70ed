"""Cases of a pool: what is acknowledged at one door is seen at every door."""
import json
import pathlib
import random
import re
import threading
import time
import urllib.error
import urllib.request

import drawn_calls
import wire
from client import AHEAD, Client
from doors import LATE, LIMIT, SOONEST, Exchange, Pool, answer, create, until
from ports import free_port
from real_etcd import Cluster

TOKENS = drawn_calls.ALL_TOKENS
UNMADE = "dss: pool: unmade: a batch of changes was not stored in time, and never will be; start it again"
SETTINGS = "dss: pool: settings: the pool has another salt, policy or beginning; use its salt, version and files"
READ = ("GET", f"{wire.AVAILABILITY}/uss-n", "Bearer tok-v", None)
# A few calls of a healthy pool may have no response, if its machine stands still for seconds: one of so many.
FEW = 20


def intent_body(index):
    """Returns an intent that meets none of another index."""
    start = AHEAD + 20 * index
    extent = {"cells": ["89c25904"], "altitude_lower": 0, "altitude_upper": 100, "time_start": start, "time_end": start + 10}
    return json.dumps({"extents": [extent], "state": "Accepted", "uss_base_url": "https://a.example"}).encode()


def put(index, token="tok-a"):
    return "PUT", f"{wire.INTENTS}/00000000-0000-4000-8000-{index:012x}", f"Bearer {token}", intent_body(index)


def get(index, token="tok-a"):
    return "GET", f"{wire.INTENTS}/00000000-0000-4000-8000-{index:012x}", f"Bearer {token}", None


class Judge:
    """A client whose each call goes to a door by chance, and whose responses must be those of one service."""

    def __init__(self, pool, seed):
        self.pool, self.client, self.random = pool, Client(seed), random.Random(seed)
        # The calls without a response that did not wait for the log.
        self.hasty = 0

    def calls(self, count, doors=None):
        """Makes calls. Returns how many had a response."""
        answered = 0
        for it in range(count):
            door = self.random.choice(doors or self.pool.doors)
            call = drawn_calls.Drawn(self.client.draw, self.client.airspace, AHEAD).call()
            began = time.monotonic()
            if self.client.ask(door.connect, call):
                answered += 1
            else:
                self.hasty += time.monotonic() - began < SOONEST
        return answered

    def mark_all(self):
        """Reads at each door; each must know all that was acknowledged."""
        for door in self.pool.doors:
            until(lambda: self.client.ask(door.connect, READ), lambda: f"{door.name} does not answer: {door.lines[-5:]}")


def with_pool(case, members=3):
    def run(room):
        cluster = Cluster(room, members)
        pool = None
        try:
            pool = Pool(room, cluster, TOKENS)
            pool.ready()
            case(pool)
        finally:
            if pool:
                pool.close()
            cluster.close()
    return run


def one_service(pool):
    """1,500 drawn calls over all doors have exactly the responses of one service."""
    judge = Judge(pool, 7)
    lacking = 1_500 - judge.calls(1_500)
    judge.mark_all()
    assert not judge.hasty and lacking * FEW <= 1_500, (lacking, judge.hasty, judge.client.answers)


def killed_instance(pool):
    """Instances die and come back among changes: nothing acknowledged is lost."""
    judge = Judge(pool, 11)
    for it in range(6):
        judge.calls(60)
        victim = pool.doors[it % 3]
        victim.kill()
        judge.calls(60, [door for door in pool.doors if door is not victim])
        victim.start()
        judge.mark_all()


def killed_in_flight(pool):
    """An instance dies while it has batches on their way. What it acknowledged is there, at the others and at itself."""
    acknowledged, errors = [], []
    stop = threading.Event()

    def writer(first):
        way = Exchange(pool.doors[0])
        for index in range(first, first + 10_000):
            if stop.is_set():
                return
            try:
                status, body = way.ask(put(index))
            except OSError:
                return
            if status == 201:
                acknowledged.append(index)
            elif status != 503:
                errors.append((index, status, body))
    writers = [threading.Thread(target=writer, args=(1_000_000 + 20_000 * it,)) for it in range(8)]
    for it in writers:
        it.start()
    time.sleep(2)
    until(lambda: len(acknowledged) > 20 or errors, lambda: f"{len(acknowledged)} are acknowledged")
    pool.doors[0].kill()
    stop.set()
    for it in writers:
        it.join()
    assert not errors, errors[:3]
    pool.doors[0].start()
    pool.ready()
    for door in pool.doors:
        way = Exchange(door)
        lost = [it for it in acknowledged if answer(door, get(it), way)[0] != 200]
        assert not lost, f"{door.name} lost {len(lost)} of {len(acknowledged)}"


def clients_of_one_uss(pool):
    """64 clients of one USS at one door take turns: each change is acknowledged, and no connection ends."""
    errors = []

    def writer(first):
        way = Exchange(pool.doors[0])
        for index in range(first, first + 20):
            try:
                create(pool.doors[0], put(index), way)
            except (OSError, AssertionError) as error:
                errors.append((index, error))
                break
        way.close()
    writers = [threading.Thread(target=writer, args=(2_000_000 + 100 * it,)) for it in range(64)]
    for it in writers:
        it.start()
    for it in writers:
        it.join()
    assert not errors, (len(errors), errors[:3])


def killed_leader(pool):
    """The leader of etcd dies among changes, and comes back."""
    judge = Judge(pool, 13)
    for _ in range(3):
        judge.calls(60)
        leader = pool.cluster.await_leader()
        pool.cluster.kill(leader)
        judge.calls(60)
        judge.mark_all()
        pool.cluster.start(leader)
        pool.cluster.await_leader()
        time.sleep(1)
    judge.mark_all()


def frozen_instance(pool):
    """A frozen instance, once it goes on, answers with what was done meanwhile."""
    judge = Judge(pool, 17)
    for it in range(3):
        judge.calls(40)
        frozen = pool.doors[it]
        frozen.freeze()
        judge.calls(60, [door for door in pool.doors if door is not frozen])
        waiting = Exchange(frozen)
        waiting.send(READ)
        judge.client.reached([pool.doors[(it + 1) % 3].connect], LIMIT)
        wanted = [(200, one.airspace.ask(*READ).body.encode()) for one in judge.client.candidates]
        frozen.go_on()
        got = waiting.receive()
        assert got in wanted or got in LATE, (got, wanted)
        assert answer(frozen, READ, waiting) in wanted, wanted
        waiting.close()
        judge.mark_all()


def without_majority(pool):
    """Without a majority of etcd, reads and changes fail in time, and denials without state are as ever."""
    judge = Judge(pool, 19)
    judge.calls(30)
    for it in (0, 1):
        pool.cluster.stop(it)
    door = pool.doors[2]
    began = time.monotonic()
    got = Exchange(door).ask(READ)
    took = time.monotonic() - began
    assert got == wire.UNREACHABLE, got
    assert took < 9, took
    denied = Exchange(door).ask(("GET", f"{wire.AVAILABILITY}/uss-n", "Bearer nobody", None))
    assert denied[0] == 401, denied
    began = time.monotonic()
    got = Exchange(door).ask(put(77))
    took = time.monotonic() - began
    assert got in LATE and took < 20, (got, took)
    for it in (0, 1):
        pool.cluster.go_on(it)
    pool.cluster.await_leader()
    goes_on = settled(door, put(76))
    pool.ready()
    found = {answer(it, get(77))[0] for it in pool.doors}
    assert found == ({200} if goes_on and got == wire.UNKNOWN else {404}), (got, goes_on, found)


def settled(door, call):
    """Waits until the outcome of an open batch is known. If it is not stored, the instance ends, and is started again: returns False."""
    def is_known():
        way = Exchange(door)
        try:
            return way.ask(call)[0] != 503
        except OSError:
            return door.process.poll() is not None
        finally:
            way.close()
    until(is_known, lambda: f"{door.name} does not settle its batch: {door.lines[-5:]}")
    if door.process.poll() is None:
        return True
    ended = door.end()
    assert ended == (1, UNMADE), ended
    door.start()
    return False


def alarm(pool):
    """During an alarm of etcd reads are answered, and changes are not. A change whose outcome is unknown is not made once it has ended."""
    door, other = pool.doors[:2]
    create(door, put(90))
    pool.cluster.ask(0, "/v3/maintenance/alarm", {"action": "ACTIVATE", "memberID": "1", "alarm": "NOSPACE"})
    way = Exchange(door)
    assert way.ask(put(91)) == wire.UNKNOWN
    for it in pool.doors:
        assert [answer(it, get(index))[0] for index in (90, 91)] == [200, 404], it.name
    # it waits behind the open batch, and is never made
    assert way.ask(put(92)) == wire.UNREACHABLE
    way.close()
    pool.cluster.control("alarm", "disarm")
    assert not settled(door, put(93)), "the open batch was stored"
    pool.ready()
    create(door, put(94))
    for it in (door, other):
        assert [answer(it, get(index))[0] for index in (90, 91, 92, 94)] == [200, 404, 404, 200], it.name


def second_process(pool):
    """A second process under a name replaces the first, which ends once it has a change."""
    first = pool.doors[0]
    second = pool.add(first.name, TOKENS, file="second")
    pool.ready()
    create(second, put(78))
    got = Exchange(first).ask(put(79))
    assert got[0] == 503, got
    ended = first.end()
    assert ended == (1, "dss: pool: replaced: another process writes under this name; stop one of them"), ended
    assert answer(second, get(79))[0] == 404


def other_salt(pool):
    """An instance with another salt than the pool's ends, and the pool goes on."""
    create(pool.doors[0], put(80))
    stranger = pool.add("i9", TOKENS, salt="another")
    ended = stranger.end()
    assert ended == (1, SETTINGS), ended
    assert answer(pool.doors[1], get(80))[0] == 200


def token_reload(pool):
    """A changed token file is loaded at its instance alone, and another salt is not."""
    door, call = pool.doors[0], ("GET", f"{wire.AVAILABILITY}/uss-n", "Bearer tok-new", None)
    assert Exchange(door).ask(call)[0] == 401

    def write(tokens, salt=wire.SALT):
        new = door.file.with_suffix(".new")
        new.write_text(wire.token_file(tokens, salt))
        new.replace(door.file)
    write({**TOKENS, "tok-new": ("uss-new", {wire.STRATEGIC})})
    until(lambda: Exchange(door).ask(call)[0] == 200, "the token is not loaded")
    assert Exchange(pool.doors[1]).ask(call)[0] == 401
    create(door, put(81, "tok-new"))
    assert answer(pool.doors[1], get(81))[0] == 200
    write(TOKENS, "another")
    line = "dss: tokens: not reloaded: the salt changed; restart to apply it"
    until(lambda: line in door.lines, "the other salt is not reported")
    assert answer(door, call)[0] == 200


def access_log(pool):
    """The access log has a line for each request, with its status."""
    log = pathlib.Path(pool.room) / "requests.log"
    door = pool.add("logged", TOKENS, options=("--access-log", log))
    pool.ready([door])
    way, wanted = Exchange(door), []
    for call, status in ((put(82), 201), (put(82), 409), (get(82), 200), (get(82, "nobody"), 401), (get(83), 404)):
        # etcd may not answer in time: then the call is repeated, and a change may have been made already
        for _ in range(10):
            wanted.append(way.patient(call)[0])
            if wanted[-1] != 503:
                break
        assert wanted[-1] in (status, 409 if 503 in wanted else status), (call, status, wanted)
    for it in (0, 1):
        pool.cluster.stop(it)
    got = way.ask(READ)
    assert got[0] == 503, got
    wanted.append(503)
    for it in (0, 1):
        pool.cluster.go_on(it)

    def statuses():
        """Returns the statuses in the whole lines of the last connection."""
        lines = [re.search(r" connection=(\d+) .* status=(\d+) ", it) for it in log.read_text().split("\n")[:-1]]
        last = max(int(it[1]) for it in lines)
        return [int(it[2]) for it in lines if int(it[1]) == last]
    until(lambda: len(statuses()) >= len(wanted), lambda: f"lines are missing: {log.read_text()}")
    assert statuses() == wanted, statuses()


def admin(port, path, method="GET"):
    """Returns the status and the body of a response of an admin port."""
    request = urllib.request.Request(f"http://127.0.0.1:{port}{path}", method=method)
    if method == "POST":
        request.add_header("X-Dss-Admin", "1")
    try:
        with urllib.request.urlopen(request, timeout=LIMIT) as got:
            return got.status, got.read().decode()
    except urllib.error.HTTPError as error:
        return error.code, error.read().decode()


def metric(port, name):
    status, body = admin(port, "/metrics")
    assert status == 200, body
    return next(float(it.split()[1]) for it in body.splitlines() if it.startswith(f"{name} "))


def until_serving(port):
    """Waits until an instance has read the log up to its own start. It may answer a read before."""
    until(lambda: admin(port, "/health") == (200, "serving\n"), lambda: admin(port, "/health"))


def admin_port(pool):
    """The admin port of an instance shows the airspace of the pool and its metrics."""
    port = free_port()
    door = pool.add("operated", TOKENS, options=("--admin-port", port))
    pool.ready([door])
    until_serving(port)
    create(pool.doors[0], put(84))
    assert answer(door, get(84))[0] == 200
    page = json.loads(admin(port, "/airspace")[1])
    ids = [it["operational_intent_reference"]["id"] for it in page["entities"]]
    assert ids == ["00000000-0000-4000-8000-000000000054"], page
    assert "\ndss_mirror_up 1\n" in admin(port, "/metrics")[1]
    assert admin(port, "/backup?name=a", "POST")[0] == 404
    assert admin(port, "/file", "POST") == (404, "no such path\n"), "a file without --files"


def stopped(pool):
    """A stop by the admin port answers the request that waits, and ends with status 0."""
    port = free_port()
    door = pool.add("stopped", TOKENS, options=("--admin-port", port))
    pool.ready([door])
    for it in (0, 1):
        pool.cluster.stop(it)
    way = Exchange(door)
    way.send(put(85))
    until(lambda: metric(port, "dss_pool_requests_waiting") == 1, "the request does not wait")
    began = time.monotonic()
    assert admin(port, "/stop", "POST") == (200, "stopping\n")
    got = way.receive()
    took = time.monotonic() - began
    assert got[0] == 503 and took < 8, (got, took)
    status, line = door.end()
    assert status == 0, (status, line)
    for it in (0, 1):
        pool.cluster.go_on(it)


def counted(pool):
    """With `--count`, an instance ends with status 0 once its last connection is closed, and not before."""
    door = pool.add("counted", TOKENS, options=("--count", 2))
    first, second = Exchange(door), Exchange(door)
    create(door, put(87), first)
    assert answer(door, get(87), second)[0] == 200
    second.close()
    time.sleep(0.5)
    assert door.process.poll() is None, "it ended with a connection open"
    assert answer(door, get(87), first)[0] == 200
    first.close()
    assert door.end()[0] == 0, door.lines


def user(pool):
    """An instance serves as a user of etcd that may write its own key only. A wrong file of the user ends it."""
    for words in (
        ("user", "add", "root:r"), ("user", "grant-role", "root", "root"), ("role", "add", "one"), ("user", "add", "one:secret:1"),
        ("role", "grant-permission", "one", "readwrite", "in/one"), ("role", "grant-permission", "one", "--prefix=true", "read", "in/"),
        ("user", "grant-role", "one", "one"), ("auth", "enable"),
    ):
        pool.cluster.control(*words)
    file = pathlib.Path(pool.room) / "one.user"
    file.write_text("one:secret:1\n")
    one = pool.add("one", TOKENS, options=("--etcd-user", file))
    pool.ready([one])
    create(one, put(86))
    without = pool.add("two", TOKENS)
    until(lambda: any(re.fullmatch(r"dss: etcd: [0-9.:]+: status 4[0-9]+; trying the next address", it) for it in without.lines), "no fault of etcd is printed")
    for text, why in (("one\n", "its file is not one line NAME:PASSWORD"), ("one:a\ntwo:b\n", "its file is not one line NAME:PASSWORD")):
        file.write_text(text)
        status, lines = pool.fails("three", TOKENS, options=("--etcd-user", file))
        assert (status, lines) == (1, [f"dss: pool: etcd user: {why}"]), (status, lines)
    file.unlink()
    status, lines = pool.fails("three", TOKENS, options=("--etcd-user", file))
    assert (status, lines) == (1, ["dss: pool: etcd user: cannot read its file"]), (status, lines)


CASES = {
    "one service": with_pool(one_service),
    "killed instance": with_pool(killed_instance),
    "killed in flight": with_pool(killed_in_flight),
    "64 clients of one USS": with_pool(clients_of_one_uss),
    "killed leader": with_pool(killed_leader),
    "frozen instance": with_pool(frozen_instance),
    "without majority": with_pool(without_majority),
    "alarm": with_pool(alarm),
    "second process": with_pool(second_process),
    "other salt": with_pool(other_salt),
    "token reload": with_pool(token_reload),
    "access log": with_pool(access_log),
    "admin port": with_pool(admin_port),
    "stopped": with_pool(stopped),
    "counted": with_pool(counted),
    "user": with_pool(user),
}
