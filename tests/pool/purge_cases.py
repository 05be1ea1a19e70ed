"""Cases of purges: what has ended is purged at every door, and one wrong clock purges nothing."""
import json
import pathlib
import struct
import time

from cases import TOKENS, admin, get, metric, put, until_serving
from devices import library
from doors import Pool, answer, create, until
from file_cases import folder_of, followed, pages, started
from ports import free_port
from real_etcd import Cluster

# The retention, and how far a clock is moved, in seconds.
RETENTION, MOVED = 3_600, 7_200
REMOVED = "dss: purge: removed 1 ended intents, constraints and subscriptions"


class Clocks:
    """The clock of each instance, which a test can move."""

    def __init__(self, room):
        self.room, self.preload = pathlib.Path(room), library("move_clock", room)

    def file(self, at):
        return self.room / f"clock-{at}"

    def move(self, at, seconds):
        with open(self.file(at), "r+b" if self.file(at).exists() else "wb") as file:
            file.write(struct.pack("q", seconds))

    def of(self, at):
        """Returns the environment of an instance with that clock."""
        return {"LD_PRELOAD": self.preload, "CLOCK_FILE": str(self.file(at))}

    def environment(self, at):
        """Returns the environment of an instance with a new clock."""
        self.move(at, 0)
        return self.of(at)


def with_clocks(case, options=("--retention", RETENTION)):
    def run(room):
        clocks, cluster, pool = Clocks(room), Cluster(room, 3), None
        ports = [free_port() for _ in range(3)]
        try:
            # Instances whose names differ in digits alone count as having one clock.
            named = lambda at: f"{'abc'[at]}1"
            own = lambda at: (*options, "--verbose", "--admin-port", ports[at])
            pool = Pool(room, cluster, TOKENS, named=named, options=own, environment=clocks.environment)
            pool.clocks, pool.ports = clocks, ports
            pool.ready()
            # only a call behind the start of an instance in the log tells it a time
            for it in ports:
                until_serving(it)
            case(pool)
        finally:
            if pool:
                pool.close()
            cluster.close()
    return run


def jump(pool, at):
    """Moves the clock of an instance, and confirms it there, since a jump holds the purges of the instance."""
    pool.clocks.move(at, MOVED)
    until(lambda: metric(pool.ports[at], "dss_purge_held") == 1, f"instance {at} does not notice that its clock has jumped")
    admin(pool.ports[at], "/purge/resume", "POST")


def ending(index, seconds=60):
    """Returns the creation of an intent that ends after so many seconds."""
    method, path, caller, body = put(index)
    now = int(time.time())
    intent = json.loads(body)
    intent["extents"][0] |= {"time_start": now, "time_end": now + seconds}
    return method, path, caller, json.dumps(intent).encode()


def change(door, index):
    create(door, put(index))


def statuses(pool, index):
    return [answer(door, get(index))[0] for door in pool.doors]


def await_statuses(pool, index, wanted):
    until(lambda: statuses(pool, index) == [wanted] * len(pool.doors), lambda: f"not {wanted} at every door: {statuses(pool, index)}")


def at_every_door(pool):
    """Two hours later an ended flight is purged at every door, and a later one is not. Each door logs and counts it."""
    create(pool.doors[0], ending(1))
    change(pool.doors[0], 2)
    for at in range(3):
        jump(pool, at)
    # the flight stays until an instance hears another one
    began = time.time()
    change(pool.doors[0], 3)
    await_statuses(pool, 1, 404)
    assert statuses(pool, 2) == statuses(pool, 3) == [200] * 3
    for door, port in zip(pool.doors, pool.ports):
        until(lambda: REMOVED in door.lines, lambda: f"{door.name}: {door.lines[-5:]}")
        assert metric(port, "dss_purged_total") == 1 and metric(port, "dss_purges_total") >= 1
        until_time = metric(port, "dss_pool_purged_until_seconds")
        assert began - 60 < until_time - (MOVED - RETENTION) < time.time() + 60, (began, until_time)


def by_a_wrong_clock(pool):
    """An organization whose clock is two hours ahead purges no flight, and makes no other instance purge one."""
    create(pool.doors[0], ending(11))
    jump(pool, 2)
    beside = pool.add("c2", TOKENS, options=pool.doors[2].options[:2], environment=pool.clocks.of(2))
    pool.ready([beside])
    for it in range(12):
        change(pool.doors[it % 4], 20 + it)
        time.sleep(0.25)
    assert statuses(pool, 11) == [200] * 4
    # once another clock agrees, the same flight is purged
    jump(pool, 0)
    change(pool.doors[0], 40)
    await_statuses(pool, 11, 404)


def after_a_restart(pool):
    """An instance that starts does not take the calls of its own earlier process for those of another instance."""
    first, others = pool.doors[0], pool.doors[1:]
    create(first, ending(51))
    for it in others:
        it.kill()
    pool.clocks.move(0, MOVED)
    change(first, 52)
    first.kill()
    # nor does one with another name and the same clock, to which the log gives these calls
    beside = pool.add("d1", TOKENS, options=first.options[:2], environment=pool.clocks.of(0))
    pool.ready([beside])
    time.sleep(2)
    assert answer(beside, get(51))[0] == 200
    beside.kill()
    first.start()
    pool.ready([first])
    change(first, 53)
    time.sleep(2)
    assert answer(first, get(51))[0] == 200
    # an instance with the same clock that is another one counts
    pool.clocks.move(1, MOVED)
    others[0].start()
    pool.ready([others[0]])
    change(others[0], 54)
    until(lambda: answer(first, get(51))[0] == 404, "the flight stays")


def in_files(pool):
    """A file has the purges of the log, and instances from it and from the beginning of the log hold the same airspace."""
    folder = folder_of(pool)
    create(pool.doors[0], ending(61))
    first = followed(pool, folder)
    for at in range(3):
        jump(pool, at)
    change(pool.doors[0], 62)
    await_statuses(pool, 61, 404)
    assert followed(pool, folder) > first
    late = started(pool, "late", folder)
    assert answer(late, get(61))[0] == 404 and answer(late, get(62))[0] == 200
    ports = [free_port(), free_port()]
    pool.add("whole", TOKENS, options=("--admin-port", ports[0]))
    pool.add("from-file", TOKENS, options=("--admin-port", ports[1], "--files", folder))
    pool.ready()
    until(lambda: pages(ports[0]) == pages(ports[1]) == pages(pool.ports[0]), "the airspaces differ")


def without_retention(pool):
    """Instances without a retention purge nothing. They take the purges of another one."""
    create(pool.doors[0], ending(71))
    for at in range(3):
        pool.clocks.move(at, MOVED)
    for it in range(8):
        change(pool.doors[it % 3], 80 + it)
        time.sleep(0.25)
    assert statuses(pool, 71) == [200] * 3
    assert all(metric(port, "dss_purges_total") == 0 for port in pool.ports)
    environment = pool.clocks.environment("more")
    pool.clocks.move("more", MOVED)
    more = pool.add("more", TOKENS, options=("--retention", RETENTION), environment=environment)
    pool.ready()
    # once its own change is made, the log has its start
    change(more, 89)
    change(pool.doors[0], 90)
    await_statuses(pool, 71, 404)


CASES = {
    "purges at every door": with_clocks(at_every_door),
    "purges and a wrong clock": with_clocks(by_a_wrong_clock),
    "purges after a restart": with_clocks(after_a_restart),
    "purges in files": with_clocks(in_files),
    "purges without a retention": with_clocks(without_retention, options=()),
}
