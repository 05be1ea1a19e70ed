"""Cases of the server of an instance: what one USS can use of it while others wait, as of a service over a database."""
import contextlib
import json
import pathlib
import re
import socket
import time

import wire
from cases import TOKENS, admin, get, metric, put, until_serving
from doors import LIMIT, Exchange, Pool, answer, create, until
from large_requests import ARRAYS, COMPARED, FIRST_BYTES, OF_USS, SENT_WITHIN, WITHOUT_TOKEN, large, nested, processor_ticks
from ports import free_port
from purge_cases import MOVED, RETENTION, await_statuses, ending, statuses, with_clocks
from real_etcd import Cluster
from serving import until_closed

LINE = re.compile(r"time=\S+ connection=\d+ supplier=(\S+) .* status=(\d+) .* microseconds=(\d+) bytes=(\d+)")
# A call that is denied when it is received, after its body was parsed. It arrives by one read.
EXPENSIVE = "POST", f"{wire.INTENTS}/query", "Bearer tok-a", nested(5_000)
# The time of a round in microseconds, after which no further turn begins.
ROUND = 5_000
# How often a case that failed on a busy machine is tried.
TRIES = 5
# How many requests of one USS wait for the log at once.
SHARE = 32
# The budget for unsent responses of one USS, in bytes.
BUDGET = 32 * 1_048_576
# Intents, and clients that ask for all of them: their responses together are several times as large as the budget.
FLIGHTS, SILENT = 1_000, 250
# The bytes that a large request sends each second, and the seconds in which it is sent unless the machine is busy.
RATE, STEADY = 16_384, 8


def with_instance(case, *options):
    """A case with one instance over one member of etcd, which has an admin port and an access log."""
    def run(room):
        cluster, pool, port = Cluster(room), None, free_port()
        log = pathlib.Path(room) / "requests.log"
        try:
            own = ("--admin-port", port, "--access-log", log, *options)
            pool = Pool(room, cluster, TOKENS, count=1, options=lambda at: own)
            pool.door, pool.port, pool.log = pool.doors[0], port, log
            pool.ready()
            until_serving(port)
            case(pool)
        finally:
            if pool:
                pool.close()
            cluster.close()
    return run


def lines(pool, after=0):
    """Returns the USS, the status, the microseconds and the bytes of each response, without the first ones."""
    return [(it[1], int(it[2]), int(it[3]), int(it[4])) for it in map(LINE.fullmatch, pool.log.read_text().split("\n")[:-1])][after:]


def cheap(token):
    """Returns a call that is denied when it is received, and costs little."""
    return "GET", f"{wire.INTENTS}/no-id", f"Bearer {token}", None


def known(pool, stack, token, count):
    """Returns kept connections on which a request with a token was answered."""
    ways = [stack.enter_context(contextlib.closing(Exchange(pool.door))) for _ in range(count)]
    for it in ways:
        it.send(cheap(token))
    for it in ways:
        it.receive()
    return ways


@contextlib.contextmanager
def at_once(pool):
    """Freezes the instance for a while, after which it finds all requests that were sent."""
    pool.door.freeze()
    try:
        yield
    finally:
        pool.door.go_on()


def again(case, seconds=None):
    """Returns a case that is tried again if it fails after more than so many seconds, as it may on a busy machine. Without
    them it is tried again in any case: a turn during which the system runs another process counts as an expensive one."""
    def run(pool):
        for _ in range(TRIES - 1):
            began = time.monotonic()
            try:
                return case(pool)
            except (AssertionError, OSError):
                if seconds and time.monotonic() - began <= seconds:
                    raise
        return case(pool)
    return run


def by_cost(pool):
    """USSs have turns by what their requests cost: 20 cheap ones are answered before most of 20 expensive ones that came
    before them."""
    with contextlib.ExitStack() as stack:
        first, later = known(pool, stack, "tok-a", 20), known(pool, stack, "tok-b", 20)
        before = len(lines(pool))
        with at_once(pool):
            for it in first:
                it.send(EXPENSIVE)
            for it in later:
                it.send(cheap("tok-b"))
        assert {it.receive()[0] for it in (*first, *later)} == {400}
        until(lambda: len(lines(pool)) >= before + 40, lambda: f"{len(lines(pool)) - before} lines")
        order = [it[0] for it in lines(pool, before)]
        last = max(at for at, uss in enumerate(order) if uss == "uss-b")
        assert order[:last].count("uss-a") < 10, order


def reads_by_cost(pool):
    """USSs have turns by what their reads cost, also of those that wait for the log: 64 cheap ones are answered before many of
    64 expensive ones that came before them."""
    fill(pool, 500)
    query = "POST", f"{wire.INTENTS}/query", "Bearer tok-a", b'{"area_of_interest":{"cells":["89c2591"]}}'
    with contextlib.ExitStack() as stack:
        first, later = known(pool, stack, "tok-a", 2 * SHARE), known(pool, stack, "tok-b", 2 * SHARE)
        before = len(lines(pool))
        with at_once(pool):
            for it in first:
                it.send(query)
            for it in later:
                it.send(get(1, "tok-b"))
        assert {it.receive()[0] for it in (*first, *later)} == {200}
        order = [it[0] for it in lines(pool, before)]
        last = max(at for at, uss in enumerate(order) if uss == "uss-b")
        # those of the first share wait together
        assert order[:last].count("uss-a") < SHARE + 16, order


def rounds_end(pool):
    """A round of turns ends after 5 ms, also among 200 expensive requests: then another client has its next turn."""
    with contextlib.ExitStack() as stack:
        many, (one,) = known(pool, stack, "tok-a", 200), known(pool, stack, "tok-b", 1)
        before, left = len(lines(pool)), wire.MAX_REQUESTS - 1
        with at_once(pool):
            for it in many:
                it.send(EXPENSIVE)
            one.connection.sendall(wire.request(*cheap("tok-b")) * left)
        assert {it.receive()[0] for it in many} == {400}
        until(lambda: len(lines(pool)) >= before + 200 + left, lambda: f"{len(lines(pool)) - before} lines")
        rounds = [[]]
        for uss, _, took, _ in lines(pool, before):
            if uss == "uss-a":
                rounds[-1].append(took)
            else:
                rounds.append([])
        rounds = [it for it in rounds if it]
        # the request that ends a round may take long
        ended = [it for it in rounds if sum(it[:-1]) <= ROUND]
        assert len(rounds) > 1 and 2 * len(ended) > len(rounds), rounds


def share(pool):
    """Of one USS, 32 requests wait for the log at once. Its others stay unread, behind those of another USS."""
    with contextlib.ExitStack() as stack:
        first, (later,) = known(pool, stack, "tok-a", SHARE + 8), known(pool, stack, "tok-b", 1)
        before, most = len(lines(pool)), 0
        pool.cluster.stop(0)
        with at_once(pool):
            for it in first:
                it.send(get(1))
            later.send(get(1, "tok-b"))
        while len(lines(pool)) < before + SHARE + 1:
            most = max(most, metric(pool.port, "dss_pool_requests_waiting"))
            time.sleep(0.05)
        pool.cluster.go_on(0)
        assert most <= SHARE + 1, most
        assert [it[0] for it in lines(pool, before)][: SHARE + 1].count("uss-b") == 1, lines(pool, before)
        assert later.receive() == wire.UNREACHABLE
        # those that stayed unread are received once the first have their responses
        assert {it.receive()[0] for it in first} <= {404, 503}
        assert answer(pool.door, get(1), first[0])[0] == 404


def pipelined(pool):
    """A request that arrives while an earlier one of its client waits is answered, though nothing more arrives."""
    with contextlib.ExitStack() as stack:
        (client,) = known(pool, stack, "tok-b", 1)
        pool.cluster.stop(0)
        client.send(get(1, "tok-b"))
        until(lambda: metric(pool.port, "dss_pool_requests_waiting") == 1, "no request waits")
        client.send(get(2, "tok-b"))
        time.sleep(0.3)
        pool.cluster.go_on(0)
        got = statuses_on(client.connection, 2)
        assert len(got) == 2 and set(got) <= {404, 503}, got


def flight(index):
    """Returns a put of an intent that meets none of another index, with the longest address."""
    method, path, caller, body = put(index)
    return method, path, caller, json.dumps({**json.loads(body), "uss_base_url": f"https://{'a' * 247}"}).encode()


def statuses_on(way, count):
    """Returns the statuses of the next responses: so many, or fewer if the connection ends."""
    came = b""
    while len(got := [int(it[9:12]) for it in wire.answers_of(came)]) < count and (piece := way.recv(1 << 16)):
        came += piece
    return got


def created(way, indices):
    """Returns those of these intents that were created, whose requests were sent at once."""
    return {index for index, status in zip(indices, statuses_on(way, len(indices))) if status in (201, 409)}


def fill(pool, count):
    """Creates so many intents, those again that etcd did not take in time."""
    left, end = set(range(count)), time.monotonic() + LIMIT
    while left:
        assert time.monotonic() < end, (len(left), pool.door.lines[-5:])
        with contextlib.ExitStack() as stack:
            ways = {stack.enter_context(pool.door.connect()): sorted(left)[it::SHARE] for it in range(SHARE)}
            for way, indices in ways.items():
                way.sendall(b"".join(wire.request(*flight(it)) for it in indices))
            for way, indices in ways.items():
                left -= created(way, indices)


def resident(pool):
    """Returns the memory of the instance in bytes."""
    status = pathlib.Path(f"/proc/{pool.door.process.pid}/status").read_text()
    return next(1_024 * int(it.split()[1]) for it in status.splitlines() if it.startswith("VmRSS:"))


def reads_nothing(pool, stack):
    """Returns a connection for which the buffers of the system hold little: it has small segments."""
    made = stack.enter_context(socket.socket())
    made.setsockopt(socket.IPPROTO_TCP, socket.TCP_MAXSEG, 500)
    made.setsockopt(socket.SOL_SOCKET, socket.SO_RCVBUF, 4_096)
    made.settimeout(LIMIT)
    made.connect(("127.0.0.1", pool.door.port))
    return made


def unsent(pool):
    """For clients of one USS that read nothing, an instance keeps half of the memory for responses, and the responses to what
    waited for the log by then. Then this USS waits, and another one does not. Once they are gone, it is served."""
    fill(pool, FLIGHTS)
    query = wire.request("POST", f"{wire.INTENTS}/query", "Bearer tok-a", b'{"area_of_interest":{"cells":["89c2591"]}}')
    with contextlib.ExitStack() as stack:
        (own,), (other,) = known(pool, stack, "tok-a", 1), known(pool, stack, "tok-b", 1)
        before, memory = len(lines(pool)), resident(pool)
        silent = [reads_nothing(pool, stack) for _ in range(SILENT)]
        for it in silent:
            it.sendall(query)
        sizes = lambda: [size for uss, _, _, size in lines(pool, before) if uss == "uss-a"]

        def waits():
            """Returns true if no request of the USS is answered while some of another one are."""
            made = len(sizes())
            for _ in range(3):
                assert answer(pool.door, get(1, "tok-b"), other)[0] == 200
                time.sleep(0.2)
            return made and len(sizes()) == made
        until(waits, lambda: f"{len(sizes())} responses")
        made, grown = sizes(), resident(pool) - memory
        most = BUDGET + 2 * SHARE * max(made)
        assert BUDGET < sum(made) < most and grown < most, (len(made), sum(made), grown, most)
        own.send(get(1))
        assert waits(), "the USS is answered"
        for it in silent:
            it.close()
        assert own.receive()[0] == 200


def once(pool, sent):
    """Returns the status and the body of the response to these bytes on a connection of their own."""
    with contextlib.closing(Exchange(pool.door)) as way:
        way.connection = pool.door.connect()
        way.connection.sendall(sent)
        return way.receive()


def large_buffers(pool):
    """At most 8 requests over 64 KiB without a token arrive at once, and at most 32 of a USS. Others of these wait, but
    not those of another USS. Each is answered once another one is done."""
    waiting = lambda: metric(pool.port, "dss_large_requests_waiting")
    for token, most, status in ((None, WITHOUT_TOKEN, 401), ("tok-a", OF_USS, 403)):
        with contextlib.ExitStack() as stack:
            sent = large(token)
            held = [stack.enter_context(contextlib.closing(Exchange(pool.door))) for _ in range(most + 1)]
            for it in held:
                it.connection = pool.door.connect()
                it.connection.sendall(sent[:FIRST_BYTES])
            until(lambda: waiting() == 1, lambda: f"{waiting()} requests of {token} wait", SENT_WITHIN)
            assert once(pool, large("tok-v"))[0] == 409
            for it in held:
                it.connection.sendall(sent[FIRST_BYTES:])
                assert it.receive()[0] == status
                it.close()
            until(lambda: waiting() == 0, lambda: f"{waiting()} requests of {token} wait", SENT_WITHIN)


def slow(pool):
    """A request over 64 KiB whose bytes stop is aborted after 5 s, while a smaller one may take longer. One that goes on at
    more than 4 KB/s is answered."""
    sent, aborted = large("tok-a", 150_000), lambda: pool.door.lines.count("dss: stream: fault 1 Read")
    before = aborted()
    with pool.door.connect() as smaller, pool.door.connect() as stops, contextlib.closing(Exchange(pool.door)) as steady:
        smaller.sendall(sent[:60_000])
        stops.sendall(sent[:70_000])
        steady.connection = pool.door.connect()
        steady.connection.sendall(sent[:70_000])
        for at in range(70_000, len(sent), RATE):
            time.sleep(1)
            steady.connection.sendall(sent[at : at + RATE])
        assert steady.receive()[0] == 403
        assert until_closed(stops) == b""
        smaller.sendall(sent[60_000:])
        assert smaller.recv(12) == b"HTTP/1.1 403"
    until(lambda: aborted() == before + 1, lambda: pool.door.lines, SENT_WITHIN)


def without_token(pool):
    """The body of a request without a token is not parsed: it costs less than half of one with a token."""
    costs = {}
    for token, status in (None, 401), ("tok-a", 400):
        sent = wire.request("POST", f"{wire.INTENTS}/query", token and f"Bearer {token}", nested(ARRAYS))
        before = processor_ticks(pool.door.process.pid)
        for _ in range(COMPARED):
            assert once(pool, sent)[0] == status
        costs[token] = processor_ticks(pool.door.process.pid) - before
    assert 2 * costs[None] < costs["tok-a"], costs


def clock_jumps(pool):
    """A jump of the clock is reported, counted, and holds the purges of the instance, until the clock returns, or an
    operator confirms it."""
    port, clock = free_port(), "watched"
    options = ("--retention", RETENTION, "--admin-port", port)
    door = pool.add("watched", TOKENS, options=options, environment=pool.clocks.environment(clock))
    pool.ready([door])
    until_serving(port)
    held, changes = lambda: metric(port, "dss_purge_held"), iter(range(200, 300))
    create(pool.doors[0], ending(91))
    # with calls of another organization, whose clock is as late, a purge is due by a clock that has jumped
    pool.clocks.move(0, MOVED)

    def is_kept():
        for _ in range(2):
            create(pool.doors[0], put(next(changes)))
            time.sleep(0.3)
        assert statuses(pool, 91) == [200] * 4 and metric(port, "dss_purges_total") == 0

    for jumps in 1, 2:
        pool.clocks.move(clock, MOVED)
        until(lambda: held() == 1, "the jump is not noticed")
        assert metric(port, "dss_clock_jumps_total") == jumps
        assert admin(port, "/health") == (200, "degraded: purges are held; check the clock, then POST /purge/resume\n")
        is_kept()
        if jumps == 1:
            pool.clocks.move(clock, 0)
            until(lambda: held() == 0, "the clock does not return")
    assert admin(port, "/purge/resume", "POST") == (200, "resumed\n")
    create(pool.doors[0], put(next(changes)))
    await_statuses(pool, 91, 404)
    assert (held(), metric(port, "dss_purges_total")) == (0, 1)
    told = [it for it in door.lines if it.startswith("dss: clock: ")]
    jumped = r"dss: clock: jumped forward by 7[12]\d\d s; purges are held"
    wanted = jumped, "dss: clock: returned; purges go on", jumped, "dss: clock: confirmed; purges go on"
    assert len(told) == len(wanted) and all(map(re.fullmatch, wanted, told)), told


CASES = {
    "turns by cost": with_instance(again(by_cost)),
    "turns and rounds": with_instance(again(rounds_end)),
    "reads by cost": with_instance(again(reads_by_cost)),
    "share of a USS": with_instance(share),
    "pipelined": with_instance(pipelined),
    "unsent responses": with_instance(unsent),
    "large buffers": with_instance(again(large_buffers, SENT_WITHIN)),
    "slow large requests": with_instance(again(slow, STEADY)),
    "bodies without a token": with_instance(without_token),
    "clock jumps": with_clocks(clock_jumps, options=()),
}
