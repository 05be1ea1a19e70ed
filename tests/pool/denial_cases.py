"""Cases of changes that are denied: they are not in the log, and their denial is that of a place in it."""
import contextlib
import json

import wire
from cases import get, metric, put
from doors import Exchange, answer, create, until
from server_cases import known, with_instance

# The serial of the first change of a pool.
FIRST = 1


def meeting(index, other, key=()):
    """Returns a put of an intent that meets the one of another index, with a key."""
    method, path, caller, _ = put(index)
    body = json.loads(put(other)[3])
    return method, path, caller, json.dumps({**body, "key": list(key)}).encode()


def update(index, serial, call=None):
    """Returns an update of an intent, which names the OVN of a serial."""
    method, path, caller, body = call or put(index)
    return method, f"{path}/{wire.ovn(serial)}", caller, body


def entries(pool):
    return metric(pool.port, "dss_pool_entries_total")


def denied_unlogged(pool):
    """No change that is denied is an entry of the log, and the denial says all that it says of a database."""
    with contextlib.closing(Exchange(pool.door)) as way:
        create(pool.door, put(1), way)
        before = entries(pool)
        for call, wanted in (
            (put(1), 409), (update(1, 7), 409), (update(1, FIRST, put(1, "tok-b")), 403), (update(2, FIRST), 404),
            (("DELETE", f"{wire.INTENTS}/00000000-0000-4000-8000-000000000002/{wire.ovn(FIRST)}", "Bearer tok-a", None), 404),
        ):
            assert answer(pool.door, call, way)[0] == wanted, (call, wanted)
        for _ in range(70):
            status, body = answer(pool.door, meeting(3, 1), way)
            missing = [it["id"] for it in json.loads(body)["missing_operational_intents"]]
            assert (status, missing) == (409, ["00000000-0000-4000-8000-000000000001"]), (status, body)
        assert entries(pool) == before, (entries(pool), before)
        create(pool.door, meeting(3, 1, [wire.ovn(FIRST)]), way)
        assert entries(pool) == before + 1


def released(pool):
    """A change that was denied when it came, and breaks no rule at the end of the log, is made."""
    with contextlib.ExitStack() as stack:
        first, second, third = known(pool, stack, "tok-a", 3)
        pool.cluster.stop(0)
        first.send(put(1))
        until(lambda: metric(pool.port, "dss_pool_requests_waiting") == 1, "the change does not wait")
        second.send(update(1, FIRST))
        third.send(update(2, FIRST))
        until(lambda: metric(pool.port, "dss_pool_requests_waiting") == 3, "the updates do not wait")
        pool.cluster.go_on(0)
        got = first.receive()[0], second.receive()[0], third.receive()[0]
        assert got == (201, 200, 404), got
        body = json.loads(answer(pool.door, get(1), first)[1])
        assert body["operational_intent_reference"]["ovn"] == wire.ovn(FIRST + 1), body


def without_etcd(pool):
    """A change that would be denied is not denied while etcd does not answer: it gets `unreachable`."""
    with contextlib.ExitStack() as stack:
        (client,) = known(pool, stack, "tok-a", 1)
        create(pool.door, put(1), client)
        pool.cluster.stop(0)
        client.send(put(1))
        assert client.receive() == wire.UNREACHABLE
        pool.cluster.go_on(0)
        until(lambda: answer(pool.door, put(1), client)[0] == 409, "the change is not denied")


CASES = {
    "denied changes are not logged": with_instance(denied_unlogged),
    "denied before, allowed at the end": with_instance(released),
    "denied without etcd": with_instance(without_etcd),
}
