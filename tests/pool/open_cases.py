"""Cases of changes whose outcome is unknown, which clients settle as docs/CLIENTS.md says under "Retrying requests"."""
import json
import sys
import threading

import wire
from cases import TOKENS, UNMADE, get, intent_body, put, with_pool
from doors import LATE, LIMIT, Door, Exchange, answer, until
from program import TOP

sys.path.append(str(TOP / "clients" / "python"))

from dss_client import Client, IntentPut, Retry, UnknownOutcome, Volume


class Noting(Retry):
    """Notes the errors after which a request is sent again."""

    noted = []

    def pause(self, number, error):
        self.noted.append(error)
        return super().pause(number, error)


class Alone:
    """An instance that reaches one member of etcd only. While that is frozen, its changes are open, and those of others are made."""

    def __init__(self, pool):
        leader = pool.cluster.await_leader()
        self.cluster, self.member = pool.cluster, next(it for it in range(3) if it != leader)
        self.door = Door(pool.room, pool.cluster.addresses().split(",")[self.member], "alone", TOKENS)
        # the addresses of this one begin with another member
        self.other = pool.doors[(self.member + 1) % 3]
        pool.doors.append(self.door)
        pool.ready()

    def freeze(self):
        self.cluster.stop(self.member)

    def go_on(self):
        self.cluster.go_on(self.member)

    def ask(self, call, door=None):
        """Returns the status and the body of a response, or None."""
        way = Exchange(door or self.door)
        try:
            return way.ask(call)
        except OSError:
            return None
        finally:
            way.close()

    def leave_open(self, call):
        """Makes a change whose outcome is unknown. One that was not offered is never made, and is sent again."""
        until(lambda: self.ask(call) == wire.UNKNOWN, lambda: f"the change is not open: {self.door.lines[-5:]}")

    def until(self, holds):
        """Waits, and starts the instance again if it ends, as its unit does."""
        def is_so():
            if self.door.process.poll() is not None:
                ended = self.door.end()
                assert ended == (1, UNMADE), ended
                self.door.start()
            return holds()
        until(is_so, lambda: f"{self.door.name} does not go on: {self.door.lines[-5:]}")

    def settle(self, call):
        """Sends a change to its instance until its outcome is final. Returns the response."""
        got = []
        self.until(lambda: got.append(self.ask(call)) or got[-1] and got[-1] not in LATE)
        return got[-1]

    def elsewhere(self, call):
        """Makes a call at another instance, again while etcd does not answer that in time."""
        got = []
        until(lambda: got.append(self.ask(call, self.other)) or got[-1] and got[-1] not in LATE, lambda: f"{call}: {got[-3:]}")
        return got[-1]


def over(index, reference):
    """Returns the update and the deletion of the current version."""
    method, path, bearer, body = put(index)
    return (method, f"{path}/{reference['ovn']}", bearer, body), ("DELETE", f"{path}/{reference['ovn']}", bearer, None)


def reference_in(got):
    return json.loads(got[1])["operational_intent_reference"]


def is_gone(pool, index):
    """Each instance shows that the flight does not exist."""
    for it in pool.doors:
        got = answer(it, get(index))
        assert got[0] == 404, (it.name, index, got)


def settled_by_the_client(pool):
    """The client in Python gives the outcome of a creation only once that is final. Then the flight stays deleted."""
    alone = Alone(pool)
    alone.freeze()
    made, id = [], "00000000-0000-4000-8000-000000000101"
    body = json.loads(intent_body(0x101))
    flight = IntentPut([Volume(**it) for it in body["extents"]], body["state"], body["uss_base_url"])
    Noting.noted.clear()
    with Client(f"http://127.0.0.1:{alone.door.port}", "tok-a", retry=Noting(tries=1_000, longest=0.5, settle=LIMIT), timeout=LIMIT) as client:
        caller = threading.Thread(target=lambda: made.append(client.put_intent(id, flight)), daemon=True)
        caller.start()
        until(lambda: any(isinstance(it, UnknownOutcome) for it in Noting.noted), lambda: f"no outcome is unknown: {Noting.noted}")
        # a read elsewhere shows that it is not made yet, and settles nothing
        assert answer(alone.other, get(0x101))[0] == 404
        assert not made, made
        alone.go_on()
        alone.until(lambda: not caller.is_alive())
        assert made, "the client raised an error"
        reference = made[0].operational_intent_reference
        for it in pool.doors:
            got = answer(it, get(0x101))
            assert got[0] == 200 and reference_in(got)["version"] == reference.version, (it.name, got, reference)
        # None: its response was lost
        client.delete_intent(reference)
    is_gone(pool, 0x101)
    assert alone.settle(put(0x102))[0] in (201, 409)
    is_gone(pool, 0x101)


def settled_by_another(pool):
    """Another instance settles an update: the version does not come back. It does not settle a creation, which is not deleted before."""
    alone = Alone(pool)
    assert alone.elsewhere(put(0x201))[0] in (201, 409)
    first = reference_in(answer(alone.other, get(0x201)))
    update, _ = over(0x201, first)
    alone.freeze()
    alone.leave_open(update)
    assert alone.elsewhere(update)[0] in (200, 409)
    second = reference_in(answer(alone.other, get(0x201)))
    assert second["version"] == 2, second
    # the outcome is final, so the flight can be deleted, although the instance has the open change
    assert alone.elsewhere(over(0x201, second)[1])[0] in (200, 404)
    alone.go_on()
    got = alone.settle(update)
    assert got == (404, b'{"message":"P7 FOUND"}'), got
    is_gone(pool, 0x201)

    alone.freeze()
    alone.leave_open(put(0x203))
    assert alone.elsewhere(put(0x203))[0] in (201, 409)
    made = reference_in(answer(alone.other, get(0x203)))
    alone.go_on()
    # once its instance has denied it, the flight can be deleted
    got = alone.settle(put(0x203))
    assert got == (409, b'{"message":"P8 FRESH"}'), got
    assert reference_in(answer(alone.other, get(0x203))) == made
    assert alone.elsewhere(over(0x203, made)[1])[0] in (200, 404)
    assert alone.settle(put(0x204))[0] in (201, 409)
    is_gone(pool, 0x203)


CASES = {
    "unknown, settled by the client": with_pool(settled_by_the_client),
    "unknown, settled by another instance": with_pool(settled_by_another),
}
