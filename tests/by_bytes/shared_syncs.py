"""Changes of many clients at once share a sync. No response to a change goes out before it.

Each response is the plain policy's in some order of the calls."""
import tempfile
import time

import drawn_calls
import plain_policy
import wire
from at_once import CLIENTS, FAR, NOW, PATIENCE, STOPS, TOKENS, AtOnce, Checked, is_change
from devices import library
from many_clients import Batch
from program import SECONDS

SEED = 71
# Batches of changes. Of so many changes at least one shares its sync with the others, also during checkpoints.
BATCHES, SHARED_BY = 12, 4
# Changes of a single client, each of which has a sync; a checkpoint has some more.
ALONE, MORE = 40, 6
MANY = 200
# Seconds in which a response that may go out would have arrived, and in which a busy machine sends the first one.
SOON, BUSY = 0.4, 3
DRAWN_BATCHES, DRAWN_CLIENTS = 25, 24


class Batches(AtOnce):
    """A service whose calls on files are counted, and may wait."""

    def __init__(self, folder, clients=CLIENTS, tokens=TOKENS):
        super().__init__(library("fail_files", folder), clients, tokens)

    def checked(self, airspace, calls, **numbers):
        """Returns the outcome of a batch."""
        self.send_at_once(calls, **numbers)
        return Checked(airspace, calls, self.told(), self.found(calls))


def shared():
    """Sixteen clients at once need fewer syncs than changes, and a single one as many as it makes changes."""
    found, syncs = [], 0
    with tempfile.TemporaryDirectory() as folder:
        with Batches(folder) as service:
            airspace = service.fill()
            for turn in range(BATCHES):
                checked = service.checked(airspace, service.changes(airspace, turn))
                syncs += service.page.get("syncs")
                found += checked.wrong + ([] if checked.made == CLIENTS else [f"{checked.made} changes were made"])
                airspace = checked.after
        with Batches(folder, clients=1) as service:
            airspace = service.fill()
            alone = 0
            for turn in range(ALONE):
                checked = service.checked(airspace, service.changes(airspace, turn))
                alone += service.page.get("syncs")
                airspace = checked.after
    print(f"{BATCHES * CLIENTS} changes of {CLIENTS} clients at once took {syncs} syncs, {ALONE} of one client {alone}")
    found += [] if syncs * SHARED_BY <= BATCHES * CLIENTS else [f"{BATCHES * CLIENTS} changes at once took {syncs} syncs"]
    return found + ([] if ALONE <= alone <= ALONE + MORE else [f"{ALONE} changes of one client took {alone} syncs"])


def early(service, airspace, calls, **numbers):
    """Returns which responses of a batch go out too early while its sync waits, or what is wrong with it; the airspace
    after it; and whether the first read was answered before the sync."""
    service.send_at_once(calls, **numbers)
    until = time.monotonic() + SECONDS
    while not service.page.get("syncs") and time.monotonic() < until:
        time.sleep(0.001)
    # The first response may go out. All do if the sync lies.
    seconds = [PATIENCE] * len(calls) if "lies" in numbers else [BUSY] + [SOON / len(calls)] * (len(calls) - 1)
    soon = [service.told_to(kept, it) for it, kept in zip(seconds, service.kept)]
    soon = [it or service.told_to(kept, 0.001) for it, kept in zip(soon, service.kept)]
    service.page.set()
    told = [it or service.told_to(kept, PATIENCE) for it, kept in zip(soon, service.kept)]
    checked = Checked(airspace, calls, told, service.found(calls))
    before = [airspace.ask(*it).text() if not is_change(it) else None for it in calls]
    found = [f"{call}: {answer!r} before the sync" for call, answer, may in zip(calls, soon, before) if answer not in (None, may)]
    return found + checked.wrong, checked.after, soon[0] is not None


def of_one_uss(calls):
    """Returns a read and then a change of one USS, whose clients take turns."""
    (method, target, _, body), change = calls[:2]
    return [(method, target, change[2], body), change]


def deferred():
    """While the sync waits, no change gets its response and no read that saw one, but a read before them does. The fair
    queue decides the order of different USSs, so that read is of the USS of the only change. A sync that is reported as
    done and is not shows that the case would find early responses."""
    found, reads = [], 0
    with tempfile.TemporaryDirectory() as folder, Batches(folder) as service:
        airspace = service.fill()
        for turn in range(5):
            wrong, airspace, _ = early(service, airspace, service.mixed(airspace, turn), waits=1)
            found += [f"round {turn}: {it}" for it in wrong]
        for turn in range(5, 10):
            calls = of_one_uss(service.mixed(airspace, turn))
            wrong, airspace, is_read_early = early(service, airspace, calls, waits=1)
            found += [f"round {turn}: {it}" for it in wrong]
            reads += is_read_early
        print(f"{reads} of 5 reads came before the change of their batch, and were answered before the sync")
        found += [] if reads else ["each read waited for a sync"]
        wrong, airspace, _ = early(service, airspace, service.mixed(airspace, 10), lies=1)
        return found + ([] if any("before the sync" in it for it in wrong) else ["an answer before the sync was not seen"])


def two_hundred():
    """More clients at once than can have their responses deferred together all get their response."""
    with tempfile.TemporaryDirectory() as folder, Batches(folder, MANY) as service:
        airspace = service.fill(2)
        checked = service.checked(airspace, service.changes(airspace, 2))
        syncs = service.page.get("syncs")
        print(f"{MANY} changes at once took {syncs} syncs")
        found = checked.wrong + ([] if checked.made == MANY else [f"{checked.made} changes were made"])
        return found + ([] if syncs * SHARED_BY <= MANY else [f"{MANY} changes at once took {syncs} syncs"])


def is_explained(calls, told):
    """Returns whether some order of calls on a new airspace explains the responses."""
    return Batch(plain_policy.Airspace(NOW, drawn_calls.ALL_TOKENS), calls, told).order is not None


def planted():
    """Two availability changes over one version: the second is denied, and no order explains that both are made."""
    setting = "PUT", f"{wire.AVAILABILITY}/uss-a", "Bearer tok-v", b'{"availability":"Down","old_version":""}'
    made = [wire.compact({"status": {"availability": "Down", "uss": "uss-a"}, "version": wire.ovn(it)}) for it in (1, 2)]
    made, denied = [wire.answer(200, it) for it in made], wire.answer(409, '{"message":"P10 VERSION"}')
    found = [] if is_explained([setting] * 2, [denied, made[0]]) else ["what is so is not explained"]
    return found + (["two changes over one version are explained"] if is_explained([setting] * 2, made) else [])


def drawn():
    """Drawn calls of 24 clients at once, with reads and denials: some order of each batch explains each response by the
    plain policy."""
    airspace, draw = plain_policy.Airspace(NOW, drawn_calls.ALL_TOKENS), drawn_calls.Draw(SEED)
    with tempfile.TemporaryDirectory() as folder, Batches(folder, DRAWN_CLIENTS, drawn_calls.ALL_TOKENS) as service:
        for number in range(DRAWN_BATCHES):
            drawn = drawn_calls.Drawn(draw, airspace, FAR)
            calls = [drawn.call() for _ in range(DRAWN_CLIENTS)]
            service.send_at_once(calls)
            told = service.told()
            after = Batch(airspace, calls, told).order
            if after is None or STOPS in told:
                return [f"round {number}: no order explains {list(zip(calls, told))!r}"]
            airspace = after
    print(f"{DRAWN_BATCHES * DRAWN_CLIENTS} drawn calls at once, serial {airspace.serial}")
    return planted()


CASES = {
    "at-once-share-a-sync": shared,
    "at-once-deferred": deferred,
    "at-once-two-hundred": two_hundred,
    "at-once-drawn": drawn,
}
