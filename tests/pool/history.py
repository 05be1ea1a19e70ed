"""Whether all responses at all doors are those of one service, whose calls are made in the order of the log.

The plain policy makes the calls of the log. The response to each of them must be the one at its place. A read has no entry, and
neither has a change that is denied: some place must explain it. The places must respect real time: a call that was answered before another was sent stands before it."""
import bisect
import dataclasses
import threading

import drawn_calls
import plain_policy
import wire
from machines import Failed

MARKS = "smpca"
SCOPES = (wire.STRATEGIC, wire.MONITORING, wire.PROCESSING, wire.MANAGEMENT, wire.ARBITRATION)
TOKEN_OF = {(uss, frozenset(scopes)): token for token, (uss, scopes) in drawn_calls.ALL_TOKENS.items()}
HEADER = b"dss-batch 1\n"
UNKNOWN, UNREACHABLE = wire.UNKNOWN, wire.UNREACHABLE
# The blanks after a body that number a call.
DIGITS = 32


# ---- entries, as docs/POOL.md defines them


class Bytes:
    def __init__(self, data):
        self.data, self.at = data, 0

    def until(self, mark):
        end = self.data.index(mark, self.at)
        found, self.at = self.data[self.at : end], end + 1
        return found

    def text(self, mark):
        """Returns a text behind its length, which this mark ends."""
        size = int(self.until(b":"))
        found, self.at = self.data[self.at : self.at + size], self.at + size
        if self.until(mark):
            raise ValueError(f"a text of another length at {self.at}")
        return found


def calls_in(value):
    """Returns the calls of a value of the log: the moment, and what the plain policy asks. A fence has none."""
    _, mark, entry = value.partition(b"\n")
    if not mark:
        return []
    if not entry.startswith(HEADER):
        raise Failed(f"no entry: {value[:200]!r}")
    data, found = Bytes(entry[len(HEADER) :]), []
    while data.at < len(data.data):
        moment, uss = int(data.until(b" ")), data.text(b" ").decode()
        letters = data.until(b" ").decode()
        scopes = frozenset(scope for mark, scope in zip(MARKS, SCOPES) if mark in letters)
        method, path, body = (data.text(it) for it in (b" ", b" ", b"\n"))
        token = TOKEN_OF.get((uss, scopes))
        if token is None:
            raise Failed(f"no token of {uss} with {letters}")
        found.append((moment, (method.decode(), path.decode(), f"Bearer {token}", body)))
    return found


def numbered(call, number):
    """Returns a change with a number in blanks after its body."""
    method, target, authorization, body = call
    return method, target, authorization, (body or b"") + format(number, f"0{DIGITS}b").translate({48: " ", 49: "\t"}).encode()


def number_of(body):
    """Returns the number of a call of the log."""
    return int(body[-DIGITS:].decode().translate({32: "0", 9: "1"}), 2)


def is_change(call):
    return call[0] in ("PUT", "DELETE")


# ---- the airspace after the calls of the log


@dataclasses.dataclass
class Place:
    """A call of the log: where it is, and the response of the policy there."""

    index: int
    response: tuple
    changes: bool


def copied(airspace):
    other = plain_policy.Airspace(airspace.now, airspace.tokens)
    other.serial = airspace.serial
    for name in "entities", "subscriptions", "settings":
        setattr(other, name, dict(getattr(airspace, name)))
    return other


class Model:
    """The airspace after the calls that the log has until now, and the places of these calls, by number."""

    def __init__(self):
        self.airspace, self.places, self.count = plain_policy.Airspace(0, drawn_calls.ALL_TOKENS), {}, 0
        # The counts of calls at which the airspace became another one, and these airspaces.
        self.since, self.versions = [0], [copied(self.airspace)]
        self.lock = threading.Lock()

    def take(self, _key, value):
        """Makes the calls of a value of the log."""
        with self.lock:
            for moment, call in calls_in(value):
                self.make(moment, call)

    def make(self, moment, call):
        serial, self.airspace.now = self.airspace.serial, moment
        outcome = self.airspace.ask(*call)
        number = number_of(call[3])
        if number in self.places:
            raise Failed(f"the log has a call twice: {call}")
        changes = self.airspace.serial > serial
        self.places[number] = Place(self.count, (outcome.status, outcome.body.encode()), changes)
        self.count += 1
        if changes:
            self.since.append(self.count)
            self.versions.append(copied(self.airspace))

    def between(self, first, last):
        """Returns the airspaces after some count of calls between these, each with the least such count."""
        at = bisect.bisect_right(self.since, first) - 1 if first <= last else len(self.since)
        while at < len(self.since) and self.since[at] <= last:
            yield max(self.since[at], first), self.versions[at]
            at += 1

    def forget(self):
        """Forgets the airspaces before the last one."""
        with self.lock:
            self.since, self.versions = self.since[-1:], self.versions[-1:]


# ---- the responses


@dataclasses.dataclass
class Record:
    """A call, its number if it is a change, its door, when it was sent and answered, and its response, or None if none came. And the
    times of day at which its instance may have made it."""

    call: tuple
    number: int
    door: str
    sent: float
    answered: float
    response: tuple
    moments: tuple = ()


class Bounds:
    """The greatest place of calls that were answered before a time, or the least of those that were sent after it."""

    def __init__(self, pairs, is_greatest):
        self.is_greatest = is_greatest
        pairs = sorted(pairs, reverse=not is_greatest)
        self.times, self.best = [], []
        for time, place in pairs:
            best = self.best[-1] if self.best else place
            self.times.append(time if is_greatest else -time)
            self.best.append(max(best, place) if is_greatest else min(best, place))

    def at(self, time, default):
        count = bisect.bisect_left(self.times, time if self.is_greatest else -time)
        return self.best[count - 1] if count else default


def is_open(record):
    """Returns whether the call may have been made or not."""
    return record.response in (None, UNKNOWN, UNREACHABLE)


def check(model, records):
    """Compares the responses with the calls of the log. Returns how many changes of unknown outcome were made, by the response."""
    placed = [(it, model.places[it.number]) for it in records if it.number in model.places]
    done = {"lost": 0, "unknown": 0}
    for record, place in placed:
        if record.response == UNREACHABLE:
            raise Failed(f"{record.door}: {record.call}: unreachable, and in the log")
        if is_open(record):
            done["unknown" if record.response else "lost"] += place.changes
        elif record.response != place.response:
            raise Failed(f"{record.door}: {record.call}: got {record.response}, at its place {place.response}")
    answered = [(it.answered, place.index + 1) for it, place in placed if not is_open(it)]
    before = Bounds(answered, True)
    for record, place in placed:
        if before.at(record.sent, 0) > place.index:
            raise Failed(f"{record.door}: {record.call} stands before a call that was answered before it was sent")
    after = Bounds([(it.sent, place.index) for it, place in placed], False)
    others = [it for it in records if it.number not in model.places and not is_open(it)]
    check_others(model, sorted(others, key=lambda it: it.sent), before, after)
    return done


def check_others(model, records, before, after):
    """Finds a place for each call without an entry, the first that it can have."""
    found = [(0.0, model.since[0])]
    for record in records:
        if is_change(record.call) and is_stateless(record):
            continue
        at = bisect.bisect_left(found, (record.sent, 0))
        least = max(before.at(record.sent, 0), found[at - 1][1])
        most = after.at(record.answered, model.count)
        for place, airspace in model.between(least, most):
            if explains(airspace, record):
                note(found, record.answered, place)
                break
        else:
            raise Failed(f"{record.door}: {record.call}: no place between {least} and {most} gives {record.response}")


def explains(airspace, record):
    """Returns whether a call without an entry gets its response in an airspace. The denial of a change may depend on its time."""
    if not is_change(record.call):
        outcome = airspace.ask(*record.call)
        return (outcome.status, outcome.body.encode()) == record.response
    for moment in airspace.now, *record.moments:
        # a change that breaks no rule would change the airspace
        other = copied(airspace)
        other.now = moment
        outcome = other.ask(*record.call)
        if (outcome.status, outcome.body.encode()) == record.response:
            return True
    return False


def note(found, answered, place):
    """Adds a read to those in the order of their answers, each with the greatest place up to it."""
    at = bisect.bisect_left(found, (answered, place))
    if at and found[at - 1][1] >= place:
        return
    end = at
    while end < len(found) and found[end][1] <= place:
        end += 1
    found[at:end] = [(answered, place)]


def is_stateless(record):
    """Returns whether a change without an entry breaks a rule without state, as it does in an empty airspace. In any case it must be
    denied."""
    if record.response[0] < 400:
        raise Failed(f"{record.door}: {record.call}: got {record.response}, and is not in the log")
    outcome = plain_policy.Airspace(0, drawn_calls.ALL_TOKENS).ask(*record.call)
    if outcome.why not in range(1, 7):
        return False
    if (outcome.status, outcome.body.encode()) != record.response:
        raise Failed(f"{record.door}: {record.call}: got {record.response}, wanted {outcome}")
    return True
