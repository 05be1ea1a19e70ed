"""A client that draws changes and compares each response with the plain policy's.

Watches read on each host meanwhile. It also handles changes whose outcome it cannot know."""
import collections
import copy
import dataclasses
import json
import pathlib
import threading
import time

import conforms
import drawn_calls
import plain_policy
import tables
import wire
from machines import Failed
from plain_policy import CONSTRAINT
from program import BUILT, run

# All drawn times are around a time far ahead of the machine's clock.
AHEAD = 4_000_000_000
MARKED = f"{wire.AVAILABILITY}/uss-n"
READ = ("GET", MARKED, "Bearer tok-v", None)
# Each change of unknown outcome doubles the possible airspaces. These are the most.
MAX_CANDIDATES = 64
PAUSE = 0.1


def exchange(connection, call):
    """Returns the status and the body of a response, or None if the connection ends before it is whole."""
    connection.sendall(wire.request(*call))
    got = b""
    while True:
        head, mark, rest = got.partition(b"\r\n\r\n")
        if mark:
            lengths = [it for it in head.lower().split(b"\r\n") if it.startswith(b"content-length:")]
            if not lengths or len(rest) >= int(lengths[0].partition(b":")[2]):
                status = int(head.split()[1])
                conforms.check(*call[:2], status, rest)
                return status, rest
        piece = connection.recv(1 << 16)
        if not piece:
            return None
        got += piece


def ask_once(connect, call):
    """Returns the response; None if the service was not reached, and False if the outcome of the call is unknown."""
    try:
        connection = connect()
    except OSError:
        return None
    with connection:
        try:
            return exchange(connection, call) or False
        except OSError:
            return False


def of_policy(got):
    """Returns a response without the explanation that `serve --explain`, as the unit starts it, adds to some denials."""
    status, body = got
    if b'"explanation":' not in body:
        return got
    value = json.loads(body)
    value.pop("explanation", None)
    return status, wire.compact(value).encode()


@dataclasses.dataclass
class Candidate:
    """A possible airspace, and which calls of unknown outcome were made in it."""

    airspace: plain_policy.Airspace
    made: frozenset

    def copied(self):
        one = copy.copy(self.airspace)
        for name in "entities", "subscriptions", "settings":
            setattr(one, name, dict(getattr(one, name)))
        return Candidate(one, self.made)


class Client:
    def __init__(self, seed):
        self.draw = drawn_calls.Draw(seed)
        self.candidates = [Candidate(plain_policy.Airspace(int(time.time()), drawn_calls.ALL_TOKENS), frozenset())]
        # The number of acknowledged changes, and the times of the last calls of a mark: the serial, before and after
        # the call.
        self.acknowledged, self.marks, self.unknown = 0, [], 0
        self.answers = collections.Counter()
        self.lock = threading.Lock()

    @property
    def airspace(self):
        return self.candidates[0].airspace

    def ask(self, connect, call, may_be_old=False):
        """Makes one call, and records what it may have done. Returns whether its response arrived. With `may_be_old`
        the response may be an old one: it may deny by the earlier state, but may not report as done what is not
        stored."""
        with self.lock:
            before = [it.copied() for it in self.candidates]
            texts = [it.airspace.ask(*call) for it in self.candidates]
            began = time.time()
            got = ask_once(connect, call)
            return self.judge(call, before, texts, got, began, may_be_old)

    def judge(self, call, before, outcomes, got, began, may_be_old):
        serials = [it.airspace.serial for it in before]
        if not got or got[0] in (500, 502, 503, 504):
            self.answers["not reached" if got is None else "lost" if not got else str(got[0])] += 1
            # A fault changed nothing. A response of HAProxy or of a stopped service leaves the outcome open.
            is_open = got is not None and not (got and (got[0] == 500 or got == wire.UNREACHABLE))
            self.open_up(before, serials) if is_open else self.keep(before)
            return False
        found = [
            it for it, outcome in zip(self.candidates, outcomes)
            if (outcome.status, outcome.body.encode()) == of_policy(got)
        ]
        if not found and may_be_old and (call[0] not in ("PUT", "DELETE") or got[0] not in (200, 201)):
            self.answers["old"] += 1
            self.keep(before)
            return True
        if not found:
            wanted = [(it.status, it.body) for it in outcomes]
            raise Failed(f"{call}: an acknowledged change is lost, or an unacknowledged one is stored: got {got}, wanted {wanted}")
        self.keep(found)
        if self.airspace.serial > serials[0] or len(found) > 1 and got[0] in (200, 201) and call[0] in ("PUT", "DELETE"):
            self.acknowledged += 1
            if call[:2] == ("PUT", MARKED):
                self.marks.append((self.airspace.settings["uss-n"][1], began, time.time()))
        self.answers[str(got[0])] += 1
        return True

    def open_up(self, before, serials):
        """Records a call of unknown outcome."""
        self.unknown += 1
        made = [
            Candidate(it.airspace, it.made | {self.unknown})
            for it, serial in zip(self.candidates, serials) if it.airspace.serial > serial
        ]
        self.keep(before + made)

    def keep(self, candidates):
        if len(candidates) > MAX_CANDIDATES:
            raise Failed("too many calls of unknown outcome")
        self.candidates = candidates

    def mark(self, connect):
        """Makes a change that the watches read."""
        old = self.airspace.settings.get("uss-n", ("", ""))[1]
        value = {"old_version": old, "availability": self.draw.of(("Normal", "Down"))}
        return self.ask(connect, ("PUT", MARKED, "Bearer tok-v", json.dumps(value).encode()))

    def old_changes(self, connect, seconds):
        """Sends drawn calls to a host that may not know yet that it was replaced."""
        end = time.monotonic() + seconds
        while time.monotonic() < end:
            self.ask(connect, drawn_calls.Drawn(self.draw, self.airspace, AHEAD).call(), may_be_old=True)
            time.sleep(PAUSE)

    def changes(self, connect, seconds, many=1 << 30):
        """Sends drawn calls for a time, up to the first without a response; returns the number of responses."""
        end, count = time.monotonic() + seconds, 0
        while time.monotonic() < end and count < many:
            drawn = drawn_calls.Drawn(self.draw, self.airspace, AHEAD)
            asked = self.mark(connect) if count % 8 == 7 else self.ask(connect, drawn.call())
            if not asked:
                break
            count += 1
        return count

    def reads(self, connect):
        """Returns whether a read gets a response."""
        got = ask_once(connect, READ)
        return bool(got) and got[0] == 200

    def sought(self, ways, limit):
        """Waits until a change over one of the ways gets a response: returns the time that it took, or None."""
        began = time.monotonic()
        while time.monotonic() - began < limit:
            for way in ways:
                # 409 tells which of the candidates it is.
                if self.reads(way) and self.mark(way):
                    return time.monotonic() - began
            time.sleep(PAUSE)
        return None

    def reached(self, ways, limit):
        """Does the same, and requires a response."""
        took = self.sought(ways, limit)
        if took is None:
            raise Failed(f"after {limit} s no host serves: {dict(self.answers)}")
        return took

    # ---- the file

    def compare(self, folder):
        """Returns what is wrong with a copy of the database. Drops the candidates that differ from it."""
        file = pathlib.Path(folder, "dss.db")
        status, output, error = run([BUILT, "report", "--db", str(file)])
        wrong = tables.wrong_in(file)
        rows = rows_of(file)
        found = [it for it in self.candidates if rows == rows_in_model(it.airspace)]
        lines = output.decode().splitlines()
        if not found:
            return [f"the file has {rows}, wanted {[rows_in_model(it.airspace) for it in self.candidates]}"]
        self.keep(found)
        if status or error or len(lines) != len(self.airspace.entities) + 1 or lines[-1].split()[-1] != str(self.airspace.serial):
            wrong.append(f"report: {status}, {error!r}, {lines}")
        return wrong


def rows_of(file):
    """Returns the serial, and the entities, subscriptions with their indexes, references and availabilities in the
    tables."""
    with tables.opened(file) as database:
        ask = lambda text: sorted(database.execute(text).fetchall())
        return {
            "serial": ask("SELECT serial FROM meta")[0][0],
            "entities": ask("SELECT kind, id, manager, version, ovn FROM entity"),
            "subscriptions": ask("SELECT id, manager, version, notes FROM subscription"),
            "names": ask(
                "SELECT e.id, s.id FROM naming n JOIN entity e ON e.num = n.entity JOIN subscription s ON s.num = n.subscription"
            ),
            "availabilities": ask("SELECT uss, version FROM availability"),
        }


def rows_in_model(airspace):
    entities = airspace.entities.values()
    named = [(it.id, it.put.subscription) for it in entities if getattr(it.put, "subscription", None)]
    return {
        "serial": airspace.serial,
        "entities": sorted((int(it.kind == CONSTRAINT), it.id, it.manager, it.version, wire.ovn(it.serial)) for it in entities),
        "subscriptions": sorted(
            (it.id, it.manager, wire.ovn(it.serial), it.index) for it in airspace.subscriptions.values()
        ),
        "names": sorted(named),
        "availabilities": sorted((uss, version) for uss, (_, version) in airspace.settings.items()),
    }


class Watch(threading.Thread):
    """Reads on one host, by its own network, again and again."""

    def __init__(self, host):
        super().__init__(daemon=True)
        self.host, self.readings, self.goes_on = host, [], True

    def run(self):
        while self.goes_on:
            asked = time.time()
            got = ask_once(lambda: self.host.connect(limit=2), READ) if self.host.pid else None
            if got and got[0] == 200:
                self.readings.append((asked, time.time(), json.loads(got[1])["version"]))
            time.sleep(PAUSE)

    def old(self, marks):
        """Returns the reads that got an older mark than one acknowledged before their request: when their response
        arrived, and how long the later mark had been acknowledged at their request."""
        places = {version: at for at, (version, _, _) in enumerate(marks)}
        found = []
        for asked, answered, version in self.readings:
            later = [it for it in marks[places[version] + 1 :] if it[2] < asked] if version in places else []
            if later:
                found.append((answered, asked - later[0][2]))
        return found
