"""`serve --retention` purges between batches of calls, once a minute.

A forward-looking call gets the same response as from a service that retains all."""
import collections
import errno
import re
import time

import drawn_calls
import plain_policy
import tables
import wire
from devices import GROWTHS, SIZES, WRITES, Page, library
from figures import FullAndVerbose
from admin_port import HEALTH, SERVING, STOP, AdminService, said, until_counted
from lateness import again, exceeded
from logs import until_lines
from plain_policy import INTENT, SUBSCRIPTION, has_ended, some_meet
from program import SECONDS
from served_calls import AHEAD
from sockets import difference
from purge import ID, STAYING, UNTIL, gone, made_of, many, put_intent, purged_rows, wrong_part
from without_memory import STOPPED

# Seconds of retention: the scenes have ended long before, or half an hour after that.
DAY, HALF_AN_HOUR, MINUTE = 86_400, 1_800, 60
# The fewest rows that are purged during calls, and the calls of each start.
WENT, CALLS, SEEDS = 1_500, 120, range(70, 74)
# A cell of the drawn calls.
NEAR = ("00000004", 0, 0)
# Memory allocations after those of a start, of which some are refused.
ALLOCATIONS = 240
# The seconds without a chunk after which a purge rests.
QUIET = 5
# Growths of a file, and writes, after those of a start: from each of them on the disk is full, or takes no write at
# all.
FULL, REFUSED = range(1, 32, 5), (20, 40, 61, 73)
PURGE_LINE = rb"dss: purge: removed (\d+) ended intents, constraints and subscriptions\n"
PURGED, FAULTS = "dss_purged_total", "dss_purge_failures_total"


class Retaining(AdminService):
    """`dss serve` with an admin port over a database of these rows, with that retention."""

    def __init__(self, rows, keep=DAY, tokens=drawn_calls.ALL_TOKENS, options=(), **more):
        super().__init__(tokens, **more)
        self.options = (*(() if keep is None else ("--retention", f"{keep}")), *options)
        self.database = self.folder / "dss.db"
        self.before = made_of(self.database, rows)

    def wait(self, count):
        """Waits until that many rows were purged, and returns the metrics."""
        return until_counted(self, PURGED, f"{count}")

    def rested(self, page, at, count):
        """Waits until that memory allocation was refused, and either that many rows were purged or the purge rests:
        after a fault there is no chunk for a minute. Returns the metrics."""
        until = time.monotonic() + SECONDS
        while page.get("calls") < at and time.monotonic() < until:
            time.sleep(0.01)
        # A chunk takes milliseconds. Requests for metrics allocate memory, too.
        time.sleep(2)
        page.set()
        counted = self.counted()
        while counted[PURGED] != f"{count}" and counted[FAULTS] == "0" and time.monotonic() < until:
            before, counted = counted, time.sleep(QUIET) or self.counted()
            if counted[PURGED] == before[PURGED]:
                break
        return counted

    def rows(self):
        """Returns the stored rows, once the service has exited."""
        self.asked(STOP)
        self.ended()
        return tables.rows_in(self.database)


def far(rows):
    """Returns rows whose remaining part ends far ahead of the clock."""
    volumes = [(*it[:-1], AHEAD if it[-1] > UNTIL else it[-1]) for it in rows["volume"]]
    subscriptions = [(*it[:-1], AHEAD if it[-1] > UNTIL else it[-1]) for it in rows["subscription"]]
    return rows | {"volume": volumes, "subscription": subscriptions}


def due(service):
    """Returns the rows of a service that are to be purged, and the rows without them."""
    after = purged_rows(service.before, UNTIL)
    return sum(gone(service.before, after)), after


def goes():
    """From the start on, all rows that ended before the retention are purged and counted. All others are as they were.
    Without the option nothing is purged."""
    found = []
    with Retaining(far(many())) as started:
        count, after = due(started)
        counted = started.wait(count)
        found += difference("counted", (counted[PURGED], counted[FAULTS], counted["dss_mirror_up"]), (f"{count}", "0", "1"))
        entities = collections.Counter("constraint" if kind else "intent" for _, kind, *_ in after["entity"])
        told = {it: int(counted[f'dss_entities{{kind="{it}"}}']) for it in entities}
        found += difference("entities", told, dict(entities))
        found += difference("subscriptions", counted["dss_subscriptions"], f"{len(after['subscription'])}")
        found += difference("serial", counted["dss_serial"], f"{after['meta'][0][2]}")
        found += difference("health", started.asked(HEALTH), said(200, SERVING))
        found += difference("its rows", started.rows() == after, True) + tables.wrong_in(started.database)
        # The next start finds nothing more.
        started.start()
        time.sleep(2)
        found += difference("again", started.counted()[PURGED], "0") + difference("rows again", started.rows() == after, True)
        found += difference("lines", started.ended(), (0, b"", started.listening))
    with Retaining(many(64, 4), None) as started:
        time.sleep(2)
        found += difference("without", [started.counted()[it] for it in (PURGED, FAULTS)], ["0", "0"])
        return found + difference("rows without", started.rows(), started.before)


def by_the_clock():
    """What ended exactly at the retention is purged, and what ended a little later stays. A retention beyond the clock
    purges nothing."""
    now, rows = int(time.time()), many(0, 40)
    ends = [now - DAY - 60, now - DAY + HALF_AN_HOUR]
    rows["volume"] = [(*it[:-1], ends[at // 4 % 2]) for at, it in enumerate(rows["volume"])]
    rows["subscription"] = [(*it[:-1], ends[0]) for it in rows["subscription"]]
    found = []
    with Retaining(rows) as started:
        after = purged_rows(started.before, ends[0])
        counts = gone(started.before, after)
        found += difference("counted", started.wait(sum(counts))[PURGED], f"{sum(counts)}")
        found += difference("rows", started.rows() == after, True) + ([] if all(counts) else [f"{counts}"])
    for keep in 2 * now, 253_402_300_799:
        with Retaining(rows, keep) as started:
            time.sleep(2)
            found += difference(f"{keep}", [started.counted()[it] for it in (PURGED, FAULTS)], ["0", "0"])
            found += difference(f"rows, {keep}", started.rows(), started.before)
    return found


def once_a_minute():
    """What ends while the service runs is purged by the next run, a minute after the one before, also if no client
    requests anything."""
    service, began = Retaining(far(many(64, 4)), 1), time.monotonic()
    with service as started:
        first, _ = due(started)
        found = difference("at the start", started.wait(first)[PURGED], f"{first}")
        purged = time.monotonic()
        now = int(time.time())
        puts = [put_intent(ID(7_000 + it), "tok-a", 100 + 10 * it, [(now - 10, now + (15 if it < 3 else 900))]) for it in range(4)]
        puts = [wire.request(method, target, f"Bearer {token}", wire.compact(body).encode()) for method, target, token, body in puts]
        found += difference("creations", {it[:12] for it in started.ask(puts)}, {b"HTTP/1.1 201"})
        reading = wire.request("GET", f"{wire.INTENTS}/{ID(7_000)}", "Bearer tok-a")
        time.sleep(max(0, MINUTE - 10 - (time.monotonic() - began)))
        found += difference("a look too early", started.counted()[PURGED], f"{first}")
        found += difference("it", started.ask([reading])[0][:12], b"HTTP/1.1 200")
        counted = started.wait(first + 3)
        took = time.monotonic() - began
        found += difference("a minute later", counted[PURGED], f"{first + 3}")
        found += [] if MINUTE - 1 < took else [f"it went after {took:.1f} s"]
        found += exceeded(time.monotonic() - purged, MINUTE + 10, "a minute")
        return found + difference("it then", started.ask([reading])[0][:12], b"HTTP/1.1 404")


# ---- forward-looking calls


def looks_ahead(airspace, until, call):
    """Returns whether a call is forward-looking from a time on, as docs/LAWS.md defines it."""
    asked = call.asked
    if asked is None or call.kind is None:
        return True
    if any(it.times[0] is None or it.times[0] <= until for it in asked.extents()):
        return False
    ended = [it for it in airspace.entities.values() if has_ended(it, until)]
    named = {it.put.subscription for it in airspace.entities.values() if it.kind == INTENT and not has_ended(it, until)}
    goes = {id_ for id_, it in airspace.subscriptions.items() if has_ended(it, until) and id_ not in named}
    if call.kind == SUBSCRIPTION:
        near = {id_ for id_, it in airspace.subscriptions.items() if it.manager == call.uss and some_meet(it.put.extents, asked.extents())}
        shown = near if call.work == "query" else {asked.id}
        return asked.id not in goes and not any(it.kind == INTENT and it.put.subscription in shown for it in ended)
    entity = airspace.found(call) if asked.id else None
    if entity in ended or (asked.put and asked.put.subscription in goes):
        return False
    volumes = [*(asked.put.extents if asked.put else ()), *(entity.put.extents if entity else ())]
    wants = lambda it: it.put.intents if call.kind == INTENT else it.put.constraints
    told = {id_ for id_, it in airspace.subscriptions.items() if wants(it) and some_meet(it.put.extents, volumes)}
    return call.work in ("read", "query") or not told & goes


def airspace_of(rows):
    """Returns the plain policy's airspace for the rows of a scene."""
    airspace = plain_policy.Airspace(int(time.time()), drawn_calls.ALL_TOKENS)
    names = {entity: subscription for entity, subscription in rows["naming"]}
    cells, ids = tuple(plain_policy.cell_of(it) for it in NEAR[:1]), {}
    for num, id_, manager, serial, _, notes, url, intents, constraints, lower, upper, start, end in rows["subscription"]:
        extent, ids[num] = plain_policy.Extent(cells, (lower, upper), (start, end)), id_
        put = plain_policy.SubPut((extent,), url, bool(intents), bool(constraints))
        airspace.subscriptions[id_] = plain_policy.Subscription(id_, manager, serial, notes, put)
    for (num, kind, id_, manager, state, version, serial, _, url), (*_, lower, upper, start, end) in zip(rows["entity"], rows["volume"]):
        kind = plain_policy.CONSTRAINT if kind else INTENT
        extent = plain_policy.Extent(cells, (lower, upper), (start, end))
        put = plain_policy.Put((extent,), (), plain_policy.STATES[state] if kind == INTENT else None, url, ids.get(names.get(num)))
        airspace.entities[kind, id_] = plain_policy.Entity(kind, id_, manager, version, serial, put)
    airspace.serial = rows["meta"][0][2]
    return airspace


def calls_ahead(seed, rows, until):
    """Returns drawn forward-looking calls, with the responses of a plain policy that retains all. They are drawn over
    an airspace that never had the earlier rows."""
    whole, without = airspace_of(rows), plain_policy.Airspace(int(time.time()), drawn_calls.ALL_TOKENS)
    without.serial = whole.serial
    drawn = drawn_calls.Drawn(drawn_calls.Draw(seed), without, AHEAD)
    found, calls, kinds = [], [], collections.Counter()
    while len(calls) < CALLS:
        call = drawn.call()
        method, target, authorization, body = call
        asked = plain_policy.call_of(drawn_calls.ALL_TOKENS, method, target, authorization, body or b"")
        if not looks_ahead(whole, until, asked):
            kinds["that look back"] += 1
            continue
        outcome = whole.ask(*call)
        kinds[f"{outcome.status}"] += 1
        found += difference(f"seed {seed}, the plain policy", without.ask(*call).text(), outcome.text())
        calls.append((wire.request(*call), outcome.text()))
    return found, calls, kinds


def pairs():
    """Drawn forward-looking calls get the same bytes from a service that purges meanwhile as from one that retains all.
    In the end the first has what a purge leaves of the second."""
    found, kinds = [], collections.Counter()
    scene = {it: [(*row[:-3], *NEAR) if it.endswith("cell") else row for row in all_] for it, all_ in many(WENT, 0).items()}
    for seed in SEEDS:
        with Retaining(scene, None) as whole, Retaining(scene) as purged:
            until = int(time.time()) - DAY
            wrong, calls, some = calls_ahead(seed, whole.before, until)
            found, kinds = found + wrong, kinds + some
            counts = []
            for at, (request, wanted) in enumerate(calls):
                got = [it.ask([request])[0] for it in (purged, whole)]
                found += difference(f"seed {seed}, call {at}, both", *got) + difference(f"seed {seed}, call {at}", got[1], wanted)
                counts.append(int(purged.counted()[PURGED]) if at in (0, CALLS // 2) else 0)
            count, _ = due(whole)
            found += difference(f"seed {seed}, counted", purged.wait(count)[PURGED], f"{count}")
            rows = whole.rows()
            found += difference(f"seed {seed}, rows", purged.rows() == purged_rows(rows, until), True)
    print(f"drawn calls during a purge: {dict(kinds)}")
    return found + [f"few are answered {it}" for it in ("200", "201", "404", "409") if kinds[it] < 10]


# ---- with other options, and failures


def room_again():
    """A purge frees the quota of its USS."""
    rows = far(many(100, 0))
    kept = len(rows["entity"]) + len(rows["subscription"])
    method, target, token, body = put_intent(ID(9_000), "tok-a", 500, [(AHEAD, AHEAD + 10)])
    put = wire.request(method, target, f"Bearer {token}", wire.compact(body).encode())
    with Retaining(rows, None, quota=kept) as started:
        found = difference("at its bound", started.ask([put])[0][:12], b"HTTP/1.1 500")
        started.kill()
        started.options = ("--retention", f"{DAY}")
        started.start()
        count, _ = due(started)
        found += difference("counted", started.wait(count)[PURGED], f"{count}") + difference("all of it", count, kept)
        return found + difference("with room", started.ask([put])[0][:12], b"HTTP/1.1 201")


def reported():
    """The log has only the lines of requests, and nothing is on standard error. With --verbose there is a line for each
    purge, and the numbers in these lines are those of all that was purged."""
    found = []
    for options, preface in ((), b""), (("--verbose",), FullAndVerbose.preface):
        service = Retaining(far(many()), options=options)
        service.preface, log = preface, service.folder / "log"
        service.options += ("--access-log", f"{log}")
        with service as started:
            count, _ = due(started)
            found += difference("counted", started.wait(count)[PURGED], f"{count}")
            started.ask([wire.request("GET", f"{wire.AVAILABILITY}/uss-a", "Bearer tok-a")] * 3)
            found += difference(f"lines, {options}", len(until_lines(log, 3)), 3)
            told = (started.folder / "errors").read_bytes()
            numbers = [int(it) for it in re.findall(PURGE_LINE, told)]
            found += difference(f"told, {options}", re.sub(PURGE_LINE, b"", told), started.listening)
            found += difference(f"purged, {options}", sum(numbers), count if options else 0)
    return found


def killed():
    """If the service is killed in the middle, the database is partly purged. The next start purges the rest."""
    found, parts = [], collections.Counter()
    for at in range(8):
        with Retaining(far(many(WENT, STAYING))) as started:
            time.sleep(0.05 * at)
            started.kill()
            rows = tables.rows_in(started.database)
            count, after = due(started)
            went = sum(gone(started.before, rows))
            parts[went] += 1
            found += [f"kill {at}: {it}" for it in wrong_part(started.before, started.database, UNTIL)]
            started.start()
            found += difference(f"kill {at}: the rest", started.wait(count - went)[PURGED], f"{count - went}")
            found += difference(f"kill {at}: rows", started.rows() == after, True)
    print(f"a service that was killed during a purge left these parts: {dict(sorted(parts.items()))}")
    return found


class Refusing(Retaining):
    """The same service, whose files take no more from some call of these kinds on, after those of a start."""

    def __init__(self):
        super().__init__(far(many(WENT, STAYING)), None)
        self.page, self.saved = Page(self.folder), self.database.read_bytes()
        self.environment |= self.page.environment(library("fail_files", self.folder))

    def refuse(self, at, kinds):
        """Starts it again over its original rows. Returns the metrics once that call was made during a purge, or no
        client gets a response."""
        self.kill()
        self.database.write_bytes(self.saved)
        self.database.with_name("dss.db-wal").unlink(missing_ok=True)
        self.options = ()
        self.page.set(kinds=kinds)
        self.start()
        opening = self.page.get("calls")
        self.kill()
        self.options = ("--retention", f"{DAY}")
        self.page.set(at=opening + at, row=1_000_000, error=errno.ENOSPC, kinds=kinds)
        self.start()
        return until_counted(self, FAULTS, "1")

    def left(self, went):
        """Returns what is wrong with its rows, once it was killed and can write again: that many were purged, and the
        next start purges the rest."""
        count, after = due(self)
        self.page.set()
        self.kill()
        found = wrong_part(self.before, self.database, UNTIL)
        found += difference("what went", sum(gone(self.before, tables.rows_in(self.database))), went)
        self.start()
        found += difference("the rest", self.wait(count - went)[PURGED], f"{count - went}")
        return found + difference("rows", self.rows() == after, True)


def full_disk():
    """The disk is full from some growth of a file on, and still takes writes within a file: purged rows stay purged, a
    fault is counted, the service continues wherever that happens, and the next start purges the rest."""
    found, parts = [], collections.Counter()
    reading = wire.request("GET", f"{wire.INTENTS}/{ID(WENT)}", "Bearer tok-a")
    with Refusing() as started:
        for at in FULL:
            counted = started.refuse(at, GROWTHS)
            went = int(counted[PURGED])
            parts[went] += 1
            found += difference(f"{at}: faults", counted[FAULTS], "1")
            found += [] if 0 <= went < due(started)[0] else [f"{at}: {went} went"]
            found += difference(f"{at}: health", started.asked(HEALTH), said(200, SERVING))
            found += difference(f"{at}: a reading", started.ask([reading])[0][:12], b"HTTP/1.1 200")
            found += [f"{at}: {it}" for it in started.left(went)]
    print(f"a disk that was full during a purge left these parts: {dict(sorted(parts.items()))}")
    return found


def refused_writes():
    """Files take no write at all: if the database can tell that nothing was changed the service continues, and
    otherwise it stops. Purged rows stay purged, and the next start purges the rest."""
    found, ends = [], collections.Counter()
    reading = wire.request("GET", f"{wire.INTENTS}/{ID(WENT)}", "Bearer tok-a")
    with Refusing() as started:
        for at in REFUSED:
            counted = started.refuse(at, WRITES | SIZES)
            went, answer = int(counted[PURGED]), started.ask([reading])[0]
            ends[answer[:12]] += 1
            goes_on = answer.startswith(b"HTTP/1.1 200")
            found += [] if goes_on or answer == wire.answer(*STOPPED) else [f"{at}: {answer!r}"]
            found += difference(f"{at}: faults", counted[FAULTS], "1")
            found += [f"{at}: {it}" for it in started.left(went)]
    print(f"no write succeeded during a purge: {dict(ends)}")
    return found


def without_memory():
    """Memory allocations are refused, each alone, during a purge: purged rows stay purged, others stay, and clients get
    responses. The next start purges the rest."""
    found, ends = [], collections.Counter()
    with Retaining(far(many(WENT // 4, STAYING)), None) as started:
        page, saved = Page(started.folder), started.database.read_bytes()
        started.environment |= page.environment(library("refuse_memory", started.folder))
        started.kill()
        page.set()
        # A start that takes the same arguments, and purges nothing.
        started.options = ("--retention", f"{10**11}")
        started.start()
        opening, reading = page.get("calls"), wire.request("GET", f"{wire.AVAILABILITY}/uss-a", "Bearer tok-a")
        count, after = due(started)
        started.options = ("--retention", f"{DAY}")
        for at in range(opening + 1, opening + ALLOCATIONS, ALLOCATIONS // 12):
            started.kill()
            started.database.write_bytes(saved)
            started.database.with_name("dss.db-wal").unlink(missing_ok=True)
            page.set(at=at, row=1)
            started.start()
            counted = started.rested(page, at, count)
            went = int(counted[PURGED])
            ends[went == count, counted[FAULTS], counted["dss_mirror_up"]] += 1
            found += difference(f"allocation {at}: a reading", started.ask([reading])[0][:12], b"HTTP/1.1 200")
            started.kill()
            found += [f"allocation {at}: {it}" for it in wrong_part(started.before, started.database, UNTIL)]
            found += difference(f"allocation {at}: what went", sum(gone(started.before, tables.rows_in(started.database))), went)
            started.start()
            found += difference(f"allocation {at}: the rest", started.wait(count - went)[PURGED], f"{count - went}")
        found += difference("rows", started.rows() == after, True)
    print(f"allocations refused during a purge; all purged, faults, a mirror: {dict(ends)}")
    return found


def without_mirror():
    """Over tables beside another one there is no mirror, and nothing is purged: that is counted, and calls get
    responses."""
    with Retaining(far(many(64, 4))) as started:
        started.wait(due(started)[0])
        started.rows()
        before = made_of(started.folder / "other.db", far(many(64, 4)))
        (started.folder / "other.db").replace(started.database)
        with tables.opened(started.database) as database:
            database.execute("CREATE TABLE another (number INTEGER) STRICT")
        started.start()
        counted = until_counted(started, FAULTS, "1")
        found = difference("counted", [counted[it] for it in (PURGED, FAULTS, "dss_mirror_up")], ["0", "1", "0"])
        reading = wire.request("GET", f"{wire.INTENTS}/{ID(1)}", "Bearer tok-a")
        found += difference("a reading", started.ask([reading])[0][:12], b"HTTP/1.1 200")
        return found + difference("rows", started.rows() == before | {"another": []}, True)


CASES = {
    "retention-purges": goes,
    "retention-by-the-clock": by_the_clock,
    "purge-once-a-minute": again(once_a_minute),
    "retention-compared-with-none": pairs,
    "retention-frees-the-quota": room_again,
    "retention-is-reported": reported,
    "retention-and-kills": killed,
    "retention-on-a-full-disk": full_disk,
    "retention-while-no-write-succeeds": refused_writes,
    "retention-without-memory": without_memory,
    "retention-without-a-mirror": without_mirror,
}
