"""The admin port returns a snapshot of the airspace, a page at a time."""
import contextlib
import errno
import json
import os
import pathlib
import shutil
import tempfile

import drawn_calls
import tables
import wire
from devices import SIZES, WRITES, Page, library
from admin_port import STOP, AdminService, asks, said
from program import BUILT, run
from sockets import difference
from without_memory import FAULT

JSON = "application/json"
SEEDS, CALLS = (216, 47), 90
NO_QUERY = said(400, b"invalid query\n")
LOST = said(503, b"no mirror: dropped after a failed commit\n")
NO_MEMORY = said(503, b"no mirror: out of memory\n")
NO_SUBSCRIPTION = "00000000-0000-4000-8000-000000000000"
STATES = ("Accepted", "Activated", "Nonconforming", "Contingent")
AVAILABILITIES = ("Unknown", "Normal", "Down")
NAMES = ("operational_intent_reference", "constraint_reference")
# Of the last memory allocations of a start, one in so many is refused.
LAST, STEP = 1_500, 5


# ---- the contents of the tables


def extent(bounds, cells):
    lower, upper, start, end = bounds
    return {"altitude_lower": lower, "altitude_upper": upper, "cells": [it for (it,) in cells], "time_end": end, "time_start": start}


def extents_in(database, entity):
    rows = database.execute("SELECT place, alt_lower, alt_upper, time_start, time_end FROM volume WHERE entity = ? ORDER BY place", (entity,))
    cells = "SELECT token FROM cell WHERE entity = ? AND volume = ? ORDER BY place"
    return [extent(bounds, database.execute(cells, (entity, place))) for place, *bounds in rows.fetchall()]


def entities_in(database, availability):
    rows = database.execute("SELECT num, kind, id, manager, state, version, url FROM entity ORDER BY kind, id")
    for number, kind, id_, manager, state, version, url in rows.fetchall():
        extents = extents_in(database, number)
        reference = {
            "id": id_,
            "manager": manager,
            "time_end": max(it["time_end"] for it in extents),
            "time_start": min(it["time_start"] for it in extents),
            "uss_availability": availability.get(manager, "Unknown"),
            "uss_base_url": url,
            "version": version,
        }
        if kind == 0:
            named = "SELECT id FROM naming JOIN subscription ON subscription.num = naming.subscription WHERE entity = ?"
            (subscription,) = database.execute(named, (number,)).fetchone() or (NO_SUBSCRIPTION,)
            reference |= {"state": STATES[state], "subscription_id": subscription}
        yield {"extents": extents, NAMES[kind]: reference}


def subscriptions_in(database, availability):
    rows = database.execute(
        "SELECT num, id, manager, notes, url, for_intents, for_constraints, alt_lower, alt_upper, time_start, time_end "
        "FROM subscription ORDER BY id"
    )
    for number, id_, manager, notes, url, intents, constraints, *bounds in rows.fetchall():
        cells = database.execute("SELECT token FROM subscription_cell WHERE subscription = ? ORDER BY place", (number,))
        yield {
            "extents": extent(bounds, cells),
            "id": id_,
            "manager": manager,
            "notification_index": notes,
            "notify_for_constraints": constraints == 1,
            "notify_for_operational_intents": intents == 1,
            "time_end": bounds[3],
            "time_start": bounds[2],
            "uss_availability": availability.get(manager, "Unknown"),
            "uss_base_url": url,
        }


def airspace_in(file):
    """Returns the contents of a file's tables, in the form of all pages together."""
    with tables.opened(file) as database:
        availability = {uss: AVAILABILITIES[state] for uss, state in database.execute("SELECT uss, state FROM availability")}
        (serial,) = database.execute("SELECT serial FROM meta").fetchone()
        return {
            "entities": list(entities_in(database, availability)),
            "serial": serial,
            "subscriptions": list(subscriptions_in(database, availability)),
            "suppliers": availability,
        }


# ---- the pages


class SnapshotService(AdminService):
    """A service with an admin port, over a database that drawn calls have filled before."""

    def fill(self, seed):
        requests, _ = drawn_calls.stream(seed, CALLS)
        words = ["--tokens", f"{self.folder}/tokens.toml", "--db", f"{self.folder}/dss.db", "--now", f"{drawn_calls.NOW}"]
        status, _, error = run([BUILT, "run", *words, "-"], b"".join(requests))
        if (status, error) != (0, b""):
            raise OSError(f"the drawn calls: {status} {error!r}")

    def page(self, **query):
        """Returns a page, and its bytes."""
        members = "&".join(f"{name}={value}" for name, value in query.items())
        came = self.asked(asks("GET", f"/airspace{'?' if members else ''}{members}"))
        head, _, body = came.partition(b"\r\n\r\n")
        if not came.startswith(said(200, body, JSON)[: len(head)]):
            raise ValueError(f"{members}: {came[:300]!r}")
        return json.loads(body), body

    def pages(self, limit):
        """Returns all pages of at most that many entities and subscriptions."""
        found, query = [], {"limit": limit}
        while True:
            page, body = self.page(**query)
            found.append((page, body))
            if "next" not in page:
                return found
            query["after"] = page["next"]


@contextlib.contextmanager
def filled(seed):
    """Starts the service over a filled database; returns the contents of its tables before that."""
    service = SnapshotService(drawn_calls.ALL_TOKENS)
    service.fill(seed)
    wanted = airspace_in(service.folder / "dss.db")
    with service as started:
        yield started, wanted


def whole(pages):
    """Returns the contents of all pages. Only the first page has the USSs."""
    all_ = {name: [it for page, _ in pages for it in page[name]] for name in ("entities", "subscriptions")}
    suppliers = [page["suppliers"] for page, _ in pages if "suppliers" in page]
    return {**all_, "serial": pages[-1][0]["serial"], "suppliers": suppliers[0] if len(suppliers) == 1 else suppliers}


def compact(value):
    return json.dumps(value, separators=(",", ":"), sort_keys=True, ensure_ascii=False).encode()


def in_pages():
    """Pages of each size together have the contents of the tables, in order, as compact JSON without OVNs. Each page is
    as long as permitted."""
    found = []
    for seed in SEEDS:
        with filled(seed) as (started, wanted):
            count = len(wanted["entities"]) + len(wanted["subscriptions"])
            found += [f"seed {seed}: only {count} are kept"] if count < 8 or not wanted["subscriptions"] else []
            for limit in (1, 2, 5, count - 1, count, 500):
                pages = started.pages(limit)
                found += difference(f"seed {seed}, pages of {limit}", whole(pages), wanted)
                sizes = [len(page["entities"]) + len(page["subscriptions"]) for page, _ in pages]
                found += difference(f"seed {seed}, their sizes", sizes[:-1], [limit] * (len(sizes) - 1))
                found += [f"seed {seed}, an empty page" for it in sizes if it == 0]
                found += [f"seed {seed}: the JSON is not compact" for page, body in pages if compact(page) != body]
                told = b"".join(body for _, body in pages)
                found += [f"seed {seed}: the OVN of serial {it} is shown" for it in range(wanted["serial"] + 1) if wire.ovn(it).encode() in told]
    return found


def changed_between():
    """The serial shows a change between two pages. The entries after the cursor are the stored ones at that time. No
    page changes anything."""
    with filled(SEEDS[0]) as (started, wanted):
        first, _ = started.page(limit=1)
        found = difference("the first", (first["entities"], first["serial"]), (wanted["entities"][:1], wanted["serial"]))
        id_ = "00000000-0000-4000-8000-0000000000f0"
        volume = {"cells": ["89c25904"], "altitude_lower": 0, "altitude_upper": 10, "time_start": 4_000_000_000, "time_end": 4_000_000_001}
        put = {"extents": volume, "uss_base_url": "u", "notify_for_operational_intents": True}
        (answer,) = started.ask([wire.request("PUT", f"{wire.SUBSCRIPTIONS}/{id_}", "Bearer tok-a", wire.compact(put).encode())])
        found += [f"the change: {answer!r}"] if not answer.startswith(b"HTTP/1.1 200") else []
        second, _ = started.page(after=first["next"])
        found += difference("the serial", second["serial"], first["serial"] + 1)
        alone, _ = started.page(after=f"subscription:{id_}")
        found += difference("after the last", alone, {"entities": [], "serial": second["serial"], "subscriptions": []})
        started.asked(STOP)
        found += difference("its end", started.ended()[0], 0)
        after = airspace_in(started.folder / "dss.db")
        found += difference("the serial that is kept", after["serial"], second["serial"])
        found += difference("all else", (after["entities"], len(after["subscriptions"])), (wanted["entities"], len(wanted["subscriptions"]) + 1))
        return found + difference("the rest", (second["entities"], second["subscriptions"]), (after["entities"][1:], after["subscriptions"]))


def queries():
    """Malformed queries are rejected. Others give the page after a cursor, whether an entity has that position or not."""
    id_ = "00000000-0000-4000-8000-0000000000a0"
    bad = ["limit=0", "limit=501", "limit=", "limit=-1", "limit=1.0", "limit=x", "limit", "after=", f"after={id_}", "after=intent:", "=",
           f"after=flight:{id_}", f"after=Intent:{id_}", "after=intent:x", f"more=1&after=intent:{id_}", "limit=1&", "&", "at=1"]
    with filled(SEEDS[1]) as (started, wanted):
        found = [it for one in bad for it in difference(one, started.asked(asks("GET", f"/airspace?{one}")), NO_QUERY)]
        ids = [f"{'intent' if NAMES[0] in it else 'constraint'}:{(it.get(NAMES[0]) or it[NAMES[1]])['id']}" for it in wanted["entities"]]
        ids += [f"subscription:{it['id']}" for it in wanted["subscriptions"]]
        least, most = "00000000-0000-0000-0000-000000000000", "ffffffff-ffff-ffff-ffff-ffffffffffff"
        for after in [*ids, *(f"{kind}:{it}" for kind in ("intent", "constraint", "subscription") for it in (least, most, id_.upper()))]:
            order = {"intent": 0, "constraint": 1, "subscription": 2}
            kind, _, name = after.lower().partition(":")
            rest = [it for it in ids if (order[it.partition(":")[0]], it.partition(":")[2]) > (order[kind], name)]
            page, _ = started.page(after=after, limit=500)
            got = len(page["entities"]) + len(page["subscriptions"])
            found += difference(f"after {after}", got, len(rest))
        found += difference("an empty query", started.asked(asks("GET", "/airspace?")), started.asked(asks("GET", "/airspace")))
        found += difference("POST", started.asked(asks("POST", "/airspace")), said(405, b"method not allowed\n", allow="GET"))
        return found


def cut_by_cells():
    """A page ends after the entity that brings it to the maximum number of cells, however few entities it has."""
    cells = [f"{0x89C2590400000000 + 0x800000000 * it:016x}".rstrip("0") for it in range(300)]
    with SnapshotService(drawn_calls.ALL_TOKENS) as started:
        volumes = [{"cells": cells, "altitude_lower": it, "altitude_upper": it, "time_start": 4_000_000_000, "time_end": 4_000_000_001}
                   for it in range(6)]
        requests = [
            wire.request("PUT", f"{wire.CONSTRAINTS}/00000000-0000-4000-8000-0000000001{it:02x}", "Bearer tok-c",
                         wire.compact({"extents": volumes, "uss_base_url": "u"}).encode())
            for it in range(6)
        ]
        answers = started.ask(requests)
        found = [f"a constraint: {it!r}" for it in answers if not it.startswith(b"HTTP/1.1 201")]
        pages = started.pages(500)
        # Of 1,800 cells each, the fifth brings the page to 8,192.
        found += difference("the pages", [len(page["entities"]) for page, _ in pages], [5, 1])
        started.asked(STOP)
        started.ended()
        return found + difference("all of it", whole(pages), airspace_in(started.folder / "dss.db"))


def started_without(device, mark, at, filled):
    """Returns the output of a service over a copy of a directory that gets no memory at that allocation: why it does not
    listen, or its airspace and a response to a client."""
    mark.unlink(missing_ok=True)
    service = SnapshotService(drawn_calls.ALL_TOKENS)
    for it in filled.glob("dss.db*"):
        shutil.copy(it, service.folder)
    service.environment = {**os.environ, "LD_PRELOAD": device, "REFUSE_AT": f"{at}", "REFUSED": f"{mark}"}
    try:
        with service as started:
            came = started.asked(asks("GET", "/airspace"))
            known = started.ask([wire.request("GET", f"{wire.AVAILABILITY}/uss-a", "Bearer tok-a")])
            return came, known[0] if known else b""
    except (OSError, ValueError) as fault:
        return f"{fault}", None


def without_mirror():
    """If memory runs out for the mirror when a service starts, it says so, and still answers its clients."""
    met = 0
    with tempfile.TemporaryDirectory() as room:
        device, mark = library("refuse_memory", room), pathlib.Path(room, "refused")
        before = SnapshotService(drawn_calls.ALL_TOKENS)
        before.fill(SEEDS[0])

        # The last allocation of a start. Those of the mirror come before those of the port, which are the last.
        low, high = 1, 40_000
        while high - low > 1:
            middle = (low + high) // 2
            started_without(device, mark, middle, before.folder)
            low, high = (middle, high) if mark.exists() else (low, middle)
        for at in range(low, max(low - LAST, 0), -STEP):
            came, known = started_without(device, mark, at, before.folder)
            if came == NO_MEMORY:
                met += 1
                if not known.startswith(b"HTTP/1.1 200"):
                    return [f"allocation {at} refused: {known!r}"]
            elif met:
                break
    print(f"without a mirror: {met} times")
    return [] if met else ["no memory allocation was one for the mirror"]


def dropped_mirror():
    """A mirror that was dropped because a change failed is reported, and exists again after the next successful change."""
    body = {"extents": {"cells": ["89c25904"], "altitude_lower": 0, "altitude_upper": 10, "time_start": 4_000_000_000, "time_end": 4_000_000_001}}
    body |= {"uss_base_url": "u", "notify_for_operational_intents": True}
    put = wire.request("PUT", f"{wire.SUBSCRIPTIONS}/00000000-0000-4000-8000-0000000000f0", "Bearer tok-a", wire.compact(body).encode())
    with tempfile.TemporaryDirectory() as folder:
        page = Page(folder)
        service = SnapshotService(drawn_calls.ALL_TOKENS, more=page.environment(library("fail_files", folder)))
        service.fill(SEEDS[0])
        with service as started:
            before, _ = started.page()
            page.set(at=1, row=1_000_000, error=errno.ENOSPC, kinds=WRITES | SIZES)
            found = difference("the change", started.ask([put]), [wire.answer(*FAULT)])
            found += difference("without a copy", started.asked(asks("GET", "/airspace")), LOST)
            page.set()
            (answer,) = started.ask([put])
            found += [f"the next change: {answer!r}"] if not answer.startswith(b"HTTP/1.1 200") else []
            after, _ = started.page()
            found += difference("the serial", after["serial"], before["serial"] + 1)
            return found + difference("subscriptions", len(after["subscriptions"]), len(before["subscriptions"]) + 1)


CASES = {
    "airspace-in-pages": in_pages,
    "airspace-changed-between-pages": changed_between,
    "airspace-queries": queries,
    "airspace-page-of-many-cells": cut_by_cells,
    "airspace-without-a-mirror": without_mirror,
    "airspace-after-a-dropped-mirror": dropped_mirror,
}
