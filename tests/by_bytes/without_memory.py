"""One memory allocation is refused, each in turn.

Each response is the expected one, or a fault that changed nothing, or the stream ends with `dss: memory`."""
import collections
import gzip
import json
import pathlib
import tempfile

import lengths
import plain_policy
import tables
import wire
from devices import library
from program import BUILT, CASES, TOP, content, first_difference, run

MAX_ALLOCATIONS = 40_000
FAULT = (500, '{"message":"fault"}')
STOPPED = (503, '{"message":"stopped"}')
STORE = b"dss: db: fault 3 Store\n"
# One of so many memory allocations of a stream over a database is refused.
STEP = lengths.of(151, 61)
NOW = 1000


def each_environment(step=1):
    """Yields environments in which each memory allocation is refused in turn, or one of every few, as long as there is
    such an allocation: its number, the environment, and a file that exists once it was refused."""
    with tempfile.TemporaryDirectory() as room:
        device, mark = library("refuse_memory", room), pathlib.Path(room, "refused")
        for at in range(1, MAX_ALLOCATIONS * step, step):
            mark.unlink(missing_ok=True)
            yield at, {"LD_PRELOAD": device, "REFUSE_AT": str(at), "REFUSED": str(mark)}, mark
            if not mark.exists():
                return
    raise ValueError(f"over {MAX_ALLOCATIONS} memory allocations")


def each_refused(command, given=b"", step=1, before=lambda: None):
    """Runs a command with each of its memory allocations refused in turn, or one of every few, after calling `before`.
    Yields the number of the allocation, the result, and whether that allocation was made, which is false only for
    the last run."""
    for at, environment, mark in each_environment(step):
        before()
        got = run(command, given, more=environment)
        yield at, got, mark.exists()


def case(name):
    """Refuses each memory allocation of a case in turn: its response arrives, or a fault, and never another one."""
    folder = CASES / name
    given = content(folder / "stdin")
    words = content(folder / "args").decode().splitlines()
    allowed = [(0, content(folder / "stdout"), b""), (1, b"", b"dss: memory\n")]
    # A request may get a fault.
    allowed += [(0, wire.answer(*FAULT, closes=True), b"")] if given else []
    for at, got, is_refused in each_refused([BUILT, *words], given):
        if not is_refused:
            print(f"{name}: {at - 1} memory allocations refused in turn")
            return [] if at > 10 and got == allowed[0] else [f"with {at - 1} allocations: {got!r}"]
        if got not in allowed:
            return [f"allocation {at} refused: {got!r}"]


def explanations():
    """Allocations are refused to `explain`, of a request that has a form and of one that has none: it prints the same, or
    it ends with `dss: memory`, and never says otherwise."""
    found = []
    put = {"extents": [hour_of(0)], "uss_base_url": "https://uss.example", "state": "Accepted", "key": ["o" * 16], "stat": 0}
    words = [BUILT, "explain", "--now", str(2 * NOW + 3600), "PUT", f"{wire.INTENTS}/00000000-0000-4000-8000-0000000000a1"]
    for given in json.dumps(put), json.dumps({**put, "key": ["o"], "state": None}), "{":
        wanted = run(words, given.encode())
        for at, got, is_refused in each_refused(words, given.encode()):
            if got != wanted and (not is_refused or got != (1, b"", b"dss: memory\n")):
                found += [f"{given}, allocation {at}, refused: {is_refused}: got {got!r}"]
        print(f"explain: {at - 1} memory allocations refused in turn")
        found += [] if at > 10 else [f"{given}: {at - 1} allocations"]
    return found


def hour_of(start):
    """Returns the extents of the calls below: a cell for an hour."""
    return {"cells": ["89c25904"], "altitude_lower": 0, "altitude_upper": 1200, "time_start": start, "time_end": start + 3600}


def eight_calls(start=NOW):
    """Returns calls that create, lack a key, update, query, delete and set, each of them with an effect or a denial."""
    volume = hour_of(start)
    put = {"extents": [volume], "uss_base_url": "https://uss.example"}

    def intent(*serials):
        return json.dumps({**put, "state": "Accepted", "key": [wire.ovn(it) for it in serials]}).encode()

    a1, b1, c1 = (f"00000000-0000-4000-8000-0000000000{it}" for it in ("a1", "b1", "c1"))
    area = json.dumps({"area_of_interest": {"cells": volume["cells"]}}).encode()
    return [
        ("PUT", f"{wire.INTENTS}/{a1}", "Bearer tok-a", intent()),
        ("PUT", f"{wire.CONSTRAINTS}/{c1}", "Bearer tok-c", json.dumps(put).encode()),
        ("PUT", f"{wire.INTENTS}/{b1}", "Bearer tok-bc", intent()),
        ("PUT", f"{wire.INTENTS}/{b1}", "Bearer tok-bc", intent(1, 2)),
        ("PUT", f"{wire.INTENTS}/{a1}/{wire.ovn(1)}", "Bearer tok-a", intent(3)),
        ("POST", f"{wire.INTENTS}/query", "Bearer tok-a", area),
        ("DELETE", f"{wire.INTENTS}/{a1}/{wire.ovn(4)}", "Bearer tok-a", None),
        ("PUT", f"{wire.AVAILABILITY}/uss-b", "Bearer tok-v", b'{"availability":"Down"}'),
    ]


def notifying_calls(start=NOW):
    """Returns subscriptions of two addresses, a creation that references one, an update and a deletion that notify
    them, an update and a deletion of each of them, and a read of the remaining one's index."""
    volume = hour_of(start)
    moved = {**volume, "cells": ["89c2590c"]}
    a1, d1, d2 = (f"00000000-0000-4000-8000-0000000000{it}" for it in ("a1", "d1", "d2"))

    def subscription(url, extents=volume):
        put = {"extents": extents, "uss_base_url": url, "notify_for_operational_intents": True}
        return json.dumps(put).encode()

    def intent(extents, **more):
        put = {"extents": [extents], "uss_base_url": "https://a.example", "state": "Accepted", "key": []}
        return json.dumps(put | more).encode()

    return [
        ("PUT", f"{wire.SUBSCRIPTIONS}/{d1}", "Bearer tok-b", subscription("https://b.example")),
        ("PUT", f"{wire.SUBSCRIPTIONS}/{d2}", "Bearer tok-a", subscription("https://a.example")),
        ("PUT", f"{wire.INTENTS}/{a1}", "Bearer tok-a", intent(volume, subscription_id=d2)),
        ("PUT", f"{wire.INTENTS}/{a1}/{wire.ovn(3)}", "Bearer tok-a", intent(moved)),
        ("PUT", f"{wire.SUBSCRIPTIONS}/{d1}/{wire.ovn(1)}", "Bearer tok-b", subscription("https://b.example/new", moved)),
        ("DELETE", f"{wire.INTENTS}/{a1}/{wire.ovn(4)}", "Bearer tok-a", None),
        ("DELETE", f"{wire.SUBSCRIPTIONS}/{d2}/{wire.ovn(2)}", "Bearer tok-a", None),
        ("GET", f"{wire.SUBSCRIPTIONS}/{d1}", "Bearer tok-b", None),
    ]


def changes(calls, found):
    """Returns the positions of the responses that acknowledge a change."""
    done = (b"HTTP/1.1 200", b"HTTP/1.1 201")
    asked = [it.startswith(done) and method in ("PUT", "DELETE") for it, (method, *_) in zip(found, calls)]
    return {at for at, it in enumerate(asked) if it}


def airspace_after(calls, faulted, serial):
    """Returns what the plain policy stores after calls, of which some may be faults, so that its serial is that number."""
    airspace = plain_policy.Airspace(NOW)
    for at, call in enumerate(calls):
        if airspace.serial == serial:
            break
        if at not in faulted:
            airspace.ask(*call)
    return airspace


def lost(database, calls, found, is_cut=False):
    """Returns what is wrong with a reopened database after calls with these responses. It has all acknowledged changes,
    and at most the change of the call that stopped, or that ended the program if the responses were cut. Indexes and
    all else are those of the plain policy."""
    words = ["--tokens", str(TOP / "examples" / "tokens.toml"), "--now", str(NOW), "--db", str(database), "-"]
    seen = [("GET", "/".join(target.split("/")[:5]), token, None) for method, target, token, _ in calls if method == "PUT"]
    status, output, error = run([BUILT, "run", *words], b"".join(wire.request(*it) for it in seen))
    (_, _, serial), *_ = tables.rows_in(database)["meta"]
    faulted = {at for at, answer in enumerate(found) if answer == wire.answer(*FAULT)}
    airspace = airspace_after(calls, faulted, serial)
    why = first_difference([airspace.ask(*it).text() for it in seen], wire.answers_of(output))
    wrong = [f"{status}, {error!r}"] if (status, error) != (0, b"") else []
    wrong += [f"serial {serial}: {why}"] if why else []
    made = len(changes(calls, found))
    at_most = made + (is_cut or wire.answer(*STOPPED) in found)
    wrong += [] if made <= serial <= at_most else [f"{made} were acknowledged, the serial is {serial}"]
    return wrong + tables.wrong_in(database)


def answers(calls, faulted=()):
    """Returns the responses of the plain policy, in which some of the calls may be faults, which change nothing."""
    airspace = plain_policy.Airspace(NOW)
    return [
        wire.answer(*FAULT) if at in faulted else airspace.ask(*call).text() for at, call in enumerate(calls)
    ]


def stream():
    """Allocations are refused to a stream of calls of each kind."""
    return stream_of("eight calls", eight_calls())


def stream_that_notifies():
    """Allocations are refused to a stream of changes that notify subscriptions: an index rises exactly if the change is
    made."""
    return stream_of("calls that notify", notifying_calls())


def stream_of(name, calls):
    """Refuses each memory allocation of a stream of calls in turn. Each response is that of the plain policy, or a
    fault that changed nothing, or the stream ends with 'dss: memory' after some of them."""
    fault = wire.answer(*FAULT)
    faults, ends, others = collections.Counter(), collections.Counter(), 0
    command = [BUILT, "run", "--tokens", str(TOP / "examples" / "tokens.toml"), "--now", str(NOW), "-"]
    for at, got, is_refused in each_refused(command, b"".join(wire.request(*it) for it in calls)):
        status, output, error = got
        found = wire.answers_of(output)
        faulted = found.index(fault) if fault in found else None
        wanted = b"".join(answers(calls, {faulted}))
        if (status, output, error) == (0, wanted, b"") and (is_refused or faulted is None):
            others += is_refused and faulted is None
            faults[faulted] += faulted is not None
        elif is_refused and (status, error) == (1, b"dss: memory\n") and wanted.startswith(output):
            ends[len(found)] += 1
        else:
            return [f"allocation {at}, refused: {is_refused}: {got!r}"]
    each = [faults[it] for it in range(len(calls))]
    print(f"{name}: {at - 1} memory allocations refused in turn: faults {each}, ends of the stream after so "
          f"many answers {[ends[it] for it in range(len(calls))]}, without a trace {others}")
    return [] if all(each) else ["not each of the calls was answered with a fault"]


def stream_over_database(step=STEP):
    """Some allocations are refused to calls of each kind over a database."""
    return stream_over("eight calls", eight_calls(), step)


def stream_that_notifies_over_database(step=STEP):
    """Some allocations are refused to changes that notify subscriptions, over a database: an index rises exactly if the
    change is made."""
    return stream_over("calls that notify", notifying_calls(), step)


def without(folder):
    """Removes a database, if it exists, with the files beside it."""
    for file in pathlib.Path(folder).glob("dss.db*"):
        file.unlink()


def stream_over(name, calls, step):
    """Does the same over a database, for one allocation in so many. A call may also stop the service, which then has
    the state before that call or after it, and the database may not be opened. Acknowledged changes are stored."""
    fault, stopped = wire.answer(*FAULT), wire.answer(*STOPPED)
    ends = collections.Counter()
    with tempfile.TemporaryDirectory() as room:
        database = pathlib.Path(room, "dss.db")
        words = ["--tokens", str(TOP / "examples" / "tokens.toml"), "--now", str(NOW), "--db", str(database), "-"]
        given = b"".join(wire.request(*it) for it in calls)
        for at, got, is_refused in each_refused([BUILT, "run", *words], given, step, lambda: without(room)):
            status, output, error = got
            found = wire.answers_of(output)
            faulted = found.index(fault) if fault in found else None
            wanted = answers(calls, {faulted})
            if stopped in found:
                first = found.index(stopped)
                wanted[first:] = [stopped] * (len(calls) - first)
            ended = {b"": "done", b"dss: memory\n": "memory", STORE: "store", b"dss: db: fault\n": "close"}.get(error)
            is_right = found == wanted[: len(found)] and ended is not None and status == (ended != "done")
            if not is_right or not is_refused and (ended, faulted, stopped in found) != ("done", None, False):
                return [f"allocation {at}, refused: {is_refused}: {got!r}"]
            ends["stopped" if stopped in found else "fault" if faulted is not None else ended] += 1
            run([BUILT, "run", *words])
            wrong = lost(database, calls, found, ended == "memory")
            if wrong:
                return [f"allocation {at}: {it}" for it in wrong]
    print(f"{name} over a database: one of {step} of {at} memory allocations refused: {dict(ends)}")
    return [] if ends["fault"] and ends["store"] else [f"{dict(ends)}"]


def move(step=STEP):
    """Allocations are refused to the upgrade of a database of format 1: it is upgraded, or it is not opened and stays
    as it was, and the next start upgrades it. The upgrade is reported only once it is durable."""
    ends = collections.Counter()
    with tempfile.TemporaryDirectory() as room:
        database = pathlib.Path(room, "dss.db")
        saved = gzip.decompress((TOP / "tests" / "data" / "format_1" / "closed.db.gz").read_bytes())
        database.write_bytes(saved)
        before = tables.rows_in(database)

        def again():
            without(room)
            database.write_bytes(saved)

        words = [BUILT, "upgrade", "--db", str(database)]
        moved, held = b"format 2, was 1\n", b"format 2\n"
        for at, got, is_refused in each_refused(words, b"", step, again):
            ended = {
                (0, moved, b""): "done", (1, b"", STORE): "store", (1, b"", b"dss: memory\n"): "memory",
                (1, b"", b"dss: db: fault\n"): "close", (1, b"", b"dss: output\n"): "output",
            }.get(got)
            if ended is None or not is_refused and ended != "done":
                return [f"allocation {at}, refused: {is_refused}: {got!r}"]
            ends[ended] += 1
            status, said, error = run(words)
            # A database that was not opened is as it was, or upgraded, if that could not be reported.
            is_right = (status, error) == (0, b"") and (said == held or said == moved and ended != "done")
            rows = tables.rows_in(database)
            wanted = before | {"meta": [(1, 2, before["meta"][0][2])]}
            kept = {it: rows[it] for it in before if it in rows} == wanted and not any(rows[it] for it in tables.LATER_TABLES)
            if not is_right or not kept or tables.wrong_in(database):
                return [f"allocation {at}: {got!r}, then {status}, {said!r}, {error!r}, {rows}"]
    print(f"the upgrade of a database: one of {step} of {at} memory allocations refused: {dict(ends)}")
    return [] if ends["store"] else [f"{dict(ends)}"]
