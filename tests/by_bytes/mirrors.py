"""`serve` answers reads from its mirror in memory.

It also works without memory for a mirror, and with tables that get none."""
import collections
import sqlite3

import served_calls
import tables
import wire
import without_memory
from program import first_difference
from serving import Service

AHEAD = served_calls.AHEAD
# The USSs in a database, and how many of them are read.
SUPPLIERS, ASKED = 120_000, 90
# One of so many memory allocations of the service is refused.
STEP = 97
# Lines of a service that ran out of memory before it was ready.
ENDS = (b"dss: memory\n", b"dss: db: fault 3 Store\n", b"dss: db: fault\n")
FAULT, STOPPED = wire.answer(*without_memory.FAULT), wire.answer(*without_memory.STOPPED)


def answers_without(calls, environment):
    """Returns the responses of a service to calls over one connection in this environment, its standard error, and what
    is wrong with its stored rows."""
    service = Service(more=environment)
    try:
        try:
            service.start()
            found = service.ask([wire.request(*it) for it in calls])
        except OSError:
            found = []
        if len(found) < len(calls):
            # If memory runs out once it listens, it still closes its database, and then prints why it exits.
            service.until_told(b"\n")
        service.kill()
        said = (service.folder / "errors").read_bytes().removeprefix(service.listening)
        database = service.folder / "dss.db"
        # If the first start left an incomplete file, the next start completes it.
        wrong = without_memory.lost(database, calls, found, True) if found else []
        return found, said, wrong
    finally:
        service.kill()
        service.room.cleanup()


def refused(name, calls):
    """Memory allocations of the service are refused in turn. Each response is the expected one, or a fault that changed
    nothing, or the service stops, or the connection ends. Acknowledged changes are stored. If the mirror lacked
    memory, all responses arrive."""
    ends = collections.Counter()
    for at, environment, mark in without_memory.each_environment(STEP):
        found, said, wrong = answers_without(calls, environment)
        faulted = found.index(FAULT) if FAULT in found else None
        wanted = without_memory.answers(calls, {faulted})
        if STOPPED in found:
            first = found.index(STOPPED)
            wanted[first:] = [STOPPED] * (len(calls) - first)
        is_whole = len(found) == len(calls)
        if found != wanted[: len(found)] or wrong or said not in (b"", *ENDS) or is_whole != (said == b""):
            why = first_difference(wanted, found)
            return [f"{name}, allocation {at}, refused: {mark.exists()}: {said!r}, {wrong}, {why}"]
        ended = "stopped" if STOPPED in found else "fault" if faulted is not None else "done" if is_whole else "ended"
        if not mark.exists() and ended != "done":
            return [f"{name}: {found}"]
        ends[ended] += mark.exists()
    print(f"{name} over serve: one of {STEP} of {at} memory allocations refused: {dict(ends)}")
    return [] if ends["done"] > 10 else [f"{name}: {dict(ends)}"]


def without_memory_for_it():
    """The same for calls of each kind, and for changes that notify subscriptions."""
    found = refused("eight calls", without_memory.eight_calls(AHEAD))
    return found + refused("calls that notify", without_memory.notifying_calls(AHEAD))


def of_other_tables():
    """A file that SQLite rewrote, and one with an additional table, are served like others, also after a restart."""
    asked, found = served_calls.Asked(served_calls.SEED + 2), []
    with Service(served_calls.drawn_calls.ALL_TOKENS) as service:
        for statement in "SELECT 1", "VACUUM", "CREATE TABLE another (number INTEGER) STRICT", "DROP TABLE another":
            service.kill()
            connection = sqlite3.connect(service.folder / "dss.db", isolation_level=None)
            connection.execute(statement)
            connection.close()
            service.start()
            found += [f"after {statement}: {it}" for it in asked.differs(service, wire.MAX_REQUESTS)]
        service.kill()
        return found + tables.wrong_in(service.folder / "dss.db")


def while_the_file_is_gone():
    """Reads are answered from the mirror. A database larger than the program's page cache is overwritten with zeros
    once the service listens, and the availabilities of USSs can still be read. Without a mirror each read is 500."""
    ids = [f"uss-{number:06}" for number in range(SUPPLIERS)]
    rows = {"availability": [(it, 1, wire.ovn(1)) for it in ids], "meta": [(1, 2, 1)]}
    service = Service()
    try:
        tables.make(service.folder / "dss.db", 2, rows)
        service.start()
        file = service.folder / "dss.db"
        with file.open("r+b") as opened:
            opened.write(bytes(file.stat().st_size))
        asked = ids[:: SUPPLIERS // ASKED][:ASKED]
        found = service.ask([wire.request("GET", f"{wire.AVAILABILITY}/{it}", "Bearer tok-a") for it in asked])
        texts = [wire.compact({"status": {"availability": "Normal", "uss": it}, "version": wire.ovn(1)}) for it in asked]
        why = first_difference([wire.answer(200, it) for it in texts], found)
        return [why] if why else []
    finally:
        service.kill()
        service.room.cleanup()


CASES = {
    "serve-while-the-file-is-gone": while_the_file_is_gone,
    "serve-without-memory-for-a-mirror": without_memory_for_it,
    "serve-of-other-tables": of_other_tables,
}
