"""The report of a database is exactly what this module computes, for references that the program itself made."""
import json
import pathlib
import tempfile

import connections
import wire
from databases import CONSTRAINT, INTENT, NAMING, NOT_A_DSS, STORE, Room, ask, filled, volume
from program import BUILT, TOP, run

# The specification's text for the first step of this worked example.
EXAMPLE = "a-put-and-a-missing-key"
OF_THE_EXAMPLE = (
    b"intent     00000000-0000-4000-8000-0000000000a1          1 Accepted               900         2000 uss-a\n"
    b"serial 1\n"
)
MAX = 253_402_300_799
ID = "00000000-0000-4000-8000-{:012x}".format


# The cells of a filled database.
PLACES = f"""\
intent {INTENT} uss-a Activated 89c25904 -100 1200 900 2000
intent {INTENT} uss-a Activated 89c2591 -100 1200 900 2000
intent {INTENT} uss-a Activated 89c25904 -100000 1000000 0 {MAX}
intent {NAMING} uss-b Accepted 89c2590c 0 400 900 2000
constraint {CONSTRAINT} uss-c - 89c3 0 500 900 2000
"""


def report(database, more=None, flags=()):
    return run([BUILT, "report", "--db", str(database), *flags], more=more)


def line(kind, entity, version, state, times, manager):
    start, end = times
    return f"{kind:<10} {entity} {version:>10} {state:<13} {start:>12} {end:>12} {manager}\n"


def difference(name, got, wanted):
    return [] if got == wanted else [f"{name}: wanted {wanted!r}, got {got!r}"]


def worked_example():
    """The report after the worked example's first step."""
    examples = json.loads((TOP / "tests" / "data" / "worked_examples.json").read_text())
    example = next(it for it in examples if it["name"] == EXAMPLE)
    step = example["steps"][0]
    with Room() as room:
        got = room.serve([step["request"].encode("latin-1")], example["now"])
        found = difference("the put", got, (0, step["answer"].encode("latin-1"), b""))
        return found + difference("the report", report(room.database), (0, OF_THE_EXAMPLE, b""))


def put(kind, entity, token, times, state=None, path="", key=()):
    body = {"extents": [volume(["89c25904"], (0, 10), at) for at in times], "uss_base_url": "https://a.example"}
    body |= {"state": state, "key": list(key)} if state else {}
    return ask("PUT", f"{kind}/{entity}{path}", token, body)


def in_order():
    """Intents are in order of their ids whatever their age, then constraints. The report follows updates and deletions."""
    late, early = (900, 2000), (0, MAX)
    steps = [
        put(wire.INTENTS, ID(0xFF), "tok-bm", [late], "Contingent"),
        put(wire.CONSTRAINTS, ID(0xFE), "tok-c", [(5, 1500), (7, 1234)]),
        put(wire.INTENTS, ID(2), "tok-bm", [late, early], "Nonconforming"),
        put(wire.CONSTRAINTS, ID(0xA), "tok-c", [early]),
        put(wire.INTENTS, ID(0x10), "tok-a", [(3000, 4000)], "Accepted", key=[wire.ovn(3)]),
        put(wire.INTENTS, ID(0x10), "tok-a", [(3000, 4001)], "Activated", f"/{wire.ovn(5)}", [wire.ovn(3)]),
        put(wire.CONSTRAINTS, ID(1), "tok-c", [late]),
        ask("DELETE", f"{wire.CONSTRAINTS}/{ID(1)}/{wire.ovn(7)}", "tok-c"),
        ask("PUT", f"{wire.AVAILABILITY}/uss-b", "tok-v", {"old_version": "", "availability": "Down"}),
    ]
    text = "".join([
        line("intent", ID(2), 1, "Nonconforming", (0, MAX), "uss-b"),
        line("intent", ID(0x10), 2, "Activated", (3000, 4001), "uss-a"),
        line("intent", ID(0xFF), 1, "Contingent", late, "uss-b"),
        line("constraint", ID(0xA), 1, "-", early, "uss-c"),
        line("constraint", ID(0xFE), 1, "-", (5, 1500), "uss-c"),
        "serial 9\n",
    ])
    with Room() as room:
        got = room.serve(steps)
        put_well = got[0] == 0 and got[1].count(b"HTTP/1.1 20") == len(steps)
        found = [] if put_well else [f"the steps: {got!r}"]
        for name in "the report", "once more":
            found += difference(name, report(room.database), (0, text.encode(), b""))
        return found


def of_nothing():
    """A missing file is made, and its report is empty. A file that is no such database is rejected."""
    with tempfile.TemporaryDirectory() as folder:
        database = pathlib.Path(folder, "dss.db")
        found = difference("no file", report(database), (0, b"serial 0\n", b""))
        found += difference("no folder", report(f"{folder}/none/dss.db"), (1, b"", STORE))
    with Room() as room:
        room.query("CREATE TABLE meta (one INTEGER)")
        return found + difference("another database", report(room.database), (1, b"", NOT_A_DSS))


def not_written():
    """A report that cannot be written is reported as a fault."""
    with connections.Room() as room, tempfile.TemporaryDirectory() as folder:
        more = {"LD_PRELOAD": room.library, "WRITE_FAILS": "1"}
        return difference("the report", report(f"{folder}/dss.db", more), (1, b"", b"dss: output\n"))


def places():
    """`--cells` prints a line for each cell, in the order of the report, of the volumes and of the cells. The stored
    rows stay."""
    with Room() as room:
        room.serve(filled())
        before = report(room.database)
        found = difference("the cells", report(room.database, flags=["--cells"]), (0, PLACES.encode(), b""))
        found += difference("the report after it", report(room.database), before)
    with connections.Room() as room, tempfile.TemporaryDirectory() as folder:
        database = f"{folder}/dss.db"
        found += difference("no file", report(database, flags=["--cells"]), (0, b"", b""))
        with Room() as other:
            other.serve(filled())
            more = {"LD_PRELOAD": room.library, "WRITE_FAILS": "1"}
            got = report(other.database, more, ["--cells"])
            return found + difference("not written", got, (1, b"", b"dss: output\n"))


CASES = {
    "report-worked-example": worked_example,
    "report-in-order": in_order,
    "report-of-nothing": of_nothing,
    "report-not-written": not_written,
    "report-cells": places,
}
