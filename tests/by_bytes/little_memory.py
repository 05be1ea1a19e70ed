"""A start that lacks memory for all rows checks the database in pieces, and serves it without a mirror."""
import pathlib
import shutil
import tempfile

import tables
import wire
from admin_port import AdminService
from program import first_difference, run
from serving import words
from sockets import difference

# The intents in the database, each with a subscription, and how many megabytes a start gets: too few for all rows.
STORED, MEGABYTES = 10_000, 42
AHEAD = 4_000_000_000
CELL = ("89c25904", 288901920, 288901920)
ID = "{:08x}-0000-4000-8000-000000000000".format
NOT_A_DSS, VERSION = (1, b"", b"dss: db: fault 1 NotADss\n"), (1, b"", b"dss: db: fault 2 Version\n")
# Changes after which the rows represent no airspace, each of a row of another table, and their faults.
BROKEN = {
    "UPDATE entity SET manager = '' WHERE num = 5555": NOT_A_DSS,
    "UPDATE entity SET kind = 1, state = 4 WHERE num = 1": NOT_A_DSS,
    "UPDATE cell SET lo = lo - 1 WHERE entity = 9999": NOT_A_DSS,
    "UPDATE subscription SET notes = 10001 WHERE num = 3": NOT_A_DSS,
    "INSERT INTO availability VALUES ('uss-b', 1, 'short')": NOT_A_DSS,
    "UPDATE meta SET format = 3": VERSION,
}


def stored(file):
    """Makes a database of intents in one cell, each at another height, and of subscriptions, one for each intent."""
    numbers = range(1, STORED + 1)
    heights = {it: (it * 20, it * 20 + 10) for it in numbers}
    times = AHEAD, AHEAD + 1_000
    text = "https://a.example"
    rows = {
        "meta": [(1, 2, STORED)],
        "entity": [(it, 0, ID(it), "uss-a", 0, 1, it, wire.ovn(it), text) for it in numbers],
        "volume": [(it, 0, *heights[it], *times) for it in numbers],
        "cell": [(it, 0, 0, *CELL) for it in numbers],
        "subscription": [(it, ID(it), "uss-a", it, wire.ovn(it), 0, text, 1, 0, *heights[it], *times) for it in numbers],
        "subscription_cell": [(it, 0, *CELL) for it in numbers],
        "naming": [(it, it) for it in numbers],
    }
    tables.make(file, 2, rows)


def limited(command):
    return ["prlimit", f"--as={MEGABYTES << 20}", *command]


class LittleMemory(AdminService):
    """`dss serve` with an admin port and little memory."""

    def command(self):
        return limited(super().command())


def calls():
    """Returns requests that read single items and all of an area, and one that changes the database."""
    places, items = (wire.INTENTS, wire.SUBSCRIPTIONS), range(1, STORED, STORED // 9)
    found = [wire.request("GET", f"{place}/{ID(it)}", "Bearer tok-a") for it in items for place in places]
    area = f'{{"area_of_interest":{{"cells":["{CELL[0]}"],"altitude_lower":1000,"altitude_upper":1100}}}}'
    found += [wire.request("POST", f"{wire.INTENTS}/query", "Bearer tok-a", area.encode())]
    change = b'{"old_version":"","availability":"Down"}'
    return found + [wire.request("PUT", f"{wire.AVAILABILITY}/uss-b", "Bearer tok-v", change)] + found[:1]


def serves():
    """The service starts without a mirror, and answers as one with a mirror does."""
    answers = []
    for kind, mirror in (LittleMemory, "0"), (AdminService, "1"):
        service = kind()
        try:
            stored(service.folder / "dss.db")
            service.start()
            found = difference(f"{kind.__name__}, dss_mirror_up", service.counted()["dss_mirror_up"], mirror)
            if found:
                return found
            answers.append(service.ask(calls()))
        finally:
            service.kill()
            service.room.cleanup()
    why = first_difference(answers[1], answers[0])
    return [why] if why else []


def refuses():
    """It does not start if the rows represent no airspace, and leaves the file as it is."""
    found = []
    with tempfile.TemporaryDirectory() as room:
        whole, file = pathlib.Path(room, "whole.db"), pathlib.Path(room, "dss.db")
        pathlib.Path(room, "tokens.toml").write_text(wire.token_file())
        stored(whole)
        for change, fault in BROKEN.items():
            shutil.copy(whole, file)
            with tables.unguarded(file) as database:
                database.execute(change)
            before = file.read_bytes()
            found += difference(change, run(limited(words(room, 1, 1))), fault)
            found += difference(f"{change}: the file", file.read_bytes() == before, True)
    return found


CASES = {
    "serve-with-little-memory": serves,
    "serve-with-little-memory-of-broken-rows": refuses,
}
