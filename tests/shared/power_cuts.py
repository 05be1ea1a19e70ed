"""Simulated power cuts: what a disk may have persisted of the recorded calls of a real run, and what the next start finds.

A disk has persisted what was synced. Of each later write, sector by sector, it has persisted all or nothing. It was
writing at most one sector, and a model says what that one holds.

The next start must find the airspace after a change that is not before the last acknowledged one."""
import collections
import json
import pathlib
import random
import struct
import tempfile
import time

import tables
import wire
from devices import library
from program import BUILT, run
from serving import Service

SECTOR, PAGE = 512, 4_096
HEADER = struct.Struct("<ccqq")
FILES = {b"d": "dss.db", b"l": "dss.db-wal"}
# The changes of each run of the service, and whether it is killed behind them or ends.
PHASES = ((10, "killed"), (12, "ended"), (12, "killed"), (6, "ended"))
# Every so many changes creates an intent with so many cells.
WIDE, CELLS = 4, 100

Event = collections.namedtuple("Event", "kind file at count bytes")


# ---- the record of a real run


class Recorded(Service):
    """`dss serve` whose calls are recorded."""

    def __init__(self, options, library, record):
        super().__init__(count=1, more={"LD_PRELOAD": library, "RECORDED": str(record)})
        self.options = options


def change(serial):
    """Returns the call that makes the change of this serial."""
    if serial % WIDE:
        old = serial - 1 if serial % WIDE > 1 else serial - 2
        body = {"old_version": wire.ovn(old) if old > 0 else "", "availability": ("Normal", "Down")[serial % 2]}
        return wire.request("PUT", f"{wire.AVAILABILITY}/uss-b", "Bearer tok-v", json.dumps(body).encode())
    cells = [f"{place << 35 | 1 << 34:016x}".rstrip("0") for place in range(serial * CELLS, (serial + 1) * CELLS)]
    start = int(time.time()) + 1_000
    extent = {"cells": cells, "altitude_lower": 0, "altitude_upper": 100, "time_start": start, "time_end": start + 9_000}
    body = {"extents": [extent], "state": "Accepted", "uss_base_url": "https://a.example"}
    target = f"{wire.INTENTS}/00000000-0000-4000-8000-{serial:012x}"
    return wire.request("PUT", target, "Bearer tok-a", json.dumps(body).encode())


def recorded(options, room):
    """Returns the calls of a service with these options that makes changes, is killed, and ends, again and again."""
    record, serial = pathlib.Path(room, "record"), 0
    service = Recorded(options, library("record_calls", room), record)
    try:
        for changes, how in PHASES:
            service.start()
            with service.connect() as connection:
                for serial in range(serial + 1, serial + changes + 1):
                    connection.sendall(change(serial))
                    came = connection.recv(1 << 16)
                    if not came.startswith(b"HTTP/1.1 20"):
                        raise OSError(f"change {serial}: {came!r}")
                if how == "killed":
                    service.kill()
            if how == "ended" and service.ended()[0]:
                raise OSError("the service did not end")
    finally:
        service.__exit__()
    return list(events(record.read_bytes()))


def events(data):
    at = 0
    while at < len(data):
        kind, file, offset, count = HEADER.unpack_from(data, at)
        at += HEADER.size
        has = count if kind == b"w" else 0
        yield Event(kind, file, offset, count, data[at : at + has])
        at += has


# ---- what a disk may hold


def put(content, at, bytes):
    if len(content) < at:
        content.extend(bytearray(at - len(content)))
    content[at : at + len(bytes)] = bytes


def apply(content, event):
    if event.kind == b"w":
        put(content, event.at, event.bytes)
    elif event.kind == b"t":
        del content[event.at :]
        content.extend(bytearray(event.at - len(content)))


def pieces(event):
    """Returns the parts of a write, one for each sector, as writes."""
    at, end = event.at, event.at + event.count
    while at < end:
        stop = min(end, (at // SECTOR + 1) * SECTOR)
        yield event._replace(at=at, count=stop - at, bytes=event.bytes[at - event.at : stop - event.at])
        at = stop


def torn(draw, content, piece):
    """The sector has the first bytes of the new ones, or the last, and the old ones elsewhere."""
    middle = draw.randrange(piece.count + 1)
    first = draw.random() < 0.5
    kept = piece.bytes[:middle] if first else piece.bytes[middle:]
    put(content, piece.at if first else piece.at + middle, kept)


def junk(draw, count):
    return draw.choice((draw.randbytes(count), bytes(count), b"\xff" * count))


def written(draw, content, piece):
    """The written bytes of the sector hold anything."""
    put(content, piece.at, junk(draw, piece.count))


def spoiled(size):
    """All bytes of the sector, or of the page, that the file has hold anything, also those that were not written."""

    def spoil(draw, content, piece):
        put(content, piece.at, piece.bytes)
        first = piece.at // size * size
        put(content, first, junk(draw, min(size, len(content) - first)))

    return spoil


# What the sector holds that was being written, by a name for tables.
MODELS = {
    "Each sector is old or new": None,
    "One sector is torn at a byte: old on one side, new on the other": torn,
    "The written bytes of one sector hold anything": written,
    "All 512 bytes of one sector hold anything": spoiled(SECTOR),
    "All 4,096 bytes of one page hold anything": spoiled(PAGE),
}
# The options of the two ways to commit.
WAYS = {"one sync": (), "`--double-sync`": ("--double-sync",)}


class Cuts:
    """The cuts of a recorded run. At each of them at least one write is not synced."""

    def __init__(self, all_):
        self.all = all_
        # By cut: how many changes were acknowledged.
        self.places, open_, acked = [], {it: 0 for it in FILES}, 0
        for at, event in enumerate(all_):
            acked += event.kind == b"a"
            if event.kind == b"s":
                open_[event.file] = 0
            elif event.kind == b"w":
                open_[event.file] += 1
            if any(open_.values()):
                self.places.append((at, acked))

    def synced(self, at):
        """Returns what the files hold for sure at a cut, and the later calls in their order."""
        content, later = {it: bytearray() for it in FILES}, {it: [] for it in FILES}
        for event in self.all[: at + 1]:
            if event.kind == b"s":
                for it in later[event.file]:
                    apply(content[event.file], it)
                later[event.file] = []
            elif event.file in FILES:
                later[event.file].append(event)
        return content, [it for file in FILES for it in later[file]]

    def cut(self, draw, at, model):
        """Returns what the files may hold after a cut."""
        content, later = self.synced(at)
        kept = draw.choice((0, 0.1, 0.5, 0.9, 1))
        parts = [part for event in later for part in (pieces(event) if event.kind == b"w" else (event,))]
        writes = [it for it, part in enumerate(parts) if part.kind == b"w"]
        # The first sector of a write has bytes of the change before it.
        struck = draw.choice((draw.choice(writes), writes[0], writes[-1])) if model else None
        for it, part in enumerate(parts):
            if it != struck and draw.random() < kept:
                apply(content[part.file], part)
        if model:
            model(draw, content[parts[struck].file], parts[struck])
        return content


# ---- what the next start finds


def found(room, content, opens=lambda database: run([BUILT, "report", "--db", str(database)])[0] == 0):
    """Returns the rows in files with this content once the program has opened them, or None if it does not open them."""
    with tempfile.TemporaryDirectory(dir=room) as folder:
        for it, name in FILES.items():
            pathlib.Path(folder, name).write_bytes(content[it])
        database = pathlib.Path(folder, "dss.db")
        return tables.rows_in(database) if opens(database) else None


def after_each(room, cuts):
    """Returns the rows that SQLite itself finds after each change, by the number of changes, of which none is lost."""
    content, states = {it: bytearray() for it in FILES}, {}
    for event in cuts.all:
        if event.file in FILES:
            apply(content[event.file], event)
        if event.kind == b"a":
            states[len(states) + 1] = found(room, content, lambda database: True)
    return states


def outcome(rows, states, acked):
    """Returns what a start found, and how many acknowledged changes are lost."""
    if rows is None:
        return "not opened", acked
    serial = rows["meta"][0][2]
    if serial and rows != states.get(serial):
        return "wrong", acked
    return ("found", 0) if serial >= acked else ("lost", acked - serial)


class Run:
    """A recorded run of the service, of which cuts are drawn."""

    def __init__(self, options, room):
        self.options, self.room = options, room
        self.cuts = Cuts(recorded(options, room))
        self.states = after_each(room, self.cuts)

    def measure(self, name, count, seed):
        """Returns how many of so many cuts had each outcome, and the most acknowledged changes that one of them lost."""
        draw = random.Random(f"{seed} {self.options} {name}")
        counted, most = collections.Counter(), 0
        for at, acked in [draw.choice(self.cuts.places) for _ in range(count)]:
            what, lost = outcome(found(self.room, self.cuts.cut(draw, at, MODELS[name])), self.states, acked)
            counted[what] += 1
            most = max(most, lost)
        return counted, most
