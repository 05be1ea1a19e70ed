"""Requests in chunks get the responses of whole ones; device faults and broken protocol rules are reported.

tests/devices/devices.c, loaded before the C library, makes standard input and output of the built program give and
take few bytes a call, or fail."""
import json
import os
import pathlib
import subprocess
import tempfile
import time

import wire
from devices import library
from program import BUILT, TOP, run

NOW = 1000
# The bytes that a slow writer takes at once.
STEP = 9
CLOSE = b"Connection: close\r\n"
ID_A, ID_B = ("00000000-0000-4000-8000-0000000000" + end for end in ("a1", "b1"))
READING = '{"status":{"availability":"Unknown","uss":"uss-b"},"version":""}'
READS, WRITES, TURNS = (f"dss: stream: fault {it}\n".encode() for it in ("1 Read", "2 Write", "5 Turns"))


class Room:
    """A token file, and the library that replaces calls on devices."""

    def __enter__(self):
        self.folder = tempfile.TemporaryDirectory()
        self.tokens = pathlib.Path(self.folder.name, "tokens.toml")
        self.tokens.write_text(wire.token_file())
        self.library = library("devices", self.folder.name)
        return self

    def __exit__(self, *_):
        self.folder.cleanup()

    def serve(self, stream, now=NOW, database=None, **devices):
        """Returns the status, output and error of a stream over devices with these settings."""
        more = {name: str(value) for name, value in devices.items()}
        more |= {"LD_PRELOAD": self.library} if devices else {}
        over = ["--db", database] if database else []
        return run([BUILT, "run", "--tokens", str(self.tokens), "--now", str(now), *over, "-"], stream, more=more)


def ask(method, target, token, body=None, fields=(), closes=False):
    """Returns a request with a bearer token."""
    fields = [*fields, "Connection: close"] if closes else fields
    return wire.request(method, target, f"Bearer {token}", None if body is None else body.encode(), fields)


def volume(cells=("89c25904",), altitudes=(0, 1200), times=(900, 2000)):
    lower, upper = altitudes
    start, end = times
    return {"cells": list(cells), "altitude_lower": lower, "altitude_upper": upper, "time_start": start, "time_end": end}


def intent(volumes, key=(), state="Accepted"):
    return wire.compact({"extents": volumes, "key": list(key), "state": state, "uss_base_url": "https://a.example"})


def reference(entity, manager, version=1, ovn=None, state="Accepted", times=(900, 2000)):
    seen = {"id": entity, "manager": manager, "state": state, "time_start": times[0], "time_end": times[1]}
    seen |= {"subscription_id": "00000000-0000-4000-8000-000000000000", "uss_availability": "Unknown"}
    seen |= {"uss_base_url": "https://a.example", "version": version} | ({"ovn": ovn} if ovn else {})
    return seen


def created(entity, manager, serial):
    """Returns the body of the response to a creation."""
    return wire.compact({"operational_intent_reference": reference(entity, manager, ovn=wire.ovn(serial)), "subscribers": []})


def refused(status, message, fields=()):
    """Returns the last response of a connection that breaks a rule."""
    return wire.answer(status, wire.compact({"message": message}), fields, closes=True)


# A USS declares an intent. Another one is told that its key lacks it, and declares its own with the key. Then a query.
MEETING = [
    (ask("PUT", f"{wire.INTENTS}/{ID_A}", "tok-a", intent([volume()])), wire.answer(201, created(ID_A, "uss-a", 1))),
    (
        ask("PUT", f"{wire.INTENTS}/{ID_B}", "tok-b", intent([volume()])),
        wire.answer(409, wire.compact({"message": "P14 KEY", "missing_constraints": [],
                                       "missing_operational_intents": [reference(ID_A, "uss-a")]})),
    ),
    (
        ask("PUT", f"{wire.INTENTS}/{ID_B}", "tok-b", intent([volume()], [wire.ovn(1)])),
        wire.answer(201, created(ID_B, "uss-b", 2)),
    ),
    (
        ask("POST", f"{wire.INTENTS}/query", "tok-b", '{"area_of_interest":{"cells":["89c2591"]}}', closes=True),
        wire.answer(200, wire.compact({"operational_intent_references": [
            reference(ID_A, "uss-a"), reference(ID_B, "uss-b", ovn=wire.ovn(2))]}), closes=True),
    ),
]
TWO_READINGS = [
    (ask("GET", f"{wire.AVAILABILITY}/uss-b", "tok-a"), wire.answer(200, READING)),
    (ask("GET", f"{wire.AVAILABILITY}/uss-b", "tok-a", closes=True), wire.answer(200, READING, closes=True)),
]


def joined(steps):
    return b"".join(request for request, _ in steps), b"".join(answer for _, answer in steps)


def examples():
    """Returns the streams of the worked examples, each with its name, its time and its responses."""
    for example in json.loads((TOP / "tests" / "data" / "worked_examples.json").read_text()):
        steps = [(step["request"].encode("latin-1"), step["answer"].encode("latin-1")) for step in example["steps"]]
        if example["in_one_stream"]:
            kept = [(request.replace(CLOSE, b""), answer.replace(CLOSE, b"")) for request, answer in steps[:-1]]
            yield example["name"], example["now"], *joined(kept + steps[-1:])
        else:
            for request, answer in steps:
                yield example["name"], example["now"], request, answer


def in_chunks():
    """The responses are the same, however few bytes a read gives and a write takes, and wherever the first read ends."""
    found = []
    streams = [("a meeting", NOW, *joined(MEETING)), ("two readings", NOW, *joined(TWO_READINGS)), *examples()]
    with Room() as room:
        for name, now, stream, wanted in streams:
            ways = [{}, {"READ_BYTES": 1}, {"WRITE_BYTES": 7}]
            if len(stream) < 200:
                ways += [{"READ_FIRST": at} for at in range(1, len(stream))]
            for devices in ways:
                got = room.serve(stream, now, **devices)
                found += [f"{name}, {devices}: {got!r}"] if got != (0, wanted, b"") else []
    return found


def failing_devices():
    """A failing read or write ends the stream. The responses to all completely received requests are written before
    that."""
    found = []
    with Room() as room:
        # Two requests that leave the connection open: the last read finds the end.
        both = TWO_READINGS[:1] * 2
        stream, wanted = joined(both)
        ends = [len(both[0][0]), len(stream)]
        sizes = [0, len(both[0][1]), len(wanted)]
        for at in range(1, len(stream) + 2):
            come = sum(end < at for end in ends)
            got = room.serve(stream, READ_BYTES=1, READ_FAILS=at)
            found += [f"read {at}: {got!r}"] if got != (1, wanted[: sizes[come]], READS) else []
        got = room.serve(stream, READ_BYTES=1, READ_FAILS=len(stream) + 2)
        found += [f"no read fails: {got!r}"] if got != (0, wanted, b"") else []
        # Each response is written on its own, in chunks.
        stream, _ = joined(TWO_READINGS)
        chunks = [answer[at : at + STEP] for _, answer in TWO_READINGS for at in range(0, len(answer), STEP)]
        for fault in "WRITE_FAILS", "WRITE_STOPS":
            for at in range(1, len(chunks) + 1):
                got = room.serve(stream, WRITE_BYTES=STEP, **{fault: at})
                found += [f"{fault} {at}: {got!r}"] if got != (1, b"".join(chunks[: at - 1]), WRITES) else []
    return found


def answer_not_written():
    """A call takes effect even if its response cannot be written."""
    setting, url = '{"old_version":"","availability":"Down"}', f"{wire.AVAILABILITY}/uss-b"
    down = wire.compact({"status": {"availability": "Down", "uss": "uss-b"}, "version": wire.ovn(1)})
    with Room() as room:
        database = f"{room.folder.name}/dss.db"
        lost = room.serve(ask("PUT", url, "tok-v", setting, closes=True), database=database, WRITE_FAILS=1)
        read = room.serve(ask("GET", url, "tok-a", closes=True), database=database)
    found = [] if lost == (1, b"", WRITES) else [f"the setting: {lost!r}"]
    return found + ([] if read == (0, wire.answer(200, down, closes=True), b"") else [f"the reading: {read!r}"])


def cell_not_written():
    """If a cell cannot be written, that is reported, and the written bytes are a prefix of its line."""
    line = b"89c25904 face=4 level=13 lo=288901920 hi=288901920\n"
    found = []
    with Room() as room:
        for at in range(1, len(line) // 7 + 2):
            more = {"LD_PRELOAD": room.library, "WRITE_BYTES": "7", "WRITE_FAILS": str(at)}
            got = run([BUILT, "cell", "89c25904"], more=more)
            found += [f"write {at}: {got!r}"] if got != (1, line[: 7 * (at - 1)], b"dss: output\n") else []
    return found


def truncated():
    """A put that is cut anywhere gets no response, and the next stream over the database finds nothing."""
    stream = MEETING[0][0]
    reading = ask("GET", f"{wire.INTENTS}/{ID_A}", "tok-a", closes=True)
    found = []
    with Room() as room:
        file = f"{room.folder.name}/dss.db"
        for size in range(len(stream)):
            is_stored = size % 16 == 0 or size > len(stream) - 4
            cut = room.serve(stream[:size], database=file if is_stored else None)
            found += [f"{size} bytes: {cut!r}"] if cut != (0, b"", b"") else []
            if is_stored:
                read = room.serve(reading, database=file)
                found += [f"after {size} bytes: {read!r}"] if read != (0, refused(404, "P7 FOUND"), b"") else []
    return found


def turns_end():
    """A body that arrives one byte a read uses up the turns of a stream."""
    stream = ask("GET", f"{wire.AVAILABILITY}/uss-b", "tok-a", " " * 1_048_576)
    with Room() as room:
        began = time.perf_counter()
        got = room.serve(stream, READ_BYTES=1)
        print(f"a million reads of one byte: {time.perf_counter() - began:.1f} s")
    return [f"{got!r}"] if got != (1, b"", TURNS) else []


def max_body():
    """A body of 1,048,576 bytes with 2,048 cells and 4,096 entries of a key gets its response."""
    key = [f"{at:0128d}" for at in range(4_096)]
    body = json.loads(intent([volume(["89c25904"] * 512)] * 4, key))
    left = 1_048_576 - len(wire.compact(body)) - len(',"x":""')
    text = wire.compact(body | {"x": "x" * left})
    stream = ask("PUT", f"{wire.INTENTS}/{ID_A}", "tok-a", text, closes=True)
    with Room() as room:
        began = time.perf_counter()
        got = room.serve(stream)
        print(f"a body of {len(text):,} bytes: {time.perf_counter() - began:.2f} s")
    wanted = wire.answer(201, created(ID_A, "uss-a", 1), closes=True)
    return [f"{got!r}"] if len(text) != 1_048_576 or got != (0, wanted, b"") else []


H1, H2 = refused(400, "H1 HEAD"), refused(431, "H2 HEADSIZE")
H3, H4, H5 = refused(501, "H3 TRANSFER"), refused(400, "H4 LENGTH"), refused(413, "H5 BODYSIZE")
LINE = f"GET {wire.AVAILABILITY}/uss-b HTTP/1.1\r\n".encode()
BEARS = b"Authorization: Bearer tok-a\r\nConnection: close\r\n"
ANSWERED = TWO_READINGS[1][1]


def head(fields):
    """Returns the head of a read with these additional fields."""
    return LINE + BEARS + fields + b"\r\n"


def sized(size):
    """Returns a head of that many bytes."""
    return head(b"X: " + b"x" * (size - len(head(b"X: \r\n"))) + b"\r\n")


HEADS = [
    ("nothing", b"", b""),
    ("line ends alone", b"\r\n\n\r\n", b""),
    ("8,191 line feeds", b"\n" * 8_191, b""),
    ("8,192 line feeds", b"\n" * 8_192, H2),
    ("a head of 8,192 bytes", sized(8_192), ANSWERED),
    ("a head of 8,193 bytes", sized(8_193), H2),
    ("empty lines count", b"\r\n" + sized(8_190), ANSWERED),
    ("empty lines count beyond it", b"\r\n" + sized(8_191), H2),
    ("64 fields", head(b"Y: z\r\n" * 62), ANSWERED),
    ("65 fields", head(b"Y: z\r\n" * 63), H2),
    ("65 fields without an end", LINE + b"Y: z\r\n" * 65, H2),
    ("a request line that never ends", b"GET /" + b"a" * 9_000, H2),
    ("bytes that could never begin a head, and no line end", b"\0" * 8_191, b""),
    ("and 8,192 of them", b"\0" * 8_192, H2),
    ("and a line end", b"\0\n", H1),
    ("a fault before 8,192 bytes", LINE + b"A B: c\r\n", H1),
    ("a fault after the request line, at once", LINE + b"X Y", H1),
    ("a fault beyond 8,192 bytes", LINE + b"X: " + b"x" * 8_192 + b"\r\nA B: c\r\n\r\n", H2),
    ("two spaces", b"GET  / HTTP/1.1\r\n\r\n", H1),
    ("version 2", b"GET / HTTP/2\r\n\r\n", H1),
    ("a target that is no UTF-8", b"GET /\xff HTTP/1.1\r\n\r\n", H1),
    ("line feeds without carriage returns", head(b"").replace(b"\r", b""), ANSWERED),
    ("names in small letters", head(b"").replace(b"Authorization", b"authorization").replace(b"Connection", b"connection"), ANSWERED),
    ("Transfer-Encoding", head(b"transfer-encoding: chunked\r\nContent-Length: x\r\n"), H3),
    ("two lengths", head(b"Content-Length: 0\r\ncontent-length: 0\r\n"), H4),
    ("two lengths in one field", head(b"Content-Length: 0, 0\r\n"), H4),
    ("a length with a sign", head(b"Content-Length: +5\r\n"), H4),
    ("an empty length", head(b"Content-Length:\r\n"), H4),
    ("a length in words", head(b"Content-Length: 4x\r\n"), H4),
    ("a length of 40 nines", head(b"Content-Length: " + b"9" * 40 + b"\r\n"), H5),
    ("a length of 30 zeros", head(b"Content-Length: " + b"0" * 30 + b"\r\n"), ANSWERED),
    ("a length of 1,048,577", head(b"Content-Length: 1048577\r\n"), H5),
    ("a length of 1,048,576 without a body", head(b"Content-Length: 1048576\r\n"), b""),
    ("spaces and tabs round a length", head(b"Content-Length: \t0 \t\r\n"), ANSWERED),
    ("a rule of the wire before the route", b"GET /nothing HTTP/1.1\r\nContent-Length: x\r\n\r\n", H4),
    ("a rule of the wire after an answer", TWO_READINGS[0][0] + b"GET / HTTP/2\r\n", TWO_READINGS[0][1] + H1),
    ("part of a head after an answer", TWO_READINGS[0][0] + b"\r\nGET", TWO_READINGS[0][1]),
    ("a body is no request", ask("GET", f"{wire.AVAILABILITY}/uss-b", "tok-a", "GET / HTTP/2\r\n\r\n"), TWO_READINGS[0][1]),
    ("what follows a close is not looked at", head(b"") + b"GET / HTTP/2\r\n\r\n", ANSWERED),
]

# The value of a field Connection, the version, and whether the connection closes.
CLOSINGS = [
    (b"A: close", b"1.1", False),
    (b"Connection: keep-alive", b"1.1", False),
    (b"Connection: closed, not-close, close x, cl ose", b"1.1", False),
    (b"Connection:", b"1.1", False),
    (b"connection: keep-alive,\t CLOSE ", b"1.1", True),
    (b"Connection: close,", b"1.1", True),
    (b"Connection: a\r\nConnection: Close", b"1.1", True),
    (b"Connection: keep-alive", b"1.0", True),
    (b"A: b", b"1.0", True),
]


def hostile():
    """Each hostile input gets exactly its expected responses."""
    found = []
    table = list(HEADS)
    for field, version, closes in CLOSINGS:
        asked = b"GET " + wire.AVAILABILITY.encode() + b"/uss-b HTTP/" + version + b"\r\nAuthorization: Bearer tok-a\r\n" + field + b"\r\n\r\n"
        one = wire.answer(200, READING, closes=closes)
        table += [(f"{field!r} in {version!r}", asked + head(b""), one if closes else one + ANSWERED)]
    with Room() as room:
        for name, stream, wanted in table:
            got = room.serve(stream)
            found += [f"{name}: wanted {wanted!r}, got {got!r}"] if got != (0, wanted, b"") else []
            if len(stream) < 400:
                got = room.serve(stream, READ_BYTES=1)
                found += [f"{name}, one byte a read: {got!r}"] if got != (0, wanted, b"") else []
    return found


P1, P5 = (404, "P1 ROUTE"), (400, "P5 FORM")
ALLOW_QUERY, ALLOW_ENTITY, ALLOW_OVN = ((405, "P2 METHOD", f"Allow: {it}") for it in ("POST", "GET, PUT", "PUT, DELETE"))
# Some paths and methods with their denials, for both kinds of references: a bad path parameter, an unknown route, or
# other methods.
PATHS = [
    ("GET", "/query", ALLOW_QUERY), ("PUT", "/query", ALLOW_QUERY), ("post", "/query", ALLOW_QUERY),
    ("POST", "/query?a", P5), ("POST", "/quer", ALLOW_ENTITY), ("GET", "/quer", P5), ("GET", "/queryx", P5),
    ("GET", "/query/x", P1), ("PUT", "/query/x", P1), ("GET", "/query/", P1), ("DELETE", f"/{ID_A}", ALLOW_ENTITY),
    ("GET", f"/{ID_A}/query", ALLOW_OVN), ("DELETE", f"/{ID_A}/query", P5), ("GET", f"/{ID_A}/", P1), ("GET", "/", P1),
    ("GET", "", P1), ("GET", f"/{ID_A}/x/y", P1), ("GET", f"//{ID_A}", P1), ("GET", f"/{ID_A}/{'0' * 64}", ALLOW_OVN),
    ("GET", f"/{ID_A}", (404, "P7 FOUND")), ("GET", f"/{ID_A.upper()}?x=/y/z", (404, "P7 FOUND")),
    ("DELETE", f"/{ID_A}/{'0' * 64}", (404, "P7 FOUND")), ("HEAD", f"/{ID_A}", ALLOW_ENTITY), ("GET", "%2Fquery", P1),
]
OTHERS = [
    ("GET", "/", P1), ("GET", "dss/v1/uss_availability/a", P1), ("GET", "/dss/v1/uss_availability", P1),
    ("GET", "/dss/v1/uss_availability/", P1), ("GET", "/dss/v1/uss_availability/a/b", P1), ("GET", "/dss/v2/uss_availability/a", P1),
    ("POST", "/dss/v1/uss_availability/a", ALLOW_ENTITY), ("GET", "/dss/v1/reports/a", P1),
    ("GET", "http://localhost/dss/v1/uss_availability/a", P1), ("GET", "/dss/v1/uss_availability/a%2Fb", P5),
]


def paths():
    """Each path and method of the tables gets its expected response, for both kinds of references."""
    table = [(method, path, "tok-a", it) for method, path, it in OTHERS]
    for front, token in (wire.INTENTS, "tok-a"), (wire.CONSTRAINTS, "tok-c"):
        table += [(method, front + path, token, it) for method, path, it in PATHS]
    found = []
    with Room() as room:
        for method, path, token, (status, message, *fields) in table:
            got = room.serve(ask(method, path, token, closes=True))
            found += [f"{method} {path}: {got!r}"] if got != (0, refused(status, message, fields), b"") else []
    return found


CASES = {
    "connections-in-chunks": in_chunks,
    "devices-that-fail": failing_devices,
    "response-that-is-not-written": answer_not_written,
    "cell-that-is-not-written": cell_not_written,
    "put-that-is-cut": truncated,
    "turns-that-end": turns_end,
    "max-body": max_body,
    "hostile-heads": hostile,
    "paths-and-methods": paths,
}
