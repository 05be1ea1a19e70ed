"""The program behind sockets: `serve` on a free port of this machine, and `self`.

Each connection is served and closed so that its last response can be read, whatever its client does."""
import json
import pathlib
import socket
import struct
import tempfile

import wire
from connections import Room
from program import BUILT, TOP, run
from serving import Service, words

READING = wire.compact({"status": {"availability": "Unknown", "uss": "uss-b"}, "version": ""})
ASKED = wire.request("GET", f"{wire.AVAILABILITY}/uss-b", "Bearer tok-a")
CLOSING = wire.request("GET", f"{wire.AVAILABILITY}/uss-b", "Bearer tok-a", fields=["Connection: close"])
ANSWER, LAST = wire.answer(200, READING), wire.answer(200, READING, closes=True)
SOCKET = b"dss: socket\n"
CLOCK = b"dss: stream: fault 3 Clock\n"
TOO_LONG = b"dss: self: request too long\n"
MAX_BYTES = 16_384


def difference(name, got, wanted):
    return [] if got == wanted else [f"{name}: wanted {wanted!r}, got {got!r}"]


def silent(started, faults=b""):
    """The service exits with status 0, and prints only that it listens, and faults of streams."""
    return difference("the service", started.ended(), (0, b"", started.listening + faults))


def one_connection():
    """One connection with two requests is answered, and the program exits."""
    with Service(count=1) as started:
        found = difference("answers", started.exchange(ASKED + CLOSING, ends=False), ANSWER + LAST)
        return found + silent(started)


def one_after_the_other():
    """Each of 50 connections finds what the one before it has set."""
    found = []
    with Service(count=50) as started:
        version = ""
        for serial in range(1, 51):
            body = wire.compact({"old_version": version, "availability": "Down"}).encode()
            sent = wire.request("PUT", f"{wire.AVAILABILITY}/uss-b", "Bearer tok-v", body, ["Connection: close"])
            version = wire.ovn(serial)
            body = wire.compact({"status": {"availability": "Down", "uss": "uss-b"}, "version": version})
            found += difference(f"connection {serial}", started.exchange(sent, ends=False), wire.answer(200, body, closes=True))
        return found + silent(started)


def broken_clients():
    """A client that sends nothing, one that sends half a head and one that sends half a body get no response. One that
    resets its connection is reported as a failed read. The next client is served."""
    put = wire.request("PUT", f"{wire.AVAILABILITY}/uss-b", "Bearer tok-v", b'{"old_version":"","availability":"Down"}')
    with Service(count=5) as started:
        found = difference("nothing", started.exchange(b""), b"")
        found += difference("half a head", started.exchange(ASKED[:40]), b"")
        found += difference("half a body", started.exchange(put[:-1]), b"")
        with started.connect() as connection:
            connection.setsockopt(socket.SOL_SOCKET, socket.SO_LINGER, struct.pack("ii", 1, 0))
        found += difference("the next", started.exchange(CLOSING), LAST)
        return found + silent(started, b"dss: stream: fault 1 Read\n")


def pipelined():
    """A hundred requests that are sent at once on each of ten connections get responses, and the last one closes its
    connection."""
    found = []
    with Service(count=10) as started:
        for at in range(1, 11):
            got = started.exchange(ASKED * 100, ends=False)
            found += difference(f"connection {at}", got, ANSWER * 99 + LAST)
        return found + silent(started)


def last_answer():
    """Bytes that a client sends after the request that closes its connection, or breaks a protocol rule, do not remove
    its response."""
    too_large = wire.request("GET", f"{wire.AVAILABILITY}/uss-b", "Bearer tok-a", fields=["Content-Length: 1048577"])
    refused = wire.answer(413, wire.compact({"message": "H5 BODYSIZE"}), closes=True)
    more = b"x" * 300_000
    with Service(count=2) as started:
        found = difference("after a close", started.exchange(CLOSING + more), LAST)
        found += difference("after a rule of the wire", started.exchange(too_large + more), refused)
        return found + silent(started)


def clock_that_fails():
    """If reading the clock fails, the connection ends before the request is answered. A broken protocol rule is
    answered without the clock. The next connection is served."""
    broken, refused = b"GET / HTTP/2\r\n", wire.answer(400, wire.compact({"message": "H1 HEAD"}), closes=True)
    with Room() as room:
        fails = pathlib.Path(room.folder.name, "fails")
        more = {"LD_PRELOAD": room.library, "CLOCK_FAILS_WHILE": str(fails)}
        with Service(count=4, more=more) as started:
            fails.touch()
            found = difference("a request", started.exchange(ASKED + CLOSING), b"")
            found += difference("a rule of the wire", started.exchange(broken), refused)
            fails.unlink()
            found += difference("the next connection", started.exchange(CLOSING), LAST)
            with started.connect() as connection:
                connection.sendall(ASKED)
                got = b""
                while len(got) < len(ANSWER) and (more := connection.recv(65_536)):
                    got += more
                fails.touch()
                connection.sendall(CLOSING)
                while more := connection.recv(65_536):
                    got += more
            found += difference("the second request", got, ANSWER)
            return found + silent(started, CLOCK * 2)


def second_service():
    """A second program on the port exits with its fault, and the first continues."""
    with Service(count=1) as started, tempfile.TemporaryDirectory() as room:
        pathlib.Path(room, "tokens.toml").write_text(wire.token_file())
        found = difference("the second", run(words(room, started.port, 1)), (1, b"", SOCKET))
        return found + difference("the first", started.exchange(CLOSING), LAST) + silent(started)


def faults_in_order():
    """Tokens are checked first, then the database, and then the port."""
    found = []
    with tempfile.TemporaryDirectory() as room, socket.socket() as taken:
        taken.bind(("127.0.0.1", 0))
        taken.listen()
        port = taken.getsockname()[1]
        database = pathlib.Path(room, "dss.db")
        database.write_bytes(b"no database" * 100)
        found += difference("no tokens", run(words(room, port, 1)), (1, b"", b"dss: tokens: cannot read\n"))
        pathlib.Path(room, "tokens.toml").write_text(wire.token_file())
        found += difference("no database", run(words(room, port, 1)), (1, b"", b"dss: db: fault 3 Store\n"))
        database.unlink()
        found += difference("no port", run(words(room, port, 1)), (1, b"", SOCKET))
    return found


def through_itself():
    """`self` gives the output of `run` for the first step of each worked example, unless it has too many bytes."""
    found = []
    for example in json.loads((TOP / "tests" / "data" / "worked_examples.json").read_text()):
        step = example["steps"][0]
        asked = [BUILT, "self", "--tokens", "examples/tokens.toml", "--now", str(example["now"]), "-"]
        request, answer = step["request"].encode("latin-1"), step["answer"].encode("latin-1")
        wanted = (0, answer, b"") if len(request) <= MAX_BYTES else (1, b"", TOO_LONG)
        found += difference(example["name"], run(asked, request), wanted)
    return found


def through_itself_within_limits():
    """`self` takes at most 16,384 bytes, and returns at most as many."""
    asked = [BUILT, "self", "--tokens", "examples/tokens.toml", "--now", "1000"]
    short = wire.request("GET", f"{wire.AVAILABILITY}/uss-b", "Bearer tok-a", b"", ["Connection: close"])
    room = MAX_BYTES - len(short) - len("16000") + 1
    greatest = wire.request("GET", f"{wire.AVAILABILITY}/uss-b", "Bearer tok-a", b" " * room, ["Connection: close"])
    found = [] if len(greatest) == MAX_BYTES else [f"the request has {len(greatest)} bytes"]
    name = "u" * 64
    reading = wire.compact({"status": {"availability": "Unknown", "uss": name}, "version": ""})
    many = wire.request("GET", f"{wire.AVAILABILITY}/{name}", "Bearer tok-a")
    fits = MAX_BYTES // len(wire.answer(200, reading))
    with tempfile.TemporaryDirectory() as room:
        file = pathlib.Path(room, "requests")
        for name, sent, wanted in (
            ("16,384 bytes", greatest, (0, LAST, b"")),
            ("16,385 bytes", greatest + b" ", (1, b"", TOO_LONG)),
            ("an answer that fits", many * fits, (0, wire.answer(200, reading) * fits, b"")),
            ("a longer answer", many * (fits + 1), (1, b"", b"dss: self: answer too long\n")),
            ("nothing", b"", (0, b"", b"")),
        ):
            found += difference(f"{name}, from standard input", run([*asked, "-"], sent), wanted)
            file.write_bytes(sent)
            found += difference(f"{name}, from a file", run([*asked, str(file)]), wanted)
        for missing in f"{room}/none", room:
            found += difference(missing, run([*asked, missing]), (1, b"", b"dss: requests: cannot read\n"))
    nowhere = [BUILT, "self", "--tokens", "none", "--now", "1000", "none"]
    return found + difference("no tokens", run(nowhere), (1, b"", b"dss: tokens: cannot read\n"))


CASES = {
    "serve-one-connection": one_connection,
    "serve-one-after-the-other": one_after_the_other,
    "serve-broken-clients": broken_clients,
    "serve-pipelined": pipelined,
    "serve-last-response": last_answer,
    "serve-clock-that-fails": clock_that_fails,
    "serve-second-on-the-port": second_service,
    "serve-faults-in-order": faults_in_order,
    "self-worked-examples": through_itself,
    "self-limits": through_itself_within_limits,
}
