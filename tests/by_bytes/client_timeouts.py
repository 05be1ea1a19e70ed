"""`serve` waits for each client only within a bound, and then aborts the connection.

Meanwhile other clients do not wait."""
import concurrent.futures
import json
import socket
import time

from lateness import again, exceeded
from serving import Service, until_closed
from sockets import ANSWER, ASKED, CLOSING, LAST, difference
import wire

# Seconds that a client may take before its first request, be idle, take for a request, and take nothing of a response;
# and those that a busy machine adds.
FIRST, IDLE, SENDING, TAKING, MORE = 10, 75, 30, 30, 6
# The seconds after which a request over 64 KiB has a minimum rate, and a rate above it in bytes per second.
RATED, RATE = 5, 8_192
# Seconds in which another client gets its response.
AT_ONCE = 2
READS, WRITES = b"dss: stream: fault 1 Read\n", b"dss: stream: fault 2 Write\n"
PUT = wire.request("PUT", f"{wire.AVAILABILITY}/uss-b", "Bearer tok-v", b'{"old_version":"","availability":"Down"}')
LARGE = wire.request("PUT", f"{wire.AVAILABILITY}/uss-b", "Bearer tok-v", b'{"old_version":"none","availability":"Down","x":"%s"}' % (b"x" * 150_000))
# Responses about these take more than the buffers of both sides hold.
STORED_INTENTS, FAR = 300, 4_000_000_000


def drip(connection):
    """Sends a byte each second, until the other side has closed."""
    for byte in ASKED * 2:
        try:
            connection.sendall(bytes([byte]))
        except OSError:
            return
        time.sleep(1)


def beside(name, sent, bound, answers=b"", faults=b"", slowly=False):
    """A client that stops after some bytes gets the responses due until then. Its connection is closed within its
    bound, in seconds. Another client gets its response at once."""
    with Service(count=2) as started, concurrent.futures.ThreadPoolExecutor(1) as aside:
        began = time.monotonic()
        with started.connect() as held:
            held.sendall(sent)
            dripping = aside.submit(drip, held) if slowly else None
            found = difference(f"{name}: the one beside it", started.exchange(CLOSING, ends=False), LAST)
            found += exceeded(time.monotonic() - began, AT_ONCE, f"{name}: the one beside it")
            found += difference(f"{name}: its answers", until_closed(held), answers)
            took = time.monotonic() - began
            found += exceeded(took, bound + MORE, f"{name}: closed") + ([] if took >= bound - 1 else [f"{name}: closed after {took:.1f} s"])
            if dripping:
                dripping.result()
        return found + difference(f"{name}: the service", started.ended(), (0, b"", started.listening + faults))


def steady():
    """A large request that arrives above the minimum rate is answered."""
    with Service() as started, started.connect() as connection:
        connection.sendall(LARGE[:80_000])
        for at in range(80_000, len(LARGE), RATE):
            time.sleep(1)
            connection.sendall(LARGE[at : at + RATE])
        return difference("steady", connection.recv(12), b"HTTP/1.1 409")


def stored_intents():
    """Returns requests that create intents in one cell, of which no two meet."""
    for at in range(STORED_INTENTS):
        volume = {"cells": ["89c25904"], "altitude_lower": 0, "altitude_upper": 10}
        volume |= {"time_start": FAR + 100 * at, "time_end": FAR + 100 * at + 50}
        body = {"extents": [volume], "key": [], "state": "Accepted", "uss_base_url": "https://a.example"}
        target = f"{wire.INTENTS}/00000000-0000-4000-8000-{at:012x}"
        yield wire.request("PUT", target, "Bearer tok-a", json.dumps(body).encode())


def taking_nothing():
    """A client that requests much and reads none of it is disconnected."""
    query = wire.request("POST", f"{wire.INTENTS}/query", "Bearer tok-a", b'{"area_of_interest":{"cells":["89c2591"]}}')
    with Service() as started:
        puts = list(stored_intents())
        found = []
        for at in range(0, STORED_INTENTS, wire.MAX_REQUESTS):
            statuses = {it[:12] for it in started.ask(puts[at : at + wire.MAX_REQUESTS])}
            found += difference("creations", statuses, {b"HTTP/1.1 201"})
        with socket.socket() as held:
            held.setsockopt(socket.SOL_SOCKET, socket.SO_RCVBUF, 4096)
            held.connect(("127.0.0.1", started.port))
            began = time.monotonic()
            held.sendall(query * wire.MAX_REQUESTS)
            found += difference("the one beside it", started.exchange(CLOSING, ends=False), LAST)
            # The buffers are full after some seconds.
            started.until_told(b"\n")
            errors, took = started.folder / "errors", time.monotonic() - began
            found += [] if took >= TAKING - 1 else [f"closed after {took:.1f} s"]
            found += difference("standard error", errors.read_bytes(), started.listening + WRITES)
        return found + difference("the next", started.exchange(CLOSING, ends=False), LAST)


def impatient():
    """Clients whose connections are aborted: one that sends nothing, one that stops in a head, one that stops in a
    body, one that stays connected after a response, one that sends a byte a second, also of a large body, and one that
    reads nothing. A large body that arrives steadily is answered."""
    asked = [
        ("silent", b"", FIRST),
        ("half a head", ASKED[:40], SENDING, b"", READS),
        ("half a body", PUT[:-1], SENDING, b"", READS),
        ("kept", ASKED, IDLE, ANSWER),
        ("half a head after an answer", ASKED + ASKED[:40], SENDING, ANSWER, READS),
        ("slow", b"", SENDING, b"", READS, True),
        ("a large body that stops", LARGE[:80_000], RATED, b"", READS),
        ("a slow large body", LARGE[:80_000], RATED, b"", READS, True),
    ]
    with concurrent.futures.ThreadPoolExecutor(len(asked) + 2) as side_by_side:
        full, rated = side_by_side.submit(taking_nothing), side_by_side.submit(steady)
        found = [it for found in side_by_side.map(lambda words: beside(*words), asked) for it in found]
        return found + rated.result() + [f"taking nothing: {it}" for it in full.result()]


CASES = {"serve-clients-that-wait": again(impatient)}
