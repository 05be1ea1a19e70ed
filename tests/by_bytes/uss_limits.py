"""What one USS can use of `serve` while others wait: memory of responses, buffers for large requests, descriptors."""
import contextlib
import json
import os
import resource
import select
import socket
import time

import wire
from admin_port import HEALTH, SERVING, AdminService, said, until_counted
from large_requests import ARRAYS, COMPARED, FIRST_BYTES, OF_USS, SENT_WITHIN, WITHOUT_TOKEN, large, nested, processor_ticks
from lateness import again, exceeded
from many_clients import answers_from
from program import SECONDS
from serving import until_closed
from sockets import ANSWER, ASKED, CLOSING, LAST, difference

# Intents in one cell, of which no two meet: a response about all of them has some 130 kB.
STORED_INTENTS, FAR = 300, 4_000_000_000
# The seconds in which a client that waits gets nothing.
WAITS = 1
# Clients that read nothing. Each has a part of a response that is not sent, and together more than half a megabyte:
# the responses have different lengths, so that the buffers of the system do not end with a response everywhere.
READ_NOTHING, FEWER = 24, 7
# The seconds after which the buffers of the system are full at the latest.
FULL_WITHIN = 120
# The descriptors of a narrow service, and those that clients leave.
DESCRIPTORS, RESERVED = 64, 32
ACCEPT = b"dss: accept: no file descriptor or memory for a connection; raise LimitNOFILE\n"


def query(token, count=STORED_INTENTS):
    """Returns a query for the first `count` intents."""
    area = {"cells": ["89c2591"], "time_end": FAR + 100 * count - 60}
    return wire.request("POST", f"{wire.INTENTS}/query", f"Bearer {token}", json.dumps({"area_of_interest": area}).encode())


def stored_intents():
    """Returns requests that create the intents."""
    for at in range(STORED_INTENTS):
        volume = {"cells": ["89c25904"], "altitude_lower": 0, "altitude_upper": 10}
        volume |= {"time_start": FAR + 100 * at, "time_end": FAR + 100 * at + 50}
        body = {"extents": [volume], "key": [], "state": "Accepted", "uss_base_url": "https://a.example"}
        target = f"{wire.INTENTS}/00000000-0000-4000-8000-{at:012x}"
        yield wire.request("PUT", target, "Bearer tok-a", json.dumps(body).encode())


def waits(name, connection):
    """Returns what is wrong if a client gets bytes within a second."""
    connection.settimeout(WAITS)
    with contextlib.suppress(TimeoutError):
        return [f"{name} did not wait: {connection.recv(100)!r}"]
    connection.settimeout(SECONDS)
    return []


class Small(AdminService):
    """A service with a megabyte for unsent responses."""

    options = ("--response-memory", "1")


def budget():
    """Clients of one USS that read nothing use half of the memory for responses. Then another client of that USS waits,
    and one of another USS does not. Once those clients are gone, the first is served."""
    with Small() as started:
        puts = list(stored_intents())
        found = []
        for at in range(0, STORED_INTENTS, wire.MAX_REQUESTS):
            statuses = {it[:12] for it in started.ask(puts[at : at + wire.MAX_REQUESTS])}
            found += difference("creations", statuses, {b"HTTP/1.1 201"})
        before = started.memory()
        with contextlib.ExitStack() as stack:
            for at in range(READ_NOTHING):
                held = stack.enter_context(socket.socket())
                held.setsockopt(socket.SOL_SOCKET, socket.SO_RCVBUF, 4096)
                held.connect(("127.0.0.1", started.port))
                held.sendall(query("tok-a", STORED_INTENTS - FEWER * at) * wire.MAX_REQUESTS)
            # The buffers of the system are full after some seconds.
            for _ in range(FULL_WITHIN):
                time.sleep(1)
                waiting = stack.enter_context(started.connect())
                waiting.sendall(query("tok-a"))
                answered = waits("another client of the USS", waiting)
                if not answered:
                    break
            found += answered
            found += difference("another USS", started.exchange(CLOSING, ends=False), LAST)
            grown = started.memory() - before
            found += [] if grown <= 16_000 else [f"it grew by {grown} kB"]
            stack.callback(waiting.close)
            kept = stack.pop_all()
        kept.close()
        with started.connect() as later:
            later.sendall(query("tok-a"))
            found += difference("once they are gone", answers_from(later, 1)[:12], b"HTTP/1.1 200")
        return found


def buffers():
    """At most 8 requests over 64 KiB without a token arrive at once, and at most 32 of a USS. Others of these wait, but
    not those of another USS. Each is answered once another one is done."""
    found = []
    with AdminService() as started, contextlib.ExitStack() as stack:
        for token, most, status in ((None, WITHOUT_TOKEN, b"HTTP/1.1 401"), ("tok-a", OF_USS, b"HTTP/1.1 403")):
            sent, began = large(token), time.monotonic()
            held = [stack.enter_context(started.connect()) for _ in range(most + 1)]
            for connection in held:
                connection.sendall(sent[:FIRST_BYTES])
            name = f"requests of {token}"
            found += difference(name, until_counted(started, "dss_large_requests_waiting", "1")["dss_large_requests_waiting"], "1")
            with started.connect() as other:
                other.sendall(large("tok-v"))
                found += difference(f"beside {name}", answers_from(other, 1)[:12], b"HTTP/1.1 409")
            for at, connection in enumerate(held):
                connection.sendall(sent[FIRST_BYTES:])
                found += difference(f"{name}: {at}", answers_from(connection, 1)[:12], status)
                connection.close()
            if took := exceeded(time.monotonic() - began, SENT_WITHIN, name):
                return took
            found += difference(f"after {name}", until_counted(started, "dss_large_requests_waiting", "0")["dss_large_requests_waiting"], "0")
    return found


def unread():
    """A request without a token is denied before its body is parsed: it costs less than half of one with a token."""
    costs, found = {}, []
    with AdminService() as started:
        for token, status in (None, b"HTTP/1.1 401"), ("tok-a", b"HTTP/1.1 400"):
            sent = wire.request("POST", f"{wire.INTENTS}/query", token and f"Bearer {token}", nested(ARRAYS))
            before = processor_ticks(started.program.pid)
            for _ in range(COMPARED):
                with started.connect() as connection:
                    connection.sendall(sent)
                    found += difference(f"{token}", answers_from(connection, 1)[:12], status)
            costs[token] = processor_ticks(started.program.pid) - before
    return found + ([] if 2 * costs[None] < costs["tok-a"] else [f"processor time in ticks: {costs}"])


class Narrow(AdminService):
    """A service with few descriptors."""

    def command(self):
        return ["prlimit", f"--nofile={DESCRIPTORS}", *super().command()]


def descriptors():
    """Clients leave descriptors to the admin port and to files: the others wait, and no accept fails."""
    with Narrow() as started, contextlib.ExitStack() as stack:
        all_ = [stack.enter_context(started.connect()) for _ in range(2 * DESCRIPTORS)]
        for connection in all_:
            connection.sendall(ASKED)
        served = DESCRIPTORS - RESERVED
        found = [it for at in range(served) for it in difference(f"connection {at}", answers_from(all_[at], 1), ANSWER)]
        found += waits("one more", all_[served])
        found += difference("its health", started.asked(HEALTH), said(200, SERVING))
        # The token file is read while all descriptors of clients are in use.
        before = started.counted()
        found += difference("open", before["dss_connections_open"], f"{served}")
        tokens, anew = started.folder / "tokens.toml", started.folder / "anew"
        anew.write_text(tokens.read_text() + "\n")
        anew.replace(tokens)
        name, until = "dss_tokens_loaded_time_seconds", time.monotonic() + SECONDS
        while (after := started.counted())[name] == before[name] and time.monotonic() < until:
            time.sleep(0.1)
        found += [] if float(after[name]) > float(before[name]) else ["the token file was not loaded"]
        found += difference("failed accepts", after["dss_accept_failures_total"], "0")
        return found + difference("standard error", (started.folder / "errors").read_bytes(), started.listening)


def used_descriptors(process):
    """Returns the descriptors of a process, once they are the same for a tenth of a second."""
    used, until = None, time.monotonic() + SECONDS
    while (now := {int(it) for it in os.listdir(f"/proc/{process}/fd")}) != used and time.monotonic() < until:
        used = now
        time.sleep(0.1)
    return now


def starve(process):
    """Leaves a process the descriptors that it has now."""
    used = used_descriptors(process)
    free = min(set(range(len(used) + 1)) - used)
    _, hard = resource.prlimit(process, resource.RLIMIT_NOFILE)
    resource.prlimit(process, resource.RLIMIT_NOFILE, (free, hard))


def waiting_client(started):
    """Returns a connection that the service cannot accept, and when it was made.

    A descriptor that was open for a moment, as that of the trusted time, is free again when the client connects. Then the
    client is served, and the next one tries."""
    until = time.monotonic() + SECONDS
    while True:
        starve(started.program.pid)
        held, began = started.connect(), time.monotonic()
        held.sendall(CLOSING)
        while time.monotonic() < until:
            if ACCEPT in (started.folder / "errors").read_bytes():
                return held, began
            if select.select([held], [], [], 0.01)[0]:
                break
        else:
            return held, began
        held.close()


def failed_accepts():
    """If the system has no descriptor, the connection waits. The failed accepts are counted, and reported in one line."""
    with AdminService() as started:
        process = started.program.pid
        # The trusted time is stored soon after the start, which takes descriptors, too.
        stored, until = started.folder / "dss.db-clock", time.monotonic() + SECONDS
        while not stored.exists() and time.monotonic() < until:
            time.sleep(0.01)
        held, began = waiting_client(started)
        with held:
            time.sleep(0.5)
            waited = time.monotonic() - began
            _, hard = resource.prlimit(process, resource.RLIMIT_NOFILE)
            resource.prlimit(process, resource.RLIMIT_NOFILE, (hard, hard))
            found = difference("served later", until_closed(held), LAST)
        failures = int(started.counted()["dss_accept_failures_total"])
        # It tries ten times a second.
        found += [] if 1 <= failures <= 50 * max(1, waited) else [f"{failures} failed accepts in {waited:.1f} s"]
        return found + difference("standard error", (started.folder / "errors").read_bytes(), started.listening + ACCEPT)


CASES = {
    "serve-response-memory": budget,
    "serve-large-requests-of-one-uss": again(buffers),
    "serve-denies-before-the-body": unread,
    "serve-reserved-descriptors": descriptors,
    "serve-failed-accepts": failed_accepts,
}
