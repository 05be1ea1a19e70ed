"""Compares the metrics of `serve` with what its clients saw.

These are requests by operation, status and rule, their durations, and whether the database stores changes. They are
on the admin port and on standard error."""
import collections
import errno
import re
import time

import yaml

import drawn_calls
import plain_policy
import wire
from devices import SIZES, WRITES, Page, library
from openapi import DOCUMENT, METHODS
from admin_port import FAILING, HEALTH, METRICS, PUT, SERVING, AdminService, said
from served_calls import Asked
from sockets import ASKED, difference
from verbose import Verbose, limits
from without_memory import FAULT

FAILS = b"dss: store: commit failed; changes are answered with 500 until a commit succeeds\n"
WORKS = "dss: store: commits succeed again after {} failures\n"
STILL = "dss: store: commits still fail: {} more failures\n"
# The upper bounds of a duration's buckets, as they are written.
BOUNDS = ("0.0005", "0.001", "0.0025", "0.005", "0.01", "0.025", "0.05", "0.1", "0.25", "0.5", "1", "2.5", "+Inf")
RULES = [f"H{it}" for it in range(1, 6)] + [f"P{it}" for it in range(1, 18)]
# Connections of a hundred drawn calls each, whose times are far ahead, and the rules that none of them breaks.
SEED, CONNECTIONS, UNBROKEN = 5, 12, {"P13", "P15"}
# For each protocol rule a connection that breaks it.
BROKEN = {
    "H1": b"no request\r\n\r\n",
    "H2": b"GET / HTTP/1.1\r\n" + b"A: a\r\n" * 65 + b"\r\n",
    "H3": b"PUT / HTTP/1.1\r\nTransfer-Encoding: chunked\r\n\r\n",
    "H4": b"PUT / HTTP/1.1\r\nContent-Length: 1\r\nContent-Length: 2\r\n\r\n",
    "H5": b"PUT / HTTP/1.1\r\nContent-Length: 1048577\r\n\r\n",
}
MINUTE = 60
# The outcomes of statuses that neither succeed nor deny.
OUTCOMES = {"500": "failed", "503": "stopped"}


# ---- requests


def snake(word):
    return re.sub(r"[A-Z]", lambda it: f"_{it[0].lower()}", word)


def operations():
    """Returns the operation name of each path and method in the OpenAPI document."""
    paths = yaml.safe_load(DOCUMENT.read_text())["paths"]
    return [
        (method.upper(), re.compile(re.sub(r"\{\w+\}", "(?!query$)[^/]+", path)), snake(what["operationId"]))
        for path, item in paths.items() for method, what in item.items() if method in METHODS
    ]


def asked_by(call, known=tuple(operations())):
    """Returns the name of the operation that a call requests."""
    method, target, *_ = call
    return next((name for its_method, path, name in known if method == its_method and path.fullmatch(target)), "none")


class Seen:
    """Counts what clients saw: responses by operation and status, by rule, and their bytes."""

    def __init__(self):
        self.answered, self.denied, self.size = collections.Counter(), collections.Counter(), 0
        self.suppliers = collections.Counter()

    def see(self, operation, answer, supplier=None):
        status = answer[9:12].decode()
        self.answered[operation, status] += 1
        if supplier is not None:
            self.suppliers[supplier, "done" if status.startswith("2") else OUTCOMES.get(status, "denied")] += 1
        self.denied.update(re.findall(r'"message":"([HP]\d+) ', answer.decode()))
        self.size += len(answer)

    def differs(self, counted):
        """Returns how the metrics differ."""
        requests = {f'dss_requests_total{{operation="{name}",status="{status}"}}': f"{it}" for (name, status), it in self.answered.items()}
        rules = {f'dss_requests_denied_total{{rule="{it}"}}': f"{self.denied[it]}" for it in RULES}
        suppliers = {f'dss_uss_requests_total{{uss="{uss}",outcome="{it}"}}': f"{count}" for (uss, it), count in self.suppliers.items()}
        found = difference("bytes", counted["dss_response_bytes_total"], f"{self.size}")
        for name, wanted in ("dss_requests_total", requests), ("dss_requests_denied_total", rules), ("dss_uss_requests_total", suppliers):
            found += difference(name, {key: it for key, it in counted.items() if key.startswith(f"{name}{{")}, wanted)
        return found + self.took(counted)

    def took(self, counted):
        """Returns what is wrong with the durations of each operation: their number is that of the responses, the
        buckets rise to it, and the sum is within the bounds."""
        found, of_each = [], collections.Counter()
        for (name, _), count in self.answered.items():
            of_each[name] += count
        base = "dss_request_duration_seconds"
        told = {it for key in counted for it in re.findall(rf'^{base}_\w+\{{operation="(\w+)"', key)}
        found += difference("operations that took long", told, set(of_each))
        for name, count in of_each.items():
            buckets = [int(counted.get(f'{base}_bucket{{operation="{name}",le="{it}"}}', -1)) for it in BOUNDS]
            found += difference(f"{name}: all", (buckets[-1], counted.get(f'{base}_count{{operation="{name}"}}')), (count, f"{count}"))
            found += difference(f"{name}: rising", buckets, sorted(buckets))
            total = float(counted[f'{base}_sum{{operation="{name}"}}'])
            between = [after - before for before, after in zip([0, *buckets], buckets)]
            least = sum(it * float(bound) for it, bound in zip(between[1:], BOUNDS))
            most = sum(it * float(bound) for it, bound in zip(between, BOUNDS) if it)
            found += [] if least - 1e-3 <= total <= most + 1e-3 else [f"{name}: {total} is the sum of {buckets}"]
        return found


def drawn():
    """The metrics count drawn calls and requests that break protocol rules as they were answered. Every rule but P13
    and P15 is broken. Requests to the admin port are not counted."""
    asked, seen = Asked(SEED), Seen()
    with AdminService(drawn_calls.ALL_TOKENS) as started:
        for _ in range(CONNECTIONS):
            calls = asked.calls(wire.MAX_REQUESTS)
            answers = started.ask([wire.request(*it) for it in calls])
            for call, answer in zip(calls, answers, strict=True):
                seen.see(asked_by(call), answer, plain_policy.call_of(drawn_calls.ALL_TOKENS, *call[:3], call[3] or b"").uss)
        for sent in BROKEN.values():
            seen.see("none", started.exchange(sent, ends=False))
        for sent in HEALTH, METRICS:
            started.asked(sent)
        found = seen.differs(started.counted())
    unbroken = {it for it in RULES if not seen.denied[it]}
    return found + difference("rules that none broke", unbroken, UNBROKEN)


# ---- the database fails to store changes


class Full(AdminService):
    """The same over a disk that a test fills and empties while it runs."""

    def __init__(self):
        super().__init__()
        self.page = Page(self.folder)
        self.environment |= self.page.environment(library("fail_files", self.folder))

    def fill(self):
        self.page.set(at=1, row=1_000_000, error=errno.ENOSPC, kinds=WRITES | SIZES)

    def empty(self):
        self.page.set()

    def told(self):
        """Returns the lines on standard error since it listened."""
        return (self.folder / "errors").read_bytes().removeprefix(self.listening)

    def change(self):
        """Returns the response to a change of an availability whose first version is known."""
        return self.exchange(PUT.replace(b"\r\n\r\n", b"\r\nConnection: close\r\n\r\n"), ends=False)


class FullAndVerbose(Full):
    """The same with --verbose."""

    options = ("--verbose",)
    preface = Verbose.preface.replace(limits("1 connections").encode(), limits("1000000 connections").encode())


FAULTED = wire.answer(*FAULT, closes=True)


def states(started):
    """Returns its health, and the number of faults of the database."""
    return started.asked(HEALTH), started.counted()["dss_store_failures_total"]


def full_disk():
    """While the disk is full, changes get faults, the service is failing, and reads get responses. Once a change is
    stored, it is serving. Standard error has its lines with --verbose, and none without."""
    found = []
    for kind, lines in (Full, b""), (FullAndVerbose, FAILS + WORKS.format(3).encode()):
        with kind() as started:
            found += difference("before", states(started), (said(200, SERVING), "0"))
            started.fill()
            for number in range(1, 4):
                found += difference(f"change {number}", started.change(), FAULTED)
                found += difference(f"after {number}", states(started), (said(503, FAILING), f"{number}"))
                found += difference("a reading", started.ask([ASKED])[0][:12], b"HTTP/1.1 200")
            found += difference("a denial", started.ask([wire.request("GET", wire.AVAILABILITY, None)])[0][:12], b"HTTP/1.1 404")
            found += difference("after a denial", states(started), (said(503, FAILING), "3"))
            started.empty()
            found += difference("room again", states(started), (said(503, FAILING), "3"))
            found += difference("a change", started.change()[:12], b"HTTP/1.1 200")
            found += difference("after it", states(started), (said(200, SERVING), "3"))
            found += difference("lines", started.told(), lines)
    return found


def still_failing():
    """A disk that stays full is reported once a minute."""
    with FullAndVerbose() as started:
        started.fill()
        found = difference("changes", {started.change() for _ in range(5)}, {FAULTED})
        found += difference("at once", started.told(), FAILS)
        time.sleep(MINUTE)
        found += difference("a change more", started.change(), FAULTED)
        return found + difference("after a minute", started.told(), FAILS + STILL.format(5).encode())


CASES = {
    "metrics-of-drawn-calls": drawn,
    "metrics-of-a-full-disk": full_disk,
    "metrics-of-a-disk-that-stays-full": still_failing,
}
