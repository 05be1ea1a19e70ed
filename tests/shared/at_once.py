"""Clients of a service that all make a change at once, so that the changes share a batch.

It checks whether the responses, and what is stored afterwards, are those of the policy for the calls in some order."""
import copy
import math
import os
import re
import socket
import time

import plain_policy
import wire
from devices import Page, library
from plain_policy import INTENT
from program import SECONDS
from serving import Service
from without_memory import FAULT, STOPPED

CLIENTS = 16
# The service uses the machine's clock.
NOW, FAR = int(time.time()), 4_000_000_000
# A USS for each client, one that watches them all, and one that sets availabilities.
TOKENS = {f"tok-{it}": (f"uss-{it}", {wire.STRATEGIC}) for it in range(256)} | {
    "tok-w": ("uss-w", {wire.STRATEGIC}),
    "tok-v": ("uss-v", {wire.ARBITRATION}),
}
FAULTED, STOPS = wire.answer(*FAULT), wire.answer(*STOPPED)
# Seconds in which a response must arrive.
PATIENCE = SECONDS
PLACES = 0x40000000


def id_of(number):
    return f"00000000-0000-4000-8000-{number:012x}"


def volume(cell):
    return {"cells": [cell], "altitude_lower": 0, "altitude_upper": 10, "time_start": FAR, "time_end": FAR + 100}


def cell_of(number):
    """Returns the token of a cell of level 13 in the watched cell of level 6."""
    return f"{PLACES + number * 8 + 4:08x}".rstrip("0")


def watched():
    """Returns the call that makes a subscription that each change of an intent notifies."""
    body = {"extents": volume(f"{PLACES + 0x10000:08x}".rstrip("0")), "notify_for_operational_intents": True, "uss_base_url": "w"}
    return "PUT", f"{wire.SUBSCRIPTIONS}/{id_of(0xFFFF)}", "Bearer tok-w", wire.compact(body).encode()


class Changer:
    """The intent, subscription and availability of one client. Each of its changes touches one of them."""

    def __init__(self, number):
        self.number, self.id, self.bearer = number, id_of(number + 1), f"Bearer tok-{number}"
        self.intent = f"{wire.INTENTS}/{self.id}"
        self.subscription = f"{wire.SUBSCRIPTIONS}/{self.id}"
        self.setting = f"{wire.AVAILABILITY}/uss-{number}"

    def put_intent(self, airspace):
        kept = airspace.entities.get((INTENT, self.id))
        body = {"extents": [volume(cell_of(self.number))], "state": "Accepted", "uss_base_url": f"u{airspace.serial}"}
        target = f"{self.intent}/{airspace.ovn(kept)}" if kept else self.intent
        return "PUT", target, self.bearer, wire.compact(body).encode()

    def delete_intent(self, airspace):
        kept = airspace.entities.get((INTENT, self.id))
        return ("DELETE", f"{self.intent}/{airspace.ovn(kept)}", self.bearer, None) if kept else self.put_intent(airspace)

    def put_subscription(self, airspace):
        kept = airspace.subscriptions.get(self.id)
        body = {"extents": volume(cell_of(self.number)), "notify_for_operational_intents": True, "uss_base_url": f"u{airspace.serial}"}
        target = f"{self.subscription}/{airspace.ovn(kept)}" if kept else self.subscription
        return "PUT", target, self.bearer, wire.compact(body).encode()

    def set_availability(self, airspace):
        body = {"old_version": airspace.setting(f"uss-{self.number}")[1], "availability": "Normal"}
        return "PUT", self.setting, "Bearer tok-v", wire.compact(body).encode()

    def change(self, airspace, turn):
        """Returns the change of that turn, given the client's entries in the airspace."""
        works = self.put_intent, self.put_subscription, self.put_intent, self.set_availability, self.delete_intent
        return works[(self.number + turn) % len(works)](airspace)


def looked_at(call):
    """Returns the read of what a call changes or reads, by its manager."""
    _, target, token, _ = call
    return "GET", "/".join(target.split("/")[:5]), "Bearer tok-w" if token == "Bearer tok-v" else token, None


def is_change(call):
    return call[0] in ("PUT", "DELETE")


class Checked:
    """The responses to the calls of a batch, and the results of later reads of the same things.

    `wrong` is set if no order of the changes that were made explains them by the policy. Otherwise it has the
    airspace after them, and their number. A response that did not arrive is None."""

    def __init__(self, before, calls, told, found):
        self.before, self.calls, self.told, self.found = before, calls, told, found
        self.wrong, self.after, self.made, self.changes = [], before, 0, sum(map(is_change, calls))
        if len(found) != len(calls):
            self.wrong = [f"{len(found)} of {len(calls)} readings were answered"]
            return
        before_it = [before.ask(*looked_at(it)).text() for it in calls]
        self.done = [at for at, it in enumerate(calls) if is_change(it) and found[at] != before_it[at]]
        for at, it in enumerate(calls):
            if is_change(it):
                self.check_told(at)
        if not self.wrong:
            self.run(self.in_order())

    def check_told(self, at):
        """Checks that the response to a change is true: the change is done, or not made if the response is a fault."""
        answer = self.told[at]
        is_done = at in self.done
        if answer == FAULTED and is_done:
            self.wrong += [f"{self.calls[at]}: told as a fault, and made"]
        if answer not in (None, FAULTED, STOPS) and not is_done:
            self.wrong += [f"{self.calls[at]}: told {answer[:12]!r}, and not there"]

    def serial_of(self, at):
        """Returns the serial of a change that was made, by the OVN or version found; None for a deletion."""
        ovn = re.search(rb'"(?:ovn|version)":"([0-9a-f]{64})"', self.found[at])
        serials = range(self.before.serial + 1, self.before.serial + 1 + len(self.done))
        return next((it for it in serials if ovn and wire.ovn(it).encode() == ovn[1]), None)

    def in_order(self):
        """Returns the changes that were made, in the order of their serials. Deletions fill the gaps, by the indexes in
        their responses; those without a response come last."""
        known = {self.serial_of(at): at for at in self.done if self.serial_of(at)}
        index = lambda at: re.search(rb'"notification_index":(\d+),"subscription_id":"[0-]*4000-8000-00000000ffff"', self.told[at] or b"")
        others = [at for at in self.done if not self.serial_of(at)]
        others.sort(key=lambda at: int(index(at)[1]) if index(at) else math.inf)
        serials = range(self.before.serial + 1, self.before.serial + 1 + len(self.done))
        return [known[it] if it in known else others.pop(0) if others else None for it in serials]

    def run(self, order):
        """Gives the calls to the policy in that order, and compares responses and reads."""
        if None in order or len(set(order)) != len(self.done):
            self.wrong += [f"no serials of {len(self.done)} changes: {self.found!r}"]
            return
        airspace = copy.deepcopy(self.before)
        readings = [at for at, it in enumerate(self.calls) if not is_change(it) and self.told[at] not in (None, FAULTED, STOPS)]
        unexplained = [at for at in readings if airspace.ask(*self.calls[at]).text() != self.told[at]]
        for at in order:
            answer = airspace.ask(*self.calls[at]).text()
            if self.told[at] not in (None, STOPS, answer):
                self.wrong += [f"{self.calls[at]}: told {self.told[at]!r}, which should be {answer!r}"]
            unexplained = [it for it in unexplained if airspace.ask(*self.calls[it]).text() != self.told[it]]
        self.wrong += [f"{self.calls[at]}: read {self.told[at]!r}" for at in unexplained]
        for call, answer in zip(self.calls, self.found):
            wanted = airspace.ask(*looked_at(call)).text()
            self.wrong += [f"{looked_at(call)}: found {answer!r}, which should be {wanted!r}"] if answer != wanted else []
        self.after, self.made = airspace, len(self.done)

    def is_whole(self):
        """Returns whether all changes were made, or none."""
        return self.made in (0, self.changes)


class AtOnce(Service):
    """A service with a device library, and clients with persistent connections."""

    def __init__(self, device, clients=CLIENTS, tokens=TOKENS):
        super().__init__(tokens)
        self.device, self.changers, self.kept = device, [Changer(it) for it in range(clients)], []
        # A round ends after some milliseconds, so that a busy machine would make several batches of one.
        self.page, self.clock = Page(self.folder), library("slow_clock", self.folder)

    def __enter__(self):
        self.begin()
        return self

    def begin(self, more=None):
        """Starts the program with this additional environment, and connects each client."""
        self.page.set()
        self.environment = {**os.environ, **self.page.environment(f"{self.device}:{self.clock}"), **(more or {})}
        self.start()
        self.kept = [[self.connect(), wire.MAX_REQUESTS, b""] for _ in self.changers]
        # Once each has a response, the service knows them all.
        self.each_asks([("GET", f"{wire.AVAILABILITY}/uss-w", "Bearer tok-w", None)] * len(self.changers))
        self.told()

    def kill(self):
        for connection, *_ in self.kept:
            connection.close()
        super().kill()

    def each_asks(self, calls):
        for it, call in zip(self.kept, calls):
            it[1] -= 1
            it[0].sendall(wire.request(*call))

    def send_at_once(self, calls, **numbers):
        """Makes all clients' calls at once. From then on the page has these numbers."""
        self.renew()
        with self.paused():
            self.page.set(**numbers)
            self.each_asks(calls)

    def renew(self):
        """Replaces connections that are about to reach a hundred requests."""
        old = [it for it in self.kept if it[1] < 2]
        for it in old:
            it[0].close()
            it[:] = [self.connect(), wire.MAX_REQUESTS - 1, b""]
            it[0].sendall(wire.request("GET", f"{wire.AVAILABILITY}/uss-w", "Bearer tok-w"))
        for it in old:
            self.told_to(it, PATIENCE)

    def told_to(self, it, seconds):
        """Returns the next response on a connection, or None if it ends without one, or none arrives in that many
        seconds."""
        until = time.monotonic() + seconds
        while not (answers := wire.answers_of(it[2])):
            it[0].settimeout(max(until - time.monotonic(), 0.001))
            try:
                chunk = it[0].recv(1 << 16)
            except (TimeoutError, socket.timeout, ConnectionResetError):
                return None
            if not chunk:
                return None
            it[2] += chunk
        it[2] = it[2][len(answers[0]) :]
        return answers[0]

    def told(self, seconds=PATIENCE):
        """Returns the next response to each client."""
        return [self.told_to(it, seconds) for it in self.kept]

    def found(self, calls):
        """Returns the results of reads of what these calls change or read, over separate connections."""
        asked = [wire.request(*looked_at(it)) for it in calls]
        return [it for at in range(0, len(asked), wire.MAX_REQUESTS - 1) for it in self.ask(asked[at : at + wire.MAX_REQUESTS - 1])]

    def changes(self, airspace, turn):
        """Returns a change of each client."""
        return [it.change(airspace, turn) for it in self.changers]

    def mixed(self, airspace, turn):
        """Returns the same, except that the first and the last client read what others change."""
        changes = self.changes(airspace, turn)
        return [looked_at(changes[1]), *changes[1:-1], looked_at(changes[2])]

    def fill(self, turns=4):
        """Returns the airspace after the watching USS's subscription and some batches of changes; or what is wrong."""
        airspace = plain_policy.Airspace(NOW, TOKENS)
        airspace.ask(*watched())
        self.ask([wire.request(*watched())])
        for turn in range(turns):
            calls = self.changes(airspace, turn)
            self.send_at_once(calls)
            checked = Checked(airspace, calls, self.told(), self.found(calls))
            if checked.wrong or checked.made != len(calls):
                raise ValueError(f"turn {turn}: {checked.made} changes, {checked.wrong}")
            airspace = checked.after
        return airspace
