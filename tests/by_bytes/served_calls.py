"""Drawn calls over `serve` and its database get the same responses as in memory.

One service answers all of them, or one that exits, or is killed, and is started again between any two of them."""
import time

import drawn_calls
import plain_policy
import tables
import wire
from program import first_difference
from serving import Service

SEED, CONNECTIONS, STARTS = 11, 20, 240
# The service uses the machine's clock, so all drawn times are around a time far ahead of it.
AHEAD = 4_000_000_000


class Asked:
    """Drawn calls around a time far ahead of the machine's clock, and the plain policy's responses."""

    def __init__(self, seed):
        self.airspace = plain_policy.Airspace(int(time.time()), drawn_calls.ALL_TOKENS)
        self.drawn = drawn_calls.Drawn(drawn_calls.Draw(seed), self.airspace, AHEAD)

    def calls(self, count):
        """Returns that many calls, each drawn over the airspace after the one before it."""
        drawn = []
        for _ in range(count):
            drawn.append(self.drawn.call())
            self.airspace.ask(*drawn[-1])
        return drawn

    def differs(self, service, count):
        """Returns how the responses to that many calls over one connection differ from the expected ones."""
        requests, wanted = [], []
        for number in range(1, count + 1):
            call = self.drawn.call()
            requests.append(wire.request(*call))
            wanted.append(self.airspace.ask(*call).text(closes=number == wire.MAX_REQUESTS))
        why = first_difference(wanted, service.ask(requests))
        return [why] if why else []


def without_a_restart():
    """One service answers many connections, and SQLite then finds nothing wrong with the file."""
    asked, found = Asked(SEED), []
    with Service(drawn_calls.ALL_TOKENS) as service:
        for at in range(CONNECTIONS):
            found += [f"connection {at}: {it}" for it in asked.differs(service, wire.MAX_REQUESTS)]
        service.kill()
        return found + tables.wrong_in(service.folder / "dss.db")


def with_restarts():
    """The service exits, or is killed, after each call, and continues from its database when it is started again."""
    asked, found = Asked(SEED + 1), []
    with Service(drawn_calls.ALL_TOKENS) as service:
        for at in range(STARTS):
            found += [f"start {at}: {it}" for it in asked.differs(service, 1)]
            if service.count == 1:
                status, _, errors = service.ended()
                found += [] if (status, errors) == (0, service.listening) else [f"start {at}: {status}, {errors!r}"]
            service.kill()
            # The next one exits by itself, and the one after it does not.
            service.count = 1 if service.count > 1 else wire.MAX_REQUESTS
            service.start()
        service.kill()
        return found + tables.wrong_in(service.folder / "dss.db")


CASES = {"serve-drawn-calls": without_a_restart, "serve-drawn-calls-with-restarts": with_restarts}
