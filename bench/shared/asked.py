"""The stored entities and the requests for comparing `dss serve` with the plain service (bench/compare)."""
import time

import tables
import wire
from places import NARROW, cell, wide_cell
from scene import id_of

# As many of the stored intents are alone in a cell as with 15 and with 127 others.
CROWDS = (1, 16, 128)
# The number of intents that a creation meets.
KEYS = (0, 1, 16, 128)
# Wide cells with the intents that a creation meets, one for each of KEYS. All other stored intents are in cells below
# them.
WIDE = {count: at for at, count in enumerate(KEYS, 8)}
ALTITUDES = (0, 1_000_000)
NOW = int(time.time())
TIMES = (NOW, NOW + 86_400)
URL = "https://a.example"
BEARER, OTHERS, ARBITER = "Bearer tok-a", "Bearer tok-b", "Bearer tok-v"


class Stored:
    """The rows of a database with that many intents, and their properties."""

    def __init__(self, size):
        self.rows = {"entity": [], "volume": [], "cell": []}
        self.rows["availability"] = [("uss-b", 1, wire.ovn(1))]
        # The OVNs of the intents that a creation meets, by their number.
        self.keys = {count: self.keep(count, wide_cell(wide), wide * NARROW, NARROW) for count, wide in WIDE.items()}
        # The positions of cells, by the number of their intents.
        self.places = {count: [] for count in CROWDS}
        place, share = 0, (size - self.serial()) // len(CROWDS)
        for count in reversed(CROWDS):
            for _ in range(share // count if count > 1 else size - self.serial()):
                self.keep(count, cell(place), place, 1)
                self.places[count].append(place)
                place += 1

    def serial(self):
        return len(self.rows["entity"])

    def keep(self, count, token, lo, width):
        """Stores that many intents in a cell, at all altitudes; returns their OVNs."""
        ovns = []
        for _ in range(count):
            num = self.serial() + 1
            ovns.append(wire.ovn(num))
            self.rows["entity"].append((num, 0, id_of(num), "uss-a", 0, 1, num, ovns[-1], URL))
            self.rows["volume"].append((num, 0, *ALTITUDES, *TIMES))
            self.rows["cell"].append((num, 0, 0, token, lo, lo + width - 1))
        return ovns

    def make(self, file):
        """Makes the database."""
        tables.make(file, 2, {**self.rows, "meta": [(1, 2, self.serial())]})


def request(method, target, by, body=None):
    """Returns a request in the form that clients of Go's library must send: with a field Host."""
    text = None if body is None else wire.compact(body).encode()
    return wire.request(method, target, by, text, ("Host: 127.0.0.1",))


def area(*tokens, **more):
    return {"area_of_interest": {"cells": tokens, **more}}


def query(body, by=BEARER):
    return request("POST", f"{wire.INTENTS}/query", by, body)


def put(target, token, altitudes=(0, 0), key=(), by=BEARER, **more):
    """Returns the request that puts an intent in a cell."""
    names = ("altitude_lower", "altitude_upper", "time_start", "time_end")
    volume = {"cells": [token], **dict(zip(names, (*altitudes, *TIMES)))}
    body = {"extents": [volume], "state": "Accepted", "uss_base_url": URL, "key": list(key), **more}
    return request("PUT", f"{wire.INTENTS}/{target}", by, body)


def ask(method, target, by=BEARER):
    return request(method, f"{wire.INTENTS}/{target}", by)


def availability(uss, by=BEARER):
    return request("GET", f"{wire.AVAILABILITY}/{uss}", by)


def setting(uss, **body):
    return request("PUT", f"{wire.AVAILABILITY}/{uss}", ARBITER, body)


def creation(kept, number, count):
    """Returns the creation of an intent of that number that meets that many: in a cell of its own among all NARROW
    numbers in turn."""
    place = WIDE[count] * NARROW + number * 7919 % NARROW
    return put(id_of(number), cell(place), key=kept.keys[count])


def to_compare():
    """Returns a small database, and requests to which both services must respond alike."""
    kept = Stored(600)
    # Three subscriptions to intents in one cell.
    told = ((1, "uss-a", URL), (2, "uss-b", "https://b.example"), (3, "uss-b", URL))
    place = WIDE[0] * NARROW - 1
    kept.rows["subscription"] = [
        (it, id_of(it), uss, it, wire.ovn(it), 0, url, 1, 0, *ALTITUDES, *TIMES) for it, uss, url in told
    ]
    kept.rows["subscription_cell"] = [(it, 0, cell(place), place, place) for it, _, _ in told]
    few, free, watched = cell(kept.places[16][0]), cell(place - 1), cell(place)
    new, second = id_of(1_001), id_of(1_002)
    # The OVNs of changes from the first on.
    first, next_, third, fourth, fifth = (wire.ovn(kept.serial() + it) for it in range(1, 6))
    return kept, [
        *(availability(uss, by) for uss in ("uss-b", "uss-z", "uss/z") for by in (BEARER, OTHERS, None)),
        *(query(area(cell(kept.places[count][0])), by) for count in CROWDS for by in (BEARER, OTHERS, ARBITER)),
        query(area(few[:-1] + "1", few, altitude_lower=50, time_end=NOW + 5)),
        query(area(wide_cell(0), few)),
        query(area()),
        query({}),
        put(new, few),
        put(new, few, by=OTHERS),
        setting("uss-a", availability="Down", old_version=wire.ovn(1)),
        setting("uss-a", availability="Down"),
        availability("uss-a"),
        put(new, few, by=OTHERS),
        put(new, few, by=OTHERS),
        setting("uss-a", availability="Normal", old_version=first),
        put(second, watched, key=[next_], subscription_id=id_of(2)),
        put(second, watched, key=[next_], subscription_id=id_of(1)),
        put(f"{second}/{fourth}", free, state="Activated"),
        put(f"{second}/{fourth}", free, state="Nonconforming"),
        put(f"{second}/{first}", free),
        put(id_of(1_003), free, state="Contingent"),
        put(f"{second}/{fifth}", free),
        put(f"{second}/{fifth}", watched, altitudes=(1_000_000,) * 2, state="Activated"),
        ask("GET", second),
        ask("GET", second, OTHERS),
        ask("GET", id_of(1_003)),
        ask("DELETE", f"{new}/{next_}"),
        ask("DELETE", f"{new}/{next_}", OTHERS),
        ask("DELETE", f"{second}/{fifth}"),
        ask("DELETE", f"{second}/{wire.ovn(kept.serial() + 6)}"),
        ask("PUT", "query"),
        *(creation(kept, 2_000 + count, count) for count in KEYS),
    ]
