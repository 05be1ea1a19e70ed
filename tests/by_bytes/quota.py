"""`serve --quota N` limits what each USS stores.

A change beyond the quota gets a fault and changes nothing. Other USSs are not affected."""
import json
import re

import wire
from program import TOP
from serving import Service

FAR = 4_000_000_000
FAULT = 500
# The cells that each entity and subscription includes.
EACH = 64


def cells(count):
    """Returns that many cells of level 13, side by side."""
    return [f"{0x89c25904 + 8 * at:08x}" for at in range(count)]


def id_of(number):
    return f"00000000-0000-4000-8000-{number:012x}"


def volume(number, count):
    """Returns a volume of that many cells, at a time of its own."""
    times = {"time_start": FAR + 100 * number, "time_end": FAR + 100 * number + 50}
    return {"cells": cells(count), "altitude_lower": 0, "altitude_upper": 10, **times}


class Asking:
    """A service with a quota, the errors found so far, and the number of changes."""

    def __init__(self, service):
        self.service, self.serial, self.found = service, 0, []

    def ask(self, name, wanted, *call):
        """Requests a change, and checks whether it was made."""
        came = self.service.exchange(wire.request(*call))
        status = int(came.split(b" ")[1])
        if status != wanted:
            self.found += [f"{name}: wanted {wanted}, got {came!r}"]
        if status == FAULT and not came.endswith(b'{"message":"fault"}'):
            self.found += [f"{name}: {came!r}"]
        if status in (200, 201):
            self.serial += 1
        if status in (200, 201) and call[0] == "PUT" and wire.ovn(self.serial).encode() not in came:
            self.found += [f"{name}: not the change {self.serial}: {came!r}"]

    def put(self, name, wanted, number, count=1, of="a", volumes=1, ovn=None):
        """Puts an intent with volumes of that many cells. An update names the OVN of the change that it follows."""
        extents = [volume(number, count) for _ in range(volumes)]
        body = {"extents": extents, "key": [], "state": "Accepted", "uss_base_url": f"https://{of}.example"}
        target = f"{wire.INTENTS}/{id_of(number)}" + (f"/{wire.ovn(ovn)}" if ovn else "")
        self.ask(name, wanted, "PUT", target, f"Bearer tok-{of}", json.dumps(body).encode())

    def delete(self, name, number, ovn, of="a"):
        self.ask(name, 200, "DELETE", f"{wire.INTENTS}/{id_of(number)}/{wire.ovn(ovn)}", f"Bearer tok-{of}")

    def subscribe(self, name, wanted, number, count=1, of="a"):
        body = {"extents": volume(number, count), "uss_base_url": f"https://{of}.example"}
        body |= {"notify_for_operational_intents": True, "notify_for_constraints": False}
        self.ask(name, wanted, "PUT", f"{wire.SUBSCRIPTIONS}/{id_of(number)}", f"Bearer tok-{of}", json.dumps(body).encode())


def counted_together():
    """Intents and subscriptions count together. Another USS has its own quota."""
    with Service(quota=2) as service:
        it = Asking(service)
        it.put("the first", 201, 1)
        it.subscribe("the second", 200, 2)
        it.put("one too many", FAULT, 3)
        it.subscribe("a subscription too many", FAULT, 4)
        it.put("another USS's", 201, 5, of="b")
        it.put("an update", 200, 1, ovn=1)
        it.delete("a removal", 1, ovn=4)
        it.put("in its place", 201, 6)
        it.put("one too many again", FAULT, 7)
        return it.found


def counted_cells():
    """Each entity includes 64 cells. The cells of all volumes count. An update that does not grow passes."""
    with Service(quota=1) as service:
        it = Asking(service)
        it.put("a cell too many", FAULT, 1, count=EACH + 1)
        it.put("too many in all", FAULT, 1, count=EACH // 2 + 1, volumes=2)
        it.put("as many as there may be", 201, 1, count=EACH // 2, volumes=2)
        it.put("an update with one more", FAULT, 1, count=EACH + 1, ovn=1)
        it.put("an update with as many", 200, 1, count=EACH, ovn=1)
        it.put("an update with fewer", 200, 1, count=1, ovn=2)
        it.put("an update with more again", 200, 1, count=EACH, ovn=3)
        return it.found


def counted_rows():
    """A cell counts each time that a volume lists it. The rows of the table in docs/OPERATE.md are true."""
    page = (TOP / "docs" / "OPERATE.md").read_text()
    rows = [tuple(map(int, re.findall(r"\d+", it))) for it in re.findall(r"(?m)^  (\|(?: \d+ \|){5})$", page)]
    found = [] if {it[-1] for it in rows} == {201, FAULT} else [f"docs/OPERATE.md: the table of cells that count has the rows {rows}"]
    for volumes, each, different, counted, status in rows:
        listed = [cells(different)[at % different] for at in range(each)]
        body = {"extents": [volume(1, 1) | {"cells": listed}] * volumes, "state": "Accepted", "key": [], "uss_base_url": "https://a.example"}
        found += [] if volumes * each == counted else [f"docs/OPERATE.md: {volumes} volumes with {each} cells each are not {counted}"]
        with Service(quota=1) as service:
            it = Asking(service)
            it.ask(f"{(volumes, each, different)}", status, "PUT", f"{wire.INTENTS}/{id_of(1)}", "Bearer tok-a", json.dumps(body).encode())
            found += it.found
    return found


def counted_at_start():
    """Rows that a start finds count: a USS above its quota may only delete, or update without growing."""
    with Service() as service:
        it = Asking(service)
        for number in (1, 2, 3):
            it.put(f"without a bound {number}", 201, number, count=2 * EACH)
        service.kill()
        service.quota = 2
        service.start()
        it.put("one more than are there", FAULT, 4)
        it.put("an update with as many cells", 200, 1, count=2 * EACH, ovn=1)
        it.put("an update with one more", FAULT, 1, count=2 * EACH + 1, ovn=4)
        it.delete("a removal", 2, ovn=2)
        it.put("one more than there may be", FAULT, 4)
        it.delete("another removal", 3, ovn=3)
        it.put("a cell too many", FAULT, 4)
        it.put("an update to fewer cells", 200, 1, count=EACH, ovn=4)
        it.put("one more", 201, 4, count=EACH)
        it.put("one too many", FAULT, 5)
        return it.found


def availabilities():
    """Availabilities do not count: a token with the scope for it can set that of any name, and no other token can."""
    with Service(quota=1) as service:
        it = Asking(service)
        body = b'{"old_version":"","availability":"Down"}'
        for number in range(3):
            target = f"{wire.AVAILABILITY}/no-supplier-{number}"
            it.ask(f"without the scope {number}", 403, "PUT", target, "Bearer tok-a", body)
            it.ask(f"with the scope {number}", 200, "PUT", target, "Bearer tok-v", body)
        it.put("an intent", 201, 1)
        it.put("one too many", FAULT, 2)
        return it.found


def unbounded():
    """Without the option nothing is rejected."""
    with Service() as service:
        it = Asking(service)
        for number in range(1, 40):
            it.put(f"{number}", 201, number, count=2 * EACH)
        return it.found


CASES = {
    "quota-counted-together": counted_together,
    "quota-counted-cells": counted_cells,
    "quota-counted-rows": counted_rows,
    "quota-counted-at-start": counted_at_start,
    "quota-without-availabilities": availabilities,
    "quota-without-the-option": unbounded,
}
