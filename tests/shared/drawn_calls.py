"""Calls that look random, the same in each run, over the contents of the plain policy.

Calls often have a flaw, so that each rule is broken some times."""
import json

import plain_policy
import wire
from plain_policy import CONSTRAINT, INTENT, NEXT_STATES, NO_SUBSCRIPTION, PATHS, STATES, SUBSCRIPTION

NOW = 5_000
SUPPLIERS = ("uss-a", "uss-b", "uss-c", "uss-v")
TOKENS = tuple(wire.TOKENS)
# Tokens whose scopes permit the changes of a kind, and those that permit its reads.
HANDLERS = {
    INTENT: ("tok-a", "tok-as", "tok-b", "tok-bm", "tok-bc"),
    CONSTRAINT: ("tok-c", "tok-d"),
    SUBSCRIPTION: ("tok-a", "tok-as", "tok-b", "tok-bc"),
}
VIEWERS = {INTENT: HANDLERS[INTENT], CONSTRAINT: ("tok-bc", "tok-c", "tok-d"), SUBSCRIPTION: HANDLERS[SUBSCRIPTION]}
KINDS = (INTENT,) * 5 + (CONSTRAINT,) * 2 + (SUBSCRIPTION,) * 4
# Another USS of constraints, in addition to those of the worked examples.
MORE = {"tok-d": ("uss-d", {wire.MANAGEMENT, wire.STRATEGIC})}
ALL_TOKENS = {**wire.TOKENS, **MORE}

WORKS = (
    ["create"] * 8 + ["update"] * 12 + ["query"] * 4 + ["read"] * 4 + ["delete"] * 5 + ["set"] * 5 + ["told"] * 2
    + ["route"] * 1 + ["method"] * 1
)
# Flaws, and how often they occur.
FLAWS = {
    "create": ["id"] * 5 + ["key"] * 4 + ["time"] * 2 + ["state"] * 3 + ["form", "scope", "cover"]
    + ["subscription"] * 2 + [None] * 13,
    "update": ["id", "manager", "manager", "ovn", "ovn", "both"] + ["state"] * 9 + ["key"] * 5 + ["time"] * 2
    + ["form", "scope", "cover"] + ["subscription"] * 2 + [None] * 11,
    "query": ["form", "scope", "cover"] + [None] * 9,
    "read": ["id", "id", "form", "scope", "nobody"] + [None] * 7,
    "delete": ["id", "manager", "ovn", "both", "form", "scope"] + ["depended"] * 8 + [None] * 10,
    "set": ["ovn", "form", "scope"] + [None] * 6,
    "told": ["form", "scope", "nobody"] + [None] * 6,
    "route": [None],
    "method": [None],
}


class Draw:
    """A linear congruential generator."""

    def __init__(self, seed):
        self.state = seed

    def below(self, count):
        self.state = (self.state * 6_364_136_223_846_793_005 + 1_442_695_040_888_963_407) % 2**64
        return (self.state >> 33) % count

    def of(self, items):
        return items[self.below(len(items))]

    def one_in(self, count):
        return self.below(count) == 0


class Drawn:
    """Draws calls over an airspace, with times around a given one."""

    def __init__(self, draw, airspace, now=NOW):
        self.draw, self.airspace, self.now = draw, airspace, now

    def call(self):
        """Returns a method, a target, the value of the Authorization field or None, and a body or None."""
        work = self.draw.of(WORKS)
        flaw = self.draw.of(FLAWS[work])
        if work == "route":
            paths = ("/dss/v1/nothing", f"{wire.INTENTS}/query/x", f"{wire.INTENTS}/", "/dss/v1/uss_availability/a/b")
            paths += (f"{wire.SUBSCRIPTIONS}/query/x", f"{wire.SUBSCRIPTIONS}/", "/dss/v1/subscription/query")
            return self.of_method("GET", self.draw.of(paths), self.draw.of(TOKENS), None)
        if work == "method":
            calls = (
                ("GET", f"{wire.INTENTS}/query"),
                ("DELETE", f"{wire.AVAILABILITY}/uss-a"),
                ("put", self.path(INTENT, 1)),
                ("GET", f"{wire.SUBSCRIPTIONS}/query"),
                ("DELETE", self.path(SUBSCRIPTION, 1)),
            )
            return self.of_method(*self.draw.of(calls), self.draw.of(TOKENS), None)
        if work in ("set", "told"):
            method, target, token, body = self.availability(work, flaw)
        else:
            kind = self.draw.of(KINDS)
            method, target, token, body = getattr(self, work)(kind, flaw)
        if flaw == "scope":
            token = self.draw.of(TOKENS)
        if flaw == "nobody":
            token = self.draw.of((None, "", "tok", "tok-asx"))
        return self.of_method(method, target, token, body)

    def of_method(self, method, target, token, body):
        schemes = ("Bearer ", "Bearer ", "Bearer ", "bearer  ", "BEARER ")
        authorization = None if token is None else self.draw.of(schemes) + token
        return method, target, authorization, body

    # ---- ids and versions

    def path(self, kind, number, *words):
        digits = f"00000000-0000-4000-8000-0000000000a{number}"
        return "/".join([PATHS[kind], digits.upper() if self.draw.one_in(8) else digits, *words])

    def kept(self, kind):
        if kind == SUBSCRIPTION:
            return [it for _, it in sorted(self.airspace.subscriptions.items())]
        return [it for (_, it) in sorted(self.airspace.entities.items()) if it.kind == kind]

    def target(self, kind, flaw):
        """Returns an existing entity. If none exists or the id is to be wrong, returns the number of one that does not
        exist."""
        kept = self.kept(kind)
        if flaw == "depended" and kind == SUBSCRIPTION:
            kept = [it for it in kept if self.airspace.dependents(it.id)] or kept
        return self.draw.of(kept) if kept and flaw != "id" else None

    def free(self, kind):
        taken = {it.id[-1] for it in self.kept(kind)}
        return [it for it in "0123456" if it not in taken]

    def old_ovn(self):
        return wire.ovn(self.draw.below(self.airspace.serial + 1))

    def ovn(self, entity, flaw):
        return self.old_ovn() if entity is None or flaw in ("ovn", "both") else wire.ovn(entity.serial)

    def manager(self, entity, kind, flaw):
        """Returns a token of the entity's manager, or of another USS."""
        of_manager = [it for it in HANDLERS[kind] if entity and ALL_TOKENS[it][0] == entity.manager]
        if flaw in ("manager", "both") or not of_manager:
            others = [it for it in HANDLERS[kind] if it not in of_manager]
            return self.draw.of(others)
        return self.draw.of(of_manager)

    # ---- entities

    def create(self, kind, flaw):
        free = self.free(kind)
        kept = self.kept(kind)
        is_new = free and (flaw != "id" or not kept)
        number = self.draw.of(free) if is_new else self.draw.of(kept).id[-1]
        token = self.draw.of(HANDLERS[kind])
        put = self.put(kind, flaw, token, None)
        return "PUT", self.path(kind, number), token, self.body(put, flaw)

    def update(self, kind, flaw):
        entity = self.target(kind, flaw)
        number = entity.id[-1] if entity else self.draw.of(self.free(kind) or "7")
        token = self.manager(entity, kind, flaw)
        put = self.put(kind, flaw, token, entity)
        return "PUT", self.path(kind, number, self.ovn(entity, flaw)), token, self.body(put, flaw)

    def delete(self, kind, flaw):
        entity = self.target(kind, flaw)
        number = entity.id[-1] if entity else self.draw.of(self.free(kind) or "7")
        word = "short" if flaw == "form" else self.ovn(entity, flaw)
        return "DELETE", self.path(kind, number, word), self.manager(entity, kind, flaw), None

    def read(self, kind, flaw):
        entity = self.target(kind, flaw)
        number = entity.id[-1] if entity else self.draw.of(self.free(kind) or "7")
        target = self.path(kind, number) + "0" * (flaw == "form") + "?more" * self.draw.one_in(8)
        # The body of a read is ignored.
        body = b"[" if self.draw.one_in(6) else None
        return "GET", target, self.draw.of(VIEWERS[kind]), body

    def query(self, kind, flaw):
        area = {"cells": self.cells(flaw)}
        for name, value in self.bounds():
            if self.draw.one_in(2):
                area[name] = None if self.draw.one_in(6) else value
        body = self.body({"area_of_interest": area}, flaw)
        return "POST", f"{PATHS[kind]}/query", self.draw.of(VIEWERS[kind]), body

    def availability(self, work, flaw):
        uss = self.draw.of(SUPPLIERS)
        target = f"{wire.AVAILABILITY}/{'u+' if flaw == 'form' and work == 'told' else ''}{uss}"
        if work == "told":
            return "GET", target, self.draw.of(("tok-a", "tok-bm", "tok-v")), None
        old = self.airspace.settings.get(uss, ("", ""))[1]
        put = {"availability": self.draw.of((*plain_policy.AVAILABILITIES, "Down"))}
        put["old_version"] = self.old_ovn() if flaw == "ovn" else old
        if not put["old_version"] and self.draw.one_in(3):
            del put["old_version"]
        return "PUT", target, "tok-v", self.body(put, flaw)

    # ---- parts of bodies

    def put(self, kind, flaw, token, entity):
        if kind == SUBSCRIPTION:
            return self.sub_put(flaw, token)
        volumes = [self.volume(flaw) for _ in range(1 + self.draw.below(3))]
        urls = ("https://a.example", "u", 'https://b.example/"x"\\y')
        put = {"extents": volumes, "uss_base_url": self.draw.of(urls)}
        if kind == INTENT:
            put["state"] = self.state(flaw, token, entity)
            put["key"] = self.key(flaw)
            if not put["key"] and self.draw.one_in(3):
                put["key"] = None
            named = self.named(flaw, token)
            if named or self.draw.one_in(8):
                put["subscription_id"] = named
        return put

    def sub_put(self, flaw, token):
        """Returns the body of a subscription's put. If the state is to be wrong, it has what the token's scopes do not
        permit."""
        scopes = ALL_TOKENS[token][1]
        put = {"extents": self.volume(flaw), "uss_base_url": self.draw.of(("https://a.example", "https://b.example"))}
        for name, scope in (("operational_intents", wire.STRATEGIC), ("constraints", wire.PROCESSING)):
            flag = self.draw.of((True, True, False, None))
            if flag is not None:
                put[f"notify_for_{name}"] = flag and (scope in scopes or flaw == "state")
        return put

    def named(self, flaw, token):
        """Returns the id of a subscription that an intent references, or nothing."""
        kept = self.kept(SUBSCRIPTION)
        own = [it.id for it in kept if it.manager == ALL_TOKENS[token][0]]
        others = [it.id for it in kept if it.id not in own] + ["00000000-0000-4000-8000-0000000000a9"]
        if flaw == "subscription":
            return self.draw.of(others)
        return self.draw.of((None, NO_SUBSCRIPTION)) if not own or self.draw.one_in(3) else self.draw.of(own)

    def state(self, flaw, token, entity):
        states = NEXT_STATES[entity.put.state] if entity and entity.kind == INTENT else STATES
        scopes = ALL_TOKENS[token][1]
        roles = [it for it in states if (wire.STRATEGIC if it in STATES[:2] else wire.MONITORING) in scopes]
        return self.draw.of(STATES) if flaw == "state" or not roles else self.draw.of(roles)

    def key(self, flaw):
        """Returns all current OVNs. If the key is to be wrong, returns some of them, old ones among them."""
        key = []
        for entity in self.airspace.entities.values():
            choice = self.draw.below(3) if flaw == "key" else 0
            key += [wire.ovn(entity.serial)] if choice == 0 else [self.old_ovn()] if choice == 1 else []
        return key

    def volume(self, flaw):
        return {"cells": self.cells(flaw), **dict(self.bounds(flaw))}

    def bounds(self, flaw=None):
        low, high = self.draw.of(((0, 500), (500, 1_000), (501, 2_000), (-100_000, 0), (501, 1_000_000)))
        start = self.now - self.draw.below(300)
        end = self.now - self.draw.below(2) if flaw == "time" else self.now + self.draw.below(900) + 1
        return (
            ("altitude_lower", low),
            ("altitude_upper", high),
            ("time_start", min(start, end)),
            ("time_end", end),
        )

    def cells(self, flaw):
        cells = []
        for _ in range(1 + self.draw.below(3)):
            cells.append(self.cell(self.draw.below(6) if flaw == "cover" else 7 + self.draw.below(24)))
        return cells + [""] * (flaw == "form" and self.draw.one_in(3))

    def cell(self, level):
        """Returns the token of a cell of that level. Its digits differ from those of others only near level 13, so that
        two cells often touch and often do not."""
        bits = format(int(self.draw.one_in(5)), "03b")
        for at in range(1, level + 1):
            bits += "11" if 11 <= at <= 15 and self.draw.one_in(4) else "00"
        token = format(int((bits + "1").ljust(64, "0"), 2), "016x").rstrip("0")
        return token.upper() if self.draw.one_in(8) else token

    def body(self, members, flaw):
        if flaw != "form":
            members = {**members, "more": [1e3]} if self.draw.one_in(6) else members
            return json.dumps(members, indent=1 if self.draw.one_in(6) else None).encode()
        whole = json.dumps(members).encode()
        name = self.draw.of(sorted(members))
        broken = (
            b"",
            whole[:-1],
            whole + b"}",
            b"[" + whole + b"]",
            json.dumps({**members, name: 7}).encode(),
            json.dumps({it: members[it] for it in members if it != name}).encode(),
            whole.replace(b'": 5', b'": 5.'),
        )
        return self.draw.of(broken)


# Bytes that can occur anywhere in a mangled body or target.
FRAGMENTS = [b'"', b"\\", b"{", b"}", b"[", b"]", b",", b":", b"0", b"-", b".", b"e", b"+", b"00", b" ", b"\t", b"\n"]
FRAGMENTS += [b"\\u0041", b"\\ud800", b"\\u0000", b"\\/", b"9" * 25, b"null", b"true", b"NaN", b"u", "é".encode()]
FRAGMENTS += ["\ufeff".encode(), b"\x00", b"\x7f", b"\x80", b"\xff"]
MARKS = "/?#%aA0.-_~\"{}+|^`'"


def mangled(draw, call):
    """Returns the call with a few letters removed, added or replaced in its body, and sometimes in its target."""
    method, target, authorization, body = call
    body = bytearray(body or b"")
    for _ in range(1 + draw.below(3) // 2 if body and draw.one_in(2) else 0):
        at = draw.below(len(body) + 1)
        beyond = at + draw.of((0, 0, 1, 1, 2, 5))
        copy = draw.below(len(body) + 1)
        body[at:beyond] = draw.of((b"", draw.of(FRAGMENTS), draw.of(FRAGMENTS), body[copy : copy + draw.below(12)]))
    if draw.one_in(8):
        at = draw.below(len(target) + 1)
        target = target[:at] + draw.of(MARKS) + target[at + draw.below(2) :]
    return method, target, authorization, bytes(body) if call[3] is not None else None


def calls_of(seed, count=wire.MAX_REQUESTS, is_mangled=False, met=None, notified=None):
    """Returns the calls of a stream, and the outcomes that the plain policy gives them. Counts in `met` the intents
    that puts meet, and in `notified` the subscriptions that changes notify."""
    draw = Draw(seed)
    airspace = plain_policy.Airspace(NOW, ALL_TOKENS)
    drawn = Drawn(draw, airspace)
    calls, outcomes = [], []
    for _ in range(count):
        call = mangled(draw, drawn.call()) if is_mangled else drawn.call()
        calls.append(call)
        outcomes.append(airspace.ask(*call))
    if met is not None:
        met.update(airspace.met)
    if notified is not None:
        notified.update(airspace.notified)
    return calls, outcomes


def stream(seed, count=wire.MAX_REQUESTS, is_mangled=False, met=None, notified=None):
    """Returns the requests of a stream, and the outcomes that the plain policy gives them, as `calls_of` does."""
    calls, outcomes = calls_of(seed, count, is_mangled, met, notified)
    return [wire.request(*it) for it in calls], outcomes


def outcomes_of(calls):
    """Returns the outcomes that the plain policy gives to these calls, over an empty airspace."""
    airspace = plain_policy.Airspace(NOW, ALL_TOKENS)
    return [airspace.ask(*it) for it in calls]


def cut_down(calls, fails, tries=60):
    """Returns some of the calls, fewer if possible, for which `fails` still holds. Drops runs of calls, long ones first."""
    size = len(calls) // 2
    while size and tries:
        at = 0
        while at < len(calls) and tries:
            fewer, tries = calls[:at] + calls[at + size :], tries - 1
            if fewer and fails(fewer):
                calls = fewer
            else:
                at += size
        size //= 2
    return calls
