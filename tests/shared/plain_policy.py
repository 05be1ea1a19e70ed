"""The policy as a plain program, written from the rules and formats in docs/POLICY.md.

It gives the response to a request, and what is stored after it. It scans whole lists and shares no code or idea with
the built program."""
import collections
import dataclasses
import json

import wire
from wire import ARBITRATION, MANAGEMENT, MONITORING, PROCESSING, STRATEGIC

INTENT, CONSTRAINT, SUBSCRIPTION = "operational_intent", "constraint", "subscription"
PATHS = {INTENT: wire.INTENTS, CONSTRAINT: wire.CONSTRAINTS, SUBSCRIPTION: wire.SUBSCRIPTIONS}
STATES = ("Accepted", "Activated", "Nonconforming", "Contingent")
NEXT_STATES = {
    "Accepted": STATES,
    "Activated": STATES[1:],
    "Nonconforming": STATES[1:],
    "Contingent": ("Contingent",),
}
AVAILABILITIES = ("Unknown", "Normal", "Down")
NO_SUBSCRIPTION = "00000000-0000-4000-8000-000000000000"

ALTITUDES = (-100_000, 1_000_000)
TIMES = (0, 253_402_300_799)
MAX_COVERED = 16_384

RULES = {
    1: (404, "ROUTE"),
    2: (405, "METHOD"),
    3: (401, "TOKEN"),
    4: (403, "SCOPE"),
    5: (400, "FORM"),
    6: (413, "AREA"),
    7: (404, "FOUND"),
    8: (409, "FRESH"),
    9: (403, "MANAGER"),
    10: (409, "VERSION"),
    11: (403, "ROLE"),
    12: (400, "CHANGE"),
    13: (400, "ENDED"),
    16: (400, "SUBSCRIPTION"),
    17: (409, "DEPENDED"),
    14: (409, "KEY"),
}


class Malformed(Exception):
    """A path parameter or a body that does not parse."""


# ---- path parameters and bodies


def need(holds):
    if not holds:
        raise Malformed


def is_visible(text, least, most):
    return least <= len(text.encode()) <= most and all("!" <= it <= "~" for it in text)


def uss_of(word):
    need(1 <= len(word) <= 64)
    need(all(it.isascii() and (it.isalnum() or it in "-_.") for it in word))
    return word


def id_of(word):
    need(len(word) == 36)
    for at, it in enumerate(word):
        need(it == "-" if at in (8, 13, 18, 23) else it in "0123456789abcdefABCDEF")
    return word.lower()


def ovn_of(word):
    need(isinstance(word, str) and is_visible(word, 16, 128))
    return word


@dataclasses.dataclass(frozen=True)
class Fraction:
    """A number that is not stored as an integer."""

    text: str


def whole(text):
    return Fraction(text) if text == "-0" else int(text)


def fraction(text):
    need(float(text) not in (float("inf"), float("-inf")))
    return Fraction(text)


def refuse(_):
    raise Malformed


def members_of(pairs):
    """Returns the members of an object. A lone surrogate, which an escape can name, is no text."""
    json.dumps(pairs, default=str, ensure_ascii=False).encode()
    return dict(pairs)


def object_of(body):
    """Returns the members of a body. If one occurs twice, the last counts."""
    readers = {"parse_int": whole, "parse_float": fraction, "parse_constant": refuse, "object_pairs_hook": members_of}
    try:
        value = json.loads(body.decode(), **readers)
    except ValueError as error:
        raise Malformed from error
    need(isinstance(value, dict))
    return value


def number_in(members, name, limits, is_needed):
    value = members.get(name)
    if value is None and not is_needed:
        return None
    need(type(value) is int and limits[0] <= value <= limits[1])
    return value


def bounds_in(members, what, names, limits, is_needed):
    low, high = (number_in(members, f"{what}_{name}", limits, is_needed) for name in names)
    need(low is None or high is None or low <= high)
    return low, high


def cell_of(token):
    """Returns a cell: its face, and its digits below it."""
    need(isinstance(token, str) and 1 <= len(token) <= 16)
    need(all(it in "0123456789abcdefABCDEF" for it in token))
    bits = format(int(token.ljust(16, "0"), 16), "064b")
    face, digits = int(bits[:3], 2), bits[3:].rstrip("0")
    # Two bits a digit, and the bit that ends them.
    need(face <= 5 and len(digits) % 2 == 1)
    return face, tuple(digits[at : at + 2] for at in range(0, len(digits) - 1, 2))


@dataclasses.dataclass(frozen=True)
class Extent:
    cells: tuple
    altitudes: tuple
    times: tuple

    def covered(self):
        return sum(4 ** max(13 - len(digits), 0) for _, digits in self.cells)


def extent_of(value, is_volume):
    need(isinstance(value, dict))
    tokens = value.get("cells")
    need(isinstance(tokens, list) and 1 <= len(tokens) <= 512)
    cells = tuple(cell_of(it) for it in tokens)
    altitudes = bounds_in(value, "altitude", ("lower", "upper"), ALTITUDES, is_volume)
    return Extent(cells, altitudes, bounds_in(value, "time", ("start", "end"), TIMES, is_volume))


@dataclasses.dataclass(frozen=True)
class Put:
    extents: tuple
    key: tuple
    state: str
    url: str
    subscription: str = None


@dataclasses.dataclass(frozen=True)
class SubPut:
    """The body of a subscription's put: its area, and whether it is for intents and for constraints."""

    extents: tuple
    url: str
    intents: bool
    constraints: bool
    state = None


def flag_in(members, name):
    value = members.get(name)
    need(value is None or isinstance(value, bool))
    return value is True


def sub_put_of(body):
    members = object_of(body)
    url = members.get("uss_base_url")
    need(isinstance(url, str) and is_visible(url, 1, 255))
    flags = [flag_in(members, f"notify_for_{it}") for it in ("operational_intents", "constraints")]
    need(any(flags))
    return SubPut((extent_of(members.get("extents"), True),), url, *flags)


def named_in(members):
    """Returns the subscription that the put of an intent references, or None."""
    value = members.get("subscription_id")
    need(value is None or isinstance(value, str))
    return None if value is None or id_of(value) == NO_SUBSCRIPTION else id_of(value)


def put_of(kind, body):
    if kind == SUBSCRIPTION:
        return sub_put_of(body)
    members = object_of(body)
    values = members.get("extents")
    need(isinstance(values, list) and 1 <= len(values) <= 32)
    extents = tuple(extent_of(it, True) for it in values)
    need(sum(len(it.cells) for it in extents) <= 2_048)
    url = members.get("uss_base_url")
    need(isinstance(url, str) and is_visible(url, 1, 255))
    if kind == CONSTRAINT:
        return Put(extents, (), None, url)
    key = members.get("key")
    key = [] if key is None else key
    need(isinstance(key, list) and len(key) <= 4_096)
    need(members.get("state") in STATES)
    return Put(extents, tuple(ovn_of(it) for it in key), members["state"], url, named_in(members))


def setting_of(body):
    members = object_of(body)
    need(members.get("availability") in AVAILABILITIES)
    old = members.get("old_version")
    old = "" if old is None else old
    need(isinstance(old, str) and len(old.encode()) <= 128)
    return members["availability"], old


# ---- which volumes meet


def touch(cell, other):
    (face, digits), (other_face, other_digits) = cell, other
    depth = min(len(digits), len(other_digits), 13)
    return face == other_face and digits[:depth] == other_digits[:depth]


def share(range_, other):
    (low, high), (other_low, other_high) = range_, other
    return (low is None or other_high is None or low <= other_high) and (
        high is None or other_low is None or other_low <= high
    )


def meet(extent, other):
    return (
        any(touch(a, b) for a in extent.cells for b in other.cells)
        and share(extent.altitudes, other.altitudes)
        and share(extent.times, other.times)
    )


def some_meet(extents, others):
    return any(meet(a, b) for a in extents for b in others)


# ---- stored state


@dataclasses.dataclass(frozen=True)
class Entity:
    kind: str
    id: str
    manager: str
    version: int
    serial: int
    put: Put


@dataclasses.dataclass(frozen=True)
class Subscription:
    id: str
    manager: str
    serial: int
    index: int
    put: SubPut


def has_ended(kept, until):
    """Returns whether none of its volumes ends after a time."""
    return not any(it.times[1] > until for it in kept.put.extents)


# ---- requests


def route_of(target):
    """Returns the kind of entities or None, the path parameters, and the operation of each method; None if there is no
    route."""
    path = target.partition("?")[0]
    for kind, prefix in PATHS.items():
        if path.startswith(prefix + "/"):
            words = path[len(prefix) + 1 :].split("/")
            if words == ["query"]:
                return kind, words, {"POST": "query"}
            if all(words) and words[0] != "query" and len(words) <= 2:
                both = {"GET": "read", "PUT": "create"}, {"PUT": "update", "DELETE": "delete"}
                return kind, words, both[len(words) - 1]
    if path.startswith(wire.AVAILABILITY + "/"):
        words = path[len(wire.AVAILABILITY) + 1 :].split("/")
        if len(words) == 1 and words[0]:
            return None, words, {"GET": "read", "PUT": "set"}
    return None


def openers(kind, work):
    """Returns the scopes any one of which permits the operation."""
    if kind == INTENT:
        return {STRATEGIC, MONITORING}
    if kind == CONSTRAINT:
        return {PROCESSING, MANAGEMENT} if work in ("query", "read") else {MANAGEMENT}
    if kind == SUBSCRIPTION:
        return {STRATEGIC, PROCESSING}
    return {ARBITRATION, STRATEGIC, MONITORING} if work == "read" else {ARBITRATION}


def token_in(authorization):
    """Returns the bearer token in the value of an Authorization field."""
    if authorization is None:
        return None
    scheme, _, token = authorization.strip(" \t").partition(" ")
    return token.lstrip(" ") if scheme.lower() == "bearer" else None


@dataclasses.dataclass(frozen=True)
class Asked:
    """The parsed path parameters and body of a request. Each is set if the operation has it."""

    id: str = None
    ovn: str = None
    put: Put = None
    area: Extent = None
    uss: str = None
    availability: str = None
    old_version: str = None

    def extents(self):
        return self.put.extents if self.put else (self.area,) if self.area else ()

    def state(self):
        """Returns the state of an intent in a put."""
        return self.put and self.put.state


def asked_of(kind, work, words, body):
    """Parses a request with all its forms."""
    if kind is None:
        uss = uss_of(words[0])
        availability, old = setting_of(body) if work == "set" else (None, None)
        return Asked(uss=uss, availability=availability, old_version=old)
    if work == "query":
        return Asked(area=extent_of(object_of(body).get("area_of_interest"), False))
    id_ = id_of(words[0])
    need(kind != SUBSCRIPTION or id_ != NO_SUBSCRIPTION or work in ("read", "delete"))
    ovn = ovn_of(words[1]) if len(words) == 2 else None
    return Asked(id=id_, ovn=ovn, put=put_of(kind, body) if work in ("create", "update") else None)


@dataclasses.dataclass(frozen=True)
class Call:
    """A request and its caller. Parts that do not parse are None."""

    methods: dict
    kind: str
    work: str
    uss: str
    scopes: frozenset
    asked: Asked


def call_of(tokens, method, target, authorization, body):
    kind, words, methods = route_of(target) or (None, (), None)
    work = (methods or {}).get(method)
    uss, scopes = tokens.get(token_in(authorization)) or (None, None)
    try:
        asked = asked_of(kind, work, words, body) if work else None
    except Malformed:
        asked = None
    return Call(methods, kind, work, uss, scopes, asked)


# ---- the rules, each evaluated on a call that breaks none before it

# P1 ROUTE
def breaks_route(_airspace, call):
    return call.methods is None


# P2 METHOD
def breaks_method(_airspace, call):
    return call.work is None


# P3 TOKEN
def breaks_token(_airspace, call):
    return call.uss is None


# P4 SCOPE
def breaks_scope(_airspace, call):
    return not openers(call.kind, call.work) & call.scopes


# P5 FORM
def breaks_form(_airspace, call):
    return call.asked is None


# P6 AREA
def breaks_area(_airspace, call):
    return sum(it.covered() for it in call.asked.extents()) > MAX_COVERED


# P7 FOUND
def breaks_found(airspace, call):
    return call.kind is not None and call.work in ("read", "update", "delete") and airspace.found(call) is None


# P8 FRESH
def breaks_fresh(airspace, call):
    return call.work == "create" and airspace.found(call) is not None


# P9 MANAGER
def breaks_manager(airspace, call):
    works = ("read", "update", "delete") if call.kind == SUBSCRIPTION else ("update", "delete")
    return call.work in works and airspace.found(call).manager != call.uss


# P10 VERSION
def breaks_version(airspace, call):
    if call.work in ("update", "delete"):
        return airspace.ovn(airspace.found(call)) != call.asked.ovn
    return call.work == "set" and airspace.setting(call.asked.uss)[1] != call.asked.old_version


# P11 ROLE
def breaks_role(_airspace, call):
    put = call.asked.put
    if call.kind == SUBSCRIPTION and put:
        lacks = {STRATEGIC: put.intents, PROCESSING: put.constraints}
        return any(it not in call.scopes for it, is_asked in lacks.items() if is_asked)
    state = call.asked.state()
    return state is not None and (STRATEGIC if state in STATES[:2] else MONITORING) not in call.scopes


# P12 CHANGE
def breaks_change(airspace, call):
    state = call.asked.state()
    return call.work == "update" and state is not None and state not in NEXT_STATES[airspace.found(call).put.state]


# P13 ENDED
def breaks_ended(airspace, call):
    put = call.asked.put
    return put is not None and max(it.times[1] for it in put.extents) <= airspace.now


# P16 SUBSCRIPTION
def breaks_subscription(airspace, call):
    if call.kind != INTENT or call.asked.put is None or call.asked.put.subscription is None:
        return False
    named = airspace.subscriptions.get(call.asked.put.subscription)
    return named is None or named.manager != call.uss


# P17 DEPENDED
def breaks_depended(airspace, call):
    return call.kind == SUBSCRIPTION and call.work == "delete" and bool(airspace.dependents(call.asked.id))


# P14 KEY
def breaks_key(airspace, call):
    return any(airspace.missing(call).values())


BREAKS = {
    1: breaks_route,
    2: breaks_method,
    3: breaks_token,
    4: breaks_scope,
    5: breaks_form,
    6: breaks_area,
    7: breaks_found,
    8: breaks_fresh,
    9: breaks_manager,
    10: breaks_version,
    11: breaks_role,
    12: breaks_change,
    13: breaks_ended,
    16: breaks_subscription,
    17: breaks_depended,
    14: breaks_key,
}


# ---- responses


@dataclasses.dataclass
class Outcome:
    """The response to a request, and its reason: the operation that was done, or the rule that was broken."""

    status: int
    body: str
    fields: tuple
    why: object

    def text(self, closes=False):
        return wire.answer(self.status, self.body, self.fields, closes)


class Airspace:
    """The stored entities and subscriptions, and the tokens of callers."""

    def __init__(self, now, tokens=None, salt=wire.SALT):
        self.now, self.salt = now, salt
        self.tokens = wire.TOKENS if tokens is None else tokens
        self.entities, self.subscriptions, self.settings, self.serial = {}, {}, {}, 0
        # How often a put that needs a key met an intent of each state, of a manager of each availability.
        self.met = collections.Counter()
        # How often a subscription was notified of a change, and why.
        self.notified = collections.Counter()

    def ask(self, method, target, authorization=None, body=b""):
        """Answers a request, and stores what it changes."""
        call = call_of(self.tokens, method, target, authorization, body or b"")
        for rule, breaks in BREAKS.items():
            if breaks(self, call):
                return self.denial(rule, call)
        what = {None: "availability", SUBSCRIPTION: "subscription"}.get(call.kind, "entity")
        status, value = getattr(self, f"{call.work}_{what}")(call)
        return Outcome(status, wire.compact(value), (), (call.kind, call.work))

    def denial(self, rule, call):
        status, name = RULES[rule]
        value = {"message": f"P{rule} {name}"}
        if rule == 14:
            value |= {f"missing_{kind}s": all_ for kind, all_ in self.missing(call).items()}
        fields = {2: (f"Allow: {', '.join(call.methods or ())}",), 3: ("WWW-Authenticate: Bearer",)}
        return Outcome(status, wire.compact(value), fields.get(rule, ()), rule)

    # ---- stored state

    def found(self, call):
        """Returns the entity or the subscription of a call, or None."""
        if call.kind == SUBSCRIPTION:
            return self.subscriptions.get(call.asked.id)
        return self.entities.get((call.kind, call.asked.id))

    def ovn(self, entity):
        return wire.ovn(entity.serial, self.salt)

    def setting(self, uss):
        return self.settings.get(uss, ("Unknown", ""))

    def purge(self, until):
        """Purges what has ended by a time: intents and constraints, and subscriptions that no remaining intent
        references. Returns the number of each that was purged."""
        entities = {key: it for key, it in self.entities.items() if not has_ended(it, until)}
        named = {it.put.subscription for it in entities.values() if it.kind == INTENT}
        subscriptions = {id_: it for id_, it in self.subscriptions.items() if id_ in named or not has_ended(it, until)}
        gone = collections.Counter(kind for kind, _ in self.entities.keys() - entities.keys())
        gone[SUBSCRIPTION] = len(self.subscriptions) - len(subscriptions)
        self.entities, self.subscriptions = entities, subscriptions
        return gone[INTENT], gone[CONSTRAINT], gone[SUBSCRIPTION]

    def all_meeting(self, kind, extents):
        return [
            it for (_, it) in sorted(self.entities.items()) if it.kind == kind and some_meet(it.put.extents, extents)
        ]

    def is_spared(self, intent):
        """Returns whether an intent is only planned, and its USS is down."""
        return intent.put.state == "Accepted" and self.setting(intent.manager)[0] == "Down"

    def missing(self, call):
        """Returns what a put needs and its key lacks, as the caller sees it."""
        needed = {INTENT: [], CONSTRAINT: []}
        put = call.asked.put
        if call.asked.state() in STATES[:2]:
            others = [it for it in self.all_meeting(INTENT, put.extents) if it.id != call.asked.id]
            self.met.update((it.put.state, self.setting(it.manager)[0]) for it in others)
            needed[INTENT] = [it for it in others if not self.is_spared(it)]
            named = self.subscriptions.get(put.subscription)
            if named.put.constraints if named else PROCESSING in call.scopes:
                needed[CONSTRAINT] = self.all_meeting(CONSTRAINT, put.extents)
        return {
            kind: [self.view(call.uss, it) for it in all_ if self.ovn(it) not in put.key]
            for kind, all_ in needed.items()
        }

    def view(self, uss, entity):
        seen = {
            "id": entity.id,
            "manager": entity.manager,
            "time_start": min(it.times[0] for it in entity.put.extents),
            "time_end": max(it.times[1] for it in entity.put.extents),
            "uss_availability": self.setting(entity.manager)[0],
            "uss_base_url": entity.put.url,
            "version": entity.version,
        }
        if entity.manager == uss:
            seen["ovn"] = self.ovn(entity)
        if entity.kind == INTENT:
            seen |= {"state": entity.put.state, "subscription_id": entity.put.subscription or NO_SUBSCRIPTION}
        return seen

    # ---- effects

    def next(self):
        self.serial += 1
        return self.serial

    def told(self, call, old, new):
        """Returns the notified subscriptions of a change, with the new indexes: all that are for the kind and meet an
        old or a new volume."""
        told = {}
        for id_, it in sorted(self.subscriptions.items()):
            wants = it.put.intents if call.kind == INTENT else it.put.constraints
            meets = tuple(some_meet(it.put.extents, volumes) for volumes in (old, new))
            if wants and any(meets):
                self.subscriptions[id_] = dataclasses.replace(it, index=it.index + 1)
                told.setdefault(it.put.url, []).append({"notification_index": it.index + 1, "subscription_id": id_})
                both = "both" if all(meets) else "old alone" if meets[0] else "new alone"
                self.notified.update([both, "the caller's own" if it.manager == call.uss else "another's"])
        self.notified["two addresses"] += len(told) > 1
        return [{"subscriptions": told[url], "uss_base_url": url} for url in sorted(told, key=str.encode)]

    def keep(self, call, manager, version, old=()):
        told = self.told(call, old, call.asked.put.extents)
        entity = Entity(call.kind, call.asked.id, manager, version, self.next(), call.asked.put)
        self.entities[call.kind, call.asked.id] = entity
        return {f"{call.kind}_reference": self.view(call.uss, entity), "subscribers": told}

    def create_entity(self, call):
        return 201, self.keep(call, call.uss, 1)

    def update_entity(self, call):
        old = self.found(call)
        return 200, self.keep(call, old.manager, old.version + 1, old.put.extents)

    def delete_entity(self, call):
        old = self.found(call)
        seen, told = self.view(call.uss, old), self.told(call, old.put.extents, ())
        del self.entities[call.kind, call.asked.id]
        self.next()
        return 200, {f"{call.kind}_reference": seen, "subscribers": told}

    def read_entity(self, call):
        return 200, {f"{call.kind}_reference": self.view(call.uss, self.found(call))}

    def query_entity(self, call):
        return 200, {
            f"{call.kind}_references": [self.view(call.uss, it) for it in self.all_meeting(call.kind, [call.asked.area])]
        }

    def read_availability(self, call):
        availability, version = self.setting(call.asked.uss)
        return 200, {"status": {"availability": availability, "uss": call.asked.uss}, "version": version}

    def set_availability(self, call):
        self.settings[call.asked.uss] = call.asked.availability, wire.ovn(self.next(), self.salt)
        return self.read_availability(call)

    # ---- subscriptions

    def dependents(self, id_):
        """Returns the ids of the intents that reference a subscription."""
        return [it.id for (_, it) in sorted(self.entities.items()) if it.put.subscription == id_]

    def sub_view(self, kept):
        start, end = kept.put.extents[0].times
        return {
            "dependent_operational_intents": self.dependents(kept.id),
            "id": kept.id,
            "implicit_subscription": False,
            "notification_index": kept.index,
            "notify_for_constraints": kept.put.constraints,
            "notify_for_operational_intents": kept.put.intents,
            "time_end": end,
            "time_start": start,
            "uss_base_url": kept.put.url,
            "version": self.ovn(kept),
        }

    def store_subscription(self, call, manager, index):
        put = call.asked.put
        kept = Subscription(call.asked.id, manager, self.next(), index, put)
        self.subscriptions[kept.id] = kept
        value = {"subscription": self.sub_view(kept)}
        for kind, is_asked in ((INTENT, put.intents), (CONSTRAINT, put.constraints)):
            meeting = self.all_meeting(kind, put.extents) if is_asked else []
            value[f"{kind}_references"] = [self.view(call.uss, it) for it in meeting]
        return 200, value

    def create_subscription(self, call):
        return self.store_subscription(call, call.uss, 0)

    def update_subscription(self, call):
        old = self.found(call)
        return self.store_subscription(call, old.manager, old.index)

    def delete_subscription(self, call):
        seen = self.sub_view(self.found(call))
        del self.subscriptions[call.asked.id]
        self.next()
        return 200, {"subscription": seen}

    def read_subscription(self, call):
        return 200, {"subscription": self.sub_view(self.found(call))}

    def query_subscription(self, call):
        kept = [it for (_, it) in sorted(self.subscriptions.items()) if it.manager == call.uss]
        return 200, {"subscriptions": [self.sub_view(it) for it in kept if some_meet(it.put.extents, [call.asked.area])]}
