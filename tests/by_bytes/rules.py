"""What each rule denies and permits, one request a row, as in the tables of docs/POLICY.md.

A row begins on an empty airspace with requests that succeed, and ends with the one whose whole response is compared.
P15 has no row: no stream of a hundred requests reaches the maximum serial or version. Forms (P5) are in bodies.py,
changes of state (P12) in meanings.py, rows on subscriptions in subscriptions.py."""
import subscriptions
import wire
from connections import ask, volume
from plain_policy import RULES
from program import first_difference, serve
from wire import CONSTRAINTS, INTENTS, SUBSCRIPTIONS

NOW = 1000
URL = "https://a.example"
NO_SUBSCRIPTION = "00000000-0000-4000-8000-000000000000"
# Those of the worked examples, and two more.
TOKENS = {
    **wire.TOKENS,
    "tok-d": ("uss-d", {wire.MANAGEMENT}),
    "tok-p": ("uss-p", {wire.PROCESSING}),
}

HIGH = volume(altitudes=(1201, 2000))
ENDED, ENDS = volume(times=(900, 1000)), volume(times=(900, 1001))
# The four cells of level 7 in one of level 6, which cover 4,096 each, and one of level 13.
QUARTERS, ONE = ("89c24", "89c2c", "89c34", "89c3c"), ("89c25904",)


def id_of(end):
    return f"00000000-0000-4000-8000-0000000000{end}"


def target(path, end, over=None):
    """Returns the path of an entity, with the OVN of a serial, or another text, if one is given."""
    word = wire.ovn(over) if isinstance(over, int) else over
    return f"{path}/{id_of(end)}" + (f"/{word}" if word else "")


# ---- requests


def intent(end, token, state="Accepted", key=(), volumes=(volume(),), over=None):
    """Returns a put of an intent, with the OVNs of some serials as its key."""
    members = {"extents": volumes, "key": [wire.ovn(it) for it in key], "state": state, "uss_base_url": URL}
    return ask("PUT", target(INTENTS, end, over), token, wire.compact(members))


def constraint(end, token, volumes=(volume(),), over=None):
    return ask("PUT", target(CONSTRAINTS, end, over), token, wire.compact({"extents": volumes, "uss_base_url": URL}))


def reading(path, end, token):
    return ask("GET", target(path, end), token)


def removal(path, end, token, over):
    return ask("DELETE", target(path, end, over), token)


def query(path, token, cells=ONE):
    return ask("POST", f"{path}/query", token, wire.compact({"area_of_interest": {"cells": cells}}))


def setting(uss, availability, old=""):
    members = {"availability": availability, "old_version": old}
    return ask("PUT", f"{wire.AVAILABILITY}/{uss}", "tok-v", wire.compact(members))


# ---- responses


def seen(end, manager, serial=None, state="Accepted", version=1, times=(900, 2000), availability="Unknown", url=URL):
    """Returns an intent in a response, with the OVN of a serial if the reader is its manager; a constraint if it has no
    state."""
    told = {"id": id_of(end), "manager": manager, "time_start": times[0], "time_end": times[1], "version": version}
    told |= {"uss_availability": availability, "uss_base_url": url}
    told |= {"ovn": wire.ovn(serial)} if serial else {}
    return told | ({"state": state, "subscription_id": NO_SUBSCRIPTION} if state else {})


def kind_of(reference):
    return "operational_intent" if "state" in reference else "constraint"


def done(status, value):
    return wire.answer(status, wire.compact(value))


def put(reference, status=201, told=()):
    """Returns the response to a change, which notifies subscriptions of one address: the ends of their ids, and their
    indexes."""
    states = [{"notification_index": index, "subscription_id": id_of(end)} for end, index in told]
    subscribers = [{"subscriptions": states, "uss_base_url": URL}] if told else []
    return done(status, {f"{kind_of(reference)}_reference": reference, "subscribers": subscribers})


def found(reference):
    return done(200, {f"{kind_of(reference)}_reference": reference})


def listed(*references):
    return done(200, {f"{kind_of(references[0])}_references": references})


def denied(number):
    status, name = RULES[number]
    return done(status, {"message": f"P{number} {name}"})


def missing(*references):
    lists = {"missing_operational_intents": [], "missing_constraints": []}
    for it in references:
        lists[f"missing_{kind_of(it)}s"].append(it)
    return done(409, {"message": "P14 KEY", **lists})


# ---- rows: the name, the requests that succeed, the last one, and its response

A1 = intent("a1", "tok-a")
B1_ABOVE = intent("b1", "tok-b", volumes=(HIGH,))
C1 = constraint("c1", "tok-c")
SEEN_A1 = seen("a1", "uss-a")

AREAS = (
    ("P6: an intent of 16,384", (), intent("a1", "tok-a", volumes=(volume(QUARTERS),)), put(seen("a1", "uss-a", 1))),
    (
        "P6: 16,384 in two volumes",
        (),
        intent("a1", "tok-a", volumes=(volume(QUARTERS[:3]), volume(QUARTERS[3:]))),
        put(seen("a1", "uss-a", 1)),
    ),
    (
        "P6: a cell that stands twice counts twice",
        (),
        intent("a1", "tok-a", volumes=(volume(QUARTERS[:1] * 2), volume(QUARTERS[:1] * 2))),
        put(seen("a1", "uss-a", 1)),
    ),
    ("P6: an intent of 16,385", (), intent("a1", "tok-a", volumes=(volume(QUARTERS + ONE),)), denied(6)),
    ("P6: 16,385 in two volumes", (), intent("a1", "tok-a", volumes=(volume(QUARTERS), volume(ONE))), denied(6)),
    (
        "P6: 16,385 with a cell in itself",
        (),
        intent("a1", "tok-a", volumes=(volume(QUARTERS[:1] * 4), volume(ONE))),
        denied(6),
    ),
    (
        "P6: a constraint of 16,384",
        (),
        constraint("c1", "tok-c", (volume(QUARTERS),)),
        put(seen("c1", "uss-c", 1, None)),
    ),
    ("P6: a constraint of 16,385", (), constraint("c1", "tok-c", (volume(QUARTERS + ONE),)), denied(6)),
    ("P6: a query of 16,384", (A1,), query(INTENTS, "tok-b", QUARTERS), listed(SEEN_A1)),
    ("P6: a query of 16,385", (A1,), query(INTENTS, "tok-b", QUARTERS + ONE), denied(6)),
    ("P6: a query of constraints", (), query(CONSTRAINTS, "tok-c", QUARTERS + ONE), denied(6)),
    ("P6 before P7", (), intent("a1", "tok-a", volumes=(volume(QUARTERS + ONE),), over=1), denied(6)),
    ("P6: an update of 16,385", (A1,), intent("a1", "tok-a", volumes=(volume(QUARTERS + ONE),), over=1), denied(6)),
    ("P6: an update of a constraint", (C1,), constraint("c1", "tok-c", (volume(QUARTERS + ONE),), over=1), denied(6)),
    ("P6 before P8", (A1,), intent("a1", "tok-a", volumes=(volume(QUARTERS + ONE),)), denied(6)),
)

ENTITIES = (
    ("P7: reading", (), reading(INTENTS, "a1", "tok-a"), denied(7)),
    ("P7: update", (), intent("a1", "tok-a", over=1), denied(7)),
    ("P7: deletion", (), removal(INTENTS, "a1", "tok-a", 1), denied(7)),
    ("P7: reading of another id", (A1,), reading(INTENTS, "a2", "tok-a"), denied(7)),
    ("P7: an intent is no constraint to read", (A1,), reading(CONSTRAINTS, "a1", "tok-c"), denied(7)),
    ("P7: an intent is no constraint to update", (A1,), constraint("a1", "tok-c", over=1), denied(7)),
    ("P7: an intent is no constraint to delete", (A1,), removal(CONSTRAINTS, "a1", "tok-c", 1), denied(7)),
    ("P7: a constraint is no intent to read", (C1,), reading(INTENTS, "c1", "tok-a"), denied(7)),
    ("P8: a constraint", (C1,), constraint("c1", "tok-d"), denied(8)),
    ("ids apart: a constraint of an intent's id", (A1,), constraint("a1", "tok-c"), put(seen("a1", "uss-c", 2, None))),
    (
        "ids apart: only the intent is deleted",
        (A1, constraint("a1", "tok-c"), removal(INTENTS, "a1", "tok-a", 1)),
        reading(CONSTRAINTS, "a1", "tok-c"),
        found(seen("a1", "uss-c", 2, None)),
    ),
    ("P9: update", (A1,), intent("a1", "tok-b", over=1), denied(9)),
    ("P9: deletion", (A1,), removal(INTENTS, "a1", "tok-b", 1), denied(9)),
    ("P9 before P10: deletion", (A1,), removal(INTENTS, "a1", "tok-b", "0" * 64), denied(9)),
    ("P9: update of a constraint", (C1,), constraint("c1", "tok-d", over=1), denied(9)),
    ("P9: deletion of a constraint", (C1,), removal(CONSTRAINTS, "c1", "tok-d", 1), denied(9)),
    ("P9: another token of the manager", (A1,), removal(INTENTS, "a1", "tok-as", 1), put(seen("a1", "uss-a", 1), 200)),
    ("P10: update", (A1,), intent("a1", "tok-a", over=2), denied(10)),
    (
        "P10: update over an OVN that is gone",
        (A1, intent("a1", "tok-a", over=1)),
        intent("a1", "tok-a", over=1),
        denied(10),
    ),
    ("P10: deletion", (A1,), removal(INTENTS, "a1", "tok-a", 2), denied(10)),
    ("P10: in upper case", (A1,), removal(INTENTS, "a1", "tok-a", wire.ovn(1).upper()), denied(10)),
    ("P10: the first digits", (A1,), removal(INTENTS, "a1", "tok-a", wire.ovn(1)[:63]), denied(10)),
    ("P10: update of a constraint", (C1,), constraint("c1", "tok-c", over=2), denied(10)),
    ("P10: deletion of a constraint", (C1,), removal(CONSTRAINTS, "c1", "tok-c", 2), denied(10)),
    (
        "P10: a version of another USS",
        (setting("uss-a", "Down"),),
        setting("uss-b", "Down", wire.ovn(1)),
        denied(10),
    ),
)

ROLES = (
    ("P11: Accepted", (), intent("b1", "tok-bm"), denied(11)),
    ("P11: Activated", (), intent("b1", "tok-bm", "Activated"), denied(11)),
    ("P11: Nonconforming", (), intent("a1", "tok-a", "Nonconforming"), denied(11)),
    ("P11: Contingent", (), intent("a1", "tok-a", "Contingent"), denied(11)),
    (
        "P11: Nonconforming by monitoring",
        (),
        intent("b1", "tok-bm", "Nonconforming"),
        put(seen("b1", "uss-b", 1, "Nonconforming")),
    ),
    ("P11: update", (B1_ABOVE,), intent("b1", "tok-bm", "Activated", over=1), denied(11)),
    ("P8 before P11", (A1,), intent("a1", "tok-bm"), denied(8)),
    ("P10 before P11", (A1,), intent("a1", "tok-a", "Nonconforming", over=2), denied(10)),
    ("P11 before P12", (intent("b1", "tok-bm", "Contingent"),), intent("b1", "tok-bm", over=1), denied(11)),
    (
        "P12 before P13",
        (intent("a1", "tok-as", "Contingent"),),
        intent("a1", "tok-as", volumes=(ENDED,), over=1),
        denied(12),
    ),
    ("P13: a constraint that ends now", (), constraint("c1", "tok-c", (ENDED,)), denied(13)),
    (
        "P13: a constraint that ends later",
        (),
        constraint("c1", "tok-c", (ENDS,)),
        put(seen("c1", "uss-c", 1, None, times=(900, 1001))),
    ),
    ("P13: update of a constraint", (C1,), constraint("c1", "tok-c", (ENDED,), over=1), denied(13)),
    ("P13: update of an intent", (A1,), intent("a1", "tok-a", volumes=(ENDED,), over=1), denied(13)),
    ("P13: a Nonconforming intent", (), intent("a1", "tok-as", "Nonconforming", volumes=(ENDED,)), denied(13)),
    ("P13: both volumes ended", (), intent("a1", "tok-a", volumes=(ENDED, volume(times=(0, 999)))), denied(13)),
    (
        "P13: the second volume ends later",
        (),
        intent("a1", "tok-a", volumes=(ENDED, ENDS)),
        put(seen("a1", "uss-a", 1, times=(900, 1001))),
    ),
    (
        "P13: the first volume ends later",
        (),
        intent("a1", "tok-a", volumes=(volume(times=(950, 1001)), volume(times=(0, 999)))),
        put(seen("a1", "uss-a", 1, times=(0, 1001))),
    ),
    ("P13 before P14", (A1,), intent("b1", "tok-b", volumes=(ENDED,)), denied(13)),
)

OWN_A1 = seen("a1", "uss-a", 1)
KEYS = (
    ("P14: Activated", (A1,), intent("b1", "tok-b", "Activated"), missing(SEEN_A1)),
    (
        "P14: Activated with the key",
        (A1,),
        intent("b1", "tok-b", "Activated", (1,)),
        put(seen("b1", "uss-b", 2, "Activated")),
    ),
    ("P14: update", (A1, B1_ABOVE), intent("b1", "tok-b", over=2), missing(SEEN_A1)),
    ("P14: update to Activated", (A1, B1_ABOVE), intent("b1", "tok-b", "Activated", over=2), missing(SEEN_A1)),
    (
        "P14: update with the key",
        (A1, B1_ABOVE),
        intent("b1", "tok-b", key=(1,), over=2),
        put(seen("b1", "uss-b", 3, version=2), 200),
    ),
    (
        "P14: an update does not need itself",
        (A1,),
        intent("a1", "tok-a", over=1),
        put(seen("a1", "uss-a", 2, version=2), 200),
    ),
    ("P14: the caller's own", (A1,), intent("a2", "tok-a"), missing(OWN_A1)),
    ("P14: the caller's own in the key", (A1,), intent("a2", "tok-a", key=(1,)), put(seen("a2", "uss-a", 2))),
    (
        "P14: none for Nonconforming",
        (A1,),
        intent("b1", "tok-bm", "Nonconforming"),
        put(seen("b1", "uss-b", 2, "Nonconforming")),
    ),
    (
        "P14: none for an update to Nonconforming",
        (A1, B1_ABOVE),
        intent("b1", "tok-bm", "Nonconforming", over=2),
        put(seen("b1", "uss-b", 3, "Nonconforming", 2), 200),
    ),
    ("P14: none for a constraint", (A1,), constraint("c2", "tok-d"), put(seen("c2", "uss-d", 2, None))),
    (
        "P14: a Contingent intent is needed",
        (intent("a1", "tok-as", "Contingent"),),
        intent("b1", "tok-b"),
        missing(seen("a1", "uss-a", state="Contingent")),
    ),
    (
        "P14: a constraint of the intent's id",
        (constraint("b1", "tok-c"),),
        intent("b1", "tok-bc"),
        missing(seen("b1", "uss-c", state=None)),
    ),
    (
        "P14: a constraint of the intent's id in the key",
        (constraint("b1", "tok-c"),),
        intent("b1", "tok-bc", key=(1,)),
        put(seen("b1", "uss-b", 2)),
    ),
    (
        "P14: update among constraints",
        (C1, intent("b1", "tok-b")),
        intent("b1", "tok-bc", over=2),
        missing(seen("c1", "uss-c", state=None)),
    ),
    (
        "P14: update among constraints without their scope",
        (C1, intent("b1", "tok-b")),
        intent("b1", "tok-b", over=2),
        put(seen("b1", "uss-b", 3, version=2), 200),
    ),
    (
        "P14: all that is missing, in the order of their ids",
        (intent("b2", "tok-b"), intent("a1", "tok-a", key=(1,)), constraint("c2", "tok-d"), C1),
        intent("b1", "tok-bc"),
        missing(SEEN_A1, seen("b2", "uss-b", 1), seen("c1", "uss-c", state=None), seen("c2", "uss-d", state=None)),
    ),
    (
        "P14: some of it is in the key",
        (intent("b2", "tok-b"), intent("a1", "tok-a", key=(1,)), constraint("c2", "tok-d"), C1),
        intent("b1", "tok-bc", key=(4, 1)),
        missing(SEEN_A1, seen("c2", "uss-d", state=None)),
    ),
    ("P14: the second volume meets", (A1,), intent("b1", "tok-b", volumes=(HIGH, volume())), missing(SEEN_A1)),
    (
        "P14: what is gone is not needed",
        (A1, removal(INTENTS, "a1", "tok-a", 1)),
        intent("b1", "tok-b"),
        put(seen("b1", "uss-b", 3)),
    ),
)

DOWN = setting("uss-a", "Down")
DOWN_A1 = seen("a1", "uss-a", availability="Down")
SPARED = (
    ("P14: the manager is Down", (A1, DOWN), intent("b1", "tok-b"), put(seen("b1", "uss-b", 3))),
    (
        "P14: the manager is Down, Activated",
        (A1, DOWN),
        intent("b1", "tok-b", "Activated"),
        put(seen("b1", "uss-b", 3, "Activated")),
    ),
    (
        "P14: the manager is Down: update",
        (A1, B1_ABOVE, DOWN),
        intent("b1", "tok-b", over=2),
        put(seen("b1", "uss-b", 4, version=2), 200),
    ),
    ("P14: the manager was Down before", (DOWN, A1), intent("b1", "tok-b"), put(seen("b1", "uss-b", 3))),
    ("P14: the manager is Unknown", (A1, setting("uss-a", "Unknown")), intent("b1", "tok-b"), missing(SEEN_A1)),
    (
        "P14: the manager is Normal",
        (A1, setting("uss-a", "Normal")),
        intent("b1", "tok-b"),
        missing(seen("a1", "uss-a", availability="Normal")),
    ),
    (
        "P14: the manager is Normal again",
        (A1, DOWN, setting("uss-a", "Normal", wire.ovn(2))),
        intent("b1", "tok-b"),
        missing(seen("a1", "uss-a", availability="Normal")),
    ),
    ("P14: the caller is Down", (A1, setting("uss-b", "Down")), intent("b1", "tok-b"), missing(SEEN_A1)),
    (
        "P14: the caller's own, and the caller is Down",
        (A1, DOWN),
        intent("a2", "tok-a"),
        put(seen("a2", "uss-a", 3, availability="Down")),
    ),
    (
        "P14: the manager is Down: a Nonconforming intent",
        (intent("a1", "tok-as", "Nonconforming"), DOWN),
        intent("b1", "tok-b"),
        missing(seen("a1", "uss-a", state="Nonconforming", availability="Down")),
    ),
    (
        "P14: the manager is Down: a Contingent intent",
        (intent("a1", "tok-as", "Contingent"), DOWN),
        intent("b1", "tok-b"),
        missing(seen("a1", "uss-a", state="Contingent", availability="Down")),
    ),
    (
        "P14: the manager is Down: a constraint",
        (C1, setting("uss-c", "Down")),
        intent("b1", "tok-bc"),
        missing(seen("c1", "uss-c", state=None, availability="Down")),
    ),
    (
        "P14: one manager of two is Down",
        (intent("b2", "tok-b"), intent("a1", "tok-a", key=(1,)), DOWN),
        intent("b1", "tok-b"),
        missing(seen("b2", "uss-b", 1)),
    ),
)
VIEWS = (
    ("the manager is Down: reading", (A1, DOWN), reading(INTENTS, "a1", "tok-b"), found(DOWN_A1)),
    ("the manager is Down: query", (A1, DOWN), query(INTENTS, "tok-b"), listed(DOWN_A1)),
    (
        "the manager is Down: what is missing",
        (intent("a1", "tok-a", "Activated"), DOWN),
        intent("b1", "tok-b"),
        missing(seen("a1", "uss-a", state="Activated", availability="Down")),
    ),
    ("the manager was Down before", (DOWN,), A1, put(seen("a1", "uss-a", 2, availability="Down"))),
    (
        "the manager is Down: update",
        (A1, DOWN),
        intent("a1", "tok-a", over=1),
        put(seen("a1", "uss-a", 3, version=2, availability="Down"), 200),
    ),
    (
        "the manager is Down: deletion",
        (A1, DOWN),
        removal(INTENTS, "a1", "tok-a", 1),
        put(seen("a1", "uss-a", 1, availability="Down"), 200),
    ),
    ("another is Down", (A1, setting("uss-b", "Down")), reading(INTENTS, "a1", "tok-b"), found(SEEN_A1)),
    (
        "the manager is Normal again",
        (A1, DOWN, setting("uss-a", "Normal", wire.ovn(2))),
        reading(INTENTS, "a1", "tok-b"),
        found(seen("a1", "uss-a", availability="Normal")),
    ),
    (
        "a constraint shown to its manager",
        (C1,),
        reading(CONSTRAINTS, "c1", "tok-c"),
        found(seen("c1", "uss-c", 1, None)),
    ),
    (
        "a constraint shown to another",
        (C1,),
        reading(CONSTRAINTS, "c1", "tok-p"),
        found(seen("c1", "uss-c", state=None)),
    ),
    (
        "all that meet, in the order of their ids",
        (intent("b2", "tok-b"), B1_ABOVE, intent("a1", "tok-a", key=(1,)), C1),
        query(INTENTS, "tok-b", QUARTERS),
        listed(SEEN_A1, seen("b1", "uss-b", 2), seen("b2", "uss-b", 1)),
    ),
)


def stream(requests):
    """Returns the responses to requests on one connection."""
    status, output, error = serve(b"".join(requests), NOW, wire.token_file(TOKENS))
    answers = wire.answers_of(output)
    if status or error or b"".join(answers) != output:
        raise ValueError(f"status {status}, {len(output)} bytes, {error!r}")
    return answers


def rows():
    """The last response of each row is the expected one, and all requests before it succeed."""
    wrong = []
    of_subscriptions = subscriptions.rows(intent, constraint, seen, put, missing, denied)
    for name, first, last, wanted in AREAS + ENTITIES + ROLES + KEYS + SPARED + VIEWS + of_subscriptions:
        *before, answer = stream([*first, last])
        undone = [it for it in before if not it.startswith(b"HTTP/1.1 20")]
        wrong += [f"{name}: not done: {undone}"] if undone or len(before) != len(first) else []
        wrong += [f"{name}\n    wanted {wanted!r}\n    got    {answer!r}"] if answer != wanted else []
    return wrong


# ---- scopes

# Tokens of one scope each, and one without scopes.
HOLDERS = ("tok-a", "tok-bm", "tok-p", "tok-c", "tok-v", "tok-n")
STRATEGIC_OR_MONITORING = {"tok-a", "tok-bm"}
STRATEGIC_OR_PROCESSING = {"tok-a", "tok-p"}
UNKNOWN = done(200, {"status": {"availability": "Unknown", "uss": "uss-b"}, "version": ""})
# An operation, a malformed body if it has one, its response if it is permitted, and the tokens that permit it.
OPERATIONS = (
    ("POST", f"{INTENTS}/query", "[", denied(5), STRATEGIC_OR_MONITORING),
    ("GET", target(INTENTS, "a1"), None, denied(7), STRATEGIC_OR_MONITORING),
    ("PUT", target(INTENTS, "a1"), "[", denied(5), STRATEGIC_OR_MONITORING),
    ("PUT", target(INTENTS, "a1", 1), "[", denied(5), STRATEGIC_OR_MONITORING),
    ("DELETE", target(INTENTS, "a1", 1), None, denied(7), STRATEGIC_OR_MONITORING),
    ("POST", f"{CONSTRAINTS}/query", "[", denied(5), {"tok-p", "tok-c"}),
    ("GET", target(CONSTRAINTS, "c1"), None, denied(7), {"tok-p", "tok-c"}),
    ("PUT", target(CONSTRAINTS, "c1"), "[", denied(5), {"tok-c"}),
    ("PUT", target(CONSTRAINTS, "c1", 1), "[", denied(5), {"tok-c"}),
    ("DELETE", target(CONSTRAINTS, "c1", 1), None, denied(7), {"tok-c"}),
    ("GET", f"{wire.AVAILABILITY}/uss-b", None, UNKNOWN, {"tok-a", "tok-bm", "tok-v"}),
    ("PUT", f"{wire.AVAILABILITY}/uss-b", "[", denied(5), {"tok-v"}),
    ("POST", f"{SUBSCRIPTIONS}/query", "[", denied(5), STRATEGIC_OR_PROCESSING),
    ("GET", target(SUBSCRIPTIONS, "d1"), None, denied(7), STRATEGIC_OR_PROCESSING),
    ("PUT", target(SUBSCRIPTIONS, "d1"), "[", denied(5), STRATEGIC_OR_PROCESSING),
    ("PUT", target(SUBSCRIPTIONS, "d1", 1), "[", denied(5), STRATEGIC_OR_PROCESSING),
    ("DELETE", target(SUBSCRIPTIONS, "d1", 1), None, denied(7), STRATEGIC_OR_PROCESSING),
)


def scopes():
    """The scopes of an operation's row permit it. Each other scope, and a caller without scopes, is denied."""
    found = []
    for token in HOLDERS:
        requests = [ask(method, path, token, body) for method, path, body, _, _ in OPERATIONS]
        wanted = [answer if token in opened else denied(4) for *_, answer, opened in OPERATIONS]
        why = first_difference(wanted, stream(requests))
        found += [f"{token}: {why}"] if why else []
    return found


# ---- all limits at once

# The most that 2,048 cells cover within 16,384: a cell covers a power of 4, so that their sum is 2 modulo 3.
LEVELS = {11: 700, 12: 1278, 13: 70}
MAX_BODY = 1_048_576


def tokens_at(level, count):
    """Returns the first cells of a level on the first face."""
    shift = 60 - 2 * level
    return [format((2 * at + 1) << shift, "016x").rstrip("0") for at in range(count)]


def all_limits():
    """An intent at all limits is created, found, needed in a key, updated and deleted: 32 volumes of 64 cells, a key of
    4,096 entries of 128 bytes (the last one is another intent's OVN, if that is needed), an address of 255 bytes,
    and spaces up to the maximum body."""
    cells = [it for level, count in LEVELS.items() for it in tokens_at(level, count)]
    volumes = [volume(cells[at::32], (-100_000, 1_000_000), (at, 253_402_300_799)) for at in range(32)]
    url = "!" * 255
    entries = [format(at, "0128d") for at in range(4_096)]

    def put_limits(key, over=None):
        members = {"extents": volumes, "key": key, "state": "Accepted", "uss_base_url": url}
        return ask("PUT", target(INTENTS, "a1", over), "tok-a", wire.compact(members).ljust(MAX_BODY))

    def told(manager="uss-a", serial=None, version=1):
        return seen("a1", manager, serial, version=version, times=(0, 253_402_300_799), url=url)

    needed = [*entries[:-1], wire.ovn(2)]
    steps = (
        (put_limits(entries), put(told(serial=1))),
        (query(INTENTS, "tok-b", cells[-512:]), listed(told())),
        (intent("b1", "tok-b", volumes=(volume(cells[:1]),)), missing(told())),
        (intent("b1", "tok-b", key=(1,), volumes=(volume(cells[-1:]),)), put(seen("b1", "uss-b", 2))),
        (put_limits(entries, 1), missing(seen("b1", "uss-b"))),
        (put_limits(needed, 1), put(told(serial=3, version=2), 200)),
        (reading(INTENTS, "a1", "tok-a"), found(told(serial=3, version=2))),
        (removal(INTENTS, "a1", "tok-a", 3), put(told(serial=3, version=2), 200)),
        (query(INTENTS, "tok-a", cells[-512:]), listed(seen("b1", "uss-b"))),
    )
    assert len(cells) == 2_048 and sum(4 ** (13 - level) * count for level, count in LEVELS.items()) == 16_382
    why = first_difference([it for _, it in steps], stream([it for it, _ in steps]))
    return [why[:2000]] if why else []


CASES = {"rules-by-rows": rows, "scopes-by-rows": scopes, "all-limits": all_limits}
