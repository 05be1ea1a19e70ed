"""Rows of rules.py about subscriptions and the intents that reference one."""
import wire
from connections import ask, volume
from wire import INTENTS, SUBSCRIPTIONS

URL = "https://a.example"
ENDED, ENDS, HIGH = volume(times=(900, 1000)), volume(times=(900, 1001)), volume(altitudes=(1201, 2000))
# The four cells of level 7 in one of level 6, which cover 4,096 each, and one of level 13.
QUARTERS, ONE = ("89c24", "89c2c", "89c34", "89c3c"), ("89c25904",)
STATES = ("Accepted", "Activated", "Nonconforming", "Contingent")


def id_of(end):
    return f"00000000-0000-4000-8000-0000000000{end}"


def subscription(end, token, intents=True, constraints=False, over=None, extents=volume()):
    """Returns a put of a subscription, over the version of a serial if one is given."""
    flags = {"notify_for_operational_intents": intents, "notify_for_constraints": constraints}
    path = f"{SUBSCRIPTIONS}/{id_of(end)}" + (f"/{wire.ovn(over)}" if over else "")
    return ask("PUT", path, token, wire.compact({"extents": extents, "uss_base_url": URL, **flags}))


def naming(end, token, named, state="Accepted", key=(), over=None, extents=volume()):
    """Returns a put of an intent that references a subscription."""
    members = {"extents": [extents], "key": [wire.ovn(it) for it in key], "state": state, "uss_base_url": URL}
    path = f"{INTENTS}/{id_of(end)}" + (f"/{wire.ovn(over)}" if over else "")
    return ask("PUT", path, token, wire.compact({**members, "subscription_id": id_of(named)}))


def reading(end, token):
    return ask("GET", f"{SUBSCRIPTIONS}/{id_of(end)}", token)


def removal(end, token, over):
    word = wire.ovn(over) if isinstance(over, int) else over
    return ask("DELETE", f"{SUBSCRIPTIONS}/{id_of(end)}/{word}", token)


def deletion(end, token, over):
    return ask("DELETE", f"{INTENTS}/{id_of(end)}/{wire.ovn(over)}", token)


def query(token, cells=ONE):
    return ask("POST", f"{SUBSCRIPTIONS}/query", token, wire.compact({"area_of_interest": {"cells": cells}}))


# ---- responses


def shown(end, serial, intents=True, constraints=False, times=(900, 2000), dependents=(), index=0):
    return {
        "dependent_operational_intents": [id_of(it) for it in dependents],
        "id": id_of(end),
        "implicit_subscription": False,
        "notification_index": index,
        "notify_for_constraints": constraints,
        "notify_for_operational_intents": intents,
        "time_end": times[1],
        "time_start": times[0],
        "uss_base_url": URL,
        "version": wire.ovn(serial),
    }


def stored(one, intents=(), constraints=()):
    lists = {"constraint_references": list(constraints), "operational_intent_references": list(intents)}
    return wire.answer(200, wire.compact({**lists, "subscription": one}))


def found(one):
    return wire.answer(200, wire.compact({"subscription": one}))


def listed(*all_):
    return wire.answer(200, wire.compact({"subscriptions": list(all_)}))


# ---- rows: the name, the requests that succeed, the last one, and its response

D1 = subscription("d1", "tok-b")


def rows(intent, constraint, seen, put, missing, denied):
    """Returns the rows, given the functions of rules.py for requests and responses about entities."""
    a1, c1 = intent("a1", "tok-a"), constraint("c1", "tok-c")
    seen_a1, seen_c1 = seen("a1", "uss-a"), seen("c1", "uss-c", state=None)

    def names(reference, named="d1"):
        return reference | {"subscription_id": id_of(named)}

    wide = volume(QUARTERS + ONE)
    entities = (
        ("P6: a subscription of 16,384", (), subscription("d1", "tok-b", extents=volume(QUARTERS)), stored(shown("d1", 1))),
        ("P6: a subscription of 16,385", (), subscription("d1", "tok-b", extents=wide), denied(6)),
        ("P6: an update of a subscription", (D1,), subscription("d1", "tok-b", over=1, extents=wide), denied(6)),
        ("P6: a query of subscriptions", (), query("tok-b", QUARTERS + ONE), denied(6)),
        ("P7: reading of a subscription", (), reading("d1", "tok-b"), denied(7)),
        ("P7: update of a subscription", (), subscription("d1", "tok-b", over=1), denied(7)),
        ("P7: deletion of a subscription", (), removal("d1", "tok-b", 1), denied(7)),
        ("P7: an intent is no subscription", (a1,), reading("a1", "tok-a"), denied(7)),
        ("P7: a subscription that is gone", (D1, removal("d1", "tok-b", 1)), reading("d1", "tok-b"), denied(7)),
        ("P8: a subscription", (D1,), D1, denied(8)),
        ("P8: another's subscription", (D1,), subscription("d1", "tok-a"), denied(8)),
        ("a subscription of an intent's id", (a1,), subscription("a1", "tok-b"), stored(shown("a1", 2), [seen_a1])),
        ("P9: reading of a subscription", (D1,), reading("d1", "tok-a"), denied(9)),
        ("P9: update of a subscription", (D1,), subscription("d1", "tok-a", over=1), denied(9)),
        ("P9: deletion of a subscription", (D1,), removal("d1", "tok-a", 1), denied(9)),
        ("P9 before P10: a subscription", (D1,), removal("d1", "tok-a", "0" * 64), denied(9)),
        ("P9: another token of the manager", (D1,), reading("d1", "tok-bc"), found(shown("d1", 1))),
        ("P10: update of a subscription", (D1,), subscription("d1", "tok-b", over=2), denied(10)),
        ("P10: deletion of a subscription", (D1,), removal("d1", "tok-b", 2), denied(10)),
        (
            "P10: a version that is gone",
            (D1, subscription("d1", "tok-b", over=1)),
            subscription("d1", "tok-b", over=1),
            denied(10),
        ),
    )
    roles = (
        ("P11: for intents without their scope", (), subscription("d1", "tok-p"), denied(11)),
        ("P11: for constraints without their scope", (), subscription("d1", "tok-b", False, True), denied(11)),
        ("P11: for both with one scope", (), subscription("d1", "tok-b", True, True), denied(11)),
        ("P11: update", (D1,), subscription("d1", "tok-b", True, True, over=1), denied(11)),
        (
            "for constraints only with their scope",
            (),
            subscription("d1", "tok-p", False, True),
            stored(shown("d1", 1, False, True)),
        ),
        ("P8 before P11: a subscription", (D1,), subscription("d1", "tok-p"), denied(8)),
        ("P13: a subscription that ends now", (), subscription("d1", "tok-b", extents=ENDED), denied(13)),
        ("P13: update of a subscription", (D1,), subscription("d1", "tok-b", over=1, extents=ENDED), denied(13)),
        (
            "P13: a subscription that ends later",
            (),
            subscription("d1", "tok-b", extents=ENDS),
            stored(shown("d1", 1, times=(900, 1001))),
        ),
    )
    named = (
        *((f"P16: none of that id, {it}", (), naming("a1", "tok-as", "d1", it), denied(16)) for it in STATES),
        *((f"P16: another's, {it}", (D1,), naming("a1", "tok-as", "d1", it), denied(16)) for it in STATES),
        ("P16: update", (a1,), naming("a1", "tok-a", "d1", over=1), denied(16)),
        ("P13 before P16", (), naming("a1", "tok-a", "d1", extents=ENDED), denied(13)),
        ("P16 before P14", (a1,), naming("b1", "tok-b", "d1"), denied(16)),
        ("a change notifies all, also the referenced one", (D1,), naming("b1", "tok-b", "d1"), put(names(seen("b1", "uss-b", 2)), 201, [("d1", 1)])),
        (
            "a named one is shown in a query",
            (D1, naming("b1", "tok-b", "d1")),
            ask("GET", f"{INTENTS}/{id_of('b1')}", "tok-a"),
            wire.answer(200, wire.compact({"operational_intent_reference": names(seen("b1", "uss-b"))})),
        ),
        (
            "an update names another",
            (D1, subscription("d2", "tok-b"), naming("b1", "tok-b", "d1")),
            naming("b1", "tok-b", "d2", over=3),
            put(names(seen("b1", "uss-b", 4, version=2), "d2"), 200, [("d1", 2), ("d2", 2)]),
        ),
        (
            "dependents in the order of their ids",
            (D1, naming("b2", "tok-b", "d1"), naming("b1", "tok-b", "d1", key=(2,))),
            reading("d1", "tok-b"),
            found(shown("d1", 1, dependents=("b1", "b2"), index=2)),
        ),
        ("P17: deletion", (D1, naming("b1", "tok-b", "d1")), removal("d1", "tok-b", 1), denied(17)),
        ("P10 before P17", (D1, naming("b1", "tok-b", "d1")), removal("d1", "tok-b", 2), denied(10)),
        (
            "an update of the intent ends the naming",
            (D1, naming("b1", "tok-b", "d1"), intent("b1", "tok-b", over=2)),
            removal("d1", "tok-b", 1),
            found(shown("d1", 1, index=2)),
        ),
        (
            "a deletion of the intent ends it, too",
            (D1, naming("b1", "tok-b", "d1"), deletion("b1", "tok-b", 2)),
            removal("d1", "tok-b", 1),
            found(shown("d1", 1, index=2)),
        ),
    )
    both = subscription("d1", "tok-bc", True, True)
    keys = (
        (
            "P14: constraints as the subscription says, without their scope",
            (c1, both),
            naming("b1", "tok-b", "d1"),
            missing(seen_c1),
        ),
        ("P14: none as the subscription says, with their scope", (c1, D1), naming("b1", "tok-bc", "d1"),
         put(names(seen("b1", "uss-b", 3)), 201, [("d1", 1)])),
        ("P14: none is named, with their scope", (c1, D1), naming("b1", "tok-bc", "00"), missing(seen_c1)),
        (
            "P14: constraints in the key",
            (c1, both),
            naming("b1", "tok-b", "d1", key=(1,)),
            put(names(seen("b1", "uss-b", 3)), 201, [("d1", 1)]),
        ),
        (
            "P14: as the subscription says after an update",
            (c1, both, subscription("d1", "tok-bc", True, False, over=2)),
            naming("b1", "tok-bc", "d1"),
            put(names(seen("b1", "uss-b", 4)), 201, [("d1", 1)]),
        ),
    )
    views = (
        ("what a new subscription meets", (a1, c1), both, stored(shown("d1", 3, True, True), [seen_a1], [seen_c1])),
        ("what it meets, for intents", (a1, c1), D1, stored(shown("d1", 3), [seen_a1])),
        (
            "what it meets, for constraints",
            (a1, c1),
            subscription("d1", "tok-p", False, True),
            stored(shown("d1", 3, False, True), (), [seen_c1]),
        ),
        (
            "the caller's own intents with their OVNs",
            (a1,),
            subscription("d1", "tok-a"),
            stored(shown("d1", 2), [seen("a1", "uss-a", 1)]),
        ),
        ("nothing is met", (a1,), subscription("d1", "tok-b", extents=HIGH), stored(shown("d1", 2))),
        (
            "an update of a subscription",
            (a1, D1),
            subscription("d1", "tok-bc", False, True, over=2, extents=ENDS),
            stored(shown("d1", 3, False, True, (900, 1001))),
        ),
        ("deletion of a subscription", (D1,), removal("d1", "tok-b", 1), found(shown("d1", 1))),
        (
            "a USS's own subscriptions, in the order of their ids",
            (subscription("d3", "tok-a"), subscription("d2", "tok-b"), D1),
            query("tok-b"),
            listed(shown("d1", 3), shown("d2", 2)),
        ),
        ("another's subscriptions", (D1,), query("tok-a"), listed()),
        ("a subscription elsewhere", (D1,), query("tok-b", ("89c2590c",)), listed()),
    )
    high, new = subscription("d1", "tok-b", extents=HIGH), seen("a1", "uss-a", 3, version=2)
    for_constraints = subscription("d1", "tok-p", False, True)
    told = (
        ("notified: another's intent", (D1,), intent("a1", "tok-a"), put(seen("a1", "uss-a", 2), 201, [("d1", 1)])),
        ("notified: the caller's own", (subscription("d1", "tok-a"),), intent("a1", "tok-a"),
         put(seen("a1", "uss-a", 2), 201, [("d1", 1)])),
        ("notified: of intents, not of a constraint", (D1,), constraint("c1", "tok-c"), put(seen("c1", "uss-c", 2, None))),
        ("notified: of a constraint", (for_constraints,), constraint("c1", "tok-c"),
         put(seen("c1", "uss-c", 2, None), 201, [("d1", 1)])),
        ("notified: of constraints, not of an intent", (for_constraints,), intent("a1", "tok-a"), put(seen("a1", "uss-a", 2))),
        ("notified: none elsewhere", (high,), intent("a1", "tok-a"), put(seen("a1", "uss-a", 2))),
        ("notified: by one of two volumes", (high,), intent("a1", "tok-a", volumes=(volume(), HIGH)),
         put(seen("a1", "uss-a", 2), 201, [("d1", 1)])),
        ("notified: by the old volumes", (D1, a1), intent("a1", "tok-a", volumes=(HIGH,), over=2), put(new, 200, [("d1", 2)])),
        ("notified: by the new volumes", (high, a1), intent("a1", "tok-a", volumes=(HIGH,), over=2), put(new, 200, [("d1", 1)])),
        ("notified: once by both", (D1, a1), intent("a1", "tok-a", over=2), put(new, 200, [("d1", 2)])),
        ("notified: of a deletion", (D1, a1), deletion("a1", "tok-a", 2), put(seen("a1", "uss-a", 2), 200, [("d1", 2)])),
        ("notified: in the order of their ids", (subscription("d2", "tok-a"), D1), intent("a1", "tok-a"),
         put(seen("a1", "uss-a", 3), 201, [("d1", 1), ("d2", 1)])),
        ("notified: version and serial stay", (D1, a1), reading("d1", "tok-b"), found(shown("d1", 1, index=1))),
        ("notified: an update keeps the index", (D1, a1), subscription("d1", "tok-b", over=1, extents=HIGH),
         stored(shown("d1", 3, index=1))),
        ("notified: a new one begins with 0", (D1, a1, removal("d1", "tok-b", 1)), D1, stored(shown("d1", 4), [seen_a1])),
    )
    return entities + roles + named + keys + views + told
