"""Keys: which OVNs a put must list, and which volumes meet."""
from suite.check import INTENT, check
from suite.dialect import BESIDE, ENDS, MIDDLE, OVERLAPPING, STARTS, cell, number_of, parent, token
from suite.trial import CONSTRAINTS, INTENTS, MOST_NAMED


def lacks(it, put, *ids, constraints=()):
    """Checks that a put is denied for its key, with exactly these missing."""
    put.must(409, "P14 KEY")
    for kind, name, wanted in ((INTENTS, "intents", ids), (CONSTRAINTS, "constraints", constraints)):
        shown = ", ".join(sorted(wanted)) if len(wanted) <= MOST_NAMED else f"{len(wanted)} of them"
        put.finds(wanted, f"missing: the {name} {shown or 'none'}", [entity["id"] for entity in put.missing(kind)])
    if not it.dialect.is_standard:
        is_sorted = all(ids == sorted(ids) for ids in ([entity["id"] for entity in put.missing(kind)] for kind in (INTENTS, CONSTRAINTS)))
        put.need(is_sorted, "in the order of their ids")
        put.need(set(put.value) == {"message", "missing_constraints", "missing_operational_intents"}, "both lists, also an empty one")
    return put


@check("Putting an intent that meets another's without its OVN is 409; the denial lists it without its OVN, and nothing is stored", "P14 KEY",
       [INTENT["create"]])
def a_key_is_needed(it):
    first, second, site = it.id(), it.id(), it.site()
    told = it.a.intent(first, it.volume(site)).must(201).reference
    denied = lacks(it, it.b.intent(second, it.volume(site)), first)
    missing = denied.missing()[0]
    denied.need(it.dialect.is_standard or "ovn" not in missing, "no OVN of the other's")
    same = {name: value for name, value in told.items() if name != "ovn"}
    denied.need({name: value for name, value in missing.items() if name != "ovn"} == same, "the reference as any reading shows it")
    it.b.get(INTENTS, second).must(404, "P7 FOUND")


@check("An intent with the OVN of what it meets is put", "P14 KEY", [INTENT["create"], INTENT["query"]])
def a_key_opens(it):
    first, second, site = it.id(), it.id(), it.site()
    ovn = it.a.intent(first, it.volume(site)).must(201).reference["ovn"]
    it.b.intent(second, it.volume(site), key=["0" * 64, ovn], url="b").must(201)
    for supplier, own, other in ((it.a, first, second), (it.b, second, first)):
        found = supplier.query(INTENTS, site).must(200)
        shown = {entity["id"]: entity.get("ovn") for entity in found.part("operational_intent_references")}
        found.need(set(shown) == {first, second}, "both intents")
        found.need(shown[own] in it.knowledge.given and shown[other] not in it.knowledge.given, "an OVN only for the USS's own")


@check("A denial lists all missing entities, and none that the key has", "P14 KEY", [INTENT["create"]])
def all_that_is_missing_is_told(it):
    site, ids, key = it.site(), [it.id() for _ in range(4)], []
    for id_ in ids:
        supplier = it.a if len(key) % 2 else it.b
        key.append(supplier.intent(id_, it.volume(site), key=key).must(201).reference["ovn"])
    new = it.id()
    lacks(it, it.b.intent(new, it.volume(site)), *ids)
    lacks(it, it.b.intent(new, it.volume(site), key=key[1:2]), ids[0], ids[2], ids[3])
    lacks(it, it.b.intent(new, it.volume(site), key=key[:3]), ids[3])
    lacks(it, it.b.intent(new, it.volume(site), key=key[1:]), ids[0])
    it.b.intent(new, it.volume(site), key=key[::-1]).must(201)


@check("An OVN from before an update does not count in a key: the denial lists the updated intent", "P14 KEY", [INTENT["create"], INTENT["update"]])
def a_stale_key_is_refused(it):
    first, second, site = it.id(), it.id(), it.site()
    old = it.a.intent(first, it.volume(site)).must(201).reference["ovn"]
    new = it.a.intent(first, it.volume(site), over=old, state="Activated").must(200).reference
    denied = lacks(it, it.b.intent(second, it.volume(site), key=[old]), first)
    denied.need(denied.missing()[0]["version"] == new["version"], f"version {new['version']}, the current one")
    denied.need(denied.missing()[0]["state"] == "Activated", "its current state")
    it.b.intent(second, it.volume(site), key=[new["ovn"]]).must(201)


@check("No key needs a deleted intent", "P14 KEY", [INTENT["create"], INTENT["delete"]])
def what_is_gone_is_not_needed(it):
    first, second, site = it.id(), it.id(), it.site()
    ovn = it.a.intent(first, it.volume(site)).must(201).reference["ovn"]
    lacks(it, it.b.intent(second, it.volume(site)), first)
    it.a.delete(INTENTS, first, ovn).must(200)
    it.b.intent(second, it.volume(site)).must(201)


@check("An update needs a key with all others that meet its new volumes, but not with itself", "P14 KEY", [INTENT["update"]])
def an_update_needs_a_key(it):
    first, second, site, other = it.id(), it.id(), it.site(), it.site()
    ovn = it.a.intent(first, it.volume(site)).must(201).reference["ovn"]
    own = it.b.intent(second, it.volume(other)).must(201).reference
    lacks(it, it.b.intent(second, it.volume(site), over=own["ovn"]), first)
    read = it.b.get(INTENTS, second).must(200)
    read.need(read.reference == own, "the intent as it was")
    moved = it.b.intent(second, it.volume(site), over=own["ovn"], key=[ovn]).must(200).reference
    lacks(it, it.a.intent(first, it.volume(site), over=ovn, key=[ovn]), second)
    it.a.intent(first, it.volume(site), over=ovn, key=[moved["ovn"]]).must(200)


@check("Activating an intent needs a key as planning it does, by a creation and by an update, and so does an update of an Activated intent",
       "P14 KEY", [INTENT["create"], INTENT["update"]])
def an_activation_needs_a_key(it):
    first, second, site, alone = it.id(), it.id(), it.site(), it.site()
    ovn = it.a.intent(first, it.volume(site)).must(201).reference["ovn"]
    lacks(it, it.b.intent(second, it.volume(site), state="Activated"), first)
    it.b.get(INTENTS, second).must(404, "P7 FOUND")
    planned = it.b.intent(second, it.volume(site), key=[ovn]).must(201).reference
    lacks(it, it.b.intent(second, it.volume(site), over=planned["ovn"], state="Activated"), first)
    read = it.b.get(INTENTS, second).must(200)
    read.need(read.reference == planned, "the intent as it was")
    active = it.b.intent(second, it.volume(site), over=planned["ovn"], state="Activated", key=[ovn]).must(200).reference
    lacks(it, it.b.intent(second, it.volume(site), it.volume(alone), over=active["ovn"], state="Activated"), first)
    it.b.intent(second, it.volume(alone), over=active["ovn"], state="Activated").must(200)


@check("Keys need what overlaps only partly in altitude or time, and not what lies above, below, before or after", "P14 KEY", [INTENT["create"]])
def what_overlaps_partly_is_needed(it):
    site, first = it.site(), it.id()
    it.a.intent(first, it.volume(site, **MIDDLE)).must(201)
    for bounds in OVERLAPPING:
        lacks(it, it.b.intent(it.id(), it.volume(site, **MIDDLE | bounds)), first)
    for bounds in BESIDE:
        it.b.intent(it.id(), it.volume(site, **MIDDLE | bounds)).must(201)


@check("Keys need a USS's own intents as well, and denials list their OVNs", "P14 KEY", only="profile")
def own_intents_are_needed(it):
    first, site = it.id(), it.site()
    told = it.a.intent(first, it.volume(site)).must(201).reference
    denied = lacks(it, it.a.intent(it.id(), it.volume(site)), first)
    denied.need(denied.missing()[0] == told, "the reference with its OVN")


@check("No key needs what does not meet: another place, other altitudes, another time", "P14 KEY", [INTENT["create"]])
def what_does_not_meet_is_not_needed(it):
    site = it.site()
    it.a.intent(it.id(), it.volume(site)).must(201)
    it.b.intent(it.id(), it.volume(it.site())).must(201)
    it.b.intent(it.id(), it.volume(site, low=200, high=300)).must(201)
    it.b.intent(it.id(), it.volume(site, start=ENDS + 1800, end=ENDS + 3600)).must(201)


@check("A Nonconforming or a Contingent intent needs no key, and keys of others need it", "P14 KEY", [INTENT["create"]])
def off_nominal_intents_need_no_key(it):
    for state in ("Nonconforming", "Contingent"):
        site, own = it.site(), it.id()
        first = it.b.intent(it.id(), it.volume(site)).must(201).reference
        it.a_monitoring.intent(own, it.volume(site), state=state).must(201)
        lacks(it, it.b.intent(it.id(), it.volume(site), key=[first["ovn"]]), own)


@check("The key of an intent with several volumes needs what any of them meets", "P14 KEY", [INTENT["create"]])
def each_volume_needs_a_key(it):
    one, two, other, first, second = it.site(), it.site(), it.site(), it.id(), it.id()
    a = it.a.intent(first, it.volume(one)).must(201).reference["ovn"]
    b = it.a.intent(second, it.volume(two)).must(201).reference["ovn"]
    id_, volumes = it.id(), [it.volume(other), it.volume(two), it.volume(one)]
    lacks(it, it.b.intent(id_, *volumes), first, second)
    lacks(it, it.b.intent(id_, *volumes, key=[b]), first)
    it.b.intent(id_, *volumes, key=[a, b]).must(201)


@check("Volumes are never merged: no key needs what meets only the place of one and the altitude of another", "P14 KEY", only="profile")
def volumes_are_not_merged(it):
    one, two = it.site(), it.site()
    it.a.intent(it.id(), it.volume(one), it.volume(two, low=200, high=300)).must(201)
    it.b.intent(it.id(), it.volume(one, low=200, high=300), it.volume(two)).must(201)


@check("Ranges include both ends: a volume that ends at a second or altitude meets one that begins there, but not one a second or decimetre later",
       "Cells volumes and areas", only="profile")
def ranges_hold_their_ends(it):
    for bounds, beside in (
            ({"low": 100, "high": 200}, {"low": 101, "high": 200}),
            ({"start": ENDS, "end": ENDS + 60}, {"start": ENDS + 1, "end": ENDS + 60})):
        site, first = it.site(), it.id()
        it.a.intent(first, it.volume(site)).must(201)
        lacks(it, it.b.intent(it.id(), it.volume(site, **bounds)), first)
        volume = it.volume(site, **beside)
        if "low" in beside:
            volume["altitude_lower"] = 1001
        it.b.intent(it.id(), volume).must(201)


@check("Cells are compared at level 13: a finer cell counts as the one that contains it, a coarser one as all inside it",
       "Cells volumes and areas",
       only="profile")
def cells_are_compared_at_level_13(it):
    site, first = it.site(), it.id()
    it.a.intent(first, it.volume(token(cell(number_of(site), 0, 3)))).must(201)
    lacks(it, it.b.intent(it.id(), it.volume(token(cell(number_of(site), 2)))), first)
    found = it.b.query(INTENTS, token(parent(number_of(site)))).must(200)
    found.need(first in found.ids, f"the intent in one of the cells inside, {first}")


@check("Drawn volumes of two USSs: each denial lists exactly what meets and the key lacks, and each query finds exactly what meets",
       "P14 KEY, Effects", [INTENT["create"], INTENT["query"]])
def drawn_volumes_meet_as_they_are(it):
    draw, sites, there = it.run.draw, [it.site() for _ in range(3)], {}
    for _ in range(16):
        supplier, id_ = draw.choice((it.a, it.b)), it.id()
        drawn = draw_box(draw, sites)
        meets = {other: ovn for other, (box, ovn) in there.items() if boxes_meet(box, drawn)}
        known = dict(draw.sample(sorted(meets.items()), draw.randint(0, len(meets))))
        if known != meets:
            missing = set(meets) - set(known)
            lacks(it, supplier.intent(id_, *volumes_of(it, drawn), key=list(known.values())), *missing)
        told = supplier.intent(id_, *volumes_of(it, drawn), key=list(meets.values())).must(201).reference
        there[id_] = drawn, told["ovn"]
        asked = draw_box(draw, sites[:1] if it.dialect.is_standard else sites)
        found = it.b.query(INTENTS, area=it.dialect.volume(asked[0], **bounds_of(asked))).must(200)
        wanted = {other for other, (box, _) in there.items() if boxes_meet(box, asked)}
        found.finds(wanted, f"the {len(wanted)} that meet, each once")


def draw_box(draw, sites):
    """Draws places, altitude bands of 100 m and spans of 20 minutes. Different values do not overlap."""
    places = draw.sample(sites, draw.randint(1, len(sites)))
    return places, draw.randint(0, 2), draw.randint(0, 2)


def bounds_of(box):
    _, level, span = box
    return {"low": 150 * level, "high": 150 * level + 100, "start": STARTS + 1800 * span, "end": STARTS + 1800 * span + 1200}


def volumes_of(it, box):
    return it.dialect.volumes(box[0], **bounds_of(box))


def boxes_meet(one, other):
    return bool(set(one[0]) & set(other[0])) and one[1:] == other[1:]
