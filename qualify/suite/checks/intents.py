"""Operational intents: what is stored, what each USS sees, and what queries find."""
from suite.check import CONSTRAINT, INTENT, SUBSCRIPTION, check
from suite.checks.keys import lacks
from suite.dialect import BESIDE, ENDS, MIDDLE, OVERLAPPING, STARTS, URL, ZERO
from suite.trial import CONSTRAINTS, INTENTS, SUBSCRIPTIONS

HOUR = 3600
# more than a page of any service
MANY = 150


def is_as_put(it, answer, supplier, id_, state="Accepted", url="a"):
    """Checks that a reference matches the put."""
    told = answer.reference
    answer.need(told["id"] == id_, f"id {id_}")
    answer.need(told.get("state") == state, f"state {state}")
    answer.need(told["uss_base_url"] == URL.format(url), f"uss_base_url {URL.format(url)}")
    start, end = (it.dialect.second(told[name]) for name in ("time_start", "time_end"))
    answer.need((start, end) == (it.dialect.moment + STARTS, it.dialect.moment + ENDS), "the times that were put")
    known = it.knowledge.names.setdefault(supplier.uss, told["manager"] if it.dialect.is_standard else supplier.uss)
    answer.need(told["manager"] == known, f"manager {known}")
    others = [name for uss, name in it.knowledge.names.items() if uss != supplier.uss]
    answer.need(told["manager"] not in others, "a different manager for each USS")
    return told


@check("A created intent is 201 with its reference, and is read as it was put", "Effects, References",
       [INTENT["create"], INTENT["get"]])
def an_intent_is_created_and_read(it):
    id_, volume = it.id(), it.volume(it.site())
    created = it.a.intent(id_, volume).must(201)
    told = is_as_put(it, created, it.a, id_)
    created.need("ovn" in told, "its OVN, shown to its manager")
    created.need(isinstance(created.part("subscribers"), list), "the subscriptions to notify")
    if not it.dialect.is_standard:
        created.need(told["version"] == 1, "version 1")
        created.need(told["subscription_id"] == ZERO, "the zero id, as it references no subscription")
    read = it.a.get(INTENTS, id_).must(200)
    read.need(is_as_put(it, read, it.a, id_) == told, "the same reference")


@check("Another USS reads an intent's reference without its OVN, and otherwise the same",
       "References", [INTENT["get"]])
def an_ovn_is_shown_to_the_manager_alone(it):
    id_, site = it.id(), it.site()
    told = it.a.intent(id_, it.volume(site)).must(201).reference
    ovn = told.pop("ovn")
    for answer in (it.b.get(INTENTS, id_), it.b_processing.get(INTENTS, id_)):
        seen = answer.must(200).reference
        answer.need(seen.get("ovn") != ovn and (it.dialect.is_standard or "ovn" not in seen), "no OVN")
        answer.need({name: value for name, value in seen.items() if name != "ovn"} == told, "the same reference except for its OVN")
    found = it.b.query(INTENTS, site).must(200)
    found.finds([id_], "the intent, and nothing else")
    found.need(it.dialect.is_standard or "ovn" not in found.part("operational_intent_references")[0], "no OVN")
    own = it.a.query(INTENTS, site).must(200)
    own.finds([id_], "the intent, and nothing else")
    own.need(own.part("operational_intent_references")[0].get("ovn") == ovn, "the OVN, in its manager's own query")


@check("A query finds the intents that meet its area, and none elsewhere, at other altitudes or at another time", "Effects",
       [INTENT["query"]])
def a_query_finds_what_meets_its_area(it):
    site, other = it.site(), it.site()
    low, high, far = it.id(), it.id(), it.id()
    it.a.intent(low, it.volume(site)).must(201)
    it.b.intent(high, it.volume(site, low=200, high=300)).must(201)
    it.a.intent(far, it.volume(other)).must(201)
    whole = it.dialect.volume
    for area, wanted, what in (
            (it.dialect.area([site]), {low, high}, "both of the place"), (it.dialect.area([other]), {far}, "the one of the other place"),
            (whole([site], high=90), {low}, "the lower one"), (whole([site], low=210, high=290), {high}, "the upper one"),
            (whole([site], low=400, high=500), set(), "none above them"),
            (whole([site], start=ENDS + HOUR, end=ENDS + 2 * HOUR), set(), "none after them"),
            (whole([site], start=STARTS - 600, end=STARTS - 300), set(), "none before them"),
            (it.dialect.area([it.site()]), set(), "none of an empty place")):
        found = it.b.query(INTENTS, area=area).must(200)
        found.finds(wanted, f"{what}, each once")


@check("A query finds what overlaps its altitudes or its times only partly, and not what lies above, below, before or after them", "Effects",
       [INTENT["query"], CONSTRAINT["query"], SUBSCRIPTION["query"]])
def a_query_finds_what_overlaps_partly(it):
    site, flight, constraint, subscription = it.site(), it.id(), it.id(), it.id()
    volume = it.volume(site, **MIDDLE)
    it.a.intent(flight, volume).must(201)
    it.manager.constraint(constraint, volume).must(201)
    it.b_processing.subscription(subscription, volume).must(200)
    for bounds in (*OVERLAPPING, *BESIDE):
        area = it.volume(site, **MIDDLE | bounds)
        is_found = bounds in OVERLAPPING
        for supplier, kind, id_ in (
                (it.b, INTENTS, flight), (it.b_processing, CONSTRAINTS, constraint), (it.b_processing, SUBSCRIPTIONS, subscription)):
            supplier.query(kind, area=area).must(200).finds([id_] * is_found, "what overlaps" if is_found else "nothing")


@check("A query answers all that it finds, and a refusal for a key and a new subscription all that they meet: 150 intents of one place",
       "Effects, P14 KEY", [INTENT["query"], INTENT["create"], SUBSCRIPTION["create"]])
def all_that_is_found_is_answered(it):
    site, ids = it.site(), [it.id() for _ in range(MANY)]
    for k, id_ in enumerate(ids):
        it.a.intent(id_, it.volume(site, low=10 * k, high=10 * k + 5)).must(201)
    whole = it.volume(site, high=10 * MANY)
    it.b.query(INTENTS, site).must(200).finds(ids, f"the {MANY} intents, each once")
    lacks(it, it.b.intent(it.id(), whole), *ids)
    stored = it.b.subscription(it.id(), whole).must(200)
    stored.finds(ids, f"the {MANY} intents, each once", [entity["id"] for entity in stored.value.get("operational_intent_references", ())])


@check("A query returns references in the order of their ids", "Effects", [INTENT["query"]], only="profile")
def a_query_answers_by_rising_ids(it):
    site, key = it.site(), []
    ids = [it.id() for _ in range(4)]
    for id_ in ids:
        key.append(it.a.intent(id_, it.volume(site), key=key).must(201).reference["ovn"])
    found = it.b.query(INTENTS, site).must(200)
    found.finds(ids, "all four")
    found.need(found.ids == sorted(ids), "all four, in the order of their ids")


@check("An update replaces an intent, raises its version and gives a new OVN", "Effects", [INTENT["update"], INTENT["get"]])
def an_update_replaces_an_intent(it):
    id_, site, other = it.id(), it.site(), it.site()
    first = it.a.intent(id_, it.volume(site)).must(201).reference
    updated = it.a.intent(id_, it.volume(other), over=first["ovn"], state="Activated", url="d").must(200)
    told = is_as_put(it, updated, it.a, id_, "Activated", "d")
    updated.need(told["version"] > first["version"], f"a version above {first['version']}")
    if not it.dialect.is_standard:
        updated.need(told["version"] == first["version"] + 1, f"version {first['version'] + 1}")
    updated.need("ovn" in told and told["ovn"] != first["ovn"], "another OVN")
    for supplier in (it.a, it.b):
        read = supplier.get(INTENTS, id_).must(200)
        seen = is_as_put(it, read, it.a, id_, "Activated", "d")
        read.need(seen["version"] == told["version"], f"version {told['version']}")
    gone, there = it.b.query(INTENTS, site).must(200), it.b.query(INTENTS, other).must(200)
    gone.finds([], "nothing where it was")
    there.finds([id_], "the intent where it is")


@check("After an update with two volumes, queries find the intent or the constraint in both, and keys need it in both", "Effects, P14 KEY",
       [INTENT["update"], INTENT["query"], CONSTRAINT["update"], CONSTRAINT["query"]])
def an_update_has_all_its_volumes(it):
    flight, constraint, old, sites = it.id(), it.id(), it.site(), (it.site(), it.site())
    first = it.a.intent(flight, it.volume(old)).must(201).reference["ovn"]
    kept = it.manager.constraint(constraint, it.volume(old)).must(201).reference["ovn"]
    volumes = [it.volume(sites[0]), it.volume(sites[1], low=200, high=300, end=ENDS + 600)]
    for order in (volumes, volumes[::-1]):
        updated = it.a.intent(flight, *order, over=first).must(200)
        first = updated.reference["ovn"]
        updated.need(it.dialect.second(updated.reference["time_end"]) == it.dialect.moment + ENDS + 600, "the latest end of both")
        kept = it.manager.constraint(constraint, *order, over=kept).must(200).reference["ovn"]
        for site, volume in zip(sites, volumes):
            it.b.query(INTENTS, site).must(200).finds([flight], "the intent in each of its volumes")
            it.b_processing.query(CONSTRAINTS, site).must(200).finds([constraint], "the constraint in each of its volumes")
            lacks(it, it.b.intent(it.id(), volume), flight)
        it.b.query(INTENTS, old).must(200).finds([], "nothing where it was")


@check("An update or a deletion with an old or unknown OVN is 409, and changes nothing", "P10 VERSION",
       [INTENT["update"], INTENT["delete"]])
def an_old_ovn_changes_nothing(it):
    id_, volume = it.id(), it.volume(it.site())
    first = it.a.intent(id_, volume).must(201).reference
    second = it.a.intent(id_, volume, over=first["ovn"]).must(200).reference
    it.a.intent(id_, volume, over=first["ovn"], state="Activated").must(409, "P10 VERSION")
    it.a.delete(INTENTS, id_, first["ovn"]).must(409, "P10 VERSION")
    it.a.delete(INTENTS, id_, "no-ovn-of-this-service").must(409, "P10 VERSION")
    read = it.a.get(INTENTS, id_).must(200)
    read.need(read.reference == second, "the result of the last update")


@check("Updating or deleting another USS's intent is 403, and changes nothing",
       "P9 MANAGER", [INTENT["update"], INTENT["delete"]])
def only_the_manager_changes_an_intent(it):
    id_, volume = it.id(), it.volume(it.site())
    told = it.a.intent(id_, volume).must(201).reference
    it.b.intent(id_, volume, over=told["ovn"], state="Activated").must(403, "P9 MANAGER")
    it.b.delete(INTENTS, id_, told["ovn"]).must(403, "P9 MANAGER")
    read = it.a.get(INTENTS, id_).must(200)
    read.need(read.reference == told, "the intent as it was")


@check("A deletion returns the last reference; then a read is 404, and no query finds the intent", "Effects, P7 FOUND",
       [INTENT["delete"], INTENT["get"]])
def a_deleted_intent_is_gone(it):
    id_, site = it.id(), it.site()
    told = it.a.intent(id_, it.volume(site)).must(201).reference
    deleted = it.a.delete(INTENTS, id_, told["ovn"]).must(200)
    deleted.need(deleted.reference == told, "the reference as it was")
    for supplier in (it.a, it.b):
        supplier.get(INTENTS, id_).must(404, "P7 FOUND")
        found = supplier.query(INTENTS, site).must(200)
        found.finds([], "nothing")
    it.a.delete(INTENTS, id_, told["ovn"]).must(404, "P7 FOUND")
    it.a.intent(id_, it.volume(site), over=told["ovn"]).must(404, "P7 FOUND", standard=(404, 409))


@check("Creating an intent with an existing id is 409, and the existing intent stays", "P8 FRESH", [INTENT["create"]])
def an_id_is_created_once(it):
    id_, site = it.id(), it.site()
    told = it.a.intent(id_, it.volume(site)).must(201).reference
    it.a.intent(id_, it.volume(site), state="Activated").must(409, "P8 FRESH")
    it.b.intent(id_, it.volume(it.site())).must(409, "P8 FRESH", standard=(403, 409))
    read = it.a.get(INTENTS, id_).must(200)
    read.need(read.reference == told, "the intent as it was")


@check("A Nonconforming or Contingent intent needs the scope of conformance monitoring, and an Accepted or Activated one "
       "that of strategic coordination: 403 without", "P11 ROLE", [INTENT["create"]])
def a_state_takes_its_scope(it):
    for state in ("Nonconforming", "Contingent"):
        id_, volume = it.id(), it.volume(it.site())
        it.a.intent(id_, volume, state=state).must(403, "P11 ROLE")
        it.a.get(INTENTS, id_).must(404, "P7 FOUND")
        created = it.a_monitoring.intent(id_, volume, state=state).must(201)
        created.need(created.reference["state"] == state, f"state {state}")
    for state in ("Accepted", "Activated"):
        more = {"new_subscription": None} if it.dialect.is_standard else {}
        it.b_monitoring.intent(it.id(), it.volume(it.site()), state=state, **more).must(403, "P11 ROLE", standard=(400, 403))


@check("States change only as permitted: none back to Accepted, and none from Contingent. Another change is 400, and changes nothing; "
       "the standard leaves open which ones are", "P12 CHANGE", [INTENT["update"], INTENT["get"]])
def states_change_only_as_they_may(it):
    states = ("Accepted", "Activated", "Nonconforming", "Contingent")
    allowed = {"Accepted": states, "Activated": states[1:], "Nonconforming": states[1:], "Contingent": states[3:]}
    for old in states:
        for new in states:
            id_, volume = it.id(), it.volume(it.site())
            told = it.a_monitoring.intent(id_, volume, state=old).must(201).reference
            put = it.a_monitoring.intent(id_, volume, state=new, over=told["ovn"])
            if new in allowed[old]:
                put.must(200)
            else:
                put.must(400, "P12 CHANGE", standard=(200, 400))
            now = put.reference if put.status == 200 else told
            put.need(now["state"] == (new if put.status == 200 else old), f"state {new}")
            read = it.a_monitoring.get(INTENTS, id_).must(200)
            read.need(read.reference == now, "the result of the update" if put.status == 200 else "the intent as it was")
            it.a_monitoring.delete(INTENTS, id_, now["ovn"]).must(200)


@check("Putting an intent that has ended is 400", "P13 ENDED", [INTENT["create"], INTENT["update"]])
def what_has_ended_is_not_put(it):
    id_, site = it.id(), it.site()
    past = it.volume(site, start=-2 * HOUR, end=-HOUR)
    it.a.intent(id_, past).must(400, "P13 ENDED")
    it.a.get(INTENTS, id_).must(404, "P7 FOUND")
    told = it.a.intent(id_, it.volume(site)).must(201).reference
    it.a.intent(id_, past, over=told["ovn"]).must(400, "P13 ENDED")
    read = it.a.get(INTENTS, id_).must(200)
    read.need(read.reference == told, "the intent as it was")


@check("The times of an intent with several volumes are the earliest start and the latest end", "References", [INTENT["create"]])
def times_are_those_of_all_volumes(it):
    one, two = it.volume(it.site(), start=STARTS + 600), it.volume(it.site(), end=ENDS + 600)
    created = it.a.intent(it.id(), one, two).must(201)
    told = [it.dialect.second(created.reference[name]) for name in ("time_start", "time_end")]
    created.need(told == [it.dialect.moment + STARTS, it.dialect.moment + ENDS + 600], "from the earliest start to the latest end")


@check("A body without a required member, or with a wrong value, is 400, and nothing is stored", "P5 FORM", [INTENT["create"]])
def a_wrong_body_is_refused(it):
    id_, volume = it.id(), it.volume(it.site())
    good = it.intent_body(volume)
    late = it.volume(it.site(), start=ENDS, end=STARTS)
    steep = it.volume(it.site(), low=100, high=50)
    lacking = [{name: value for name, value in good.items() if name != left} for left in ("extents", "state", "uss_base_url")]
    wrong = [good | {"extents": it} for it in ([], [late], [steep])] + [good | {"state": "Ended"}, good | {"key": "none"}]
    for body in (*lacking, *wrong, "{", "[]", ""):
        it.a.put(INTENTS, id_, body).must(400, "P5 FORM")
    it.a.ask("PUT", f"{INTENTS}/not-a-uuid", good).must(400, "P5 FORM")
    it.a.get(INTENTS, "not-a-uuid").must(400, "P5 FORM")
    it.a.ask("POST", f"{INTENTS}/query", {}).must(400, "P5 FORM")
    it.a.get(INTENTS, id_).must(404, "P7 FOUND")


@check("Too large an area is 413, in a query and in a put", "P6 AREA", [INTENT["query"], INTENT["create"]])
def an_area_too_large_is_refused(it):
    home, id_ = it.run.home, it.id()
    it.a.query(INTENTS, area=it.dialect.too_large(home)).must(413, "P6 AREA")
    it.a.intent(id_, it.dialect.too_large_volume(home)).must(413, "P6 AREA")
    it.a.get(INTENTS, id_).must(404, "P7 FOUND")


@check("Ids in upper case mean the same intents as in lower case, and are returned in lower case", "Formats", only="profile")
def ids_have_no_case(it):
    id_, volume = it.id(), it.volume(it.site())
    created = it.a.intent(id_.upper(), volume).must(201)
    created.need(created.reference["id"] == id_, "the id in lower case")
    it.a.intent(id_, volume).must(409, "P8 FRESH")
    it.a.delete(INTENTS, id_.upper(), created.reference["ovn"]).must(200)
