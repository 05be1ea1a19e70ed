"""Subscriptions: what is stored, which changes notify them, and with which index."""
from suite.check import CONSTRAINT, INTENT, SUBSCRIPTION, check
from suite.dialect import BESIDE, ENDS, MIDDLE, OVERLAPPING, STARTS, URL
from suite.trial import CONSTRAINTS, INTENTS, SUBSCRIPTIONS


def index_of(it, supplier, id_):
    read = supplier.get(SUBSCRIPTIONS, id_).must(200)
    return read.reference["notification_index"]


def tells(it, answer, id_, index):
    """Checks that a change notifies a subscription with this index, and that it has the index from then on."""
    answer.need(answer.indexes.get(id_) == index, f"the subscription with index {index}")
    read = it.a.get(SUBSCRIPTIONS, id_).must(200)
    read.need(read.reference["notification_index"] == index, f"index {index}")


def tells_not(it, answer, id_, index):
    answer.need(id_ not in answer.indexes, "not the subscription")
    read = it.a.get(SUBSCRIPTIONS, id_).must(200)
    read.need(read.reference["notification_index"] == index, f"index {index}, as before")


@check("A created subscription has index 0, is read as it was put, and lists what its volume meets", "Effects",
       [SUBSCRIPTION["create"], SUBSCRIPTION["get"]])
def a_subscription_is_created_and_read(it):
    id_, site, there = it.id(), it.site(), it.id()
    it.b.intent(there, it.volume(site)).must(201)
    it.b.intent(it.id(), it.volume(it.site())).must(201)
    created = it.a.subscription(id_, it.volume(site)).must(200)
    told = created.reference
    created.need(told["id"] == id_ and told["notification_index"] == 0, "its id, and index 0")
    created.need(told["uss_base_url"] == URL.format("a") and bool(told["version"]), "its address, and a version")
    flags = told.get("notify_for_operational_intents"), told.get("notify_for_constraints") or False
    created.need(flags == (True, False), "only for intents")
    times = [it.dialect.second(told.get(name)) for name in ("time_start", "time_end")]
    created.need(times == [it.dialect.moment + STARTS, it.dialect.moment + ENDS], "the times that were put")
    created.finds([there], "the intent that is there", [entity["id"] for entity in created.value.get("operational_intent_references", ())])
    created.need(not created.value.get("constraint_references"), "no constraint")
    read = it.a.get(SUBSCRIPTIONS, id_).must(200)
    read.need(read.reference == told, "the same subscription")


@check("Only its own USS reads, updates or deletes a subscription, and finds it in a query", "P9 MANAGER",
       [SUBSCRIPTION["get"], SUBSCRIPTION["update"], SUBSCRIPTION["delete"], SUBSCRIPTION["query"]])
def a_subscription_is_its_suppliers_alone(it):
    one, two, site = it.id(), it.id(), it.site()
    told = it.a.subscription(one, it.volume(site)).must(200).reference
    it.b.subscription(two, it.volume(site)).must(200)
    it.b.get(SUBSCRIPTIONS, one).must(403, "P9 MANAGER", standard=(403, 404))
    it.b.subscription(one, it.volume(site), over=told["version"]).must(403, "P9 MANAGER", standard=(403, 404))
    it.b.delete(SUBSCRIPTIONS, one, told["version"]).must(403, "P9 MANAGER", standard=(403, 404))
    for supplier, own in ((it.a, one), (it.b, two)):
        found = supplier.query(SUBSCRIPTIONS, site).must(200)
        found.finds([own], "only its own")
    found = it.a.query(SUBSCRIPTIONS, it.site()).must(200)
    found.finds([], "none elsewhere")
    read = it.a.get(SUBSCRIPTIONS, one).must(200)
    read.need(read.reference == told, "the subscription as it was")


@check("An update over the current version keeps the index and gives another version; over an old one it is 409",
       "P10 VERSION, Effects",
       [SUBSCRIPTION["update"]])
def a_subscription_is_updated(it):
    id_, site, other = it.id(), it.site(), it.site()
    first = it.a.subscription(id_, it.volume(site)).must(200).reference
    tells(it, it.b.intent(it.id(), it.volume(site)).must(201), id_, 1)
    updated = it.a.subscription(id_, it.volume(other), over=first["version"], url="f").must(200)
    second = updated.reference
    updated.need(second["version"] != first["version"] and second["notification_index"] == 1, "another version, and index 1 as before")
    updated.need(second["uss_base_url"] == URL.format("f"), "the new address")
    it.a.subscription(id_, it.volume(site), over=first["version"]).must(409, "P10 VERSION")
    read = it.a.get(SUBSCRIPTIONS, id_).must(200)
    read.need(read.reference == second, "the result of the update")
    tells_not(it, it.b.intent(it.id(), it.volume(site, low=200, high=250)).must(201), id_, 1)
    tells(it, it.b.intent(it.id(), it.volume(other)).must(201), id_, 2)


@check("A subscription is created once, and deleted only over its current version; then it does not exist", "P8 FRESH, P10 VERSION, P7 FOUND",
       [SUBSCRIPTION["create"], SUBSCRIPTION["delete"]])
def a_subscription_is_deleted(it):
    id_, site = it.id(), it.site()
    told = it.a.subscription(id_, it.volume(site)).must(200).reference
    it.a.subscription(id_, it.volume(site)).must(409, "P8 FRESH")
    it.a.delete(SUBSCRIPTIONS, id_, "no-version-of-this-service").must(409, "P10 VERSION")
    deleted = it.a.delete(SUBSCRIPTIONS, id_, told["version"]).must(200)
    deleted.need(deleted.reference == told, "the subscription as it was")
    it.a.get(SUBSCRIPTIONS, id_).must(404, "P7 FOUND")
    found = it.a.query(SUBSCRIPTIONS, site).must(200)
    found.finds([], "nothing")
    it.a.delete(SUBSCRIPTIONS, id_, told["version"]).must(404, "P7 FOUND")
    answer = it.b.intent(it.id(), it.volume(site)).must(201)
    answer.need(id_ not in answer.indexes, "no deleted subscription")


@check("The index rises by one with the creation, update and deletion of an intent that meets it, and not with a denial",
       "Effects", [INTENT["create"], INTENT["update"], INTENT["delete"], SUBSCRIPTION["get"]])
def an_index_rises_with_each_change(it):
    id_, site, flight = it.id(), it.site(), it.id()
    it.a.subscription(id_, it.volume(site)).must(200)
    created = it.b.intent(flight, it.volume(site)).must(201)
    tells(it, created, id_, 1)
    updated = it.b.intent(flight, it.volume(site), over=created.reference["ovn"], state="Activated").must(200)
    tells(it, updated, id_, 2)
    it.b.intent(flight, it.volume(site), over=created.reference["ovn"]).must(409, "P10 VERSION")
    it.a.intent(it.id(), it.volume(site)).must(409, "P14 KEY")
    it.a.delete(INTENTS, flight, updated.reference["ovn"]).must(403, "P9 MANAGER")
    read = it.a.get(SUBSCRIPTIONS, id_).must(200)
    read.need(read.reference["notification_index"] == 2, "index 2: nothing changed")
    tells(it, it.b.delete(INTENTS, flight, updated.reference["ovn"]).must(200), id_, 3)


@check("A USS's changes notify its own subscriptions, too", "Effects", [INTENT["create"]])
def own_changes_are_told(it):
    id_, site = it.id(), it.site()
    it.a.subscription(id_, it.volume(site)).must(200)
    tells(it, it.a.intent(it.id(), it.volume(site)).must(201), id_, 1)


@check("An update notifies subscriptions in the intent's old volumes and in its new ones", "Effects", [INTENT["update"]])
def who_is_left_is_told(it):
    old, new, here, there, flight = it.id(), it.id(), it.site(), it.site(), it.id()
    it.a.subscription(old, it.volume(here)).must(200)
    it.a.subscription(new, it.volume(there)).must(200)
    ovn = it.b.intent(flight, it.volume(here)).must(201).reference["ovn"]
    moved = it.b.intent(flight, it.volume(there), over=ovn).must(200)
    told = moved.indexes
    moved.need(told.get(old) == 2 and told.get(new) == 1, "the one that it left with index 2, the one that it came to with index 1")
    last = it.b.intent(flight, it.volume(there), over=moved.reference["ovn"], state="Activated").must(200)
    last.need(old not in last.indexes and last.indexes.get(new) == 2, "the one that it came to alone, with index 2")


@check("An intent does not notify subscriptions to another place, altitude or time, or only to constraints",
       "Effects", [INTENT["create"]])
def who_does_not_meet_is_not_told(it):
    site = it.site()
    ids = [it.id() for _ in range(4)]
    it.a.subscription(ids[0], it.volume(it.site())).must(200)
    it.a.subscription(ids[1], it.volume(site, low=200, high=300)).must(200)
    it.a.subscription(ids[2], it.volume(site, start=ENDS + 1800, end=ENDS + 3600)).must(200)
    it.b_processing.subscription(ids[3], it.volume(site), intents=False, constraints=True).must(200)
    answer = it.b.intent(it.id(), it.volume(site)).must(201)
    for id_ in ids:
        answer.need(id_ not in answer.indexes, f"none of them, so not {id_}")
    for id_ in ids[:3]:
        read = it.a.get(SUBSCRIPTIONS, id_).must(200)
        read.need(read.reference["notification_index"] == 0, "index 0")


@check("An intent notifies subscriptions that its volume overlaps only partly in altitude or time, and a new subscription lists such intents",
       "Effects", [INTENT["create"], SUBSCRIPTION["create"]])
def who_overlaps_partly_is_told(it):
    for bounds in (*OVERLAPPING, *BESIDE):
        site, id_, flight, other = it.site(), it.id(), it.id(), it.id()
        is_told = bounds in OVERLAPPING
        it.a.subscription(id_, it.volume(site, **MIDDLE)).must(200)
        answer = it.b.intent(flight, it.volume(site, **MIDDLE | bounds)).must(201)
        answer.finds([id_] * is_told, "the subscription" if is_told else "none", list(answer.indexes))
        stored = it.a.subscription(other, it.volume(site, **MIDDLE)).must(200)
        found = [entity["id"] for entity in stored.value.get("operational_intent_references", ())]
        stored.finds([flight] * is_told, "the intent" if is_told else "nothing", found)


def tells_at(answer, ids, index):
    """Checks that a change notifies exactly these subscriptions, each once at its address, with this index."""
    told = [(one["subscription_id"], by["uss_base_url"]) for by in answer.part("subscribers") for one in by["subscriptions"]]
    answer.finds(ids, "each subscription once", [id_ for id_, _ in told])
    answer.need(dict(told) == {id_: URL.format(url) for id_, url in ids.items()}, "each at its address")
    answer.need(set(answer.indexes.values()) == {index}, f"index {index} of each")
    return answer.reference["ovn"]


@check("The creation, the update and the deletion of an intent or a constraint notify subscribers at two addresses", "Effects",
       [*(INTENT[name] for name in ("create", "update", "delete")), *(CONSTRAINT[name] for name in ("create", "update", "delete"))])
def each_change_tells_all_addresses(it):
    for kind, supplier, put in ((INTENTS, it.a, it.a.intent), (CONSTRAINTS, it.manager, it.manager.constraint)):
        site, id_ = it.site(), it.id()
        flags = {"intents": kind == INTENTS, "constraints": kind == CONSTRAINTS}
        ids = {it.id(): "b", it.id(): "g"}
        for subscription, url in ids.items():
            it.b_processing.subscription(subscription, it.volume(site), url=url, **flags).must(200)
        ovn = tells_at(put(id_, it.volume(site)).must(201), ids, 1)
        ovn = tells_at(put(id_, it.volume(site), over=ovn).must(200), ids, 2)
        tells_at(supplier.delete(kind, id_, ovn).must(200), ids, 3)


@check("A subscription for intents, for constraints or for both shows what it is for, lists that, and is notified of that, also after an update",
       "Effects", [SUBSCRIPTION[name] for name in ("create", "update", "get", "query")])
def a_subscription_is_for_what_it_says(it):
    id_, site, flight, constraint = it.id(), it.site(), it.id(), it.id()
    flights = it.a.intent(flight, it.volume(site)).must(201).reference["ovn"]
    constraints = it.manager.constraint(constraint, it.volume(site)).must(201).reference["ovn"]
    version = None
    for intents, wanted in ((True, True), (False, True), (True, False), (True, True)):
        put = it.b_processing.subscription(id_, it.volume(site), over=version, intents=intents, constraints=wanted).must(200)
        version = put.reference["version"]
        for kind, is_for, own in (("operational_intent", intents, flight), ("constraint", wanted, constraint)):
            found = [entity["id"] for entity in put.value.get(f"{kind}_references") or ()]
            put.finds([own] * is_for, f"the {kind} that is there" if is_for else f"no {kind}", found)
        read = it.b_processing.get(SUBSCRIPTIONS, id_).must(200)
        listed = it.b_processing.query(SUBSCRIPTIONS, site).must(200)
        for answer, told in ((put, put.reference), (read, read.reference), (listed, listed.part("subscriptions")[0])):
            flags = [told.get(f"notify_for_{name}") or False for name in ("operational_intents", "constraints")]
            answer.need(flags == [intents, wanted], f"for intents: {intents}, for constraints: {wanted}")
        updated = it.a.intent(flight, it.volume(site), over=flights).must(200)
        flights = updated.reference["ovn"]
        updated.finds([id_] * intents, "the subscription" if intents else "none", list(updated.indexes))
        updated = it.manager.constraint(constraint, it.volume(site), over=constraints).must(200)
        constraints = updated.reference["ovn"]
        updated.finds([id_] * wanted, "the subscription" if wanted else "none", list(updated.indexes))


@check("Changes of constraints notify subscriptions for constraints, and no others", "Effects",
       [CONSTRAINT["create"], CONSTRAINT["update"], CONSTRAINT["delete"]])
def constraints_are_told(it):
    wants, other, site, id_ = it.id(), it.id(), it.site(), it.id()
    it.b_processing.subscription(wants, it.volume(site), intents=False, constraints=True, url="b").must(200)
    it.a.subscription(other, it.volume(site)).must(200)
    answer = it.manager.constraint(id_, it.volume(site)).must(201)
    for index in (1, 2, 3):
        answer.need(answer.indexes == {wants: index}, f"only the subscription for constraints, with index {index}")
        urls = [told["uss_base_url"] for told in answer.part("subscribers")]
        answer.need(urls == [URL.format("b")], "its address")
        read = it.b_processing.get(SUBSCRIPTIONS, wants).must(200)
        read.need(read.reference["notification_index"] == index, f"index {index}")
        ovn = answer.reference["ovn"]
        if index == 1:
            answer = it.manager.constraint(id_, it.volume(site), over=ovn).must(200)
        elif index == 2:
            answer = it.manager.delete(CONSTRAINTS, id_, ovn).must(200)


@check("A change notifies all subscriptions that it meets, each once, with the address of each", "Effects", [INTENT["create"]])
def all_who_meet_are_told(it):
    site, ids = it.site(), [it.id() for _ in range(4)]
    urls = ["b", "a", "b", "g"]
    for id_, url in zip(ids, urls):
        (it.a if url == "a" else it.b).subscription(id_, it.volume(site), url=url).must(200)
    answer = it.a.intent(it.id(), it.volume(site)).must(201)
    told = [(one["subscription_id"], by["uss_base_url"]) for by in answer.part("subscribers") for one in by["subscriptions"]]
    answer.finds(ids, "the four, each once", [id_ for id_, _ in told])
    answer.need(sorted(told) == sorted((id_, URL.format(url)) for id_, url in zip(ids, urls)), "the four, each at its address")
    answer.need(set(answer.indexes.values()) == {1}, "index 1 of each")
    if not it.dialect.is_standard:
        by_url = [by["uss_base_url"] for by in answer.value["subscribers"]]
        answer.need(by_url == sorted(set(by_url)), "one entry for each address, in their order")
        lists = [[one["subscription_id"] for one in by["subscriptions"]] for by in answer.value["subscribers"]]
        answer.need(all(ids == sorted(ids) for ids in lists), "the subscriptions of each in the order of their ids")


@check("A subscription that an intent references lists it, and cannot be deleted while it does", "P17 DEPENDED",
       [INTENT["create"], SUBSCRIPTION["get"], SUBSCRIPTION["delete"]])
def a_named_subscription_stays(it):
    named, flight, site = it.id(), it.id(), it.site()
    version = it.a.subscription(named, it.volume(site)).must(200).reference["version"]
    created = it.a.intent(flight, it.volume(site), subscription=named).must(201)
    created.need(created.reference["subscription_id"] == named, "the subscription that it references")
    read = it.a.get(SUBSCRIPTIONS, named).must(200)
    read.need(read.reference.get("dependent_operational_intents") == [flight], "the intent among those that depend on it")
    seen = it.b.get(INTENTS, flight).must(200)
    seen.need(it.dialect.is_standard or seen.reference["subscription_id"] == named, "the subscription that it references")
    it.a.delete(SUBSCRIPTIONS, named, version).must(409, "P17 DEPENDED", standard=(400, 409))
    it.a.delete(INTENTS, flight, created.reference["ovn"]).must(200)
    read = it.a.get(SUBSCRIPTIONS, named).must(200)
    read.need(not read.reference.get("dependent_operational_intents"), "no intent that depends on it")
    it.a.delete(SUBSCRIPTIONS, named, version).must(200)


@check("An intent cannot reference a subscription that does not exist, or that is another USS's", "P16 SUBSCRIPTION", [INTENT["create"]])
def only_an_own_subscription_is_named(it):
    named, flight, site = it.id(), it.id(), it.site()
    it.b.subscription(named, it.volume(site)).must(200)
    for id_ in (named, it.id()):
        it.a.intent(flight, it.volume(site), subscription=id_).must(400, "P16 SUBSCRIPTION", standard=(400, 403, 404, 409))
        it.a.get(INTENTS, flight).must(404, "P7 FOUND")
    read = it.b.get(SUBSCRIPTIONS, named).must(200)
    read.need(read.reference["notification_index"] == 0, "index 0")
    read.need(not read.reference.get("dependent_operational_intents"), "nothing that depends on it")


@check("A subscription for nothing, with too large an area, or without an address is denied", "P5 FORM, P6 AREA",
       [SUBSCRIPTION["create"], SUBSCRIPTION["query"]])
def wrong_subscriptions_are_refused(it):
    id_, volume = it.id(), it.volume(it.site())
    it.a.subscription(id_, volume, intents=False).must(400, "P5 FORM")
    body = it.subscription_body(volume)
    it.a.put(SUBSCRIPTIONS, id_, {name: value for name, value in body.items() if name != "uss_base_url"}).must(400, "P5 FORM")
    it.a.put(SUBSCRIPTIONS, id_, {name: value for name, value in body.items() if name != "extents"}).must(400, "P5 FORM")
    it.a.subscription(id_, it.dialect.too_large_volume(it.run.home)).must(413, "P6 AREA")
    it.a.query(SUBSCRIPTIONS, area=it.dialect.too_large(it.run.home)).must(413, "P6 AREA")
    it.a.get(SUBSCRIPTIONS, id_).must(404, "P7 FOUND")


@check("A subscription for constraints needs the scope of constraint processing", "P11 ROLE", only="profile")
def a_subscription_takes_its_scope(it):
    id_, volume = it.id(), it.volume(it.site())
    it.a.subscription(id_, volume, intents=False, constraints=True).must(403, "P11 ROLE")
    it.a.subscription(id_, volume, constraints=True).must(403, "P11 ROLE")
    it.a.get(SUBSCRIPTIONS, id_).must(404, "P7 FOUND")
    it.b_processing.subscription(id_, volume, intents=False, constraints=True).must(200)


@check("An update of an intent replaces its reference to a subscription, and one without a reference removes it; then the old one can be deleted",
       "Effects, P17 DEPENDED", [INTENT["update"], INTENT["get"], SUBSCRIPTION["get"], SUBSCRIPTION["delete"]])
def an_update_names_anew(it):
    one, two, flight, site = it.id(), it.id(), it.id(), it.site()
    it.a.subscription(one, it.volume(site)).must(200)
    version = it.a.subscription(two, it.volume(site)).must(200).reference["version"]
    told = it.a.intent(flight, it.volume(site), subscription=one).must(201).reference
    for named in (two, None, one):
        put = it.a.intent(flight, it.volume(site), subscription=named, over=told["ovn"]).must(200)
        told = put.reference
        for answer in (put, it.a.get(INTENTS, flight).must(200)):
            shown = answer.reference.get("subscription_id")
            answer.need(shown == named if named else shown not in (one, two), "the subscription of this update" if named else "no subscription")
        for id_ in (one, two):
            depends_on(it.a.get(SUBSCRIPTIONS, id_).must(200), [flight] if id_ == named else [])
    it.a.delete(SUBSCRIPTIONS, two, version).must(200)


def depends_on(read, flights):
    found = read.reference.get("dependent_operational_intents") or []
    read.finds(flights, "exactly the intents that reference it", found)


@check("An update replaces a reference to an existing subscription by one to a requested new one, and that one by one to an existing one", "",
       [INTENT["update"], SUBSCRIPTION["get"]], only="standard")
def an_update_replaces_an_implicit_subscription(it):
    named, flight, site, new = it.id(), it.id(), it.site(), {"uss_base_url": URL.format("a")}
    it.a.subscription(named, it.volume(site)).must(200)
    told = it.a.intent(flight, it.volume(site), subscription=named).must(201).reference
    put = it.a.intent(flight, it.volume(site), new_subscription=new, over=told["ovn"]).must(200)
    implicit = put.reference["subscription_id"]
    put.need(implicit != named, "another subscription")
    read = it.a.get(SUBSCRIPTIONS, implicit).must(200)
    read.need(read.reference.get("implicit_subscription") is True, "an implicit subscription")
    depends_on(read, [flight])
    depends_on(it.a.get(SUBSCRIPTIONS, named).must(200), [])
    put = it.a.intent(flight, it.volume(site), subscription=named, over=put.reference["ovn"]).must(200)
    put.need(put.reference["subscription_id"] == named, "the existing subscription")
    depends_on(it.a.get(SUBSCRIPTIONS, named).must(200), [flight])
    read = it.a.get(SUBSCRIPTIONS, implicit).must(200, standard=(200, 404))
    if read.status == 200:
        depends_on(read, [])


@check("An intent that requests a new subscription references one over its volumes, which is notified of what meets it and deleted with it", "",
       [INTENT["create"], INTENT["delete"], SUBSCRIPTION["get"]], only="standard")
def an_implicit_subscription_goes_with_its_intent(it):
    flight, site = it.id(), it.site()
    created = it.a.intent(flight, it.volume(site), new_subscription={"uss_base_url": URL.format("a")}).must(201)
    named = created.reference["subscription_id"]
    read = it.a.get(SUBSCRIPTIONS, named).must(200)
    read.need(read.reference.get("implicit_subscription") is True, "an implicit subscription")
    read.need(read.reference.get("dependent_operational_intents") == [flight], "the intent that it is of")
    before = read.reference["notification_index"]
    told = it.b.intent(it.id(), it.volume(site), key=[created.reference["ovn"]]).must(201)
    told.need(told.indexes.get(named) == before + 1, f"the subscription with index {before + 1}")
    it.a.delete(INTENTS, flight, created.reference["ovn"]).must(200)
    it.a.get(SUBSCRIPTIONS, named).must(404)
