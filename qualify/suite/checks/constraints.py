"""Constraints: what is stored, and which USSs must know them."""
from suite.check import CONSTRAINT, INTENT, check
from suite.checks.keys import lacks
from suite.dialect import URL
from suite.trial import CONSTRAINTS, INTENTS


@check("A created constraint is 201, can be read and found, and only its manager sees its OVN", "Effects, References",
       [CONSTRAINT["create"], CONSTRAINT["get"], CONSTRAINT["query"]])
def a_constraint_is_created_and_read(it):
    id_, site = it.id(), it.site()
    created = it.manager.constraint(id_, it.volume(site)).must(201)
    told = created.reference
    created.need(told["id"] == id_ and told["uss_base_url"] == URL.format("c") and "ovn" in told, "its id, its address and its OVN")
    if not it.dialect.is_standard:
        created.need(told["version"] == 1 and told["manager"] == it.manager.uss, "version 1, and its manager")
    read = it.manager.get(CONSTRAINTS, id_).must(200)
    read.need(read.reference == told, "the same reference")
    seen = it.b_processing.get(CONSTRAINTS, id_).must(200)
    hidden = {name: value for name, value in told.items() if name != "ovn"}
    seen.need({name: value for name, value in seen.reference.items() if name != "ovn"} == hidden, "the same reference except for its OVN")
    seen.need(it.dialect.is_standard or "ovn" not in seen.reference, "no OVN")
    found = it.b_processing.query(CONSTRAINTS, site).must(200)
    found.finds([id_], "the constraint, and nothing else")
    elsewhere = it.b_processing.query(CONSTRAINTS, it.site()).must(200)
    elsewhere.finds([], "nothing elsewhere")


@check("A constraint is updated and deleted only over its current OVN; then it does not exist", "P10 VERSION, P7 FOUND",
       [CONSTRAINT["update"], CONSTRAINT["delete"]])
def a_constraint_is_updated_and_deleted(it):
    id_, site = it.id(), it.site()
    first = it.manager.constraint(id_, it.volume(site)).must(201).reference
    updated = it.manager.constraint(id_, it.volume(site), over=first["ovn"], url="e").must(200)
    second = updated.reference
    updated.need(second["version"] > first["version"] and second["ovn"] != first["ovn"], "a higher version and another OVN")
    updated.need(second["uss_base_url"] == URL.format("e"), "the new address")
    it.manager.constraint(id_, it.volume(site), over=first["ovn"]).must(409, "P10 VERSION")
    it.manager.delete(CONSTRAINTS, id_, first["ovn"]).must(409, "P10 VERSION")
    read = it.manager.get(CONSTRAINTS, id_).must(200)
    read.need(read.reference == second, "the result of the update")
    deleted = it.manager.delete(CONSTRAINTS, id_, second["ovn"]).must(200)
    deleted.need(deleted.reference == second, "the reference as it was")
    it.manager.get(CONSTRAINTS, id_).must(404, "P7 FOUND")
    found = it.b_processing.query(CONSTRAINTS, site).must(200)
    found.finds([], "nothing")
    it.manager.delete(CONSTRAINTS, id_, second["ovn"]).must(404, "P7 FOUND")


@check("Creating a constraint with an existing id is 409", "P8 FRESH", [CONSTRAINT["create"]])
def a_constraint_is_created_once(it):
    id_, volume = it.id(), it.volume(it.site())
    it.manager.constraint(id_, volume).must(201)
    it.manager.constraint(id_, volume).must(409, "P8 FRESH")


@check("Constraint management puts constraints and constraint processing sees them; other scopes are 403", "P4 SCOPE",
       [CONSTRAINT["create"], CONSTRAINT["get"], CONSTRAINT["query"], CONSTRAINT["update"], CONSTRAINT["delete"]])
def constraints_have_scopes(it):
    id_, site = it.id(), it.site()
    ovn = it.manager.constraint(id_, it.volume(site)).must(201).reference["ovn"]
    it.a.get(CONSTRAINTS, id_).must(403, "P4 SCOPE")
    it.a.query(CONSTRAINTS, site).must(403, "P4 SCOPE")
    for supplier in (it.a, it.b_processing, it.arbiter):
        supplier.constraint(it.id(), it.volume(site)).must(403, "P4 SCOPE")
        supplier.constraint(id_, it.volume(site), over=ovn).must(403, "P4 SCOPE")
        supplier.delete(CONSTRAINTS, id_, ovn).must(403, "P4 SCOPE")
    read = it.manager.query(CONSTRAINTS, site).must(200)
    read.finds([id_], "the constraint, still there")


@check("An intent whose subscription is for constraints needs the constraints that it meets in its key", "P14 KEY", [INTENT["create"]])
def a_constraint_is_needed_by_who_is_told_of_them(it):
    id_, site, named = it.id(), it.site(), it.id()
    ovn = it.manager.constraint(id_, it.volume(site)).must(201).reference["ovn"]
    it.b_processing.subscription(named, it.volume(site), constraints=True).must(200)
    denied = lacks(it, it.b_processing.intent(it.id(), it.volume(site), subscription=named), constraints=[id_])
    denied.need(it.dialect.is_standard or "ovn" not in denied.missing(CONSTRAINTS)[0], "no OVN")
    it.b_processing.intent(it.id(), it.volume(site), subscription=named, key=[ovn]).must(201)


@check("An intent that meets an intent and two constraints: the denial lists all missing entities of both kinds", "P14 KEY", [INTENT["create"]])
def both_kinds_are_told(it):
    site, one, two, first, named = it.site(), it.id(), it.id(), it.id(), it.id()
    ovn = it.manager.constraint(one, it.volume(site)).must(201).reference["ovn"]
    it.manager.constraint(two, it.volume(site)).must(201)
    it.a.intent(first, it.volume(site)).must(201)
    it.b_processing.subscription(named, it.volume(site), constraints=True).must(200)
    lacks(it, it.b_processing.intent(it.id(), it.volume(site), subscription=named), first, constraints=[one, two])
    lacks(it, it.b_processing.intent(it.id(), it.volume(site), subscription=named, key=[ovn]), first, constraints=[two])


@check("An intent without a subscription needs constraints in its key exactly if the token permits constraint processing", "P14 KEY", only="profile")
def constraints_are_needed_by_scope(it):
    id_, site = it.id(), it.site()
    it.manager.constraint(id_, it.volume(site)).must(201)
    lacks(it, it.b_processing.intent(it.id(), it.volume(site)), constraints=[id_])
    created = it.b.intent(it.id(), it.volume(site)).must(201)
    it.b.delete(INTENTS, created.reference["id"], created.reference["ovn"]).must(200)
    named = it.id()
    it.b.subscription(named, it.volume(site)).must(200)
    it.b_processing.intent(it.id(), it.volume(site), subscription=named).must(201)


@check("A constraint needs no key, and an intent may have the id of a constraint", "P14 KEY, Effects", only="profile")
def a_constraint_needs_no_key(it):
    id_, site = it.id(), it.site()
    it.a.intent(id_, it.volume(site)).must(201)
    it.manager.constraint(id_, it.volume(site)).must(201)
    it.manager.constraint(it.id(), it.volume(site)).must(201)


@check("A constraint with too large an area, or that has ended, is denied",
       "P6 AREA, P13 ENDED", [CONSTRAINT["create"], CONSTRAINT["query"]])
def wrong_constraints_are_refused(it):
    id_ = it.id()
    it.manager.constraint(id_, it.dialect.too_large_volume(it.run.home)).must(413, "P6 AREA")
    it.b_processing.query(CONSTRAINTS, area=it.dialect.too_large(it.run.home)).must(413, "P6 AREA")
    it.manager.constraint(id_, it.volume(it.site(), start=-7200, end=-3600)).must(400, "P13 ENDED")
    it.manager.get(CONSTRAINTS, id_).must(404, "P7 FOUND")
