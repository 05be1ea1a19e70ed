"""The availability of USSs."""
from suite.check import AVAILABILITY as OPERATIONS, INTENT, check
from suite.checks.keys import lacks
from suite.trial import AVAILABILITY, INTENTS


def is_told(answer, uss, availability, version=None):
    status = answer.part("status")
    answer.need(status["uss"] == uss and status["availability"] == availability, f"{uss} is {availability}")
    answer.need(version is None or answer.value["version"] == version, "the version that was returned")
    return answer.value["version"]


@check("A USS whose availability was never set is Unknown, with the empty version", "What is kept", [OPERATIONS["get"]])
def nothing_said_is_unknown(it):
    uss = f"qualify-{it.id()[:8]}"
    for supplier in (it.a, it.b_monitoring, it.arbiter):
        answer = supplier.availability(uss).must(200)
        version = is_told(answer, uss, "Unknown")
        answer.need(it.dialect.is_standard or version == "", "the empty version")


@check("Setting an availability over its current version succeeds and gives a new version; over another it is 409", "P10 VERSION",
       [OPERATIONS["set"], OPERATIONS["get"]])
def an_availability_is_set(it):
    uss = it.b.uss
    version = it.arbiter.availability(uss).must(200).value["version"]
    for availability in ("Down", "Normal", "Unknown"):
        was = version
        version = is_told(it.arbiter.set_availability(uss, availability, was).must(200), uss, availability)
        read = it.a.availability(uss).must(200)
        read.need(version != was, "a new version")
        is_told(read, uss, availability, version)
        it.arbiter.set_availability(uss, "Down", was).must(409, "P10 VERSION")
        it.arbiter.set_availability(uss, "Down", "none-of-its-versions").must(409, "P10 VERSION")
        is_told(it.b.availability(uss).must(200), uss, availability, version)


@check("Only an arbiter sets an availability; for others it is 403 and changes nothing", "P4 SCOPE", [OPERATIONS["set"], OPERATIONS["get"]])
def only_an_arbiter_sets(it):
    uss = it.b.uss
    told = it.arbiter.availability(uss).must(200)
    for supplier in (it.a, it.b, it.b_monitoring, it.b_processing, it.manager):
        supplier.set_availability(uss, "Down", told.value["version"]).must(403, "P4 SCOPE")
    read = it.arbiter.availability(uss).must(200)
    read.need(read.value == told.value, "the previous value")
    it.manager.availability(uss).must(403, "P4 SCOPE")


@check("Setting an availability to an unknown value, or without a value, is 400", "P5 FORM", [OPERATIONS["set"]])
def a_wrong_setting_is_refused(it):
    uss = it.b.uss
    told = it.arbiter.availability(uss).must(200)
    version = told.value["version"]
    over = {"old_version": version}
    for body in (over | {"availability": "Up"}, over | {"availability": "down"}, over, "[]"):
        it.arbiter.ask("PUT", f"{AVAILABILITY}/{uss}", body).must(400, "P5 FORM")
    read = it.arbiter.availability(uss).must(200)
    read.need(read.value == told.value, "the previous value")


@check("References show the current availability of their manager", "References", [INTENT["get"], INTENT["query"], OPERATIONS["set"]])
def references_show_the_present_availability(it):
    id_, site, uss = it.id(), it.site(), it.b.uss
    version = it.arbiter.availability(uss).must(200).value["version"]
    it.b.intent(id_, it.volume(site)).must(201)
    for availability in ("Down", "Normal"):
        version = it.arbiter.set_availability(uss, availability, version).must(200).value["version"]
        for supplier in (it.a, it.b):
            read = supplier.get(INTENTS, id_).must(200)
            read.need(read.reference["uss_availability"] == availability, f"uss_availability {availability}")
        found = it.a.query(INTENTS, site).must(200)
        shown = [entity["uss_availability"] for entity in found.part("operational_intent_references")]
        found.need(shown == [availability], f"uss_availability {availability}")


@check("No key needs the planned intents of a USS that is Down, but keys need its activated ones", "P14 KEY", only="profile")
def plans_of_who_is_down_are_spared(it):
    planned, active, site, uss = it.id(), it.id(), it.site(), it.b.uss
    version = it.arbiter.availability(uss).must(200).value["version"]
    ovn = it.b.intent(planned, it.volume(site)).must(201).reference["ovn"]
    it.b.intent(active, it.volume(site), state="Activated", key=[ovn]).must(201)
    own, volume = it.id(), it.volume(site)
    lacks(it, it.a.intent(own, volume), planned, active)
    version = it.arbiter.set_availability(uss, "Down", version).must(200).value["version"]
    lacks(it, it.a.intent(own, volume), active)
    it.arbiter.set_availability(uss, "Normal", version).must(200)
    lacks(it, it.a.intent(own, volume), planned, active)
