"""Lost responses, repeated requests, and two USSs at once."""
import itertools

from suite import wire
from suite.check import AVAILABILITY as SETTINGS, INTENT, SUBSCRIPTION, check
from suite.trial import AVAILABILITY, INTENTS, SUBSCRIPTIONS


def sent_twice(it, supplier, method, path, body=None):
    """Returns the response to a repeated request, whose first response was lost."""
    if method == "PUT":
        it.may_be_kept(supplier, path)
    lost = it.client_of(method, path).lose(supplier.caller, method, path, body)
    it.exchanges.append(lost)
    return supplier.ask(method, path, body)


@check("A creation whose response was lost is done once: repeated it is 409, and the reference is the caller's own",
       "P8 FRESH", [INTENT["create"], INTENT["get"]])
def a_lost_creation_is_done_once(it):
    id_, site = it.id(), it.site()
    sent_twice(it, it.a, "PUT", f"{INTENTS}/{id_}", it.intent_body(it.volume(site))).must(409, "P8 FRESH")
    read = it.a.get(INTENTS, id_).must(200)
    read.need("ovn" in read.reference, "the OVN, as it is one's own")
    read.need(it.dialect.is_standard or read.reference["version"] == 1, "version 1")
    it.a.delete(INTENTS, id_, read.reference["ovn"]).must(200)


@check("An update whose response was lost is done once: repeated it is 409, and a read gives its OVN",
       "P10 VERSION", [INTENT["update"], INTENT["get"]])
def a_lost_update_is_done_once(it):
    id_, site = it.id(), it.site()
    first = it.a.intent(id_, it.volume(site)).must(201).reference
    body = it.intent_body(it.volume(site), state="Activated")
    sent_twice(it, it.a, "PUT", f"{INTENTS}/{id_}/{first['ovn']}", body).must(409, "P10 VERSION")
    read = it.a.get(INTENTS, id_).must(200)
    read.need(read.reference["state"] == "Activated" and read.reference["ovn"] != first["ovn"], "the result of the update")
    read.need(it.dialect.is_standard or read.reference["version"] == 2, "version 2")


@check("A deletion whose response was lost is done: repeated it is 404", "P7 FOUND", [INTENT["delete"]])
def a_lost_deletion_is_done(it):
    id_ = it.id()
    ovn = it.a.intent(id_, it.volume(it.site())).must(201).reference["ovn"]
    sent_twice(it, it.a, "DELETE", f"{INTENTS}/{id_}/{ovn}").must(404, "P7 FOUND")


@check("A subscription whose response was lost exists once, and is notified",
       "P8 FRESH, P10 VERSION", [SUBSCRIPTION["create"], SUBSCRIPTION["update"]])
def a_lost_subscription_is_there_once(it):
    id_, site = it.id(), it.site()
    path = f"{SUBSCRIPTIONS}/{id_}"
    body = it.subscription_body(it.volume(site))
    sent_twice(it, it.a, "PUT", path, body).must(409, "P8 FRESH")
    told = it.a.get(SUBSCRIPTIONS, id_).must(200).reference
    sent_twice(it, it.a, "PUT", f"{path}/{told['version']}", body).must(409, "P10 VERSION")
    answer = it.b.intent(it.id(), it.volume(site)).must(201)
    answer.need(answer.indexes.get(id_) == 1, "the subscription, once, with index 1")


@check("An availability change whose response was lost is done once: repeated it is 409, and a read gives its value",
       "P10 VERSION", [SETTINGS["set"], SETTINGS["get"]])
def a_lost_setting_is_done_once(it):
    uss = it.b.uss
    old = it.arbiter.availability(uss).must(200)
    was = old.value["status"]["availability"]
    new = "Down" if was != "Down" else "Normal"
    it.may_be_set(uss)
    body = {"availability": new, "old_version": old.value["version"]}
    sent_twice(it, it.arbiter, "PUT", f"{AVAILABILITY}/{uss}", body).must(409, "P10 VERSION")
    read = it.arbiter.availability(uss).must(200)
    read.need(read.value["status"]["availability"] == new, f"{uss} is {new}")


def at_once(it, *asked):
    """Returns the responses to changes that are sent at once."""
    for supplier, method, path, _ in asked:
        if method == "PUT":
            it.may_be_kept(supplier, path)
    writers = itertools.cycle(it.pair.writers)
    exchanges = wire.at_once(it.run.pace, [(next(writers), supplier.caller, *words) for supplier, *words in asked])
    return [it.taken(supplier, exchange) for (supplier, *_), exchange in zip(asked, exchanges)]


@check("Of two USSs that put intents that meet at once, one succeeds, and the other's denial lists that intent", "P14 KEY", [INTENT["create"]])
def one_of_two_is_kept(it):
    for _ in range(4):
        site, ids = it.site(), (it.id(), it.id())
        asked = [(supplier, "PUT", f"{INTENTS}/{id_}", it.intent_body(it.volume(site))) for supplier, id_ in zip((it.a, it.b), ids)]
        answers = at_once(it, *asked)
        won = [k for k, answer in enumerate(answers) if answer.status == 201]
        answers[-1].need(len(won) == 1, "one 201 of the two")
        denied = answers[1 - won[0]].must(409, "P14 KEY")
        denied.finds([ids[won[0]]], "the other's intent is missing", [entity["id"] for entity in denied.missing()])
        found = it.a.query(INTENTS, site).must(200)
        found.finds([ids[won[0]]], "the stored one")


@check("Of two updates over one OVN that are sent at once, one succeeds", "P10 VERSION", [INTENT["update"]])
def one_of_two_updates_is_done(it):
    id_, site = it.id(), it.site()
    first = it.a.intent(id_, it.volume(site)).must(201).reference
    path = f"{INTENTS}/{id_}/{first['ovn']}"
    asked = [(it.a, "PUT", path, it.intent_body(it.volume(site), state=state)) for state in ("Accepted", "Activated")]
    answers = at_once(it, *asked)
    won = [k for k, answer in enumerate(answers) if answer.status == 200]
    answers[-1].need(len(won) == 1, "one 200 of the two")
    answers[1 - won[0]].must(409, "P10 VERSION")
    read = it.a.get(INTENTS, id_).must(200)
    read.need(read.reference["state"] == ("Accepted", "Activated")[won[0]], "the result of the successful update")


@check("Changes that are sent at once notify a subscription with different indexes, without a gap",
       "Effects", [INTENT["create"]])
def indexes_of_changes_at_once_differ(it):
    id_, site = it.id(), it.site()
    it.a.subscription(id_, it.volume(site, low=0, high=1000)).must(200)
    bodies = [it.intent_body(it.volume(site, low=150 * k, high=150 * k + 100)) for k in range(4)]
    asked = [((it.a, it.b)[k % 2], "PUT", f"{INTENTS}/{it.id()}", body) for k, body in enumerate(bodies)]
    answers = [answer.must(201) for answer in at_once(it, *asked)]
    answers[-1].need(sorted(answer.indexes.get(id_, 0) for answer in answers) == [1, 2, 3, 4], "the indexes 1 to 4, each once")
    read = it.a.get(SUBSCRIPTIONS, id_).must(200)
    read.need(read.reference["notification_index"] == 4, "index 4")
