"""USSs that speak the standard, byte-exact over both programs: the gateway's own behaviour.

`qualify/run --standard` tests what each service of the standard must do."""
import contextlib
import json
import random
import re
import time

import shapes
from properties import translate
from standard import check
from world import (
    ARBITRATION, BESIDE, FAR, FRONT, INTENTS, MANAGEMENT, MANHATTAN, MONITORING, PROCESSING, STRATEGIC, SUBSCRIPTIONS, TOP, ZERO, Gateway, Recorded,
    Service, circle, expect, extent, intent, new_id, stamp)

URL = {"uss_base_url": "https://uss.example"}


class Place:
    """A gateway before a service, and requests of USSs."""

    def __init__(self, files, gateway, service):
        self.files, self.gateway, self.service = files, gateway, service

    def ask(self, sub, scopes, method, path, body=None):
        return check(self.gateway.ask(self.files.token(sub, *scopes.split()), method, path, body))

    def a(self, method, path, body=None):
        return self.ask("uss-a", STRATEGIC, method, path, body)

    def b(self, method, path, body=None):
        return self.ask("uss-b", STRATEGIC, method, path, body)


@contextlib.contextmanager
def over_tables(files, program, *options, prepare=None, of_service=()):
    service = Service(files, database=f"{new_id()}.db", options=of_service)
    gateway = Gateway(program, files, service.port, *options, prepare=prepare)
    try:
        yield Place(files, gateway, service)
    finally:
        service.end()
        lived = gateway.end()
    assert lived, gateway.lines()[-3000:]


@contextlib.contextmanager
def recorded(files, program, *options):
    service = Recorded(files)
    gateway = Gateway(program, files, service.port, *options)
    try:
        yield Place(files, gateway, service)
    finally:
        lived = gateway.end()
        service.end()
    assert lived, gateway.lines()[-3000:]


def reference(answer):
    return answer.json["operational_intent_reference"]


def states_and_scopes(files, program):
    """Scopes choose the service's token: each set has its own."""
    with over_tables(files, program) as place:
        off_nominal = lambda *words: place.ask("uss-a", f"{STRATEGIC} {MONITORING}", *words)
        name = new_id()
        expect(place.a("PUT", f"{INTENTS}/{name}", intent(extent(MANHATTAN), state="Contingent")), 403, "P11 ROLE")
        told = reference(off_nominal("PUT", f"{INTENTS}/{name}", intent(extent(MANHATTAN), state="Nonconforming")))
        expect(off_nominal("PUT", f"{INTENTS}/{name}/{told['ovn']}", intent(extent(MANHATTAN))), 400, "P12 CHANGE")
        expect(place.ask("uss-a", "other.scope", "GET", f"{INTENTS}/{name}"), 403, "P4 SCOPE")
        expect(place.ask("client@example", f"{STRATEGIC} other.scope", "GET", f"{INTENTS}/{name}"), 200)
        mine = reference(place.ask("client@example", STRATEGIC, "PUT", f"{INTENTS}/{new_id()}", intent(extent(FAR))))
        assert mine["manager"] == "uss-d"
        ended = intent(extent(MANHATTAN, start=1000, end=2000))
        expect(place.a("PUT", f"{INTENTS}/{new_id()}", ended), 400, "P13 ENDED")


def explicit_subscriptions(files, program):
    with recorded(files, program) as place:
        name = new_id()
        body = {"extents": extent(MANHATTAN), "notify_for_operational_intents": True, **URL}
        created = expect(place.a("PUT", f"{SUBSCRIPTIONS}/{name}", body), 200)
        version = created["subscription"]["version"]
        assert created["operational_intent_references"] == [] and created["subscription"]["implicit_subscription"] is False
        # Only an outline as bound: from now on, for a day.
        open_ended = expect(place.a("PUT", f"{SUBSCRIPTIONS}/{new_id()}", {**body, "extents": {"volume": BESIDE}}), 200)
        assert open_ended["subscription"]["time_end"]["value"][:10] > open_ended["subscription"]["time_start"]["value"][:10]
        seen = place.service.asked[-1][2]["extents"]
        assert seen["time_end"] - seen["time_start"] == 86_400 and (seen["altitude_lower"], seen["altitude_upper"]) == (-100_000, 1_000_000)
        found = expect(place.a("POST", f"{SUBSCRIPTIONS}/query", {"area_of_interest": extent(MANHATTAN)}), 200)
        assert len(found["subscriptions"]) == 2
        expect(place.b("GET", f"{SUBSCRIPTIONS}/{name}"), 403, "P9 MANAGER")
        flight = reference(place.a("PUT", f"{INTENTS}/{new_id()}", intent(extent(MANHATTAN), subscription_id=name.upper())))
        assert flight["subscription_id"] == name
        told = expect(place.a("GET", f"{SUBSCRIPTIONS}/{name}"), 200)["subscription"]
        assert told["dependent_operational_intents"] == [flight["id"]] and told["implicit_subscription"] is False
        expect(place.a("DELETE", f"{SUBSCRIPTIONS}/{name}/{version}"), 409, "P17 DEPENDED")
        expect(place.a("DELETE", f"{INTENTS}/{flight['id']}/{flight['ovn']}"), 200)
        updated = expect(place.a("PUT", f"{SUBSCRIPTIONS}/{name}/{version}", {**body, "extents": extent(BESIDE)}), 200)
        expect(place.a("DELETE", f"{SUBSCRIPTIONS}/{name}/{updated['subscription']['version']}"), 200)
        expect(place.a("PUT", f"{INTENTS}/{new_id()}", intent(extent(MANHATTAN), subscription_id=name)), 400, "P16 SUBSCRIPTION")


NEW = {"new_subscription": {"uss_base_url": "https://uss.example"}}
EVERYWHERE = {"area_of_interest": {"volume": circle(40.9, -73.97, 60_000)}}


def subscriptions_of(place):
    found = expect(place.a("POST", f"{SUBSCRIPTIONS}/query", EVERYWHERE), 200)["subscriptions"]
    return {it["id"]: it for it in found}


def implicit_subscriptions(files, program):
    """A subscription is made for an intent, moves with it, and is deleted with it."""
    with recorded(files, program) as place:
        name = new_id()
        first = reference(place.a("PUT", f"{INTENTS}/{name}", intent(extent(MANHATTAN), extent(BESIDE, 20, 500), **NEW)))
        made = subscriptions_of(place)
        assert list(made) == [first["subscription_id"]]
        assert made[first["subscription_id"]]["implicit_subscription"] is True
        assert made[first["subscription_id"]]["dependent_operational_intents"] == [name]
        hull = next(body for method, path, body in place.service.asked if "subscriptions/" in path and method == "PUT")["extents"]
        assert hull["altitude_upper"] == 5000 and hull["altitude_lower"] == 0
        # An update that requests a subscription gets another one, and the old one is deleted.
        second = reference(place.a("PUT", f"{INTENTS}/{name}/{first['ovn']}", intent(extent(FAR), **NEW)))
        assert second["subscription_id"] != first["subscription_id"] and list(subscriptions_of(place)) == [second["subscription_id"]]
        # So does an update that references its current one.
        third = reference(place.a(
            "PUT", f"{INTENTS}/{name}/{second['ovn']}", intent(extent(MANHATTAN), subscription_id=second["subscription_id"])))
        assert list(subscriptions_of(place)) == [third["subscription_id"]]
        # A denied update leaves the old state.
        expect(place.a("PUT", f"{INTENTS}/{name}/{second['ovn']}", intent(extent(FAR), **NEW)), 409, "P10 VERSION")
        assert list(subscriptions_of(place)) == [third["subscription_id"]]
        # A denied creation leaves none.
        expect(place.b("PUT", f"{INTENTS}/{new_id()}", intent(extent(MANHATTAN), **NEW)), 409, "P14 KEY")
        assert expect(place.b("POST", f"{SUBSCRIPTIONS}/query", EVERYWHERE), 200)["subscriptions"] == []
        # An update without a reference deletes it.
        fourth = reference(place.a("PUT", f"{INTENTS}/{name}/{third['ovn']}", intent(extent(MANHATTAN))))
        assert fourth["subscription_id"] == ZERO and subscriptions_of(place) == {}
        fifth = reference(place.a("PUT", f"{INTENTS}/{name}/{fourth['ovn']}", intent(extent(MANHATTAN), **NEW)))
        assert list(subscriptions_of(place)) == [fifth["subscription_id"]]
        expect(place.a("DELETE", f"{INTENTS}/{name}/{fifth['ovn']}"), 200)
        assert subscriptions_of(place) == {}
        role = place.ask("uss-a", f"{STRATEGIC}", "PUT", f"{INTENTS}/{name}", intent(
            extent(MANHATTAN), new_subscription={**URL, "notify_for_constraints": True}))
        expect(role, 403, "P11 ROLE")


def shared_implicit_subscriptions(files, program):
    """A subscription that another intent references stays, and is never moved."""
    with recorded(files, program) as place:
        one, two = new_id(), new_id()
        first = reference(place.a("PUT", f"{INTENTS}/{one}", intent(extent(MANHATTAN), **NEW)))
        named = first["subscription_id"]
        expect(place.a("PUT", f"{INTENTS}/{two}", intent(extent(FAR), subscription_id=named)), 201)
        expect(place.a("DELETE", f"{INTENTS}/{one}/{first['ovn']}"), 200)
        assert list(subscriptions_of(place)) == [named]
        again = reference(place.a("PUT", f"{INTENTS}/{one}", intent(extent(BESIDE), **NEW)))
        assert again["subscription_id"] not in (named, ZERO) and len(subscriptions_of(place)) == 2
        assert subscriptions_of(place)[named]["dependent_operational_intents"] == [two]


def answers_lost_on_the_way(files, program):
    """Whichever response of the service is lost, before or after the call was done: an intent that references a
    subscription is within it, and the same put again succeeds."""
    for is_done in (False, True):
        for lost in range(5):
            with recorded(files, program) as place:
                name, service = new_id(), place.service
                before = reference(place.a("PUT", f"{INTENTS}/{name}", intent(extent(MANHATTAN), **NEW)))
                service.lost, service.is_done = len(service.asked) + lost, is_done
                path, body = f"{INTENTS}/{name}/{before['ovn']}", intent(extent(BESIDE), **NEW)
                got = place.a("PUT", path, body)
                assert got.status in (200, 504), got
                now, kept = reference(place.a("GET", f"{INTENTS}/{name}")), subscriptions_of(place)
                check_covered(service, now, kept)
                if now["version"] == 1:
                    now = reference(place.a("PUT", path, body))
                    kept = subscriptions_of(place)
                    assert list(kept) == [now["subscription_id"]], (kept, now)
                else:
                    expect(place.a("PUT", path, body), 409, "P10 VERSION")
                assert now["version"] == 2
                check_covered(service, now, subscriptions_of(place))


def check_covered(service, now, kept):
    """Checks that the intent's subscription exists, and was last put over the intent's volumes."""
    assert now["subscription_id"] in kept
    puts = [it for it in service.asked if it[0] == "PUT"]
    volume = [body for _, path, body in puts if f"subscriptions/{now['subscription_id']}" in path][-1]["extents"]
    flown = [body for _, path, body in puts if "intent" in path and body["subscription_id"] == now["subscription_id"]][-1]["extents"]
    held = shapes.Held(volume["cells"])
    assert all(held.meets(shapes.Held([cell])) for it in flown for cell in it["cells"])


def new_subscription_over_tables(files, program):
    """The operator configures its handling. Stored entities remain when the service is started again."""
    with over_tables(files, program) as place:
        told = reference(place.a("PUT", f"{INTENTS}/{new_id()}", intent(extent(MANHATTAN), **NEW)))
        kept = subscriptions_of(place)
        assert list(kept) == [told["subscription_id"]] != [ZERO], (told, kept)
        place.service.end()
        place.service.start()
        assert subscriptions_of(place) == kept
    with over_tables(files, program, "--new-subscription", "ignore") as place:
        told = reference(place.a("PUT", f"{INTENTS}/{new_id()}", intent(extent(MANHATTAN), **NEW)))
        assert told["subscription_id"] == ZERO
    with over_tables(files, program, "--new-subscription", "refuse") as place:
        expect(place.a("PUT", f"{INTENTS}/{new_id()}", intent(extent(MANHATTAN), **NEW)), 400, "new_subscription is not taken")


def drawn_outlines_meet(files, program, count=1000):
    """The service itself reports that two outlines around one point meet."""
    draw = random.Random(11)
    with over_tables(files, program) as place:
        for _ in range(count):
            center, start = shapes.draw_center(draw), int(time.time()) + draw.randint(600, 2000)
            one, two = (shapes.draw_outline(draw, center)[0] for _ in range(2))
            height = draw.uniform(-100, 100)
            bodies = [intent(extent(one, height - draw.uniform(0, 9), height, start)),
                      intent(extent(two, height, height + draw.uniform(0, 9), start - 10, start))]
            name = new_id()
            first = place.gateway.ask(files.token("uss-a", STRATEGIC), "PUT", f"{INTENTS}/{name}", bodies[0])
            assert first.status == 201, first
            second = place.gateway.ask(files.token("uss-b", STRATEGIC), "PUT", f"{INTENTS}/{new_id()}", bodies[1])
            assert second.status == 409 and second.json["missing_operational_intents"][0]["id"] == name, (second, bodies)
            place.gateway.ask(files.token("uss-a", STRATEGIC), "DELETE", f"{INTENTS}/{name}/{reference(first)['ovn']}")


def body_of_the_document(files, program):
    """The body in CLIENTS.md is translated to the one shown there."""
    document = (TOP / "docs" / "CLIENTS.md").read_text()
    usual, flat = (json.loads(it.split("```")[0]) for it in document.split("```json\n")[1:3])
    assert translate(program, [("intent", usual)]) == [flat]


def reports(files, program):
    """A report gets an id and stands in the log, without the tokens in it; anything else is refused."""
    with over_tables(files, program) as place:
        path = f"{FRONT}reports"
        body = {"exchange": {"url": "https://b.example", "method": "GET", "headers": ["Authorization: Bearer abc.def.ghi", "Accept: */*"],
                             "recorder_role": "Client", "request_time": stamp(0), "problem": "late\n\u00fc"}}
        made = expect(place.a("POST", path, body), 201)
        assert made == {**body, "report_id": made["report_id"]} and len(made["report_id"]) == 36, made
        (line,) = [it for it in place.gateway.lines().splitlines() if "report of" in it]
        assert line.startswith("gateway: report of uss-a ") and made["report_id"] in line and "abc.def" not in line and line.isascii(), line
        assert expect(place.a("POST", path, body), 201)["report_id"] != made["report_id"]
        for wrong in ({}, {"exchange": []}, "x", "[]"):
            expect(place.a("POST", path, wrong), 400)
        expect(place.a("POST", path, {"exchange": {"problem": "x" * 70_000}}), 413)
        expect(place.a("GET", path), 405)
        expect(place.gateway.ask(None, "POST", path, body), 401)


def advice(files, program):
    """A denial of the service says what to do."""
    with over_tables(files, program) as place:
        name = new_id()
        expect(place.a("PUT", f"{INTENTS}/{name}", intent(extent(MANHATTAN))), 201)
        expect(place.a("PUT", f"{INTENTS}/{name}", intent(extent(MANHATTAN))), 409, "P8 FRESH: the id is in use")
        expect(place.b("PUT", f"{INTENTS}/{new_id()}", intent(extent(MANHATTAN))), 409, "P14 KEY: the key lacks")
        expect(place.a("GET", f"{INTENTS}/{new_id()}"), 404, "P7 FOUND: nothing of this kind")
        setting = {"availability": "Down", "old_version": "0123456789abcdef"}
        expect(place.ask("uss-v", ARBITRATION, "PUT", f"{FRONT}uss_availability/uss-a", setting), 409, "P10 VERSION: old_version is not the current")


def new_subscription_without_its_scope(files, program):
    """The denial names the scopes that the subscription needs, whatever those of the intent are."""
    strategic, processing = f"needs a token with the scope {STRATEGIC}", f", and with {PROCESSING} for notify_for_constraints"
    with over_tables(files, program) as place:
        for scopes, notify in (MONITORING, False), (MONITORING, True), (STRATEGIC, True), (f"{MANAGEMENT} {PROCESSING}", True):
            body = intent(extent(MANHATTAN), state="Nonconforming", new_subscription={**URL, "notify_for_constraints": notify})
            message = expect(place.ask("uss-a", scopes, "PUT", f"{INTENTS}/{new_id()}", body), 403)["message"]
            assert message.partition(":")[0] in ("P4 SCOPE", "P11 ROLE") and strategic in message, message
            assert message.endswith(processing if notify else STRATEGIC), message


def explanations(files, program):
    """The explanation of a service that explains denials is passed on, also that of a subscription for an intent. Without the option
    there is none."""
    for options in ("--explain",), ():
        with over_tables(files, program, of_service=options) as place:
            began, ended = int(time.time()), extent(MANHATTAN, start=1000, end=2000)
            for path, body in (
                    (INTENTS, intent(ended)), (INTENTS, intent(ended, **NEW)),
                    (SUBSCRIPTIONS, {"extents": ended, "notify_for_operational_intents": True, **URL})):
                told = expect(place.a("PUT", f"{path}/{new_id()}", body), 400, "P13 ENDED: ")
                texts = told.pop("explanation", [])
                assert set(told) == {"message"} and len(texts) == len(options), (told, texts)
                if options:
                    now = re.fullmatch(r"extents: ended at 2000; now is (\d+)", texts[0])
                    assert now and began <= int(now[1]) <= time.time(), texts
            expect(place.a("PUT", f"{INTENTS}/{new_id()}", intent(extent(MANHATTAN))), 201)


ALL = [
    reports, advice, new_subscription_without_its_scope, explanations,
    states_and_scopes, explicit_subscriptions, implicit_subscriptions, shared_implicit_subscriptions, answers_lost_on_the_way,
    new_subscription_over_tables, drawn_outlines_meet, body_of_the_document]
