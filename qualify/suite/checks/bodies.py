"""Bodies and limits, as the profile defines them."""
import json
import re

from suite.check import check
from suite.checks.keys import lacks
from suite.dialect import ENDS, URL, ZERO
from suite.trial import INTENTS, SUBSCRIPTIONS, Skipped

VERSION = "0123456789abcdef0123456789abcdef"


@check("In a body unknown members are ignored, null counts as absent, the last of equal members counts, and numbers are integers",
       "Formats", only="profile")
def a_body_is_read_as_json(it):
    site = it.site()
    good = json.dumps(it.intent_body(it.volume(site)))
    low = '"altitude_lower": 0'
    assert low in good
    taken = [good[:-1] + ', "other": {"x": [1.5e3, null]}, "key": null}', good.replace('"key": []', '"key": null, "subscription_id": null'),
             good.replace('"state": "Accepted"', '"state": "Ended", "state": "Accepted"')]
    refused = [good.replace(low, f'"altitude_lower": {text}') for text in ("0.0", "-0", "0e0", '"0"', "null")]
    refused += [good[:-1] + f', "x": {text}}}' for text in ("1e999", '"\\ud800"', "[" * 127 + "]" * 127)] + [good + "x"]
    for body in refused:
        it.a.put(INTENTS, it.id(), body).must(400, "P5 FORM")
    for body in taken:
        id_ = it.id()
        told = it.a.put(INTENTS, id_, body).must(201).reference
        it.a.delete(INTENTS, id_, told["ovn"]).must(200)


@check("A misspelt member is ignored, and does not stand for the intended one", "Formats", only="profile")
def misspelt_members_are_ignored(it):
    site, named, one, two = it.site(), it.id(), it.id(), it.id()
    body = it.subscription_body(it.volume(site))
    told = it.a.put(SUBSCRIPTIONS, named, body | {"notify_for_constraint": True, "Notify_for_constraints": True}).must(200)
    told.need(told.reference["notify_for_constraints"] is False, "for intents alone")
    body = it.intent_body(it.volume(site)) | {"subscription_Id": named, "new_subscription": {"uss_base_url": URL.format("a")}}
    put = it.a.put(INTENTS, one, body).must(201)
    put.need(put.reference["subscription_id"] == ZERO, "the zero id, as no subscription is named")
    read = it.a.get(SUBSCRIPTIONS, named).must(200)
    read.finds([], "no intent that depends on it", read.reference["dependent_operational_intents"])
    lacks(it, it.b.put(INTENTS, two, it.intent_body(it.volume(site)) | {"Key": [put.reference["ovn"]]}), one)
    late = it.dialect.area([site]) | {"time_strat": it.dialect.moment + 10 * ENDS, "altitude_lower ": 900_000}
    it.b.query(INTENTS, area=late).must(200).finds([one], "the intent, as there is no bound")
    for name in ("extents", "state", "uss_base_url"):
        wrong = it.intent_body(it.volume(site))
        wrong[name.title()] = wrong.pop(name)
        it.b.put(INTENTS, two, wrong).must(400, "P5 FORM")


@check("Values at each limit are accepted, and beyond it denied: cells, volumes, entries of a key, addresses, altitudes, times", "Formats", only="profile")
def limits_hold(it):
    cells = [it.site()]
    wide = it.volume(*cells)
    extreme = {**wide, "altitude_lower": -100_000, "altitude_upper": 1_000_000, "time_start": 0, "time_end": 253_402_300_799}
    body = it.intent_body(wide)
    rows = [
        (body | {"extents": [extreme]}, 201), (body | {"extents": [{**wide, "altitude_lower": -100_001}]}, 400),
        (body | {"extents": [{**wide, "altitude_upper": 1_000_001}]}, 400), (body | {"extents": [{**wide, "time_start": -1}]}, 400),
        (body | {"extents": [{**wide, "time_end": 253_402_300_800}]}, 400), (body | {"extents": [{**wide, "cells": cells * 512}]}, 201),
        (body | {"extents": [{**wide, "cells": cells * 513}]}, 400), (body | {"extents": [{**wide, "cells": []}]}, 400),
        (body | {"extents": [{**wide, "cells": ["f" * 16]}]}, 400), (body | {"extents": [{**wide, "cells": ["g"]}]}, 400),
        (body | {"extents": [wide] * 32}, 201), (body | {"extents": [wide] * 33}, 400), (body | {"key": [VERSION] * 4096}, 201),
        (body | {"key": [VERSION] * 4097}, 400), (body | {"key": ["x" * 15]}, 400), (body | {"key": ["x" * 129]}, 400),
        (body | {"uss_base_url": "h" * 255}, 201), (body | {"uss_base_url": "h" * 256}, 400), (body | {"uss_base_url": "h h"}, 400)]
    for value, status in rows:
        id_ = it.id()
        answer = it.a.put(INTENTS, id_, value).must(status, "P5 FORM" if status == 400 else None)
        if status == 201:
            it.a.delete(INTENTS, id_, answer.reference["ovn"]).must(200)


def explains(answer, *places):
    """Expects an explanation with a text for each of these places, and no other. Returns the texts."""
    texts = (answer.value or {}).get("explanation") or []
    said = f"an explanation of {', '.join(places)}"
    answer.need(sorted(it.partition(": ")[0] for it in texts) == sorted(places), said)
    return texts


def names_ignored(answer, *names):
    """Expects that a success names these members as ignored, or none."""
    wanted = ", ".join(names) or None
    said = f"Warning-Ignored-Members: {wanted}" if wanted else "no field Warning-Ignored-Members"
    answer.need(answer.exchange.fields.get("warning-ignored-members") == wanted, said)


@check("If a service explains denials, it names each mistake in a request, the covered cells and its time, and each success names the members "
       "that were ignored", "P1 ROUTE, P2 METHOD, P5 FORM, P6 AREA, P13 ENDED, 13.7", only="profile")
def denials_are_explained(it):
    site, id_ = it.site(), it.id()
    volume, path = it.volume(site), f"{INTENTS}/{id_}"
    good = it.intent_body(volume)
    wrong = {**volume, "cells": [*volume["cells"], "x"], "time_end": volume["time_start"] - 1}
    first = it.a.put(INTENTS, id_, good | {"extents": [wrong], "state": "Ended", "priority": 1}).must(400, "P5 FORM")
    if "explanation" not in first.value:
        raise Skipped("this service does not explain denials (`dss serve` does with `--explain`)")
    explains(first, "extents[0].time_end", "extents[0].cells[1]", "state", "priority")
    explains(it.a.get(INTENTS, "x").must(400, "P5 FORM"), "{entityid}")
    explains(it.nobody.ask("PUT", "/dss/v1/flights/1", "{").must(404, "P1 ROUTE"), "path")
    explains(it.nobody.ask("POST", path, "{").must(405, "P2 METHOD"), "method")
    explains(it.a.query(INTENTS, area=it.dialect.too_large(it.run.home)).must(413, "P6 AREA"), "area_of_interest")
    past = it.volume(site, start=-7200, end=-3600)
    ended = it.a.put(INTENTS, id_, good | {"extents": [past]}).must(400, "P13 ENDED")
    told = re.fullmatch(rf"extents: ended at {past['time_end']}; now is (\d+)", *explains(ended, "extents"))
    ended.need(told and int(told[1]) >= past["time_end"], "the time of the service")
    found = it.a.query(INTENTS, area=it.dialect.area([site]) | {"time_strat": 1, "altitude low": 0}).must(200)
    names_ignored(found, 'area_of_interest."altitude low"', "area_of_interest.time_strat")
    names_ignored(it.a.query(INTENTS, site).must(200))
    put = it.a.put(INTENTS, id_, good | {"priority": 1, "new_subscription": {}}).must(201)
    names_ignored(put, "new_subscription", "priority")
    names_ignored(it.a.intent(id_, volume, over=put.reference["ovn"]).must(200))
