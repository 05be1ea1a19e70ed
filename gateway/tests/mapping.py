"""Each row of the tables of gateway/README.md: each mapping, and each rejection."""
import json

from properties import translate
from world import circle, extent, intent, metres, polygon, stamp

SQUARE = polygon((0, 0), (0, 0.01), (0.01, 0.01), (0.01, 0))
URL = "https://a.example"


def area(volume=SQUARE, **more):
    return {"area_of_interest": {"volume": volume, **more}}


def put(*extents, **more):
    return {**intent(*extents), **more}


def refused(program, rows):
    """Checks rows of a kind, a body, a status and a part of the message."""
    for (what, body, status, message), answer in zip(rows, translate(program, [row[:2] for row in rows])):
        assert answer.get("status") == status and message in answer["message"], (what, json.dumps(body)[:300], answer, status, message)


def outlines(files, program):
    both = {**SQUARE, **circle(0, 0, 5)}
    refused(program, [
        ("query", area(both), 400, "area_of_interest.volume must have one of"),
        ("query", area({}), 400, "must have one of"),
        ("query", {}, 400, "area_of_interest is needed"),
        ("query", {"area_of_interest": {"cells": ["89c25904"]}}, 400, "area_of_interest.volume is needed"),
        ("query", area(polygon((0, 0), (1, 1), (0, 1), (1, 0))), 400, "crosses"),
        ("query", area(polygon((0, 0), (0, 1), (0, 0), (1, 0))), 400, "outline_polygon is refused"),
        ("query", area(polygon((0, 0), (0, 0), (1, 0), (1, 1))), 400, "duplicate"),
        ("query", area(polygon((0, 0), (0, 1))), 400, "three"),
        ("query", area(polygon((0, 0), (0, 1), (0, 0))), 400, "three"),
        ("query", area(polygon((0, 0), (0, 0.1), (90.5, 0))), 400, "lat must be"),
        ("query", area(polygon((0, 0), (0, 0.1), (0.1, 180.5))), 400, "lng"),
        ("query", area(polygon((0, 0), (0, 10), (0.001, 5))), 413, "1,000 km"),
        ("query", area(polygon(*[(0.00001 * (k % 2), k * 0.0001) for k in range(1_001)])), 413, "1,000 vertices"),
        ("query", area(polygon((0, 0), (0, 0.1), (2e-7, 0.1), (0.1, 0.1))), 400, "less than 3 cm apart"),
        ("query", area(circle(0, 0, 0)), 400, "above 0"),
        ("query", area(circle(0, 0, -3)), 400, "above 0"),
        ("query", area(circle(0, 0, 1e7)), 413, "radius"),
        ("query", area(circle(0, 0, 200_000)), 413, "square kilometres"),
        ("query", area(circle(0, 0, 80_000)), 413, "S2 cells of level 13"),
        ("query", area(circle("0", 0, 5)), 400, "outline_circle.center.lat must be a number"),
        ("query", area({"outline_circle": {"center": {"lat": 0, "lng": 0}, "radius": {"value": 5, "units": "FT"}}}), 400, "radius.units must be M"),
        ("query", area({"outline_polygon": {"vertices": [{"lat": 0}]}}), 400, "vertices[0].lng is needed"),
        ("query", area({"outline_polygon": []}), 400, "must be an object"),
        ("query", area(polygon((0, 0), (0, 90), (0, -179))), 413, "km"),
        ("query", area(polygon(*[(0.9 * (k // 2 % 2), k / 1000) for k in range(502)], (-0.1, 0.2))), 413, "edges are too long"),
    ])
    pole = polygon((89.99, 0), (89.99, 90), (89.99, 180), (89.99, -90))
    line = polygon((0, 0), (0, 0.01), (0, 0.02))
    dateline = polygon((0.01, 179.99), (0.01, -179.99), (-0.01, -179.99), (-0.01, 179.99))
    closed = polygon((0, 0), (0, 0.01), (0.01, 0.01), (0.01, 0), (0, 0))
    touching = [circle(90, 0, 10), circle(-90, 77, 10), circle(0, 180, 10), circle(0, -180, 10)]
    answers = translate(program, [("query", area(it)) for it in (SQUARE, closed, pole, line, dateline, *touching)])
    cells = [it["area_of_interest"]["cells"] for it in answers]
    assert cells[0] == cells[1] and all(len(it) < 20 for it in cells), cells
    assert cells[-1] == cells[-2]


def altitudes(files, program):
    def bound(name, value, **more):
        return area({**SQUARE, name: {**metres(value), **more}})
    refused(program, [
        ("query", bound("altitude_lower", 0, units="FT"), 400, "area_of_interest.volume.altitude_lower.units must be M"),
        ("query", bound("altitude_upper", 0, reference="SFC"), 400, "altitude_upper.reference must be W84"),
        ("query", bound("altitude_upper", "1"), 400, "must be a number"),
        ("query", bound("altitude_upper", 100_000.01), 400, "from -10,000 to 100,000"),
        ("query", bound("altitude_lower", -10_000.01), 400, "from -10,000 to 100,000"),
        ("query", area({**SQUARE, "altitude_lower": metres(2), "altitude_upper": metres(1)}), 400, "is above altitude_upper"),
    ])
    answers = translate(program, [
        ("query", area({**SQUARE, "altitude_lower": metres(1.1), "altitude_upper": metres(1.1)})),
        ("query", area()),
        ("query", area({**SQUARE, "altitude_lower": None, "altitude_upper": metres(-0.05)})),
        ("constraint", {"extents": [{k: v for k, v in extent(SQUARE).items() if k != "volume"} | {"volume": SQUARE}], "uss_base_url": URL}),
    ])
    exact, without, below, filled = answers
    assert (exact["area_of_interest"]["altitude_lower"], exact["area_of_interest"]["altitude_upper"]) == (11, 11)
    assert set(without["area_of_interest"]) == {"cells"}
    assert below["area_of_interest"]["altitude_upper"] == 0 and "altitude_lower" not in below["area_of_interest"]
    assert (filled["extents"][0]["altitude_lower"], filled["extents"][0]["altitude_upper"]) == (-100_000, 1_000_000)


def times(files, program):
    def at(text, **more):
        return area(time_start={"value": text, "format": "RFC3339", **more})
    wrong = ["2026-02-30T00:00:00Z", "2026-01-01T24:00:00Z", "2026-01-01T00:00:61Z", "2026-01-01 00:00:00Z", "2026-01-01T00:00:00",
             "2026-01-01T00:00:00.Z", "2026-01-01T00:00:00+24:00", "2026-01-01T00:00:00+0100", "26-01-01T00:00:00Z", "", "\ud83d\ude00" * 30,
             "2026-01-01T00:00:00Z ", "2026-13-01T00:00:00Z", "2026-01-00T00:00:00Z", "+026-01-01T00:00:00Z"]
    refused(program, [("query", at(it), 400, "time_start.value must be a time of RFC 3339") for it in wrong])
    refused(program, [
        ("query", at("2026-01-01T00:00:00Z", format="ISO"), 400, "time_start.format must be RFC3339"),
        ("query", at(5), 400, "must be a text"),
        ("query", area(time_start=stamp(9), time_end=stamp(8)), 400, "is after time_end"),
        ("intent", put({**extent(SQUARE), "time_end": None}), 400, "extents[0].time_end is needed"),
        ("intent", put(extent(SQUARE), {**extent(SQUARE), "time_start": None}), 400, "extents[1].time_start is needed"),
        ("intent", put({**extent(SQUARE), "time_start": {"value": "1969-12-31T23:59:59Z", "format": "RFC3339"}}), 400, "from 1970 to 9999"),
        ("intent", put({**extent(SQUARE), "time_end": {"value": "9999-12-31T23:59:59.5Z", "format": "RFC3339"}}), 400, "from 1970 to 9999"),
    ])
    leap = {"value": "2016-12-31T23:59:60Z", "format": "RFC3339"}
    early, late = {"value": "1969-01-01T00:00:00Z", "format": "RFC3339"}, {"value": "9999-12-31T23:59:59-12:00", "format": "RFC3339"}
    leaped, clamped = translate(program, [("query", area(time_start=leap, time_end=leap)), ("query", area(time_start=early, time_end=late))])
    assert (leaped["area_of_interest"]["time_start"], leaped["area_of_interest"]["time_end"]) == (1483228799, 1483228800)
    assert (clamped["area_of_interest"]["time_start"], clamped["area_of_interest"]["time_end"]) == (0, 253402300799)


def members_of_puts(files, program):
    one, ovn = extent(SQUARE), "0123456789abcdef"
    refused(program, [
        ("intent", put(), 400, "extents has too few items"),
        ("intent", {**put(one), "extents": one}, 400, "extents must be a list"),
        ("intent", {"extents": [{"cells": ["89c25904"], "altitude_lower": 0, "altitude_upper": 1, "time_start": 1, "time_end": 2}]}, 400,
         "extents[0].volume is needed"),
        ("intent", put(one, state="Ended"), 400, "state must be"),
        ("intent", put(one, state=None), 400, "state is needed"),
        ("intent", put(one, uss_base_url="https://a b"), 400, "uss_base_url"),
        ("intent", put(one, uss_base_url="a" * 256), 400, "uss_base_url"),
        ("intent", put(one, key=["short"]), 400, "key[0] must be an OVN"),
        ("intent", put(one, key=[ovn] * 4097), 413, "key has too many items"),
        ("intent", put(one, key=ovn), 400, "key must be a list"),
        ("intent", put(one, subscription_id="a1"), 400, "subscription_id must be a UUID"),
        ("intent", put(one, requested_ovn_suffix="01902345-6789-7abc-8def-0123456789ab"), 400, "requested_ovn_suffix is not taken: leave it out"),
        ("subscription", {"extents": extent(SQUARE, start=0, end=86_402), "uss_base_url": URL, "notify_for_constraints": True}, 400,
         "extents.time_end is over 24 hours after time_start"),
        ("intent", put(one, new_subscription={}), 400, "new_subscription.uss_base_url is needed"),
        ("intent", put(one, new_subscription={"uss_base_url": URL, "notify_for_constraints": 1}), 400, "must be true or false"),
        ("intent", put(*[extent(SQUARE, 0, k) for k in range(33)]), 413, "over 32 volumes"),
        ("intent", put(*[one] * 257), 413, "too many items"),
        ("intent", put(*[extent(circle(0, 0.4 * k, 20_000)) for k in range(20)]), 413, "split"),
        ("subscription", {"extents": one, "uss_base_url": URL}, 400, "one of notify_for_operational_intents"),
        ("subscription", {"extents": [one], "uss_base_url": URL, "notify_for_constraints": True}, 400, "extents must be an object"),
        ("new_subscription", put(*[extent(circle(k - 16, 10 * (k - 16), 13_000)) for k in range(32)], new_subscription={"uss_base_url": URL}), 413,
         "new_subscription is too large"),
        ("availability", {}, 400, "availability is needed"),
        ("availability", {"availability": "Normal", "old_version": "x" * 129}, 400, "old_version"),
    ])
    body = put(one, key=[ovn], subscription_id="00000000-0000-4000-8000-0000000000A1", other={"x": 1.5}, new_subscription={"uss_base_url": URL})
    merged = put(*[extent(circle(0, 0.001 * k, 9), start=100, end=200) for k in range(40)])
    given, both, availability = translate(program, [
        ("intent", body), ("intent", merged), ("availability", {"availability": "Down", "old_version": None, "more": []})])
    assert set(given) == {"extents", "key", "state", "uss_base_url", "subscription_id"} and given["key"] == [ovn]
    assert given["subscription_id"] == "00000000-0000-4000-8000-0000000000a1"
    assert len(both["extents"]) == 1
    assert availability == {"availability": "Down", "old_version": ""}


def texts(files, program):
    refused(program, [("query", it, 400, "the body is no JSON object") for it in (
        "", "[]", "1", "null", "{", '{"a":1}x', "[" * 100_000, '{"a":' * 100_000, '{"a":1e999999999}', '{"a":NaN}', '{"a":"\\ud800"}', '{"a":01}')])
    double = '{"area_of_interest":5,"area_of_interest":%s}' % json.dumps(area()["area_of_interest"])
    assert "area_of_interest" in translate(program, [("query", double)])[0]


ALL = [outlines, altitudes, times, members_of_puts, texts]
