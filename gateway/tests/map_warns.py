"""What the map's page warns of, in Chromium without a window, if that is installed."""
import collections
import json
import math
import random
import re
import time

import pywraps2 as s2

from maps import enter, fine, opened, over_map, text
from world import new_id

STATES = ["Contingent", "Nonconforming", "constraint", "Activated", "Accepted"]


def flight(tokens, state, uss, now, start=-60, end=3600, lower=0, upper=1200, **more):
    """Returns an item as the gateway gives it to the page; times are seconds from now, altitudes are decimetres."""
    kind = {"kind": "constraint"} if state == "constraint" else {"kind": "intent", "state": state}
    volumes = [{"cells": tokens, "lower": lower, "upper": upper, "start": now + start, "end": now + end}]
    return {"id": new_id(), "version": 1, "manager": uss, "uss_availability": "Normal", "uss_base_url": "https://uss.example", "time_start": now + start,
            "time_end": now + end, "volumes": volumes} | kind | more


def answer(items, now, version="x-1", **more):
    """Returns all these items as the response to the page."""
    return json.dumps({"now": now, "asked": now, "is_whole": True, "is_all": True, "version": version, "area": [], "items": items, "gone": []} | more)


def crowd(count, now, least=0):
    """Returns many flights and constraints in a small area, some in coarse cells, some of two volumes, some of a USS that
    is Down. None ends before so many seconds from now."""
    draw, items = random.Random(8), []
    first = s2.S2CellId.FromToken("89c3").range_min().parent(13)
    numbers = [first.id() % 2**64 + k * 2**35 for k in range(4**5)]
    for _ in range(count):
        at = draw.randrange(len(numbers) - 1)
        tokens = [f"{it:016x}".rstrip("0") for it in numbers[at : at + 2]]
        if draw.random() < 0.1:
            tokens = [s2.S2CellId.FromToken(tokens[0]).parent(draw.choice((11, 12))).ToToken()]
        uss, start, lower = draw.randrange(6), draw.randrange(-60, 4000), draw.randrange(0, 2000)
        end = max(least, start + draw.randrange(60, 4000))
        item = flight(" ".join(tokens), draw.choices(STATES, (2, 4, 2, 40, 52))[0], f"uss-{uss}", now, start, end, lower, lower + 600)
        if draw.random() < 0.1:
            item["volumes"].append(item["volumes"][0] | {"lower": 4000, "upper": 4500, "start": item["time_end"], "end": item["time_end"] + 600})
            item["time_end"] += 600
        items.append(item | {"uss_availability": "Down" if uss == 2 else "Normal"})
    return items


def state_of(item):
    return "constraint" if item["kind"] == "constraint" else item["state"]


def urgency(one, other):
    states = {state_of(one), state_of(other)}
    if states & {"Contingent", "Nonconforming"}:
        return 0 if "Contingent" in states else 1
    is_known = lambda it: state_of(it) == "Activated" or state_of(it) == "Accepted" and it["uss_availability"] != "Down"
    return 3 if is_known(one) and is_known(other) else 2


def meetings(items, since, altitude=None):
    """Returns the pairs that meet, by the ids of both: how urgent each is, and the seconds until then."""
    volumes, found = collections.defaultdict(list), {}
    for it in items:
        for one in it["volumes"]:
            for cell in {cell for token in one["cells"].split() for cell in fine(token)}:
                volumes[cell].append((it, one))
    for held in volumes.values():
        for k, (one, a) in enumerate(held):
            for other, b in held[:k]:
                at, end = max(since, a["start"], b["start"]), min(a["end"], b["end"])
                low, high = max(a["lower"], b["lower"]), min(a["upper"], b["upper"])
                if one is other or at > end or low > high or {one["kind"], other["kind"]} == {"constraint"}:
                    continue
                if altitude is not None and not (low <= altitude <= high):
                    continue
                key = tuple(sorted((one["id"], other["id"])))
                wait = min(at - since, found.get(key, (0, 10**9))[1])
                found[key] = (urgency(one, other), wait)
    return found


# The conflicts and the known overlaps of some data: ids, urgency and seconds.
FOUND = """async (text, since, altitude) => {
    const { Airspace } = await import('/map/airspace.js'), { Conflicts } = await import('/map/conflicts.js'), airspace = new Airspace();
    airspace.take(JSON.parse(text));
    const found = new Conflicts(airspace, since, altitude);
    let slices = 1;
    while (!found.work(0)) slices++;
    const of = (it) => [...it].map((number) => found.pair(number)).map(({ pair, urgency, wait }) => [pair.map((one) => one.id).sort(), urgency, wait]);
    return { slices, conflicts: of(found.conflicts), overlaps: of(found.overlaps), counts: found.counts }; }"""


def all_conflicts(files, program):
    """Conflicts are found whole, in slices, sorted by urgency and then by the time until they meet, apart from known
    overlaps; at an altitude, too."""
    now = int(time.time())
    items = crowd(1200, now)
    with over_map(files, program) as place, opened(place) as page:
        for since, altitude in ((now, None), (now + 1800, None), (now + 600, 120)):
            found = page.value(f"({FOUND})({json.dumps(answer(items, now))}, {since}, {json.dumps(altitude)})")
            expected = meetings(items, since, None if altitude is None else 10 * altitude)
            assert found["slices"] > 1000, found["slices"]
            listed = {tuple(ids): (urgent, wait) for ids, urgent, wait in found["conflicts"] + found["overlaps"]}
            assert listed == expected and len(listed) == len(found["conflicts"]) + len(found["overlaps"]), (len(listed), len(expected))
            assert found["counts"] == [sum(urgent == k for urgent, _ in expected.values()) for k in range(4)], found["counts"]
            assert all(found["counts"]) and (altitude or sum(found["counts"]) > 500), found["counts"]
            order = [it[1:] for it in found["conflicts"]]
            assert order == sorted(order) and [it[2] for it in found["overlaps"]] == sorted(it[2] for it in found["overlaps"])


def write(page, name, value):
    page.value(f"(() => {{ const it = document.getElementById('{name}'); it.value = {json.dumps(value)}; it.dispatchEvent(new Event('input')); }})()")


def true_counts(files, program):
    """The page's lists have true counts, also when filtered, and say when a pair meets."""
    now = int(time.time())
    items = crowd(800, now, 1800)
    expected = meetings(items, now)
    of = lambda test: sum(test(ids, urgent) for ids, (urgent, _) in expected.items())
    total, contingent = of(lambda _, urgent: urgent < 3), of(lambda _, urgent: urgent == 0)
    with over_map(files, program) as place, opened(place) as page:
        page.answer_with("*/map/changes.json*", answer(items, now))
        enter(page, place.viewer)
        page.until(f"document.getElementById('pairs-count').textContent === '{total}'")
        assert int(text(page, "overlaps-count")) == len(expected) - total and text(page, "pairs-kinds").startswith(f"{contingent} with Contingent, ")
        write(page, "filter", "Contingent")
        page.until(f"document.getElementById('pairs-count').textContent === '{contingent} of {total}'")
        rows = page.value("[...document.querySelectorAll('#pairs li button')].map((it) => it.textContent)")[:20]
        assert all(re.fullmatch("Contingent .* and .*, (now|in [0-9]+ (s|min|h).*)", it) for it in rows), rows
        write(page, "filter", "uss-3")
        managers = {it["id"]: it["manager"] for it in items}
        mine = of(lambda ids, urgent: urgent < 3 and "uss-3" in {managers[it] for it in ids})
        page.until(f"document.getElementById('pairs-count').textContent === '{mine} of {total}'")


def next_answer(items, now, version, gone=()):
    """Returns some changed items as a later response to the page."""
    return answer(items, now, version, is_all=False, gone=list(gone))


# Counts the tones of the page in place of its loudspeaker.
TONES = """window.tones = 0; window.AudioContext = class { currentTime = 0; resume() {}
    createOscillator() { return { frequency: {}, connect: (it) => it, start: () => window.tones++, stop() {} }; }
    createGain() { return { gain: { setValueAtTime() {}, exponentialRampToValueAtTime() {} }, connect() {} }; } }"""
TITLE = "document.title"


def what_is_new_is_told(files, program):
    """A new conflict and a USS that goes Down are marked, counted in the title, and announced, with a tone by choice; until
    the viewer has seen them."""
    now, cells = int(time.time()), "89c25904 89c2590c"
    first, second, third = (flight(cells, state, uss, now) for state, uss in (("Accepted", "uss-a"), ("Activated", "uss-b"), ("Accepted", "uss-b")))
    up = {"kind": "supplier", "id": "uss-b", "uss_availability": "Normal"}
    with over_map(files, program) as place, opened(place) as page:
        page.value(TONES)
        page.answer_with("*/map/changes.json*", answer([first, second, up], now))
        enter(page, place.viewer)
        page.until("document.getElementById('overlaps-count').textContent === '1'")
        assert page.value(TITLE) == "Airspace" and page.value("document.getElementById('warnings').hidden") and text(page, "announced") == ""
        # A third planned flight is a new known overlap, and no conflict.
        page.answer_with("*/map/changes.json*", next_answer([third], now, "x-2"))
        page.until("document.getElementById('overlaps-count').textContent === '3'")
        assert page.value(TITLE) == "Airspace"
        strayed = second | {"state": "Nonconforming", "version": 2}
        page.answer_with("*/map/changes.json*", next_answer([strayed], now, "x-3"))
        page.until(f"{TITLE} === '(2) Airspace'")
        assert text(page, "warned") == "2 new conflicts" and page.value("document.querySelectorAll('#pairs b.new').length") == 2
        said = page.value("document.querySelector('#announced[aria-live=assertive] p:last-child').textContent")
        assert said.startswith(f"2 new conflicts. The most urgent: Nonconforming {second['id'][:8]} of uss-b and ") and said.endswith(", now"), said
        assert page.value("window.tones") == 0
        page.value("document.getElementById('sound').click()")
        page.answer_with("*/map/changes.json*", next_answer([up | {"uss_availability": "Down"}], now, "x-4"))
        page.until(f"{TITLE} === '(3) Airspace'")
        assert text(page, "warned") == "2 new conflicts, uss-b is Down" and page.value("window.tones") == 2  # one when it was switched on
        assert page.value("document.querySelector('#announced p:last-child').textContent") == "uss-b is Down"
        page.value("document.getElementById('uss').open = true")
        assert page.value("document.querySelector('#suppliers td.Down b.new') !== null")
        # A click on a pair is a look at it.
        page.value("document.querySelector('#new-pairs button').click()")
        page.until(f"{TITLE} === '(2) Airspace' && document.querySelectorAll('#pairs b.new').length === 1")
        page.value("document.getElementById('see-all').click()")
        page.until(f"{TITLE} === 'Airspace' && document.getElementById('warnings').hidden && !document.querySelector('b.new')")
        # What was seen is new again if it becomes more urgent, and is forgotten with its flight.
        page.answer_with("*/map/changes.json*", next_answer([strayed | {"state": "Contingent", "version": 3}], now, "x-5"))
        page.until(f"{TITLE} === '(2) Airspace'")
        page.answer_with("*/map/changes.json*", next_answer([], now, "x-6", [f"i{second['id']}"]))
        page.until(f"{TITLE} === 'Airspace'")
        assert page.value("window.tones") == 3


def around(token, lat, lng, zoom):
    """Returns the pixels of the middle of a cell in a window of 1200 by 800, whose map is as wide as the panel leaves."""
    at = s2.S2LatLng(s2.S2CellId.FromToken(token).ToPoint())
    plane = lambda lat, lng: (lng / 360, -math.log(math.tan(math.pi / 4 + math.radians(lat) / 2)) / (2 * math.pi))
    (x, y), (mx, my) = plane(at.lat().degrees(), at.lng().degrees()), plane(lat, lng)
    scale = 256 * 2**zoom
    return (x - mx) * scale, (y - my) * scale


def colour_at(page, canvas, token):
    """Returns the colour of a canvas in the middle of a cell."""
    dx, dy = around(token, *map(float, page.value("location.hash").strip("#").split(",")[:3]))
    return page.value(f"(() => {{ const c = document.getElementById('{canvas}'), x = Math.floor(c.width / 2 + {dx}), y = Math.floor(c.height / 2 + {dy});"
                      "return [...c.getContext('2d').getImageData(x, y, 1, 1).data]; })()")


def a_pair_is_outlined(files, program):
    """A click on a pair outlines both flights in the colour of what is selected, fills the cells that they share, and lists
    the details of both."""
    now, middle = int(time.time()), s2.S2CellId.FromToken("89c2590c")
    left, right = middle.prev(), middle.next()
    one = flight(f"{left.ToToken()} {middle.ToToken()}", "Contingent", "uss-a", now)
    # The second one has a coarser cell around the same one, too.
    two = flight(f"{middle.parent(12).ToToken()} {right.ToToken()}", "Activated", "uss-b", now, lower=600, upper=1800)
    shared = {it for it in (left, middle) if it == middle or middle.parent(12).contains(it)}
    with over_map(files, program) as place, opened(place) as page:
        page.answer_with("*/map/changes.json*", answer([one, two], now))
        enter(page, place.viewer)
        page.until("document.querySelector('#pairs button')")
        page.value("document.querySelector('#pairs button').click()")
        page.until(f"document.getElementById('over').dataset.partner === 'i{two['id']}' && location.hash.includes('i{one['id']}')")
        assert page.value("document.getElementById('over').dataset.selected") == f"i{one['id']}"
        assert int(page.value("document.getElementById('over').dataset.shared")) > 0
        for it in (left, middle, right):
            red, green, blue, alpha = colour_at(page, "over", it.ToToken())
            is_filled = alpha > 100 and red > 180 and green < 60 and blue > 100
            assert is_filled == (it in shared), (it.ToToken(), red, green, blue, alpha)
        listed = text(page, "pairs")
        assert one["id"] in listed and two["id"] in listed and "60 to 180 m" in listed, listed
        assert text(page, "selected-title").count("uss-") == 2
        page.value("document.getElementById('let-go').click()")
        page.until("document.getElementById('over').dataset.partner === '' && document.getElementById('over').dataset.shared === '0'")


def filters_and_switches(files, program):
    """All words of the filter must fit, on the map and in the lists, and a pair fits if each word fits one of its flights.
    The legend switches states off and on."""
    now, paris, oslo = int(time.time()), "47e66e04", "46416e04"
    one, two = flight(paris, "Accepted", "uss-a", now), flight(paris, "Nonconforming", "uss-b", now)
    three, four = flight(oslo, "Accepted", "uss-a", now), flight(oslo, "Contingent", "uss-c", now)
    with over_map(files, program) as place, opened(place) as page:
        page.answer_with("*/map/changes.json*", answer([one, two, three, four], now))
        enter(page, place.viewer)
        page.until("document.querySelectorAll('#pairs li').length === 2")
        page.until("document.getElementById('groups').innerText.includes('Paris')")
        shown = lambda: sorted(page.value("[...document.querySelectorAll('#all button')].map((it) => it.textContent.split(' ')[1])"))
        ids = lambda *items: sorted(it["id"][:8] for it in items)
        for words, items, pairs in (("uss-a paris", [one], 1), ("ACCEPTED", [one, three], 2), ("uss-c  contingent oslo", [four], 1),
                                    (one["id"][:13], [one], 1), ("uss-a uss-b", [], 1), ("paris oslo", [], 0), ("", [one, two, three, four], 2)):
            write(page, "filter", words)
            assert shown() == ids(*items), (words, shown())
            assert page.value("document.querySelectorAll('#pairs li').length") == pairs, words
            assert text(page, "pairs-count") == (f"{pairs} of 2" if words else "2"), words
        is_seen = lambda token: colour_at(page, "map", token)[3] > 0
        place_of = s2.S2LatLng(s2.S2CellId.FromToken(paris).ToPoint())
        page.value(f"location.hash = '#{place_of.lat().degrees():.5f},{place_of.lng().degrees():.5f},13,now,all,'")
        page.until(f"location.hash.includes(',13.00,')")
        assert is_seen(paris)
        write(page, "filter", "oslo")
        assert not is_seen(paris) and text(page, "all-count") == "2 of 4"
        write(page, "filter", "")
        assert is_seen(paris)
        switch = lambda state: page.value(f"document.querySelector('#legend [data-state={state}]').click()")
        pressed = lambda state: page.value(f"document.querySelector('#legend [data-state={state}]').getAttribute('aria-pressed')")
        switch("Nonconforming")
        assert is_seen(paris) and shown() == ids(one, three, four) and pressed("Nonconforming") == "false"
        assert page.value("document.querySelectorAll('#pairs li').length") == 2  # one of each pair is still shown
        switch("Accepted")
        assert not is_seen(paris) and shown() == ids(four) and page.value("document.querySelectorAll('#pairs li').length") == 1
        switch("Accepted")
        switch("Nonconforming")
        assert is_seen(paris) and shown() == ids(one, two, three, four) and pressed("Accepted") == "true"


def flights_of_a_down_uss(files, program):
    """Flights of a USS that is Down have dots on the map, and are named so in the lists, until it is Normal again."""
    now, cell = int(time.time()), "89c25904"
    one = flight(cell, "Activated", "uss-a", now)
    at = s2.S2LatLng(s2.S2CellId.FromToken(cell).ToPoint())
    with over_map(files, program) as place, opened(place) as page:
        page.answer_with("*/map/changes.json*", answer([one], now))
        enter(page, place.viewer)
        page.value(f"location.hash = '#{at.lat().degrees():.5f},{at.lng().degrees():.5f},14,now,all,'")
        page.until("location.hash.includes(',14.00,')")
        # The part of the pixels in the middle that are of the colour of dots.
        dots = """(() => { const c = document.getElementById('map'), d = c.getContext('2d').getImageData(c.width / 2 - 16, c.height / 2 - 16, 32, 32).data;
            let n = 0; for (let k = 0; k < d.length; k += 4) if (d[k] < 40 && d[k + 1] < 40 && d[k + 2] < 50 && d[k + 3] > 200) n++; return n / 1024; })()"""
        page.until("document.querySelector('#all li')")
        assert page.value(dots) == 0 and "(Down)" not in text(page, "all") and "Down" not in text(page, "legend")
        page.answer_with("*/map/changes.json*", next_answer([one | {"uss_availability": "Down"}], now, "x-2"))
        page.until(f"{dots} > 0.1")
        assert page.value(dots) < 0.2 and text(page, "all").endswith("of uss-a (Down)") and "Down" in text(page, "legend")
        write(page, "filter", "down")
        page.until("document.querySelectorAll('#all li').length === 1")
        page.answer_with("*/map/changes.json*", next_answer([one], now, "x-3"))
        page.until(f"{dots} === 0 && document.querySelectorAll('#all li').length === 0")


def a_reload_keeps_all(files, program):
    """A reload keeps the session and the view: selection, filter and switches. Feet and local time are choices, which the
    browser keeps. After Leave, the page asks for the token again."""
    now, cells = int(time.time()), "89c25904 89c2590c"
    one, two = flight(cells, "Accepted", "uss-a", now, lower=300, upper=900), flight(cells, "Contingent", "uss-b", now)
    click = lambda name: f"document.getElementById('{name}').click()"
    with over_map(files, program) as place, opened(place) as page:
        page.call("Emulation.setTimezoneOverride", timezoneId="Asia/Kolkata")
        page.answer_with("*/map/changes.json*", answer([one, two], now))
        enter(page, place.viewer)
        page.until("document.querySelector('#pairs button')")
        assert "UTC" in text(page, "asked") and "UTC+" not in text(page, "asked")
        page.value("document.querySelector('#pairs button').click()")
        write(page, "filter", "uss-b conting")
        page.value("document.querySelector('#legend [data-state=Activated]').click()")
        page.value(f"{click('feet')}; {click('local')}")
        write(page, "altitude", "5")
        assert text(page, "altitude-shown") == "131 ft (WGS84)" and "98 to 295 ft over" in text(page, "pairs"), text(page, "pairs")
        at = time.gmtime(now + 19800)
        assert f"{at.tm_hour:02d}:{at.tm_min:02d}" in text(page, "asked") and text(page, "asked").endswith(" UTC+5:30:"), text(page, "asked")
        end = f",now,40,i{two['id']}+i{one['id']},uss-b%20conting,Activated"
        page.until(f"location.hash.endsWith('{end}')")
        page.call("Page.reload")
        page.until("document.readyState === 'complete' && !document.getElementById('view').hidden")
        page.until(f"document.getElementById('over').dataset.selected === 'i{two['id']}' && document.getElementById('over').dataset.partner === 'i{one['id']}'")
        page.until("document.querySelectorAll('#all li').length === 1")
        assert page.value("document.getElementById('filter').value") == "uss-b conting" and text(page, "altitude-shown") == "131 ft (WGS84)"
        assert page.value("document.querySelector('#legend [data-state=Activated]').getAttribute('aria-pressed')") == "false"
        assert text(page, "asked").endswith(" UTC+5:30:") and page.value("document.getElementById('feet').checked")
        page.until(f"location.hash.endsWith('{end}')")
        page.value(click("leave"))
        assert page.value("!document.getElementById('entry').hidden && sessionStorage.length === 0")
        page.call("Page.reload")
        page.until("document.readyState === 'complete'")
        time.sleep(1)
        assert page.value("!document.getElementById('entry').hidden && document.getElementById('view').hidden")


ALL = [all_conflicts, true_counts, what_is_new_is_told, a_pair_is_outlined, filters_and_switches, flights_of_a_down_uss, a_reload_keeps_all]
