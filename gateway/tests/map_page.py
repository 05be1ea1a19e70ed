"""What the map's page shows, in Chromium without a window, if that is installed."""
import colorsys
import json
import math
import random
import re
import signal
import time

import pywraps2 as s2

from maps import enter, fine, middle, opened, over_map, over_whole, put_intent, slide, text
from world import TOP, circle, extent


def over(page, name):
    return page.value(f"document.getElementById('over').dataset.{name}")


def point(page, x, y):
    page.call("Input.dispatchMouseEvent", type="mouseMoved", x=x, y=y)


def objects_of_the_page(files, program):
    """Hovering highlights a whole flight, a click selects it, the others in its cell are named, and the selection follows
    the sliders."""
    now = int(time.time())
    with over_whole(files, program) as place:
        first, version = put_intent(place, extent(circle(47.4, 8.5, 3000), 0, 100, now, now + 7200))
        second, _ = put_intent(place, extent(circle(47.4, 8.5, 100), 200, 300, now, now + 3600), key=[version], state="Activated")
        with opened(place) as page:
            enter(page, place.viewer)
            page.until("document.getElementById('counts').textContent === '2 of 2 are there'")
            x, y = middle(page)
            point(page, x, y)
            page.until(f"document.getElementById('over').dataset.hovered === 'i{second}'")  # Activated is on top of Accepted
            assert text(page, "tip") == f"Activated {second[:8]} of uss-a"
            point(page, 5, 5)
            page.until("document.getElementById('over').dataset.hovered === '' && document.getElementById('tip').hidden")
            page.click(x, y)
            page.until(f"document.getElementById('over').dataset.selected === 'i{second}'")
            listed = text(page, "selected-list")
            assert "200 to 300 m over the WGS84 ellipsoid" in listed and "In the same cell (1)" in listed and first[:8] in listed, listed
            assert page.value("document.getElementById('selected').getBoundingClientRect().top") < 800
            page.value("document.querySelector('#selected-list button').click()")
            page.until(f"document.getElementById('over').dataset.selected === 'i{first}'")
            assert "0 to 100 m" in text(page, "selected-list")
            slide(page, "altitude", "20")
            page.until("document.getElementById('selected-list').innerText.includes('no, not at this time and altitude')")
            slide(page, "altitude", "0")
            page.until("/shown\\s+yes/.test(document.getElementById('selected-list').innerText)")
            # No conflict: they share a cell, and no altitude.
            assert text(page, "pairs-count") == "0" and text(page, "pairs") == ""
            # The outline is one ring, though the flight has many cells.
            rings = page.value(f"import('/map/cells.js').then((it) => it.outlineOf(it.cellsOf('{' '.join(sorted(fine('89c25')))}')).map((ring) => ring.length))")
            assert rings == [2 * (4 * 2**5 + 1)], rings


def covered(state, k, around):
    """Returns a flight or a constraint in a cell in the middle of the k-th child of a cell."""
    cell = s2.S2CellId(around.child(k).ToPoint()).parent(around.level() + 3)
    kind = {"kind": "constraint"} if state == "constraint" else {"kind": "intent", "state": state}
    return item_in(cell.ToToken(), k, int(time.time())) | kind


def item_in(tokens, k, now):
    return {"id": f"0000000{k}-0000-4000-8000-000000000000", "version": 1, "manager": f"uss-{k}", "uss_availability": "Normal",
            "uss_base_url": "https://uss.example", "time_start": now - 60, "time_end": now + 7200,
            "volumes": [{"cells": tokens, "lower": 0, "upper": 1200, "start": now - 60, "end": now + 7200}]}


def outlines_under_a_more_urgent_flight(files, program):
    """A flight that a more urgent one covers still has its outline around it as one line, with a contrast of 3:1 to what
    is beside the line, in both themes."""
    now, around = int(time.time()), s2.S2CellId(s2.S2LatLng.FromDegrees(47.4, 8.5)).parent(8)
    states = ["Accepted", "Activated", "Nonconforming", "constraint"]
    items = [covered(state, k, around) for k, state in enumerate(states)]
    items.append(item_in(around.ToToken(), 9, now) | {"kind": "intent", "state": "Contingent"})
    data = {"now": now, "asked": now, "is_whole": True, "is_all": True, "version": "x-1", "area": [], "items": items, "gone": []}
    with over_map(files, program) as place:
        for scheme in ("light", "dark"):
            with opened(place, 1200, 800, scheme) as page:
                page.answer_with("*/map/changes.json*", json.dumps(data))
                enter(page, place.viewer)
                page.until("document.getElementById('counts').textContent === '5 of 5 are there' && location.hash.length > 9")
                for item, state in zip(items, states):
                    seen = page.value(f"({SEEN_OUTLINE})('{item['volumes'][0]['cells']}', '--{state.lower()}')")
                    # Lines of dashes are seen for a part of their length.
                    assert seen > (0.95 if state in ("Accepted", "Activated") else 0.4), (scheme, state, seen)


# Which part of the outline of a cell has its colour on the page, and beside it, at most four pixels away, a contrast of 3:1 to it.
SEEN_OUTLINE = """async (token, name) => {
    const { cellsOf, outlineOf, project } = await import('/map/cells.js'), both = document.createElement('canvas'), c = both.getContext('2d');
    const { width, height } = document.getElementById('map'), [lat, lng, zoom] = location.hash.slice(1).split(',').map(Number);
    Object.assign(both, { width, height });
    for (const it of ['ground', 'map']) c.drawImage(document.getElementById(it), 0, 0);
    const data = c.getImageData(0, 0, width, height).data, scale = 256 * 2 ** zoom, [mx, my] = project(lng, lat);
    const at = (x, y) => { const k = 4 * (Math.floor(y) * width + Math.floor(x)); return [...data.slice(k, k + 3)]; };
    const light = (it) => it.map((one) => one / 255).map((one) => one <= 0.03928 ? one / 12.92 : ((one + 0.055) / 1.055) ** 2.4)
        .reduce((sum, one, k) => sum + one * [0.2126, 0.7152, 0.0722][k], 0.05);
    const own = getComputedStyle(document.documentElement).getPropertyValue(name).trim();
    const far = (it) => Math.hypot(...it.map((one, k) => one - parseInt(own.slice(2 * k + 1, 2 * k + 3), 16)));
    const [ring] = outlineOf(cellsOf(token)), places = ring.map((it, k) => k % 2 ? (it - my) * scale + height / 2 : (it - mx) * scale + width / 2);
    let tried = 0, seen = 0;
    for (let k = 0; k + 3 < places.length; k += 2) {
        const [x, y, dx, dy] = [places[k], places[k + 1], places[k + 2] - places[k], places[k + 3] - places[k + 1]], length = Math.hypot(dx, dy);
        for (let t = 0.1; t < 0.91; t += 0.02) {
            const across = Array.from({ length: 17 }, (_, n) => at(x + t * dx - (n - 8) / 2 * dy / length, y + t * dy + (n - 8) / 2 * dx / length));
            const line = across.reduce((best, it) => far(it) < far(best) ? it : best), others = across.map((it) => light(it) / light(line));
            tried++;
            if (far(line) < 110 && others.some((it) => it >= 3 || it <= 1 / 3)) seen++;
        }
    }
    return seen / tried; }"""


def cells_of_the_page(files, program):
    """The page computes the corners of cells as S2 does."""
    draw = random.Random(9)
    cells = [s2.S2CellId(s2.S2LatLng.FromDegrees(draw.uniform(-84, 84), draw.uniform(-180, 180))).parent(draw.randrange(1, 14)) for _ in range(300)]
    with over_map(files, program) as place, opened(place) as page:
        found = page.value(f"import('/map/cells.js').then((it) => it.cellsOf('{' '.join(it.ToToken() for it in cells)}').map("
                           "(one) => [it.tokenOf(one), one.level, one.corners, it.around(one).map((number) => it.tokenOf({ number }))]))")
    assert len(found) == len(cells)
    for cell, (token, level, corners, around) in zip(cells, found):
        assert token == cell.ToToken() and level == cell.level() and around == [cell.parent(k).ToToken() for k in range(level - 1, 0, -1)], (cell.ToToken(), around)
        for k in range(4):
            vertex = s2.S2LatLng(s2.S2Cell(cell).GetVertex(k))
            lat, lng = max(-85, min(85, vertex.lat().degrees())), vertex.lng().degrees()
            x, y = lng / 360 + 0.5, 0.5 - math.log(math.tan(math.pi / 4 + math.radians(lat) / 2)) / (2 * math.pi)
            off = (corners[2 * k] - x + 0.5) % 1 - 0.5
            assert abs(off) < 1e-9 and abs(corners[2 * k + 1] - y) < 1e-9 or abs(vertex.lat().degrees()) > 89.9, (cell.ToToken(), corners)


def lists_and_links(files, program):
    """Lists have twenty rows and a filter; a link gives the same view; groups have buttons with their counts."""
    now = int(time.time())
    with over_whole(files, program) as place:
        for k in range(23):
            put_intent(place, extent(circle(47.2 + 0.02 * k, 8.5, 10), 0, 100, now, now + 7200))
        name, _ = put_intent(place, extent(circle(-33.9, 18.4, 10), 0, 100, now, now + 7200), state="Activated")
        with opened(place) as page:
            enter(page, place.viewer)
            page.until("document.querySelectorAll('#all li').length === 21")
            assert text(page, "groups").split("\n") == ["Zurich 23", "Cape Town 1"] or "23" in text(page, "groups"), text(page, "groups")
            page.value("document.querySelector('#all li:last-child button').click()")
            page.until("document.querySelectorAll('#all li').length === 25")
            page.value("(() => { const it = document.getElementById('filter'); it.value = 'activ'; it.dispatchEvent(new Event('input')); })()")
            page.until("document.querySelectorAll('#all li').length === 1")
            page.value("document.querySelector('#all button').click()")
            page.until(f"location.hash.endsWith(',now,all,i{name},activ')")
            slide(page, "time", "1800")
            slide(page, "altitude", "5")
            page.until(f"/^#-33[.]9\\d+,18[.]\\d+,[\\d.]+,\\d{{10}},40,i{name},activ$/.test(location.hash)")
            link = page.value("location.href")
        with opened(place) as page:
            page.open(link)
            enter(page, place.viewer)
            page.until(f"document.getElementById('over').dataset.selected === 'i{name}'")
            page.until(f"location.hash.slice(1).split(',').slice(0, 2).join() === '{','.join(link.split('#')[1].split(',')[:2])}'")
            assert text(page, "altitude-shown") == "40 m (WGS84)" and text(page, "time-shown").startswith("in "), text(page, "time-shown")
            assert page.value("document.getElementById('selected').hidden") is False


def a_sheet_on_a_phone(files, program):
    """A narrow window has a sheet over the map: low at first, open with what is selected first, and closed again."""
    with over_whole(files, program) as place:
        name, _ = put_intent(place, extent(circle(47.4, 8.5, 3000)))
        with opened(place, 390, 844) as page:
            enter(page, place.viewer)
            page.until("document.getElementById('counts').textContent.startsWith('1 of 1')")
            top = "document.getElementById('side').getBoundingClientRect().top"
            assert page.value(top) > 650 and page.value("document.getElementById('map').clientHeight") == 844
            page.until("document.getElementById('over').dataset.hovered !== undefined")
            page.click(195, (page.value(top)) / 2)
            page.until(f"document.getElementById('over').dataset.selected === 'i{name}'")
            page.until(f"{top} < 400")
            box = page.value("(() => { const b = document.getElementById('selected-list').getBoundingClientRect(); return [b.top, b.bottom]; })()")
            assert 280 < box[0] < box[1] < 844, box
            page.value("document.getElementById('sheet').click()")
            page.until(f"{top} > 650 && document.getElementById('sheet').getAttribute('aria-expanded') === 'false'")


def age_of_the_data(files, program):
    """The age of the data turns amber after 6 s and red after 12 s, also while a request hangs."""
    with over_whole(files, program) as place, opened(place) as page:
        enter(page, place.viewer)
        page.until("document.getElementById('age').textContent === 'live'")
        place.gateway.process.send_signal(signal.SIGSTOP)
        try:
            page.until("document.getElementById('age').className === 'late'", 12)
            assert int(text(page, "age").split()[0]) in range(6, 12)
            page.until("document.getElementById('age').className === 'stale'", 12)
        finally:
            place.gateway.process.send_signal(signal.SIGCONT)
        page.until("document.getElementById('age').className === ''", 40)


def contrasts(files, program):
    """The colours of states, of USSs and of what is selected have a contrast of 3:1 or more to land and water, in both
    themes, and what is selected has a hue of its own."""
    css = (TOP / "gateway/page/map.css").read_text()
    for theme in css.split("@media (prefers-color-scheme: dark)")[:2]:
        colours = dict(re.findall(r"--(\w+): (#[0-9a-f]{6});", theme))

        def light(name):
            parts = [int(colours[name][k : k + 2], 16) / 255 for k in (1, 3, 5)]
            return sum(w * (it / 12.92 if it <= 0.03928 else ((it + 0.055) / 1.055) ** 2.4) for w, it in zip((0.2126, 0.7152, 0.0722), parts))
        hue = lambda name: colorsys.rgb_to_hls(*(int(colours[name][k : k + 2], 16) / 255 for k in (1, 3, 5)))
        names = ("accepted", "activated", "nonconforming", "contingent", "constraint", *(f"s{k}" for k in range(8)))
        for name in names:
            apart = abs((hue(name)[0] - hue("selected")[0] + 0.5) % 1 - 0.5)
            assert apart > 25 / 360 or hue(name)[2] < 0.2, (name, 360 * apart)
        for state in (*names, "selected"):
            for ground in ("land", "water"):
                a, b = sorted((light(state), light(ground)))
                assert (b + 0.05) / (a + 0.05) >= 3, (state, ground, (b + 0.05) / (a + 0.05))


ALL = [objects_of_the_page, outlines_under_a_more_urgent_flight, cells_of_the_page, lists_and_links, a_sheet_on_a_phone, age_of_the_data, contrasts]
