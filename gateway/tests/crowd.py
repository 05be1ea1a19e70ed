"""Flights over Zurich, as many as wanted, stored through a gateway."""
import collections
import math
import random
import time

from world import ARBITRATION, CONSTRAINTS, FRONT, INTENTS, MANAGEMENT, MONITORING, STRATEGIC, circle, expect, extent, intent, new_id, polygon

LAT, LNG = 47.38, 8.54
STATES = ["Accepted"] * 9 + ["Activated"] * 8 + ["Nonconforming"] * 2 + ["Contingent"]
BIN = 0.06


def corridor(draw, lat, lng):
    turn, length, width = draw.uniform(0, 2 * math.pi), draw.uniform(0.03, 0.09), 0.002
    along, aside = [(it * math.cos(turn), it * math.sin(turn)) for it in (length / 2, width)]
    return polygon(*[(lat + a * along[0] - b * aside[1], lng + a * along[1] + b * aside[0]) for a, b in ((-1, 1), (1, 1), (1, -1), (-1, -1))])


def flights(place, count, spread):
    """Stores that many flights within so many degrees, two constraints, and two availabilities. Each flight's key has the
    OVNs of those around it."""
    draw, now = random.Random(11), int(time.time())
    ovns, near, tokens = {}, collections.defaultdict(list), {}
    for k in range(count):
        uss, state = draw.choice(("uss-a", "uss-b", "uss-c")), draw.choice(STATES)
        lat, lng = LAT + draw.gauss(0, 0.5) * spread, LNG + draw.gauss(0, 0.7) * spread
        volume = corridor(draw, lat, lng) if k % 4 == 0 else circle(lat, lng, draw.uniform(200, 1200))
        lower, start = draw.choice((0, 0, 30, 60, 120, 300, 600)), now - 60 + draw.choice((0, 0, 0, 0, 600, 1800))
        one = extent(volume, lower, lower + draw.choice((50, 90, 120)), start, start + draw.choice((3600, 7200, 10800)))
        scopes = f"{STRATEGIC} {MONITORING}" if state not in ("Accepted", "Activated") else STRATEGIC
        token = tokens.setdefault((uss, scopes), place.files.token(uss, scopes, exp=now + 7200))
        at = (int(lat / BIN), int(lng / BIN))
        key = [it for a in (-1, 0, 1) for b in (-1, 0, 1) for it in near[at[0] + a, at[1] + b]]
        name = new_id()
        for _ in range(3):
            body = intent(one, key=key[-4000:], state=state) | {"uss_base_url": f"https://{uss}.example"}
            answer = place.gateway.ask(token, "PUT", f"{INTENTS}/{name}", body)
            if answer.status != 409:
                break
            key += [ovns[it["id"]] for it in answer.json.get("missing_operational_intents", []) if it["id"] in ovns]
        expect(answer, 201)
        ovns[name] = answer.json["operational_intent_reference"]["ovn"]
        near[at].append(ovns[name])
    for lat, lng, radius in ((47.458, 8.548, 4500), (47.37, 8.35, 1500)):
        body = {"extents": [extent(circle(lat, lng, radius), 0, 400, now, now + 7200)], "uss_base_url": "https://authority.example"}
        expect(place.ask("uss-c", MANAGEMENT, "PUT", f"{CONSTRAINTS}/{new_id()}", body), 201)
    for uss, availability in (("uss-a", "Normal"), ("uss-b", "Down")):
        body = {"old_version": "", "availability": availability}
        expect(place.ask("uss-v", ARBITRATION, "PUT", f"{FRONT}uss_availability/{uss}", body), 200)
