"""Queries over many references and subscriptions of all levels, and the subscriptions that changes notify.

Over a database and in memory, responses are those of the plain policy, whose `meet` compares each volume with each
area."""
import dataclasses

import drawn_calls
import plain_policy
import tables
import wire
from databases import CHUNK, NOW, Room, ask, wrong_with
from plain_policy import CONSTRAINT, INTENT
from program import first_difference, serve

COUNT = 200
# The levels of two volumes that cover at most what a call may. SQLite statements make coarser references of some.
LEVELS = range(7, 17)
COARSE = (4, 5, 6)
# In memory, the references and their queries are one stream of the maximum length.
FEW = 64
BASE = (4, ("00", "01", "10"))
HANDLERS = {INTENT: (wire.INTENTS, "tok-bc"), CONSTRAINT: (wire.CONSTRAINTS, "tok-c")}
# Subscriptions of two USSs, of which the first has no scope for constraints.
SUBSCRIBERS = tuple((wire.SUBSCRIPTIONS, it) for it in ("tok-a", "tok-bc"))
SUBSCRIBED, CHANGES = 120, 90
# How often they are notified at least.
MIN_NOTIFIED, MIN_NOTIFIED_IN_MEMORY = 500, 15


def token_of(cell):
    face, digits = cell
    bits = format(face, "03b") + "".join(digits) + "1"
    return format(int(bits.ljust(64, "0"), 2), "016x").rstrip("0")


def range_of(cell):
    """Returns the positions of the first and the last cell of level 13 in a cell."""
    face, digits = cell
    bits = format(face, "03b") + "".join(digits[:13])
    return int(bits.ljust(29, "0"), 2), int(bits.ljust(29, "1"), 2)


def drawn_cell(draw, level):
    """Returns a cell below the base. At each level it is one of two, so that many touch."""
    face, digits = BASE
    more = tuple(draw.of(("01", "11")) for _ in range(level - len(digits)))
    return face, digits + more


def extent(draw, levels):
    lower, start = 100 * draw.below(10), 2_000 + 100 * draw.below(10)
    return {
        "cells": [token_of(drawn_cell(draw, level)) for level in levels],
        "altitude_lower": lower,
        "altitude_upper": lower + 300,
        "time_start": start,
        "time_end": start + 300,
    }


def asked(airspace, method, target, token, body):
    """Returns a request, and the plain policy's response."""
    outcome = airspace.ask(method, target, f"Bearer {token}", wire.compact(body).encode())
    return ask(method, target, token, body), outcome


def creation(draw, airspace, number):
    """Returns the creation of a reference of two volumes, with the key that it needs."""
    kind = (INTENT, CONSTRAINT, CONSTRAINT)[number % 3]
    place, token = HANDLERS[kind]
    level = LEVELS[number % len(LEVELS)]
    body = {
        "extents": [extent(draw, [level]), extent(draw, [draw.of(LEVELS[3:]) for _ in range(1 + draw.below(3))])],
        "uss_base_url": "https://a.example",
    }
    if kind == INTENT:
        extents = tuple(plain_policy.extent_of(it, True) for it in body["extents"])
        met = [it for each in (INTENT, CONSTRAINT) for it in airspace.all_meeting(each, extents)]
        body |= {"state": "Accepted", "key": [airspace.ovn(it) for it in met]}
    id_ = f"00000000-0000-4000-8000-{draw.below(2**31):08x}{number:04x}"
    return asked(airspace, "PUT", f"{place}/{id_}", token, body)


def query(draw, airspace, asker, levels, is_bounded):
    area = extent(draw, levels)
    area = area if is_bounded else {"cells": area["cells"]}
    place, token = asker
    return asked(airspace, "POST", f"{place}/query", token, {"area_of_interest": area})


def queries(draw, airspace, count, askers=(HANDLERS[CONSTRAINT], HANDLERS[INTENT])):
    """Returns queries of cells of the levels 0, 6, 13 and 20, of several cells, and equal queries at two endpoints or
    with two tokens."""
    wanted = [(6,), (13,), (20,), (13, 20, 13, 8), (20, 20, 9), (0,), (7, 12, 13, 14)]
    return [query(draw, airspace, askers[at % 2], wanted[at % len(wanted)], at % 4 == 3) for at in range(count)]


def unlike(name, calls, answers):
    """Returns how the responses differ from the plain policy's."""
    texts = [outcome.text(closes=False) for _, outcome in calls]
    why = first_difference(texts, [it.replace(b"Connection: close\r\n", b"") for it in answers])
    return [f"{name}: {why}"] if why else []


def differences(name, calls, answers, least):
    """Returns the same, and reports if no query finds many or few."""
    found = unlike(name, calls, answers)
    sizes = [outcome.body.count('"id"') for _, outcome in calls if outcome.status == 200]
    refused = sum(outcome.status == 413 for _, outcome in calls)
    if (max(sizes) < least or min(sizes) == max(sizes) or not refused):
        found += [f"{name}: the queries find {sizes} and {refused} are refused, which tells little"]
    return found


def made_coarser(room, draw, airspace):
    """Makes the first cell of each volume of some references coarser, in the database and in the plain policy."""
    entities = sorted(airspace.entities.values(), key=lambda it: it.serial)
    with tables.opened(room.database) as database:
        for at, entity in enumerate(entities[::4]):
            extents = []
            for place, volume in enumerate(entity.put.extents):
                new, columns = coarser(draw, volume, at + place)
                where = "WHERE entity = ? AND volume = ? AND place = 0"
                database.execute(f"UPDATE cell SET token = ?, lo = ?, hi = ? {where}", (*columns, entity.serial, place))
                extents.append(new)
            put = dataclasses.replace(entity.put, extents=tuple(extents))
            airspace.entities[entity.kind, entity.id] = dataclasses.replace(entity, put=put)


def subscriptions_made_coarser(room, draw, airspace):
    """Does the same to some subscriptions."""
    kept = sorted(airspace.subscriptions.values(), key=lambda it: it.serial)
    with tables.opened(room.database) as database:
        for at, subscription in enumerate(kept[::4]):
            new, columns = coarser(draw, subscription.put.extents[0], at)
            where = "WHERE subscription = ? AND place = 0"
            database.execute(f"UPDATE subscription_cell SET token = ?, lo = ?, hi = ? {where}", (*columns, subscription.serial))
            put = dataclasses.replace(subscription.put, extents=(new,))
            airspace.subscriptions[subscription.id] = dataclasses.replace(subscription, put=put)


def coarser(draw, volume, at):
    """Returns a volume with another first cell, and the values of that cell's row."""
    cell = drawn_cell(draw, COARSE[at % len(COARSE)])
    return dataclasses.replace(volume, cells=(cell, *volume.cells[1:])), (token_of(cell), *range_of(cell))


def levels_of(puts):
    return {len(cell[1]) for put in puts for each in put.extents for cell in each.cells}


def answers_over(room, calls):
    """Returns the responses to calls in several runs of the program with a few calls each, and what these runs print."""
    for at in range(0, len(calls), CHUNK):
        status, output, error = room.serve([it for it, _ in calls[at : at + CHUNK]])
        yield from [f"{status}, {error!r}".encode()] if (status, error) != (0, b"") else wire.answers_of(output)


def over_database():
    """Two hundred references of the levels 4 to 16 in a database, and queries in separate runs of the program."""
    draw, airspace = drawn_calls.Draw(7), plain_policy.Airspace(NOW, drawn_calls.ALL_TOKENS)
    found = []
    with Room() as room:
        answers = lambda calls: answers_over(room, calls)
        made = [creation(draw, airspace, number) for number in range(COUNT)]
        found += unlike("creations", made, answers(made))
        found += [] if len(airspace.entities) == COUNT else [f"{len(airspace.entities)} were made"]
        fine = queries(draw, airspace, 42)
        found += differences("queries", fine, answers(fine), 10)
        made_coarser(room, draw, airspace)
        coarse = queries(draw, airspace, 42)
        found += differences("queries of coarser references", coarse, answers(coarse), 10)
        levels = levels_of(it.put for it in airspace.entities.values())
        found += [] if levels == set(range(4, 17)) else [f"the levels are {sorted(levels)}"]
        found += wrong_with(room)
    return found


def alike(calls):
    """Returns what is wrong with the responses to a stream in memory and over a database."""
    requests = [it for it, _ in calls]
    with Room() as room:
        streams = {
            "over a database": room.serve(requests),
            "in memory": serve(b"".join(requests), NOW, wire.token_file(drawn_calls.ALL_TOKENS)),
        }
    found = []
    for name, (status, output, error) in streams.items():
        found += [f"{name}: {status}, {error!r}"] if (status, error) != (0, b"") else []
        found += differences(name, calls, wire.answers_of(output), 5)
    return found


def in_memory():
    """The same stream in memory and over a database: references, and then queries."""
    draw, airspace = drawn_calls.Draw(11), plain_policy.Airspace(NOW, drawn_calls.ALL_TOKENS)
    calls = [creation(draw, airspace, number) for number in range(FEW)]
    return alike(calls + queries(draw, airspace, wire.MAX_REQUESTS - FEW))


def subscribing(draw, airspace, number):
    """Returns the creation of a subscription."""
    _, token = SUBSCRIBERS[number % 2]
    level = LEVELS[number % len(LEVELS)]
    body = {
        "extents": extent(draw, [level] + [draw.of(LEVELS[3:]) for _ in range(draw.below(3))]),
        "uss_base_url": draw.of(("https://a.example", "https://b.example", "https://B.example")),
        "notify_for_operational_intents": token == "tok-a" or draw.one_in(2),
    }
    body["notify_for_constraints"] = not body["notify_for_operational_intents"] or token != "tok-a" and draw.one_in(2)
    id_ = f"00000000-0000-4000-9000-{draw.below(2**31):08x}{number:04x}"
    return asked(airspace, "PUT", f"{wire.SUBSCRIPTIONS}/{id_}", token, body)


def told(airspace):
    return airspace.notified["the caller's own"] + airspace.notified["another's"]


def notified_over_database():
    """Subscriptions of the levels 4 to 16 in a database: queries of them, and changes that notify them."""
    draw, airspace = drawn_calls.Draw(13), plain_policy.Airspace(NOW, drawn_calls.ALL_TOKENS)
    found = []
    with Room() as room:
        answers = lambda calls: answers_over(room, calls)
        made = [subscribing(draw, airspace, number) for number in range(SUBSCRIBED)]
        found += unlike("subscriptions", made, answers(made))
        found += [] if len(airspace.subscriptions) == SUBSCRIBED else [f"{len(airspace.subscriptions)} were made"]
        fine = queries(draw, airspace, 42, SUBSCRIBERS)
        found += differences("queries of subscriptions", fine, answers(fine), 10)
        subscriptions_made_coarser(room, draw, airspace)
        coarse = queries(draw, airspace, 42, SUBSCRIBERS)
        found += differences("queries of coarser subscriptions", coarse, answers(coarse), 10)
        changes = [creation(draw, airspace, number) for number in range(CHANGES)]
        changes += [deletion(airspace, it) for it in list(airspace.entities.values())[::3]]
        found += unlike("changes that notify", changes, answers(changes))
        levels = levels_of(it.put for it in airspace.subscriptions.values())
        found += [] if levels == set(range(4, 17)) else [f"the levels are {sorted(levels)}"]
        found += wrong_with(room)
    print(f"{len(changes)} changes notified {SUBSCRIBED} subscriptions in a database {told(airspace)} times")
    return found + ([f"they told {told(airspace)}"] if told(airspace) < MIN_NOTIFIED else [])


def deletion(airspace, entity):
    place, token = HANDLERS[entity.kind]
    target = f"{place}/{entity.id}/{airspace.ovn(entity)}"
    return asked(airspace, "DELETE", target, token, {})


def notified_in_memory():
    """The same stream in memory and over a database: subscriptions, queries of them, and changes that notify them."""
    draw, airspace = drawn_calls.Draw(17), plain_policy.Airspace(NOW, drawn_calls.ALL_TOKENS)
    calls = [subscribing(draw, airspace, number) for number in range(40)]
    calls += [creation(draw, airspace, number) for number in range(30)]
    calls += queries(draw, airspace, wire.MAX_REQUESTS - len(calls), SUBSCRIBERS)
    return alike(calls) + ([f"only {told(airspace)} were told"] if told(airspace) < MIN_NOTIFIED_IN_MEMORY else [])


CASES = {
    "meetings-over-a-database": over_database,
    "meetings-in-memory": in_memory,
    "subscriptions-that-meet-over-a-database": notified_over_database,
    "subscriptions-that-meet-in-memory": notified_in_memory,
}
