"""`dss explain` prints what is wrong with a request, and refuses exactly those that `dss run` denies by P1, P2 or P5."""
import json
import os
import random
import subprocess

import seeds
import wire
from program import BUILT, run, serve
from scenes import ID, NOW, NO_SUBSCRIPTION, OVN, V1, put
from wire import AVAILABILITY, CONSTRAINTS, INTENTS, SUBSCRIPTIONS

INTENT = ("PUT", f"{INTENTS}/{ID}")
CONSTRAINT = ("PUT", f"{CONSTRAINTS}/{ID}")
SUBSCRIPTION = ("PUT", f"{SUBSCRIPTIONS}/{ID}")
SETTING = ("PUT", f"{AVAILABILITY}/uss-a")
QUERY = ("POST", f"{INTENTS}/query")

NOT_WHOLE = "not a whole number of 64 bits: write it without a fraction and without an exponent"
NO_TOKEN = "not a token of a cell, which has 1 to 16 hexadecimal digits"
NO_CELL = "not a token of a cell: its digits are the number of no cell"
NOT_VISIBLE = "only characters from ! to ~ are allowed, and no space"
NO_UUID = "not a UUID of 36 characters"
NO_INTEREST = "false or absent, and so is notify_for_constraints: one of them must be true"
FORM = "dss: request: P5 FORM\n"
CREATION = "the request has the form of a creation of an intent"


def sub(extents=V1, intents="true", more=""):
    return f'{{"extents":{extents},"notify_for_operational_intents":{intents},"uss_base_url":"u"{more}}}'


def volume(**members):
    """Returns a volume with these members in place of those of V1. One that is None is left out."""
    found = json.loads(V1) | members
    return json.dumps({name: value for name, value in found.items() if value is not None})


def intent(**members):
    return put(volume(**members))


def area(text):
    return f'{{"area_of_interest":{text}}}'


def covering(name, count):
    """Returns the line about cells that cover so many of level 13."""
    return f"{name}: {count} level-13 cells covered: at most 16384 are allowed (P6)"


# A request: what `explain` prints for it, and the message if it is refused.
ROWS = (
    (INTENT, put(), [CREATION], ""),
    (("PUT", f"{INTENTS}/{ID}?x=1"), put(), [CREATION], ""),
    (("PUT", f"{INTENTS}/{ID}/{OVN}"), put(), ["the request has the form of an update of an intent"], ""),
    (("GET", f"{INTENTS}/{ID}"), "", ["the request has the form of a read of an intent"], ""),
    (("DELETE", f"{INTENTS}/{ID}/{OVN}"), "", ["the request has the form of a deletion of an intent"], ""),
    (
        ("DELETE", f"{INTENTS}/{ID}/{OVN}"), "{",
        ["body: ignored, since GET and DELETE have none", "the request has the form of a deletion of an intent"], "",
    ),
    (QUERY, area('{"cells":["89c3"]}'), ["the request has the form of a query for intents"], ""),
    (CONSTRAINT, put(more=""), ["the request has the form of a creation of a constraint"], ""),
    (SUBSCRIPTION, sub(), ["the request has the form of a creation of a subscription"], ""),
    (SETTING, '{"availability":"Normal"}', ["the request has the form of a setting of an availability"], ""),
    (("GET", f"{AVAILABILITY}/uss-a"), "", ["the request has the form of a read of an availability"], ""),
    (("POST", f"{SUBSCRIPTIONS}/query"), area('{"cells":["89c3"]}'), ["the request has the form of a query for subscriptions"], ""),
    # Paths and methods.
    (("PUT", "/dss/v2"), put(), ["path: no route has this path"], "dss: request: P1 ROUTE\n"),
    (("GET", "/"), "", ["path: no route has this path"], "dss: request: P1 ROUTE\n"),
    (("POST", f"{INTENTS}/{ID}"), put(), ["method: the path allows only GET, PUT"], "dss: request: P2 METHOD\n"),
    (("put", f"{INTENTS}/{ID}/{OVN}"), put(), ["method: the path allows only PUT, DELETE"], "dss: request: P2 METHOD\n"),
    (("PUT", f"{INTENTS}/A1"), put(), [f"{{entityid}}: {NO_UUID}"], FORM),
    (("GET", f"{CONSTRAINTS}/{ID}0"), "", [f"{{entityid}}: {NO_UUID}"], FORM),
    (("PUT", f"{INTENTS}/{ID}/{OVN[1:]}"), put(), ["{ovn}: 15 bytes: 16 to 128 are allowed"], FORM),
    (("DELETE", f"{INTENTS}/{ID}/{OVN}é"), "", [f"{{ovn}}: {NOT_VISIBLE}"], FORM),
    (("PUT", f"{SUBSCRIPTIONS}/{ID}/o"), sub(), ["{version}: 1 bytes: 16 to 128 are allowed"], FORM),
    (("GET", f"{AVAILABILITY}/uss,a"), "", ["{uss_id}: only ASCII letters, digits, - _ . are allowed"], FORM),
    (("GET", f"{AVAILABILITY}/{'u' * 65}"), "", ["{uss_id}: 65 bytes: 1 to 64 are allowed"], FORM),
    (("PUT", f"{SUBSCRIPTIONS}/{NO_SUBSCRIPTION}"), sub(), ["{subscriptionid}: the zero id, which means no subscription"], FORM),
    (("GET", f"{SUBSCRIPTIONS}/{NO_SUBSCRIPTION}"), "", ["the request has the form of a read of a subscription"], ""),
    # Texts that are no JSON object.
    (INTENT, "", ["body: empty, and not a JSON object"], FORM),
    (INTENT, put()[:-1], ["body: cannot be read as JSON: EOF while parsing at line 1 column 147"], FORM),
    (INTENT, '{"state":1e999}', ["body: cannot be read as JSON: number out of range at line 1 column 15"], FORM),
    (INTENT, '{"state":}', ["body: cannot be read as JSON: invalid JSON at line 1 column 10"], FORM),
    (INTENT, b'{"state":"\xff"}', ["body: not UTF-8"], FORM),
    (INTENT, "[" * 128 + "]" * 128, ["body: nested over 127 levels deep"], FORM),
    (INTENT, "[]", ["body: an array, not an object"], FORM),
    (INTENT, "null", ["body: null, not an object"], FORM),
    # Members.
    (INTENT, "{}", ["extents: missing", "uss_base_url: missing", "state: missing"], FORM),
    (INTENT, put(more=',"state":null'), ["state: null, which counts as missing"], FORM),
    (INTENT, put(more=',"state":"accepted"'), ["state: none of Accepted, Activated, Nonconforming, Contingent"], FORM),
    (INTENT, put(more=',"state":1'), ["state: a number, not a string"], FORM),
    (INTENT, put(url=""), ["uss_base_url: 0 bytes: 1 to 255 are allowed"], FORM),
    (INTENT, put(url="https://a b"), [f"uss_base_url: {NOT_VISIBLE}"], FORM),
    (INTENT, put(more=',"state":"Accepted","key":"o"'), ["key: a string, not an array"], FORM),
    (INTENT, put(more=f',"state":"Accepted","key":["{OVN}","o",7]'), ["key[1]: 1 bytes: 16 to 128 are allowed", "key[2]: a number, not a string"], FORM),
    (INTENT, put(more=f',"state":"Accepted","key":{json.dumps([OVN] * 4097)}'), ["key: 4097 items: 0 to 4096 are allowed"], FORM),
    (INTENT, put(more=',"state":"Accepted","subscription_id":"d1"'), [f"subscription_id: {NO_UUID}"], FORM),
    (INTENT, put(more=',"state":"Accepted","subscription_id":{}'), ["subscription_id: an object, not a string"], FORM),
    (INTENT, '{"extents":{},"state":"Accepted","uss_base_url":"u"}', ["extents: an object, not an array"], FORM),
    (INTENT, put(""), ["extents: 0 items: 1 to 32 are allowed"], FORM),
    (INTENT, put(",".join([V1] * 33)), ["extents: 33 items: 1 to 32 are allowed"], FORM),
    (INTENT, put(",".join([volume(cells=["89c25904"] * 410)] * 5)), ["extents: 2050 cells in total: at most 2048 are allowed"], FORM),
    # Volumes and areas.
    (INTENT, put("7"), ["extents[0]: a number, not an object"], FORM),
    (INTENT, put(f"{V1},{volume(cells=None)}"), ["extents[1].cells: missing"], FORM),
    (INTENT, intent(cells=[]), ["extents[0].cells: 0 items: 1 to 512 are allowed"], FORM),
    (INTENT, intent(cells=["89c25904"] * 513), ["extents[0].cells: 513 items: 1 to 512 are allowed"], FORM),
    (INTENT, intent(cells="89c25904"), ["extents[0].cells: a string, not an array"], FORM),
    (
        INTENT, put(f'{V1},{volume(cells=["89c25904", "X", "", "d", "0" * 17, 5, None])}'),
        [
            f"extents[1].cells[1]: {NO_TOKEN}", f"extents[1].cells[2]: {NO_TOKEN}", f"extents[1].cells[3]: {NO_CELL}",
            f"extents[1].cells[4]: {NO_TOKEN}", "extents[1].cells[5]: a number, not a string", "extents[1].cells[6]: null, not a string",
        ],
        FORM,
    ),
    (INTENT, intent(time_end=899), ["extents[0].time_end: before time_start"], FORM),
    (INTENT, intent(time_end="2026-11-27T00:00:00Z"), ["extents[0].time_end: a string, not a whole number"], FORM),
    (INTENT, intent(time_start=900.5), [f"extents[0].time_start: {NOT_WHOLE}"], FORM),
    (INTENT, intent(time_end=2**64), [f"extents[0].time_end: {NOT_WHOLE}"], FORM),
    (INTENT, intent(altitude_lower=-(2**63) - 1), [f"extents[0].altitude_lower: {NOT_WHOLE}"], FORM),
    (INTENT, put(V1.replace('"time_start":900', '"time_start":-0')), [f"extents[0].time_start: {NOT_WHOLE}"], FORM),
    (INTENT, intent(time_start=-1), ["extents[0].time_start: outside 0 to 253402300799"], FORM),
    (INTENT, intent(time_end=253402300800), ["extents[0].time_end: outside 0 to 253402300799"], FORM),
    (INTENT, intent(altitude_upper=-1), ["extents[0].altitude_upper: below altitude_lower"], FORM),
    (INTENT, intent(altitude_lower=-100001), ["extents[0].altitude_lower: outside -100000 to 1000000"], FORM),
    (INTENT, intent(altitude_upper=2**63), ["extents[0].altitude_upper: outside -100000 to 1000000"], FORM),
    (INTENT, intent(altitude_upper={"value": 1, "reference": "W84", "units": "M"}), ["extents[0].altitude_upper: an object, not a whole number"], FORM),
    (INTENT, intent(altitude_lower=None, time_start=None), ["extents[0].altitude_lower: missing", "extents[0].time_start: missing"], FORM),
    (QUERY, "{}", ["area_of_interest: missing"], FORM),
    (QUERY, area("[]"), ["area_of_interest: an array, not an object"], FORM),
    (QUERY, area('{"cells":["89c3"],"time_start":5,"time_end":4}'), ["area_of_interest.time_end: before time_start"], FORM),
    (QUERY, area('{"cells":["X"],"time_start":null}'), [f"area_of_interest.cells[0]: {NO_TOKEN}"], FORM),
    (SUBSCRIPTION, sub(f"[{V1}]"), ["extents: an array, not an object"], FORM),
    (SUBSCRIPTION, sub(volume(cells=["X"])), [f"extents.cells[0]: {NO_TOKEN}"], FORM),
    (SUBSCRIPTION, sub(intents="false"), [f"notify_for_operational_intents: {NO_INTEREST}"], FORM),
    (SUBSCRIPTION, f'{{"extents":{V1},"uss_base_url":"u"}}', [f"notify_for_operational_intents: {NO_INTEREST}"], FORM),
    (SUBSCRIPTION, sub(intents='"yes"'), ["notify_for_operational_intents: a string, not a boolean"], FORM),
    (SETTING, '{"availability":"down"}', ["availability: none of Unknown, Normal, Down"], FORM),
    (SETTING, f'{{"availability":"Down","old_version":"{"v" * 129}"}}', ["old_version: 129 bytes: 0 to 128 are allowed"], FORM),
    (SETTING, '{"old_version":1}', ["availability: missing", "old_version: a number, not a string"], FORM),
    # Cells that cover too much.
    (QUERY, area('{"cells":["1"]}'), [covering("area_of_interest", 2**26), "the request has the form of a query for intents"], ""),
    (QUERY, area('{"cells":["89c3","89c25904"]}'), [covering("area_of_interest", 16385), "the request has the form of a query for intents"], ""),
    (INTENT, intent(cells=["89c3"]), [CREATION], ""),
    (INTENT, put(f'{volume(cells=["89c3"])},{V1}'), [covering("extents", 16385), CREATION], ""),
    (SUBSCRIPTION, sub(volume(cells=["89c25904", "89c3"])), [covering("extents", 16385), "the request has the form of a creation of a subscription"], ""),
    # Members that are ignored.
    (
        INTENT, put(volume(time_strat=0), ',"state":"Accepted","subscription_Id":"d1","new_subscription":{},"priority":1'),
        [
            "extents[0].time_strat: unknown member; did you mean time_start?",
            "new_subscription: unknown member; put a subscription first, and reference it by subscription_id",
            "priority: unknown member",
            "subscription_Id: unknown member; did you mean subscription_id?",
            CREATION,
        ],
        "",
    ),
    (
        SUBSCRIPTION, sub(more=',"notify_for_constraint":true'),
        [
            "notify_for_constraint: unknown member; did you mean notify_for_constraints?",
            "the request has the form of a creation of a subscription",
        ],
        "",
    ),
    (
        INTENT, put('{"volume":{"outline_polygon":{}},"time_start":{},"time_end":{}}'),
        [
            "extents[0].altitude_lower: missing",
            "extents[0].altitude_upper: missing",
            "extents[0].time_start: an object, not a whole number",
            "extents[0].time_end: an object, not a whole number",
            "extents[0].cells: missing",
            "extents[0].volume: unknown member; its cells and altitudes belong beside the times",
        ],
        FORM,
    ),
    (
        CONSTRAINT, put(more=',"ref":0,"a b\\n":0,"":0,"' + "n" * 65 + '":0'),
        [
            '"": unknown member', '"a b\\n": unknown member', "(a name of 65 bytes): unknown member", "ref: unknown member",
            "the request has the form of a creation of a constraint",
        ],
        "",
    ),
    # Only so many lines are printed.
    (QUERY, area(json.dumps({"cells": ["X"] * 512})), [*(f"area_of_interest.cells[{at}]: {NO_TOKEN}" for at in range(100)), "and 412 more"], FORM),
)

# The lines that explain a put that ends at 2000, by the time of the request.
ENDINGS = (
    (None, []),
    (1999, []),
    (2000, ["extents: ended at 2000; now is 2000"]),
    (1764230400, ["extents: ended at 2000; now is 1764230400"]),
)


def explained(request, body, more=()):
    """Returns the status, the lines and standard error of `explain`."""
    given = body if isinstance(body, bytes) else body.encode()
    status, output, error = run([BUILT, "explain", *more, *request], given)
    return status, output.decode().splitlines(), error.decode()


def rows():
    """Each request gives its lines, the rule that denies it, and the status."""
    found = []
    for request, body, lines, error in ROWS:
        wanted = (1 if error else 0, lines, error)
        got = explained(request, body)
        if got != wanted:
            found += [f"{request} {body!r}: wanted {wanted!r}, got {got!r}"]
    return found


def endings():
    """With a time, a line says that a put has ended."""
    found = []
    for request, body in (INTENT, put()), (SUBSCRIPTION, sub()):
        last = explained(request, body)[1]
        for now, lines in ENDINGS:
            got = explained(request, body, [] if now is None else ["--now", str(now)])
            if got != (0, [*lines, *last], ""):
                found += [f"{request} at {now}: got {got!r}"]
    return found


def too_long():
    """A body that the service does not read is not explained."""
    body = put(more=',"state":"Accepted","more":"' + "m" * 2**20 + '"')
    got = explained(INTENT, body)
    wanted = (1, [], "dss: request: H5 BODYSIZE\n")
    found = [] if got == wanted else [f"got {got!r}"]
    most = put(more=',"state":"Accepted","more":"M"')
    got = explained(INTENT, most.replace('"M"', f'"{"m" * (2**20 - len(most) + 1)}"'))
    return found + ([] if got == (0, ["more: unknown member", CREATION], "") else [f"of 1 MiB: got {got!r}"])


# ---- drawn requests

ANY = {"all": ("uss-a", {wire.STRATEGIC, wire.MONITORING, wire.PROCESSING, wire.MANAGEMENT, wire.ARBITRATION})}
TARGETS = (
    ("PUT", f"{INTENTS}/{ID}", put()),
    ("PUT", f"{INTENTS}/{ID}/{OVN}", put(f"{V1},{V1}", f',"state":"Activated","key":["{OVN}"],"subscription_id":"{ID}"')),
    ("PUT", f"{CONSTRAINTS}/{ID}", put(more="")),
    ("PUT", f"{CONSTRAINTS}/{ID}/{OVN}", put(more="")),
    ("POST", f"{INTENTS}/query", area(V1)),
    ("POST", f"{CONSTRAINTS}/query", area('{"cells":["89c25904"],"time_start":5}')),
    ("POST", f"{INTENTS}/query", area('{"cells":["89c3","89c25904"]}')),
    ("PUT", f"{AVAILABILITY}/uss-a", f'{{"availability":"Down","old_version":"{OVN}"}}'),
    ("PUT", f"{SUBSCRIPTIONS}/{ID}", sub(more=',"notify_for_constraints":true')),
    ("PUT", f"{SUBSCRIPTIONS}/{ID}/{OVN}", sub()),
    ("POST", f"{SUBSCRIPTIONS}/query", area(V1)),
    ("GET", f"{INTENTS}/{ID}", ""),
    ("DELETE", f"{CONSTRAINTS}/{ID}/{OVN}", ""),
    ("GET", f"{AVAILABILITY}/uss-a", ""),
    ("DELETE", f"{SUBSCRIPTIONS}/{ID}/{OVN}", ""),
)
VALUES = (
    None, True, False, 0, 1, -1, 0.0, 1.5, -100000, -100001, 1000000, 1000001, 253402300799, 253402300800, 2**63, 2**64, "", "a", "89c25904",
    "X", "Accepted", "Normal", OVN, OVN[1:], ID, NO_SUBSCRIPTION, "u" * 128, "u" * 129, "u" * 255, "u" * 256, "a b", "é", [], ["89c25904"], [OVN], {},
)
PARTS = ("", "query", "é", "u" * 64, "u" * 65, OVN, OVN[1:], ID, NO_SUBSCRIPTION)


def places(value):
    """Returns each object or array in a value, with each of its keys or indexes."""
    inner = value.items() if isinstance(value, dict) else enumerate(value) if isinstance(value, list) else ()
    return [(value, key) for key, _ in inner] + [it for _, below in inner for it in places(below)]


def copied(value):
    """Returns a copy of a value, which shares nothing with it."""
    return json.loads(json.dumps(value))


def changed(draw, value):
    """Changes a place of a value: drops it, repeats it, renames it, or puts another value there."""
    found = places(value)
    if not found:
        return
    holder, key = draw.choice(found)
    what = draw.randrange(4)
    if what == 0:
        del holder[key]
    elif what == 1 and isinstance(holder, list):
        holder.extend(copied([holder[key]] * draw.choice((1, 31, 32, 511, 512))))
    elif what == 1:
        at = draw.randrange(len(key))
        holder[key[:at] + draw.choice("_xsS") + key[at + draw.randrange(2):]] = holder.pop(key)
    else:
        holder[key] = copied(draw.choice(VALUES))


def drawn_of_any_length(draw):
    """Returns a method, a target and the bytes of a body, of which at most three things are wrong."""
    method, target, body = draw.choice(TARGETS)
    if body:
        value = json.loads(body)
        for _ in range(draw.choice((0, 1, 1, 1, 2, 3))):
            changed(draw, value)
        body = json.dumps(value)
    given = bytearray(body.encode())
    if draw.random() < 0.1 and given:
        at = draw.randrange(len(given))
        given[at:at + draw.randrange(2)] = draw.choice((b"", b"{", b'"', b",", b"\xff", b"\\", b"[[", b" "))
    if draw.random() < 0.1:
        parts = target.split("/")
        parts[draw.randrange(4, len(parts))] = draw.choice(PARTS)
        target = "/".join(parts)
    if draw.random() < 0.05:
        method = draw.choice(("GET", "PUT", "POST", "DELETE", "put"))
    return method, target, bytes(given)


def drawn_request(draw):
    """Returns such a request, with a body of a length that the service reads."""
    while True:
        found = drawn_of_any_length(draw)
        if len(found[2]) <= 2**20:
            return found


RULES = ("P1 ROUTE", "P2 METHOD", "P5 FORM", "P6 AREA")


def denials_of(requests):
    """Returns for each request the rule that `run` denies it by, if this is one that is explained."""
    stream = b"".join(wire.request(method, target, "Bearer all", body) for method, target, body in requests)
    answers = wire.answers_of(serve(stream, NOW, wire.token_file(ANY))[1])
    assert len(answers) == len(requests), f"{len(answers)} answers to {len(requests)} requests"
    return [next((it for it in RULES if f'"message":"{it}"'.encode() in answer), None) for answer in answers]


def without_id(target):
    """Returns a target with `x` in place of the id in its path, and the name of that parameter, if it has one."""
    parts = target.split("/")
    if target.startswith(f"{AVAILABILITY}/") or parts[4] == "query":
        return None
    parts[4] = "x"
    return "/".join(parts), "{subscriptionid}" if target.startswith(f"{SUBSCRIPTIONS}/") else "{entityid}"


def false_problems(request, lines):
    """Returns what is wrong with the explanation of a request with this form, but with no id in its path: one problem is
    printed, and the same remarks on its members."""
    found = without_id(request[1])
    if found is None:
        return []
    target, name = found
    remarks = [it for it in lines[:-1] if not it.endswith("(P6)")]
    wanted = (1, [f"{name}: {NO_UUID}", *remarks], FORM)
    got = explained((request[0], target), request[2])
    return [] if got == wanted else [f"{request} with x for the id: wanted {wanted!r}, got {got!r}"]


def disagreement(request, rule):
    """Returns what is wrong with the explanation of a request that `run` denies by this rule, or by none of these."""
    status, lines, error = explained(request[:2], request[2])
    is_form = rule in (None, "P6 AREA")
    wanted = (0, "") if is_form else (1, f"dss: request: {rule}\n")
    found = []
    if (status, error) != wanted or not lines or any(it.endswith("(P6)") for it in lines) != (rule == "P6 AREA"):
        found += [f"{request}, {rule}: wanted {wanted!r}, got {(status, lines, error)!r}"]
    if any("does not have the form" in it for it in lines):
        found += [f"{request}: no reason is found"]
    return found + (false_problems(request, lines) if is_form else [])


def agreement():
    """`explain` refuses a request exactly if `run` denies it for its path, its method or its form, and by the same rule.
    It says why. A line says that cells cover too much exactly if `run` denies a request for that."""
    found, counts = [], {}
    for seed in [*range(4), *seeds.new("explanations", 4)]:
        draw = random.Random(seed)
        requests = [drawn_request(draw) for _ in range(90)]
        for request, rule in zip(requests, denials_of(requests)):
            counts[rule] = counts.get(rule, 0) + 1
            found += [f"seed {seed}: {it}" for it in disagreement(request, rule)]
    few = [it for it in (None, "P5 FORM") if counts.get(it, 0) < 100] + [it for it in RULES if it not in counts]
    return found + [f"too few requests with {it}: {counts}" for it in few]


def full():
    """If lines cannot be written, that is reported."""
    with open("/dev/full", "wb") as nowhere:
        done = subprocess.run([BUILT, "explain", *INTENT], input=b"", stdout=nowhere, stderr=subprocess.PIPE)
    return [] if (done.returncode, done.stderr) == (1, b"dss: output\n") else [f"got {done!r}"]


def unread():
    """If the body cannot be read, that is reported."""
    folder = os.open("/", os.O_RDONLY)
    try:
        done = subprocess.run([BUILT, "explain", *INTENT], stdin=folder, capture_output=True)
    finally:
        os.close(folder)
    got = (done.returncode, done.stdout, done.stderr)
    return [] if got == (1, b"", b"dss: requests: cannot read\n") else [f"got {got!r}"]


CASES = {
    "explanations": rows,
    "explanations-of-ended-puts": endings,
    "explanation-of-a-long-body": too_long,
    "explanations-agree-with-run": agreement,
    "explanation-unwritten": full,
    "explanation-of-an-unread-body": unread,
}
