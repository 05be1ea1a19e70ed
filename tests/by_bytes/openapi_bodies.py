"""Bodies and path parameters at the bounds of docs/openapi.yaml and beyond them, with what must be rejected."""
import copy
import dataclasses
import json

from plain_policy import AVAILABILITIES, STATES

ABSENT = object()
CELL = "89c25904"
VOLUME = {"cells": [CELL], "altitude_lower": 0, "altitude_upper": 1200, "time_start": 900, "time_end": 2000}
OVN = "0123456789abcdef"
LAST = 253_402_300_799

NO_OBJECTS = [None, ABSENT, [], "x", 7, True]
NO_LISTS = [None, ABSENT, {}, "x", 7]
NO_TEXTS = [None, 7, True, [], {}]
NO_NUMBERS = ["0", True, 0.5, 1.0, 1e3, [], {}]

# Tokens beyond those of two digits: the greatest face and its neighbours, ends of each kind, zeros after them.
TOKENS = """89C25904 89c2590400000000 0000000000000001 bfffffffffffffff b000000000000001 00000000000000001
c000000000000001 89c25902 89c25908 89c2590a 89c2590e 89c25906 89c25905 89c2590f 000 4000 5000 89c25900g 0x89c2
0000000000000000""".split() + [" 89c259", "89c259 ", "89c259\n", "\u0663", ""]


def volumes(count):
    return [VOLUME] * count


def cells(count):
    return [CELL] * count


def nested(levels):
    """Returns lists in lists."""
    return [nested(levels - 1)] if levels > 1 else []


def edited(body, path, value):
    """Returns the text of a body in which the value at the path is another one, or absent."""
    body = copy.deepcopy(body)
    if not path:
        return json.dumps(value).encode()
    *front, last = path
    part = body
    for it in front:
        part = part[it]
    if value is ABSENT:
        del part[last]
    elif isinstance(last, tuple):
        part.update(zip(last, value))
    else:
        part[last] = value
    return json.dumps(body, ensure_ascii=False).encode()


def each_edit(body, edits):
    """Returns each edit of a body: whether it must be rejected, its description, and its text."""
    for path, (wrong, right) in edits:
        for values, is_wrong in (wrong, True), (right, False):
            for value in values:
                yield is_wrong, f"{'.'.join(map(str, path))} = {str(value)[:60]}", edited(body, path, value)


def with_other_members(value):
    """Returns a value with one member less or more in one of its objects. Only an OVN may be missing."""
    if isinstance(value, dict):
        yield value | {"more": None}
        for name, part in value.items():
            if name != "ovn":
                yield {other: it for other, it in value.items() if other != name}
            yield from (value | {name: it} for it in with_other_members(part))
    if isinstance(value, list):
        for at, part in enumerate(value):
            yield from ([*value[:at], it, *value[at + 1 :]] for it in with_other_members(part))


@dataclasses.dataclass
class Bodies:
    """A body that parses, and for each of its positions the values that must be rejected and those that must not."""

    body: object
    edits: list


def of_tokens(path):
    wrong = ["", "X", "d", "0", "89c25902", CELL + "0" * 9, None, 7, []]
    return [(path, (wrong, ["1", "bfffffffffffffff", CELL + "0" * 8, "89C25904"]))]


def of_urls(path):
    return [(path, (["", "u" * 256, "a b", "\u007f", "\u00fc", "u\n", ABSENT, *NO_TEXTS], ["u", "u" * 255, "!", "~"]))]


def of_bounds(path, names, least, greatest):
    """Edits both bounds of a pair beyond its minimum and its maximum. The other bound fits."""
    wrong = [(least - 1, greatest), (least - 1, least), (least, least - 1)]
    wrong += [(greatest + 1, greatest), (greatest, greatest + 1)]
    return [((*path, names), (wrong, [(least, greatest), (least, least), (greatest, greatest)]))]


ALTITUDES, TIMES = ("altitude_lower", "altitude_upper"), ("time_start", "time_end")


def of_extents():
    wrong = [[], volumes(33), [None], [[]], ["x"], *NO_LISTS]
    return [(("extents",), (wrong, [volumes(1), volumes(2), volumes(32)])), *of_volume(("extents", 0))]


def of_volume(first):
    edits = [
        ((*first, "cells"), ([[], cells(513), *NO_LISTS], [cells(2), cells(512)])),
        *of_tokens((*first, "cells", 0)),
        *of_bounds(first, ALTITUDES, -100_000, 1_000_000),
        *of_bounds(first, TIMES, 0, LAST),
    ]
    for name in ALTITUDES + TIMES:
        edits += [((*first, name), ([None, ABSENT, *NO_NUMBERS], []))]
    return edits


def of_area():
    edits = [
        (("area_of_interest",), (NO_OBJECTS, [])),
        (("area_of_interest", "cells"), ([[], cells(513), [None], *NO_LISTS], [cells(2), cells(512)])),
        *of_tokens(("area_of_interest", "cells", 0)),
        *of_bounds(("area_of_interest",), ALTITUDES, -100_000, 1_000_000),
        *of_bounds(("area_of_interest",), TIMES, 0, LAST),
    ]
    for names, least, greatest in (ALTITUDES, -100_000, 1_000_000), (TIMES, 0, LAST):
        for name in names:
            wrong = [least - 1, greatest + 1, *NO_NUMBERS]
            edits += [(("area_of_interest", name), (wrong, [None, ABSENT, least, 0, greatest]))]
    return edits


CREATED = {"extents": [VOLUME], "uss_base_url": "https://a.example"}
AREA = {"cells": [CELL], **dict.fromkeys(ALTITUDES + TIMES)}
WHOLE = ((), ([[], None, 7, "x", True, {}], []))
OF_CONSTRAINT = [WHOLE, *of_extents(), *of_urls(("uss_base_url",))]
OF_QUERY = [WHOLE, *of_area()]
ZERO = "00000000-0000-4000-8000-000000000000"
NAMES = [ZERO, ZERO[:-1] + "1", "F81D4FAE-7dec-11d0-a765-00a0c91e6bf6"]
NO_FLAGS = [0, 1, "true", [], {}]
SUBSCRIBED = {"notify_for_operational_intents": True, "notify_for_constraints": False}

BODIES = {
    "createIntent": Bodies({**CREATED, "key": [OVN], "state": "Accepted"}, [
        *OF_CONSTRAINT,
        (("state",), (["accepted", "", "Ended", ABSENT, *NO_TEXTS], list(STATES))),
        (("key",), ([[OVN] * 4097, {}, "x", 7, [None]], [None, ABSENT, [], [OVN] * 2, [OVN] * 4096])),
        (("key", 0), (["k" * 15, "k" * 129, *(15 * "k" + it for it in " \n\u007f\u00fc"), *NO_TEXTS],
                      ["k" * 16, "k" * 128, "!" * 16, "~" * 16])),
        (("more",), ([], [None, 7, "x", [1e3], {"cells": []}, nested(126)])),
        (("subscription_id",), (["", "x", ZERO[1:], ZERO + "0", 7, True, [], {}], [None, *NAMES])),
    ]),
    "createSubscription": Bodies({"extents": VOLUME, "uss_base_url": "https://b.example", **SUBSCRIBED}, [
        WHOLE,
        (("extents",), ([volumes(1), None, ABSENT, [], "x", 7], [VOLUME])),
        *of_volume(("extents",)),
        *of_urls(("uss_base_url",)),
        (("notify_for_constraints",), (NO_FLAGS, [None, ABSENT, True])),
        (("notify_for_operational_intents",), (NO_FLAGS, [])),
        (("more",), ([], [None, 7, "x"])),
    ]),
    "querySubscriptions": Bodies({"area_of_interest": AREA}, OF_QUERY),
    "createConstraint": Bodies(CREATED, [*OF_CONSTRAINT, (("key",), ([], [7, "x"])), (("state",), ([], [1, "x"]))]),
    "queryIntents": Bodies({"area_of_interest": AREA}, OF_QUERY),
    "queryConstraints": Bodies({"area_of_interest": AREA}, OF_QUERY),
    "setAvailability": Bodies({"availability": "Down", "old_version": "x"}, [
        WHOLE,
        (("availability",), (["down", "", "Up", ABSENT, *NO_TEXTS], list(AVAILABILITIES))),
        (("old_version",), (["v" * 129, 7, True, [], {}], [None, ABSENT, "", "v" * 128, "\u00fc" * 64, "\n"])),
    ]),
}
# An update has the body of a creation.
BODIES |= {"updateIntent": BODIES["createIntent"], "updateConstraint": BODIES["createConstraint"]}


def in_put(volume):
    return json.dumps({**CREATED, "state": "Accepted", "extents": volume}).encode()


def in_query(text):
    return b'{"area_of_interest":{"cells":["89c25904"],%s}}' % text


UNSUBSCRIBED = {"extents": VOLUME, "uss_base_url": "https://b.example", **SUBSCRIBED}

# Bodies that the schemas accept and the program rejects, as the document's text says.
UNSAID = {
    "createIntent": [
        ("2,049 cells", in_put([VOLUME | {"cells": cells(512)}] * 4 + [VOLUME])),
        ("altitudes in no order", in_put([VOLUME | {"altitude_lower": 1201}])),
        ("times in no order", in_put([VOLUME | {"time_start": 2001}])),
        ("a negative zero", in_put([VOLUME]).replace(b'"altitude_lower": 0', b'"altitude_lower": -0')),
        ("a great number in a member of another name", in_put([VOLUME])[:-1] + b',"more":1e999}'),
        ("128 levels", in_put([VOLUME])[:-1] + b',"more":%s}' % json.dumps(nested(127)).encode()),
    ],
    "createSubscription": [
        (f"for neither, with {it}", edited(UNSUBSCRIBED, ("notify_for_operational_intents",), it)) for it in (False, None, ABSENT)
    ],
    "queryIntents": [
        ("altitudes in no order", in_query(b'"altitude_lower":2,"altitude_upper":1')),
        ("times in no order", in_query(b'"time_start":2,"time_end":1')),
        ("a negative zero", in_query(b'"time_start":-0')),
    ],
    "setAvailability": [
        ("129 bytes in 65 letters", ('{"availability":"Down","old_version":"v%s"}' % ("\u00fc" * 64)).encode()),
    ],
}

UUID = "00000000-0000-4000-8000-0000000000a1"
NO_UUIDS = ["x", UUID[:-1], UUID + "0", UUID[:-1] + "g", f"{{{UUID[2:]}}}"]
NO_UUIDS += [UUID.replace("-", it) for it in ("", "_")]
UUIDS = [UUID, "f81d4fae-7dec-11d0-a765-00a0c91e6bf6"]
UUIDS += ["-".join(digit * size for size in (8, 4, 4, 4, 12)) for digit in "09afAF"]
# An operation, a parameter of its path, the texts that must be rejected and those that must not.
WORDS = [
    ("readIntent", "entityid", NO_UUIDS, UUIDS),
    ("readConstraint", "entityid", NO_UUIDS, UUIDS),
    ("deleteIntent", "ovn", ["query", "k" * 15, "k" * 129], ["k" * 16, "k" * 128, "!" * 16, "~" * 16, "%20" * 6]),
    ("readSubscription", "subscriptionid", NO_UUIDS, UUIDS),
    ("deleteSubscription", "version", ["query", "k" * 15, "k" * 129], ["k" * 16, "k" * 128, "!" * 16, "~" * 16]),
    ("readAvailability", "uss_id", ["u" * 65, "a+b", "a%2Fb", "!"], ["u", "u" * 64, "A-z_0.9", "query", ".", "-"]),
]

SEEN = ("operational_intent_reference",)
# Values that a response to a creation may have and those that it may not: the limits of what is stored.
OF_ANSWER = [
    ((*SEEN, "id"), (["", UUID.upper(), UUID[:-1], UUID + "0", UUID.replace("-", "")], [it.lower() for it in UUIDS])),
    ((*SEEN, "manager"), (["", "u" * 65, "a+b"], ["u", "u" * 64, "A-z_0.9"])),
    ((*SEEN, "ovn"), (["", "0" * 63, "0" * 65, "A" * 64, OVN], [ABSENT, "0" * 64, "9" * 64, "f" * 64])),
    ((*SEEN, "state"), (["accepted", None], list(STATES))),
    ((*SEEN, "subscription_id"), (["", UUID.upper(), UUID[:-1], None], [UUID, ZERO])),
    ((*SEEN, "uss_availability"), (["Up", None], list(AVAILABILITIES))),
    ((*SEEN, "version"), ([0, 2_147_483_648, "1"], [1, 2_147_483_647])),
    *(((*SEEN, name), ([-1, LAST + 1, "0", None], [0, LAST])) for name in TIMES),
    *of_urls((*SEEN, "uss_base_url")),
    (("subscribers",), ([[{}], None], [[]])),
]
