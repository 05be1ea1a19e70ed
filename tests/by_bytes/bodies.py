"""Bodies at their limits are accepted, and bodies beyond them are rejected: each with its expected response."""
import json

import wire
from scenes import (
    ID, MALFORMED, NOTHING_LISTED, NOT_FOUND, NOW, NO_SUBSCRIPTION, OVN, Scene, TOO_LARGE, V1, area, cells, put, volume,
)
from wire import CONSTRAINTS, INTENTS, SUBSCRIPTIONS


def members_of_puts():
    scene = Scene("members of puts", [], [])
    scene.created(put(f"{V1},{V1}", f',"key":["{OVN}"],"state":"Activated","more":[1e3]'), state="Activated")
    scene.created(put(more=',"key":null,"state":"Accepted"'))
    scene.created(put(more=',"key":7,"k\\u0065y":null,"state":"Accepted"'))
    scene.refused(put(more=',"key":[null],"state":"Accepted"'))
    scene.refused(put(more=',"key":7,"state":"Accepted"'))
    scene.refused(put(more=',"state":null'))
    scene.refused(put(more=""))
    scene.refused(put(more=',"state":"accepted"'))
    scene.refused(put("null"))
    scene.refused(put().replace(',"uss_base_url":"u"', ""))
    for place in range(5):
        member = ('"cells":["89c25904"],', '"altitude_lower":0,', '"altitude_upper":1200,', '"time_start":900,', ',"time_end":2000')
        scene.refused(put(V1.replace(member[place], "")))
    for url, is_read in (("", False), ("https://a example", False), ("u" * 255, True), ("u" * 256, False)):
        (scene.created(put(url=url), url=url) if is_read else scene.refused(put(url=url)))
    constraint = put(more=',"key":"no list","state":1')
    scene.created(constraint, CONSTRAINTS, "tok-c")
    # A body that parses is checked by the later rules: no such constraint exists.
    scene.ask(NOT_FOUND, "PUT", f"{CONSTRAINTS}/{ID}/{OVN}", "tok-c", constraint)
    scene.ask(MALFORMED, "PUT", f"{CONSTRAINTS}/{ID}/query", "tok-c", constraint)
    scene.ask(MALFORMED, "PUT", f"{CONSTRAINTS}/{ID}0/{OVN}", "tok-c", constraint)
    scene.ask(NOT_FOUND, "DELETE", f"{CONSTRAINTS}/{ID}/{OVN}", "tok-c", "[")
    scene.ask(NOT_FOUND, "GET", f"{CONSTRAINTS}/{ID}", "tok-c", "[")
    return scene


def limits_of_lists():
    """Lists of volumes, of cells and of OVNs in a key, at and beyond their limits."""
    scene = Scene("limits of lists", [], [])
    for count, is_read in ((0, False), (1, True), (32, True), (33, False)):
        body = put(",".join([V1] * count))
        (scene.created(body) if is_read else scene.refused(body))
    for count, is_read in ((0, True), (4096, True), (4097, False)):
        body = put(more=f',"key":{json.dumps([OVN] * count)},"state":"Accepted"')
        (scene.created(body) if is_read else scene.refused(body))
    for key, is_read in (("k" * 15, False), ("k" * 16, True), ("k" * 128, True), ("k" * 129, False), (" " * 16, False)):
        body = put(more=f',"key":["{key}"],"state":"Accepted"')
        (scene.created(body) if is_read else scene.refused(body))
    for count, is_read in ((0, False), (1, True), (512, True), (513, False)):
        body = put(volume(cells(count)))
        (scene.created(body) if is_read else scene.refused(body))
        scene.query(NOTHING_LISTED if is_read else MALFORMED, area(cells(count)))
        bounds = {"altitude_lower": 0, "altitude_upper": 1200, "time_start": 900, "time_end": 2000}
        scene.query(NOTHING_LISTED if is_read else MALFORMED, area(cells(count), **bounds))
    for counts, is_read in (
        ((512, 512, 512, 511), True),
        ((512, 512, 512, 512), True),
        ((512, 512, 512, 511, 1), True),
        ((512, 512, 512, 511, 2), False),
    ):
        body = put(",".join(volume(cells(count)) for count in counts))
        (scene.created(body) if is_read else scene.refused(body))
        # Whole faces parse as well, and cover too much.
        body = put(",".join(volume(cells(count, "1")) for count in counts))
        scene.refused(body, wanted=TOO_LARGE if is_read else MALFORMED)
    for count in 1, 512:
        scene.query(TOO_LARGE, area(cells(count, "1")))
    scene.query(NOTHING_LISTED, area('["89c3"]'))
    scene.query(TOO_LARGE, area('["89c3","89c25904"]'))
    return scene


def bounds_of_extents():
    """Altitudes and times of volumes and of areas, at and beyond their limits."""
    scene = Scene("bounds of extents", [], [])
    least, greatest = -100_000, 1_000_000
    for low, high, is_read in (
        (least, greatest, True),
        (least, least, True),
        (least - 1, 0, False),
        (least - 1, least - 1, False),
        (greatest, greatest, True),
        (0, greatest + 1, False),
        (greatest + 1, greatest + 1, False),
        (7, 7, True),
        (8, 7, False),
    ):
        body = put(volume(altitudes=(low, high)))
        (scene.created(body) if is_read else scene.refused(body))
        wanted = NOTHING_LISTED if is_read else MALFORMED
        scene.query(wanted, area(altitude_lower=low, altitude_upper=high))
    last = 253_402_300_799
    ended = (400, '{"message":"P13 ENDED"}')
    for start, end, is_read in (
        (0, last, True),
        (last, last, True),
        (0, last + 1, False),
        (last + 1, last + 1, False),
        (7, 7, True),
        (8, 7, False),
    ):
        body = put(volume(times=(start, end)))
        if is_read and end > NOW:
            scene.created(body, times=(start, end))
        else:
            scene.refused(body, wanted=ended if is_read else MALFORMED)
        scene.query(NOTHING_LISTED if is_read else MALFORMED, area(time_start=start, time_end=end))
    return scene


def areas():
    """Bodies of queries: a bound may be absent; otherwise it must be an integer."""
    scene = Scene("areas", [], [])
    for bounds, is_read in (
        ({"altitude_lower": -100_000}, True),
        ({"altitude_lower": -100_001}, False),
        ({"altitude_lower": 1_000_001}, False),
        ({"altitude_upper": 1_000_000}, True),
        ({"altitude_upper": 1_000_001}, False),
        ({"altitude_upper": -100_001}, False),
        ({"time_start": 253_402_300_799}, True),
        ({"time_start": 253_402_300_800}, False),
        ({"time_end": 0}, True),
        ({"time_end": 253_402_300_800}, False),
        ({"time_start": -1}, False),
        ({"altitude_upper": -100_000, "time_end": "null"}, True),
        ({"altitude_lower": "1.0"}, False),
        ({"altitude_lower": "1e3"}, False),
        ({"altitude_lower": "-0"}, False),
        ({"altitude_lower": "1.5"}, False),
        ({"altitude_lower": 2, "altitude_upper": 1}, False),
    ):
        scene.query(NOTHING_LISTED if is_read else MALFORMED, area('["89c3"]', **bounds))
    for tokens in '["89c3",null]', '["X"]', "[]", '"89c3"', '["89c25902"]', '["d"]', '["0"]', '[""]', '["00000000000000001"]':
        scene.query(MALFORMED, area(tokens))
    for tokens in '["89C25904"]', '["89c2590400000000"]', '["0000000000000001"]':
        scene.query(NOTHING_LISTED, area(tokens))
    for body in (
        "",
        "[]",
        "null",
        '{"area_of_interest":{"cells":["89c3"]},"x":1e999}',
        '{"area_of_interest":{"cells":["89c3"]}',
        '{"area":{"cells":["89c3"]}}',
    ):
        scene.ask(MALFORMED, "POST", f"{INTENTS}/query", "tok-a", body)
    return scene


def settings():
    scene = Scene("settings", [], [])
    for place, body in enumerate((
        '{"availability":"Down"}',
        '{"availability":"Down","old_version":null}',
        '{"availability":null,"availability":"Down","old_version":""}',
    )):
        scene.serial += 1
        status = {"status": {"availability": "Down", "uss": f"uss-{place}"}, "version": wire.ovn(scene.serial)}
        scene.ask((200, wire.compact(status)), "PUT", f"{wire.AVAILABILITY}/uss-{place}", "tok-v", body)
    # A version of up to 128 bytes parses, even if it matches no availability.
    other = (409, '{"message":"P10 VERSION"}')
    for count, wanted in ((1, other), (128, other), (129, MALFORMED)):
        body = json.dumps({"availability": "Down", "old_version": "v" * count})
        scene.ask(wanted, "PUT", f"{wire.AVAILABILITY}/uss-b", "tok-v", body)
    for body in '{"availability":"down"}', '{"availability":"Down","old_version":7}', "{}", '["Down"]':
        scene.ask(MALFORMED, "PUT", f"{wire.AVAILABILITY}/uss-b", "tok-v", body)
    longest = "abcdefghijklmnopqrstuvwxyz-ABCDEFGHIJKLMNOPQRSTUVWXYZ_0123456789"
    for uss, is_read in (("a", True), (longest, True), (longest + ".", False), ("a+b", False)):
        unknown = (200, f'{{"status":{{"availability":"Unknown","uss":"{uss}"}},"version":""}}')
        scene.ask(unknown if is_read else MALFORMED, "GET", f"{wire.AVAILABILITY}/{uss}", "tok-v")
    return scene


def of_subscription(extents=V1, flags=',"notify_for_operational_intents":true', url="u"):
    return f'{{"extents":{extents},"uss_base_url":"{url}"{flags}}}'


def puts_of_subscriptions():
    """Puts of subscriptions: one that parses is checked by the later rules, and no such subscription exists. The zero
    id is no id."""
    scene = Scene("puts of subscriptions", [], [])

    def checked(body, is_read):
        scene.ask(NOT_FOUND if is_read else MALFORMED, "PUT", f"{SUBSCRIPTIONS}/{ID}/{OVN}", "tok-bc", body)

    intents, constraints = ',"notify_for_operational_intents":', ',"notify_for_constraints":'
    for flags, is_read in (
        (f"{intents}true{constraints}true", True),
        (f"{intents}true{constraints}false", True),
        (f"{intents}false{constraints}true", True),
        (f"{intents}null{constraints}true", True),
        (f"{intents}true{constraints}null", True),
        (f"{constraints}true", True),
        ("", False),
        (f"{intents}false{constraints}false", False),
        (f"{intents}null{constraints}null", False),
        (f"{intents}false", False),
        (f"{intents}1", False),
        (f'{intents}"true"', False),
        (f"{intents}true{constraints}0", False),
        (f"{intents}true{constraints}[]", False),
        (f"{intents}false{intents}true", True),
        (f"{intents}true,\"more\":[1e3]", True),
    ):
        checked(of_subscription(flags=flags), is_read)
    low, high, last = -100_000, 1_000_000, 253_402_300_799
    for extents, is_read in (
        (f"[{V1}]", False),
        ("null", False),
        ("{}", False),
        (volume(cells(0)), False),
        (volume(cells(512)), True),
        (volume(cells(513)), False),
        (volume('["89c25902"]'), False),
        (volume(altitudes=(low, high)), True),
        (volume(altitudes=(low - 1, high)), False),
        (volume(altitudes=(low, high + 1)), False),
        (volume(altitudes=(8, 7)), False),
        (volume(altitudes=(0, "1.5")), False),
        (volume(times=(0, last)), True),
        (volume(times=(0, last + 1)), False),
        (volume(times=(8, 7)), False),
        (V1.replace(',"time_end":2000', ""), False),
    ):
        checked(of_subscription(extents), is_read)
    for url, is_read in (("", False), ("a b", False), ("u" * 255, True), ("u" * 256, False)):
        checked(of_subscription(url=url), is_read)
    checked(of_subscription().replace(',"uss_base_url":"u"', ""), False)
    checked("", False)
    for method, path, body, wanted in (
        ("PUT", NO_SUBSCRIPTION, of_subscription(), MALFORMED),
        ("PUT", f"{NO_SUBSCRIPTION}/{OVN}", of_subscription(), MALFORMED),
        ("GET", NO_SUBSCRIPTION, None, NOT_FOUND),
        ("DELETE", f"{NO_SUBSCRIPTION}/{OVN}", None, NOT_FOUND),
        ("PUT", f"{ID}/{OVN[1:]}", of_subscription(), MALFORMED),
        ("DELETE", f"{ID}/{OVN[1:]}", None, MALFORMED),
        ("GET", f"{ID}0", None, MALFORMED),
        ("PUT", f"query/{OVN}", of_subscription(), (404, '{"message":"P1 ROUTE"}')),
    ):
        scene.ask(wanted, method, f"{SUBSCRIPTIONS}/{path}", "tok-bc", body)
    return scene


def names_of_subscriptions():
    """References to subscriptions in the put of an intent, and how they are read. Those of a constraint are ignored."""
    scene = Scene("names of subscriptions", [], [])
    absent = (400, '{"message":"P16 SUBSCRIPTION"}')

    def named(text):
        return put(more=f',"state":"Accepted","subscription_id":{text}')

    for text in "null", f'"{NO_SUBSCRIPTION}"':
        scene.created(named(text))
    for text in f'"{ID}"', f'"{ID.lower()}"':
        scene.refused(named(text), wanted=absent)
    for text in '""', "7", "false", "[]", f'"{ID[1:]}"', f'"{ID}0"', f'"{ID.replace("-", "")}"', '"query"':
        scene.refused(named(text))
    scene.created(put(more=',"subscription_id":7'), CONSTRAINTS, "tok-c")
    return scene


def scenes():
    """Returns all streams of the table."""
    made = members_of_puts(), limits_of_lists(), bounds_of_extents(), areas(), settings()
    return [*made, puts_of_subscriptions(), names_of_subscriptions()]
