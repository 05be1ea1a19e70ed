"""Rows on what the rules mean.

They cover which volumes meet, what each USS sees, changes of state and of versions, and the USS of a token."""
import wire
from scenes import ID, NOTHING_LISTED, NO_SUBSCRIPTION, Scene, area, cells, put, volume
from wire import CONSTRAINTS, INTENTS


def meetings():
    """Which volumes meet a given one, as queries find them: by cells, altitudes and times, including their ends."""
    scene = Scene("meetings", [], [])
    kept = wire.ovn(1)
    seen = (
        '{"id":"00000000-0000-4000-8000-0000000000a1","manager":"uss-a",%s"state":"Accepted",'
        '"subscription_id":"00000000-0000-4000-8000-000000000000","time_end":2000,"time_start":900,'
        '"uss_availability":"Unknown","uss_base_url":"u","version":1}'
    )
    created = '{"operational_intent_reference":%s,"subscribers":[]}' % (seen % f'"ovn":"{kept}",')
    scene.ask((201, created), "PUT", f"{INTENTS}/{ID}", "tok-a", put())
    listed = (200, '{"operational_intent_references":[%s]}' % (seen % ""))
    for token, bounds, meets in (
        ("89c25904", {}, True),
        ("89c3", {}, True),
        ("89c2590c", {}, False),
        ("89c25903", {}, True),
        ("89c25905", {}, True),
        ("89c2591", {}, True),
        ("89c25904", {"altitude_lower": 1200, "time_start": 2000}, True),
        ("89c25904", {"altitude_lower": 1201}, False),
        ("89c25904", {"altitude_upper": -1}, False),
        ("89c25904", {"altitude_upper": 0, "time_end": 900}, True),
        ("89c25904", {"time_end": 899}, False),
        ("89c25904", {"time_start": 2001}, False),
    ):
        scene.query(listed if meets else NOTHING_LISTED, area(f'["{token}"]', **bounds))
    scene.ask((200, created), "DELETE", f"{INTENTS}/{ID}/{kept}", "tok-a")
    # Two cells of level 14 in one of level 13.
    scene.ask((201, created.replace(kept, wire.ovn(3))), "PUT", f"{INTENTS}/{ID}", "tok-a", put(volume('["89c25903"]')))
    scene.query(listed, area('["89c25905"]'))
    scene.query(NOTHING_LISTED, area('["89c2590c"]'))
    return scene


def seen_by_others():
    """A reference in each state, with an availability that was set, as another USS sees it."""
    tokens = {**wire.TOKENS, "tok-7": ("uss_b.7", {wire.STRATEGIC, wire.MONITORING})}
    scene = Scene("shown to others", [], [], wire.token_file(tokens))
    id_ = "F81D4FAE-7DEC-11D0-A765-00A0C91E6BF6"
    url = 'https://b.example/\\"x\\"\\\\y'
    text = (
        '{"id":"f81d4fae-7dec-11d0-a765-00a0c91e6bf6","manager":"uss_b.7",%s"state":"%s",'
        '"subscription_id":"00000000-0000-4000-8000-000000000000","time_end":253402300799,"time_start":0,'
        '"uss_availability":"%s","uss_base_url":"https://b.example/\\"x\\"\\\\y","version":%d}'
    )
    whole = volume(times=(0, 253_402_300_799))
    target = f"{INTENTS}/{id_}"
    version = 0
    for state in "Accepted", "Activated", "Nonconforming", "Contingent":
        version += 1
        own = text % (f'"ovn":"{wire.ovn(version)}",', state, "Unknown", version)
        body = put(whole, f',"state":"{state}"', url)
        made = (201 if version == 1 else 200, f'{{"operational_intent_reference":{own},"subscribers":[]}}')
        scene.ask(made, "PUT", target if version == 1 else f"{target}/{wire.ovn(version - 1)}", "tok-7", body)
        found = f'{{"operational_intent_reference":{text % ("", state, "Unknown", version)}}}'
        scene.ask((200, found), "GET", target, "tok-a")
    set_ = f'{{"status":{{"availability":"Down","uss":"uss_b.7"}},"version":"{wire.ovn(5)}"}}'
    scene.ask((200, set_), "PUT", f"{wire.AVAILABILITY}/uss_b.7", "tok-v", '{"availability":"Down"}')
    found = f'{{"operational_intent_reference":{text % ("", "Contingent", "Down", 4)}}}'
    scene.ask((200, found), "GET", target, "tok-a")
    return scene


def changes_of_state():
    """Each change of state of an intent that its USS created in the first of the two."""
    scene = Scene("changes of state", [], [])
    states = "Accepted", "Activated", "Nonconforming", "Contingent"
    # Each row is an old state, each column a new one.
    allowed = (True, True, True, True), (False, True, True, True), (False, True, True, True), (False, False, False, True)
    for row, of in zip(allowed, states):
        for is_allowed, to in zip(row, states):
            seen = {"id": ID.lower(), "manager": "uss-a", "time_end": 2000, "time_start": 900, "uss_availability": "Unknown"}
            seen |= {"uss_base_url": "u", "subscription_id": NO_SUBSCRIPTION}

            def made(status, state, version):
                scene.serial += 1
                reference = {**seen, "ovn": wire.ovn(scene.serial), "state": state, "version": version}
                return status, wire.compact({"operational_intent_reference": reference, "subscribers": []})

            first = made(201, of, 1)
            scene.ask(first, "PUT", f"{INTENTS}/{ID}", "tok-as", put(more=f',"state":"{of}"'))
            target = f"{INTENTS}/{ID}/{wire.ovn(scene.serial)}"
            last = made(200, to, 2) if is_allowed else first
            wanted = last if is_allowed else (400, '{"message":"P12 CHANGE"}')
            scene.ask(wanted, "PUT", target, "tok-as", put(more=f',"state":"{to}"'))
            target = f"{INTENTS}/{ID}/{wire.ovn(scene.serial)}"
            scene.serial += 1
            scene.ask((200, last[1]), "DELETE", target, "tok-as")
    return scene


def versions():
    """OVNs that another program computed, as versions of availabilities."""
    tokens = {"tok-v": wire.TOKENS["tok-v"]}
    scenes = []
    for salt, serial, version in (
        ("demo", 1, "0c8bab20c7aa631feb6e9d12df89abda74886cd1be999754333b0cbdafd072d7"),
        ("demo", 2, "da593634114084d057e1bce055b4920dc51a3ec8588ec9ce3e9ca3aa843780b9"),
        ("A-b_c.9", 10, "5c93fa701fb2d0d279a35408629ade2334f5f2e9e25b7a23c1ac200271dfb636"),
    ):
        scene = Scene(f"version {serial} of {salt}", [], [], wire.token_file(tokens, salt))
        for place in range(1, serial + 1):
            text = version if place == serial else wire.ovn(place, salt)
            said = f'{{"status":{{"availability":"Normal","uss":"uss-{place}"}},"version":"{text}"}}'
            scene.ask((200, said), "PUT", f"{wire.AVAILABILITY}/uss-{place}", "tok-v", '{"availability":"Normal"}')
        scenes.append(scene)
    return scenes


def callers():
    """The USS of a token, and what its scopes permit. Unknown scopes and other members are ignored."""
    tokens = f"""salt = "demo"

[[token]]
text = "tok-a"
uss = "uss-a"
scopes = ["utm.strategic_coordination"]

[[token]]
text = "tok-as"
uss = "uss-a"
scopes = ["utm.strategic_coordination", "utm.conformance_monitoring_sa"]

[[token]]
text = "tok-v"
uss = "uss-v"
scopes = ["utm.availability_arbitration", "utm.later", "UTM.CONSTRAINT_PROCESSING"]
note = 7

[[token]]
text = "tok-n"
uss = "uss-n"
scopes = []

[[token]]
text = "{'!' * 255}"
uss = "u"
scopes = ["utm.strategic_coordination"]
"""
    scene = Scene("callers", [], [], tokens)
    denied, nobody = (403, '{"message":"P4 SCOPE"}'), (401, '{"message":"P3 TOKEN"}', ("WWW-Authenticate: Bearer",))
    unknown = (200, '{"status":{"availability":"Unknown","uss":"u"},"version":""}')
    other = (409, '{"message":"P10 VERSION"}')
    role = (403, '{"message":"P11 ROLE"}')
    # Querying intents, querying constraints, reading an availability, setting one.
    for token, opens in (
        ("tok-a", (True, False, True, False)),
        ("tok-as", (True, False, True, False)),
        ("tok-v", (False, False, True, True)),
        ("tok-n", (False, False, False, False)),
        ("!" * 255, (True, False, True, False)),
    ):
        body = f'{{"area_of_interest":{area()}}}'
        scene.ask(NOTHING_LISTED if opens[0] else denied, "POST", f"{INTENTS}/query", token, body)
        listed = (200, '{"constraint_references":[]}')
        scene.ask(listed if opens[1] else denied, "POST", f"{CONSTRAINTS}/query", token, body)
        scene.ask(unknown if opens[2] else denied, "GET", f"{wire.AVAILABILITY}/u", token)
        setting = '{"availability":"Down","old_version":"x"}'
        scene.ask(other if opens[3] else denied, "PUT", f"{wire.AVAILABILITY}/u", token, setting)
    scene.ask(role, "PUT", f"{INTENTS}/{ID}", "tok-a", put(more=',"state":"Contingent"'))
    ended = put(volume(times=(0, 1)), ',"state":"Contingent"')
    scene.ask((400, '{"message":"P13 ENDED"}'), "PUT", f"{INTENTS}/{ID}", "tok-as", ended)
    for token in "", "tok", "tok-", "tok-asx", "TOK-A", "uss-a", "!" * 254, "!" * 255 + "~":
        scene.ask(nobody, "GET", f"{wire.AVAILABILITY}/u", token)
    return scene


def scenes():
    """Returns all streams of the table."""
    return [meetings(), seen_by_others(), changes_of_state(), callers(), *versions()]
