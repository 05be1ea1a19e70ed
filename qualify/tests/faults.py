"""The faults that a proxy plants, each with the checks that must report it.

A fault takes what the proxy has seen, a request, and the function that forwards a request to the service; it returns
the response. It is planted in front of the service with its own profile and in front of the gateway, or only in
front of the service if it says so."""
import json
import time

from proxy import ONE

ZERO = "00000000-0000-4000-8000-000000000000"
FAULTS = {}


class Fault:
    def __init__(self, plant, checks, only):
        self.plant, self.checks, self.only = plant, checks, only


def fault(*checks, only=None):
    def take(plant):
        FAULTS[plant.__name__] = Fault(plant, checks, only)
        return plant
    return take


def references(value):
    """Returns all references and subscriptions of a response, each with the name of its container."""
    for name, it in (value or {}).items():
        kind = name.removeprefix("missing_")
        if name in ONE.values():
            yield name, it
        elif isinstance(it, list) and (kind in ("operational_intents", "constraints") or name in [f"{one}s" for one in ONE.values()]):
            yield from ((name, each) for each in it if isinstance(each, dict))


def changed(answer, change):
    """Returns the response with each of its references changed."""
    value = answer and answer.value
    if isinstance(value, dict):
        found = list(references(value))
        for name, it in found:
            change(name, it)
        if found:
            answer.put(value)
    return answer


def is_change(asked):
    return asked.method in ("PUT", "DELETE") and asked.words[0] in ONE


def is_query(asked):
    return asked.path.endswith("/query")


def is_reading(asked):
    return asked.method == "GET" and asked.words[0] in ONE


def show(world, it):
    for kind in ("operational_intent_references", "constraint_references"):
        if "ovn" not in it and "manager" in it and (kind, it.get("id")) in world.now:
            it["ovn"] = world.now[kind, it["id"]]


# ---- what responses show


@fault("an_ovn_is_shown_to_the_manager_alone", "a_constraint_is_created_and_read")
def an_ovn_shown_in_a_reading(world, asked, pass_on):
    answer = pass_on(asked)
    return changed(answer, lambda _, it: show(world, it)) if is_reading(asked) else answer


@fault("an_ovn_is_shown_to_the_manager_alone", "a_key_opens")
def an_ovn_shown_in_a_query(world, asked, pass_on):
    answer = pass_on(asked)
    return changed(answer, lambda _, it: show(world, it)) if is_query(asked) else answer


@fault("a_key_is_needed", "a_constraint_is_needed_by_who_is_told_of_them")
def an_ovn_shown_in_what_is_missing(world, asked, pass_on):
    return changed(pass_on(asked), lambda name, it: show(world, it) if name.startswith("missing") else None)


@fault("an_intent_is_created_and_read")
def an_ovn_hidden_from_its_manager(world, asked, pass_on):
    answer = pass_on(asked)
    return changed(answer, lambda _, it: it.pop("ovn", None)) if is_reading(asked) else answer


@fault("an_intent_is_created_and_read", "an_update_replaces_an_intent")
def a_manager_changed(world, asked, pass_on):
    answer = pass_on(asked)
    return changed(answer, lambda _, it: it.update(manager="uss-z")) if is_reading(asked) else answer


@fault("an_intent_is_created_and_read", "times_are_those_of_all_volumes")
def a_time_changed(world, asked, pass_on):
    return changed(pass_on(asked), lambda _, it: it.update(time_end=it["time_start"]) if "time_start" in it else None)


@fault("an_intent_is_created_and_read", "an_update_replaces_an_intent")
def an_address_changed(world, asked, pass_on):
    return changed(pass_on(asked), lambda _, it: it.update(uss_base_url="https://other.example"))


@fault("an_update_replaces_an_intent", "a_stale_key_is_refused")
def a_state_changed(world, asked, pass_on):
    return changed(pass_on(asked), lambda _, it: it.update(state="Accepted") if it.get("state") == "Activated" else None)


@fault("an_update_replaces_an_intent", "a_constraint_is_updated_and_deleted")
def a_version_that_stays(world, asked, pass_on):
    return changed(pass_on(asked), lambda _, it: it.update(version=1) if isinstance(it.get("version"), int) else None)


@fault("a_named_subscription_stays")
def a_named_subscription_hidden(world, asked, pass_on):
    return changed(pass_on(asked), lambda _, it: it.update(subscription_id=ZERO) if "subscription_id" in it else None)


@fault("references_show_the_present_availability")
def an_availability_changed_in_references(world, asked, pass_on):
    return changed(pass_on(asked), lambda _, it: it.update(uss_availability="Normal") if "uss_availability" in it else None)


@fault("a_named_subscription_stays")
def dependents_hidden(world, asked, pass_on):
    name = "dependent_operational_intents"
    return changed(pass_on(asked), lambda _, it: it.update({name: []}) if name in it else None)


# ---- what queries find and denials list


@fault("all_that_is_missing_is_told", "each_volume_needs_a_key")
def one_missing_reference_dropped(world, asked, pass_on):
    answer = pass_on(asked)
    value = answer and answer.value
    if isinstance(value, dict) and len(value.get("missing_operational_intents") or ()) > 1:
        value["missing_operational_intents"].pop()
        answer.put(value)
    return answer


@fault("both_kinds_are_told", "a_constraint_is_needed_by_who_is_told_of_them")
def missing_constraints_dropped(world, asked, pass_on):
    answer = pass_on(asked)
    value = answer and answer.value
    if isinstance(value, dict) and value.get("missing_constraints"):
        value["missing_constraints"] = []
        answer.put(value)
    return answer


@fault("a_key_is_needed", "all_that_is_missing_is_told")
def a_missing_reference_twice(world, asked, pass_on):
    answer = pass_on(asked)
    value = answer and answer.value
    if isinstance(value, dict) and value.get("missing_operational_intents"):
        value["missing_operational_intents"] *= 2
        answer.put(value)
    return answer


@fault("a_query_finds_what_meets_its_area", "drawn_volumes_meet_as_they_are")
def one_found_reference_dropped(world, asked, pass_on):
    answer = pass_on(asked)
    value = answer and answer.value
    found = [it for it in (value or {}).values() if isinstance(it, list)] if is_query(asked) else []
    if found and len(found[0]) > 1:
        found[0].pop()
        answer.put(value)
    return answer


@fault("all_that_is_found_is_answered")
def a_page_of_five(world, asked, pass_on):
    answer = pass_on(asked)
    if is_query(asked) and answer.status == 200:
        answer.put({name: it[:5] for name, it in answer.value.items()})
    return answer


@fault("all_that_is_found_is_answered")
def a_page_of_a_hundred_that_are_missing(world, asked, pass_on):
    answer = pass_on(asked)
    value = answer and answer.value
    if isinstance(value, dict) and "missing_operational_intents" in value:
        answer.put(value | {"missing_operational_intents": value["missing_operational_intents"][:100]})
    return answer


@fault("all_that_is_found_is_answered")
def a_page_of_a_hundred_for_a_subscription(world, asked, pass_on):
    answer, name = pass_on(asked), "operational_intent_references"
    value = answer and answer.value
    if asked.words[0] == "subscriptions" and isinstance(value, dict) and name in value:
        answer.put(value | {name: value[name][:100]})
    return answer


@fault("a_query_finds_what_meets_its_area", "a_deleted_intent_is_gone")
def a_query_that_finds_too_much(world, asked, pass_on):
    answer = pass_on(asked)
    value = answer and answer.value
    name = "operational_intent_references"
    if is_query(asked) and answer.status == 200 and name in value and world.references:
        # The last put is found everywhere.
        last = [it for (kind, _), it in world.references.items() if kind == name][-1:]
        value[name] += [it for it in last if it["id"] not in [found["id"] for found in value[name]]]
        answer.put(value)
    return answer


@fault("an_old_ovn_changes_nothing", "an_update_replaces_an_intent")
def a_stale_reading(world, asked, pass_on):
    answer = pass_on(asked)
    if is_reading(asked) and answer.status == 200:
        return world.first.setdefault((asked.path, tuple(asked.all("authorization"))), answer)
    if asked.method == "PUT" and answer.status == 201:
        # A read returns the response to the creation.
        kept = answer.value
        kept.pop("subscribers", None)
        first = type(answer)("HTTP/1.1 200 OK", list(answer.fields), b"")
        first.put(kept)
        world.first[asked.path, tuple(asked.all("authorization"))] = first
    return answer


@fault("an_availability_is_set", "a_lost_setting_is_done_once")
def a_stale_availability(world, asked, pass_on):
    answer = pass_on(asked)
    if asked.method == "GET" and asked.words[0] == "uss_availability" and answer.status == 200:
        return world.first.setdefault(asked.path, answer)
    return answer


# ---- notifications


def told(answer):
    value = answer and answer.value
    return (value, value["subscribers"]) if isinstance(value, dict) and value.get("subscribers") else (None, [])


@fault("an_index_rises_with_each_change", "own_changes_are_told", "indexes_of_changes_at_once_differ", "a_subscription_is_updated")
def an_index_that_does_not_rise(world, asked, pass_on):
    answer = pass_on(asked)
    value, subscribers = told(answer)
    for it in (it for by_url in subscribers for it in by_url["subscriptions"]):
        it["notification_index"] = max(0, it["notification_index"] - 1)
    if value:
        answer.put(value)
    return answer


@fault("an_index_rises_with_each_change", "constraints_are_told")
def an_old_index_in_a_reading(world, asked, pass_on):
    answer, name = pass_on(asked), "notification_index"
    return changed(answer, lambda _, it: it.update({name: 0}) if name in it else None) if is_reading(asked) else answer


@fault("all_who_meet_are_told", "who_is_left_is_told")
def one_subscriber_dropped(world, asked, pass_on):
    answer = pass_on(asked)
    value, subscribers = told(answer)
    if value:
        subscribers[-1]["subscriptions"].pop()
        value["subscribers"] = [it for it in subscribers if it["subscriptions"]]
        answer.put(value)
    return answer


@fault("all_who_meet_are_told", "constraints_are_told")
def a_subscriber_at_another_address(world, asked, pass_on):
    answer = pass_on(asked)
    value, subscribers = told(answer)
    for it in subscribers:
        it["uss_base_url"] = "https://other.example"
    if value:
        answer.put(value)
    return answer


@fault("an_update_replaces_an_intent", "who_is_left_is_told")
def an_update_that_moves_nothing(world, asked, pass_on):
    kind, id_, version = asked.words
    body = asked.value
    if asked.method == "PUT" and version and isinstance(body, dict) and (kind, id_) in world.bodies:
        asked.put(body | {"extents": world.bodies[kind, id_]["extents"]})
    return pass_on(asked)


# ---- denials


@fault("only_the_manager_changes_an_intent", "constraints_have_scopes", "only_an_arbiter_sets", "a_state_takes_its_scope",
       "each_operation_takes_its_scopes")
def another_status_of_what_is_forbidden(world, asked, pass_on):
    answer = pass_on(asked)
    return answer.with_status(404) if answer.status == 403 else answer


@fault("an_old_ovn_changes_nothing", "a_key_is_needed", "a_constraint_is_created_once", "a_lost_subscription_is_there_once",
       "an_update_needs_a_key")
def another_status_of_a_conflict(world, asked, pass_on):
    answer = pass_on(asked)
    return answer.with_status(400) if answer.status == 409 else answer


@fault("a_wrong_setting_is_refused", "a_wrong_body_is_refused", "what_has_ended_is_not_put", "only_an_own_subscription_is_named",
       "states_change_only_as_they_may", "a_body_is_read_as_json", "limits_hold")
def another_status_of_a_wrong_body(world, asked, pass_on):
    answer = pass_on(asked)
    return answer.with_status(422) if answer.status == 400 else answer


@fault("a_deleted_intent_is_gone", "a_lost_deletion_is_done", "a_subscription_is_deleted", "each_operation_is_open_to_its_scopes",
       "a_path_that_is_none")
def another_status_of_what_is_not_there(world, asked, pass_on):
    answer = pass_on(asked)
    return answer.with_status(410) if answer.status == 404 else answer


@fault("an_intent_is_created_and_read", "a_constraint_is_created_and_read")
def another_status_of_a_creation(world, asked, pass_on):
    answer = pass_on(asked)
    return answer.with_status(200) if answer.status == 201 else answer


@fault("a_deleted_intent_is_gone")
def a_deletion_that_is_not_done(world, asked, pass_on):
    kind, id_, version = asked.words
    if asked.method != "DELETE" or kind == "subscriptions" or world.now.get((kind, id_)) != version:
        return pass_on(asked)
    read = type(asked)(f"GET /dss/v1/{kind}/{id_} HTTP/1.1", list(asked.fields), b"")
    answer = pass_on(read)
    if answer.status == 200:
        answer.put(answer.value | {"subscribers": []})
    return answer


@fault("only_the_manager_changes_an_intent")
def anyone_changes_an_intent(world, asked, pass_on):
    answer = pass_on(asked)
    kind, id_, _ = asked.words
    if is_change(asked) and answer.status == 403 and (kind, id_) in world.token:
        return pass_on(asked.with_token(world.token[kind, id_]))
    return answer


@fault("a_subscription_is_its_suppliers_alone")
def anyone_reads_a_subscription(world, asked, pass_on):
    answer = pass_on(asked)
    kind, id_, _ = asked.words
    if is_reading(asked) and answer.status == 403 and (kind, id_) in world.token:
        return pass_on(asked.with_token(world.token[kind, id_]))
    return answer


@fault("a_token_is_needed", "a_token_must_be_known", "a_token_is_one_field")
def a_token_that_is_not_asked_for(world, asked, pass_on):
    answer = pass_on(asked)
    if answer.status == 401 and asked.words[0] and world.token:
        return pass_on(asked.with_token(next(iter(world.token.values()))))
    if answer.status < 300 and asked.words[0]:
        world.token.setdefault(("", ""), asked.all("authorization")[0])
    return answer


@fault("each_operation_takes_its_scopes", "constraints_have_scopes", only="profile")
def scopes_that_are_not_asked_for(world, asked, pass_on):
    answer = pass_on(asked)
    if answer.status == 403 and answer.value["message"] == "P4 SCOPE":
        return pass_on(asked.with_token("Bearer tok-of-all"))
    return answer


def soon(holds):
    """Waits until it holds, for a limited time: the response to a change may still be on its way."""
    until = time.monotonic() + 10
    while not holds() and time.monotonic() < until:
        time.sleep(0.005)


@fault("an_old_ovn_changes_nothing", "a_lost_update_is_done_once", "one_of_two_updates_is_done")
def an_old_version_that_is_taken(world, asked, pass_on):
    answer = pass_on(asked)
    kind, id_, version = asked.words
    if is_change(asked) and answer.status == 409 and version in world.all.get((kind, id_), ()):
        soon(lambda: world.now.get((kind, id_)) != version)
        if now := world.now.get((kind, id_)):
            return pass_on(asked.with_path(f"/dss/v1/{kind}/{id_}/{now}"))
    return answer


@fault("an_availability_is_set")
def an_old_setting_that_is_taken(world, asked, pass_on):
    if asked.method == "PUT" and asked.words[0] == "uss_availability" and isinstance(asked.value, dict):
        read = type(asked)(f"GET {asked.path} HTTP/1.1", [it for it in asked.fields if it[0] != "Content-Length"], b"")
        now = pass_on(read)
        if now.status == 200:
            asked.put(asked.value | {"old_version": now.value["version"]})
    return pass_on(asked)


def with_key(asked, ovns):
    """Returns the put of an intent, with more OVNs in its key."""
    body = asked.value
    is_put = asked.method == "PUT" and asked.words[0] == "operational_intent_references"
    if is_put and isinstance(body, dict) and isinstance(body.get("key"), list):
        asked.put(body | {"key": [*body["key"], *ovns(body["key"])]})
    return asked


@fault("a_key_is_needed", "one_of_two_is_kept", "drawn_volumes_meet_as_they_are")
def a_key_that_is_not_asked_for(world, asked, pass_on):
    answer = pass_on(asked)
    if answer.status == 409 and (missing := answer.value.get("missing_operational_intents")):
        soon(lambda: all(("operational_intent_references", it["id"]) in world.now for it in missing))
        return pass_on(with_key(asked, lambda _: [it for it in world.now.values() if it]))
    return answer


@fault("a_stale_key_is_refused")
def an_old_key_that_is_taken(world, asked, pass_on):
    def renewed(key):
        return [world.now[it] for it, all_ in world.all.items() if it in world.now and set(all_) & set(key)]
    return pass_on(with_key(asked, renewed))


@fault("a_constraint_is_needed_by_who_is_told_of_them", "constraints_are_needed_by_scope")
def constraints_that_are_not_needed(world, asked, pass_on):
    constraints = [it for (kind, _), it in world.now.items() if kind == "constraint_references"]
    return pass_on(with_key(asked, lambda _: constraints))


@fault("an_area_too_large_is_refused", "wrong_subscriptions_are_refused", "wrong_constraints_are_refused")
def a_large_area_that_is_taken(world, asked, pass_on):
    answer = pass_on(asked)
    if is_query(asked) and answer.status == 413:
        answer.with_status(200).put({f"{ONE[asked.words[0]]}s": []})
    return answer


@fault("an_id_is_created_once", "a_lost_creation_is_done_once")
def a_creation_that_is_done_again(world, asked, pass_on):
    answer = pass_on(asked)
    kind, id_, version = asked.words
    if asked.method == "PUT" and not version and answer.status == 409 and (kind, id_) in world.now:
        again = pass_on(asked.with_path(f"/dss/v1/{kind}/{id_}/{world.now[kind, id_]}"))
        return again.with_status(201) if again.status == 200 and kind != "subscriptions" else again
    return answer


@fault("an_update_replaces_an_intent", "an_old_ovn_changes_nothing")
def an_update_that_is_done_twice(world, asked, pass_on):
    answer = pass_on(asked)
    kind, id_, version = asked.words
    if asked.method == "PUT" and version and answer.status == 200 and kind != "subscriptions":
        pass_on(asked.with_path(f"/dss/v1/{kind}/{id_}/{world.now[kind, id_]}"))
    return answer


@fault("an_update_replaces_an_intent", "an_old_ovn_changes_nothing")
def an_old_ovn_in_an_answer(world, asked, pass_on):
    answer = pass_on(asked)
    version = asked.words[2]
    if asked.method == "PUT" and version and answer.status == 200:
        return changed(answer, lambda _, it: it.update(ovn=version) if "ovn" in it else None)
    return answer


def denied(answer):
    """Returns the response as a denial for a key."""
    answer.with_status(409).put({"message": "P14 KEY", "missing_constraints": [], "missing_operational_intents": []})
    return answer


@fault("what_does_not_meet_is_not_needed", "volumes_are_not_merged", "what_is_gone_is_not_needed")
def a_key_for_what_does_not_meet(world, asked, pass_on):
    others = [it for it in world.references if it[0] == "operational_intent_references" and it[1] != asked.words[1]]
    answer = pass_on(asked)
    is_created = answer.status == 201 and asked.words[0] == "operational_intent_references"
    return denied(answer) if is_created and others and not asked.value["key"] else answer


@fault("a_constraint_needs_no_key", only="profile")
def a_key_for_a_constraint(world, asked, pass_on):
    answer = pass_on(asked)
    return denied(answer) if answer.status == 201 and asked.words[0] == "constraint_references" and len(world.now) > 1 else answer


@fault("an_update_needs_a_key")
def a_key_that_an_update_is_not_asked_for(world, asked, pass_on):
    return pass_on(with_key(asked, lambda _: [it for it in world.now.values() if it]) if asked.words[2] else asked)


@fault("own_intents_are_needed", only="profile")
def own_intents_that_are_not_needed(world, asked, pass_on):
    field = asked.all("authorization")
    return pass_on(with_key(asked, lambda _: [it for name, it in world.now.items() if it and [world.token[name]] == field]))


@fault("off_nominal_intents_need_no_key", "a_state_takes_its_scope")
def a_state_that_is_put_as_another(world, asked, pass_on):
    body = asked.value
    if asked.method == "PUT" and isinstance(body, dict) and body.get("state") in ("Nonconforming", "Contingent"):
        asked.put(body | {"state": "Accepted"})
    return pass_on(asked)


@fault("ranges_hold_their_ends", only="profile")
def ranges_without_their_ends(world, asked, pass_on):
    body = asked.value
    if asked.method == "PUT" and isinstance(body, dict) and isinstance(body.get("extents"), list):
        less = [it | {name: it[name] - 1 for name in ("altitude_upper", "time_end")} for it in body["extents"]]
        asked.put(body | {"extents": less})
    return pass_on(asked)


@fault("cells_are_compared_at_level_13", only="profile")
def a_coarse_cell_as_its_first(world, asked, pass_on):
    body = asked.value
    if is_query(asked) and isinstance(body, dict):
        numbers = [int(it.ljust(16, "0"), 16) for it in body["area_of_interest"]["cells"]]
        level_13 = 1 << 2 * (30 - 13)
        first = [it - (it & -it) + level_13 if it & -it > level_13 else it for it in numbers]
        asked.put({"area_of_interest": {"cells": [f"{it:016x}" for it in first]}})
    return pass_on(asked)


@fault("a_query_answers_by_rising_ids", only="profile")
def references_by_falling_ids(world, asked, pass_on):
    answer = pass_on(asked)
    value = answer.value
    if is_query(asked) and answer.status == 200:
        answer.put({name: it[::-1] for name, it in value.items()})
    return answer


@fault("ids_have_no_case", only="profile")
def ids_that_have_a_case(world, asked, pass_on):
    kind, id_, _ = asked.words
    answer = pass_on(asked)
    return changed(answer, lambda _, it: it.update(id=id_)) if kind in ONE and id_ != id_.lower() else answer


@fault("nothing_said_is_unknown")
def nothing_said_is_normal(world, asked, pass_on):
    answer = pass_on(asked)
    if asked.method == "GET" and asked.words[0] == "uss_availability" and answer.status == 200 and answer.value["version"] == "":
        answer.put(answer.value | {"status": answer.value["status"] | {"availability": "Normal"}})
    return answer


@fault("who_does_not_meet_is_not_told", "a_subscription_is_updated")
def all_are_told(world, asked, pass_on):
    answer = pass_on(asked)
    value = answer.value
    if is_change(asked) and isinstance(value, dict) and "subscribers" in value:
        ids = [id_ for kind, id_ in world.now if kind == "subscriptions"]
        told = [it for by_url in value["subscribers"] for it in by_url["subscriptions"]]
        told += [{"subscription_id": it, "notification_index": 1} for it in ids if it not in [one["subscription_id"] for one in told]]
        answer.put(value | {"subscribers": [{"uss_base_url": "https://a.example", "subscriptions": told}] if told else []})
    return answer


@fault("a_subscription_takes_its_scope", "a_state_takes_its_scope", only="profile")
def a_scope_of_a_state_that_is_not_asked_for(world, asked, pass_on):
    answer = pass_on(asked)
    if answer.status == 403 and answer.value["message"] == "P11 ROLE":
        return pass_on(asked.with_token("Bearer tok-of-all"))
    return answer


@fault("an_update_names_anew")
def a_named_subscription_that_stays(world, asked, pass_on):
    kind, id_, version = asked.words
    body = asked.value
    if asked.method == "PUT" and version and isinstance(body, dict) and "subscription_id" not in body and (kind, id_) in world.bodies:
        named = world.bodies[kind, id_].get("subscription_id")
        asked.put(body | ({"subscription_id": named} if named else {}))
    return pass_on(asked)


# ---- forms


@fault("an_intent_is_created_and_read")
def another_type_of_content(world, asked, pass_on):
    answer = pass_on(asked)
    answer.set("Content-Type", "text/html")
    return answer


@fault("an_intent_is_created_and_read", "a_subscription_is_created_and_read")
def a_body_that_is_cut(world, asked, pass_on):
    answer = pass_on(asked)
    if not is_query(asked):
        answer.body = answer.body[:-1]
        answer.set("Content-Length", len(answer.body))
    return answer


@fault("an_intent_is_created_and_read")
def members_that_are_missing(world, asked, pass_on):
    return changed(pass_on(asked), lambda _, it: it.pop("uss_availability", None))


@fault("an_intent_is_created_and_read", only="profile")
def a_body_with_spaces(world, asked, pass_on):
    answer = pass_on(asked)
    answer.body = json.dumps(answer.value).encode()
    answer.set("Content-Length", len(answer.body))
    return answer


@fault("the_first_broken_rule_is_told", only="profile")
def a_rule_that_is_another(world, asked, pass_on):
    answer = pass_on(asked)
    if answer.status == 403 and answer.value["message"] == "P9 MANAGER":
        answer.put({"message": "P11 ROLE"})
    return answer


@fault("a_method_that_is_not_taken", only="profile")
def methods_that_are_not_told(world, asked, pass_on):
    answer = pass_on(asked)
    answer.set("Allow", None)
    return answer


def spelt(body):
    """A body with the members that misspelt ones mean."""
    if isinstance(body, dict):
        meant = {"time_strat": "time_start", "notify_for_constraint": "notify_for_constraints"}
        return {meant.get(name, name.strip().lower()): spelt(it) for name, it in body.items()}
    return body


@fault("misspelt_members_are_ignored", only="profile")
def misspelt_members_that_are_taken(world, asked, pass_on):
    if isinstance(asked.value, dict):
        asked.put(spelt(asked.value))
    return pass_on(asked)


@fault("misspelt_members_are_ignored", "a_body_is_read_as_json", only="profile")
def unknown_members_that_are_refused(world, asked, pass_on):
    known = {"extents", "key", "state", "subscription_id", "uss_base_url", "notify_for_operational_intents", "notify_for_constraints"}
    body, answer = asked.value, pass_on(asked)
    is_unknown = asked.method == "PUT" and asked.words[0] in ONE and isinstance(body, dict) and set(body) - known
    if is_unknown and answer.status in (200, 201):
        answer.with_status(400).put({"message": "P5 FORM"})
    return answer


@fault("denials_are_explained", only="profile")
def ignored_members_that_are_not_named(world, asked, pass_on):
    answer = pass_on(asked)
    answer.set("Warning-Ignored-Members", None)
    return answer


@fault("denials_are_explained", only="profile")
def a_mistake_that_is_not_named(world, asked, pass_on):
    answer = pass_on(asked)
    value = answer.value
    if isinstance(value, dict) and len(value.get("explanation", ())) > 2:
        answer.put(value | {"explanation": value["explanation"][:-1]})
    return answer


@fault("denials_are_explained", only="profile")
def an_explanation_without_the_time(world, asked, pass_on):
    answer = pass_on(asked)
    value = answer.value
    if isinstance(value, dict) and value.get("message") == "P13 ENDED":
        answer.put(value | {"explanation": [it.partition(";")[0] for it in value["explanation"]]})
    return answer


@fault("denials_are_explained", only="profile")
def an_explanation_by_one_rule_alone(world, asked, pass_on):
    answer = pass_on(asked)
    value = answer.value
    if isinstance(value, dict) and value.get("message") not in (None, "P5 FORM"):
        answer.put({name: it for name, it in value.items() if name != "explanation"})
    return answer


@fault("the_first_broken_rule_is_told", only="profile")
def an_explanation_of_another_rule(world, asked, pass_on):
    answer = pass_on(asked)
    value = answer.value
    if isinstance(value, dict) and value.get("message") == "P12 CHANGE":
        answer.put(value | {"explanation": ["state: it is Activated"]})
    return answer


@fault("head_is_not_taken", only="profile")
def a_head_that_is_answered_as_a_reading(world, asked, pass_on):
    if asked.method == "HEAD":
        asked.line = asked.line.replace("HEAD", "GET", 1)
    return pass_on(asked)


@fault("head_is_not_taken", only="profile")
def a_head_after_which_nothing_is_answered(world, asked, pass_on):
    answer = pass_on(asked)
    if asked.method == "HEAD":
        answer.set("Connection", "close")
    return answer


@fault("a_connection_takes_a_hundred", "what_follows_the_hundredth_is_not_done", only="profile")
def a_connection_that_closes_early(world, asked, pass_on):
    answer = pass_on(asked)
    world.asked = getattr(world, "asked", 0) + 1
    if world.asked % 40 == 0:
        answer.set("Connection", "close")
    return answer


@fault("a_connection_takes_a_hundred", "what_is_no_request", "what_follows_the_hundredth_is_not_done", only="profile")
def a_connection_that_stays_open(world, asked, pass_on):
    answer = pass_on(asked)
    answer.set("Connection", None)
    return answer


@fault("plans_of_who_is_down_are_spared", only="profile")
def one_who_is_down_is_not_spared(world, asked, pass_on):
    body = asked.value
    is_set = asked.method == "PUT" and asked.words[0] == "uss_availability"
    if is_set and isinstance(body, dict) and body.get("availability") == "Down":
        asked.put(body | {"availability": "Unknown"})
        answer = pass_on(asked)
        if answer.status == 200:
            answer.put(answer.value | {"status": answer.value["status"] | {"availability": "Down"}})
        return answer
    return pass_on(asked)


@fault("an_implicit_subscription_goes_with_its_intent", only="standard")
def an_implicit_subscription_that_is_not_made(world, asked, pass_on):
    body = asked.value
    if asked.method == "PUT" and isinstance(body, dict) and body.pop("new_subscription", None):
        asked.put(body)
    return pass_on(asked)


@fault("an_implicit_subscription_goes_with_its_intent", only="standard")
def an_implicit_subscription_that_is_told_as_another(world, asked, pass_on):
    return changed(pass_on(asked), lambda _, it: it.update(implicit_subscription=False) if "implicit_subscription" in it else None)


@fault("a_token_is_signed", only="standard")
def a_token_that_is_not_looked_at(world, asked, pass_on):
    answer = pass_on(asked)
    if answer.status < 300 and asked.words[0]:
        world.token.setdefault(("", ""), asked.all("authorization")[0])
    if answer.status == 401 and asked.all("authorization") and world.token:
        return pass_on(asked.with_token(next(iter(world.token.values()))))
    return answer
