"""Faults that few calls show: one bound, one of two addresses, one flag, one step between states.

They join the faults of faults.py: FAULTS here has both."""
from faults import FAULTS, ZERO, changed, fault, is_query, is_reading, told, with_key


# ---- keys of activations


def all_known(world):
    return lambda _: [it for it in world.now.values() if it]


def is_activation(asked):
    return asked.method == "PUT" and isinstance(asked.value, dict) and asked.value.get("state") == "Activated"


@fault("an_activation_needs_a_key", "the_first_broken_rule_is_told")
def an_activation_without_a_key(world, asked, pass_on):
    return pass_on(with_key(asked, all_known(world)) if is_activation(asked) else asked)


@fault("an_activation_needs_a_key")
def an_activated_creation_without_a_key(world, asked, pass_on):
    return pass_on(with_key(asked, all_known(world)) if is_activation(asked) and not asked.words[2] else asked)


@fault("an_activation_needs_a_key")
def a_flight_that_is_activated_without_a_key(world, asked, pass_on):
    was = world.references.get(asked.words[:2], {}).get("state")
    return pass_on(with_key(asked, all_known(world)) if is_activation(asked) and was == "Accepted" else asked)


@fault("an_activation_needs_a_key", "the_first_broken_rule_is_told")
def an_activated_flight_that_is_moved_without_a_key(world, asked, pass_on):
    was = world.references.get(asked.words[:2], {}).get("state")
    return pass_on(with_key(asked, all_known(world)) if is_activation(asked) and was == "Activated" else asked)


# ---- subscriptions of an updated intent


def named_by(world, asked):
    """Returns the subscription that an intent references before an update, or None."""
    kind, _, version = asked.words
    is_update = asked.method == "PUT" and version and kind == "operational_intent_references" and isinstance(asked.value, dict)
    named = world.references.get(asked.words[:2], {}).get("subscription_id") if is_update else None
    return named if named != ZERO else None


@fault("an_update_names_anew", "an_update_replaces_an_implicit_subscription")
def an_update_that_keeps_the_old_subscription(world, asked, pass_on):
    if named := named_by(world, asked):
        body = asked.value
        body.pop("new_subscription", None)
        asked.put(body | {"subscription_id": named})
    return pass_on(asked)


@fault("an_update_names_anew", "an_update_replaces_an_implicit_subscription")
def an_old_subscription_that_keeps_its_intent(world, asked, pass_on):
    named, answer, name = named_by(world, asked), pass_on(asked), "dependent_operational_intents"
    if named and answer.status == 200:
        world.first.setdefault(named, set()).add(asked.words[1])

    def with_former(_, it):
        there = {id_ for id_ in world.first.get(it["id"], ()) if ("operational_intent_references", id_) in world.now}
        if "notification_index" in it and there:
            it[name] = sorted({*(it.get(name) or ()), *there})
    return changed(answer, with_former) if is_reading(asked) else answer


# ---- bounds that are compared wrongly


def bounds_of(volume):
    """Returns the bounds of a volume or of an area that it has, in the form of the profile or of the standard."""
    flat = volume | volume.get("volume", {})
    names = ("altitude_lower", "altitude_upper", "time_start", "time_end")
    return {it: flat[it]["value"] if isinstance(flat[it], dict) else flat[it] for it in names if flat.get(it) is not None}


def volumes_of(body):
    extents = body["extents"]
    return extents if isinstance(extents, list) else [extents]


def reaches(name, volume, area):
    """Returns whether a volume goes at least as far as an area by a bound, which is the wrong comparison."""
    own, other = bounds_of(volume).get(name), bounds_of(area).get(name)
    is_upper = name in ("altitude_upper", "time_end")
    return own is None or other is None or (own >= other if is_upper else own <= other)


def compares(name, world, id_, areas):
    """Returns whether an entity or a subscription meets areas, if one bound is compared with its like."""
    bodies = [body for (_, it), body in world.bodies.items() if it == id_]
    return any(reaches(name, volume, area) for body in bodies for volume in volumes_of(body) for area in areas) or not bodies


def a_query_by(name, world, asked, pass_on):
    answer, body = pass_on(asked), asked.value
    if is_query(asked) and answer.status == 200:
        areas = [body["area_of_interest"]]
        answer.put({kind: [it for it in found if compares(name, world, it["id"], areas)] for kind, found in answer.value.items()})
    return answer


@fault("a_query_finds_what_overlaps_partly")
def a_query_that_compares_upper_altitudes(world, asked, pass_on):
    return a_query_by("altitude_upper", world, asked, pass_on)


@fault("a_query_finds_what_overlaps_partly")
def a_query_that_compares_lower_altitudes(world, asked, pass_on):
    return a_query_by("altitude_lower", world, asked, pass_on)


@fault("a_query_finds_what_overlaps_partly")
def a_query_that_compares_ends(world, asked, pass_on):
    return a_query_by("time_end", world, asked, pass_on)


@fault("a_query_finds_what_overlaps_partly")
def a_query_of_constraints_that_compares_starts(world, asked, pass_on):
    return a_query_by("time_start", world, asked, pass_on) if asked.words[0] == "constraint_references" else pass_on(asked)


@fault("a_query_finds_what_overlaps_partly")
def a_query_of_subscriptions_that_compares_upper_altitudes(world, asked, pass_on):
    return a_query_by("altitude_upper", world, asked, pass_on) if asked.words[0] == "subscriptions" else pass_on(asked)


@fault("what_overlaps_partly_is_needed")
def a_key_that_compares_upper_altitudes(world, asked, pass_on):
    def beyond(_):
        volumes = volumes_of(asked.value)
        return [ovn for (_, id_), ovn in world.now.items() if ovn and not compares("altitude_upper", world, id_, volumes)]
    return pass_on(with_key(asked, beyond))


@fault("who_overlaps_partly_is_told")
def a_notification_that_compares_upper_altitudes(world, asked, pass_on):
    answer = pass_on(asked)
    value, subscribers = told(answer)
    if value and asked.method == "PUT":
        for it in subscribers:
            volumes = volumes_of(asked.value)
            it["subscriptions"] = [one for one in it["subscriptions"] if compares("altitude_upper", world, one["subscription_id"], volumes)]
        answer.put(value | {"subscribers": [it for it in subscribers if it["subscriptions"]]})
    return answer


# ---- one of two that is lost


@fault("an_update_has_all_its_volumes")
def an_update_that_loses_the_first_volume(world, asked, pass_on):
    return pass_on(with_extents(asked, slice(1, None)))


@fault("an_update_has_all_its_volumes")
def an_update_that_loses_the_second_volume(world, asked, pass_on):
    return pass_on(with_extents(asked, slice(0, 1)))


@fault("an_update_has_all_its_volumes")
def an_update_of_a_constraint_that_loses_a_volume(world, asked, pass_on):
    return pass_on(with_extents(asked, slice(0, 1)) if asked.words[0] == "constraint_references" else asked)


def with_extents(asked, kept):
    """Returns an update with some of its volumes, if it has several."""
    body, version = asked.value, asked.words[2]
    if asked.method == "PUT" and version and isinstance(body, dict) and isinstance(body.get("extents"), list) and len(body["extents"]) > 1:
        asked.put(body | {"extents": body["extents"][kept]})
    return asked


@fault("who_is_left_is_told", "each_change_tells_all_addresses")
def an_update_that_loses_a_subscriber(world, asked, pass_on):
    answer = pass_on(asked)
    value, subscribers = told(answer)
    if value and asked.method == "PUT" and asked.words[2]:
        subscribers[0]["subscriptions"].pop(0)
        answer.put(value | {"subscribers": [it for it in subscribers if it["subscriptions"]]})
    return answer


@fault("all_who_meet_are_told", "each_change_tells_all_addresses")
def a_second_address_that_is_lost(world, asked, pass_on):
    answer = pass_on(asked)
    value, subscribers = told(answer)
    if len(subscribers) > 1:
        answer.put(value | {"subscribers": [*subscribers[:1], *subscribers[2:]]})
    return answer


@fault("each_change_tells_all_addresses")
def a_second_address_that_an_update_loses(world, asked, pass_on):
    answer = pass_on(asked)
    value, subscribers = told(answer)
    if len(subscribers) > 1 and asked.method == "PUT" and asked.words[2]:
        answer.put(value | {"subscribers": subscribers[:1]})
    return answer


@fault("each_change_tells_all_addresses")
def a_second_address_that_a_deletion_loses(world, asked, pass_on):
    answer = pass_on(asked)
    value, subscribers = told(answer)
    if len(subscribers) > 1 and asked.method == "DELETE":
        answer.put(value | {"subscribers": subscribers[:1]})
    return answer


@fault("each_change_tells_all_addresses")
def a_second_address_that_a_constraint_loses(world, asked, pass_on):
    answer = pass_on(asked)
    value, subscribers = told(answer)
    if len(subscribers) > 1 and asked.words[0] == "constraint_references":
        answer.put(value | {"subscribers": subscribers[:1]})
    return answer


@fault("all_who_meet_are_told", "each_change_tells_all_addresses")
def all_subscribers_at_the_first_address(world, asked, pass_on):
    answer = pass_on(asked)
    value, subscribers = told(answer)
    if len(subscribers) > 1:
        subscribers[0]["subscriptions"] += [one for it in subscribers[1:] for one in it["subscriptions"]]
        answer.put(value | {"subscribers": subscribers[:1]})
    return answer


# ---- a flag for constraints that is lost


def loses_flag(asked):
    """Makes the put of a subscription for intents and constraints one for intents alone. Returns whether it was one."""
    body, is_put = asked.value, asked.method == "PUT" and asked.words[0] == "subscriptions"
    flags = ("notify_for_operational_intents", "notify_for_constraints")
    is_for_both = is_put and isinstance(body, dict) and all(body.get(it) for it in flags)
    if is_for_both:
        asked.put(body | {"notify_for_constraints": False})
    return is_for_both


@fault("a_subscription_is_for_what_it_says")
def a_flag_for_constraints_that_is_not_shown(world, asked, pass_on):
    name = "notify_for_constraints"
    return changed(pass_on(asked), lambda _, it: it.update({name: False}) if name in it else None)


@fault("a_subscription_is_for_what_it_says")
def a_flag_for_constraints_that_a_query_does_not_show(world, asked, pass_on):
    answer, name = pass_on(asked), "notify_for_constraints"
    return changed(answer, lambda _, it: it.update({name: False}) if name in it else None) if is_query(asked) else answer


@fault("a_subscription_is_for_what_it_says", "a_constraint_is_needed_by_who_is_told_of_them")
def a_flag_for_constraints_that_is_lost(world, asked, pass_on):
    loses_flag(asked)
    return pass_on(asked)


@fault("a_subscription_is_for_what_it_says")
def a_flag_for_constraints_that_an_update_loses(world, asked, pass_on):
    # The flag is shown, but not stored.
    if asked.words[2] and loses_flag(asked):
        world.first["lost"] = asked.words[1]
    answer, lost = pass_on(asked), world.first.get("lost")
    return changed(answer, lambda _, it: it.update(notify_for_constraints=True) if it.get("id") == lost else None)


# ---- P12


def is_of_change(answer):
    """Returns whether a denial is for a state that may not follow."""
    value = answer.value
    return isinstance(value, dict) and str(value.get("message")).startswith("P12 CHANGE")


@fault("states_change_only_as_they_may")
def another_status_of_a_state_that_may_not_follow(world, asked, pass_on):
    answer = pass_on(asked)
    return answer.with_status(409) if is_of_change(answer) else answer


@fault("states_change_only_as_they_may")
def a_denied_state_that_is_shown(world, asked, pass_on):
    answer, id_ = pass_on(asked), asked.words[1]
    if is_of_change(answer):
        world.first[id_] = asked.value["state"]
    shown = world.first.get(id_) if is_reading(asked) else None
    return changed(answer, lambda _, it: it.update(state=shown)) if shown else answer
