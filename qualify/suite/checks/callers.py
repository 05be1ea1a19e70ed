"""Which callers may request what, and what a denied caller receives."""
from suite.callers import ARBITRATION, MANAGEMENT, MONITORING, PROCESSING, STRATEGIC, Caller
from suite.check import AVAILABILITY as SETTINGS, CONSTRAINT, INTENT, SUBSCRIPTION, check
from suite.trial import AVAILABILITY, CONSTRAINTS, INTENTS, SUBSCRIPTIONS, Supplier

OPERATIONS = [*INTENT.values(), *CONSTRAINT.values(), *SUBSCRIPTION.values(), *SETTINGS.values()]
VERSION = "0123456789abcdef0123456789abcdef"


def requests(it):
    """Returns a well-formed request of each operation, with the scopes of which it needs any one. Nothing that it names
    exists."""
    volume, area = it.volume(it.site()), {"area_of_interest": it.dialect.area([it.site()])}
    flights, constraints = {STRATEGIC, MONITORING}, {PROCESSING, MANAGEMENT}
    intent, constraint = it.intent_body(volume), {"extents": [volume], "uss_base_url": "https://uss-a.qualify.example"}
    found = []
    for kind, seers, changers, body in (
            (INTENTS, flights, flights, intent), (CONSTRAINTS, constraints, {MANAGEMENT}, constraint),
            (SUBSCRIPTIONS, {STRATEGIC, PROCESSING}, {STRATEGIC, PROCESSING}, it.subscription_body(volume))):
        id_ = it.id()
        found += [
            ("POST", f"{kind}/query", area, seers), ("GET", f"{kind}/{id_}", None, seers), ("PUT", f"{kind}/{id_}", body, changers),
            ("PUT", f"{kind}/{id_}/{VERSION}", body, changers), ("DELETE", f"{kind}/{id_}/{VERSION}", None, changers)]
    setting = {"availability": "Down", "old_version": VERSION}
    return found + [
        ("GET", f"{AVAILABILITY}/qualify", None, {ARBITRATION, STRATEGIC, MONITORING}),
        ("PUT", f"{AVAILABILITY}/qualify", setting, {ARBITRATION})]


@check("Each operation without a token is 401", "P3 TOKEN", OPERATIONS)
def a_token_is_needed(it):
    for method, path, body, _ in requests(it):
        answer = it.nobody.ask(method, path, body).must(401, "P3 TOKEN")
        answer.need(it.dialect.is_standard or answer.exchange.fields.get("www-authenticate") == "Bearer", "WWW-Authenticate: Bearer")


@check("Each operation with an unknown token is 401", "P3 TOKEN", OPERATIONS)
def a_token_must_be_known(it):
    good = it.a.caller
    known = {caller.token for caller in it.run.callers.values()}
    part = good.token.rpartition(".")[0] + "." if it.dialect.is_standard else good.token[:-1]
    wrong = [good.token + "x" * 8, "none-of-this-service", part]
    for text in (text for text in wrong if text not in known):
        forger = Supplier(it, Caller("a forger", good.uss, good.scopes, text))
        for method, path, body, _ in requests(it) if text == wrong[0] else requests(it)[:2]:
            forger.ask(method, path, body).must(401, "P3 TOKEN")


@check("A token that was changed after it was signed is 401", "P3 TOKEN", OPERATIONS, only="standard")
def a_token_is_signed(it):
    own, other = it.a.caller.token.split("."), it.b.caller.token.split(".")
    for text in (".".join([own[0], other[1], own[2]]), ".".join([own[0], own[1], other[2]]), ".".join([own[0], own[1], ""])):
        forger = Supplier(it, Caller("a forger", it.a.uss, frozenset(), text))
        for method, path, body, _ in requests(it)[:5]:
            forger.ask(method, path, body).must(401)


@check("Each operation is 403 for each token with none of its scopes", "P4 SCOPE", OPERATIONS)
def each_operation_takes_its_scopes(it):
    for method, path, body, scopes in requests(it):
        for supplier in it.suppliers.values():
            if not scopes & supplier.caller.scopes:
                supplier.ask(method, path, body).must(403, "P4 SCOPE")


@check("Each operation permits each token with one of its scopes", "P4 SCOPE, P7 FOUND, P10 VERSION", OPERATIONS)
def each_operation_is_open_to_its_scopes(it):
    for method, path, body, scopes in requests(it):
        if method == "PUT" and path.count("/") == 4 and AVAILABILITY not in path:
            continue  # a creation would be done
        wanted = 200 if path.endswith("/query") or AVAILABILITY in path and method == "GET" else 409 if AVAILABILITY in path else 404
        for supplier in it.suppliers.values():
            if scopes & supplier.caller.scopes:
                # In the standard an update may request a subscription first.
                is_update = method == "PUT" and wanted == 404
                standard = (wanted, 403, 409) if is_update else (wanted,)
                supplier.ask(method, path, body).must(wanted, standard=standard)


@check("A denial names the first broken rule: route, method, token, scope, form, area, found, manager, version, state, end, key",
       "The rules in their order", only="profile")
def the_first_broken_rule_is_told(it):
    site, id_, gone = it.site(), it.id(), it.id()
    it.b.intent(it.id(), it.volume(site)).must(201)
    high = it.volume(site, low=200, high=300)
    first = it.a_monitoring.intent(id_, high, state="Activated").must(201).reference["ovn"]
    ovn = it.a_monitoring.intent(id_, high, state="Activated", over=first).must(200).reference["ovn"]
    past, wide = it.volume(site, start=-7200, end=-3600), it.dialect.too_large_volume(it.run.home)
    none = it.suppliers["none"]
    path = f"{INTENTS}/{id_}"
    for supplier, method, target, body, status, message in (
            (it.nobody, "PUT", "/dss/v1/flights/1", "{", 404, "P1 ROUTE"), (it.nobody, "POST", path, "{", 405, "P2 METHOD"),
            (it.nobody, "PUT", path, "{", 401, "P3 TOKEN"), (none, "PUT", path, "{", 403, "P4 SCOPE"),
            (it.a, "PUT", path, "{", 400, "P5 FORM"),
            (it.a, "PUT", path, it.intent_body(wide), 413, "P6 AREA"),
            (it.b, "PUT", f"{INTENTS}/{gone}/{first}", it.intent_body(past, state="Contingent"), 404, "P7 FOUND"),
            (it.b, "PUT", path, it.intent_body(past, state="Contingent"), 409, "P8 FRESH"),
            (it.b, "PUT", f"{path}/{first}", it.intent_body(past, state="Contingent"), 403, "P9 MANAGER"),
            (it.a, "PUT", f"{path}/{first}", it.intent_body(past, state="Contingent"), 409, "P10 VERSION"),
            (it.a, "PUT", f"{path}/{ovn}", it.intent_body(past, state="Contingent"), 403, "P11 ROLE"),
            (it.a, "PUT", f"{path}/{ovn}", it.intent_body(past), 400, "P12 CHANGE"),
            (it.a, "PUT", f"{path}/{ovn}", it.intent_body(past, state="Activated", subscription=gone), 400, "P13 ENDED"),
            (it.a, "PUT", f"{path}/{ovn}", it.intent_body(it.volume(site), state="Activated", subscription=gone), 400, "P16 SUBSCRIPTION"),
            (it.a, "PUT", f"{path}/{ovn}", it.intent_body(it.volume(site), state="Activated"), 409, "P14 KEY")):
        supplier.ask(method, target, body).must(status, message)
    read = it.a.get(INTENTS, id_).must(200)
    read.need(read.reference["ovn"] == ovn and read.reference["version"] == 2, "the intent as it was: no denied request changed it")
