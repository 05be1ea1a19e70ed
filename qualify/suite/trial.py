"""The environment of a check: callers, places of its own, and expectations. It deletes what the check has put."""
import contextlib
import json
import uuid

import suite.forms as forms
from suite.dialect import URL
from suite.wire import OutOfBounds

FRONT = "/dss/v1/"
INTENTS, CONSTRAINTS = f"{FRONT}operational_intent_references", f"{FRONT}constraint_references"
SUBSCRIPTIONS, AVAILABILITY = f"{FRONT}subscriptions", f"{FRONT}uss_availability"
# how many ids a failure names
MOST_NAMED = 5
REFERENCE = {INTENTS: "operational_intent_reference", CONSTRAINTS: "constraint_reference", SUBSCRIPTIONS: "subscription"}


class Broken(Exception):
    """The error that an expectation does not hold."""


class Skipped(Exception):
    """The error that the service does not have what a check tests, and need not have it."""


class Knowledge:
    """Knowledge over a whole run: each OVN and the USS that received it, and the name of each USS."""

    def __init__(self):
        self.given, self.names = {}, {}


class Answer:
    """An exchange with expectations."""

    def __init__(self, trial, exchange):
        self.trial, self.exchange = trial, exchange
        self.status, self.value = exchange.status, exchange.value

    def must(self, status, message=None, standard=None):
        """Expects a status, and in the profile the message of a denial. The standard may permit several."""
        is_standard = self.trial.dialect.is_standard
        allowed = (standard or (status,)) if is_standard else (status,)
        said = " or ".join(map(str, allowed)) + (f" {message}" if message and not is_standard else "")
        holds = self.status in allowed
        if holds and message and not is_standard:
            holds = isinstance(self.value, dict) and self.value.get("message") == message
        self.need(holds, said)
        return self

    def need(self, holds, what):
        """Records an expectation. If it does not hold, the check is broken."""
        self.exchange.expected.append((what, bool(holds)))
        if not holds:
            raise Broken(what)
        return self

    def finds(self, wanted, what, found=None):
        """That exactly these ids were found, each once. A failure names those that are absent, too many, or there twice."""
        found = self.ids if found is None else found
        wrong = {
            "absent": sorted(set(wanted) - set(found)), "too many": sorted(set(found) - set(wanted)),
            "twice": sorted({it for it in found if found.count(it) > 1})}
        named = {name: ", ".join(ids[:MOST_NAMED]) + " and more" * (len(ids) > MOST_NAMED) for name, ids in wrong.items() if ids}
        said = "; ".join(f"{name}: {ids}" for name, ids in named.items())
        return self.need(not said, f"{what} ({said})" if said else what)

    def always(self, holds, what):
        """Expects something of every response; it is reported only if it does not hold."""
        return self if holds else self.need(False, what)

    def part(self, name):
        self.need(isinstance(self.value, dict) and name in self.value, f"the response has {name}")
        return self.value[name]

    @property
    def reference(self):
        """Returns the reference or the subscription of the response."""
        return self.part(next((it for it in REFERENCE.values() if it in (self.value or {})), "a reference"))

    @property
    def ids(self):
        """Returns the ids that a query found."""
        names = [it for it in (f"{name}s" for name in REFERENCE.values()) if it in (self.value or {})]
        return [it["id"] for it in self.part(names[0] if names else "references")]

    @property
    def indexes(self):
        """Returns the new index of each subscription to notify."""
        told = [it for by_url in self.part("subscribers") for it in by_url["subscriptions"]]
        return {it["subscription_id"]: it["notification_index"] for it in told}

    def missing(self, kind=INTENTS):
        name = {INTENTS: "missing_operational_intents", CONSTRAINTS: "missing_constraints"}[kind]
        return (self.value or {}).get(name) or []


class Supplier:
    """A caller, with one token."""

    def __init__(self, trial, caller):
        self.trial, self.caller, self.uss = trial, caller, caller.uss if caller else None

    def ask(self, method, path, body=None, fields=None):
        trial = self.trial
        if method == "PUT":
            trial.may_be_kept(self, path)
        return trial.taken(self, trial.client_of(method, path).ask(self.caller, method, path, body, fields))

    def get(self, kind, id_):
        return self.ask("GET", f"{kind}/{id_}")

    def delete(self, kind, id_, version):
        return self.ask("DELETE", f"{kind}/{id_}/{version}")

    def query(self, kind, *places, area=None):
        area = self.trial.dialect.area(places) if area is None else area
        return self.ask("POST", f"{kind}/query", {"area_of_interest": area})

    def put(self, kind, id_, body, over=None):
        return self.ask("PUT", f"{kind}/{id_}" + (f"/{over}" if over else ""), body)

    def intent(self, id_, *volumes, over=None, **more):
        return self.put(INTENTS, id_, self.trial.intent_body(*volumes, **more), over)

    def constraint(self, id_, *volumes, over=None, url="c"):
        return self.put(CONSTRAINTS, id_, {"extents": list(volumes), "uss_base_url": URL.format(url)}, over)

    def subscription(self, id_, volume, over=None, **more):
        return self.put(SUBSCRIPTIONS, id_, self.trial.subscription_body(volume, **more), over)

    def availability(self, uss):
        return self.ask("GET", f"{AVAILABILITY}/{uss}")

    def set_availability(self, uss, availability, old):
        self.trial.may_be_set(uss)
        return self.ask("PUT", f"{AVAILABILITY}/{uss}", {"availability": availability, "old_version": old})


class Trial:
    """A running check, over a pair of URLs."""

    def __init__(self, run, pair):
        self.run, self.pair, self.dialect, self.knowledge = run, pair, run.dialect, run.knowledge
        # Entities to delete, and the availabilities that were set and their first values.
        self.exchanges, self.kept, self.settings = [], {}, {}
        self.is_watched, self.is_cleaning = True, False
        self.suppliers = {name: Supplier(self, it) for name, it in run.callers.items()}
        self.nobody = Supplier(self, None)
        self.a, self.b, self.b_processing, self.a_monitoring, self.b_monitoring, self.manager, self.arbiter = (
            self.suppliers[it] for it in ("A", "B", "B processing", "A monitoring", "B monitoring", "constraint manager", "arbiter"))

    def client_of(self, method, path):
        """Returns the client of the URL for a request. While it cleans up, it also reads where it writes."""
        is_read = method == "GET" or path.endswith("/query")
        return self.pair.reader if is_read and not self.is_cleaning else self.pair.writer

    # ---- puts

    def id(self):
        """Returns a new id, by the seed of the run."""
        return str(uuid.UUID(int=self.run.draw.getrandbits(128), version=4))

    def site(self):
        """Returns a place where no other check puts anything."""
        return self.run.site()

    def volume(self, *places, **bounds):
        return self.dialect.volume(places, **bounds)

    def intent_body(self, *volumes, state="Accepted", key=(), subscription=None, url="a", **more):
        body = {"extents": list(volumes), "key": list(key), "state": state, "uss_base_url": URL.format(url)}
        if subscription:
            body["subscription_id"] = subscription
        elif self.dialect.needs_subscription(state):
            body["new_subscription"] = {"uss_base_url": URL.format(url)}
        return body | more

    def subscription_body(self, volume, intents=True, constraints=False, url="a"):
        return {
            "extents": volume, "uss_base_url": URL.format(url), "notify_for_operational_intents": intents,
            "notify_for_constraints": constraints}

    # ---- responses

    def taken(self, supplier, exchange):
        """Returns the response, after the expectations on every response."""
        self.exchanges.append(exchange)
        answer = Answer(self, exchange)
        if self.is_watched:
            answer.always(exchange.status is not None, "a response")
            self.has_form(answer)
            self.hides_ovns(supplier, answer)
        self.learn(supplier, answer)
        return answer

    def has_form(self, answer):
        exchange = answer.exchange
        kind, _, rest = exchange.path.removeprefix(FRONT).partition("/")
        named = exchange.fields.get("content-type", "").partition(";")[0].strip()
        answer.always(isinstance(exchange.value, dict) and named == "application/json", "a body of application/json")
        if exchange.status < 300 and kind:
            form = forms.forms_of(kind, rest, self.dialect)
        else:
            form = forms.denial(exchange.status == 409 and kind == "operational_intent_references", exchange.value)
        why = form.fault(exchange.value, self.dialect)
        answer.always(why is None, "the response's form" + (f": {why}" if why else ""))
        if not self.dialect.is_standard:
            compact = json.dumps(exchange.value, separators=(",", ":"), sort_keys=True, ensure_ascii=False)
            answer.always(compact == exchange.text, "compact JSON, members in the order of their names")

    def hides_ovns(self, supplier, answer):
        """Expects that no response has an OVN that another USS received."""
        text, uss = answer.exchange.text, supplier.uss
        shown = [it for it, (owner, _) in self.knowledge.given.items() if owner != uss and it in text]
        answer.always(not shown, "no OVN or version of another USS")

    def learn(self, supplier, answer):
        """Records the OVN or version that a put returned, and expects that none is returned twice."""
        exchange = answer.exchange
        if exchange.method != "PUT" or exchange.status not in (200, 201) or not isinstance(exchange.value, dict):
            return
        for name in REFERENCE.values():
            given = exchange.value.get(name)
            if isinstance(given, dict):
                ovn = given.get("version" if name == "subscription" else "ovn")
                if self.is_watched:
                    answer.always(isinstance(ovn, str) and len(ovn) >= 1, "the new OVN or version")
                    answer.always(ovn not in self.knowledge.given, "an OVN or version that was never returned before")
                if isinstance(ovn, str) and len(ovn) >= 16:
                    self.knowledge.given[ovn] = supplier.uss, exchange.path

    # ---- cleanup

    def may_be_kept(self, supplier, path):
        kind = next((it for it in (INTENTS, CONSTRAINTS, SUBSCRIPTIONS) if path.startswith(f"{it}/")), None)
        if kind:
            id_ = path.removeprefix(f"{kind}/").partition("/")[0].lower()
            self.kept.setdefault((kind, id_), set()).add(supplier.caller.name if supplier.caller else "A")
            self.run.pace.reserve = 3 * len(self.kept) + 9

    def may_be_set(self, uss):
        """Records the availability that a USS has before the check sets it, as the URL for changes has it."""
        if uss not in self.settings:
            exchange = self.pair.writer.ask(self.arbiter.caller, "GET", f"{AVAILABILITY}/{uss}")
            status = exchange.value.get("status") if exchange.status == 200 and isinstance(exchange.value, dict) else None
            self.settings[uss] = status.get("availability") if isinstance(status, dict) else None

    def clean(self):
        """Deletes what the check has put, and resets availabilities. Reports what cannot be deleted."""
        self.is_watched, shown, writer = False, len(self.exchanges), self.pair.writer
        self.is_cleaning = writer.is_cleaning = True
        # Intents first, as they may reference subscriptions.
        order = [INTENTS, CONSTRAINTS, SUBSCRIPTIONS]
        left = dict.fromkeys(sorted(self.kept, key=lambda it: order.index(it[0])))
        with contextlib.suppress(OutOfBounds):
            for kind, id_ in list(left):
                if self.take_away(kind, id_, self.kept[kind, id_]):
                    del left[kind, id_]
                elif self.exchanges[-1].status is None:
                    break
            for uss, before in self.settings.items():
                self.put_back(uss, before)
        self.is_cleaning = writer.is_cleaning = False
        self.run.pace.reserve = 0
        # Requests that clean up are not shown with the check.
        del self.exchanges[shown:]
        return [f"{kind.removeprefix(FRONT)}/{id_}" for kind, id_ in left]

    def take_away(self, kind, id_, names):
        """Deletes an entity or a subscription; returns whether it is gone."""
        for _ in range(2):
            for name in self.by_scope(kind, names):
                supplier = self.suppliers[name]
                found = supplier.get(kind, id_)
                if found.status in (400, 404):
                    return True
                if found.status is None:
                    return False
                reference = (found.value or {}).get(REFERENCE[kind]) if isinstance(found.value, dict) else None
                version = reference.get("version" if kind == SUBSCRIPTIONS else "ovn") if isinstance(reference, dict) else None
                if found.status == 200 and version and supplier.delete(kind, id_, version).status == 200:
                    return True
        return False

    def by_scope(self, kind, names):
        """Returns the callers that may delete it: the USS that put it, with a token whose scopes permit that."""
        may = {
            INTENTS: ["A", "B", "A monitoring", "B monitoring"], CONSTRAINTS: ["constraint manager"],
            SUBSCRIPTIONS: ["A", "B", "B processing"]}
        return sorted(may[kind], key=lambda it: it not in names)

    def put_back(self, uss, before):
        now = self.arbiter.availability(uss)
        if isinstance(now.value, dict) and now.status == 200:
            version = now.value.get("version", "")
            if now.value.get("status", {}).get("availability") != (before or "Unknown"):
                self.arbiter.set_availability(uss, before or "Unknown", version)

