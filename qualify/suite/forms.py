"""The forms of responses: which members each has, and of what kind.

Those of the profile are exact; the standard permits further members."""
import re

ID = re.compile(r"[0-9a-f]{8}-[0-9a-f]{4}-[0-9a-f]{4}-[0-9a-f]{4}-[0-9a-f]{12}")
OVN = re.compile(r"[!-~]{16,128}")


def text(value, _):
    return isinstance(value, str)


def truth(value, _):
    return isinstance(value, bool)


def whole(value, _):
    return type(value) is int and value >= 0


def id_(value, _):
    return isinstance(value, str) and ID.fullmatch(value) is not None


def ovn(value, _):
    return isinstance(value, str) and OVN.fullmatch(value) is not None


def moment(value, dialect):
    return dialect.second(value) is not None


def one_of(*values):
    return lambda value, _: value in values


def many(form):
    return lambda value, dialect: isinstance(value, list) and all(holds(form, it, dialect) for it in value)


class Form:
    """An object: required and optional members."""

    def __init__(self, needed, **optional):
        self.needed, self.optional = needed, optional

    def fault(self, value, dialect, at=""):
        """Returns what is wrong with a value, or None."""
        if not isinstance(value, dict):
            return f"{at or 'the body'} is no object"
        for name in self.needed:
            if name not in value:
                return f"{at}{name} is missing"
        for name, it in value.items():
            form = self.needed.get(name) or self.optional.get(name)
            if form is None and not dialect.is_open:
                return f"{at}{name} is no member of it"
            if isinstance(form, Form):
                if why := form.fault(it, dialect, f"{at}{name}."):
                    return why
            elif form and not form(it, dialect):
                return f"{at}{name} has not its form"
        return None


def holds(form, value, dialect):
    return form.fault(value, dialect) is None if isinstance(form, Form) else form(value, dialect)


AVAILABILITY = one_of("Unknown", "Normal", "Down")
ENTITY = {
    "id": id_, "manager": text, "uss_availability": AVAILABILITY, "version": whole, "time_start": moment, "time_end": moment,
    "uss_base_url": text}
INTENT = Form({**ENTITY, "state": one_of("Accepted", "Activated", "Nonconforming", "Contingent"), "subscription_id": id_}, ovn=ovn)
CONSTRAINT = Form(ENTITY, ovn=ovn)
TOLD = Form({"subscriptions": many(Form({"subscription_id": id_, "notification_index": whole})), "uss_base_url": text})
FLAGS = {
    "time_start": moment, "time_end": moment, "notify_for_operational_intents": truth, "notify_for_constraints": truth,
    "implicit_subscription": truth, "dependent_operational_intents": many(id_)}
SUBSCRIPTION = {"id": id_, "version": text, "notification_index": whole, "uss_base_url": text}
STATUS = Form({"uss": text, "availability": AVAILABILITY})


def forms_of(kind, word, dialect):
    """Returns the form of a successful response to a request, by the kind of the path and whether its last part is
    `query`."""
    is_standard = dialect.is_standard
    subscription = Form(SUBSCRIPTION, **FLAGS) if is_standard else Form({**SUBSCRIPTION, **FLAGS})
    if kind == "uss_availability":
        return Form({"status": STATUS, "version": text})
    if kind == "subscriptions":
        if word == "query":
            return Form({"subscriptions": many(subscription)})
        found = {"operational_intent_references": many(INTENT), "constraint_references": many(CONSTRAINT)}
        return Form({"subscription": subscription}, **found)
    one, form = kind.removesuffix("s"), INTENT if kind == "operational_intent_references" else CONSTRAINT
    if word == "query":
        return Form({f"{one}s": many(form)})
    return Form({one: form}, subscribers=many(TOLD))


def texts(value, _):
    return isinstance(value, list) and value != [] and all(isinstance(it, str) for it in value)


# The messages of denials that may have an explanation. The gateway adds to a message what to do.
EXPLAINED = ("P1 ROUTE", "P2 METHOD", "P5 FORM", "P6 AREA", "P13 ENDED")


def denial(is_for_key, value):
    """Returns the form of a denial, given its body."""
    missing = {"missing_operational_intents": many(INTENT), "missing_constraints": many(CONSTRAINT)}
    message = value.get("message") if isinstance(value, dict) else None
    is_explained = isinstance(message, str) and message.partition(":")[0] in EXPLAINED
    return Form({"message": text}, **(missing if is_for_key else {}), **({"explanation": texts} if is_explained else {}))
