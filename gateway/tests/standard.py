"""The standard's forms of responses, by the members that it names."""
import jsonschema

TIME = {
    "type": "object", "required": ["value", "format"], "additionalProperties": False,
    "properties": {"value": {"type": "string", "pattern": r"^\d{4}-\d\d-\d\dT\d\d:\d\d:\d\dZ$"}, "format": {"const": "RFC3339"}}}
ID = {"type": "string", "pattern": "^[0-9a-f]{8}-[0-9a-f]{4}-4[0-9a-f]{3}-[89ab][0-9a-f]{3}-[0-9a-f]{12}$"}
TEXT = {"type": "string"}


def form(required, **optional):
    return {"type": "object", "required": list(required), "additionalProperties": False, "properties": {**required, **optional}}


def many(item):
    return {"type": "array", "items": item}


ENTITY = {
    "id": ID, "manager": TEXT, "uss_availability": {"enum": ["Unknown", "Normal", "Down"]}, "version": {"type": "integer", "minimum": 0},
    "time_start": TIME, "time_end": TIME, "uss_base_url": TEXT}
OVN = {"type": "string", "minLength": 16, "maxLength": 128}
STATE = {"enum": ["Accepted", "Activated", "Nonconforming", "Contingent"]}
INTENT = form({**ENTITY, "state": STATE, "subscription_id": ID}, ovn=OVN)
CONSTRAINT = form(ENTITY, ovn=OVN)
SUBSCRIPTION = form(
    {"id": ID, "version": TEXT, "notification_index": {"type": "integer"}, "uss_base_url": TEXT},
    time_start=TIME, time_end=TIME, notify_for_operational_intents={"type": "boolean"}, notify_for_constraints={"type": "boolean"},
    implicit_subscription={"type": "boolean"}, dependent_operational_intents=many(ID))
SUBSCRIBERS = many(form({
    "subscriptions": many(form({"subscription_id": ID, "notification_index": {"type": "integer"}})), "uss_base_url": TEXT}))
FORMS = [
    form({"operational_intent_reference": INTENT}, subscribers=SUBSCRIBERS),
    form({"operational_intent_references": many(INTENT)}),
    form({"constraint_reference": CONSTRAINT}, subscribers=SUBSCRIBERS),
    form({"constraint_references": many(CONSTRAINT)}),
    form({"subscription": SUBSCRIPTION}, operational_intent_references=many(INTENT), constraint_references=many(CONSTRAINT)),
    form({"subscriptions": many(SUBSCRIPTION)}),
    form({"version": TEXT, "status": form({"uss": TEXT, "availability": {"enum": ["Unknown", "Normal", "Down"]}})}),
    form({"report_id": ID, "exchange": {"type": "object"}}),
]
DENIED = [
    # The standard permits further members. This one comes from a service that explains denials.
    form({"message": TEXT}, explanation=many(TEXT)),
    form({"message": TEXT, "missing_operational_intents": many(INTENT), "missing_constraints": many(CONSTRAINT)}),
]


def check(answer):
    """Checks that a response has one of the standard's forms."""
    forms = FORMS if answer.status < 300 else DENIED
    fits = [it for it in forms if jsonschema.Draft7Validator(it).is_valid(answer.json)]
    assert len(fits) == 1, f"{answer} is of no form of the standard"
    assert answer.headers["Content-Type"] == "application/json"
    return answer
