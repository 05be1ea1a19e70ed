"""Whether real responses have the form that docs/openapi.yaml gives them.

The helpers of the tests check each response of a service, a pool, HAProxy and the gateway here. Without Debian's python3-yaml or
python3-jsonschema nothing is checked."""
import calendar
import functools
import json
import pathlib
import re
import time

try:
    import jsonschema
    import yaml
except ModuleNotFoundError:
    jsonschema = yaml = None

DOCUMENT = pathlib.Path(__file__).resolve().parents[2] / "docs" / "openapi.yaml"
METHODS = ("get", "put", "post", "delete", "options", "head", "patch", "trace")
FRONT = "/dss/v1/"
# Of a longer list only so many items are checked.
SOME = 200
# How the gateway writes a time.
STAMP = "%Y-%m-%dT%H:%M:%SZ"


def whole(value, document):
    """Returns a part of the document with each reference replaced by its target."""
    if isinstance(value, list):
        return [whole(it, document) for it in value]
    if not isinstance(value, dict):
        return value
    if "$ref" in value:
        part = document
        for name in value["$ref"].removeprefix("#/").split("/"):
            part = part[name]
        return whole(part, document)
    return {name: whole(it, document) for name, it in value.items()}


def of_json_schema(schema):
    """Converts a schema of OpenAPI 3.0 to JSON Schema: null by its type, and the `$` of ECMA 262 as Python writes it."""
    if isinstance(schema, list):
        return [of_json_schema(it) for it in schema]
    if not isinstance(schema, dict):
        return schema
    made = {name: of_json_schema(it) for name, it in schema.items()}
    if made.pop("nullable", False) is True:
        made["type"] = [made["type"], "null"]
    if isinstance(made.get("pattern"), str):
        made["pattern"] = re.sub(r"\$$", r"\\Z", made["pattern"])
    return made


def validator_of(response):
    """Returns the validator of the body of a response."""
    return jsonschema.Draft4Validator(of_json_schema(response["content"]["application/json"]["schema"]))


class Document:
    """The responses of the document: of each operation, and of none."""

    def __init__(self):
        # the loader in C is ten times faster, if it is there
        text = yaml.load(DOCUMENT.read_text(), getattr(yaml, "CSafeLoader", yaml.SafeLoader))
        parts = whole({name: text[name] for name in ("paths", "components")}, text)
        self.gateway = {it["status"] for it in text["x-gateway"]}
        self.operations, self.others = {}, {}
        for path, item in parts["paths"].items():
            form = re.compile(re.sub(r"{\w+}", "[^/]+", path))
            found = {it.upper(): self.responses(item[it]["responses"]) for it in METHODS if it in item}
            self.operations[form] = found
        for response in parts["components"]["responses"].values():
            if "x-status" in response:
                self.others[response["x-status"]] = validator_of(response)
        # those with fewer parameters first
        self.forms = sorted(self.operations, key=lambda it: it.pattern.count("[^/]+"))

    @staticmethod
    def responses(given):
        return {int(status): validator_of(it) for status, it in given.items()}

    def all_of(self, status):
        """Returns the validators of a status, of all operations and of none."""
        found = [of[status] for methods in self.operations.values() for of in methods.values() if status in of]
        return found + ([self.others[status]] if status in self.others else [])

    def of_request(self, method, target):
        """Returns the responses of the operation of a request, or those of no operation."""
        path = target.partition("?")[0]
        form = next((it for it in self.forms if it.fullmatch(path)), None)
        return self.operations[form].get(method, self.others) if form else self.others


@functools.cache
def the_document():
    return Document()


@functools.lru_cache(maxsize=10_000)
def wrong(method, target, status, body):
    """Returns what is wrong with a response to a request, or None. Without a method, any operation may have it."""
    document = the_document()
    try:
        value = json.loads(body)
    except ValueError:
        return "no JSON"
    if not isinstance(value, dict):
        return "no object"
    value = {name: it[:SOME] if isinstance(it, list) else it for name, it in value.items()}
    if method is None:
        validators = document.all_of(status)
    else:
        of = document.of_request(method, target)
        # bytes that are no request have a response of every operation, whatever their path is
        is_any = of is document.others and (status not in of or str(value.get("message", ""))[:1] == "H")
        validators = document.all_of(status) if is_any else [of[status]] if status in of else []
    if not validators:
        return "no such status"
    if any(it.is_valid(value) for it in validators):
        return None
    return "; ".join(it.message for it in list(validators[-1].iter_errors(value))[:3])


def check(method, target, status, body):
    """Raises an error if the document does not have this response to a request."""
    if yaml and (why := wrong(method, target, status, body)):
        raise AssertionError(f"docs/openapi.yaml has no such response: {method} {target}: {status} {body[:500]!r}: {why}")


def check_stream(answers):
    """Raises an error if no operation has one of these responses, which are bytes."""
    for it in answers if yaml else ():
        head, _, body = it.partition(b"\r\n\r\n")
        check(None, None, int(head.split()[1]), body)


def of_service(value):
    """Returns a value of the gateway in the form of the service: times in seconds, and no implicit subscription."""
    if isinstance(value, list):
        return [of_service(it) for it in value]
    if not isinstance(value, dict):
        return value
    if set(value) == {"format", "value"}:
        return calendar.timegm(time.strptime(value["value"], STAMP))
    return {name: False if name == "implicit_subscription" else of_service(it) for name, it in value.items()}


def check_gateway(method, target, status, text):
    """Raises an error if the document does not have this response of the gateway."""
    if not yaml or not target.startswith(FRONT) or target.startswith(f"{FRONT}reports"):
        return
    value = of_service(json.loads(text))
    message = value.get("message") if isinstance(value, dict) else None
    if message is not None:
        # what to do follows the name
        value["message"] = message.partition(":")[0]
    if wrong(method, target, status, json.dumps(value)) is None:
        return
    # the gateway's own are texts
    if message is None or " " not in message or status not in the_document().gateway:
        check(method, target, status, json.dumps(value))
