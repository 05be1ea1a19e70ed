"""Compares docs/openapi.yaml with the program.

The document conforms to OpenAPI 3.0. The program gives every example in it. Each operation permits the scopes that
the document lists. At each bound, the document's schemas reject what the program rejects."""
import functools
import json
import pathlib
import re

import jsonschema
import yaml

import drawn_calls
import openapi_bodies
import wire
import without_memory
from conforms import METHODS, of_json_schema, whole
from plain_policy import RULES
from program import BUILT, TOP, first_difference, run, serve

NOW = 1000
DOCUMENT = TOP / "docs" / "openapi.yaml"
# From Debian's package openapi-specification.
SCHEMA = pathlib.Path("/usr/share/openapi-specification/schemas/v3.0/schema.yaml")
DRAWN = range(1, 11)

# The USSs of the worked examples, and another one with constraints.
TOKENS = drawn_calls.ALL_TOKENS

DENIALS = {f"P{number} {name}": status for number, (status, name) in RULES.items()} | {
    "P15 LIMIT": 503, "H1 HEAD": 400, "H2 HEADSIZE": 431, "H3 TRANSFER": 501, "H4 LENGTH": 400, "H5 BODYSIZE": 413,
    "fault": 500, "stopped": 503, "unreachable": 503, "unknown": 503, "unassigned": 503,
}
# Responses that no list of requests to a new service reaches: the maximum serial, a space that broke, and those of a pool.
OF_POOL = {"unreachable", "unknown", "unassigned"}
UNREACHED = {"P15", "stopped", *OF_POOL}
# The files of the proxies, and the statuses that only HAProxy has.
PROXIES, OF_HAPROXY = ("deploy/nginx.conf", "deploy/haproxy.cfg", "deploy/pool/haproxy.cfg"), {408, 411}


class Document:
    """The document, and its operations by their names."""

    def __init__(self):
        self.text = yaml.safe_load(DOCUMENT.read_text())
        self.parts = whole(self.text, self.text)
        self.operations = {}
        for path, item in self.parts["paths"].items():
            for method in METHODS:
                if method in item:
                    operation = Operation(path, method.upper(), item)
                    self.operations[operation.name] = operation

    def operation_at(self, method, target):
        """Returns the operation of a method and a target, or None. A path without parameters comes before one with
        them."""
        path = target.partition("?")[0]
        for template in sorted(self.parts["paths"], key=lambda it: it.count("{")):
            if re.fullmatch(re.sub(r"{\w+}", "[^/]+", template), path):
                there = [it for it in self.operations.values() if (it.path, it.method) == (template, method)]
                return there[0] if there else None
        return None


@functools.cache
def the_document():
    return Document()


class Operation:
    """A method of a path in the document."""

    def __init__(self, path, method, item):
        said = item[method.lower()]
        self.name, self.path, self.method = said["operationId"], path, method
        self.words = {it["name"]: it for it in item.get("parameters", ())}
        self.scopes, self.security = set(said["x-scopes"]), said["security"]
        self.body, self.bodies = None, {}
        if "requestBody" in said:
            self.body, self.bodies = schema_and_examples(said["requestBody"])
        self.answers = {}
        for status, response in said["responses"].items():
            if response.get("x-of-proxy"):
                continue
            fields = fields_of(response)
            schema, examples = schema_and_examples(response)
            self.answers |= {f"{status} {name}": (int(status), it, schema, fields) for name, it in examples.items()}

    def target(self, words=()):
        """Returns the path with the given parameters, or else with the examples of its parameters."""
        words = {name: it["example"] for name, it in self.words.items()} | dict(words)
        return self.path.format(**words)

    def request(self, token, body=None, words=(), fields=()):
        authorization = None if token is None else f"Bearer {token}"
        if body is None and self.bodies:
            body = self.first()
        text = body_of(self.bodies[body] if isinstance(body, str) else body)
        return wire.request(self.method, self.target(words), authorization, text, fields)

    def first(self):
        """Returns the first example of a body."""
        return next(iter(self.bodies.values()))

    def answer(self, example, closes=False):
        status, value, _, fields = self.answers[example]
        return wire.answer(status, wire.compact(value), fields, closes)


def schema_and_examples(holder):
    """Returns the validator of a body and its examples, without those of a proxy beside the service's."""
    content = holder["content"]["application/json"]
    examples = {name: it["value"] for name, it in content["examples"].items() if "x-of-proxy" in holder or "x-of-proxy" not in it}
    return jsonschema.Draft4Validator(of_json_schema(content["schema"])), examples


def fields_of(response):
    """Returns the header fields of a response that has only one value for each."""
    enums = {name: it["schema"].get("enum", ()) for name, it in response.get("headers", {}).items()}
    return [f"{name}: {enum[0]}" for name, enum in enums.items() if len(enum) == 1]


def body_of(value):
    return value if value is None or isinstance(value, bytes) else json.dumps(value, ensure_ascii=False).encode()


def served(requests):
    """Returns the responses of a stream, or why there are none."""
    status, output, error = serve(b"".join(requests), NOW, wire.token_file(TOKENS))
    if (status, error) != (0, b""):
        raise ValueError(f"status {status}, {error!r}")
    return wire.answers_of(output)


# ---- the document itself


def is_document():
    """The document conforms to OpenAPI 3.0, and its examples to their schemas and rules."""
    document = the_document()
    validator = jsonschema.Draft4Validator(yaml.safe_load(SCHEMA.read_text()))
    found = [f"{list(it.absolute_path)}: {it.message[:300]}" for it in validator.iter_errors(document.text)]
    used = set(re.findall(r"#/components/[^']*", DOCUMENT.read_text())) | {
        f"#/components/{it}" for it in ("responses/NoRoute", "responses/NoMethod")
    }
    for kind, parts in document.text["components"].items():
        unused = {f"#/components/{kind}/{it}" for it in parts} - used
        found += [f"{it} is not used" for it in sorted(unused) if kind != "securitySchemes"]
    found += hard_to_generate_from(document) + other_messages(document)
    for operation in document.operations.values():
        words = set(re.findall(r"{(\w+)}", operation.path))
        found += [f"{operation.name}: other words than {words}"] if words != set(operation.words) else []
        found += examples_that_fail(operation)
        unreached = {it for it in operation.answers if it.partition(" ")[2] in UNREACHED}
        wanted = {"503 stopped", *(f"503 {it}" for it in OF_POOL)} | ({"503 P15"} if operation.method in ("PUT", "DELETE") else set())
        found += [f"{operation.name}: {unreached}, not {wanted}"] if unreached != wanted else []
    return found


def other_messages(document):
    """Returns how the messages of the schemas differ from those of the examples, which tables and the client have."""
    parts = document.parts["components"]
    told = {it["value"]["message"]: "x-of-proxy" in it for it in parts["examples"].values()}
    allowed = set(parts["schemas"]["Denied"]["properties"]["message"]["enum"])
    # a proxy's response has a schema of its own, unless the service has the same status
    shared = {it["value"]["message"] for response in parts["responses"].values() if "x-of-proxy" not in response
              for it in response["content"]["application/json"]["examples"].values()}
    found = [f"Denied lacks {it}, or has it in excess" for it in sorted(allowed ^ shared)]
    return found + [f"{it} is of no response" for it, is_of_proxy in told.items() if not is_of_proxy and it not in allowed]


def of_proxies():
    """The document has exactly the responses that the files in deploy give, with their statuses."""
    document, found, told = the_document(), [], set()
    responses = [(status, it) for path in document.parts["paths"].values() for method in METHODS if method in path
                 for status, it in path[method]["responses"].items()]
    responses += [(it["x-status"], it) for it in document.parts["components"]["responses"].values() if "x-status" in it]
    for status, response in responses:
        content = response["content"]["application/json"]
        values = [it["value"] for it in content["examples"].values() if "x-of-proxy" in it]
        found += [f"{status}: {it.message}" for value in values for it in validator_of(content["schema"]).iter_errors(value)]
        told |= {(int(status), wire.compact(it)) for it in values}
    given = {}
    for file in PROXIES:
        text = (TOP / file).read_text()
        pairs = re.findall(r"""(?:return|status) (\d{3}) (?:content-type application/json string )?'({"message":"proxy: [^']*)'""", text)
        given[file] = {(int(status), body) for status, body in pairs}
        lacking = {status for status, _ in told} - {status for status, _ in given[file]} - (OF_HAPROXY if "nginx" in file else set())
        found += [f"{file} has no {it}" for it in sorted(lacking)]
    found += [f"only one of the document and the files has {it}" for it in sorted(told ^ set().union(*given.values()))]
    return found


def schemas_in(value):
    """Returns all objects in a part of the document."""
    if isinstance(value, dict):
        yield value
    for it in value.values() if isinstance(value, dict) else value if isinstance(value, list) else ():
        yield from schemas_in(it)


def hard_to_generate_from(document):
    """Returns what breaks client generators: no server, schemes of the same name, and schemas that are a choice without
    a discriminator."""
    found = [] if document.text.get("servers") else ["no servers"]
    schemes = [{it: []} for it in document.text["components"]["securitySchemes"]]
    found += [f"{it.name}: {it.security}" for it in document.operations.values() if len(schemes) != 1 or it.security != schemes]
    for schema in schemas_in(document.text):
        found += [f"{it} in {schema}" for it in ("anyOf", "allOf", "not") if it in schema]
        if "oneOf" in schema:
            told = schema.get("discriminator", {"mapping": {}})["mapping"]
            parts = [whole(it, document.text) for it in schema["oneOf"]]
            found += [] if set(told.values()) == {it["$ref"] for it in schema["oneOf"]} else [f"{schema} lacks a discriminator"]
            for value, to in told.items():
                fit = [it["$ref"] for it, part in zip(schema["oneOf"], parts) if value in part["properties"]["message"]["enum"]]
                found += [] if fit == [to] else [f"{value} leads to {to}, and is in {fit}"]
    return found


def examples_that_fail(operation):
    """Returns the examples of an operation that its schemas reject, or whose rule has another status."""
    found = []
    for name, value in operation.bodies.items():
        found += [f"{operation.name}, {name}: {it.message}" for it in operation.body.iter_errors(value)]
    for name, word in operation.words.items():
        if not validator_of(word["schema"]).is_valid(word["example"]):
            found += [f"{operation.name}: the example of {name} is refused"]
    for name, (status, value, schema, _) in operation.answers.items():
        found += [f"{operation.name}, {name}: {it.message}" for it in schema.iter_errors(value)]
        if "message" in value and DENIALS.get(value["message"]) != status:
            found += [f"{operation.name}, {name}: {value['message']} has another status"]
    return found


def validator_of(schema):
    return jsonschema.Draft4Validator(of_json_schema(schema))


# ---- the examples

# Streams of steps: the operation, the token, and the example of the response. A step also names another example of the
# body than the first, or other members, and path parameters if they are not the examples.
ANOTHER, THIRD = ({"entityid": f"00000000-0000-4000-8000-0000000000{it}"} for it in ("b1", "b2"))
AT = {serial: {"ovn": wire.ovn(serial)} for serial in range(1, 4)}
OTHER, VERSION = {"subscriptionid": "00000000-0000-4000-8000-0000000000d2"}, {"version": wire.ovn(2)}
SCENES = [
    [
        ("createIntent", "tok-a", "201 created"),
        ("createIntent", "tok-a", "409 P8"),
        ("createIntent", "tok-b", "409 missing-intent", "keyless", ANOTHER),
        ("createIntent", "tok-b", "201 with-key", "keyed", ANOTHER),
        ("readIntent", "tok-a", "200 own"),
        ("readIntent", "tok-b", "200 of-another"),
        ("queryIntents", "tok-b", "200 two", "cells"),
        ("queryIntents", "tok-b", "200 none", "bounded"),
        ("queryIntents", "tok-b", "413 P6", {"area_of_interest": {"cells": ["1"]}}),
        ("createIntent", "tok-bm", "403 P11", "first", THIRD),
        ("updateIntent", "tok-a", "200 updated"),
        ("updateIntent", "tok-a", "409 P10"),
        ("updateIntent", "tok-a", "400 P12", {"state": "Accepted"}, AT[3]),
        ("updateIntent", "tok-b", "409 missing-intent", "activated", ANOTHER | AT[2]),
        ("updateIntent", "tok-b", "403 P9", "activated", AT[3]),
        ("updateIntent", "tok-bm", "403 P11", "activated", ANOTHER | AT[2]),
        ("readIntent", "tok-a", "404 P7", None, THIRD),
        ("updateIntent", "tok-a", "404 P7", "activated", THIRD),
        ("deleteIntent", "tok-a", "404 P7", None, THIRD),
        ("deleteIntent", "tok-b", "403 P9", None, AT[3]),
        ("deleteIntent", "tok-a", "409 P10"),
        ("deleteIntent", "tok-a", "200 deleted", None, AT[3]),
    ],
    [
        ("createConstraint", "tok-c", "201 created"),
        ("createConstraint", "tok-c", "409 P8"),
        ("createIntent", "tok-bc", "409 missing-constraint", "keyless"),
        ("readConstraint", "tok-c", "200 own"),
        ("readConstraint", "tok-bc", "200 of-another"),
        ("queryConstraints", "tok-bc", "200 one", "cells"),
        ("queryConstraints", "tok-bc", "200 none", "later"),
        ("queryConstraints", "tok-bc", "413 P6", {"area_of_interest": {"cells": ["1"]}}),
        ("updateConstraint", "tok-c", "200 updated"),
        ("updateConstraint", "tok-c", "409 P10"),
        ("updateConstraint", "tok-d", "403 P9", "longer", AT[2]),
        ("readConstraint", "tok-c", "404 P7", None, THIRD),
        ("updateConstraint", "tok-c", "404 P7", "longer", THIRD),
        ("deleteConstraint", "tok-c", "404 P7", None, THIRD),
        ("deleteConstraint", "tok-d", "403 P9", None, AT[2]),
        ("deleteConstraint", "tok-c", "409 P10"),
        ("deleteConstraint", "tok-c", "200 deleted", None, AT[2]),
    ],
    [
        ("readAvailability", "tok-a", "200 never-set"),
        ("setAvailability", "tok-v", "200 set", "first"),
        ("setAvailability", "tok-v", "409 P10", "first"),
        ("setAvailability", "tok-v", "200 set-again", "again"),
        ("readAvailability", "tok-a", "200 was-set"),
    ],
    [
        ("createSubscription", "tok-bc", "200 created"),
        ("createSubscription", "tok-bc", "409 P8"),
        ("createSubscription", "tok-b", "403 P11", "both", OTHER),
        ("querySubscriptions", "tok-b", "200 one", "cells"),
        ("querySubscriptions", "tok-a", "200 none", "cells"),
        ("querySubscriptions", "tok-b", "413 P6", {"area_of_interest": {"cells": ["1"]}}),
        ("readSubscription", "tok-b", "200 alone"),
        ("readSubscription", "tok-a", "403 P9"),
        ("readSubscription", "tok-b", "404 P7", None, OTHER),
        ("updateSubscription", "tok-a", "403 P9"),
        ("updateSubscription", "tok-b", "404 P7", "intents", OTHER),
        ("updateSubscription", "tok-b", "403 P11", {"notify_for_constraints": True}),
        ("updateSubscription", "tok-b", "200 updated"),
        ("updateSubscription", "tok-b", "409 P10"),
        ("createIntent", "tok-a", "400 P16", "naming"),
        ("createIntent", "tok-b", "201 naming", "naming", ANOTHER),
        ("updateIntent", "tok-b", "400 P16", {"subscription_id": OTHER["subscriptionid"]}, ANOTHER | AT[3]),
        ("readSubscription", "tok-b", "200 named"),
        ("deleteSubscription", "tok-b", "409 P17", None, VERSION),
        ("deleteSubscription", "tok-b", "409 P10"),
        ("deleteSubscription", "tok-a", "403 P9", None, VERSION),
        ("deleteSubscription", "tok-b", "404 P7", None, OTHER),
    ],
    [
        ("createSubscription", "tok-bc", "200 created"),
        ("updateSubscription", "tok-b", "200 updated"),
        ("deleteSubscription", "tok-b", "200 deleted", None, VERSION),
    ],
]
# A token whose scopes permit each operation.
OPENED_BY = {
    **dict.fromkeys(("queryIntents", "readIntent", "createIntent", "updateIntent", "deleteIntent"), "tok-a"),
    **dict.fromkeys(("queryConstraints", "readConstraint"), "tok-c"),
    **dict.fromkeys(("createConstraint", "updateConstraint", "deleteConstraint"), "tok-c"),
    **dict.fromkeys(("readAvailability", "setAvailability"), "tok-v"),
    **dict.fromkeys((f"{it}Subscription" for it in ("read", "create", "update", "delete")), "tok-bc"),
    "querySubscriptions": "tok-bc",
}
# Changes that make a request break a protocol rule.
WIRES = {
    "400 H1": ["no field"],
    "431 H2": ["X: y"] * 65,
    "501 H3": ["Transfer-Encoding: chunked"],
    "400 H4": ["Content-Length: 4x"],
    "413 H5": ["Content-Length: 1048577"],
}


def scenes(document):
    """Returns the steps as requests, with the operation and the example of the response of each."""
    for steps in SCENES:
        stream = []
        for name, token, example, *more in steps:
            operation, (body, words) = document.operations[name], (*more, None, None)[:2]
            body = operation.first() | body if isinstance(body, dict) else body
            stream.append((operation.request(token, body, words or ()), name, example))
        yield stream


def with_volume(operation, **members):
    """Returns the first example of a put with other members of its volume."""
    put = operation.first()
    extents = put["extents"]
    return put | {"extents": [extents[0] | members] if isinstance(extents, list) else extents | members}


def early(operation):
    """Returns requests of an operation that are denied whatever is stored."""
    token = OPENED_BY[operation.name]
    yield operation.request(None), "401 P3"
    yield operation.request("tok-n"), "403 P4"
    if operation.body is None:
        yield operation.request(token, words={next(iter(operation.words)): "+"}), "400 P5"
        return
    yield operation.request(token, b"["), "400 P5"
    if "extents" in operation.first():
        yield operation.request(token, with_volume(operation, cells=["1"])), "413 P6"
        # Only for a creation: the target of an update must exist.
        if operation.name.startswith("create"):
            yield operation.request(token, with_volume(operation, time_end=NOW)), "400 P13"


def ended(document, name, creation):
    """Returns an update by which an entity or a subscription would have ended."""
    operation, created = document.operations[name], document.operations[creation]
    request = operation.request(OPENED_BY[name], with_volume(operation, time_end=NOW))
    first = next(it for it in created.answers if it.startswith("20"))
    return [(created.request(OPENED_BY[creation]), creation, first), (request, name, "400 P13")]


def all_streams(document):
    yield from scenes(document)
    for name, operation in document.operations.items():
        yield [(request, name, example) for request, example in early(operation)]
    yield ended(document, "updateIntent", "createIntent")
    yield ended(document, "updateConstraint", "createConstraint")
    yield ended(document, "updateSubscription", "createSubscription")


def is_valid_answer(operation, example, text):
    """Returns whether the body of a response conforms to the schema of its status."""
    _, _, schema, _ = operation.answers[example]
    return schema.is_valid(json.loads(text.partition(b"\r\n\r\n")[2]))


def come_true():
    """Every example is sent. The response is the example and conforms to its schema. No example is left out."""
    document, found, seen = the_document(), [], set()
    for stream in all_streams(document):
        wanted = [document.operations[name].answer(example) for _, name, example in stream]
        got = served([request for request, _, _ in stream])
        why = first_difference(wanted, got)
        found += [f"{stream[0][1]} and what follows: {why}"] if why else []
        for (_, name, example), text in zip(stream, got):
            if not is_valid_answer(document.operations[name], example, text):
                found += [f"{name}, {example}: {text!r} does not fit the schema"]
        seen |= {(name, example) for _, name, example in stream}
        seen |= {(name, request) for request, name, _ in stream}
    for name, operation in document.operations.items():
        for example, fields in WIRES.items():
            bears = f"Bearer {OPENED_BY[name]}"
            got = served([wire.request(operation.method, operation.target(), bears, fields=fields)])
            found += [f"{name}, {example}: {got!r}"] if got != [operation.answer(example, closes=True)] else []
            seen.add((name, example))
        found += left_out(operation, seen)
    return found + faults(document)


def left_out(operation, seen):
    """Returns the examples of an operation that no stream has."""
    answers = {it for it in operation.answers if (operation.name, it) not in seen}
    left = [it for it in answers if it.partition(" ")[2] not in UNREACHED | {"fault"}]
    sent = b"".join(request for name, request in seen if name == operation.name and isinstance(request, bytes))
    left += [name for name, it in operation.bodies.items() if body_of(it) not in sent]
    return [f"{operation.name}: {it} is not sent" for it in sorted(left)]


def faults(document):
    """If a memory allocation is refused, the response is the example of a fault, which all operations share."""
    operation = document.operations["readAvailability"]
    request = operation.request("tok-a", fields=["Connection: close"])
    wanted = operation.answer("500 fault", closes=True)
    command = [BUILT, "run", "--tokens", str(TOP / "examples" / "tokens.toml"), "--now", str(NOW), "-"]
    came = any(got == (0, wanted, b"") for _, got, _ in without_memory.each_refused(command, request))
    shared = [it.name for it in document.operations.values() if it.answer("500 fault", closes=True) != wanted]
    return [f"{it}: another fault" for it in shared] + ([] if came else [f"no answer is {wanted!r}"])


def answers_to_drawn_calls():
    """Each response to drawn calls has its status, its rule and its form in the document."""
    document, found, count = the_document(), [], 0
    for seed in DRAWN:
        for request, outcome in zip(*drawn_calls.stream(seed)):
            method, target = request.decode().split(" ", 2)[:2]
            operation, value = document.operation_at(method, target), json.loads(outcome.body)
            if operation is None:
                right = outcome.why in (1, 2)
            else:
                alike = [it for it in operation.answers.values() if it[0] == outcome.status]
                rules = [it[1].get("message") for it in alike]
                right = value.get("message") in rules and alike[0][2].is_valid(value)
            count += 1
            found += [] if right else [f"{method} {target}: {outcome.status} {outcome.body}"]
    print(f"responses to drawn calls: {count}")
    return found


def others_denied():
    """A path without a route is P1. A method that a path does not have is P2, with the path's methods."""
    document, found, requests, wanted = the_document(), [], [], []
    responses = document.parts["components"]["responses"]
    (schema, no_route), (_, no_method) = (schema_and_examples(responses[it]) for it in ("NoRoute", "NoMethod"))
    allow = responses["NoMethod"]["headers"]["Allow"]["schema"]["enum"]
    for path, item in document.parts["paths"].items():
        target = re.sub(r"{\w+}", "x", path)
        taken = ", ".join(it.upper() for it in METHODS if it in item)
        found += [] if taken in allow else [f"{taken} is no value of Allow"]
        for method in METHODS:
            if method not in item:
                requests.append(wire.request(method.upper(), target))
                wanted.append(wire.answer(405, wire.compact(no_method["P2"]), [f"Allow: {taken}"]))
        requests.append(wire.request("GET", f"{target}/y/z"))
        wanted.append(wire.answer(404, wire.compact(no_route["P1"])))
    bodies = [it for responses in (no_route, no_method) for it in responses.values()]
    found += [] if all(map(schema.is_valid, bodies)) else ["P1 or P2 does not fit its schema"]
    why = first_difference(wanted, served(requests))
    return found + ([why] if why else [])


def scopes_open():
    """P4 denies a token with only one scope exactly if the document does not list it with the operation."""
    document, found = the_document(), []
    scopes = sorted(set().union(*(it.scopes for it in document.operations.values())))
    tokens = {f"tok-{at}": ("uss-a", {scope}) for at, scope in enumerate(scopes)}
    cases = [(operation, text) for operation in document.operations.values() for text in tokens]
    requests = [operation.request(text) for operation, text in cases]
    status, output, error = serve(b"".join(requests), NOW, wire.token_file(tokens))
    answers = wire.answers_of(output)
    if (status, error, len(answers)) != (0, b"", len(cases)):
        return [f"status {status}, {error!r}, {len(answers)} answers"]
    for (operation, text), answer in zip(cases, answers):
        (scope,) = tokens[text][1]
        if (answer == operation.answer("403 P4")) == (scope in operation.scopes):
            found += [f"{operation.name} by {scope}: {answer!r}"]
    return found


# ---- bodies and path parameters by the schemas


def malformed(requests):
    """Returns whether each request is P5, in streams of a hundred."""
    wanted = wire.answer(400, '{"message":"P5 FORM"}')
    closing = wire.answer(400, '{"message":"P5 FORM"}', closes=True)
    for at in range(0, len(requests), wire.MAX_REQUESTS):
        some = requests[at : at + wire.MAX_REQUESTS]
        got = served(some)
        if len(got) != len(some):
            raise ValueError(f"{len(got)} answers to {len(some)} requests")
        yield from (it in (wanted, closing) for it in got)


def checked(operation, cases):
    """Returns whether the schema and the program reject each body of an operation."""
    token = OPENED_BY[operation.name] if operation.name != "createIntent" else "tok-as"
    requests = [operation.request(token, body) for _, body in cases]
    refused = malformed(requests)
    return [(name, not operation.body.is_valid(json.loads(body)), it) for (name, body), it in zip(cases, refused)]


def bounds_of_bodies():
    """At each bound and form of a body, the schema and the program reject the same bodies."""
    document, found, counts = the_document(), [], {True: 0, False: 0}
    for name, bodies in openapi_bodies.BODIES.items():
        wanted, cases = [], []
        for is_wrong, case, value in openapi_bodies.each_edit(bodies.body, bodies.edits):
            wanted.append(is_wrong)
            cases.append((case, value))
        for is_wrong, (case, *refused) in zip(wanted, checked(document.operations[name], cases)):
            counts[is_wrong] += 1
            if refused != [is_wrong, is_wrong]:
                found += [f"{name}, {case}: to be refused {is_wrong}, by schema and program {refused}"]
    print(f"bodies at their bounds: {counts[True]} rejected, {counts[False]} accepted")
    return found + ([] if min(counts.values()) >= 60 else ["under 60 of a kind"])


def bounds_of_answers():
    """At each bound of a response, the schema rejects what is beyond it. Such responses are made up: the program gives
    none."""
    document, found = the_document(), []
    _, value, schema, _ = document.operations["createIntent"].answers["201 created"]
    for is_wrong, case, text in openapi_bodies.each_edit(value, openapi_bodies.OF_ANSWER):
        found += [f"{case}: to be refused {is_wrong}"] if schema.is_valid(json.loads(text)) == is_wrong else []
    for operation in document.operations.values():
        for example, (_, value, schema, _) in operation.answers.items():
            others = openapi_bodies.with_other_members(value)
            found += [f"{operation.name}, {example}: {it} passes" for it in others if schema.is_valid(it)]
    return found


def beyond_schemas():
    """Bodies that only the document's text excludes: the schema accepts them, and the program rejects them."""
    document, found = the_document(), []
    for name, bodies in openapi_bodies.UNSAID.items():
        operation = document.operations[name]
        for case, *refused in checked(operation, bodies):
            found += [f"{name}, {case}: by schema and program {refused}"] if refused != [False, True] else []
    return found


def tokens_of_cells():
    """The pattern of a cell's token accepts what the program accepts, for all tokens of up to two digits and some
    longer ones."""
    operation = the_document().operations["queryIntents"]
    digits = "0123456789abcdefABCDEF"
    tokens = [*digits, *(a + b for a in digits for b in digits), *(f"1{it}1" for it in digits), *openapi_bodies.TOKENS]
    cases = [(it, json.dumps({"area_of_interest": {"cells": [it]}}).encode()) for it in tokens]
    return [f"{it}: by schema and program {a, b}" for it, a, b in checked(operation, cases) if a != b]


def words_of_paths():
    """At each bound of a path parameter, the schema and the program reject the same texts."""
    document, found = the_document(), []
    for name, word, wrong, right in openapi_bodies.WORDS:
        operation = document.operations[name]
        schema = validator_of(operation.words[word]["schema"])
        values = [(it, True) for it in wrong] + [(it, False) for it in right]
        requests = [operation.request(OPENED_BY[name], words={word: it}) for it, _ in values]
        # An empty parameter does not exist: the path is another one.
        found += [f"{name}: {word} may be empty"] if schema.is_valid("") else []
        for (value, wanted), by_program in zip(values, malformed(requests)):
            if (not schema.is_valid(value), by_program) != (wanted, wanted):
                found += [f"{name}, {word} {value!r}: to be refused {wanted}, by the program {by_program}"]
    return found


def told(check):
    """Makes a check fail normally if the document lacks what the check looks for, or is not YAML."""

    def checked():
        try:
            return check()
        except (LookupError, TypeError, AttributeError, yaml.YAMLError, jsonschema.SchemaError) as error:
            return [repr(error)]

    return checked


CHECKS = {
    "openapi-document": is_document,
    "openapi-of-proxies": of_proxies,
    "openapi-examples": come_true,
    "openapi-drawn": answers_to_drawn_calls,
    "openapi-no-operation": others_denied,
    "openapi-scopes": scopes_open,
    "openapi-bounds": bounds_of_bodies,
    "openapi-responses": bounds_of_answers,
    "openapi-unsaid": beyond_schemas,
    "openapi-cells": tokens_of_cells,
    "openapi-path-parameters": words_of_paths,
}
CASES = {name: told(check) for name, check in CHECKS.items()}
