"""Requests and responses as bytes, and their token file."""
import hashlib
import json

STRATEGIC = "utm.strategic_coordination"
MONITORING = "utm.conformance_monitoring_sa"
PROCESSING = "utm.constraint_processing"
MANAGEMENT = "utm.constraint_management"
ARBITRATION = "utm.availability_arbitration"

# The USSs and scopes of the worked examples, by token.
TOKENS = {
    "tok-a": ("uss-a", {STRATEGIC}),
    "tok-as": ("uss-a", {STRATEGIC, MONITORING}),
    "tok-b": ("uss-b", {STRATEGIC}),
    "tok-bm": ("uss-b", {MONITORING}),
    "tok-bc": ("uss-b", {STRATEGIC, PROCESSING}),
    "tok-c": ("uss-c", {MANAGEMENT}),
    "tok-v": ("uss-v", {ARBITRATION}),
    "tok-n": ("uss-n", set()),
}
SALT = "demo"

INTENTS = "/dss/v1/operational_intent_references"
CONSTRAINTS = "/dss/v1/constraint_references"
AVAILABILITY = "/dss/v1/uss_availability"
SUBSCRIPTIONS = "/dss/v1/subscriptions"

REASONS = {
    200: "OK",
    201: "Created",
    400: "Bad Request",
    401: "Unauthorized",
    403: "Forbidden",
    404: "Not Found",
    405: "Method Not Allowed",
    409: "Conflict",
    413: "Content Too Large",
    431: "Request Header Fields Too Large",
    500: "Internal Server Error",
    501: "Not Implemented",
    503: "Service Unavailable",
}

# A connection closes after this many requests.
MAX_REQUESTS = 100

# The responses of an instance of a pool that etcd did not answer in time. The call may be made, also later; it is never made.
UNKNOWN, UNREACHABLE = (503, b'{"message":"unknown"}'), (503, b'{"message":"unreachable"}')


def token_file(tokens=None, salt=SALT):
    """Returns the text of a token file."""
    lines = [f"salt = {json.dumps(salt)}"]
    for text, (uss, scopes) in (TOKENS if tokens is None else tokens).items():
        lines += ["", "[[token]]", f"text = {json.dumps(text)}", f"uss = {json.dumps(uss)}"]
        lines += [f"scopes = {json.dumps(sorted(scopes))}"]
    return "\n".join(lines) + "\n"


def ovn(serial, salt=SALT):
    """Returns the OVN of a serial."""
    return hashlib.sha256(f"dss-ovn|{salt}|{serial}".encode()).hexdigest()


def compact(value):
    """Returns the JSON text of a response."""
    return json.dumps(value, separators=(",", ":"), sort_keys=True, ensure_ascii=False)


def request(method, target, authorization=None, body=None, fields=()):
    """Returns a request that leaves its connection open, with the value of its Authorization field."""
    lines = [f"{method} {target} HTTP/1.1"]
    lines += [f"Authorization: {authorization}"] if authorization is not None else []
    lines += fields
    lines += [f"Content-Length: {len(body)}"] if body is not None else []
    return "\r\n".join([*lines, "", ""]).encode() + (body or b"")


def answer(status, body, fields=(), closes=False):
    """Returns a response with the text of its body."""
    lines = [f"HTTP/1.1 {status} {REASONS[status]}", "Content-Type: application/json"]
    lines += [f"Content-Length: {len(body.encode())}", *fields]
    lines += ["Connection: close"] if closes else []
    return "\r\n".join([*lines, "", body]).encode()


def answers_of(output):
    """Returns the responses of a stream, one after the other. What follows the last whole one is left out."""
    answers = []
    while output:
        head, mark, rest = output.partition(b"\r\n\r\n")
        lengths = [it for it in head.split(b"\r\n") if it.startswith(b"Content-Length: ")]
        if not mark or len(lengths) != 1:
            break
        length = int(lengths[0].partition(b": ")[2])
        if len(rest) < length:
            break
        answers.append(head + mark + rest[:length])
        output = rest[length:]
    return answers
