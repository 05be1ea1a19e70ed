"""Streams of requests with their expected responses, and the bodies that they are made of."""
import dataclasses
import json

import wire
from wire import INTENTS

NOW = 1000
ID = "00000000-0000-4000-8000-0000000000A1"
OVN = "0123456789abcdef"
NO_SUBSCRIPTION = "00000000-0000-4000-8000-000000000000"
V1 = '{"cells":["89c25904"],"altitude_lower":0,"altitude_upper":1200,"time_start":900,"time_end":2000}'

MALFORMED = (400, '{"message":"P5 FORM"}')
TOO_LARGE = (413, '{"message":"P6 AREA"}')
NOT_FOUND = (404, '{"message":"P7 FOUND"}')
NOTHING_LISTED = (200, '{"operational_intent_references":[]}')


@dataclasses.dataclass
class Scene:
    """Requests, one after the other in a stream, and the expected responses."""

    name: str
    requests: list
    wanted: list
    tokens: str = None
    serial: int = 0

    def ask(self, wanted, method, target, token, body=None):
        self.requests.append(wire.request(method, target, f"Bearer {token}", None if body is None else body.encode()))
        self.wanted.append(wanted)

    def created(self, body, path=INTENTS, token="tok-a", times=(900, 2000), state="Accepted", url="u"):
        """Adds an expected creation, and the deletion after it, so that nothing stays stored."""
        self.serial += 2
        kept = wire.ovn(self.serial - 1)
        uss = wire.TOKENS[token][0]
        seen = {"id": ID.lower(), "manager": uss, "ovn": kept, "time_end": times[1], "time_start": times[0]}
        seen |= {"uss_availability": "Unknown", "uss_base_url": url, "version": 1}
        name = "constraint_reference"
        if path == INTENTS:
            seen |= {"state": state, "subscription_id": NO_SUBSCRIPTION}
            name = "operational_intent_reference"
        text = wire.compact({name: seen, "subscribers": []})
        self.ask((201, text), "PUT", f"{path}/{ID}", token, body)
        self.ask((200, text), "DELETE", f"{path}/{ID}/{kept}", token)

    def refused(self, body, path=INTENTS, token="tok-a", wanted=MALFORMED):
        self.ask(wanted, "PUT", f"{path}/{ID}", token, body)

    def query(self, wanted, area):
        body = f'{{"area_of_interest":{area}}}'
        self.ask(wanted, "POST", f"{INTENTS}/query", "tok-b", body)


def put(extents=V1, more=',"state":"Accepted"', url="u"):
    return f'{{"extents":[{extents}]{more},"uss_base_url":"{url}"}}'


def volume(cells='["89c25904"]', altitudes=(0, 1200), times=(900, 2000)):
    low, high = altitudes
    start, end = times
    return (
        f'{{"cells":{cells},"altitude_lower":{low},"altitude_upper":{high},"time_start":{start},"time_end":{end}}}'
    )


def area(cells='["89c25904"]', **bounds):
    return f'{{"cells":{cells}' + "".join(f',"{name}":{value}' for name, value in bounds.items()) + "}"


def cells(count, token="89c25904"):
    return json.dumps([token] * count)
