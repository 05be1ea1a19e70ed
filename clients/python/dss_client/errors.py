"""What a call raises. `maybe_made` says whether the change may have been made."""
from __future__ import annotations

import json
import re
from typing import Any, Dict, Optional, Sequence, Type

from .models import BadForm, Constraint, Intent, KeyMissing, decode
from .pool import Response
from .responses import MESSAGES

# The gateway says after the rule what to do.
RULE = re.compile(r"([PH]\d+) ([A-Z]+)(?:: .*)?")
# How many texts of an explanation the text of an error has.
MOST_SHOWN = 5
# A proxy sends these before it forwards a request: at its rate limit, and if the request took too long to arrive.
NOT_FORWARDED = (408, 429)


class IgnoredMembers(UserWarning):
    """The service ignored members of the body of a successful request, which may be misspelt."""


class DssError(Exception):
    """A call failed. `is_transient` says whether the same request may succeed later."""

    is_transient = False

    def __init__(self, what: str, maybe_made: bool = False) -> None:
        super().__init__(what)
        self.maybe_made = maybe_made


class Unreachable(DssError):
    """No connection could be opened. The request was not sent."""

    is_transient = True


class Unanswered(DssError):
    """The connection ended or timed out before a response. A change was made, or it was not."""

    is_transient = True


class BadResponse(DssError):
    """A response of success has another form than docs/openapi.yaml says."""


class ResponseError(DssError):
    """A response has a status of failure."""

    def __init__(self, what: str, response: Response, maybe_made: bool = False) -> None:
        super().__init__(f"{response.status} {what}", maybe_made)
        self.status, self.body = response.status, response.body


class Denial(ResponseError):
    """The service denied the request and changed nothing. `rule` is such as `P8`, and `message` such as `P8 FRESH`.

    `explanation` says what is wrong with the request, if the service was started with `--explain`. `value` is the whole
    body. The gateway has messages of its own, whose `rule` is empty. `maybe_made` is True if an earlier try of the same
    request left the change open, and this denial does not show that it was not made."""

    def __init__(self, message: str, response: Response, value: Any) -> None:
        self.explanation: Sequence[str] = _texts(value)
        super().__init__(_with_explanation(message, self.explanation), response)
        found = RULE.fullmatch(message)
        self.message, self.rule, self.value = message, found[1] if found else "", value


class MissingKey(Denial):
    """`P14 KEY`: the key lacks the current OVN of these references.

    `over` is set if the response to the put was lost, the put was made, and it was repeated to find whom to notify. The
    stored intent is then `over`, and the next put is an update of it."""

    def __init__(self, body: KeyMissing, response: Response, value: Any) -> None:
        super().__init__(body.message, response, value)
        self.missing_operational_intents: Sequence[Intent] = body.missing_operational_intents
        self.missing_constraints: Sequence[Constraint] = body.missing_constraints
        self.over: Optional[Intent] = None


class Failure(ResponseError):
    """The service failed, as the table in docs/CLIENTS.md (Retrying requests) says."""

    def __init__(self, message: str, response: Response) -> None:
        super().__init__(message, response, MESSAGES[message][1])


class Fault(Failure):
    """The service failed and changed nothing. At its quota a USS must delete something first."""

    is_transient = True


class Stopped(Failure):
    """The service cannot tell what it stores. After its restart, settle the change: send it again."""


class LogUnreachable(Failure):
    """503 `unreachable`: the instance of a pool did not reach the log in time. Nothing was changed."""

    is_transient = True


class UnknownOutcome(Failure):
    """503 `unknown`: the change was made, will be made, or will not be. The client has sent it again for `Retry.settle` seconds.

    Settle it at the same instance, or as docs/CLIENTS.md says for another one."""

    is_transient = True


class Unassigned(Failure):
    """503 `unassigned`: the organization of the instance may not act for this USS. Use an instance of another one."""


FAILURES: Dict[str, Type[Failure]] = {
    "fault": Fault, "stopped": Stopped, "unreachable": LogUnreachable, "unknown": UnknownOutcome, "unassigned": Unassigned,
}


class ProxyError(ResponseError):
    """Something in front of the service responded. `retry_after` is in seconds, if the response has it."""

    def __init__(self, response: Response, maybe_made: bool) -> None:
        super().__init__("from a proxy", response, maybe_made)
        self.is_transient = response.status in NOT_FORWARDED or response.status >= 500
        after = response.fields.get("retry-after", "")
        self.retry_after = float(after) if re.fullmatch(r"\d{1,6}", after) else None


# How the message of a proxy's own response begins, with the configurations in deploy.
OF_PROXY = "proxy: "


def error_of(response: Response) -> Optional[ResponseError]:
    """Returns the error of a response, or None if its status is one of success."""
    if response.status in (200, 201):
        return None
    value = _json(response.body)
    message = value.get("message") if isinstance(value, dict) else None
    if not isinstance(message, str):
        return ProxyError(response, response.status >= 500)
    if message.startswith(OF_PROXY):
        # With another message than those in deploy, 429, 503 and every 4xx, too, say that the proxy did not pass the request on.
        return ProxyError(response, MESSAGES[message][1] if message in MESSAGES else response.status in (502, 504))
    # the gateway says after the name what to do
    name = message.partition(":")[0]
    if name in FAILURES and response.status == MESSAGES[name][0]:
        return FAILURES[name](name, response)
    if message == "P14 KEY":
        try:
            return MissingKey(decode(KeyMissing, value), response, value)
        except BadForm:
            # the gateway lists references in the form of the standard
            return Denial(message, response, value)
    if RULE.fullmatch(message) or 400 <= response.status < 500 and response.status not in NOT_FORWARDED:
        return Denial(message, response, value)
    return ProxyError(response, response.status >= 500)


def _texts(value: Any) -> Sequence[str]:
    """Returns the texts of the explanation in a body."""
    found = value.get("explanation") if isinstance(value, dict) else None
    return tuple(it for it in found if isinstance(it, str)) if isinstance(found, list) else ()


def _with_explanation(message: str, explanation: Sequence[str]) -> str:
    """Returns a message with the first texts of its explanation."""
    more = ("..",) if len(explanation) > MOST_SHOWN else ()
    shown = "; ".join([*explanation[:MOST_SHOWN], *more])
    return f"{message} ({shown})" if shown else message


def _json(body: bytes) -> Any:
    try:
        return json.loads(body)
    except ValueError:
        return None
