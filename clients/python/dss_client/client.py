"""The operations of the service, with retries, and the loop that completes a key."""
from __future__ import annotations

import dataclasses
import json
import random
import time
import uuid
import warnings
from ssl import SSLContext
from types import TracebackType
from typing import Any, Callable, Dict, Iterable, List, Optional, Sequence, Tuple, Type, TypeVar, Union

from . import models
from .errors import (
    BadResponse, Denial, DssError, IgnoredMembers, MissingKey, ProxyError, Unanswered, Unreachable, error_of)
from .models import (
    NO_SUBSCRIPTION, Area, Availability, AvailabilityPut, AvailabilityTold, Constraint, ConstraintChanged,
    ConstraintFound, ConstraintPut, ConstraintsListed, Intent, IntentChanged, IntentFound, IntentPut, IntentsListed,
    Query, Subscription, SubscriptionFound, SubscriptionPut, SubscriptionsListed, SubscriptionStored, Volume)
from .pool import NoResponse, NotSent, Pool

INTENTS, CONSTRAINTS = "/dss/v1/operational_intent_references", "/dss/v1/constraint_references"
SUBSCRIPTIONS, AVAILABILITY = "/dss/v1/subscriptions", "/dss/v1/uss_availability"

Model = TypeVar("Model")
Id = Union[str, uuid.UUID]
Reference = Union[Intent, Constraint]


@dataclasses.dataclass(frozen=True)
class Retry:
    """How often a request is sent, and the seconds between two tries, which double each time.

    A `Retry-After` of a proxy is obeyed up to `patience` seconds. Beyond that the error is raised at once. A change that
    is open is sent again for `settle` seconds, however many tries that are."""

    tries: int = 5
    first: float = 0.2
    longest: float = 5.0
    patience: float = 30.0
    settle: float = 60.0

    def pause(self, number: int, error: DssError) -> float:
        """Returns the seconds to wait after so many tries."""
        least = error.retry_after if isinstance(error, ProxyError) and error.retry_after is not None else 0.0
        return max(least, random.uniform(0.5, 1.0) * min(self.longest, self.first * 2.0 ** min(number - 1, 64)))


@dataclasses.dataclass(frozen=True)
class Known:
    """An intent or a constraint that a plan takes into account: its OVN, and what its manager says of it."""

    reference: Reference
    ovn: str
    details: Any = None


class Client:
    """Calls a service with one token. Any number of threads may share it.

    A request that fails for a time is sent again, unchanged. If the outcome of a change is open, since its response was lost
    or is `unknown`, the client settles it as docs/CLIENTS.md says under "Retrying requests". If it was made, the client reads
    the entity, and puts the same content again, because only the response to a put says whom to notify. So a change returns,
    or raises an error without `maybe_made`, only if its outcome is final. For that, the URL must lead to one instance.

    `token` is the bearer token, or a function that returns the present one."""

    def __init__(
        self, url: str, token: Union[str, Callable[[], str]], *, retry: Retry = Retry(), connections: int = 8,
        timeout: float = 30.0, tls: Optional[SSLContext] = None
    ) -> None:
        self._pool = Pool(url, connections=connections, timeout=timeout, tls=tls)
        self._token, self._retry = token, retry

    def __enter__(self) -> Client:
        return self

    def __exit__(
        self, kind: Optional[Type[BaseException]], error: Optional[BaseException], trace: Optional[TracebackType]
    ) -> None:
        self.close()

    def close(self) -> None:
        self._pool.close()

    # ---- operational intents

    def query_intents(self, area: Union[Area, Volume]) -> Sequence[Intent]:
        return self._query(INTENTS, area, IntentsListed).operational_intent_references

    def read_intent(self, id: Id) -> Intent:
        return self._call("GET", f"{INTENTS}/{id}", None, IntentFound).operational_intent_reference

    def put_intent(self, id: Id, put: IntentPut, over: Optional[Intent] = None) -> IntentChanged:
        """Creates an intent, or updates the version `over`. Raises `MissingKey` if the key is not complete."""
        try:
            return self._call("PUT", _path(INTENTS, id, _ovn(over)), put, IntentChanged)
        except Denial as denial:
            if not _may_be_done(denial, over):
                raise
            found = self.read_intent(id)
            if not _is_next(found, put, over) or (found.state, found.subscription_id) != (put.state, _referenced(put)):
                denial.maybe_made = _may_be_before(found, over)
                raise
        try:
            return self.put_intent(id, put, found)
        except MissingKey as missing:
            missing.over = missing.over or found
            raise

    def delete_intent(self, intent: Intent) -> Optional[IntentChanged]:
        """Deletes a version. Returns None if the response was lost: then nobody can be notified of the deletion."""
        return self._delete(_path(INTENTS, intent.id, _ovn(intent)), IntentChanged)

    def declare(
        self, id: Id, plan: Callable[[Sequence[Known]], IntentPut], fetch: Callable[[Reference], Known],
        over: Optional[Intent] = None, known: Iterable[Known] = (), rounds: int = 5
    ) -> IntentChanged:
        """Puts what `plan` returns, until its key is complete.

        `plan` receives all that is known in the area so far, and returns a put, to whose key the loop adds the OVNs.
        If it finds no way around the others, it raises an error of its own. `fetch` asks the manager of a reference for
        the OVN and the details: see `Peers`. It is not called for intents of the caller's USS, which show their OVN.

        Raises the last `MissingKey` after so many rounds, in each of which others changed what the plan meets."""
        if rounds < 1:
            raise ValueError("rounds must be 1 or more")
        held = {_name(it.reference): it for it in known}
        while True:
            put = plan(tuple(held.values()))
            key = dict.fromkeys([*(put.key or ()), *(it.ovn for it in held.values())])
            try:
                return self.put_intent(id, dataclasses.replace(put, key=tuple(key)), over)
            except MissingKey as missing:
                rounds, over = rounds - 1, missing.over or over
                if not rounds:
                    raise
                references: List[Reference] = [*missing.missing_operational_intents, *missing.missing_constraints]
            for it in references:
                held[_name(it)] = Known(it, it.ovn) if it.ovn else fetch(it)

    # ---- constraints

    def query_constraints(self, area: Union[Area, Volume]) -> Sequence[Constraint]:
        return self._query(CONSTRAINTS, area, ConstraintsListed).constraint_references

    def read_constraint(self, id: Id) -> Constraint:
        return self._call("GET", f"{CONSTRAINTS}/{id}", None, ConstraintFound).constraint_reference

    def put_constraint(self, id: Id, put: ConstraintPut, over: Optional[Constraint] = None) -> ConstraintChanged:
        """Creates a constraint, or updates the version `over`."""
        try:
            return self._call("PUT", _path(CONSTRAINTS, id, _ovn(over)), put, ConstraintChanged)
        except Denial as denial:
            if not _may_be_done(denial, over):
                raise
            found = self.read_constraint(id)
            if not _is_next(found, put, over):
                denial.maybe_made = _may_be_before(found, over)
                raise
        return self.put_constraint(id, put, found)

    def delete_constraint(self, constraint: Constraint) -> Optional[ConstraintChanged]:
        """Deletes a version. Returns None if the response was lost: then nobody can be notified of the deletion."""
        return self._delete(_path(CONSTRAINTS, constraint.id, _ovn(constraint)), ConstraintChanged)

    # ---- subscriptions

    def query_subscriptions(self, area: Union[Area, Volume]) -> Sequence[Subscription]:
        return self._query(SUBSCRIPTIONS, area, SubscriptionsListed).subscriptions

    def read_subscription(self, id: Id) -> Subscription:
        return self._call("GET", f"{SUBSCRIPTIONS}/{id}", None, SubscriptionFound).subscription

    def put_subscription(self, id: Id, put: SubscriptionPut, over: Optional[Subscription] = None) -> SubscriptionStored:
        """Creates a subscription, or updates the version `over`."""
        try:
            return self._call("PUT", _path(SUBSCRIPTIONS, id, over.version if over else None), put, SubscriptionStored)
        except Denial as denial:
            if not _may_be_done(denial, over):
                raise
            found = self._own_subscription(id)
            if found is None or not _has_content(found, put):
                denial.maybe_made = found is not None
                raise
        return self.put_subscription(id, put, found)

    def delete_subscription(self, subscription: Subscription) -> Optional[Subscription]:
        """Deletes a version that no intent references. Returns None if the response was lost."""
        found = self._delete(_path(SUBSCRIPTIONS, subscription.id, subscription.version), SubscriptionFound)
        return found.subscription if found else None

    def _own_subscription(self, id: Id) -> Optional[Subscription]:
        try:
            return self.read_subscription(id)
        except Denial as denial:
            if denial.rule == "P9":
                return None
            raise

    # ---- availability

    def read_availability(self, uss: str) -> AvailabilityTold:
        return self._call("GET", f"{AVAILABILITY}/{uss}", None, AvailabilityTold)

    def set_availability(
        self, uss: str, availability: Availability, over: Optional[AvailabilityTold] = None
    ) -> AvailabilityTold:
        """Sets the availability over the version that was read, or over none."""
        put = AvailabilityPut(availability, over.version if over else "")
        try:
            return self._call("PUT", f"{AVAILABILITY}/{uss}", put, AvailabilityTold)
        except Denial as denial:
            if not (denial.maybe_made and denial.rule == "P10"):
                raise
            found = self.read_availability(uss)
            if found.status.availability != availability:
                raise
            return found

    # ---- requests

    def request(self, method: str, path: str, body: Any = None) -> Any:
        """Sends a JSON value with the same retries, such as a body of the standard to the gateway.

        Warns of members that the service ignored, if it was started with `--explain`. Returns the value of the
        response. The `value` of a `Denial` has what is missing. The caller decides what a lost response means."""
        return self._call(method, path, body, object)

    def _query(self, kind: str, area: Union[Area, Volume], form: Type[Model]) -> Model:
        return self._call("POST", f"{kind}/query", Query(Area(**vars(area))), form)

    def _delete(self, path: str, form: Type[Model]) -> Optional[Model]:
        try:
            return self._call("DELETE", path, None, form)
        except Denial as denial:
            if denial.maybe_made and denial.rule == "P7":
                return None
            raise

    def _call(self, method: str, path: str, body: Any, form: Type[Model]) -> Model:
        """Sends a request until there is a response that is no transient failure, and at most `Retry.tries` times. Sends a
        change whose outcome is open for `Retry.settle` seconds."""
        data = None if body is None else json.dumps(models.encode(body)).encode()
        is_change = method in ("PUT", "DELETE")
        # until when a change that is open is sent again
        until: Optional[float] = None
        number = 0
        while True:
            number += 1
            try:
                return self._try(method, path, data, form)
            except DssError as error:
                error.maybe_made = is_change and (error.maybe_made or until is not None and not _was_not_made(error))
                if error.maybe_made and until is None:
                    until = time.monotonic() + self._retry.settle
                is_late = until is None or time.monotonic() >= until
                if not error.is_transient or number >= self._retry.tries and is_late:
                    raise
                pause = self._retry.pause(number, error)
                if pause > self._retry.patience:
                    raise
            time.sleep(pause)

    def _try(self, method: str, path: str, data: Optional[bytes], form: Type[Model]) -> Model:
        token = self._token if isinstance(self._token, str) else self._token()
        fields: Dict[str, str] = {"Authorization": f"Bearer {token}"}
        if data is not None:
            fields["Content-Type"] = "application/json"
        try:
            response = self._pool.exchange(method, path, fields, data)
        except NotSent as fault:
            raise Unreachable(str(fault)) from fault
        except NoResponse as fault:
            raise Unanswered(f"{method} {path.rpartition('/')[0]}: {fault}", True) from fault
        error = error_of(response)
        if error is not None:
            raise error
        ignored = response.fields.get("warning-ignored-members")
        if ignored:
            # for the caller of `request`, which sends a body of its own
            warnings.warn(f"the service ignored members of the body: {ignored}", IgnoredMembers, stacklevel=4)
        try:
            return models.decode(form, json.loads(response.body))
        except ValueError as fault:
            raise BadResponse(f"{response.status}: {fault}", True) from fault


def _path(kind: str, id: Id, version: Optional[str]) -> str:
    return f"{kind}/{id}" + (f"/{version}" if version else "")


def _ovn(reference: Optional[Reference]) -> Optional[str]:
    """Returns the OVN of a version that is to be changed, or None if there is none yet."""
    if reference is None:
        return None
    if reference.ovn is None:
        raise ValueError(f"{reference.manager} manages {reference.id}, and only it can change it")
    return reference.ovn


def _name(reference: Reference) -> Tuple[type, str]:
    """Intents and constraints have separate ids."""
    return type(reference), reference.id


# The denials that a request gets only if an earlier one, the same, was not made. The service evaluates them in the state, after
# those that the request gets if it was made: P7, P8 and P10.
_OF_STATE = frozenset(("P9", "P11", "P12", "P13", "P14", "P15", "P16", "P17"))


def _was_not_made(error: DssError) -> bool:
    """Returns True if the error shows that no earlier try of the request made the change."""
    return isinstance(error, Denial) and error.rule in _OF_STATE


def _may_be_done(denial: Denial, over: object) -> bool:
    """Returns True if the denial is what a second put gets if the first one was made and its response was lost."""
    return denial.maybe_made and denial.rule == ("P10" if over else "P8")


def _may_be_before(found: Reference, over: Optional[Reference]) -> bool:
    """Returns True if a put over a version, which is not the one that was found, may have been made before that one."""
    return found.ovn is not None and found.version > (over.version + 1 if over else 1)


def _is_next(found: Reference, put: Union[IntentPut, ConstraintPut], over: Optional[Reference]) -> bool:
    """Returns True if the caller's USS manages the reference, one version after `over`, with the content of the put."""
    times = min(it.time_start for it in put.extents), max(it.time_end for it in put.extents)
    shown = found.time_start, found.time_end
    is_version = found.version == (over.version + 1 if over else 1)
    return found.ovn is not None and is_version and shown == times and found.uss_base_url == put.uss_base_url


def _referenced(put: IntentPut) -> str:
    return (put.subscription_id or NO_SUBSCRIPTION).lower()


def _has_content(found: Subscription, put: SubscriptionPut) -> bool:
    flags = bool(put.notify_for_operational_intents), bool(put.notify_for_constraints)
    shown = found.notify_for_operational_intents, found.notify_for_constraints
    times = put.extents.time_start, put.extents.time_end
    return shown == flags and (found.time_start, found.time_end) == times and found.uss_base_url == put.uss_base_url
