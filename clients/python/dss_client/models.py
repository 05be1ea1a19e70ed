"""The bodies of requests and responses. Each class has the name and the members of its schema in docs/openapi.yaml."""
from __future__ import annotations

import collections.abc
import dataclasses
import functools
from typing import (
    Any, Dict, Literal, Optional, Sequence, Type, TypeVar, Union, cast, get_args, get_origin, get_type_hints)

State = Literal["Accepted", "Activated", "Nonconforming", "Contingent"]
Availability = Literal["Unknown", "Normal", "Down"]

# A reference shows this id if its intent references no subscription.
NO_SUBSCRIPTION = "00000000-0000-4000-8000-000000000000"

Model = TypeVar("Model")


class BadForm(ValueError):
    """A value has another form than its class."""


@dataclasses.dataclass(frozen=True)
class Volume:
    """S2 cells of level 13 or coarser, whole decimetres, and whole Unix seconds. All ranges include both ends."""

    cells: Sequence[str]
    altitude_lower: int
    altitude_upper: int
    time_start: int
    time_end: int


@dataclasses.dataclass(frozen=True)
class Area:
    """A volume whose bounds are optional."""

    cells: Sequence[str]
    altitude_lower: Optional[int] = None
    altitude_upper: Optional[int] = None
    time_start: Optional[int] = None
    time_end: Optional[int] = None


@dataclasses.dataclass(frozen=True)
class Query:
    """The body of a query."""

    area_of_interest: Area


@dataclasses.dataclass(frozen=True)
class IntentPut:
    """The body that creates or updates an operational intent. An update without `subscription_id` references none."""

    extents: Sequence[Volume]
    state: State
    uss_base_url: str
    key: Optional[Sequence[str]] = None
    subscription_id: Optional[str] = None


@dataclasses.dataclass(frozen=True)
class ConstraintPut:
    """The body that creates or updates a constraint."""

    extents: Sequence[Volume]
    uss_base_url: str


@dataclasses.dataclass(frozen=True)
class SubscriptionPut:
    """The body that creates or updates a subscription. At least one of the flags must be true."""

    extents: Volume
    uss_base_url: str
    notify_for_operational_intents: Optional[bool] = None
    notify_for_constraints: Optional[bool] = None


@dataclasses.dataclass(frozen=True)
class AvailabilityPut:
    """The body that sets the availability of a USS, with the version that it replaces."""

    availability: Availability
    old_version: Optional[str] = None


@dataclasses.dataclass(frozen=True)
class Intent:
    """The reference of an operational intent. It has an OVN only if the caller's USS manages the intent."""

    id: str
    manager: str
    state: State
    subscription_id: str
    time_end: int
    time_start: int
    uss_availability: Availability
    uss_base_url: str
    version: int
    ovn: Optional[str] = None


@dataclasses.dataclass(frozen=True)
class Constraint:
    """The reference of a constraint. It has an OVN only if the caller's USS manages the constraint."""

    id: str
    manager: str
    time_end: int
    time_start: int
    uss_availability: Availability
    uss_base_url: str
    version: int
    ovn: Optional[str] = None


@dataclasses.dataclass(frozen=True)
class SubscriptionIndex:
    """A subscription that a change notifies, with its new index."""

    notification_index: int
    subscription_id: str


@dataclasses.dataclass(frozen=True)
class Subscriber:
    """An address that the caller of a change must notify."""

    subscriptions: Sequence[SubscriptionIndex]
    uss_base_url: str


@dataclasses.dataclass(frozen=True)
class IntentFound:
    operational_intent_reference: Intent


@dataclasses.dataclass(frozen=True)
class IntentChanged:
    """The intent after a change, or before its deletion, and whom to notify."""

    operational_intent_reference: Intent
    subscribers: Sequence[Subscriber]


@dataclasses.dataclass(frozen=True)
class IntentsListed:
    operational_intent_references: Sequence[Intent]


@dataclasses.dataclass(frozen=True)
class ConstraintFound:
    constraint_reference: Constraint


@dataclasses.dataclass(frozen=True)
class ConstraintChanged:
    """The constraint after a change, or before its deletion, and whom to notify."""

    constraint_reference: Constraint
    subscribers: Sequence[Subscriber]


@dataclasses.dataclass(frozen=True)
class ConstraintsListed:
    constraint_references: Sequence[Constraint]


@dataclasses.dataclass(frozen=True)
class Subscription:
    """A subscription as its manager sees it, without its cells and altitudes."""

    dependent_operational_intents: Sequence[str]
    id: str
    implicit_subscription: bool
    notification_index: int
    notify_for_constraints: bool
    notify_for_operational_intents: bool
    time_end: int
    time_start: int
    uss_base_url: str
    version: str


@dataclasses.dataclass(frozen=True)
class SubscriptionStored:
    """The subscription after a put, and the references that it is for and meets now."""

    constraint_references: Sequence[Constraint]
    operational_intent_references: Sequence[Intent]
    subscription: Subscription


@dataclasses.dataclass(frozen=True)
class SubscriptionFound:
    subscription: Subscription


@dataclasses.dataclass(frozen=True)
class SubscriptionsListed:
    subscriptions: Sequence[Subscription]


@dataclasses.dataclass(frozen=True)
class AvailabilityStatus:
    availability: Availability
    uss: str


@dataclasses.dataclass(frozen=True)
class AvailabilityTold:
    """The availability of a USS. The version is empty if none was set."""

    status: AvailabilityStatus
    version: str


@dataclasses.dataclass(frozen=True)
class Denied:
    """The body of a denial. A service with `--explain` says what is wrong with the request."""

    message: str
    explanation: Optional[Sequence[str]] = None


@dataclasses.dataclass(frozen=True)
class FromProxy:
    """The body of a response that is not of the service but of a proxy in front of it."""

    message: str


@dataclasses.dataclass(frozen=True)
class KeyMissing:
    """The body of `P14 KEY`, with all references whose OVN is missing in the key."""

    message: str
    missing_constraints: Sequence[Constraint]
    missing_operational_intents: Sequence[Intent]


def encode(value: Any) -> Any:
    """Returns the JSON value of a model. Members that are None are left out."""
    if dataclasses.is_dataclass(value) and not isinstance(value, type):
        members = ((it.name, getattr(value, it.name)) for it in dataclasses.fields(value))
        return {name: encode(it) for name, it in members if it is not None}
    if isinstance(value, (list, tuple)):
        return [encode(it) for it in value]
    return value


def decode(kind: Type[Model], value: object) -> Model:
    """Returns the model of a JSON value. Ignores members that the class does not have. Raises `BadForm`."""
    return cast(Model, _decode(kind, value, "the body"))


@functools.lru_cache(maxsize=None)
def _members(kind: Any) -> Dict[str, Any]:
    return get_type_hints(kind)


def _decode(kind: Any, value: Any, at: str) -> Any:
    origin = get_origin(kind)
    if kind is object:
        return value
    if origin is Union:
        return None if value is None else _decode(get_args(kind)[0], value, at)
    if origin is Literal:
        return _checked(value in get_args(kind), value, at)
    if origin is collections.abc.Sequence:
        _checked(isinstance(value, list), value, at)
        return tuple(_decode(get_args(kind)[0], it, f"{at}[{number}]") for number, it in enumerate(value))
    if dataclasses.is_dataclass(kind):
        _checked(isinstance(value, dict), value, at)
        found = {}
        for it in dataclasses.fields(kind):
            if it.name in value:
                found[it.name] = _decode(_members(kind)[it.name], value[it.name], f"{at}.{it.name}")
            elif it.default is dataclasses.MISSING:
                raise BadForm(f"{at} lacks {it.name}")
        return cast(Any, kind)(**found)
    # a bool is an int, but not in JSON
    return _checked(type(value) is kind, value, at)


def _checked(holds: bool, value: Any, at: str) -> Any:
    if not holds:
        raise BadForm(f"{at} is {value!r:.60}")
    return value
