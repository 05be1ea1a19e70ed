"""A client of the dss discovery and synchronization service. docs/CLIENTS.md explains the interface."""
from .client import Client, Id, Known, Reference, Retry
from .errors import (
    BadResponse, Denial, DssError, Failure, Fault, IgnoredMembers, LogUnreachable, MissingKey, ProxyError, ResponseError,
    Stopped, Unanswered, Unassigned, UnknownOutcome, Unreachable)
from .models import (
    NO_SUBSCRIPTION, Area, Availability, AvailabilityTold, Constraint, ConstraintChanged, ConstraintPut, Intent,
    IntentChanged, IntentPut, State, Subscriber, Subscription, SubscriptionIndex, SubscriptionPut,
    SubscriptionStored, Volume)
from .peers import Peers
from .subscriptions import Refresh, Subscriptions, Tracked

__all__ = [
    "NO_SUBSCRIPTION", "Area", "Availability", "AvailabilityTold", "BadResponse", "Client", "Constraint",
    "ConstraintChanged", "ConstraintPut", "Denial", "DssError", "Failure", "Fault", "Id", "IgnoredMembers", "Intent",
    "IntentChanged", "IntentPut", "Known", "LogUnreachable", "MissingKey", "Peers", "ProxyError", "Reference", "Refresh",
    "ResponseError", "Retry", "State", "Stopped", "Subscriber", "Subscription", "SubscriptionIndex",
    "SubscriptionPut", "SubscriptionStored", "Subscriptions", "Tracked", "Unanswered", "Unassigned", "UnknownOutcome",
    "Unreachable", "Volume",
]
