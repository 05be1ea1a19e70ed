"""Subscriptions, with the last notification index of each."""
from __future__ import annotations

import dataclasses
import threading
from typing import Any, Dict, Mapping, Optional, Sequence

from . import models
from .client import Client, Id
from .models import Constraint, Intent, Subscription, SubscriptionPut, SubscriptionStored, Volume


@dataclasses.dataclass(frozen=True)
class Tracked:
    """What is stored of a subscription: its last put, its version, and the last index."""

    subscription: Subscription
    extents: Volume
    index: int


@dataclasses.dataclass(frozen=True)
class Refresh:
    """What is in the volume of a subscription now. If the index fell, the operator restored a backup."""

    subscription: Subscription
    intents: Sequence[Intent]
    constraints: Sequence[Constraint]
    was_restored: bool


class Subscriptions:
    """The subscriptions of a USS. Any number of threads may share them.

    `stored` is what `state` returned before a restart."""

    def __init__(self, client: Client, stored: Optional[Mapping[str, Any]] = None) -> None:
        self._client, self._lock = client, threading.Lock()
        self._tracked: Dict[str, Tracked] = {id: models.decode(Tracked, it) for id, it in (stored or {}).items()}

    def state(self) -> Dict[str, Any]:
        """Returns what to store, as a JSON value. It is small: store it after each notification."""
        with self._lock:
            return {id: models.encode(it) for id, it in self._tracked.items()}

    def get(self, id: Id) -> Tracked:
        with self._lock:
            return self._tracked[str(id).lower()]

    def put(self, id: Id, put: SubscriptionPut) -> SubscriptionStored:
        """Creates a subscription, or updates it if it is tracked. The result has the references that it meets now."""
        name = str(id).lower()
        with self._lock:
            before = self._tracked.get(name)
        stored = self._client.put_subscription(id, put, before.subscription if before else None)
        self._track(stored.subscription, put.extents)
        return stored

    def delete(self, id: Id) -> None:
        """Deletes a subscription that no intent references."""
        self._client.delete_subscription(self.get(id).subscription)
        with self._lock:
            self._tracked.pop(str(id).lower(), None)

    def notified(self, id: Id, index: int) -> Optional[Refresh]:
        """Notes the index of a notification that came.

        Returns None if it is the next one, or the last one again. Otherwise a notification is lost or late, or the
        operator restored a backup: returns what is in the volume now. Raises `KeyError` if the id is not tracked."""
        name = str(id).lower()
        with self._lock:
            tracked = self._tracked[name]
            if index == tracked.index + 1:
                self._tracked[name] = dataclasses.replace(tracked, index=index)
            if index in (tracked.index, tracked.index + 1):
                return None
        return self.refresh(id)

    def refresh(self, id: Id) -> Refresh:
        """Returns what is in the volume, and continues from the index that the service has."""
        tracked = self.get(id)
        # The index is read first: a change between the two calls is then notified under a later index.
        found = self._client.read_subscription(id)
        intents = self._client.query_intents(tracked.extents) if found.notify_for_operational_intents else ()
        constraints = self._client.query_constraints(tracked.extents) if found.notify_for_constraints else ()
        self._track(found, tracked.extents)
        return Refresh(found, intents, constraints, found.notification_index < tracked.index)

    def _track(self, found: Subscription, extents: Volume) -> None:
        with self._lock:
            self._tracked[found.id] = Tracked(found, extents, found.notification_index)
