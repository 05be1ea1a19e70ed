"""Asks other USSs for their flights and constraints, at the addresses that the service shows."""
from __future__ import annotations

import json
import ssl
import threading
import urllib.parse
from typing import Callable, Dict, Optional

from .client import Known, Reference
from .errors import BadResponse, ProxyError, Unanswered, Unreachable
from .models import Intent
from .pool import NoResponse, NotSent, Pool


class Peers:
    """Reads details by the interface between USSs of ASTM F3548-21. `fetch` fits `Client.declare`.

    `token` returns the token for an address. Each USS chooses its address, so only https is followed, unless
    `allow_http` is set. No redirect is followed."""

    def __init__(
        self, token: Callable[[str], str], *, timeout: float = 10.0, tls: Optional[ssl.SSLContext] = None,
        allow_http: bool = False
    ) -> None:
        self._token, self._timeout, self._tls, self._allow_http = token, timeout, tls, allow_http
        self._lock = threading.Lock()
        self._pools: Dict[str, Pool] = {}

    def close(self) -> None:
        with self._lock:
            for it in self._pools.values():
                it.close()
            self._pools.clear()

    def fetch(self, reference: Reference) -> Known:
        """Returns the current OVN and the details of a reference. Raises `DssError`, and repeats nothing."""
        kind = "operational_intent" if isinstance(reference, Intent) else "constraint"
        url = reference.uss_base_url
        fields = {"Authorization": f"Bearer {self._token(url)}"}
        try:
            response = self._pool(url).exchange("GET", f"/uss/v1/{kind}s/{reference.id}", fields)
        except (NotSent, ValueError) as fault:
            raise Unreachable(f"{reference.manager} at {url}: {fault}") from fault
        except NoResponse as fault:
            raise Unanswered(f"{reference.manager} at {url}: {fault}") from fault
        if response.status != 200:
            raise ProxyError(response, False)
        try:
            found = json.loads(response.body)[kind]
            ovn = found["reference"]["ovn"]
            if not isinstance(ovn, str):
                raise TypeError("the OVN is no text")
            return Known(reference, ovn, found["details"])
        except (ValueError, TypeError, KeyError) as fault:
            raise BadResponse(f"{reference.manager} at {url}: {fault!r}") from fault

    def _pool(self, url: str) -> Pool:
        if not self._allow_http and urllib.parse.urlsplit(url).scheme != "https":
            raise ValueError("the address is not https")
        with self._lock:
            if url not in self._pools:
                self._pools[url] = Pool(url, connections=4, timeout=self._timeout, tls=self._tls)
            return self._pools[url]
