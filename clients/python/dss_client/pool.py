"""Connections to one address, which any number of threads share."""
from __future__ import annotations

import collections
import dataclasses
import http.client
import select
import socket
import ssl
import threading
import time
import urllib.parse
from typing import Deque, Dict, Mapping, Optional, Tuple

# The service closes an idle connection after 75 seconds, and the proxies after 50.
MAX_IDLE = 40.0
MAX_BODY = 64 << 20


class NotSent(Exception):
    """No connection could be opened."""


class NoResponse(Exception):
    """The request was sent, perhaps in part, and no whole response came."""


@dataclasses.dataclass(frozen=True)
class Response:
    """A response. The names of its fields are in lower case."""

    status: int
    fields: Mapping[str, str]
    body: bytes


class Pool:
    """At most `connections` connections to the address of a URL, which stay open between requests.

    A further thread waits until a connection is free. A connection is closed if the response says so, as the service's
    hundredth one does, after `MAX_IDLE` seconds without a request, and after any failure."""

    def __init__(
        self, url: str, *, connections: int = 8, timeout: float = 30.0, tls: Optional[ssl.SSLContext] = None
    ) -> None:
        parts = urllib.parse.urlsplit(url)
        if parts.scheme not in ("http", "https") or not parts.hostname or parts.query or parts.fragment:
            raise ValueError(f"{url!r} is no http or https URL of a service")
        self._host, self._port, self._front = parts.hostname, parts.port, parts.path.rstrip("/")
        self._timeout = timeout
        self._tls = (tls or ssl.create_default_context()) if parts.scheme == "https" else None
        self._free = threading.BoundedSemaphore(connections)
        self._lock = threading.Lock()
        self._idle: Deque[Tuple[float, http.client.HTTPConnection]] = collections.deque()
        self._is_closed = False

    def close(self) -> None:
        """Closes the idle connections now, and those in use after their response."""
        with self._lock:
            self._is_closed = True
            idle = [it for _, it in self._idle]
            self._idle.clear()
        for it in idle:
            it.close()

    def exchange(self, method: str, path: str, fields: Mapping[str, str], body: Optional[bytes] = None) -> Response:
        """Sends a request once. Raises `NotSent` or `NoResponse`."""
        with self._free:
            connection = self._take()
            try:
                response, stays_open = self._exchange(connection, method, path, fields, body)
            except BaseException:
                # the response may still come on it
                connection.close()
                raise
            self._give_back(connection, stays_open)
            return response

    def _exchange(
        self, connection: http.client.HTTPConnection, method: str, path: str, fields: Mapping[str, str],
        body: Optional[bytes]
    ) -> Tuple[Response, bool]:
        if connection.sock is None:
            try:
                connection.connect()
            except OSError as fault:
                raise NotSent(f"{type(fault).__name__}: {fault}") from fault
        try:
            try:
                connection.request(method, self._front + path, body, dict(fields))
            except (BrokenPipeError, ConnectionResetError, ssl.SSLEOFError):
                # a proxy may respond to a large request before it has read all of it
                pass
            answer = connection.getresponse()
            closes = answer.will_close
            data = _body_of(answer)
        except (OSError, http.client.HTTPException) as fault:
            raise NoResponse(f"{type(fault).__name__}: {fault}") from fault
        found: Dict[str, str] = {name.lower(): value for name, value in answer.getheaders()}
        return Response(answer.status, found, data), not closes

    def _take(self) -> http.client.HTTPConnection:
        """Returns the idle connection that was used last, or a new one, not yet connected."""
        while True:
            with self._lock:
                if not self._idle:
                    break
                since, connection = self._idle.pop()
            if time.monotonic() - since < MAX_IDLE and not _has_ended(connection.sock):
                return connection
            connection.close()
        if self._tls is not None:
            return http.client.HTTPSConnection(self._host, self._port, timeout=self._timeout, context=self._tls)
        return http.client.HTTPConnection(self._host, self._port, timeout=self._timeout)

    def _give_back(self, connection: http.client.HTTPConnection, stays_open: bool) -> None:
        with self._lock:
            if stays_open and not self._is_closed:
                self._idle.append((time.monotonic(), connection))
                return
        connection.close()


def _body_of(answer: http.client.HTTPResponse) -> bytes:
    """Returns the whole body. Raises `NoResponse` if it is too long, and `IncompleteRead` if it is cut."""
    if answer.length is not None and answer.length <= MAX_BODY:
        # without an argument it notices that bytes are missing
        return answer.read()
    data = b""
    while answer.length is None and len(data) <= MAX_BODY:
        piece = answer.read(1 << 16)
        if not piece:
            return data
        data += piece
    raise NoResponse(f"the response has over {MAX_BODY} bytes")


def _has_ended(sock: Optional[socket.socket]) -> bool:
    """Returns True if an idle connection has something to read: its end, or bytes that belong to no request."""
    if sock is None:
        return True
    try:
        if hasattr(select, "poll"):
            poll = select.poll()
            poll.register(sock, select.POLLIN)
            return bool(poll.poll(0))
        return bool(select.select([sock], [], [], 0)[0])
    except (OSError, ValueError):
        return True
