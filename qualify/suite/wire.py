"""Requests to the service under test, and its responses.

It uses one connection at a time to each URL, and never exceeds the permitted rate, number and duration."""
import contextlib
import dataclasses
import http.client
import json
import socket
import ssl
import threading
import time
import urllib.parse

# The requests, the idle seconds and the seconds after which a connection is closed. The service closes one later, so
# that no request is sent while it closes.
MAX_ON_ONE, MAX_IDLE, MAX_OPEN = 90, 1.0, 30.0
PATIENCE = 30.0
# Seconds for cleaning up, in addition to the permitted ones.
GRACE = 60.0


class OutOfBounds(Exception):
    """The error that the permitted number of requests, or the permitted time, is used up."""


@dataclasses.dataclass
class Exchange:
    """A request and its caller, the response, and what was expected of it."""

    who: str
    method: str
    path: str
    body: object = None
    status: int = None
    fields: dict = dataclasses.field(default_factory=dict)
    text: str = ""
    value: object = None
    # Sentences, each with whether it held.
    expected: list = dataclasses.field(default_factory=list)
    # The number of the request on its connection, if that matters.
    number: int = None
    # The base URL that it was sent to.
    url: str = ""

    def take(self, status, fields, text):
        self.status, self.text = status, text
        self.fields = {name.lower(): it for name, it in fields}
        with contextlib.suppress(ValueError):
            self.value = json.loads(text) if text else None

    def fail(self, why):
        self.text = f"no response: {why}"


class Pace:
    """When the next request may be sent, and whether one may be."""

    def __init__(self, rate, max_requests, max_seconds):
        self.step, self.left, self.until = 1 / rate, max_requests, time.monotonic() + max_seconds
        self.next, self.lock, self.sent = 0.0, threading.Lock(), 0
        # Requests that are reserved for cleaning up.
        self.reserve = 0

    def wait(self, is_cleaning=False):
        with self.lock:
            reserve = 0 if is_cleaning else self.reserve
            if self.left <= reserve:
                raise OutOfBounds("the limit of --requests is reached")
            if time.monotonic() > self.until + (GRACE if is_cleaning else 0):
                raise OutOfBounds("the limit of --seconds is reached")
            self.left, self.sent = self.left - 1, self.sent + 1
            now = time.monotonic()
            at = self.next = max(now, self.next + self.step)
        time.sleep(max(0.0, at - now))

    def hold(self, steps):
        """Sends nothing for that many steps, after requests that were sent at once."""
        with self.lock:
            self.next = time.monotonic() + steps * self.step


class Client:
    """Sends requests to a service. A connection stays open for the next request, and is closed before another is
    opened."""

    def __init__(self, url, pace, ca=None):
        parts = urllib.parse.urlsplit(url)
        if parts.scheme not in ("http", "https") or not parts.hostname:
            raise ValueError(f"--url {url}: no URL of HTTP or HTTPS")
        self.url = url
        self.is_tls, self.host, self.port = parts.scheme == "https", parts.hostname, parts.port
        self.front = parts.path.rstrip("/")
        self.context = ssl.create_default_context(cafile=ca) if self.is_tls else None
        self.pace, self.is_cleaning = pace, False
        self.kept, self.count, self.opened, self.used = None, 0, 0.0, 0.0

    def open(self):
        if self.is_tls:
            return http.client.HTTPSConnection(self.host, self.port, timeout=PATIENCE, context=self.context)
        return http.client.HTTPConnection(self.host, self.port, timeout=PATIENCE)

    def close(self):
        if self.kept:
            self.kept.close()
        self.kept = None

    def connection(self):
        """Returns the open connection, or a new one."""
        now = time.monotonic()
        is_old = self.count >= MAX_ON_ONE or now - self.used > MAX_IDLE or now - self.opened > MAX_OPEN
        if self.kept and is_old:
            self.close()
        if not self.kept:
            self.kept, self.count, self.opened = self.open(), 0, now
        self.count, self.used = self.count + 1, now
        return self.kept

    def send(self, connection, caller, exchange, fields=None):
        body = exchange.body
        if body is not None and not isinstance(body, (str, bytes)):
            body = json.dumps(body)
        named = {"Authorization": f"Bearer {caller.token}"} if caller and caller.token else {}
        if body is not None:
            named["Content-Type"] = "application/json"
        data = body.encode() if isinstance(body, str) else body
        connection.request(exchange.method, self.front + exchange.path, data, named | (fields or {}))

    def exchange(self, caller, method, path, body=None, number=None):
        """Returns an exchange that has no response yet."""
        return Exchange(caller.name if caller else "nobody", method, path, body, number=number, url=self.url)

    def ask(self, caller, method, path, body=None, fields=None):
        """Sends one request and returns the exchange."""
        self.pace.wait(self.is_cleaning)
        exchange = self.exchange(caller, method, path, body)
        try:
            connection = self.connection()
            self.send(connection, caller, exchange, fields)
            answer = connection.getresponse()
            exchange.take(answer.status, answer.getheaders(), answer.read().decode("utf-8", "replace"))
            if answer.will_close:
                self.close()
        except (OSError, http.client.HTTPException) as fault:
            self.close()
            exchange.fail(f"{type(fault).__name__}: {fault}")
        except KeyboardInterrupt:
            # Its response has not arrived yet.
            self.close()
            raise
        return exchange

    def lose(self, caller, method, path, body=None):
        """Sends a request, waits until a response begins to arrive, and disconnects."""
        self.close()
        self.pace.wait(self.is_cleaning)
        exchange = self.exchange(caller, method, path, body)
        connection = self.open()
        with contextlib.closing(connection):
            try:
                self.send(connection, caller, exchange, {"Connection": "close"})
                connection.sock.recv(1)
            except (OSError, http.client.HTTPException) as fault:
                exchange.fail(f"{type(fault).__name__}: {fault}")
                return exchange
        exchange.text = "the answer was not read"
        return exchange

    def pipelined(self, caller, asked):
        """The exchanges of requests (method, path, body) on one connection, each sent before the answer to the one before is read. The
        last two are sent together. Those that are not answered have no status."""
        self.close()
        exchanges = [self.exchange(caller, *it, number=number) for number, it in enumerate(asked, 1)]
        try:
            with self.socket() as connection, connection.makefile("rb") as reader:
                with contextlib.suppress(OSError):
                    for exchange in exchanges:
                        self.pace.wait(self.is_cleaning)
                        if exchange is exchanges[-2]:
                            data = self.written(caller, exchange)
                            continue
                        connection.sendall((data if exchange is exchanges[-1] else b"") + self.written(caller, exchange))
                for exchange in exchanges:
                    take_next(reader, exchange)
        except (OSError, ValueError) as fault:
            next(it for it in exchanges if it.status is None).fail(f"{type(fault).__name__}: {fault}")
        return exchanges

    def written(self, caller, exchange):
        """The bytes of a request that leaves its connection open."""
        body = b"" if exchange.body is None else json.dumps(exchange.body).encode()
        lines = [f"{exchange.method} {self.front}{exchange.path} HTTP/1.1", f"Host: {self.host}", f"Authorization: Bearer {caller.token}"]
        return "\r\n".join([*lines, f"Content-Length: {len(body)}", "", ""]).encode() + body

    @contextlib.contextmanager
    def socket(self):
        with socket.create_connection((self.host, self.port or (443 if self.is_tls else 80)), PATIENCE) as plain:
            with self.context.wrap_socket(plain, server_hostname=self.host) if self.is_tls else plain as connection:
                yield connection

    def many(self, caller, method, path, count):
        """Returns the exchanges of that many requests on one new connection, up to the response that closes it."""
        self.close()
        with contextlib.closing(self.open()) as connection:
            for number in range(1, count + 1):
                self.pace.wait(self.is_cleaning)
                exchange = self.exchange(caller, method, path, number=number)
                try:
                    self.send(connection, caller, exchange)
                    answer = connection.getresponse()
                    exchange.take(answer.status, answer.getheaders(), answer.read().decode("utf-8", "replace"))
                    is_last = answer.will_close
                except (OSError, http.client.HTTPException) as fault:
                    exchange.fail(f"{type(fault).__name__}: {fault}")
                    is_last = True
                yield exchange
                if is_last:
                    return

    def raw(self, caller, head, body=b""):
        """Returns the exchange of a raw head, line by line, and the bytes after it, on a separate connection."""
        self.close()
        self.pace.wait(self.is_cleaning)
        method, path, *_ = [*head[0].split(" "), ""]
        exchange = self.exchange(caller, method, path, "; ".join(it[:100] for it in head[1:]) or None)
        named = [f"Authorization: Bearer {caller.token}"] if caller else []
        first = head[0].replace("/dss/", f"{self.front}/dss/", 1)
        data = "\r\n".join([first, f"Host: {self.host}", *named, *head[1:], "", ""]).encode() + body
        try:
            with self.socket() as connection:
                connection.sendall(data)
                answer = http.client.HTTPResponse(connection, method=method)
                with contextlib.closing(answer):
                    answer.begin()
                    exchange.take(answer.status, answer.getheaders(), answer.read().decode("utf-8", "replace"))
        except (OSError, http.client.HTTPException) as fault:
            exchange.fail(f"{type(fault).__name__}: {fault}")
        return exchange


def at_once(pace, asked):
    """Returns the exchanges of requests that are sent at once, each (client, caller, method, path, body) on a connection
    of its own."""
    for client, *_ in asked:
        client.close()
        pace.wait(client.is_cleaning)
    exchanges = [client.exchange(*words) for client, *words in asked]
    start = threading.Barrier(len(asked))

    def one(client, caller, exchange):
        with contextlib.closing(client.open()) as connection:
            try:
                start.wait()
                client.send(connection, caller, exchange, {"Connection": "close"})
                answer = connection.getresponse()
                exchange.take(answer.status, answer.getheaders(), answer.read().decode("utf-8", "replace"))
            except (OSError, http.client.HTTPException) as fault:
                exchange.fail(f"{type(fault).__name__}: {fault}")

    threads = [threading.Thread(target=one, args=(*it[:2], exchange)) for it, exchange in zip(asked, exchanges)]
    try:
        for it in threads:
            it.start()
    finally:
        # Also if the run is interrupted, so that sent requests are done before it cleans up.
        for it in threads:
            if it.ident:
                it.join()
    pace.hold(len(asked) - 1)
    return exchanges


def take_next(reader, exchange):
    """The next answer of a connection. That to HEAD may have the body that its head announces, or none."""
    lines = []
    while (line := reader.readline()) != b"\r\n":
        if not line:
            raise ValueError("the connection has ended")
        lines.append(line.decode("latin-1").rstrip("\r\n"))
    fields = [tuple(text.strip() for text in line.partition(":")[::2]) for line in lines[1:]]
    length = next((int(value) for name, value in fields if name.lower() == "content-length"), 0)
    has_body = exchange.method != "HEAD" or not reader.peek(1).startswith(b"H")
    body = reader.read(length) if has_body else b""
    exchange.take(int(lines[0].split()[1]), fields, body.decode("utf-8", "replace"))
