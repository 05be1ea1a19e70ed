"""The environment of the cases: processes, signed tokens, requests, and expected responses."""
import contextlib
import http.client
import json
import os
import pathlib
import re
import shutil
import signal
import socket
import subprocess
import sys
import tempfile
import threading
import time
import uuid

import jwt
from cryptography.hazmat.primitives import serialization
from cryptography.hazmat.primitives.asymmetric import rsa

TOP = pathlib.Path(__file__).resolve().parents[2]
# Ports that no other test and no connection takes before something listens there.
sys.path.append(str(TOP / "tests" / "shared"))
import conforms
from ports import free_port

ISSUER, AUDIENCE = "auth.example", "dss.example"
SUPPLIERS = ["uss-a", "uss-b", "uss-c", "uss-v", "uss-d client@example"]
STRATEGIC, PROCESSING, MANAGEMENT = "utm.strategic_coordination", "utm.constraint_processing", "utm.constraint_management"
MONITORING, ARBITRATION = "utm.conformance_monitoring_sa", "utm.availability_arbitration"
# Connections to the service that gateways keep open, unless a case says otherwise.
KEPT = os.environ.get("KEPT", "16")
ZERO = "00000000-0000-4000-8000-000000000000"
FRONT = "/dss/v1/"
INTENTS, CONSTRAINTS, SUBSCRIPTIONS = (FRONT + it for it in ("operational_intent_references", "constraint_references", "subscriptions"))


RUNNING = []
# The ports of services that are real, whose responses docs/openapi.yaml has.
REAL = set()


def started(words, **more):
    """Starts a process that ends with its case, also if that fails."""
    RUNNING.append(subprocess.Popen(words, stdout=subprocess.DEVNULL, **more))
    return RUNNING[-1]


def end_all():
    for it in RUNNING:
        it.kill()
        it.wait()
    RUNNING.clear()


def until(holds, seconds=120):
    """Waits until something holds, on a busy machine too. Returns whether it does."""
    end = time.monotonic() + seconds
    while not (held := holds()) and time.monotonic() < end:
        time.sleep(0.02)
    return held


def wait_for(place):
    """Waits until something listens on a port, or at a path."""
    for _ in range(4000):
        with contextlib.suppress(OSError), socket.socket(socket.AF_UNIX if isinstance(place, str) else socket.AF_INET) as it:
            it.connect(place if isinstance(place, str) else ("127.0.0.1", place))
            return
        time.sleep(0.025)
    raise AssertionError(f"nothing listens on {place}")


def key_pair(bits=2048):
    """Returns a private key, and the public one in PEM."""
    key = rsa.generate_private_key(65537, bits)
    return key, key.public_key().public_bytes(serialization.Encoding.PEM, serialization.PublicFormat.SubjectPublicKeyInfo)


class Files:
    """A directory with a key of the issuer, the gateway's secret, and the token file made of it."""

    def __init__(self, gateway):
        shm = "/dev/shm" if os.access("/dev/shm", os.W_OK) else None
        self.folder = pathlib.Path(tempfile.mkdtemp(dir=shm))
        self.private, self.public = key_pair()
        (self.folder / "keys.pem").write_bytes(key_pair()[1] + self.public)
        (self.folder / "secret").write_text("0123456789abcdef" * 4)
        (self.folder / "suppliers").write_text("# who flies\n" + "\n".join(SUPPLIERS) + "\n")
        made = subprocess.run(
            [gateway, "tokens", "--secret", self.folder / "secret", "--suppliers", self.folder / "suppliers"],
            stdout=subprocess.PIPE, check=True)
        (self.folder / "tokens.toml").write_bytes(made.stdout)

    def forget(self):
        shutil.rmtree(self.folder)

    def token(self, sub, *scopes, key=None, algorithm="RS256", headers=None, without=(), **claims):
        body = {"sub": sub, "scope": " ".join(scopes), "iss": ISSUER, "aud": AUDIENCE, "exp": int(time.time()) + 600} | claims
        body = {name: it for name, it in body.items() if name not in without}
        return jwt.encode(body, key or self.private, algorithm, headers=headers)


class Answer:
    def __init__(self, status, headers, body):
        self.status, self.headers, self.text = status, headers, body
        self.json = json.loads(body) if body else None

    def __repr__(self):
        return f"{self.status} {self.text[:300]}"


class Gateway:
    """A gateway in front of the service on a port."""

    def __init__(self, program, files, service, *options, path=None, prepare=None, without=()):
        """Starts it on a port, or on a Unix socket at a path, without some of the files; `prepare` is called in its process
        before it begins."""
        self.port, self.log = free_port(), tempfile.TemporaryFile(mode="w+")
        self.files, self.service = files, service
        words = {"socket": path} if path else {"port": self.port}
        words |= {"service": service, "issuer": ISSUER, "audience": AUDIENCE}
        words |= {name: files.folder / f for name, f in (("tokens", "tokens.toml"), ("keys", "keys.pem"), ("secret", "secret")) if name not in without}
        self.words = [it for name, value in words.items() for it in (f"--{name}", str(value))] + list(options)
        self.words += [] if "--kept-connections" in options else ["--kept-connections", KEPT]
        self.process = started([program, "serve", *self.words], stderr=self.log, preexec_fn=prepare)
        wait_for(str(path) if path else self.port)

    def end(self):
        """Stops it normally, and returns whether it lived until then."""
        alive = self.process.poll() is None
        self.process.send_signal(signal.SIGTERM)
        self.process.wait(300)
        return alive and self.process.returncode == 0

    def lines(self):
        """Returns its log. The gateway writes where the file stands, so this reads without a seek."""
        log = self.log.fileno()
        return os.pread(log, os.fstat(log).st_size, 0).decode(errors="replace")

    def ask(self, token, method, path, body=None, headers=None):
        connection = http.client.HTTPConnection("127.0.0.1", self.port, timeout=300)
        fields = ({"Authorization": f"Bearer {token}"} if token else {}) | (headers or {})
        if body is not None and not isinstance(body, (bytes, str)):
            body = json.dumps(body)
        with contextlib.closing(connection):
            connection.request(method, path, body, fields)
            got = connection.getresponse()
            answer = Answer(got.status, dict(got.getheaders()), got.read().decode())
        if method != "HEAD" and self.service in REAL:
            conforms.check_gateway(method, path, answer.status, answer.text)
        return answer

    def raw(self, data, end=False, count=1):
        """Sends bytes on a separate connection, and returns that many responses, or all that arrives until the connection ends."""
        with socket.create_connection(("127.0.0.1", self.port), 120) as it:
            with contextlib.suppress(OSError):
                it.sendall(data)
                if end:
                    it.shutdown(socket.SHUT_WR)
            return responses(it, count)


class Service:
    """`dss serve` over a database."""

    def __init__(self, files, port=None, database="dss.db", admin=None, options=()):
        self.files, self.port, self.database = files, port or free_port(), files.folder / database
        self.options = [*options, *([] if admin is None else ["--admin-port", str(admin)])]
        REAL.add(self.port)
        self.start()

    def start(self):
        self.process = started(
            [TOP / "dss", "serve", "--tokens", self.files.folder / "tokens.toml", "--db", self.database,
             "--port", str(self.port), "--count", "1000000", *self.options], stderr=subprocess.DEVNULL)
        wait_for(self.port)

    def end(self, how=signal.SIGKILL):
        self.process.send_signal(how)
        self.process.wait()


class Recorded:
    """`dss run` over a database behind a port, for up to a hundred requests. It records its requests, and can lose a
    response: of the request with the number `lost`, counted from 0, before (`is_done` False) or after it is done."""

    def __init__(self, files):
        self.asked, self.lost, self.is_done = [], None, True
        database = files.folder / f"{new_id()}.db"
        self.process = subprocess.Popen(
            [TOP / "dss", "run", "--tokens", files.folder / "tokens.toml", "--db", database, "--now", str(int(time.time())), "-"],
            stdin=subprocess.PIPE, stdout=subprocess.PIPE)
        self.socket = socket.create_server(("127.0.0.1", 0))
        self.port = self.socket.getsockname()[1]
        REAL.add(self.port)
        threading.Thread(target=self.serve, daemon=True).start()

    def end(self):
        self.process.kill()
        self.process.wait()
        self.socket.close()

    def serve(self):
        with contextlib.suppress(OSError):
            while True:
                connection, _ = self.socket.accept()
                with connection, connection.makefile("rb") as reader:
                    while self.one(connection, reader):
                        pass

    def one(self, connection, reader):
        request = read_message(reader)
        if not request:
            return False
        head, body = request
        method, path, _ = head.split(b"\r\n")[0].decode().split(" ")
        number = len(self.asked)
        self.asked.append((method, path, json.loads(body) if body else None))
        if number == self.lost and not self.is_done:
            return False
        self.process.stdin.write(head + body)
        self.process.stdin.flush()
        answer = b"".join(read_message(self.process.stdout))
        if number == self.lost:
            return False
        connection.sendall(answer)
        return True


class Counted:
    """A service that gives the same response, `{}` at first, on each connection, after a pause that may be changed. It
    counts connections, requests, and simultaneous requests."""

    def __init__(self, pause=0, port=0):
        self.pause, self.opened, self.asked, self.now, self.at_once = pause, 0, [], 0, 0
        self.last = None  # each so many answers, one is the last of its connection
        self.drops = 0  # before so many answers the connection is closed
        self.answer = b"{}"
        self.lock, self.open = threading.Lock(), []
        self.socket = socket.create_server(("127.0.0.1", port or free_port()), backlog=100)
        self.port = self.socket.getsockname()[1]
        REAL.discard(self.port)
        threading.Thread(target=self.accept, daemon=True).start()

    def accept(self):
        with contextlib.suppress(OSError):
            while True:
                connection, _ = self.socket.accept()
                self.opened += 1
                self.open.append(connection)
                threading.Thread(target=self.serve, args=(connection,), daemon=True).start()

    def serve(self, connection):
        with contextlib.suppress(OSError), connection, connection.makefile("rb") as reader:
            while request := read_message(reader):
                with self.lock:
                    self.asked.append(request[0].split(b" ")[0].decode())
                    self.now += 1
                    self.at_once = max(self.now, self.at_once)
                    drops, is_last = self.drops > 0, bool(self.last) and len(self.asked) % self.last == 0
                    self.drops -= drops
                began = time.monotonic()
                while (left := began + self.pause - time.monotonic()) > 0:
                    time.sleep(min(left, 0.05))
                with self.lock:
                    self.now -= 1
                if drops:
                    return connection.shutdown(socket.SHUT_RDWR)
                more = b"Connection: close\r\n" if is_last else b""
                connection.sendall(b"HTTP/1.1 200 OK\r\nContent-Length: %d\r\n%s\r\n%s" % (len(self.answer), more, self.answer))
                if is_last:
                    return connection.shutdown(socket.SHUT_RDWR)

    def close_all(self):
        for it in self.open:
            with contextlib.suppress(OSError):
                it.shutdown(socket.SHUT_RDWR)
        self.open.clear()

    def end(self):
        # The thread that accepts connections would accept one more.
        self.socket.shutdown(socket.SHUT_RDWR)
        self.socket.close()
        self.close_all()


def read_message(reader):
    head, length = b"", 0
    while line := reader.readline():
        head += line
        if line == b"\r\n":
            return head, reader.read(length)
        if line.lower().startswith(b"content-length:"):
            length = int(line.split(b":")[1])
    return None


def responses(connection, count=1):
    """Returns the bytes of that many responses from a socket, with interim responses, or all that arrives until it ends."""
    got, at = b"", 0
    while count:
        head, end, body = got[at:].partition(b"\r\n\r\n")
        is_interim = head.startswith(b"HTTP/1.1 1")
        length = 0 if is_interim or not end else int(re.search(rb"(?i)\r\ncontent-length: (\d+)", head)[1])
        if end and len(body) >= length:
            at += len(head) + len(end) + length
            count -= not is_interim
            continue
        piece = b""
        with contextlib.suppress(OSError):
            piece = connection.recv(65536)
        if not piece:
            break
        got += piece
    return got


def stamp(second, form="%Y-%m-%dT%H:%M:%SZ"):
    return {"value": time.strftime(form, time.gmtime(second)), "format": "RFC3339"}


def metres(value):
    return {"value": value, "reference": "W84", "units": "M"}


def polygon(*corners):
    return {"outline_polygon": {"vertices": [{"lat": lat, "lng": lng} for lat, lng in corners]}}


def circle(lat, lng, radius):
    return {"outline_circle": {"center": {"lat": lat, "lng": lng}, "radius": {"value": radius, "units": "M"}}}


MANHATTAN = polygon((40.740, -73.982), (40.740, -73.974), (40.748, -73.974), (40.748, -73.982))
BESIDE = polygon((40.750, -73.970), (40.744, -73.978), (40.750, -73.978))
FAR = circle(41.2, -73.97, 300.5)


def extent(volume, lower=0.0, upper=119.95, start=None, end=None):
    now = int(time.time())
    return {
        "volume": {**volume, "altitude_lower": metres(lower), "altitude_upper": metres(upper)},
        "time_start": stamp(now if start is None else start), "time_end": stamp(now + 3600 if end is None else end)}


def intent(*extents, key=(), state="Accepted", **more):
    return {"extents": list(extents), "key": list(key), "state": state, "uss_base_url": "https://uss.example", **more}


def query_of(volume):
    return {"area_of_interest": {"volume": volume}}


def new_id():
    return str(uuid.uuid4())


def expect(answer, status, message=None):
    assert answer.status == status, f"{answer}, and it should be {status}"
    if message is not None:
        assert message in answer.json["message"], f"{answer}, and it should say {message}"
    return answer.json


def ovn(answer):
    return next(iter(answer.values()))["ovn"] if "ovn" in next(iter(answer.values())) else answer["operational_intent_reference"]["ovn"]
