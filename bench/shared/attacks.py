"""Attacks of one USS, or of clients without a token, on the others: what the others wait, and the memory of the service.

Each attack runs in a process of its own, within the limits of the service and of the shipped proxies."""
import contextlib
import itertools
import multiprocessing
import pathlib
import resource
import shutil
import socket
import subprocess
import tempfile
import threading
import time

import library
import tables
import wire
from places import cell
from ports import free_port
from scene import id_of
from serving import Service

TOP = pathlib.Path(__file__).resolve().parents[2]
# Connections of an address, and requests a second, that the proxies allow.
CONNECTIONS, RATE = 45, 50
# Seconds after which a client gives up, and those between two reads, and between two looks at /health.
PATIENCE, READ_EACH, HEALTH_EACH = 10, 0.02, 0.1
FILES = 4_096
ATTACKER, OTHER, READER = "Bearer tok-a", "Bearer tok-b", "Bearer tok-v"
NOW = int(time.time())
TIMES = {"time_start": NOW, "time_end": NOW + 86_400}
URL = "https://a.example/{:0237}".format
READING = wire.request("GET", f"{wire.AVAILABILITY}/uss-b", READER)


def narrow(count):
    """Returns the rows of intents with one cell in common, each with an address of the maximum length."""
    numbers = range(1, count + 1)
    return {
        "entity": ((it, 0, id_of(it), "uss-b", 0, 1, it, wire.ovn(it), URL(it)) for it in numbers),
        "volume": ((it, 0, 0, 0, NOW, NOW + 86_400) for it in numbers),
        "cell": ((it, 0, 0, cell(0), 0, 0) for it in numbers),
        "meta": [(1, 2, count)],
    }


def volume(of, altitude):
    return {"cells": [cell(it) for it in of], "altitude_lower": altitude, "altitude_upper": altitude, **TIMES}


def query():
    body = wire.compact({"area_of_interest": volume([0], 0)}).encode()
    return wire.request("POST", f"{wire.INTENTS}/query", ATTACKER, body)


def wide(number, ovn=None):
    """Returns the put of an intent with 2,048 cells in 32 volumes, at an altitude of its own."""
    extents = [volume(range(128 * it, 128 * (it + 1), 2), number) for it in range(32)]
    body = {"extents": extents, "state": "Accepted", "uss_base_url": "https://a.example", "key": []}
    path = f"{wire.INTENTS}/{id_of(number)}" + (f"/{ovn}" if ovn else "")
    return wire.request("PUT", path, ATTACKER, wire.compact(body).encode())


def large(number):
    """Returns a creation of another USS with a body of 80 KB."""
    body = {"extents": [volume([1_000_000], number)], "state": "Accepted", "uss_base_url": "https://b.example"}
    body["key"] = [wire.ovn(it) for it in range(10_000_000, 10_001_200)]
    return wire.request("PUT", f"{wire.INTENTS}/{id_of(1_000_000 + number)}", OTHER, wire.compact(body).encode())


class Client:
    """A client that connects again if its connection was closed."""

    def __init__(self, port, source="127.0.0.1", buffer=None):
        self.port, self.source, self.buffer, self.socket = port, source, buffer, None

    def connect(self):
        self.socket = socket.socket()
        if self.buffer:
            self.socket.setsockopt(socket.SOL_SOCKET, socket.SO_RCVBUF, self.buffer)
        self.socket.settimeout(PATIENCE)
        self.socket.bind((self.source, 0))
        self.socket.connect(("127.0.0.1", self.port))

    def send(self, data):
        if not self.socket:
            self.connect()
        self.socket.sendall(data)

    def ask(self, data):
        """Returns the status and the body of the response."""
        for last in False, True:
            try:
                self.send(data)
                return self.receive()
            except (BrokenPipeError, ConnectionResetError, EOFError):
                # The service ends a connection after a hundred requests.
                self.close()
                if last:
                    raise

    def receive(self):
        got = bytearray()
        while (end := got.find(b"\r\n\r\n")) < 0:
            got += self.more()
        head = bytes(got[:end]).lower()
        length = int(head.split(b"content-length: ")[1].split(b"\r\n")[0])
        body = got[end + 4:]
        while len(body) < length:
            body += self.more()
        if b"connection: close" in head:
            self.close()
        return int(head.split(b" ")[1]), bytes(body)

    def more(self):
        got = self.socket.recv(1 << 18)
        if not got:
            raise EOFError
        return got

    def close(self):
        if self.socket:
            self.socket.close()
        self.socket = None


class Pace:
    """Lets threads go on at most RATE times a second, all together."""

    def __init__(self):
        self.lock, self.next = threading.Lock(), time.monotonic()

    def wait(self):
        with self.lock:
            due = max(self.next, time.monotonic())
            self.next = due + 1 / RATE
        time.sleep(max(0, due - time.monotonic()))


def at_once(count, client):
    """Runs `client` with a pace and each number, in threads that end with the process."""
    pace = Pace()

    def run(number):
        with contextlib.suppress(OSError, EOFError, IndexError):
            while True:
                client(pace, number)

    threads = [threading.Thread(target=run, args=(it,), daemon=True) for it in range(count)]
    for it in threads:
        it.start()
    for it in threads:
        it.join()


# ---- the attacks: each takes the service's port and its admin port, and runs until its process is ended


def sources(number):
    """Returns the address of a client: each has at most 49 connections."""
    return f"127.0.0.{2 + number // 49}"


def queries(port, _):
    clients, asked = [Client(port, sources(it)) for it in range(CONNECTIONS)], query()

    def client(pace, number):
        pace.wait()
        clients[number].ask(asked)

    at_once(CONNECTIONS, client)


def never_reads(port, _):
    held, asked = [], query()
    for _ in range(900):
        held.append(Client(port, buffer=4_096))
        with contextlib.suppress(OSError):
            held[-1].send(asked)
    time.sleep(3_600)


def reads_slowly(port, _):
    held, asked = [Client(port, sources(it), buffer=4_096) for it in range(98)], query()
    for it in held:
        with contextlib.suppress(OSError):
            it.send(asked)
    while True:
        for it in held:
            with contextlib.suppress(OSError, AttributeError):
                it.socket.recv(512, socket.MSG_DONTWAIT)
        time.sleep(1)


def creations(port, _):
    clients, numbers = [Client(port) for _ in range(CONNECTIONS)], itertools.count(1)

    def client(pace, number):
        asked = wide(next(numbers))
        pace.wait()
        clients[number].ask(asked)

    at_once(CONNECTIONS, client)


def updates(port, _):
    clients, ovns = [Client(port) for _ in range(30)], [None] * 30

    def client(pace, number):
        asked = wide(number + 1, ovns[number])
        pace.wait()
        _, said = clients[number].ask(asked)
        ovns[number] = said.split(b'"ovn":"')[1].split(b'"')[0].decode()

    at_once(30, client)


def leaves(port, _):
    asked = query()
    for _ in range(500):
        it = Client(port)
        with contextlib.suppress(OSError):
            it.send(asked)
        it.close()
    time.sleep(3_600)


def nested(port, _):
    clients = [Client(port, sources(it)) for it in range(2 * CONNECTIONS)]
    body = b'{"extents":[' + b"[[]]," * 199_000 + b"0]}"
    asked = wire.request("PUT", f"{wire.INTENTS}/{id_of(1)}", None, body)

    def client(pace, number):
        pace.wait()
        clients[number].ask(asked)

    at_once(len(clients), client)


def stalls(port, _):
    head, held = wire.request("PUT", f"{wire.INTENTS}/{id_of(1)}", None, b" " * 1_000_000), []
    for _ in range(900):
        held.append(Client(port))
        with contextlib.suppress(OSError):
            held[-1].send(head[:70_000])
    time.sleep(3_600)


def idle_operators(_, admin):
    held = [socket.create_connection(("127.0.0.1", admin)) for _ in range(16)]
    time.sleep(3_600)
    del held


def idle(port, _):
    held = []
    with contextlib.suppress(OSError):
        for _ in range(1_000):
            held.append(socket.create_connection(("127.0.0.1", port), PATIENCE))
    time.sleep(3_600)


def nothing(*_):
    time.sleep(3_600)


class Attacked(Service):
    """The service over a database with rows, with an admin port."""

    patience = 600

    def __init__(self, rows, files=FILES, quota=None):
        super().__init__(disk=library.memory_disk(), quota=quota)
        self.files = files
        tables.make(f"{self.folder}/dss.db", 2, rows)

    def command(self):
        return ["prlimit", f"--nofile={self.files}", *super().command(), "--admin-port", f"{self.admin}"]

    def start(self):
        self.admin = free_port()
        super().start()

    def peak(self):
        """Returns the peak memory of the program, in kilobytes."""
        status = pathlib.Path(f"/proc/{self.program.pid}/status").read_text()
        return next(int(it.split()[1]) for it in status.splitlines() if it.startswith("VmHWM:"))


@contextlib.contextmanager
def haproxy(service):
    """Runs the shipped HAProxy in front of a service, without TLS and log, and gives its port."""
    port, text = free_port(), (TOP / "deploy" / "haproxy.cfg").read_text()
    for old, new in (("bind :443 ssl crt /etc/haproxy/dss.pem alpn http/1.1", f"bind 127.0.0.1:{port}"), ("    log /dev/log local0\n", ""),
                     ("server dss 127.0.0.1:8080", f"server dss 127.0.0.1:{service.port}"), ("check port 8078", f"check port {service.admin}")):
        assert old in text, old
        text = text.replace(old, new)
    with tempfile.TemporaryDirectory() as folder:
        pathlib.Path(folder, "haproxy.cfg").write_text(text)
        process = subprocess.Popen([shutil.which("haproxy", path="/usr/sbin:/usr/bin"), "-q", "-db", "-f", f"{folder}/haproxy.cfg"])
        try:
            for _ in range(200):
                with contextlib.suppress(OSError), socket.create_connection(("127.0.0.1", port)):
                    break
                time.sleep(0.05)
            yield port
        finally:
            process.terminate()
            process.wait()


class Waits(threading.Thread):
    """Sends one request at a time until `end`, and records the seconds of each, and other statuses."""

    def __init__(self, each, ask):
        super().__init__(daemon=True)
        self.each, self.ask, self.took, self.failed, self.ends = each, ask, [], [], threading.Event()
        self.start()

    def run(self):
        while not self.ends.wait(self.each):
            began = time.perf_counter()
            try:
                status = self.ask()
            except (OSError, EOFError) as error:
                status = type(error).__name__
            self.took.append(time.perf_counter() - began)
            if status not in (200, 201):
                self.failed.append(status)

    def end(self):
        self.ends.set()
        self.join(2 * PATIENCE)
        return sorted(self.took)


def reads(port):
    client = Client(port)
    return lambda: client.ask(READING)[0]


def puts(port):
    client, numbers = Client(port), itertools.count(1)
    return lambda: client.ask(large(next(numbers)))[0]


def health(admin):
    asked = f"GET /health HTTP/1.1\r\nHost: 127.0.0.1:{admin}\r\n\r\n".encode()

    def ask():
        client = Client(admin)
        try:
            return client.ask(asked)[0]
        finally:
            client.close()

    return ask


def at(part, took):
    return took[min(len(took) - 1, int(part * len(took)))] * 1_000 if took else float("nan")


def measured(what, attack, seconds, rows, others=reads, proxied=False, files=FILES, quota=None):
    """Returns the row of a table for an attack that lasts some seconds."""
    if proxied and not shutil.which("haproxy", path="/usr/sbin:/usr/bin"):
        return f"| {what} | haproxy is not installed | | | | | |"
    with Attacked(rows, files, quota) as service, (haproxy(service) if proxied else contextlib.nullcontext(service.port)) as port:
        before = service.memory()
        attacker = multiprocessing.Process(target=attack, args=(port, service.admin), daemon=True)
        attacker.start()
        # Until the attacker has connected.
        time.sleep(1)
        clients, operator = Waits(READ_EACH, others(port)), Waits(HEALTH_EACH, health(service.admin))
        time.sleep(seconds)
        took, looked = clients.end(), operator.end()
        attacker.kill()
        attacker.join()
        failed = ", ".join(f"{clients.failed.count(it)} times {it}" for it in sorted(set(clients.failed), key=str)) or "none"
        figures = [f"{at(it, took):.1f}" for it in (0.5, 0.99, 1)] + [f"{at(1, looked):.0f}"]
        memory = f"{before / 1_024:.0f} to {service.peak() / 1_024:.0f}"
        return f"| {what} | {len(took)} | {' / '.join(figures[:3])} | {figures[3]} | {memory} | {failed} |"


# What each attack is, how it is made, and on what.
ATTACKS = [
    ("none", nothing, {"rows": 4_000}),
    ("45 connections query 4,000 intents", queries, {"rows": 4_000}),
    ("45 connections query 20,000 intents", queries, {"rows": 20_000}),
    ("900 connections query 20,000 intents and do not read", never_reads, {"rows": 20_000}),
    ("98 connections through HAProxy query 20,000 intents and read 512 B/s", reads_slowly, {"rows": 20_000, "proxied": True}),
    ("50 creations a second of 2,048 cells", creations, {"rows": 0}),
    ("30 intents of 2,048 cells updated in turn, quota 1,000", updates, {"rows": 0, "quota": 1_000}),
    ("500 connections query 4,000 intents and close at once", leaves, {"rows": 4_000}),
    ("90 connections send 1 MB of JSON without a token", nested, {"rows": 0}),
    ("900 stalled large bodies without a token; others put 80 KB", stalls, {"rows": 0, "others": puts}),
    ("16 idle connections to the admin port", idle_operators, {"rows": 0}),
    ("45 connections through HAProxy query 4,000 intents", queries, {"rows": 4_000, "proxied": True}),
    ("45 connections through HAProxy query 20,000 intents", queries, {"rows": 20_000, "proxied": True}),
    ("1,000 idle connections, 1,024 descriptors", idle, {"rows": 0, "files": 1_024}),
]


def measure(seconds):
    _, most = resource.getrlimit(resource.RLIMIT_NOFILE)
    resource.setrlimit(resource.RLIMIT_NOFILE, (min(FILES, most), most))
    print("| attack | calls of others | p50 / p99 / max, ms | `/health` max, ms | memory, MB | failed calls |")
    print("|---|---:|---:|---:|---:|---|", flush=True)
    for what, attack, how in ATTACKS:
        print(measured(what, attack, seconds, **{**how, "rows": narrow(how["rows"])}), flush=True)
