"""The nginx and HAProxy configurations of deploy/, unchanged, before a service that counts and before the gateway."""
import concurrent.futures
import contextlib
import datetime
import email.utils
import http.client
import json
import os
import shutil
import socket
import ssl
import subprocess
import threading
import time

from cryptography import x509
from cryptography.hazmat.primitives import hashes, serialization

from flows import over_tables
from maps import Skipped
from world import FRONT, INTENTS, STRATEGIC, TOP, Counted, Gateway, conforms, free_port, key_pair, new_id, until, wait_for

OVN = "0123456789abcdef-of-nobody-else"
# Requests a second that a client sends without a break, over the 50 that the proxies allow, for so many seconds.
STEADY, SECONDS = 60, 16
# How often that is tried on a machine that is too busy to send so many.
TRIES = 5
# The requests a second that they allow, and those that they allow at once.
ALLOWED, BURST = 50, 100
# Clients that send these requests together.
CLIENTS = 4
# HAProxy's limits: connections for large bodies at once, and the bytes above which a body is large.
PLACES, LARGE = 32, 49_152
# Less than the seconds that HAProxy waits for bytes of a client, and for a connection to the service.
WAITS = 14
PATH = f"{FRONT}uss_availability/uss-b"


def program_of_nginx(built):
    """Returns where nginx is installed, or unpacked by gateway/test."""
    found = shutil.which("nginx", path="/usr/sbin:/usr/bin") or f"{built}/nginx/usr/sbin/nginx"
    assert os.access(found, os.X_OK), "gateway/test has not unpacked nginx"
    return found


def certificate(folder):
    key, _ = key_pair()
    name = x509.Name([x509.NameAttribute(x509.NameOID.COMMON_NAME, "region.example")])
    now = datetime.datetime.utcnow()
    made = x509.CertificateBuilder().subject_name(name).issuer_name(name).public_key(key.public_key()).serial_number(1)
    made = made.not_valid_before(now).not_valid_after(now + datetime.timedelta(days=1)).sign(key, hashes.SHA256())
    (folder / "dss.crt").write_bytes(made.public_bytes(serialization.Encoding.PEM))
    (folder / "dss.key").write_bytes(key.private_bytes(
        serialization.Encoding.PEM, serialization.PrivateFormat.TraditionalOpenSSL, serialization.NoEncryption()))


@contextlib.contextmanager
def nginx(files, built, behind):
    """Runs it before a server, and gives its port and its directory."""
    folder, port = files.folder / new_id(), free_port()
    folder.mkdir()
    certificate(folder)
    block = (TOP / "deploy" / "nginx.conf").read_text()
    for old, new in (("listen 443 ssl", f"listen 127.0.0.1:{port} ssl"), ("/etc/nginx/", f"{folder}/"), ("/var/log/nginx/", f"{folder}/"),
                     ("server 127.0.0.1:8080 ", f"server {behind} ")):
        assert old in block, old
        block = block.replace(old, new)
    places = "".join(f"{it}_temp_path {folder}/{it};\n" for it in ("client_body", "proxy", "fastcgi", "uwsgi", "scgi"))
    user = "user root;\n" if os.geteuid() == 0 else ""
    (folder / "nginx.conf").write_text(
        f"{user}daemon off;\nworker_processes 1;\npid {folder}/pid;\nevents {{}}\nhttp {{\n{places}{block}\n}}\n")
    process = subprocess.Popen([program_of_nginx(built), "-c", folder / "nginx.conf", "-e", folder / "start.log"])
    try:
        wait_for(port)
        yield port, folder
    finally:
        process.terminate()
        process.wait(300)


def connected(port):
    context = ssl.create_default_context()
    context.check_hostname, context.verify_mode = False, ssl.CERT_NONE
    return contextlib.closing(http.client.HTTPSConnection("127.0.0.1", port, timeout=300, context=context))


def ask(port, token, method, path, body=None):
    return ask_often(1, port, token, method, path, body)[0]


def ask_often(count, port, token, method, path, body=None):
    """Returns the statuses of that many requests on one connection."""
    with connected(port) as it:
        return [answer(it, token, method, path, body) for _ in range(count)]


def together(job):
    """Returns the lists that some clients get who do the same at once. On a busy machine one of them alone may be too slow
    for a limit."""
    with concurrent.futures.ThreadPoolExecutor(CLIENTS) as pool:
        return [one for found in pool.map(lambda _: job(), range(CLIENTS)) for one in found]


def answer(connection, token, method, path, body=None, fields=None):
    """Returns the status of a request. Each response has the time. If the proxy made it, it is JSON, and says when to try again."""
    # A proxy that refuses a request may close before it has read the whole body.
    with contextlib.suppress(BrokenPipeError, ConnectionResetError, ssl.SSLEOFError):
        connection.request(method, path, body, ({"Authorization": f"Bearer {token}"} if token else {}) | (fields or {}))
    got = connection.getresponse()
    text = got.read()
    dates = [email.utils.parsedate_to_datetime(it).timestamp() for it in got.headers.get_all("Date", ())]
    assert len(dates) == 1 and abs(time.time() - dates[0]) < 300, got.getheaders()
    if got.status != 200:
        assert got.getheader("Content-Type") == "application/json", (got.status, text)
        assert json.loads(text)["message"].startswith("proxy: "), (got.status, text)
        conforms.check(method, path, got.status, text)
        assert (got.getheader("Retry-After") is not None) == (got.status in (429, 503)), got.getheaders()
    return got.status


def steady(port, token):
    """Returns the statuses of the last three seconds of requests that arrive without a break."""
    def one():
        statuses, began = [], time.monotonic()
        with connected(port) as it:
            for number in range(STEADY * SECONDS // CLIENTS):
                time.sleep(max(0, began + number * CLIENTS / STEADY - time.monotonic()))
                statuses.append(answer(it, token, "GET", PATH))
        return statuses[-3 * STEADY // CLIENTS:]
    return together(one)


def limits(port, name):
    """Tries the limit: it is of a token, or of an address without one, and a client beyond it is served as fast as it
    says. Returns the number of requests."""
    count = beyond(port, "x", f"{INTENTS}/{name}/{OVN}") + 60
    assert set(ask_often(60, port, "y", "GET", PATH)) == {200}
    count += beyond(port, None, PATH)
    for number in range(TRIES):
        began, last = time.monotonic(), steady(port, f"z{number}")
        count += STEADY * SECONDS
        if set(last) != {200} or not may_be_allowed(STEADY * SECONDS, began):
            break
    assert set(last) == {200, 429} and last.count(200) > len(last) / 2, [(it, last.count(it)) for it in set(last)]
    return count


def may_be_allowed(count, began):
    """Returns whether so many requests since that time may all be within the limit: a busy machine sends them slowly."""
    return count <= BURST + ALLOWED * (time.monotonic() - began)


def beyond(port, token, path):
    """Sends more requests than are allowed: some get a response, and some are refused. Returns their number."""
    for number in range(1, TRIES + 1):
        began = time.monotonic()
        many = together(lambda: ask_often(300 // CLIENTS, port, token, "GET", path))
        if set(many) != {200} or not may_be_allowed(300, began):
            break
    assert {200, 429} == set(many), set(many)
    return 300 * number


def the_documented_nginx(files, built):
    """Its connections to the service stay open, its logs have no OVN, it repeats only reads, it limits requests, and its
    errors are JSON."""
    token, name = files.token("uss-a", STRATEGIC), new_id()
    service = Counted()
    with nginx(files, built, f"127.0.0.1:{service.port}") as (port, folder):
        for _ in range(30):
            assert ask(port, token, "GET", PATH) == 200
        assert service.opened <= 3 and len(service.asked) == 30, service.opened
        assert ask(port, token, "PUT", f"{INTENTS}/{name}/{OVN}", "{}") == 200
        for method, status, times in ("PUT", 502, 1), ("DELETE", 502, 1), ("POST", 502, 1), ("GET", 200, 2):
            service.drops, before = 1, len(service.asked)
            assert ask(port, token, method, f"{INTENTS}/{name}/{OVN}", "{}") == status, method
            assert len(service.asked) - before == times, method
        service.drops, before = 2, len(service.asked)
        assert ask(port, token, "GET", PATH) == 503
        assert len(service.asked) - before == 2
        assert ask(port, token, "GET", "/health") == 404
        assert ask(port, token, "PUT", PATH, b" " * ((1 << 20) + 1)) == 413
        with connected(port) as it:
            assert answer(it, token, "PUT", PATH, iter([b"{}"])) == 200
        limits(port, name)
        service.end()
        for method in "PUT", "GET":
            assert ask(port, token, method, f"{INTENTS}/{name}/{OVN}", "{}") == 503
        logs = "".join(it.read_text() for it in folder.glob("*.log"))
    assert f"PUT {INTENTS}/{name} 200 " in logs and OVN not in logs and token not in logs, logs[-2000:]


def haproxy(files, behind, admin):
    """Runs it before the service of a port, which has this admin port, and gives its port and the lines of its log."""
    return haproxy_by(files, (TOP / "deploy" / "haproxy.cfg").read_text(), (
        ("server dss 127.0.0.1:8080", f"server dss 127.0.0.1:{behind}"), (" check port 8078 ", f" check port {admin} ")))


@contextlib.contextmanager
def haproxy_by(files, text, changes):
    """Runs it by a configuration with some changes, and gives its port and the lines of its log."""
    program = shutil.which("haproxy", path="/usr/sbin:/usr/bin")
    if not program:
        raise Skipped("haproxy is not installed: apt-get install haproxy")
    folder, port = files.folder / new_id(), free_port()
    folder.mkdir()
    certificate(folder)
    (folder / "dss.pem").write_bytes((folder / "dss.crt").read_bytes() + (folder / "dss.key").read_bytes())
    for old, new in (("bind :443", f"bind 127.0.0.1:{port}"), ("/etc/haproxy/", f"{folder}/"), ("log /dev/log", f"log {folder}/log"), *changes):
        assert old in text, old
        text = text.replace(old, new)
    (folder / "haproxy.cfg").write_text(text)
    log = Log(folder / "log")
    process = subprocess.Popen([program, "-q", "-db", "-f", folder / "haproxy.cfg"])
    try:
        wait_for(port)
        yield port, log
    finally:
        process.terminate()
        process.wait(300)
        log.socket.close()


def healthy(pause=0):
    """Starts an admin port that says `serving` after that many seconds, and returns it."""
    made = Counted(pause)
    made.answer = b"serving"
    return made


class Log:
    """A socket that receives the lines of a log, as /dev/log does."""

    def __init__(self, path):
        self.socket, self.lines = socket.socket(socket.AF_UNIX, socket.SOCK_DGRAM), []
        self.socket.bind(str(path))
        threading.Thread(target=self.take, daemon=True).start()

    def take(self):
        with contextlib.suppress(OSError):
            while True:
                self.lines.append(self.socket.recv(1 << 16).decode())

    def has(self, count):
        """Returns all lines, once there are that many."""
        end = time.monotonic() + 60
        while len(self.lines) < count and time.monotonic() < end:
            time.sleep(0.05)
        return "\n".join(self.lines)


def the_documented_haproxy(files, built):
    """Its connections to the service stay open, its log has no OVN, it repeats only reads, it limits requests, and its
    errors are JSON. A check of health may take three seconds."""
    token, name = files.token("uss-a", STRATEGIC), new_id()
    service, admin = Counted(), healthy(3)
    with haproxy(files, service.port, admin.port) as (port, log):
        for _ in range(30):
            assert ask(port, token, "GET", PATH) == 200
        assert service.opened <= 3 and len(service.asked) == 30, service.opened
        assert ask(port, token, "PUT", f"{INTENTS}/{name}/{OVN}", "{}") == 200
        for method in ("PUT", "DELETE"):
            service.drops, before = 1, len(service.asked)
            assert ask(port, token, method, f"{INTENTS}/{name}/{OVN}", "{}") == 502
            assert len(service.asked) - before == 1
        service.drops, before = 1, len(service.asked)
        assert ask(port, token, "GET", PATH) == 200
        assert len(service.asked) - before == 2
        assert ask(port, token, "GET", "/health") == 404
        with connected(port) as it:
            assert answer(it, token, "PUT", PATH, fields={"Content-Length": f"{(1 << 20) + 1}"}) == 413
        with connected(port) as it:
            assert answer(it, token, "PUT", PATH, iter([b"{}"])) == 411
        many = limits(port, name)
        lines = log.has(30 + 7 + many)
    service.end()
    admin.end()
    assert " PUT 200 " in lines and OVN not in lines and token not in lines, lines[-2000:]


def haproxy_covers_a_restart(files, built):
    """While nothing listens, requests wait, and each is sent once. If the service is down for longer, they get 503."""
    token, service, admin = files.token("uss-a", STRATEGIC), Counted(), healthy()
    with haproxy(files, service.port, admin.port) as (port, _):
        assert ask(port, token, "GET", PATH) == 200
        service.end()
        statuses = []
        clients = [threading.Thread(target=lambda it=it: statuses.append(ask(port, token, it, PATH, "{}"))) for it in ("PUT", "GET")]
        for it in clients:
            it.start()
        time.sleep(3)
        assert not statuses, statuses
        again = Counted(port=service.port)
        for it in clients:
            it.join()
        assert statuses == [200, 200] and sorted(again.asked) == ["GET", "PUT"], (statuses, again.asked)
        again.end()
    admin.end()
    with haproxy(files, service.port, admin.port) as (port, _):
        # Once the first check has failed.
        time.sleep(1)
        assert ask(port, token, "GET", PATH) == 503


def haproxy_keeps_places_free(files, built):
    """Large bodies use a part of the connections to the service, small requests are served meanwhile, and connections over
    the limit of an address get a response."""
    # On a busy machine a try may take longer than HAProxy waits.
    assert any(places_are_free(files) for _ in range(5)), "each try took too long"


def places_are_free(files):
    """Tries that. Returns whether it took less time than HAProxy waits for the rest of a body, and for a connection."""
    service, admin = Counted(), healthy()
    with haproxy(files, service.port, admin.port) as (port, _), contextlib.ExitStack() as stack:
        clients, began = [stack.enter_context(connected(port)) for _ in range(PLACES + 8)], time.monotonic()
        for number, it in enumerate(clients):
            it.putrequest("PUT", PATH)
            it.putheader("Authorization", f"Bearer {number}")
            it.putheader("Content-Length", f"{3 * LARGE}")
            it.endheaders(b" " * 2 * LARGE)
        until(lambda: service.opened == PLACES, WAITS)
        time.sleep(1)
        opened = service.opened
        more = [stack.enter_context(connected(port)) for _ in range(20)]
        statuses = [answer(it, f"of {number}", "GET", PATH) for number, it in enumerate(more)]
        in_time = time.monotonic() - began < WAITS
    service.end()
    admin.end()
    assert not in_time or (opened, statuses) == (PLACES, [200] * 10 + [429] * 10), (opened, statuses)
    assert not in_time or service.opened <= PLACES + 10, service.opened
    return in_time


def nginx_before_the_gateway(files, built):
    """nginx reaches the gateway by a Unix socket."""
    with over_tables(files, f"{built}/gateway") as place:
        gateway = Gateway(f"{built}/gateway", files, place.service.port, path=files.folder / "socket")
        with nginx(files, built, f"unix:{files.folder}/socket") as (port, _):
            for _ in range(5):
                assert ask(port, files.token("uss-a", STRATEGIC), "GET", PATH) == 200
        assert gateway.end()


# They take the directory with the programs.
ALL = [the_documented_nginx, the_documented_haproxy, haproxy_covers_a_restart, haproxy_keeps_places_free, nginx_before_the_gateway]
