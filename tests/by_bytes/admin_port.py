"""The admin port of `serve`: the health of the service, its metrics, and its end."""
import contextlib
import pathlib
import re
import shutil
import socket
import subprocess
import time

import wire
from failing_files import Failing
from many_clients import reset
from client_timeouts import FIRST, SENDING, stored_intents
from lateness import again, exceeded
from pool import Skipped
from ports import free_port
from program import BUILT, SECONDS, TOP, run
from serving import Service, has_ipv6, until_closed
from sockets import ANSWER, ASKED, CLOSING, LAST, SOCKET, difference
from without_memory import FAULT, STOPPED

PLAIN, PROMETHEUS = "text/plain; charset=utf-8", "text/plain; version=0.0.4; charset=utf-8"
SERVING = b"serving\n"
FAILING = b"failing: the last commit failed\n"
STOPPING = b"stopping: a stop was requested\n"
# It is 0 if a listener on :: accepts IPv4 clients, too.
BOTH_VERSIONS = pathlib.Path("/proc/sys/net/ipv6/bindv6only")
DEAD = b"stopped: the database failed; restart the service\n"

QUERY = wire.request("POST", f"{wire.INTENTS}/query", "Bearer tok-a", b'{"area_of_interest":{"cells":["89c2591"]}}')
PUT = wire.request("PUT", f"{wire.AVAILABILITY}/uss-b", "Bearer tok-v", b'{"old_version":"","availability":"Down"}')
# The most seconds that a stopping service takes, and those within which an operator gets a response.
END, AT_ONCE = 5, 2
MOST = 16
# Connections that send nothing: fewer than the system lets wait.
CROWD = 120
# The seconds after which a connection counts as idle, and a little more.
IDLE = 1.2
# The names of the metrics, with their types.
NAMES = {
    "dss_connections_open": "gauge", "dss_connections_accepted_total": "counter", "dss_connections_refused_total": "counter",
    "dss_accept_failures_total": "counter", "dss_connections_failed_total": "counter", "dss_requests_total": "counter", "dss_response_bytes_total": "counter",
    "dss_uss_requests_total": "counter",
    "dss_large_requests_waiting": "gauge", "dss_start_time_seconds": "gauge", "dss_build_info": "gauge",
    "dss_requests_denied_total": "counter", "dss_request_duration_seconds": "histogram",
    "dss_store_failures_total": "counter", "dss_memory_failures_total": "counter", "dss_clock_failures_total": "counter",
    "dss_log_lines_dropped_total": "counter",
    "dss_mirror_up": "gauge", "dss_entities": "gauge", "dss_subscriptions": "gauge", "dss_serial": "gauge",
    "dss_purged_total": "counter", "dss_purge_failures_total": "counter",
    "dss_tokens_loaded_time_seconds": "gauge", "dss_tokens_reload_failures_total": "counter", "dss_tokens_valid": "gauge",
    "dss_purges_total": "counter", "dss_clock_jumps_total": "counter", "dss_purge_held": "gauge", "dss_health": "gauge",
    "dss_database_bytes": "gauge", "dss_database_log_bytes": "gauge",
    "process_cpu_seconds_total": "counter", "process_resident_memory_bytes": "gauge", "process_open_fds": "gauge",
    "process_max_fds": "gauge", "process_start_time_seconds": "gauge",
}


def said(status, body, kind=PLAIN, allow=None):
    """Returns the bytes of a response of the admin port."""
    lines = [f"HTTP/1.1 {status} {wire.REASONS[status]}", f"Content-Type: {kind}", f"Content-Length: {len(body)}"]
    lines += [f"Allow: {allow}"] if allow else []
    return "\r\n".join([*lines, "Connection: close", "", ""]).encode() + body


def asks(method, path, fields=(), body=b"", confirmed=True):
    """Returns a request. A POST has the field that it needs, unless told otherwise."""
    fields = [*fields, "X-Dss-Admin: 1"] if method == "POST" and confirmed else fields
    return "\r\n".join([f"{method} {path} HTTP/1.1", *fields, "", ""]).encode() + body


HEALTH, METRICS, STOP = asks("GET", "/health"), asks("GET", "/metrics"), asks("POST", "/stop", ["Content-Length: 0"])


class AdminService(Service):
    """`dss serve` with an admin port."""

    admin_address = "127.0.0.1"

    def command(self):
        return [*super().command(), "--admin-port", f"{self.admin}"]

    def start(self):
        self.admin = free_port()
        super().start()
        self.listening += f"dss: admin port on {self.admin_address}:{self.admin}\n".encode()
        until = time.monotonic() + self.patience
        while not (self.folder / "errors").read_bytes().startswith(self.listening):
            if time.monotonic() > until:
                raise OSError(f"what it tells: {(self.folder / 'errors').read_text()}")
            time.sleep(0.005)

    def operator(self):
        return socket.create_connection((self.admin_address.strip("[]"), self.admin), timeout=SECONDS)

    def asked(self, sent):
        """Returns the bytes that arrive on a connection to the admin port until it is closed."""
        with self.operator() as connection:
            connection.sendall(sent)
            return until_closed(connection)

    def counted(self):
        """Returns the metrics: the numbers by their names."""
        text = self.asked(METRICS).partition(b"\r\n\r\n")[2].decode()
        return dict(re.findall(r"^(dss_\w+(?:\{.*\})?) (\S+)$", text, re.M))


def until_counted(started, name, number):
    """Waits until a metric has that number, and returns all metrics."""
    until = time.monotonic() + SECONDS
    while (counted := started.counted()).get(name) != number and time.monotonic() < until:
        time.sleep(0.01)
    return counted


def paths():
    """Each route gets each method, and malformed requests, also in chunks. A waiting client and one that is being
    served are not disturbed."""
    no_path, no_method, no_request = b"no such path\n", b"method not allowed\n", b"invalid request\n"
    table = [
        ("health", HEALTH, said(200, SERVING)),
        ("health?", asks("GET", "/health?a=b"), said(200, SERVING)),
        ("a body", asks("GET", "/health", ["Content-Length: 1024"], bytes(1024)), said(200, SERVING)),
        ("a larger body", asks("GET", "/health", ["Content-Length: 1025"], bytes(1025)), said(413, no_request)),
        ("a body that is not sent", asks("POST", "/stop", ["Content-Length: 1025"]), said(413, no_request)),
        ("two lengths", asks("GET", "/health", ["Content-Length: 0"] * 2), said(400, no_request)),
        ("chunks", asks("GET", "/health", ["Transfer-Encoding: chunked"]), said(501, no_request)),
        ("no head", b"GET\r\n\r\n", said(400, no_request)),
        ("a large head", asks("GET", "/health", ["A: " + 8192 * "a"]), said(431, no_request)),
        ("many fields", asks("GET", "/health", 65 * ["A: a"]), said(431, no_request)),
        ("POST /health", asks("POST", "/health"), said(405, no_method, allow="GET")),
        ("HEAD /metrics", asks("HEAD", "/metrics"), said(405, no_method, allow="GET")),
        ("GET /stop", asks("GET", "/stop"), said(405, no_method, allow="POST")),
        ("get /health", asks("get", "/health"), said(405, no_method, allow="GET")),
        ("/", asks("GET", "/"), said(404, no_path)),
        ("/healthy", asks("GET", "/healthy"), said(404, no_path)),
        ("/stop/", asks("POST", "/stop/"), said(404, no_path)),
        ("a path of clients", ASKED, said(404, no_path)),
        ("two requests", HEALTH + STOP, said(200, SERVING)),
    ]
    with AdminService(count=2) as started, started.connect() as silent, started.connect() as kept:
        connected = time.monotonic()
        kept.sendall(ASKED)
        found = difference("a client before", kept.recv(1 << 16), ANSWER)
        for name, sent, wanted in table:
            began = time.monotonic()
            found += difference(name, started.asked(sent), wanted)
            found += exceeded(time.monotonic() - began, AT_ONCE, name)
        with started.operator() as slow:
            for byte in HEALTH:
                slow.sendall(bytes([byte]))
                time.sleep(0.001)
            found += difference("a byte at a time", until_closed(slow), said(200, SERVING))
        with started.operator() as ending:
            ending.sendall(HEALTH[:-2])
            ending.shutdown(socket.SHUT_WR)
            found += difference("a part", until_closed(ending), b"")
        kept.sendall(CLOSING)
        found += difference("a client after", until_closed(kept), LAST)
        # The service closes a client that sends nothing for this long.
        if time.monotonic() - connected > FIRST - 1:
            return exceeded(time.monotonic() - connected, FIRST - 1, "the client that was silent") + found
        silent.sendall(CLOSING)
        found += difference("a client that was silent", until_closed(silent), LAST)
        return found + difference("the service", started.ended(), (0, b"", started.listening))


def of_process(started):
    """Compares the metrics of the process with what the system says of it."""
    text = started.asked(METRICS).partition(b"\r\n\r\n")[2].decode()
    told = {name: float(value) for name, value in re.findall(r"^(process_\w+) (\S+)$", text, re.M)}
    folder = pathlib.Path("/proc", f"{started.program.pid}")
    fields = (folder / "stat").read_text().rpartition(")")[2].split()
    limit = re.search(r"^Max open files\s+(\d+)", (folder / "limits").read_text(), re.M)[1]
    found = difference("its descriptors", told["process_max_fds"], float(limit))
    # One more is that of the connection that asked.
    found += [] if 0 <= told["process_open_fds"] - len(list((folder / "fd").iterdir())) <= 1 else [f"descriptors: {told}"]
    close = 0.5 < told["process_resident_memory_bytes"] / (4096 * int(fields[21])) < 2
    found += [] if close and 0 <= told["process_cpu_seconds_total"] <= (int(fields[11]) + int(fields[12])) / 100 else [f"{told}, {fields}"]
    return found


OTHER_HOST = b"forbidden: the field Host must be 127.0.0.1, [::1] or localhost, with the port\n"
WEB_PAGE = b"forbidden: a web page sent the request\n"
UNCONFIRMED = b"forbidden: a POST requires the field X-Dss-Admin: 1\n"


def of_web_pages():
    """A request that a browser may have sent for a web page is forbidden, and changes nothing: one to another host, one
    with an origin, one from another site, and a POST as a form sends it."""
    with AdminService() as started:
        port = started.admin
        hosts = [f"127.0.0.1:{port}", f"localhost:{port}", f"[::1]:{port}"]
        others = ["127.0.0.1", "localhost", "", "dss", f"dss.example:{port}", f"127.0.0.1:{port + 1}", f"localhost:{port}0",
                  f"127.0.0.1:{port}.dss.example", f"LOCALHOST:{port}", f"http://localhost:{port}",
                  "[::1]", "::1", f"::1:{port}", f"[::]:{port}", f"[::1]:{port + 1}", f"[::1]:{port}0", f"[::ffff:127.0.0.1]:{port}"]
        table = [(f"Host: {it}", asks("GET", "/health", [f"Host: {it}"]), said(200, SERVING)) for it in hosts]
        table += [(f"Host: {it}", asks("GET", "/health", [f"Host: {it}"]), said(403, OTHER_HOST)) for it in others]
        for name, field, wanted in (
            ("two hosts", [f"Host: {hosts[0]}", "Host: dss.example"], OTHER_HOST),
            ("an origin", [f"Origin: http://localhost:{port}"], WEB_PAGE),
            ("no origin", ["Origin: null"], WEB_PAGE),
            ("ORIGIN", ["ORIGIN:"], WEB_PAGE),
            ("another site", ["Sec-Fetch-Site: cross-site"], WEB_PAGE),
            ("the same site", ["sec-fetch-site: same-site"], WEB_PAGE),
            ("two sites", ["Sec-Fetch-Site: none", "Sec-Fetch-Site: cross-site"], WEB_PAGE),
        ):
            for path in "/health", "/metrics", "/airspace", "/nothing":
                table.append((f"{name}, {path}", asks("GET", path, field), said(403, wanted)))
        for name, field in ("an address that is typed", "none"), ("its own page", "same-origin"):
            table.append((name, asks("GET", "/health", [f"Sec-Fetch-Site: {field}", f"Host: {hosts[1]}"]), said(200, SERVING)))
        form = [f"Host: {hosts[0]}", "Content-Type: application/x-www-form-urlencoded", "Content-Length: 0"]
        for name, fields, wanted in (
            ("a form", form, UNCONFIRMED),
            ("a form of another site", [*form, "Origin: https://dss.example", "Sec-Fetch-Site: cross-site"], WEB_PAGE),
            ("a field of another value", [*form, "X-Dss-Admin: 0"], UNCONFIRMED),
            ("a script", [*form, "X-Dss-Admin: 1", "Origin: https://dss.example"], WEB_PAGE),
            ("a script at a name of its own", ["Host: dss.example", "X-Dss-Admin: 1"], OTHER_HOST),
        ):
            for path in "/stop", "/backup?name=a", "/file", "/health":
                table.append((f"{name}, {path}", asks("POST", path, fields, confirmed=False), said(403, wanted)))
        found = []
        for name, sent, wanted in table:
            found += difference(name, started.asked(sent), wanted)
        found += difference("its health", started.asked(HEALTH), said(200, SERVING))
        found += difference("the stop", started.asked(asks("POST", "/stop", [f"Host: {hosts[0]}", "x-dss-admin: 1"],
                                                              confirmed=False)), said(200, b"stopping\n"))
        return found + difference("the service", started.ended(), (0, b"", started.listening))


def browse(folder, address, *options):
    """Returns what Chromium shows of an address, after the navigations of its page."""
    words = ["chromium", "--headless", "--no-sandbox", "--disable-gpu", f"--user-data-dir={folder}/browser", *options]
    words += ["--virtual-time-budget=5000", "--dump-dom", address]
    return subprocess.run(words, capture_output=True, text=True, timeout=SECONDS, check=False).stdout


def of_a_browser():
    """Chromium can read the health at the port's own address. A page with a form cannot stop the
    service, and a name that resolves to this machine cannot read the airspace."""
    if not shutil.which("chromium"):
        raise Skipped("chromium is missing")
    with AdminService() as started:
        page = started.folder / "page.html"
        action = f"http://127.0.0.1:{started.admin}/stop"
        page.write_text(f'<form id="f" method="post" action="{action}"></form><script>document.getElementById("f").submit()</script>')
        resolved = f"--host-resolver-rules=MAP dss.example 127.0.0.1:{started.admin}"
        found = []
        for name, shown, words in (
            ("its own address", browse(started.folder, f"http://127.0.0.1:{started.admin}/health"), SERVING),
            ("a form", browse(started.folder, page.as_uri()), WEB_PAGE),
            ("a name", browse(started.folder, f"http://dss.example:{started.admin}/airspace", resolved), OTHER_HOST),
        ):
            found += [] if words.decode().strip() in shown else [f"{name}: {shown!r}"]
        return found + difference("its health", started.asked(HEALTH), said(200, SERVING))


def counts():
    """The metrics of known clients have their values, and each has its help and its type."""
    began = time.time()
    with AdminService() as started:
        before = time.time()
        text = started.asked(METRICS)
        found = difference("the head of it", text.startswith(said(200, b"", PROMETHEUS)[:-len("0\r\nConnection: close\r\n\r\n")]), True)
        body = text.partition(b"\r\n\r\n")[2].decode()
        found += difference("types", dict(re.findall(r"^# TYPE (\S+) (\S+)$", body, re.M)), NAMES)
        found += difference("helps", sorted(re.findall(r"^# HELP (\S+) \S", body, re.M)), sorted(NAMES))
        lines = [it for it in body.splitlines() if not re.fullmatch(r'# (HELP|TYPE) .*|(dss|process)_\w+(\{\w+="[^"]*"(,\w+="[^"]*")*\})? \d+(\.\d+)?', it)]
        found += difference("lines of no form", lines, [])
        first = started.counted()
        found += difference("when it started", began - 1 <= int(first["dss_start_time_seconds"]) <= before + 1, True)
        found += difference("when its tokens were read", first["dss_tokens_loaded_time_seconds"], first["dss_start_time_seconds"])
        there = {name: number for name, number in first.items() if "_time_" not in name and "build" not in name}
        ones = ["dss_mirror_up", "dss_tokens_valid", 'dss_health{state="serving"}']
        found += difference("a mirror, a valid token file, health", [there.pop(it) for it in ones], ["1"] * len(ones))
        for it in ("", "-wal"):
            size = there.pop(f"dss_database{'_log' if it else ''}_bytes")
            found += difference(f"bytes of dss.db{it}", size, f"{(started.folder / f'dss.db{it}').stat().st_size}")
        found += of_process(started)
        found += difference("of no clients", set(there.values()), {"0"})
        refusal = started.exchange(b"no request\r\n\r\n", ends=False)
        started.exchange(ASKED + CLOSING, ends=False)
        denied = started.exchange(wire.request("GET", wire.AVAILABILITY, None, fields=["Connection: close"]), ends=False)
        with started.connect() as held:
            held.sendall(ASKED[:10])
            counted = until_counted(started, "dss_connections_accepted_total", "4")
            found += difference("open", counted["dss_connections_open"], "1")
            reset(held)
        counted = until_counted(started, "dss_connections_open", "0")
        wanted = {'dss_requests_total{operation="read_availability",status="200"}': "2",
                  'dss_requests_total{operation="none",status="400"}': "1", 'dss_requests_total{operation="none",status="404"}': "1",
                  'dss_requests_denied_total{rule="H1"}': "1", 'dss_requests_denied_total{rule="P1"}': "1",
                  'dss_request_duration_seconds_count{operation="none"}': "2", 'dss_connections_failed_total{cause="read"}': "1",
                  "dss_connections_refused_total": "0", "dss_large_requests_waiting": "0",
                  "dss_response_bytes_total": f"{len(refusal + ANSWER + LAST + denied)}"}
        found += difference("what is counted", {it: counted.get(it) for it in wanted}, wanted)
        return found


def ends():
    """After `POST /stop` the service answers a complete request of each client, closes its connections and exits. It
    accepts no new client."""
    found = []
    with AdminService() as started, contextlib.ExitStack() as stack:
        silent, half, kept = (stack.enter_context(started.connect()) for _ in range(3))
        half.sendall(PUT[:-1])
        kept.sendall(ASKED)
        found += difference("an answer", kept.recv(1 << 16), ANSWER)
        until_counted(started, "dss_connections_open", "3")
        began = time.monotonic()
        # These bytes are in the socket when the stop begins.
        kept.sendall(PUT)
        found += difference("the stop", started.asked(STOP), said(200, b"stopping\n"))
        found += difference("a silent client", until_closed(silent), b"")
        found += difference("half a request", until_closed(half), b"")
        statuses = [it[9:12] for it in wire.answers_of(until_closed(kept))]
        found += difference("a whole request", statuses, [b"200"])
        found += difference("the service", started.ended(), (0, b"", started.listening))
        found += exceeded(time.monotonic() - began, END, "its end")
        with contextlib.suppress(ConnectionRefusedError), started.connect() as late:
            found += [f"a client after the end is connected: {late}"]
        started.start()
        found += difference("what was done", b'"Down"' in started.exchange(CLOSING, ends=False), True)
    return found


def filled(started, held, sent):
    """Stores intents, and sends requests of a client that reads no response until no more of them are answered."""
    puts = list(stored_intents())
    for at in range(0, len(puts), wire.MAX_REQUESTS):
        started.ask(puts[at : at + wire.MAX_REQUESTS])
    held.setsockopt(socket.SOL_SOCKET, socket.SO_RCVBUF, 4096)
    held.connect(("127.0.0.1", started.port))
    held.sendall(sent)
    # Once the buffers are full, no request is answered.
    made = []
    while len(made) < 3 or len(set(made[-3:])) > 1:
        made.append(started.counted()["dss_response_bytes_total"])
        time.sleep(1)


def closes_after_its_stop():
    """After `POST /stop` the next response on a connection has `Connection: close` and is the last one. An idle
    connection is closed."""
    found = []
    with AdminService() as started, socket.socket() as held, started.connect() as idle:
        idle.sendall(ASKED)
        found += difference("an answer", idle.recv(1 << 16), ANSWER)
        # One request less than a connection may make, so that no response closes it for that reason.
        filled(started, held, QUERY * (wire.MAX_REQUESTS - 1))
        found += difference("the stop", started.asked(STOP), said(200, b"stopping\n"))
        found += difference("an idle client", until_closed(idle), b"")
        answers = wire.answers_of(until_closed(held))
        closing = [b"\r\nConnection: close\r\n" in it.partition(b"\r\n\r\n")[0] + b"\r\n" for it in answers]
        found += difference("the responses that close", closing, [False] * (len(closing) - 1) + [True])
        found += difference("some requests are not answered", len(answers) < wire.MAX_REQUESTS - 1, True)
        found += difference("the service", started.ended()[:2], (0, b""))
    return found


def ends_with_others():
    """It stops in time beside a client that reads none of its responses and operators that wait, and reports that it is
    stopping."""
    found = []
    with AdminService() as started, socket.socket() as held, contextlib.ExitStack() as stack:
        filled(started, held, QUERY * wire.MAX_REQUESTS)
        waiting, asking = (stack.enter_context(started.operator()) for _ in range(2))
        asking.sendall(HEALTH[:20])
        started.until_read(asking)
        began = time.monotonic()
        found += difference("the stop", started.asked(STOP), said(200, b"stopping\n"))
        asking.sendall(HEALTH[20:])
        found += difference("its health", until_closed(asking), said(503, STOPPING))
        found += difference("one that waits", until_closed(waiting), b"")
        found += difference("the service", started.ended()[:2], (0, b""))
        took = time.monotonic() - began
        # A stopping service waits three seconds for its clients, in which a busy machine may not have served them.
        found = exceeded(took, END, "its end") or found + ([] if took > 2 else [f"it took {took:.1f} s"])
    return found


def broken():
    """A service whose database failed in a change reports that, and still returns its metrics."""
    put = PUT.replace(b"\r\n\r\n", b"\r\nConnection: close\r\n\r\n")
    found = []
    with Failing() as room:
        # The first failures are in the opening of the files, so that the service does not listen, and later ones in the
        # change.
        for at in range(1, 100):
            environment = {"LD_PRELOAD": room.library, "FAIL_AT": f"{at}", "FAIL_ON": "1"}
            with contextlib.suppress(OSError), AdminService(more=environment) as started:
                answer = started.exchange(put, ends=False)
                if answer == wire.answer(*STOPPED, closes=True):
                    found += difference("its health", started.asked(HEALTH), said(503, DEAD))
                    counted = started.counted()
                    found += difference("counted", counted['dss_requests_total{operation="set_availability",status="503"}'], "1")
                    found += difference("faults", counted["dss_store_failures_total"], "1")
                    return found + difference("the stop", started.asked(STOP), said(200, b"stopping\n"))
                health = said(503, FAILING) if answer == wire.answer(*FAULT, closes=True) else said(200, SERVING)
                found += difference(f"{at}: its health", started.asked(HEALTH), health)
    return [*found, "no change stopped"]


def begun(started, stack, count):
    """Returns so many operators that have each begun a request, which the service has read."""
    held = []
    for _ in range(count):
        held.append(stack.enter_context(started.operator()))
        held[-1].sendall(HEALTH[:9])
        started.until_read(held[-1])
    return held


def many():
    """Sixteen operators stay connected, and one more is served beside them, whether they are idle or have begun a
    request. For it, the one that has been idle for the longest is closed. Clients are served meanwhile."""
    found = []
    with AdminService() as started:
        with contextlib.ExitStack() as stack:
            # It accepts them all at once, so that none has been idle for long before the last one comes.
            with started.paused():
                held = [stack.enter_context(started.operator()) for _ in range(MOST)]
            connected = time.monotonic()
            started.until_read(held[-1])
            time.sleep(IDLE)
            for at, connection in enumerate(held):
                connection.settimeout(0.01)
                with contextlib.suppress(TimeoutError):
                    found += [f"idle operator {at} is closed: {connection.recv(1)}"]
                connection.settimeout(SECONDS)
            with started.operator() as late:
                late.sendall(HEALTH)
                found += difference("one more", until_closed(late), said(200, SERVING))
            found += difference("the first one", until_closed(held[0]), b"")
            held[1].sendall(HEALTH)
            found += difference("the second one", until_closed(held[1]), said(200, SERVING))
        # The service closes those that send nothing for this long.
        if late := exceeded(time.monotonic() - connected, FIRST - 1, "those that were silent"):
            return late
        with contextlib.ExitStack() as stack:
            connected = time.monotonic()
            held = begun(started, stack, MOST)
            with started.operator() as late:
                late.sendall(HEALTH)
                found += difference("one beside those that have begun", until_closed(late), said(200, SERVING))
            found += difference("a client", started.exchange(CLOSING, ends=False), LAST)
            for at, connection in enumerate(held):
                connection.sendall(HEALTH[9:])
                found += difference(f"operator {at}", until_closed(connection), said(200, SERVING))
        # The service also closes those that take this long for a request.
        return exceeded(time.monotonic() - connected, SENDING - 1, "those that had begun") or found


def crowd():
    """An operator is answered at once beside many connections that send nothing."""
    with AdminService() as started, contextlib.ExitStack() as stack:
        for _ in range(CROWD):
            stack.enter_context(started.operator())
        began = time.monotonic()
        found = difference("the operator", started.asked(HEALTH), said(200, SERVING))
        return exceeded(time.monotonic() - began, AT_ONCE, "the response") or found


def without_port():
    """A port in use gives one line and status 1. An invalid number is rejected."""
    found = []
    with socket.create_server(("127.0.0.1", 0)) as taken, Service() as started:
        words = started.command()
        started.kill()
        port = taken.getsockname()[1]
        found += difference("a port that is taken", run([*words, "--admin-port", f"{port}"]), (1, b"", SOCKET))
        found += difference("the port of clients", run([*words, "--admin-port", f"{started.port}"]), (1, b"", SOCKET))
        for number in "0", "65536", "x", "", "localhost:1", "127.0.0.2:1", "0.0.0.0:1", "[::]:1", "::1", "[::1]:0":
            refusal = (
                f"error: --admin-port {number}: no port from 1 to 65535, alone or after 127.0.0.1 or [::1]; "
                "write 8078, 127.0.0.1:8078 or [::1]:8078\n"
            )
            found += difference(f"--admin-port {number}", run([*words, "--admin-port", number]), (2, b"", refusal.encode()))
    return found


def elsewhere():
    """The service listens on another address, and prints it. The admin port stays on its own address. An invalid
    address is rejected."""
    found = []
    with Service() as started:
        words = started.command()
        started.kill()
        for address in "127.0.0.2", "0.0.0.0":
            with Listening(address) as other:
                with socket.create_connection(("127.0.0.2", other.port), timeout=SECONDS) as connection:
                    connection.sendall(CLOSING)
                    found += difference(address, until_closed(connection), LAST)
                found += difference(f"{address}, health", other.asked(HEALTH), said(200, SERVING))
                with contextlib.suppress(ConnectionRefusedError), socket.create_connection(("127.0.0.2", other.admin)):
                    found += [f"{address}: the operator's port is elsewhere, too"]
                with contextlib.suppress(ConnectionRefusedError), socket.create_connection(("127.0.0.1", other.port)):
                    found += [f"{address}: 127.0.0.1 is listened on, too"] if address == "127.0.0.2" else []
        for text in "", "localhost", "1.2.3", "1.2.3.4.5", "256.0.0.1", "127.0.0.1:0", "localhost:80", "[::1]", "01.0.0.1":
            refusal = (
                f"error: --listen {text}: no IP address, with or without a port; "
                "write 127.0.0.1, ::1, 127.0.0.1:8080 or [::1]:8080\n"
            )
            found += difference(f"--listen {text}", run([*words, "--listen", text]), (2, b"", refusal.encode()))
        found += difference("an address of others", run([*words, "--listen", "192.0.2.1"]), (1, b"", SOCKET))
    return found


def over_ipv6():
    """The service listens on an IPv6 address, prints it in brackets, and answers there. Without IPv6, it exits."""
    found = []
    if not has_ipv6():
        with Service() as started:
            words = started.command()
            started.kill()
            return difference("without IPv6", run([*words, "--listen", "::1"]), (1, b"", SOCKET))
    for address in "::1", "::":
        with Listening(address) as started:
            with socket.create_connection(("::1", started.port), timeout=SECONDS) as connection:
                connection.sendall(CLOSING)
                found += difference(address, until_closed(connection), LAST)
            found += difference(f"{address}, health", started.asked(HEALTH), said(200, SERVING))
            if address == "::1":
                with contextlib.suppress(ConnectionRefusedError), socket.create_connection(("127.0.0.1", started.port)):
                    found += [f"{address}: 127.0.0.1 is listened on, too"]
            elif BOTH_VERSIONS.read_text() == "0\n":
                found += difference(f"{address}, an IPv4 client", started.exchange(CLOSING), LAST)
            found += difference(f"{address}, the stop", started.asked(STOP), said(200, b"stopping\n"))
            found += difference(f"{address}, the service", started.ended(), (0, b"", started.listening))
    return found


def several():
    """The service listens on several addresses, with an admin port of IPv6. If one of them is taken, it exits."""
    if not has_ipv6():
        return []
    with Several() as started:
        found = []
        for host, port in (("127.0.0.1", started.port), ("::1", started.second)) * 3:
            with socket.create_connection((host, port), timeout=SECONDS) as connection:
                connection.sendall(CLOSING)
                found += difference(host, until_closed(connection), LAST)
        host = [f"Host: [::1]:{started.admin}"]
        found += difference("its health", started.asked(asks("GET", "/health", host)), said(200, SERVING))
        with contextlib.suppress(ConnectionRefusedError), socket.create_connection(("127.0.0.1", started.admin)):
            found += ["the admin port is on 127.0.0.1, too"]
        words = started.command()
        found += difference("in use", run([it.replace("dss.db", "other.db") for it in words]), (1, b"", SOCKET))
        found += difference("the stop", started.asked(STOP), said(200, b"stopping\n"))
        return found + difference("the service", started.ended(), (0, b"", started.listening))


def version():
    """The version is that of the package, and the kit that of the release."""
    number = re.search(r"^## ([\d.]+)", (TOP / "CHANGELOG.md").read_text(), re.M)[1]
    kit = re.search(r"^kit (.*)$", (TOP / "release" / "made-of").read_text(), re.M)[1]
    found = []
    for word in "--version", "-V":
        found += difference(word, run([BUILT, word]), (0, f"dss {number} ({kit})\n".encode(), b""))
    with AdminService() as started:
        counted = started.counted()
    return found + difference("as it is counted", counted.get(f'dss_build_info{{version="{number}",kit="{kit}"}}'), "1")


class Several(AdminService):
    """The same on an address of each version, with an admin port of IPv6."""

    admin_address = "[::1]"

    def command(self):
        words = super().command()
        return [*words[:-1], f"[::1]:{self.admin}", "--listen", "127.0.0.1", "--listen", f"[::1]:{self.second}"]

    def listens(self):
        return super().listens() + f"dss: listening on [::1]:{self.second}\n"

    def start(self):
        self.second = free_port()
        super().start()


class Listening(AdminService):
    """The same on a given address."""

    def __init__(self, address):
        super().__init__()
        self.given, self.address = address, f"[{address}]" if ":" in address else address

    def command(self):
        return [*super().command(), "--listen", self.given]


CASES = {
    "admin-port": again(paths),
    "admin-port-and-web-pages": of_web_pages,
    "admin-port-and-a-browser": of_a_browser,
    "admin-port-metrics": counts,
    "admin-port-ends-the-service": again(ends),
    "admin-port-last-responses": again(closes_after_its_stop),
    "admin-port-ends-it-in-time": again(ends_with_others),
    "admin-port-of-a-broken-service": broken,
    "admin-port-with-many": again(many),
    "admin-port-in-a-crowd": again(crowd),
    "admin-port-in-use": without_port,
    "another-address": elsewhere,
    "ipv6-address": over_ipv6,
    "several-addresses": several,
    "version": version,
}
