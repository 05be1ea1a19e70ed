"""Bounds on what one client can use of the gateway: time, memory, connections; and on the exact input that it accepts."""
import contextlib
import json
import os
import pathlib
import resource
import socket
import stat
import struct
import subprocess
import threading
import time

from flows import over_tables
from hostile import OPEN, PATH, comb
from properties import translate
from standard import check
from world import (
    FRONT, INTENTS, MANHATTAN, STRATEGIC, TOP, Counted, Gateway, expect, extent, intent, new_id, polygon, query_of, responses, until)

MEGABYTE = 1 << 20


def tightly(teeth, height, width):
    """Returns a comb that is as hard to cover as one with sufficiently separate vertices can be."""
    return polygon(*[(round(height * (k // 2 % 2), 7), round(width * (k // 2 + k % 2 / 2) / teeth, 7)) for k in range(2 * teeth)],
                   (-0.01, width / 2))


def hard_put():
    """Returns a body that takes longer to cover than permitted: combs, each within the bounds."""
    one = extent(tightly(499, 0.009, 0.0004))
    return json.dumps(intent(*[one] * 24), separators=(",", ":"))


def at_once(*jobs):
    """Runs jobs at once and returns their results."""
    found = [None] * len(jobs)

    def one(number):
        found[number] = jobs[number]()
    threads = [threading.Thread(target=one, args=(k,), daemon=True) for k in range(len(jobs))]
    [it.start() for it in threads]
    [it.join(600) for it in threads]
    return found


def seconds_of(job):
    began = time.time()
    job()
    return time.time() - began


def at_once_of(job):
    """Checks that a job takes few seconds. A busy machine may need one more try."""
    spent = [seconds_of(job)]
    while spent[-1] >= 5 and len(spent) < 3:
        spent.append(seconds_of(job))
    assert spent[-1] < 5, spent


def of_process(gateway, name):
    """Returns a value in kB of the system's record of the process."""
    line = next(it for it in pathlib.Path(f"/proc/{gateway.process.pid}/status").read_text().splitlines() if it.startswith(name + ":"))
    return int(line.split()[1])


def processor_seconds(gateway):
    words = pathlib.Path(f"/proc/{gateway.process.pid}/stat").read_text().rsplit(") ", 1)[1].split()
    return (int(words[11]) + int(words[12])) / os.sysconf("SC_CLK_TCK")


def seconds_until_idle(gateway):
    """Returns the processor seconds that it uses from now on."""
    first = now = processor_seconds(gateway)
    for _ in range(60):
        time.sleep(1)
        before, now = now, processor_seconds(gateway)
        if now - before < 0.05:
            return now - first
    return now - first


def open_to(gateway, data=b""):
    it = socket.create_connection(("127.0.0.1", gateway.port), 100)
    it.sendall(data)
    return it


def request(files, method, path, body=b"", sub="uss-a", fields=b""):
    token = files.token(sub, STRATEGIC).encode()
    length = b"Content-Length: %d\r\n" % len(body) if body else b""
    return b"%s %s HTTP/1.1\r\nAuthorization: Bearer %s\r\n%s%s\r\n" % (method.encode(), path.encode(), token, fields, length) + body


# ---- time

def outlines_of_one_supplier_keep_nobody_out(files, program):
    """24 requests with the comb that took minutes, and 8 bodies as hard as the bounds permit, at once: they end soon,
    and others get responses."""
    with over_tables(files, program) as place:
        large = json.dumps(query_of(comb(4_999, 1e-7)))
        mine, other = files.token("uss-a", STRATEGIC), files.token("uss-b", STRATEGIC)
        bodies = [(f"{INTENTS}/query", "POST", large)] * 24 + [(f"{INTENTS}/{new_id()}", "PUT", hard_put())] * 8
        answers = []
        senders = [threading.Thread(target=lambda it=it: answers.append(place.gateway.ask(mine, it[1], it[0], it[2])), daemon=True)
                   for it in bodies]
        [it.start() for it in senders]
        time.sleep(0.3)
        for _ in range(10):
            at_once_of(lambda: expect(place.gateway.ask(other, "POST", f"{INTENTS}/query", query_of(MANHATTAN)), 200))
            time.sleep(0.1)
        [it.join(600) for it in senders]
        assert [it.status for it in answers] == [413] * 32, answers
        assert sum("take too long" in it.json["message"] for it in answers) == 8


def vertices_that_are_too_close(files, program):
    step = 2e-7  # two centimetres
    ring = [(0, 0), (0, 0.01), (0, 0.01 + step), (0.01, 0.01)]
    far = [(0, 0), (0, 0.01), (0, 0.01 + 2 * step), (0.01, 0.01)]
    first, second = translate(program, [("query", query_of(polygon(*it))) for it in (ring, far)])
    assert first["status"] == 400 and "3 cm" in first["message"], first
    assert "area_of_interest" in second


def work_ends_with_its_client(files, program):
    """The gateway aborts the work of a client that has reset or closed its connection."""
    with over_tables(files, program) as place:
        data = request(files, "PUT", f"{INTENTS}/{new_id()}", hard_put().encode())
        for number in range(2):
            clients = [open_to(place.gateway, data) for _ in range(40)]
            time.sleep(1)
            for it in clients:
                if number == 0:
                    it.setsockopt(socket.SOL_SOCKET, socket.SO_LINGER, struct.pack("ii", 1, 0))
                it.close()
            # Each would take a second. Those of closed connections are only read.
            assert seconds_until_idle(place.gateway) < 16, number
        expect(place.gateway.ask(files.token("uss-a", STRATEGIC), "GET", PATH), 200)
    # With a slow service, waiting requests of the same USS are not sent any more.
    service = Counted(pause=600)
    gateway = Gateway(program, files, service.port)
    clients = [open_to(gateway, request(files, "GET", PATH)) for _ in range(20)]
    assert until(lambda: len(service.asked) >= 4), service.asked
    [it.close() for it in clients]
    time.sleep(3)
    service.pause = 2
    time.sleep(5)
    assert 4 <= len(service.asked) <= 8, service.asked
    # A client that has only shut down its side is known to wait, and gets its response.
    got = gateway.raw(request(files, "GET", PATH), end=True)
    assert got.startswith(b"HTTP/1.1 100 Continue\r\n\r\nHTTP/1.1 200 OK\r\n"), got
    assert gateway.end(), gateway.lines()[-3000:]
    service.end()


def each_supplier_has_its_share(files, program):
    """With a slow service and 150 requests of one USS, another USS gets its response, and requests beyond the share are
    denied."""
    service = Counted(pause=600)
    gateway = Gateway(program, files, service.port)
    mine, other = files.token("uss-a", STRATEGIC), files.token("uss-b", STRATEGIC)
    statuses = []
    many = [threading.Thread(target=lambda: statuses.append(gateway.ask(mine, "GET", PATH).status), daemon=True) for _ in range(150)]
    [it.start() for it in many]
    # Those beyond the share are denied before the service gives its first response.
    until(lambda: len(statuses) >= 20)
    time.sleep(1)
    service.pause = 0.5
    for _ in range(3):
        at_once_of(lambda: expect(gateway.ask(other, "GET", PATH), 200))
    [it.join(600) for it in many]
    assert set(statuses) == {200, 429} and 20 <= statuses.count(429) <= 50, statuses
    assert gateway.end(), gateway.lines()[-3000:]
    assert service.at_once <= 5, service.at_once
    service.end()


# ---- memory

def fields_without_end(files, program):
    """A head is read up to 8,192 bytes and 100 fields."""
    with over_tables(files, program) as place:
        gateway = place.gateway
        before = of_process(gateway, "VmHWM")
        with open_to(gateway, b"GET %s HTTP/1.1\r\n" % PATH.encode()) as it:
            sent = 0
            with contextlib.suppress(OSError):
                while sent < 48 * MEGABYTE:
                    it.sendall(b"a: b\r\n" * 10_000)
                    sent += 60_000
            assert responses(it).startswith(b"HTTP/1.1 400") or sent < 8 * MEGABYTE
        assert of_process(gateway, "VmHWM") - before < 20_000, of_process(gateway, "VmHWM")
        for count, status in ((99, 200), (100, 400)):
            got = gateway.raw(request(files, "GET", PATH, fields=b"a: b\r\n" * count))
            assert got.startswith(b"HTTP/1.1 %d" % status), got[:200]
        # The token is checked before any byte of a body is read.
        with open_to(gateway, b"PUT %s HTTP/1.1\r\nContent-Length: 1000000\r\n\r\n" % PATH.encode()) as it:
            assert responses(it).startswith(b"HTTP/1.1 401")


def bodies_of_many_values(files, program):
    """32 bodies of a mebibyte of empty objects at once, from one USS."""
    with over_tables(files, program) as place:
        body = '{"a":[' + ",".join(["{}"] * 349_000) + "]}"
        token = files.token("uss-a", STRATEGIC)
        answers = at_once(*[lambda: place.gateway.ask(token, "POST", f"{INTENTS}/query", body)] * 32)
        for it in answers:
            expect(check(it), 413, "100,000 values")
        assert of_process(place.gateway, "VmHWM") < 200_000, of_process(place.gateway, "VmHWM")


def answers_that_are_large(files, program):
    """16 responses at once to four USSs, each of 12 megabytes; a response beyond the bound is not read."""
    service = Counted()
    gateway = Gateway(program, files, service.port)
    one = {"id": new_id(), "manager": "uss-a", "version": 1, "ovn": "a" * 64, "time_start": 1, "time_end": 2, "uss_base_url": "https://a.example"}
    service.answer = json.dumps({"operational_intent_references": [one] * 50_000}, separators=(",", ":")).encode()
    tokens = [files.token(it, STRATEGIC) for it in ("uss-a", "uss-b", "uss-c", "uss-v")]
    found = at_once(*[lambda k=k: gateway.ask(tokens[k % 4], "POST", f"{INTENTS}/query", query_of(MANHATTAN)).status for k in range(16)])
    assert found == [200] * 16, found
    assert of_process(gateway, "VmHWM") < 600_000, of_process(gateway, "VmHWM")
    service.answer = service.answer[:-2] + b"," + json.dumps(["x" * 17 * MEGABYTE]).encode()[1:] + b"}"
    expect(gateway.ask(tokens[0], "POST", f"{INTENTS}/query", query_of(MANHATTAN)), 413, "16 MiB")
    put = {"availability": "Down", "old_version": ""}
    expect(gateway.ask(tokens[0], "PUT", PATH, put), 504, OPEN)
    assert gateway.end(), gateway.lines()[-3000:]
    service.end()


# ---- connections

def slow_clients_keep_nobody_out(files, program):
    """60 clients that send a byte a second: others get responses at once, and the slow connections are aborted after
    half a minute. On a busy machine a client may pause for so long that it is aborted for that, after 10 s."""
    with over_tables(files, program) as place:
        gateway, began = place.gateway, time.time()
        head = request(files, "PUT", f"{INTENTS}/{new_id()}", b"{" + b" " * 90)
        slow = [open_to(gateway, head[:-91] if k % 2 else b"GET / HTTP/1.1\r\nX: ") for k in range(60)]
        silent, closed = open_to(gateway), []
        threading.Thread(target=lambda: closed.append((silent.recv(10), time.time() - began)), daemon=True).start()
        gone, sent, pauses = {}, [time.time()] * 60, [0] * 60
        while time.time() - began < 50 and len(gone) < len(slow):
            for k, it in enumerate(slow):
                if k in gone:
                    continue
                pauses[k] = max(pauses[k], time.time() - sent[k])
                sent[k] = time.time()
                try:
                    it.send(b" ")
                    it.settimeout(0.001)
                    gone[k] = (time.time() - began, it.recv(1000))
                except TimeoutError:
                    pass
                except OSError:
                    gone[k] = (time.time() - began, b"")
            at_once_of(lambda: expect(gateway.ask(files.token("uss-b", STRATEGIC), "GET", PATH), 200))
            time.sleep(1)
        is_aborted = lambda k, status: gone[k][1].startswith(b"HTTP/1.1 %d" % status) and (29 <= gone[k][0] < 45 or pauses[k] > 9)
        assert all(is_aborted(k, 408) for k in range(0, 60, 2)), (gone, pauses)
        # Of one USS's share only some bodies are read at once.
        assert sum(is_aborted(k, 400) for k in range(1, 60, 2) if k in gone) >= 4, (gone, pauses)
        assert until(lambda: closed) and closed[0][0] == b"" and 59 < closed[0][1] < 90, closed
        [it.close() for it in slow]


def connections_beyond_the_bound_wait(files, program):
    with over_tables(files, program, "--connections", "20") as place:
        silent = [open_to(place.gateway) for _ in range(60)]
        time.sleep(2)
        sockets = [os.readlink(it) for it in pathlib.Path(f"/proc/{place.gateway.process.pid}/fd").iterdir() if it.is_symlink()]
        assert sum(it.startswith("socket:") for it in sockets) <= 22, sockets
        began, token = time.time(), files.token("uss-a", STRATEGIC)
        threading.Timer(1.5, lambda: [it.close() for it in silent]).start()
        expect(place.gateway.ask(token, "GET", PATH), 200)
        assert 1 < time.time() - began < 20, time.time() - began
    # If few connections are left, silent ones get less time.
    with over_tables(files, program, "--connections", "100") as place:
        began = time.time()
        silent = [open_to(place.gateway) for _ in range(110)]
        expect(place.gateway.ask(files.token("uss-a", STRATEGIC), "GET", PATH), 200)
        assert 4 < time.time() - began < 40, time.time() - began
        [it.close() for it in silent]


def descriptors_that_are_used_up(files, program):
    """1,100 connections to a gateway with at most 256 descriptors: it lives, idles, and answers when they are closed."""
    with over_tables(files, program, prepare=lambda: resource.setrlimit(resource.RLIMIT_NOFILE, (256, 256))) as place:
        silent = [open_to(place.gateway) for _ in range(1_100)]
        # A busy machine may still take the connections.
        spent = []
        while len(spent) < 5 and (not spent or spent[-1] >= 0.5):
            before = processor_seconds(place.gateway)
            time.sleep(2)
            spent.append(processor_seconds(place.gateway) - before)
        assert spent[-1] < 0.5, spent
        [it.close() for it in silent]
        expect(place.gateway.ask(files.token("uss-a", STRATEGIC), "GET", PATH), 200)


def a_socket_of_unix(files, program):
    """A Unix socket is only for the user and the group, whatever the umask. The socket of a killed gateway is replaced."""
    path = files.folder / "gateway.socket"
    token = files.token("uss-a", STRATEGIC)
    with over_tables(files, program) as place:
        for umask in (0, 0o077):
            other = Gateway(program, files, place.service.port, path=path, prepare=lambda: os.umask(umask))
            assert stat.S_IMODE(path.stat().st_mode) == 0o660, oct(path.stat().st_mode)
            with contextlib.closing(socket.socket(socket.AF_UNIX)) as it:
                it.connect(str(path))
                it.sendall(b"GET %s HTTP/1.1\r\nAuthorization: Bearer %s\r\n\r\n" % (PATH.encode(), token.encode()))
                assert responses(it).startswith(b"HTTP/1.1 200")
            second = subprocess.run([program, "serve", *other.words], capture_output=True, text=True, timeout=300)
            assert second.returncode == 1 and "is taken" in second.stderr and path.exists()
            other.process.kill()
            other.process.wait()
            assert path.exists()
        other = Gateway(program, files, place.service.port, path=path)
        # Here a closed connection differs from one that has shut down its side.
        data = request(files, "PUT", f"{INTENTS}/{new_id()}", hard_put().encode())
        with contextlib.closing(socket.socket(socket.AF_UNIX)) as it:
            it.connect(str(path))
            it.sendall(data)
        assert until(lambda: " 499 " in other.lines()), other.lines()
        assert other.end() and not path.exists()


# ---- forms

def values_are_taken_to_the_letter(files, program):
    token = files.token("uss-a", STRATEGIC).encode()
    body = json.dumps({"availability": "Down"}).encode()
    put = b"PUT %s HTTP/1.1\r\nAuthorization: Bearer %s\r\n" % (PATH.encode(), token)
    get = b"GET %s HTTP/1.1\r\n" % PATH.encode()
    with over_tables(files, program) as place:
        encoded = b"".join(b"%%%x" % it for it in b"%d" % len(body))
        for data, status in (
                (put + b"Content-Length: %s\r\n\r\n%s" % (encoded, body), 400), (put + b"Content-Length: +%d\r\n\r\n%s" % (len(body), body), 400),
                (put + b"Content-Length: %d, %d\r\n\r\n%s" % (len(body), len(body), body), 400),
                (put + b"Content-Length:\r\n\r\n" + body, 400), (put + b"Content-Length: 2\r\n 2\r\n\r\n" + body, 400),
                (get + b"Authorization: Bearer%20" + token + b"\r\n\r\n", 401), (get + b"Authorization: Bearer " + token + b"%00x\r\n\r\n", 401),
                (get + b"Authorization: Bearer " + token + b"\0x\r\n\r\n", 400), (get + b"Authorization: Bearer " + token + b"\r\n\r\n", 200),
                (get + b"Authorization : Bearer " + token + b"\r\n\r\n", 400), (put + b"Transfer-Encoding: %63hunked\r\n\r\n0\r\n\r\n", 411)):
            got = place.gateway.raw(data)
            assert got.startswith(b"HTTP/1.1 %d" % status), (data, got)


def half_closed_clients_are_answered(files, program):
    with over_tables(files, program) as place:
        body = json.dumps(intent(extent(MANHATTAN))).encode()
        for data, status in ((request(files, "PUT", f"{INTENTS}/{new_id()}", body), 201), (request(files, "GET", PATH), 200),
                             (request(files, "GET", PATH)[:-2], 400), (request(files, "PUT", f"{INTENTS}/{new_id()}", body)[:-1], 400)):
            got = place.gateway.raw(data, end=True)
            assert got.startswith(b"HTTP/1.1 %d" % status), (data, got)
        # A client that waits for 100 Continue before it sends its body.
        head = request(files, "PUT", f"{INTENTS}/{new_id()}", json.dumps(intent(extent(MANHATTAN), state="Up")).encode(),
                       fields=b"Expect: 100-continue\r\n")
        end = head.index(b"\r\n\r\n") + 4
        with open_to(place.gateway, head[:end]) as it:
            assert it.recv(100) == b"HTTP/1.1 100 Continue\r\n\r\n"
            it.sendall(head[end:])
            assert responses(it).startswith(b"HTTP/1.1 400 ")


def requests_in_pieces(files, program):
    """Wherever a request is cut, its response is the same."""
    body = json.dumps(query_of(MANHATTAN)).encode()
    data = request(files, "POST", f"{INTENTS}/query", body)
    end = len(data) - len(body)
    with over_tables(files, program) as place:
        for at in [*range(1, end - 6, 41), *range(end - 6, end + 6), len(data) - 1]:
            with open_to(place.gateway, data[:at]) as it:
                it.setsockopt(socket.IPPROTO_TCP, socket.TCP_NODELAY, 1)
                time.sleep(0.02)
                it.sendall(data[at:])
                got = responses(it)
            assert got.startswith(b"HTTP/1.1 200 OK\r\n") and got.endswith(b'{"operational_intent_references":[]}'), (at, got)
        with open_to(place.gateway) as it:
            for k in range(0, len(data), 3):
                it.sendall(data[k:k + 3])
            assert responses(it).startswith(b"HTTP/1.1 200 ")


# ---- connections to the service

def connections_to_the_service_are_kept(files, program):
    """As many connections to the service stay open as an option says, each with one request at a time. One that the
    service has closed is replaced."""
    token = files.token("uss-a", STRATEGIC)
    for kept, opened in (("2", 1), ("0", 20)):
        service = Counted()
        gateway = Gateway(program, files, service.port, "--kept-connections", kept)
        for _ in range(20):
            expect(gateway.ask(token, "GET", PATH), 200)
        assert service.opened == opened, (kept, service.opened)
        if kept == "2":
            service.last = 3  # each third answer is the last of its connection
            for _ in range(20):
                expect(gateway.ask(token, "GET", PATH), 200)
            assert service.opened <= 9, service.opened
            service.last = None
            service.close_all()
            at_once(*[lambda: expect(gateway.ask(token, "GET", PATH), 200)] * 12)
            assert service.at_once <= 4, service.at_once
        assert gateway.end(), gateway.lines()[-3000:]
        service.end()


def only_readings_are_asked_again(files, program):
    """If a persistent connection is closed when a request arrives, a read is sent again; a change is reported as lost
    and never sent twice."""
    token = files.token("uss-a", STRATEGIC)
    put = json.dumps({"availability": "Down", "old_version": ""})
    service = Counted()
    gateway = Gateway(program, files, service.port, "--kept-connections", "4")
    for method, path, body, status in (("GET", PATH, None, 200), ("POST", f"{INTENTS}/query", json.dumps(query_of(MANHATTAN)), 200),
                                       ("PUT", PATH, put, 504), ("DELETE", f"{FRONT}subscriptions/{new_id()}/0123456789abcdef", None, 504)):
        expect(gateway.ask(token, "GET", PATH), 200)
        before = len(service.asked)
        service.drops = 1
        answer = gateway.ask(token, method, path, body)
        expect(answer, status, None if status == 200 else OPEN)
        assert len(service.asked) - before == (2 if status == 200 else 1), service.asked[before:]
    # If a new connection is closed this way, there is no second try.
    service.close_all()
    time.sleep(0.2)
    service.drops, before = 1, len(service.asked)
    expect(gateway.ask(token, "GET", PATH), 504, "ask again")
    assert len(service.asked) - before == 1
    assert gateway.end(), gateway.lines()[-3000:]
    service.end()


# ---- files

def files_are_of_one_user(files, program):
    """Files are readable by one user only, whatever the umask: what `gateway tokens` prints into a file, and what ./dss
    makes."""
    for umask in (0, 0o022, 0o077):
        made = files.folder / f"made-{umask}"
        subprocess.run(["sh", "-c", f'umask {umask:o}; exec "$0" tokens --secret "$1" --suppliers "$2" >"$3"', program, files.folder / "secret",
                        files.folder / "suppliers", made], check=True)
        assert stat.S_IMODE(made.stat().st_mode) == 0o600, oct(made.stat().st_mode)
        assert made.read_bytes() == (files.folder / "tokens.toml").read_bytes()
        # The same for a database that ./dss makes.
        database = files.folder / f"made-{umask}.db"
        run = subprocess.run(["sh", "-c", f'umask {umask:o}; exec "$0" run --tokens "$1" --db "$2" --now 1000 /dev/null', TOP / "dss",
                              files.folder / "tokens.toml", database], capture_output=True)
        assert stat.S_IMODE(database.stat().st_mode) == 0o600, (run, oct(database.stat().st_mode))


# Cases that measure memory and processors, of which sanitizers use more.
PLAIN = [work_ends_with_its_client, fields_without_end, bodies_of_many_values, answers_that_are_large, outlines_of_one_supplier_keep_nobody_out]
ALL = [slow_clients_keep_nobody_out, outlines_of_one_supplier_keep_nobody_out, vertices_that_are_too_close, work_ends_with_its_client,
       each_supplier_has_its_share, fields_without_end, bodies_of_many_values, answers_that_are_large, connections_beyond_the_bound_wait, descriptors_that_are_used_up,
       a_socket_of_unix, values_are_taken_to_the_letter, half_closed_clients_are_answered, requests_in_pieces,
       connections_to_the_service_are_kept,
       only_readings_are_asked_again, files_are_of_one_user]
