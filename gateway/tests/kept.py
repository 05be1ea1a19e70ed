"""Connections of clients that stay open: several requests on one, where one request ends and the next begins, and how a
connection ends."""
import contextlib
import http.client
import json
import pathlib
import re
import signal
import socket
import subprocess
import time
import unittest.mock

import requests
import urllib3.util.connection

from bounds import open_to, request
from flows import over_tables
from hostile import PATH
from world import FRONT, INTENTS, MANHATTAN, STRATEGIC, Counted, Gateway, expect, extent, intent, new_id, query_of, responses, until

# Requests on one connection, and seconds that it may be idle: also when few are free.
REQUESTS, IDLE, IDLE_AMONG_MANY = 100, 60, 5
MEBIBYTE = 1 << 20


def chunked(body, size=1000):
    """Returns a body in chunks, with an extension and a trailer."""
    pieces = [body[k:k + size] for k in range(0, len(body), size)]
    return b"".join(b"%x;a=b\r\n%s\r\n" % (len(it), it) for it in pieces) + b"0\r\nA: b\r\n\r\n"


def statuses(got):
    return [int(it) for it in re.findall(rb"HTTP/1\.1 (\d+) ", got)]


def is_last(got):
    """Returns whether a response says that it is the last one on its connection."""
    return b"\r\nconnection: close\r\n" in got.lower().partition(b"\r\n\r\n")[0] + b"\r\n"


def has_ended(connection, seconds=30):
    """Returns whether the gateway closes a connection within that time, and sends nothing more."""
    connection.settimeout(seconds)
    with contextlib.suppress(ConnectionError):
        return connection.recv(1) == b""
    return True


def kept_by(gateway, ask):
    """Returns a connection that the gateway keeps after its first response."""
    it = open_to(gateway, ask)
    got = responses(it)
    assert statuses(got) == [200] and not is_last(got), got
    return it


def requests_are_read(files, program):
    """Runs the unit tests of the reader of requests, which the sanitized build has beside its gateway."""
    done = subprocess.run([pathlib.Path(program).parent / "reading"], capture_output=True, text=True, timeout=600)
    assert done.returncode == 0, done.stderr[-3000:]


# ---- ordinary libraries

def a_session_of_requests(files, program):
    """requests makes a flight, reads it, finds it, is denied and deletes it over one connection; bodies may be chunked."""
    opening = unittest.mock.patch.object(urllib3.util.connection, "create_connection", wraps=urllib3.util.connection.create_connection)
    with over_tables(files, program) as place, requests.Session() as session, opening as opened:
        front = f"http://127.0.0.1:{place.gateway.port}"
        session.headers["Authorization"] = f"Bearer {files.token('uss-a', STRATEGIC)}"
        name, asked = new_id(), 0

        def ask(status, method, path, **more):
            nonlocal asked
            asked += 1
            answer = session.request(method, front + path, timeout=300, **more)
            assert answer.status_code == status, (method, path, answer.status_code, answer.text)
            assert opened.call_count == 1, (method, path, asked)
            return answer.json()
        put = ask(201, "PUT", f"{INTENTS}/{name}", json=intent(extent(MANHATTAN)))
        version = put["operational_intent_reference"]["ovn"]
        query = json.dumps(query_of(MANHATTAN)).encode()
        found = ask(200, "POST", f"{INTENTS}/query", data=iter([query[:10], query[10:]]))
        assert [it["id"] for it in found["operational_intent_references"]] == [name], found
        ask(404, "GET", f"{INTENTS}/{new_id()}")
        ask(404, "GET", "/nothing")
        ask(405, "OPTIONS", PATH)
        ask(401, "GET", PATH, headers={"Authorization": "x"})
        ask(200, "GET", "/health")
        ask(400, "PUT", f"{INTENTS}/{new_id()}", data=b"{")
        ask(200, "DELETE", f"{INTENTS}/{name}/{version}")
        while asked < REQUESTS:
            ask(404, "GET", f"{INTENTS}/{name}")
        assert session.get(f"{front}{PATH}", timeout=300).status_code == 200 and opened.call_count == 2


def a_connection_of_python(files, program):
    """http.client keeps its connection until the hundredth response, which says that it is the last one."""
    with over_tables(files, program) as place:
        connection = http.client.HTTPConnection("127.0.0.1", place.gateway.port, timeout=300)
        fields = {"Authorization": f"Bearer {files.token('uss-a', STRATEGIC)}"}
        connection.connect()
        first = connection.sock
        for number in range(1, REQUESTS + 1):
            assert connection.sock is first, number
            connection.request("GET", PATH, headers=fields)
            answer = connection.getresponse()
            answer.read()
            assert answer.status == 200 and answer.getheader("Connection") == ("close" if number == REQUESTS else None), number
        assert connection.sock is None


def two_urls_of_curl(files, program):
    """curl asks for two URLs over one connection, puts in chunks, and opens another one after HTTP/1.0."""
    with over_tables(files, program) as place:
        front = f"http://127.0.0.1:{place.gateway.port}"
        words = ["curl", "-s", "-H", f"Authorization: Bearer {files.token('uss-a', STRATEGIC)}", "-w", "%{num_connects} %{http_code}\n"]

        def connects(*more):
            said = subprocess.run([*words, *more], capture_output=True, text=True, check=True, timeout=300).stdout
            return re.findall(r"(?m)(\d \d+)$", said)
        assert connects(front + PATH, f"{front}/health") == ["1 200", "0 200"]
        body = json.dumps(intent(extent(MANHATTAN)))
        put = ["-X", "PUT", "-H", "Transfer-Encoding: chunked", "--data-binary", body, f"{front}{INTENTS}/{new_id()}"]
        assert connects(front + PATH, "--next", *words[1:], *put, "--next", *words[1:], front + PATH) == ["1 200", "0 201", "0 200"]
        assert connects("--http1.0", front + PATH, front + PATH) == ["1 200", "1 200"]


# ---- where a request ends

def pipelined_requests(files, program):
    """Requests that arrive together are answered in their order, up to the hundredth."""
    with over_tables(files, program) as place:
        name = new_id()
        put = request(files, "PUT", f"{INTENTS}/{name}", json.dumps(intent(extent(MANHATTAN))).encode())
        read, none = request(files, "GET", f"{INTENTS}/{name}"), request(files, "GET", f"{INTENTS}/{new_id()}")
        query = request(files, "POST", f"{INTENTS}/query", json.dumps(query_of(MANHATTAN)).encode())
        with open_to(place.gateway, read + put + read + none + query) as it:
            got = responses(it, 5)
            assert statuses(got) == [404, 201, 200, 404, 200] and got.count(name.encode()) == 3 and not is_last(got), got
            it.sendall(read * 150)
            got = responses(it, 150)
            assert statuses(got) == [200] * (REQUESTS - 5) and got.lower().count(b"connection: close") == 1, statuses(got)
            assert got.rpartition(b"HTTP/1.1 ")[2].lower().count(b"connection: close") == 1


def pipelined_in_pieces(files, program):
    """Wherever requests on one connection are cut, their responses are the same."""
    body = json.dumps(query_of(MANHATTAN)).encode()
    query = request(files, "POST", f"{INTENTS}/query", body)
    in_chunks = request(files, "POST", f"{INTENTS}/query", fields=b"Transfer-Encoding: chunked\r\n") + chunked(body, 100)
    data = query + in_chunks + request(files, "GET", PATH)
    ends = [len(query), len(query) + len(in_chunks), len(data)]
    places = sorted({*range(1, len(data), 97), *(end + k for end in ends for k in range(-6, 6) if 0 < end + k < len(data))})
    with over_tables(files, program) as place:
        whole = responses(open_to(place.gateway, data), 3)
        assert statuses(whole) == [200] * 3, whole
        for at in places:
            with open_to(place.gateway, data[:at]) as it:
                it.setsockopt(socket.IPPROTO_TCP, socket.TCP_NODELAY, 1)
                time.sleep(0.02)
                it.sendall(data[at:])
                assert responses(it, 3) == whole, at
        with open_to(place.gateway) as it:
            it.setsockopt(socket.IPPROTO_TCP, socket.TCP_NODELAY, 1)
            for k in range(0, len(data), 5):
                it.sendall(data[k:k + 5])
            assert responses(it, 3) == whole


def no_body_is_taken_for_a_request(files, program):
    """A connection closes after a body that was not read to its end, so that nothing in it is a request of somebody else."""
    put = f"{INTENTS}/{new_id()}"
    hidden = request(files, "DELETE", f"{INTENTS}/{new_id()}/0123456789abcdef")
    length = b"Content-Length: %d\r\n" % len(hidden)
    strange = b"PUT %s HTTP/1.1\r\nAuthorization: Bearer x\r\n%s\r\n" % (put.encode(), length)
    with over_tables(files, program) as place:
        for data, status in (
                (strange, 401), (strange.replace(length, b"Transfer-Encoding: chunked\r\n"), 401),
                (request(files, "GET", PATH, fields=length), 200), (request(files, "DELETE", PATH, fields=length), 405),
                (request(files, "GET", PATH, fields=b"Transfer-Encoding: chunked\r\n"), 200),
                (request(files, "PUT", put, fields=b"Transfer-Encoding: identity\r\n"), 411),
                (request(files, "PUT", put, fields=b"Transfer-Encoding: chunked\r\n" + length), 400),
                (request(files, "PUT", put, fields=b"Transfer-Encoding: chunked\r\n"), 400),
                (request(files, "PUT", put, fields=b"Content-Length: 0\r\n" + length), 400),
                (request(files, "PUT", put, fields=length).replace(b"HTTP/1.1", b"HTTP/1.0"), 400),
                (request(files, "GET", PATH).replace(b"HTTP/1.1", b"HTTP/1.0"), 200),
                (request(files, "GET", PATH, fields=b"Connection: x, Close\r\n"), 200), (b"x\r\n\r\n", 400)):
            with open_to(place.gateway, data + hidden + hidden) as it:
                got = responses(it, 2)
                assert statuses(got) == [status] and is_last(got) and has_ended(it), (data, got)
        # The body of a request that was read is none either.
        with open_to(place.gateway, request(files, "PUT", put, hidden) + request(files, "GET", PATH)) as it:
            got = responses(it, 2)
            assert statuses(got) == [400, 200] and not is_last(got), got
        assert " DELETE " not in place.gateway.lines().replace("DELETE uss_availability", ""), place.gateway.lines()


def bodies_beyond_the_limit(files, program):
    """A body of a mebibyte is read, with a length and in chunks; a longer one gets 413, and the connection closes."""
    token = files.token("uss-a", STRATEGIC)
    body = json.dumps(query_of(MANHATTAN)).encode()
    full = body + b" " * (MEBIBYTE - len(body))
    with over_tables(files, program) as place:
        front = f"http://127.0.0.1:{place.gateway.port}{INTENTS}/query"
        with requests.Session() as session:
            session.headers["Authorization"] = f"Bearer {token}"
            for data in (full, iter([full[:-1], full[-1:]]), iter(full[k:k + 4096] for k in range(0, MEBIBYTE, 4096))):
                assert session.post(front, data=data, timeout=300).status_code == 200
        head = request(files, "POST", f"{INTENTS}/query", fields=b"Transfer-Encoding: chunked\r\n")
        for data in (
                request(files, "POST", f"{INTENTS}/query", full + b" "), head + chunked(full + b" "), head + b"100001\r\n", head + b"7fffffff\r\n",
                head + b"1\r\n \r\n" * 300_000, request(files, "POST", f"{INTENTS}/query", fields=b"Content-Length: 99999999999\r\n")):
            with open_to(place.gateway) as it:
                with contextlib.suppress(ConnectionError):
                    it.sendall(data + request(files, "GET", PATH))
                got = responses(it, 2)
                assert statuses(got) == [413] and is_last(got), (data[-300:], got)


# ---- how a connection ends

def idle_connections_are_closed(files, program):
    """A connection without a request is closed after a minute. One that has another request is not, and neither is one
    whose request takes longer."""
    service = Counted()
    gateway = Gateway(program, files, service.port)
    ask = request(files, "GET", PATH)
    idle, busy = open_to(gateway, ask), open_to(gateway, ask)
    assert statuses(responses(idle)) == statuses(responses(busy)) == [200]
    began = time.time()
    time.sleep(IDLE / 2)
    busy.sendall(ask)
    assert statuses(responses(busy)) == [200]
    assert has_ended(idle, 300) and IDLE - 1 < time.time() - began < IDLE + 60, time.time() - began
    busy.sendall(ask)
    assert statuses(responses(busy)) == [200]
    assert gateway.end(), gateway.lines()[-3000:]
    assert has_ended(busy)
    service.end()


def idle_connections_make_room(files, program):
    """If all connections are taken, the one that has been idle longest is closed for the next client. If few are free, idle
    ones have 5 s."""
    ask = request(files, "GET", PATH)
    with over_tables(files, program, "--connections", "4") as place:
        # One by one: the order of the responses is that of the idle connections.
        kept = [kept_by(place.gateway, ask) for _ in range(3)]
        kept[0].sendall(ask)  # so the second one is idle longest
        assert statuses(responses(kept[0])) == [200]
        for number in (1, 2, 0):
            new = open_to(place.gateway, ask)
            assert statuses(responses(new)) == [200]
            assert has_ended(kept[number]), number
            kept.append(new)
        # Silent clients get none of these places: a response is the last one on its connection if no other is free.
        [it.close() for it in kept]
        silent = [open_to(place.gateway) for _ in range(3)]
        with open_to(place.gateway, ask) as it:
            got = responses(it)
            assert statuses(got) == [200] and is_last(got) and has_ended(it), got
        [it.close() for it in silent]
    with over_tables(files, program, "--connections", "8") as place:
        kept = [kept_by(place.gateway, ask) for _ in range(7)]
        kept[6].sendall(ask)
        assert statuses(responses(kept[6])) == [200]
        began = time.time()
        assert has_ended(kept[6], 300) and IDLE_AMONG_MANY - 1 < time.time() - began < IDLE - 20, time.time() - began
        [it.close() for it in kept]


def slow_requests_on_kept_connections(files, program):
    """A later request has the limits of the first: one that does not arrive whole gets 408 after half a minute, and one that
    stops after 10 s."""
    ask = request(files, "GET", PATH)
    with over_tables(files, program) as place:
        slow, stopped = open_to(place.gateway, ask + b"G"), open_to(place.gateway, ask + ask[:20])
        assert statuses(responses(slow)) == statuses(responses(stopped)) == [200]
        began, ended = time.time(), {}
        while len(ended) < 2 and time.time() - began < 90:
            for it in {slow, stopped} - ended.keys():
                it.settimeout(0.5)
                try:
                    ended[it] = it.recv(1000), time.time() - began
                except TimeoutError:
                    it.send(b"E") if it is slow else None
        for it, least, most in ((stopped, 5, 25), (slow, 25, 60)):
            got, seconds = ended[it]
            assert statuses(got) == [408] and is_last(got) and least < seconds < most, (got, seconds)
        [it.close() for it in (slow, stopped)]


def a_stop_ends_idle_connections(files, program):
    """After SIGTERM idle connections close at once. A request that has begun gets its response, the last one on its connection."""
    service = Counted(pause=600)
    gateway = Gateway(program, files, service.port)
    ask = request(files, "GET", "/nothing")
    idle, busy = open_to(gateway, ask), open_to(gateway, ask + request(files, "GET", PATH) + ask)
    assert statuses(responses(idle)) == statuses(responses(busy)) == [404]
    assert until(lambda: service.asked)
    gateway.process.send_signal(signal.SIGTERM)
    assert has_ended(idle)
    service.pause = 0
    got = responses(busy, 2)
    assert statuses(got) == [200] and is_last(got), got
    assert gateway.end(), gateway.lines()[-3000:]
    service.end()


def clients_that_go_between_requests(files, program):
    """Clients that close or reset a kept connection cost nothing, and a later request of one that has gone is dropped."""
    service = Counted()
    gateway = Gateway(program, files, service.port)
    token = files.token("uss-a", STRATEGIC)
    for _ in range(50):
        with open_to(gateway, request(files, "GET", PATH)) as it:
            assert statuses(responses(it)) == [200]
    # Four requests of the USS are sent to the service; the fifth waits, and its client goes.
    service.pause = 600
    others = [open_to(gateway, request(files, "GET", PATH)) for _ in range(4)]
    assert until(lambda: service.now == 4)
    gone = open_to(gateway, request(files, "GET", "/nothing"))
    assert statuses(responses(gone)) == [404]
    before = len(service.asked)
    gone.sendall(request(files, "GET", PATH))
    time.sleep(0.5)
    gone.close()
    time.sleep(3)
    service.pause = 0
    assert all(statuses(responses(it)) == [200] for it in others)
    expect(gateway.ask(token, "GET", f"{FRONT}uss_availability/uss-a"), 200)
    assert len(service.asked) == before + 1, service.asked
    assert gateway.end(), gateway.lines()[-3000:]
    service.end()


ALL = [requests_are_read, a_session_of_requests, a_connection_of_python, two_urls_of_curl, pipelined_requests, pipelined_in_pieces,
       no_body_is_taken_for_a_request, bodies_beyond_the_limit, idle_connections_are_closed, idle_connections_make_room,
       slow_requests_on_kept_connections, a_stop_ends_idle_connections, clients_that_go_between_requests]
