"""Tokens and bytes of attackers, over a gateway that is built with the sanitizers; and a service that does not run."""
import base64
import hashlib
import hmac
import json
import random
import socket
import subprocess
import threading
import time

from flows import over_tables, reference
from properties import draw_json, mutate
from standard import check
from world import (
    FRONT, INTENTS, MANHATTAN, STRATEGIC, SUBSCRIPTIONS, Gateway, Service, circle, expect, extent, free_port, intent, key_pair, new_id,
    polygon, wait_for)

PATH = f"{FRONT}uss_availability/uss-b"
# What the gateway says of a change that is open, as docs/CLIENTS.md does.
OPEN = "the change may be made or not: send the request again, unchanged, through this gateway, until it succeeds or is denied by P7 or a later rule"


def plain(value):
    text = value if isinstance(value, bytes) else json.dumps(value).encode()
    return base64.urlsafe_b64encode(text).rstrip(b"=").decode()


def tokens(files, program):
    """Only tokens that the issuer signed with RS256 for this audience, and for the current time, are accepted."""
    good = files.token("uss-a", STRATEGIC)
    head, claims, signature = good.split(".")
    now = int(time.time())
    of = lambda **more: files.token("uss-a", STRATEGIC, **more)
    by_public_key = plain({"alg": "HS256", "typ": "JWT"}) + "." + claims
    mac = plain(hmac.new(files.public, by_public_key.encode(), hashlib.sha256).digest())
    other, small = key_pair()[0], key_pair(1024)[0]
    wrong = [
        ("", "three parts"), ("x", "three parts"), (f"{head}.{claims}", "three parts"), (f"{good}.{signature}", "three parts"),
        (f"{plain({'alg': 'none'})}.{claims}.", "RS256"), (f"{by_public_key}.{mac}", "RS256"), (f"{head}.{claims}.", "signature"),
        (f"{plain({'alg': 'RS256', 'crit': ['b64'], 'b64': False})}.{claims}.{signature}", "extensions"),
        (f"{plain({'alg': 'rs256'})}.{claims}.{signature}", "RS256"), (f"{plain({})}.{claims}.{signature}", "RS256"),
        (f"{plain({'alg': ['RS256']})}.{claims}.{signature}", "RS256"), (f"{plain([])}.{claims}.{signature}", "JSON"),
        (f"{plain(b'[' * 3000)}.{claims}.{signature}", "JSON"), (f"!{good}", "base64url"), ("..", "JSON"),
        (f"{head}.{claims}.{signature[:-3]}", "signature"), (f"{head}.{plain({'sub': 'uss-b'})}.{signature}", "signature"),
        (f"{head}.{claims}.{plain(b'0' * 256)}", "signature"), (of(key=other), "signature"), (of(key=small), "signature"),
        (of(algorithm="PS256"), "RS256"), (of(algorithm="RS512"), "RS256"),
        (of(exp=1000), "expired"), (of(exp=now), "expired"), (of(exp="soon"), "exp is no number"), (of(without=["exp"]), "exp"),
        (of(exp=None), "no exp"), (of(exp=-1e300), "expired"), (of(nbf=now + 3_600), "not yet"),
        (of(aud="other.example"), "audience"), (of(aud=[]), "audience"), (of(without=["aud"]), "audience"), (of(aud={"dss.example": 1}), "audience"),
        (of(iss="other.example"), "issuer"), (of(without=["iss"]), "issuer"), (of(iss=["auth.example"]), "issuer"),
        (of(without=["sub"]), "sub"), (of(scope=[STRATEGIC]), "scope"),
    ]
    with over_tables(files, program) as place:
        ask = lambda token: check(place.gateway.ask(token, "GET", PATH))
        for token, why in wrong:
            answer = ask(token)
            message = expect(answer, 401)["message"]
            assert (why in message or not token) and answer.headers["WWW-Authenticate"] == "Bearer", (token, answer)
        for token in (good, of(aud=["other.example", "dss.example"]), of(nbf=now), of(exp=now + 599.5), of(headers={"kid": "1"})):
            expect(ask(token), 200)
        for sub in ("uss-z", "uss-a\n", "", "client", "uss-d"):
            expect(check(place.gateway.ask(files.token(sub, STRATEGIC), "GET", PATH)), 403, "not known here")
        for fields in ({}, {"Authorization": "Basic dXNzLWE6eA=="}, {"Authorization": good}, {"Authorization": f"Bearer\t{good}"}):
            expect(check(place.gateway.ask(None, "GET", PATH, headers=fields)), 401)
        expect(check(place.gateway.ask(None, "GET", PATH, headers={"Authorization": f"bearer   {good}"})), 200)
        twice = place.gateway.raw(f"GET {PATH} HTTP/1.1\r\nAuthorization: Bearer {good}\r\nAuthorization: Bearer {good}\r\n\r\n".encode())
        assert twice.startswith(b"HTTP/1.1 401")
        log = place.gateway.lines()
        for secret in (signature, claims, "Bearer"):
            assert secret not in log
        for line in (files.folder / "tokens.toml").read_text().splitlines():
            assert not line.startswith("text") or line.split('"')[1] not in log


def paths_and_methods(files, program):
    token = files.token("uss-a", STRATEGIC)
    name, ovn = new_id(), "0123456789abcdef0"
    with over_tables(files, program) as place:
        ask = lambda *words: check(place.gateway.ask(token, *words))
        for path in ("/", "/dss/v1", FRONT, f"{FRONT}reports/", f"{INTENTS}", f"{INTENTS}/", f"{INTENTS}/{name}/", f"{INTENTS}/query/x",
                     f"{INTENTS}/{name}/{ovn}/x", f"/{INTENTS}/{name}", f"{PATH}/{ovn}", "/DSS/v1/subscriptions/query", f"{FRONT}%73ubscriptions/{name}",
                     "/x" * 2000, "*", f"http://127.0.0.1{PATH}"):
            expect(ask("GET", path), 404, "no such path")
        for path in (f"{INTENTS}/a1", f"{INTENTS}/{name}0", f"{INTENTS}/Query", f"{INTENTS}/{name.replace('-', '_')}", f"{FRONT}uss_availability/a%20b"):
            expect(ask("GET", path), 400, "the path has no")
        expect(ask("DELETE", f"{INTENTS}/{name}/short"), 400, "OVN")
        for method, path, allowed in (("GET", f"{INTENTS}/query", "POST"), ("DELETE", f"{SUBSCRIPTIONS}/{name}", "GET, PUT"),
                                      ("GET", f"{INTENTS}/{name}/{ovn}", "PUT, DELETE"), ("POST", PATH, "GET, PUT")):
            answer = ask(method, path)
            assert expect(answer, 405) and answer.headers["Allow"] == allowed
        expect(ask("GET", f"{PATH}?x=%00"), 200)
        for method in ("PATCH", "OPTIONS", "TRACE", "CONNECT"):
            expect(ask(method, PATH), 405)
        assert place.gateway.ask(None, "GET", "/health").json == {"service": "answers"}


def bytes_that_are_no_requests(files, program):
    token = files.token("uss-a", STRATEGIC).encode()
    put = b"PUT %s/%s HTTP/1.1\r\nAuthorization: Bearer %s\r\n" % (INTENTS.encode(), new_id().encode(), token)
    with over_tables(files, program) as place:
        raw = place.gateway.raw
        began = time.time()
        for data, status in (
                (b"PATCH / HTTP/1.1\r\n\r\n", 405), (put + b"\r\n", 400), (put + b"Content-Length: 2\r\n\r\n{}", 400),
                (put + b"Content-Length: 0\r\n\r\n", 400), (put + b"Transfer-Encoding: gzip, chunked\r\n\r\n2\r\n{}\r\n0\r\n\r\n", 411),
                (put + b"Content-Length: -1\r\n\r\n", 400), (put + b"Content-Length: 2\r\nContent-Length: 3\r\n\r\n{}", 400),
                (put + b"Content-Length: 99999999999999999999\r\n\r\n", 413), (put + b"Content-Length: 1048577\r\n\r\n", 413),
                (put + b"Content-Type: multipart/form-data; boundary=x\r\nContent-Length: 2\r\n\r\n{}", 415),
                (put + b"Content-Encoding: gzip\r\nContent-Length: 2\r\n\r\n{}", 415),
                (b"GET %s HTTP/1.1\r\nAuthorization: Bearer %s\r\nRange: bytes=9-\r\n\r\n" % (PATH.encode(), b"x"), 401),
                (b"GET /%s HTTP/1.1\r\n\r\n" % (b"x" * 9000), 414), (b"GET / HTTP/9\r\n\r\n", 400), (b"\r\n\r\n", 400),
                (b"GET / HTTP/1.1\r\nX: %s\r\n\r\n" % (b"x" * 9000), 400), (bytes(range(256)) + b"\r\n\r\n", 400)):
            got = raw(data)
            assert got.startswith(b"HTTP/1.1 %d" % status) and b'{"message":"' in got, (data[:200], got[:300], status)
        assert time.time() - began < 60
        # A client that stops in the middle is disconnected.
        began = time.time()
        assert b"400" in raw(put + b"Content-Length: 50\r\n\r\n{")[:20] and time.time() - began < 60
        # The content type of a form, as curl sends it, is accepted like others.
        body = json.dumps(intent(extent(MANHATTAN), key=["0123456789abcdef"] * 1000))
        answer = place.gateway.ask(token.decode(), "PUT", f"{INTENTS}/{new_id()}", body, {"Content-Type": "application/x-www-form-urlencoded"})
        expect(check(answer), 201)
        draw = random.Random(12)
        for _ in range(100):
            data = bytearray(put + b"Content-Length: %d\r\n\r\n%s" % (len(body), body.encode()))
            for _ in range(draw.randint(1, 5)):
                data[draw.randrange(len(put) + 40)] = draw.randrange(256)
            raw(bytes(data), end=True)


def bodies(files, program):
    """Whatever a body contains, the gateway answers and lives. It never sends the service a malformed or too large
    request."""
    draw = random.Random(13)
    token = files.token("uss-a", STRATEGIC)
    base = json.dumps(intent(extent(circle(1, 1, 5), start=1000, end=2000), key=["0123456789abcdef"]))
    texts = ["[" * 100_000, '{"extents":' + "[" * 60 + "]" * 60 + "}", "\0" * 1000, json.dumps(intent(*[extent(circle(k, k, 9)) for k in range(256)])),
             json.dumps(intent(extent({"outline_polygon": {"vertices": [{"lat": 0, "lng": 0.0001 * k} for k in range(20_000)]}}))),
             json.dumps(intent(extent({"outline_polygon": {"vertices": [{"lat": k % 2, "lng": 0.0001 * k} for k in range(9_999)]}}))), "\ufeff" + base]
    texts += [draw_json(draw) for _ in range(250)] + [mutate(draw, base) for _ in range(500)]
    with over_tables(files, program) as place:
        for text in texts:
            path = draw.choice([f"{INTENTS}/{new_id()}", f"{SUBSCRIPTIONS}/{new_id()}", f"{INTENTS}/query"])
            answer = check(place.gateway.ask(token, "POST" if path.endswith("query") else "PUT", path, text.encode()))
            assert 200 <= answer.status < 500, (text[:300], answer)
            assert answer.status < 300 or answer.json["message"][:3] not in ("P5 ", "P6 ", "H1 "), (text[:300], answer)


def comb(teeth, height):
    corners = [(height * (k // 2 % 2), (k // 2 + k % 2 / 2) / teeth) for k in range(2 * teeth)]
    return polygon(*corners, (-0.01, 0.5))


def hard_outlines_are_answered_soon(files, program):
    """Combs that are hard to cover are covered, or rejected before that."""
    with over_tables(files, program) as place:
        for outline, status in ((comb(499, 0.9), 413), (comb(101, 0.9), 200), (comb(499, 0.017), 200), (comb(4_999, 0.017), 413)):
            began = time.time()
            query = {"area_of_interest": {"volume": outline}}
            expect(check(place.gateway.ask(files.token("uss-a", STRATEGIC), "POST", f"{INTENTS}/query", query)), status)
            assert time.time() - began < 60, time.time() - began


def a_service_that_is_not_there(files, program):
    """503 if nothing was sent, 504 if the response was lost. Once the service is started again all continues."""
    service = Service(files, database=f"{new_id()}.db")
    gateway = Gateway(program, files, service.port)
    ask = lambda *words: check(gateway.ask(files.token("uss-a", STRATEGIC), *words))
    name = new_id()
    told = reference(ask("PUT", f"{INTENTS}/{name}", intent(extent(MANHATTAN))))
    service.end()
    began = time.time()
    expect(ask("GET", f"{INTENTS}/{name}"), 503, "not there")
    assert time.time() - began > 1.9
    expect(ask("PUT", f"{INTENTS}/{new_id()}", intent(extent(MANHATTAN))), 503, "nothing was done")
    expect(gateway.ask(None, "GET", "/health"), 503, "no answer")
    service.start()
    assert reference(ask("GET", f"{INTENTS}/{name}"))["ovn"] == told["ovn"]
    # The gateway waits for a service that comes back within the time of a restart.
    service.end()
    began, back = time.time(), []

    def start():
        service.start()
        back.append(time.time() - began)
    restart = threading.Timer(0.3, start)
    restart.start()
    answer = ask("GET", f"{INTENTS}/{name}")
    restart.join()
    # A busy machine may take longer to start it.
    expect(answer, 200) if back[0] < 1.5 else None
    # Killed among puts: what was acknowledged is there, and what was not sent is not.
    draw = random.Random(14)
    for number in range(8):
        name, answers = new_id(), []
        asking = threading.Thread(target=lambda: answers.append(ask("PUT", f"{INTENTS}/{name}", intent(extent(circle(number, 0, 99))))))
        asking.start()
        time.sleep(draw.uniform(0, 0.02))
        service.end()
        service_back = threading.Timer(2.5, service.start) if number == 0 else None
        service.start() if service_back is None else service_back.start()
        asking.join()
        if service_back:
            service_back.join()
        wait_for(service.port)
        there = ask("GET", f"{INTENTS}/{name}").status == 200
        status = answers[0].status
        assert status in (201, 503, 504) and (status == 504 or there == (status == 201)), (answers, there)
    service.end()
    # A service that takes a request and exits.
    with socket.create_server(("127.0.0.1", service.port)) as listening:
        def take(sends):
            for _ in range(3):
                connection, _ = listening.accept()
                connection.recv(65536)
                connection.sendall(sends)
                connection.close()
        for sends in (b"", b"HTTP/1.1 200 OK\r\nContent-Length: 900\r\n\r\n{", b"\0\0\0\r\n\r\n"):
            threading.Thread(target=take, args=(sends,), daemon=True).start()
            expect(ask("PUT", f"{INTENTS}/{name}", intent(extent(MANHATTAN))), 504, OPEN)
            expect(ask("DELETE", f"{INTENTS}/{name}/0123456789abcdef"), 504, "ask again")
            expect(ask("GET", f"{INTENTS}/{name}"), 504, "ask again")
    assert gateway.end(), gateway.lines()[-3000:]


def a_service_of_other_tokens(files, program):
    other = (files.folder / "tokens.toml").read_text().replace('text = "', 'text = "0')
    (files.folder / "others.toml").write_text(other)
    port = free_port()
    from world import TOP
    service = subprocess.Popen([TOP / "dss", "serve", "--tokens", files.folder / "others.toml", "--db", files.folder / "others.db",
                                "--port", str(port), "--count", "1000"], stderr=subprocess.DEVNULL)
    wait_for(port)
    gateway = Gateway(program, files, port)
    expect(check(gateway.ask(files.token("uss-a", STRATEGIC), "GET", PATH)), 503, "token file")
    service.kill()
    service.wait()
    assert gateway.end()


def many_at_once(files, program):
    with over_tables(files, program) as place:
        answers = []
        token = files.token("uss-a", STRATEGIC)

        def one(number):
            body = intent(extent(circle(number, number, 50)))
            answers.append(place.gateway.ask(token, "PUT", f"{INTENTS}/{new_id()}", body).status)
        threads = [threading.Thread(target=one, args=(k,)) for k in range(60)]
        [it.start() for it in threads]
        [it.join() for it in threads]
        assert answers == [201] * 60


def starts_that_fail(files, program):
    """A start that fails gives one line and status 1, before the gateway listens."""
    folder, port, taken = files.folder, free_port(), socket.create_server(("127.0.0.1", 0))
    (folder / "empty").write_text("")
    (folder / "bad.toml").write_text('[[token]]\ntext = "secret-of-a-token"\nuss = 5\n')
    (folder / "small.pem").write_bytes(key_pair(1024)[1])
    good = {"port": port, "service": 9, "tokens": folder / "tokens.toml", "keys": folder / "keys.pem", "issuer": "i", "audience": "a",
            "secret": folder / "secret"}
    for change in ({"port": "0"}, {"port": "65536"}, {"port": "x"}, {"service": ""}, {"tokens": folder / "none"}, {"tokens": folder / "bad.toml"},
                   {"tokens": folder / "empty"}, {"keys": folder / "none"}, {"keys": folder / "secret"}, {"keys": folder / "small.pem"},
                   {"keys": folder}, {"secret": folder / "empty"}, {"secret": folder / "none"}, {"port": taken.getsockname()[1]}, {"other": "1"},
                   {"new-subscription": "perhaps"}):
        words = [str(it) for name, value in (good | change).items() for it in (f"--{name}", value)]
        done = subprocess.run([program, "serve", *words], capture_output=True, text=True, timeout=300)
        assert done.returncode == 1 and done.stderr.count("\n") == 1 and done.stderr.startswith("gateway: "), (change, done)
        assert "secret-of-a-token" not in done.stderr
    for words in (["serve"], ["serve", "--port"], ["serve", "--port", "1", "--port", "2"], ["tokens"], ["translate", "x"]):
        done = subprocess.run([program, *words], capture_output=True, text=True, timeout=300, stdin=subprocess.DEVNULL)
        assert done.returncode == 1 and done.stderr.count("\n") == 1, (words, done)
    # A second one on the same port.
    with over_tables(files, program) as place:
        words = [str(it) for name, value in (good | {"port": place.gateway.port}).items() for it in (f"--{name}", value)]
        done = subprocess.run([program, "serve", *words], capture_output=True, text=True, timeout=300)
        assert done.returncode == 1 and "is taken" in done.stderr
    (folder / "suppliers-wrong").write_text('uss a b\n')
    done = subprocess.run([program, "tokens", "--secret", folder / "secret", "--suppliers", folder / "suppliers-wrong"], capture_output=True)
    assert done.returncode == 1
    taken.close()


ALL = [tokens, paths_and_methods, bytes_that_are_no_requests, bodies, hard_outlines_are_answered_soon, a_service_that_is_not_there,
       a_service_of_other_tokens, many_at_once, starts_that_fail]
