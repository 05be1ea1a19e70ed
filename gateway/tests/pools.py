"""Gateways in a pool: the health of instances, and implicit subscriptions that several gateways make and delete."""
import contextlib
import http.server
import json
import signal
import subprocess
import threading
import time

import proxies
from flows import EVERYWHERE, NEW, Place, reference
from maps import AREA, enter, map_tokens, opened, over_map, text, until
from world import (
    BESIDE, FAR, FRONT, INTENTS, MANHATTAN, STRATEGIC, SUBSCRIPTIONS, TOP, Counted, Gateway, Service, circle, expect, extent, free_port, intent, new_id)

SILENT = "failing: the log of the pool does not answer"
FILES = ("tokens", "tokens.toml"), ("keys", "keys.pem"), ("secret", "secret")


class Instance:
    """A port that gives one response to each request, which may be changed, and counts the requests. With None as status it
    gives none."""

    def __init__(self, status=200, body="serving\n"):
        self.status, self.body, self.asked, outer = status, body, [], self

        class Handler(http.server.BaseHTTPRequestHandler):
            def do_GET(self):
                outer.asked.append((self.path, self.headers["Host"], self.headers["Authorization"]))
                while outer.status is None:
                    time.sleep(0.05)
                with contextlib.suppress(OSError):
                    self.send_response(outer.status)
                    self.send_header("Content-Length", str(len(outer.body)))
                    self.end_headers()
                    self.wfile.write(outer.body.encode())

            def log_message(self, *_):
                pass
        self.server = http.server.ThreadingHTTPServer(("127.0.0.1", free_port()), Handler)
        self.server.daemon_threads = True
        self.port = self.server.server_port
        self.url = f"http://127.0.0.1:{self.port}"
        threading.Thread(target=self.server.serve_forever, daemon=True).start()

    def say(self, status, body=""):
        self.status, self.body = status, body

    def end(self):
        self.status = self.status or 200
        self.server.shutdown()
        self.server.server_close()


def health(gateway):
    return gateway.ask(None, "GET", "/health")


def becomes(gateway, status, said):
    """Waits until `/health` has a status and a text: an answer stands for a second."""
    until(lambda: health(gateway), lambda it: it.status == status and it.json == said)


def ill(why):
    return {"message": f"the service does not serve: {why}"}


def health_by_the_admin_port(files, program):
    """`/health` says what the admin port says, asks it at most once a second, and waits two seconds for it."""
    service, admin = Counted(), Instance()
    gateway = Gateway(program, files, service.port, "--admin-url", admin.url)
    assert expect(health(gateway), 200) == {"service": "serving"}
    assert admin.asked == [("/health", f"127.0.0.1:{admin.port}", None)], admin.asked
    began = time.monotonic()
    for _ in range(20):
        health(gateway)
    assert len(admin.asked) <= 2 + (time.monotonic() - began), admin.asked
    admin.say(200, "degraded: purges are held\n")
    becomes(gateway, 200, {"service": "degraded: purges are held"})
    for status, body, why in ((503, f"{SILENT}\n", SILENT), (503, "stopped: restart\n\x01x", "stopped: restart"), (200, "failing\n", "failing"),
                              (403, "a\x01\u00fc" * 200, ("a   " * 200)[:200]), (503, "", "an empty answer")):
        admin.say(status, body)
        becomes(gateway, 503, ill(why))
    admin.say(None)
    time.sleep(1.1)
    began = time.monotonic()
    assert expect(health(gateway), 503) == ill("no answer") and 1.9 < time.monotonic() - began < 20
    admin.say(200, "serving\n")
    becomes(gateway, 200, {"service": "serving"})
    admin.end()
    becomes(gateway, 503, ill("no answer"))
    assert service.asked == [] and gateway.end(), gateway.lines()[-3000:]
    service.end()


def health_by_a_reading(files, program):
    """Without an admin port the gateway reads an availability, with a token that it has."""
    instance = Instance(body="{}")
    gateway = Gateway(program, files, instance.port)
    assert expect(health(gateway), 200) == {"service": "answers"}
    (path, _, field), = instance.asked
    assert path == f"{FRONT}uss_availability/health" and field.removeprefix("Bearer ") in (files.folder / "tokens.toml").read_text()
    for status, message, why in ((503, "unreachable", "unreachable"), (503, "stopped", "stopped"), (500, "fault", "fault"), (401, "P3 TOKEN", None)):
        instance.say(status, json.dumps({"message": message}))
        becomes(gateway, 503, ill(why or "it does not know the gateway's tokens"))
    # The supplier list denies the USS of that token: the instance serves others.
    instance.say(503, '{"message":"unassigned"}')
    becomes(gateway, 200, {"service": "answers"})
    instance.say(502, "<html>")
    becomes(gateway, 503, ill("status 502"))
    assert gateway.end(), gateway.lines()[-3000:]
    instance.end()


def health_of_a_service(files, program):
    """A service that stands still has no health, by its admin port and by a reading; and it has one again."""
    admin = free_port()
    service = Service(files, database=f"{new_id()}.db", admin=admin)
    file, _ = map_tokens(files, program)
    gateways = [Gateway(program, files, service.port, *options) for options in (
        [], ["--admin-url", f"http://127.0.0.1:{admin}"], ["--map-token", str(file), "--airspace-url", f"http://127.0.0.1:{admin}"])]
    said = [{"service": "answers"}, {"service": "serving"}, {"service": "serving"}]
    for it, wanted in zip(gateways, said):
        becomes(it, 200, wanted)
    service.process.send_signal(signal.SIGSTOP)
    for it in gateways:
        becomes(it, 503, ill("no answer"))
    service.process.send_signal(signal.SIGCONT)
    for it, wanted in zip(gateways, said):
        becomes(it, 200, wanted)
    service.end()
    for it in gateways:
        becomes(it, 503, ill("no answer"))
        assert it.end(), it.lines()[-3000:]


def refused_options(files, program):
    file, _ = map_tokens(files, program)
    words = ["serve", "--port", str(free_port()), "--service", "1", "--issuer", "i", "--audience", "a"]
    words += [it for name, one in FILES for it in (f"--{name}", files.folder / one)]
    mapped = ["--map-token", file, "--map-area", AREA, "--instances"]
    url = "http://127.0.0.1:1"
    for options in (["--admin-url", "x"], ["--admin-url", "http://10.0.0.1:1"], ["--admin-url", "http://[::1]:0"], ["--instances", f"a={url}"],
                    ["--jwks", files.folder / "keys.pem"], ["--subscription-secret", files.folder / "secret"],
                    *([*mapped, it] for it in ("a", "a=", f"={url}", f"a={url},a={url}", f"a={url},,", f"a b={url}", f"a=b={url}")),
                    [*mapped, ",".join(f"a{k}={url}" for k in range(33))]):
        done = subprocess.run([program, *words, *options], capture_output=True, text=True, timeout=300)
        assert done.returncode == 1 and done.stderr.startswith("gateway: ") and done.stderr.count("\n") == 1, (options, done)


# ---- several gateways before one instance

@contextlib.contextmanager
def two_gateways(files, program):
    """Makes a service behind two gateways that have one secret of subscriptions, and not the one that the tokens are made of."""
    shared = files.folder / "subscription-secret"
    shared.write_text("fedcba9876543210" * 4)
    service = Service(files, database=f"{new_id()}.db")
    places = []
    for _ in range(2):
        gateway = Gateway(program, files, service.port, "--subscription-secret", str(shared), without=["secret"])
        places.append(Place(files, gateway, service))
    try:
        yield places
    finally:
        service.end()
        lived = [it.gateway.end() for it in places]
    assert all(lived), [it.gateway.lines()[-3000:] for it in places]


def subscriptions_of(place):
    return {it["id"]: it for it in expect(place.a("POST", f"{SUBSCRIPTIONS}/query", EVERYWHERE), 200)["subscriptions"]}


def subscriptions_of_two_gateways(files, program):
    """What one gateway made, the other moves, marks as implicit and deletes."""
    with two_gateways(files, program) as (one, other):
        name = new_id()
        first = reference(one.a("PUT", f"{INTENTS}/{name}", intent(extent(MANHATTAN), **NEW)))
        made = subscriptions_of(other)
        assert list(made) == [first["subscription_id"]] and made[first["subscription_id"]]["implicit_subscription"] is True
        second = reference(other.a("PUT", f"{INTENTS}/{name}/{first['ovn']}", intent(extent(FAR), **NEW)))
        assert list(subscriptions_of(one)) == [second["subscription_id"]] != [first["subscription_id"]]
        # The same put again, at the other gateway, leaves all as it is.
        expect(one.a("PUT", f"{INTENTS}/{name}/{first['ovn']}", intent(extent(FAR), **NEW)), 409, "P10 VERSION")
        assert list(subscriptions_of(one)) == [second["subscription_id"]]
        third = reference(one.a("PUT", f"{INTENTS}/{name}/{second['ovn']}", intent(extent(BESIDE), subscription_id=second["subscription_id"])))
        assert list(subscriptions_of(one)) == [third["subscription_id"]] != [second["subscription_id"]]
        expect(other.a("DELETE", f"{INTENTS}/{name}/{third['ovn']}"), 200)
        assert subscriptions_of(one) == {}


def at_once(*acts):
    got = [None] * len(acts)

    def run(k):
        got[k] = acts[k]()
    threads = [threading.Thread(target=run, args=(k,)) for k in range(len(acts))]
    [it.start() for it in threads]
    [it.join() for it in threads]
    return got


def informed(place, volume, key):
    """Returns the subscriptions of uss-a that a put of uss-b in a volume informs."""
    name = new_id()
    made = expect(place.b("PUT", f"{INTENTS}/{name}", intent(extent(volume), key=[key])), 201)
    expect(place.b("DELETE", f"{INTENTS}/{name}/{made['operational_intent_reference']['ovn']}"), 200)
    return {it["subscription_id"] for of in made["subscribers"] for it in of["subscriptions"]}


def races_of_two_gateways(files, program, count=30):
    """Two puts of one intent at once at two gateways: one is made, exactly its subscription remains, and covers it."""
    with two_gateways(files, program) as (one, other):
        for number in range(count):
            name, bounds = new_id(), {"start": int(time.time()) + 10, "end": int(time.time()) + 3600}
            volumes = [circle(40.7 + number / 100, -74 - k / 10, 400) for k in (0, 0 if number % 3 == 0 else 2)]
            bodies = [intent(extent(it, **bounds), **NEW) for it in volumes]
            path = f"{INTENTS}/{name}"
            if number % 2:
                before = reference(one.a("PUT", path, intent(extent(FAR, **bounds), **NEW)))
                path += f"/{before['ovn']}"
            answers = at_once(*[lambda place=place, body=body: place.a("PUT", path, body) for place, body in zip((one, other), bodies)])
            assert sorted(it.status for it in answers) == [200 + (number % 2 == 0), 409], (number, answers)
            won = next(k for k, it in enumerate(answers) if it.status < 300)
            now = reference(answers[won])
            assert list(subscriptions_of(one)) == [now["subscription_id"]], (number, answers, subscriptions_of(one))
            assert informed(other, volumes[won], now["ovn"]) == {now["subscription_id"]}, (number, answers)
            expect(other.a("DELETE", f"{INTENTS}/{name}/{now['ovn']}"), 200)
            assert subscriptions_of(one) == {}


def a_denied_put_at_the_other_gateway(files, program, count=20):
    """The same volumes at once, one of them without a key that both need: it takes away no subscription that the other is about
    to name."""
    with two_gateways(files, program) as (one, other):
        key = reference(one.b("PUT", f"{INTENTS}/{new_id()}", intent(extent(MANHATTAN))))["ovn"]
        now = int(time.time())
        for _ in range(count):
            path, body = f"{INTENTS}/{new_id()}", lambda *keys: intent(extent(MANHATTAN, start=now, end=now + 3600), key=keys, **NEW)
            denied, made = at_once(lambda: one.a("PUT", path, body()), lambda: other.a("PUT", path, body(key)))
            expect(denied, 409)
            named = expect(made, 201)["operational_intent_reference"]
            assert list(subscriptions_of(one)) == [named["subscription_id"]], (denied, made)
            expect(one.a("DELETE", f"{path}/{named['ovn']}"), 200)


def an_open_put_keeps_its_subscription(files, program):
    """If a pool may still make the intent, the subscription that it names stays, and the same put at another gateway finds it. If the
    intent is denied, the subscription is deleted."""
    shared, asked, said = files.folder / "subscription-secret", [], {}
    shared.write_text("fedcba9876543210" * 4)

    class Handler(http.server.BaseHTTPRequestHandler):
        def answer(self):
            self.rfile.read(int(self.headers["Content-Length"] or 0))
            asked.append((self.command, self.path))
            made = {"subscription": {"id": new_id(), "version": "0123456789abcdef", "dependent_operational_intents": []}}
            status, body = said["intent"] if self.path.startswith(INTENTS) else (200, made)
            body = json.dumps(body).encode()
            self.wfile.write(b"HTTP/1.1 %d X\r\nContent-Length: %d\r\nConnection: close\r\n\r\n%s" % (status, len(body), body))
        do_PUT = do_GET = do_DELETE = answer

        def log_message(self, *_):
            pass
    server = http.server.ThreadingHTTPServer(("127.0.0.1", free_port()), Handler)
    threading.Thread(target=server.serve_forever, daemon=True).start()
    gateways = [Gateway(program, files, server.server_port, "--subscription-secret", str(shared), without=["secret"]) for _ in range(2)]
    token, name, body = files.token("uss-a", STRATEGIC), new_id(), intent(extent(MANHATTAN), **NEW)
    for status, message in (503, "unknown"), (503, "stopped"), (503, "unreachable"), (409, "P14 KEY"):
        said["intent"] = status, {"message": message}
        for it in gateways:
            expect(it.ask(token, "PUT", f"{INTENTS}/{name}", body), status, message)
        of_subscriptions = [it for it in asked if it[1].startswith(SUBSCRIPTIONS)]
        methods = ["PUT"] if message in ("unknown", "stopped") else ["PUT", "GET", "DELETE"]
        assert [method for method, _ in of_subscriptions] == methods * 2 and len({path.split("/")[4] for _, path in of_subscriptions}) == 1, asked
        asked.clear()
    assert all(it.end() for it in gateways), [it.lines()[-3000:] for it in gateways]
    server.shutdown()
    server.server_close()


# ---- behind the proxy of a pool

def documented_configuration():
    """Returns what the command of gateway/README.md makes of the configuration of the proxy."""
    section = (TOP / "gateway" / "README.md").read_text().split("## Gateways in a pool\n")[1].split("\n## ")[0]
    command = section[section.index("sed -e "):].split("\n\n")[0]
    return subprocess.run(["bash", "-c", command], cwd=TOP, stdout=subprocess.PIPE, text=True, check=True).stdout


def gateways_behind_haproxy(files, program):
    """Requests go to the gateways whose instances serve; to any that responds if none does; and past a gateway that is gone."""
    services, admins, token = [Counted(), Counted()], [Instance(), Instance()], files.token("uss-a", STRATEGIC)
    gateways = [Gateway(program, files, service.port, "--admin-url", admin.url) for service, admin in zip(services, admins)]
    changes = [it for k in (0, 1) for it in ((f"127.0.0.1:8{k}81 ", f"127.0.0.1:{gateways[k].port} "), (f"check port 8{k}78", f"check port {admins[k].port}"))]
    path = f"{FRONT}uss_availability/uss-b"

    def served(port):
        """Returns which services got one of some requests, all of which are answered."""
        before = [len(it.asked) for it in services]
        assert [proxies.ask(port, token, "GET", path) for _ in range(6)] == [200] * 6
        time.sleep(0.3)
        return [len(it.asked) > count for it, count in zip(services, before)]
    with proxies.haproxy_by(files, documented_configuration(), changes) as (port, _):
        until(lambda: served(port), lambda it: it == [True, True])
        admins[0].say(503, f"{SILENT}\n")
        until(lambda: served(port), lambda it: it == [False, True])
        admins[1].say(503, f"{SILENT}\n")
        time.sleep(6)
        assert any(served(port))
        admins[0].say(200, "serving\n")
        until(lambda: served(port), lambda it: it == [True, False])
        admins[1].say(200, "serving\n")
        until(lambda: served(port), lambda it: it == [True, True])
        assert gateways[0].end(), gateways[0].lines()[-3000:]
        assert [served(port) for _ in range(3)] == [[False, True]] * 3
    assert gateways[1].end(), gateways[1].lines()[-3000:]
    [it.end() for it in (*services, *admins)]


# ---- the map

def instances_on_the_map(files, program):
    """The map lists the health of each instance: for viewers only, and as its page shows it."""
    instances = [Instance(), Instance(503, f"{SILENT}\n"), Instance(None)]
    file, viewer = map_tokens(files, program)
    service = Counted()
    listed = ",".join(f"a{k}={it.url}" for k, it in enumerate(instances))
    gateway = Gateway(program, files, service.port, "--map-token", str(file), "--map-area", AREA, "--instances", listed)
    expect(gateway.ask(None, "GET", "/map/instances.json"), 401)
    began = time.monotonic()
    shown = expect(gateway.ask(viewer, "GET", "/map/instances.json"), 200)["instances"]
    assert [(it["name"], it["is_well"], it["state"]) for it in shown] == [
        ("a0", True, "serving"), ("a1", False, SILENT), ("a2", False, "no answer")], shown
    assert all(it["asked"] >= time.time() - 60 for it in shown) and time.monotonic() - began < 20
    assert gateway.end(), gateway.lines()[-3000:]
    service.end()
    [it.end() for it in instances]
    with over_map(files, program) as place:
        assert expect(place.read("/map/instances.json"), 200)["instances"] == []


def instances_on_the_page(files, program):
    instances = [Instance(), Instance()]
    listed = ",".join(f"a{k}={it.url}" for k, it in enumerate(instances))
    with over_map(files, program, AREA, "--instances", listed) as place, opened(place) as page:
        enter(page, place.viewer)
        page.until("!document.getElementById('pool').hidden")
        assert text(page, "instances-count") == "2" and text(page, "announced") == ""
        page.value("document.getElementById('pool').open = true")
        assert text(page, "instances").split() == ["name", "health", "a0", "serving", "a1", "serving"]
        instances[1].say(503, f"{SILENT}\n")
        page.until("document.getElementById('instances-count').textContent === '2, not serving: a1'")
        assert f"Instance a1 does not serve: {SILENT}" in page.value("document.getElementById('announced').textContent")
        assert page.value("document.querySelector('#instances td.Down').textContent") == SILENT
        instances[1].say(200, "serving\n")
        page.until("document.getElementById('announced').textContent.includes('Instance a1 serves again')")
        place.gateway.process.send_signal(signal.SIGSTOP)
        page.until("document.getElementById('instances').innerText.includes('not known')", 60)
        place.gateway.process.send_signal(signal.SIGCONT)
        page.until("document.getElementById('instances').innerText.includes('serving')", 60)
    with over_map(files, program) as place, opened(place) as page:
        enter(page, place.viewer)
        time.sleep(7)
        assert page.value("document.getElementById('pool').hidden") and sum("instances.json" in it for it in page.requests) == 1
    [it.end() for it in instances]


ALL = [health_by_the_admin_port, health_by_a_reading, health_of_a_service, refused_options, subscriptions_of_two_gateways, races_of_two_gateways,
       a_denied_put_at_the_other_gateway, an_open_put_keeps_its_subscription, gateways_behind_haproxy, instances_on_the_map, instances_on_the_page]
