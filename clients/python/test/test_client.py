"""The client over a service: each operation, lost responses, the loop for keys, subscriptions, and the documents' examples."""
import concurrent.futures
import contextlib
import io
import json
import re
import threading
import time
import unittest
import uuid
import warnings

import places
from dss_client import (
    NO_SUBSCRIPTION, Area, BadResponse, Client, ConstraintPut, Denial, IgnoredMembers, IntentPut, Known, LogUnreachable,
    MissingKey, Peers, ProxyError, Retry, Stopped, SubscriptionPut, Subscriptions, Unanswered, Unassigned, UnknownOutcome,
    Unreachable, Volume, pool)

NOW = int(time.time())
FAST = Retry(tries=4, first=0.001, settle=0.0)
# One that waits for an outcome as long as that takes.
PATIENT = Retry(tries=2, first=0.001, longest=0.01, settle=places.SECONDS)
UNKNOWN, UNREACHABLE, UNASSIGNED = ((503, {}, b'{"message":"%s"}' % it) for it in (b"unknown", b"unreachable", b"unassigned"))
HTML = {"Content-Type": "text/html"}
URL = "https://uss-{}.example"


class OverService(unittest.TestCase):
    """Each test has a cell of its own."""

    @classmethod
    def setUpClass(cls):
        cls.place = places.service()
        cls.place.__enter__()
        cls.addClassCleanup(cls.place.__exit__)
        cls.url = f"http://127.0.0.1:{cls.place.port}"
        cls.cells = iter(f"89c2{number:03x}4" for number in range(0x100, 0x200))

    def client(self, token, url=None, **more):
        client = Client(url or self.url, token, **{"retry": FAST, **more})
        self.addCleanup(client.close)
        return client

    def setUp(self):
        self.a, self.b, self.all = self.client("tok-a"), self.client("tok-b"), self.client("all-b")
        self.volume = Volume([next(type(self).cells)], 0, 1200, NOW, NOW + 3600)

    def proxy(self):
        proxy = places.Proxy(self.place.port)
        self.addCleanup(proxy.__exit__)
        return proxy

    def intent(self, uss="a", **more):
        return IntentPut([self.volume], more.pop("state", "Accepted"), URL.format(uss), **more)

    def denied(self, rule, call, *words):
        with self.assertRaises(Denial) as caught:
            call(*words)
        self.assertEqual(caught.exception.rule, rule)
        return caught.exception

    # ---- operations

    def test_an_intent(self):
        id = uuid.uuid4()
        made = self.a.put_intent(id, self.intent()).operational_intent_reference
        self.assertEqual((made.id, made.manager, made.version, made.subscription_id), (str(id), "uss-a", 1, NO_SUBSCRIPTION))
        self.assertEqual(self.a.query_intents(self.volume), (made,))
        self.assertEqual(self.a.query_intents(Area(self.volume.cells, time_start=NOW + 7200)), ())
        self.assertIsNone(self.b.read_intent(id).ovn)
        error = self.denied("P8", self.a.put_intent, id, self.intent())
        self.assertEqual((error.status, error.message, error.maybe_made), (409, "P8 FRESH", False))
        changed = self.a.put_intent(id, self.intent(state="Activated"), made).operational_intent_reference
        self.assertEqual((changed.version, changed.state), (2, "Activated"))
        self.denied("P10", self.a.delete_intent, made)
        with self.assertRaises(ValueError):
            self.b.delete_intent(self.b.read_intent(id))
        self.assertEqual(self.a.delete_intent(changed).operational_intent_reference, changed)
        self.denied("P7", self.a.read_intent, id)

    def test_a_constraint_and_an_availability(self):
        id = uuid.uuid4()
        made = self.all.put_constraint(id, ConstraintPut([self.volume], URL.format("b"))).constraint_reference
        self.assertEqual(self.all.query_constraints(self.volume), (made,))
        longer = ConstraintPut([self.volume], "https://other.example")
        changed = self.all.put_constraint(id, longer, self.all.read_constraint(id)).constraint_reference
        self.assertEqual((changed.version, changed.uss_base_url), (2, "https://other.example"))
        self.assertEqual(self.all.delete_constraint(changed).constraint_reference, changed)
        uss = f"uss-{uuid.uuid4().hex[:8]}"
        before = self.all.read_availability(uss)
        self.assertEqual((before.status.availability, before.version), ("Unknown", ""))
        told = self.all.set_availability(uss, "Down")
        self.denied("P10", self.all.set_availability, uss, "Normal")
        self.assertEqual(self.all.set_availability(uss, "Normal", told).status.availability, "Normal")
        self.denied("P4", self.a.set_availability, uss, "Down", told)

    def test_wrong_tokens_and_bodies(self):
        self.denied("P3", self.client("none").read_availability, "uss-a")
        self.denied("P5", self.a.query_intents, Area(["g"]))
        calls = []
        turning = self.client(lambda: calls.append(1) or "tok-a")
        turning.read_availability("uss-a")
        turning.read_availability("uss-a")
        self.assertEqual(len(calls), 2)

    def test_explanations(self):
        """The error of a denial has the explanation, if the service gives one, and the first texts of it are in its text."""
        path, body = "/dss/v1/operational_intent_references/query", {"area_of_interest": {"cells": ["89c2591"], "time_strat": 1}}
        wrong = Area(["g"] * 8, time_start=2, time_end=1)
        error = self.denied("P5", self.a.query_intents, wrong)
        self.assertEqual((str(error), error.explanation), ("400 P5 FORM", ()))
        with warnings.catch_warnings():
            warnings.simplefilter("error")
            self.assertEqual(self.a.request("POST", path, body), {"operational_intent_references": []})
        with places.service("--explain") as place:
            client = self.client("tok-a", f"http://127.0.0.1:{place.port}")
            error = self.denied("P5", client.query_intents, wrong)
            self.assertEqual((error.message, len(error.explanation)), ("P5 FORM", 9))
            self.assertRegex(str(error), r"^400 P5 FORM \(area_of_interest\.time_end: before time_start; .*cells\[0\]: .*cells\[3\]: .*; \.\.\)$")
            error = self.denied("P5", client.put_intent, "a1", self.intent())
            self.assertEqual(str(error), "400 P5 FORM ({entityid}: not a UUID of 36 characters)")
            with self.assertWarnsRegex(IgnoredMembers, r": area_of_interest\.time_strat$") as caught:
                client.request("POST", path, body)
            self.assertEqual(caught.filename, __file__)

    def test_explanations_of_another_form(self):
        """Whatever a service calls an explanation, the denial is an error."""
        proxy = self.proxy()
        through = self.client("tok-a", proxy.url)
        for value, texts in (("no", ()), ([], ()), ([1, "so", None], ("so",)), ({"a": "b"}, ())):
            proxy.script = [(400, {}, json.dumps({"explanation": value, "message": "P5 FORM"}).encode())]
            self.assertEqual(self.denied("P5", through.read_availability, "uss-a").explanation, texts)

    # ---- the pool

    def test_many_threads_and_more_than_a_hundred_requests(self):
        proxy = self.proxy()
        through = self.client("tok-a", proxy.url, connections=3)
        with concurrent.futures.ThreadPoolExecutor(12) as threads:
            told = list(threads.map(through.read_availability, ["uss-a"] * 150))
        self.assertEqual(len(told), 150)
        self.assertLessEqual(proxy.connections, 3)
        # without the proxy the hundredth response closes its connection
        for _ in range(250):
            self.a.read_availability("uss-a")
        one = self.client("tok-a", connections=1)
        with concurrent.futures.ThreadPoolExecutor(8) as threads:
            list(threads.map(one.read_availability, ["uss-b"] * 220))

    def test_a_connection_that_the_service_closed_is_not_used(self):
        proxy = self.proxy()
        through = self.client("tok-a", proxy.url)
        through.read_availability("uss-a")
        idle = through._pool._idle[0][1]
        idle.sock.shutdown(2)
        through.read_availability("uss-a")
        self.assertEqual((len(proxy.seen), proxy.connections), (2, 2))

    def test_an_interrupted_request_leaves_no_connection(self):
        pool_ = pool.Pool(self.url, timeout=0.001)
        with self.assertRaises((pool.NotSent, pool.NoResponse)):
            pool_.exchange("PUT", "/dss/v1/uss_availability/x", {"Content-Length": "5"})
        self.assertEqual(len(pool_._idle), 0)
        pool_.close()
        for url in ("ftp://a", "http://", "127.0.0.1:80", "http://a/?x"):
            with self.assertRaises(ValueError):
                pool.Pool(url)

    # ---- lost responses: the table "Retrying requests" of docs/CLIENTS.md

    def test_lost_intents(self):
        proxy, watch = self.proxy(), uuid.uuid4()
        through, id = self.client("tok-a", proxy.url), uuid.uuid4()
        self.b.put_subscription(watch, SubscriptionPut(self.volume, URL.format("b"), True))
        proxy.script = ["lose"]
        made = through.put_intent(id, self.intent())
        # created, denied, read, and put again to find whom to notify
        self.assertEqual([it[0] for it in proxy.seen], ["PUT", "PUT", "GET", "PUT"])
        self.assertEqual(made.operational_intent_reference.version, 2)
        self.assertEqual([it.subscription_id for by in made.subscribers for it in by.subscriptions], [str(watch)])
        proxy.script = ["lose", "lose"]
        changed = through.put_intent(id, self.intent(state="Activated"), made.operational_intent_reference)
        self.assertEqual(changed.operational_intent_reference.version, 4)
        proxy.script = ["refuse", "refuse"]
        changed = through.put_intent(id, self.intent(state="Activated"), changed.operational_intent_reference)
        self.assertEqual(changed.operational_intent_reference.version, 5)
        proxy.script = ["lose"]
        self.assertIsNone(through.delete_intent(changed.operational_intent_reference))
        self.denied("P7", self.a.read_intent, id)

    def test_a_lost_creation_under_the_id_of_another(self):
        proxy, id = self.proxy(), uuid.uuid4()
        through = self.client("tok-a", proxy.url)
        theirs = self.b.put_intent(id, self.intent("b")).operational_intent_reference
        proxy.script = ["refuse"]
        self.assertFalse(self.denied("P8", through.put_intent, id, self.intent()).maybe_made)
        self.assertEqual(self.b.read_intent(id), theirs)
        proxy.script = ["refuse"]
        own = uuid.uuid4()
        key = [theirs.ovn]
        made = self.a.put_intent(own, self.intent(key=key)).operational_intent_reference
        self.a.put_intent(own, self.intent(key=key, state="Activated"), made)
        # another update came first: it is not taken for this one
        self.assertFalse(self.denied("P10", through.put_intent, own, self.intent(key=key), made).maybe_made)

    def test_lost_constraints_subscriptions_and_availabilities(self):
        proxy = self.proxy()
        through, id = self.client("all-b", proxy.url), uuid.uuid4()
        put = ConstraintPut([self.volume], URL.format("b"))
        proxy.script = ["lose"]
        made = through.put_constraint(id, put).constraint_reference
        proxy.script = ["lose"]
        made = through.put_constraint(id, put, made).constraint_reference
        self.assertEqual(made.version, 4)
        proxy.script = ["lose"]
        self.assertIsNone(through.delete_constraint(made))
        put, id = SubscriptionPut(self.volume, URL.format("b"), True, True), uuid.uuid4()
        proxy.script = ["lose"]
        stored = through.put_subscription(id, put).subscription
        self.assertEqual(self.all.read_subscription(id), stored)
        proxy.script = ["lose"]
        stored = through.put_subscription(id, put, stored).subscription
        proxy.script = ["refuse"]
        self.denied("P8", self.client("tok-a", proxy.url).put_subscription, id, put)
        proxy.script = ["lose"]
        self.assertIsNone(through.delete_subscription(stored))
        uss = f"uss-{uuid.uuid4().hex[:8]}"
        proxy.script = ["lose"]
        told = through.set_availability(uss, "Down")
        self.assertEqual(self.all.read_availability(uss), told)
        # another setting came first
        proxy.script = ["refuse"]
        self.denied("P10", through.set_availability, uss, "Normal")

    def test_what_is_not_repeated_for_ever(self):
        proxy = self.proxy()
        through = self.client("tok-a", proxy.url)
        proxy.script = ["refuse"] * 9
        with self.assertRaises(Unanswered) as caught:
            through.put_intent(uuid.uuid4(), self.intent())
        self.assertTrue(caught.exception.maybe_made)
        self.assertEqual(len(proxy.seen), FAST.tries)
        with self.assertRaises(Unreachable) as caught:
            self.client("tok-a", f"http://127.0.0.1:{places.free_port()}").read_availability("uss-a")
        self.assertFalse(caught.exception.maybe_made)

    # ---- open changes of a pool

    def test_an_open_change_is_settled(self):
        """After `unknown` a change is sent again, unchanged, until it is made or shown to be made, beyond `tries`."""
        proxy, id = self.proxy(), uuid.uuid4()
        through = self.client("tok-a", proxy.url, retry=PATIENT)
        proxy.script = [UNKNOWN, UNREACHABLE, "refuse", UNKNOWN, UNREACHABLE]
        made = through.put_intent(id, self.intent()).operational_intent_reference
        self.assertEqual((made.version, [it[0] for it in proxy.seen]), (1, ["PUT"] * 6))
        self.assertEqual(len({it[1:] for it in proxy.seen}), 1)
        # it was made
        proxy.script = ["lose", UNKNOWN, UNREACHABLE]
        changed = through.put_intent(id, self.intent(state="Activated"), made).operational_intent_reference
        self.assertEqual(changed.version, 3)
        proxy.script = ["lose", UNREACHABLE, UNREACHABLE]
        self.assertIsNone(through.delete_intent(changed))
        proxy.script = [UNKNOWN, UNKNOWN, UNKNOWN]
        made = through.put_intent(id, self.intent()).operational_intent_reference
        proxy.script = [UNKNOWN, UNREACHABLE, UNKNOWN]
        self.assertEqual(through.delete_intent(made).operational_intent_reference, made)

    def test_a_denial_settles_an_open_change(self):
        proxy = self.proxy()
        through, id = self.client("tok-a", proxy.url, retry=PATIENT), uuid.uuid4()
        self.b.put_intent(uuid.uuid4(), self.intent("b"))
        proxy.script = [UNKNOWN, UNREACHABLE]
        self.assertFalse(self.denied("P14", through.put_intent, id, self.intent()).maybe_made)
        # these come before the log, and say nothing of the earlier try
        proxy.script = [UNKNOWN, (401, {}, b'{"message":"P3 TOKEN"}')]
        self.assertTrue(self.denied("P3", through.put_intent, id, self.intent()).maybe_made)
        proxy.script = [UNKNOWN, UNASSIGNED]
        with self.assertRaises(Unassigned) as caught:
            through.put_intent(id, self.intent())
        self.assertTrue(caught.exception.maybe_made)

    def test_the_failures_of_a_pool(self):
        """Each of the three is an error of its own, and only `unknown` leaves the change open."""
        proxy, id = self.proxy(), uuid.uuid4()
        through = self.client("tok-a", proxy.url)
        stopped = 503, {}, b'{"message":"stopped"}'
        of_gateway = 503, {}, b'{"message":"unknown: so was the subscription answered that the intent asks for"}'
        for response, kind, is_open, tries in (
            (UNKNOWN, UnknownOutcome, True, FAST.tries), (of_gateway, UnknownOutcome, True, FAST.tries),
            (UNREACHABLE, LogUnreachable, False, FAST.tries), (UNASSIGNED, Unassigned, False, 1), (stopped, Stopped, True, 1),
        ):
            before = len(proxy.seen)
            proxy.script = [response] * tries
            with self.assertRaises(kind) as caught:
                through.put_intent(id, self.intent())
            self.assertEqual((caught.exception.maybe_made, caught.exception.status), (is_open, 503))
            self.assertEqual(len(proxy.seen), before + tries)

    # ---- proxies and failures

    def test_responses_of_proxies(self):
        proxy = self.proxy()
        through, id = self.client("tok-a", proxy.url), uuid.uuid4()
        busy = 429, {**HTML, "Retry-After": "1"}, b"<html>"
        proxy.script = [busy, (503, HTML, b"<html>"), (500, {}, b'{"message":"fault"}')]
        began = time.monotonic()
        through.put_intent(id, self.intent())
        self.assertGreaterEqual(time.monotonic() - began, 1)
        self.assertEqual(len(proxy.seen), 4)
        proxy.script = [(502, HTML, b"<html>")] * 4
        with self.assertRaises(ProxyError) as caught:
            through.delete_intent(self.a.read_intent(id))
        self.assertEqual((caught.exception.status, caught.exception.maybe_made), (502, True))
        for status, fields in ((413, HTML), (404, HTML), (429, {"Retry-After": "3600"})):
            before = len(proxy.seen)
            proxy.script = [(status, fields, b"<html>")]
            with self.assertRaises(ProxyError) as caught:
                through.read_intent(id)
            self.assertEqual((caught.exception.status, len(proxy.seen)), (status, before + 1))
        proxy.script = [(503, {}, b'{"message":"stopped"}')]
        with self.assertRaisesRegex(Exception, "503 stopped"):
            through.read_intent(id)
        proxy.script = [(200, HTML, b"<html>")]
        with self.assertRaises(BadResponse):
            through.read_intent(id)

    def test_bodies_of_the_standard(self):
        """What the gateway answers is passed through, and its denials are errors with all that they have."""
        proxy = self.proxy()
        through = self.client("a token", proxy.url)
        found = {"operational_intent_references": [{"time_start": {"value": "2026-11-27T12:00:00Z", "format": "RFC3339"}}]}
        missing = {"message": "P14 KEY", "missing_operational_intents": found["operational_intent_references"]}
        proxy.script = ["refuse", (200, {}, json.dumps(found).encode()), (409, {}, json.dumps(missing).encode())]
        proxy.script.append((400, {}, b'{"message":"extents[0].volume: no outline"}'))
        body = {"area_of_interest": {"volume": {"outline_circle": {"radius": {"value": 1.5, "units": "M"}}}}}
        path = "/dss/v1/operational_intent_references/query"
        self.assertEqual(through.request("POST", path, body), found)
        self.assertEqual(json.loads(proxy.seen[-1][2]), body)
        self.assertEqual(self.denied("P14", through.request, "PUT", "/x", {}).value, missing)
        self.assertEqual(self.denied("", through.request, "PUT", "/x", {}).message, "extents[0].volume: no outline")

    # ---- keys

    def fetch(self, reference):
        return Known(reference, self.a.read_intent(reference.id).ovn, self.volume)

    def test_a_key_is_completed(self):
        theirs = self.a.put_intent(uuid.uuid4(), self.intent()).operational_intent_reference
        error = self.denied("P14", self.b.put_intent, uuid.uuid4(), self.intent("b"))
        self.assertEqual([it.id for it in error.missing_operational_intents], [theirs.id])
        plans = []

        def plan(known):
            plans.append([it.reference.id for it in known])
            return self.intent("b")
        own = self.b.declare(uuid.uuid4(), plan, self.fetch).operational_intent_reference
        self.assertEqual(plans, [[], [theirs.id]])
        # its own intent is shown with its OVN, and A's is known and has changed
        known = [self.fetch(theirs)]
        self.a.put_intent(theirs.id, self.intent(state="Activated", key=[own.ovn]), theirs)
        self.b.declare(uuid.uuid4(), plan, self.fetch, known=known)
        self.assertEqual(plans[2:], [[theirs.id], [theirs.id, own.id]])
        # an update, whose first response is lost while the key became stale
        proxy = self.proxy()
        through = self.client("tok-b", proxy.url)
        proxy.script = ["lose"]
        changed = through.declare(own.id, plan, self.fetch, own).operational_intent_reference
        self.assertEqual(changed.id, own.id)

    def test_a_lost_put_whose_key_is_stale(self):
        """The put was made, then another USS changed its intent: the loop goes on with an update of what was made."""
        theirs = self.a.put_intent(uuid.uuid4(), self.intent()).operational_intent_reference
        proxy, id = self.proxy(), uuid.uuid4()
        through = self.client("tok-b", proxy.url)
        read = through.read_intent

        def changed_meanwhile(id):
            found = read(id)
            key = [found.ovn or self.b.read_intent(id).ovn]
            self.a.put_intent(theirs.id, self.intent(key=key), self.a.read_intent(theirs.id))
            return found
        through.read_intent = changed_meanwhile
        proxy.script = ["pass", "lose"]
        made = through.declare(id, lambda known: self.intent("b"), self.fetch)
        self.assertEqual(made.operational_intent_reference.version, 2)
        self.assertEqual(self.b.read_intent(id), made.operational_intent_reference)

    def test_a_plan_ends(self):
        self.a.put_intent(uuid.uuid4(), self.intent())
        with self.assertRaises(MissingKey):
            self.b.declare(uuid.uuid4(), lambda known: self.intent("b"), lambda it: Known(it, "0123456789abcdef"), rounds=3)

        def no_way(known):
            if known:
                raise RuntimeError("no way around them")
            return self.intent("b")
        with self.assertRaisesRegex(RuntimeError, "no way"):
            self.b.declare(uuid.uuid4(), no_way, self.fetch)

    def test_peers(self):
        theirs = self.a.put_intent(uuid.uuid4(), self.intent()).operational_intent_reference
        body = {"operational_intent": {"reference": {"ovn": theirs.ovn}, "details": {"volumes": []}}}
        proxy = self.proxy()
        shown = type(theirs)(**{**vars(theirs), "uss_base_url": proxy.url, "ovn": None})
        peers = Peers(lambda url: "token of A", allow_http=True)
        self.addCleanup(peers.close)
        proxy.script = [(200, {}, json.dumps(body).encode()), (404, {}, b"{}"), (200, {}, b"[]")]
        self.assertEqual(peers.fetch(shown), Known(shown, theirs.ovn, {"volumes": []}))
        self.assertEqual(proxy.seen[0][1], f"/uss/v1/operational_intents/{theirs.id}")
        for error in (ProxyError, BadResponse):
            with self.assertRaises(error):
                peers.fetch(shown)
        with self.assertRaisesRegex(Unreachable, "not https"):
            Peers(lambda url: "x").fetch(shown)

    # ---- subscriptions

    def test_notifications(self):
        inbox, id = Subscriptions(self.all), uuid.uuid4()
        stored = inbox.put(id, SubscriptionPut(self.volume, URL.format("b"), True, True))
        self.assertEqual((stored.operational_intent_references, stored.subscription.notification_index), ((), 0))
        flight = self.a.put_intent(uuid.uuid4(), self.intent())
        indexes = [it.notification_index for by in flight.subscribers for it in by.subscriptions]
        self.assertEqual(indexes, [1])
        self.assertIsNone(inbox.notified(id, 1))
        self.assertIsNone(inbox.notified(id, 1))
        # the second notification is lost
        flight = self.a.put_intent(flight.operational_intent_reference.id, self.intent(), flight.operational_intent_reference)
        flight = self.a.put_intent(flight.operational_intent_reference.id, self.intent(), flight.operational_intent_reference)
        missed = inbox.notified(id, 3)
        self.assertEqual([it.version for it in missed.intents], [3])
        self.assertEqual((missed.subscription.notification_index, missed.was_restored), (3, False))
        # after a restart
        inbox = Subscriptions(self.all, json.loads(json.dumps(inbox.state())))
        self.assertEqual(inbox.get(id).index, 3)
        self.a.delete_intent(flight.operational_intent_reference)
        self.assertIsNone(inbox.notified(id, 4))
        self.assertFalse(inbox.notified(id, 2).was_restored)
        inbox._tracked[str(id)] = type(inbox.get(id))(inbox.get(id).subscription, self.volume, 9)
        self.assertTrue(inbox.notified(id, 5).was_restored)
        later = inbox.put(id, SubscriptionPut(self.volume, URL.format("b"), True))
        self.assertEqual((later.subscription.notification_index, later.subscription.notify_for_constraints), (4, False))
        inbox.delete(id)
        with self.assertRaises(KeyError):
            inbox.notified(id, 5)

    def test_notifications_of_many_threads(self):
        inbox, id = Subscriptions(self.all), uuid.uuid4()
        inbox.put(id, SubscriptionPut(Volume(self.volume.cells, 0, 9000, NOW, NOW + 3600), URL.format("b"), True))
        for number in range(20):
            volume = Volume(self.volume.cells, 2000 + 10 * number, 2001 + 10 * number, NOW, NOW + 3600)
            self.a.put_intent(uuid.uuid4(), IntentPut([volume], "Accepted", URL.format("a")))
        barrier = threading.Barrier(4)

        def take(first):
            barrier.wait()
            for index in range(first, 21, 4):
                inbox.notified(id, index)
        with concurrent.futures.ThreadPoolExecutor(4) as threads:
            list(threads.map(take, range(1, 5)))
        self.assertEqual((inbox.get(id).index, self.all.read_subscription(id).notification_index), (20, 20))

    # ---- the documents

    def test_the_clock_of_the_service(self):
        """P13 and P16 tell the time of the service, and nothing is stored."""
        for end, rule in ((NOW - 60, "P13"), (NOW + 600, "P16")):
            volume = Volume(self.volume.cells, 0, 100, NOW - 120, end)
            put = IntentPut([volume], "Accepted", URL.format("a"), subscription_id=str(uuid.uuid4()))
            self.denied(rule, self.a.put_intent, uuid.uuid4(), put)
        self.assertEqual(self.a.query_intents(self.volume), ())

    def blocks(self, page):
        return re.findall(r"```python\n(.*?)```", (places.TOP / page).read_text(), re.DOTALL)

    def said_by(self, code, **names):
        said = io.StringIO()
        with contextlib.redirect_stdout(said):
            exec(compile(code, "a block of a page", "exec"), names)
        for it in (names.get("a"), names.get("b")):
            if it:
                it.close()
        return said.getvalue()

    def test_the_walk_of_the_readme(self):
        block, = self.blocks("clients/python/README.md")
        self.assertLessEqual(len(block.strip().splitlines()), 18)
        said = self.said_by(block.replace("http://127.0.0.1:8080", self.url).replace("89c25904", self.volume.cells[0]))
        first, *found = said.splitlines()
        self.assertEqual(first, "P14 KEY")
        self.assertRegex(" ".join(sorted(found)), r"^uss-a not shown uss-b [0-9a-f]{64}$")

    def test_the_recovery_of_the_clients_page(self):
        block, = self.blocks("docs/CLIENTS.md")
        put = SubscriptionPut(self.volume, URL.format("b"), True)
        root = self.b.put_subscription(uuid.uuid4(), put).subscription
        other = Volume(["89c25bac"], 0, 100, NOW, NOW + 3600)
        made = [self.b.put_intent(uuid.uuid4(), IntentPut([it], "Accepted", URL.format("b"), subscription_id=root.id))
                for it in (self.volume, other)]
        said = self.said_by(block, client=self.b, root=root.id)
        for it in made:
            reference = it.operational_intent_reference
            self.assertIn(f"{reference.id} {reference.ovn} 1 Accepted", said)
        self.assertEqual(len(said.splitlines()), 2)


if __name__ == "__main__":
    unittest.main()
