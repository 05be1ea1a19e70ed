"""Cases of whole runs: all checks hold without faults, nothing is left behind, bounds are kept, and instances agree."""
import contextlib
import html
import re
import signal
import socket
import ssl
import subprocess
import time

from faults import is_query
from narrow_faults import FAULTS
from place import TOP, Before, Plain, free_port
from proxy import KINDS, ONE, Proxy
from suite import forms
from suite.dialect import Standard

AREA = "operational_intent_references/query"
MIN = {"profile": 80, "standard": 60}


def suite_checks(*words):
    """Returns the names of the checks that the suite lists."""
    done = subprocess.run([TOP / "qualify" / "run", "--list", *words], capture_output=True, text=True, check=True)
    return [it.split(" ")[1].rstrip(":") for it in done.stdout.splitlines()]


def all_holds(gateway):
    """The service passes all checks of the profile, by four seeds, and stores nothing afterwards."""
    with Plain() as place:
        for seed in "1234":
            held = place.run(seed=seed)
            held.must_hold(MIN["profile"])
            assert sorted(it.get("name") for it in held.cases) == sorted(suite_checks())
        for uss in ("uss-a", "uss-b"):
            assert place.ask("tok-a", "GET", f"uss_availability/{uss}")["status"]["availability"] == "Unknown"
        assert place.left() == []


def no_explanations_are_skipped(gateway):
    """A service that explains nothing passes all other checks. The run, its page and its XML say which one was skipped, and why."""
    with Plain("--verbose") as place:
        held, name = place.run(), "denials_are_explained"
        assert held.status == 0 and not held.broken and held.skipped == {name}, held
        assert f"{len(held.cases) - 1} held, 0 broken, 1 skipped\n" in held.text and f"skipped {name}: this service" in held.text, held
        assert 'skipped="1"' in held.xml and held.page.count("Skipped: this service") == 1, held.page


def all_holds_to_the_standard(gateway):
    """The gateway passes all checks that both promise, by two seeds, and its service stores nothing afterwards."""
    with Before(gateway) as place:
        for seed in "12":
            held = place.run(seed=seed)
            held.must_hold(MIN["standard"])
            assert sorted(it.get("name") for it in held.cases) == sorted(suite_checks("--standard"))
        assert place.left() == []


def each_check_can_break(gateway):
    """For each check there is a fault that it must report."""
    for dialect, words in (("profile", []), ("standard", ["--standard"])):
        named = {check for fault in FAULTS.values() if fault.only in (None, dialect) for check in fault.checks}
        assert set(suite_checks(*words)) <= named, set(suite_checks(*words)) - named


def all_holds_through_the_proxy(gateway):
    """A proxy without a fault breaks no check."""
    with Plain() as place:
        place.over(None)[0].must_hold(MIN["profile"])
    with Before(gateway) as place:
        place.over(None)[0].must_hold(MIN["standard"])


def all_holds_over_tls(gateway):
    """Over TLS all checks hold if the certificate is trusted, and no request is sent otherwise."""
    with Plain() as place:
        key, certificate = place.folder / "tls.key", place.folder / "tls.crt"
        subprocess.run(["openssl", "req", "-x509", "-newkey", "rsa:2048", "-nodes", "-days", "2", "-subj", "/CN=127.0.0.1", "-addext",
                        "subjectAltName=IP:127.0.0.1", "-keyout", key, "-out", certificate], check=True, capture_output=True)
        context = ssl.SSLContext(ssl.PROTOCOL_TLS_SERVER)
        context.load_cert_chain(certificate, key)
        proxy = Proxy(place.port, context=context)
        urls = [f"https://127.0.0.1:{proxy.port}"]
        place.run("--ca", certificate, urls=urls).must_hold(MIN["profile"])
        seen = len(proxy.times)
        held = place.run(urls=urls)
        assert held.status == 2 and "CERTIFICATE_VERIFY_FAILED" in held.errors and len(proxy.times) == seen, held
        proxy.end()


def the_gateway_adds_no_member(gateway):
    """The standard permits further members in responses; the gateway's have none, whatever a run requests."""
    dialect, faults, asked_of = Standard(0), [], set()
    dialect.is_open = False

    def noted(world, asked, pass_on):
        answer = pass_on(asked)
        kind, word, _ = asked.words
        if answer and kind:
            form = forms.forms_of(kind, word, dialect) if answer.status < 300 else forms.denial(answer.status == 409, answer.value)
            faults.append(form.fault(answer.value, dialect))
            asked_of.add((kind, asked.method, answer.status < 300))
        return answer
    with Before(gateway) as place:
        place.over(noted)[0].must_hold(MIN["standard"])
    assert len(asked_of) >= 26 and set(faults) == {None}, (set(faults), len(asked_of))


def nothing_is_left_where_checks_break(gateway):
    """A broken check stops in its middle, and what it has put is deleted nevertheless."""
    def denied(world, asked, pass_on):
        answer = pass_on(asked)
        return answer.with_status(418) if answer.status in (403, 404, 409) and asked.method in ("PUT", "DELETE") else answer
    with Plain() as place:
        held, _ = place.over(denied)
        assert held.status == 1 and len(held.broken) > 20, held
        assert "Left behind" not in held.page and place.left() == []


def what_is_there_is_left_alone(gateway):
    """A place that is not empty is skipped."""
    with Plain() as place:
        now, taken = int(time.time()), home_of(place)
        body = {"extents": [{"cells": [taken], "altitude_lower": 0, "altitude_upper": 10, "time_start": now, "time_end": now + 9000}],
                "state": "Accepted", "uss_base_url": "https://a.example"}
        path = "operational_intent_references/00000000-0000-4000-8000-0000000000a1"
        told = place.ask("tok-a", "PUT", path, body)["operational_intent_reference"]
        assert home_of(place) != taken
        place.run().must_hold(MIN["profile"])
        assert place.ask("tok-a", "GET", path)["operational_intent_reference"] == told


def home_of(place):
    """Returns the cell that a run with the first seed uses."""
    homes = []

    def noted(world, asked, pass_on):
        if asked.path.endswith("/query"):
            homes.append((asked.value or {}).get("area_of_interest", {}).get("cells", [""])[0])
        return pass_on(asked)
    place.over(noted, "nothing_said_is_unknown")
    return homes[-1]


def bounds_are_kept(gateway):
    """A run never exceeds its number of requests, its rate and its duration. It deletes what was put until then."""
    with Plain() as place:
        held, proxy = place.over(None, "--requests", "150")
        assert held.status == 1 and len(proxy.times) <= 150 and "the limit of --requests is reached" in held.text, (held, len(proxy.times))
        held, proxy = place.over(None, "intents", "repeats", rate="60")
        held.must_hold(10)
        seconds = [sum(first <= it < first + 1 for it in proxy.times) for first in proxy.times]
        # Requests that arrive slightly late fall into the next second.
        assert max(seconds) <= 70, max(seconds)
        # As above, a run makes more than 150 requests. A busy machine may take seconds before the first check.
        began = time.monotonic()
        held, proxy = place.over(None, "--seconds", "5", rate="30")
        assert held.status == 1 and "the limit of --seconds is reached" in held.text and time.monotonic() - began < 60, held
        assert place.left() == []


def one_that_is_ended_cleans_up(gateway):
    """A run that is interrupted or terminated deletes what it has put, and reports that not all checks held."""
    for how in (signal.SIGINT, signal.SIGTERM):
        with Plain() as place:
            def told(world, asked, pass_on, how=how, place=place):
                answer = pass_on(asked)
                # In the middle of a check that has put three intents.
                if asked.method == "PUT" and len(world.references) == 3:
                    world.references[None] = None
                    place.suite.send_signal(how)
                return answer
            held, _ = place.over(told, "a_query_finds_what_meets_its_area", "all_that_is_missing_is_told")
            assert held.status == 1 and "interrupted" in held.text and len(held.cases) == 1, held
            assert place.left() == []


def a_service_that_goes(gateway):
    """If the service exits in the middle, the remaining checks break, and the run ends."""
    def gone(world, asked, pass_on):
        world.asked = getattr(world, "asked", 0) + 1
        return pass_on(asked) if world.asked < 100 else None
    with Plain() as place:
        held, _ = place.over(gone)
        assert held.status == 1 and len(held.broken) > 50 and len(held.cases) >= MIN["profile"], held
        assert "no response" in held.page


def runs_that_cannot_begin(gateway):
    """A run that cannot begin prints one line, and has status 2."""
    with Plain() as place:
        few = place.folder / "few.toml"
        few.write_text('salt = "x"\n[[token]]\ntext = "tok-a"\nuss = "uss-a"\nscopes = ["utm.strategic_coordination"]\n')
        other = place.folder / "other.toml"
        other.write_text((TOP / "examples" / "tokens.toml").read_text().replace('text = "', 'text = "other-'))
        good = place.tokens[1]
        for words, port, why in (
                (["--tokens", few], None, "lacks tokens"), (["--tokens", place.folder / "none"], None, "no token file"),
                (["--tokens", other], None, ": 401"), (["--tokens", good], free_port(), "no response"),
                (["--standard", "--mint", "false"], None, "gives no token"),
                (["--standard", "--mint", "/nonesuch"], None, "gives no token"),
                (["--standard", "--mint", "echo", "--suppliers", "one"], None, "at least two USSs")):
            place.tokens = words
            held = place.run(port=port)
            assert held.status == 2 and why in held.errors and held.errors.count("\n") == 1 and not held.page, (words, held)
        place.tokens = ["--tokens", good]
        url = f"http://127.0.0.1:{place.port}"
        for words, why in (
                (["nonesuch"], "no such check"), (["--rate", "0"], "above 0"), (["--requests", "x"], "invalid"),
                (["--url", url], "the same URL twice"), (["--write-at-each"], "at least two --url")):
            held = place.run(*words)
            assert held.status == 2 and why in held.errors, held


def pages_stand_alone(gateway):
    """The page loads nothing. It shows the requests, responses and expectations of each check with its rules, and no
    token."""
    with Plain() as place, Before(gateway) as before:
        for held, names in ((place.run(), suite_checks()), (before.run(), suite_checks("--standard"))):
            assert not re.search(r'<(script|link|img|iframe)|src=|href="[^#]|url\(|@import', held.page)
            assert "tok-a" not in held.page + held.xml and "eyJ" not in held.page + held.xml
            for name in names:
                assert f'id="{name}"' in held.page
            texts = [it.findtext("system-out") for it in held.cases]
            assert all(("docs/POLICY.md: " in it or "ASTM F3548-21: " in it) for it in texts)
            assert held.page.count("<th>request</th><th>response</th><th>expected</th>") == len(names)


def answers_are_shown_as_text(gateway):
    """A service's responses are text on the page, whatever they contain."""
    def wrote(world, asked, pass_on):
        answer = pass_on(asked)
        if answer.status == 404:
            answer.put({"message": "<script>alert(1)</script>\u0000\ufffe"})
        return answer
    with Plain() as place:
        held, _ = place.over(wrote, "a_deleted_intent_is_gone")
        assert held.status == 1 and "<script" not in held.page and html.escape("<script>alert(1)") in held.page, held
        failure = held.cases[0].find("failure")
        assert "P7 FOUND" in failure.get("message") and "response: 404" in failure.text and "request: " in failure.text, failure.text


def what_is_wrong_is_named(gateway):
    """A failure names the id that was absent, too many, or there twice."""
    for name, check, said in (("one_found_reference_dropped", "a_query_finds_what_meets_its_area", "absent"),
                              ("a_query_that_finds_too_much", "a_query_finds_what_meets_its_area", "too many"),
                              ("one_missing_reference_dropped", "all_that_is_missing_is_told", "absent"),
                              ("a_missing_reference_twice", "a_key_is_needed", "twice"),
                              ("one_subscriber_dropped", "all_who_meet_are_told", "absent")):
        with Plain() as place:
            held, _ = place.over(FAULTS[name].plant, check)
            named = re.findall(rf"\({said}: ([0-9a-f]{{8}}-[0-9a-f-]{{27}})\)", held.text)
            assert named and named[0] in held.page and named[0] in held.xml, (name, held)
    with Plain() as place:
        held, _ = place.over(FAULTS["a_page_of_five"].plant, "all_that_is_found_is_answered")
        assert "(absent: " in held.text and " and more)" in held.text, held


def a_token_that_is_not_ours(gateway):
    """The run sends requests only to its own URL."""
    with Plain() as place, socket.create_server(("127.0.0.1", 0)) as other:
        other.settimeout(0.2)

        def moved(world, asked, pass_on):
            answer = pass_on(asked)
            answer.set("Location", f"http://127.0.0.1:{other.getsockname()[1]}/")
            return answer.with_status(307) if asked.method == "GET" else answer
        held, _ = place.over(moved, "an_intent_is_created_and_read")
        assert held.status == 1, held
        try:
            other.accept()
        except TimeoutError:
            return
        raise AssertionError("another address was asked")


@contextlib.contextmanager
def proxies(place, *faults):
    """Yields proxies in front of one place, each with its fault."""
    made = [Proxy(place.port, it) for it in faults]
    try:
        yield made
    finally:
        for it in made:
            it.end()


def noting(methods):
    """Returns a proxy's function that plants no fault, and notes the method of each request, or QUERY."""
    def noted(world, asked, pass_on):
        methods.append("QUERY" if is_query(asked) else asked.method)
        return pass_on(asked)
    return noted


def changes_go_to_the_first(gateway):
    """Of three URLs the first gets all changes, and the others only reads. Each check runs for each of the others."""
    with Plain() as place:
        seen = [[], [], []]
        with proxies(place, *map(noting, seen)) as three:
            held = place.run("subscriptions", "repeats", "availability", urls=[it.url for it in three])
        held.must_hold(2 * 25)
        names = [it.get("name") for it in held.cases]
        count = len(names) // 2
        assert names == 2 * names[:count] and len(set(names)) == count, names
        for it in seen[1:]:
            assert it.count("GET") > 50 and it.count("QUERY") > 4 and {*it} == {"GET", "QUERY"}, it
        assert seen[0].count("PUT") > 200 and seen[0].count("DELETE") > 100, seen[0]
        for other in three[1:]:
            said = f"writes at {three[0].url}, reads at {other.url}"
            assert f"qualify: {said}: {count} held, 0 broken\n" in held.text, held
            assert held.page.count(said) == count + 1 and f"at {other.url}</div>" in held.page, held.page
        assert place.left() == []


def changes_go_to_each(gateway):
    """With --write-at-each all checks hold for each pair of two URLs of one service, and changes at once go to both."""
    with Plain() as place:
        seen = [[], []]
        with proxies(place, *map(noting, seen)) as two:
            held = place.run("--write-at-each", urls=[it.url for it in two])
            held.must_hold(2 * MIN["profile"])
            assert held.xml.count("<testsuite ") == 2 and held.page.count('id="one_of_two_is_kept-2"') == 1, held.page
            for it in seen:
                it.clear()
            place.run("--write-at-each", "one_of_two_updates_is_done", urls=[it.url for it in two]).must_hold(2)
            assert [it.count("PUT") for it in seen] == [3, 3], seen
        assert place.left() == []


class Behind:
    """Two instances of one service, of which the second is one change behind: a read there shows what was changed last
    as it was before. `first` and `second` are the functions of their proxies."""

    def __init__(self):
        self.last, self.before = None, None

    def first(self, world, asked, pass_on):
        kind, id_, _ = asked.words
        if asked.method not in ("PUT", "DELETE") or kind not in KINDS:
            return pass_on(asked)
        fields = [it for it in asked.fields if it[0] not in ("Content-Length", "Content-Type")]
        before = pass_on(type(asked)(f"GET /dss/v1/{kind}/{id_} HTTP/1.1", fields, b""))
        answer = pass_on(asked)
        if answer.status < 300:
            self.last, self.before = (kind, id_, asked.all("authorization")), before
        return answer

    def second(self, world, asked, pass_on):
        answer = pass_on(asked)
        if self.last and asked.words[0] == self.last[0] and answer.status in (200, 404):
            if asked.method == "GET" and asked.words[1] == self.last[1]:
                return self.shown(answer, self.before.status, self.before.value, asked)
            if is_query(asked) and answer.status == 200:
                return self.shown(answer, 200, self.found(answer.value), asked)
        return answer

    def found(self, value):
        """Returns the response to a query, with what was changed last as it was."""
        (name, references), one = *value.items(), ONE[self.last[0]]
        kept = [it for it in references if it["id"] != self.last[1]]
        was = [self.before.value[one]] if self.before.status == 200 and len(kept) < len(references) else []
        return {name: sorted(kept + was, key=lambda it: it["id"])}

    def shown(self, answer, status, value, asked):
        """Returns a response with what another one has. OVNs are shown only to the caller that made the change."""
        if asked.all("authorization") != self.last[2] and isinstance(value, dict):
            for it in (it for part in value.values() for it in (part if isinstance(part, list) else [part]) if isinstance(it, dict)):
                if it.get("id") == self.last[1]:
                    it.pop("ovn", None)
        answer.put(value)
        return answer.with_status(status)


# What a read at an instance that is one change behind breaks, whatever the dialect.
BREAKS_BEHIND = {
    "an_intent_is_created_and_read", "an_update_replaces_an_intent", "an_old_ovn_changes_nothing", "a_deleted_intent_is_gone",
    "a_query_finds_what_meets_its_area", "a_constraint_is_created_and_read", "a_constraint_is_updated_and_deleted",
    "a_subscription_is_created_and_read", "a_subscription_is_updated", "a_subscription_is_deleted", "an_availability_is_set",
    "a_lost_update_is_done_once"}


def an_instance_behind_is_found(gateway):
    """A second instance that is one change behind breaks each check that reads there what it changed, at that URL. A run
    over the first URL holds, and so does one that changes at the second."""
    for make in (Plain, lambda: Before(gateway)):
        with make() as place:
            behind = Behind()
            with proxies(place, behind.first, behind.second) as two:
                first, second = (it.url for it in two)
                for urls in ([first], [second], [second, first]):
                    behind.last = None
                    place.run(*BREAKS_BEHIND, urls=urls).must_hold(len(BREAKS_BEHIND))
                held = place.run(*BREAKS_BEHIND, urls=[first, second])
                assert held.status == 1 and held.broken == BREAKS_BEHIND, (BREAKS_BEHIND - held.broken, held)
                said = f"[writes at {first}, reads at {second}; seen at {second}]"
                assert held.text.count(said) == len(BREAKS_BEHIND) == held.text.count("BROKEN "), held
                texts = [it.find("failure").text for it in held.cases]
                assert all(said[1:-1] in it for it in texts) and held.page.count(said) == len(BREAKS_BEHIND), texts
                each = place.run("--write-at-each", *BREAKS_BEHIND, urls=[first, second])
                assert len(each.cases) == 2 * len(BREAKS_BEHIND) and each.broken == BREAKS_BEHIND, each
                assert f"writes at {second}, reads at {first}: {len(BREAKS_BEHIND)} held, 0 broken\n" in each.text, each
                assert not two[0].errors and not two[1].errors, two[0].errors + two[1].errors
            assert place.left() == []


CASES = {it.__name__: it for it in (
    all_holds, no_explanations_are_skipped, all_holds_to_the_standard, each_check_can_break, all_holds_through_the_proxy, all_holds_over_tls,
    the_gateway_adds_no_member, nothing_is_left_where_checks_break, what_is_there_is_left_alone, bounds_are_kept,
    one_that_is_ended_cleans_up, a_service_that_goes, runs_that_cannot_begin, pages_stand_alone, answers_are_shown_as_text, what_is_wrong_is_named,
    a_token_that_is_not_ours, changes_go_to_the_first, changes_go_to_each, an_instance_behind_is_found)}
