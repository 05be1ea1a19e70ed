"""Logs over real members of etcd."""
import json
import os
import random
import time
import urllib.error
import urllib.request

from fake_etcd import Fake, coded, plain
from fake_lists import BEFORE, BEHIND, GIVEN, LIST, entry, put_all
from instances import LIMIT, Instance
from links import FIRST, link_text, next_digest, with_link
from over_fake import OPEN, same, texts
from real_etcd import Cluster


def linked(value):
    """An entry with the link of no changes, which every instance has."""
    return with_link(value, link_text(0, FIRST))


def link_at(cluster, revision):
    """The link of the changes up to that of this revision."""
    body = {"create_request": {"key": coded(b"in/"), "range_end": coded(b"in0"), "start_revision": "1"}}
    address = cluster.addresses().split(",")[0]
    count, digest = 0, FIRST
    with urllib.request.urlopen(urllib.request.Request(f"http://{address}/v3/watch", json.dumps(body).encode()), timeout=LIMIT) as lines:
        for line in lines:
            for event in json.loads(line)["result"].get("events", ()):
                it = event["kv"]
                value = None if event.get("type") == "DELETE" else plain(it.get("value", ""))
                count, digest = count + 1, next_digest(digest, plain(it["key"]), value)
                if int(it["mod_revision"]) >= int(revision):
                    return link_text(count, digest).decode()


def one_member(room):
    cluster = Cluster(room)
    one, two = Instance(cluster.addresses(), "a"), Instance(cluster.addresses(), "b")
    for it in range(10):
        one.offer(f"x{it}")
        two.offer(f"y{it}")
        one.begin("wait 20")
        two.begin("wait 20")
    one.settle()
    two.settle()
    same(one.until(20), two.until(20), "orders")
    same(texts(10, "x"), one.own(), "entries of a")
    same(texts(10, "y"), two.own(), "entries of b")
    two.say("end")
    two.settle()
    same(["end 1 20"], [it for it in two.lines if it.startswith("end ")], "ends")
    same([], one.real_faults() + two.real_faults(), "faults")
    one.close()
    two.close()
    cluster.close()


def restarts(room):
    """A member that starts anew has all entries, and a late process of a name replaces the one before."""
    cluster = Cluster(room)
    one = Instance(cluster.addresses(), "a")
    one.offer("x")
    one.settle()
    cluster.kill(0)
    one.offer("y")
    one.wait(500)
    cluster.start(0)
    one.settle()
    same([("x", "y")], [tuple(it[1] for it in one.until(2))], "entries")
    two = Instance(cluster.addresses(), "a")
    two.offer("z")
    two.settle()
    one.offer("w")
    same("replaced", one.until_lost(), "the first process")
    same(["x", "y", "z"], [it[1] for it in two.until(3)], "entries")
    two.close()
    cluster.close()


def compaction_and_deletion(room):
    cluster = Cluster(room)
    one = Instance(cluster.addresses(), "a")
    for it in texts(5, "x"):
        one.offer(it)
    one.settle()
    one.until(5)
    revision = one.wait(100).split()[4]
    link = link_at(cluster, revision)
    cluster.control("compaction", revision)
    late, on_time = Instance(cluster.addresses(), "b"), Instance(cluster.addresses(), "c", revision, 5, link=link)
    same("compacted", late.until_lost(), "the log of one that begins too early")
    on_time.offer("y")
    on_time.settle()
    same(["y"], [it[1] for it in on_time.until(1)], "entries behind the compaction")
    cluster.control("del", "in/a")
    same("deleted", one.until_lost(), "the log of the process whose key was deleted")
    on_time.offer("z")
    on_time.settle()
    again = Instance(cluster.addresses(), "a", revision, 5, link=link)
    again.offer("w")
    again.settle()
    again.say("end")
    again.settle()
    for it in (on_time, again):
        same(["y", "z", "w"], [text for _, text in it.until(3)], "entries around the deletion")
        same(None, it.lost(), "the log")
        it.close()
    same(["end 1 8"], [it for it in again.lines if it.startswith("end ")], "ends")
    cluster.close()


def leases(room):
    """A put with a lease is an entry. Its end is a deletion, and the log goes on."""
    cluster = Cluster(room)
    one = Instance(cluster.addresses(), "a")
    one.offer("x")
    one.settle()
    lease = cluster.ask(0, "/v3/lease/grant", {"TTL": "1"})["ID"]
    for value in (b"5\ny", b"5\nz"):
        cluster.ask(0, "/v3/kv/put", {"key": coded(b"in/z"), "value": coded(linked(value)), "lease": lease})
    one.until(3)
    revision = one.wait(100).split()[4]
    end = time.monotonic() + LIMIT
    while cluster.ask(0, "/v3/kv/range", {"key": coded(b"in/z")}).get("kvs") and time.monotonic() < end:
        time.sleep(0.2)
    cluster.ask(0, "/v3/kv/put", {"key": coded(b"in/z"), "value": coded(with_link(b"5\nw", link_at(cluster, revision).encode()))})
    two = Instance(cluster.addresses(), "b", revision, 3, link=link_at(cluster, revision))
    for it, entries in ((one, ["x", "y", "z", "w"]), (two, ["w"])):
        it.say("end")
        it.settle()
        same(entries, [text for _, text in it.until(len(entries))], "entries")
        same([None, ["end 1 4"]], [it.lost(), [line for line in it.lines if line.startswith("end ")]], "losses and ends")
        it.close()
    cluster.close()


def users(room):
    """A user may write its own key only."""
    cluster = Cluster(room)
    for words in (
        ("user", "add", "root:r"), ("user", "grant-role", "root", "root"), ("role", "add", "a"), ("user", "add", "a:secret"),
        ("role", "grant-permission", "a", "readwrite", "in/a"), ("role", "grant-permission", "a", "--prefix=true", "read", "in/"),
        ("user", "grant-role", "a", "a"), ("auth", "enable"),
    ):
        cluster.control(*words)
    one = Instance(cluster.addresses(), "a", user=("a", "secret"))
    one.offer("x")
    one.settle()
    same(["x"], [it[1] for it in one.until(1)], "entries")
    same([], one.real_faults(), "faults")
    other = Instance(cluster.addresses(), "b", user=("a", "secret"))
    other.offer("y")
    assert other.until_fault("status 403"), f"another's key: {other.faults()}"
    without = Instance(cluster.addresses(), "a")
    without.offer("z")
    assert without.until_fault("status 400"), f"no user: {without.faults()}"
    same(["x"], one.texts(), "entries")
    for it in (one, other, without):
        it.close()
    cluster.close()


def other_settings(room):
    """Of two instances with other settings the second one ends, whichever it is. The first one goes on, and is found by the next."""
    cluster = Cluster(room)
    one, two = Instance(cluster.addresses(), "a"), Instance(cluster.addresses(), "b", salt="another")
    for it in (one, two):
        it.offer(f"x {it.name}")
        it.say("end")
        it.begin("wait 1500")
    # the first fence is of one of them: the other one ends, and this one goes on
    end = time.monotonic() + LIMIT
    while not (one.lost() or two.lost()) and time.monotonic() < end:
        for it in (one, two):
            it.begin("wait 50")
        for it in (one, two):
            it.wait(50)
    for it in (one, two):
        it.wait(1_500)
    losses = [it.lost() for it in (one, two)]
    assert sorted(losses, key=str) == [None, "settings"], f"losses: {losses}"
    first, second = (one, two) if two.lost() else (two, one)
    same([f"x {first.name}"], [it[1] for it in first.until(1)], "entries of the first one")
    same([], [it for it in second.lines if it.startswith(("entry ", "end "))], "what the second one was given")
    cluster.kill(0)
    cluster.start(0)
    third = Instance(cluster.addresses(), "c", salt="a salt" if first is one else "another")
    third.offer("y")
    third.settle()
    same([f"x {first.name}", "y"], [it[1] for it in third.until(2)], "entries of the next one")
    first.offer("z")
    first.settle()
    same([f"x {first.name}", "y", "z"], [it[1] for it in first.until(3)], "entries of the first one")
    same([None, None], [first.lost(), third.lost()], "losses")
    first.close()
    third.close()
    cluster.close()


def supplier_lists(room):
    """A list counts from its place on, for one that reads the log from its beginning and for one that starts behind a revision."""
    cluster = Cluster(room)
    link = link_text(0, FIRST)
    put = lambda key, value: cluster.ask(0, "/v3/kv/put", {"key": coded(key), "value": coded(with_link(value, link))})
    one = Instance(cluster.addresses(), "a")
    one.offer("x")
    one.settle()
    wanted = put_all(put, BEFORE)
    put(LIST, GIVEN)
    put(b"in/c", b"5\ny")
    one.until(4)
    revision = one.wait(100).split()[4]
    link = link_at(cluster, revision).encode()
    later = put_all(put, BEHIND)
    put(LIST, b"")
    put(b"in/c", entry(300, "uss-x"))
    later.append(300)
    two = Instance(cluster.addresses(), "b")
    cases = ((one, wanted + later, "end 1 10"), (two, wanted + later, "end 1 10"))
    for it, moments, end in cases:
        it.say("end")
        it.settle()
        same(moments, it.moments(), f"calls that {it.name} was given")
        same([end], [line for line in it.lines if line.startswith("end ")], "ends")
    cluster.control("compaction", revision)
    three = Instance(cluster.addresses(), "c", revision=revision, count=4, pool=one.agreed, link=link.decode())
    three.say("end")
    three.settle()
    same(later, three.moments(), "calls behind the revision")
    same([], [fault for it in (one, two, three) for fault in it.real_faults()], "faults")
    for it in (one, two, three):
        it.close()
    cluster.close()


def ranges_of_the_fake(room):
    """The fake answers ranges at a revision as etcd does."""
    cluster, fake = Cluster(room), Fake()
    for key, value in ((LIST, b"a uss-a\n"), (b"in/a", b"x"), (LIST, b""), (LIST, GIVEN), (b"in/a", b"y")):
        cluster.ask(0, "/v3/kv/put", {"key": coded(key), "value": coded(value)})
        fake.put_from_outside(key, value)

    def said(ask, body):
        try:
            answer = ask(0, "/v3/kv/range", body)
        except urllib.error.HTTPError as error:
            return error.code, json.load(error)
        return 200, {name: it for name, it in answer.items() if name != "header"}

    for compacted in (0, 4):
        if compacted:
            cluster.control("compaction", str(compacted))
            fake.compact(compacted)
        for revision in range(9):
            body = {"key": coded(LIST), "revision": str(revision)}
            same(said(cluster.ask, body), said(fake.ask, body), f"a range at {revision}, compacted to {compacted}")
    fake.close()
    cluster.close()


def alarms(room):
    """A batch that is open for too long because of an alarm is not made once the alarm has ended."""
    cluster = Cluster(room)
    one = Instance(cluster.addresses(), "a")
    one.offer("x")
    one.settle()
    cluster.ask(0, "/v3/maintenance/alarm", {"action": "ACTIVATE", "memberID": "1", "alarm": "NOSPACE"})
    one.offer("late")
    one.say("end")
    one.wait(OPEN)
    same([None, ["end 1 1"]], [one.lost(), [it for it in one.lines if it.startswith("end ")]], "the loss and the end during the alarm")
    cluster.control("alarm", "disarm")
    same("unmade", one.until_lost(), "the log of the writer")
    two = Instance(cluster.addresses(), "a")
    two.offer("y")
    two.settle()
    two.say("end")
    two.settle()
    same(["x", "y"], [it[1] for it in two.until(2)], "entries")
    two.close()
    cluster.close()


def leaders_that_fail(room):
    """Three instances go on while leaders are killed and frozen. Each batch is in the log once, in order."""
    draw = random.Random(int(os.environ.get("SEED", "1")))
    cluster = Cluster(room, 3)
    addresses = cluster.addresses().split(",")
    all_of_them = [Instance(",".join(addresses[it:] + addresses[:it]), "abc"[it]) for it in range(3)]
    count = 0
    for round_ in range(4):
        for _ in range(15):
            for it in all_of_them:
                it.offer(f"{it.name}{count}")
                it.begin(f"wait {draw.randrange(40)}")
            count += 1
            if count % 15 == 8:
                leader = cluster.await_leader()
                fail, mend = ((cluster.stop, cluster.go_on), (cluster.kill, cluster.start))[round_ % 2]
                fail(leader)
        time.sleep(draw.random())
        mend(leader)
    for it in all_of_them:
        it.settle()
    seen = [it.until(3 * count) for it in all_of_them]
    same([seen[0]] * 3, seen, "orders")
    for it in all_of_them:
        same(it.offered, it.own(), f"entries of {it.name}")
    ends = []
    for it in all_of_them:
        it.say("end")
        it.settle()
        ends.append([line.split()[2] for line in it.lines if line.startswith("end ")])
    same([[str(3 * count)]] * 3, ends, "ends")
    for it in all_of_them:
        it.close()
    cluster.close()


def cases():
    """All cases, by name. Each is given a folder of its own."""
    return {f"etcd: {it.__name__}": it for it in (
        one_member, restarts, compaction_and_deletion, leases, users, other_settings, supplier_lists, ranges_of_the_fake, alarms,
        leaders_that_fail,
    )}
