"""Logs over a fake etcd, which breaks off, delays, repeats and answers wrongly."""
import random

from fake_etcd import REQUEST_FAULTS, WATCH_FAULTS, Fake, plain
from instances import LIMIT, Instance
from links import VALUE, link_text, without_link


def same(wanted, got, what):
    assert wanted == got, f"{what}: wanted {str(wanted)[:300]}, got {str(got)[:300]}"


def texts(count, tag):
    return [f"{tag}{it}" for it in range(count)]


def offer_all(instance, fake, count=5, tag="t"):
    for it in texts(count, tag):
        instance.offer(it)
    instance.settle()
    instance.until(count)
    same(texts(count, tag), instance.texts(), "entries")
    wanted = [f"{instance.number}\n{it}".encode() for it in texts(count, tag)]
    same(wanted, [without_link(it) for it in fake.entries() if b"\n" in it], "stored")
    for it in fake.entries():
        if b"\n" in it:
            number = int(VALUE.fullmatch(it)["count"])
            same(link_text(number, fake.digests[number]), it.split(b"\n")[0].split(b" ", 1)[1], "the link")


def behind(fake, revision):
    """What an instance is given that starts behind a revision: this, and the link of the changes up to there."""
    return {"revision": revision, "link": fake.link(int(revision)).decode()}


def batches_in_order():
    fake = Fake()
    one = Instance(fake.addresses(), "a")
    offer_all(one, fake, 20)
    same([], one.real_faults(), "faults")
    same(one.fence(), fake.entries()[0], "the fence")
    one.close()


def bodies_of_requests():
    """The texts of the requests, by a reader of JSON that knows nothing of the client."""
    fake = Fake()
    one = Instance(fake.addresses(), "a")
    one.say("end")
    offer_all(one, fake, 1)
    one.say("end")
    one.settle()
    one.close()
    key = "aW4vYQ=="
    put = {"key": key, "value": "%s"}
    bodies = {kind: body for kind, body in fake.requests}
    # a machine that stands still makes it begin a watch again
    bodies["watch"] = next(body for kind, body in fake.requests if kind == "watch")
    condition = {"key": key, "target": "MOD", "result": "EQUAL", "mod_revision": "2"}
    value = bodies["put"]["success"][0]["request_put"]["value"]
    put = {"compare": [condition], "success": [{"request_put": {"key": key, "value": value}}]}
    same({**put, "failure": [{"request_range": {"key": key}}]}, bodies["put"], "put")
    end = {"key": "aW4v", "range_end": "aW4w", "keys_only": True, "limit": "1", "sort_order": "DESCEND", "sort_target": "MOD"}
    same(end, bodies["range"], "end")
    watch = {"key": "aW4v", "range_end": "aW4w", "start_revision": "1", "fragment": True}
    same({"create_request": watch}, bodies["watch"], "watch")


def each_fault_of_a_put(fault):
    fake = Fake()
    one = Instance(fake.addresses(), "a")
    offer_all(one, fake, 1, "first")
    fake.plan("put", fault)
    one.offer("second")
    one.settle()
    one.until(2)
    same(["first0", "second"], one.texts(), "entries")
    if fault != "twice":
        assert one.faults(), "no fault was reported"
    one.close()


def each_fault_of_an_end(fault):
    fake = Fake()
    one = Instance(fake.addresses(), "a")
    offer_all(one, fake, 2)
    fake.plan("range", fault)
    one.say("end")
    one.settle()
    same(["end 1 2"], [it for it in one.lines if it.startswith("end ")], "ends")
    one.close()


def each_fault_of_a_watch(fault):
    fake = Fake()
    one = Instance(fake.addresses(), "a")
    offer_all(one, fake, 2)
    fake.plan("watch", fault)
    for it in "xyz":
        one.offer(it)
    one.settle()
    one.until(5)
    same(["t0", "t1", "x", "y", "z"], one.texts(), "entries")
    one.close()


def fences_that_are_lost():
    fake = Fake()
    fake.plan("put", "503 after", "cut after", "cut before")
    one = Instance(fake.addresses(), "a")
    offer_all(one, fake, 3)
    one.close()


def puts_that_come_late():
    """An earlier process of the name has a put under way. It is refused once the next process has begun."""
    fake = Fake()
    one = Instance(fake.addresses(), "a")
    offer_all(one, fake, 1, "old")
    fake.plan("put", "held")
    one.offer("late")
    one.begin("wait 1000")
    assert fake.held.wait(LIMIT), "the put does not come"
    one.kill()
    two = Instance(fake.addresses(), "a")
    two.offer("new")
    two.settle()
    fake.released.set()
    assert fake.answered.wait(LIMIT), "the put is not answered"
    two.wait(500)
    same(["old0", "new"], two.until(2) and two.texts(), "entries")
    two.close()


def two_processes_of_one_name():
    fake = Fake()
    one, two = Instance(fake.addresses(), "a"), Instance(fake.addresses(), "a")
    one.offer("x")
    one.settle()
    two.offer("y")
    two.settle()
    one.offer("z")
    same("replaced", one.until_lost(), "the first process")
    same("ended 3", one.lines[-1], "its status")
    two.offer("w")
    two.settle()
    two.until(3)
    same(["x", "y", "w"], two.texts(), "entries")
    same(None, two.lost(), "the second process")
    two.close()


def several_names():
    fake = Fake(members=3)
    all_of_them = [Instance(fake.addresses(), name) for name in "abc"]
    for round_ in range(10):
        for it in all_of_them:
            it.offer(f"{it.name}{round_}")
            it.begin("wait 20")
    for it in all_of_them:
        it.settle()
    seen = [it.until(30) for it in all_of_them]
    same([seen[0]] * 3, seen, "orders")
    for it in all_of_them:
        same(it.offered, it.own(), f"entries of {it.name}")
        it.close()


def ends_after_entries():
    """An end is not before an entry that anybody was given before it was asked."""
    fake = Fake()
    one, two = Instance(fake.addresses(), "a"), Instance(fake.addresses(), "b")
    for it in range(10):
        one.offer(f"x{it}")
        one.settle()
        one.until(it + 1)
        two.say("end")
        two.settle()
        said = [line for line in two.lines if line.startswith("end ")][-1]
        same(f"end {it + 1} {it + 1}", said, "end")
        assert len(two.entries()) == it + 1, f"an end was told before its entries: {two.lines}"
    one.close()
    two.close()


# Values that are no fence: the log may begin with them, whatever the settings of the instances.
NO_FENCES = (
    b"", b"5", b"5 ", b" 5", b"5 5 ", b"5  5", b"5 05", b"05 5", b"+5 5", b"5 +5", b"5 5 5", b"5\t5", b"5 x", b"x 5", b"\xff 5", b"5 \xff",
    b"18446744073709551616 5", b"5 18446744073709551616",
)


def other_keys():
    """Keys beside the log raise the revision of the store, and are no entries. Values that are no entry are passed over."""
    fake = Fake()
    for it in NO_FENCES:
        fake.put_from_outside(b"in/z", it)
    one = Instance(fake.addresses(), "a")
    offer_all(one, fake, 1)
    for it in (b"mark/a", b"in0", b"im/x", b"in"):
        fake.put_from_outside(it, b"5\nno entry")
    for it in (b"", b"5", b"\n", b"x\ny", b"05\nz", b"+5\nz", b"18446744073709551616\nz", b"\xff\nz", b" 5\nz", b"5 5", *NO_FENCES):
        fake.put_from_outside(b"in/z", it)
    fake.put_from_outside(b"in/z", b"5\nan entry")
    one.say("end")
    one.settle()
    same(["t0", "an entry"], one.texts(), "entries")
    same(["end 1 2"], [it for it in one.lines if it.startswith("end ")], "ends")
    one.close()


def numbers_of_others():
    """A value under another key with the number of a process is no entry of that process."""
    fake = Fake()
    one = Instance(fake.addresses(), "a")
    offer_all(one, fake, 1)
    fake.put_from_outside(b"in/b", f"{one.number}\nanother's".encode())
    one.offer("last")
    one.settle()
    one.until(3)
    same(["t0", "another's", "last"], one.texts(), "entries")
    same(["t0", "last"], one.own(), "own entries")
    one.close()


def other_settings():
    """An instance with another salt, or another policy, ends at the first fence of the log. The others go on."""
    fake = Fake()
    one = Instance(fake.addresses(), "a")
    offer_all(one, fake, 2)
    for name, settings in ("b", {"salt": "another"}), ("c", {"policy": 2}), ("d", {"salt": "a salt\n"}), ("e", {"salt": ""}):
        other = Instance(fake.addresses(), name, **settings)
        other.offer("never")
        other.say("end")
        same("settings", other.until_lost(), f"the log of {name}")
        same("ended 3", other.lines[-1], "its status")
        same([], [it for it in other.lines if it.startswith(("entry ", "end "))], f"what {name} was given")
    alike = Instance(fake.addresses(), "f")
    alike.offer("y")
    alike.settle()
    one.offer("x")
    one.settle()
    same(["t0", "t1", "y", "x"], [it[1] for it in one.until(4)], "entries")
    same(["t0", "t1", "y", "x"], [it[1] for it in alike.until(4)], "entries")
    same([None, None], [one.lost(), alike.lost()], "losses")
    one.close()
    alike.close()


def settings_of_the_first_fence():
    """The first fence tells the settings of the pool, also if there are others in the same line, or in later ones."""
    for join in (True, False):
        fake = Fake()
        instances = [Instance(fake.addresses(), "a"), Instance(fake.addresses(), "b", salt="another")]
        one, other = instances
        for it in (b"no fence", f"5 {one.agreed}".encode(), b"5\nx", f"5 {other.agreed}".encode(), b"5\ny"):
            fake.put_from_outside(b"in/z", it)
        if join:
            fake.plan("watch", "join", "join")
        for it in instances:
            it.say("end")
            it.begin("wait 2000")
        same(["x", "y"], [it[1] for it in one.until(2)], "entries")
        other.until_lost()
        same([None, "settings"], [it.lost() for it in instances], "losses")
        same([], [it for it in other.lines if it.startswith(("entry ", "end "))], "what the other one was given")
        one.close()


def settings_behind_a_revision():
    """An instance that starts behind a revision compares its settings with the first fence behind it."""
    fake = Fake()
    one = Instance(fake.addresses(), "a")
    offer_all(one, fake, 1)
    revision = one.wait(100).split()[4]
    other = Instance(fake.addresses(), "b", **behind(fake, revision), count=1, salt="another")
    other.until_fenced()
    alike = Instance(fake.addresses(), "c", **behind(fake, revision), count=1)
    alike.until_lost()
    same([None, None, "settings"], [it.lost() for it in (one, other, alike)], "losses")
    one.close()
    other.close()


def known_settings():
    """An instance that knows the settings of the pool compares its own with these, and with no fence."""
    fake = Fake()
    one = Instance(fake.addresses(), "a")
    offer_all(one, fake, 1)
    revision = one.wait(100).split()[4]
    stranger = Instance(fake.addresses(), "b", **behind(fake, revision), count=1, salt="another")
    stranger.until_fenced()
    fences = len(fake.entries())
    other = Instance(fake.addresses(), "c", **behind(fake, revision), count=1, salt="another", pool=one.agreed)
    other.offer("never")
    other.say("end")
    same("settings", other.until_lost(), "the log with other settings")
    same([], [it for it in other.lines if it.startswith(("entry ", "end "))], "what it was given")
    same(fences, len(fake.entries()), "what it wrote")
    alike = Instance(fake.addresses(), "d", **behind(fake, revision), count=1, pool=one.agreed)
    alike.offer("y")
    alike.say("end")
    alike.settle()
    same([None, ["y"]], [alike.lost(), [it[1] for it in alike.until(1)]], "the log with the pool's settings")
    one.close()
    stranger.close()
    alike.close()


def ends_of(instance):
    return [it for it in instance.lines if it.startswith("end ")]


def deleted_keys():
    """A deletion is a change like others. Only the process whose key it was ends, and its next start goes on."""
    fake = Fake()
    one, two = Instance(fake.addresses(), "a"), Instance(fake.addresses(), "b")
    offer_all(one, fake, 1)
    two.until_fenced()
    fake.put_from_outside(b"in/z", b"5\nx")
    fake.delete(b"in/z")
    fake.put_from_outside(b"in/z", b"5\ny")
    for it in (one, two):
        it.say("end")
        it.settle()
        same(["t0", "x", "y"], [text for _, text in it.until(3)], "entries around a deletion")
    fake.delete(b"in/a")
    same("deleted", one.until_lost(), "the log of the process whose key was deleted")
    same("ended 3", one.lines[-1], "its status")
    two.offer("z")
    two.settle()
    three = Instance(fake.addresses(), "a")
    three.offer("w")
    three.settle()
    three.say("end")
    three.settle()
    for it in (two, three):
        same(["t0", "x", "y", "z", "w"], [text for _, text in it.until(5)], "entries behind the deletion")
        same([None, []], [it.lost(), it.real_faults()], "losses and faults")
        it.close()
    same(["end 1 5"], ends_of(three), "ends")


def deleted_last():
    """The revision of the last key of the log is lower once that key is deleted. No change is missing then."""
    fake = Fake()
    one = Instance(fake.addresses(), "a")
    offer_all(one, fake, 1)
    fake.put_from_outside(b"in/z", b"5\nx")
    one.until(2)
    fake.delete(b"in/z")
    for count in (1, 2):
        one.say("end")
        one.settle()
        same(f"end {count} 2", ends_of(one)[-1], "the end")
    same(None, one.lost(), "the log")
    one.close()


def nothing_after_a_loss():
    """No change behind the one at which the log is lost counts, also if it came with it."""
    for join in (True, False):
        fake = Fake()
        one = Instance(fake.addresses(), "a")
        offer_all(one, fake, 1)
        if join:
            fake.plan("watch", "join")
        with fake.lock:
            fake.delete(b"in/a")
            for it in (b"5\ny", b"5\nz"):
                fake.put_from_outside(b"in/z", it)
        one.say("end")
        same("deleted", one.until_lost(), "the log")
        same([["t0"], []], [one.texts(), ends_of(one)], "entries and ends")


# Changes of a key by which a watch shows that it has left one out: those before its last one, which it gives. A word with a star is lost.
GAPS = (
    "put put* put", "put* put", "put* put* put", "put delete* put", "put delete* put* put", "put put delete* put* put", "put* delete",
    "put delete put* put", "put delete put* delete", "put delete* put* put* put", "put put put* delete* put",
)


def make_changes(fake, name, words):
    for it in words.split():
        lost = it.endswith("*")
        if it.startswith("put"):
            fake.put_from_outside(name, b"5\nx", is_lost=lost)
        else:
            fake.delete(name, is_lost=lost)


def changes_left_out(words):
    """A change that cannot be the next one of its key ends an instance, and none behind it counts."""
    fake = Fake()
    one, two = Instance(fake.addresses(), "a"), Instance(fake.addresses(), "b")
    for it in (one, two):
        it.until_fenced()
    make_changes(fake, b"in/z", words)
    fake.put_from_outside(b"in/y", b"5\nbehind")
    for it in (one, two):
        same("shortened", it.until_lost(), f"the log after {words}")
        assert "behind" not in it.texts(), f"an entry behind a gap: {it.texts()}"


def no_changes_left_out():
    """Changes of other keys, and whole lives of a key, leave no gap."""
    fake = Fake()
    one = Instance(fake.addresses(), "a")
    one.until_fenced()
    for words in ("put put put delete", "put delete", "put", "put put", "delete put* delete* put put delete"):
        make_changes(fake, b"in/z", words)
        fake.put_from_outside(b"mark/a", b"1 5")
        fake.put_from_outside(b"in/y", b"5\nx")
    one.say("end")
    one.settle()
    same([None, 14], [one.lost(), len(one.until(14))], "the log")
    one.close()


def counts_behind_a_revision():
    """An instance that starts behind a revision knows the counts there, also after a compaction up to it."""
    for words, loss in (
        ("put", None), ("put delete put", None), ("delete put", None), ("put* put", "shortened"), ("delete* put", "shortened"),
        ("delete* put* put", "shortened"), ("put* delete* put", "shortened"),
    ):
        fake = Fake()
        make_changes(fake, b"in/w", "put delete")
        make_changes(fake, b"in/z", "put delete put put")
        one = Instance(fake.addresses(), "a")
        one.until_fenced()
        revision = fake.revision
        make_changes(fake, b"in/z", words)
        make_changes(fake, b"in/w", "put")
        count = 4 + words.count("put") + 1 - words.count("put*")
        fake.compact(revision)
        two = Instance(fake.addresses(), "b", **behind(fake, revision), count=4, pool=one.agreed)
        two.say("end")
        if loss:
            same(loss, two.until_lost(), f"the log after {words}")
            same([], ends_of(two), "ends")
        else:
            two.settle()
            same([f"end 1 {count}"], ends_of(two), f"ends after {words}")
            two.close()
        one.close()


def no_end_before_the_fence():
    """An instance that cannot put its fence reports no end of the log, whatever entries it is given."""
    fake = Fake()
    one = Instance(fake.addresses(), "a")
    offer_all(one, fake, 2)
    with fake.lock:
        fake.refused.add("put")
    two = Instance(fake.addresses(), "b")
    two.say("end")
    two.until(2)
    two.wait(2_500)
    same([["t0", "t1"], [], None], [two.texts(), ends_of(two), two.lost()], "entries and ends before the fence")
    with fake.lock:
        fake.refused.clear()
    two.settle()
    same(["end 1 2"], ends_of(two), "ends")
    for it in (one, two):
        it.close()


def refused_puts():
    """Only a later value of another process replaces a process. What else can refuse its put is a deletion, or a loss of etcd."""
    def deleted(fake):
        del fake.keys[b"in/a"]

    def older(fake):
        fake.keys[b"in/a"] = next(it for _, it in fake.changes if it.name == b"in/a")

    def emptied(fake):
        fake.keys.clear()
        fake.revision = 1

    def other(fake):
        fake.put(b"in/a", b"7 7")

    for change, loss in ((deleted, "deleted"), (older, "shortened"), (emptied, "shortened"), (other, "replaced")):
        fake = Fake()
        one = Instance(fake.addresses(), "a")
        offer_all(one, fake, 2)
        # the watch says nothing of it
        fake.plan("watch", "stall")
        with fake.lock:
            change(fake)
        one.offer("never")
        same(loss, one.until_lost(), f"the log: {change.__name__}")
        same(["t0", "t1"], one.texts(), "entries")


def puts_of(fake, number):
    """The values that a process has put, in the order of the requests."""
    values = [plain(body["success"][0]["request_put"]["value"]) for kind, body in list(fake.requests) if kind == "put"]
    return [it for it in values if it.split(maxsplit=1)[0] == str(number).encode()]


# Longer than a batch may be open, in milliseconds, with a request that has begun before.
OPEN = 13_000


def batches_that_end():
    """A batch is open when puts fail, as after an alarm. Its writer puts a fence in its place: it is not made once the alarm has ended."""
    fake = Fake()
    one, two = Instance(fake.addresses(), "a"), Instance(fake.addresses(), "b")
    offer_all(one, fake, 1)
    two.until_fenced()
    # a member took the put, and makes it when it goes on
    fake.plan("put", "held")
    one.offer("late")
    one.begin("wait 1000")
    assert fake.held.wait(LIMIT), "the put does not come"
    with fake.lock:
        fake.refused.add("put")
    one.say("end")
    one.wait(OPEN)
    puts = puts_of(fake, one.number)
    last = max(at for at, it in enumerate(puts) if it.endswith(b"\nlate"))
    same({one.fence()}, set(puts[last + 1:]), "puts behind the last one of the batch")
    same([None, ["end 1 1"]], [one.lost(), ends_of(one)], "the loss and the end while the batch is open")
    with fake.lock:
        fake.refused.clear()
    same("unmade", one.until_lost(), "the log of the writer")
    fake.released.set()
    assert fake.answered.wait(LIMIT), "the put is not answered"
    again = Instance(fake.addresses(), "a")
    again.offer("new")
    again.settle()
    for it in (two, again):
        it.say("end")
        it.settle()
        same([["t0", "new"], None], [[text for _, text in it.until(2)], it.lost()], f"what {it.name} was given")
        it.close()
    same(2, fake.entries().count(one.fence()), "fences of the first process")


def batches_that_were_made():
    """A batch was made, and no answer comes for longer than it may be open. The fence finds it, and its writer goes on."""
    fake = Fake()
    one = Instance(fake.addresses(), "a")
    offer_all(one, fake, 1)
    # The next tries fail, too, until all are refused.
    fake.plan("put", "503 after", *["503 before"] * 99)
    one.offer("made")
    one.until_fault("status 503")
    with fake.lock:
        fake.refused.add("put")
        fake.plans["put"].clear()
    one.wait(OPEN)
    same(one.fence(), puts_of(fake, one.number)[-1], "the last put")
    with fake.lock:
        fake.refused.clear()
    one.settle()
    one.offer("next")
    one.settle()
    same(["t0", "made", "next"], one.until(3) and one.texts(), "entries")
    same([None, 1], [one.lost(), fake.entries().count(one.fence())], "the loss, and the fences")
    one.close()


def starts_in_the_middle():
    fake = Fake()
    one = Instance(fake.addresses(), "a")
    offer_all(one, fake, 3)
    revision = one.wait(100).split()[4]
    offer = [f"y{it}" for it in range(3)]
    for it in offer:
        one.offer(it)
    one.settle()
    one.until(6)
    one.close()
    two = Instance(fake.addresses(), "b", **behind(fake, revision), count=3)
    two.say("end")
    two.settle()
    two.until(3)
    same(offer, two.texts(), "entries")
    same(["end 1 6"], [it for it in two.lines if it.startswith("end ")], "ends")
    two.close()


def removed_beginnings():
    fake = Fake()
    one = Instance(fake.addresses(), "a")
    offer_all(one, fake, 3)
    one.close()
    fake.compact(4)
    two = Instance(fake.addresses(), "b")
    same("compacted", two.until_lost(), "the log")


def shortened_logs():
    """An etcd that was set up anew has not what it gave before."""
    fake = Fake()
    one = Instance(fake.addresses(), "a")
    offer_all(one, fake, 3)
    with fake.lock:
        fake.keys.clear()
        fake.revision = 1
    one.say("end")
    same("shortened", one.until_lost(), "the log")


def tokens():
    fake = Fake(users={"dss": "a \"word\" \u00e9"})
    one = Instance(fake.addresses(), "a", user=("dss", "a \"word\" \u00e9"))
    offer_all(one, fake, 3)
    same([], one.real_faults(), "faults")
    with fake.lock:
        fake.tokens.clear()
    one.offer("again")
    one.settle()
    one.until(4)
    same("again", one.texts()[-1], "the last entry")
    assert "status 401" in one.faults(), one.faults()
    one.close()


def endpoints_in_turn():
    fake = Fake()
    one = Instance(f"127.0.0.1:1,127.0.0.1:2,{fake.addresses()}", "a")
    offer_all(one, fake, 3)
    one.close()


def long_batches():
    fake = Fake()
    one = Instance(fake.addresses(), "a")
    one.say("long 1100000")
    one.settle()
    one.until(1)
    same([1_100_000], [len(it) for it in one.texts()], "entries")
    one.say("long 1100001")
    one.wait(100)
    assert any(it.startswith("not offered") for it in one.lines), "a batch that is too long was taken"
    one.close()


def many_entries(shape):
    """The log from its beginning, in one line, in a line for each entry, or in a chunk for each line."""
    fake = Fake()
    wanted = texts(1_000, "x")
    for it in wanted:
        fake.put_from_outside(b"in/z", b"5\n" + it.encode())
    if shape:
        fake.plan("watch", shape)
    one = Instance(fake.addresses(), "a")
    one.until(len(wanted))
    same(wanted, one.texts(), "entries")
    one.close()


def lines_in_pieces():
    """The limit of a watch counts from its last byte, so a line that comes in pieces is awaited."""
    fake = Fake()
    fake.pause = 0.5
    offer_all(Instance(fake.addresses(), "a"), fake, 1)


def silent_watches():
    """A member that is always silent for longer than the limit before changes gets more time with each watch."""
    fake = Fake()
    fake.silence = 5
    offer_all(Instance(fake.addresses(), "a"), fake, 1)


def drawn_faults(seed):
    """Three instances, with faults drawn by a seed."""
    draw = random.Random(seed)
    fake = Fake(members=3, draw=draw, rate=0.15)
    all_of_them = [Instance(fake.addresses(), name) for name in "abc"]
    for round_ in range(8):
        for it in all_of_them:
            it.offer(f"{it.name}{round_}")
            if draw.random() < 0.3:
                it.say("end")
            it.begin(f"wait {draw.randrange(300)}")
    with fake.lock:
        fake.rate = 0
    for it in all_of_them:
        it.settle()
    seen = [it.until(24) for it in all_of_them]
    same([seen[0]] * 3, seen, f"orders with seed {seed}")
    for it in all_of_them:
        same(it.offered, it.own(), f"entries of {it.name} with seed {seed}")
        it.close()


def cases(seeds=6):
    """All cases, by name."""
    found = {it.__name__: it for it in (
        batches_in_order, bodies_of_requests, fences_that_are_lost, puts_that_come_late, two_processes_of_one_name, several_names,
        ends_after_entries, other_keys, numbers_of_others, other_settings, settings_of_the_first_fence, settings_behind_a_revision,
        known_settings, deleted_keys, deleted_last, nothing_after_a_loss, no_changes_left_out, counts_behind_a_revision,
        no_end_before_the_fence, refused_puts, batches_that_end, batches_that_were_made, starts_in_the_middle, removed_beginnings,
        shortened_logs, tokens, endpoints_in_turn, long_batches, lines_in_pieces, silent_watches,
    )}
    for words in GAPS:
        found[f"gap: {words}"] = lambda words=words: changes_left_out(words)
    for fault in REQUEST_FAULTS:
        found[f"put: {fault}"] = lambda fault=fault: each_fault_of_a_put(fault)
        found[f"end: {fault}"] = lambda fault=fault: each_fault_of_an_end(fault)
    for fault in WATCH_FAULTS:
        found[f"watch: {fault}"] = lambda fault=fault: each_fault_of_a_watch(fault)
    for shape in (None, "join", "chunks"):
        found[f"many entries: {shape}"] = lambda shape=shape: many_entries(shape)
    for seed in range(1, seeds + 1):
        found[f"drawn faults {seed}"] = lambda seed=seed: drawn_faults(seed)
    return found
