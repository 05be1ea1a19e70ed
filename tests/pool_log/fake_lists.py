"""Cases of supplier lists over a fake etcd."""
from fake_etcd import REQUEST_FAULTS, Fake, plain
from instances import Instance
from over_fake import behind, ends_of, offer_all, same

LIST = b"in/@suppliers"


def entry(moment, *suppliers, number=5):
    """A value of the log: a batch with a call of each of these USSs, all with this moment."""
    calls = "".join(f"{moment} {len(it)}:{it} s---- 3:GET 1:/ 0:\n" for it in suppliers)
    return f"{number}\ndss-batch 1\n{calls}".encode()


def put_all(put, pairs):
    """Puts values under keys, in order. Returns the moments of those that count, each once for each of its calls."""
    moments = []
    for at, (key, suppliers, counts) in enumerate(pairs, 100):
        put(key, entry(at, *suppliers))
        moments += [at] * len(suppliers) if counts else []
    return moments


# Entries before a list, and those behind it. The list gives uss-x and uss-y to the organization z, and uss-y to b.
BEFORE = ((b"in/z1", ["uss-w"], True), (b"in/b", ["uss-x", "uss-w"], True))
GIVEN = b"z uss-x\nz uss-y\nb uss-y\n"
BEHIND = (
    (b"in/z1", ["uss-x"], True), (b"in/z22", ["uss-y", "uss-x"], True), (b"in/z", ["uss-y"], True), (b"in/b", ["uss-y"], True),
    (b"in/z1", ["uss-w"], False), (b"in/z1", ["uss-x", "uss-w"], False), (b"in/z1", ["uss-w", "uss-x"], False),
    (b"in/b", ["uss-x"], False), (b"in/b", ["uss-y", "uss-x", "uss-y"], False), (b"in/zz", ["uss-x"], False),
    (b"in/z.", ["uss-x"], False), (b"in/c", ["uss-x"], False), (b"in/7", ["uss-y"], False), (b"in/b", ["uss-"], False),
    (b"in/b", ["uss-y.b"], False), (b"in/z", ["uss-x", "uss-x"], True),
)


def past_lists(fake):
    """Returns the revisions at which the list was read."""
    return [str(body["revision"]) for kind, body in fake.requests if kind == "range" and "revision" in body and plain(body["key"]) == LIST]


def supplier_lists():
    """An entry that names a USS which the list at its place does not give to its writer is given to nobody, and is not counted."""
    fake = Fake()
    one = Instance(fake.addresses(), "a")
    offer_all(one, fake, 1)
    wanted = put_all(fake.put_from_outside, BEFORE)
    fake.put_from_outside(LIST, GIVEN)
    wanted += put_all(fake.put_from_outside, BEHIND)
    # a purge names no USS, and neither do bytes that are no entry
    for it in (b"5\ndss-purge 1\n1790000000\n", b"5\nx"):
        fake.put_from_outside(b"in/c", it)
    fake.put_from_outside(LIST, b"")
    wanted += put_all(fake.put_from_outside, BEFORE)
    one.say("end")
    one.settle()
    two = Instance(fake.addresses(), "d")
    two.say("end")
    two.settle()
    for it in (one, two):
        same(wanted, it.moments(), f"calls that {it.name} was given")
        same(12, len(it.entries()), f"entries that {it.name} was given")
        same(["end 1 12"], [line for line in it.lines if line.startswith("end ")], "ends")
        same([], it.real_faults(), "faults")
        it.close()
    same([], past_lists(fake), "revisions at which the list was read")


def behind_a_list(fake):
    """A log with a list, a revision behind it, and a later list. Returns an instance, the revision and what counts behind it."""
    one = Instance(fake.addresses(), "a")
    offer_all(one, fake, 1)
    fake.put_from_outside(LIST, b"q uss-q\n")
    fake.put_from_outside(LIST, GIVEN)
    fake.put_from_outside(b"in/b", b"5\nx")
    one.until(2)
    revision = one.wait(100).split()[4]
    same(fake.revision, int(revision), "the revision")
    wanted = put_all(fake.put_from_outside, BEHIND)
    fake.put_from_outside(LIST, b"c uss-x\n")
    for key, moment in ((b"in/c", 300), (b"in/z1", 301)):
        fake.put_from_outside(key, entry(moment, "uss-x"))
    return one, revision, [*wanted, 300]


def lists_behind_a_revision():
    """An instance that starts behind a revision reads the list there, also after a compaction up to it."""
    fake = Fake()
    one, revision, wanted = behind_a_list(fake)
    for compacted in (0, int(revision)):
        fake.compact(compacted)
        two = Instance(fake.addresses(), f"d{compacted}", **behind(fake, revision), count=2, pool=one.agreed)
        two.say("end")
        two.settle()
        same(wanted, two.moments(), "calls behind the revision")
        same(["end 1 8"], [it for it in two.lines if it.startswith("end ")], "ends")
        same([], two.real_faults(), "faults")
        two.close()
    same({revision}, set(past_lists(fake)), "revisions at which the list was read")
    one.close()


def each_fault_of_a_list(fault):
    """A list, or counts, that were not read are asked again. Meanwhile no entry is given."""
    fake = Fake()
    one, revision, wanted = behind_a_list(fake)
    fake.plan("past", fault, fault, None, fault, fault)
    two = Instance(fake.addresses(), "d", **behind(fake, revision), count=2, pool=one.agreed)
    two.say("end")
    two.settle()
    same(wanted, two.moments(), "calls behind the revision")
    one.close()
    two.close()


def lists_that_are_gone():
    """A list before the beginning of the history, or behind its end, ends an instance that starts there."""
    fake = Fake()
    one, revision, _ = behind_a_list(fake)
    fake.compact(int(revision) + 1)
    early = Instance(fake.addresses(), "d", **behind(fake, revision), count=2, pool=one.agreed)
    same("compacted", early.until_lost(), "the log of one that begins too early")
    late = Instance(fake.addresses(), "e", revision=str(fake.revision + 1_000), count=2, pool=one.agreed)
    same("shortened", late.until_lost(), "the log of one that begins too late")
    for it in (early, late):
        same([], [line for line in it.lines if line.startswith(("entry ", "end "))], "what it was given")
    one.close()


def own_entries_that_do_not_count():
    """An instance whose own entry names a USS that the list does not give to it ends. The next one of its name goes on."""
    fake = Fake()
    one = Instance(fake.addresses(), "a1")
    offer_all(one, fake, 1)
    fake.put_from_outside(LIST, GIVEN)
    fake.put_from_outside(b"in/a1", entry(400, "uss-x", number=one.number))
    one.say("end")
    same("suppliers", one.until_lost(), "the log")
    same("ended 3", one.lines[-1], "its status")
    same([], one.moments(), "calls that it was given")
    two = Instance(fake.addresses(), "a1")
    two.offer("next")
    two.settle()
    same(["t0", "next"], [it[1] for it in two.until(2)], "entries")
    same(None, two.lost(), "the log of the next one")
    two.close()


def deleted_lists():
    """Without its key, the supplier list lets every organization act for every USS."""
    fake = Fake()
    one = Instance(fake.addresses(), "a")
    offer_all(one, fake, 1)
    fake.put_from_outside(LIST, GIVEN)
    fake.put_from_outside(b"in/c", entry(100, "uss-x"))
    fake.delete(LIST)
    fake.put_from_outside(b"in/c", entry(101, "uss-x"))
    revision = fake.revision
    fake.put_from_outside(b"in/c", entry(102, "uss-x"))
    two = Instance(fake.addresses(), "d", **behind(fake, revision), count=2, pool=one.agreed)
    for it, moments in ((one, [101, 102]), (two, [102])):
        it.say("end")
        it.settle()
        same(moments, it.moments(), f"calls that {it.name} was given")
        same(["end 1 3"], ends_of(it), "ends")
        it.close()


def cases():
    """All cases, by name."""
    found = {it.__name__: it for it in (
        supplier_lists, lists_behind_a_revision, lists_that_are_gone, own_entries_that_do_not_count, deleted_lists,
    )}
    for fault in REQUEST_FAULTS:
        found[f"list: {fault}"] = lambda fault=fault: each_fault_of_a_list(fault)
    return found
