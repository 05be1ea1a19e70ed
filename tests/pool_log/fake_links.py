"""Cases of links over a fake etcd: instances that were given other changes, and links without an entry."""
from fake_etcd import Fake
from instances import LIMIT, Instance
from links import FIRST, VALUE, link_text
from over_fake import OPEN, ends_of, offer_all, puts_of, same


def links_in(values):
    """Returns the links without an entry among values."""
    return [it for it in values if (found := VALUE.fullmatch(it)) and found["rest"] is None]


# First lines that are no number and no link.
DIGEST = 64 * b"0"
NO_HEADS = (
    b"", b"5", b"5 0", b"5 0 ", b"5 " + DIGEST, b"5 0 " + DIGEST[1:], b"5 0 " + DIGEST + b"0", b"5 0 " + 64 * b"A",
    b"5 0 " + DIGEST[1:] + b"g", b"5 00 " + DIGEST, b"05 0 " + DIGEST, b"+5 0 " + DIGEST, b"5 +0 " + DIGEST, b"5  0 " + DIGEST,
    b"5 0  " + DIGEST, b"5 0 " + DIGEST + b" ", b" 5 0 " + DIGEST, b"5\t0 " + DIGEST, b"5 0 5 " + DIGEST,
    b"18446744073709551616 0 " + DIGEST, b"5 18446744073709551616 " + DIGEST,
)


def no_heads():
    """Values whose first line is no number with a link are passed over, and nothing is reported."""
    fake = Fake()
    one = Instance(fake.addresses(), "a")
    offer_all(one, fake, 1)
    for head in NO_HEADS:
        for value in head + b"\nz", head:
            with fake.lock:
                fake.put(b"in/z", value)
    fake.put_from_outside(b"in/z", b"5\nan entry")
    one.say("end")
    one.settle()
    same([["t0", "an entry"], [], None], [one.texts(), one.differences(), one.lost()], "entries, differences and the loss")
    one.close()


def other_link(fake, count=None):
    """A link with the count of all changes, or another one, and a digest that none has."""
    return link_text(len(fake.at) if count is None else count, bytes(range(32)))


def links_that_differ():
    """An entry whose link is not that of the changes before it is given to nobody. Its instance is reported, once a minute."""
    fake = Fake()
    one = Instance(fake.addresses(), "a")
    offer_all(one, fake, 1)
    count = len(fake.at)
    fake.put_from_outside(b"in/b1", b"5\nfirst", link=other_link(fake))
    fake.put_from_outside(b"in/b1", b"5\nsecond", link=other_link(fake))
    fake.put_from_outside(b"in/d", b"5\nthird")
    fake.put_from_outside(b"in/c", b"5\nfourth", link=other_link(fake, count + 100))
    # the link of no changes is that of every instance
    fake.put_from_outside(b"in/e", b"5\nfifth", link=link_text(0, FIRST))
    for it in (one, Instance(fake.addresses(), "f")):
        it.say("end")
        it.settle()
        same(["t0", "third", "fifth"], [it[1] for it in it.until(3)], "entries")
        same([("differs", "b1", str(count)), ("ahead", "c", str(count + 100))], it.differences(), "differences")
        same(None, it.lost(), "the log")
        it.close()


def most_differ():
    """An instance ends once more organizations differ than agree, with its own one."""
    for agrees, loss in ((True, None), (False, "diverged")):
        fake = Fake()
        one = Instance(fake.addresses(), "a1")
        offer_all(one, fake, 1)
        # one organization counts once, and the own one does not count
        for name in (b"in/b", b"in/b", b"in/b1", b"in/b2", b"in/a2", b"in/a3"):
            fake.put_from_outside(name, b"5\nwrong", link=other_link(fake))
        if agrees:
            fake.put_from_outside(b"in/d", b"5\nright")
        one.say("end")
        one.settle()
        same(None, one.lost(), "the log while one organization differs")
        fake.put_from_outside(b"in/c", b"5\nwrong", link=other_link(fake))
        if loss is None:
            one.say("end")
            one.settle()
            same(["t0", "right"], one.texts(), "entries")
            one.close()
        else:
            same(loss, one.until_lost(), "the log while two of three differ")


def most_differ_at_a_start():
    """A start counts the organizations once it has read the log, so their order does not matter. If most differ, it reports no end."""
    for agree, loss in ((b"ef", None), (b"", "diverged")):
        fake = Fake()
        for name in b"bc":
            fake.put_from_outside(b"in/%c" % name, b"5\nwrong", link=other_link(fake, 0))
        for name in agree:
            fake.put_from_outside(b"in/%c" % name, b"5\nright")
        one = Instance(fake.addresses(), "a")
        one.say("end")
        if loss is None:
            one.settle()
            same([["right"] * 2, ["end 1 2"]], [one.texts(), ends_of(one)], "entries and ends")
            one.close()
        else:
            same([loss, []], [one.until_lost(), ends_of(one)], "the loss and ends if most differ")
        same(2, len(one.differences()), "differences")


def a_fork():
    """Two stores that were one: the instances of each see that the other ones differ, once their entries meet."""
    fake, other = Fake(), Fake()
    for it in (fake, other):
        it.put_from_outside(b"in/z", b"5\ncommon")
    other.put_from_outside(b"in/y", b"5\nonly here")
    one = Instance(fake.addresses(), "a")
    one.say("end")
    one.settle()
    fake.put_from_outside(b"in/b", b"5\nbehind the fork", link=other.link())
    one.say("end")
    one.settle()
    same([["common"], [("differs", "b", "2")]], [one.texts(), one.differences()], "entries and differences")
    one.close()


def links_of_silent_instances():
    """An instance that writes nothing puts a link, a minute after the entry of another one."""
    fake = Fake()
    one = Instance(fake.addresses(), "a")
    one.until_fenced()
    before = len(fake.entries())
    one.wait(62_000)
    same(before, len(fake.entries()), "values without an entry of another instance")
    fake.put_from_outside(b"in/b", b"5\nx")
    one.wait(2_000)
    same([f"{one.number} ".encode() + fake.link(fake.at[-2])], links_in(fake.entries()), "links")
    same(["x"], one.texts(), "entries")
    one.close()


def batches_behind_a_link():
    """A link without an outcome stays open, until a batch waits behind it for 10 s. Then a fence takes its place, or finds it."""
    lost, made = Fake(), Fake()
    instances = [Instance(it.addresses(), "a") for it in (lost, made)]
    for fake, it in zip((lost, made), instances):
        it.until_fenced()
        fake.put_from_outside(b"in/b", b"5\nx")
    fenced = [len(puts_of(fake, it.number)) for fake, it in zip((lost, made), instances)]
    with lost.lock:
        lost.refused.add("put")
    made.plan("put", "503 after", *["503 before"] * 999)
    puts = lambda at: puts_of((lost, made)[at], instances[at].number)[fenced[at]:]
    links = [f"{it.number} ".encode() + fake.link() for fake, it in zip((lost, made), instances)]

    def go_on(milliseconds):
        for it in instances:
            it.begin(f"wait {milliseconds}")
        for it in instances:
            it.after("wait 0", 2 * LIMIT)

    go_on(62_000 + OPEN)
    same([{it} for it in links], [set(puts(at)) for at in (0, 1)], "puts while no batch waits")
    for it in instances:
        it.offer("y")
    go_on(5_000)
    same([{it} for it in links], [set(puts(at)) for at in (0, 1)], "puts while a batch waits for less than 10 s")
    go_on(OPEN - 5_000)
    fences = [it.fence() for it in instances]
    for _ in range(100):
        # On a busy machine the fence comes a little later.
        if [puts(at)[-1] for at in (0, 1)] == fences:
            break
        go_on(200)
    same(fences, [puts(at)[-1] for at in (0, 1)], "the last puts")
    with lost.lock:
        lost.refused.clear()
    with made.lock:
        made.plans["put"].clear()
    same("unmade", instances[0].until_lost(), "the log of the one whose link was not made")
    same([["x"], []], [instances[0].texts(), links_in(lost.entries())], "entries and links there")
    instances[1].settle()
    instances[1].until(2)
    same([["x", "y"], links[1:]], [instances[1].texts(), links_in(made.entries())], "entries and links of the other one")
    instances[1].close()


def cases():
    """All cases, by name."""
    of_links = (
        no_heads, links_that_differ, most_differ, most_differ_at_a_start, a_fork, links_of_silent_instances, batches_behind_a_link,
    )
    return {it.__name__: it for it in of_links}
