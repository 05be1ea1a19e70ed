"""Cases of links: instances that notice that another one was given other changes of the log."""
import re

from cases import put, until
from file_cases import folder_of, followed, names
from purge_cases import metric
from supplier_cases import TOKENS, all_see, begin_from, counts, created, entry, seen, with_organizations, write

DIVERGED = "dss: pool: diverged: most organizations were given other changes; stop the instance, and compare the members of etcd"
NO_CHAIN = "dss: pool: files: the chain of the newest file is gone or damaged; copy the file and its chain again"
# The link of no changes, which the entries of the other cases have.
FIRST = b"0 " + 64 * b"0"


def forked(pool, key, *calls, count=1):
    """Writes an entry whose writer was given other changes than the instances, as after a fork of the log."""
    write(pool, key, entry(*calls).replace(FIRST, b"%d " % count + 64 * b"f", 1))


def differs(lines, name, count=1):
    """Returns how often lines report an instance as different."""
    line = re.compile(rf"dss: pool: {name} differs after {count} changes: f{{64}}, here [0-9a-f]{{64}}")
    return sum(bool(line.fullmatch(it)) for it in lines)


def differing(pool):
    """Returns how many organizations differ, by the metric of each instance."""
    return [metric(it, "dss_pool_organizations_differing") for it in pool.ports]


def a_fork(pool):
    """The calls of an instance that was given other changes are made nowhere. It is reported, and one organization ends nobody."""
    a, folder = pool.doors[0], folder_of(pool)
    created(a, 1)
    before = counts(pool)
    assert differing(pool) == [0, 0, 0], differing(pool)
    forked(pool, "in/d1", put(2))
    forked(pool, "in/d2", put(3))
    forked(pool, "in/d1", put(4), count=1_000)
    created(a, 5)
    assert counts(pool) == [it + 1 for it in before], (before, counts(pool))
    all_see(pool, (1, 2, 3, 4, 5), [1, 5])
    for door in pool.doors:
        until(lambda: [differs(door.lines, it) for it in ("d1", "d2")] == [1, 1], lambda: door.lines, 20)
    assert differing(pool) == [1, 1, 1], differing(pool)
    # an organization differs by its last link
    write(pool, "in/d1", entry(put(6)))
    all_see(pool, (1, 2, 3, 4, 5, 6), [1, 5, 6])
    assert differing(pool) == [0, 0, 0], differing(pool)
    status, printed, errors = pool.follow(folder, TOKENS)
    lines = errors.splitlines()
    assert (status, printed, [differs(lines, it) for it in ("d1", "d2")]) == (0, f"{names(folder)[0]}\n", [1, 1]) and len(lines) == 2, errors
    door, _ = begin_from(pool, "a2", folder)
    assert seen(door, (1, 2, 3, 4, 5, 6)) == [1, 5, 6]


def most_differ(pool):
    """Once more organizations differ than agree, each instance ends with status 3."""
    for door in pool.doors:
        created(door, pool.doors.index(door) + 1)
    for name in "defg":
        forked(pool, f"in/{name}", put(9))
    for door in pool.doors:
        assert door.end() == (3, DIVERGED), door.lines


def bad_chains(text):
    """Texts that are no chain of the file whose chain this is."""
    first, digests = text.split("\n", 1)
    lines = digests.splitlines(keepends=True)
    assert re.fullmatch(r"([0-9a-f]{64}\n)+", digests) and lines[0] == f"{64 * '0'}\n" and len(lines) > 2, text
    last = len(lines) - 1
    own = re.fullmatch(rf"dss-chain 2 0 {last} (\d+ [0-9a-f]{{64}})", first)[1]
    numbers = "0", f"1 {last + 1}", f"0 {last + 1}", f"0 {last - 1}"
    heads = "", f"dss-chain 2 0 {last}", f"dss-chain 3 0 {last} {own}", f"{first}0", *(f"dss-chain 2 {it} {own}" for it in numbers)
    yield from ("", first, f"{first}\n", f"{text[:-2]}\n", f"{text}\n", f"{text}{lines[-1]}")
    yield from (f"{it}\n{digests}" for it in heads)
    # a copy that was cut
    yield from (f"{first}\n{''.join(lines[:it])}" for it in (1, last))


def without_chain(pool):
    """A file whose chain is gone, or another one, is refused. With the chain, the instance starts."""
    folder = folder_of(pool)
    created(pool.doors[0], 1)
    followed(pool, folder)
    chain = (folder / names(folder)[-1]).with_suffix(".chain")
    text = chain.read_text()
    for bad in (None, *bad_chains(text)):
        chain.unlink(missing_ok=True)
        if bad is not None:
            chain.write_text(bad)
        try:
            begin_from(pool, "a2", folder)
        except OSError as error:
            assert NO_CHAIN in str(error), error
        else:
            raise AssertionError(f"an instance started with the chain {bad!r}")
    status, printed, errors = pool.follow(folder, TOKENS)
    assert (status, printed, errors.splitlines()[0]) == (1, "", NO_CHAIN), (status, printed, errors)
    chain.write_text(text)
    door, _ = begin_from(pool, "a2", folder)
    assert seen(door, (1,)) == [1]


CASES = {
    "links and a fork": with_organizations(a_fork),
    "links of most organizations": with_organizations(most_differ),
    "links without a chain": with_organizations(without_chain),
}
