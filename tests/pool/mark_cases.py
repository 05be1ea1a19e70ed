"""Cases of the marks of a pool: which ones `compact` of deploy/pool counts, reports and releases, over one member of etcd."""
import base64
import concurrent.futures
import os
import pathlib
import subprocess
import time

from program import SECONDS, TOP
from real_etcd import Cluster

COMPACT = TOP / "deploy" / "pool" / "compact"
# The changes by which a mark must be before the own one to stand behind, and the limit of own puts in these cases.
AHEAD, LIMIT = 3_000, 3
HALF_A_DAY = 13 * 3_600


class Log:
    """A member of etcd with marks, and `compact` as an organization runs it."""

    def __init__(self, room):
        self.room = pathlib.Path(room)
        self.cluster = Cluster(room)
        # etcd without users takes any user
        (self.room / "user").write_text("a0:none\n")

    def put(self, key, value):
        """Puts a value. Returns the revision of the change."""
        key, value = (base64.b64encode(it.encode()).decode() for it in (key, value))
        return int(self.cluster.ask(0, "/v3/kv/put", {"key": key, "value": value}, SECONDS)["header"]["revision"])

    def mark(self, name, revision, ahead=0):
        """Puts a mark, by a clock that is ahead of this one."""
        return self.put(f"mark/{name}", f"{revision} {int(time.time()) + ahead}")

    def fill(self, count):
        """Makes so many changes. Returns the revision of the last one."""
        with concurrent.futures.ThreadPoolExecutor(16) as threads:
            return max(threads.map(lambda _: self.put("in/x", "no entry"), range(count)))

    def compact(self, *words, name="a0", **more):
        """Returns the status, the output and the lines of the error of a run."""
        given = {"ETCD_USER": str(self.room / "user"), "ENDPOINTS": self.cluster.addresses(), "LIMIT": str(LIMIT)} | more
        done = subprocess.run(
            [str(COMPACT), name, *words], env={**os.environ, **given}, stdin=subprocess.DEVNULL, capture_output=True, text=True, timeout=SECONDS
        )
        return done.returncode, done.stdout, done.stderr.splitlines()

    def begins(self, revision, *said, status=0, words=(), **more):
        """Checks that a compaction has this effect, and reports this."""
        wanted = status, f"compact: the log begins behind revision {revision}\n", [f"compact: {it}" for it in said]
        got = self.compact(*words, **more)
        assert got == wanted, (wanted, got)


def with_log(case):
    def run(room):
        log = Log(room)
        try:
            case(log)
        finally:
            log.cluster.close()
    return run


def foreign(log):
    """Values that can be no marks do not count, and are reported. Without any other one the log is kept."""
    assert log.compact() == (0, "compact: there is no mark yet\n", [])
    first, last = log.fill(20), log.fill(20)
    wrong = {
        "b": ("garbage", "garbage is no mark"),
        "c": (f"{last + 1_000} 1", f"etcd has not reached revision {last + 1_000}"),
        "d": ("1", "1 is no mark"),
        "e": ("x" * 1_000, f"{'x' * 60} is no mark"),
        "f": ("-1 5", "-1 5 is no mark"),
        "g": ("999999999999999999 1", "etcd has not reached revision 999999999999999999"),
        "h": ("99999999999999999999 1", "99999999999999999999 1 is no mark"),
        "i": ("$(id) 1", "$(id) 1 is no mark"),
    }
    for name, (value, _) in wrong.items():
        log.put(f"mark/{name}", value)
    said = [f"mark/{name} does not count: {why}" for name, (_, why) in wrong.items()]
    log.put("mark/a b", f"{first} 1")
    nameless = "mark/a b does not count: it has no name of a user"
    status, printed, errors = log.compact()
    assert (status, printed, errors) == (1, "", [f"compact: {it}" for it in (nameless, *said, "no mark counts")]), errors
    log.mark("a0", last)
    log.mark("j", first)
    log.begins(first, nameless, *said)
    # a mark before the beginning of the log holds nothing
    log.put("mark/j", "1 999999999999")
    log.begins(last, nameless, *said, f"mark/j does not count: the log begins behind revision 1")


def clocks(log):
    """No clock makes a mark count or not."""
    first = log.fill(20)
    for name, revision, ahead in ("a0", first - 1, HALF_A_DAY), ("b0", first - 2, 0), ("c0", first - 3, -99 * HALF_A_DAY):
        log.mark(name, revision, ahead)
    log.begins(first - 3)
    log.mark("c0", first, 10**11)
    log.begins(first - 2)


def behind(log):
    """A mark that stands behind keeps the log, and is reported, until it is released."""
    first = log.fill(10)
    log.put("mark/c0", f"{first} 999999999999")
    log.mark("b0", first + 1)
    last = log.fill(AHEAD + 10)
    # The own mark was not put often enough since: the organization has just come back.
    for _ in range(LIMIT):
        log.mark("a0", last)
    log.mark("b0", last)
    log.begins(first)
    log.mark("a0", last)
    said = lambda puts: f"mark/c0 stands behind: mark/a0 was put {puts} times since revision {first}; ask its organization, or run compact --without c0"
    log.begins(first, said(LIMIT + 1), status=1)
    # also if it is put again and again
    log.mark("c0", first)
    log.mark("a0", last)
    log.begins(first, said(LIMIT + 2), status=1)
    # a mark that is a few files behind, as in a pool with few changes, does not stand behind
    log.mark("b0", last - AHEAD)
    log.begins(first, said(LIMIT + 2), status=1)
    log.begins(last - AHEAD, words=("--without", "c0"))
    gone = f"mark/c0 does not count: the log begins behind revision {first}"
    log.begins(last - AHEAD, gone)
    log.mark("b0", last)
    log.begins(last, gone)
    log.mark("c0", last)
    log.begins(last)
    for words in ("--without", "d0"), ("--without",), ("--without", "a b"), ("b0",), ("--other",):
        assert log.compact(*words)[:2] == (1, ""), words
    assert log.compact("--without", "d0")[2] == ["compact: there is no mark/d0"]


def first_file(log):
    """A mark of the first file of a pool keeps the whole log, and does not stand behind before the own one is far ahead."""
    last = log.fill(10)
    log.mark("b0", 0)
    for _ in range(LIMIT + 2):
        log.mark("a0", last)
    log.begins(0)
    log.mark("b0", last - 1)
    log.begins(last - 1)
    log.mark("b0", 0)
    log.begins(last, "mark/b0 does not count: the log begins behind revision 0")


CASES = {
    "marks that are none": with_log(foreign),
    "marks and clocks": with_log(clocks),
    "marks that stand behind": with_log(behind),
    "marks of the first file": with_log(first_file),
}
