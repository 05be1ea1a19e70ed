"""`serve --access-log` writes an exact line for each request, without tokens, OVNs and bodies.

Cases cover a file that is moved away, one that cannot be written, and one that cannot be opened."""
import datetime
import re
import time

import drawn_calls
import wire
from figures import BROKEN, asked_by
from admin_port import AdminService
from program import SECONDS, run
from served_calls import Asked
from serving import Service
from sockets import ASKED, difference

# Connections of a hundred drawn calls each.
SEED, CONNECTIONS = 17, 6
KEYS = ("time", "connection", "supplier", "operation", "entity", "status", "rule", "microseconds", "bytes")
LINE = re.compile(" ".join(rf"{it}=(\S+)" for it in KEYS))
MOMENT = re.compile(r"\d{4}-\d\d-\d\dT\d\d:\d\d:\d\d\.\d{3}Z")
UUID = re.compile(r"[0-9A-Fa-f]{8}(?:-[0-9A-Fa-f]{4}){3}-[0-9A-Fa-f]{12}")
# The bytes that a process may write to a file, and the rest of them that is left for the first line.
MOST, LEFT = 4_194_304, 50
LOST = "dss_log_lines_dropped_total"


class Logged(AdminService):
    """`dss serve` with a log in the directory of its database, and an admin port."""

    name = "log"

    @property
    def log(self):
        return self.folder / self.name

    def command(self):
        return [*super().command(), "--access-log", str(self.log)]


def lines_of(file):
    return file.read_text().splitlines()


def until_lines(file, count):
    """Waits until a file has that many lines, and returns them."""
    until = time.monotonic() + SECONDS
    while (not file.exists() or file.read_bytes().count(b"\n") < count) and time.monotonic() < until:
        time.sleep(0.005)
    return lines_of(file) if file.exists() else []


def supplier_of(call, suppliers):
    """Returns the USS of a call's token, if the file has that token."""
    _, _, authorization, *_ = call
    found = re.fullmatch(r"[Bb][Ee][Aa][Rr][Ee][Rr] +(\S+)", authorization or "")
    return suppliers.get(found and found.group(1), "-")


def wanted(call, answer, suppliers):
    """Returns the expected fields of a line: USS, operation, status, rule and bytes."""
    denied = re.search(r'"message":"([HP]\d+) ', answer.decode())
    rule = denied.group(1) if denied else "-"
    operation = "none" if rule in ("P1", "P2") else asked_by(call)
    return supplier_of(call, suppliers), operation, answer[9:12].decode(), rule, f"{len(answer)}"


def entity_is_right(call, entity, rule):
    """Returns whether the logged entity is right: the path's id, whatever the body is, or none if the path has none."""
    method, target, *_ = call
    if entity == "-":
        none = "query" in target or "availability" in target or asked_by(call) == "none" or rule in ("P1", "P2")
        return none or not any(UUID.fullmatch(it) for it in target.split("/"))
    return entity.lower() in target.lower()


def drawn():
    """Drawn calls over several connections and requests that break protocol rules each have their line, in order. No
    line contains a token, an OVN or a body. The times rise and are those of the calls."""
    asked, found = Asked(SEED), []
    with Logged(drawn_calls.ALL_TOKENS) as started:
        suppliers = {token: uss for token, (uss, _) in drawn_calls.ALL_TOKENS.items()}
        began, secrets, calls_of = time.time(), set(suppliers), []
        for connection in range(1, CONNECTIONS + 1):
            calls = asked.calls(wire.MAX_REQUESTS)
            answers = started.ask([wire.request(*it) for it in calls])
            calls_of += [(connection, *it) for it in zip(calls, answers, strict=True)]
        for sent in BROKEN.values():
            started.exchange(sent, ends=False)
        told = until_lines(started.log, len(calls_of) + len(BROKEN))
        ended = time.time()
        text = started.log.read_text()
    found += difference("how many", len(told), len(calls_of) + len(BROKEN))
    moments = []
    for at, (line, (connection, call, answer)) in enumerate(zip(told, calls_of)):
        parts = LINE.fullmatch(line)
        if not parts:
            found += [f"line {at}: {line!r}"]
            continue
        moment, number, supplier, operation, entity, status, rule, took, size = parts.groups()
        moments.append(moment)
        found += difference(f"line {at} of {call}", (supplier, operation, status, rule, size), wanted(call, answer, suppliers))
        found += difference(f"line {at}: connection", number, f"{connection}")
        found += [] if entity_is_right(call, entity, rule) else [f"line {at} of {call}: entity {entity}"]
        found += [] if took.isdigit() and int(took) <= 1_000_000 * (ended - began + 1) else [f"line {at}: {took} microseconds"]
        secrets.update(re.findall(r'"(?:ovn|version|old_version|uss_base_url)":"([^"]{9,})"', answer.decode()))
    for line, rule, number in zip(told[len(calls_of):], BROKEN, range(CONNECTIONS + 1, CONNECTIONS + 1 + len(BROKEN))):
        parts = LINE.fullmatch(line)
        got = parts and parts.groups()[1:5] + parts.groups()[6:7]
        found += difference(rule, got, (f"{number}", "-", "none", "-", rule))
    found += [] if all(MOMENT.fullmatch(it) for it in moments) and moments == sorted(moments) else ["the times do not rise"]
    for it in moments[:1] + moments[-1:]:
        second = datetime.datetime.fromisoformat(it.replace("Z", "+00:00")).timestamp()
        found += [] if began - 1 <= second <= ended + 1 else [f"{it} is no time of the calls"]
    return found + [f"{it!r} is in the log" for it in secrets if it in text]


class ToStandardError(Service):
    """`dss serve` with its log on standard error."""

    options = ("--access-log", "-")


def by_letter():
    """The exact lines of one call, and of one without a route, are on standard error. Without the option there is none."""
    with ToStandardError(count=2) as started:
        first = started.exchange(ASKED)
        second = started.exchange(wire.request("GET", "/nothing"))
        status, output, error = started.ended()
    told = re.sub(rb"time=\S+", b"time=T", re.sub(rb"microseconds=\d+", b"microseconds=N", error[len(started.listening):]))
    lines = (
        f"time=T connection=1 supplier=uss-a operation=read_availability entity=- status=200 rule=- microseconds=N bytes={len(first)}\n"
        f"time=T connection=2 supplier=- operation=none entity=- status=404 rule=P1 microseconds=N bytes={len(second)}\n"
    )
    found = difference("standard error", (status, output, told), (0, b"", lines.encode()))
    with Service(count=1) as started:
        started.exchange(ASKED)
        return found + difference("without the option", started.ended(), (0, b"", started.listening))


def moved_away():
    """A log that was moved away is created again within a second, and no line is lost. An existing one is appended to."""
    found = []
    with Logged() as started:
        started.ask([ASKED] * 3)
        found += difference("at first", len(until_lines(started.log, 3)), 3)
        moved = started.folder / "log.1"
        started.log.rename(moved)
        until, asked = time.monotonic() + SECONDS, 0
        while not started.log.exists() and time.monotonic() < until:
            started.ask([ASKED])
            asked += 1
            time.sleep(0.05)
        until_lines(started.log, 1)
        found += difference("lines in both", len(lines_of(moved)) + len(until_lines(started.log, 1)), 3 + asked)
        found += [] if lines_of(started.log) else ["nothing is in the new file"]
        kept = started.log.read_text()
        started.kill()
        started.start()
        started.ask([ASKED])
        until_lines(started.log, len(kept.splitlines()) + 1)
        found += [] if started.log.read_text().startswith(kept) else ["a new start has not gone on with the file"]
        found += difference("lost", started.counted().get(LOST), "0")
    return found


class Limited(Logged):
    """The same with a limit on the size of files."""

    def command(self):
        return ["prlimit", f"--fsize={MOST}", "env", "--ignore-signal=XFSZ", *super().command()]


def full():
    """A file that takes only the beginning of a line, and then nothing, delays no request. Lost lines are counted, and
    no partial line is left before a whole one."""
    found = []
    with Limited() as started:
        with started.log.open("r+b") as file:
            file.truncate(MOST - LEFT)
        answers = started.ask([ASKED] * 5)
        found += difference("answers", [it[:12] for it in answers], [b"HTTP/1.1 200"] * 5)
        lost = int(started.counted().get(LOST, -1))
        found += difference("lost", lost, 5)
        half = started.log.read_bytes()[MOST - LEFT:]
        found += [] if len(half) == LEFT and half.startswith(b"time=") and b"\n" not in half else [f"half a line: {half!r}"]
        with started.log.open("r+b") as file:
            file.truncate(0)
            file.write(half)
        started.ask([ASKED] * 2)
        until_lines(started.log, 3)
        text = started.log.read_bytes()
        lines = text.split(b"\n")
        found += difference("the half line ends", lines[0], half)
        found += [] if all(LINE.fullmatch(it.decode()) for it in lines[1:-1]) and len(lines) == 4 else [f"lines after it: {text!r}"]
        found += difference("lost later", started.counted().get(LOST), "5")
    return found


def no_space():
    """A log on a disk without space takes no line, and each request gets its response."""
    with Limited() as started:
        with started.log.open("r+b") as file:
            file.truncate(MOST)
        answers = started.ask([ASKED] * 10)
        found = difference("answers", [it[:12] for it in answers], [b"HTTP/1.1 200"] * 10)
        return found + difference("lost", started.counted().get(LOST), "10")


def not_opened():
    """A log that cannot be opened gives one line and status 1, before any file is made."""
    with Service() as started:
        started.kill()
        (started.folder / "dss.db").unlink(missing_ok=True)
        for name in f"{started.folder}/none/log", str(started.folder):
            got = run([*started.command(), "--access-log", name])
            if got != (1, b"", b"dss: output\n"):
                return [f"{name}: {got!r}"]
        return [] if not (started.folder / "dss.db").exists() else ["a database was made"]


CASES = {
    "log-of-drawn-calls": drawn,
    "log-by-letter": by_letter,
    "log-that-is-moved": moved_away,
    "log-that-is-full": full,
    "log-without-space": no_space,
    "log-that-does-not-open": not_opened,
}
