"""A jump of the system clock holds purges until the clock returns or an operator confirms it.

A library moves the clock of the program."""
import os
import struct
import time

import wire
from admin_port import HEALTH, SERVING, STOP, AdminService, asks, said, until_counted
from devices import library
from figures import FullAndVerbose
from program import BUILT, run
from purge import gone, many, purged_rows
from retention import DAY, FAULTS, PURGED, Retaining, far
from serving import Service
from sockets import CLOSING, LAST, difference

RESUME = asks("POST", "/purge/resume")
DEGRADED = b"degraded: purges are held; check the clock, then POST /purge/resume\n"
RESUMED = said(200, b"resumed\n")
JUMPS, HELD, PURGES = "dss_clock_jumps_total", "dss_purge_held", "dss_purges_total"
FORTY_DAYS = 40 * DAY


class Moved:
    """A service whose clock the test moves."""

    def move(self, seconds):
        # Not write_bytes: it first makes the file empty, and the program, which maps it, then ends by SIGBUS.
        with self.clock.open("r+b") as file:
            file.write(struct.pack("q", seconds))

    def begin(self):
        self.clock = self.folder / "clock"
        self.clock.write_bytes(bytes(8))
        self.environment |= {"LD_PRELOAD": library("move_clock", self.folder), "CLOCK_FILE": str(self.clock)}

    def lines(self):
        """Returns the lines after those of the start."""
        return (self.folder / "errors").read_bytes()[len(self.listening):].decode().splitlines()


class MovedService(Moved, AdminService):
    def __init__(self):
        super().__init__()
        self.begin()


class MovedAlone(Moved, Service):
    """A service without a retention and without an admin port."""

    def __init__(self):
        super().__init__()
        self.begin()


class MovedRetaining(Moved, Retaining):
    def __init__(self, rows, **more):
        super().__init__(rows, **more)
        self.preface = FullAndVerbose.preface if "--verbose" in self.options else b""
        self.begin()


def looks(started):
    """Waits until the service has compared its clock, which it does each second, however late its turn comes."""
    time.sleep(1.2)
    for _ in range(2):
        started.counted()


def held(started, jumps="0"):
    """Returns what is wrong with a service that must hold purges."""
    counted = until_counted(started, HELD, "1")
    found = difference("held", [counted[it] for it in (HELD, JUMPS)], ["1", jumps])
    found += difference("its state", counted['dss_health{state="degraded"}'], "1")
    return found + difference("health", started.asked(HEALTH), said(200, DEGRADED))


def free(started, jumps):
    """Returns what is wrong with a service that must purge again."""
    counted = until_counted(started, HELD, "0")
    found = difference("free", [counted[it] for it in (HELD, JUMPS)], ["0", jumps])
    return found + difference("health", started.asked(HEALTH), said(200, SERVING))


def near(lines, words, slack=2):
    """Compares lines, in which N is a number that may be that much too small or too large."""
    found = []
    if len(lines) != len(words):
        return [f"lines: {lines}, not {words}"]
    for line, (before, number, after) in zip(lines, words):
        middle = line.removeprefix(before).removesuffix(after)
        right = line == before + middle + after and (middle == "" if number is None else middle.isdigit() and abs(int(middle) - number) <= slack)
        found += [] if right else [f"line {line!r}, not {before}{number or ''}{after}"]
    return found


HOLDS, GOES_ON = " s; purges are held", ("dss: clock: returned; purges go on", None, "")


def jumps():
    """A jump is reported, counted, and ends when the clock returns. Small steps are no jumps. Calls are answered."""
    with MovedService() as started:
        looks(started)
        found = free(started, "0")
        for step in (50, 46, 0, -4, 0):
            # No step forward is over 60 seconds, and none backward over 5 but the third, which is done in small ones.
            at = struct.unpack("q", started.clock.read_bytes())[0]
            while at != step:
                at = max(step, at - 4) if step < at else step
                started.move(at)
                looks(started)
        found += free(started, "0") + difference("lines", started.lines(), [])
        started.move(FORTY_DAYS)
        found += held(started, "1")
        found += difference("a client", started.exchange(CLOSING, ends=False), LAST)
        started.move(0)
        found += free(started, "1")
        started.move(-3600)
        found += held(started, "2")
        found += difference("confirmed", started.asked(RESUME), RESUMED)
        found += free(started, "2")
        # The clock that was confirmed is now the one to which others are compared.
        started.move(0)
        found += held(started, "3")
        found += difference("confirmed again", started.asked(RESUME), RESUMED)
        found += free(started, "3")
        found += difference("confirmed without need", started.asked(RESUME), RESUMED)
        looks(started)
        confirmed = ("dss: clock: confirmed; purges go on", None, "")
        found += near(started.lines(), [
            ("dss: clock: jumped forward by ", FORTY_DAYS, HOLDS), GOES_ON,
            ("dss: clock: jumped backward by ", 3600, HOLDS), confirmed,
            ("dss: clock: jumped forward by ", 3600, HOLDS), confirmed,
        ])
        found += difference("told to end", started.asked(STOP), said(200, b"stopping\n"))
        return found + difference("the service", started.ended()[:2], (0, b""))


def unwatched():
    """Without a retention and an admin port a jump means nothing, and is not reported."""
    with MovedAlone() as started:
        found = []
        for seconds in (FORTY_DAYS, -3600, 0):
            started.move(seconds)
            time.sleep(1.2)
            found += difference("a client", started.exchange(CLOSING, ends=False), LAST)
        return found + difference("lines", started.lines(), [])


def deletes_nothing():
    """After a jump forward, intents that have not ended stay stored over the next purge. Once the operator confirms the
    clock, they are purged, and that is reported."""
    rows = far(many(64, 4))
    now = int(time.time())
    rows["volume"] = [(*it[:-1], now + DAY) for it in rows["volume"]]
    rows["subscription"] = [(*it[:-1], now + DAY) for it in rows["subscription"]]
    with MovedRetaining(rows, keep=3600, options=("--verbose",)) as started:
        time.sleep(2)
        found = difference("at first", started.counted()[PURGED], "0")
        started.move(FORTY_DAYS)
        found += held(started, "1")
        # A purge is due each minute.
        time.sleep(65)
        counted = started.counted()
        found += difference("while held", [counted[it] for it in (PURGED, PURGES, FAULTS, HELD)], ["0", "0", "0", "1"])
        found += difference("confirmed", started.asked(RESUME), RESUMED)
        count = sum(gone(started.before, purged_rows(started.before, now + DAY + 1)))
        counted = until_counted(started, PURGES, "1")
        found += difference("afterwards", [counted[it] for it in (PURGED, PURGES, HELD)], [f"{count}", "1", "0"])
        said_of_purge = [it for it in started.lines() if it.startswith("dss: purge: ")]
        return found + difference("line", said_of_purge, [f"dss: purge: removed {count} ended intents, constraints and subscriptions"])


def starts_late():
    """At a start that is later than the retention and a day after the last change, purges are held. A start that is not
    so late purges."""
    found = []
    rows = many(64, 4)
    for days, is_held in ((1.9, False), (2.2, True)):
        service = MovedRetaining(rows, keep=DAY)
        changed = time.time() - days * DAY
        for file in service.folder.glob("dss.db*"):
            os.utime(file, (changed, changed))
        with service as started:
            took = time.time() - days * DAY - changed
            if is_held:
                found += held(started)
                found += difference("nothing", started.counted()[PURGED], "0")
                line = ("dss: clock: ", int(days * DAY), " s after the last known time; purges are held")
                found += near(started.lines(), [line], 2 + took)
                found += difference("confirmed", started.asked(RESUME), RESUMED)
            counted = until_counted(started, PURGES, "1")
            found += difference(f"{days} days", (counted[PURGES], counted[PURGED] != "0", counted[HELD]), ("1", True, "0"))
    return found


def aged(service, days):
    """Gives the files of the database that age, and returns the time of their last change."""
    changed = int(time.time() - days * DAY)
    for file in service.folder.glob("dss.db*"):
        os.utime(file, (changed, changed))
    return changed


def stored(service):
    """Returns the numbers of the file of the trusted time."""
    return [int(it) for it in (service.folder / "dss.db-clock").read_text().split()]


def reads_it(service):
    return run([BUILT, "report", "--db", str(service.database)])[0]


def backs_it_up(service):
    return run([BUILT, "backup", "--db", str(service.database), str(service.folder / "copy.db")])[0]


def held_start():
    """Purges that are held at a start stay held after a kill, a stop, a report or a backup before the first start, and a
    change, until an operator confirms the clock."""
    found = []
    rows = far(many(64, 4))
    for before in (None, reads_it, backs_it_up):
        service = MovedRetaining(rows, keep=DAY)
        changed = aged(service, 2.2)
        if before:
            found += difference("the command before", before(service), 0)
        with service as started:
            for ends in ("killed", "stopped", "changed"):
                found += held(started) + difference("the stored time", stored(started), [changed])
                found += near(started.lines(), [("dss: clock: ", int(time.time()) - changed, " s after the last known time; purges are held")], 30)
                if ends == "changed":
                    path = f"{wire.AVAILABILITY}/uss-new"
                    put = wire.request("PUT", path, "Bearer tok-v", b'{"old_version": "", "availability": "Down"}')
                    found += difference("a change", [it[:12] for it in started.ask([put])], [b"HTTP/1.1 200"])
                if ends == "stopped":
                    started.asked(STOP)
                    started.ended()
                else:
                    started.kill()
                started.start()
            found += held(started) + difference("nothing purged", started.counted()[PURGED], "0")
            found += difference("confirmed", started.asked(RESUME), RESUMED)
            found += free(started, "0")
            started.kill()
            started.start()
            looks(started)
            found += free(started, "0") + difference("lines", started.lines(), [])
    return found


def jump_stays():
    """A jump that was seen while the service ran holds purges after a restart, until the clock returns."""
    found = []
    for step, words in ((FORTY_DAYS, "not back from a jump, N s after"), (3_600, "not back from a jump, N s after"), (-3_600, "N s before")):
        with MovedRetaining(far(many(64, 4)), keep=DAY * 100) as started:
            looks(started)
            started.move(step)
            found += held(started, "1")
            started.kill()
            started.start()
            found += held(started, "0")
            first, last = words.split("N")
            line = (f"dss: clock: {first}", abs(step), f"{last} the last trusted time; purges are held")
            found += near(started.lines(), [line], 30)
            started.kill()
            started.start()
            found += held(started, "0")
            started.move(0)
            found += free(started, "0") + near(started.lines(), [line, GOES_ON], 60)
    return found


def file_of_the_time():
    """The file beside the database has the last trusted time, is for its owner only, and is replaced whole. One that
    cannot be read holds purges until an operator confirms the clock."""
    with MovedRetaining(far(many(64, 4)), keep=DAY * 100) as started:
        file = started.folder / "dss.db-clock"
        looks(started)
        found = difference("mode", oct(file.stat().st_mode), oct(0o100600))
        moment, now = stored(started), int(time.time())
        found += [] if len(moment) == 1 and now - 60 <= moment[0] <= now else [f"the file has {moment} at {now}"]
        started.move(FORTY_DAYS)
        found += held(started, "1")
        times = stored(started)
        found += [] if len(times) == 2 and times[1] >= times[0] + FORTY_DAYS - 5 else [f"after a jump the file has {times}"]
        started.kill()
        started.move(0)
        for text in (b"", b"1", b"a\n", b"1 \n", b"1 2 3\n", b"-5\n", b"18446744073709551616\n", bytes(9)):
            file.write_bytes(text)
            started.start()
            found += held(started) + difference("the damaged file", file.read_bytes() in (text, b"0\n"), True)
            started.kill()
        started.start()
        found += difference("confirmed", started.asked(RESUME), RESUMED) + free(started, "0")
        found += difference("nothing else", sorted(it.name for it in started.folder.glob("dss.db-clock*")), ["dss.db-clock"])
        return found + difference("the file", len(stored(started)), 1)


CASES = {
    "clock-jumps": jumps,
    "clock-jumps-unwatched": unwatched,
    "clock-jump-deletes-nothing": deletes_nothing,
    "late-start-purges-nothing": starts_late,
    "held-start-stays-held": held_start,
    "clock-jump-stays-held": jump_stays,
    "file-of-the-trusted-time": file_of_the_time,
}
