"""Each call on a database's files fails in turn.

Each response is the plain policy's, or a fault that changed nothing, or says that the service has stopped. A stopped
service answers every later call the same way. Acknowledged changes are found again."""
import collections
import pathlib

import tables
import wire
from databases import STORE, Room
from devices import library
from old_databases import HELD, MOVED, moved_wrong, unpacked
from program import run
from without_memory import FAULT, STOPPED, answers, changes, eight_calls, lost, notifying_calls, without

NOT_CLOSED = b"dss: db: fault\n"


def is_right(calls, got):
    """Returns whether a run's status, output and error are permitted, and how the run ended."""
    status, output, error = got
    found = wire.answers_of(output)
    fault, stopped = wire.answer(*FAULT), wire.answer(*STOPPED)
    faulted = {at for at, answer in enumerate(found) if answer == fault}
    wanted = answers(calls, faulted)
    if stopped in found:
        first = found.index(stopped)
        wanted[first:] = [stopped] * (len(calls) - first)
        return (found, status) == (wanted, error != b"") and error in (b"", NOT_CLOSED), f"stopped at {first + 1}"
    if error == STORE:
        return (found, status) == ([], 1), "not opened"
    return (found, status) == (wanted, error != b"") and error in (b"", NOT_CLOSED), "faults" if faulted else "done"


class Failing(Room):
    """A room in which calls on files fail, according to the environment."""

    def __enter__(self):
        super().__enter__()
        self.library, self.counted = library("fail_files", self.folder.name), str(pathlib.Path(self.folder.name, "calls"))
        return self

    def run(self, words, given, more):
        return run(words, given, more={"LD_PRELOAD": self.library, **more})

    def ways(self, words, given, again):
        """Fails each call on files alone, and with all after it, over a newly made database for each."""
        again()
        self.run(words, given, {"FAIL_CALLS": self.counted})
        self.count = int(pathlib.Path(self.counted).read_text())
        yield {"FAIL_CALLS": self.counted}
        for at in range(1, self.count + 1):
            yield {"FAIL_AT": str(at)}
            yield {"FAIL_AT": str(at), "FAIL_ROW": "1000000"}


def each_call(name, calls):
    """Returns what is wrong with a stream of calls if each call on files fails in turn."""
    given = b"".join(wire.request(*it) for it in calls)
    found, ends = [], collections.Counter()
    with Failing() as room:
        again = lambda: without(room.folder.name)
        for more in room.ways(room.words(), given, again):
            again()
            got = room.run(room.words(), given, more)
            right, came = is_right(calls, got)
            ends[came] += 1
            wrong = lost(room.database, calls, wire.answers_of(got[1]))
            found += [f"{name}, {more}: {got!r}"] if not right else []
            found += [f"{name}, {more}: {it}" for it in wrong]
    print(f"{name}: of {room.count} calls on files each failed alone, and with all after it: {dict(sorted(ends.items()))}")
    # Reads, and denials that concern what was just written, need no call on a file.
    stops = {f"stopped at {at + 1}" for at in changes(calls, answers(calls))}
    return found + [f"{name}: never {it}" for it in sorted(stops - set(ends))]


def each_call_of_a_move():
    """Each call on files fails in turn while a database of format 1 is upgraded. It is upgraded, or it is not opened
    and stays as it was, and the next start upgrades it."""
    found, ends = [], collections.Counter()
    with Failing() as room:

        def again():
            without(room.folder.name)
            unpacked(room.folder.name, "closed")

        again()
        before = tables.rows_in(room.database)
        for more in room.ways(room.words_of("upgrade"), b"", again):
            again()
            got = room.run(room.words_of("upgrade"), b"", more)
            after = room.command("upgrade")
            told = {MOVED: "done", (1, b"", STORE): "not opened", (1, b"", NOT_CLOSED): "not closed"}.get(got)
            ends[told] += 1
            # A database that was not opened may have been upgraded, if the disk did not report it.
            is_right = told and (after == HELD or after == MOVED and told == "not opened")
            found += [] if is_right else [f"{more}: {got!r}, then {after!r}"]
            found += moved_wrong(f"{more}", before, room.database) + [f"{more}: {it}" for it in tables.wrong_in(room.database)]
    print(f"an upgrade: of {room.count} calls on files each failed alone, and with all after it: {dict(sorted(ends.items()))}")
    return found + [f"never {it}" for it in ("done", "not opened") if not ends[it]]


CASES = {
    "database-whose-calls-fail": lambda: each_call("eight calls", eight_calls()),
    "database-whose-calls-fail-as-it-notifies": lambda: each_call("calls that notify", notifying_calls()),
    "old-database-whose-calls-fail": each_call_of_a_move,
}
