"""Memory allocations are refused to calls over an existing database.

In a short scene each one is refused alone, and in reads two and three in a row. Each response is the expected one,
or a fault that changed nothing, or the stream ends with `dss: memory`, or the service has stopped, which reads never
cause. Acknowledged changes are found again."""
import collections
import concurrent.futures
import os
import pathlib
import tempfile

import tables
import wire
from databases import STORE
from devices import library
from program import BUILT, TOP, run
from without_memory import FAULT, NOW, STOPPED, answers, eight_calls, lost, notifying_calls

TOKENS = str(TOP / "examples" / "tokens.toml")
ENDS = {b"": "done", b"dss: memory\n": "memory", b"dss: db: fault\n": "close"}
FAULTED, STOPS = wire.answer(*FAULT), wire.answer(*STOPPED)


class Scene:
    """Calls over a database in which others were made before, and the number of memory allocations that the program
    then makes."""

    def __init__(self, folder, before, calls):
        self.folder, self.before, self.calls = folder, before, calls
        self.library = library("refuse_memory", folder)
        with self.room() as room:
            self.run(room, before, {})
            self.saved = pathlib.Path(room, "dss.db").read_bytes()
            self.rows = tables.rows_in(pathlib.Path(room, "dss.db"))
        with self.room() as room:
            counted = pathlib.Path(room, "allocations")
            self.again(room, {"GROWTHS": str(counted)})
            self.allocations = int(counted.read_text())

    def room(self):
        return tempfile.TemporaryDirectory(dir=self.folder)

    def run(self, room, calls, more):
        words = [BUILT, "run", "--tokens", TOKENS, "--now", str(NOW), "--db", f"{room}/dss.db", "-"]
        return run(words, b"".join(wire.request(*it) for it in calls), more={"LD_PRELOAD": self.library, **more})

    def again(self, room, more):
        """Returns the result of the calls over the database as it was before them."""
        pathlib.Path(room, "dss.db").write_bytes(self.saved)
        return self.run(room, self.calls, more)

    def came_to(self, got):
        """Returns the outcome of a run in a word, and its responses; no word if the outcome is not permitted."""
        status, output, error = got
        told, found = answers(self.before), wire.answers_of(output)
        faulted = {len(told) + at for at, answer in enumerate(found) if answer == FAULTED}
        wanted = answers([*self.before, *self.calls], faulted)[len(told) :]
        if STOPS in found:
            wanted[found.index(STOPS) :] = [STOPS] * (len(wanted) - found.index(STOPS))
        ended = ENDS.get(error)
        is_whole = len(found) == len(wanted) or ended == "memory"
        if ended is None or status != (ended != "done") or not is_whole or found != wanted[: len(found)]:
            return None, found
        return "stopped" if STOPS in found else "fault" if faulted else ended, found

    def wrong_in(self, database, found, ended):
        """Returns what is wrong with the stored rows after these responses: after reads, they are the same as before."""
        if all(method != "PUT" and method != "DELETE" for method, *_ in self.calls):
            return [] if tables.rows_in(database) == self.rows else [f"{tables.rows_in(database)}"]
        return lost(database, [*self.before, *self.calls], [*answers(self.before), *found], ended == "memory")

    def refused(self, at, row):
        """Returns the outcome of a run in which that many allocations in a row were refused, and what is wrong with it."""
        with self.room() as room:
            got = self.again(room, {"REFUSE_AT": str(at), "REFUSE_ROW": str(row)})
            if got == (1, b"", STORE):
                return "opening", []
            came, found = self.came_to(got)
            wrong = [f"{got!r}"] if came is None else self.wrong_in(pathlib.Path(room, "dss.db"), found, came)
            return came, [f"allocation {at}, {row} in a row: {it}" for it in wrong]

    def each_refused(self, row):
        """Does the same for each allocation, from the last one back to the last one without which the database is not
        opened."""
        with concurrent.futures.ThreadPoolExecutor(os.cpu_count()) as pool:
            for came, wrong in pool.map(lambda at: self.refused(at, row), range(self.allocations, 0, -1)):
                if came == "opening":
                    pool.shutdown(cancel_futures=True)
                    return
                yield came, wrong


def each_of(name, before, calls, rows, never=()):
    """Returns what is wrong if allocations of the calls are refused, that many in a row, from each of them on."""
    found = []
    with tempfile.TemporaryDirectory() as folder:
        scene = Scene(folder, before, calls)
        for row in rows:
            ends = collections.Counter()
            for came, wrong in scene.each_refused(row):
                ends[came] += 1
                found += wrong
            print(f"{name}: {row} in a row of {ends.total()} memory allocations refused: {dict(sorted(ends.items()))}")
            found += [f"{row} in a row: {ends[it]} times {it}" for it in never if ends[it]]
            found += [] if ends["fault"] or row > 1 else ["never a fault"]
    return found


def short_scene():
    """An intent is created that references a subscription and notifies it, is found, and is deleted."""
    _, named, creation, *_ = notifying_calls()
    query = eight_calls()[5]
    deletion = ("DELETE", f"{creation[1]}/{wire.ovn(2)}", creation[2], None)
    return each_of("a short scene over a database", [named], [creation, query, deletion], [1])


def readings():
    """An intent is read, and found in an area: two refused allocations in a row, and three, never stop the service. The
    second one is that of the fault's own text, which ends the stream."""
    creation, query = eight_calls()[0], eight_calls()[5]
    reading = ("GET", creation[1], creation[2], None)
    return each_of("readings over a database", [creation], [reading, query], [2, 3], never=["stopped"])


SCENES = {"short-scene-over-a-database-without-memory": short_scene, "readings-over-a-database-without-memory": readings}
