"""Batches of changes of many clients fail in every way.

The machine stops, calls on files fail, the disk is full, memory runs out or the service is killed. Acknowledged
changes are there. All changes of a batch are stored or none. Changes that were not stored get faults, and the
service continues from the airspace before them."""
import collections
import contextlib
import copy
import errno
import os
import pathlib
import shutil
import subprocess
import tempfile
import threading
import time

import drawn_calls
import lengths
import plain_policy
import tables
import wire
from at_once import CLIENTS, FAULTED, NOW, STOPS, TOKENS, AtOnce, Changer, Checked, is_change, looked_at, watched
from crashes import KEPT, STOPPED
from devices import SIZES, WRITES, library
from program import SECONDS, first_difference
from serving import Service

SEED = 81
# The most stops of the machine, batches in which a call on files fails, and batches that begin with a full disk.
MAX_STOPS, FAILURES, FULL = lengths.of(12, 30), 24, 8
ALL_AFTER = 1_000_000
# The changes of a batch whose memory allocations are refused, and the step from one refused allocation to the next.
FEW, STEP = 5, 61
# Kills, each among that many creations of each client.
KILLS, CREATIONS = lengths.of(10, 20), 6


def wrong_in(checked, name, told=()):
    """Returns what is wrong with a batch that must be stored as a whole or not at all."""
    found = [f"{name}: {it}" for it in checked.wrong]
    if not checked.wrong and not checked.is_whole():
        found += [f"{name}: {checked.made} of {checked.changes} changes of a batch are kept, told were {[(it or b'')[:12] for it in told]}"]
    return found


# ---- simulated wrong services


def asked_of_policy(airspace, calls):
    """Returns the policy's responses to calls in their order, and the rows after them."""
    after = copy.deepcopy(airspace)
    return [after.ask(*it).text() for it in calls], [after.ask(*looked_at(it)).text() for it in calls]


def planted():
    """Each fault of a simulated wrong service is found: responses before the changes are durable, a partly stored
    batch, faults for what is stored, a read of what is not stored, one serial for two changes, and responses of one
    change given to another."""
    airspace, changers = new_airspace(), [Changer(it) for it in range(CLIENTS)]
    calls = [it.change(airspace, 0) for it in changers]
    for it in calls:
        airspace.ask(*it)
    calls = [it.change(airspace, 1) for it in changers]
    calls[-1] = looked_at(calls[0])
    told, found = asked_of_policy(airspace, calls)
    _, before = asked_of_policy(airspace, [looked_at(it) for it in calls])
    _, half = asked_of_policy(airspace, calls[:7])
    half += before[7:]
    faults = [FAULTED] * len(calls)
    exchanged = [told[1], told[0], *told[2:]]
    numbers = {it: it.replace(wire.ovn(airspace.serial + 2).encode(), wire.ovn(airspace.serial + 1).encode()) for it in found}
    rights = {"kept": (told, found), "not kept": (faults, before), "stopped and kept": ([STOPS] * len(calls), found)}
    wrongs = {
        "acknowledged before it is kept": (told, before),
        "kept in part": ([None] * len(calls), half),
        "told as a fault and kept": (faults, found),
        "a reading of what is not kept": ([*faults[:-1], told[-1]], before),
        "one serial twice": ([None] * len(calls), [numbers[it] for it in found]),
        "answers exchanged": (exchanged, found),
    }
    checked = lambda told, found: wrong_in(Checked(airspace, calls, told, found), "")
    found = [f"{name}: {it}" for name, words in rights.items() for it in checked(*words)]
    return found + [f"{name}: not seen" for name, words in wrongs.items() if not checked(*words)]


# ---- the machine stops


class Stopping(AtOnce):
    """A service whose machine stops at a call that changes the files."""

    def __init__(self, folder):
        super().__init__(library("crash", folder))
        self.saved = pathlib.Path(folder, "saved")

    def save(self):
        """Saves the files, after the program has exited."""
        self.kill()
        self.saved.mkdir()
        for file in self.folder.glob("dss.db*"):
            shutil.copy(file, self.saved)

    def again(self, kept):
        """Starts the service over the saved files, according to what a disk persists at a stop."""
        self.kill()
        for file in self.folder.glob("dss.db*"):
            file.unlink()
        for file in self.saved.iterdir():
            shutil.copy(file, self.folder)
        self.begin({"CRASH_KEEPS": kept})

    def found_again(self, calls, told):
        """Returns what is found of these calls after the stop, and what is wrong. A batch in which all were answered
        had fewer calls on files."""
        wrong = []
        if None in told:
            status = self.program.wait(timeout=SECONDS)
            wrong += [] if status == STOPPED else [f"status {status}"]
        self.kill()
        self.environment = {**os.environ}
        self.start()
        found = self.found(calls)
        self.kill()
        return found, wrong + tables.wrong_in(self.folder / "dss.db")

    def batch(self, airspace, turn, **numbers):
        calls = self.mixed(airspace, turn)
        self.send_at_once(calls, **numbers)
        return calls, self.told()


def one_stop(service, airspace, kept, at, lies=0):
    """Returns what is wrong after a batch that was answered, and a stop at that call of the next one."""
    service.again(kept)
    calls, told = service.batch(airspace, 4, lies=lies)
    after = Checked(airspace, calls, told, service.found(calls)).after
    calls, told = service.batch(after, 5, at=at, row=1, lies=lies)
    found, wrong = service.found_again(calls, told)
    checked, where = Checked(after, calls, told, found), f"call {at}, {kept} kept"
    return [f"{where}: {it}" for it in wrong] + wrong_in(checked, where, told), checked.made


def machine_stops():
    """A machine stops at each call of a batch, or at drawn ones of many, and the disk persists any permitted part. A
    disk that lies about persisting shows that the case would find lost acknowledged changes."""
    draw, found, ends = drawn_calls.Draw(SEED), [], collections.Counter()
    with tempfile.TemporaryDirectory() as folder, Stopping(folder) as service:
        airspace = service.fill()
        service.save()
        service.again("all")
        service.batch(airspace, 4)
        calls = service.page.get("calls")
        places = [(at, kept) for at in range(1, calls + 1) for kept in KEPT]
        while len(places) > MAX_STOPS:
            places.pop(draw.below(len(places)))
        for at, kept in places:
            wrong, made = one_stop(service, airspace, kept, at)
            ends[made] += 1
            found += wrong
        wrong, _ = one_stop(service, airspace, "synced", 1, lies=1)
        found += [] if wrong else ["changes that were answered and are gone were not seen"]
    print(f"the machine stopped {len(places)} times among {calls} calls of a batch, with these numbers of changes stored then: {dict(sorted(ends.items()))}")
    return found


# ---- calls on files fail


class Failing(AtOnce):
    """A service whose calls on files fail, and that is started again if it has stopped."""

    def __init__(self, folder, device="fail_files", clients=CLIENTS):
        super().__init__(library(device, folder), clients)
        self.ends = collections.Counter()

    def checked(self, airspace, calls, told):
        """Returns the outcome of a batch once calls work again. If the service has stopped, the next start shows it."""
        self.page.set()
        found = self.found(calls)
        if STOPS in told:
            stays = [] if set(found) == {STOPS} else [f"stopped, and then {set(found)}"]
            self.again()
            checked = Checked(airspace, calls, told, self.found(calls))
            checked.wrong += stays
            self.ends["stopped"] += 1
            return checked
        checked = Checked(airspace, calls, told, found)
        self.ends["fault" if FAULTED in told else "ended" if None in told else "done"] += 1
        return checked

    def next_works(self, airspace, turn, name):
        """Returns the airspace after a batch in which nothing fails, and what is wrong with it. If each change has its
        own sync, the service has dropped its mirror, and is started again."""
        calls = self.changes(airspace, turn)
        self.send_at_once(calls)
        checked = Checked(airspace, calls, self.told(), self.found(calls))
        if not checked.wrong and checked.made != len(calls):
            checked.wrong += [f"{checked.made} of {len(calls)} changes were made"]
        if self.page.get("syncs") >= len(calls):
            self.ends["without a copy"] += 1
            self.again()
        return checked.after, [f"{name}, the next batch: {it}" for it in checked.wrong]

    def again(self):
        """Stops it, and starts it over the same files."""
        self.kill()
        self.begin()


def at_most_one_sort(told):
    """Returns whether all changes of one batch have the same outcome: done, faults, or stopped."""
    sorts = {it if it in (FAULTED, STOPS) else b"done" for it in told}
    return [] if len(sorts) == 1 else [f"one batch is told as {[it[:12] for it in told]}"]


def calls_fail():
    """A call on files fails in a batch, alone or with all after it: all changes are made, or all get faults and a read
    finds the airspace before the batch, from which the next changes continue; or the service has stopped. After a
    call that fails alone the next changes share a sync, as with a rebuilt mirror."""
    draw, found, most = drawn_calls.Draw(SEED), [], 0
    with tempfile.TemporaryDirectory() as folder, Failing(folder) as service:
        airspace = service.fill()
        calls = service.page.get("calls")
        for number in range(FAILURES):
            numbers = {"at": 1 + draw.below(calls), "row": (1, ALL_AFTER)[number % 2], "error": (errno.EIO, errno.ENOSPC)[number // 2 % 2]}
            asked = service.mixed(airspace, number)
            service.send_at_once(asked, **numbers)
            told = service.told()
            checked = service.checked(airspace, asked, told)
            found += wrong_in(checked, f"{numbers}", told)
            found += [f"{numbers}: {it}" for it in at_most_one_sort([it for it, call in zip(told, asked) if is_change(call)])]
            most = max(most, told.count(FAULTED))
            airspace, wrong = service.next_works(checked.after, number, f"{numbers}")
            found += wrong
            if found:
                break
    print(f"{FAILURES} batches in which calls on files failed, of about {calls} each: {dict(sorted(service.ends.items()))}")
    return found + ([] if most > 2 else ["never several faults"])


def full_disk():
    """Nothing is written from some call of a batch on: its changes get faults, reads find the airspace before it, and
    this lasts for a second batch. Once there is room again the next changes are made."""
    draw, found = drawn_calls.Draw(SEED + 1), []
    with tempfile.TemporaryDirectory() as folder, Failing(folder) as service:
        airspace = service.fill()
        for number in range(FULL):
            numbers = {"at": 1 + draw.below(40), "row": ALL_AFTER, "error": errno.ENOSPC, "kinds": WRITES | SIZES}
            for turn, at in (number, numbers["at"]), (number + 1, 1):
                asked = service.mixed(airspace, turn)
                service.send_at_once(asked, **{**numbers, "at": at})
                told = service.told()
                seen = service.found(asked)
                checked = service.checked(airspace, asked, told)
                found += wrong_in(checked, f"{numbers}", told)
                if STOPS not in told and seen != service.found(asked):
                    found += [f"{numbers}: while the disk is full: {seen!r}"]
                airspace = checked.after
            airspace, wrong = service.next_works(airspace, number + 2, f"{numbers}")
            found += wrong
            if found:
                break
    print(f"{2 * FULL} batches over a full disk: {dict(sorted(service.ends.items()))}")
    return found + ([] if service.ends["fault"] else ["never a fault"])


# ---- memory runs out


def allocations_refused(step):
    """Memory allocations are refused in a batch of five changes, one in so many: each change is done, or gets a fault
    and is not made, or its connection ends and it was done or not; or the service has stopped, or has exited.
    Acknowledged changes are there."""
    found = []
    with tempfile.TemporaryDirectory() as folder, Failing(folder, "refuse_memory", FEW) as service:
        airspace = service.fill(10)
        at = 1
        while not found:
            asked = service.changes(airspace, at)
            service.send_at_once(asked, at=at, row=1)
            told = service.told()
            allocations = service.page.get("calls")
            if None in told:
                # It may be about to exit because memory ran out, and is started again as its unit does.
                with contextlib.suppress(subprocess.TimeoutExpired):
                    service.program.wait(timeout=0.05)
                service.again()
            checked = service.checked(airspace, asked, told)
            if FAULTED in told and STOPS not in told:
                # It may have dropped its mirror.
                service.again()
            found += [f"allocation {at}: {it}" for it in checked.wrong]
            found += wrong_in(checked, f"allocation {at}", told) if STOPS in told else []
            airspace, wrong = service.next_works(checked.after, at + 1, f"allocation {at}")
            found += wrong
            if at > allocations:
                break
            at += step
    print(f"{FEW} changes at once: one of {step} of {allocations} memory allocations refused: {dict(sorted(service.ends.items()))}")
    return found + ([] if service.ends["fault"] else ["never a fault"])


# ---- the service is killed


class Asked:
    """Creations of each client, in cells of their own, all sent at once."""

    def __init__(self):
        self.changers = [[Changer(at * 1_000 + it) for it in range(CREATIONS)] for at in range(CLIENTS)]

    def calls(self, at, airspace):
        # Each of a client's creations has its own token.
        return [(method, target, f"Bearer tok-{at}", body) for method, target, _, body in (it.put_intent(airspace) for it in self.changers[at])]

    def ids(self, at):
        return [it.id for it in self.changers[at]]


def answered_and_killed(service, sent, seen, wait):
    """Returns the responses to each client of a service that is killed a while after that many responses reached the
    first one."""
    came = [b""] * len(sent)
    connections = [service.connect() for _ in sent]

    def send(connection, requests):
        with contextlib.suppress(OSError):
            connection.sendall(requests)

    senders = [threading.Thread(target=send, args=it) for it in zip(connections, sent)]
    for it in senders:
        it.start()
    while len(wire.answers_of(came[0])) < seen and (chunk := connections[0].recv(1 << 16)):
        came[0] += chunk
    time.sleep(wait)
    service.kill()
    for at, (connection, sender) in enumerate(zip(connections, senders)):
        sender.join()
        with connection, contextlib.suppress(ConnectionResetError):
            while chunk := connection.recv(1 << 16):
                came[at] += chunk
    return [wire.answers_of(it) for it in came]


def lost(asked, airspace, told, rows):
    """Returns what is wrong with the stored intents, by their serials, after these responses: each client's are the
    first that it requested, acknowledged ones are among them, and the policy in the order of the serials gives the
    same responses."""
    place = {id_: (at, number) for at in range(CLIENTS) for number, id_ in enumerate(asked.ids(at))}
    order = [place[id_] for _, id_ in sorted(rows)]
    found = [] if [it for it, _ in sorted(rows)] == list(range(2, 2 + len(rows))) else [f"serials {sorted(rows)}"]
    got = [[] for _ in range(CLIENTS)]
    calls = [asked.calls(at, airspace) for at in range(CLIENTS)]
    for at, number in order:
        found += [] if number == len(got[at]) else [f"client {at}: creation {number} before {len(got[at])}"]
        got[at].append(airspace.ask(*calls[at][len(got[at]) % CREATIONS]).text())
    for at, answers in enumerate(told):
        why = first_difference(got[at][: len(answers)], answers)
        found += [f"client {at}: {why}"] if why else []
    return found


def new_airspace():
    """Returns an airspace in which all changes are watched."""
    airspace = plain_policy.Airspace(NOW, TOKENS)
    airspace.ask(*watched())
    return airspace


def one_kill(draw):
    """Returns what is wrong after a kill, the requests and responses, and the stored rows."""
    asked, airspace = Asked(), new_airspace()
    with Service(TOKENS) as service:
        service.ask([wire.request(*watched())])
        sent = [b"".join(wire.request(*it) for it in asked.calls(at, airspace)) for at in range(CLIENTS)]
        told = answered_and_killed(service, sent, draw.below(CREATIONS), draw.below(20) / 2_000)
        service.start()
        service.kill()
        file = service.folder / "dss.db"
        with tables.opened(file) as database:
            rows = database.execute("SELECT serial, id FROM entity").fetchall()
        return tables.wrong_in(file) + lost(asked, new_airspace(), told, rows), asked, told, rows


def killed():
    """A service is killed while sixteen clients create one intent after the other. One more claimed response shows that
    the case would find the loss of a change."""
    draw, found, kills, between = drawn_calls.Draw(SEED), [], 0, 0
    # On a busy machine many kills come after the last change, so there are more of them.
    while kills < KILLS or 2 * between < KILLS and kills < 10 * KILLS:
        wrong, asked, told, rows = one_kill(draw)
        found += [f"kill {kills}: {it}" for it in wrong]
        kills, between = kills + 1, between + (0 < len(rows) < CLIENTS * CREATIONS)
    print(f"{kills} kills, {between} of them between the first change and the last")
    told[0] = [*told[0], wire.answer(201, "{}")]
    found += [] if lost(asked, new_airspace(), told, rows) else ["an answer of which nothing is kept was not seen"]
    return found + ([] if 2 * between >= KILLS else [f"only {between} kills of {kills} fell among the changes"])


CASES = {
    "at-once-planted": planted,
    "at-once-machine-that-stops": machine_stops,
    "at-once-calls-on-files-that-fail": calls_fail,
    "at-once-full-disk": full_disk,
    "at-once-without-memory": lambda: allocations_refused(STEP),
    "at-once-killed": killed,
}
SCENES = {"changes-at-once-without-memory": lambda: allocations_refused(1)}
