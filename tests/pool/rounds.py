"""Rounds in which something of an organization fails, drawn by a seed, while clients call at all doors."""
import collections
import itertools
import random
import signal
import statistics
import threading
import time

import drawn_calls
from doors import Exchange
from history import UNKNOWN, UNREACHABLE, Model, Record, check, is_change, is_open, numbered
from machines import Failed, until
from sites import BACK, READ, Follower, Sites, kill

# Clients at each door, and seconds between two calls of one.
CLIENTS, PAUSE = 2, 0.03
# Times far ahead of all clocks.
AHEAD = 4_000_000_000
# Seconds of calls before and after something fails, and the limit for a response.
CALM, LIMIT = 1.5, 40
# Seconds by which a clock is moved, at most.
MOVED = 7_200
OPEN = {None: "lost", UNKNOWN: "unknown", UNREACHABLE: "unreachable"}


class Caller(threading.Thread):
    """A client at one door, which draws calls of any USS over the airspace as the log has it."""

    def __init__(self, site, model, numbers, seed):
        super().__init__(daemon=True)
        self.site, self.model, self.numbers, self.draw = site, model, numbers, drawn_calls.Draw(seed)
        self.records, self.goes_on, self.fault = [], True, None
        self.exchange = Exchange(site, LIMIT)

    def run(self):
        try:
            while self.goes_on:
                self.ask(self.drawn())
                time.sleep(PAUSE)
        except Exception as error:
            self.fault = error
        self.exchange.close()

    def drawn(self):
        # Some times are near the clock, so that a denial by P13 depends on the time that the entry has.
        now = int(time.time()) if self.draw.one_in(3) else AHEAD
        with self.model.lock:
            return drawn_calls.Drawn(self.draw, self.model.airspace, now).call()

    def ask(self, call):
        number = next(self.numbers)
        call = numbered(call, number) if is_change(call) else call
        sent, first = time.monotonic(), self.site.time()
        try:
            response = self.exchange.ask(call)
        except OSError:
            self.exchange.close()
            response = None
        answered, last = time.monotonic(), self.site.time()
        took = int(answered - sent) + 1
        # the clock may have been moved meanwhile
        moments = {*range(first, first + took + 1), *range(last - took, last + 1)} if is_change(call) else ()
        record = Record(call, number, self.site.name, sent, answered, response, tuple(moments))
        if response and response[0] >= 500 and not is_open(record):
            raise Failed(f"{self.site.name}: {call}: {response}")
        self.records.append(record)
        if response is None:
            time.sleep(0.1)


def answer_of(record):
    """Returns how a call was answered, in a word."""
    if record.response in OPEN:
        return OPEN[record.response]
    return str(record.response[0])


class Rounds:
    def __init__(self, sites, seed):
        self.sites, self.draw, self.numbers = sites, random.Random(seed), itertools.count(1)
        self.model, self.number, self.kind = Model(), 0, None
        self.follower = Follower(sites, self.model.take)
        self.follower.start()
        self.open, self.done = [], collections.Counter()
        # By kinds of failure: rounds, changes that were answered, and the longest times without such an answer.
        self.rounds, self.changes = collections.Counter(), collections.Counter()
        self.apart, self.gaps, self.returns = (collections.defaultdict(list) for _ in range(3))

    # ---- kinds of failure; each returns the organization that it concerns, and when that is whole again

    def some(self, longest):
        time.sleep(0.3 + self.draw.random() * (longest - 0.3))

    def kill_instance(self):
        site = self.draw.choice(self.sites.sites)
        kill(site.instance)
        self.some(3)
        site.start_instance()
        return site

    def freeze_instance(self):
        site = self.draw.choice(self.sites.sites)
        site.instance.send_signal(signal.SIGSTOP)
        self.some(8)
        site.instance.send_signal(signal.SIGCONT)
        return site

    def move_clock(self):
        site = self.draw.choice(self.sites.sites)
        site.move_clock(self.draw.randrange(-MOVED, MOVED))
        self.some(4)
        site.move_clock(0)
        return site

    def kill_leader(self):
        return self.kill_member(self.sites.await_leader())

    def kill_follower(self):
        return self.kill_member(self.draw.choice(self.sites.others(self.sites.await_leader())))

    def kill_member(self, site):
        kill(site.member)
        self.some(5)
        site.start_member()
        return site

    def freeze_leader(self):
        site = self.sites.await_leader()
        site.member.send_signal(signal.SIGSTOP)
        self.some(6)
        site.member.send_signal(signal.SIGCONT)
        return site

    def cut_leader(self):
        return self.cut(self.sites.await_leader())

    def cut_follower(self):
        return self.cut(self.draw.choice(self.sites.others(self.sites.await_leader())))

    def cut(self, site):
        site.cut()
        self.some(8)
        site.join()
        return site

    KINDS = (
        kill_leader, cut_follower, freeze_instance, kill_instance, cut_leader, freeze_leader, move_clock, kill_follower,
    )

    # ---- a round

    def reads(self, site):
        """Returns whether an instance answers a read by the log. Starts it again, as systemd does, if a batch was not stored in time.
        Fails if its process has ended otherwise."""
        if site.instance.poll() is not None:
            if not any("dss: pool: unmade: " in it for it in site.said(1)):
                raise Failed(f"{site.name} has ended: {site.instance.returncode}")
            site.start_instance()
            return False
        way = Exchange(site, LIMIT)
        try:
            return way.ask(READ)[0] == 200
        except OSError:
            return False
        finally:
            way.close()

    def ready(self):
        for it in self.sites.sites:
            until(lambda: self.reads(it), f"{it.name} answers: {it.said()}", BACK)

    def one(self, kind):
        self.kind, began = kind.__name__.replace("_", " "), time.monotonic()
        callers = [Caller(site, self.model, self.numbers, self.draw.getrandbits(60)) for site in self.sites.sites for _ in range(CLIENTS)]
        for it in callers:
            it.start()
        time.sleep(CALM)
        failed = time.monotonic()
        site = kind(self)
        whole = time.monotonic()
        self.ready()
        time.sleep(CALM)
        for it in callers:
            it.goes_on = False
        for it in callers:
            it.join()
        for it in callers:
            if it.fault:
                raise it.fault
        records = [record for it in callers for record in it.records]
        self.look(records)
        self.measure(records, site, failed, whole)
        self.number += 1
        self.rounds[self.kind] += 1
        self.model.forget()
        self.print_round(records, site, time.monotonic() - began)

    def look(self, records):
        """Compares the responses with the log, and what the instances hold with it and with each other."""
        end = self.sites.end_of_log()
        until(lambda: self.follower.fault or self.follower.revision >= end, f"the log is read up to {end}", BACK)
        if self.follower.fault:
            raise self.follower.fault
        self.ready()
        self.done.update(check(self.model, records))
        # Until the next look, calls without a response may still come.
        pages = [it.pages() for it in self.sites.sites]
        for site, found in zip(self.sites.sites, pages):
            if found != pages[0]:
                raise Failed(f"{site.name} shows another airspace than {self.sites.sites[0].name}: {found} and {pages[0]}")
        self.look_at_pages(pages[0])

    def look_at_pages(self, pages):
        airspace = self.model.airspace
        if {it["serial"] for it in pages} != {airspace.serial}:
            raise Failed(f"the instances have the serial {pages[0]['serial']}, and the log {airspace.serial}")
        shown = [next(it for name, it in entity.items() if name != "extents") for page in pages for entity in page["entities"]]
        wanted = [airspace.view(None, it) for it in airspace.entities.values()]
        order = lambda all_: sorted(all_, key=lambda it: ("state" not in it, it["id"]))
        if order(shown) != order(wanted):
            raise Failed(f"the instances show {order(shown)}, and the log has {order(wanted)}")
        shown = {it["id"]: it["notification_index"] for page in pages for it in page["subscriptions"]}
        wanted = {it.id: it.index for it in airspace.subscriptions.values()}
        if shown != wanted:
            raise Failed(f"the instances show the subscriptions {shown}, and the log has {wanted}")

    def measure(self, records, site, failed, whole):
        """Records the longest times without the answer to a change: at the other doors, and at the one that failed after that
        is whole again."""
        for name in (it.name for it in self.sites.sites):
            times = sorted(it.answered for it in records if it.door == name and is_change(it.call) and not is_open(it))
            if not times:
                raise Failed(f"{name} answered no change")
            if name == site.name:
                self.returns[self.kind].append(next((it for it in times if it > whole), times[-1]) - whole)
            else:
                self.gaps[self.kind].append(max(b - a for a, b in zip(times, times[1:]) if b > failed))
        self.apart[self.kind].append(whole - failed)
        self.changes[self.kind] += sum(self.is_acknowledged(it) for it in records)

    def is_acknowledged(self, record):
        return is_change(record.call) and not is_open(record) and record.response[0] in (200, 201)

    def print_round(self, records, site, took):
        answers = collections.Counter(map(answer_of, records))
        counts = ", ".join(f"{count} {answer}" for answer, count in sorted(answers.items()))
        gap = max(self.gaps[self.kind][-2:])
        print(
            f"round {self.number}: {self.kind} of {site.name} for {self.apart[self.kind][-1]:.1f} s: {counts}; no answer to a change for"
            f" {gap:.2f} s at other doors, {self.returns[self.kind][-1]:.2f} s at this one after it; {took:.0f} s", flush=True,
        )

    def report(self):
        print(f"{self.number} rounds, {sum(self.changes.values())} changes acknowledged, {self.model.count} calls in the log,"
              f" changes made without an answer: {dict(self.done)}")
        for name, many in sorted(self.rounds.items()):
            parts = [
                f"{what} {statistics.median(all_[name]):.2f} s, {max(all_[name]):.2f} s at most"
                for what, all_ in (("other doors", self.gaps), ("this door", self.returns))
            ]
            print(f"{name}: {many} rounds, {self.changes[name]} changes; {'; '.join(parts)}")


def run(many, seed, names):
    """Returns how many rounds passed, and what is wrong. The first rounds have each kind of failure once, or each named one."""
    passed, wrong = 0, []
    with Sites() as sites:
        rounds = Rounds(sites, seed)
        kinds = [it for it in Rounds.KINDS if not names or it.__name__ in names]
        try:
            rounds.ready()
            for at in range(many):
                kind = kinds[at] if at < len(kinds) else rounds.draw.choice(kinds)
                try:
                    rounds.one(kind)
                except Failed as error:
                    raise Failed(f"round {rounds.number + 1} of seed {seed}, {kind.__name__}: {error}") from error
                passed += 1
        except (Failed, OSError) as error:
            wrong.append(str(error))
            print(f"FAILED {error}")
            for it in sites.sites:
                print(f"{it.name}:", *it.said(), *it.state(), sep="\n    ")
        rounds.report()
        rounds.follower.goes_on = False
        rounds.follower.join()
    return passed, wrong
