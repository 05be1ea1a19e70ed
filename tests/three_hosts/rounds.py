"""Rounds in which hosts fail, drawn by a seed.

Acknowledged changes stay, one host serves at a time, and tables are sound."""
import collections
import signal
import statistics
import tempfile
import threading
import time

from client import Client, Watch
from machines import Failed, Hosts, until

# Seconds within which another host serves, and within which it does if a replica is still being healed, or no host
# serves; and how long a program may continue whose lock another one had, until it is ended.
TAKEN, HEALED, BOUND = 120, 40, 4.0


class Rounds:
    def __init__(self, hosts, seed):
        self.hosts, self.client = hosts, Client(seed)
        self.draw, self.number = self.client.draw, 0
        # By kinds of failure: rounds, changes, and seconds until clients are served again.
        self.rounds, self.changes = collections.Counter(), collections.Counter()
        self.took = collections.defaultdict(list)
        self.kind = None
        self.tries = self.readings = self.silent = 0
        # When a paused host continued, and how long after that it gave old responses.
        self.went_on, self.late = {}, []

    # ---- ways to the service

    def direct(self, host):
        return lambda: host.connect()

    def ways(self, hosts=None):
        """Returns ways from outside, by the proxies of hosts."""
        hosts = [it for it in (hosts or self.hosts.hosts) if it.pid]
        return [lambda it=it: self.hosts.through(it) for it in hosts]

    def serving(self, hosts=None):
        """Returns the host that serves."""
        reads = lambda it: it.pid and self.client.reads(self.direct(it))
        return until(lambda: next(filter(reads, hosts or self.hosts.hosts), None), "one serves")

    def busy(self, hosts=None, many=None):
        """Makes some changes over a proxy that reaches the service. All must get a response, unless the check of health
        ends a program."""
        way, left, began = self.draw.of(self.ways(hosts)), many or 20 + self.draw.below(30), time.time()
        for _ in range(4):
            self.client.reached([way], TAKEN)
            left -= self.client.changes(way, 120, left)
            if not left:
                return
            if not any("is ended: for" in text for it in self.hosts.hosts for _, text in it.events("dss", began - BOUND)):
                break
        raise Failed(f"{left} calls got no response although nothing failed: {dict(self.client.answers)}")

    def again(self, hosts=None, since=None):
        """Waits until clients are served, over the proxies of hosts, and records how long that took."""
        since = since or time.time()
        self.client.reached(self.ways(hosts), TAKEN)
        self.took[self.kind].append(time.time() - since)

    # ---- kinds of failure

    def taken_over(self, fail, old, reachable):
        """The serving host fails during changes: another one serves. Changes that the failing host still acknowledges
        must last."""
        inside = threading.Thread(target=self.client.changes, args=(self.direct(old), 3))
        inside.start()
        time.sleep(0.2 + self.draw.below(60) / 100)
        began = time.time()
        fail()
        inside.join()
        self.again(reachable, began)
        self.busy(reachable)

    def kill_program(self):
        old = self.serving()
        self.taken_over(lambda: old.signal(signal.SIGKILL, "dss"), old, self.hosts.hosts)

    def kill_check(self):
        """The program must not outlive the check of health."""
        old = self.serving()
        self.taken_over(lambda: old.signal(signal.SIGKILL, "dss-health"), old, self.hosts.hosts)

    def kill_host(self):
        old = self.serving()
        self.taken_over(old.end, old, self.hosts.others(old))
        old.start()

    def stop_power(self):
        old = self.serving()

        def fail():
            old.cut()
            old.end()

        self.taken_over(fail, old, self.hosts.others(old))
        old.start()

    def cut_serving(self):
        old = self.serving()
        self.taken_over(old.cut, old, self.hosts.others(old))
        old.join()

    def cut_standby(self):
        other = self.draw.of(self.hosts.others(self.serving()))
        self.taken_over(other.cut, other, self.hosts.others(other))
        other.join()

    def kill_after_return(self):
        """A standby is cut off, comes back, and its replica is whole again. Then the serving host is killed, whose file
        handles have not known that replica since."""
        other = self.draw.of(self.hosts.others(self.serving()))
        other.cut()
        time.sleep(5)
        self.client.reached(self.ways(self.hosts.others(other)), TAKEN)
        self.busy(self.hosts.others(other))
        other.join()
        self.settle()
        self.busy()
        self.kill_host()

    def cut_two(self):
        """Without a majority nothing is acknowledged."""
        old = self.serving()
        others = self.hosts.others(old)
        for it in others:
            it.cut()
        time.sleep(0.2)
        began, acknowledged = time.time(), self.client.acknowledged
        while time.time() - began < 8 + self.draw.below(8):
            self.client.changes(self.direct(old), 1)
            time.sleep(1)
            if any(self.client.reads(self.direct(it)) for it in others):
                raise Failed("a host serves that reaches no other host")
        if self.client.acknowledged != acknowledged:
            raise Failed(f"{self.client.acknowledged - acknowledged} changes were acknowledged without a majority")
        for it in others:
            it.join()
        self.again()
        self.busy()

    def cut_in_turn(self):
        """Each host is cut off while the one before it is still being healed. If the only whole replica is cut off, no
        host serves until that is back."""
        for host in self.hosts.hosts:
            host.cut()
            rest = self.hosts.others(host)
            took = self.client.sought(self.ways(rest), HEALED)
            if took is None:
                self.silent += 1
            else:
                self.took[self.kind].append(took)
                self.busy(rest)
            host.join()
        self.client.reached(self.ways(), TAKEN)
        self.busy()

    def cut_others_in_turn(self):
        """The program takes its lock while one host is away. Then that is back, and the other is cut off and back."""
        first = self.hosts.others(self.serving())[0]
        first.cut()
        rest = self.hosts.others(first)
        self.serving(rest).signal(signal.SIGKILL, "dss")
        self.again(rest)
        self.busy(rest)
        first.join()
        old = self.serving()
        second = next(it for it in rest if it is not old)
        time.sleep(self.draw.below(8))
        second.cut()
        self.client.changes(self.direct(old), 9)
        second.join()
        self.client.changes(self.direct(old), 3)
        self.client.reached(self.ways(), TAKEN)
        self.busy()

    def lose_disk(self):
        host = self.draw.of(self.hosts.hosts)
        rest = self.hosts.others(host)
        if host is self.serving():
            self.taken_over(host.end, host, rest)
        else:
            host.end()
            self.again(rest)
            self.busy(rest)
        host.lose_disk()
        host.start()
        self.hosts.replace(host)
        self.client.reached(self.ways(rest), TAKEN)
        self.busy(rest)

    def fill_disk(self):
        """The disk of one host is full: the other two replicas take the changes."""
        host = self.draw.of(self.hosts.hosts)
        fill = "head -c 1G /dev/zero >/srv/brick/fill 2>/dev/null; sync"
        host.run("bash", "-c", fill)
        for _ in range(4):
            self.again()
            self.client.changes(self.draw.of(self.ways()), 30, 40)
        host.run("rm", "/srv/brick/fill")
        self.client.reached(self.ways(), TAKEN)
        self.busy()

    def pause_host(self):
        """The host is paused, like a virtual machine that does not run, and its network with it. Then it continues."""
        old = self.serving()
        self.busy()
        began = time.time()
        old.cut()
        old.signal(signal.SIGSTOP)
        rest = self.hosts.others(old)
        try:
            if self.draw.one_in(3):
                time.sleep(1 + self.draw.below(5))
            else:
                self.again(rest, began)
                self.busy(rest)
        finally:
            old.join()
            old.signal(signal.SIGCONT)
        # At once, before any process there sees that time has passed.
        self.went_on[old] = time.time()
        self.client.old_changes(self.direct(old), BOUND)
        self.client.reached(self.ways(), TAKEN)
        self.busy()

    def pause_program(self):
        """Only the program is paused, with its lock: no other host serves."""
        old = self.serving()
        began = time.time()
        old.signal(signal.SIGSTOP, "dss")
        time.sleep(1 + self.draw.below(9))
        if any(self.client.reads(self.direct(it)) for it in self.hosts.others(old)):
            raise Failed("another host serves while the paused program has the lock")
        old.signal(signal.SIGCONT, "dss")
        self.again(since=began)
        self.busy()

    def cut_short(self):
        """The host is cut off for about the time after which the volume drops a host, and is back."""
        old = self.serving()
        inside = threading.Thread(target=self.client.changes, args=(self.direct(old), 12))
        if self.draw.one_in(2):
            inside.start()
        old.cut()
        time.sleep(2 + self.draw.below(25) / 10 if self.draw.one_in(2) else 1 + self.draw.below(100) / 10)
        old.join()
        since = time.time()
        self.client.changes(self.direct(old), 1)
        self.again(since=since)
        if inside.ident:
            inside.join()
        self.busy()

    def move_file(self):
        """The file goes to one host, is served there, and comes back, as in docs/HOSTS.md."""
        for it in self.hosts.hosts:
            it.stop_service()
        host = self.draw.of(self.hosts.hosts)
        host.run("bash", "-c", "install -d -o 790 /srv/single && cp -p /srv/dss/dss.db* /srv/single/ && rm /srv/dss/dss.db*")
        with host.serving_alone("/srv/single/dss.db"):
            self.client.reached([self.direct(host)], TAKEN)
            if self.client.changes(self.direct(host), 60, 30) < 30:
                raise Failed("the file of one host is not served")
        host.run("bash", "-c", "cp -p /srv/single/dss.db* /srv/dss/ && rm -r /srv/single")
        for it in self.hosts.hosts:
            it.start_service()
        self.client.reached(self.ways(), TAKEN)
        self.busy()

    KINDS = (
        kill_program, cut_serving, kill_after_return, cut_short, cut_two, kill_host, pause_host, lose_disk, fill_disk, cut_in_turn,
        cut_others_in_turn, stop_power, kill_check, cut_standby, pause_program, move_file,
    )

    # ---- after each

    def settle(self):
        """Waits until all hosts are there and all replicas are whole."""
        is_up = lambda it: it.run("bash", "-c", "mountpoint -q /srv/dss && echo up || true").strip() == "up"
        until(lambda: all(is_up(it) for it in self.hosts.hosts), "the volume is mounted on each host")
        until(lambda: self.hosts.unhealed(self.hosts.hosts[0]) == 0, "all copies are whole")

    def look(self):
        """Compares the file on the serving host, and its replicas on the disks."""
        self.client.reached(self.ways(), TAKEN)
        host = self.serving()
        with tempfile.TemporaryDirectory(dir=self.hosts.room) as folder:
            host.run("bash", "-c", f"cp /srv/dss/dss.db* {folder}/")
            wrong = self.client.compare(folder)
        if wrong:
            raise Failed("; ".join(wrong))
        until(lambda: len(set(self.hosts.copies())) == 1, "the copies are the same")

    def is_late(self, host, at):
        """Returns whether a paused host has just continued, so that its check of health may not have noticed yet."""
        return 0 <= at - self.went_on.get(host, 0) < BOUND

    def served(self, since):
        """Returns from when to when a program listened on a host, except on a host that has just continued."""
        served = [(*it[:2], host) for host in self.hosts.hosts for it in host.served(since) if not self.is_late(host, it[1])]
        return sorted(served, key=lambda it: it[:2])

    def look_at_tries(self, since):
        """Returns how often a try to open the database was refused. One that was not refused must have been the end of
        the program that had it before."""
        tries = [it.split(" ", 3) for host in self.hosts.hosts for _, it in host.events("try", since)]
        for began in (float(it[0]) for it in tries if it[1] == "0"):
            for listened, ended, host in self.served(since):
                if listened < began and began + 2 * BOUND < min(ended, time.time()):
                    raise Failed(f"host {host.number} continued to serve when another had the lock, at {began}")
        return sum("fault 3 Store" in " ".join(it) for it in tries)

    def look_at_programs(self, since):
        """No two programs may serve at once."""
        served = self.served(since)
        for (_, ended, one), (listened, _, other) in zip(served, served[1:]):
            if listened < ended:
                both = f"hosts {one.number} and {other.number}"
                raise Failed(f"{both} serve at once, from {listened}, for {min(ended, time.time()) - listened:.2f} s")

    def look_at_readings(self, watches):
        """No read may lack what was acknowledged before its request, except for a short time after a paused host
        continues."""
        self.readings += sum(len(it.readings) for it in watches)
        for watch in watches:
            for answered, old in watch.old(self.client.marks):
                if not self.is_late(watch.host, answered):
                    raise Failed(f"host {watch.host.number} gave a response at {answered} that was old by {old:.2f} s")
                self.late.append(answered - self.went_on[watch.host])

    def one(self, kind):
        self.kind = kind.__name__.replace("_", " ")
        began, acknowledged, took = time.time(), self.client.acknowledged, len(self.took[self.kind])
        watches = [Watch(it) for it in self.hosts.hosts]
        for it in watches:
            it.start()
        kind(self)
        self.settle()
        # Each standby tries every few seconds, and a round may be shorter.
        until(lambda: self.look_at_tries(began), "a standby tries to open the database, and is refused")
        for it in watches:
            it.goes_on = False
        for it in watches:
            it.join()
        self.look()
        self.look_at_readings(watches)
        self.look_at_programs(began)
        refused = self.look_at_tries(began)
        self.tries += refused
        self.number += 1
        self.rounds[self.kind] += 1
        count = self.client.acknowledged - acknowledged
        self.changes[self.kind] += count
        times = ", ".join(f"{it:.1f}" for it in self.took[self.kind][took:])
        print(
            f"round {self.number}: {self.kind}: {count} changes, served again after {times or '-'} s, {refused} tries refused,"
            f" {time.time() - began:.0f} s", flush=True,
        )

    def report(self):
        print(
            f"{self.number} rounds, {self.client.acknowledged} changes acknowledged, {self.readings} readings by the watches,"
            f" {len(self.late)} of them old, {max(self.late, default=0):.2f} s at most after a host went on; {self.tries} tries refused;"
            f" {self.silent} times nobody served while the only whole copy was cut off"
        )
        for name, many in sorted(self.rounds.items()):
            took = sorted(self.took[name])
            times = f", served again after {statistics.median(took):.1f} s, {took[-1]:.1f} s at most ({len(took)})" if took else ""
            print(f"{name}: {many} rounds, {self.changes[name]} changes{times}")


def run(many, seed, names):
    """Returns what is wrong in that many rounds. The first rounds have each kind of failure once, or each of those
    named."""
    passed, wrong = 0, []
    with Hosts() as hosts:
        rounds = Rounds(hosts, seed)
        rounds.client.reached(rounds.ways(), 120)
        kinds = [it for it in Rounds.KINDS if not names or it.__name__ in names]
        try:
            for at in range(many):
                kind = kinds[at] if at < len(kinds) else rounds.draw.of(kinds)
                try:
                    rounds.one(kind)
                except Failed as error:
                    raise Failed(f"round {rounds.number + 1}, {kind.__name__}: {error}") from error
                passed += 1
        except (Failed, OSError) as error:
            wrong.append(str(error))
            print(f"FAILED {error}")
            for host in hosts.hosts:
                tail = [f"{at:.1f} {text}" for at, text in host.events("dss")[-12:]]
                print(f"host {host.number}:", *tail, sep="\n    ")
        rounds.report()
    return passed, wrong
