"""Instances at a log: the program of crates/test_pool_etcd, driven by its standard input."""
import hashlib
import itertools
import os
import pathlib
import re
import subprocess
import threading
import time

TOP = pathlib.Path(__file__).resolve().parents[2]
BUILT = os.environ.get("TEST_POOL_ETCD") or str(TOP / "crates" / "test_pool_etcd" / "out" / "test_pool_etcd")
# A limit for what happens soon, in seconds. It is far above what a busy machine takes.
LIMIT = 120
# Faults of a machine that stands still for seconds.
SLOW = ("time limit", "watch behind")
# A call of a batch, which an entry has in a line of its own.
CALL = re.compile(r"(\d+) \d+:[\w.-]+ [smpca-]{5} ")
numbers = itertools.count(int.from_bytes(os.urandom(4), "big") << 16)


def settings_number(policy, salt):
    """The number of settings: the first 8 bytes of a digest."""
    digest = hashlib.sha256(f"dss-settings 3\n{policy} 0\n{salt}".encode()).digest()
    return int.from_bytes(digest[:8], "big")


class Instance:
    """A process, with a number that no other has."""

    def __init__(self, addresses, name, revision=0, count=0, user=None, salt="a salt", policy=1, pool="-", link="- -"):
        self.name, self.number, self.agreed = name, next(numbers), settings_number(policy, salt)
        words = [BUILT, addresses, name, str(self.number), str(revision), str(count), salt, str(policy), str(pool), *str(link).split(), *(user or ())]
        self.process = subprocess.Popen(words, stdin=subprocess.PIPE, stdout=subprocess.PIPE, text=True, bufsize=1)
        self.lines, self.offered = [], []
        # How often it was told to go on.
        self.told = 0
        self.news = threading.Condition()
        threading.Thread(target=self.read, daemon=True).start()

    def read(self):
        for line in self.process.stdout:
            with self.news:
                self.lines.append(line.rstrip("\n"))
                self.news.notify_all()
        with self.news:
            self.lines.append(f"ended {self.process.wait()}")
            self.news.notify_all()

    def say(self, line):
        try:
            self.process.stdin.write(line + "\n")
            self.process.stdin.flush()
        except OSError:
            pass

    def offer(self, text):
        self.offered.append(text)
        self.say(f"offer {text}")

    def after(self, line, limit=LIMIT):
        """Gives a command that goes on for a time, and returns its last line."""
        self.begin(line)
        end = time.monotonic() + limit
        with self.news:
            while True:
                done = [it for it in self.lines if it.startswith("done")]
                if len(done) >= self.told:
                    return done[self.told - 1]
                if self.lines and self.lines[-1].startswith("ended"):
                    return self.lines[-1]
                left = end - time.monotonic()
                if left <= 0:
                    raise AssertionError(f"{self.name}: no answer to {line!r} after {limit} s: {self.lines[-9:]}")
                self.news.wait(left)

    def begin(self, line):
        """Gives a command that goes on for a time, without waiting for that."""
        self.told += 1
        self.say(line)

    def settle(self):
        """Goes on until no batch and no question is open."""
        said = self.after(f"settle {1000 * LIMIT}", 2 * LIMIT)
        if not said.startswith("done open 0"):
            raise AssertionError(f"{self.name} is not settled: {said}; {self.faults()}")
        return said

    def wait(self, milliseconds):
        return self.after(f"wait {milliseconds}")

    def entries(self):
        return [tuple(it.split(" ", 2)[1:]) for it in list(self.lines) if it.startswith("entry ")]

    def texts(self):
        return [text for _, text in self.entries()]

    def moments(self):
        """The moments of the calls of the entries."""
        return [int(found[1]) for it in list(self.lines) if (found := CALL.match(it))]

    def fence(self):
        """The value that it puts before its first entry."""
        return f"{self.number} {self.agreed}".encode()

    def writer(self):
        """The number of the writer of its entries."""
        digest = hashlib.sha256(f"in/{self.name}\n{self.number}".encode()).digest()
        return int.from_bytes(digest[:8], "big")

    def differences(self):
        """The links of others that differ, or are ahead: the kind, the name and the count."""
        return [tuple(it.split(" ")) for it in list(self.lines) if it.startswith(("differs ", "ahead "))]

    def own(self):
        return [text for writer, text in self.entries() if writer == str(self.writer())]

    def faults(self):
        return [it[6:] for it in list(self.lines) if it.startswith("fault ")]

    def real_faults(self):
        """Returns the faults that no machine causes which is only slow."""
        return [it for it in self.faults() if it not in SLOW]

    def lost(self):
        return next((it[5:] for it in list(self.lines) if it.startswith("lost ")), None)

    def go_on(self, holds):
        """Goes on until a function returns a true value, or the process has ended, as it does once the log is lost."""
        end = time.monotonic() + LIMIT
        while not holds() and time.monotonic() < end and not self.wait(50).startswith("ended"):
            pass

    def until(self, count):
        """Goes on until so many entries have come."""
        self.go_on(lambda: len(self.entries()) >= count)
        return self.entries()

    def until_lost(self):
        """Goes on until the log is lost. Returns why it is, or None."""
        self.go_on(lambda: False)
        return self.lost()

    def until_fault(self, fault):
        """Goes on until a fault is reported. Returns whether it is."""
        self.go_on(lambda: fault in self.faults())
        return fault in self.faults()

    def until_fenced(self):
        """Goes on until the log has the fence of the instance, or another one before it."""
        self.say("end")
        self.settle()

    def close(self):
        self.say("quit")
        try:
            self.process.wait(10)
        except subprocess.TimeoutExpired:
            self.process.kill()

    def kill(self):
        self.process.kill()
        self.process.wait()
