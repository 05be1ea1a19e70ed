"""Instances of a pool over members of etcd on this machine: `dss serve --pool`."""
import collections
import os
import pathlib
import re
import signal
import socket
import subprocess
import threading
import time

import conforms
import wire
from freezing import freeze
from ports import free_port
from program import BUILT, DSS, SECONDS

PROGRAM = os.environ.get("TEST_POOL_DSS") or BUILT
# A limit for what happens soon. It is far above what a busy machine takes.
LIMIT = SECONDS
LATE = (wire.UNKNOWN, wire.UNREACHABLE)
# An instance waits 2 seconds for etcd before one of these. A response that comes sooner than this is wrong.
SOONEST = 1
# What a process prints if an address of etcd is late, or its cluster has no leader for a moment.
FAULT_OF_ETCD = re.compile(r"dss: etcd: [0-9.:]+: (time limit|watch behind|watch ended|status 5[0-9][0-9]); trying the next address\n")


class Skipped(Exception):
    """Says why a case cannot be tested here."""


def lacking():
    """Returns why there is no program, or None. Without a name of one, ./dss finds or builds it."""
    if "TEST_POOL_DSS" in os.environ or "DSS_PROGRAM" in os.environ:
        return None
    done = subprocess.run([DSS, "--help"], stdin=subprocess.DEVNULL, stdout=subprocess.DEVNULL)
    return "there is no program to test; see the output above" if done.returncode else None


class Door:
    """An instance, which listens on a port."""

    def __init__(self, room, addresses, name, tokens, salt=wire.SALT, file=None, options=(), environment=None, program=PROGRAM):
        self.addresses, self.name, self.options, self.port = addresses, name, options, free_port()
        self.program = program
        self.environment = {**os.environ, **(environment or {})}
        self.file, self.lines = pathlib.Path(room) / f"{file or name}.toml", []
        self.file.write_text(wire.token_file(tokens, salt))
        self.start()

    def words(self):
        """Returns how it serves, without its tokens, its port and its options."""
        return ["--pool", self.addresses, "--as", self.name]

    def start(self):
        words = [self.program, "serve", "--tokens", self.file, *self.words(), "--port", self.port]
        words = [*map(str, words), *map(str, self.options)]
        self.process = subprocess.Popen(
            words, stdin=subprocess.DEVNULL, stdout=subprocess.DEVNULL, stderr=subprocess.PIPE, text=True, env=self.environment
        )
        for line in self.process.stderr:
            self.lines.append(line.rstrip("\n"))
            if line == f"dss: listening on 127.0.0.1:{self.port}\n":
                break
        else:
            raise OSError(f"{self.name} does not listen: {self.lines}")
        self.reader = threading.Thread(target=self.read, args=(self.process,), daemon=True)
        self.reader.start()

    def read(self, process):
        for line in process.stderr:
            self.lines.append(line.rstrip("\n"))

    def end(self, limit=LIMIT):
        """Waits until it ends. Returns its status and its last line."""
        status = self.process.wait(limit)
        self.reader.join(limit)
        return status, self.lines[-1]

    def connect(self, limit=LIMIT):
        return socket.create_connection(("127.0.0.1", self.port), timeout=limit)

    def kill(self):
        self.process.kill()
        self.process.wait()

    def freeze(self):
        freeze(self.process)

    def go_on(self):
        self.process.send_signal(signal.SIGCONT)


class Single(Door):
    """A service of its own, over a database."""

    def __init__(self, room, database, tokens, **more):
        self.database = database
        super().__init__(room, None, "single", tokens, **more)

    def words(self):
        return ["--db", self.database]


def begin(room, database, folder, tokens, salt=wire.SALT, options=(), **more):
    """Runs `dss begin`, with whose file a pool begins. Returns its status and what it printed."""
    file = pathlib.Path(room) / "begin.toml"
    file.write_text(wire.token_file(tokens, salt))
    words = [PROGRAM, "begin", "--tokens", file, "--db", database, "--files", folder, *options]
    done = subprocess.run(
        list(map(str, words)), stdin=subprocess.DEVNULL, capture_output=True, text=True, timeout=LIMIT, **more
    )
    return done.returncode, done.stdout, done.stderr


class Exchange:
    """A kept connection to a door."""

    def __init__(self, door, limit=LIMIT):
        self.door, self.limit, self.connection, self.left = door, limit, None, 0
        # what was sent and has no response yet
        self.open = collections.deque()

    def send(self, call):
        if self.connection is None or not self.left:
            self.close()
            self.connection, self.left = self.door.connect(self.limit), wire.MAX_REQUESTS
        self.left -= 1
        self.connection.sendall(wire.request(*call))
        self.open.append(call[:2])

    def ask(self, call):
        """Returns the status and the body of a response."""
        self.send(call)
        return self.receive()

    def patient(self, call):
        """Returns the status and the body of a response. If it is one of `LATE`, the instance has waited for etcd."""
        began = time.monotonic()
        got = self.ask(call)
        took = time.monotonic() - began
        assert got not in LATE or took >= SOONEST, (self.door.name, call, got, took)
        return got

    def receive(self):
        """Returns the status and the body of the next response."""
        got = b""
        while True:
            head, mark, rest = got.partition(b"\r\n\r\n")
            if mark:
                lengths = [it for it in head.lower().split(b"\r\n") if it.startswith(b"content-length:")]
                if not lengths or len(rest) >= int(lengths[0].partition(b":")[2]):
                    if b"\r\nconnection: close" in head.lower():
                        self.left = 0
                    status = int(head.split()[1])
                    # a test that sends bytes by itself notes no call
                    if self.open:
                        conforms.check(*self.open.popleft(), status, rest)
                    return status, rest
            piece = self.connection.recv(1 << 16)
            if not piece:
                raise OSError("the connection ended")
            got += piece

    def close(self):
        if self.connection:
            self.connection.close()
        self.connection = None
        self.open.clear()


def until(holds, why, limit=LIMIT):
    """Waits until a function returns a true value. `why` returns what is wrong otherwise, or is that."""
    end = time.monotonic() + limit
    while not holds():
        if time.monotonic() > end:
            raise AssertionError(why() if callable(why) else why)
        time.sleep(0.05)


def answer(door, call, way=None):
    """Returns the status and the body of the response to a read, which is repeated while etcd does not answer in time."""
    kept, end = way or Exchange(door), time.monotonic() + LIMIT
    while (got := kept.patient(call)) in LATE:
        assert time.monotonic() < end, (door.name, call, got, door.lines[-5:])
    if not way:
        kept.close()
    return got


def create(door, call, way=None):
    """Makes a call that creates something, again while etcd does not answer in time. Raises an error if nothing is created.

    A try of unknown outcome may have created it. Then the next one is refused."""
    kept, end, status = way or Exchange(door), time.monotonic() + LIMIT, 503
    refused = 201
    while status == 503:
        status, body = kept.patient(call)
        assert status in (201, refused) or (status, body) in LATE, (door.name, call, status, body)
        assert time.monotonic() < end, (door.name, call, status, body, door.lines[-5:])
        refused = 409 if (status, body) == wire.UNKNOWN else refused
    if not way:
        kept.close()


class Pool:
    """Three instances, each with the members of etcd in another order."""

    def __init__(self, room, cluster, tokens, count=3, named="i{}".format, **more):
        self.room, self.cluster, all_addresses = room, cluster, cluster.addresses().split(",")
        self.doors = []
        for it in range(count):
            turn = it % len(all_addresses)
            own = ",".join(all_addresses[turn:] + all_addresses[:turn])
            self.doors.append(Door(room, own, named(it), tokens, **{name: of(it) for name, of in more.items()}))

    def add(self, name, tokens, **more):
        """Starts another instance."""
        door = Door(self.room, self.cluster.addresses(), name, tokens, **more)
        self.doors.append(door)
        return door

    def fails(self, name, tokens, **more):
        """Returns the status and the lines of an instance that ends before it listens."""
        door = Door.__new__(Door)
        try:
            door.__init__(self.room, self.cluster.addresses(), name, tokens, **more)
        except OSError:
            return door.process.wait(LIMIT), door.lines
        self.doors.append(door)
        raise AssertionError(f"{name} listens")

    def start_follow(self, folder, tokens, salt=wire.SALT, name="a0", options=(), program=PROGRAM, **more):
        """Starts `dss follow`, which writes a file of the pool to a directory."""
        file = pathlib.Path(self.room) / f"{name}.toml"
        file.write_text(wire.token_file(tokens, salt))
        words = [program, "follow", "--tokens", file, "--pool", self.cluster.addresses(), "--as", name, "--files", folder, *options]
        pipes = {"stdin": subprocess.DEVNULL, "stdout": subprocess.PIPE, "stderr": subprocess.PIPE}
        return subprocess.Popen(list(map(str, words)), text=True, **pipes, **more)

    def follow(self, folder, tokens, **more):
        """Runs `dss follow`. Returns its status and what it printed, without the lines about addresses that were late."""
        process = self.start_follow(folder, tokens, **more)
        try:
            printed, errors = process.communicate(timeout=LIMIT)
        finally:
            process.kill()
        return process.returncode, printed, FAULT_OF_ETCD.sub("", errors)

    def close(self):
        for it in self.doors:
            it.kill()

    def ready(self, doors=None, limit=LIMIT):
        """Waits until each instance answers a read."""
        end = time.monotonic() + limit
        for it in doors or self.doors:
            while True:
                try:
                    way = Exchange(it)
                    got = way.ask(("GET", f"{wire.AVAILABILITY}/uss-n", "Bearer tok-v", None))
                    way.close()
                    if got[0] == 200:
                        break
                except OSError:
                    pass
                if time.monotonic() > end:
                    raise AssertionError(f"{it.name} is not ready: {it.lines[-5:]}")
                time.sleep(0.05)
