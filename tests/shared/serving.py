"""A running service over a database in its own directory."""
import contextlib
import os
import pathlib
import signal
import socket
import subprocess
import tempfile
import time

import conforms
import wire
from ports import free_port
from program import BUILT, SECONDS

# The connections of this system.
TCP_TABLES = pathlib.Path("/proc/net/tcp"), pathlib.Path("/proc/net/tcp6")


def words(folder, port, count, clients=None, quota=None):
    """Returns the command line of the service over a directory with its token file and its database, for that many
    connections, and with a quota."""
    at_once = [] if clients is None else ["--max-connections", f"{clients}"]
    bound = [] if quota is None else ["--quota", f"{quota}"]
    files = ["--tokens", f"{folder}/tokens.toml", "--db", f"{folder}/dss.db"]
    return [BUILT, "serve", *files, "--port", f"{port}", "--count", f"{count}", *at_once, *bound]


def until_closed(connection):
    """Returns the bytes that arrive until the other side closes."""
    came = b""
    try:
        while chunk := connection.recv(1 << 16):
            came += chunk
    except ConnectionResetError:
        pass
    return came


def has_ipv6():
    """Returns True if this machine has the address ::1."""
    try:
        with socket.create_server(("::1", 0), family=socket.AF_INET6):
            return True
    except OSError:
        return False


class Service:
    """`dss serve` on a free port, with a limit of connections and an additional environment."""

    # The seconds in which it must listen, its address, further options, and the lines before it listens.
    patience, address, options, preface = SECONDS, "127.0.0.1", (), b""

    def __init__(self, tokens=None, count=1_000_000, disk=None, more=None, clients=None, quota=None):
        self.room = tempfile.TemporaryDirectory(dir=disk)
        self.folder, self.count, self.clients = pathlib.Path(self.room.name), count, clients
        self.quota = quota
        self.environment = {**os.environ, **(more or {})}
        (self.folder / "tokens.toml").write_text(wire.token_file(tokens))

    def __enter__(self):
        self.start()
        return self

    def __exit__(self, *_):
        self.kill()
        self.room.cleanup()

    def command(self):
        """Returns the command line of the program."""
        return [*words(self.folder, self.port, self.count, self.clients, self.quota), *self.options]

    def listens(self):
        """Returns the lines about its open ports."""
        return f"dss: listening on {self.address}:{self.port}\n"

    def start(self):
        """Starts the program, and waits until it listens."""
        self.port = free_port()
        self.listening = self.preface + self.listens().encode()
        output, errors = self.folder / "output", self.folder / "errors"
        with output.open("wb") as stdout, errors.open("wb") as stderr:
            self.program = subprocess.Popen(
                self.command(), stdin=subprocess.DEVNULL, stdout=stdout, stderr=stderr, env=self.environment
            )
        until = time.monotonic() + self.patience
        while not errors.read_bytes().startswith(self.listening):
            if self.program.poll() is not None or time.monotonic() > until:
                self.program.kill()
                raise OSError(f"the service does not listen: {errors.read_text()}")
            time.sleep(0.005)

    def kill(self):
        self.program.kill()
        self.program.wait()

    def ended(self):
        """Returns the status, the output and the error, once all connections were served."""
        status = self.program.wait(timeout=SECONDS)
        return status, (self.folder / "output").read_bytes(), (self.folder / "errors").read_bytes()

    def connect(self):
        return socket.create_connection(("127.0.0.1", self.port), timeout=SECONDS)

    def exchange(self, sent, ends=True):
        """Returns the bytes that arrive on a separate connection. `ends` says whether the client also closes its
        sending side."""
        with self.connect() as connection:
            connection.sendall(sent)
            if ends:
                connection.shutdown(socket.SHUT_WR)
            return b"".join(iter(lambda: connection.recv(1 << 16), b""))

    def ask(self, requests):
        """Returns the responses to requests over one connection."""
        answers = wire.answers_of(self.exchange(b"".join(requests)))
        conforms.check_stream(answers)
        return answers

    @contextlib.contextmanager
    def paused(self):
        """Stops the service for a while. When it continues, it finds all sent requests at once."""
        self.program.send_signal(signal.SIGSTOP)
        os.waitid(os.P_PID, self.program.pid, os.WSTOPPED | os.WNOWAIT)
        try:
            yield
        finally:
            self.program.send_signal(signal.SIGCONT)

    def until_told(self, words):
        """Waits until the service has printed these words after the lines of its start, or has exited."""
        errors, until = self.folder / "errors", time.monotonic() + SECONDS
        while self.program.poll() is None and time.monotonic() < until:
            if words in errors.read_bytes().removeprefix(self.listening):
                return
            time.sleep(0.005)

    def until_read(self, connection):
        """Waits until the service has accepted a connection and has read all bytes that were sent over it, or has closed
        it."""
        here, there = (f"{it[1]:04X}" for it in (connection.getsockname(), connection.getpeername()))
        until = time.monotonic() + SECONDS
        while time.monotonic() < until:
            tables = [it for it in TCP_TABLES if it.exists()]
            lines = [it.split() for table in tables for it in table.read_text().splitlines()]
            ends = {(it[1][-4:], it[2][-4:]): it for it in lines}
            sender, reader = ends.get((here, there)), ends.get((there, here))
            # It is no longer established.
            if sender and sender[3] != "01":
                return
            # The bytes on the way and those to be read, and the inode, which a connection has once it was accepted.
            if sender and reader and sender[4][:8] == reader[4][9:] == 8 * "0" and reader[9] != "0":
                return
            time.sleep(0.005)
        raise OSError("the service has not read what was sent")

    def memory(self):
        """Returns the memory of the program, in kilobytes."""
        status = pathlib.Path(f"/proc/{self.program.pid}/status").read_text()
        return next(int(it.split()[1]) for it in status.splitlines() if it.startswith("VmRSS:"))
