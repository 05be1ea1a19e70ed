"""`serve --verbose` prints more lines than `serve`: those of `tokens --check` about the token file and the limits before the
others, and the cause of a fault after its line."""
import errno
import fcntl
import os
import pathlib
import socket
import struct
import tempfile

import tables
import wire
from program import BUILT, run
from serving import Service, has_ipv6
from sockets import difference
from token_reports import FILES, IS_EXAMPLE, is_short

IN_USE, OF_STORE = "dss: socket\n", "dss: db: fault 3 Store\n"
# The USSs in a database whose start takes 93 MB, and limits in megabytes under which it fails.
SUPPLIERS, TOO_LITTLE = 120_000, (12, 32, 64)


def system(number):
    """Returns the system's text for an error."""
    return f"{os.strerror(number)} (os error {number})"


def cause(of, words):
    return f"dss: cause: {of}: {words}\n"


def limits(connections="any number of connections", clients=1000, quota=None):
    bound = "" if quota is None else f", at most {quota} kept of each supplier"
    return f"dss: limits: {clients} clients at once, {connections}{bound}\n"


class PortInUse:
    """A port in use, so that `serve` exits when it is about to listen."""

    def __enter__(self):
        self.room = tempfile.TemporaryDirectory()
        self.folder = pathlib.Path(self.room.name)
        self.there = socket.create_server(("127.0.0.1", 0))
        return self

    def __exit__(self, *_):
        self.there.close()
        self.room.cleanup()

    def told(self):
        """Returns the lines about that port, with the option."""
        return IN_USE + cause(f"127.0.0.1:{self.there.getsockname()[1]}", system(errno.EADDRINUSE))

    def serve(self, text, *options, port=None):
        """Returns the status, the output and the lines of standard error of `serve` with this text of a token file."""
        port = port or self.there.getsockname()[1]
        (self.folder / "tokens.toml").write_text(text)
        files = ["--tokens", f"{self.folder}/tokens.toml", "--db", f"{self.folder}/dss.db"]
        words = [BUILT, "serve", *files, "--port", f"{port}", *options]
        status, output, error = run(words)
        return status, output, error.decode()


def token_files():
    """Each token file gives the lines of its check, except the line that reports no error. Without the option only the
    fault is printed."""
    found = []
    with PortInUse() as it:
        for text, lines, fault in FILES:
            told = "".join(f"{line}\n" for line in lines if not line.startswith("FILE: "))
            last = f"dss: tokens: fault {fault}\n" if fault else IN_USE
            found += difference(f"{text!r}", it.serve(text), (1, b"", last))
            wanted = told + (last if fault else limits() + it.told())
            found += difference(f"{text!r}, --verbose", it.serve(text, "--verbose"), (1, b"", wanted))
    return found


def cause_of_ipv6_port():
    """The cause at a port of an IPv6 address has the address in brackets."""
    if not has_ipv6():
        return []
    with PortInUse() as it, socket.create_server(("::1", 0), family=socket.AF_INET6) as taken:
        port = taken.getsockname()[1]
        told = it.serve(wire.token_file(salt="f0" * 32), "--verbose", "--listen", "::1", port=port)
        wanted = limits() + IN_USE + cause(f"[::1]:{port}", system(errno.EADDRINUSE))
        return difference("[::1]", told, (1, b"", wanted))


def limits_of_options():
    """The printed limits are those of the other options."""
    text = wire.token_file(salt="f0" * 32)
    ways = (
        (["--max-connections", "7"], limits(clients=7)),
        (["--count", "20"], limits("20 connections")),
        (["--quota", "1000"], limits(quota=1000)),
        (["--count", "1000000", "--max-connections", "1", "--quota", "4294967295"], limits("1000000 connections", 1, 4294967295)),
    )
    with PortInUse() as it:
        return [
            found for options, line in ways
            for found in difference(f"{options}", it.serve(text, "--verbose", *options), (1, b"", line + it.told()))
        ]


def held(path):
    """Returns a descriptor of a new file that holds SQLite's lock of a database."""
    descriptor = os.open(path, os.O_RDWR | os.O_CREAT, 0o600)
    lock = struct.pack("hhqqi4x", fcntl.F_WRLCK, os.SEEK_SET, 1 << 30, 512, 0)
    fcntl.fcntl(descriptor, fcntl.F_OFD_SETLK, lock)
    return descriptor


def causes():
    """After the line of a fault at the start, a line says where it occurred, and why. Without the option there is none."""
    text = wire.token_file(salt="f0" * 32)
    found = []
    with tempfile.TemporaryDirectory() as room:
        tokens, lacking = f"{room}/tokens.toml", f"{room}/none/it"
        pathlib.Path(tokens).write_text(text)
        pathlib.Path(f"{room}/text.db").write_text("no database, but a text of some length\n" * 200)
        pathlib.Path(f"{room}/folder.db").mkdir()
        descriptor = held(f"{room}/held.db")
        run([BUILT, "upgrade", "--db", f"{room}/log.db"])
        pathlib.Path(f"{room}/log.db-wal").unlink(missing_ok=True)
        pathlib.Path(f"{room}/log.db-wal").mkdir()
        of_store, nowhere = "dss: db: fault 3 Store\n", system(errno.ENOENT)
        ways = (
            (lacking, f"{room}/a.db", [], "", cause(lacking, nowhere), "dss: tokens: cannot read\n"),
            (tokens, lacking, [], limits(), cause(lacking, nowhere), of_store),
            (tokens, f"{room}/text.db", [], limits(), cause(f"{room}/text.db", "not a SQLite database"), of_store),
            (tokens, f"{room}/folder.db", [], limits(), cause(f"{room}/folder.db", "not a file"), of_store),
            (tokens, f"{room}/held.db", [], limits(), cause(f"{room}/held.db", "another process has it open; stop it first"), of_store),
            (tokens, f"{room}/log.db", [], limits(), cause(f"{room}/log.db-wal", system(errno.EISDIR)), of_store),
            (tokens, f"{room}/b.db", ["--access-log", lacking], limits(), cause(lacking, nowhere), "dss: output\n"),
            (tokens, f"{room}/c.db", ["--admin-port", "1", "--backup-dir", lacking], limits(), cause(lacking, nowhere), "dss: backup: fault 3 Write\n"),
        )
        for file, database, options, before, told, last in ways:
            words = [BUILT, "serve", "--tokens", file, "--db", database, "--port", "1", *options]
            status, output, error = run(words)
            found += difference(f"{words}", (status, output, error.decode()), (1, b"", last))
            status, output, error = run([*words, "--verbose"])
            found += difference(f"{words}, --verbose", (status, output, error.decode()), (1, b"", before + last + told))
        os.close(descriptor)
    return found


def start_without_memory():
    """A start that lacks memory for the rows says so, and leaves the file as it is. With enough memory, the service
    starts over the same file."""
    with tempfile.TemporaryDirectory() as room:
        tokens, database = pathlib.Path(room, "tokens.toml"), pathlib.Path(room, "dss.db")
        tokens.write_text(wire.token_file(salt="f0" * 32))
        rows = [(f"uss-{number:06}", 1, wire.ovn(1)) for number in range(SUPPLIERS)]
        tables.make(database, 2, {"availability": rows, "meta": [(1, 2, 1)]})
        before = database.read_bytes()
        # A port that is taken ends a start that has read the database.
        with socket.create_server(("127.0.0.1", 0)) as taken:
            port = taken.getsockname()[1]
            words = [BUILT, "serve", "--tokens", str(tokens), "--db", str(database), "--port", f"{port}"]
            told = cause(database, "out of memory, or the file, its log or its directory cannot be used")
            found = []
            for megabytes in TOO_LITTLE:
                limited = ["prlimit", f"--as={megabytes << 20}", *words]
                found += difference(f"{megabytes} MB", run(limited), (1, b"", OF_STORE.encode()))
                wanted = (1, b"", (limits() + OF_STORE + told).encode())
                found += difference(f"{megabytes} MB, --verbose", run([*limited, "--verbose"]), wanted)
            found += difference("the file", database.read_bytes() == before, True)
            in_use = IN_USE + cause(f"127.0.0.1:{port}", system(errno.EADDRINUSE))
            enough = run([*words, "--verbose"])
            return found + difference("enough", enough, (1, b"", (limits() + in_use).encode()))


class Verbose(Service):
    """`dss serve` with the option, and the token file of an example."""

    options = ("--verbose",)
    preface = f"line 1: {IS_EXAMPLE}\nline 1: {is_short(len(wire.SALT))}\n{limits('1 connections')}".encode()


class VerboseForThree(Verbose):
    """The same for three connections."""

    preface = Verbose.preface.replace(b"1 connections", b"3 connections")


class VerboseIpv6(Verbose):
    """The same on ::1."""

    address, options = "[::1]", (*Verbose.options, "--listen", "::1")


def listening():
    """The service listens after these lines, and answers as usual."""
    call = wire.request("PUT", f"{wire.AVAILABILITY}/uss-b", "Bearer tok-v", b'{"old_version":"","availability":"Down"}')
    with Verbose(count=1) as told, Service(count=1) as plain:
        found = difference("the answer", told.ask([call]), plain.ask([call]))
        for service in told, plain:
            found += difference("the service", service.ended(), (0, b"", service.listening))
        return found


def connection_given_up():
    """For an aborted connection, a second line gives its client and its phase."""
    found = []
    for kind, host in ((Verbose, "127.0.0.1"), *([(VerboseIpv6, "::1")] if has_ipv6() else [])):
        found += given_up(kind, host)
    return found


def given_up(kind, host):
    """Returns how these lines differ for a client of that address."""
    with kind(count=1) as service:
        with socket.create_connection((host, service.port)) as client:
            client.sendall(b"GET /")
            address = f"{service.address}:{client.getsockname()[1]}"
            service.until_read(client)
            client.setsockopt(socket.SOL_SOCKET, socket.SO_LINGER, struct.pack("ii", 1, 0))
        wanted = f"dss: stream: fault 1 Read\ndss: stream: connection 1 of {address}, reading a request\n"
        return difference("the service", service.ended(), (0, b"", service.listening + wanted.encode()))


def resets():
    """Of connections that clients reset within a minute, only the first has lines. Without the option each has its line."""
    found = []
    for kind, lines, wanted in (VerboseForThree, 2, 1), (Service, 3, 3):
        with kind(count=3) as service:
            for _ in range(3):
                with socket.create_connection(("127.0.0.1", service.port)) as client:
                    client.sendall(b"GET /")
                    service.until_read(client)
                    client.setsockopt(socket.SOL_SOCKET, socket.SO_LINGER, struct.pack("ii", 1, 0))
            status, output, error = service.ended()
        more = error.removeprefix(service.listening).splitlines()
        reset = more.count(b"dss: stream: fault 1 Read")
        found += difference(f"{kind.__name__}: the service", (status, output, len(more), reset), (0, b"", lines, wanted))
    return found


CASES = {
    "verbose-token-files": token_files,
    "verbose-limits": limits_of_options,
    "verbose-listens": listening,
    "verbose-causes": causes,
    "verbose-cause-of-ipv6": cause_of_ipv6_port,
    "verbose-connections": connection_given_up,
    "verbose-reset-connections": resets,
    "verbose-start-without-memory": start_without_memory,
}
