"""Ports for services under test, one for each caller on this machine.

A port below the system's range for outgoing connections is reserved by a lock on a file, until the process ends. So neither
another process of the tests nor a connection of a client takes it before the service listens."""
import fcntl
import os
import pathlib
import random
import socket
import tempfile

FIRST, LAST = 10_000, 32_000
TRIES = 1_000
FOLDER = pathlib.Path(tempfile.gettempdir(), f"dss-ports-{os.getuid()}")
reserved = []


def reserve(port):
    """Returns True if this process is now the only one that may use the port."""
    lock = os.open(FOLDER / f"{port}", os.O_RDWR | os.O_CREAT | os.O_CLOEXEC, 0o600)
    try:
        fcntl.flock(lock, fcntl.LOCK_EX | fcntl.LOCK_NB)
        with socket.create_server(("127.0.0.1", port)):
            pass
    except OSError:
        os.close(lock)
        return False
    reserved.append(lock)
    return True


def free_port():
    """Returns a port on which nothing listens, reserved for this process."""
    FOLDER.mkdir(mode=0o700, exist_ok=True)
    draw = random.Random(os.urandom(8))
    for _ in range(TRIES):
        port = draw.randrange(FIRST, LAST)
        if reserve(port):
            return port
    raise OSError(f"no free port between {FIRST} and {LAST} in {TRIES} tries")
