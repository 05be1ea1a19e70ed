"""Stops processes so that they stand still at once."""
import pathlib
import signal
import time


def is_stopped(thread):
    """Returns true if a thread, by its directory in /proc, has stopped or ended."""
    try:
        return thread.joinpath("stat").read_text().rpartition(")")[2].split()[0] in "TtZX"
    except OSError:
        return True


def freeze(process, limit=30):
    """Stops a process, and waits until each of its threads has stopped. A running thread goes on for a moment after SIGSTOP."""
    process.send_signal(signal.SIGSTOP)
    threads, end = pathlib.Path(f"/proc/{process.pid}/task"), time.monotonic() + limit
    while not all(map(is_stopped, threads.iterdir())):
        if time.monotonic() > end:
            raise AssertionError(f"process {process.pid} does not stop")
        time.sleep(0.001)
