"""A new database has pages of 1,024 bytes. It is there whole or not at all, whatever a process left that was stopped."""
import os
import pathlib
import sqlite3
import subprocess

import wire
from databases import STORE, Room, ask
from program import SECONDS

# The first page of a new database. Its bytes behind these are 0.
PAGE = 1_024
STARTS = 8


def change(uss="uss-b"):
    return ask("PUT", f"{wire.AVAILABILITY}/{uss}", "tok-v", {"old_version": "", "availability": "Down"})


def beside(room, suffix):
    return pathlib.Path(f"{room.database}{suffix}")


def wrong_with(room, what, page=PAGE):
    """Makes a change over the database. Returns what is wrong with it then."""
    got = room.serve([change()])
    found = [] if (got[0], got[2]) == (0, b"") else [f"{what}: {got!r}"]
    if found:
        return found
    size, check = room.query("PRAGMA page_size")[0][0], room.query("PRAGMA integrity_check")[0][0]
    found += [] if (size, check) == (page, "ok") else [f"{what}: pages of {size} bytes, {check}"]
    found += [] if room.readable() else [f"{what}: the change is gone"]
    return found + ([f"{what}: a file {it} is left" for it in (".new",) if beside(room, it).exists()])


def pages():
    with Room() as room:
        found = wrong_with(room, "a new database")
        mode = os.stat(room.database).st_mode & 0o777
        return found + ([] if mode == 0o600 else [f"the mode is {mode:o}"])


def stopped():
    """A process was stopped while it made the file, or before it removed the other name of it."""
    with Room() as room:
        room.serve([])
        page = room.database.read_bytes()[:PAGE]
    found = []
    for size in (0, 1, 100, 108, PAGE):
        with Room() as room:
            beside(room, ".new").write_bytes(page[:size])
            found += wrong_with(room, f"{size} bytes were written")
    with Room() as room:
        found += wrong_with(room, "before")
        beside(room, ".new").hardlink_to(room.database)
        found += [] if room.readable() and not beside(room, ".new").exists() else ["the second name is left, or the change is gone"]
    return found


def kept():
    """An existing database keeps its pages: an empty file, and what SQLite wrote with others."""
    with Room() as room:
        room.database.touch()
        found = wrong_with(room, "an empty file", 4_096)
    for size in (512, 4_096, 65_536):
        with Room() as room:
            found += wrong_with(room, "before")
            with sqlite3.connect(room.database, isolation_level=None) as database:
                for it in ("PRAGMA journal_mode = DELETE", f"PRAGMA page_size = {size}", "VACUUM"):
                    database.execute(it)
            database.close()
            got = room.query("PRAGMA page_size")[0][0]
            found += [] if got == size and room.readable() else [f"pages of {size} bytes became {got}"]
    return found


def beside_a_log():
    """Beside a log no page is made: the same happens as with an empty file."""
    got = []
    for is_there in (False, True):
        with Room() as room:
            beside(room, "-wal").write_bytes(bytes(range(256)) * 40)
            if is_there:
                room.database.touch()
            got.append(room.serve([]))
    return [] if got[0] == got[1] else [f"{got[0]!r}, and with an empty file {got[1]!r}"]


def at_once():
    """Several processes make the same database. Each serves or finds it in use, and what was made is kept."""
    found = []
    for _ in range(4):
        with Room() as room:
            words = dict(stdin=subprocess.PIPE, stdout=subprocess.PIPE, stderr=subprocess.PIPE)
            processes = [subprocess.Popen(room.words(), **words) for _ in range(STARTS)]
            made = 0
            for process in processes:
                output, error = process.communicate(change(), SECONDS)
                # The second change of the availability is denied, since it does not name the version of the first.
                made += output.startswith(b"HTTP/1.1 200")
                found += [] if process.returncode == 0 or error == STORE else [f"{process.returncode} {output!r} {error!r}"]
            found += [] if made == 1 and room.readable() else [f"{made} of {STARTS} made the change"]
    return found


CASES = {
    "pages-of-new-databases": pages,
    "new-database-that-was-stopped": stopped,
    "pages-of-existing-databases": kept,
    "new-database-beside-a-log": beside_a_log,
    "new-database-made-at-once": at_once,
}
