"""Measures SQLite's own library for the statements of the space, by bench/shared/space.c.

It needs Debian's gcc and libsqlite3-dev."""
import pathlib
import subprocess
import sys
import tempfile

TOP = pathlib.Path(__file__).resolve().parents[2]
sys.path.insert(0, str(TOP / "tests" / "shared"))

import tables

MEMORY_DISK = "/dev/shm"
# Changes, and queries, of each kind.
CHANGES = 5_000


def memory_disk():
    """Returns the directory of a memory disk, if there is one."""
    return MEMORY_DISK if pathlib.Path(MEMORY_DISK).is_dir() else None


def memory_folder():
    """Makes a temporary directory, on a memory disk if there is one."""
    return tempfile.TemporaryDirectory(dir=memory_disk())


def built(folder):
    """Returns the program, compiled in a directory."""
    program = f"{folder}/space"
    if subprocess.run(["cc", "-O2", "-o", program, str(TOP / "bench" / "shared" / "space.c"), "-lsqlite3"]).returncode:
        sys.exit("bench: bench/shared/space.c: compiling failed; are gcc and libsqlite3-dev installed?")
    return program


def schema():
    """Returns the SQL that makes the tables."""
    rules = "PRAGMA foreign_keys = ON; PRAGMA journal_mode = WAL; PRAGMA synchronous = FULL;"
    return f"{rules} {tables.FORMATS[2]} INSERT INTO meta VALUES (1, 2, 0)"


def rates(program, file, kept):
    """Returns calls a second, by their names, with that many stored intents in a file or in `:memory:`: creations,
    updates, deletions and queries that find ten. With at least 1,000 intents also queries of 512 cells and queries
    that find 1,000, and creations that first search for 1, 16 and 128."""
    words = [program, file, f"{kept}", f"{CHANGES}", schema()]
    said = subprocess.run(words, capture_output=True, text=True, check=True).stdout
    return dict(line.split() for line in said.splitlines())
