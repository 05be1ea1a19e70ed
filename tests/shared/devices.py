"""Libraries that are loaded before the C library and make a program's calls fail.

A test and the program communicate by a page of shared memory."""
import mmap
import pathlib
import struct

from program import TOP, run

# The numbers of a page, as in tests/devices/page.h.
NUMBERS = ("calls", "at", "row", "error", "kinds", "syncs", "waits", "lies")
# Kinds of calls on files. Growths are the writes and changes of size that make a file larger.
READS, WRITES, SIZES, SYNCS, GROWTHS = 1, 2, 4, 8, 16


def library(name, folder):
    """Builds the library of that name from its source in tests/devices, in a directory; returns its path."""
    file = pathlib.Path(folder, f"{name}.so")
    built = run(["cc", "-shared", "-fPIC", "-O1", "-o", str(file), str(TOP / "tests" / "devices" / f"{name}.c")])
    if built[0]:
        raise OSError(f"cc: {built[2]!r}")
    return str(file)


class Page:
    """The numbers that a device reads and changes while its program runs."""

    def __init__(self, folder):
        self.file = pathlib.Path(folder, "page")
        self.file.write_bytes(bytes(8 * len(NUMBERS)))
        with self.file.open("r+b") as opened:
            self.numbers = mmap.mmap(opened.fileno(), 0)

    def get(self, name):
        return struct.unpack_from("q", self.numbers, 8 * NUMBERS.index(name))[0]

    def set(self, **numbers):
        """Sets the named numbers, and all others to 0."""
        for at, name in enumerate(NUMBERS):
            struct.pack_into("q", self.numbers, 8 * at, numbers.get(name, 0))

    def environment(self, device):
        return {"LD_PRELOAD": device, "DEVICE_PAGE": str(self.file)}
