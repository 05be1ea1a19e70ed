"""`serve --double-sync` syncs each change of one client twice instead of once. Responses and stored rows are the same.

What each way to commit survives is as docs/OPERATE.md says and bench/power_cuts measured."""
import pathlib
import re
import tempfile

import lengths
import power_cuts
import seeds
import wire
from program import TOP, run
from serving import Service
from sockets import difference

FEW, MANY = 5, 25


class DoubleSync(Service):
    """`dss serve` with the option."""

    options = ("--double-sync",)


def put(number):
    """Returns the next availability of a USS, after that many changes of it."""
    old = f'"{wire.ovn(number)}"' if number else '""'
    return b'{"old_version":%s,"availability":"%s"}' % (old.encode(), b"Down" if number % 2 else b"Normal")


def made(kind, changes, library, counted):
    """Makes that many changes, each after the response to the one before, and returns the responses and the number of
    syncs."""
    with kind(count=1, more={"LD_PRELOAD": str(library), "SYNCS": str(counted)}) as service:
        came = []
        with service.connect() as connection:
            for number in range(changes):
                connection.sendall(wire.request("PUT", f"{wire.AVAILABILITY}/uss-b", "Bearer tok-v", put(number)))
                came.append(connection.recv(1 << 16))
        ended = service.ended()
        if ended != (0, b"", service.listening):
            raise OSError(f"the service: {ended!r}")
        return came, int(counted.read_text())


def syncs():
    """Each additional change takes one sync more, or two, and the responses are the same."""
    found = []
    with tempfile.TemporaryDirectory() as room:
        library, counted = pathlib.Path(room, "count_syncs.so"), pathlib.Path(room, "syncs")
        built = run(["cc", "-shared", "-fPIC", "-O1", "-o", str(library), str(TOP / "tests" / "devices" / "count_syncs.c")])
        if built[0]:
            raise OSError(f"cc: {built[2]!r}")
        answers = []
        for kind, each in (Service, 1), (DoubleSync, 2):
            few, many = made(kind, FEW, library, counted), made(kind, MANY, library, counted)
            found += difference(f"syncs, {kind.__name__}", many[1] - few[1], each * (MANY - FEW))
            answers.append(many[0])
        found += [f"{it!r}" for it in answers[0] if not it.startswith(b"HTTP/1.1 200 ")]
        return found + difference("answers", answers[1], answers[0])


def one_file():
    """Changes made with the option are found without it, and the other way round."""
    with Service() as service:
        for number, options in enumerate([(), ("--double-sync",), (), ("--double-sync",)]):
            service.kill()
            service.options = options
            service.start()
            came = service.exchange(wire.request("PUT", f"{wire.AVAILABILITY}/uss-b", "Bearer tok-v", put(number)))
            if not came.startswith(b"HTTP/1.1 200 "):
                return [f"{number}: {came!r}"]
    return []


# Simulated cuts for each row and way to commit.
CUTS = lengths.of(6, 100)
# By the word in docs/OPERATE.md: whether cuts lost changes, by bench/README.md.
LOSSES = {"keeps all": False, "kept all, by a checksum": False, "can lose the last change": True, "can damage the database": True}


def rows_of(document, heading):
    """Returns the rows of the table about power cuts in a section, by their first cells."""
    section = (TOP / document).read_text().partition(f"\n{heading}\n")[2].partition("\n#")[0]
    rows = [[it.strip() for it in line.strip("|").split("|")] for line in re.findall(r"^\|.*\|$", section, re.MULTILINE)]
    return {it[0]: it[1:] for it in rows if it[0] in power_cuts.MODELS}


def documented():
    """docs/OPERATE.md says of each row and way to commit what bench/README.md has measured."""
    said, measured = rows_of("docs/OPERATE.md", "### Disk and double sync"), rows_of("bench/README.md", "## Power cuts")
    names = list(power_cuts.MODELS)
    found = difference("rows of OPERATE", list(said), names) + difference("rows of bench", list(measured), names)
    for name in said.keys() & measured.keys():
        for way, word, cuts in zip(power_cuts.WAYS, said[name], measured[name], strict=True):
            if LOSSES.get(word) != (not cuts.startswith("0 of ")):
                found.append(f"{name}, {way}: {word!r}, and measured {cuts!r}")
    return found


def cuts():
    """Simulated power cuts lose no acknowledged change in the rows of which docs/OPERATE.md says that all is kept."""
    found, (seed,) = [], seeds.new("power-cuts", 1)
    said = rows_of("docs/OPERATE.md", "### Disk and double sync")
    for at, options in enumerate(power_cuts.WAYS.values()):
        with tempfile.TemporaryDirectory() as room:
            made = power_cuts.Run(options, room)
            found += difference("serials", [it["meta"][0][2] for it in made.states.values()], list(made.states))
            for name in [it for it in power_cuts.MODELS if said[it][at] == "keeps all"]:
                counted, lost = made.measure(name, CUTS, seed)
                # a file that was cut while it was made has no change, and may not be opened
                is_kept = lost == 0 and set(counted) <= {"found", "not opened"}
                found += [] if is_kept else [f"{options}, {name}, seed {seed}: {counted}, {lost} lost"]
    return found


CASES = {
    "double-sync-syncs-twice": syncs,
    "double-sync-or-not-over-one-file": one_file,
    "power-cuts-in-documents": documented,
    "power-cuts": cuts,
}
