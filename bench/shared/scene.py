"""The calls that measure a service, and the program that answers them.

The program is bench/shared/service.rattle, which is proved and built as an additional crate in a copy of the crates.
Libraries that ./dss has built in crates/*/out are not proved again."""
import hashlib
import json
import pathlib
import shutil
import subprocess
import sys
import tempfile

from places import cell

TOP = pathlib.Path(__file__).resolve().parents[2]
NAME = "bench_service"
USES = "entity_core policy_core space_core space_memory space_sql service_calls wire_body wire_reply"
CALLS = 2_000
# Others may use the machine meanwhile, so the fastest round counts.
ROUNDS = 5
# Intents in one cell.
SHARING = 10
NOW = 1_000
URL = "https://uss-a.example/dss"


def stop(why):
    print(f"bench: {why}", file=sys.stderr)
    sys.exit(1)


def ovn(serial):
    return hashlib.sha256(f"dss-ovn|bench|{serial}".encode()).hexdigest()


def id_of(number):
    """Scatters rising numbers, so that the id of a new intent is anywhere among the stored ones."""
    return f"{number * 0x9E3779B97F4A7C15 % 2**64 >> 32:08x}-0000-4000-8000-{number:012x}"


class Scene:
    """The calls that fill an airspace, ten intents to a cell, and measure it."""

    def __init__(self, size):
        self.lines, self.serial, self.ids = [], 0, size
        # The positions of the measured lines.
        self.measured = []
        self.places = [[] for _ in range(size // SHARING)]
        for number in range(size):
            place = number % len(self.places)
            self.put("create", id_of(number), "-", place)
            self.places[place].append([id_of(number), self.serial])

    def line(self, asked, first, second, body):
        self.lines.append(f"{asked} {first} {second} {json.dumps(body, separators=(',', ':'))}\n")

    def put(self, asked, id_, second, place, changes=True):
        """Adds a put, with a key of all that it meets if it is to change something, and otherwise without one."""
        volume = {"cells": [cell(place)], "altitude_lower": 0, "altitude_upper": 1_000}
        volume |= {"time_start": NOW, "time_end": NOW + 3_600}
        key = [ovn(serial) for _, serial in self.places[place]] if changes else []
        self.line(asked, id_, second, {"extents": [volume], "key": key, "state": "Accepted", "uss_base_url": URL})
        self.serial += changes

    def measure(self, work, turn):
        place = turn % len(self.places)
        # The line before creates the entity that a deletion deletes.
        self.measured.append(len(self.lines) + (work == "delete"))
        if work == "query":
            self.line("query", "query", "-", {"area_of_interest": {"cells": [cell(place)]}})
        elif work == "update":
            first = self.places[place][0]
            self.put("update", first[0], ovn(first[1]), place)
            first[1] = self.serial
        else:
            self.ids += 1
            new = id_of(self.ids)
            self.put("create", new, "-", place, work != "denial")
            if work != "denial":
                # It is deleted, so that the number stored stays the same.
                self.line("delete", new, ovn(self.serial), {})
                self.serial += 1

    def measure_all(self, work):
        """Adds each round of a kind of call."""
        for turn in range(CALLS * ROUNDS):
            self.measure(work, turn)


def answer_to(work):
    """Returns the status of a call, and the length of its body."""
    one = {"id": id_of(0), "manager": "uss-a", "ovn": ovn(0), "state": "Accepted", "subscription_id": id_of(0)}
    one |= {"time_end": NOW + 3_600, "time_start": NOW, "uss_availability": "Unknown", "uss_base_url": URL, "version": 1}
    ten = [one] * SHARING
    changed = {"operational_intent_reference": one, "subscribers": []}
    status, value = {
        "create": (201, changed),
        "update": (200, changed),
        "delete": (200, changed),
        "query": (200, {"operational_intent_references": ten}),
        "denial": (409, {"message": "P14 KEY", "missing_constraints": [], "missing_operational_intents": ten}),
    }[work]
    return status, len(json.dumps(value, separators=(",", ":")))


def answers(program, scene, place):
    """Returns the status, the length of the body and the nanoseconds of each measured call, over a space at this place:
    `list`, `memory` or a file."""
    # A file, because the program would read a pipe byte by byte.
    with tempfile.TemporaryFile("w+") as given:
        given.write(f"{place}\n")
        given.writelines(scene.lines)
        given.seek(0)
        ran = subprocess.run([program], stdin=given, stdout=subprocess.PIPE, text=True)
    lines = ran.stdout.splitlines()
    if ran.returncode or len(lines) != len(scene.lines):
        stop(f"the program ended with {ran.returncode} after {len(lines)} of {len(scene.lines)} calls")
    return [[int(it) for it in lines[at].split()] for at in scene.measured]


def nanoseconds(work, size, found):
    """Returns the service's time for the calls of the fastest round of those with these responses."""
    status, length = answer_to(work)
    # The version in an update has up to six digits, and not one.
    if any(it[0] != status or not 0 <= it[1] - length <= 5 * SHARING for it in found):
        stop(f"{work} at {size}: a call was not answered as it should be")
    return max(min(sum(it[2] for it in found[at : at + CALLS]) for at in range(0, len(found), CALLS)), 1)


def copy(folder):
    """Copies the crates, with their builds if the directory has nothing yet, and adds one; returns its directory."""
    kept = shutil.ignore_patterns("out") if (folder / "crates").is_dir() else None
    shutil.copytree(TOP / "crates", folder / "crates", ignore=kept, dirs_exist_ok=True)
    shutil.copy2(TOP / "HANDLES", folder)
    (folder / "crates.txt").write_text(f"{(TOP / 'crates.txt').read_text()}{NAME}: {USES}\n")
    crate = folder / "crates" / NAME
    (crate / "src").mkdir(parents=True, exist_ok=True)
    shutil.copy2(TOP / "bench" / "shared" / "service.rattle", crate / "src" / "main.rt")
    return crate


def build(folder):
    """Proves and builds the program in a directory. It answers an empty input with nothing."""
    if not shutil.which("rt"):
        stop("the command rt is not on PATH; it proves and builds the program")
    crate = copy(folder)
    ran = subprocess.run(["rt", "run"], cwd=crate, stdin=subprocess.DEVNULL, stdout=sys.stderr)
    if ran.returncode:
        stop("the program was not built")
    return crate / "out" / NAME


def in_folder(words, measure):
    """Measures with a directory for the program: that of the one argument, which is made if it does not exist and
    stays, so that the next run there proves nothing; or a temporary one."""
    if len(words) > 1:
        stop("one folder at most is given")
    if words:
        measure(pathlib.Path(words[0]))
        return
    with tempfile.TemporaryDirectory() as folder:
        measure(pathlib.Path(folder))


def row(cells):
    return f"| {' | '.join(cells)} |"
