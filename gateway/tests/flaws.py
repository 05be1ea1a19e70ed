"""Checks that a changed gateway fails its properties.

It builds a gateway that contains each change of `flaws`, enabled one at a time by a number in the environment, and
checks that a property fails."""
import os
import pathlib
import subprocess

import properties
from world import TOP

SOURCES = TOP / "gateway" / "src"
FLAWED = '#include <cstdlib>\n#include <string>\nstatic const std::string kFlaw = std::getenv("FLAW") ? std::getenv("FLAW") : "";\n'
LIBRARIES = ["-ls2", "-lssl", "-lcrypto", "-lz", "-labsl_strings", "-labsl_base", "-labsl_raw_logging_internal", "-pthread"]
# A part of the cases suffices.
COUNTS = {"points_inside_are_covered": 1000, "volumes_of_puts": 30}


def all_flaws():
    lines = (TOP / "gateway" / "tests" / "flaws").read_text().splitlines()
    return [it.split("|") for it in lines if it and not it.startswith("#")]


def build(built):
    """Builds the program, of the existing objects except the sources with a change."""
    folder = pathlib.Path(built, "flaws")
    folder.mkdir(exist_ok=True)
    texts = {}
    for number, (file, old, new, _) in enumerate(all_flaws()):
        text = texts.setdefault(file, FLAWED + (SOURCES / file).read_text().replace("constexpr double", "const double"))
        assert text.count(old) == 1, f"{old} does not stand once in {file}"
        texts[file] = text.replace(old, f'(kFlaw == "{number}" ? ({new}) : ({old}))')
    for file, text in texts.items():
        (folder / file).write_text(text)
    objects = [str(it) for it in pathlib.Path(built).glob("*.o") if f"{it.stem}.cpp" not in texts]
    program = str(folder / "gateway")
    sources = [str(folder / it) for it in texts]
    subprocess.run(["g++", "-std=c++17", "-O0", "-I", str(SOURCES), "-o", program, *sources, *objects, *LIBRARIES], check=True)
    return program


def cases(built):
    """Returns a case for each change, by its name."""
    program = []

    def is_noticed(number, name):
        program[:] = program or [build(built)]
        os.environ["FLAW"] = str(number)
        try:
            properties.__dict__[name](program[0], **({"count": COUNTS[name]} if name in COUNTS else {}))
        except AssertionError:
            return
        finally:
            del os.environ["FLAW"]
        raise AssertionError(f"{name} holds in spite of the change")

    return {
        f"{new} for {old} in {file} is noticed": lambda number=number, name=name: is_noticed(number, name)
        for number, (file, old, new, name) in enumerate(all_flaws())}
