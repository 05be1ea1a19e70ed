"""Each command and module that the tests use belongs to a package that each Debian has or that ./check installs."""
import ast
import os
import pathlib
import re
import sys

import commands
from program import TOP, run
from sockets import difference

# Packages of ./check with no command that tests call: modules of Python, headers, the schema of OpenAPI.
WITHOUT_COMMANDS = {"python3-yaml", "python3-jsonschema", "libc6-dev", "openapi-specification"}
# A package on which another one depends.
NEEDED_BY = {"binutils": "gcc"}
# Links that no package contains, with what they link to.
LINKS = {"awk": "mawk", "cc": "gcc"}
# Modules of Python that Debian has in other packages than python3.
NOT_IN_PYTHON3 = {"distutils", "ensurepip", "idlelib", "lib2to3", "tkinter", "turtle", "venv"}
# A command that each Debian has and no test may call, because it is not in the tables.
OTHER = "perl"
# The files of tests that ./check runs.
TESTS = "tests/end_to_end", "tests/by_bytes/*.py", "tests/shared/*.py", "scripts/*.py", "clients/python/*/*.py", "examples/*.py"


def installed():
    """Returns the packages that ./check can install."""
    added = re.findall(r"packages\+=\(([^)]*)\)", (TOP / "check").read_text())
    return {name for it in added for name in it.split()}


def in_no_package():
    """Returns what differs between the tables, ./check, and the packages of this machine."""
    always = {NEEDED_BY.get(it, it) for it in commands.INSTALLED}
    found = difference("the packages of ./check", installed(), always | WITHOUT_COMMANDS | {"git"})
    tables = commands.BASE | commands.INSTALLED
    for package, names in tables.items():
        status, output, _ = run(["dpkg-query", "-W", "-f", "${db:Status-Status} ${Essential} ${Priority}", package])
        words = output.decode().split(" ")
        if status or words[0] != "installed":
            print(f"{package} is not installed here, so its commands are not compared")
            continue
        if package in commands.BASE and words[1] != "yes" and words[2] != "required":
            found += [f"not each Debian has the package {package}"]
        files = {pathlib.PurePath(it).name for it in run(["dpkg-query", "-L", package])[1].decode().splitlines()}
        files |= {it.removeprefix("x86_64-linux-gnu-") for it in files}
        found += [f"the package {package} has no command {it}" for it in names.split() if LINKS.get(it, it) not in files]
    return found


def reachable():
    """Returns the commands that this case can call and that are in no table."""
    known = commands.names(commands.BASE, commands.INSTALLED) | set(commands.OPTIONAL)
    found = {name for folder in os.environ["PATH"].split(":") for name in os.listdir(folder)} - known
    status, *_ = run(["bash", "-c", f"{OTHER} --version"])
    return [f"tests can call {it}" for it in sorted(found)] + difference(f"{OTHER}, which bash cannot find", status, 127)


def imported(file):
    """Returns the modules that a file imports, by their first names."""
    for it in ast.walk(ast.parse(file.read_text())):
        if isinstance(it, ast.Import):
            yield from (name.name.partition(".")[0] for name in it.names)
        elif isinstance(it, ast.ImportFrom) and not it.level:
            yield it.module.partition(".")[0]


def modules():
    """Returns the modules that tests import, and that neither python3 nor a package of ./check has."""
    files = [file for it in TESTS for file in sorted(TOP.glob(it))]
    own = {it.stem for it in files} | {"dss_client"}
    checked = set(re.findall(r"\bhas (\w+) \|\| packages", (TOP / "check").read_text()))
    known = (set(sys.stdlib_module_names) - NOT_IN_PYTHON3) | own | checked
    found = [f"{file.relative_to(TOP)}: ./check installs no module {it}" for file in files for it in imported(file) if it not in known]
    return found + ([] if len(files) > 80 and checked else [f"{len(files)} files and the modules {checked}: too few"])


def packaged():
    return in_no_package() + reachable() + modules()


CASES = {"commands-of-the-tests": packaged}
