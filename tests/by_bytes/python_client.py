"""The client in clients/python: its own tests over the built program, its types, and that pip installs it."""
import os
import pathlib
import re
import shutil
import subprocess
import sys
import tempfile

from pool import Skipped
from program import BUILT, TOP, run

CLIENT = TOP / "clients" / "python"
# so that none is lost unseen
LEAST = 25


def patiently(words, folder=TOP, more=None):
    """Runs a command that takes long on a busy machine."""
    given = {"stdin": subprocess.DEVNULL, "capture_output": True, "timeout": 300, "env": {**os.environ, **(more or {})}}
    done = subprocess.run(words, cwd=folder, **given)
    return done.returncode, done.stdout, done.stderr


def own_tests():
    """All tests of the client pass, and none is left out."""
    words = [sys.executable, "-B", "-W", "error::ResourceWarning", "-m", "unittest", "discover", "-s", f"{CLIENT}/test"]
    status, _, error = patiently(words, more={"DSS_PROGRAM": BUILT})
    said = re.search(rb"Ran (\d+) tests .*\n\nOK\n\Z", error)
    is_right = status == 0 and said and int(said[1]) >= LEAST
    return [] if is_right else [f"{status}, {error.decode()[-3000:]}"]


def is_typed():
    """mypy finds nothing."""
    if not shutil.which("mypy"):
        raise Skipped("mypy is missing")
    with tempfile.TemporaryDirectory() as room:
        words = ["mypy", "--config-file", "pyproject.toml", "--cache-dir", room]
        status, output, error = patiently(words, folder=CLIENT)
    return [] if status == 0 else [f"{output.decode()}{error.decode()}"]


def files_of(folder):
    return {f"{it.relative_to(folder)}" for it in pathlib.Path(folder).rglob("*") if "__pycache__" not in it.parts}


def is_installed():
    """pip installs it without a network, with each file of the package and nothing in the sources."""
    if run([sys.executable, "-m", "pip", "--version"])[0]:
        return []
    with tempfile.TemporaryDirectory() as room:
        sources = shutil.copytree(CLIENT, f"{room}/sources")
        words = ["-m", "pip", "install", "-q", "--no-index", "--disable-pip-version-check", "--target", f"{room}/there"]
        status, output, error = patiently([sys.executable, "-B", *words, sources], more={"PIP_ROOT_USER_ACTION": "ignore"})
        if status:
            return [f"pip: {status}, {output.decode()}{error.decode()}"]
        lacking = files_of(CLIENT / "dss_client") - files_of(f"{room}/there/dss_client")
        made = files_of(sources) - files_of(CLIENT)
        words = ["-B", "-c", "import dss_client; dss_client.Client('http://127.0.0.1:1', 'x').close()"]
        status, output, error = run([sys.executable, *words], folder=room, more={"PYTHONPATH": f"{room}/there"})
    said = [f"{it} is not installed" for it in lacking] + [f"{it} was made in the sources" for it in made]
    return said + ([f"{status}, {error.decode()}"] if status else [])


CASES = {
    "client-in-python": own_tests, "types-of-the-client-in-python": is_typed, "client-in-python-is-installed": is_installed,
}
