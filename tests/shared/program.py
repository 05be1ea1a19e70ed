"""The built program, and functions that run it."""
import os
import pathlib
import subprocess
import tempfile

import conforms
import wire

TOP = pathlib.Path(__file__).resolve().parents[2]
CASES = TOP / "tests" / "data" / "cases"
DSS = str(TOP / "dss")
# ./check sets this to the program that ./dss runs, which is elsewhere if the repository cannot be written.
BUILT = os.environ.get("DSS_PROGRAM") or str(TOP / ".dss" / "dss")
# A limit for what ends soon, so that a test ends if the program does not. It is far above what a busy machine takes.
SECONDS = 300


def run(words, given=b"", folder=TOP, more=None, program=None):
    """Returns the status, standard output and standard error of a command with this additional environment. The program
    is the first argument, if no other file is given."""
    environment = {**os.environ, **(more or {})}
    done = subprocess.run(
        words, executable=program, input=given, capture_output=True, cwd=folder, timeout=SECONDS, env=environment
    )
    return done.returncode, done.stdout, done.stderr


def content(file, missing=b""):
    return file.read_bytes() if file.is_file() else missing


def serve(requests, now, tokens=None, more=None):
    """Returns the result of a stream, with the text of a token file."""
    with tempfile.TemporaryDirectory() as room:
        file = pathlib.Path(room, "tokens.toml")
        file.write_bytes((wire.token_file() if tokens is None else tokens).encode())
        status, output, error = run([BUILT, "run", "--tokens", str(file), "--now", str(now), "-"], requests, more=more)
    conforms.check_stream(wire.answers_of(output))
    return status, output, error


def first_difference(wanted, got):
    """Describes where two lists of responses differ first; None if they do not."""
    for at, (want, have) in enumerate(zip(wanted, got)):
        if want != have:
            return f"answer {at + 1}\n    wanted {want!r}\n    got    {have!r}"
    return None if len(wanted) == len(got) else f"wanted {len(wanted)} answers, got {len(got)}"
