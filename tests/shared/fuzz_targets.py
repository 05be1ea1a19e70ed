"""What reads bytes in the program, as targets of fuzzing, and what is documented of a run on any bytes."""
import pathlib
import re
import resource
import signal
import subprocess
import tempfile

import wire
from program import TOP

CORPUS = TOP / "tests" / "data" / "fuzz"
# The processor time after which a run counts as a hang, and the address space of a run, in MB.
SECONDS, MEGABYTES = 5, 1024
# The time by the clock after which it does, on a busy machine.
CLOCK_SECONDS = 300
NOW = "1000"
# The argument that stands for the input's file.
INPUT = "@@"


class Target:
    """A command that reads an input from standard input, from a file, or as its last argument."""

    def __init__(self, words, statuses, why, is_argument=False):
        self.words, self.statuses, self.why, self.is_argument = words, statuses, why, is_argument

    def command(self, file):
        """Returns the arguments of the program for an input in a file."""
        if self.is_argument:
            return [*self.words, argument_of(pathlib.Path(file).read_bytes())]
        return [str(file) if it == INPUT else it for it in self.words]

    def is_from_stdin(self):
        return not self.is_argument and INPUT not in self.words


def argument_of(given):
    """Returns an input as an argument, which ends before the first NUL."""
    return given.split(b"\0")[0]


def why_not_responses(status, output, error):
    """A stream is answered by whole responses, none of them a fault."""
    answers = wire.answers_of(output)
    if b"".join(answers) != output:
        return f"output that is no response: {output[sum(map(len, answers)):][:80]!r}"
    wrong = [it for it in answers if not re.match(rb"HTTP/1\.1 (200|201|400|401|403|404|405|409|413|431|501) ", it)]
    return f"the response {wrong[0][:80]!r}" if wrong else f"the messages {error[:80]!r}" if error else None


def why_not_diagnostics(status, output, error):
    """A check of a token file prints a summary last, or errors and the fault, or only that it cannot read the file."""
    if status == 0:
        is_documented = not error and re.search(rb": \d+ tokens? of \d+ suppliers?, .*\n\Z", output)
    elif error == b"dss: tokens: cannot read\n":
        is_documented = not output
    else:
        is_documented = output.endswith(b"\n") and re.fullmatch(rb"dss: tokens: fault [1-6] \w+\n", error)
    return None if is_documented else f"the output {output[-80:]!r}, {error[:80]!r}"


def why_no_fault(line):
    """Returns a function that accepts output alone with status 0, and a fault of this form alone with status 1."""

    def why(status, output, error):
        if status == 0:
            return f"the messages {error[:80]!r}" if error else None if output.endswith(b"\n") else "no output"
        return None if not output and re.fullmatch(line, error) else f"the output {output[:80]!r}, {error[:80]!r}"

    return why


# A token that is not UTF-8, or is an option, has status 2.
TARGETS = {
    "requests": Target(
        ["run", "--tokens", str(TOP / "examples" / "tokens.toml"), "--now", NOW, "-"], (0,), why_not_responses
    ),
    "tokens": Target(["tokens", "--check", INPUT], (0, 1), why_not_diagnostics),
    "database": Target(["report", "--db", INPUT], (0, 1), why_no_fault(rb"dss: db: fault [123] \w+\n")),
    "cell": Target(["cell"], (0, 1, 2), why_no_fault(rb"dss: token: fault [123] \w+\n|error: [^\0]*"), is_argument=True),
}


def limit():
    resource.setrlimit(resource.RLIMIT_CPU, (SECONDS, SECONDS + 1))
    resource.setrlimit(resource.RLIMIT_AS, (MEGABYTES << 20, MEGABYTES << 20))
    resource.setrlimit(resource.RLIMIT_CORE, (0, 0))


def why_undocumented(target, given, program):
    """Runs a program on an input. Returns what is not documented of its end, or None."""
    with tempfile.TemporaryDirectory() as room:
        file = pathlib.Path(room, "input")
        file.write_bytes(given)
        try:
            done = subprocess.run(
                [program, *target.command(file)],
                input=given if target.is_from_stdin() else b"",
                capture_output=True,
                cwd=room,
                timeout=CLOCK_SECONDS,
                preexec_fn=limit,
            )
        except subprocess.TimeoutExpired:
            return f"no end within {CLOCK_SECONDS} s"
    if done.returncode == -signal.SIGXCPU:
        return f"over {SECONDS} s of processor time"
    if done.returncode not in target.statuses:
        return f"status {done.returncode}, {done.stderr[-200:]!r}"
    return target.why(done.returncode, done.stdout, done.stderr)


def inputs(name):
    """Returns the inputs of a target in the corpus, by their names."""
    return {it.name: it.read_bytes() for it in sorted((CORPUS / name).iterdir())}
