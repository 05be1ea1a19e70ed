"""The files of requests in examples/ get the responses that are beside them.

The responses were written from the rules and formats that docs/POLICY.md states, their OVNs with another program's
SHA-256."""
import contextlib
import json
import pathlib
import re
import tempfile

import wire
from ports import free_port
from program import BUILT, TOP, run
from serving import Service

FOLDER = TOP / "examples"
COMMAND = [BUILT, "run", "--tokens", "examples/tokens.toml", "--now", "1000", "-"]


def requests():
    return sorted(FOLDER.glob("*.http"))


def answered(file):
    """Returns how the output for a file of requests differs from the responses beside it."""
    wanted = (0, file.with_suffix(".answers").read_bytes(), b"")
    got = run(COMMAND, file.read_bytes())
    return [f"\n    wanted {wanted!r}\n    got    {got!r}"] if got != wanted else []


def in_pairs():
    """No file of responses lacks its requests, and no file of requests leaves its connection open."""
    alone = {it.stem for it in FOLDER.glob("*.answers")} - {it.stem for it in requests()}
    found = [f"{it}.answers has no requests" for it in sorted(alone)]
    for file in requests():
        closing = file.read_bytes().count(b"\r\nConnection: close\r\n")
        found += [f"{file.name} closes {closing} times"] if closing != 1 else []
    return found


def bodies_for_clients():
    """Of the two bodies in docs/CLIENTS.md, that of a usual USS is denied, and its replacement is accepted."""
    bodies = re.findall(r"```json\n(.*?)```", (TOP / "docs" / "CLIENTS.md").read_text(), re.DOTALL)
    target = f"{wire.INTENTS}/00000000-0000-4000-8000-0000000000a1"
    given = b"".join(wire.request("PUT", target, "Bearer tok-a", it.encode()) for it in bodies)
    status, output, error = run(COMMAND, given)
    said = [json.loads(it.partition(b"\r\n\r\n")[2]) for it in wire.answers_of(output)]
    right = [it.get("message", it.get("operational_intent_reference", {}).get("ovn")) for it in said]
    return [f"{status}, {output!r}, {error!r}"] if (status, right, error) != (0, ["P5 FORM", wire.ovn(1)], b"") else []


def meeting_over_sockets():
    """Two USSs conflict over the service that the script starts: each of its seven steps gets the response that it
    announces."""
    status, output, error = run([str(FOLDER / "meeting"), f"{free_port()}"])
    steps = [line[0] for line in output.decode().splitlines() if line[:2] in {f"{it}." for it in range(1, 8)}]
    is_right = status == 0 and steps == list("1234567") and output.count(b"P14 KEY") == 2
    return [] if is_right else [f"{status}, {output!r}, {error!r}"]


def meeting_of_the_readme():
    """The commands of the README get the announced responses, twice: 201, 409 for the key, 201, and both flights with
    only one OVN. They leave neither a file nor a process behind."""
    lines = re.search(r"```bash\n(.*?)```", (TOP / "README.md").read_text(), re.DOTALL)[1]
    found = [] if len(lines.splitlines()) <= 12 else ["the commands have more than 12 lines"]
    found += [] if lines.count("port=8080 ") == 1 else ["the commands do not name a port once"]
    with tempfile.TemporaryDirectory() as room:
        for _ in range(2):
            status, output, error = run(["bash", "-c", lines.replace("port=8080 ", f"port={free_port()} ")], more={"TMPDIR": room})
            said = output.decode()
            statuses = re.findall(r" (\d{3})$", said, re.M)
            references = json.loads(said.splitlines()[-1])["operational_intent_references"]
            right = statuses == ["201", "409", "201"] and "P14 KEY" in said and ["ovn" in it for it in references] == [False, True]
            found += [] if right else [f"{status}, {said}, {error!r}"]
            found += [f"{it} is left" for it in pathlib.Path(room).iterdir()] + [f"{it} is left" for it in running(room)]
    return found


def running(room):
    """Returns the command lines of processes that name a directory."""
    found = []
    for it in pathlib.Path("/proc").glob("[0-9]*/cmdline"):
        with contextlib.suppress(OSError):
            line = it.read_bytes().replace(b"\0", b" ").decode(errors="replace")
            found += [line] if f"{room}/" in line else []
    return found


def client():
    """The example client declares four flights in one cell, alternately for two USSs, and sees only its own OVNs."""
    with Service() as service:
        status, output, error = run([str(FOLDER / "client.py"), f"{service.port}"])
    lines = output.decode().splitlines()
    declared = [line.split()[0] for line in lines if " declared " in line]
    shown = sum(line.endswith("not shown") for line in lines)
    is_right = status == 0 and declared == ["uss-a", "uss-b"] * 2 and len(lines) == 8 and shown == 2
    return [] if is_right else [f"{status}, {output!r}, {error!r}"]


CASES = {f"example-{it.stem}": lambda it=it: answered(it) for it in requests()} | {
    "examples-in-pairs": in_pairs,
    "bodies-for-clients": bodies_for_clients,
    "meeting-over-sockets": meeting_over_sockets,
    "meeting-of-the-readme": meeting_of_the_readme,
    "example-of-a-client": client,
}
