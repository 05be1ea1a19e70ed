"""Requests over 64 KiB, and what a service takes of them."""
import pathlib

import wire

# The buffers for such requests: of those without a token, and of those of one USS.
WITHOUT_TOKEN, OF_USS = 8, 32
# The bytes of one that are sent at first, and the seconds in which the others must follow: after 5 s, 4 KiB are due each
# second, of which it has more than 64 KiB for its first 14 s.
FIRST_BYTES, SENT_WITHIN = 125_000, 14
# Requests whose costs are compared, and the arrays of their bodies.
COMPARED, ARRAYS = 40, 300_000


def large(token, filling=130_000):
    """Returns a setting with a body of more than that many bytes. Without a token it is denied."""
    body = b'{"old_version":"none","availability":"Down","x":"' + b"x" * filling + b'"}'
    return wire.request("PUT", f"{wire.AVAILABILITY}/uss-b", token and f"Bearer {token}", body)


def nested(arrays):
    """Returns the body of a query that breaks P5 once all of these arrays are parsed."""
    return b"[" * 100 + b"[]," * arrays + b"[]" + b"]" * 100


def processor_ticks(process):
    """Returns the processor time of a process, in ticks."""
    return sum(map(int, pathlib.Path(f"/proc/{process}/stat").read_text().rpartition(")")[2].split()[11:13]))
