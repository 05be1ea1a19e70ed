"""Input and expected output of the programs `test_sql_memory` and `test_sql_files` over tables in memory, which no
command of dss has.

Those of the first are drawn calls with the plain policy's responses, and searches of cells of all levels. The second
makes three calls, and prints the bodies of the responses. The gate runs the programs on these files, which
tests/draw_tables writes."""
import drawn_calls
import plain_policy
import wire
from drawn_calls import Draw, Drawn
from program import TOP

FOLDER = TOP / "crates"
SEED, STREAMS = 7, 3
# Streams of creations that need no key, of two volumes each, and the levels of their cells.
CREATIONS, LEVELS = 2, range(7, 17)
# Cells of levels 0, 6, 13, 13 and 20 in the area of the drawn calls, and one elsewhere.
CELLS = ("1", "0001", "00000004", "00000304", "000003000004", "9")
KINDS = (plain_policy.INTENT, plain_policy.CONSTRAINT)


def extent(draw, drawn):
    """Returns a volume of one cell, two of three of which share an altitude or a time."""
    lower, start = 100 * draw.below(3), drawn_calls.NOW + 100 * draw.below(3)
    return {
        "cells": [drawn.cell(draw.of(LEVELS))],
        "altitude_lower": lower,
        "altitude_upper": lower + 150,
        "time_start": start,
        "time_end": start + 150,
    }


def creation(draw, drawn, number):
    """Returns the creation of a contingent intent of this number."""
    body = {
        "extents": [extent(draw, drawn), extent(draw, drawn)],
        "state": "Contingent",
        "uss_base_url": "https://b.example",
    }
    target = f"{wire.INTENTS}/00000000-0000-4000-8000-{number:012x}"
    return "PUT", target, "Bearer tok-bm", wire.compact(body).encode()


def searched(airspace, token):
    """Returns the expected output for a cell."""
    area = plain_policy.Extent((plain_policy.cell_of(token),), (None, None), (None, None))
    lines = []
    for kind in KINDS:
        entities = [it for it in airspace.entities.values() if it.kind == kind]
        met = sum(plain_policy.some_meet(it.put.extents, [area]) for it in entities)
        lines.append(f"{token}: {met} of {len(entities)}, both searches find the same\n")
    return "".join(lines).encode()


def three_runs():
    """Returns the expected output of `test_sql_files`, whose calls are in its `src/story.rt`."""
    airspace = plain_policy.Airspace(1_000, {"tok": ("uss-a", {wire.STRATEGIC, wire.ARBITRATION})})
    plan = f"{wire.INTENTS}/00000000-0000-4000-8000-0000000000a1"
    extent = {
        "cells": ["89c25904"],
        "altitude_lower": 0,
        "altitude_upper": 1_200,
        "time_start": 900,
        "time_end": 2_000,
    }
    put = {"extents": [extent], "state": "Accepted", "uss_base_url": "https://a.example"}
    calls = [
        ("PUT", plan, wire.compact(put).encode()),
        ("PUT", f"{wire.AVAILABILITY}/uss-a", wire.compact({"availability": "Down"}).encode()),
        ("GET", plan, b""),
    ]
    responses = [airspace.ask(method, target, "Bearer tok", body) for method, target, body in calls]
    return "".join(f"{it.body}\n" for it in responses).encode()


def files():
    """Returns the files of the crates by their names: tokens, streams, arguments, and expected outputs."""
    draw = Draw(SEED)
    airspace = plain_policy.Airspace(drawn_calls.NOW, drawn_calls.ALL_TOKENS)
    drawn = Drawn(draw, airspace)
    found = {"data/tokens.toml": wire.token_file(drawn_calls.ALL_TOKENS).encode()}
    words, printed = ["tokens.toml"], b""
    for number in range(1, STREAMS + CREATIONS + 1):
        calls = []
        for at in range(1, wire.MAX_REQUESTS + 1):
            call = drawn.call() if number <= STREAMS else creation(draw, drawn, 1_000 * number + at)
            calls.append(wire.request(*call))
            printed += airspace.ask(*call).text(closes=at == wire.MAX_REQUESTS)
        words.append(f"{number}.http")
        found[f"data/{number}.http"] = b"".join(calls)
    for token in CELLS:
        words.append(f"cell:{token}")
        printed += searched(airspace, token)
    found |= {"args": "".join(f"{it}\n" for it in words).encode(), "stdout": printed}
    found = {f"test_sql_memory/{name}": content for name, content in found.items()}
    return found | {"test_sql_files/stdout": three_runs()}


def as_drawn():
    """The crates' files are those that this module makes."""
    return [
        f"crates/{name} is not what is drawn: run tests/draw_tables"
        for name, content in files().items()
        if not (FOLDER / name).is_file() or (FOLDER / name).read_bytes() != content
    ]


def write():
    """Writes the files of the crates."""
    for name, content in files().items():
        (FOLDER / name).parent.mkdir(parents=True, exist_ok=True)
        (FOLDER / name).write_bytes(content)


CASES = {"tables-in-memory-as-drawn": as_drawn}
