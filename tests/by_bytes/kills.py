"""Kills the program in the middle of its changes.

Acknowledged changes are in the database. The change in progress is there as a whole or not at all."""
import contextlib
import pathlib
import shutil
import sqlite3
import threading
import time

import drawn_calls
import lengths
import plain_policy
import wire
from program import first_difference
from serving import Service

ROUNDS = lengths.of(60, 200)
CALLS = 60
SEED = 11
# The service uses the machine's clock, so all drawn times are around a time far ahead of it.
AHEAD = 4_000_000_000


class Asked:
    """Drawn calls with the plain policy's responses, and the serial before each and after the last."""

    def __init__(self, seed):
        self.draw = drawn_calls.Draw(seed)
        airspace = plain_policy.Airspace(int(time.time()), drawn_calls.ALL_TOKENS)
        drawn = drawn_calls.Drawn(self.draw, airspace, AHEAD)
        self.requests, self.answers, self.serials = [], [], [0]
        for _ in range(CALLS):
            call = drawn.call()
            self.requests.append(wire.request(*call))
            self.answers.append(airspace.ask(*call).text())
            self.serials.append(airspace.serial)


def killed(service, requests, seen, wait):
    """Returns the responses of a service that is killed a while after that many bytes of them arrived."""
    output = b""
    with service.connect() as connection:

        def send():
            with contextlib.suppress(OSError):
                connection.sendall(b"".join(requests))

        sender = threading.Thread(target=send)
        sender.start()
        while len(output) < seen and (chunk := connection.recv(1 << 16)):
            output += chunk
        time.sleep(wait)
        service.kill()
        sender.join()
        # Bytes that arrived before the reset count.
        with contextlib.suppress(ConnectionResetError):
            while chunk := connection.recv(1 << 16):
                output += chunk
    return wire.answers_of(output)


def serial_in(folder):
    """Returns what SQLite finds wrong with a copy of a database, and its serial."""
    copied = pathlib.Path(folder, "copied")
    shutil.copytree(folder, copied, ignore=shutil.ignore_patterns("copied"))
    with sqlite3.connect(copied / "dss.db") as database:
        wrong = database.execute("PRAGMA integrity_check").fetchall() + database.execute("PRAGMA foreign_key_check").fetchall()
        serial = database.execute("SELECT serial FROM meta").fetchone()
    database.close()
    shutil.rmtree(copied)
    return [it for it in wrong if it != ("ok",)], serial[0]


def one(seed):
    """Returns what is wrong after one kill, and how many calls were answered before it."""
    asked = Asked(seed)
    with Service(drawn_calls.ALL_TOKENS) as service:
        seen, wait = asked.draw.below(sum(map(len, asked.answers))), asked.draw.below(40) / 10_000
        got = killed(service, asked.requests, seen, wait)
        count = len(got)
        why = first_difference(asked.answers[:count], got)
        if why:
            return [f"seed {seed}, before the kill: {why}"], count
        wrong, serial = serial_in(service.folder)
        # More calls may have been executed whose responses did not arrive.
        done = [it for it in range(count, CALLS + 1) if asked.serials[it] == serial]
        if wrong or not done:
            return [f"seed {seed}: {count} answers, serial {serial}, {wrong}"], count
        service.start()
        why = first_difference(asked.answers[done[0] :], service.ask(asked.requests[done[0] :]))
        if why:
            return [f"seed {seed}, after {count} answers: {why}"], count
    return [], count


def rounds(many=ROUNDS, seed=SEED):
    found, kills, between = [], 0, 0
    # On a busy machine many kills come after the last call, so there are more of them.
    while kills < many or 2 * between < many and kills < 5 * many:
        wrong, count = one(seed + kills)
        found += wrong
        kills, between = kills + 1, between + (0 < count < CALLS)
    print(f"{kills} kills, {between} of them between the first response and the last")
    return found + ([f"only {between} kills in {kills} fell among the calls"] if 2 * between < many else [])


CASES = {"killed-among-changes": rounds}
