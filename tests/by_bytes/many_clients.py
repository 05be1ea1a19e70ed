"""Many clients of `serve` at once each get the responses to their own requests.

Neither the chunks in which their bytes arrive nor the other clients change that."""
import contextlib
import copy
import random
import resource
import socket
import struct
import tempfile
import time

import drawn_calls
import lengths
import plain_policy
import wire
from connections import HEADS
from devices import library
from program import SECONDS
from served_calls import AHEAD
from serving import Service, until_closed
from sockets import ANSWER, ASKED, CLOSING, LAST, difference

# Rounds of calls that are sent at once.
SEED, ROUNDS = 51, lengths.of(30, 90)
FAULTS = {b"dss: stream: fault 1 Read", b"dss: stream: fault 2 Write", b""}


def raised_limit():
    """Gives this program, and those that it starts, as many descriptors as the system allows."""
    soft, hard = resource.getrlimit(resource.RLIMIT_NOFILE)
    resource.setrlimit(resource.RLIMIT_NOFILE, (hard, hard))
    return hard


def reset(connection):
    """Closes a connection with a reset."""
    connection.setsockopt(socket.SOL_SOCKET, socket.SO_LINGER, struct.pack("ii", 1, 0))
    connection.close()


def answers_from(connection, count):
    """Returns that many responses of a connection that stays open."""
    came = b""
    while len(wire.answers_of(came)) < count and (chunk := connection.recv(1 << 16)):
        came += chunk
    return came


def in_chunks(draw, stream):
    """Cuts the stream at drawn positions."""
    most = min(len(stream) - 1, draw.choice((1, 5, 40)))
    cuts = sorted(draw.sample(range(1, len(stream)), most)) if len(stream) > 1 else []
    return [stream[at:to] for at, to in zip([0, *cuts], [*cuts, len(stream)])]


def cut_among_others():
    """Connections that break all protocol rules run at once, in chunks whose order among those of the others is drawn.
    Each connection gets the responses to its own bytes."""
    draw, found = random.Random(SEED), []
    table = [*HEADS, ("a hundred", ASKED * 99 + CLOSING, ANSWER * 99 + LAST), ("a hundred and one", ASKED * 101, ANSWER * 99 + LAST)]
    with Service() as started:
        for turn in range(6):
            open_ones = [(name, started.connect(), in_chunks(draw, stream), wanted) for name, stream, wanted in table]
            left = [(connection, chunks) for _, connection, chunks, _ in open_ones]
            while left:
                at = draw.randrange(len(left))
                connection, chunks = left[at]
                try:
                    if chunks:
                        connection.sendall(chunks.pop(0))
                    if not chunks:
                        connection.shutdown(socket.SHUT_WR)
                except OSError:
                    # The service has answered, and closed the connection.
                    chunks.clear()
                if not chunks:
                    left.pop(at)
            for name, connection, _, wanted in open_ones:
                with connection:
                    found += difference(f"turn {turn}, {name}", until_closed(connection), wanted)
        started.kill()
    return found


def reset_anywhere():
    """Connections that are reset at each position of a request, and of a response, take no slot and no response from
    others."""
    with Service() as started:
        for _ in range(6):
            for at in range(0, len(ASKED) + 1):
                connection = started.connect()
                connection.sendall(ASKED[:at])
                reset(connection)
        whole = ANSWER * 50
        for at in range(0, len(whole), len(whole) // 120):
            connection = started.connect()
            connection.sendall(ASKED * 50)
            while at > 0 and (chunk := connection.recv(at)):
                at -= len(chunk)
            reset(connection)
        found = difference("the next", started.exchange(CLOSING, ends=False), LAST)
        lines = set((started.folder / "errors").read_bytes().removeprefix(started.listening).split(b"\n"))
        return found + difference("other lines", lines - FAULTS, set())


def dropped():
    """The request of a client that was reset before its turn has no effect, whether the client was served before or is
    new."""
    body = b'{"old_version":"","availability":"Down"}'
    setting = wire.request("PUT", f"{wire.AVAILABILITY}/uss-b", "Bearer tok-v", body)
    with Service() as started:
        found = []
        for is_known in True, False:
            connection = started.connect()
            if is_known:
                connection.sendall(ASKED)
                found += difference("known", answers_from(connection, 1), ANSWER)
            # Once another client has its response, the service has executed the requests so far, and waits.
            found += difference("another", started.exchange(CLOSING, ends=False), LAST)
            # While it is stopped, clients send and reset. It learns of both at once.
            with started.paused():
                connection.sendall(setting)
                reset(connection)
            found += difference("the setting was not made", started.exchange(CLOSING, ends=False), LAST)
        wanted = started.listening + 2 * b"dss: stream: fault 1 Read\n"
        return found + difference("standard error", (started.folder / "errors").read_bytes(), wanted)


def two_thousand():
    """Two thousand connections at once: a thousand are served, the others wait, and all get responses."""
    if raised_limit() < 4_500:
        return []
    with Service() as started:
        all_ = []
        for _ in range(2_000):
            # A client that sends nothing is closed after ten seconds.
            all_.append(started.connect())
            all_[-1].sendall(ASKED)
        found = []
        for at, connection in enumerate(all_):
            with connection:
                found += difference(f"connection {at}", answers_from(connection, 1), ANSWER)
        found += difference("the next", started.exchange(CLOSING, ends=False), LAST)
        return found + difference("standard error", (started.folder / "errors").read_bytes(), started.listening)


class Narrow(Service):
    """A service with at most 64 descriptors."""

    def command(self):
        return ["prlimit", "--nofile=64", *super().command()]


def few_descriptors():
    """If the system has no descriptors for more connections, the open ones are served, and the others wait."""
    with Narrow() as started:
        all_ = [started.connect() for _ in range(100)]
        for connection in all_:
            connection.sendall(ASKED)
        found, served = [], 32
        for at, connection in enumerate(all_[:served]):
            found += difference(f"connection {at}", answers_from(connection, 1), ANSWER)
        all_[served].settimeout(0.5)
        with contextlib.suppress(TimeoutError):
            found += [f"one more was served at once: {all_[served].recv(1 << 16)!r}"]
        all_[served].settimeout(SECONDS)
        for connection in all_[:served]:
            connection.close()
        for at, connection in enumerate(all_[served:], served):
            with connection:
                found += difference(f"connection {at}, later", answers_from(connection, 1), ANSWER)
        return found + difference("standard error", (started.folder / "errors").read_bytes(), started.listening)


def settings(supplier, versions):
    """Returns changes of a USS's availability, each with the version before it."""
    for at, version in enumerate(versions):
        body = wire.compact({"old_version": version, "availability": ("Down", "Normal")[at % 2]}).encode()
        yield wire.request("PUT", f"{wire.AVAILABILITY}/{supplier}", "Bearer tok-v", body)


def pipelined_beside_one():
    """A client that sends all its requests at once gets as many turns as another one. Of two clients, the one with a
    single request does not wait for all requests of the other."""
    with Service() as started:
        found = []
        with started.connect() as many, started.connect() as one:
            # The service knows both.
            for connection in many, one:
                connection.sendall(ASKED)
                found += difference("first", answers_from(connection, 1), ANSWER)
            with started.paused():
                many.sendall(b"".join(settings("uss-b", ["", *(wire.ovn(at) for at in range(1, 98))])))
                one.sendall(b"".join(settings("uss-a", [""])))
            answer = answers_from(one, 1)
            serial = next((at for at in range(1, 100) if wire.ovn(at).encode() in answer), 0)
            found += [] if 1 <= serial <= 60 else [f"the single request came after {serial - 1} others: {answer!r}"]
            statuses = [it[:12] for it in wire.answers_of(answers_from(many, 98))]
            # The versions of the first client matched until the other's change took one of their serials.
            found += difference("all are answered", len(statuses), 98)
        return found


def half_closed():
    """A client that has closed its sending side gets all its responses."""
    with Service() as started:
        found = difference("ninety-nine", started.exchange(ASKED * 99), ANSWER * 99)
        found += difference("part of a request after them", started.exchange(ASKED * 5 + ASKED[:20]), ANSWER * 5)
        return found


def ends_with_the_last():
    """`--count` counts accepted connections: the program continues until the last of them is closed."""
    with Service(count=3) as started:
        with started.connect() as first, started.connect() as second:
            for connection in first, second:
                connection.sendall(ASKED)
            found = [it for each in (first, second) for it in difference("kept", answers_from(each, 1), ANSWER)]
            found += difference("the third", started.exchange(CLOSING, ends=False), LAST)
            time.sleep(0.5)
            found += [] if started.program.poll() is None else ["it ended with two connections open"]
            for connection in first, second:
                connection.sendall(CLOSING)
                found += difference("and still served", until_closed(connection), LAST)
        return found + difference("the service", started.ended(), (0, b"", started.listening))


def one_at_a_time():
    """With `--max-connections 1` the second connection is served when the first is closed."""
    with Service(count=2, clients=1) as started:
        with started.connect() as first, started.connect() as second:
            first.sendall(ASKED)
            found = difference("the first", answers_from(first, 1), ANSWER)
            second.sendall(CLOSING)
            second.settimeout(0.5)
            try:
                found += [f"the second was served beside it: {second.recv(1 << 16)!r}"]
            except TimeoutError:
                pass
            first.sendall(CLOSING)
            found += difference("the first, again", until_closed(first), LAST)
            second.settimeout(SECONDS)
            found += difference("the second", until_closed(second), LAST)
        return found + difference("the service", started.ended(), (0, b"", started.listening))


def large_bodies():
    """Two hundred clients each send almost a megabyte, and the service delays some of them. Each client gets its turn
    and its response, and the memory stays within its bound."""
    body = b'{"old_version":"none","availability":"Down","x":"' + b"x" * 1_000_000 + b'"}'
    sent = wire.request("PUT", f"{wire.AVAILABILITY}/uss-b", "Bearer tok-v", body, ["Connection: close"])
    # On a busy machine a request may take longer than its time limit.
    with tempfile.TemporaryDirectory() as room, Service(more={"LD_PRELOAD": library("slow_clock", room)}) as started:
        before = started.memory()
        all_ = []
        for _ in range(200):
            connection = started.connect()
            connection.setblocking(False)
            try:
                all_.append([connection, connection.send(sent[:900_000])])
            except BlockingIOError:
                all_.append([connection, 0])
        until = time.monotonic() + 2
        while time.monotonic() < until:
            for it in all_:
                try:
                    it[1] += it[0].send(sent[it[1] : 900_000]) if it[1] < 900_000 else 0
                except BlockingIOError:
                    pass
        grown = started.memory() - before
        found = [] if grown <= 160_000 else [f"it grew by {grown} kB"]
        wanted = {b"HTTP/1.1 409"}
        waiting = list(all_)
        answered = []
        until = time.monotonic() + SECONDS
        while waiting and time.monotonic() < until:
            for it in list(waiting):
                try:
                    it[1] += it[0].send(sent[it[1] :]) if it[1] < len(sent) else 0
                    if it[1] == len(sent):
                        answered.append(it[0].recv(1 << 16))
                        waiting.remove(it)
                except BlockingIOError:
                    pass
        for connection, _ in all_:
            connection.close()
        found += difference("all are answered", len(answered), 200)
        return found + difference("statuses", {it[:12] for it in answered}, wanted)


class Batch:
    """Calls that were made at once, and their responses: tells whether some order of the calls explains all responses."""

    def __init__(self, airspace, calls, answers):
        self.calls, self.answers = calls, answers
        self.order = self.explained(airspace, frozenset(range(len(calls))))

    def explained(self, airspace, left):
        """Returns the airspace after the remaining calls, in some order that explains each response; or None."""
        left = set(left)
        changes = []
        for at in sorted(left):
            after = copy.deepcopy(airspace)
            outcome = after.ask(*self.calls[at])
            if outcome.text() != self.answers[at]:
                continue
            if after.serial == airspace.serial:
                left.discard(at)
            else:
                changes.append((at, after))
        if not left:
            return airspace
        for at, after in changes:
            done = self.explained(after, left - {at})
            if done is not None:
                return done
        return None


def drawn_at_once():
    """24 clients on persistent connections send drawn calls at once, again and again. Some order of the calls of each
    batch explains each response by the plain policy."""
    now, clients, found = int(time.time()), 24, []
    airspace = plain_policy.Airspace(now, drawn_calls.ALL_TOKENS)
    draw = drawn_calls.Draw(SEED)
    # On a busy machine a client may be idle for more than a minute while the orders of calls are tried.
    with tempfile.TemporaryDirectory() as room, Service(drawn_calls.ALL_TOKENS, more={"LD_PRELOAD": library("slow_clock", room)}) as started:
        connections = [started.connect() for _ in range(clients)]
        for number in range(ROUNDS):
            drawn = drawn_calls.Drawn(draw, airspace, AHEAD)
            calls = [drawn.call() for _ in range(clients)]
            for connection, call in zip(connections, calls):
                connection.sendall(wire.request(*call))
            answers = [answers_from(connection, 1) for connection in connections]
            after = Batch(airspace, calls, answers).order
            if after is None:
                told = [(call, answer) for call, answer in zip(calls, answers)]
                return [f"round {number}: no order explains {told!r}"]
            airspace = after
        for connection in connections:
            connection.close()
    print(f"{ROUNDS * clients} calls at once, serial {airspace.serial}")
    return found


def drawn_in_turn():
    """Drawn calls of 32 clients on persistent connections, one after the other, get the responses of one list of calls."""
    airspace = plain_policy.Airspace(int(time.time()), drawn_calls.ALL_TOKENS)
    drawn = drawn_calls.Drawn(drawn_calls.Draw(SEED + 1), airspace, AHEAD)
    draw = random.Random(SEED)
    with Service(drawn_calls.ALL_TOKENS) as started:
        connections = [[started.connect(), 0] for _ in range(32)]
        for number in range(2_500):
            at = draw.randrange(32)
            if connections[at][1] == wire.MAX_REQUESTS:
                connections[at][0].close()
                connections[at] = [started.connect(), 0]
            connections[at][1] += 1
            call = drawn.call()
            connections[at][0].sendall(wire.request(*call))
            wanted = airspace.ask(*call).text(closes=connections[at][1] == wire.MAX_REQUESTS)
            got = answers_from(connections[at][0], 1)
            if got != wanted:
                return [f"call {number}: {call!r}: wanted {wanted!r}, got {got!r}"]
        for connection, _ in connections:
            connection.close()
    return []


CASES = {
    "many-cut-among-others": cut_among_others,
    "many-reset-anywhere": reset_anywhere,
    "many-reset-before-the-call": dropped,
    "many-two-thousand": two_thousand,
    "many-few-descriptors": few_descriptors,
    "many-pipelined-beside-one": pipelined_beside_one,
    "many-half-closed": half_closed,
    "many-count-ends-with-the-last": ends_with_the_last,
    "many-one-at-a-time": one_at_a_time,
    "many-large-bodies": large_bodies,
    "many-drawn-at-once": drawn_at_once,
    "many-drawn-in-turn": drawn_in_turn,
}
