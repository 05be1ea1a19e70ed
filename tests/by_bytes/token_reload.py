"""The token file changes while `serve` runs, and applies to all later calls.

If it is wrong, the previous one stays active."""
import contextlib
import os
import time

import plain_policy
import wire
from devices import Page, library
from figures import FullAndVerbose
from lateness import again, exceeded
from program import BUILT, SECONDS, run
from serving import Service
from sockets import difference

# The seconds within which a change takes effect: `serve` checks the file each second. A busy machine may need more.
SEEN, LOOKS, BUSY = 2.0, 1.1, 10.0
NEW = {"tok-new": ("uss-new", {wire.ARBITRATION})}
MORE = wire.TOKENS | NEW
FEWER = {text: it for text, it in MORE.items() if text != "tok-v"}
UNREAD, OTHER_SALT, MEMORY = b"dss: tokens: cannot read\n", b"dss: tokens: not reloaded: the salt changed; restart to apply it\n", b"dss: memory\n"
# Memory allocations, one of which is refused while a changed file is read, and more than such a read makes.
REFUSED, ALL = (1, 2, 5, 12, 30), 1_000_000


def setting(airspace, token, uss):
    """Returns a call that sets an availability, and applies it to the airspace."""
    body = {"old_version": airspace.setting(uss)[1], "availability": "Normal"}
    return "PUT", f"{wire.AVAILABILITY}/{uss}", f"Bearer {token}", wire.compact(body).encode()


class Changing(Service):
    """A service whose token file changes, and a connection that stays open."""

    def __enter__(self):
        super().__enter__()
        self.airspace, self.told = plain_policy.Airspace(0), b""
        self.kept = self.opened()
        return self

    def __exit__(self, *stopped):
        self.kept.close()
        super().__exit__(*stopped)

    def opened(self):
        """Returns a connection with a first response, so that it can be idle for a minute."""
        connection = self.connect()
        self.answer_to(connection, ("GET", f"{wire.AVAILABILITY}/uss-none", "Bearer tok-a", None))
        return connection

    def write(self, text):
        """Replaces the token file atomically by one with that text."""
        anew = self.folder / "anew"
        anew.write_bytes(text if isinstance(text, bytes) else text.encode())
        os.replace(anew, self.folder / "tokens.toml")

    def answer_to(self, connection, call):
        connection.sendall(wire.request(*call))
        came = b""
        while not (answers := wire.answers_of(came)):
            chunk = connection.recv(1 << 16)
            if not chunk:
                return came
            came += chunk
        return answers[0]

    def checked(self, what, tokens):
        """Returns what is wrong with calls on the open connection and on new ones, by a table of tokens."""
        self.airspace.tokens, found = tokens, []
        for token in sorted(MORE):
            for new in False, True:
                call = setting(self.airspace, token, f"uss-{token}")
                wanted = self.airspace.ask(*call).text()
                with self.connect() if new else contextlib.nullcontext(self.kept) as connection:
                    found += difference(f"{what}, {token}", self.answer_to(connection, call), wanted)
        self.kept.close()
        self.kept = self.opened()
        return found

    def lines(self):
        """Returns the lines on standard error after the one that says that it listens."""
        return (self.folder / "errors").read_bytes()[len(self.listening) :]

    def tells(self, what, lines):
        """Returns what is wrong with its lines, within the time in which a change takes effect."""
        began = time.monotonic()
        while self.lines() != self.told + lines and time.monotonic() < began + SECONDS:
            time.sleep(0.01)
        found = exceeded(time.monotonic() - began, SEEN, f"{what}: its lines")
        # The next check of the file prints nothing more.
        time.sleep(LOOKS)
        self.told += lines
        return difference(f"{what}: what it tells", self.lines(), self.told) + found

    def takes(self, tokens):
        """Waits until a token of a written file is accepted or denied. Returns whether that took long."""
        began = time.monotonic()
        probe = next(it for it in ("tok-new", "tok-v") if (it in tokens) != (it in self.airspace.tokens))
        self.airspace.tokens = tokens
        call = "GET", f"{wire.AVAILABILITY}/uss-none", f"Bearer {probe}", None
        wanted = self.airspace.ask(*call).text()
        while self.answer_to(self.kept, call) != wanted:
            took = time.monotonic() - began
            if took > SECONDS:
                return [f"{probe} is not as in the file after {SECONDS} seconds"]
            # A connection answers a hundred requests.
            time.sleep(0.05 if took < SEEN else SECONDS / 20)
        return exceeded(time.monotonic() - began, SEEN, f"{probe} as in the file")


def added_and_removed():
    """A token works within two seconds after it was added to the file, and is denied once it was removed, on an open
    connection as well."""
    with Changing() as service:
        found = service.checked("as it started", wire.TOKENS)
        for what, tokens in ("one more", MORE), ("one less", FEWER), ("all again", wire.TOKENS | NEW):
            service.write(wire.token_file(tokens))
            found += service.takes(tokens)
            found += service.checked(what, tokens)
        return found + service.tells("good files", b"")


def without_clients():
    """The file is checked even if no client is connected, and it applies to the first call afterwards."""
    with Changing() as service:
        service.kept.close()
        service.write(wire.token_file(FEWER, "other"))
        found = service.tells("another salt", OTHER_SALT)
        service.write(wire.token_file(FEWER))
        time.sleep(BUSY)
        service.kept = service.connect()
        return found + service.checked("a first call", FEWER)


def wrong_files():
    """A wrong file, or one with another salt, changes nothing, and is reported once. After a good file it is reported
    again."""
    good, files = wire.token_file(FEWER), (
        ("no TOML", "salt = demo\n", b"dss: tokens: fault 1 Toml\n"),
        ("no salt", "", b"dss: tokens: fault 2 Salt\n"),
        ("no text", wire.token_file(FEWER) + "\n[[token]]\n", b"dss: tokens: fault 3 Token\n"),
        ("another salt", wire.token_file(FEWER, "demo2"), OTHER_SALT),
        ("the salt in other letters", wire.token_file(FEWER, "Demo"), OTHER_SALT),
        ("no UTF-8", wire.token_file(FEWER).encode() + b"# \xff\n", UNREAD),
        ("a text twice", wire.token_file(FEWER) + wire.token_file(FEWER)[len('salt = "demo"\n') :], b"dss: tokens: fault 6 Repeated\n"),
    )
    found = []
    with Changing() as service:
        for what, text, line in files:
            service.write(text)
            found += service.tells(what, line)
        found += service.checked("after wrong files", wire.TOKENS)
        service.write(good)
        found += service.takes(FEWER)
        found += service.checked("after a good one", FEWER)
        service.write(files[0][1])
        found += service.tells("a wrong one again", files[0][2])
        return found + service.checked("after a wrong one again", FEWER)


def gone_and_back():
    """A file that is missing at one check is not reported. One that stays missing is reported once. The tokens stay
    active."""
    with Changing() as service:
        name, away = service.folder / "tokens.toml", service.folder / "away"
        began = time.monotonic()
        name.rename(away)
        time.sleep(0.2)
        away.rename(name)
        # Two checks are a second apart.
        if found := exceeded(time.monotonic() - began, 0.9, "missing at one check"):
            return found
        found = service.tells("missing at one check", b"")
        name.rename(away)
        time.sleep(LOOKS)
        found += service.tells("gone", UNREAD)
        found += service.checked("while it is gone", wire.TOKENS)
        away.rename(name)
        found += service.tells("back", b"")
        found += service.checked("once it is back", wire.TOKENS)
        service.write(wire.token_file(FEWER))
        return found + service.takes(FEWER) + service.checked("another", FEWER)


def without_memory():
    """If memory runs out for a changed file, the previous tokens stay active and it is reported once. The file is
    loaded once memory suffices."""
    found = []
    with Changing() as service:
        service.kill()
        page = Page(service.folder)
        service.environment |= page.environment(library("refuse_memory", service.folder))
        service.start()
        for at in REFUSED + (ALL,):
            service.kept.close()
            # No allocation is then one for a client.
            time.sleep(LOOKS)
            tokens = FEWER if service.airspace.tokens == wire.TOKENS else wire.TOKENS
            with service.paused():
                page.set(at=1 if at == ALL else at, row=ALL if at == ALL else 1)
                service.write(wire.token_file(tokens))
            found += service.tells(f"allocation {at}", MEMORY)
            page.set()
            service.kept = service.opened()
            found += service.takes(tokens)
            found += service.checked(f"after allocation {at}", tokens)
        return found


class ChangingAndVerbose(Changing):
    """The same with --verbose."""

    options = ("--verbose",)
    preface = FullAndVerbose.preface


def wrong_files_in_words():
    """With --verbose, the lines of `tokens --check` follow that of a wrong file."""
    found = []
    with ChangingAndVerbose() as service:
        for what, text, line in (
            ("no TOML", "salt = demo\n", b"dss: tokens: fault 1 Toml\n"),
            ("no text", wire.token_file(FEWER) + "\n[[token]]\n", b"dss: tokens: fault 3 Token\n"),
        ):
            service.write(text)
            status, lines, error = run([BUILT, "tokens", "--check", f"{service.folder}/tokens.toml"])
            found += difference(f"{what}: the check", (status, lines != b"", error), (1, True, line))
            found += service.tells(what, line + lines)
    return found


CASES = {
    "tokens-added-and-removed-while-it-serves": again(added_and_removed),
    "tokens-changed-while-nobody-is-connected": again(without_clients),
    "tokens-wrong-while-it-serves": again(wrong_files),
    "tokens-missing-while-it-serves": again(gone_and_back),
    "tokens-changed-without-memory": again(without_memory),
    "tokens-wrong-files-in-words": again(wrong_files_in_words),
}
