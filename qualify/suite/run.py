"""A run of the checks over a service: its URLs, its place, the result of each check, and its cleanup."""
import dataclasses
import random
import time
import traceback

from suite import checks
from suite.check import CHECKS
from suite.trial import CONSTRAINTS, INTENTS, SUBSCRIPTIONS, Broken, Knowledge, Skipped, Trial
from suite.wire import Client, OutOfBounds, Pace

# How many places are tried before the run fails.
MAX_HOMES = 20
# Why a check that was interrupted does not hold.
INTERRUPTED = "interrupted"


class NoPlace(Exception):
    """The error that no empty place exists, or that the service does not answer the search."""


@dataclasses.dataclass(frozen=True)
class Pair:
    """The clients of a pair of URLs. Changes go to the writer, reads to the reader."""

    writer: object
    reader: object
    # Changes that are sent at once go to these in turn.
    writers: tuple

    def __str__(self):
        return f"writes at {self.writer.url}, reads at {self.reader.url}"


def pairs_of(urls, writes_at_each):
    """Returns the pairs of a URL for changes, the first one or each, and another one for reads. If there is only one URL,
    it is for both."""
    writers = urls if writes_at_each else urls[:1]
    return [(one, other) for one in writers for other in urls if other != one] or [(urls[0], urls[0])]


@dataclasses.dataclass
class Result:
    check: object
    pair: Pair
    exchanges: list
    # What does not hold, or None.
    why: str
    left: list
    seconds: float
    # Why the check was skipped, or None.
    skipped: str = None

    @property
    def failed(self):
        """Returns the last exchange with an expectation that does not hold, or None."""
        return next((it for it in reversed(self.exchanges) if any(not holds for _, holds in it.expected)), None)


def chosen(dialect, names=()):
    """Returns the checks of a dialect, or the named ones, in their order."""
    groups = [it.__name__.rpartition(".")[2] for it in checks.GROUPS]
    fitting = [it for it in CHECKS if it.only in (None, dialect.name) and (not names or it.name in names or it.group in names)]
    return sorted(fitting, key=lambda it: groups.index(it.group))


class Run:
    """One run, by a seed. The limits are those of each pair of URLs, added up."""

    def __init__(self, urls, callers, dialect, seed, rate=50, max_requests=4000, max_seconds=600, ca=None, writes_at_each=False):
        pairs = pairs_of(urls, writes_at_each)
        self.pace = Pace(rate, max_requests * len(pairs), max_seconds * len(pairs))
        self.clients = {it: Client(it, self.pace, ca) for it in urls}
        both = ([self.clients[it] for it in pair] for pair in pairs)
        self.pairs = [Pair(*it, tuple(it if writes_at_each else it[:1])) for it in both]
        self.urls, self.callers, self.dialect, self.seed = urls, callers, dialect, seed
        self.knowledge, self.draw = Knowledge(), random.Random(f"run {seed}")
        self.home, self.places, self.used = None, [], 0
        self.began = time.time()

    def site(self):
        """Returns a place that this check has not used yet."""
        self.used += 1
        return self.places[(self.used - 1) % len(self.places)]

    def settle(self):
        """Finds a place that is empty at each URL."""
        homes = self.dialect.homes(self.seed)
        for _ in range(MAX_HOMES):
            home = next(homes)
            if all(self.is_empty(home, client) for client in self.clients.values()):
                self.home, self.places = home, self.dialect.sites(home, self.seed)
                return
        raise NoPlace(f"none of {MAX_HOMES} places by the seed {self.seed} is empty; use another --seed")

    def is_empty(self, home, client):
        """Returns whether the response of one URL is that a place is empty."""
        trial, area = Trial(self, Pair(client, client, (client,))), self.dialect.everywhere(home)
        # Forms of responses are tested by the checks.
        trial.is_watched = False
        asked = [(trial.a, INTENTS), (trial.b_processing, CONSTRAINTS), (trial.a, SUBSCRIPTIONS), (trial.b, SUBSCRIPTIONS)]
        try:
            answers = [supplier.query(kind, area=area).must(200) for supplier, kind in asked]
            return all(answer.ids == [] for answer in answers)
        except (Broken, OutOfBounds, TypeError, KeyError) as fault:
            last = trial.exchanges[-1] if trial.exchanges else None
            at = f" at {last.url}" if last and len(self.urls) > 1 else ""
            came = f": response to {last.method} {last.path}{at}: {last.status} {' '.join(last.text.split())[:300]}" if last else ""
            raise NoPlace(f"the search for an empty place failed: expected {fault}{came}") from fault

    def results(self, chosen):
        """Yields the result of each check for each pair of URLs, when it is done. An interrupted one is the last."""
        for pair, check in ((pair, check) for pair in self.pairs for check in chosen):
            result = self.result(check, pair)
            yield result
            if result.why == INTERRUPTED:
                break
        for it in self.clients.values():
            it.close()

    def result(self, check, pair):
        began, trial = time.monotonic(), Trial(self, pair)
        why, skipped = None, None
        try:
            why = broken_in(check, trial)
        except Skipped as reason:
            skipped = str(reason)
        except KeyboardInterrupt:
            why = INTERRUPTED
        left = trial.clean()
        if left and not why:
            why = f"left behind, as it could not be deleted: {', '.join(left)}"
        self.hide_tokens(trial.exchanges)
        return Result(check, pair, trial.exchanges, why, left, time.monotonic() - began, None if why else skipped)

    def hide_tokens(self, exchanges):
        """Redacts tokens in the exchanges that are shown."""
        for text in sorted({it.token for it in self.callers.values()}, key=len, reverse=True):
            for it in exchanges:
                it.text = it.text.replace(text, "(a token)")
                if isinstance(it.body, str):
                    it.body = it.body.replace(text, "(a token)")


def broken_in(check, trial):
    """Returns what does not hold, or None. Raises `Skipped` if the service need not have what the check tests."""
    try:
        check.body(trial)
    except (Broken, OutOfBounds) as fault:
        return str(fault) or "it does not hold"
    except Skipped:
        raise
    except Exception as fault:
        # A body of another form than the check expects.
        where = traceback.extract_tb(fault.__traceback__)[-1]
        return f"a readable response ({type(fault).__name__}: {fault}, {where.name})"
    return None
