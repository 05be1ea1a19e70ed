"""Callers: USSs with tokens of a file, or of a command that makes them."""
import dataclasses
import subprocess
import tomllib

STRATEGIC, MONITORING = "utm.strategic_coordination", "utm.conformance_monitoring_sa"
PROCESSING, MANAGEMENT = "utm.constraint_processing", "utm.constraint_management"
ARBITRATION = "utm.availability_arbitration"
KNOWN = {STRATEGIC, MONITORING, PROCESSING, MANAGEMENT, ARBITRATION}
# Seconds in which a command must print a token, on a busy machine too.
PATIENCE = 600

# The required callers: a name, the USS (0 and 1 are two that conflict, None any), and the exact scopes.
ROLES = {
    "A": (0, {STRATEGIC}),
    "A monitoring": (0, {STRATEGIC, MONITORING}),
    "B": (1, {STRATEGIC}),
    "B monitoring": (1, {MONITORING}),
    "B processing": (1, {STRATEGIC, PROCESSING}),
    "constraint manager": (None, {MANAGEMENT}),
    "arbiter": (None, {ARBITRATION}),
    "none": (None, set()),
}


class Lacking(Exception):
    """The error that required tokens are missing."""


@dataclasses.dataclass(frozen=True)
class Caller:
    name: str
    uss: str
    scopes: frozenset
    token: str


def read_tokens(file):
    """Returns the callers, by their names, with the tokens of a file in the service's format."""
    try:
        with open(file, "rb") as it:
            rows = tomllib.load(it).get("token", [])
        tokens = {(it["uss"], frozenset(it["scopes"]) & KNOWN): it["text"] for it in reversed(rows)}
    except (OSError, ValueError, TypeError, KeyError, AttributeError) as fault:
        raise Lacking(f"{file}: no token file: {fault}") from fault
    suppliers = sorted({uss for uss, _ in tokens})

    def token_of(which, scopes, pair):
        found = [it for it in ([pair[which]] if which is not None else suppliers) if (it, frozenset(scopes)) in tokens]
        return (found[0], tokens[found[0], frozenset(scopes)]) if found else None

    best = None
    for pair in ((a, b) for a in suppliers for b in suppliers if a != b):
        found = {name: token_of(which, scopes, pair) for name, (which, scopes) in ROLES.items()}
        lacking = [name for name, it in found.items() if it is None]
        if not lacking:
            return {name: Caller(name, uss, frozenset(ROLES[name][1]), text) for name, (uss, text) in found.items()}
        best = lacking if best is None or len(lacking) < len(best) else best
    raise Lacking(f"{file}: lacks tokens: {', '.join(said_of(it) for it in best or ROLES)}")


def said_of(name):
    which, scopes = ROLES[name]
    of = "any USS" if which is None else "one USS" if which == 0 else "another USS"
    return f"of {of} with exactly the scopes {' '.join(sorted(scopes)) or 'none'}"


def mint_tokens(command, suppliers):
    """Returns the callers, by their names, with tokens that a command prints. Its arguments are a USS and scopes in one
    text."""
    callers = {}
    for name, (which, scopes) in ROLES.items():
        if scopes:
            uss = suppliers[which if which is not None else {"constraint manager": 2, "arbiter": 3}[name] % len(suppliers)]
            callers[name] = Caller(name, uss, frozenset(scopes), minted(command, uss, scopes))
    return callers


def minted(command, uss, scopes):
    try:
        done = subprocess.run([*command, uss, " ".join(sorted(scopes))], capture_output=True, text=True, timeout=PATIENCE)
    except (OSError, subprocess.TimeoutExpired) as fault:
        raise Lacking(f"{command[0]}: gives no token: {fault}") from fault
    if done.returncode or len(done.stdout.split()) != 1:
        raise Lacking(f"{command[0]}: gives no token of {uss} for {' '.join(sorted(scopes))}: {done.stderr.strip()[:300]}")
    return done.stdout.strip()
