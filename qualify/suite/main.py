"""The command line of the suite."""
import argparse
import pathlib
import secrets
import shlex
import signal
import sys
import time

from suite import report
from suite.callers import Lacking, mint_tokens, read_tokens
from suite.check import CHECKS
from suite.dialect import Profile, Standard
from suite.run import NoPlace, Run, chosen

EPILOG = """
The suite puts intents, constraints and subscriptions of its own far out in the South Pacific, in a place that it first finds empty, and
deletes them. It sets the availability of one of its USSs, and resets it. For a service of the standard it needs tokens of at least two
USSs. With several --url it tests instances that have one state. Changes go to the first URL, and reads to another one: each check runs
for each other URL. With --write-at-each changes go to each URL in turn, and each check runs for each pair of two URLs. Exit status: 0 if
all checks held, 1 if a check broke, 2 if the run could not begin.
"""


def arguments(words):
    parser = argparse.ArgumentParser(
        "qualify/run", description="Tests a discovery and synchronization service against the rules of this interface, or of the standard's.",
        epilog=EPILOG)
    parser.add_argument("--url", action="append", help="base URL of the service, without /dss/v1: http://127.0.0.1:8080; repeat it for "
                        "each further instance that must show the same state")
    parser.add_argument("--write-at-each", action="store_true", help="send changes to each URL in turn [default: to the first]")
    parser.add_argument("--tokens", metavar="FILE", help="file with tokens of its USSs, in the format of the service's token file")
    parser.add_argument("--standard", action="store_true", help="test the DSS interface of ASTM F3548-21 instead of the profile")
    parser.add_argument("--mint", metavar="COMMAND", help="command that prints a token, called with two more arguments: a USS and its scopes")
    parser.add_argument("--suppliers", default="uss-a,uss-b,uss-c,uss-v", help="USSs to request tokens for: two in conflict, one that "
                        "manages constraints, one that sets availabilities [default: %(default)s]")
    parser.add_argument("--behind-proxy", action="store_true", help="skip the checks of paths, methods and connections, because a proxy in front of the "
                        "service has its own rules")
    parser.add_argument("--seed", help="seed of the place and of all drawn values [default: a new one in each run]")
    parser.add_argument("--rate", type=float, default=50, metavar="N", help="max requests a second [default: %(default)s]")
    parser.add_argument("--requests", type=int, default=4000, metavar="N", help="max requests, times the pairs of URLs [default: %(default)s]")
    parser.add_argument("--seconds", type=float, default=600, metavar="N", help="max seconds before the last check begins, times the pairs of "
                        "URLs [default: %(default)s]")
    parser.add_argument("--ca", metavar="FILE", help="CA certificates of the service, if the machine does not trust them")
    parser.add_argument("--result", default="qualify-result", metavar="DIR",
                        help="directory for result.html and result.xml [default: %(default)s]")
    parser.add_argument("--list", action="store_true", help="list the checks and send no request")
    parser.add_argument("names", nargs="*", metavar="CHECK", help="checks or groups to run [default: all]")
    given = parser.parse_args(words)
    if given.list:
        return given
    if not given.url or not (given.mint if given.standard else given.tokens):
        parser.error("--url and " + ("--mint are" if given.standard else "--tokens are") + " required")
    if len(set(given.url)) < len(given.url):
        parser.error("--url: the same URL twice")
    if given.write_at_each and len(given.url) < 2:
        parser.error("--write-at-each: at least two --url are required")
    if given.rate <= 0 or given.requests < 1 or given.seconds <= 0:
        parser.error("--rate, --requests and --seconds must be above 0")
    unknown = [it for it in given.names if not any(it in (check.name, check.group) for check in CHECKS)]
    if unknown:
        parser.error(f"no such check: {' '.join(unknown)}; --list prints their names")
    return given


def callers_of(given):
    if given.standard:
        suppliers = [it for it in given.suppliers.split(",") if it]
        if len(set(suppliers)) < 2:
            raise Lacking("--suppliers: at least two USSs are required")
        return mint_tokens(shlex.split(given.mint), suppliers)
    return read_tokens(given.tokens)


def main(words):
    given = arguments(words)
    dialect = (Standard if given.standard else Profile)(int(time.time()))
    checks = [it for it in chosen(dialect, given.names) if not (given.behind_proxy and it.group == "connections")]
    if given.list:
        for check in checks:
            print(f"{check.group} {check.name}: {check.sentence}. ({report.sources(check, given.standard)})")
        return 0
    # On SIGTERM it cleans up as after an interrupt.
    signal.signal(signal.SIGTERM, signal.default_int_handler)
    try:
        bounds = given.rate, given.requests, given.seconds
        run = Run(given.url, callers_of(given), dialect, given.seed or secrets.token_hex(4), *bounds, given.ca, given.write_at_each)
        run.settle()
    except (Lacking, NoPlace, ValueError, OSError) as fault:
        print(f"qualify: {fault}", file=sys.stderr)
        return 2
    except KeyboardInterrupt:
        print("qualify: interrupted before the first put", file=sys.stderr)
        return 2
    results = []
    for result in run.results(checks):
        results.append(result)
        if result.why is not None:
            at = f" [{report.place_of(result)}]" if len(run.urls) > 1 else ""
            print(f"qualify: BROKEN {result.check.name}: {result.check.sentence}. Expected: {result.why} "
                  f"({report.sources(result.check, given.standard)}){at}", flush=True)
        if result.skipped is not None:
            print(f"qualify: skipped {result.check.name}: {result.skipped}", flush=True)
    return told(given, run, results)


def told(given, run, results):
    """Writes the results, and returns whether all checks held."""
    folder = pathlib.Path(given.result)
    try:
        folder.mkdir(parents=True, exist_ok=True)
        (folder / "result.html").write_text(report.page(run, results), encoding="utf-8", errors="replace")
        (folder / "result.xml").write_bytes(report.junit(run, results))
    except OSError as fault:
        print(f"qualify: {fault}", file=sys.stderr)
        return 2
    for pair in run.pairs if len(run.urls) > 1 else ():
        print(f"qualify: {pair}: {report.counts([it for it in results if it.pair is pair])}")
    print(f"qualify: seed {run.seed}, {run.pace.sent} requests, {folder}/result.html, {folder}/result.xml")
    print(report.counts(results))
    return 1 if any(it.why is not None for it in results) or not results else 0
