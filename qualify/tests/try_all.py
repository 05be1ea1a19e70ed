"""Runs all cases; the last line is 'N passed, N failed'.

    try_all.py GATEWAY [CASE..]

JOBS cases run in parallel [default: one for each processor]."""
import concurrent.futures
import os
import pathlib
import signal
import sys
import time
import traceback

sys.path.insert(1, str(pathlib.Path(__file__).resolve().parents[1]))

import whole
from narrow_faults import FAULTS
from place import Before, Plain

# How many faults are tried over one service.
AT_ONCE = 8


def try_case(name, case, *given):
    """Returns the name, the seconds, and the fault or None."""
    began = time.monotonic()
    try:
        case(*given)
        fault = None
    except Exception:
        fault = traceback.format_exc(limit=-3)[-6000:]
    return name, time.monotonic() - began, fault


def is_named(place, name, checks):
    """Checks that a fault breaks each of its checks, and that the run reports it."""
    held, proxy = place.over(FAULTS[name].plant, *checks, seed=name)
    assert not proxy.errors, proxy.errors[0]
    assert held.status == 1 and held.broken == set(checks), f"broken: {sorted(held.broken)}, and not all of {checks}\n{held}"
    for check in checks:
        assert f"BROKEN {check}:" in held.text and f'id="{check}"' in held.page, held


def try_faults(dialect, gateway, names):
    known = whole.suite_checks(*["--standard"] * (dialect == "standard"))
    with Plain() if dialect == "profile" else Before(gateway) as place:
        return [try_case(f"{dialect}: {name}", is_named, place, name, [it for it in FAULTS[name].checks if it in known]) for name in names]


def jobs(gateway, wanted):
    """Returns the work to do in parallel: a function and its arguments each, which return results."""
    for name, case in whole.CASES.items():
        if not wanted or name in wanted:
            yield try_one, name, gateway
    for dialect in ("profile", "standard"):
        names = [it for it, fault in FAULTS.items() if fault.only in (None, dialect) and (not wanted or it in wanted)]
        for at in range(0, len(names), AT_ONCE):
            yield try_faults, dialect, gateway, names[at : at + AT_ONCE]


def try_one(name, gateway):
    return [try_case(name, whole.CASES[name], gateway)]


def main(gateway, *wanted):
    unknown = [it for it in wanted if it not in whole.CASES and it not in FAULTS]
    if unknown:
        print(f"no such case: {' '.join(unknown)}\n0 passed, 1 failed")
        return False
    # A background process ignores SIGINT, and so do its children.
    signal.signal(signal.SIGINT, signal.default_int_handler)
    passed = failed = 0
    with concurrent.futures.ProcessPoolExecutor(int(os.environ.get("JOBS") or os.cpu_count())) as pool:
        asked = [pool.submit(*it) for it in jobs(gateway, wanted)]
        for each in concurrent.futures.as_completed(asked):
            for name, seconds, fault in each.result():
                passed, failed = passed + (fault is None), failed + (fault is not None)
                print(f"qualify: {'FAILED' if fault else 'passed'} {name} ({seconds:.1f} s)", *([fault] if fault else []), flush=True)
    print(f"{passed} passed, {failed} failed")
    return failed == 0 and passed > 0


if __name__ == "__main__":
    sys.exit(not main(*sys.argv[1:]))
