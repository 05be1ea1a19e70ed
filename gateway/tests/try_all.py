"""Runs all cases over a gateway and one that is built with the sanitizers.

The last line is 'N passed, N failed', with ', N skipped' after it if a case cannot run here.

    try_all.py DIRECTORY SANITIZED-DIRECTORY [NAME..]

Each case is printed with its seconds. JOBS cases run in parallel [default: one for each processor and one more, since
some wait]."""
import concurrent.futures
import os
import sys
import time
import traceback

import bounds
import clients
import flaws
import flows
import hostile
import issuer_keys
import kept
import map_page
import map_warns
import mapping
import maps
import packaged
import pools
import properties
import proxies
import walk
import world

# Expensive cases, which run over the plain program.
PLAIN = [flows.drawn_outlines_meet, hostile.hard_outlines_are_answered_soon, *bounds.PLAIN]

MODULES = (bounds, flows, hostile, issuer_keys, kept, map_page, map_warns, mapping, maps, pools, walk)


def run(name, case):
    """Returns the result of a case, and the reason if it did not pass."""
    began = time.time()
    try:
        case()
        how, why = "passed", None
    except maps.Skipped as it:
        how, why = "skipped", str(it)
    except Exception:
        how, why = "FAILED", traceback.format_exc(limit=-3)[-3000:]
    return name, time.time() - began, how, why


def over_files(case, program):
    files = world.Files(program)
    try:
        case(files, program)
    finally:
        world.end_all()
        files.forget()


def run_named(name, built, sanitized):
    """Returns the results of a name: one, or for the flaws one each."""
    plain, tried = f"{built}/gateway", f"{sanitized}/gateway"
    if name == "flaws":
        return [run(it, case) for it, case in flaws.cases(built).items()]
    if name == "any_body_is_answered_with_sanitizers":
        return [run(name, lambda: properties.any_body_is_answered(tried))]
    for case in properties.ALL:
        if case.__name__ == name:
            return [run(name, lambda: case(plain))]
    for case in (*proxies.ALL, *clients.ALL, *packaged.ALL):
        if case.__name__ == name:
            return [run(name, lambda: over_files(lambda files, _: case(files, built), plain))]
    case = next(it for module in MODULES for it in module.ALL if it.__name__ == name)
    return [run(name, lambda: over_files(case, plain if case in PLAIN else tried))]


def main(built, sanitized, *names):
    known = ["points_inside_are_covered", "flaws", "slow_clients_keep_nobody_out", "a_service_that_is_not_there", "any_body_is_answered_with_sanitizers"]
    known += [it.__name__ for module in (bounds, kept, pools, proxies, clients, packaged, hostile, issuer_keys, maps, map_page, map_warns, flows, walk, properties, mapping) for it in module.ALL if it.__name__ not in known]
    counts = {"passed": 0, "failed": 0, "skipped": 0}
    with concurrent.futures.ProcessPoolExecutor(int(os.environ.get("JOBS") or os.cpu_count() + 1)) as pool:
        asked = [pool.submit(run_named, it, built, sanitized) for it in names or known]
        for each in concurrent.futures.as_completed(asked):
            for name, seconds, how, why in each.result():
                counts[how.lower()] += 1
                print(f"gateway: {how} {name} ({seconds:.1f} s)", *([why] if why else []), sep="\n" if how == "FAILED" else ": ", flush=True)
    print(f"{counts['passed']} passed, {counts['failed']} failed" + (f", {counts['skipped']} skipped" if counts["skipped"] else ""))
    return counts["failed"] == 0


if __name__ == "__main__":
    sys.exit(not main(*sys.argv[1:]))
