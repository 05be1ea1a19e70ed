"""Runs cases in several processes and prints a line for each."""
import concurrent.futures
import contextlib
import io
import multiprocessing
import os
import time

SLOWEST = 10


class Skipped(Exception):
    """Why a case cannot run here."""


def processor_time():
    """Returns the processor time of this process and of its ended children, in seconds."""
    return sum(os.times()[:4])


def result_of(case):
    """Runs a case. Returns what it found wrong, or why it cannot run here; what it printed; and the seconds that it took:
    by the clock, and of the processors."""
    began, used, printed = time.monotonic(), processor_time(), io.StringIO()
    try:
        with contextlib.redirect_stdout(printed):
            found = case()
    except Skipped as why:
        found = str(why)
    except Exception as error:
        found = [f"{type(error).__name__}: {error}"]
    return found, printed.getvalue(), time.monotonic() - began, processor_time() - used


class Pool:
    """Runs cases, at most so many at once, and counts them."""

    def __init__(self, cases, jobs):
        self.cases, self.jobs = cases, jobs
        self.passed = self.failed = self.skipped = 0
        self.times = []

    def note(self, name, result):
        found, printed, took, used = result
        if isinstance(found, str):
            self.skipped += 1
            print(f"skipped {name}: {found}", flush=True)
            return
        self.times.append((took, used, name))
        self.passed, self.failed = self.passed + (not found), self.failed + bool(found)
        print(f"{'FAILED' if found else 'ok'} {name} ({took:.1f} s, processor {used:.1f} s)", flush=True)
        for it in found:
            print(f"FAILED {name}: {it}", flush=True)
        if found and printed:
            print(printed, end="", flush=True)

    def run(self, names, waiting=()):
        """Runs the cases of these names in that many processes, those that come first first. Those that only wait have a
        process more each."""
        started = multiprocessing.get_context("fork")
        jobs = self.jobs + len(waiting)
        with concurrent.futures.ProcessPoolExecutor(jobs, mp_context=started, max_tasks_per_child=None) as pool:
            running = {pool.submit(_run, name): name for name in (*waiting, *names)}
            for done in concurrent.futures.as_completed(running):
                self.note(running[done], done.result())

    def run_alone(self, names):
        """Runs the cases of these names one after the other, with nothing beside them."""
        for name in names:
            self.note(name, result_of(self.cases[name]))

    def print_slowest(self):
        for what, key in ("slowest", 0), ("most of the processors", 1):
            first = sorted(self.times, key=lambda it: it[key], reverse=True)[:SLOWEST]
            print(f"{what}: " + ", ".join(f"{it[-1]} {it[key]:.0f} s" for it in first))


# set before the processes start, which inherit it: cases are functions that cannot be sent
ALL = {}


def _run(name):
    return result_of(ALL[name])
