"""Measures changes and reads of a pool: clients at all doors, each with one request at a time."""
import json
import tempfile
import threading
import time

import wire
from cases import AHEAD, READ, TOKENS
from doors import Exchange, Pool
from real_etcd import Cluster


# The intents lie in this many cells of level 13 that follow each other.
CELLS, FIRST_CELL = 4_096, 0x89C25904


def put(index):
    """Returns a put of an intent that meets none of another index."""
    start = AHEAD + 20 * index
    extent = {"cells": [f"{FIRST_CELL + 8 * (index % CELLS):08x}"], "altitude_lower": 0, "altitude_upper": 100}
    extent |= {"time_start": start, "time_end": start + 10}
    body = {"extents": [extent], "state": "Accepted", "uss_base_url": "https://a.example"}
    return "PUT", f"{wire.INTENTS}/00000000-0000-4000-8000-{index:012x}", "Bearer tok-a", json.dumps(body).encode()


def quantile(times, part):
    return sorted(times)[min(len(times) - 1, int(len(times) * part))] * 1000 if times else 0


def load(pool, clients, seconds, calls, first):
    """Returns the latencies of the calls that many clients make at each door, and how many failed."""
    times, failed, lock = [], [0], threading.Lock()
    end = time.monotonic() + seconds

    def client(door, base):
        way, index = Exchange(door), base
        while time.monotonic() < end:
            began = time.monotonic()
            try:
                status, _ = way.ask(calls(index))
            except OSError:
                way.close()
                status = 0
            took = time.monotonic() - began
            index += 1
            with lock:
                if status in (200, 201):
                    times.append(took)
                else:
                    failed[0] += 1
    threads = []
    for at, door in enumerate(pool.doors):
        for it in range(clients):
            threads.append(threading.Thread(target=client, args=(door, first + 1_000_000 * (at * clients + it))))
    for it in threads:
        it.start()
    for it in threads:
        it.join()
    return times, failed[0]


def main(seconds):
    with tempfile.TemporaryDirectory() as room:
        cluster = Cluster(room, 3)
        pool = Pool(room, cluster, TOKENS)
        try:
            pool.ready()
            for at, clients in enumerate((1, 4, 16, 64)):
                times, failed = load(pool, clients, seconds, put, (at + 1) << 30)
                print(f"changes: {3 * clients} clients: {len(times) / seconds:.0f}/s, p50 {quantile(times, 0.5):.1f} ms, "
                      f"p99 {quantile(times, 0.99):.1f} ms, {failed} failed", flush=True)
                times, failed = load(pool, clients, seconds, lambda index: READ, 0)
                print(f"reads: {3 * clients} clients: {len(times) / seconds:.0f}/s, p50 {quantile(times, 0.5):.1f} ms, "
                      f"p99 {quantile(times, 0.99):.1f} ms, {failed} failed", flush=True)
        finally:
            pool.close()
            cluster.close()
