#!/usr/bin/env python3
"""Declares flights of two USSs in one cell, with the client of clients/python.

  examples/client.py PORT

The service listens on that port with the tokens of examples/tokens.toml. If OVNs are missing from the key of a put, the
client asks for them and tries again."""
import pathlib
import sys
import time
import uuid

sys.dont_write_bytecode = True
# not needed after `pip install clients/python`
sys.path.insert(0, str(pathlib.Path(__file__).resolve().parent.parent / "clients" / "python"))

from dss_client import Client, IntentPut, Known, Volume


def main(port):
    clients = {f"uss-{it}": Client(f"http://127.0.0.1:{port}", f"tok-{it}") for it in "ab"}
    now = int(time.time())
    volume = Volume(cells=["89c25904"], altitude_lower=0, altitude_upper=1200, time_start=now, time_end=now + 3600)

    def fetch(reference):
        # a real client asks the manager at the `uss_base_url`, as Peers.fetch does; here it is in the same program
        return Known(reference, clients[reference.manager].read_intent(reference.id).ovn)

    for number in range(4):
        name = ("uss-a", "uss-b")[number % 2]
        flight = IntentPut([volume], "Accepted", f"https://{name}.example")
        made = clients[name].declare(uuid.uuid4(), lambda known: flight, fetch).operational_intent_reference
        print(f"{name} declared {made.id} with OVN {made.ovn[:8]}..")
    for it in clients["uss-a"].query_intents(volume):
        print(f"{it.id} of {it.manager}, {it.state}, OVN {it.ovn[:8] if it.ovn else 'not shown'}")


if __name__ == "__main__":
    main(int(sys.argv[1]))
