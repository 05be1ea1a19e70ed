"""Code of the documents, unchanged: the walk of gateway/README.md over the services that gateway/run starts, and the
coverings of docs/BETWEEN_SUPPLIERS.md over the service alone."""
import contextlib
import http.client
import io
import json
import os
import signal
import subprocess
import time
import uuid

import pywraps2 as s2

from shapes import away
from world import INTENTS, TOP, free_port, started, wait_for


def walk_of_the_readme(files, program):
    port, folder = free_port(), files.folder / "try"
    log = open(files.folder / "run.log", "w+")
    run = subprocess.Popen([TOP / "gateway" / "run", "--port", str(port), "--service", str(free_port()), "--folder", folder],
                           stdout=log, stderr=log)
    try:
        wait_for(port)
        text = (TOP / "gateway" / "README.md").read_text().split("```bash\n")[1].split("```")[0]
        done = subprocess.run(["bash", "-e"], input=text.replace("127.0.0.1:8081", f"127.0.0.1:{port}"), capture_output=True, text=True,
                              cwd=TOP, env={**os.environ, "GATEWAY_FOLDER": str(folder)})
    finally:
        run.send_signal(signal.SIGTERM)
        run.wait(300)
    answers = [json.loads(it) for it in done.stdout.splitlines()]
    assert done.returncode == 0 and len(answers) == 4, (done, open(files.folder / "run.log").read())
    created, denied, second, found = answers
    first = created["operational_intent_reference"]
    assert denied["message"].startswith("P14 KEY: the key lacks") and [it["id"] for it in denied["missing_operational_intents"]] == [first["id"]]
    assert second["operational_intent_reference"]["manager"] == "uss-b"
    seen = {it["id"]: "ovn" in it for it in found["operational_intent_references"]}
    assert seen == {first["id"]: False, second["operational_intent_reference"]["id"]: True}


def coverings_for_clients(files, program):
    """The code prints what the page says. Its coverings of circles and polygons contain their points, fit the limits,
    and the service takes a put over them."""
    page, found, said = (TOP / "docs" / "BETWEEN_SUPPLIERS.md").read_text(), {}, io.StringIO()
    with contextlib.redirect_stdout(said):
        exec(page.split("```python\n")[1].split("```")[0], found)
    printed = said.getvalue().splitlines()
    assert len(printed) == 2 and f"It prints `{printed[0]}` and `{printed[1]}`" in page, printed
    port = free_port()
    started([TOP / "dss", "serve", "--tokens", TOP / "examples" / "tokens.toml", "--db", files.folder / "alone.db", "--port", str(port)])
    wait_for(port)
    for center in ((40.744, -73.976), (0, 0), (-89.95, 10), (52, 179.999)):
        for metres in (1, 500, 20_000, 60_000):
            edge = [away(center, azimuth, metres * (1 - 1e-9)) for azimuth in range(0, 360, 15)]
            is_covered(port, found["covering"](found["circle"](*center, metres)), [center, *edge])
            if metres < 60_000:
                corners = edge[::4]
                for ring in (corners, corners[::-1]):
                    is_covered(port, found["covering"](found["polygon"](ring)), [center, *corners])


def is_covered(port, tokens, points):
    cells = [s2.S2CellId.FromToken(it) for it in tokens]
    assert len(tokens) <= 512 and all(it.level() <= 13 for it in cells) and sum(4 ** (13 - it.level()) for it in cells) <= 16_384, tokens
    for it in points:
        inside = s2.S2CellId(s2.S2LatLng.FromDegrees(*it))
        assert any(cell.contains(inside) for cell in cells), (it, tokens)
    now = int(time.time())
    volume = {"cells": tokens, "altitude_lower": 0, "altitude_upper": 1200, "time_start": now, "time_end": now + 3600}
    path, body = f"{INTENTS}/{uuid.uuid4()}", {"extents": [volume], "state": "Accepted", "uss_base_url": "https://a.example"}
    status, stored = sent(port, "PUT", path, body)
    assert status == 201, stored
    status, gone = sent(port, "DELETE", f"{path}/{stored['operational_intent_reference']['ovn']}")
    assert status == 200, gone


def sent(port, method, path, body=None):
    """Returns the status and the body of a response of the service itself."""
    connection = http.client.HTTPConnection("127.0.0.1", port, timeout=300)
    with contextlib.closing(connection):
        connection.request(method, path, body and json.dumps(body), {"Authorization": "Bearer tok-a", "Connection": "close"})
        answer = connection.getresponse()
        return answer.status, json.load(answer)


ALL = [walk_of_the_readme, coverings_for_clients]
