"""The environment of the cases: a service, a gateway before one, and runs of the suite."""
import contextlib
import json
import os
import pathlib
import re
import signal
import socket
import sqlite3
import subprocess
import sys
import tempfile
import time
import urllib.request
import xml.etree.ElementTree as tree

from proxy import Proxy

TOP = pathlib.Path(__file__).resolve().parents[2]
# Ports that no other test and no connection takes before something listens there.
sys.path.append(str(TOP / "tests" / "shared"))
from ports import free_port

PATIENCE = 300
# A token with all scopes, for the fault that ignores scopes.
MORE = '\n[[token]]\ntext = "tok-of-all"\nuss = "uss-a"\nscopes = ["utm.strategic_coordination", "utm.conformance_monitoring_sa", ' \
    '"utm.constraint_processing", "utm.constraint_management", "utm.availability_arbitration"]\n'


def wait_for(port):
    until = time.monotonic() + PATIENCE
    while time.monotonic() < until:
        with contextlib.suppress(OSError), socket.create_connection(("127.0.0.1", port), 1):
            return
        time.sleep(0.02)
    raise AssertionError(f"nothing listens on {port}")


class Held:
    """A finished run: its status, its output, and its JUnit XML."""

    def __init__(self, status, text, errors, folder):
        self.status, self.text, self.errors = status, text, errors
        self.page, self.xml = (it.read_text() if it.exists() else "" for it in (folder / "result.html", folder / "result.xml"))
        self.cases = list(tree.fromstring(self.xml.encode()).iter("testcase")) if self.xml else []
        self.broken = {it.get("name") for it in self.cases if it.find("failure") is not None}
        self.skipped = {it.get("name") for it in self.cases if it.find("skipped") is not None}

    def __repr__(self):
        return f"status {self.status}\n{self.text[-3000:]}{self.errors[-2000:]}"

    def must_hold(self, least):
        assert self.status == 0 and not self.broken and not self.skipped and len(self.cases) >= least, self
        assert f"{len(self.cases)} held, 0 broken\n" in self.text, self


class Place:
    """A service on a port, with whatever is in front of it."""

    def __init__(self):
        self.room = tempfile.TemporaryDirectory(dir="/dev/shm" if os.access("/dev/shm", os.W_OK) else None)
        self.folder, self.programs = pathlib.Path(self.room.name), []

    def __enter__(self):
        return self

    def __exit__(self, *_):
        for it in reversed(self.programs):
            it.send_signal(signal.SIGTERM)
            it.wait(PATIENCE)
        self.room.cleanup()

    def start(self, port, *words):
        self.programs.append(subprocess.Popen(words, stdout=subprocess.DEVNULL, stderr=subprocess.DEVNULL, stdin=subprocess.DEVNULL))
        wait_for(port)

    def serve(self, *options):
        self.service = free_port()
        self.start(self.service, TOP / "dss", "serve", "--tokens", self.folder / "tokens.toml", "--db", self.folder / "dss.db",
                   "--port", str(self.service), "--count", "1000000", *options)

    def run(self, *words, port=None, urls=(), seed="1", rate="100000"):
        """Runs the suite over URLs, over a port, or over the one of this place."""
        folder = pathlib.Path(tempfile.mkdtemp(dir=self.folder))
        urls = urls or [f"http://127.0.0.1:{port or self.port}"]
        given = [word for url in urls for word in ("--url", url)]
        # No run ends by its time on a busy machine, unless its case says so.
        words = [*given, *self.tokens, "--seed", seed, "--rate", rate, "--seconds", "36000", "--result", folder, *words]
        self.suite = subprocess.Popen(
            [TOP / "qualify" / "run", *words], stdout=subprocess.PIPE, stderr=subprocess.PIPE, text=True, cwd=self.folder)
        with self.suite:
            said = self.suite.communicate(timeout=36000)
        return Held(self.suite.returncode, *said, folder)

    def over(self, fault, *words, **how):
        """Runs it over a proxy that plants a fault; returns the run and the proxy."""
        proxy = Proxy(self.port, fault)
        try:
            return self.run(*words, port=proxy.port, **how), proxy
        finally:
            proxy.end()

    def ask(self, token, method, path, body=None):
        """Returns the response of the service itself."""
        data = None if body is None else json.dumps(body).encode()
        fields = {"Authorization": f"Bearer {token}"}
        request = urllib.request.Request(f"http://127.0.0.1:{self.port}/dss/v1/{path}", data, fields, method=method)
        with urllib.request.urlopen(request, timeout=PATIENCE) as answer:
            return json.load(answer)

    def left(self):
        """Returns what the service stores once it has exited: lines of references without the serial, and ids of
        subscriptions."""
        for it in reversed(self.programs):
            it.kill()
            it.wait(PATIENCE)
        self.programs.clear()
        report = subprocess.run([TOP / "dss", "report", "--db", self.folder / "dss.db"], capture_output=True, text=True, check=True)
        assert re.fullmatch(r"serial \d+", report.stdout.splitlines()[-1]), report.stdout
        with contextlib.closing(sqlite3.connect(self.folder / "dss.db")) as database:
            subscriptions = [str(it) for it in database.execute("select id from subscription")]
        return report.stdout.splitlines()[:-1] + subscriptions


class Plain(Place):
    """The service with its own profile, and with `--explain` as in its unit."""

    def __init__(self, *options):
        super().__init__()
        (self.folder / "tokens.toml").write_text((TOP / "examples" / "tokens.toml").read_text() + MORE)
        self.tokens = ["--tokens", self.folder / "tokens.toml"]
        self.serve(*(options or ("--explain",)))
        self.port = self.service


class Before(Place):
    """The gateway before the service."""

    def __init__(self, gateway):
        super().__init__()
        key, secret = self.folder / "key.pem", self.folder / "secret"
        subprocess.run(["openssl", "genrsa", "-out", key, "2048"], check=True, capture_output=True)
        subprocess.run(["openssl", "rsa", "-in", key, "-pubout", "-out", self.folder / "keys.pem"], check=True, capture_output=True)
        secret.write_text("0123456789abcdef" * 4)
        (self.folder / "suppliers").write_text("uss-a\nuss-b\nuss-c\nuss-v\n")
        with open(self.folder / "tokens.toml", "wb") as it:
            subprocess.run([gateway, "tokens", "--secret", secret, "--suppliers", self.folder / "suppliers"], stdout=it, check=True)
        self.tokens = ["--standard", "--mint", f"env GATEWAY_FOLDER={self.folder} {TOP}/gateway/mint"]
        self.serve("--explain")
        self.port = free_port()
        words = {"port": self.port, "service": self.service, "tokens": self.folder / "tokens.toml", "keys": self.folder / "keys.pem",
                 "issuer": "auth.example", "audience": "dss.example", "secret": secret}
        self.start(self.port, gateway, "serve", *(it for name, value in words.items() for it in (f"--{name}", str(value))))
