"""Real members of etcd on this machine, on addresses 127.0.0.x. They need no root, and end with this process."""
import json
import os
import pathlib
import shutil
import signal
import subprocess
import sys
import time
import urllib.error
import urllib.request

sys.path.insert(1, str(pathlib.Path(__file__).resolve().parents[1] / "shared"))

from freezing import freeze
from ports import free_port
from program import SECONDS

# Options with which etcdctl waits for a slow etcd, also for a token.
PATIENT = ("--command-timeout", f"{SECONDS}s", "--dial-timeout", f"{SECONDS}s")
WITH_US = ["setpriv", "--pdeathsig", "KILL", "--"] if shutil.which("setpriv") else []


def lacking():
    """Returns why no etcd can be started, or None."""
    return None if shutil.which("etcd") and shutil.which("etcdctl") else "etcd is not installed (packages etcd-server, etcd-client)"


def install():
    """Installs Debian's packages of etcd, if it is missing. Returns why that is impossible, or None."""
    as_root = [] if os.getuid() == 0 else ["sudo", "-n"]
    if not lacking() or not shutil.which("apt-get") or not all(map(shutil.which, as_root[:1])):
        return lacking()
    # With this run level the package starts no service.
    how = {"stdin": subprocess.DEVNULL, "capture_output": True, "env": {**os.environ, "RUNLEVEL": "1"}}
    for words in ["update"], ["install", "-y", "--no-install-recommends", "etcd-server", "etcd-client"]:
        if subprocess.run([*as_root, "apt-get", *words], **how).returncode:
            break
    return lacking()


class Cluster:
    def __init__(self, room, members=1, options=()):
        self.room, self.options = pathlib.Path(room), options
        self.hosts = [f"127.0.0.{it + 1}" for it in range(members)]
        self.clients, self.peers = [free_port() for _ in self.hosts], [free_port() for _ in self.hosts]
        self.processes = [None] * members
        for it in range(members):
            self.start(it)
        self.await_leader()

    def peer(self, it):
        return f"http://{self.hosts[it]}:{self.peers[it]}"

    def client(self, it):
        return f"http://{self.hosts[it]}:{self.clients[it]}"

    def addresses(self):
        return ",".join(f"{host}:{port}" for host, port in zip(self.hosts, self.clients))

    def start(self, it):
        folder = self.room / f"m{it}"
        state = "existing" if folder.exists() else "new"
        cluster = ",".join(f"m{other}={self.peer(other)}" for other in range(len(self.hosts)))
        words = ["etcd", "--name", f"m{it}", "--data-dir", folder, "--initial-cluster-state", state, "--initial-cluster", cluster]
        words += ["--listen-client-urls", self.client(it), "--advertise-client-urls", self.client(it)]
        words += ["--listen-peer-urls", self.peer(it), "--initial-advertise-peer-urls", self.peer(it), *self.options]
        log = open(self.room / f"m{it}.log", "ab")
        self.processes[it] = subprocess.Popen([*WITH_US, *map(str, words)], stdin=subprocess.DEVNULL, stdout=log, stderr=log)

    def ask(self, it, path, body, limit=30):
        request = urllib.request.Request(self.client(it) + path, json.dumps(body).encode())
        with urllib.request.urlopen(request, timeout=limit) as answer:
            return json.load(answer)

    def leader(self):
        """Returns the index of the leader, or None."""
        for it in range(len(self.hosts)):
            try:
                said = self.ask(it, "/v3/maintenance/status", {}, 3)
            except (OSError, urllib.error.URLError, ValueError):
                continue
            if said.get("leader") == said["header"]["member_id"]:
                return it
        return None

    def await_leader(self, limit=SECONDS):
        end = time.monotonic() + limit
        while (it := self.leader()) is None:
            if time.monotonic() > end:
                raise AssertionError(f"no leader after {limit} s")
            time.sleep(0.1)
        return it

    def kill(self, it):
        self.processes[it].kill()
        self.processes[it].wait()

    def stop(self, it):
        freeze(self.processes[it])

    def go_on(self, it):
        self.processes[it].send_signal(signal.SIGCONT)

    def control(self, *words):
        command = ["etcdctl", *PATIENT, "--endpoints", self.addresses(), *words]
        environment = {"ETCDCTL_API": "3", "PATH": "/usr/bin:/bin"}
        done = subprocess.run(command, env=environment, capture_output=True, text=True, timeout=2 * SECONDS)
        if done.returncode:
            raise AssertionError(f"{' '.join(command)}: {done.stderr}")
        return done.stdout

    def close(self):
        for it in self.processes:
            it.kill()
            it.wait()
