"""Three organizations of a pool, each in a network of its own: a member of etcd and an instance, with the files of deploy/pool.

All their processes end with this one."""
import base64
import contextlib
import http.client
import json
import os
import pathlib
import shutil
import string
import struct
import subprocess
import tempfile
import threading
import time

import drawn_calls
import wire
from devices import library
from doors import PROGRAM
from machines import WITH_US, Failed, command, connect, until
from program import TOP

DEPLOY = TOP / "deploy" / "pool"
NAMES = ("a", "b", "c")
INSTANCES = tuple(f"{it}1" for it in NAMES)
PORT, ADMIN_PORT, ETCD_PORT = 8080, 8078, 2379
PACKAGES = ("etcd-server", "etcd-client", "iproute2", "nftables", "openssl", "gcc", "libc6-dev")
READ = ("GET", f"{wire.AVAILABILITY}/uss-n", "Bearer tok-v", None)
# Seconds within which an instance answers, or a member, after nothing fails any more.
BACK = 60


def lacking():
    """Returns why no networks are possible here, or None."""
    if os.geteuid():
        return "the networks need root"
    try:
        command("unshare", "--net", "ip", "link", "add", "v0", "type", "veth", "peer", "name", "v1")
    except (OSError, subprocess.TimeoutExpired) as error:
        return f"there are no networks: {error}"
    return None


def install(more=()):
    """Installs Debian's packages. Returns why that is impossible, or None."""
    if all(map(shutil.which, ("etcd", "etcdctl", "ip", "nft", "openssl", "cc", *more))):
        return None
    for words in ("update",), ("install", "-y", "--no-install-recommends", *PACKAGES, *more):
        environment = {**os.environ, "DEBIAN_FRONTEND": "noninteractive"}
        done = subprocess.run(["apt-get", *words], stdin=subprocess.DEVNULL, capture_output=True, env=environment)
        if done.returncode:
            return f"the packages {' '.join((*PACKAGES, *more))} cannot be installed"
    return None


class Network:
    """A network of its own, which a process holds."""

    def __init__(self):
        self.process = subprocess.Popen([*WITH_US, "unshare", "--net", "sleep", "infinity"], stdin=subprocess.DEVNULL)
        self.pid = self.process.pid
        own, there = os.readlink("/proc/self/ns/net"), f"/proc/{self.pid}/ns/net"
        until(lambda: os.readlink(there) != own, "a network of its own", 10)
        self.ip("link set lo up")

    def ip(self, words):
        command("nsenter", "-t", self.pid, "-n", "ip", *words.split())

    def start(self, words, log, environment=None):
        """Starts a program in the network, whose process it then is."""
        # The process of nsenter becomes that of the program.
        words = [*WITH_US, "nsenter", "-t", self.pid, "-n", *words]
        with open(log, "ab") as said:
            return subprocess.Popen(
                list(map(str, words)), stdin=subprocess.DEVNULL, stdout=said, stderr=said, env={**os.environ, **(environment or {})}
            )

    def end(self):
        self.process.kill()
        self.process.wait()


class Site:
    """An organization: its network, its member of etcd and its instance, whose name is that of the organization and 1."""

    def __init__(self, room, at, switch):
        self.name, self.address, self.switch = NAMES[at], f"10.78.0.{at + 1}", switch
        self.own, self.link = room / self.name, f"v{at + 1}"
        self.own.mkdir()
        self.member = self.instance = None
        self.starts = []
        self.clock = self.own / "clock"
        self.move_clock(0)
        self.network = Network()
        command("ip", "link", "add", self.link, "netns", switch.pid, "type", "veth", "peer", "name", "eth0", "netns", self.network.pid)
        switch.ip(f"link set {self.link} master bridge")
        self.join()
        for words in f"addr add {self.address}/24 dev eth0", "link set eth0 up":
            self.network.ip(words)

    # ---- the link

    def cut(self):
        self.switch.ip(f"link set {self.link} down")

    def join(self):
        self.switch.ip(f"link set {self.link} up")

    # ---- the member of etcd

    def settings(self):
        """Returns the settings of deploy/pool/etcd.default, with the name, address and directories of this member."""
        found = {}
        for line in (DEPLOY / "etcd.default").read_text().splitlines():
            name, mark, value = line.partition("=")
            if mark and not line.startswith("#"):
                found[name] = value.replace("/etc/etcd", str(self.own)).replace("/var/lib/etcd", str(self.own))
        for name in "ETCD_INITIAL_ADVERTISE_PEER_URLS", "ETCD_LISTEN_PEER_URLS":
            found[name] = f"https://{self.address}:2380"
        return found | {"ETCD_NAME": self.name}

    def start_member(self, **more):
        self.member = self.network.start(["etcd"], self.own / "etcd.log", {**self.settings(), **more})

    def ask_member(self, path, body, token=None, limit=2.0):
        """Makes a request to the member."""
        connection = http.client.HTTPConnection("127.0.0.1", ETCD_PORT, timeout=limit)
        connection.sock = connect(self.network.pid, "127.0.0.1", ETCD_PORT, limit)
        with contextlib.closing(connection):
            connection.request("POST", path, json.dumps(body), {"Authorization": token} if token else {})
            answer = connection.getresponse()
            text = answer.read()
        if answer.status != 200:
            raise OSError(f"etcd: {answer.status} {text!r}")
        return json.loads(text)

    # ---- the instance

    def words(self, name, port, admin_port):
        """Returns the command of an instance."""
        words = [PROGRAM, "serve", "--tokens", self.own / "tokens.toml", "--pool", f"127.0.0.1:{ETCD_PORT}", "--as", name]
        return [*words, "--etcd-user", self.own / f"{name}.user", "--port", port, "--admin-port", admin_port, "--verbose"]

    def start_instance(self, *more):
        environment = {"LD_PRELOAD": self.preload, "CLOCK_FILE": str(self.clock)}
        words = [*self.words(f"{self.name}1", PORT, ADMIN_PORT), *more]
        self.instance = self.network.start(words, self.own / "dss.log", environment)

    def move_clock(self, seconds):
        """Moves the clock of the instance, whose process has the file mapped: it must not become shorter."""
        with open(self.clock, "r+b" if self.clock.exists() else "wb") as file:
            file.write(struct.pack("q", seconds))
        self.moved = seconds

    def time(self):
        """Returns the time of day by the clock of the instance."""
        return int(time.time()) + self.moved

    def connect(self, limit, port=PORT):
        return connect(self.network.pid, "127.0.0.1", port, limit)

    def ask_admin(self, path):
        """Returns the status and the body of a response of the admin port."""
        with self.connect(10, ADMIN_PORT) as connection:
            connection.sendall(f"GET {path} HTTP/1.1\r\nHost: 127.0.0.1:{ADMIN_PORT}\r\nConnection: close\r\n\r\n".encode())
            head, _, body = b"".join(iter(lambda: connection.recv(1 << 16), b"")).partition(b"\r\n\r\n")
        return int(head.split()[1]), body

    def pages(self):
        """Returns all pages of the airspace that the instance holds."""
        found, after = [], ""
        while True:
            status, body = self.ask_admin(f"/airspace{after}")
            if status != 200:
                raise Failed(f"{self.name}: /airspace: {status} {body!r}")
            found.append(json.loads(body))
            if "next" not in found[-1]:
                return found
            after = f"?after={found[-1]['next']}"

    def said(self, count=8):
        file = self.own / "dss.log"
        return file.read_text().splitlines()[-count:] if file.exists() else []

    def state(self):
        """Returns what the admin port says of the health and of the log, or why it says nothing."""
        if self.instance.poll() is not None:
            return [f"the instance has ended: {self.instance.returncode}"]
        try:
            said = self.ask_admin("/health")[1] + self.ask_admin("/metrics")[1]
        except (OSError, IndexError, ValueError) as error:
            return [f"admin port: {error}"]
        lines = said.decode().splitlines()
        return [it for it in lines if it[:8] in ("dss_pool", "dss_seri") or it is lines[0]]

    def end(self):
        for it in self.instance, self.member:
            if it:
                it.kill()
                it.wait()
        self.network.end()


def kill(process):
    process.kill()
    process.wait()


def stop(process):
    process.terminate()
    process.wait(BACK)


class Sites:
    """The organizations, on one switch, with certificates and users made as docs/POOL_OPERATE.md says."""

    def __enter__(self):
        self.room = pathlib.Path(tempfile.mkdtemp(prefix="dss-sites."))
        self.sites, self.switch = [], None
        try:
            self.set_up()
        except BaseException:
            self.__exit__()
            raise
        return self

    def set_up(self):
        Site.preload = library("move_clock", self.room)
        self.switch = Network()
        for words in "link add bridge type bridge", "link set bridge up":
            self.switch.ip(words)
        for at in range(len(NAMES)):
            self.sites.append(Site(self.room, at, self.switch))
        self.make_certificates()
        for it in self.sites:
            it.start_member()
        self.await_leader()
        self.make_users()
        for it in self.sites:
            (it.own / "tokens.toml").write_text(wire.token_file(drawn_calls.ALL_TOKENS))
            it.start_instance()

    def make_certificates(self):
        """Each organization makes its key and its request, and the first one signs."""
        keeper, script = self.room / "ca", DEPLOY / "certificates"
        keeper.mkdir()
        within = lambda folder, *words: command("env", "-C", folder, script, *words)
        within(keeper, "ca")
        for it in self.sites:
            within(it.own, "request", it.name)
            shutil.copy(it.own / f"{it.name}.csr", keeper)
            within(keeper, "sign", it.name, it.address)
            for name, given in (("ca.crt", "ca.crt"), (f"{it.name}.crt", "member.crt")):
                shutil.copy(keeper / name, it.own / given)
            (it.own / f"{it.name}.key").rename(it.own / "member.key")

    def make_users(self, name="users", names=INSTANCES):
        folder = self.room / name
        folder.mkdir()
        words = ["nsenter", "-t", self.sites[0].network.pid, "-n", "env", "-C", folder, DEPLOY / "make-users", *names]
        command(*words)
        for it in self.sites:
            for made in names:
                if made.rstrip(string.digits) == it.name:
                    shutil.copy(folder / f"{made}.user", it.own)
        self.root = (folder / "root.user").read_text().strip().split(":")

    def __exit__(self, *_):
        for it in self.sites:
            it.end()
        if self.switch:
            self.switch.end()
        shutil.rmtree(self.room)

    def others(self, site):
        return [it for it in self.sites if it is not site]

    # ---- etcd

    def token_at(self, site, limit=2.0):
        name, password = self.root
        return site.ask_member("/v3/auth/authenticate", {"name": name, "password": password}, limit=limit)["token"]

    def leader(self):
        """Returns the organization whose member leads, or None."""
        for it in self.sites:
            with contextlib.suppress(OSError, http.client.HTTPException, ValueError):
                said = it.ask_member("/v3/maintenance/status", {}, limit=1)
                if said.get("leader") == said["header"]["member_id"]:
                    return it
        return None

    def await_leader(self):
        return until(self.leader, "a member leads", BACK)

    def end_of_log(self):
        """Returns the revision of the last change of the log, as a majority has it."""
        body = {"key": code("in/"), "range_end": code("in0"), "limit": 1, "sort_order": "DESCEND", "sort_target": "MOD", "keys_only": True}
        return int(until(lambda: self.answered("/v3/kv/range", body), "a member answers", BACK)["kvs"][0]["mod_revision"])

    def answered(self, path, body):
        """Returns the answer of a member to a request as root, or None."""
        for it in self.sites:
            with contextlib.suppress(OSError, http.client.HTTPException, ValueError):
                return it.ask_member(path, body, self.token_at(it))
        return None


def code(text):
    return base64.b64encode(text.encode()).decode()


class Follower(threading.Thread):
    """Follows the log by a watch, at one member after the other, and gives each change to a function."""

    def __init__(self, sites, take):
        super().__init__(daemon=True)
        self.sites, self.take, self.goes_on = sites, take, True
        self.revision, self.fault = 0, None

    def run(self):
        at = 0
        while self.goes_on:
            try:
                self.follow(self.sites.sites[at % len(self.sites.sites)])
            except (OSError, http.client.HTTPException, KeyError):
                time.sleep(0.05)
            except Exception as error:
                self.fault = error
                return
            at += 1

    def follow(self, site):
        """Takes the changes that a member gives, until it is silent for a second or the connection ends."""
        token = self.sites.token_at(site, 1)
        connection = http.client.HTTPConnection("127.0.0.1", ETCD_PORT, timeout=1)
        connection.sock = connect(site.network.pid, "127.0.0.1", ETCD_PORT, 1)
        body = {"create_request": {"key": code("in/"), "range_end": code("in0"), "start_revision": self.revision + 1}}
        with contextlib.closing(connection):
            connection.request("POST", "/v3/watch", json.dumps(body), {"Authorization": token})
            answer = connection.getresponse()
            while self.goes_on and (line := answer.readline()):
                for event in json.loads(line)["result"].get("events", ()):
                    entry = event["kv"]
                    self.take(*(base64.b64decode(entry[it]) for it in ("key", "value")))
                    self.revision = int(entry["mod_revision"])
