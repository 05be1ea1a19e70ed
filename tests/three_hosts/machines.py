"""Three hosts in namespaces of their own, on one switch, and functions that make them fail.

All their processes end with this one."""
import contextlib
import ctypes
import os
import pathlib
import shutil
import signal
import socket
import subprocess
import tempfile
import time

import drawn_calls
import wire
from program import BUILT, TOP

DEPLOY = TOP / "deploy" / "hosts"
HOST = pathlib.Path(__file__).with_name("host.py")
PACKAGES = ("glusterfs-server", "iproute2", "haproxy", "e2fsprogs")
NUMBERS = (1, 2, 3)
DISK = 192 << 20
NEW_NETWORK = 0x40000000
LIBRARY = ctypes.CDLL(None, use_errno=True)
# Ends with the thread that started it, which must be the main one.
WITH_US = ["setpriv", "--pdeathsig", "KILL", "--"]
MOST = 180


class Failed(Exception):
    """The error of a failed expectation."""


def command(*words, limit=MOST):
    done = subprocess.run([str(it) for it in words], stdin=subprocess.DEVNULL, capture_output=True, text=True, timeout=limit)
    if done.returncode:
        raise OSError(f"{' '.join(map(str, words))}: {done.stdout}{done.stderr}".strip())
    return done.stdout


def lacking():
    """Returns why no hosts are possible here, or None."""
    if os.geteuid():
        return "the hosts need root"
    if not pathlib.Path("/dev/fuse").exists():
        return "there is no /dev/fuse"
    try:
        command("unshare", "--net", "--mount", "--uts", "--pid", "--fork", "mount", "-t", "tmpfs", "none", "/run")
    except (OSError, subprocess.TimeoutExpired) as error:
        return f"there are no namespaces: {error}"
    return None


def until(holds, what, limit=MOST):
    """Waits until a function returns a true value, and returns that."""
    end = time.monotonic() + limit
    while not (found := holds()):
        if time.monotonic() > end:
            raise Failed(f"after {limit} s not yet: {what}")
        time.sleep(0.1)
    return found


def child_of(process):
    tasks = pathlib.Path(f"/proc/{process.pid}/task/{process.pid}/children")
    return int(until(lambda: process.poll() is None and tasks.read_text().split(), "a process of its own", 60)[0])


@contextlib.contextmanager
def network_of(pid):
    """Moves the calling thread into the network of a process for a while."""
    with open("/proc/thread-self/ns/net") as here, open(f"/proc/{pid}/ns/net") as there:
        if LIBRARY.setns(there.fileno(), NEW_NETWORK):
            raise OSError(ctypes.get_errno(), "setns")
        try:
            yield
        finally:
            LIBRARY.setns(here.fileno(), NEW_NETWORK)


def connect(pid, address, port, limit):
    """Returns a connection from the network of a process."""
    with network_of(pid):
        connection = socket.socket()
    try:
        connection.settimeout(limit)
        connection.connect((address, port))
    except OSError:
        connection.close()
        raise
    return connection


class Host:
    def __init__(self, room, number, switch):
        self.room, self.number, self.switch = room, number, switch
        self.own, self.address = room / f"host{number}", f"10.77.0.{number}"
        self.process = self.pid = None
        for name in "state", "log":
            (self.own / name).mkdir(parents=True)
        self.new_disk()

    def new_disk(self):
        disk = self.own / "disk"
        with disk.open("wb") as image:
            image.truncate(DISK)
        command("mkfs.ext4", "-q", "-m", "0", disk)

    def start(self):
        namespaces = ["unshare", "--net", "--mount", "--uts", "--pid", "--fork", "--kill-child", "--mount-proc"]
        words = ["python3", "-B", HOST, self.room, self.number, BUILT, DEPLOY]
        # The shell reaps processes that have lost their parents.
        shell = ["bash", "-c", 'exec 3<&0; "$@" <&3 & wait', "host"]
        with (self.own / "said").open("ab") as said:
            self.process = subprocess.Popen(
                [*WITH_US, *namespaces, *shell, *map(str, words)], stdin=subprocess.PIPE, stdout=said, stderr=said
            )
        self.pid = child_of(self.process)
        ends = f"v{self.number} netns {self.switch} type veth peer name eth0 netns {self.pid}"
        command("ip", "link", "add", *ends.split())
        on_switch = ("nsenter", "-t", self.switch, "-n", "ip", "link", "set", f"v{self.number}")
        command(*on_switch, "master", "bridge")
        self.link("up")
        for words in f"addr add {self.address}/24 dev eth0", "link set eth0 up", "link set lo up":
            command("nsenter", "-t", self.pid, "-n", "ip", *words.split())
        self.process.stdin.write(b"go\n")
        self.process.stdin.flush()

    def link(self, how):
        command("nsenter", "-t", self.switch, "-n", "ip", "link", "set", f"v{self.number}", how)

    def cut(self):
        self.link("down")

    def join(self):
        self.link("up")

    def end(self):
        """Ends all processes of the host."""
        if self.process is None:
            return
        with contextlib.suppress(ProcessLookupError):
            os.kill(self.pid, signal.SIGKILL)
        self.process.wait()
        with (self.own / "events").open("a") as events:
            events.write(f"{time.time():.3f} dss ended with its host\n")
        self.process.stdin.close()
        # Sockets that wait for a response may hold the network, and the cable in it, for some time.
        with contextlib.suppress(OSError):
            command("nsenter", "-t", self.switch, "-n", "ip", "link", "del", f"v{self.number}")
        self.process = self.pid = None

    def lose_disk(self):
        shutil.rmtree(self.own / "state")
        (self.own / "state").mkdir()
        (self.own / "disk").unlink()
        self.new_disk()

    def pids(self, name=None):
        """Returns the processes of the host, or those of a name."""
        own = os.readlink(f"/proc/{self.pid}/ns/pid")
        found = []
        for entry in pathlib.Path("/proc").iterdir():
            with contextlib.suppress(OSError):
                if entry.name.isdigit() and os.readlink(entry / "ns" / "pid") == own:
                    if name is None or (entry / "comm").read_text().strip() == name:
                        found.append(int(entry.name))
        return found

    def signal(self, which, name=None):
        for pid in self.pids(name):
            with contextlib.suppress(ProcessLookupError):
                os.kill(pid, which)

    def stop_service(self):
        """Stops the service as `systemctl stop dss` does."""
        self.run("touch", "/run/dss.stopped")
        self.signal(signal.SIGTERM, "dss-health")
        until(lambda: not self.pids("dss-health") and not self.pids("dss"), "the service has ended")

    def start_service(self):
        self.run("rm", "/run/dss.stopped")

    @contextlib.contextmanager
    def serving_alone(self, file, port=8080):
        """Serves a file of the host, as a single host does."""
        words = [BUILT, "serve", "--tokens", self.room / "tokens.toml", "--db", file, "--port", port, "--count", "1000000"]
        as_user = ["setpriv", "--reuid", "790", "--regid", "790", "--clear-groups", "--pdeathsig", "KILL", "--"]
        with (self.own / "said").open("ab") as said:
            process = subprocess.Popen(
                [str(it) for it in ("nsenter", "-t", self.pid, "-a", *as_user, *words)],
                stdin=subprocess.DEVNULL, stdout=said, stderr=said,
            )
        try:
            yield
        finally:
            # The program is a child of nsenter.
            os.kill(child_of(process), signal.SIGTERM)
            process.wait()

    def run(self, *words, environment=(), limit=MOST):
        """Runs a command on the host."""
        return command("nsenter", "-t", self.pid, "-a", "env", *environment, *words, limit=limit)

    def connect(self, port=8080, limit=20):
        return connect(self.pid, "127.0.0.1", port, limit)

    def events(self, name, since=0.0):
        """Returns the output of a service, with times."""
        found = [it.split(" ", 2) for it in (self.own / "events").read_text().splitlines()]
        return [(float(at), text) for at, who, text in found if who == name and float(at) >= since]

    def served(self, since=0.0):
        """Returns from when to when its programs listened, with what ended each, or None."""
        found = []
        for at, text in self.events("dss"):
            if "listening on" in text:
                found.append([at, float("inf"), None])
            elif found and found[-1][1] == float("inf"):
                if "is ended:" in text:
                    found[-1][2] = text
                elif "has ended:" in text or text.startswith("ended"):
                    found[-1][1] = at
        return [it for it in found if it[1] >= since]


class Hosts:
    """The hosts with one volume. Each starts the service again and again."""

    def __enter__(self):
        self.room = pathlib.Path(tempfile.mkdtemp(prefix="dss-hosts."))
        # The user of the service reads it.
        self.room.chmod(0o755)
        (self.room / "tokens.toml").write_text(wire.token_file(drawn_calls.ALL_TOKENS))
        # What outlives the first failure is ended as well.
        self.hosts, self.outside = [], None
        try:
            self.outside = subprocess.Popen([*WITH_US, "unshare", "--net", "sleep", "infinity"], stdin=subprocess.DEVNULL)
            own = os.readlink("/proc/self/ns/net")
            there = f"/proc/{self.outside.pid}/ns/net"
            until(lambda: os.readlink(there) != own, "a network of its own", 10)
            for words in "link add bridge type bridge", "link set bridge up", "addr add 10.77.0.254/24 dev bridge":
                command("nsenter", "-t", self.outside.pid, "-n", "ip", *words.split())
            self.hosts = [Host(self.room, it, self.outside.pid) for it in NUMBERS]
            for host in self.hosts:
                host.start()
            addresses = [it.address for it in self.hosts]
            self.hosts[0].run(DEPLOY / "make-volume", *addresses, environment=("UID_OF_DSS=790", "GID_OF_DSS=790"))
        except BaseException:
            self.__exit__()
            raise
        return self

    def __exit__(self, *_):
        for host in self.hosts:
            host.end()
        if self.outside:
            self.outside.kill()
            self.outside.wait()
        shutil.rmtree(self.room)

    def others(self, host):
        return [it for it in self.hosts if it is not host]

    def through(self, host, limit=30):
        """Returns a connection from outside to a host's proxy."""
        return connect(self.outside.pid, host.address, 80, limit)

    def replace(self, host):
        """Takes a host back that has lost its disk and runs again, as in docs/HOSTS.md."""
        other = self.others(host)[0]
        environment = [f"{it.upper()}=python3 -B {HOST} {it}" for it in ("stop", "start")]
        host.run(DEPLOY / "replace-host", host.address, other.address, environment=environment)

    def unhealed(self, host):
        """Returns the number of entries that a replica lacks, or None if that is not reported."""
        with contextlib.suppress(OSError, subprocess.TimeoutExpired):
            told = host.run("gluster", "volume", "heal", "dss", "info", limit=60)
            counts = [it.rpartition(" ")[2] for it in told.splitlines() if it.startswith("Number of entries:")]
            if len(counts) == 3 and all(it.isdigit() for it in counts):
                return sum(map(int, counts))
        return None

    def copies(self):
        """Returns the sums of the database and its log on each host's disk."""
        files = "cd /srv/brick/dss && sha256sum dss.db $(ls dss.db-wal 2>/dev/null)"
        return [it.run("bash", "-c", files) for it in self.hosts]
