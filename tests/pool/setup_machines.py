"""Three machines of organizations for deploy/pool/setup, in namespaces of their own, and their keeper.

A machine has the files of this one, and what it writes to them is in its own memory. It has tests/pool/units.py in the place of systemd.
All processes end with this one."""
import contextlib
import http.client
import json
import os
import pathlib
import re
import shlex
import shutil
import string
import subprocess
import tempfile
import time
from concurrent.futures import ThreadPoolExecutor

from doors import PROGRAM
from machines import MOST, WITH_US, Failed, child_of, command, connect, until
from program import TOP
from sites import DEPLOY, NAMES, Network

# Seconds that setup waits for a condition: far more than a busy machine takes.
WAIT = 5 * MOST
SETUP = DEPLOY / "setup"
NAMESPACES = "unshare", "--net", "--mount", "--pid", "--fork", "--kill-child"
# As after the installation of Debian's packages and that of the service, without what this machine has of others.
MACHINE = """
set -e
mount --make-rprivate /
mount -t proc proc /proc
mount -t tmpfs run /run
mount -t tmpfs files "$1"
for it in etc usr var/lib var/log; do
    mkdir -p "$1/$it" "$1/work/$it"
    mount -t overlay overlay -o "lowerdir=/$it,upperdir=$1/$it,workdir=$1/work/$it" "/$it"
done
rm -rf /etc/etcd /etc/dss /etc/haproxy /etc/prometheus /var/lib/etcd /var/lib/dss /usr/local/lib/dss
mkdir -p /etc/default /etc/haproxy /etc/prometheus /etc/dss
echo '# ETCD_NAME="hostname"' >/etc/default/etcd
echo '# of the package' >/etc/haproxy/haproxy.cfg
getent passwd dss >/dev/null || useradd --system --user-group --home-dir /var/lib/dss --no-create-home dss
chown root:dss /etc/dss && chmod 750 /etc/dss
install -d -o dss -g dss -m 750 /var/lib/dss
install -d -o etcd -g etcd -m 755 /var/lib/etcd
install -m 755 "$2" /usr/bin/dss
install -m 755 "$3" /usr/local/lib/units
ln -sf /usr/local/lib/units /usr/local/bin/systemctl
touch /run/made
exec sleep infinity
"""
PATHS = "/usr/local/bin:/usr/sbin:/usr/bin:/sbin:/bin"
# In the place of a program: fails once, if its words have these.
FAILS_ONCE = """#!/bin/bash
if [ ! -e {done} ] && [[ "$*" == *{words}* ]]; then
    : >{done}
    echo planted >&2
    exit 1
fi
exec {program} "$@"
"""


def lacking():
    """Returns why no machines are possible here, or None."""
    try:
        with tempfile.TemporaryDirectory() as room:
            script = 'mount -t tmpfs files "$1" && cd "$1" && mkdir up work && mount -t overlay overlay -o lowerdir=/etc,upperdir=up,workdir=work /etc && nft add table inet machine'
            command(*NAMESPACES, "bash", "-c", script, "bash", room)
    except OSError as error:
        return f"there are no machines: {error}"
    return None


class Machine(Network):
    """A machine of an organization."""

    def __init__(self, room, number, switch):
        self.name, self.address, self.planted = string.ascii_lowercase[number], f"10.78.0.{number + 1}", 0
        self.room = room / f"machine-{self.name}"
        self.room.mkdir()
        words = [*NAMESPACES, "bash", "-c", MACHINE, "bash", self.room, pathlib.Path(PROGRAM).resolve(), TOP / "tests" / "pool" / "units.py"]
        with open(room / f"said-{self.name}", "wb") as said:
            self.process = subprocess.Popen([*WITH_US, *map(str, words)], stdin=subprocess.DEVNULL, stdout=said, stderr=said)
        self.pid = child_of(self.process)
        until(self.is_made, "a machine")
        self.ip("link set lo up")
        command("ip", "link", "add", f"m{number}", "netns", switch.pid, "type", "veth", "peer", "name", "eth0", "netns", self.pid)
        for words in f"link set m{number} master bridge", f"link set m{number} up":
            switch.ip(words)
        for words in f"addr add {self.address}/24 dev eth0", "link set eth0 up":
            self.ip(words)

    def is_made(self):
        if self.process.poll() is not None:
            raise Failed(f"the machine ended: {(self.room.parent / f'said-{self.name}').read_text()}")
        return pathlib.Path(f"/proc/{self.pid}/comm").read_text() == "sleep\n"

    def run(self, folder, *words, **given):
        """Runs a program in the machine. Returns its status and what it printed."""
        given = {"PATH": PATHS, "WAIT": WAIT, **given}
        words = ["nsenter", "-t", self.pid, "-n", "-m", "-p", f"--wd={folder}", "env", "-i", *(f"{it}={given[it]}" for it in given), *words]
        done = subprocess.run(list(map(str, words)), stdin=subprocess.DEVNULL, capture_output=True, text=True)
        return done.returncode, done.stdout + done.stderr

    def shell(self, script, folder="/"):
        """Returns what commands print."""
        # nsenter --wd would enter the directory of this machine.
        status, said = self.run("/", "bash", "-c", f"cd {folder} && {{\n{script}\n}}")
        if status:
            raise Failed(f"{script}: {status} {said}")
        return said

    def text(self, file):
        return self.shell(f"cat {file}")

    def fails_once(self, program, words):
        """Plants one failure of a program."""
        self.planted += 1
        real = "/usr/local/lib/units" if program == "systemctl" else self.shell(f"type -aP {program} | grep -v ^/usr/local | head -n 1").strip()
        text = FAILS_ONCE.format(done=f"/run/planted{self.planted}", words=shlex.quote(words), program=real)
        file = f"/usr/local/bin/{program}"
        self.shell(f"rm -f {file} && printf %s {shlex.quote(text)} >{file} && chmod 755 {file}")

    def ask(self, port, token, method, path, body=None):
        """Returns the status and the body of a response of an instance."""
        connection = http.client.HTTPConnection("127.0.0.1", port, timeout=MOST)
        connection.sock = connect(self.pid, "127.0.0.1", port, MOST)
        with contextlib.closing(connection):
            connection.request(method, path, body, {"Authorization": f"Bearer {token}"})
            answer = connection.getresponse()
            return answer.status, answer.read().decode()


class Machines:
    """The machines, and the directories of the keeper and the organizations. The keeper is on the machine of a."""

    def __enter__(self):
        self.room = pathlib.Path(tempfile.mkdtemp(prefix="dss-setup."))
        self.keeper, self.all, self.switch = self.room / "keeper", [], None
        # The status of setup without Prometheus.
        self.done = 0 if shutil.which("promtool") else 2
        self.keeper.mkdir()
        try:
            self.switch = Network()
            for words in "link add bridge type bridge", "link set bridge up":
                self.switch.ip(words)
            for number in range(len(NAMES)):
                self.all.append(Machine(self.room, number, self.switch))
        except BaseException:
            self.__exit__()
            raise
        return self

    def __exit__(self, *_):
        for it in (*self.all, *filter(None, [self.switch])):
            it.end()
        shutil.rmtree(self.room, ignore_errors=True)

    def folder(self, machine):
        return self.keeper / "a" if machine.name == "a" else self.room / machine.name

    def carry(self):
        """Carries the directories of the keeper to the organizations."""
        for it in self.all[1:]:
            if (self.keeper / it.name).exists():
                shutil.copytree(self.keeper / it.name, self.folder(it), dirs_exist_ok=True)

    def keep(self, **given):
        """Runs setup at the keeper, and carries the directories to the organizations."""
        got = self.all[0].run(self.keeper, SETUP, "keeper", "pool.table", **given)
        self.carry()
        return got

    def administer(self, script):
        """Runs commands of a page in the directory of the keeper, and carries its directories. Returns what they print."""
        given = {"PATH": f"{PATHS}:{DEPLOY}", "ETCDCTL_API": 3, "ETCDCTL_USER": (self.keeper / "root.user").read_text().strip()}
        status, said = self.all[0].run("/", "bash", "-c", f"umask 077; set -e; cd {self.keeper}\n{script}", **given)
        # setup ends with 2 if something is left to do.
        if status not in (0, 2):
            raise Failed(f"{script}: {status} {said}")
        self.carry()
        return said

    def tries(self, script):
        """Does the same. Returns None if it fails."""
        try:
            return self.administer(script)
        except Failed:
            return None

    def organize(self, machine, *more, **given):
        """Runs setup at an organization, and carries its request to the keeper."""
        got = machine.run(self.folder(machine), SETUP, "organization", machine.name, *more, **given)
        request = self.folder(machine) / f"{machine.name}.csr"
        if machine.name != "a" and request.exists():
            shutil.copy(request, self.keeper / machine.name)
        return got

    def organize_all(self):
        with ThreadPoolExecutor() as at_once:
            return list(at_once.map(self.organize, self.all))


def wants(got, status, *texts):
    """Fails if a run has another status, or lacks one of the texts."""
    if "SHOW_TRACES" in os.environ:
        print(time.strftime("%T"), *got, sep="\n", flush=True)
    if got[0] != status or not all(it in got[1] for it in texts):
        raise Failed(f"wanted {status} and {texts}, got {got[0]}: {got[1]}")


def flight(token, number, above=0):
    """Returns the words of a call that puts a flight. All are at one place, some above it."""
    extent = {"cells": ["89c25904"], "altitude_lower": above, "altitude_upper": above + 1200, "time_start": 4000000900, "time_end": 4000002000}
    body = json.dumps({"extents": [extent], "state": "Accepted", "uss_base_url": "https://u.example"})
    return token, "PUT", f"/dss/v1/operational_intent_references/00000000-0000-4000-8000-{number:012}", body


def targets_of(machine):
    """Returns which instances Prometheus asks."""
    return re.search(r"job_name: dss\n.*\n.*targets: \[(.*)\]", machine.text("/etc/prometheus/prometheus.yml"))[1]
