"""The process that runs on a host in its own namespaces.

It does with the units of deploy/hosts what systemd does, because systemd does not run there.

  host.py ROOM NUMBER PROGRAM DEPLOY     waits for a line, and runs the host
  host.py start|stop                     starts and stops glusterd there"""
import os
import pathlib
import shlex
import signal
import subprocess
import sys
import threading
import time

# The user of the service, which need not be a user of the machine.
USER = 790
AS_USER = {"user": USER, "group": USER, "extra_groups": []}
# Seconds between two tries to open the database.
TRY = 3
GLUSTERD = pathlib.Path("/run/glusterd.pid")


def command(*words):
    subprocess.run([str(it) for it in words], check=True, stdin=subprocess.DEVNULL)


def start_glusterd():
    command("glusterd", f"--pid-file={GLUSTERD}")


def stop_glusterd():
    pid = int(GLUSTERD.read_text())
    os.kill(pid, signal.SIGTERM)
    while pathlib.Path(f"/proc/{pid}").exists():
        time.sleep(0.1)


def stopped(name):
    """Returns the file that marks a service as stopped by hand."""
    return pathlib.Path(f"/run/{name}.stopped")


def unit(*files):
    """Returns the values of a unit's settings, in the order of its files. An empty value removes those before it."""
    found = {}
    for line in "\n".join(it.read_text() for it in files).splitlines():
        name, mark, value = line.partition("=")
        if mark and not line.startswith("#"):
            found[name] = [*found.get(name, []), value] if value else []
    return found


class Host:
    def __init__(self, room, number, program, deploy):
        self.room, self.number, self.deploy = pathlib.Path(room), number, pathlib.Path(deploy)
        self.own = self.room / f"host{number}"
        # Where the files of a host are here.
        self.places = {"/usr/bin/dss": program, "/etc/dss": room, "/usr/local/lib/dss": deploy, **self.folders()}
        self.events = (self.own / "events").open("a", buffering=1)

    def folders(self):
        """Makes the directories that systemd makes for the service, which are each host's own."""
        places = {"/var/log/dss": self.own / "requests", "/var/lib/dss/backups": self.own / "backups"}
        for folder in places.values():
            folder.mkdir(exist_ok=True)
            os.chown(folder, USER, USER)
        return places

    def note(self, name, text):
        self.events.write(f"{time.time():.3f} {name} {text}\n")

    def mount(self):
        command("hostname", f"host{self.number}")
        for folder in "/run", "/srv":
            command("mount", "-t", "tmpfs", "none", folder)
        for folder in "brick", "dss":
            pathlib.Path("/srv", folder).mkdir()
        pathlib.Path("/srv/dss").chmod(0)
        disk = self.own / "disk"
        if disk.is_file():
            command("mount", "-o", "loop", disk, "/srv/brick")
        else:
            command("mount", "--bind", disk, "/srv/brick")
        for name, folder in ("state", "/var/lib/glusterd"), ("log", "/var/log/glusterfs"):
            command("mount", "--bind", self.own / name, folder)
        pathlib.Path("/run/gluster").mkdir()

    def words(self, line):
        words = shlex.split(line.lstrip("-"))
        for there, here in self.places.items():
            words = [it.replace(there, str(here)) for it in words]
        return words

    def may_start(self, settings):
        for line in settings.get("ExecStartPre", []):
            done = subprocess.run(self.words(line), stdin=subprocess.DEVNULL, capture_output=True)
            if done.returncode and not line.startswith("-"):
                return False
        return True

    def once(self, name, settings):
        """Starts a service, records its output, and waits until it exits."""
        if not self.may_start(settings):
            return
        process = self.begin(self.words(settings["ExecStart"][-1]), AS_USER if settings.get("User") else {})
        for line in process.stderr:
            self.note(name, line.rstrip())
        self.note(name, f"ended {process.wait()}")

    def begin(self, words, user):
        return subprocess.Popen(
            words, stdin=subprocess.DEVNULL, stdout=subprocess.DEVNULL, stderr=subprocess.PIPE, text=True, errors="replace",
            **user,
        )

    def keep(self, name, settings):
        while True:
            try:
                # A service that was stopped by hand is not started.
                if not stopped(name).exists():
                    self.once(name, settings)
            except OSError as error:
                self.note(name, f"{error}")
            time.sleep(float(settings["RestartSec"][-1]))

    def stand_by(self):
        """Tries to open the database all the time, without the check of health: only the lock must prevent it."""
        words = self.words("/usr/bin/dss report --db /srv/dss/dss.db")
        while True:
            time.sleep(TRY)
            if os.path.ismount("/srv/dss") and not stopped("dss").exists():
                began = time.time()
                process = self.begin(words, AS_USER)
                said = process.stderr.read().strip()
                self.note("try", f"{began:.3f} {process.wait()} {said}")

    def run(self):
        self.mount()
        sys.stdin.readline()
        start_glusterd()
        package = self.deploy.parent / "dss.service"
        services = {
            "dss-volume": unit(self.deploy / "dss-volume.service"),
            "dss": unit(package, self.deploy / "dss.service.d" / "hosts.conf"),
            "haproxy": {"ExecStart": [f"haproxy -db -f {self.deploy / 'haproxy.cfg'}"], "RestartSec": ["1"]},
        }
        self.note("host", "runs")
        for name, settings in services.items():
            threading.Thread(target=self.keep, args=(name, settings)).start()
        threading.Thread(target=self.stand_by).start()


if __name__ == "__main__":
    if sys.argv[1] in ("start", "stop"):
        {"start": start_glusterd, "stop": stop_glusterd}[sys.argv[1]]()
    else:
        Host(*sys.argv[1:]).run()
