"""The commands of the package's units, and its logrotate configuration, work on a running service.

That systemd runs them this way is not tested. systemd reads `%%` as `%`, `$$` as `$` and `\\` as `\`."""
import datetime
import os
import pathlib
import re
import shlex
import shutil
import subprocess
import tempfile
import threading
import time

from admin_port import STOP, AdminService
from logs import until_lines
from pool import Skipped
from program import BUILT, TOP, run
from sockets import ASKED, CLOSING, LAST, difference

DEPLOY = TOP / "deploy"


def command(unit, name, admin, places=()):
    """Returns the arguments of a unit's command, for an admin port, and for other places of files."""
    text = re.search(rf"(?m)^{name}=[-+]?/bin/bash -c '(.*)'$", (DEPLOY / unit).read_text())[1]
    for there, here in ("%%", "%"), ("$$", "$"), ("\\\\", "\\"), ("/127.0.0.1/8078", f"/127.0.0.1/{admin}"), ("127.0.0.1:8078", f"127.0.0.1:{admin}"):
        text = text.replace(there, here)
    for there, here in dict(places).items():
        text = text.replace(there, here)
    return ["bash", "-c", text]


class UnitService(AdminService):
    """The service with an access log and a backup directory, as in the unit."""

    def command(self):
        (self.folder / "backups").mkdir(exist_ok=True)
        return [*super().command(), "--access-log", f"{self.folder}/requests.log", "--backup-dir", f"{self.folder}/backups"]


def stops():
    """The unit's ExecStop stops the service, and waits until it has exited."""
    with AdminService() as started:
        found = difference("an answer", started.exchange(CLOSING, ends=False), LAST)
        # Reaps the process once it has exited, as systemd does.
        threading.Thread(target=started.program.wait, daemon=True).start()
        got = run(command("dss.service", "ExecStop", started.admin), more={"MAINPID": f"{started.program.pid}"})
        found += difference("ExecStop", got, (0, b"", b""))
        return found + difference("the service", started.ended(), (0, b"", started.listening))


def copies():
    """The backup unit makes a backup of the day, which opens, also while the service is stopped. A second run says that
    it exists. What killed backups left is deleted before a backup, and old backups after it."""
    day = datetime.datetime.now(datetime.timezone.utc).strftime("%Y-%m-%d")
    with UnitService() as started:
        started.exchange(CLOSING, ends=False)
        folder, text = started.folder / "backups", (DEPLOY / "dss-backup.service").read_text()
        places = {"/usr/bin/dss": BUILT, "/var/lib/dss/dss.db": f"{started.folder}/dss.db", "/var/lib/dss/backups": f"{folder}"}
        asked = command("dss-backup.service", "ExecStart", started.admin, places)
        found = difference("a backup", run(asked), (0, b"", b""))
        found += difference("made", [it.name for it in folder.iterdir()], [day])
        found += difference("for others", [it for it in [folder / day, *(folder / day).iterdir()] if it.stat().st_mode & 0o077], [])
        found += difference("again", run(asked), (1, b"", b"dss: backup: fault 1 Exists\n"))
        hours = {"old": 16 * 24, "new": 13 * 24, ".old.1.live": 3, ".new.1.live": 1, ".old.begun": 16 * 24}
        for name, age in hours.items():
            (folder / name).mkdir()
            (folder / name / "dss.db").write_bytes(b"")
            os.utime(folder / name, (time.time() - age * 3_600,) * 2)
        for name, gone in ("Pre=-", ".old.1.live"), ("Post=", "old"):
            deletes = re.search(rf"(?m)^ExecStart{name}(/usr/bin/find .*)$", text)[1].replace("/var/lib/dss/backups", f"{folder}")
            found += difference(f"ExecStart{name}", run(shlex.split(deletes)), (0, b"", b""))
            del hours[gone]
            left = sorted(it.name for it in folder.iterdir())
            found += difference(f"what ExecStart{name} leaves", left, sorted([day, *hours]))
        found += writes_its_time(started)
        started.asked(STOP)
        started.ended()
        (folder / day).rename(folder / "before")
        found += difference("while it is stopped", run(asked), (0, b"", b""))
        for name in "before", day:
            found += difference(name, run([BUILT, "verify", str(folder / name)]), (0, b"serial 0\n", b""))
        return found


def writes_its_time(started):
    """The backup unit writes the time of the backup for the node exporter, if its directory exists."""
    exporter = started.folder / "node-exporter"
    asked = command("dss-backup.service", "ExecStartPost", started.admin, {"/var/lib/prometheus/node-exporter": f"{exporter}"})
    found = difference("without a node exporter", (run(asked), exporter.exists()), ((0, b"", b""), False))
    exporter.mkdir()
    for _ in range(2):
        before = int(time.time())
        found += difference("with one", run(asked), (0, b"", b""))
        text = (exporter / "dss_backup.prom").read_text()
        found += difference("the metric", before <= int(re.search(r"(?m)^dss_backup_last_success_seconds (\d+)$", text)[1]) <= time.time(), True)
    return found + difference("files", [(it.name, it.stat().st_mode & 0o777) for it in exporter.iterdir()], [("dss_backup.prom", 0o644)])


def reports():
    """The failure unit prints a line, and runs the operator's program with the name of the unit, if it exists."""
    text = re.search(r"(?m)^ExecStart=/bin/sh -c '(.*)'$", (DEPLOY / "dss-failure@.service").read_text())[1]
    line = "<2>dss.service failed; run: journalctl -u dss.service\n"
    with tempfile.TemporaryDirectory() as room:
        hook = pathlib.Path(room, "hook")
        asked = ["sh", "-c", text.replace("%i", "dss.service").replace("/etc/dss/on-failure", str(hook))]
        found = difference("without a program", run(asked), (0, line.encode(), b""))
        hook.write_text("#!/bin/sh\necho told $1\n")
        hook.chmod(0o755)
        return found + difference("with one", run(asked), (0, f"{line}told dss.service\n".encode(), b""))


def rotates():
    """logrotate moves the log away, and the service continues in a new file of its own."""
    program = shutil.which("logrotate", path="/usr/sbin:/usr/bin")
    if not program:
        raise Skipped("logrotate is missing: install the package logrotate")
    with UnitService() as started:
        text = (DEPLOY / "logrotate").read_text().replace("/var/log/dss/", f"{started.folder}/")
        owner = f"{started.folder.owner()} {started.folder.group()}"
        settings = started.folder / "logrotate"
        settings.write_text(text.replace("su dss dss", f"su {owner}"))
        settings.chmod(0o600)
        started.exchange(ASKED + CLOSING, ends=False)
        log = started.folder / "requests.log"
        found = difference("lines", len(until_lines(log, 2)), 2)
        done = subprocess.run([program, "--force", "--state", started.folder / "state", settings], capture_output=True, text=True)
        found += difference("logrotate", (done.returncode, done.stderr), (0, ""))
        # It looks for the file once a second, as it writes a line.
        time.sleep(1.1)
        started.exchange(CLOSING, ends=False)
        found += difference("the new file", len(until_lines(log, 1)), 1)
        moved = started.folder / "requests.log.1"
        return found + difference("the old file", (moved.is_file() and len(moved.read_text().splitlines())), 2)


CASES = {
    "unit-stops-the-service": stops,
    "unit-backs-up-the-database": copies,
    "unit-reports-a-failure": reports,
    "logrotate-moves-the-log": rotates,
}
