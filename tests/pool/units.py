#!/usr/bin/python3
"""A systemctl for machines without systemd, as far as deploy/pool/setup uses it: it starts the commands of units.

  units.py [WORD..]     the words of systemctl

It keeps the process of each unit in /run/units. A timer starts nothing."""
import os
import pathlib
import pwd
import re
import shlex
import shutil
import signal
import socket
import string
import subprocess
import sys
import time

ROOM = pathlib.Path("/run/units")
# These need systemd for their own commands.
OTHERS = {
    "haproxy": "haproxy -db -f /etc/haproxy/haproxy.cfg", "prometheus": "setpriv --reuid=prometheus --regid=prometheus --clear-groups prometheus",
    "prometheus-node-exporter": "prometheus-node-exporter",
}


def settings_of(unit):
    """Returns the lines KEY=VALUE of a unit."""
    name, _, instance = unit.partition("@")
    for folder in "/etc/systemd/system", "/lib/systemd/system":
        file = pathlib.Path(folder, f"{name}@.service" if instance else f"{name}.service")
        if file.exists():
            text = file.read_text().replace("%i", instance).replace("%p", name).replace("%H", socket.gethostname())
            return [it.partition("=")[::2] for it in text.splitlines() if re.match("[A-Za-z]+=", it)]
    sys.exit(f"Unit {unit}.service not found.")


def environment_of(settings):
    lines = [value for key, value in settings if key == "Environment"]
    for key, value in settings:
        if key == "EnvironmentFile":
            file = pathlib.Path(value.removeprefix("-"))
            if file.exists() or not value.startswith("-"):
                lines += file.read_text().splitlines()
    return {**os.environ, **dict(it.split("=", 1) for it in lines if it and not it.startswith("#"))}


def process_of(unit):
    """Returns the process of a unit, or None."""
    file = ROOM / unit
    if not file.exists():
        return None
    stat = pathlib.Path("/proc", file.read_text(), "stat")
    try:
        return None if stat.read_text().rpartition(")")[2].split()[0] == "Z" else int(file.read_text())
    except OSError:
        return None


def stop(unit):
    if pid := process_of(unit):
        os.kill(pid, signal.SIGTERM)
        while process_of(unit):
            time.sleep(0.1)


def start(unit):
    if unit.endswith(".timer") or process_of(unit):
        return
    settings = settings_of(unit)
    one = dict(settings)
    user, environment = one.get("User", "root"), environment_of(settings)
    for key, where in ("StateDirectory", "/var/lib"), ("LogsDirectory", "/var/log"):
        for folder in (f"{where}/{it}" for it in one.get(key, "").split()):
            os.makedirs(folder, exist_ok=True)
            shutil.chown(folder, user, user)
    words = shlex.split(OTHERS.get(unit) or string.Template(one["ExecStart"]).safe_substitute(environment))
    if unit not in OTHERS and user != "root":
        words = ["setpriv", f"--reuid={user}", f"--regid={pwd.getpwnam(user).pw_gid}", "--clear-groups", *words]
    with open(ROOM / f"{unit}.log", "ab") as log:
        how = {"env": environment, "umask": 0o077, "stdin": subprocess.DEVNULL, "stdout": log, "stderr": log}
        if one.get("Type") == "oneshot":
            sys.exit(subprocess.run(words, **how).returncode)
        process = subprocess.Popen(words, start_new_session=True, **how)
    (ROOM / unit).write_text(str(process.pid))


def main(verb, *units, now=False):
    ROOM.mkdir(exist_ok=True)
    for unit in (it.removesuffix(".service") for it in units):
        if verb == "is-active":
            sys.exit(0 if process_of(unit) else 3)
        if verb == "is-enabled":
            sys.exit(1)
        if verb in ("stop", "restart", "reload-or-restart"):
            stop(unit)
        if verb in ("start", "restart", "reload-or-restart") or verb == "enable" and now:
            start(unit)


if __name__ == "__main__":
    main(*(it for it in sys.argv[1:] if not it.startswith("--")), now="--now" in sys.argv)
