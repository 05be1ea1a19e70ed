"""Cases of the units of deploy/pool, and of what Debian's node_exporter has for the alerts."""
import contextlib
import pathlib
import shutil
import subprocess
import tempfile
import time
import urllib.request

from deployed import ALERTS, OF_NODE, same
from machines import command, until
from pool import Skipped
from ports import free_port
from program import TOP
from sites import BACK, DEPLOY, kill


def node_metrics(_sites):
    """Debian's node_exporter has the metrics of the alerts, except that of units, for which it needs systemd."""
    program = shutil.which("prometheus-node-exporter")
    if not program:
        raise Skipped("the package prometheus-node-exporter is missing")
    with tempfile.TemporaryDirectory() as room:
        command("env", "-C", room, DEPLOY / "certificates", "ca")
        given = f"FOLDER={room}", f"CERTIFICATES={room}/none.crt {room}/ca.crt"
        command("env", *given, DEPLOY / "node-metrics")
        listening = f"127.0.0.1:{free_port()}"
        words = program, f"--web.listen-address={listening}", f"--collector.textfile.directory={room}"
        process = subprocess.Popen(words, stdout=subprocess.DEVNULL, stderr=subprocess.DEVNULL)
        try:
            text = until(lambda: page_of(listening), "node_exporter answers", BACK)
        finally:
            kill(process)
    had = {it.split("{")[0].split()[0] for it in text.splitlines() if it}
    named = {name.split("{")[0] for series in ALERTS.values() for name in series[0] if name.startswith(OF_NODE)}
    same(["node_systemd_unit_state"], sorted(named - had | {"node_systemd_unit_state"}), "metrics that node_exporter lacks")
    ends = [float(it.split()[1]) for it in text.splitlines() if it.startswith('dss_pool_certificate_end_seconds{file="ca.crt"}')]
    same([True], [3_649 < (it - time.time()) / 86_400 <= 3_650 for it in ends], "the end of the CA")


def page_of(address):
    with contextlib.suppress(OSError):
        return urllib.request.urlopen(f"http://{address}/metrics", timeout=BACK).read().decode()
    return ""


def unit(_sites):
    """systemd reads the units."""
    if not shutil.which("systemd-analyze"):
        raise Skipped("systemd-analyze is missing")
    with tempfile.TemporaryDirectory() as room:
        folder = pathlib.Path(room)
        text = (DEPLOY / "dss-pool@.service").read_text().replace("/usr/bin/dss ", "/bin/true ")
        (folder / "dss-pool@a1.service").write_text(text)
        shutil.copy(TOP / "deploy" / "dss-failure@.service", folder)
        text = (DEPLOY / "dss-pool-port.service").read_text().replace("/usr/sbin/nft ", "/bin/true ")
        (folder / "dss-pool-port.service").write_text(text)
        units = [folder / "dss-pool@a1.service", folder / "dss-pool-port.service"]
        packaged = pathlib.Path("/lib/systemd/system/etcd.service")
        for name, script in ("dss-follow", "mark"), ("dss-compact", "compact"):
            text = (DEPLOY / f"{name}@.service").read_text()
            same(1, text.count(f"ExecStart=/usr/local/lib/dss/{script} %i\n"), "the script of the unit")
            for it in script, "node-metrics":
                text = text.replace(f"/usr/local/lib/dss/{it}", "/bin/true")
            (folder / f"{name}@.service").write_text(text)
            shutil.copy(DEPLOY / f"{name}@.timer", folder)
            for kind in "service", "timer":
                (folder / f"{name}@a0.{kind}").symlink_to(f"{name}@.{kind}")
                units.append(folder / f"{name}@a0.{kind}")
        if packaged.exists():
            units.append(folder / "etcd.service")
            shutil.copy(packaged, folder)
            shutil.copytree(DEPLOY / "etcd.service.d", folder / "etcd.service.d")
        done = subprocess.run(["systemd-analyze", "verify", "--man=no", *map(str, units)], capture_output=True, text=True)
        same([], [it for it in (done.stdout + done.stderr).splitlines() if "dss" in it or "etcd" in it], "systemd-analyze")
