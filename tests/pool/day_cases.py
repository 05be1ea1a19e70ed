"""Steps of deploy/pool/setup's case over machines that are set up: the port of etcd, alerts, and tasks of docs/POOL_OPERATE.md."""
import json
import shutil

from deployed import block_of, blocks_of, same
from machines import until
from setup_machines import Machine, flight, wants
from sites import PORT

# Seconds within which Prometheus scrapes and evaluates twice, and more.
ALERTED = 120
# What anyone may do who reaches the client port, without a user: an alarm, compaction, a lease, and, in an alarm, the end of authentication.
ATTACKS = {
    "kv/compaction": {"revision": 1}, "maintenance/alarm": {"action": "ACTIVATE", "memberID": 1, "alarm": "NOSPACE"},
    "lease/grant": {"TTL": 10}, "auth/disable": {},
}
REFUSED = 7


def reaches(machine, user, port, path="health", body=None):
    """Returns the status of curl as a user."""
    words = ["setpriv", f"--reuid={user}", f"--regid={user}", "--clear-groups"] if user != "root" else []
    words += ["curl", "-s", "-o", "/dev/null", "-m", "20", *(("-d", json.dumps(body)) if body is not None else ())]
    return machine.run("/", *words, f"http://127.0.0.1:{port}/{path}")[0]


def port(room):
    """Only the users of etcd and of the instances reach etcd. Rules that are removed come back, also by nftables.service."""
    a = room.all[0]
    for user, wanted in ("root", 0), ("dss", 0), ("etcd", 0), ("nobody", REFUSED):
        same(wanted, reaches(a, user.replace("nobody", "65534"), 2379), f"port 2379 as {user}")
    same(0, reaches(a, 65534, 2381), "the port of metrics")
    for path, body in ATTACKS.items():
        same(REFUSED, reaches(a, 65534, 2379, f"v3/{path}", body), path)
    a.shell("nft delete table inet dss_pool")
    same(0, reaches(a, 65534, 2379), "without the rules")
    wants(room.organize(a), room.done, "ok: port 2379: closed")
    same(REFUSED, reaches(a, 65534, 2379), "with the rules again")
    a.shell("nft add table inet other && /usr/sbin/nft -f /etc/dss/port.nft && nft list table inet other")


# ---- alerts


def asked(machine, path):
    """Returns what Prometheus answers, or nothing."""
    status, said = machine.run("/", "curl", "-sS", f"http://127.0.0.1:9090/api/v1/{path}")
    return {} if status else json.loads(said)["data"]


def await_alerts(machine, *names, asks=lambda: None):
    """Waits until Prometheus has alerts of these names, pending or firing. Calls a function meanwhile."""
    has = lambda: {it["labels"]["alertname"] for it in asked(machine, "alerts").get("alerts", ())}
    until(lambda: asks() or set(names) <= has(), f"the alerts {names}", ALERTED)


def alerts(room):
    """Debian's Prometheus reads all alerts from its own place, and asks all of its targets. Some faults set off their alerts."""
    if room.done or not shutil.which("prometheus-node-exporter"):
        return
    b = room.all[1]
    b.shell("systemctl start prometheus-node-exporter && systemctl restart prometheus")
    targets = lambda: {it["labels"]["instance"]: it["health"] for it in asked(b, "targets").get("activeTargets", ())}
    wanted = {f"127.0.0.1:{it}": "up" for it in (2381, 8078, 9100)}
    until(lambda: targets() == wanted, "all targets answer", ALERTED)
    files = {it["file"].rpartition("/")[2]: [each["name"] for each in it["rules"]] for it in asked(b, "rules")["groups"]}
    same(["pool-rules.yaml", "prometheus-rules.yaml"], sorted(files), "the files of alerts")
    wanted = b.shell("grep -h '      - alert: ' /etc/prometheus/*-rules.yaml | sort").split("\n")
    same(sorted(it.split()[-1] for it in wanted if it), sorted(sum(files.values(), [])), "the alerts")
    # The certificate for the clients lasts 30 days.
    b.shell("nft delete table inet dss_pool && /usr/local/lib/dss/node-metrics && systemctl stop dss-pool@b1")
    await_alerts(b, "DssPoolCertificateEnds", "DssPoolPortOpen", "DssPoolInstanceStopped", "DssDown")
    wants(room.organize(b), 0, "ok: port 2379: closed", "ok: instance b1: serving")


# ---- tasks


def serves(room, number):
    """A flight that is put at b is read at all."""
    words = flight("tok-a", number, 2_000 * number)
    until(lambda: room.all[1].ask(PORT, *words)[0] == 201, f"{number} is put at b")
    for it in room.all:
        until(lambda: it.ask(PORT, "tok-a", "GET", words[2])[0] == 200, f"{it.name} reads {number}")


def one_by_one(room, *texts):
    """Each organization runs setup, one after the other."""
    for it in room.all:
        wants(room.organize(it), room.done, "a majority runs", *texts)


def passwords(room):
    """The password of an instance and that of root are replaced. The ones before are refused."""
    b, before = room.all[1], [(room.keeper / it).read_text().strip() for it in ("b1.user", "root.user")]
    first, second = blocks_of("### Rotating passwords"), blocks_of("For root:")
    room.administer(first[0])
    refused = lambda: same(503, b.ask(PORT, "tok-a", "GET", flight("tok-a", 1)[2])[0], "a read with the password before")
    if not room.done:
        await_alerts(b, "DssPoolUnavailable", asks=refused)
    wants(room.organize(b), room.done, "ok: instance b1: serving")
    room.administer(second[0])
    for user in before:
        status, said = room.all[0].run("/", "etcdctl", "get", "in/b1", ETCDCTL_API=3, ETCDCTL_USER=user)
        same((True, True), (status != 0, "invalid user ID or password" in said), f"the password before, {said}")
    room.administer("suppliers --show")
    wants(room.keep(), 0, "all is done")
    serves(room, 11)


def new_ca(room):
    """The CA is replaced in three parts, while the pool serves. A certificate of the one before is of no use then."""
    b = room.all[1]
    old = b.text("/etc/etcd/member.crt")
    parts = blocks_of("### Replacing the CA")
    same(3, len(parts), "parts")
    for number, part in enumerate(parts, 12):
        room.administer(part)
        one_by_one(room)
        serves(room, number)
    (room.room / "old.crt").write_text(old)
    valid = lambda file: b.run("/", "openssl", "verify", "-CAfile", "/etc/etcd/ca.crt", file)[0] == 0
    same((True, False), (valid("/etc/etcd/member.crt"), valid(room.room / "old.crt")), "what the new CA signed")


def revoked(room):
    """Without the right to write, no instance acknowledges a change, and a file is written."""
    room.administer(block_of("takes the right to write"))
    same(503, room.all[1].ask(PORT, *flight("tok-a", 20, 2_000))[0], "a change without the right to write")
    room.all[0].shell("systemctl start dss-follow@a0")
    room.administer(block_of("and give the\nright back", 4))
    for it in room.all:
        it.shell(f"systemctl restart dss-pool@{it.name}1")
    room.all[0].shell("systemctl restart dss-pool@a2")
    serves(room, 21)


def added(room):
    """A fourth organization joins a pool whose log was compacted, and leaves it."""
    for number, it in enumerate(room.all, 30):
        serves(room, number)
        it.shell(f"systemctl start dss-follow@{it.name}0")
    room.all[0].shell("systemctl start dss-compact@a0")
    d = Machine(room.room, 3, room.switch)
    room.all.append(d)
    table, suppliers = room.keeper / "pool.table", room.keeper / "suppliers.txt"
    before = table.read_text(), suppliers.read_text()
    table.write_text(before[0] + f"d {d.address} d1\n")
    suppliers.write_text(before[1] + "".join(f"d {it[2:]}\n" for it in before[1].splitlines() if it.startswith("c ")))
    wants(room.keep(), 2, "left: give the directory d to the organization")
    shutil.copy(room.folder(room.all[1]) / "tokens.toml", room.folder(d))
    wants(room.organize(d), 2, "d.csr to the keeper")
    wants(room.keep(), 2, "ok: certificate of d", "ok: users: a0 a1 a2 b0 b1 c0 c1 d0 d1")
    d.shell("openssl req -x509 -newkey rsa:2048 -noenc -keyout k -out c -subj /CN=pool 2>/dev/null && cat k c >dss.pem", "/etc/haproxy")
    room.all[1].shell(f'it=$(ls -d /var/lib/dss/pool/*-*.db | tail -n 1) && cp "${{it%.db}}".* {room.room}')
    file = next(room.room.glob("*-*.db"))
    installs = block_of("**Installing a file**", 4).replace("00000000000000012345-01234567890123456789-00000000000000000000", str(file.with_suffix("")))
    # A release without links writes no chains.
    d.shell(installs if file.with_suffix(".chain").exists() else installs.replace("$it.chain ", ""))
    add = block_of("adds the member, and the organization at once starts it").splitlines()[0]
    until(lambda: room.tries(add), "the member is added")
    until(lambda: room.organize(d, "--join", WAIT="30")[0] != 1, "the member joins")
    wants(room.organize(d), room.done, "ok: instance d1: serving")
    wants(room.keep(), 0, "all is done")
    one_by_one(room)
    serves(room, 40)
    leaves(room, d, *before)


def leaves(room, machine, table, suppliers):
    """The organization leaves by the commands of the page."""
    machine.shell("systemctl stop dss-pool@d1; systemctl stop haproxy")
    (room.keeper / "suppliers.txt").write_text(suppliers)
    (room.keeper / "pool.table").write_text(table)
    room.administer("suppliers --remove suppliers.txt")
    text = block_of("and its users and its member:").replace("c0 c1", "d0 d1").replace("mark/c0", "mark/d0")
    number = next(it.split(", ")[0] for it in room.administer("etcdctl member list").splitlines() if machine.address in it)
    first, last = text.replace("ID", number).rsplit("\n", 1)
    room.administer(first)
    until(lambda: f"Member {number} removed" in (room.tries(last) or ""), "the member is removed")
    room.all.remove(machine)
    machine.end()
    wants(room.keep(), 0, "all is done")
    one_by_one(room)
    serves(room, 41)


STEPS = port, alerts, passwords, new_ca, revoked, added
