"""Cases of deploy/pool/make-users over a member of etcd, and of deploy/pool/setup on three machines, with failures at their steps."""
import os
import pathlib
import re
import shutil
import subprocess
import tempfile

import day_cases
import drawn_calls
import setup_machines
import sites
import wire
from deployed import blocks_of, same
from machines import Failed, until
from pool import Skipped
from real_etcd import PATIENT, Cluster
from setup_machines import SETUP, Machines, flight, targets_of, wants
from sites import DEPLOY, PORT

# Fails in place of the call of etcdctl with these words, or behind it: then etcd has made what the caller takes for failed.
FAILING = """#!/bin/bash
[[ "$*" == *"$WORDS"* ]] || exec /usr/bin/etcdctl "$@"
[ "$WHERE" = before ] || /usr/bin/etcdctl "$@" >/dev/null 2>&1
echo planted >&2
exit 1
"""
FAILURES = (
    ("user add root", "before"), ("user add root", "behind"), ("user grant-role root", "before"), ("user add a1", "behind"), ("role add a1", "behind"),
    ("user grant-role a1", "before"), ("auth enable", "before"), ("auth enable", "behind"),
)
# It says that authentication is off, or that it may be if etcd is too slow to tell.
SAYS_OFF = re.compile("make-users: (AUTHENTICATION IS OFF|authentication may be off): ")


def made_users(room, cluster, folder, **more):
    """Runs make-users with a failure. Returns its status and what it wrote to standard error."""
    environment = {**os.environ, "PATH": f"{room}:{os.environ['PATH']}", "ENDPOINTS": cluster.addresses(), **more}
    done = subprocess.run([DEPLOY / "make-users", "a1"], cwd=folder, env=environment, stdin=subprocess.DEVNULL, capture_output=True, text=True)
    return done.returncode, done.stderr


def asked(cluster, *words):
    """Runs etcdctl until etcd answers. Returns its status and its errors."""
    def answered():
        done = subprocess.run(["/usr/bin/etcdctl", *PATIENT, "--endpoints", cluster.addresses(), *words], capture_output=True, text=True)
        return not re.search("timed out|deadline|Unavailable", done.stderr) and (done.returncode, done.stderr)

    return until(answered, " ".join(words))


def is_open(cluster):
    status, errors = asked(cluster, "get", "in/a1")
    if status and "user name is empty" not in errors:
        raise Failed(f"etcd answers {errors}")
    return not status


def repeated_users(_sites):
    """make-users that fails at a step says that authentication is off, and the next run goes on, until it is on."""
    with tempfile.TemporaryDirectory() as room:
        script, folder = pathlib.Path(room, "etcdctl"), pathlib.Path(room, "users")
        script.write_text(FAILING)
        script.chmod(0o755)
        folder.mkdir()
        cluster = Cluster(room)
        try:
            fails_and_goes_on(room, cluster, folder)
        finally:
            cluster.close()


def fails_and_goes_on(room, cluster, folder):
    for words, where in FAILURES:
        status, said = made_users(room, cluster, folder, WORDS=words, WHERE=where)
        same((1, words == "auth enable" and where == "behind"), (status, not is_open(cluster)), f"{words} fails {where}: {said}")
        if is_open(cluster) and not SAYS_OFF.search(said):
            raise Failed(f"{words} fails {where}: it does not say that authentication is off: {said}")
    until(lambda: made_users(room, cluster, folder, WORDS="planted", WHERE="before")[0] == 0, "make-users succeeds")
    same(["a1.user", "root.user"], sorted(it.name for it in folder.iterdir()), "the files")
    same(False, is_open(cluster), "authentication is off")
    user = ("--user", (folder / "a1.user").read_text().strip())
    same([0, 1, 1], [asked(cluster, *user, "put", it, "x")[0] for it in ("in/a1", "in/b1", "in/@suppliers")], "what a1 may put")


# ---- setup

TABLE = "# organization, address, instances\na 10.78.0.1 a1 a2\nb 10.78.0.2 b1\nc 10.78.0.3 c1\n"
TOKENS = drawn_calls.ALL_TOKENS
OFF, ON = "ETCD'S AUTHENTICATION IS OFF", "setup: etcd's authentication is on\n"
WRONG_TABLES = {
    "": "pool.table has 0 organizations",
    "a 10.78.0.1\nb 10.78.0.1\n": "pool.table:2: 10.78.0.1 is there twice",
    "a 10.78.0.1\n\na 10.78.0.2\n": "pool.table:3: a is there twice",
    "a1 10.78.0.1\n": "pool.table:1: a1 is no organization",
    "a\n": "pool.table:1: nothing is no IP address",
    "a 10.78.0.256\n": "pool.table:1: 10.78.0.256 is no IP address",
    "a 10.78.0.1 b1\n": "pool.table:1: b1 is no instance of a",
    "a 10.78.0.1 a0\n": "pool.table:1: a0 is no instance of a",
    "a 10.78.0.1 a1\r\n": "pool.table:1: a carriage return",
}


def lacks():
    """Returns what is left without Prometheus."""
    return [] if shutil.which("promtool") else ["left: no alert is loaded"]


def set_up(_sites):
    """Three organizations are set up by deploy/pool/setup, with a failure in each part, which the next run repairs."""
    if why := sites.lacking() or sites.install(("haproxy",)) or setup_machines.lacking():
        raise Skipped(why)
    with Machines() as room:
        for step in (*STEPS, *day_cases.STEPS, lost_member):
            step(room)


def certificates(room):
    """The keeper signs what the organizations request. A failure between the files of a step makes no difference."""
    a, b, _ = room.all
    wants(a.run(room.keeper, SETUP), 1, "takes keeper TABLE, or organization NAME")
    for text, why in WRONG_TABLES.items():
        (room.keeper / "pool.table").write_text(text)
        wants(room.keep(), 1, why)
    (room.keeper / "pool.table").write_text(TABLE)
    # Debian's package starts a member of its own, which must get no users.
    for it in room.all:
        it.shell("systemctl start etcd")
    a.fails_once("openssl", "-subj /CN=dss pool")
    wants(room.keep(), 1, "certificates ca failed: planted")
    wants(room.keep(), 2, *(f"left: give the directory {it.name} to the organization" for it in room.all))
    b.fails_once("openssl", "-subj /CN=b")
    wants(room.organize(b), 1, "certificates request b failed: planted")
    for it, got in zip(room.all, room.organize_all()):
        wants(got, 2, "left: make tokens.toml here", f"left: give {room.folder(it)}/{it.name}.csr to the keeper")
    key = (room.folder(b) / "b.key").read_bytes()
    a.fails_once("openssl", "-out b.crt")
    wants(room.keep(), 1, "certificates sign b 10.78.0.2 failed: planted")
    wants(room.keep(), 2, "ok: certificate of c", "left: no majority of the members runs, or this machine has none")
    same(key, (room.folder(b) / "b.key").read_bytes(), "the key of b")
    same([], sorted(room.keeper.glob("**/*.user")), "users in the member that Debian's package starts")


def members(room):
    """A member that starts alone waits for the others. Then all settings name the state existing, and one new token."""
    a, b, _ = room.all
    wants(room.organize(a, WAIT="15"), 2, "reaches no majority")
    b.fails_once("systemctl", "restart --no-block etcd")
    wants(room.organize(b), 1, "systemctl restart --no-block etcd failed: planted")
    for got in room.organize_all():
        wants(got, 2, "a majority runs", "left: the keeper runs setup keeper", OFF)
    token = (room.keeper / "cluster.token").read_text().strip()
    for it in room.all:
        lines = it.text("/etc/default/etcd").splitlines()
        wanted = f"NAME={it.name}", "INITIAL_CLUSTER_STATE=existing", f"INITIAL_CLUSTER_TOKEN={token}", f"LISTEN_PEER_URLS=https://{it.address}:2380"
        same([1, 1, 1, 1], [lines.count(f"ETCD_{setting}") for setting in wanted], "the settings of a member")
    if not re.fullmatch("dss-pool-[0-9a-f]{16}", token):
        raise Failed(f"the token is {token}")


def authentication(room):
    a = room.all[0]
    (room.keeper / "suppliers.txt").write_text("".join(f"{it.name} {uss}\n" for it in room.all for uss in sorted({uss for uss, _ in TOKENS.values()})))
    a.fails_once("etcdctl", "role add a2")
    wants(room.keep(), 1, "make-users", "planted", OFF)
    wants(room.keep(), 2, "ok: users: a0 a1 a2 b0 b1 c0 c1", "left: give each organization the files *.user", "ok: supplier list", ON)
    status, said = a.run("/", "etcdctl", "get", "in/", "--prefix", ETCDCTL_API=3)
    same((True, True), (status != 0, "user name is empty" in said), "a request without a user")


def instances(room):
    """Instances start once their tokens have the salt of the pool. A failure at the proxy leaves them as they are."""
    b, c = room.all[1:]
    for it in room.all:
        text = (room.folder(it) / "salt.toml").read_text() + wire.token_file(TOKENS).partition("\n")[2]
        (room.folder(it) / "tokens.toml").write_text(wire.token_file(TOKENS) if it is c else text)
    wants(room.organize(c), 1, "tokens.toml has another salt than salt.toml")
    shutil.copy(room.folder(b) / "tokens.toml", room.folder(c))
    b.fails_once("systemctl", "start dss-follow@b0")
    wants(room.organize(b), 1, "systemctl start dss-follow@b0 failed: planted", ON)
    for it, got in zip(room.all, room.organize_all()):
        wants(got, 2, f"ok: instance {it.name}1: serving", "left: put the certificate for the clients", ON)
        it.shell("openssl req -x509 -newkey rsa:2048 -noenc -keyout k -out c -subj /CN=pool 2>/dev/null && cat k c >dss.pem", "/etc/haproxy")
    b.fails_once("haproxy", "-c")
    wants(room.organize(b), 1, "/etc/haproxy/haproxy.cfg: planted")
    for got in room.organize_all():
        wants(got, room.done, "ok: HAProxy", ON, *lacks())
    same([4, 2], [it.text("/etc/haproxy/haproxy.cfg").count(" check port ") for it in (room.all[0], b)], "the servers of the proxy")
    same("# of the package\n", b.text("/etc/haproxy/haproxy.cfg.before"), "the configuration before")
    if not lacks():
        same(['"127.0.0.1:8078", "127.0.0.1:8178"', '"127.0.0.1:8078"'], [targets_of(it) for it in (room.all[0], b)], "what Prometheus asks")


def of_the_page(room):
    """A flight is put, read, denied and deleted by the commands of the page."""
    lines = blocks_of("**A flight.**")[0].splitlines()
    made, calls = ([it for it in lines if it.startswith("call ") is it_calls] for it_calls in (False, True))
    ovn, machines = "", {it.name: it for it in room.all}
    for line in calls:
        where, status = re.search(r"# at (\w).*: (\d+)$", line).groups()
        said = machines[where].shell("\n".join(["token=tok-a", *made, line.replace("OVN", ovn)]))
        same(status, said.split()[-1], f"{line}, which printed {said}")
        ovn = ovn or re.search('"ovn":"([^"]+)"', said)[1]


def flights(room):
    """A flight that is put at a is read at b. One that meets it is denied at c."""
    of_the_page(room)
    a, b, c = room.all
    target = flight("tok-a", 1)[2]
    same(201, a.ask(PORT, *flight("tok-a", 1))[0], "a flight at a")
    for it, port in (b, PORT), (a, PORT + 100):
        same(200, it.ask(port, "tok-a", "GET", target)[0], f"the flight at {it.name}, {port}")
    same(409, c.ask(PORT, *flight("tok-b", 2))[0], "a flight that meets it, at c")
    for it in room.all:
        url = f"https://127.0.0.1{target}"
        same("200", it.shell(f"curl -sk -o /dev/null -w '%{{http_code}}' -H 'Authorization: Bearer tok-a' {url}"), f"the flight by the proxy of {it.name}")


def state_of(room):
    """Returns the files and the processes of all machines, and the content of the directories of the keeper and the organizations."""
    script = "find /etc /usr/local/lib/dss -type f -printf '%p %T@ %m %u %g\n' | sort; grep . /run/units/etcd /run/units/dss-pool@?? /run/units/haproxy"
    content = {it: it.read_bytes() for it in room.room.glob("**/*") if it.is_file() and "machine-" not in str(it)}
    return [it.shell(script) for it in room.all], content


def unchanged(room):
    """A further run changes no file and starts no unit again, also over the operator's own settings."""
    own = "haproxy/haproxy.cfg", "dss/tokens.toml", "systemd/system/dss-pool@.service", "default/etcd"
    room.all[1].shell("".join(f"echo '# own' >>/etc/{it};" for it in own))
    before = state_of(room)
    wants(room.keep(), 0, "all is done", ON)
    for got in room.organize_all():
        wants(got, room.done, ON)
    same(True, before == state_of(room), "nothing changes")


def below_root(room):
    """With --root, it writes the same files below a directory, and no others."""
    machine, files = room.all[2], ("etc/default/etcd", "etc/etcd/member.key", "etc/dss/c0.user", "etc/dss/c1.env", "etc/haproxy/haproxy.cfg")
    before = state_of(room)
    machine.shell("mkdir -p /run/root/var/lib/etcd/dss/member/wal && touch /run/root/var/lib/etcd/dss/member/wal/1.wal")
    machine.shell("mkdir -p /run/root/etc/default && cp /etc/default/etcd /run/root/etc/default")
    wants(room.organize(machine, "--root", "/run/root"), 2, "left: no unit was started", ON)
    machine.shell(" && ".join(f"cmp /{it} /run/root/{it}" for it in files))
    same(True, before == state_of(room), "nothing changes on the machine")


def lost_member(room):
    """A member that lost its log forms no new cluster. It joins once the keeper has added it again."""
    a, _, c = room.all
    c.shell("systemctl stop etcd && rm -r /var/lib/etcd/dss")
    wants(room.organize(c), 1, "the log in /var/lib/etcd/dss is gone", "--join")
    root = {"ETCDCTL_API": 3, "ETCDCTL_USER": (room.keeper / "root.user").read_text().strip()}
    member = next(it.split(", ")[0] for it in a.run("/", "etcdctl", "member", "list", **root)[1].splitlines() if c.address in it)
    for words in ("remove", member), ("add", "c", f"--peer-urls=https://{c.address}:2380"):
        until(lambda: a.run("/", "etcdctl", "member", *words, **root)[0] == 0, f"member {words}")
    until(lambda: room.organize(c, "--join", WAIT="30")[0] != 1, "the member joins")
    wants(room.organize(c), room.done, "ok: member c: a majority runs", "ok: instance c1: serving", ON)
    same(200, c.ask(PORT, "tok-a", "GET", flight("tok-a", 1)[2])[0], "the flight at c")


STEPS = certificates, members, authentication, instances, flights, unchanged, below_root
