"""Cases of the files of deploy/pool: certificates and users over real members, the proxy over two instances, and alerts.

And a case of planted faults, which the judgement of the rounds rejects."""
import contextlib
import http.client
import json
import pathlib
import secrets
import shlex
import shutil
import signal
import ssl
import subprocess
import tempfile
import time

import conforms
import drawn_calls
import history
import wire
from cases import get, put
from doors import PROGRAM, Exchange
from file_cases import COMPACTED, copy_file
from machines import Failed, command, connect, until
from pool import Skipped
from program import TOP
from sites import ADMIN_PORT, BACK, DEPLOY, ETCD_PORT, NAMES, PORT, READ, code, kill, stop

SECOND, SECOND_PORT, SECOND_ADMIN = "a2", 8180, 8178
ETCD_METRICS_PORT = 2381
UNREACHABLE, UNKNOWN = ((503, f'{{"message":"{it}"}}') for it in ("unreachable", "unknown"))
NO_SERVICE = (503, '{"message":"proxy: the service is not available; nothing was sent"}')


def same(wanted, got, what):
    if wanted != got:
        raise Failed(f"{what}: wanted {wanted}, got {got}")


# ---- certificates and users


def status_of(site, path, body, token=None):
    """Returns the status of a member's response."""
    try:
        site.ask_member(path, body, token)
        return 200
    except OSError as error:
        return int(str(error).split()[1])


def reaches(site, address, port):
    with contextlib.suppress(OSError):
        connect(site.network.pid, address, port, 2).close()
        return True
    return False


def speaks_tls(site, address, own=None):
    """Returns whether a member speaks TLS with one that has the certificate of this site, or none."""
    context = ssl.create_default_context(cafile=str(site.own / "ca.crt"))
    if own:
        context.load_cert_chain(str(own / "member.crt"), str(own / "member.key"))
    try:
        with context.wrap_socket(connect(site.network.pid, address, 2380, 2), server_hostname=address) as connection:
            connection.sendall(b"GET /version HTTP/1.1\r\nHost: member\r\nConnection: close\r\n\r\n")
            return connection.recv(100).startswith(b"HTTP/1.1 200")
    except OSError:
        return False


def users(sites):
    """An instance writes its own key only, and members accept no one without a certificate."""
    site, other = sites.sites[:2]
    if not (site.own / f"{SECOND}.user").exists():
        later_users(sites)
    # An instance whose key another process writes would end, so it is one that does not run yet.
    name, password = (site.own / f"{SECOND}.user").read_text().strip().split(":")
    token = site.ask_member("/v3/auth/authenticate", {"name": name, "password": password})["token"]
    asked = lambda key, who: status_of(site, "/v3/kv/put", {"key": code(key), "value": code("no entry")}, who)
    same([200, 403, 403, 403, 400], [asked("in/a2", token), asked("in/a1", token), asked("in/", token), asked("x", token), asked("in/a2", None)],
         "who may write")
    same([403, 403], [asked("in/@suppliers", token), status_of(site, "/v3/kv/deleterange", {"key": code("in/@suppliers")}, token)], "who may write the list")
    read = lambda first, end, who: status_of(site, "/v3/kv/range", {"key": code(first), "range_end": code(end)}, who)
    same([200, 403, 403, 400], [read("in/", "in0", token), read("in/", "io", token), read("a", "b", token), read("in/", "in0", None)],
         "who may read")
    same([403, 403], [status_of(site, it, {"name": "c"}, token) for it in ("/v3/auth/user/get", "/v3/auth/user/delete")], "who administers")
    same(False, reaches(other, site.address, ETCD_PORT), "etcd's client port is reached from another organization")
    same(False, reaches(other, site.address, PORT) or reaches(other, site.address, ADMIN_PORT), "an instance is reached from another")
    same(True, speaks_tls(other, site.address, other.own), "members speak")
    same(False, speaks_tls(other, site.address), "a stranger speaks to a member")
    same("0o600", oct((sites.room / "users" / "a1.user").stat().st_mode & 0o777), "the mode of the user's file")


def listed(sites):
    """The script puts the supplier list as root, and shows it to an instance's user. The organizations of the list serve its USSs."""
    site, folder = sites.sites[0], sites.room / "users"
    if not (site.own / f"{SECOND}.user").exists():
        later_users(sites)
    words = ["nsenter", "-t", site.network.pid, "-n", "env", "-C", folder]
    file, tokens = folder / "suppliers.txt", drawn_calls.ALL_TOKENS
    file.write_text("".join(f"{it.name} {uss}\n" for it in sites.sites for uss in sorted({uss for uss, _ in tokens.values()})))
    said = command(*words, DEPLOY / "suppliers", file)
    same(sorted(f"added: {it}" for it in file.read_text().splitlines()), sorted(said.splitlines()), "what the script added")
    same(file.read_text(), command(*words, f"ETCD_USER={site.own / SECOND}.user", DEPLOY / "suppliers", "--show"), "the list in force")
    (folder / "others.txt").write_text("a uss-x\n")
    for given in ("--remove", "others.txt"), ("--everyone",):
        with contextlib.suppress(OSError):
            command(*words, f"ETCD_USER={site.own / SECOND}.user", DEPLOY / "suppliers", *given)
            raise Failed(f"suppliers {given} succeeded as {SECOND}")
    for it in sites.sites:
        until(lambda: asks(it, put(2_900 + NAMES.index(it.name)))[0] == 201, "a change with the list", BACK)
    all_read(sites.sites, 2_900)
    command(*words, DEPLOY / "suppliers", "--everyone")
    same("", command(*words, DEPLOY / "suppliers", "--show"), "the empty list")


def later_users(sites):
    """The script makes the user of a further instance, and keeps the others and those that it made before."""
    site, folder = sites.sites[0], sites.room / "users"
    words = ["nsenter", "-t", site.network.pid, "-n", "env", "-C", folder, DEPLOY / "make-users"]
    command(*words, SECOND)
    shutil.copy(folder / f"{SECOND}.user", site.own)
    before = [(folder / f"{it}.user").read_text() for it in ("a1", SECOND, "root")]
    command(*words, "a1", SECOND)
    same(before, [(folder / f"{it}.user").read_text() for it in ("a1", SECOND, "root")], "the files after a second run")
    for wrong in ("a/b",), ("root",), ("a-file",), ():
        with contextlib.suppress(OSError):
            command(*words, *wrong)
            raise Failed(f"make-users {wrong} succeeded")


# ---- the proxy


class Proxy:
    """HAProxy with deploy/pool/haproxy.cfg in the network of an organization, perhaps with the check by a read."""

    def __init__(self, site, token=None):
        self.site, self.folder = site, site.own / f"proxy{token or ''}"
        self.folder.mkdir()
        command("openssl", "req", "-x509", "-newkey", "ec", "-pkeyopt", "ec_paramgen_curve:P-256", "-noenc", "-keyout", self.folder / "key",
                "-out", self.folder / "certificate", "-days", "2", "-subj", "/CN=pool", "-addext", "subjectAltName=IP:127.0.0.1")
        pem = "".join((self.folder / it).read_text() for it in ("certificate", "key"))
        (self.folder / "dss.pem").write_text(pem)
        text = (DEPLOY / "haproxy.cfg").read_text().replace("/etc/haproxy", str(self.folder)).replace("log /dev/log local0", "")
        if token:
            text = by_read(text, token)
        (self.folder / "haproxy.cfg").write_text(text)
        command("haproxy", "-c", "-f", self.folder / "haproxy.cfg")
        self.process = site.network.start(["haproxy", "-db", "-f", self.folder / "haproxy.cfg"], self.folder / "said")
        self.context = ssl.create_default_context(cafile=str(self.folder / "certificate"))

    def ask(self, call, limit=60):
        """Returns the status and the body of a response."""
        method, target, authorization, body = call
        connection = http.client.HTTPSConnection("127.0.0.1", 443, timeout=limit)
        connection.sock = self.context.wrap_socket(connect(self.site.network.pid, "127.0.0.1", 443, limit), server_hostname="127.0.0.1")
        with contextlib.closing(connection):
            connection.request(method, target, body, {"Authorization": authorization})
            answer = connection.getresponse()
            text = answer.read().decode()
        conforms.check(method, target, answer.status, text)
        return answer.status, text


def by_read(text, token):
    """Returns a configuration in which the proxy checks the instances by a read."""
    head, mark, rest = text.partition("backend dss\n")
    backend, silent, tail = rest.partition("# The instances that respond at all.")
    for line in ("    option httpchk GET /health\n", "    http-check expect rstring ^(serving|degraded)\n", " port 8078", " port 8178"):
        backend = backend.replace(line, "")
    return head + mark + backend.replace("#READ ", "").replace("TOKEN", token) + silent + tail


def proxy_by_read(sites):
    """The proxy that checks by a read gives no request to an instance that has not read the log."""
    site = sites.sites[0]
    if not (site.own / f"{SECOND}.user").exists():
        later_users(sites)
    second = start_second(site)
    way = Proxy(site, "tok-bm")
    numbers = iter(range(4_000, 5_000))
    changed = lambda: way.ask(put(next(numbers)))[0]
    try:
        until(lambda: is_up(site, 443), "the proxy listens", BACK)
        for port in PORT, SECOND_PORT:
            until(lambda: answers(site, port), f"the instance at {port} has read the log", BACK)
        until(lambda: changed() == 201, "the proxy reaches an instance", BACK)
        kill(second)
        until(lambda: [changed() for _ in range(5)] == [201] * 5, "one instance is killed", BACK)
        # No member gives it the log.
        words = site.words(SECOND, SECOND_PORT, SECOND_ADMIN)
        words[words.index("--pool") + 1] = "127.0.0.1:9"
        second = site.network.start(words, site.own / "second.log")
        until(lambda: is_up(site, SECOND_PORT), "it listens", BACK)
        same({201}, {changed() for _ in range(200)}, "one instance has not read the log")
    finally:
        for it in second, way.process:
            kill(it)


def start_second(site):
    """Starts a second instance of an organization."""
    words = list(site.words(SECOND, SECOND_PORT, SECOND_ADMIN))
    return site.network.start(words, site.own / "second.log")


def proxy(sites):
    """The proxy gives requests to an instance whose log answers, if there is one, and otherwise to one that responds."""
    site = sites.sites[0]
    if not (site.own / f"{SECOND}.user").exists():
        later_users(sites)
    second = start_second(site)
    way = Proxy(site)
    denied = ("GET", READ[1], "Bearer nobody", None)
    numbers = iter(range(1, 1_000))
    changed = lambda: way.ask(put(next(numbers)))[0]
    reads = lambda: way.ask(READ)[0]
    # An instance answers reads once it has read the log.
    ready = lambda port: until(lambda: answers(site, port), f"the instance at {port} has read the log", BACK)
    try:
        until(lambda: is_up(site, 443), "the proxy listens", BACK)
        ready(PORT), ready(SECOND_PORT)
        until(lambda: changed() == 201, "the proxy reaches an instance", BACK)
        same([201] * 20, [changed() for _ in range(20)], "changes")
        for port in ADMIN_PORT, SECOND_ADMIN:
            answered = int(next(it for it in asked(site, port, "/metrics").splitlines() if it.startswith("dss_requests_total{")).split()[1])
            if not answered:
                raise Failed(f"the instance at {port} got no requests")
        kill(site.instance)
        until(lambda: changed() == 201, "a change is taken by the other instance", 5)
        same([(200, 201)] * 20, [(reads(), changed()) for _ in range(20)], "one instance is killed")
        site.start_instance()
        ready(PORT)
        time.sleep(3)
        second.send_signal(signal.SIGSTOP)
        time.sleep(5)
        same([(200, 201)] * 20, [(reads(), changed()) for _ in range(20)], "one instance is frozen")
        second.send_signal(signal.SIGCONT)
        site.member.send_signal(signal.SIGSTOP)
        time.sleep(7)
        # The instance has sent the change to the member, which may still take it.
        same([UNREACHABLE, UNKNOWN], [way.ask(READ), way.ask(put(2_000))], "the log is silent")
        same(401, way.ask(denied)[0], "a denial while the log is silent")
        site.member.send_signal(signal.SIGCONT)
        until(lambda: reads() == 200 and changed() == 201, "the pool answers again", BACK)
        time.sleep(3)
        for it in site.instance, second:
            kill(it)
        time.sleep(3)
        same([NO_SERVICE, NO_SERVICE], [way.ask(READ), way.ask(put(2_001))], "both are killed")
        site.start_instance()
        until(lambda: reads() == 200, "an instance is back", BACK)
    finally:
        for it in second, way.process:
            kill(it)


def answers(site, port):
    """Returns whether an instance answers a read."""
    connection = http.client.HTTPConnection("127.0.0.1", port, timeout=10)
    with contextlib.suppress(OSError), contextlib.closing(connection):
        connection.sock = connect(site.network.pid, "127.0.0.1", port, 10)
        connection.request(READ[0], READ[1], None, {"Authorization": READ[2]})
        return connection.getresponse().status == 200
    return False


def stopped(sites):
    """The command by which the unit stops an instance ends it with status 0."""
    site = sites.sites[0]
    if not (site.own / f"{SECOND}.user").exists():
        later_users(sites)
    second = start_second(site)
    try:
        until(lambda: answers(site, SECOND_PORT), "the instance has read the log", BACK)
        lines = (DEPLOY / "dss-pool@.service").read_text().splitlines()
        line = next(it for it in lines if it.startswith("ExecStop=")).removeprefix("ExecStop=-")
        # systemd expands these.
        words = shlex.split(line.replace("$$", "$").replace("\\\\", "\\"))
        words = ["env", f"ADMIN_PORT={SECOND_ADMIN}", f"MAINPID={second.pid}", *words]
        stop = site.network.start(words, site.own / "stop.log")
        same([0, 0], [second.wait(BACK), stop.wait(BACK)], "the status of the instance and of the command")
    finally:
        kill(second)


def is_up(site, port):
    with contextlib.suppress(OSError):
        return connect(site.network.pid, "127.0.0.1", port, 2).close() is None
    return False


def asked(site, port, path):
    """Returns the body of a response of an admin port."""
    connection = http.client.HTTPConnection("127.0.0.1", port, timeout=10)
    connection.sock = connect(site.network.pid, "127.0.0.1", port, 10)
    with contextlib.closing(connection):
        connection.request("GET", path)
        return connection.getresponse().read().decode()


# ---- members that are replaced, restored and removed


def control(sites, *words, at=None):
    """Runs etcdctl as root in an organization, by default in the first one."""
    sites.await_leader()
    user = ":".join(sites.root)
    return command("nsenter", "-t", (at or sites.sites[0]).network.pid, "-n", "env", "ETCDCTL_API=3", f"ETCDCTL_USER={user}", "etcdctl", *words)


def controls(sites, *words, at=None):
    """Does the same again and again: etcd changes its members only while they have been connected for five seconds."""
    def tried():
        with contextlib.suppress(OSError):
            return control(sites, *words, at=at)

    return until(tried, " ".join(words), BACK)


def member_id(sites, name):
    """Returns the id of a member of etcd."""
    found = [it.split(", ") for it in control(sites, "member", "list").splitlines()]
    return next(it[0] for it in found if it[2] == name)


def all_read(sites, index, status=200):
    """Waits until each instance answers a read of an intent with this status."""
    call = get(index)
    for it in sites:
        until(lambda: asks(it, call)[0] == status, f"{it.name} shows {index}", BACK)


def asks(site, call):
    """Returns the response of an organization's instance."""
    way = Exchange(site)
    try:
        return way.ask(call)
    except OSError:
        return 0, b""
    finally:
        way.close()


def replaced_member(sites):
    """A member that lost its data is replaced, as docs/POOL_OPERATE.md says. Meanwhile the others take changes."""
    site = sites.sites[2]
    until(lambda: asks(sites.sites[0], put(3_000))[0] == 201, "a change", BACK)
    kill(site.member)
    shutil.rmtree(site.own / "dss")
    until(lambda: asks(sites.sites[0], put(3_001))[0] == 201, "a change without the member", BACK)
    controls(sites, "member", "remove", member_id(sites, site.name))
    controls(sites, "member", "add", site.name, f"--peer-urls=https://{site.address}:2380")
    site.start_member(ETCD_INITIAL_CLUSTER_STATE="existing")
    all_read(sites.sites, 3_001)
    until(lambda: asks(site, put(3_002))[0] == 201, "a change at the new member", BACK)
    kill(sites.sites[1].member)
    until(lambda: asks(site, put(3_003))[0] == 201, "a change over the new member", BACK)
    sites.sites[1].start_member()
    all_read(sites.sites, 3_003)


def revision_of(site):
    """Returns the revision up to which an instance has read the log."""
    return next(int(it.split()[1]) for it in asked(site, ADMIN_PORT, "/metrics").splitlines() if it.startswith("dss_pool_revision "))


def blocks_of(words, indent=4):
    """Returns the blocks of commands behind these words of docs/POOL_OPERATE.md, up to the next text."""
    found = [[]]
    for line in (TOP / "docs" / "POOL_OPERATE.md").read_text().partition(words)[2].splitlines()[1:]:
        if line.startswith(indent * " "):
            found[-1].append(line[indent:])
        elif line and found != [[]]:
            break
        elif found[-1]:
            found.append([])
    return ["\n".join(it) for it in found if it]


def block_of(words, indent=7):
    """Returns the first one."""
    return blocks_of(words, indent)[0]


def runs(site, folder, script):
    """Runs commands in an organization and a directory. Returns the status and what they printed."""
    return within(site, {}, "bash", "-c", f"cd {shlex.quote(str(folder))} && {script}")


def stop_instances(sites):
    """Stops all instances. Keeps the airspace of the one that had read most of the log, as the page says."""
    newest = max(sites.sites, key=revision_of)
    given = block_of("**Keep what the instances know.**")
    same((0, f"dss_pool_revision {revision_of(newest)}\n", ""), runs(newest, sites.room, given), "what the instance knows")
    same(newest.pages(), [json.loads(it) for it in (sites.room / "before.json").read_text().splitlines()], "the kept airspace")
    for it in sites.sites:
        stop(it.instance)


def same_members(sites):
    """Waits until all members have the same content."""
    revision = sites.end_of_log()

    def hashes():
        words = "endpoint", "hashkv", "--rev", str(revision), "-w", "json"
        return {json.loads(controls(sites, *words, at=it))[0]["HashKV"]["hash"] for it in sites.sites}

    until(lambda: len(hashes()) == 1, "the members have one content", BACK)


def restore_members(sites, log, *more):
    """Stops all members, and restores each of them from the same file, as a cluster with a new token. No instance runs meanwhile."""
    token = f"dss-pool-{secrets.token_hex(8)}"
    for it in sites.sites:
        stop(it.member)
        shutil.rmtree(it.own / "dss", ignore_errors=True)
        settings = it.settings()
        words = ["--name", it.name, "--initial-cluster", settings["ETCD_INITIAL_CLUSTER"], "--data-dir", settings["ETCD_DATA_DIR"]]
        words += ["--initial-advertise-peer-urls", settings["ETCD_INITIAL_ADVERTISE_PEER_URLS"]]
        words += ["--initial-cluster-token", token]
        command("env", "ETCDCTL_API=3", "etcdctl", "snapshot", "restore", log, *words, *more)
    for it in sites.sites:
        it.start_member()


# ---- files


def within(site, given, *words):
    """Runs a program in an organization. Returns its status and what it printed."""
    words = ["nsenter", "-t", site.network.pid, "-n", "env", *(f"{name}={value}" for name, value in given.items()), *words]
    done = subprocess.run([str(it) for it in words], stdin=subprocess.DEVNULL, capture_output=True, text=True, timeout=BACK)
    return done.returncode, done.stdout, done.stderr


def mark_of(sites, site):
    """Returns the revision in the mark of an organization, or None."""
    line = control(sites, "get", f"mark/{site.name}0", "--print-value-only").strip()
    return int(line.split()[0]) if line else None


def marks(sites, site):
    """Runs `mark` of an organization. Returns the names of its files, the oldest first, whose last one it prints."""
    folder, name = site.own / "files", f"{site.name}0"
    folder.mkdir(exist_ok=True)
    given = {"FILES": folder, "TOKENS": site.own / "tokens.toml", "ETCD_USER": site.own / f"{name}.user", "DSS": PROGRAM}
    status, printed, errors = within(site, given, DEPLOY / "mark", name)
    found = sorted(it.name for it in folder.glob("*-*.db"))
    same((0, f"{found[-1]}\n"), (status, printed), f"mark {name}, which printed {errors!r}")
    same(int(found[0][:20]) if len(found) == 2 else None, mark_of(sites, site), "the mark")
    return found


def compacts(site, *words):
    """Runs `compact` of an organization."""
    name = f"{site.name}0"
    return within(site, {"ETCD_USER": site.own / f"{name}.user"}, DEPLOY / "compact", name, *words)


def starts_from(site, folder):
    """The second instance of an organization starts from the files in a directory."""
    words = [*site.words(SECOND, SECOND_PORT, SECOND_ADMIN), "--files", folder]
    second = site.network.start(words, site.own / "second.log")
    try:
        until(lambda: answers(site, SECOND_PORT), "the instance has read the log", BACK)
    finally:
        kill(second)


def newest_of(site):
    return max((site.own / "files").glob("*-*.db"))


def takes_newest(site, other):
    """An organization whose files are too old removes them, and takes the newest one of another organization."""
    for old in (site.own / "files").glob("*-*.*"):
        old.unlink()
    copy_file(newest_of(other), site.own / "files")


def files(sites):
    """Each organization writes files and marks them, the log is compacted to the least mark, and instances start from files."""
    site, other = sites.sites[:2]
    if not (site.own / f"{SECOND}.user").exists():
        later_users(sites)
    folder = sites.room / "users"
    command("nsenter", "-t", site.network.pid, "-n", "env", "-C", folder, DEPLOY / "make-users", *(f"{it.name}0" for it in sites.sites))
    for it in sites.sites:
        shutil.copy(folder / f"{it.name}0.user", it.own)
    name, password = (site.own / "a0.user").read_text().strip().split(":")
    token = site.ask_member("/v3/auth/authenticate", {"name": name, "password": password})["token"]
    asked = lambda key: status_of(site, "/v3/kv/put", {"key": code(key), "value": code("1 1")}, token)
    same([403, 403, 403], [asked(it) for it in ("mark/b0", "mark/", "in/a1")], "which marks a user may put")
    same((0, "compact: there is no mark yet\n", ""), compacts(site), "a compaction without marks")
    for number, it in enumerate(sites.sites):
        until(lambda: asks(site, put(6_000 + 2 * number))[0] == 201, "a change", BACK)
        same(1, len(marks(sites, it)), "files")
        until(lambda: asks(site, put(6_001 + 2 * number))[0] == 201, "a change", BACK)
        same(2, len(marks(sites, it)), "files")
    least = min(mark_of(sites, it) for it in sites.sites)
    for it in site, other:
        same((0, f"compact: the log begins behind revision {least}\n", ""), compacts(it), "a compaction")
    starts_from(site, site.own / "files")
    bare = start_second(site)
    same(1, bare.wait(BACK), "the status of an instance without files")
    same(COMPACTED, (site.own / "second.log").read_text().splitlines()[-1], "what it said")
    # a file of another organization
    copied = site.own / "copied"
    copied.mkdir()
    copy_file(newest_of(other), copied)
    starts_from(site, copied)
    # values that are no marks
    wrong = {"nonsense": "nonsense is no mark", "1": "1 is no mark", "900000000 1": "etcd has not reached revision 900000000"}
    for number, (text, why) in enumerate(wrong.items(), 6_010):
        control(sites, "put", "mark/b0", text)
        until(lambda: asks(site, put(number))[0] == 201, "a change", BACK)
        marks(sites, site), marks(sites, sites.sites[2])
        least = min(mark_of(sites, it) for it in sites.sites if it is not other)
        same((0, f"compact: the log begins behind revision {least}\n", f"compact: mark/b0 does not count: {why}\n"), compacts(site), text)
    # an organization without which the log is compacted
    takes_newest(other, site)
    until(lambda: asks(site, put(6_040))[0] == 201, "a change", BACK)
    late = marks(sites, other)[0]
    for number in 6_041, 6_042:
        until(lambda: asks(site, put(number))[0] == 201, "a change", BACK)
        marks(sites, site), marks(sites, sites.sites[2])
    same((0, f"compact: the log begins behind revision {int(late[:20])}\n", ""), compacts(site), "with an organization that is late")
    least = min(mark_of(sites, it) for it in sites.sites if it is not other)
    same((0, f"compact: the log begins behind revision {least}\n", ""), compacts(site, "--without", "b0"), "without it")
    gone = f"compact: mark/b0 does not count: the log begins behind revision {int(late[:20])}\n"
    same((0, f"compact: the log begins behind revision {least}\n", gone), compacts(site), "after that")
    for it in sites.sites:
        control(sites, "put", f"mark/{it.name}0", "nonsense")
    status, printed, errors = compacts(site)
    same((1, "", "compact: no mark counts"), (status, printed, errors.splitlines()[-1]), "no mark")
    takes_newest(other, site)
    for it in sites.sites:
        until(lambda: asks(site, put(6_020 + NAMES.index(it.name)))[0] == 201, "a change", BACK)
        marks(sites, it)
    all_read(sites.sites, 6_022)


def restored_files(sites):
    """All members are restored from a backup of a compacted log, and all instances start from the file of the backup."""
    site, backup = sites.sites[0], sites.room / "files.db"
    if not (site.own / "files").exists():
        files(sites)
    file = sites.room / newest_of(site).name
    copy_file(newest_of(site), sites.room)
    until(lambda: asks(site, put(6_030))[0] == 201, "a change before the backup", BACK)
    control(sites, "snapshot", "save", backup)
    until(lambda: asks(site, put(6_031))[0] == 201, "a change after the backup", BACK)
    late = marks(sites, site)[-1]
    copy_file(site.own / "files" / late, sites.room)
    stop_instances(sites)
    restore_members(sites, backup)
    for it in sites.sites:
        for old in (it.own / "files").iterdir():
            old.unlink()
    # a file of a later time is refused while the log is shorter
    copy_file(sites.room / late, site.own / "files")
    site.start_instance("--files", site.own / "files")
    same(3, site.instance.wait(BACK), "the status of an instance with a later file")
    same(
        "dss: pool: shortened: etcd lost entries of the log; stop all instances of the pool, and restore etcd",
        site.said(1)[0],
        "what it said",
    )
    for it in (site.own / "files").glob("*-*.*"):
        it.unlink()
    for it in sites.sites:
        copy_file(file, it.own / "files")
        it.start_instance("--files", it.own / "files")
    all_read(sites.sites, 6_030)
    all_read(sites.sites, 6_022)
    all_read(sites.sites, 6_031, 404)
    until(lambda: asks(sites.sites[1], put(6_032))[0] == 201, "a change after the restart", BACK)
    all_read(sites.sites, 6_032)
    marks(sites, site)


def left(sites):
    """An organization leaves: its instance and its member go, and its user. The others go on, and need each other."""
    site, rest = sites.sites[2], sites.sites[:2]
    kill(site.instance)
    for words in ("user", "delete", f"{site.name}1"), ("role", "delete", f"{site.name}1"), ("member", "remove", member_id(sites, site.name)):
        controls(sites, *words)
    site.member.wait(BACK)
    until(lambda: asks(rest[0], put(3_020))[0] == 201, "a change of those that stay", BACK)
    all_read(rest, 3_020)


# ---- the alerts

# How the metrics of node_exporter begin, with those that node-metrics writes for it.
OF_NODE = "node_", "dss_pool_files_", "dss_pool_certificate_", "dss_pool_port_"
FAILED_UNIT = 'node_systemd_unit_state{name="dss-follow@a0.service",state="failed"}'
TIMER = 'node_systemd_unit_state{{name="dss-{}@a0.timer",state="active"}}'
# For each alert: the series that fire it, and those that do not, in promtool's notation; and the labels of the series that it has.
ALERTS = {
    "DssPoolLogSilent": ({"dss_pool_silence_seconds": "0x35 11x5"}, {"dss_pool_silence_seconds": "11x20 10x20"}),
    "DssPoolInstanceStopped": ({'up{job="dss"}': "1x35 0x5"}, {'up{job="dss"}': "0x20 1x20"}, {"job": "dss"}),
    "DssPoolLogShortened": ({"dss_pool_revision": "9x30 8x10"}, {"dss_pool_revision": "9x20 9+1x20"}),
    "DssPoolDiffers": ({"dss_pool_organizations_differing": "0x35 1x5"}, {"dss_pool_organizations_differing": "1x20 0x20"}),
    "DssPoolNoLeader": ({"etcd_server_has_leader": "1x35 0x5"}, {"etcd_server_has_leader": "0x20 1x20"}),
    "DssPoolNearlyFull": (
        {"etcd_mvcc_db_total_size_in_bytes": "76x40", "etcd_server_quota_backend_bytes": "100x40"},
        {"etcd_mvcc_db_total_size_in_bytes": "75x40", "etcd_server_quota_backend_bytes": "100x40"},
    ),
    "DssPoolFullSoon": (
        {"etcd_mvcc_db_total_size_in_bytes": "0+1x800", "etcd_server_quota_backend_bytes": "40000x800"},
        {"etcd_mvcc_db_total_size_in_bytes": "0+1x800", "etcd_server_quota_backend_bytes": "50000x800"},
    ),
    "DssPoolBatchOpen": (
        {"dss_pool_batches_open": "1x40", "dss_pool_entries_total": "0+9x30 270x10"},
        {"dss_pool_batches_open": "1x40", "dss_pool_entries_total": "0+9x40"},
    ),
    "DssPoolRequestsWaiting": ({"dss_pool_requests_waiting": "101x40"}, {"dss_pool_requests_waiting": "101x38 100 101"}),
    "DssPoolUnavailable": (
        {'dss_requests_total{status="503"}': "0+2x40", 'dss_requests_total{status="200"}': "0+8x40"},
        {'dss_requests_total{status="503"}': "0+1x40", 'dss_requests_total{status="200"}': "0+19x40"},
    ),
    "DssPoolBehind": (
        {"dss_pool_revision": "1700x40", "etcd_debugging_mvcc_current_revision": "1600+30x40"},
        {"dss_pool_revision": "100x40", "etcd_debugging_mvcc_current_revision": "1600+15x40"},
    ),
    "DssPoolManyLeaders": (
        {"etcd_server_leader_changes_seen_total": "0x30 1+1x10"}, {"etcd_server_leader_changes_seen_total": "0x38 3x2"},
    ),
    "DssPoolMemberAway": ({"etcd_network_active_peers": "1x30 0x10"}, {"etcd_network_active_peers": "0x30 1x10"}),
    # The tests of promtool begin at the time 0, and have a sample each minute.
    "DssPoolClocksDiffer": ({"dss_pool_heard_time_seconds": "11+60x35 0x5"}, {"dss_pool_heard_time_seconds": "10+60x40"}),
    "DssPoolClockUnsynced": (
        {"node_timex_sync_status": "0x40", "node_timex_maxerror_seconds": "16x40"},
        {"node_timex_sync_status": "0x20 1x20", "node_timex_maxerror_seconds": "16x40"},
    ),
    "DssPoolFilesOld": ({"dss_pool_files_time_seconds": "299x40"}, {"dss_pool_files_time_seconds": "0x20 600x20"}),
    "DssPoolCertificateEnds": (
        {'dss_pool_certificate_end_seconds{file="a.crt"}': "2594399x40"}, {'dss_pool_certificate_end_seconds{file="a.crt"}': "2594400x40"},
        {"file": "a.crt"},
    ),
    "DssPoolPortOpen": ({"dss_pool_port_open": "1x40"}, {"dss_pool_port_open": "1x20 0x20"}),
    "DssPoolUnitFailed": (
        {FAILED_UNIT: "1x20 0 1x4 0 1x14"}, {FAILED_UNIT: "1x20 0x20"}, {"name": "dss-follow@a0.service"},
    ),
    "DssPoolTimerStopped": (
        {TIMER.format("follow"): "1x10 0x30", TIMER.format("compact"): "1x40"}, {TIMER.format("follow"): "1x40", TIMER.format("compact"): "1x40"},
    ),
    "DssPoolDiskFull": (
        {'node_filesystem_avail_bytes{mountpoint="/"}': "9x40", 'node_filesystem_size_bytes{mountpoint="/"}': "100x40"},
        {'node_filesystem_avail_bytes{mountpoint="/"}': "10x40", 'node_filesystem_size_bytes{mountpoint="/"}': "100x40"},
        {"mountpoint": "/"},
    ),
}


def alerts(_sites):
    """Each alert fires for its series, and for no others."""
    if not shutil.which("promtool"):
        raise Skipped("promtool is missing: install the package prometheus")
    import yaml

    rules = yaml.safe_load((DEPLOY / "prometheus-rules.yaml").read_text())["groups"][0]["rules"]
    same(sorted(ALERTS), sorted(it["alert"] for it in rules), "the alerts")
    tests = []
    for rule in rules:
        fires, rests, *labels = ALERTS[rule["alert"]]
        for series in fires, rests:
            text = rule["annotations"]["summary"].replace("{{ $labels.file }}", "a.crt")
            has = {"exp_labels": rule["labels"] | dict(*labels), "exp_annotations": {"summary": text}}
            fired = [has] if series is fires else []
            minutes = 800 if rule["alert"] == "DssPoolFullSoon" else 40
            asked = {"eval_time": f"{minutes}m", "alertname": rule["alert"], "exp_alerts": fired}
            given = [{"series": name, "values": values} for name, values in series.items()]
            tests.append({"interval": "1m", "input_series": given, "alert_rule_test": [asked]})
    with tempfile.TemporaryDirectory() as room:
        for name, file in (("prometheus.yml", DEPLOY), ("prometheus-rules.yaml", DEPLOY.parent)):
            shutil.copy(file / name, room)
        shutil.copy(DEPLOY / "prometheus-rules.yaml", f"{room}/pool-rules.yaml")
        command("promtool", "check", "config", f"{room}/prometheus.yml")
        file = pathlib.Path(room, "tests.yaml")
        file.write_text(yaml.safe_dump({"rule_files": ["pool-rules.yaml"], "evaluation_interval": "1m", "tests": tests}))
        command("promtool", "test", "rules", file)


def metrics(sites):
    """The instances and etcd have the metrics of the alerts."""
    site = sites.sites[0]
    had = {it.split("{")[0].split()[0] for port in (ADMIN_PORT, ETCD_METRICS_PORT) for it in asked(site, port, "/metrics").splitlines() if it}
    named = {it for series in ALERTS.values() for it in (name.split("{")[0] for name in series[0])}
    # Prometheus makes the first one itself. An instance has the others once it was given a call of another organization, and a request.
    # node_exporter has the rest.
    others = {"up", "dss_pool_heard_time_seconds", "dss_requests_total"}
    same([], sorted(it for it in named - had - others if not it.startswith(OF_NODE)), "metrics that nothing has")


# ---- the judgement of the rounds


def planted(_sites):
    """Responses that fit one service are accepted; planted faults are not."""
    path = f"{wire.AVAILABILITY}/uss-n"
    changes = []
    for number, (old, state) in enumerate((("", "Down"), (wire.ovn(1), "Normal"), ("", "Down"), (wire.ovn(2), "Down")), 1):
        body = json.dumps({"old_version": old, "availability": state}).encode()
        changes.append(history.numbered(("PUT", path, "Bearer tok-v", body), number))

    def entry(*calls):
        text = b"7 0 %s\ndss-batch 1\n" % (64 * b"0")
        for method, target, _, body in calls:
            parts = (b"3:PUT", f"{len(target)}:{target}".encode(), f"{len(body)}:".encode() + body)
            text += b"1790000000 5:uss-v ----a " + b" ".join(parts) + b"\n"
        return text

    model = history.Model()
    model.take(b"in/a", b"7 8")
    model.take(b"in/a", entry(*changes[:2]))
    model.take(b"in/b", entry(*changes[2:]))
    at = lambda number: model.places[number].response
    seen = [(200, airspace.ask("GET", path, "Bearer tok-v").body.encode()) for airspace in model.versions]
    same([(200, True), (200, True), (409, False), (200, True)], [(at(it)[0], model.places[it].changes) for it in range(1, 5)], "the policy")
    record = lambda number, sent, answered, got: history.Record(changes[number - 1], number, "a", sent, answered, got)
    read = lambda sent, answered, got: history.Record(("GET", path, "Bearer tok-v", None), 100, "b", sent, answered, got)
    none = history.Record(history.numbered(("PUT", path, "Bearer tok-v", b"{}"), 9), 9, "c", 1.0, 2.0, None)
    stale = history.numbered(("PUT", path, "Bearer tok-v", json.dumps({"old_version": "", "availability": "Normal"}).encode()), 10)
    denied = lambda sent, answered: history.Record(stale, 10, "c", sent, answered, at(3))
    good = [record(it, it, it + 0.5, at(it)) for it in range(1, 5)]
    accepted = {
        "in turn": good,
        "reads between": good + [read(1.6, 1.7, seen[1]), read(2.6, 2.7, seen[2]), read(4.6, 4.7, seen[3])],
        "a denial without an entry": good + [denied(3.6, 3.7)],
        "a read beside a change": good + [read(1.9, 2.6, seen[1]), read(2.1, 2.6, seen[2])],
        "no answer": [*good[:3], record(4, 4.0, 4.5, None), none, read(4.6, 4.7, seen[2][:1] + seen[3][1:])],
    }
    rejected = {
        "a denial of what is allowed": good + [denied(0.1, 0.2)],
        "a lost change": good + [history.Record(none.call, 9, "c", 1.0, 2.0, at(1))],
        "an unreachable change in the log": [*good[:3], record(4, 4.0, 4.5, history.UNREACHABLE)],
        "another response": [*good[:3], record(4, 4.0, 4.5, at(3))],
        "a read of the past": good + [read(2.6, 2.7, seen[1])],
        "a read of the future": good + [read(1.6, 1.7, seen[2])],
        "reads in turn that go back": good + [read(1.9, 2.2, seen[2]), read(2.3, 2.6, seen[1])],
        "a read of nothing": good + [read(1.6, 1.7, (200, b"{}"))],
        "a change before one that was answered": [record(1, 3.0, 3.5, at(1)), record(2, 1.0, 2.0, at(2)), *good[2:]],
    }
    for name, records in accepted.items():
        history.check(model, records)
    for name, records in rejected.items():
        with contextlib.suppress(Failed):
            history.check(model, records)
            raise AssertionError(f"accepted: {name}")
    with contextlib.suppress(Failed):
        model.take(b"in/b", entry(changes[0]))
        raise AssertionError("accepted: a call twice")
