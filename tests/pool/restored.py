"""Cases in which a pool loses its log, or the end of it, and all members of etcd are restored, as docs/POOL_OPERATE.md says."""
import json
import pathlib
import shutil

from cases import put
from deployed import (
    all_read, asks, block_of, control, files, is_up, marks, reaches, restore_members, revision_of, runs, same, same_members, stop_instances,
)
from doors import PROGRAM
from machines import Failed, command, until
from pool import Skipped
from sites import BACK, ETCD_PORT, INSTANCES, NAMES, kill, stop


def lost_since(sites):
    """Returns the numbers of the intents that were lost since an airspace was kept, as the page says."""
    given = block_of("**Keep what the instances know.**").replace("before.json", "after.json")
    same(0, runs(sites.sites[0], sites.room, given)[0], "what the instance knows")
    status, printed, errors = runs(sites.sites[0], sites.room, block_of("what differs is older now:"))
    same((1, ""), (status, errors), "the difference")
    found = [it for it in printed.splitlines() if '"id": ' in it]
    same([], [it for it in found if not it.startswith("< ")], "what is new")
    return {int(it.split('"')[3][-12:], 16) for it in found}


def restored_log(sites):
    """All members are restored from the backup of one, while no instance runs. Later changes are gone, and the airspaces show which."""
    backup = sites.room / "log.db"
    until(lambda: asks(sites.sites[0], put(3_009))[0] == 201, "a change before the backup", BACK)
    control(sites, "snapshot", "save", backup)
    same("0o600", oct(backup.stat().st_mode & 0o777), "the mode of the backup")
    until(lambda: asks(sites.sites[0], put(3_010))[0] == 201, "a change after the backup", BACK)
    all_read(sites.sites, 3_010)
    stop_instances(sites)
    restore_members(sites, backup)
    same_members(sites)
    for it in sites.sites:
        it.start_instance()
    all_read(sites.sites, 3_009)
    all_read(sites.sites, 3_010, 404)
    same({3_010}, lost_since(sites), "what is lost")
    until(lambda: asks(sites.sites[1], put(3_011))[0] == 201, "a change after the restart", BACK)
    all_read(sites.sites, 3_011)


def database_of(site, room, revision):
    """Returns a copy of the database of a member that was killed. It starts alone until it has made what is in its write-ahead log."""
    log = room / "log-of-one.db"

    def has_all():
        site.start_member()
        until(lambda: is_up(site, ETCD_PORT) or reaches(site, site.address, 2380), "the member starts", BACK)
        stop(site.member)
        shutil.copy(site.own / "dss" / "member" / "snap" / "db", log)
        return json.loads(command("env", "ETCDCTL_API=3", "etcdctl", "snapshot", "status", log, "-w", "json"))["revision"] >= revision

    until(has_all, "the database has the revision", BACK)
    return log


def without_two(sites, number):
    """Two members lose their data with a change that the third one has not received. The third one was killed
    before. Returns the revision that it has."""
    third, others = sites.sites[2], sites.sites[:2]
    until(lambda: asks(third, put(number))[0] == 201, "a change before", BACK)
    all_read(sites.sites, number)
    same_members(sites)
    revision = sites.end_of_log()
    kill(third.member)
    until(lambda: asks(others[0], put(number + 1))[0] == 201, "a change without the third one", BACK)
    all_read(others, number + 1)
    for it in others:
        kill(it.member)
        shutil.rmtree(it.own / "dss")
    return revision


def lost_majority(sites):
    """Two members lose their data. All are restored from the database of the third one, while no instance runs."""
    revision = without_two(sites, 3_012)
    same(True, revision_of(sites.sites[0]) > revision, "the first instance has a later change")
    stop_instances(sites)
    restore_members(sites, database_of(sites.sites[2], sites.room, revision), "--skip-hash-check=true")
    same_members(sites)
    words = "get", "in/", "--prefix", "--keys-only", "--sort-by=MODIFY", "--order=DESCEND", "--limit=1", "-w", "fields"
    same([f'"ModRevision" : {revision}'], [it for it in control(sites, *words).splitlines() if "ModRevision" in it], "the end of the log")
    for it in sites.sites:
        it.start_instance()
    all_read(sites.sites, 3_012)
    all_read(sites.sites, 3_013, 404)
    same({3_013}, lost_since(sites), "what is lost")
    until(lambda: asks(sites.sites[0], put(3_013))[0] == 201, "a change after", BACK)
    all_read(sites.sites, 3_013)


def forked(sites):
    """An instance that keeps running over a log without its last changes, which became longer, ends with a loss of its own."""
    if b"diverged" not in pathlib.Path(PROGRAM).read_bytes():
        raise Skipped("the program does not know the loss diverged")
    first, second, third = sites.sites
    revision = without_two(sites, 3_100)
    for it in second, third:
        stop(it.instance)
    restore_members(sites, database_of(third, sites.room, revision), "--skip-hash-check=true")
    third.start_instance()
    for number in range(3_110, 3_122):
        until(lambda: asks(third, put(number))[0] == 201, "a change over the restored log", BACK)
    if not first.instance.wait(BACK):
        raise Failed("the instance ended with status 0")
    losses = [it for it in first.said(20) if it.startswith(("dss: pool: diverged: ", "dss: pool: shortened: "))]
    same(1, len(losses), f"what the instance said: {first.said(20)}")
    for it in first, second:
        it.start_instance()
    all_read(sites.sites, 3_121)
    all_read(sites.sites, 3_101, 404)


def lost_etcd(sites):
    """All members lose their data. A new log begins with the newest file. Later changes are gone, and the airspaces show which."""
    site = sites.sites[0]
    if not (site.own / "files").exists():
        files(sites)
    until(lambda: asks(site, put(3_015))[0] == 201, "a change in the file", BACK)
    newest = site.own / "files" / marks(sites, site)[-1]
    until(lambda: asks(site, put(3_016))[0] == 201, "a change behind the file", BACK)
    all_read(sites.sites, 3_016)
    stop_instances(sites)
    for it in sites.sites:
        stop(it.member)
        shutil.rmtree(it.own / "dss")
        (it.own / "files").rename(it.own / "files.old")
        (it.own / "files").mkdir()
    for it in sites.sites:
        it.start_member(ETCD_INITIAL_CLUSTER_TOKEN="dss-pool-2")
    sites.await_leader()
    sites.make_users("users-2", (*INSTANCES, *(f"{it}0" for it in NAMES)))
    words = ["--tokens", site.own / "tokens.toml", "--db", site.own / "files.old" / newest.name, "--files", site.own / "files"]
    first = command(PROGRAM, "begin", *words).strip()
    for it in sites.sites:
        if it is not site:
            shutil.copy(site.own / "files" / first, it.own / "files")
        it.start_instance("--files", it.own / "files")
    all_read(sites.sites, 3_015)
    all_read(sites.sites, 3_016, 404)
    same({3_016}, lost_since(sites), "what is lost")
    until(lambda: asks(sites.sites[1], put(3_016))[0] == 201, "a change after", BACK)
    all_read(sites.sites, 3_016)
    marks(sites, site)
