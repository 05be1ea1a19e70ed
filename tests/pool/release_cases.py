"""Cases of an upgrade: instances of this release and of the one before serve one pool side by side."""
import gzip
import pathlib
import subprocess

from cases import TOKENS, Judge
from doors import PROGRAM, Pool, Skipped
from real_etcd import Cluster

TOP = pathlib.Path(__file__).resolve().parents[2]
RELEASE = "release/dss-x86_64-linux.gz"
POLICY = "tests/data/policy_definitions"


def shown(name, at="HEAD"):
    """Returns a file of a commit, or None if the repository does not have it."""
    done = subprocess.run(["git", "-C", TOP, "show", f"{at}:{name}"], capture_output=True)
    return None if done.returncode else done.stdout


def version(program):
    return subprocess.run([program, "--version"], capture_output=True, text=True, timeout=60).stdout


def policy(definitions):
    """Returns the number of the policy in tests/data/policy_definitions."""
    return definitions.split(b"\n")[-2].split()[0]


def before(room):
    """Returns the program of the release before this one, if both have the same policy."""
    done = subprocess.run(["git", "-C", TOP, "log", "-n", "8", "--format=%H", "--", RELEASE], capture_output=True, text=True)
    for commit in done.stdout.split():
        packed, definitions = shown(RELEASE, commit), shown(POLICY, commit)
        if packed is None or definitions is None:
            break
        program = pathlib.Path(room) / "before"
        program.write_bytes(gzip.decompress(packed))
        program.chmod(0o755)
        if version(program) != version(PROGRAM):
            if policy(definitions) != policy((TOP / POLICY).read_bytes()):
                raise Skipped("the release before has another policy")
            return program
    raise Skipped("the history of the repository has no release before")


def upgrade(pool, door, program):
    """Starts an instance again, with another program."""
    door.kill()
    door.program = program
    door.start()
    pool.ready([door])


def side_by_side(room):
    """Three instances are upgraded one after the other. Each answers as one service at each moment, and starts from a file that
    the release before wrote."""
    old = before(room)
    cluster = Cluster(room, 3)
    pool = None
    try:
        pool = Pool(room, cluster, TOKENS, program=lambda it: old)
        pool.ready()
        judge = Judge(pool, 5)
        answered = judge.calls(120)
        files = pathlib.Path(room) / "files"
        files.mkdir()
        status, printed, errors = pool.follow(files, TOKENS, program=old)
        assert status == 0, (printed, errors)
        for door in list(pool.doors):
            upgrade(pool, door, PROGRAM)
            answered += judge.calls(120)
            judge.mark_all()
        pool.ready([pool.add("i9", TOKENS, options=("--files", files))])
        answered += judge.calls(120)
        judge.mark_all()
        assert answered > 500, answered
    finally:
        if pool:
            pool.close()
        cluster.close()


CASES = {"an upgrade of one instance after the other": side_by_side}
