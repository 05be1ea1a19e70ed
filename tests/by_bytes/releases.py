"""The release beside the sources, and what ./dss runs.

./dss runs the program built here, else the release, else one that it builds, and never a program of other sources.
Cases also cover what `./check all` prints about the release.

Each case has a copy of the files that ./dss reads, with a release that scripts/release makes there of the tested
program. The path has no kit, or a replacement: it builds by copying that program."""
import contextlib
import fnmatch
import os
import pathlib
import re
import shutil
import subprocess
import tempfile

from lateness import again, exceeded
from pool import Skipped
from program import BUILT, SECONDS, TOP

GIVEN = (TOP / "examples" / "availability.http").read_bytes()
WANTED = (TOP / "examples" / "availability.answers").read_bytes()
FIRST_ANSWER = 3.0
AT_ONCE = 8
# The crates of most cases.
SOME = "dss*"
NO_KIT = ", and the command rt of the Rattle kit, which could build the program, is not on PATH"
OTHER_SOURCES = "the release was made from other sources"
DAMAGED = "the release is damaged"
ASKED = "DSS_BUILD asks for a build"
# Replacements of the kit, and of the byte-exact tests and those of allocations, the gateway, the suite, a pool and its
# log, and three hosts.
KIT = """#!/bin/sh
case $1 in
version) echo a kit of tests ;;
ci)
    for it in dss test_pool_etcd; do mkdir -p crates/$it/out && cp "$TESTED" crates/$it/out/$it; done
    echo "rt: dss proved"
    echo "${COUNTS-1 passed, 0 failed}"
    ;;
*) exit 1 ;;
esac
"""
TESTS = """#!/bin/sh
[ -x "$DSS_PROGRAM" ] && echo "1 passed, 0 failed"
"""
GROWTHS = """#!/bin/sh
[ "$1" = scenes ] && [ -x "$DSS_PROGRAM" ] && echo "${GROWTHS-1 passed, 0 failed}"
"""
GATEWAY = """#!/bin/sh
echo "${GATEWAY-1 passed, 0 failed}"
[ -z "${GATEWAY-}" ]
"""
SUITE = """#!/bin/sh
echo "${SUITE-1 passed, 0 failed}"
"""
POOL_LOG = """#!/bin/sh
[ -x "$TEST_POOL_ETCD" ] && echo "${POOL_LOG-1 passed, 0 failed}"
"""
POOL = """#!/bin/sh
[ -x "$TEST_POOL_DSS" ] && echo "${POOL-1 passed, 0 failed}"
"""
HOSTS = """#!/bin/sh
echo "${HOSTS-1 passed, 0 failed}"
"""


def script(path, text):
    path.parent.mkdir(parents=True, exist_ok=True)
    path.write_text(text)
    path.chmod(0o755)


def without_kit():
    """Returns the directories on the path that have no kit in them."""
    return ":".join(it for it in os.environ["PATH"].split(":") if not pathlib.Path(it, "rt").exists())


class Checkout:
    """A copy of the files that ./dss reads, in a directory that every user can read, with a release: of all crates, or
    of some of them."""

    def __init__(self, crates="*"):
        self.room = tempfile.TemporaryDirectory()
        self.top = pathlib.Path(self.room.name, "checkout")
        os.chmod(self.room.name, 0o755)
        self.home = pathlib.Path(self.room.name, "home")
        self.home.mkdir()
        self.home.chmod(0o777)
        for name in "dss", "check", "HANDLES", ".ci/run", "README.md", "CHANGELOG.md", "CONTRIBUTING.md":
            self.top.joinpath(name).parent.mkdir(exist_ok=True, parents=True)
            shutil.copy2(TOP / name, self.top / name)
        for name in "scripts", "examples", "docs", "deploy", "bench", "gateway", "clients":
            shutil.copytree(TOP / name, self.top / name)
        lines = (TOP / "crates.txt").read_text().splitlines(True)
        lines = [it for it in lines if fnmatch.fnmatch(it.split(":")[0].split(" ")[0], crates)]
        self.top.joinpath("crates.txt").write_text("".join(lines))
        for crate in (it.split(":")[0].split(" ")[0] for it in lines if not it.startswith("#")):
            for part in "src", "specs", "proofs":
                if (TOP / "crates" / crate / part).is_dir():
                    shutil.copytree(TOP / "crates" / crate / part, self.top / "crates" / crate / part)
        script(self.top / "tests" / "end_to_end", TESTS)
        script(self.top / "tests" / "refuse", GROWTHS)
        script(self.top / "gateway" / "test", GATEWAY)
        script(self.top / "qualify" / "test", SUITE)
        script(self.top / "tests" / "pool_log" / "run", POOL_LOG)
        script(self.top / "tests" / "pool" / "run", POOL)
        script(self.top / "tests" / "hosts", HOSTS)
        script(self.top.parent / "kit" / "rt", KIT)
        done = self.run(["scripts/release", BUILT], kit=True)
        if done[0]:
            raise OSError(f"scripts/release: {done[2]!r}")

    def __enter__(self):
        return self

    def __exit__(self, *_):
        self.room.cleanup()

    def environment(self, kit=False, more=None):
        path = without_kit()
        own = {"PATH": f"{self.top.parent}/kit:{path}" if kit else path, "HOME": str(self.home), "TESTED": BUILT}
        kept = {name: it for name, it in os.environ.items() if not name.startswith(("DSS_", "XDG_"))}
        return {**kept, **own, **(more or {})}

    def run(self, words, given=b"", kit=False, more=None, start=()):
        # A gate sums all sources several times.
        done = subprocess.run(
            [*start, self.top / words[0], *words[1:]], input=given, capture_output=True, cwd=self.top, timeout=6 * SECONDS,
            env=self.environment(kit, more),
        )
        return done.returncode, done.stdout, done.stderr.decode()

    def words(self):
        return ["dss", "run", "--tokens", "examples/tokens.toml", "--now", "1000", "-"]

    def ask(self, **how):
        """Returns the response of ./dss to the first request of the README."""
        return self.run(self.words(), GIVEN, **how)

    def refused(self, why):
        """Returns how ./dss differs from running nothing without a kit, and from building with one, both for this
        reason."""
        found = difference("no kit", self.ask(), (1, b"", f"dss: {why}{NO_KIT}\n"))
        status, output, error = self.ask(kit=True)
        first = error.splitlines()[:1]
        wanted = 0, WANTED, [f"dss: {why}: proving and building the program"]
        return found + difference("with a kit", (status, output, first), wanted)

    def answered(self, what, said="", **how):
        return difference(what, self.ask(**how), (0, WANTED, said))

    def source(self):
        return min(self.top.glob("crates/*/src/*.rt"))


def difference(what, got, wanted):
    return [] if got == wanted else [f"{what}:\n    wanted {wanted!r}\n    got    {got!r}"]


def first_answer():
    """In a fresh clone without a kit, also without git, the first response comes at once."""
    with Checkout() as it:
        # Processor time, since the other cases run beside it.
        began = os.times()
        found = it.answered("first")
        ended = os.times()
        took = ended.children_user + ended.children_system - began.children_user - began.children_system
        print(f"the first response of a fresh clone took {took:.2f} s")
        found += exceeded(took, FIRST_ANSWER, "the first response")
        found += it.answered("second")
        it.top.joinpath("release", "made-of").unlink()
        found += it.answered("without the release, of what stands built")
        # The build is recognized by content, whatever the times of files.
        it.source().touch()
        moved = it.top.rename(it.top.parent / "elsewhere")
        it.top = it.top.parent / "again"
        shutil.copytree(moved, it.top, copy_function=shutil.copy)
        return found + it.answered("in a copy")


def packed(change):
    """Returns a change of the packed program."""
    def spoil(top):
        file = top / "release" / "dss-x86_64-linux.gz"
        file.write_bytes(change(file.read_bytes()))
    return spoil


def noted(word, value):
    """Returns a change of the release's record."""
    def spoil(top):
        file = top / "release" / "made-of"
        file.write_text(re.sub(rf"(?m)^{word} .*$", f"{word} {value}", file.read_text()))
    return spoil


def turned(data):
    at = len(data) // 2
    return data[:at] + bytes([data[at] ^ 1]) + data[at + 1 :]


# Ways to damage the release, and the message for each.
SPOILT = [
    (packed(lambda it: it[: len(it) // 2]), DAMAGED),
    (packed(lambda it: it[:-1]), DAMAGED),
    (packed(lambda it: b""), DAMAGED),
    (packed(turned), DAMAGED),
    (lambda top: (top / "release" / "dss-x86_64-linux.gz").unlink(), DAMAGED),
    (noted("program", "0" * 64), DAMAGED),
    (noted("program", ""), DAMAGED),
    (noted("sources", "0" * 64), OTHER_SOURCES),
    (noted("sources", ""), OTHER_SOURCES),
    (noted("processor", "aarch64"), "the release is for aarch64, and this processor is x86_64"),
    (lambda top: (top / "release" / "made-of").write_text(""), OTHER_SOURCES),
    (lambda top: (top / "release" / "made-of").unlink(), "there is no release"),
    (lambda top: shutil.rmtree(top / "release"), "there is no release"),
]


def spoilt():
    """A damaged release is not run: ./dss says so, and builds the program if there is a kit."""
    found = []
    with Checkout(SOME) as it:
        kept = it.top.parent / "kept"
        shutil.copytree(it.top / "release", kept)
        for at, (spoil, why) in enumerate(SPOILT):
            spoil(it.top)
            found += [f"{at}: {fault}" for fault in it.refused(why)]
            for folder in it.top / ".dss", it.top / "release":
                shutil.rmtree(folder, ignore_errors=True)
            shutil.copytree(kept, it.top / "release")
    return found


def other_processor():
    """On another processor the release is not run."""
    with Checkout(SOME) as it:
        script(it.top.parent / "other" / "uname", "#!/bin/sh\necho aarch64\n")
        why = "the release is for x86_64, and this processor is aarch64"
        got = it.ask(more={"PATH": f"{it.top.parent}/other:{without_kit()}"})
        return difference("on another processor", got, (1, b"", f"dss: {why}{NO_KIT}\n"))


def one_space(top):
    file = min(top.glob("crates/*/src/*.rt"))
    file.write_bytes(file.read_bytes().replace(b"//", b"// ", 1))


def one_more(top):
    min(top.glob("crates/*/src")).joinpath("of_nobody.txt").write_text("\n")


def one_renamed(top):
    file = min(top.glob("crates/*/proofs/**/*.antt"))
    file.rename(file.with_name("Another.antt"))


def one_less(top):
    min(top.glob("crates/*/specs/*.antt")).unlink()


def one_line(top):
    file = top / "crates.txt"
    file.write_bytes(file.read_bytes() + b"\n")


def other_sources():
    """If the sources differ in one byte or one file, neither the release nor the earlier build is run."""
    found = []
    with Checkout(SOME) as it:
        found += it.answered("of its own sources")
        whole = it.top
        for at, edit in enumerate([one_space, one_more, one_renamed, one_less, one_line]):
            it.top = whole.parent / f"edited-{at}"
            shutil.copytree(whole, it.top)
            edit(it.top)
            found += [f"{edit.__name__}: {fault}" for fault in it.refused(OTHER_SOURCES)]
        # A build of other sources is not run while the release matches, and no longer afterwards.
        shutil.rmtree(it.top / "release")
        shutil.copytree(whole / "release", it.top / "release")
        shutil.copy2(whole / "crates.txt", it.top / "crates.txt")
        said = "dss: the program in .dss was built from other sources: running the release\n"
        return found + it.answered("of sources as before", said) + it.answered("again")


def damaged_here():
    """A program that was damaged after it was unpacked is not run."""
    with Checkout(SOME) as it:
        found = it.answered("first")
        built = it.top / ".dss" / "dss"
        built.write_bytes(turned(built.read_bytes()))
        found += it.answered("damaged", "dss: the program in .dss is damaged: running the release\n")
        return found + it.answered("again")


def asked_build():
    """DSS_BUILD=source skips the release, even if it is unpacked, and uses the build."""
    more = {"DSS_BUILD": "source"}
    with Checkout(SOME) as it:
        found = it.answered("the release")
        found += difference("no kit", it.ask(more=more), (1, b"", f"dss: {ASKED}{NO_KIT}\n"))
        said = f"dss: {ASKED}: proving and building the program\ndss: dss proved, 1 of "
        status, output, error = it.ask(kit=True, more=more)
        found += difference("a build", (status, output, error[: len(said)]), (0, WANTED, said))
        return found + it.answered("what was built", more=more) + it.answered("what was built, and not asked for")


@contextlib.contextmanager
def read_only(checkout):
    """Returns the start of a command that runs as a user who cannot write the checkout."""
    folders = [checkout.top, *(it for it in checkout.top.rglob("*") if it.is_dir())]
    try:
        for it in folders:
            it.chmod(0o555)
        yield ["setpriv", "--reuid=65534", "--regid=65534", "--clear-groups"] if os.geteuid() == 0 else []
    finally:
        for it in folders:
            it.chmod(0o755)


def not_written():
    """From a read-only checkout the program runs out of the user's cache. If that cannot be written either, nothing is
    run."""
    with Checkout(SOME) as it:
        with read_only(it) as start:
            found = it.answered("first", start=start) + it.answered("second", start=start)
            made = sorted(file.name for file in it.home.glob(".cache/dss/*/*"))
            found += difference("the cache", made, ["dss", "made-of"])
            status, output, error = it.ask(start=start, more={"HOME": "/proc"})
            found += difference("no cache", (status, output, "cannot write in" in error), (1, b"", True))
        return found + ([f"{it.top} was written"] if (it.top / ".dss").exists() else [])


def at_once():
    """First uses at the same time all get their response."""
    with Checkout(SOME) as it:
        how = {"stdin": subprocess.PIPE, "stdout": subprocess.PIPE, "stderr": subprocess.PIPE, "cwd": it.top}
        started = [subprocess.Popen([it.top / "dss", *it.words()[1:]], env=it.environment(), **how) for _ in range(AT_ONCE)]
        for each in started:
            each.stdin.write(GIVEN)
            each.stdin.close()
            each.stdin = None
        got = [(each.communicate(timeout=SECONDS), each.returncode) for each in started]
        left = sorted(file.name for file in it.top.joinpath(".dss").iterdir())
        return difference("all", got, [((WANTED, b""), 0)] * AT_ONCE) + difference("left", left, ["dss", "made-of"])


def gate(what, checkout, words, passed, failed, said, skipped="", **how):
    """Returns how the gate's last line, its status or its output differs."""
    status, output, error = checkout.run(words, kit=True, **how)
    lines = output.decode().splitlines() or [""]
    got = status != 0, lines[-1], said in output.decode()
    fault = difference(what, got, (failed > 0, f"{passed} passed, {failed} failed{skipped}", True))
    return [f"{fault[0]}\n{output.decode()}{error}"] if fault else []


def gates():
    """The gate passes if the release is what it has built, and otherwise says what to run."""
    same = "the release equals the program that the gate has built, byte for byte"
    run = "run scripts/release, and commit the files that it makes"
    red = {"COUNTS": "1 passed, 1 failed", "HOSTS": "0 passed, 0 failed, 3 skipped"}
    # A different count for each, so that the sums show that each is counted.
    parts = {"GROWTHS": (0, 1), "GATEWAY": (0, 2), "SUITE": (0, 4), "POOL_LOG": (0, 8), "POOL": (0, 16), "HOSTS": (1, 32)}
    with Checkout(SOME) as it:
        found = gate("by bytes", it, ["check"], 1, 0, "1 passed, 0 failed")
        found += gate("all", it, ["check", "all"], 9, 0, same)
        found += gate("both", it, [".ci/run"], 9, 0, "are not run again")
        found += gate("both, of a red gate without hosts", it, [".ci/run"], 8, 1, same, ", 3 skipped", more=red)
        counts = {name: f"{passed} passed, {failed} failed" for name, (passed, failed) in parts.items()}
        found += gate("red parts", it, ["check", "all"], 4, 63, same, more=counts)
        other = it.top.parent / "other"
        other.write_bytes(pathlib.Path(BUILT).read_bytes() + b"\n")
        found += gate("another program", it, ["check", "all"], 8, 1, run, more={"TESTED": str(other)})
        made = it.top / "release" / "made-of"
        text = made.read_text()
        made.write_text(text.replace("kit a kit of tests", "kit another kit"))
        found += gate("another kit", it, ["check", "all"], 9, 0, "the programs are not compared", more={"TESTED": str(other)})
        found += gate("another kit, same bytes", it, ["check", "all"], 9, 0, same)
        made.write_text(text)
        one_space(it.top)
        found += gate("other sources", it, ["check", "all"], 8, 1, f"{OTHER_SOURCES}: {run}")
        found += difference("scripts/release", it.run(["scripts/release"], kit=True)[0], 0)
        found += gate("a new release", it, ["check", "all"], 9, 0, same)
        shutil.rmtree(it.top / ".dss")
        return found + it.answered("the new release")


# Instructions that processors below the third level of x86-64 do not know. They run tzcnt as bsf, and compilers use it
# for that.
NEWER = re.compile(r"\t(v(?!er[rw])\w+|andn|bextr|bls\w+|bzhi|mulx|pdep|pext|rorx|sarx|sh[lr]x|lzcnt|movbe)\b")
GLIBC = (2, 34)


def portable():
    """The program needs a C library of at most glibc 2.34, and processors of the second level of x86-64."""
    how = {"capture_output": True, "text": True, "check": True}
    versions = subprocess.run(["readelf", "-W", "-V", BUILT], **how).stdout
    asked = {tuple(map(int, it.split("."))) for it in re.findall(r"GLIBC_([\d.]+)", versions)}
    libraries = set(re.findall(r"NEEDED.*\[(.*)\]", subprocess.run(["readelf", "-W", "-d", BUILT], **how).stdout))
    code = subprocess.run(["objdump", "-d", "--no-show-raw-insn", BUILT], **how).stdout
    found = sorted({it[1] for it in NEWER.finditer(code)} | set(re.findall(r"%[yz]mm\d+", code)))
    found = [f"it has {' '.join(found)}"] if found else []
    found += [] if asked and max(asked) <= GLIBC else [f"it asks for glibc {sorted(asked)}"]
    return found + difference("libraries", libraries - {"libc.so.6", "libm.so.6", "ld-linux-x86-64.so.2"}, set())


def kit_of_the_readme():
    """The README names the kit that the release was made with. An installed kit has the same logic."""
    named = re.findall(r"^Proved with `(.*)`", (TOP / "README.md").read_text(), re.M)
    made = TOP / "release" / "made-of"
    found = difference("the kit", re.findall(r"^kit (.*)$", made.read_text(), re.M), named) if made.is_file() else []
    if shutil.which("rt"):
        here = subprocess.run(["rt", "version"], capture_output=True, text=True, check=True).stdout
        logic = [it.partition(" ")[2] for it in named]
        found += difference("the logic of the kit", [here.strip().partition(" ")[2]], logic)
    return found


def one_version():
    """The version is the same in the changelog, the program, the document of the interface and the client in Python."""
    places = {
        "CHANGELOG.md": r"(?m)^## ([\d.]+)",
        "crates/dss_args/src/version.rt": r'VERSION: &str = "([\d.]+)"',
        "docs/openapi.yaml": r"(?m)^  version: ([\d.]+)$",
        "clients/python/pyproject.toml": r'(?m)^version = "([\d.]+)"$',
    }
    found = {path: re.findall(pattern, (TOP / path).read_text())[:1] for path, pattern in places.items()}
    return [] if len(set(map(str, found.values()))) == 1 and all(found.values()) else [f"the versions are {found}"]


def another_version():
    """A release of other sources has another version: scripts/release refuses one under the version of the last
    release."""
    if not shutil.which("git"):
        raise Skipped("git is missing, without which nobody makes a release")
    with Checkout(SOME) as it:
        def git(*words):
            name = "-c", "user.name=a", "-c", "user.email=a@example.org"
            subprocess.run(["git", *name, *words], cwd=it.top, check=True, capture_output=True)
        git("init", "-q")
        git("add", "-A")
        git("commit", "-qm", "first")
        found = difference("the same sources", it.run(["scripts/release"], kit=True)[0], 0)
        source = it.top / "crates" / "dss_args" / "src" / "version.rt"
        text = source.read_text()
        version = re.search(r'VERSION: &str = "([\d.]+)"', text)[1]
        source.write_text(text + "\n")
        git("commit", "-qam", "second")
        why = f"scripts/release: version {version} is that of the last release, which was made of other sources: raise it"
        status, output, error = it.run(["scripts/release"], kit=True)
        found += difference("other sources", (status, output, error.startswith(why)), (1, b"", True))
        source.write_text(text.replace(version, "99.0.0"))
        git("commit", "-qam", "third")
        return found + difference("another version", it.run(["scripts/release"], kit=True)[0], 0)


CASES = {
    "first-response-of-a-release": again(first_answer),
    "damaged-release": spoilt,
    "release-for-another-processor": other_processor,
    "release-from-other-sources": other_sources,
    "program-damaged-after-unpacking": damaged_here,
    "build-on-request": asked_build,
    "read-only-checkout": not_written,
    "first-uses-at-once": at_once,
    "gate-over-a-release": gates,
    "portable-program": portable,
    "kit-of-the-readme": kit_of_the_readme,
    "one-version": one_version,
    "another-version": another_version,
}
