"""The scripts around the gateway: its release, its Debian package, gateway/run and gateway/fuzz."""
import contextlib
import gzip
import os
import re
import shutil
import signal
import socket
import subprocess
import time
import urllib.request

from maps import Skipped
from world import TOP, free_port

PATHS = {
    "usr/bin/dss-gateway", "usr/lib/systemd/system/dss-gateway.service", "usr/share/man/man1/dss-gateway.1.gz",
    "usr/share/lintian/overrides/dss-gateway", *(f"usr/share/doc/dss-gateway/{it}" for it in ("MAP.md", "README.md", "TESTS.md", "changelog.gz", "copyright")),
    *(f"DEBIAN/{it}" for it in ("control", "postinst", "prerm", "postrm")),
}


def output(*words):
    return subprocess.run(words, capture_output=True, text=True, check=True, timeout=600).stdout


def the_package(files, built):
    folder = files.folder / "package"
    folder.mkdir()
    output(TOP / "scripts" / "package", "--gateway", folder)
    package = next(folder.glob("dss-gateway_*_amd64.deb"))
    root = folder / "root"
    output("dpkg-deb", "-R", package, root)
    made = {str(it.relative_to(root)) for it in root.rglob("*") if it.is_file()}
    assert made == PATHS, made ^ PATHS
    libraries = output("dpkg-deb", "-f", package, "Depends")
    assert all(it in libraries for it in ("libs2-0", "libssl3", "dss (>= ")) and "@" not in libraries, libraries
    said = output(root / "usr/bin/dss-gateway", "--help")
    unit = (root / "usr/lib/systemd/system/dss-gateway.service").read_text()
    asked = re.findall(r" (--[\w-]+)", re.search(r"(?m)^ExecStart=/usr/bin/dss-gateway serve(.*)$", unit)[1])
    assert asked and all(it in said for it in asked), asked
    page = gzip.decompress((root / "usr/share/man/man1/dss-gateway.1.gz").read_bytes()).decode()
    assert all(it in page for it in ("dss\\-gateway tokens", ".SH \"TRANSLATION\"", ".SH \"STARTING THE MAP\"")), page[:1000]


def the_release(files, built):
    """The release is made of these sources, and is what they build here byte for byte, if the same packages build it."""
    words = 'top=$1; . "$top/gateway/program.bash"; trap forget EXIT; compare_gateway "$2"'
    done = subprocess.run(["bash", "-uc", words, "bash", TOP, f"{built}/gateway"], capture_output=True, text=True, timeout=600)
    assert done.returncode == 0, done
    print(f"gateway: {done.stdout.strip()}")


def checkout(files, name):
    """Copies what gateway/run needs, with a service that runs ./dss of this repository."""
    top = files.folder / name
    top.mkdir()
    for it in ("gateway", "scripts", "release"):
        shutil.copytree(TOP / it, top / it, ignore=shutil.ignore_patterns("__pycache__", "tests"))
    (top / "dss").write_text(f'#!/bin/sh\nexec "{TOP}/dss" "$@"\n')
    (top / "dss").chmod(0o755)
    return top


@contextlib.contextmanager
def run_by(top, *words, path=""):
    """Runs gateway/run of a checkout, and gives the seconds to its first response, and its standard error."""
    port, began = free_port(), time.time()
    process = subprocess.Popen(
        [top / "gateway" / "run", "--port", str(port), "--service", str(free_port()), *words], stdout=subprocess.DEVNULL,
        stderr=(top / "said").open("w"), env={**os.environ, "PATH": f"{path}:{os.environ['PATH']}"}, start_new_session=True)
    try:
        while True:
            with contextlib.suppress(OSError), urllib.request.urlopen(f"http://127.0.0.1:{port}/health", timeout=5):
                break
            assert process.poll() is None and time.time() < began + 300, (top / "said").read_text()
            time.sleep(0.02)
        yield time.time() - began, (top / "said").read_text()
    finally:
        with contextlib.suppress(OSError):
            os.killpg(process.pid, signal.SIGTERM)
        process.wait(300)


def make_that_copies(folder, built):
    """Makes a directory for the path, with a `make` that gives the gateway that was built, and notes that it ran."""
    folder.mkdir()
    (folder / "make").write_text(f"""#!/bin/sh
for it; do case $it in BUILD=*) mkdir -p "${{it#BUILD=}}" && cp "{built}/gateway" "${{it#BUILD=}}/gateway" && echo "make ran" >&2 ;; esac; done
""")
    (folder / "make").chmod(0o755)
    return folder


def a_start_from_the_release(files, built):
    """In a fresh clone gateway/run answers at once, and builds nothing. With --build, with other sources, or with a damaged
    release it builds first, and says why."""
    path = make_that_copies(files.folder / "path", built)
    top = checkout(files, "clone")
    with run_by(top, path=path) as (seconds, said):
        print(f"gateway: the first response of gateway/run in a fresh clone took {seconds:.2f} s")
        assert "make ran" not in said and "warning" not in said, said
    with run_by(top, path=path) as (_, said):
        assert "make ran" not in said, said
    with run_by(top, "--build", path=path) as (_, said):
        assert "make ran" in said and "a build was asked for: building the gateway" in said, said
    with run_by(top, path=path) as (_, said):
        assert "make ran" not in said, said
    with (top / "gateway/src/main.cpp").open("a") as it:
        it.write("\n")
    with run_by(top, path=path) as (_, said):
        assert "the release was made from other sources: building the gateway" in said and "make ran" in said, said
    top = checkout(files, "damaged")
    packed = top / "release/dss-gateway-x86_64-linux.gz"
    packed.write_bytes(packed.read_bytes()[:-1000])
    with run_by(top, path=path) as (_, said):
        assert "the release is damaged: building the gateway" in said and "make ran" in said, said


def only_its_own_gateway_counts(files, built):
    """If another program takes the port after it was checked, gateway/run does not take its answers for those of the gateway."""
    port, folder = free_port(), files.folder / "taken"
    folder.mkdir()
    # gateway/run runs openssl after it has checked the ports.
    (folder / "openssl").write_text(f"""#!/bin/sh
[ -e "{folder}/said" ] || {{
    cd "{folder}" && : >said && echo fine >health
    python3 -m http.server --bind 127.0.0.1 {port} >/dev/null 2>&1 </dev/null &
    echo $! >"{folder}/process"
    until curl -sf http://127.0.0.1:{port}/health; do sleep 0.05; done >/dev/null
}}
exec /usr/bin/openssl "$@"
""")
    (folder / "openssl").chmod(0o755)
    words = [TOP / "gateway" / "run", "--port", str(port), "--service", str(free_port()), "--folder", folder / "made"]
    try:
        done = subprocess.run(words, capture_output=True, text=True, timeout=300,
                              env={**os.environ, "PATH": f"{folder}:{os.environ['PATH']}"})
    finally:
        with contextlib.suppress(OSError):
            os.kill(int((folder / "process").read_text()), signal.SIGTERM)
    assert done.returncode == 1 and "Both listen" not in done.stdout and "did not start" in done.stderr, done


def a_taken_port_is_named(files, built):
    """gateway/run names the option of a port that is taken, before it installs or builds anything."""
    with socket.create_server(("127.0.0.1", 0)) as taken:
        port, free = str(taken.getsockname()[1]), str(free_port())
        for words in (["--port", port, "--service", free], ["--port", free, "--service", port],
                      ["--port", free, "--service", free, "--airspace-url", f"http://127.0.0.1:{port}"]):
            done = subprocess.run([TOP / "gateway" / "run", *words], capture_output=True, text=True, timeout=300)
            option = next(it for it in words if words[words.index(it) + 1].endswith(port))
            assert done.returncode == 1 and done.stderr.startswith(f"gateway/run: {option} {port}: "), (words, done)


def readers_under_fuzzing(files, built):
    """libFuzzer finds nothing within 30 seconds."""
    if not shutil.which("clang++"):
        raise Skipped("clang is not installed: apt-get install clang")
    done = subprocess.run([TOP / "gateway" / "fuzz", "30"], capture_output=True, text=True, timeout=1800)
    assert done.returncode == 0, done.stderr[-3000:]


# They take the directory with the programs.
ALL = [the_release, a_start_from_the_release, the_package, a_taken_port_is_named, only_its_own_gateway_counts, readers_under_fuzzing]
