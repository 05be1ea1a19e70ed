"""The command tests/fuzz: builds the instrumented program, and runs afl-fuzz with it."""
import argparse
import os
import pathlib
import re
import shutil
import signal
import subprocess
import sys
import tempfile
import time

import fuzz_targets
from fuzz_targets import CORPUS, INPUT, MEGABYTES, SECONDS, TARGETS
from program import TOP

DEFAULT_SECONDS = 60
# The most findings of a run that are written.
SHOWN = 3
RUNTIME = pathlib.Path("/usr/lib/afl/afl-compiler-rt.o")
# As for the release, but with -O1, which compiles faster, and with calls that count edges.
FLAGS = """--target=x86_64-unknown-linux-gnu -march=x86-64-v2 -mllvm -no-trap-after-noreturn -ffunction-sections -fdata-sections
    -mllvm -trap-unreachable -mllvm -no-x86-call-frame-opt --no-default-config -fPIE -O1 -fsanitize-coverage=trace-pc-guard""".split()
# What stands in the copy of the kit in place of its compiler: it keeps the program's module, and compiles others.
TAKE_MODULE = """#!/usr/bin/env bash
if [ -f module.bc ] && [ "$(stat -c %s module.bc)" -gt 1000000 ]; then
    cp module.bc {room}/module.bc
    exit 1
fi
exec {clang} "$@"
"""


class Failure(Exception):
    """The reason why nothing could be fuzzed."""


def say(text):
    print(f"fuzz: {text}", flush=True)


def sum_of_sources():
    done = subprocess.run(
        ["bash", "-c", 'top=$1; . "$top/scripts/program.bash"; sum_of_sources', "-", str(TOP)], capture_output=True, text=True
    )
    if done.returncode:
        raise Failure("the sources in crates/ cannot be read")
    return done.stdout.strip()


def copy_kit(kit, room):
    """Makes a copy of the kit, mostly of links, that keeps the program's module instead of compiling it."""
    copy, tools = room / "kit", room / "toolchain"
    (copy / "bin").mkdir(parents=True)
    (tools / "bin").mkdir(parents=True)
    for it in kit.iterdir():
        if it.name not in ("bin", "toolchain"):
            (copy / it.name).symlink_to(it)
    for it in (kit / "bin").iterdir():
        # Python finds the kit by the real path of its scripts.
        if it.name == "rtlib.py" or re.match("rt(-|$)", it.name):
            shutil.copy(it, copy / "bin")
        else:
            (copy / "bin" / it.name).symlink_to(it)
    shutil.copytree(kit / "toolchain" / "lib", tools / "lib")
    (copy / "toolchain").symlink_to(tools)
    for it in (kit / "toolchain" / "bin").iterdir():
        if it.name != "clang":
            (tools / "bin" / it.name).symlink_to(it)
    (tools / "bin" / "clang").write_text(TAKE_MODULE.format(room=room, clang=kit / "toolchain" / "bin" / "clang"))
    (tools / "bin" / "clang").chmod(0o755)
    return copy / "bin" / "rt"


def compile_sources(kit, made):
    """Types the sources without proving them, and compiles their module with coverage to an object file."""
    with tempfile.TemporaryDirectory() as folder:
        room = pathlib.Path(folder)
        say("typing the sources, 1 to 3 minutes")
        shutil.copytree(TOP / "crates", room / "crates", ignore=shutil.ignore_patterns("out"))
        shutil.copy(TOP / "crates.txt", room)
        tried = subprocess.run(
            [str(copy_kit(kit, room)), "try", "--seconds", "5", "--", "--help"], cwd=room / "crates" / "dss", capture_output=True
        )
        module = room / "module.bc"
        if not module.is_file():
            raise Failure(f"rt try made no module: {tried.stdout[-2000:]!r} {tried.stderr[-2000:]!r}")
        say("compiling, 4 to 10 minutes")
        words = [*FLAGS, f"--sysroot={kit / 'toolchain'}", "-c", "-x", "ir", str(module), "-o", f"{folder}/dss.o"]
        if subprocess.run([str(kit / "toolchain" / "bin" / "clang"), *words]).returncode:
            raise Failure("the kit's clang failed")
        made.parent.mkdir(parents=True, exist_ok=True)
        shutil.copy(f"{folder}/dss.o", f"{made}.new")
        os.replace(f"{made}.new", made)


def build(folder):
    """Links the instrumented program into a directory, and compiles it if that was not done for these sources. Returns
    the program and the directory of these sources in the cache."""
    kit = pathlib.Path(shutil.which("rt")).resolve().parents[1]
    cache = pathlib.Path(os.environ.get("XDG_CACHE_HOME") or pathlib.Path.home() / ".cache", "dss", "fuzz", sum_of_sources())
    made = cache / "dss.o"
    if not made.is_file():
        compile_sources(kit, made)
    prepare, program = f"{folder}/fuzz.o", f"{folder}/dss"
    source = str(TOP / "tests" / "devices" / "fuzz.c")
    # The constructor in fuzz.c must run after that of afl's object, which forks.
    words = ["--target", "x86_64-unknown-linux-gnu", "--toolchain", str(kit / "toolchain"), "-o", program, str(made)]
    words += [str(RUNTIME), prepare, *(str(kit / "c" / it) for it in ("libos_c.a", "liblibc_c.a"))]
    for command in (["cc", "-O2", "-fPIE", "-c", source, "-o", prepare], [str(kit / "bin" / "rattle-link"), *words]):
        done = subprocess.run(command, capture_output=True, text=True)
        if done.returncode:
            raise Failure(f"{command[0]} failed: {done.stderr[-2000:]}")
    return program, cache


def environment(target, file):
    """Returns the environment of afl-fuzz and, by it, of the program."""
    more = {
        "AFL_NO_UI": "1",
        "AFL_NO_AFFINITY": "1",
        "AFL_SKIP_CPUFREQ": "1",
        "AFL_I_DONT_CARE_ABOUT_MISSING_CRASHES": "1",
        "AFL_BENCH_UNTIL_CRASH": "1",
        "AFL_FORKSRV_INIT_TMOUT": "60000",
        "FUZZ_STATUSES": "".join(map(str, target.statuses)),
    }
    if target.is_argument:
        more["FUZZ_ARGUMENT"] = str(1 + len(target.words))
    elif INPUT in target.words:
        more["FUZZ_DATABASE"] = str(file)
    return {**os.environ, **more}


def kept(cache, name, given):
    """Writes a finding to the cache; returns its file."""
    folder = cache / "findings"
    folder.mkdir(parents=True, exist_ok=True)
    file = folder / f"{name}-{len(list(folder.glob(f'{name}-*'))) + 1}"
    file.write_bytes(given)
    return file


def report(cache, name, given, why):
    file = kept(cache, name, given)
    say(f"FOUND: {name}: {why}")
    say(f"the input is {file}; run it again with: tests/fuzz --again {name} {file}")


def numbers_of(out):
    """Returns the numbers that afl-fuzz prints of its run."""
    file = out / "default" / "fuzzer_stats"
    lines = file.read_text().splitlines() if file.is_file() else []
    return {key.strip(): value.strip() for key, _, value in (it.partition(":") for it in lines)}


def undocumented(target, program, inputs):
    """Returns those of the inputs whose run does not end as documented, with the reason."""
    runs = ((given, fuzz_targets.why_undocumented(target, given, program)) for given in inputs)
    return [(given, why) for given, why in runs if why]


class Suspects:
    """The inputs for which afl-fuzz says that the program crashed, aborted or took too long."""

    def __init__(self, target, program, out):
        self.target, self.program, self.out, self.seen = target, program, out, set()
        # The findings: inputs with the reason.
        self.found = []

    def look(self):
        """Runs new suspects again. A run that took too long only below afl-fuzz is no finding: the machine was busy."""
        for kind in "crashes", "hangs":
            for file in sorted(set((self.out / "default" / kind).glob("id:*")) - self.seen):
                self.seen.add(file)
                given = file.read_bytes()
                why = fuzz_targets.why_undocumented(self.target, given, self.program)
                if why or kind == "crashes":
                    self.found.append((given, why or "a crash below afl-fuzz, but not when run again"))
        return self.found


def run_afl(name, target, program, room, seconds):
    """Runs afl-fuzz for a time or until a finding. Returns the findings, and its directory of results."""
    file, out = room / "input", room / "out"
    suspects = Suspects(target, program, out)
    words = ["afl-fuzz", "-i", str(CORPUS / name), "-o", str(out), "-x", str(CORPUS / f"{name}.dict")]
    words += ["-t", str(1000 * SECONDS), "-m", str(MEGABYTES), "-V", str(seconds)]
    # With -f, afl-fuzz replaces no @@.
    words += ["-f", str(file)] if INPUT in target.words else []
    arguments = [str(file) if it == INPUT else it for it in target.words]
    words += ["--", program, *arguments, *(["replaced"] if target.is_argument else [])]
    log = room / "log"
    with log.open("wb") as written:
        running = subprocess.Popen(words, env=environment(target, file), stdout=written, stderr=written, cwd=room)
        try:
            while running.poll() is None and not suspects.look():
                time.sleep(0.5)
        finally:
            running.terminate()
            running.wait()
    if not numbers_of(out) or (running.returncode > 0 and not suspects.look()):
        raise Failure(f"afl-fuzz failed:\n{log.read_text(errors='replace')[-3000:]}")
    # Otherwise the program does not read the inputs that afl-fuzz makes.
    useless = log.read_bytes().count(b"No new instrumentation output")
    if useless >= len([it for it in fuzz_targets.inputs(name).values() if it]) - 1:
        raise Failure("all inputs of the corpus reach the same code")
    return suspects.look(), out


def fuzz(name, seconds):
    target = TARGETS[name]
    # In memory, if possible.
    memory = "/dev/shm" if os.access("/dev/shm", os.W_OK) else None
    with tempfile.TemporaryDirectory(dir=memory) as folder:
        program, cache = build(folder)
        corpus = fuzz_targets.inputs(name)
        say(f"{name}: {len(corpus)} inputs, for {seconds} s")
        # afl-fuzz skips the inputs of its corpus that crash.
        found = undocumented(target, program, corpus.values())
        if not found:
            found, out = run_afl(name, target, program, pathlib.Path(folder), seconds)
            queue = cache / f"queue-{name}"
            shutil.rmtree(queue, ignore_errors=True)
            shutil.copytree(out / "default" / "queue", queue, ignore=shutil.ignore_patterns(".*"))
            reached = [it.read_bytes() for it in sorted(queue.iterdir())]
            found += undocumented(target, program, reached)
            numbers = numbers_of(out)
            say(
                f"{name}: {numbers.get('execs_done')} runs in {numbers.get('run_time')} s; {numbers.get('edges_found')} edges, "
                f"{len(reached)} inputs that reach different ones, in {queue}"
            )
        for given, why in found[:SHOWN]:
            report(cache, name, given, why)
        say(f"{name}: {len(found)} findings" + (f", of which {SHOWN} are written" if len(found) > SHOWN else ""))
        return 1 if found else 0


def again(name, file):
    with tempfile.TemporaryDirectory() as folder:
        program, _ = build(folder)
        why = fuzz_targets.why_undocumented(TARGETS[name], pathlib.Path(file).read_bytes(), program)
        say(f"{name}: {why or 'it ends as documented'}")
        return 1 if why else 0


def main():
    parser = argparse.ArgumentParser(prog="tests/fuzz", usage="tests/fuzz TARGET [SECONDS] | --again TARGET FILE | --build")
    parser.add_argument("target", nargs="?", choices=[*TARGETS])
    parser.add_argument("seconds", nargs="?", type=int, default=DEFAULT_SECONDS)
    parser.add_argument("--again", nargs=2, metavar=("TARGET", "FILE"))
    parser.add_argument("--build", action="store_true")
    given = parser.parse_args()
    # Removes its directory, and ends afl-fuzz.
    signal.signal(signal.SIGTERM, lambda *_: sys.exit(2))
    if given.again and given.again[0] not in TARGETS:
        parser.error(f"no such target: {given.again[0]}")
    if not (given.target or given.again or given.build):
        parser.error("a target is missing")
    try:
        if given.again:
            return again(*given.again)
        if given.target:
            return fuzz(given.target, given.seconds)
        with tempfile.TemporaryDirectory() as folder:
            say(f"the object file is in {build(folder)[1]}")
        return 0
    except Failure as why:
        print(f"fuzz: {why}", file=sys.stderr)
        return 2


if __name__ == "__main__":
    sys.exit(main())
