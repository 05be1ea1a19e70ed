"""The commands that the byte-exact tests can call.

The tests run with a PATH that has only these commands. So a test that calls another one fails on each machine, and not
only on a fresh one without it."""
import os
import pathlib
import shlex
import shutil

# Commands of packages that each Debian has.
BASE = {
    "bash": "bash",
    "coreutils": """basename cat chmod chown comm cp cut date dirname du echo env false head id install ln ls mkdir mktemp mv
        nproc od printf pwd readlink realpath rm rmdir seq sha256sum shuf sleep sort stat sync tail tee test timeout touch tr
        true truncate uname uniq wc""",
    "dash": "sh",
    "diffutils": "cmp diff",
    "dpkg": "dpkg-deb dpkg-query",
    "findutils": "find xargs",
    "grep": "grep",
    "gzip": "gzip",
    "mawk": "awk",
    "sed": "sed",
    "tar": "tar",
    "util-linux": "flock prlimit setpriv",
}
# Commands of packages that ./check installs, with those on which they depend.
INSTALLED = {"python3": "python3", "gcc": "cc gcc", "binutils": "as ld objdump readelf", "curl": "curl"}
# Commands without which a case leaves something out, because it first looks for them by shutil.which.
OPTIONAL = "chromium git lintian man mypy node promtool rt systemd-analyze".split()


def names(*tables):
    """Returns the names of the commands in tables of packages."""
    return {it for table in tables for commands in table.values() for it in commands.split()}


def restrict(folder):
    """Makes links to the commands in new directories of a directory, and returns a PATH of these.

    An optional command calls commands of its own, so it gets the PATH of this process."""
    places = []
    for name in sorted(names(BASE, INSTALLED)) + OPTIONAL:
        # Tests leave out the directory of the kit.
        place = pathlib.Path(folder, name if name in OPTIONAL else "commands")
        command = shutil.which(name)
        if not command:
            continue
        place.mkdir(exist_ok=True)
        places += [] if str(place) in places else [str(place)]
        if name in OPTIONAL:
            file = place / name
            file.write_text(f'#!/bin/sh\nPATH={shlex.quote(os.environ["PATH"])} exec {shlex.quote(command)} "$@"\n')
            file.chmod(0o755)
        else:
            place.joinpath(name).symlink_to(command)
    return ":".join(places)
