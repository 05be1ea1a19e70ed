"""The versions in the documents: commands and files name that of the package, sentences name releases of CHANGELOG.

The commands that install a package find the one that was just made, in a directory that only its maker can write."""
import os
import pathlib
import re
import tempfile

from program import BUILT, TOP, run
from sockets import difference

# Pages and files in which each version counts. Those of bench say with which release something was measured.
PAGES = sorted(it for pattern in ("*.md", "docs/*.md", "docs/*.yaml", "gateway/*.md", "qualify/*.md", "clients/python/*.md", "deploy/**/*", "Dockerfile")
               for it in TOP.glob(pattern) if it.is_file() and it.suffix != ".pyc" and it.name != "CHANGELOG.md")
VERSION = re.compile(r"(?<![\w.])(?!127\.)\d+\.\d+\.\d+(?!\.?\w)")
# Versions of other programs and formats, with the words before them.
OTHERS = {"version 0.0.4", "openapi: 3.0.3"}
# The pages that say how to install a package, with its name.
INSTALL = {"docs/OPERATE.md": "dss", "gateway/README.md": "dss-gateway"}
# Replacements of scripts/package, which makes an empty file, and of sudo, which prints its arguments.
PACKAGE = """#!/bin/sh
name=dss
[ "$1" != --gateway ] || { name=dss-gateway && shift; }
: >"$1/${name}_VERSION_amd64.deb"
"""
SUDO = """#!/bin/sh
printf '%s\\n' "$@"
"""


def releases():
    """Returns the versions of CHANGELOG, the newest first."""
    return re.findall(r"(?m)^## (\d+\.\d+\.\d+)", (TOP / "CHANGELOG.md").read_text())


def versions_in(page):
    """Yields each version of this project in a page or file, with the words to its end, and whether a command or a file
    names it. All lines of a file that is no page do."""
    is_fenced = False
    for line in page.read_text().splitlines():
        is_fenced ^= line.startswith("```")
        is_code = is_fenced or page.suffix != ".md" or line.startswith("    ")
        # The name of a package has a version between underscores.
        line = line.replace("_", " ")
        for it in VERSION.finditer(line):
            words = " ".join(line[: it.end()].split()[-2:]).lstrip("(")
            if words not in OTHERS and not words.startswith("section "):
                yield it[0], words, is_code


def versions_named():
    """Each version in commands is that of the package, and each other one is of a release."""
    newest, *older = releases()
    status, output, _ = run([BUILT, "--version"])
    found, seen = difference("dss --version", (status, output.decode().split()[:2]), (0, ["dss", newest])), 0
    for page in PAGES:
        for version, words, is_code in versions_in(page):
            seen += 1
            if is_code and version != newest:
                found += [f"{page.relative_to(TOP)}: {words}: the package has the version {newest}"]
            elif version not in (newest, *older):
                found += [f"{page.relative_to(TOP)}: {words}: CHANGELOG.md has no version {version}"]
    return found + ([] if seen >= 5 and len(PAGES) > 40 else [f"{seen} versions in {len(PAGES)} files: too few"])


def commands_that_install():
    """Returns the commands of each page that install a package from a file, by the page's path."""
    found = []
    for page in PAGES:
        blocks = re.findall(r"(?m)(?:^    .*\n)+", page.read_text()) if page.suffix == ".md" else []
        found += [(str(page.relative_to(TOP)), it) for it in blocks if re.search(r"(?m)^ +.*\b(apt|dpkg)\b.*\.deb", it)]
    return found


def installed():
    """The commands install exactly the package that was just made, out of a new directory that only the caller can
    write."""
    blocks, newest = commands_that_install(), releases()[0]
    found = difference("the pages that install a package", sorted(page for page, _ in blocks), sorted(INSTALL))
    for page, commands in blocks:
        with tempfile.TemporaryDirectory() as folder:
            room = pathlib.Path(folder)
            for name, text in ("bin/sudo", SUDO), ("scripts/package", PACKAGE.replace("VERSION", newest)):
                (room / name).parent.mkdir()
                (room / name).write_text(text)
                (room / name).chmod(0o755)
            (room / "tmp").mkdir()
            more = {"TMPDIR": f"{room}/tmp", "PATH": f"{room}/bin:{os.environ['PATH']}"}
            status, output, error = run(["bash", "-e", "-c", commands], folder=room, more=more)
            file = pathlib.Path(output.decode().splitlines()[-1])
            found += difference(page, (status, output.decode().splitlines()[:-1], error), (0, ["apt", "install"], b""))
            found += difference(f"{page}: the package", file.name, f"{INSTALL.get(page)}_{newest}_amd64.deb")
            is_own = file.is_file() and file.parent.parent == room / "tmp" and file.parent.stat().st_mode & 0o777 == 0o700
            found += [] if is_own else [f"{page}: {file} is not in a new directory that only its maker can write"]
    return found


CASES = {"versions-in-docs": versions_named, "package-that-is-installed": installed}
