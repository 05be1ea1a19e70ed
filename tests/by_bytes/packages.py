"""Checks the Debian package that scripts/package makes: its paths, program, manual page, units and completions."""
import os
import pathlib
import re
import shutil
import subprocess

from ports import free_port
from program import BUILT, TOP, run
from releases import GIVEN, SOME, WANTED, Checkout, difference, one_space

DOCUMENTS, PAGES = "usr/share/doc/dss", ("README.md", "CHANGELOG.md", "CONTRIBUTING.md")
# Each path of the package, with its mode.
PATHS = {
    "etc/dss": 0o750,
    "usr/bin/dss": 0o755,
    **{f"usr/lib/systemd/system/{it}": 0o644 for it in ("dss.service", "dss-backup.service", "dss-backup.timer", "dss-failure@.service")},
    "etc/logrotate.d/dss": 0o644,
    "DEBIAN/conffiles": 0o644,
    "usr/share/man/man1/dss.1.gz": 0o644,
    "usr/share/bash-completion/completions/dss": 0o644,
    "usr/share/lintian/overrides/dss": 0o644,
    **{f"{DOCUMENTS}/{it}": 0o644 for it in (*PAGES, "changelog.gz", "copyright", "made-of", *(f"gateway/{it}.md" for it in ("MAP", "README", "TESTS")))},
    **{f"{DOCUMENTS}/{it.relative_to(TOP)}": 0o644 for it in (*TOP.glob("docs/*"), *TOP.glob("bench/*.md"), *TOP.glob("bench/*.svg"))},
    **{f"{DOCUMENTS}/{it.relative_to(TOP)}": it.stat().st_mode & 0o755
       for folder in ("examples", "deploy") for it in (TOP / folder).rglob("*") if it.is_file()},
    **{f"{DOCUMENTS}/{it.relative_to(TOP)}": 0o644 for kind in ("*.md", "*.py", "*.toml", "dss_client/*.py", "dss_client/py.typed")
       for it in (TOP / "clients" / "python").glob(kind)},
    "DEBIAN/control": 0o644,
    "DEBIAN/postinst": 0o755,
    "DEBIAN/prerm": 0o755,
    "DEBIAN/postrm": 0o755,
}
# Names in pages that the package does not contain: files of the repository and of other projects.
ELSEWHERE = re.compile(r"(\.\./)?(qualify|release|crates|tests|gateway/|bench/)|test$|tests/|[\w./]*\.(rattle|c|go)$")
OF_OTHERS = {"usr/bin/dss-gateway", "usr/share/man/man1/dss-gateway.1.gz", "usr/lib/dss"}
COMMANDS = "run", "serve", "begin", "follow", "report", "purge", "backup", "verify", "upgrade", "tokens"
# Starts that fail after so many seconds must stop trying: for a small database, and for one whose cells fill the memory of
# the unit, at 600 bytes and 15 microseconds each.
SLOW_STARTS = 12, 15e-6 * (4 << 30) / 600
# Settings that protect files, memory and processes of either unit from others.
KEPT = {"UMask=0077", "LimitCORE=0", "ProtectProc=invisible", "MemoryDenyWriteExecute=yes", "NoNewPrivileges=yes"}
# The most exposure that systemd may find in a unit, in tenths, and the units that need more: a mount is for the whole machine.
MOST_EXPOSED, OF_MACHINE = 20, {"dss-volume.service"}


def paths(root):
    """Returns the paths that the package has in excess, lacks, or has with another mode."""
    made = {str(it.relative_to(root)): it.stat().st_mode & 0o777 for it in root.rglob("*") if it.is_file()}
    made["etc/dss"] = (root / "etc/dss").stat().st_mode & 0o777
    return difference("paths", sorted(made.items()), sorted(PATHS.items()))


def manual(root):
    """Returns what `man` reports about the page, and what the page lacks."""
    if not shutil.which("man"):
        return []
    file = root / "usr/share/man/man1/dss.1.gz"
    how = {"LC_ALL": "C.UTF-8", "MANWIDTH": "120", "MAN_KEEP_FORMATTING": ""}
    status, text, error = run(["man", "--warnings", "-l", str(file)], more=how)
    text = re.sub(r".\x08", "", text.decode())
    wanted = ["NAME", "SYNOPSIS", "COMMANDS", "RUNBOOK", "Starting the service", "Monitoring", "Backing up", "Stopping", "REFERENCE", "SEE ALSO"]
    wanted += ["listening on 127.0.0.1"]
    wanted += [f"dss {it}" for it in COMMANDS]
    return difference("man", (status, error), (0, b"")) + [f"the manual page lacks {it}" for it in wanted if it not in text]


def links(root):
    """Returns the missing files that an installed page or unit names, by a link or an absolute path."""
    found, top = [], root / DOCUMENTS
    for page in sorted(top.rglob("*.md")):
        for link in re.findall(r"\]\(([^)#:\s]+)(?:#[^)]*)?\)", page.read_text()):
            is_there = (page.parent / link).exists()
            found += [f"{page.relative_to(top)}: {link} does not exist"] if not is_there and not ELSEWHERE.match(link) else []
    for page in sorted([*top.rglob("*.md"), *(root / "usr/lib").rglob("*.service")]):
        for path in set(re.findall(r"/(usr/(?:bin|lib|share)/[\w./-]*dss[\w./-]*\w)", page.read_text())) - OF_OTHERS:
            found += [f"{page.relative_to(root)}: /{path} does not exist"] if not (root / path).exists() else []
    return found


def example(root):
    """The example in the pages runs where they are installed, with the program on the path."""
    if not shutil.which("curl"):
        return []
    port = free_port()
    more = {"PATH": f"{root}/usr/bin:{os.environ['PATH']}"}
    status, output, error = run([str(root / DOCUMENTS / "examples" / "meeting"), f"{port}"], folder=root, more=more)
    return difference("examples/meeting", (status, output.count(b"\n7. "), error), (0, 1, b""))


def options(root):
    """Units and pages give only existing options to the program's commands."""
    texts = [(it.relative_to(TOP), it.read_text()) for it in (*TOP.glob("*.md"), *TOP.glob("*/*.md"), TOP / "Dockerfile")]
    texts += [(it.relative_to(TOP), it.read_text()) for it in (TOP / "deploy").rglob("*") if it.suffix in (".service", ".conf")]
    said, found, seen = {}, [], 0
    for place, text in texts:
        for line in re.findall(r"(?m)^(?:    |ExecStart=|CMD |\./).*$", text.replace('", "', " ").replace('["', "/dss ")):
            for command, words in re.findall(r"\bdss (run|serve|begin|follow|report|purge|upgrade|backup|verify|self|tokens) ([^|>&]*)", line):
                if command not in said:
                    said[command] = run([str(root / "usr/bin/dss"), command, "--help"])[1].decode()
                asked = re.findall(r"(?<!\S)\[?(--[\w-]+)", words)
                seen += len(asked)
                found += [f"{place}: dss {command} has no {it}" for it in asked if not re.search(rf"{it}\b", said[command])]
    return found + ([] if seen > 50 else [f"{seen} options found, too few"])


def said_by_lintian(package):
    """Returns lintian's errors for a package, if lintian is installed."""
    if not shutil.which("lintian"):
        return []
    status, output, error = run(["lintian", "--allow-root", "--fail-on", "error", str(package)])
    return [it for it in output.decode().splitlines() if it.startswith("E: ")] + ([f"lintian: {error!r}"] if status not in (0, 1, 2) else [])


def units(root):
    """Returns systemd's messages about the unit, alone and with those of three hosts, with the programs at their
    location here."""
    if not shutil.which("systemd-analyze"):
        return []
    hosts, folder, settings = TOP / "deploy" / "hosts", root / "units", "dss.service.d/hosts.conf"
    places = {"/usr/bin/dss-gateway": "/bin/true", "/usr/bin/dss ": f"{root}/usr/bin/dss ", "/usr/local/lib/dss": f"{hosts}",
              "/usr/sbin/glusterfs": "/bin/true"}
    files = {
        "dss.service": root / "usr/lib/systemd/system/dss.service",
        "dss-gateway.service": TOP / "deploy" / "dss-gateway.service",
        "dss-backup.service": root / "usr/lib/systemd/system/dss-backup.service",
        "dss-backup.timer": root / "usr/lib/systemd/system/dss-backup.timer",
        "dss-failure@.service": root / "usr/lib/systemd/system/dss-failure@.service",
        "dss-volume.service": hosts / "dss-volume.service",
        settings: hosts / settings,
    }
    found = []
    for name in "dss.service", "dss-gateway.service":
        found += difference(f"what {name} keeps from others", sorted(KEPT & set(files[name].read_text().splitlines())), sorted(KEPT))
    beside = ["dss-backup.timer", "dss-backup.service", "dss.service"], ["dss-gateway.service", "dss.service"]
    for names in ["dss.service", "dss-failure@.service"], *beside, list(files):
        for name in names:
            text = files[name].read_text()
            for there, here in places.items():
                text = text.replace(there, here)
            (folder / name).parent.mkdir(parents=True, exist_ok=True)
            (folder / name).write_text(text)
        # A template is loaded where a unit names it.
        asked = [str(folder / it) for it in names if it != settings and "@" not in str(it)]
        status, output, error = run(["systemd-analyze", "verify", "--man=no", *asked])
        # systemd also checks units of the machine.
        said = [it for it in (output + error).decode().splitlines() if "dss" in it]
        found += difference(f"systemd-analyze, {names}", (status, said), (0, []))
    shutil.rmtree(folder)
    return found + exposed()


def exposed():
    """Returns the units that systemd finds more exposed than the service, if it can tell without running them."""
    found = []
    for file in sorted((TOP / "deploy").rglob("*.service")):
        status, _, error = run(["systemd-analyze", "security", "--offline=yes", f"--threshold={MOST_EXPOSED}", "--no-pager", str(file)])
        is_told = b"unrecognized option" not in error and file.name not in OF_MACHINE
        found += [f"systemd-analyze security: {file.name} is exposed"] if status and is_told else []
    return found


def unit_settings():
    """Returns the settings that the units lack: limits, what starts them, and what reports their failures."""
    deploy, found = TOP / "deploy", []
    for file in sorted(deploy.rglob("*.service")):
        lines = file.read_text().splitlines()
        is_started = any(it.startswith(("WantedBy=", "Also=")) for it in lines) or "@" in file.name
        found += [] if "LimitNOFILE=4096" in lines and is_started else [f"{file.name} lacks LimitNOFILE=4096 or [Install]"]
    service = dict(it.split("=", 1) for it in (deploy / "dss.service").read_text().splitlines() if "=" in it and it[0] != "#")
    interval = 60 * int(service.get("StartLimitIntervalSec", "0min").removesuffix("min"))
    for seconds in SLOW_STARTS:
        starts = int(service.get("StartLimitBurst", 5)) * (seconds + int(service["RestartSec"]))
        found += [] if 0 < starts < interval else [f"{starts} s of failed starts, limited within {interval} s"]
    found += [] if service.get("MemoryMax") == "4G" else ["dss.service has not the MemoryMax that its starts are limited for"]
    wanted = {"dss.service": "OnFailure=dss-failure@%n.service", "dss-backup.service": "OnFailure=dss-failure@%n.service",
              "dss-backup.timer": "Persistent=true", "pool/dss-pool@.service": "RestartPreventExitStatus=3"}
    found += [f"{name} lacks {it}" for name, it in wanted.items() if it not in (deploy / name).read_text().splitlines()]
    container = (TOP / "Dockerfile").read_text().splitlines()[-1]
    return found + ([] if '"--admin-port", "8078"' in container else [f"no admin port in {container}"])


def removal(root):
    """The removal of the package stops and disables the service and the timer."""
    folder = root / "removal"
    folder.mkdir()
    (folder / "systemctl").write_text(f"#!/bin/sh\necho \"$*\" >> {folder}/said\n")
    (folder / "systemctl").chmod(0o755)
    # As if systemd ran.
    script = (root / "DEBIAN" / "prerm").read_text().replace("/run/systemd/system", str(folder))
    got = run(["sh", "-c", script, "prerm", "remove"], more={"PATH": f"{folder}:{os.environ['PATH']}"})
    said = (folder / "said").read_text()
    shutil.rmtree(folder)
    return difference("prerm", (got, said), ((0, b"", b""), "disable --now dss-backup.timer dss.service\n"))


def completed(root, *words):
    """Returns bash's completions for the last word of a command line."""
    file = root / "usr/share/bash-completion/completions/dss"
    script = f'. {file}; COMP_WORDS=("$@"); COMP_CWORD=$(($# - 1)); _dss; printf "%s\\n" "${{COMPREPLY[@]}}"'
    status, output, error = run(["bash", "-c", script, "bash", "dss", *words], folder=TOP / "examples")
    return output.decode().split() + error.decode().split()


def completions(root):
    found = [f"{it} is missing from the completions" for it in COMMANDS if it not in completed(root, "")]
    found += difference("se", completed(root, "se")[:1], ["serve"] if "serve" in completed(root, "se") else ["self"])
    found += difference("--to", completed(root, "run", "--to"), ["--tokens"])
    found += difference("--d", completed(root, "upgrade", "--d"), ["--db"])
    found += difference("--b", completed(root, "serve", "--b"), ["--backup-dir"])
    found += difference("--u", completed(root, "purge", "--u"), ["--until"])
    found += difference("--ret", completed(root, "serve", "--ret"), ["--retention"])
    found += difference("a log", completed(root, "serve", "--access-log", "tok"), ["tokens.toml"])
    found += difference("--new-token", completed(root, "tokens", "--new-"), ["--new-token", "--new-salt"])
    found += difference("a file to check", completed(root, "tokens", "--check", "tok"), ["tokens.toml"])
    return found + difference("a file", completed(root, "run", "--tokens", "tok"), ["tokens.toml"])


def told(*words):
    """Returns the lines that dpkg-deb prints."""
    return subprocess.run(["dpkg-deb", *words], capture_output=True, text=True, check=True).stdout.splitlines()


def package():
    """The package is made only of the release, and its contents run."""
    with Checkout(SOME) as it:
        made = it.top.parent
        status, output, error = it.run(["scripts/package", str(made)])
        packages = sorted(made.glob("*.deb"))
        if status or len(packages) != 1:
            return [f"scripts/package: {status}, {output!r}, {error}"]
        root = made / "root"
        subprocess.run(["dpkg-deb", "-R", packages[0], root], check=True)
        version = re.search(r"^## ([\d.]+)", (TOP / "CHANGELOG.md").read_text(), re.M)[1]
        fields = told("-f", packages[0], "Package", "Version", "Architecture")
        found = difference("fields", fields, ["Package: dss", f"Version: {version}", "Architecture: amd64"])
        found += difference("owners", {line.split()[1] for line in told("-c", packages[0])}, {"root/root"})
        found += paths(root) + manual(root) + units(root) + completions(root) + links(root) + options(root) + example(root)
        found += removal(root) + unit_settings() + said_by_lintian(packages[0])
        program = root / "usr/bin/dss"
        words = [str(program), "run", "--tokens", str(TOP / "examples" / "tokens.toml"), "--now", "1000", "-"]
        found += difference("program", program.read_bytes() == pathlib.Path(BUILT).read_bytes(), True)
        found += difference("answer", run(words, GIVEN), (0, WANTED, b""))
        for script in "postinst", "prerm", "postrm":
            found += difference(script, run(["sh", "-n", str(root / "DEBIAN" / script)]), (0, b"", b""))
        one_space(it.top)
        packages[0].unlink()
        status, output, error = it.run(["scripts/package", str(made)])
        found += difference("other sources", (status, "from other sources" in error, sorted(made.glob("*.deb"))), (1, True, []))
        return found


CASES = {"package": package}
