"""`serve` uses no file that could block it: its access log and its token file are regular files. Files that the program
makes are for their owner, and commands that only read leave the times of the last change."""
import os
import pathlib
import time

import wire
from databases import Room, filled
from figures import FullAndVerbose
from lateness import again, exceeded
from logs import until_lines
from program import BUILT, run
from serving import Service
from sockets import ASKED, CLOSING, LAST, ANSWER, difference

OUTPUT, UNREAD = b"dss: output\n", b"dss: tokens: cannot read\n"
MEBIBYTE = 1 << 20
# Seconds within which the service looks at its files again, and within which it answers.
LOOK, AT_ONCE = 2.5, 1


def cause(name, words):
    return f"dss: cause: {name}: {words}\n".encode()


def at_the_start():
    """A pipe, a device or a directory is rejected at once, with a cause. A token file of a mebibyte is, too."""
    found = []
    with Service() as started:
        words = started.command()
        started.kill()
        folder = started.folder
        os.mkfifo(folder / "pipe")
        (folder / "directory").mkdir()
        for name in folder / "pipe", "/dev/null", "/dev/full", folder / "directory":
            for option, line in ("--access-log", OUTPUT), ("--tokens", UNREAD):
                given = [*words, option, f"{name}"] if option != "--tokens" else [f"{name}" if it.endswith("tokens.toml") else it for it in words]
                found += difference(f"{option} {name}", run(given), (1, b"", line))
                before = FullAndVerbose.preface if option == "--access-log" else b""
                told = before + line + cause(name, "not a regular file")
                found += difference(f"{option} {name}, in words", run([*given, "--verbose"]), (1, b"", told))
        text = wire.token_file().encode()
        (folder / "tokens.toml").write_bytes(text + b"#" * (MEBIBYTE - len(text)))
        found += difference("a mebibyte", run(words), (1, b"", UNREAD))
        (folder / "tokens.toml").write_bytes(text + b"#" * (MEBIBYTE - len(text) - 1))
        started.start()
        return found + difference("less", started.exchange(CLOSING, ends=False), LAST)


class Logging(Service):
    def command(self):
        return [*super().command(), "--access-log", f"{self.folder}/log"]


def while_it_serves():
    """If a pipe takes the place of the log or of the token file, the service goes on with the open log and the loaded
    tokens."""
    with Logging() as started:
        found = difference("before", started.exchange(ASKED + CLOSING, ends=False), ANSWER + LAST)
        (started.folder / "log").rename(started.folder / "moved")
        os.mkfifo(started.folder / "log")
        (started.folder / "tokens.toml").unlink()
        os.mkfifo(started.folder / "tokens.toml")
        started.until_told(UNREAD)
        time.sleep(LOOK)
        began = time.monotonic()
        found += difference("after", started.exchange(ASKED + CLOSING, ends=False), ANSWER + LAST)
        found += exceeded(time.monotonic() - began, AT_ONCE, "after")
        found += difference("lines of the log", len(until_lines(started.folder / "moved", 4)), 4)
        started.kill()
        told = (started.folder / "errors").read_bytes()[len(started.listening):]
        return found + difference("told", told, UNREAD)


# Everyone may read what is made under this umask without a mode of its own.
OPEN = ["sh", "-c", 'umask 022; exec "$@"', "-"]
MONTH = 30 * 86_400


def modes(folder):
    """Returns the modes of the files of a directory and of those below it."""
    folder = pathlib.Path(folder)
    return {str(it.relative_to(folder)): f"{it.stat().st_mode & 0o777:04o}" for it in folder.rglob("*") if it.is_file()}


class OpenService(Service):
    """A service under that umask, with an access log."""

    def command(self):
        return [*OPEN, *super().command(), "--access-log", f"{self.folder}/log"]


def served():
    """What `serve` makes is for its owner, and the log for its group, too. Files that exist keep their modes."""
    with OpenService() as started:
        found = difference("served", started.exchange(ASKED + CLOSING, ends=False), ANSWER + LAST)
        until_lines(started.folder / "log", 1)
        made = {it: mode for it, mode in modes(started.folder).items() if it.startswith(("dss.db", "log"))}
        found += difference("modes", made, {"dss.db": "0600", "dss.db-wal": "0600", "log": "0640"})
        started.kill()
        for name in made:
            (started.folder / name).chmod(0o664)
        started.start()
        found += difference("served again", started.exchange(ASKED + CLOSING, ends=False), ANSWER + LAST)
        kept = {it: mode for it, mode in modes(started.folder).items() if it in made}
        return found + difference("modes that are kept", kept, dict.fromkeys(made, "0664"))


def made_by_commands():
    """What other commands make is for its owner. A copy has the rights of its source, but none for others."""
    found = []
    with Room() as room:
        folder = pathlib.Path(room.folder.name)
        said = lambda *words: run([*OPEN, BUILT, *map(str, words)])[::2]
        made = lambda file: modes(folder)[str(file.relative_to(folder))]
        wanted = {"dss.db": "0600", "dss.db-wal": "0600", "tokens.toml": modes(folder)["tokens.toml"]}
        found += difference("run", run([*OPEN, *room.words()], b"".join(filled()))[::2], (0, b""))
        for command, words in {"report": (), "upgrade": (), "purge": ("--until", "5", "--now", "9")}.items():
            found += difference(command, said(command, "--db", folder / f"{command}.db", *words), (0, b""))
            wanted |= {f"{command}.db": "0600", f"{command}.db-wal": "0600"}
        found += difference("modes", modes(folder), wanted)
        begin = lambda name: said("begin", "--tokens", room.tokens, "--db", room.database, "--files", folder / name)
        for mode, copied in (0o600, "0600"), (0o644, "0640"), (0o666, "0640"):
            room.database.chmod(mode)
            copy, files = f"copy-{mode:o}.db", folder / f"files-{mode:o}"
            files.mkdir()
            found += difference("backup", said("backup", "--db", room.database, folder / copy), (0, b""))
            found += difference("begin", begin(files.name), (0, b""))
            found += difference("modes of copies", {modes(folder)[copy], *(made(it) for it in files.glob("*.db"))}, {copied})
            found += difference("the lock", made(files / "lock")[-1], "0")
            found += difference("the source", made(room.database), f"{mode:04o}")
        found += difference("backup --live", said("backup", "--live", "--db", room.database, folder / "live"), (0, b""))
        return found + difference("modes of a backup", set(modes(folder / "live").values()), {"0600"})


def for_their_owner():
    """Under a umask that lets all others read, files that the program makes are for their owner."""
    return served() + made_by_commands()


def times(database):
    """Returns the times of the last change of the files of a database that exist."""
    files = (pathlib.Path(f"{database}{end}") for end in ("", "-wal"))
    return [it.stat().st_mtime_ns for it in files if it.exists()]


def times_of_the_last_change():
    """Commands that only read leave the times of the last change of a database and its log. A purge changes them."""
    found = []
    with Room() as room:
        found += difference("run", room.serve(filled())[::2], (0, b""))
        folder, old = pathlib.Path(room.folder.name), time.time_ns() // 1_000 * 1_000 - MONTH * 1_000_000_000
        (folder / "files").mkdir()
        given = ["--db", str(room.database)]
        commands = {
            "report": ["report", *given],
            "report --cells": ["report", *given, "--cells"],
            "backup": ["backup", *given, f"{folder}/copy.db"],
            "backup that fails": ["backup", *given, f"{folder}/none/copy.db"],
            "upgrade": ["upgrade", *given],
            "begin": ["begin", *given, "--tokens", str(room.tokens), "--files", f"{folder}/files"],
            "backup --live": ["backup", "--live", *given, f"{folder}/live"],
            "verify": ["verify", str(room.database)],
        }
        for log_is_gone in False, True:
            for name, words in commands.items():
                if log_is_gone:
                    pathlib.Path(f"{room.database}-wal").unlink(missing_ok=True)
                for at, end in enumerate(("", "-wal")):
                    if os.path.exists(f"{room.database}{end}"):
                        os.utime(f"{room.database}{end}", ns=(old, old + at))
                status, _, error = run([BUILT, *words])
                fails = name == "backup that fails" or (log_is_gone and name in ("backup", "begin", "backup --live"))
                found += difference(f"the status of {name}, which said {error!r}", status, int(fails))
                # a new log has the time of the file
                wanted = [old, old if log_is_gone else old + 1]
                found += difference(f"times after {name}", times(room.database), wanted[: len(times(room.database))])
        link = folder / "link.db"
        link.symlink_to(room.database)
        found += difference("report of a link", run([BUILT, "report", "--db", str(link)])[::2], (0, b""))
        found += difference("times after report of a link", times(room.database), [old, old])
        found += difference("purge", run([BUILT, "purge", *given, "--until", "1", "--now", "9"])[::2], (0, b""))
        return found + difference("times after a purge", max(times(room.database)) > old + 1, True)


CASES = {
    "regular-files": at_the_start,
    "regular-files-while-it-serves": again(while_it_serves),
    "files-for-their-owner": for_their_owner,
    "times-of-the-last-change": times_of_the_last_change,
}
