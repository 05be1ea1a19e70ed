"""`dss tokens` prints the expected lines about token files, and makes tokens and salts."""
import pathlib
import re
import tempfile

from program import BUILT, TOP, run
from arguments import TOKEN_FILES

SALT = "f0" * 32
SCOPES = (
    "utm.strategic_coordination", "utm.conformance_monitoring_sa", "utm.constraint_processing",
    "utm.constraint_management", "utm.availability_arbitration",
)
NO_SALT = "no salt: dss tokens --new-salt makes one"
NAMES = "only letters, digits, - _ . are allowed"
VISIBLE = "text: only visible ASCII characters are allowed, and no blank"
NO_SCOPE = "unknown scope, permits nothing"
IS_EXAMPLE = "warning: salt: it stands in an example, so everybody can compute OVNs"


def is_short(length):
    return f"warning: salt of {length} characters: under 32 it can be found from one OVN"


def table(text="t", uss="uss-a", scopes='["utm.strategic_coordination"]'):
    return f'[[token]]\ntext = "{text}"\nuss = "{uss}"\nscopes = {scopes}\n'


def with_salt(*tables, salt=SALT):
    return "".join([f'salt = "{salt}"\n', *(f"\n{it}" for it in tables)])


def good(tokens, suppliers, salt=64):
    def ending(count):
        return "" if count == 1 else "s"
    return f"FILE: {tokens} token{ending(tokens)} of {suppliers} supplier{ending(suppliers)}, salt of {salt} character{ending(salt)}"


# Texts of token files, the lines printed about each, and the fault that the other commands report for it.
FILES = (
    (with_salt(table()), [good(1, 1)], None),
    (with_salt(table("t"), table("u"), table("v", "uss-b")), [good(3, 2)], None),
    (with_salt(table(), salt="s" * 32), [good(1, 1, 32)], None),
    # Only warnings.
    (with_salt(table(), salt="s" * 31), ["line 1: " + is_short(31), good(1, 1, 31)], None),
    (with_salt(table(), salt="demo"), ["line 1: " + IS_EXAMPLE, "line 1: " + is_short(4), good(1, 1, 4)], None),
    (with_salt(table(), salt="Demo"), ["line 1: " + is_short(4), good(1, 1, 4)], None),
    (with_salt(), ["warning: no token: no call has a caller", good(0, 0)], None),
    (f'salt = "{SALT}"\ntoken = []\n', ["warning: no token: no call has a caller", good(0, 0)], None),
    (
        f'# a comment\nsalt = "{SALT}"\nother = 1\n\n[[tokens]]\ntext = "t"\n\n[more]\nx = 1\n',
        [
            'line 8: warning: "more" is not read: the table of a token begins with [[token]]',
            'line 3: warning: "other" is not read',
            'line 5: warning: "tokens" is not read: the table of a token begins with [[token]]',
            "warning: no token: no call has a caller",
            good(0, 0),
        ],
        None,
    ),
    (
        with_salt(table() + 'scope = "x"\n', table("u", scopes="[]"), table("v", scopes='["utm.x", "utm.constraint_processing",\n  "y\\u0007"]')),
        [
            'line 7, token 1: warning: "scope" is not read',
            f'line 17, token 3: warning: scope "utm.x": {NO_SCOPE}',
            f'line 17, token 3: warning: scope "y\\u{{7}}": {NO_SCOPE}',
            good(3, 1),
        ],
        None,
    ),
    # Errors.
    ("salt = demo", ["line 1: no TOML: invalid value, expected a string, number, boolean, date-time, array or inline table"], "1 Toml"),
    (f'salt = "{SALT}"\n\n[[token]\n', ["line 3: no TOML: unclosed array table, expected `]]`"], "1 Toml"),
    (table(), [NO_SALT], "2 Salt"),
    ("salt = 4\n" + table(), ["line 1: salt: not a string"], "2 Salt"),
    ('salt = ""\n' + table(), ["line 1: salt of 0 bytes: 1 to 64 are allowed"], "2 Salt"),
    (with_salt(table(), salt="s" * 65), ["line 1: salt of 65 bytes: 1 to 64 are allowed"], "2 Salt"),
    (with_salt(table(), salt="a b"), [f"line 1: salt: {NAMES}"], "2 Salt"),
    (with_salt() + "token = 1\n", ["line 2: token: not an array of tables: begin each token with [[token]]"], "3 Token"),
    (with_salt() + '[token]\ntext = "t"\n', ["line 2: token: not an array of tables: begin each token with [[token]]"], "3 Token"),
    (with_salt() + "token = [1]\n", ["line 2, token 1: no table", "line 2, token 1: no uss", "line 2, token 1: no scopes"], "3 Token"),
    (with_salt("[[token]]\n"), ["line 3, token 1: no text", "line 3, token 1: no uss", "line 3, token 1: no scopes"], "3 Token"),
    (
        with_salt("[[token]]\ntext = 1\nuss = 2\nscopes = 3\n"),
        ["line 4, token 1: text: not a string", "line 5, token 1: uss: not a string", "line 6, token 1: scopes: not an array of strings"],
        "3 Token",
    ),
    (with_salt(table("")), ["line 4, token 1: text of 0 bytes: 1 to 255 are allowed"], "3 Token"),
    (with_salt(table("t" * 256)), ["line 4, token 1: text of 256 bytes: 1 to 255 are allowed"], "3 Token"),
    (with_salt(table("a b")), [f"line 4, token 1: {VISIBLE}"], "3 Token"),
    (with_salt(table(uss="")), ["line 5, token 1: uss of 0 bytes: 1 to 64 are allowed"], "4 Uss"),
    (with_salt(table(uss="u" * 65)), ["line 5, token 1: uss of 65 bytes: 1 to 64 are allowed"], "4 Uss"),
    (with_salt(table(), table("u", "uss c")), [f'line 10, token 2: uss "uss c": {NAMES}'], "4 Uss"),
    (with_salt(table(scopes='["utm.strategic_coordination", 1]')), ["line 6, token 1: scopes: not an array of strings"], "5 Scopes"),
    (with_salt(table(), table("u"), table("t", "uss-b")), ["line 14, token 3: text: that of token 1"], "6 Repeated"),
    # All are reported, warnings last. What is reported for a line does not depend on the lines above it.
    (
        with_salt(table("a b", "u/v", "[]"), table("t") + "x = 1\n", '[[token]] # "t"\n"text" = """\nt"""\nuss = \'w\'\nscopes = [ # ]\n  "]", "#" ]\n', salt="demo"),
        [
            f"line 4, token 1: {VISIBLE}",
            f'line 5, token 1: uss "u/v": {NAMES}',
            "line 15, token 3: text: that of token 2",
            "line 1: " + IS_EXAMPLE,
            "line 1: " + is_short(4),
            'line 12, token 2: warning: "x" is not read',
            f'line 18, token 3: warning: scope "]": {NO_SCOPE}',
            f'line 18, token 3: warning: scope "#": {NO_SCOPE}',
        ],
        "3 Token",
    ),
    # Tables on one line, where none has its own line.
    (
        f'salt = "{SALT}"\ntoken = [\n  {{text = "t", uss = "u", scopes = []}},\n  {{text = "t", uss = "u/", scopes = []}},\n]\n',
        [
            f'line 2, token 2: uss "u/": {NAMES}',
            "line 2, token 2: text: that of token 1",
        ],
        "4 Uss",
    ),
)


def checked(text):
    """Returns what is printed about a text: the status, the lines, with FILE for the file's name, and standard error."""
    with tempfile.TemporaryDirectory() as room:
        file = pathlib.Path(room, "tokens.toml")
        file.write_text(text)
        status, output, error = run([BUILT, "tokens", "--check", str(file)])
        lines = output.decode().replace(str(file), "FILE").splitlines()
    return status, lines, error.decode()


def secrets_in(text, lines):
    """Returns the tokens and salts of a text that occur in the lines, except those of one or two letters."""
    texts = re.findall(r'(?:text"?|salt) = "+\n?([^"]*)"', text)
    return [it for it in texts if len(it) > 2 and it != "demo" and any(it in line for line in lines)]


def reports():
    """Each file gives all its lines, and the fault that the other commands report. No token and no salt is printed."""
    found = []
    for text, lines, fault in FILES:
        wanted = (1, lines, f"dss: tokens: fault {fault}\n") if fault else (0, lines, "")
        got = checked(text)
        if got != wanted:
            found += [f"{text!r}: wanted {wanted!r}, got {got!r}"]
        found += [f"{text!r}: {it!r} is told" for it in secrets_in(text, got[1])]
    return found


def agreement():
    """A file has an error exactly if `run` rejects it, and the fault is the same."""
    found = []
    for text, fault in TOKEN_FILES:
        status, lines, error = checked(text)
        wanted = (1, f"dss: tokens: fault {fault}\n") if fault else (0, "")
        if (status, error) != wanted:
            found += [f"{text!r}: wanted {wanted!r}, got {(status, error)!r}"]
        errors = [it for it in lines if "warning: " not in it and not it.startswith("FILE: ")]
        if bool(errors) != bool(fault) or any(it.startswith("FILE: ") for it in lines) == bool(fault):
            found += [f"{text!r}: {fault}, and the lines are {lines!r}"]
    return found


def unread():
    """A missing file, a directory, and bytes that are not UTF-8 cannot be read, as for the other commands."""
    found = []
    with tempfile.TemporaryDirectory() as room:
        pathlib.Path(room, "bytes").write_bytes(b'salt = "\xff"')
        for name in "none", "", "bytes":
            got = run([BUILT, "tokens", "--check", f"{room}/{name}"])
            if got != (1, b"", b"dss: tokens: cannot read\n"):
                found += [f"{name!r}: got {got!r}"]
    return found


def from_nothing():
    """A salt and some tokens make a file without errors or warnings. Each is of 64 hexadecimal digits, and no two are
    alike."""
    asked = [("uss-a", ",".join(SCOPES)), ("uss-a", SCOPES[0]), ("u" * 64, f"{SCOPES[2]},{SCOPES[1]}")]
    file, found = "", []
    for words in [["--new-salt"], *(["--new-token", uss, "--scopes", scopes] for uss, scopes in asked)]:
        status, output, error = run([BUILT, "tokens", *words])
        file += output.decode()
        if (status, error) != (0, b""):
            found += [f"{words}: got {status}, {error!r}"]
    digits = re.findall(r'"([0-9a-f]{64})"', file)
    wanted = f'salt = "{digits[0]}"\n' + "".join(
        f'\n[[token]]\ntext = "{text}"\nuss = "{uss}"\nscopes = [{", ".join(f"""{chr(34)}{it}{chr(34)}""" for it in scopes.split(","))}]\n'
        for text, (uss, scopes) in zip(digits[1:], asked)
    )
    if file != wanted or len(set(digits)) != 4:
        found += [f"wanted {wanted!r}, got {file!r}"]
    got = checked(file)
    return found + ([] if got == (0, [good(3, 2)], "") else [f"of what was made: {got!r}"])


def not_made():
    """No token is made for a USS or a scope that a token file cannot have or that permits nothing."""
    found = []
    scopes = f"there are {', '.join(SCOPES[:4])} and {SCOPES[4]}"
    for uss, names, told, fault in (
        ("uss c", SCOPES[0], f'uss "uss c": {NAMES}', "4 Uss"),
        ("", SCOPES[0], "uss of 0 bytes: 1 to 64 are allowed", "4 Uss"),
        ("u" * 65, SCOPES[0], "uss of 65 bytes: 1 to 64 are allowed", "4 Uss"),
        ("uss-c", "", f'scope "": no scope has that name: {scopes}', "5 Scopes"),
        ("uss-c", f"{SCOPES[0]}, {SCOPES[1]}", f'scope " {SCOPES[1]}": no scope has that name: {scopes}', "5 Scopes"),
        ("uss-c", f"{SCOPES[0]},x\n", f'scope "x\\n": no scope has that name: {scopes}', "5 Scopes"),
    ):
        wanted = (1, b"", f"{told}\ndss: tokens: fault {fault}\n".encode())
        got = run([BUILT, "tokens", "--new-token", uss, "--scopes", names])
        if got != wanted:
            found += [f"{uss!r}, {names!r}: wanted {wanted!r}, got {got!r}"]
    return found


def example_salts():
    """The salt of each example is reported as an example's."""
    found = []
    for file in sorted(TOP.glob("examples/*.toml")):
        lines = run([BUILT, "tokens", "--check", str(file)])[1].decode().splitlines()
        if not any(IS_EXAMPLE in it for it in lines):
            found += [f"{file}: {lines!r}"]
    return found


def full():
    """If lines cannot be written, that is reported."""
    with open("/dev/full", "wb") as nowhere:
        import subprocess
        done = subprocess.run([BUILT, "tokens", "--new-salt"], stdout=nowhere, stderr=subprocess.PIPE)
    return [] if (done.returncode, done.stderr) == (1, b"dss: output\n") else [f"got {done!r}"]


CASES = {
    "token-reports": reports,
    "token-reports-agree-with-run": agreement,
    "token-files-unread": unread,
    "token-file-from-nothing": from_nothing,
    "token-not-made": not_made,
    "token-salts-of-examples": example_salts,
    "token-output-full": full,
}
