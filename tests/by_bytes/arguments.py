"""Token files, command lines and tokens of cells that are accepted or rejected, each with its expected result."""

# Token files, and the fault of each.
TOKEN_FILES = (
    ("salt = demo", "1 Toml"),
    ("salt = 1e400", "1 Toml"),
    ("", "2 Salt"),
    ("salt = 4", "2 Salt"),
    ('salt = ""', "2 Salt"),
    ('salt = "a b"', "2 Salt"),
    ('salt = "é"', "2 Salt"),
    (f'salt = "{"s" * 64}"', None),
    (f'salt = "{"s" * 65}"', "2 Salt"),
    ('salt = "s"\ntoken = 1', "3 Token"),
    ('salt = "s"\n[token]\ntext = "t"', "3 Token"),
    ('salt = "s"\ntoken = [1]', "3 Token"),
    ('salt = "s"\ntoken = [{uss = "u", scopes = []}]', "3 Token"),
    ('salt = "s"\ntoken = [{text = "a b", uss = "u", scopes = []}]', "3 Token"),
    ('salt = "s"\ntoken = [{text = "", uss = "u", scopes = []}]', "3 Token"),
    ('salt = "s"\ntoken = [{text = "t", scopes = []}]', "4 Uss"),
    ('salt = "s"\ntoken = [{text = "t", uss = "u/v", scopes = []}]', "4 Uss"),
    ('salt = "s"\ntoken = [{text = "t", uss = "é", scopes = []}]', "4 Uss"),
    ('salt = "s"\ntoken = [{text = "t", uss = "u"}]', "5 Scopes"),
    ('salt = "s"\ntoken = [{text = "t", uss = "u", scopes = "x"}]', "5 Scopes"),
    ('salt = "s"\ntoken = [{text = "t", uss = "u", scopes = ["x", 1]}]', "5 Scopes"),
    (
        'salt = "s"\ntoken = [{text = "t", uss = "u", scopes = []}, {text = "t", uss = "v", scopes = []}]',
        "6 Repeated",
    ),
    # The salt is checked first, and then table by table.
    ('token = [{text = "", uss = ""}]', "2 Salt"),
    ('salt = "s"\ntoken = [{text = "t", uss = "", scopes = []}, {text = ""}]', "4 Uss"),
    ('salt = "s"\ntoken = [{text = "t", uss = "u", scopes = []}, {text = "t", uss = ""}]', "4 Uss"),
    ('salt = "s"\ntoken = [{text = "t", uss = "", scopes = 1}]', "4 Uss"),
    (
        'salt = "s"\ntoken = [{text = "t", uss = "u", scopes = []}, {text = "t", uss = "u", scopes = 1}]',
        "5 Scopes",
    ),
    ('salt = "s"', None),
    ('salt = "s"\ntoken = []\nother = 1', None),
    # Texts have up to 255 visible bytes.
    (f'salt = "s"\n[[token]]\ntext = "{"!" * 255}"\nuss = "u"\nscopes = []', None),
    (f'salt = "s"\n[[token]]\ntext = "{"!" * 255}~"\nuss = "u"\nscopes = []', "3 Token"),
    ('salt = "s"\ntoken = [{text = "!~", uss = "u", scopes = []}]', None),
    ('salt = "s"\ntoken = [{text = "\\u007f", uss = "u", scopes = []}]', "3 Token"),
    ('salt = "s"\ntoken = [{text = "é", uss = "u", scopes = []}]', "3 Token"),
)

# Command lines after the program's name, the status, and a part of the output. The files are those of the examples, and
# standard input is empty.
RUN = ["run", "--tokens", "examples/tokens.toml", "--now"]
TOKENS_AND_DB = ["--tokens", "t", "--db", "d"]
# The message of a purge until a time that is not past.
PURGE_IN_FUTURE = "dss: until: in the future"
# Texts that `--listen` accepts, and texts that it rejects; the same of `--admin-port`.
LISTENED = (
    "127.0.0.1", "0.0.0.0", "::1", "::", "2001:db8::1", "2001:DB8::1", "1:2:3:4:5:6:7:8", "::ffff:192.0.2.7",
    "127.0.0.1:80", "0.0.0.0:65535", "[::1]:80", "[::]:1", "[2001:db8::1]:8080", "[::ffff:192.0.2.7]:80",
)
NO_ADDRESSES = (
    "", " ", "localhost", "localhost:80", "1.2.3", "1.2.3.4.5", "256.0.0.1", "01.0.0.1", "127.0.0.1:", "127.0.0.1:0",
    "127.0.0.1:65536", "127.0.0.1:x", ":80", "80", "[127.0.0.1]:80", "http://127.0.0.1:80", "127.0.0.1:80/",
    "[::1]", "[::1]:", "[::1]:0", "[::1]:65536", "[::1]80", "[::1:80", "::1]:80", "::1%1", "fe80::1%lo", ":", ":::",
    "1::2::3", "12345::", "g::", "1:2:3:4:5:6:7", "1:2:3:4:5:6:7:8:9", "1.2.3.4::", "::1.2.3.256", "::1 ",
)
ADMIN_PORTS = ("1", "65535", "127.0.0.1:80", "[::1]:80")
NO_ADMIN_PORTS = (
    "", "0", "65536", "-1", "80.0", "localhost:80", "127.0.0.2:80", "0.0.0.0:80", "[::]:80", "[::ffff:127.0.0.1]:80",
    "127.0.0.1", "127.0.0.1:0", "::1", "[::1]", "[::1]:0",
)
# Texts that `--pool` accepts, and texts that it rejects, each with the part that is wrong; the same of `--as`.
ENDPOINTS = (
    "127.0.0.1:2379", "[::1]:2379", "10.0.0.1:1,10.0.0.2:65535", "[2001:db8::1]:2379,127.0.0.1:2379,[::1]:2379",
)
NO_ENDPOINTS = (
    ("", ""), (",", ""), ("127.0.0.1", "127.0.0.1"), ("127.0.0.1:0", "127.0.0.1:0"), ("[::1]", "[::1]"),
    ("127.0.0.1:65536", "127.0.0.1:65536"), ("localhost:2379", "localhost:2379"), ("2379", "2379"), (":2379", ":2379"),
    ("http://127.0.0.1:2379", "http://127.0.0.1:2379"), ("127.0.0.1:2379,", ""), (",127.0.0.1:2379", ""),
    ("127.0.0.1:1, 127.0.0.1:2", " 127.0.0.1:2"), ("127.0.0.1:1;127.0.0.1:2", "127.0.0.1:1;127.0.0.1:2"),
    ("[::1]:1,::1:2,::1", "::1:2"),
)
INSTANCES = ("a", "A.b_c-9", "-", ".", "0" * 64)
NO_INSTANCES = ("", " ", "a/b", "a b", "é", "a,b", "0" * 65)


def serving(port, count):
    """Returns a command line of `serve`."""
    return ["serve", *TOKENS_AND_DB, "--port", port, "--count", count]


def pooled(endpoints, name):
    """Returns a command line of `serve` as an instance of a pool."""
    return ["serve", "--tokens", "t", "--port", "1", f"--pool={endpoints}", f"--as={name}"]


IN_POOL = pooled("127.0.0.1:1", "a")


def followed(endpoints, name):
    """Returns a command line of `follow`."""
    return ["follow", "--tokens", "t", "--files", "f", f"--pool={endpoints}", f"--as={name}"]


FOLLOWING = followed("127.0.0.1:1", "a")
BEGINNING = ["begin", "--tokens", "t", "--db", "d", "--files", "f"]


COMMAND_LINES = (
    ([*RUN, "1000", "-"], 0, ""),
    (["run", "-", "--now=1000", "--tokens=examples/tokens.toml"], 0, ""),
    ([*RUN, "0", "-"], 0, ""),
    (["run", "--now=0", "--tokens=examples/tokens.toml", "-"], 0, ""),
    ([*RUN, "253402300799", "-"], 0, ""),
    *(([*RUN, now, "-"], 2, "") for now in ("253402300800", "-1", "18446744073709551616", "", "1.5", "ten")),
    (["run", "--now=-1", "--tokens=examples/tokens.toml", "-"], 2, ""),
    ([], 2, ""),
    (["nothing"], 2, ""),
    (["cell"], 2, ""),
    (["cell", "1", "3"], 2, ""),
    (["explain"], 2, "<METHOD>"),
    (["explain", "PUT"], 2, "<PATH>"),
    (["explain", "PUT", "/", "-"], 2, ""),
    *((["explain", "--now", now, "GET", "/dss/v1/uss_availability/u"], 2, "") for now in ("253402300800", "-1", "", "now")),
    *((["explain", *now, "GET", "/dss/v1/uss_availability/u"], 0, "") for now in ([], ["--now", "0"], ["--now=253402300799"])),
    (["explain", "GET", "/dss/v1/uss_availability/u", "--now=1"], 0, ""),
    # Bytes that are not UTF-8.
    (["cell", "\udcff"], 2, "not valid UTF-8"),
    (["\udcc3("], 2, "not valid UTF-8"),
    (["cell", "--now", "1", "3"], 2, ""),
    (["run"], 2, ""),
    (["run", "--now", "1", "r"], 2, "--tokens <FILE>"),
    (["run", "--tokens", "examples/tokens.toml", "r"], 2, ""),
    ([*RUN, "1"], 2, ""),
    ([*RUN, "1", "-", "s"], 2, ""),
    ([*RUN, "1", "--tokens", "examples/tokens.toml", "-"], 2, ""),
    *((serving(port, "1"), 2, "") for port in ("0", "65536", "-1", "", "80.0")),
    *((serving("1", count), 2, "") for count in ("0", "1000001", "-1", "", "many")),
    *(([*serving("1", "1"), "--max-connections", clients], 2, "") for clients in ("0", "1001", "-1", "", "many")),
    *(([*serving("1", "1"), "--response-memory", memory], 2, "") for memory in ("0", "16385", "-1", "", "64M")),
    *(([*serving("1", "1"), "--quota", most], 2, "") for most in ("0", "4294967296", "-1", "", "all")),
    (["serve", *TOKENS_AND_DB, "--count", "1"], 2, ""),
    # These arguments are accepted, and then no token file exists.
    *(([*serving("1", "1"), "--max-connections", clients], 1, "dss: tokens: cannot read") for clients in ("1", "1000")),
    *(([*serving("1", "1"), "--response-memory", memory], 1, "dss: tokens: cannot read") for memory in ("1", "16384")),
    *(([*serving("1", "1"), "--quota", most], 1, "dss: tokens: cannot read") for most in ("1", "4294967295")),
    *(([*serving("1", "1"), *flags], 1, "dss: tokens: cannot read") for flags in (["--double-sync"], ["--verbose"], ["--verbose", "--double-sync"])),
    *(([*serving("1", "1"), *it], 2, "") for it in (["--double-sync", "--double-sync"], ["--double-sync=true"], ["--verbose=true"], ["--verbose", "yes"])),
    *(([*serving("1", "1"), *flags], 1, "dss: tokens: cannot read") for flags in (["--explain"], ["--explain", "--verbose"])),
    *(([*serving("1", "1"), *it], 2, "") for it in (["--explain", "--explain"], ["--explain=true"], ["--explain", "yes"], ["--explains"])),
    (["run", "--explain", *RUN[1:], "0", "-"], 2, "--explain"),
    *(([*serving("1", "1"), "--listen", address], 1, "dss: tokens: cannot read") for address in LISTENED),
    *(([*serving("1", "1"), "--listen", text], 2, f"error: --listen {text}: no IP address") for text in NO_ADDRESSES),
    (["serve", *TOKENS_AND_DB, "--port", "1", "--listen=::1"], 1, "dss: tokens: cannot read"),
    ([*serving("1", "1"), "--listen"], 2, ""),
    ([*serving("1", "1"), "--listen", "::1", "--listen", "127.0.0.1"], 1, "dss: tokens: cannot read"),
    ([*serving("1", "1"), "--listen", "::1", "--listen", "[::1]"], 2, "error: --listen [::1]: no IP address"),
    # A port in each address stands for `--port`.
    *((["serve", *TOKENS_AND_DB, *it], 1, "dss: tokens: cannot read") for it in (["--listen=[::1]:80"], ["--listen=[::1]:80", "--listen=127.0.0.1:80"])),
    *((["serve", *TOKENS_AND_DB, *it], 2, "error: --port is missing") for it in ([], ["--listen=::1"], ["--listen=[::1]:80", "--listen=127.0.0.1"])),
    *(([*serving("1", "1"), "--admin-port", port], 1, "dss: tokens: cannot read") for port in ADMIN_PORTS),
    *(([*serving("1", "1"), f"--admin-port={text}"], 2, f"error: --admin-port {text}: no port") for text in NO_ADMIN_PORTS),
    ([*serving("1", "1"), "--admin-port", "1", "--admin-port", "2"], 2, ""),
    *(([*serving("1", "1"), "--access-log", file], 1, "dss: tokens: cannot read") for file in ("-", "l")),
    *(([*serving("1", "1"), *it], 2, "") for it in (["--access-log"], ["--access-log", "l", "--access-log", "m"])),
    *(([*serving("1", "1"), "--retention", keep], 2, "") for keep in ("0", "253402300800", "-1", "", "1.5", "30d")),
    *(([*serving("1", "1"), "--retention", keep], 1, "dss: tokens: cannot read") for keep in ("1", "253402300799")),
    *(([*serving("1", "1"), *it], 2, "") for it in (["--retention"], ["--retention", "1", "--retention", "2"])),
    ([*serving("1", "1"), "--backup-dir", "f", "--admin-port", "2"], 1, "dss: tokens: cannot read"),
    # Backups are requested at the admin port.
    ([*serving("1", "1"), "--backup-dir", "f"], 2, "--backup-dir without --admin-port"),
    (["serve", *TOKENS_AND_DB, "--port", "1"], 1, "dss: tokens: cannot read"),
    (["serve", "--tokens", "t", "--port", "1", "--count", "1"], 2, "--db <FILE>"),
    (["serve", "--db", "d", "--port", "1", "--count", "1"], 2, "--tokens <FILE>"),
    (["serve", "--tokens", "t"], 2, "error: the following required arguments were not provided:\n  --db <FILE>\n"),
    ([*serving("1", "1"), "-"], 2, ""),
    # An instance of a pool.
    *((pooled(endpoints, "a"), 1, "dss: tokens: cannot read") for endpoints in ENDPOINTS),
    *((pooled("127.0.0.1:1", name), 1, "dss: tokens: cannot read") for name in INSTANCES),
    *(([*IN_POOL, *it], 1, "dss: tokens: cannot read") for it in (["--etcd-user", "f"], ["--files", "f"], ["--retention", "1"], ["--retention=253402300799"], ["--explain", "--verbose"], ["--admin-port=2", "--access-log=l"], ["--max-connections=1", "--listen=::1"], ["--count", "1"])),
    *((pooled(text, "a"), 2, f'error: --pool {text}: "{part}" is no IP address with a port') for text, part in NO_ENDPOINTS),
    *((pooled("127.0.0.1:1", text), 2, f"error: --as {text}: no name of an instance") for text in NO_INSTANCES),
    *(
        ([*IN_POOL, *it], 2, f"error: {it[0]} cannot be used with --pool")
        for it in (["--db", "d"], ["--quota", "1"], ["--response-memory", "1"], ["--backup-dir", "f"], ["--double-sync"])
    ),
    *(([*serving("1", "1"), *it], 2, f"error: {it[0]} without --pool") for it in (["--as", "a"], ["--etcd-user", "f"], ["--files", "f"])),
    (["serve", "--tokens", "t", "--port", "1", "--as", "a"], 2, "error: --as without --pool"),
    (["serve", "--tokens", "t", "--port", "1", "--pool", "127.0.0.1:1"], 2, "error: --as is missing"),
    (["serve", "--tokens", "t", "--pool", "127.0.0.1:1", "--as", "a"], 2, "error: --port is missing"),
    (["serve", "--pool", "127.0.0.1:1", "--as", "a", "--port", "1"], 2, "--tokens <FILE>"),
    *(([*IN_POOL, "--count", count], 2, "") for count in ("0", "1000001", "", "-1")),
    *(([*IN_POOL, "--retention", keep], 2, "") for keep in ("0", "253402300800", "", "30d")),
    ([*IN_POOL, "--listen", "l"], 2, "error: --listen l: no IP address"),
    ([*IN_POOL, "--admin-port", "0"], 2, "error: --admin-port 0: no port"),
    *(([*IN_POOL, *it], 2, "") for it in (["--pool", "127.0.0.1:1"], ["--as", "b"], ["--etcd-user"], ["--etcd-user", "f", "--etcd-user", "g"], ["--files"], ["--files", "f", "--files", "g"])),
    *((["serve", *TOKENS_AND_DB, it], 2, "") for it in ("--pool", "--as", "--etcd-user", "--files")),
    (["run", "--pool", "127.0.0.1:1", *RUN[1:], "0", "-"], 2, "--pool"),
    # The command that follows a pool.
    *((followed(endpoints, "a"), 1, "dss: tokens: cannot read") for endpoints in ENDPOINTS),
    *((followed("127.0.0.1:1", name), 1, "dss: tokens: cannot read") for name in INSTANCES),
    *(([*FOLLOWING, *it], 1, "dss: tokens: cannot read") for it in (["--etcd-user", "u"], ["--verbose"], ["--verbose", "--etcd-user=u"])),
    *((followed(text, "a"), 2, f'error: --pool {text}: "{part}" is no IP address with a port') for text, part in NO_ENDPOINTS),
    *((followed("127.0.0.1:1", text), 2, f"error: --as {text}: no name of an instance") for text in NO_INSTANCES),
    (followed("x", ""), 2, 'error: --pool x: "x" is no IP address with a port'),
    (["follow"], 2, "--tokens <FILE>"),
    (["follow", *FOLLOWING[3:]], 2, "--tokens <FILE>"),
    ([*FOLLOWING[:3], *FOLLOWING[5:]], 2, "--files <DIR>"),
    (FOLLOWING[:-2], 2, "--pool <ENDPOINTS>"),
    (FOLLOWING[:-1], 2, "--as <NAME>"),
    *(([*FOLLOWING, *it], 2, "") for it in (["--pool", "127.0.0.1:1"], ["--as", "b"], ["--files", "g"], ["--tokens", "u"], ["--etcd-user"], ["f"])),
    *(([*FOLLOWING, *it], 2, it[0]) for it in (["--db", "d"], ["--port", "1"], ["--now", "0"], ["--explain"])),
    # The command with which a pool begins.
    *(([*BEGINNING, *it], 1, "dss: tokens: cannot read") for it in ([], ["--verbose"])),
    (["begin"], 2, "--tokens <FILE>"),
    (["begin", *BEGINNING[3:]], 2, "--tokens <FILE>"),
    ([*BEGINNING[:3], *BEGINNING[5:]], 2, "--db <FILE>"),
    (BEGINNING[:-2], 2, "--files <DIR>"),
    *(([*BEGINNING, *it], 2, "") for it in (["--tokens", "u"], ["--db", "e"], ["--files", "g"], ["--files"], ["--verbose", "--verbose"], ["--verbose=true"], ["f"])),
    *(([*BEGINNING, *it], 2, it[0]) for it in (["--pool", "127.0.0.1:1"], ["--as", "a"], ["--etcd-user", "u"], ["--port", "1"], ["--now", "0"])),
    (["self", *RUN[1:], "0", "-"], 0, ""),
    (["self", *RUN[1:], "253402300799", "-"], 0, ""),
    *((["self", *RUN[1:], now, "-"], 2, "") for now in ("253402300800", "-1", "")),
    (["self", *RUN[1:], "1"], 2, ""),
    (["self", *RUN[1:], "1", "--db", "d", "-"], 2, ""),
    (["report"], 2, "--db <FILE>"),
    (["report", "--db", "d", "e"], 2, ""),
    *((["report", "--db", "d", *it], 2, "") for it in (["--cells", "--cells"], ["--cells=true"], ["--cells", "e"])),
    (["purge"], 2, "--db <FILE>"),
    (["purge", "--db", "d"], 2, "--until <SECONDS>"),
    (["purge", "--until", "1"], 2, "--db <FILE>"),
    *(
        (["purge", "--db", "d", *it], 2, "")
        for it in (
            *(["--until", until] for until in ("", "-1", "1.5", "253402300800", "18446744073709551616", "today")),
            *(["--until", "1", "--now", now] for now in ("", "-1", "1.5", "253402300800", "today")),
            ["--until"], ["--until", "1", "--now"], ["--until", "1", "--until", "1"], ["--until", "1", "--now", "1", "--now", "1"],
            ["--until", "1", "e"], ["--until", "1", "--tokens", "t"], ["--until", "1", "--retention", "1"], ["1"],
        )
    ),
    # These arguments are accepted. Then the time is not past, which is reported before a missing directory.
    *((["purge", "--db", "no/d", "--until", until, *now], 1, PURGE_IN_FUTURE) for until, *now in (("253402300799",), ("1", "--now=0"))),
    *((["purge", "--db=no/d", f"--until={it}", f"--now={it}"], 1, "dss: db: fault 3 Store") for it in ("0", "253402300799")),
    (["backup"], 2, "--db <FILE>"),
    (["backup", "t"], 2, "--db <FILE>"),
    (["backup", "--db", "d"], 2, "<DESTINATION>"),
    (["backup", "--db", "d", "t", "u"], 2, ""),
    (["backup", "--db", "d", "--cells", "t"], 2, ""),
    (["backup", "--db", "d", "--live"], 2, "<DESTINATION>"),
    (["backup", "--live", "--live", "--db", "d", "t"], 2, "--live"),
    (["backup", "--live", "--db", "no/d", "t"], 1, "dss: backup: fault 2 Read"),
    (["verify"], 2, "<FILE>"),
    (["verify", "f", "g"], 2, ""),
    (["verify", "--db", "f"], 2, ""),
    (["verify", "no/f"], 1, "dss: backup: fault 2 Read"),
    (["upgrade"], 2, "--db <FILE>"),
    (["upgrade", "--db"], 2, ""),
    (["upgrade", "--db", "d", "e"], 2, ""),
    (["upgrade", "--db", "d", "--tokens", "t"], 2, ""),
    *(
        (["tokens", *it], 2, "")
        for it in (
            [], ["--check"], ["t"], ["--new-token", "u"], ["--scopes", "s"], ["--check", "t", "--new-salt"],
            ["--check", "t", "--new-token", "u", "--scopes", "s"], ["--new-token", "u", "--scopes", "s", "--new-salt"],
            ["--check", "t", "--scopes", "s"], ["--new-token", "u", "--new-token", "v", "--scopes", "s"], ["--new-salt", "--new-salt"],
            ["--new-salt=true"], ["--check", "t", "--check", "t"],
        )
    ),
    (["tokens", "--check=t"], 1, "dss: tokens: cannot read"),
    (["tokens", "--new-salt"], 0, "salt = "),
    (["tokens", "--scopes=utm.constraint_processing", "--new-token=u"], 0, "[[token]]"),
    (["tokens", "--help"], 0, "--check <FILE>"),
    (["tokens", "--help"], 0, "--new-salt"),
    (["--help"], 0, "Usage: dss <COMMAND>"),
    (["--help"], 0, "  upgrade "),
    (["serve", "--help"], 0, "--count <NUMBER>"),
    (["serve", "--help"], 0, "--max-connections <NUMBER>"),
    (["serve", "--help"], 0, "--response-memory <MIB>"),
    (["serve", "--help"], 0, "--quota <NUMBER>"),
    (["serve", "--help"], 0, "--retention <SECONDS>"),
    (["serve", "--help"], 0, "Usage: dss serve [OPTIONS] --tokens <FILE> --db <FILE>\n"),
    (["serve", "--help"], 0, "\n       dss serve [OPTIONS] --tokens <FILE> --pool <ENDPOINTS> --as <NAME>\n"),
    (["serve", "--help"], 0, "--db <FILE>"),
    (["serve", "--help"], 0, "--pool <ENDPOINTS>"),
    (["serve", "--help"], 0, "--as <NAME>"),
    (["serve", "--help"], 0, "--etcd-user <FILE>"),
    (["serve", "--help"], 0, "--double-sync"),
    (["serve", "--help"], 0, "--explain  "),
    (["serve", "--help"], 0, "--verbose"),
    (["self", "--help"], 0, "REQUEST"),
    (["serve", "--help"], 0, "--access-log <FILE>"),
    (["serve", "--help"], 0, "--backup-dir <DIR>"),
    (["report", "--help"], 0, "dss report [OPTIONS] --db <FILE>"),
    (["report", "--help"], 0, "--cells"),
    (["--help"], 0, "  purge "),
    (["purge", "--help"], 0, "dss purge [OPTIONS] --db <FILE> --until <SECONDS>"),
    (["purge", "--help"], 0, "--now <SECONDS>"),
    (["backup", "--help"], 0, "dss backup [OPTIONS] --db <FILE> <DESTINATION>"),
    (["verify", "--help"], 0, "dss verify <FILE>"),
    (["upgrade", "--help"], 0, "dss upgrade --db <FILE>"),
    (["run", "--help"], 0, "--now <SECONDS>"),
    (["cell", "--help"], 0, "dss cell <TOKEN>"),
)

# Tokens of cells, the status, and the line of the cell or of the fault.
CELLS = (
    ("89C25904", 0, "89c25904 face=4 level=13 lo=288901920 hi=288901920\n"),
    ("89c2590400000000", 0, "89c25904 face=4 level=13 lo=288901920 hi=288901920\n"),
    ("89c25903", 0, "89c25903 face=4 level=14 lo=288901920 hi=288901920\n"),
    ("89c3", 0, "89c3 face=4 level=6 lo=288899072 hi=288915455\n"),
    ("1", 0, "1 face=0 level=0 lo=0 hi=67108863\n"),
    ("89c2591", 0, "89c2591 face=4 level=12 lo=288901920 hi=288901923\n"),
    ("b", 0, "b face=5 level=0 lo=335544320 hi=402653183\n"),
    ("B", 0, "b face=5 level=0 lo=335544320 hi=402653183\n"),
    ("0000000000000001", 0, "0000000000000001 face=0 level=30 lo=0 hi=0\n"),
    ("", 1, "dss: token: fault 1 Length\n"),
    ("00000000000000001", 1, "dss: token: fault 1 Length\n"),
    ("11111111111111111", 1, "dss: token: fault 1 Length\n"),
    ("XXXXXXXXXXXXXXXXX", 1, "dss: token: fault 1 Length\n"),
    ("X", 1, "dss: token: fault 2 Digit\n"),
    ("89c2590g", 1, "dss: token: fault 2 Digit\n"),
    ("89c25902", 1, "dss: token: fault 3 Invalid\n"),
    ("d", 1, "dss: token: fault 3 Invalid\n"),
    ("0", 1, "dss: token: fault 3 Invalid\n"),
)
