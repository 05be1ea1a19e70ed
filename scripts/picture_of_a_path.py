"""The paths of requests, as texts of SVG, read from the sources: that of a PUT of an operational intent in
`dss serve --db`, and that of a request in `dss serve --pool`.

Each is a list of functions, each below one that calls it. The crate of a function, and what is said of it, is read from
the sources. That the one calls the other, itself or by functions of its crate, is looked for there: otherwise nothing
is drawn."""
import functools
import html
import pathlib
import re
import textwrap
from typing import NamedTuple

from picture_of_crates import LAYERS, layer_of

TOP = pathlib.Path(__file__).resolve().parent.parent


class Path(NamedTuple):
    """A path: its steps, the titles of its parts, and the columns.

    A step is a file and a function, after the crate where two have both. It is indented below a function that calls it.
    A title stands before its step. A column has the crates whose names begin so."""

    steps: str
    parts: dict
    lanes: dict


PUT = Path(
    """
serve::serve
  server::turns::run_once
    server_clients::turns::turn
      server_clients::client_connection::turn
        server_clients::client_io::receive
        server_clients::client_io::ask
          next::next
            buffered::next_buffered
              rest::head_so_far
            call::route
              routes::find
              endpoint::kind
              operation::read_as
                body::read_body
              token_table::caller
          database_backend::database::receive
            service::call
              early::early
              decide::decide
                look_up::look_up
                  quota_space::entity
                    reads::entity
                      indexed::entity
                standing::standing
                needed::needed_with
                  reads::meeting
                    indexed::meeting
                needed::missing_from
                  missing::missing
              effects::prepare
                ovn::ovn_of
                indexed_subscriptions::for_kind
                notice::notices_of
              space_quota::changes::apply
                usage_table::delta
                space_mirror::changes::enqueue
                  memory::replicate
          next::texts_for_reply
            explain::explain_request
          outcomes::draft
            text::noted_text
              explained::explained_text
                answer::reply_text
    server::turns::settle
      database_backend::database::settle
        service::commit
          quota_space::commit
            space_mirror::changes::commit
              space_sql::batch::apply_batch
                space_sql_write::batch::commit_batch
                  put::put_entity
                  notify::notify_all
  server::turns::tell_all
    server_clients::client_connection::tell
      connection::release
      server_clients::client_io::send
""",
    {
        "serve::serve": "All connections",
        "server::turns::run_once": "The turns of a round",
        "server_clients::turns::turn": "The turn of a client",
        "next::next": "Its next request",
        "call::route": "The call of the request",
        "database_backend::database::receive": "The request, given to the backend",
        "early::early": "Stateless rules",
        "look_up::look_up": "What the call names, from the mirror",
        "standing::standing": "Stateful rules",
        "needed::needed_with": "The key",
        "effects::prepare": "Change and answer, prepared",
        "space_quota::changes::apply": "The quota, then the mirror: the change is pending",
        "next::texts_for_reply": "With --explain: what is wrong, what is ignored",
        "outcomes::draft": "The response, which waits for the commit",
        "server::turns::settle": "The end of the batch",
        "space_sql::batch::apply_batch": "The SQL space: one transaction, one sync",
        "server::turns::tell_all": "The outcome, and the response, sent",
    },
    {
        "server": ("server", "database_backend"), "wire": ("wire_", "token_conf"), "service": ("service_",), "policy": ("policy_", "entity_"),
        "quota": ("space_quota",), "mirror": ("space_mirror", "space_memory"), "SQL space": ("space_sql",),
    },
)
POOL = Path(
    """
serve::serve
  server::turns::run_once
    server_clients::turns::turn
      server_clients::client_connection::turn
        server_clients::client_io::receive
        server_clients::client_io::ask
          next::next
            buffered::next_buffered
            call::route
              operation::read_as
              token_table::caller
          pool_backend::pool::receive
            pool_instance::instance::deny
              early::early
            pool_backend::pool::admit
              pool_backend::pool::request_of
                pool_instance::request::new
              pool_instance::instance::queue
          outcomes::answer
            text::noted_text
          outcomes::wait
        server_clients::client_io::send
  server::advance::advance
    pool_backend::pool::advance
      pool_backend::pool::ask_and_offer
        pool_instance::instance::ask
          pool_etcd::log::ask_end
        pool_instance::instance::offer
          requests::first_batch
            pool_entry::batch::push
          pool_etcd::log::offer
            log_value::entry_value
      pool_instance::instance::advance_log
        etcd_io::advance_log
          etcd_log::advance
            request_lane::advance
              pool_etcd::request::put_body
              pool_etcd::request::end_body
            watch_lane::advance
              pool_etcd::following::receive
      pool_instance::instance::learn
        pool_etcd::log::end
      pool_backend::pool::take_entries
        pool_instance::instance::take
          pool_etcd::log::next
          requests::do_acts
            pool_entry::entry::entry_acts
            service::call
              decide::decide
                standing::standing
              effects::prepare
                ovn::ovn_of
              memory::apply
        pool_backend::pool::give
      pool_backend::pool::fail_late
        pool_instance::instance::fail
  server::turns::tell_all
    server_clients::client_connection::tell
      outcomes::resolve
        text::noted_text
      server_clients::client_io::send
  server::due::answer_due
    pool_backend::pool::next_due
      pool_instance::instance::next_due
    pool_backend::pool::answer
      pool_instance::instance::answer_as
        service::call
    server_clients::client_connection::tell
""",
    {
        "serve::serve": "All connections",
        "server::turns::run_once": "The turns of a round",
        "server_clients::turns::turn": "The turn of a client",
        "next::next": "Its next request",
        "pool_backend::pool::receive": "The request, given to the instance",
        "pool_instance::instance::deny": "A call that breaks a stateless rule is denied at once",
        "pool_backend::pool::admit": "Any other waits, unless it is refused",
        "outcomes::answer": "The response, or a connection that waits",
        "server::advance::advance": "The log, once in each round",
        "pool_backend::pool::ask_and_offer": "What is denied, and reads, wait for a question",
        "pool_instance::instance::advance_log": "Bytes to etcd, and from it",
        "pool_instance::instance::learn": "The answer to a question",
        "pool_backend::pool::take_entries": "Entries: their calls, and the replies to the own ones",
        "pool_backend::pool::fail_late": "A request whose time is over",
        "server::turns::tell_all": "Outcomes: replies to changes, and status 503",
        "server::due::answer_due": "A read whose end is reached",
    },
    {
        "server": ("server",), "wire": ("wire_", "token_conf"), "instance": ("pool_backend", "pool_instance"),
        "log": ("pool_", "dss"), "service": ("service_",), "policy": ("policy_", "entity_"), "space": ("space_",),
    },
)
# the crates of the traits whose methods are steps
TRAITS = "space_core", "server_backend", "pool_core"
FUNCTION = re.compile(r"^( *)(?:pub(?:\(\w+\))? )?fn (\w+)", re.M)
COMMENT = re.compile(r"((?:^ *//.*\n)+)(?: *#.*\n)*\Z", re.M)
# a row, a column, a step within a column, a box, and what stands beside
HIGH, LANE, STEP, WIDE, BOX, MARGIN, SAID = 36, 136, 9, 126, 30, 12, 470


@functools.cache
def functions():
    """The functions of the sources: of the crate, the file and the name their texts, each with the comment above it."""
    found = {}
    for path in sorted(TOP.glob("crates/*/src/**/*.rt")):
        text = path.read_text()
        begins = list(FUNCTION.finditer(text))
        for at, it in enumerate(begins):
            end = begins[at + 1].start() if at + 1 < len(begins) else len(text)
            said = COMMENT.search(text[: it.start()])
            key = path.relative_to(TOP / "crates").parts[0], path.stem, it[2]
            found.setdefault(key, []).append((said[1] if said else "", text[it.start() : end]))
    return found


def place(step):
    """The one place of a function in the sources: its crate, its file, its name."""
    *crate, file, name = step.split("::")
    found = [it for it in functions() if it[1:] == (file, name) and it[0] in (crate or [it[0]])]
    if len(found) != 1:
        raise ValueError(f"{len(found)} crates have a function {step}")
    return found[0]


def said_of(step):
    """The first sentence of what the source says of a function, or of the method of a trait that it is."""
    traits = [it for crate in TRAITS for it in named(crate, place(step)[2])]
    comments = [functions()[it][0][0] for it in (place(step), *traits)]
    comment = next((it for it in comments if it), "")
    text = " ".join(it.strip().lstrip("/").strip() for it in comment.splitlines()).replace("`", "")
    return re.split(r"(?<=[.]) ", text)[0]


@functools.cache
def named(crate, name):
    """The functions of a crate of a name."""
    return [it for it in functions() if (it[0], it[2]) == (crate, name)]


@functools.cache
def spaces():
    """The calls of the traits of spaces, and the crates of the spaces that `serve` uses."""
    traits = {("space_core", it) for it in ("space", "batch", "group_commit")}
    calls = [name for crate, file, name in functions() if (crate, file) in traits]
    sources = sorted(TOP.glob("crates/*/src/*.rt"))
    is_space = re.compile(r"Space for (QuotaSpace|Mirrored|MemorySpace|SqlSpace)\b")
    return calls, [it.parent.parent.name for it in sources if is_space.search(it.read_text())]


def calls(above, below):
    """Whether a function calls another one, itself or by others of its crate; a call of a space goes to any of them."""
    of_space, over = spaces()
    seen, open_ = set(), [place(above)]
    while open_:
        at = open_.pop()
        if at in seen:
            continue
        seen.add(at)
        for _, text in functions()[at]:
            for name in re.findall(r"\b(\w+)(?:::<[^>]*>)?\(", text.partition("{\n")[2]):
                if name == place(below)[2]:
                    return True
                open_ += named(at[0], name) + [it for space in over if name in of_space for it in named(space, name)]
    return False


def steps_of(text):
    """The steps of a path, each with the place of the step above it."""
    found, above = [], []
    for line in text.strip().splitlines():
        depth, step = (len(line) - len(line.lstrip())) // 2, line.strip()
        above[depth:] = [len(found)]
        found.append((step, above[depth - 1] if depth else None))
    return found


def laid(steps, lanes):
    """Of each step where its box begins: below what calls it, and in its own column."""
    x, lane, inner = [], [], []
    for step, above in steps:
        lane.append(next(at for at, begins in enumerate(lanes.values()) if place(step)[0].startswith(begins)))
        same = above is not None and lane[above] == lane[-1]
        inner.append(inner[above] + 1 if same else 0)
        x.append(MARGIN + lane[-1] * LANE + inner[-1] * STEP)
    return x


def picture(path):
    """The text of the picture of a path."""
    steps = steps_of(path.steps)
    x = laid(steps, path.lanes)
    for step, above in steps:
        if above is not None and not calls(steps[above][0], step):
            raise ValueError(f"{steps[above][0]} does not call {step}")
    y, top = [], MARGIN + 34
    for step, _ in steps:
        top += 22 if step in path.parts else 0
        y.append(top)
        top += HIGH
    beside = MARGIN + len(path.lanes) * LANE + 10
    wide = beside + SAID
    lines = [
        f'<svg xmlns="http://www.w3.org/2000/svg" width="{wide}" height="{top + MARGIN}" '
        'font-family="sans-serif" font-size="12">',
        f'<rect width="{wide}" height="{top + MARGIN}" fill="white"/>',
    ]
    for at, name in enumerate(path.lanes):
        left, style = MARGIN + at * LANE, 'text-anchor="middle" font-weight="bold"'
        lines += [f'<rect x="{left - 4}" y="{MARGIN}" width="{LANE - 4}" height="{top - MARGIN}" fill="#f5f7f9"/>']
        lines += [f'<text x="{left + LANE / 2 - 6:.0f}" y="{MARGIN + 16}" {style}>{name}</text>']
    for at, (_, above) in enumerate(steps):
        if above is not None:
            down = f"M{x[above] + 5} {y[above] + BOX}V{y[at] + BOX // 2}H{x[at]}"
            lines += [f'<path d="{down}" fill="none" stroke="#9aa7b4"/>']
    for at, (step, _) in enumerate(steps):
        crate, _, name = place(step)
        _, fill, line = LAYERS[layer_of(crate)]
        if step in path.parts:
            lines += [f'<text x="{beside}" y="{y[at] - 6}" font-weight="bold">{path.parts[step]}</text>']
        size = WIDE - (x[at] - MARGIN) % LANE
        lines += [f'<rect x="{x[at]}" y="{y[at]}" width="{size}" height="{BOX}" rx="4" fill="{fill}" stroke="{line}"/>']
        lines += [f'<text x="{x[at] + 6}" y="{y[at] + 13}">{name}</text>']
        lines += [f'<text x="{x[at] + 6}" y="{y[at] + 25}" font-size="9" fill="#56687a">{crate}</text>']
        for row, text in enumerate(textwrap.wrap(said_of(step), 74, max_lines=2, placeholder=" ..")):
            lines += [f'<text x="{beside}" y="{y[at] + 13 + row * 14}">{html.escape(text, quote=False)}</text>']
    return "\n".join([*lines, "</svg>", ""])
