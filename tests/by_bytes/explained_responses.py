"""`serve --explain` adds an explanation to denials, and a field with ignored members to successes. Nothing else differs."""
import contextlib
import errno
import json
import random
import re
import shutil
import socket
import string
import time

import seeds
import wire
from devices import SIZES, WRITES, Page, library
from explanations import ANY, INTENT, QUERY, ROWS, SETTING, SUBSCRIPTION, area, drawn_request, explained, sub, volume
from lengths import of
from program import TOP, run
from scenes import ID, NOT_FOUND, OVN, V1, put
from serving import Service, until_closed
from wire import AVAILABILITY, CONSTRAINTS, INTENTS, SUBSCRIPTIONS

FIELD = "Warning-Ignored-Members: "
STATUSES = {"P1 ROUTE": 404, "P2 METHOD": 405, "P5 FORM": 400, "P6 AREA": 413, "P13 ENDED": 400}
# The line of a put that has ended, with the time of the service.
ENDED = re.compile(r"extents: ended at \d+; now is (\d+)")
FAR = 253402300799
LATER = V1.replace("2000", f"{FAR}")
ACCEPTED = ',"state":"Accepted"'
# The end of a list that is too long for a field.
CUT = ", ..."
MAX_FIELD = 1024


class Explaining(Service):
    """`dss serve` with the option."""

    options = ("--explain",)


def with_device(name):
    """Returns a service with the option and a device, not yet started, and the page that controls the device."""
    service = Explaining(ANY)
    page = Page(service.folder)
    service.environment |= page.environment(library(name, service.folder))
    return service, page


def asked(service, requests):
    """Returns the responses to requests (method, target, body), over connections that stay open until the last one."""
    sent = [wire.request(method, target, "Bearer all", body if isinstance(body, bytes) else body.encode()) for method, target, body in requests]
    each = wire.MAX_REQUESTS - 1
    return [it for at in range(0, len(sent), each) for it in service.ask(sent[at : at + each])]


def both(requests):
    """Returns the responses to the same requests of a service with the option, and of one without it."""
    with Explaining(ANY) as explaining, Service(ANY) as plain:
        return asked(explaining, requests), asked(plain, requests)


def parts(answer):
    """Returns the lines of the head of a response, and the value of its body."""
    head, _, body = answer.decode().partition("\r\n\r\n")
    return head.split("\r\n"), json.loads(body)


def explanation(answer):
    """Returns the explanation in a response, or None."""
    return parts(answer)[1].get("explanation")


def ignored(answer):
    """Returns the ignored members that a response names, or None."""
    return next((it.removeprefix(FIELD) for it in parts(answer)[0] if it.startswith(FIELD)), None)


def stripped(answer):
    """Returns a response without what the option adds."""
    lines, value = parts(answer)
    body = wire.compact({name: it for name, it in value.items() if name != "explanation"})
    kept = [f"Content-Length: {len(body.encode())}" if it.startswith("Content-Length: ") else it for it in lines if not it.startswith(FIELD)]
    return "\r\n".join([*kept, "", body]).encode()


def refused(rule, lines, allowed=None):
    """Returns the response to a request that a rule denies, with this explanation."""
    return wire.answer(STATUSES[rule], wire.compact({"explanation": lines, "message": rule}), [f"Allow: {allowed}"] if allowed else [])


def difference(what, got, wanted):
    return [] if got == wanted else [f"{what}:\n    wanted {wanted!r}\n    got    {got!r}"]


# ---- denials


def time_in(answer):
    """Returns the time of the service that an explanation has, or None."""
    found = [ENDED.fullmatch(it) for it in explanation(answer) or ()]
    return next((int(it[1]) for it in found if it), None)


def wanted_for(request, lines, error, plain, now):
    """Returns the response to a row, given the one without the option, and the time of the service."""
    rule = parts(plain)[1].get("message")
    if rule not in STATUSES:
        return plain
    allowed = lines[0].partition("allows only ")[2] if rule == "P2 METHOD" else None
    found = lines if error else lines[:-1]
    # A put that covers too much has ended, too. Both are said before what is ignored.
    ends = [f"extents: ended at 2000; now is {now}"] if not error and request[0] == "PUT" else []
    first = 1 if rule == "P6 AREA" else 0
    return refused(rule, found[:first] + ends + found[first:], allowed)


def rows():
    """The explanation of each request has the lines of `dss explain`, with the service's time in that of an ended put. A response
    that has none is that without the option."""
    requests, found, seen = [(*request, body) for request, body, *_ in ROWS], [], set()
    began = int(time.time())
    answers, plain = both(requests)
    for (request, body, lines, error), got, without in zip(ROWS, answers, plain):
        now = time_in(got)
        seen.add(parts(got)[1].get("message"))
        found += [] if now is None or began <= now <= time.time() else [f"{request}: the time {now}"]
        found += difference(f"{request} {body!r}", got, wanted_for(request, lines, error, without, now))
        found += difference(f"{request} {body!r}, without the option", stripped(got), without)
    return found + [f"no denial by {it}" for it in STATUSES if it not in seen] + difference("answers", len(answers), len(ROWS))


def others():
    """A denial by another rule has no explanation, also if the body is wrong or has unknown members. Nor has what is no request."""
    wrong, more = "{", put(LATER, f'{ACCEPTED},"more":1')
    one = f"{INTENTS}/{ID}"
    rows = (
        (("PUT", one, None, wrong), wire.answer(401, '{"message":"P3 TOKEN"}', ["WWW-Authenticate: Bearer"])),
        (("PUT", one, "Bearer none", wrong), wire.answer(403, '{"message":"P4 SCOPE"}')),
        (("GET", one, "Bearer all", ""), wire.answer(*NOT_FOUND)),
        (("PUT", f"{one}/{OVN}", "Bearer all", more), wire.answer(*NOT_FOUND)),
        (("PUT", f"{AVAILABILITY}/u", "Bearer all", '{"availability":"Down","old_version":"v","more":1}'), wire.answer(409, '{"message":"P10 VERSION"}')),
        (("PUT", one, "Bearer all", more[:-1] + f',"subscription_id":"{ID}"}}'), wire.answer(400, '{"message":"P16 SUBSCRIPTION"}')),
    )
    found = []
    with Explaining(ANY | {"none": ("uss-n", set())}) as service:
        got = service.ask([wire.request(method, target, token, body.encode()) for (method, target, token, body), _ in rows])
        for (request, wanted), answer in zip(rows, got):
            found += difference(f"{request}", answer, wanted)
        found += difference("answers", len(got), len(rows))
        long = f"PUT {one} HTTP/1.1\r\nAuthorization: Bearer all\r\nContent-Length: {2**20 + 1}\r\n\r\n".encode()
        for sent, status, rule in ((b"GET  / HTTP/1.1\r\n\r\n", 400, "H1 HEAD"), (long, 413, "H5 BODYSIZE")):
            found += difference(rule, service.exchange(sent), wire.answer(status, f'{{"message":"{rule}"}}', closes=True))
    return found


def as_explain_prints(request, answer):
    """Returns what is wrong with the response to a request, given what `dss explain` prints for it at the same time."""
    now, rule = time_in(answer), parts(answer)[1].get("message")
    status, lines, error = explained(request[:2], request[2], [] if now is None else ["--now", f"{now}"])
    lines = lines if status else lines[:-1]
    names = [it.partition(": unknown member")[0] for it in lines if ": unknown member" in it]
    is_done = answer.startswith((b"HTTP/1.1 200 ", b"HTTP/1.1 201 "))
    wanted = lines if rule in STATUSES else None, ", ".join(names) if is_done and names else None
    found = difference(f"{request} {answer!r}", (explanation(answer), ignored(answer)), wanted)
    return found + ([] if bool(error) == (rule in ("P1 ROUTE", "P2 METHOD", "P5 FORM")) else [f"{request}: {rule}, and {error!r}"])


def drawn():
    """For drawn requests the additions are what `dss explain` prints, and the rest is as without the option, whatever was put before."""
    found, seen = [], {}
    for seed in [1, 2, *seeds.new("explained-responses", of(1, 8))]:
        draw = random.Random(seed)
        # Half of the puts have not ended.
        requests = [drawn_request(draw) for _ in range(90)]
        requests = [(*it[:2], it[2].replace(b"2000", b"%d" % FAR) if draw.random() < 0.5 else it[2]) for it in requests]
        answers, plain = both(requests)
        found += difference(f"seed {seed}: answers", len(answers), len(requests))
        for request, got, without in zip(requests, answers, plain):
            what = "named" if ignored(got) else parts(got)[1].get("message")
            seen[what] = seen.get(what, 0) + 1
            found += difference(f"seed {seed}: {request}, without the option", stripped(got), without)
            found += [f"seed {seed}: {it}" for it in as_explain_prints(request, got)]
    few = [it for it in (*STATUSES, "named", "P7 FOUND") if not seen.get(it)]
    return found + [f"no {it}: {seen}" for it in few]


# ---- successes


def members(names):
    """Returns members with these names for the end of an object."""
    return "".join(f",{json.dumps(it)}:null" for it in names)


LONG_NAMES = [f"m{it:03}" for it in range(100)]
# 167 names of four letters and two between them have 1,000 bytes.
FITTING = [f"{it:04}" for it in range(167)]

# A request that succeeds with an ignored member, and the names in the field.
IGNORED = (
    (INTENT, put(volume(time_end=FAR, time_strat=0, foo=[1]), f'{ACCEPTED},"subscription_Id":"d1","new_subscription":{{}}'),
     "extents[0].foo, extents[0].time_strat, new_subscription, subscription_Id"),
    (("PUT", f"{CONSTRAINTS}/{ID}"), put(f"{LATER},{volume(time_end=FAR, volume=0)}", f'{ACCEPTED},"key":[]'), "extents[1].volume, key, state"),
    (SUBSCRIPTION, sub(LATER, more=',"notify_for_constraint":true'), "notify_for_constraint"),
    (SETTING, '{"availability":"Down","Old_version":"","uss":null}', "Old_version, uss"),
    (QUERY, '{"area_of_interest":{"cells":["89c3"],"time_strat":5,"altitude_lower ":0},"limit":5}',
     'area_of_interest."altitude_lower ", area_of_interest.time_strat, limit'),
    # Names are printable, on one line, and cannot be taken for a field or for two names.
    (QUERY, area('{"cells":["89c3"]}')[:-1] + members(["a\r\nSet-Cookie: b", "a, b", 'a"b', "é", "a\\", "\u0000", "", "☃", "\u007f"]) + "}",
     r'"", "\0", "a\r\nSet-Cookie: b", "a\"b", "a, b", "a\\", "\u{7f}", "?", "?"'),
    (QUERY, area('{"cells":["89c3"]}')[:-1] + members(["n" * 64, "n" * 65]) + "}", f"{'n' * 64}, (a name of 65 bytes)"),
    (QUERY, area('{"cells":["89c3"]}')[:-1] + members(LONG_NAMES) + "}", ", ".join(LONG_NAMES)),
    (QUERY, area('{"cells":["89c3"]}')[:-1] + members(FITTING) + "}", ", ".join(FITTING)),
    (QUERY, area('{"cells":["89c3"]}')[:-1] + members([*FITTING, "z"]) + "}", ", ".join(FITTING) + CUT),
)


def field():
    """A success names the members that were ignored, and its body is that without the option. A list that is too long ends with `...`."""
    requests, found = [(*request, body) for request, body, _ in IGNORED], []
    answers, plain = both(requests)
    for (request, _, names), got, without in zip(IGNORED, answers, plain):
        lines, value = parts(without)
        found += difference(f"{request} {names}", got, wire.answer(int(lines[0].split()[1]), wire.compact(value), [f"{FIELD}{names}"]))
        found += [] if len(ignored(got) or "") <= MAX_FIELD and (ignored(got) or "").isascii() else [f"{request}: {got!r}"]
    # What is read is not named, nor the body of a request that has none.
    for request in ((*INTENT[:1], f"{INTENTS}/{ID[:-1]}2", put(LATER.replace("89c25904", "89c2590c"))), ("GET", f"{AVAILABILITY}/u", '{"more":1}')):
        answer = both([request])
        found += difference(f"{request}", answer[0], answer[1])
    return found + difference("answers", len(answers), len(IGNORED))


# Characters that are written as they are with and without quotes, and others with what stands for them.
BARE, QUOTED = string.ascii_letters + string.digits + "_-{}", " .,;:'/~"
ESCAPED = {'"': '\\"', "\\": "\\\\", "\0": "\\0", "\t": "\\t", "\n": "\\n", "\r": "\\r"}
ESCAPED |= {it: f"\\u{{{ord(it):x}}}" for it in "\x01\x1f\x7f\x80\x9f\xa0\xad\u0301\u200b\u2028\ue000\ufffe\U000f0000\U0010ffff"}
ESCAPED |= dict.fromkeys("é☃ß\U0001f600", "?")
MAX_NAME, NAMES = 64, of(200, 2_000)


def written(name):
    """Returns a name as docs/CLIENTS.md says that the field has it."""
    if len(name.encode()) > MAX_NAME:
        return f"(a name of {len(name.encode())} bytes)"
    if name and set(name) <= set(BARE):
        return name
    return '"' + "".join(ESCAPED.get(it, it) for it in name) + '"'


def names_written():
    """The field has the names in the table of docs/CLIENTS.md as the page says, and drawn names by the rules above it."""
    page = (TOP / "docs" / "CLIENTS.md").read_text().partition("| name in JSON | in the header |\n|---|---|\n")[2].partition("\n\n")[0]
    rows = [(json.loads(name), shown) for name, shown in re.findall(r"(?m)^\| `(.*)` \| `(.*)` \|$", page)]
    found = [] if len(rows) >= 7 else [f"the table of docs/CLIENTS.md has {len(rows)} rows that can be read"]
    found += [f"docs/CLIENTS.md: {name!r} is {shown!r} by its table, and {written(name)!r} by its rules" for name, shown in rows if written(name) != shown]
    (seed,) = seeds.new("names of members", 1)
    draw = random.Random(seed)
    signs = BARE, BARE[:4] + QUOTED + "".join(ESCAPED)
    names = [name for name, _ in rows] + ["a" * MAX_NAME, "é" * (MAX_NAME // 2), "é" * (MAX_NAME // 2 + 1)]
    names += ["".join(draw.choices(draw.choice(signs), k=draw.choice((1, 5, 30, 70)))) for _ in range(NAMES)]
    requests = [(*QUERY, area('{"cells":["89c3"]}')[:-1] + members([it]) + "}") for it in names]
    with Explaining(ANY) as service:
        answers = asked(service, requests)
    for name, got in zip(names, answers):
        found += difference(f"seed {seed}: {name!r}", ignored(got), written(name))
    return found + difference("answers", len(answers), len(names))


def as_long_as_it_may_be():
    """A body of a mebibyte of unknown members, and one of mistakes: the additions stay short."""
    names, length = [], 200
    while length < 2**20 - 30:
        names.append(f"u{len(names)}")
        length += len(names[-1]) + 8
    body = area('{"cells":["89c3"]}')[:-1] + members(names) + "}"
    cells = json.dumps(["X"] * 200_000)
    answers, plain = both([(*QUERY, body), (*QUERY, area(f'{{"cells":{cells}}}')), (*INTENT, put(",".join([volume(cells=["X"] * 512)] * 33)))])
    found = [it for got, without in zip(answers, plain) for it in difference("without the option", stripped(got), without)]
    found += [] if (ignored(answers[0]) or "").endswith(CUT) and len(ignored(answers[0])) <= MAX_FIELD else [f"{answers[0]!r}"]
    for what, got, first, count in (
        ("cells", answers[1], "area_of_interest.cells: 200000 items: 1 to 512 are allowed", 200_001),
        ("volumes", answers[2], "extents: 33 items: 1 to 32 are allowed", 33 * 512 + 2),
    ):
        lines = explanation(got)
        found += difference(what, (lines[0], len(lines), lines[-1]), (first, 101, f"and {count - 100} more"))
        found += [] if len(got) < 12_000 else [f"{what}: {len(got)} bytes"]
    return found


# ---- what others stored


def of_others():
    """What is added is the same whatever other USSs have stored, and names nothing of them."""
    requests = [(*request, body) for request, body, *_ in ROWS] + [(*QUERY, body) for request, body, _ in IGNORED if request == QUERY]
    mine = f"{INTENTS}/{ID}"
    secret = "https://nobody-sees-this.example"
    filling = [
        wire.request("PUT", mine, "Bearer b", put(LATER, url=secret).encode()),
        wire.request("PUT", f"{CONSTRAINTS}/{ID}", "Bearer b", put(LATER, "", secret).encode()),
        wire.request("PUT", f"{SUBSCRIPTIONS}/{ID}", "Bearer b", sub(LATER).replace('"u"', f'"{secret}"').encode()),
        wire.request("PUT", f"{AVAILABILITY}/uss-a", "Bearer b", b'{"availability":"Down"}'),
    ]
    scopes = ANY["all"][1]
    with Explaining(ANY) as empty, Explaining(ANY | {"b": ("uss-b", scopes)}) as full:
        made = full.ask(filling)
        found = [f"{it!r}" for it in made if not it.startswith((b"HTTP/1.1 200 ", b"HTTP/1.1 201 "))]
        alone, beside = asked(empty, requests), asked(full, requests)
    seen = 0
    for request, one, two in zip(requests, alone, beside):
        if parts(one)[0][0] == parts(two)[0][0]:
            texts = [[ENDED.sub("ended", it) for it in explanation(answer) or ()] for answer in (one, two)]
            found += difference(f"{request}", (texts[1], ignored(two)), (texts[0], ignored(one)))
            seen += bool(texts[0])
        added = "".join(explanation(two) or ()) + (ignored(two) or "")
        found += [f"{request}: {added}" for it in (secret, "uss-b", wire.ovn(1), wire.ovn(2), wire.ovn(3), wire.ovn(4)) if it in added]
    return found + ([] if seen > 60 else [f"only {seen} were compared"])


# ---- connections and failures


def pipelined():
    """A hundred requests that are sent at once are answered in their order, also if their responses wait for a commit."""
    wrong, requests, wanted = put(more=""), [], []
    for at in range(wire.MAX_REQUESTS // 4):
        setting = wire.compact({"availability": "Down" if at % 2 else "Normal", "old_version": wire.ovn(at) if at else "", f"m{at}": 0})
        closes = at == wire.MAX_REQUESTS // 4 - 1
        told = wire.compact({"status": {"availability": "Down" if at % 2 else "Normal", "uss": "u"}, "version": wire.ovn(at + 1)})
        requests += [("PUT", f"{AVAILABILITY}/u", setting), (*INTENT, wrong), ("GET", f"/{at}", ""), ("GET", f"{AVAILABILITY}/u", '{"m":1}')]
        wanted += [wire.answer(200, told, [f"{FIELD}m{at}"]), refused("P5 FORM", ["state: missing"])]
        wanted += [refused("P1 ROUTE", ["path: no route has this path"]), wire.answer(200, told, closes=closes)]
    sent = b"".join(wire.request(method, target, "Bearer all", body.encode()) for method, target, body in requests)
    with Explaining(ANY, count=1) as service:
        found = difference("answers", service.exchange(sent, ends=False), b"".join(wanted))
        return found + difference("end", service.ended(), (0, b"", service.listening))


def failed_commit():
    """If a commit fails, a creation with ignored members is answered by a fault without the field, and later ones have it again."""
    body = put(LATER, f'{ACCEPTED},"more":1').encode()
    request = wire.request("PUT", f"{INTENTS}/{ID}", "Bearer all", body)
    fault = wire.answer(500, '{"message":"fault"}')
    service, page = with_device("fail_files")
    with service:
        page.set(at=1, row=1_000_000, error=errno.ENOSPC, kinds=WRITES | SIZES)
        found = difference("on a full disk", service.ask([request, request]), [fault, fault])
        page.set()
        made = service.ask([request])
        return found + ([] if made[0].startswith(b"HTTP/1.1 201 ") and ignored(made[0]) == "more" else [f"{made!r}"])


def refusals(service, page, request, whole):
    """Returns how the request is answered with each of its memory allocations refused: wholly, without the addition, by a fault, or not."""
    plain, ways, found, at = stripped(whole), set(), [], 0
    names = {whole: "whole", plain: "plain", wire.answer(500, '{"message":"fault"}'): "fault", b"": "none"}
    while "whole" not in ways or page.get("calls") >= at:
        at, got = at + 1, b""
        # The service may close the connection at once.
        with contextlib.suppress(OSError), service.connect() as connection:
            page.set(at=at, row=1)
            connection.sendall(request)
            connection.shutdown(socket.SHUT_WR)
            got = until_closed(connection)
        if service.program.poll() is not None:
            # It may exit if memory runs out, and is started again as its unit does.
            page.set()
            service.start()
        ways.add(names.get(got))
        found += [] if got in names else [f"allocation {at}: {got!r}"]
        if found or at > 5_000:
            break
    page.set()
    return found, ways, at


def without_memory():
    """With an allocation refused, a request gets the whole response, or that without the addition, or a fault, or none. The next one
    is answered as always."""
    found, (service, page) = [], with_device("refuse_memory")
    with service:
        for what, body in ("a denial", "{}"), ("a success", area('{"cells":["89c3"],"time_strat":5}')):
            request = wire.request(*QUERY, "Bearer all", body.encode())
            whole = service.exchange(request)
            wrong, ways, count = refusals(service, page, request, whole)
            print(f"{what}: {count} memory allocations refused in turn: {sorted(map(str, ways))}")
            found += [f"{what}: {it}" for it in wrong]
            found += [f"{what}: never {it}" for it in ("whole", "plain", "none") if it not in ways]
            found += difference(f"{what}, later", service.exchange(request), whole)
    return found


# ---- clients that others wrote

# Each prints a list of [status, ignored members, explanation], of the requests [method, URL, body] in its argument.
OF_PYTHON = """
import json, sys, {0}
with {0}.{1}() as client:
    answers = [client.request(method, url, {2}=body.encode(), headers={{"Authorization": "Bearer all"}}) for method, url, body in json.loads(sys.argv[1])]
print(json.dumps([[it.status_code, it.headers.get("Warning-Ignored-Members"), it.json().get("explanation")] for it in answers]))
"""
OF_AIOHTTP = """
import aiohttp, asyncio, json, sys
async def main():
    found = []
    async with aiohttp.ClientSession(headers={"Authorization": "Bearer all"}) as client:
        for method, url, body in json.loads(sys.argv[1]):
            async with client.request(method, url, data=body.encode()) as it:
                found.append([it.status, it.headers.get("Warning-Ignored-Members"), (await it.json()).get("explanation")])
    print(json.dumps(found))
asyncio.run(main())
"""
OF_NODE = """
const http = require('http'), found = [], agent = new http.Agent({ keepAlive: true, maxSockets: 1 });
const ask = ([method, url, body]) => new Promise((done, fail) => http.request(url, { method, agent, headers: { Authorization: 'Bearer all' } }, (it) => {
  let text = '';
  it.on('data', (chunk) => { text += chunk; });
  it.on('end', () => done([it.statusCode, it.headers['warning-ignored-members'] || null, JSON.parse(text).explanation || null]));
}).on('error', fail).end(body));
(async () => {
  for (const it of JSON.parse(process.argv[1])) found.push(await ask(it));
  console.log(JSON.stringify(found));
  agent.destroy();
})();
"""
# Debian's modules are those of its own Python.
PYTHON = "/usr/bin/python3"
CLIENTS = {
    "requests": (PYTHON, "-c", OF_PYTHON.format("requests", "Session", "data")),
    "httpx": (PYTHON, "-c", OF_PYTHON.format("httpx", "Client", "content")),
    "aiohttp": (PYTHON, "-c", OF_AIOHTTP),
    "node": ("node", "-e", OF_NODE),
}


def is_there(name):
    """Returns True if this machine has a client."""
    program, *_ = CLIENTS[name]
    return bool(shutil.which(program)) and (program != PYTHON or run([PYTHON, "-c", f"import {name}"])[0] == 0)


def of_curl(requests):
    """Returns what curl prints of each request, over one connection."""
    words = ["curl", "-s", "-i", "-H", "Authorization: Bearer all"]
    asked = [[*words, "-X", method, "--data-binary", body, url] for method, url, body in requests]
    status, output, error = run([it for line in asked for it in ([*line, "--next"] if line is not asked[-1] else line)])
    if (status, error) != (0, b""):
        raise OSError(f"curl: {status}, {error!r}")
    return [[int(it[9:12]), ignored(it), explanation(it)] for it in wire.answers_of(output)]


def real_clients():
    """curl, and requests, httpx, aiohttp and node if they are installed, find the explanation in the body and the names in a field, and
    go on with the connection."""
    with Explaining(ANY) as service:
        front = f"http://127.0.0.1:{service.port}"
        named = area('{"cells":["89c3"],"time_strat":5,"\u2603":1}')
        requests = [(*request, body) for request, body in ((INTENT, "{}"), (QUERY, named), (QUERY, area('{"cells":["89c3"]}')))]
        wanted = [
            [400, None, ["extents: missing", "uss_base_url: missing", "state: missing"]],
            [200, 'area_of_interest.time_strat, area_of_interest."?"', None], [200, None, None],
        ]
        requests = [(method, f"{front}{target}", body) for method, target, body in requests]
        found = difference("curl", of_curl(requests), wanted)
        there = [it for it in CLIENTS if is_there(it)]
        print(f"clients: curl {' '.join(there)}")
        for name in there:
            status, output, error = run([*CLIENTS[name], json.dumps(requests)])
            found += difference(f"{name}: {error!r}", (status, json.loads(output or "null")), (0, wanted))
    return found


CASES = {
    "explained-requests": rows,
    "explained-by-no-other-rule": others,
    "explained-drawn-requests": drawn,
    "explained-ignored-members": field,
    "explained-names-of-members": names_written,
    "explained-long-bodies": as_long_as_it_may_be,
    "explained-beside-others": of_others,
    "explained-in-a-pipeline": pipelined,
    "explained-failed-commit": failed_commit,
    "explained-without-memory": without_memory,
    "explained-to-clients": real_clients,
}
