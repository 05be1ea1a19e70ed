"""Paths, methods and connections, as the profile defines them.

A proxy in front of the service may answer them by its own rules."""
from suite.check import check
from suite.trial import AVAILABILITY, CONSTRAINTS, INTENTS, SUBSCRIPTIONS, Answer

VERSION = "0123456789abcdef0123456789abcdef"


def raw(it, supplier, *head, body=b""):
    return it.taken(supplier, it.pair.reader.raw(supplier.caller, head, body))


@check("An unknown path is 404, with a token or without", "P1 ROUTE", only="profile")
def a_path_that_is_none(it):
    id_ = it.id()
    for path in ("/dss/v1/reports", INTENTS, f"{INTENTS}/", f"{INTENTS}/{id_}/", f"{INTENTS}/{id_}/{VERSION}/x",
                 f"{INTENTS}/query/{VERSION}", f"{AVAILABILITY}/uss-a/{VERSION}", f"/dss/v1/%73ubscriptions/{id_}",
                 f"/DSS/v1/subscriptions/{id_}", "/"):
        for supplier in (it.a, it.nobody):
            supplier.ask("GET", path).must(404, "P1 ROUTE")
    it.a.ask("GET", f"{INTENTS}/{id_}?x=%2f").must(404, "P7 FOUND")


@check("A method that a path does not have is 405, and Allow lists its methods", "P2 METHOD", only="profile")
def a_method_that_is_not_taken(it):
    id_ = it.id()
    for method, path, allowed in (
            ("GET", f"{INTENTS}/query", "POST"), ("DELETE", f"{INTENTS}/{id_}", "GET, PUT"),
            ("GET", f"{CONSTRAINTS}/{id_}/{VERSION}", "PUT, DELETE"), ("POST", f"{AVAILABILITY}/uss-a", "GET, PUT"),
            ("PATCH", f"{SUBSCRIPTIONS}/{id_}", "GET, PUT"), ("put", f"{SUBSCRIPTIONS}/{id_}", "GET, PUT")):
        answer = it.nobody.ask(method, path).must(405, "P2 METHOD")
        answer.need(answer.exchange.fields.get("allow") == allowed, f"Allow: {allowed}")


@check("A malformed HTTP request is rejected by the protocol rule that it breaks, and the connection closes",
       "H1 HEAD, H2 HEADSIZE, H3 TRANSFER, H4 LENGTH, H5 BODYSIZE", only="profile")
def what_is_no_request(it):
    line = f"GET {AVAILABILITY}/uss-a HTTP/1.1"
    put = f"PUT {INTENTS}/{it.id()} HTTP/1.1"
    many = [f"X-{k}: 1" for k in range(70)]
    for head, status, message in (
            ([line.replace(" ", "  ", 1)], 400, "H1 HEAD"), ([line.replace("1.1", "2.0")], 400, "H1 HEAD"),
            ([line, "X y: 1"], 400, "H1 HEAD"),
            ([line, *many], 431, "H2 HEADSIZE"), ([line, "X: " + "x" * 9000], 431, "H2 HEADSIZE"),
            ([put, "Transfer-Encoding: chunked"], 501, "H3 TRANSFER"),
            ([put, "Content-Length: 1", "Content-Length: 1"], 400, "H4 LENGTH"), ([put, "Content-Length: +1"], 400, "H4 LENGTH"),
            ([put, "Content-Length: 1048577"], 413, "H5 BODYSIZE")):
        answer = raw(it, it.a, *head).must(status, message)
        answer.need(answer.exchange.fields.get("connection") == "close", "Connection: close")


@check("A connection closes after a hundred requests, and after one with Connection: close", "Formats", only="profile")
def a_connection_takes_a_hundred(it):
    uss = it.a.uss
    last = it.a.ask("GET", f"{AVAILABILITY}/{uss}", fields={"Connection": "close"}).must(200)
    last.need(last.exchange.fields.get("connection") == "close", "Connection: close, as requested")
    older = raw(it, it.a, f"GET {AVAILABILITY}/{uss} HTTP/1.0").must(200)
    older.need(older.exchange.fields.get("connection") == "close", "Connection: close after HTTP/1.0")
    for exchange in it.pair.reader.many(it.a.caller, "GET", f"{AVAILABILITY}/{uss}", 100):
        answer = it.taken(it.a, exchange).must(200)
        wanted = "close" if exchange.number == 100 else None
        said = "Connection: close" if wanted else "no field Connection"
        answer.need(exchange.fields.get("connection") == wanted, f"{said} in response {exchange.number} of the connection")


@check("The hundredth response of a connection is its last: a request sent after it has no effect, and a new connection accepts it",
       "Formats", only="profile")
def what_follows_the_hundredth_is_not_done(it):
    id_, path = it.id(), f"{AVAILABILITY}/{it.a.uss}"
    put = "PUT", f"{INTENTS}/{id_}", it.intent_body(it.volume(it.site()))
    it.may_be_kept(it.a, put[1])
    exchanges = it.pair.reader.pipelined(it.a.caller, [("GET", path, None)] * 100 + [put])
    for exchange in exchanges[:100]:
        it.taken(it.a, exchange).must(200)
    it.exchanges.append(exchanges[100])
    Answer(it, exchanges[100]).need(exchanges[100].status is None, "no answer to request 101 of the connection")
    it.a.get(INTENTS, id_).must(404, "P7 FOUND")
    it.a.ask(*put).must(201)


@check("No path accepts HEAD, and the next request of its connection is answered", "P2 METHOD", only="profile")
def head_is_not_taken(it):
    path = f"{AVAILABILITY}/{it.a.uss}"
    for asked, status, allowed in ((path, 405, "GET, PUT"), (f"{INTENTS}/query", 405, "POST"), (f"{INTENTS}/", 404, None)):
        head, read = it.pair.reader.pipelined(it.a.caller, [("HEAD", asked, None), ("GET", path, None)])
        it.exchanges.append(head)
        answer = Answer(it, head).must(status)
        answer.need(head.fields.get("allow") == allowed, f"Allow: {allowed}" if allowed else "no field Allow")
        it.taken(it.a, read).must(200)


@check("Bearer is accepted in any case, and two fields Authorization count as none", "P3 TOKEN", only="profile")
def a_token_is_one_field(it):
    path, field = f"{AVAILABILITY}/{it.a.uss}", f"{it.a.caller.token}"
    for value, status in ((f"bEaReR   {field}", 200), (f"Basic {field}", 401), (field, 401), (f"Bearer {field} {field}", 401)):
        raw(it, it.nobody, f"GET {path} HTTP/1.1", f"authorization: {value}").must(status, "P3 TOKEN" if status == 401 else None)
    raw(it, it.a, f"GET {path} HTTP/1.1", f"Authorization: Bearer {field}").must(401, "P3 TOKEN")
