"""An etcd that breaks off, delays, repeats and answers wrongly on demand.

It serves the JSON gateway of etcd 3.4 as far as a log uses it: put under a condition, range, also at a revision, watch, authenticate and
compaction. Its faults are planned for the next request of a kind, or drawn."""
import base64
import json
import socket
import threading
import time
import urllib.request

from links import FIRST, link_text, next_digest, with_link

PATHS = {"/v3/kv/txn": "put", "/v3/kv/range": "range", "/v3/watch": "watch", "/v3/auth/authenticate": "token"}
PATHS["/v3/kv/compaction"] = "compact"

# Of a request: what happens instead of a plain answer. Of a watch: what happens to its next line with changes.
REQUEST_FAULTS = (
    "cut before", "cut after", "503 before", "503 after", "late before", "late after", "no json", "no header", "no number", "twice",
    "short", "no http", "plus", "cut in answer",
)
WATCH_FAULTS = ("cut", "cut in line", "repeat", "stall", "no json", "no revision", "cancel", "error", "end", "bytes", "join", "chunks")
# Longer than the client's limit for a request, also if the client stands still for some seconds: 2 seconds.
LATE = 6
# What etcd says of a range at a revision that it does not have.
COMPACTED = "etcdserver: mvcc: required revision has been compacted"
FUTURE = "etcdserver: mvcc: required revision is a future revision"
OUT_OF_RANGE = 11


class Refused(Exception):
    """A request that etcd answers with status 400."""

    def body(self):
        why, code = self.args
        return json.dumps({"error": why, "message": why, "code": code}, separators=(",", ":"))


def number(value):
    return str(value)


def plain(text):
    return base64.b64decode(text)


def coded(raw):
    return base64.b64encode(raw).decode()


class Key:
    def __init__(self, name, value, created, changed, version):
        self.name, self.value, self.created, self.changed, self.version = name, value, created, changed, version

    def shown(self, keys_only=False):
        found = {"key": coded(self.name), "create_revision": number(self.created), "mod_revision": number(self.changed)}
        found["version"] = number(self.version)
        if self.value and not keys_only:
            found["value"] = coded(self.value)
        return found


class Fake:
    """One etcd, with several addresses if several members are wanted. All members are the same store."""

    def __init__(self, members=1, draw=None, rate=0.0, users=None):
        self.lock = threading.Condition()
        self.revision, self.compacted = 1, 0
        self.keys, self.changes = {}, []
        # The digests over no change of the log's keys, over one, and so on, and the revisions of the changes.
        self.digests, self.at = [FIRST], []
        # "past" is a range at a revision.
        self.plans = {"put": [], "range": [], "past": [], "token": [], "compact": [], "watch": []}
        # Each request of these kinds gets status 503, and is not done.
        self.refused = set()
        self.draw, self.rate = draw, rate
        self.users, self.tokens = users or {}, set()
        self.requests, self.closed = [], False
        # The seconds before each line with changes, and between its eighths.
        self.silence, self.pause = 0, 0
        # A request with the fault "held" has come, may be answered, and was answered.
        self.held, self.released, self.answered = threading.Event(), threading.Event(), threading.Event()
        self.listeners = []
        for _ in range(members):
            listener = socket.create_server(("127.0.0.1", 0))
            self.listeners.append(listener)
            threading.Thread(target=self.accept, args=(listener,), daemon=True).start()

    def addresses(self):
        return ",".join(f"127.0.0.1:{it.getsockname()[1]}" for it in self.listeners)

    def ask(self, it, path, body, limit=5):
        """Makes a request to a member, as a client that is not a log."""
        host, port = self.listeners[it].getsockname()
        request = urllib.request.Request(f"http://{host}:{port}{path}", json.dumps(body).encode())
        with urllib.request.urlopen(request, timeout=limit) as answer:
            return json.load(answer)

    def close(self):
        self.closed = True
        self.released.set()
        for it in self.listeners:
            it.close()
        with self.lock:
            self.lock.notify_all()

    def plan(self, kind, *faults):
        """The next requests of the kind, or lines of a watch, have these faults."""
        with self.lock:
            self.plans[kind] += faults

    def fault(self, kind):
        with self.lock:
            if kind in self.refused:
                return "503 before"
            if self.plans[kind]:
                return self.plans[kind].pop(0)
            if self.draw and self.draw.random() < self.rate:
                return self.draw.choice(WATCH_FAULTS if kind == "watch" else REQUEST_FAULTS)
            return None

    def entries(self):
        """All values that were put, in order."""
        with self.lock:
            return [it.value for kind, it in self.changes if kind == "PUT"]

    # The store.

    def header(self):
        return {"cluster_id": "1", "member_id": "2", "revision": number(self.revision), "raft_term": "2"}

    def put(self, name, value, is_lost=False):
        self.revision += 1
        before = self.keys.get(name)
        created = before.created if before else self.revision
        key = Key(name, value, created, self.revision, before.version + 1 if before else 1)
        self.keys[name] = key
        if not is_lost:
            self.changes.append(("PUT", key))
            self.extend(name, value)
        self.lock.notify_all()

    def extend(self, name, value):
        if b"in/" <= name < b"in0":
            self.digests.append(next_digest(self.digests[-1], name, value))
            self.at.append(self.revision)

    def link(self, revision=None):
        """The link of the changes up to a revision, or of all."""
        with self.lock:
            count = len(self.at) if revision is None else sum(it <= revision for it in self.at)
            return link_text(count, self.digests[count])

    def delete(self, name, is_lost=False):
        with self.lock:
            self.revision += 1
            del self.keys[name]
            if not is_lost:
                self.changes.append(("DELETE", Key(name, b"", 0, self.revision, 0)))
                self.extend(name, None)
            self.lock.notify_all()

    def put_from_outside(self, name, value, is_lost=False, link=None):
        """Puts a value. If it is lost, no watch gives it. An entry gets the link of all changes before it, or another one."""
        with self.lock:
            count = len(self.at)
            own = link_text(count, self.digests[count])
            self.put(name, with_link(value, own if link is None else link), is_lost)

    def txn(self, body):
        with self.lock:
            holds = True
            for it in body["compare"]:
                assert it["target"] == "MOD" and it["result"] == "EQUAL", it
                found = self.keys.get(plain(it["key"]))
                holds = holds and int(it["mod_revision"]) == (found.changed if found else 0)
            answers = []
            for it in body["success"] if holds else body["failure"]:
                if put := it.get("request_put"):
                    self.put(plain(put["key"]), plain(put.get("value", "")))
                    answers.append({"response_put": {"header": {"revision": number(self.revision)}}})
                else:
                    answers.append({"response_range": self.range(it["request_range"], False)})
            result = {"header": self.header()}
            if holds:
                result["succeeded"] = True
            return {**result, "responses": answers}

    def keys_at(self, revision):
        """Returns the keys as they were at a revision, or as they are if it is 0."""
        if not revision:
            return self.keys
        if revision > self.revision:
            raise Refused(FUTURE, OUT_OF_RANGE)
        if revision < self.compacted:
            raise Refused(COMPACTED, OUT_OF_RANGE)
        found = {}
        for kind, key in self.changes:
            if key.changed > revision:
                break
            if kind == "PUT":
                found[key.name] = key
            else:
                del found[key.name]
        return found

    def range(self, body, with_header=True):
        with self.lock:
            first, end = plain(body["key"]), plain(body.get("range_end", ""))
            keys = self.keys_at(int(body.get("revision", 0)))
            found = [it for name, it in keys.items() if name == first or end and first <= name < end]
            found.sort(key=lambda it: it.changed, reverse=body.get("sort_order") == "DESCEND")
            limit = int(body.get("limit", 0)) or len(found)
            header = self.header() if with_header else {"revision": number(self.revision)}
            result = {"header": header}
            if found:
                result["kvs"] = [it.shown(body.get("keys_only")) for it in found[:limit]]
                result["count"] = number(len(found))
            if limit < len(found):
                result["more"] = True
            return result

    def compact(self, revision):
        with self.lock:
            self.compacted = revision

    def answer(self, kind, body):
        if kind == "put":
            return self.txn(body)
        if kind == "range":
            return self.range(body)
        if kind == "compact":
            self.compact(int(body["revision"]))
            return {"header": self.header()}
        assert kind == "token"
        if self.users.get(body["name"]) != body["password"]:
            raise Refused("etcdserver: authentication failed, invalid user ID or password", 3)
        with self.lock:
            token = f"token.{len(self.tokens)}"
            self.tokens.add(token)
        return {"header": self.header(), "token": token}

    # HTTP.

    def accept(self, listener):
        while True:
            try:
                conn, _ = listener.accept()
            except OSError:
                return
            threading.Thread(target=self.serve, args=(conn,), daemon=True).start()

    def serve(self, conn):
        conn.setsockopt(socket.IPPROTO_TCP, socket.TCP_NODELAY, 1)
        file = conn.makefile("rb")
        try:
            while line := file.readline():
                _, path, _ = line.decode().split()
                fields = {}
                while (line := file.readline()) not in (b"\r\n", b""):
                    name, _, value = line.decode().partition(":")
                    fields[name.lower()] = value.strip()
                body = json.loads(file.read(int(fields["content-length"])))
                if not self.respond(conn, PATHS[path], fields, body):
                    break
        except (OSError, ValueError):
            pass
        finally:
            conn.close()

    def send(self, conn, status, text, twice=1):
        raw = text if isinstance(text, bytes) else text.encode()
        head = f"HTTP/1.1 {status} Said\r\nContent-Type: application/json\r\nContent-Length: {len(raw)}\r\n\r\n".encode()
        conn.sendall((head + raw) * twice)

    def respond(self, conn, kind, fields, body):
        """Answers a request. Returns True if the connection goes on."""
        with self.lock:
            self.requests.append((kind, body))
            allowed = not self.users or kind == "token" or fields.get("authorization") in self.tokens
        if not allowed:
            self.send(conn, 401, '{"error":"etcdserver: invalid auth token","message":"..","code":16}')
            return True
        if kind == "watch":
            self.watch(conn, body["create_request"])
            return False
        fault = self.fault("past" if "revision" in body else kind) if kind == "range" else self.fault(kind)
        if fault in ("cut before", "503 before", "no http"):
            if fault == "503 before":
                self.send(conn, 503, '{"error":"etcdserver: request timed out","message":"..","code":14}')
            elif fault == "no http":
                conn.sendall(b"SSH-2.0-none of this\r\n")
            return fault == "503 before"
        if fault == "late before":
            time.sleep(LATE)
        if fault == "held":
            self.held.set()
            self.released.wait()
        try:
            answer = self.answer(kind, body)
        except Refused as error:
            self.send(conn, 400, error.body())
            return True
        if fault == "held":
            self.answered.set()
        return self.send_answer(conn, answer, fault)

    def send_answer(self, conn, answer, fault):
        text = json.dumps(answer, separators=(",", ":"))
        if fault == "cut after":
            return False
        if fault == "503 after":
            self.send(conn, 503, '{"error":"etcdserver: leader changed","message":"..","code":14}')
        elif fault == "late after":
            time.sleep(LATE)
            self.send(conn, 200, text)
        elif fault == "no json":
            self.send(conn, 200, text[:-1])
        elif fault == "no header":
            self.send(conn, 200, json.dumps({name: it for name, it in answer.items() if name != "header"}))
        elif fault == "no number":
            self.send(conn, 200, json.dumps({**answer, "header": {"revision": "18446744073709551616"}}))
        elif fault == "plus":
            self.send(conn, 200, json.dumps({**answer, "header": {"revision": "+5"}}))
        elif fault == "short":
            self.send(conn, 200, "{}")
        elif fault == "twice":
            self.send(conn, 200, text, twice=2)
        elif fault == "cut in answer":
            conn.sendall(f"HTTP/1.1 200 OK\r\nContent-Length: {len(text)}\r\n\r\n{text[:9]}".encode())
            return False
        else:
            self.send(conn, 200, text)
        return True

    # A watch.

    def watch(self, conn, create):
        first, end = plain(create["key"]), plain(create["range_end"])
        start = int(create.get("start_revision", 0))
        conn.sendall(b"HTTP/1.1 200 OK\r\nContent-Type: application/json\r\nTransfer-Encoding: chunked\r\n\r\n")
        with self.lock:
            header, compacted = self.header(), self.compacted
        self.chunk(conn, [{"result": {"header": header, "created": True}}])
        if start < compacted:
            canceled = {"header": header, "canceled": True, "compact_revision": number(compacted)}
            self.chunk(conn, [{"result": canceled}])
            return
        taken = 0
        while not self.closed:
            with self.lock:
                while not self.closed and taken == len(self.changes):
                    self.lock.wait(0.2)
                news = self.changes[taken:]
                taken += len(news)
                header = self.header()
            events = []
            for kind, key in news:
                if first <= key.name < end and key.changed >= max(start, 1):
                    event = {"kv": key.shown()} if kind == "PUT" else {"type": "DELETE", "kv": {"key": coded(key.name)}}
                    event["kv"]["mod_revision"] = number(key.changed)
                    events.append(event)
            if events and not self.tell(conn, header, events):
                return

    def chunk(self, conn, lines, bytewise=False, cut=0):
        raw = b"".join(json.dumps(it, separators=(",", ":")).encode() + b"\n" for it in lines)
        raw = raw[: len(raw) - cut]
        for part in ([raw[at : at + 1] for at in range(len(raw))] if bytewise else [raw]):
            conn.sendall(f"{len(part):x}\r\n".encode() + part + b"\r\n")

    def slowly(self, conn, line):
        """Sends a line with changes in eighths, after the silence and with the pauses that are wanted."""
        time.sleep(self.silence)
        raw = json.dumps(line, separators=(",", ":")).encode() + b"\n"
        size = len(raw) // 8 + 1
        for at in range(0, len(raw), size):
            part = raw[at : at + size]
            conn.sendall(f"{len(part):x}\r\n".encode() + part + b"\r\n")
            time.sleep(self.pause)

    def tell(self, conn, header, events):
        """Sends changes. Returns True if the watch goes on."""
        fault = self.fault("watch")
        line = {"result": {"header": header, "events": events}}
        if fault in ("cut", "end"):
            if fault == "end":
                conn.sendall(b"0\r\n\r\n")
            return False
        if fault == "cut in line":
            self.chunk(conn, [line], cut=9)
            return False
        if fault == "stall":
            # A member that is cut off says nothing more, and does not close the connection.
            time.sleep(3 * LATE)
            return False
        if fault == "no json":
            conn.sendall(b"4\r\n{],\n\r\n")
        elif fault == "no revision":
            broken = [{"kv": {name: it for name, it in event["kv"].items() if name != "mod_revision"}} for event in events]
            self.chunk(conn, [{"result": {"header": header, "events": broken}}])
        elif fault == "cancel":
            self.chunk(conn, [{"result": {"header": header, "canceled": True}}])
        elif fault == "error":
            self.chunk(conn, [{"error": {"grpc_code": 14, "http_code": 503, "message": "etcdserver: no leader"}}])
        elif fault == "repeat":
            self.chunk(conn, [line, line])
        elif fault == "bytes":
            self.chunk(conn, [line], bytewise=True)
        elif fault == "chunks":
            for it in events:
                self.chunk(conn, [{"result": {"header": header, "events": [it]}}])
        elif fault == "join":
            progress = {"result": {"header": header}}
            alone = [{"result": {"header": header, "events": [it]}} for it in events]
            self.chunk(conn, [progress, *alone, progress])
        elif self.silence or self.pause:
            self.slowly(conn, line)
        else:
            self.chunk(conn, [line])
        return True
