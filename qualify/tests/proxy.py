"""A proxy that forwards bytes between a client and a service, and plants one fault in them."""
import contextlib
import json
import socket
import threading
import time
import traceback

KINDS = ("operational_intent_references", "constraint_references", "subscriptions", "uss_availability")
ONE = {it: it.removesuffix("s") for it in KINDS[:3]}


class Message:
    """A request or a response: its first line, its fields in order, and its body."""

    def __init__(self, line, fields, body):
        self.line, self.fields, self.body = line, fields, body

    @classmethod
    def read(cls, reader):
        """Reads the next one; None at the end."""
        lines = []
        while line := reader.readline():
            if line == b"\r\n":
                break
            lines.append(line.rstrip(b"\r\n").decode("latin-1"))
        if not lines or not line:
            return None
        message = cls(lines[0], [tuple(it.partition(":")[::2]) for it in lines[1:]], b"")
        lengths = message.all("content-length")
        if len(lengths) == 1 and lengths[0].isdigit() and int(lengths[0]) <= 1 << 20:
            message.body = reader.read(int(lengths[0]))
        return message

    def all(self, name):
        return [value.strip() for key, value in self.fields if key.strip().lower() == name]

    def set(self, name, value):
        self.fields = [it for it in self.fields if it[0].strip().lower() != name.lower()]
        if value is not None:
            self.fields.append((name, f" {value}"))

    def written(self):
        lines = [self.line, *(f"{name}:{value}" for name, value in self.fields)]
        return "\r\n".join([*lines, "", ""]).encode("latin-1") + self.body

    @property
    def value(self):
        with contextlib.suppress(ValueError):
            return json.loads(self.body)
        return None

    def put(self, value):
        """Replaces the body, as compact as the service's own."""
        self.body = json.dumps(value, separators=(",", ":"), sort_keys=True, ensure_ascii=False).encode()
        self.set("Content-Length", len(self.body))

    # ---- requests

    @property
    def method(self):
        return self.line.split(" ")[0]

    @property
    def path(self):
        return (self.line.split(" ") + [""])[1]

    @property
    def words(self):
        """Returns the kind, the id and the version of the path, each '' if it is missing."""
        words = self.path.removeprefix("/dss/v1/").split("/")
        return tuple((words + ["", "", ""])[:3]) if words[0] in KINDS else ("", "", "")

    def with_path(self, path):
        other = Message(f"{self.method} {path} HTTP/1.1", list(self.fields), self.body)
        return other

    def with_token(self, field):
        other = Message(self.line, list(self.fields), self.body)
        other.set("Authorization", field)
        return other

    # ---- responses

    @property
    def status(self):
        return int(self.line.split(" ")[1])

    def with_status(self, status):
        self.line = f"HTTP/1.1 {status} Other"
        return self


class World:
    """What the proxy has seen of each entity: its current OVN or version, all that it had, and the token that made it."""

    def __init__(self):
        self.now, self.all, self.token, self.first, self.references, self.bodies = {}, {}, {}, {}, {}, {}

    def see(self, asked, answer):
        kind, id_, _ = asked.words
        value = answer.value
        if answer.status in (200, 201) and asked.method == "PUT" and isinstance(value, dict) and kind in ONE:
            told = value.get(ONE[kind], {})
            version = told.get("version" if kind == "subscriptions" else "ovn")
            self.now[kind, id_] = version
            self.all.setdefault((kind, id_), []).append(version)
            self.token[kind, id_] = (asked.all("authorization") or [""])[0]
            self.references[kind, id_] = {name: it for name, it in told.items() if name != "ovn"}
            self.bodies.setdefault((kind, id_), asked.value)
        if asked.method == "DELETE" and answer.status == 200:
            self.now.pop((kind, id_), None)


class Proxy:
    """Listens on a port of its own. `fault` takes the world, the request and the function that forwards it, and returns
    the response."""

    def __init__(self, port, fault=None, context=None):
        self.upstream, self.fault, self.world, self.lock = port, fault, World(), threading.Lock()
        # The TLS context, if it uses TLS.
        self.context = context
        # The times of requests, and the errors in the code of the fault, after which there is no response.
        self.times, self.errors = [], []
        self.listening = socket.create_server(("127.0.0.1", 0))
        self.port = self.listening.getsockname()[1]
        threading.Thread(target=self.accept, daemon=True).start()

    @property
    def url(self):
        return f"http://127.0.0.1:{self.port}"

    def end(self):
        with contextlib.suppress(OSError):
            self.listening.shutdown(socket.SHUT_RDWR)
        self.listening.close()

    def accept(self):
        with contextlib.suppress(OSError):
            while True:
                connection, _ = self.listening.accept()
                threading.Thread(target=self.serve, args=(connection,), daemon=True).start()

    def serve(self, connection):
        """Answers the requests of a connection, over one to the service."""
        with contextlib.suppress(OSError), contextlib.ExitStack() as opened:
            opened.enter_context(connection)
            if self.context:
                connection = opened.enter_context(self.context.wrap_socket(connection, server_side=True))
            reader, service = opened.enter_context(connection.makefile("rb")), opened.enter_context(Upstream(self.upstream))
            while asked := Message.read(reader):
                self.times.append(time.monotonic())
                answer = self.answer(asked, service)
                if answer is None:
                    return
                connection.sendall(answer.written())
                if "close" in answer.all("connection"):
                    return

    def answer(self, asked, service):
        def pass_on(request):
            answer = service.ask(request)
            if answer:
                with self.lock:
                    self.world.see(request, answer)
            return answer
        try:
            return self.fault(self.world, asked, pass_on) if self.fault else pass_on(asked)
        except OSError:
            raise
        except Exception:
            self.errors.append(traceback.format_exc(limit=-3))
            return None


class Upstream:
    """A connection to the service, opened again if the service has closed it."""

    def __init__(self, port):
        self.port, self.connection = port, None

    def __enter__(self):
        return self

    def __exit__(self, *_):
        self.close()

    def close(self):
        if self.connection:
            self.answers.close()
            self.connection.close()
        self.connection = None

    def ask(self, request):
        if not self.connection:
            self.connection = socket.create_connection(("127.0.0.1", self.port), 300)
            self.answers = self.connection.makefile("rb")
        self.connection.sendall(request.written())
        answer = Message.read(self.answers)
        if not answer or "close" in answer.all("connection"):
            self.close()
        return answer
