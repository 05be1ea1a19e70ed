"""What the tests stand on: a service on a free port, and a proxy before it that loses responses or answers itself."""
import http.client
import http.server
import pathlib
import socket
import sys
import threading

sys.dont_write_bytecode = True
HERE = pathlib.Path(__file__).resolve().parent
TOP = HERE.parents[2]
sys.path[1:1] = [str(HERE.parent), str(TOP / "tests" / "shared")]

import wire
from ports import free_port
from program import SECONDS
from serving import Service

# one token with all scopes of each USS, beside those of the examples
SCOPES = {wire.STRATEGIC, wire.MONITORING, wire.PROCESSING, wire.MANAGEMENT, wire.ARBITRATION}
MORE = {f"all-{it}": (f"uss-{it}", SCOPES) for it in "ab"}


def service(*options):
    """The service of the repository, which `DSS_PROGRAM` names or ./dss has built, with options."""
    made = Service({**wire.TOKENS, **MORE})
    made.options = options
    return made


class Proxy:
    """Passes requests on, and takes from `script` what happens to each: "pass", "lose" the response, "refuse" the
    request, or a response of its own, as a status, fields and a body."""

    def __init__(self, port):
        self.script, self.seen, self.connections = [], [], 0
        proxy = self

        class Handler(http.server.BaseHTTPRequestHandler):
            protocol_version, disable_nagle_algorithm = "HTTP/1.1", True

            def setup(self):
                super().setup()
                proxy.connections += 1

            def handle_one(self):
                body = self.rfile.read(int(self.headers.get("Content-Length", 0)))
                proxy.seen.append((self.command, self.path, body))
                what = proxy.script.pop(0) if proxy.script else "pass"
                if what == "refuse":
                    return self.cut()
                if not isinstance(what, str):
                    return self.say(*what)
                service = http.client.HTTPConnection("127.0.0.1", port, timeout=30)
                service.request(self.command, self.path, body, {"Authorization": self.headers["Authorization"]})
                answer = service.getresponse()
                status, data = answer.status, answer.read()
                service.close()
                return self.cut() if what == "lose" else self.say(status, {"Content-Type": "application/json"}, data)

            def say(self, status, fields, data):
                self.send_response(status)
                for name, value in {**fields, "Content-Length": f"{len(data)}"}.items():
                    self.send_header(name, value)
                self.end_headers()
                self.wfile.write(data)

            def cut(self):
                self.close_connection = True
                self.connection.shutdown(socket.SHUT_RDWR)

            do_GET = do_PUT = do_POST = do_DELETE = handle_one

            def log_message(self, *_):
                pass

        self.server = http.server.ThreadingHTTPServer(("127.0.0.1", 0), Handler)
        self.server.daemon_threads = True
        self.url = f"http://127.0.0.1:{self.server.server_port}"
        threading.Thread(target=self.server.serve_forever, args=(0.01,), daemon=True).start()

    def __enter__(self):
        return self

    def __exit__(self, *_):
        self.server.shutdown()
        self.server.server_close()
