"""Debian's Chromium without a window, driven by the DevTools protocol over its pipe."""
import base64
import contextlib
import json
import os
import pathlib
import select
import shutil
import signal
import subprocess
import tempfile
import time


def program():
    return shutil.which("chromium", path="/usr/bin:/usr/local/bin")


class Browser:
    """One page. Its requests and its errors are recorded."""

    def __init__(self, width=1200, height=800, *options):
        self.folder = tempfile.mkdtemp()
        (to_read, self.out), (self.into, to_write) = os.pipe(), os.pipe()

        def pipes():
            # The browser reads 3 and writes 4; the ends are first moved out of the way.
            ends = os.dup2(to_read, 100), os.dup2(to_write, 101)
            for end, number in zip(ends, (3, 4)):
                os.dup2(end, number)
                os.set_inheritable(number, True)
        words = [program(), "--headless=new", "--remote-debugging-pipe", f"--user-data-dir={self.folder}", "--disable-gpu", "--no-first-run",
                 "--disable-background-networking", "--disable-component-update", "--disable-sync", "--disable-dev-shm-usage", "--hide-scrollbars",
                 f"--window-size={width},{height}", *(["--no-sandbox"] if os.geteuid() == 0 else []), *options, "about:blank"]
        self.process = subprocess.Popen(words, preexec_fn=pipes, close_fds=False, stdout=subprocess.DEVNULL, stderr=subprocess.DEVNULL,
                                        start_new_session=True)
        os.close(to_read)
        os.close(to_write)
        self.buffer, self.number, self.session = b"", 0, None
        self.requests, self.faults, self.answers, self.given = [], [], {}, None
        target = next(it for it in self.wait_for_targets() if it["type"] == "page")
        self.session = self.call("Target.attachToTarget", targetId=target["targetId"], flatten=True)["sessionId"]
        for name in ("Page", "Runtime", "Network", "Log"):
            self.call(f"{name}.enable")
        self.call("Performance.enable", timeDomain="threadTicks")
        self.size(width, height)

    def wait_for_targets(self):
        for _ in range(2_000):
            found = self.call("Target.getTargets")["targetInfos"]
            if any(it["type"] == "page" for it in found):
                return found
            time.sleep(0.05)
        raise AssertionError("the browser opens no page")

    def end(self):
        os.killpg(self.process.pid, signal.SIGKILL)
        self.process.wait()
        os.close(self.out)
        os.close(self.into)
        shutil.rmtree(self.folder, ignore_errors=True)

    def call(self, method, **parameters):
        self.number += 1
        message = {"id": self.number, "method": method, "params": parameters} | ({"sessionId": self.session} if self.session else {})
        self.send(message)
        mine, until = self.number, time.time() + 300
        while mine not in self.answers:
            self.take(until - time.time())
        answer = self.answers.pop(mine)
        assert "error" not in answer, (method, answer)
        return answer["result"]

    def send(self, message):
        data = json.dumps(message).encode() + b"\0"
        while data:
            data = data[os.write(self.out, data):]

    def take(self, seconds):
        """Reads the arrived messages, and records them."""
        ready, _, _ = select.select([self.into], [], [], max(0, seconds))
        assert ready or seconds > 0, "the browser does not answer"
        if not ready:
            return
        piece = os.read(self.into, 1 << 20)
        assert piece, "the browser has ended"
        *messages, self.buffer = (self.buffer + piece).split(b"\0")
        for it in messages:
            self.note(json.loads(it))

    def note(self, message):
        if "id" in message:
            self.answers[message["id"]] = message
            return
        method, told = message["method"], message["params"]
        if method == "Fetch.requestPaused":
            self.number += 1
            self.send({"id": self.number, "sessionId": self.session, "method": "Fetch.fulfillRequest", "params": {
                "requestId": told["requestId"], "responseCode": 200, "body": self.given}})
        if method == "Network.requestWillBeSent":
            self.requests.append(told["request"]["url"])
        if method == "Runtime.exceptionThrown":
            self.faults.append(json.dumps(told["exceptionDetails"])[:500])
        if method == "Runtime.consoleAPICalled" and told["type"] in ("error", "warning", "assert"):
            self.faults.append(json.dumps(told["args"])[:500])
        # Messages of the network are no errors of the page.
        if method == "Log.entryAdded" and told["entry"]["level"] == "error" and told["entry"]["source"] != "network":
            self.faults.append(told["entry"]["text"])

    def answer_with(self, pattern, body):
        """Answers requests in place of the server."""
        self.given = base64.b64encode(body.encode()).decode()
        self.call("Fetch.enable", patterns=[{"urlPattern": pattern}])

    def size(self, width, height, scheme="light"):
        self.call("Emulation.setDeviceMetricsOverride", width=width, height=height, deviceScaleFactor=1, mobile=False)
        self.call("Emulation.setEmulatedMedia", features=[{"name": "prefers-color-scheme", "value": scheme}])

    def open(self, url):
        self.call("Page.navigate", url=url)
        self.until("document.readyState === 'complete'")

    def value(self, expression):
        got = self.call("Runtime.evaluate", expression=expression, returnByValue=True, awaitPromise=True)
        assert "exceptionDetails" not in got, got["exceptionDetails"]
        return got["result"].get("value")

    def until(self, expression, seconds=120):
        end = time.time() + seconds
        while not self.value(f"Boolean({expression})"):
            assert time.time() < end, f"{expression} does not come true; the page has:\n{self.value('document.body.innerText')[:1500]}"
            time.sleep(0.1)

    def processor_seconds(self):
        """Returns the processor seconds of all its processes."""
        used = 0
        for path in pathlib.Path("/proc").glob("[0-9]*/stat"):
            with contextlib.suppress(OSError):
                words = path.read_text().rsplit(") ", 1)[1].split()
                used += int(words[11]) + int(words[12]) if int(words[3]) == self.process.pid else 0
        return used / os.sysconf("SC_CLK_TCK")

    def busy_seconds(self):
        """Returns the processor seconds of the page's main thread, without those of the commands of this class."""
        metrics = self.call("Performance.getMetrics")["metrics"]
        return next(it["value"] for it in metrics if it["name"] == "TaskDuration")

    def key(self, key, code=None, text=None):
        numbers = {"Enter": 13, "Escape": 27, "Home": 36, "ArrowLeft": 37, "ArrowUp": 38, "ArrowRight": 39, "ArrowDown": 40, "Tab": 9}
        parameters = {"key": key, "code": code or key, "windowsVirtualKeyCode": numbers.get(key, ord(key[0]))}
        text = "\r" if key == "Enter" else text or (key if len(key) == 1 else None)
        self.call("Input.dispatchKeyEvent", type="keyDown", **parameters, **({"text": text} if text else {}))
        self.call("Input.dispatchKeyEvent", type="keyUp", **parameters)

    def type(self, text):
        self.call("Input.insertText", text=text)

    def click(self, x, y):
        for kind in ("mousePressed", "mouseReleased"):
            self.call("Input.dispatchMouseEvent", type=kind, x=x, y=y, button="left", clickCount=1)

    def picture(self, path):
        data = self.call("Page.captureScreenshot", format="png")["data"]
        with open(path, "wb") as it:
            it.write(base64.b64decode(data))
