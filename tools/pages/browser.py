"""Chromium without a window, driven by its DevTools protocol."""
import json
import os
import shutil
import subprocess
import tempfile
import time
import urllib.request

try:
    import websocket
except ImportError:
    websocket = None

WIDTH, HEIGHT = 1024, 768
START_SECONDS, ANSWER_SECONDS, CLOSING_SECONDS, CLOSING_TRIES = 60, 60, 10, 50
# Names of other machines have no address, so that a page reaches nothing but this machine.
THIS_MACHINE_ALONE = "MAP * ~NOTFOUND, EXCLUDE localhost, EXCLUDE 127.0.0.1, EXCLUDE [::1]"


class Trouble(Exception):
    """What ends a tool, as one sentence."""


def require_packages():
    """Raises Trouble where a package is missing."""
    if websocket is None or shutil.which("chromium") is None:
        raise Trouble("this tool needs the Debian packages chromium and python3-websocket: apt-get install chromium python3-websocket")


class Browser:
    """A Chromium with one page. Events that come while an answer is awaited are handed to `heard` in their order."""

    def __init__(self):
        require_packages()
        self.folder = tempfile.mkdtemp(prefix="axcore-page-")
        self.process, self.socket, self.last_id, self.heard = None, None, 0, lambda method, params: None
        try:
            self.start()
        except BaseException:
            self.close()
            raise

    def __enter__(self):
        return self

    def __exit__(self, *_):
        self.close()

    def start(self):
        words = ["chromium", "--headless", "--remote-debugging-port=0", "--user-data-dir=" + self.folder, "--no-first-run",
                 "--disable-gpu", "--hide-scrollbars", "--force-device-scale-factor=1", "--window-size=%d,%d" % (WIDTH, HEIGHT),
                 "--disable-background-networking", "--disable-component-update", "--host-resolver-rules=" + THIS_MACHINE_ALONE]
        words += ["--no-sandbox"] if os.geteuid() == 0 else []
        self.process = subprocess.Popen(words + ["about:blank"], stdin=subprocess.DEVNULL, stdout=subprocess.DEVNULL,
                                        stderr=subprocess.DEVNULL)
        try:
            self.socket = websocket.create_connection(self.page_address(), suppress_origin=True, timeout=ANSWER_SECONDS)
        except (OSError, websocket.WebSocketException) as error:
            raise Trouble("Chromium's page cannot be reached: %s" % error)

    def page_address(self):
        """The address of the page's DevTools socket, once there is one."""
        port, end = os.path.join(self.folder, "DevToolsActivePort"), time.monotonic() + START_SECONDS
        while time.monotonic() < end and self.process.poll() is None:
            if os.path.exists(port):
                with open(port) as file:
                    words = file.read().split()
                pages = self.pages(words[0]) if words else []
                if pages:
                    return pages[0]["webSocketDebuggerUrl"]
            time.sleep(0.05)
        raise Trouble("Chromium does not start: try chromium --headless --dump-dom about:blank")

    def pages(self, port):
        try:
            with urllib.request.urlopen("http://127.0.0.1:%s/json/list" % port, timeout=START_SECONDS) as answer:
                return [each for each in json.load(answer) if each["type"] == "page"]
        except OSError:
            return []

    def send(self, method, **params):
        self.last_id += 1
        self.socket.send(json.dumps({"id": self.last_id, "method": method, "params": params}))
        return self.last_id

    def receive(self, seconds):
        """The next message, after its event is handed on; None where none comes in that time."""
        self.socket.settimeout(max(seconds, 0.001))
        try:
            message = json.loads(self.socket.recv())
        except websocket.WebSocketTimeoutException:
            return None
        except (OSError, websocket.WebSocketException) as error:
            raise Trouble("Chromium went away: %s" % error)
        if "method" in message:
            self.heard(message["method"], message["params"])
        return message

    def answers(self, ids):
        """The answers to what was sent by these ids, by id; those that are errors are left out."""
        waiting, found, end = set(ids), {}, time.monotonic() + ANSWER_SECONDS
        while waiting:
            message = self.receive(end - time.monotonic())
            if message is None and time.monotonic() >= end:
                raise Trouble("the page does not answer within %d seconds" % ANSWER_SECONDS)
            if message and message.get("id") in waiting:
                waiting.discard(message["id"])
                if "result" in message:
                    found[message["id"]] = message["result"]
        return found

    def call(self, method, **params):
        """The answer to one command."""
        sent = self.send(method, **params)
        answer = self.answers([sent]).get(sent)
        if answer is None:
            raise Trouble("Chromium refuses %s" % method)
        return answer

    def listen(self, seconds):
        """Hears the events of a stretch of time."""
        end = time.monotonic() + seconds
        while time.monotonic() < end:
            self.receive(end - time.monotonic())

    def close(self):
        """Ends the browser, and takes its folder away."""
        if self.socket is not None:
            try:
                self.send("Browser.close")
                self.socket.close()
            except (OSError, websocket.WebSocketException):
                pass
        if self.process is not None:
            self.end_process()
        # A process of the browser may still write there for a moment.
        for _ in range(CLOSING_TRIES):
            shutil.rmtree(self.folder, ignore_errors=True)
            if not os.path.exists(self.folder):
                break
            time.sleep(0.1)

    def end_process(self):
        try:
            self.process.wait(CLOSING_SECONDS if self.socket is not None else 0)
        except subprocess.TimeoutExpired:
            self.process.kill()
            self.process.wait()
