"""Headless Chromium, steered through the pipes of its debugging protocol, and servers of files that set no headers of their own."""
import base64
import fcntl
import functools
import http.server
import json
import os
import select
import shutil
import subprocess
import threading
import time

NAMES = ("chromium", "chromium-browser", "google-chrome", "google-chrome-stable")
MISSING = "chromium (Debian: apt-get install chromium)"
PATIENCE = 120


def found():
    """The program of a browser of this kind, or None."""
    return next((name for name in NAMES if shutil.which(name)), None)


class Silent(http.server.SimpleHTTPRequestHandler):
    """Files, and no headers beyond their types."""

    def log_message(self, *_):
        pass


class PlainTypes(Silent):
    """A server that does not know what .mjs is."""

    def guess_type(self, path):
        return "application/octet-stream" if path.endswith(".mjs") else super().guess_type(path)


SERVERS = {}


def served(folder, kind):
    """Serves a folder, and answers its address."""
    server = http.server.ThreadingHTTPServer(("127.0.0.1", 0), functools.partial(kind, directory=folder))
    threading.Thread(target=server.serve_forever, daemon=True).start()
    address = f"http://127.0.0.1:{server.server_port}"
    SERVERS[address] = server
    return address


def serve_no_more(address):
    """Ends a server, so that nothing answers at its address."""
    SERVERS[address].shutdown()
    SERVERS.pop(address).server_close()


class Browser:
    """Chromium, with a page that is steered through pipes."""

    def __init__(self, program, room, *flags):
        to_browser, self.commands = os.pipe()
        self.answers, from_browser = os.pipe()
        high = [fcntl.fcntl(end, fcntl.F_DUPFD, 20) for end in (to_browser, from_browser)]
        root = ["--no-sandbox"] if os.geteuid() == 0 else []
        self.process = subprocess.Popen(
            [program, "--headless=new", "--remote-debugging-pipe", f"--user-data-dir={room}/profile", "--disable-gpu", "--no-first-run", *flags, *root],
            stdin=subprocess.DEVNULL, stdout=subprocess.DEVNULL, stderr=subprocess.DEVNULL, pass_fds=(3, 4),
            preexec_fn=lambda: [os.dup2(end, number) for end, number in zip(high, (3, 4))],
        )
        for end in (to_browser, from_browser, *high):
            os.close(end)
        self.count, self.buffer, self.session, self.workers = 0, bytearray(), None, 0
        target = self.call("Target.createTarget", url="about:blank")["targetId"]
        self.session = self.call("Target.attachToTarget", targetId=target, flatten=True)["sessionId"]
        self.workers = 0
        self.call("Page.enable")
        self.call("Target.setAutoAttach", autoAttach=True, waitForDebuggerOnStart=False, flatten=True)
        self.call("Emulation.setDeviceMetricsOverride", width=1000, height=700, deviceScaleFactor=1, mobile=False)

    def message(self, deadline):
        while True:
            end = self.buffer.find(b"\0")
            if end >= 0:
                message = json.loads(self.buffer[:end])
                del self.buffer[: end + 1]
                self.workers += {"Target.attachedToTarget": 1, "Target.detachedFromTarget": -1}.get(message.get("method"), 0)
                return message
            if not select.select([self.answers], [], [], max(deadline - time.monotonic(), 0))[0]:
                raise TimeoutError("the browser does not answer")
            came = os.read(self.answers, 1 << 20)
            if not came:
                raise EOFError("the browser has gone")
            self.buffer += came

    def call(self, method, **params):
        self.count += 1
        asked = {"id": self.count, "method": method, "params": params}
        if self.session:
            asked["sessionId"] = self.session
        os.write(self.commands, json.dumps(asked).encode() + b"\0")
        deadline = time.monotonic() + PATIENCE
        while (message := self.message(deadline)).get("id") != self.count:
            pass
        if "error" in message:
            raise ValueError(f"{method}: {message['error']}")
        return message["result"]

    def value(self, text):
        answer = self.call("Runtime.evaluate", expression=text, returnByValue=True, awaitPromise=True)
        if "exceptionDetails" in answer:
            raise ValueError(f"{text}: {answer['exceptionDetails']}")
        return answer["result"].get("value")

    def go(self, address):
        self.call("Page.navigate", url=address)
        self.until("document.readyState === 'complete' && location.href === " + json.dumps(address))

    def until(self, text, patience=PATIENCE):
        """Whether this comes true in time."""
        deadline = time.monotonic() + patience
        while not (is_true := self.value(text)) and time.monotonic() < deadline:
            time.sleep(0.02)
        return bool(is_true)

    def click(self, id):
        """A click of the mouse, as a reader makes it."""
        at = self.value(f"document.getElementById('{id}').getBoundingClientRect().toJSON()")
        for kind in ("mousePressed", "mouseReleased"):
            self.call("Input.dispatchMouseEvent", type=kind, x=at["x"] + 5, y=at["y"] + 5, button="left", clickCount=1)

    def give_files(self, id, paths):
        """Chooses files or a folder."""
        root = self.call("DOM.getDocument")["root"]["nodeId"]
        node = self.call("DOM.querySelector", nodeId=root, selector=f"#{id}")["nodeId"]
        self.call("DOM.setFileInputFiles", nodeId=node, files=paths)

    def picture(self, path):
        with open(path, "wb") as file:
            file.write(base64.b64decode(self.call("Page.captureScreenshot", format="png")["data"]))

    def close(self):
        self.process.terminate()
        self.process.wait(PATIENCE)
