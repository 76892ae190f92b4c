"""Drives headless Chromium over the pipe of its debugging protocol: opens a page, runs JavaScript in it, presses keys, and takes pictures.
Keeps what the page reports: errors, and requests to anything but the page itself."""
import base64
import json
import os
import select
import shutil
import subprocess
import tempfile
import time

NAMES = ("chromium", "chromium-browser", "google-chrome")
FLAGS = """--headless=new --no-sandbox --disable-gpu --disable-dev-shm-usage --no-first-run --disable-extensions --disable-background-networking
    --disable-component-update --disable-sync --hide-scrollbars --remote-debugging-pipe""".split()
MOST_SECONDS = 120


def installed():
    """The path of Chromium, or None."""
    return next(filter(None, map(shutil.which, NAMES)), None)


class Failed(Exception):
    """The page threw something, or the browser ended."""


class Browser:
    """A browser with one page."""

    def __init__(self, path):
        self.profile = tempfile.TemporaryDirectory(ignore_cleanup_errors=True)
        to_read, self.out = os.pipe()
        self.read_from, to_write = os.pipe()
        # Chromium reads commands from descriptor 3, and writes to 4.
        words = ["sh", "-c", f'exec "$@" 3<&{to_read} 4>&{to_write}', "sh", path, *FLAGS, f"--user-data-dir={self.profile.name}", "about:blank"]
        self.process = subprocess.Popen(words, pass_fds=(to_read, to_write), stdin=subprocess.DEVNULL, stdout=subprocess.DEVNULL, stderr=subprocess.DEVNULL)
        os.close(to_read)
        os.close(to_write)
        self.waiting, self.number, self.reported, self.session = b"", 0, [], None
        target = self.send("Target.createTarget", url="about:blank")["targetId"]
        self.session = self.send("Target.attachToTarget", targetId=target, flatten=True)["sessionId"]
        for domain in ("Page", "Runtime", "Log", "Network"):
            self.send(f"{domain}.enable")

    def __enter__(self):
        return self

    def __exit__(self, *_):
        try:
            self.session = None
            self.send("Browser.close")
        except (Failed, OSError):
            pass
        self.process.wait(30)
        self.profile.cleanup()

    def receive(self, end):
        """The next message."""
        while b"\0" not in self.waiting:
            if not select.select([self.read_from], [], [], max(0, end - time.monotonic()))[0]:
                raise Failed("the browser doesn't answer")
            piece = os.read(self.read_from, 1 << 20)
            if not piece:
                raise Failed("the browser ended")
            self.waiting += piece
        message, _, self.waiting = self.waiting.partition(b"\0")
        return json.loads(message)

    def note(self, message):
        """Keeps what an event reports."""
        words = message.get("params", {})
        match message.get("method"):
            case "Runtime.exceptionThrown":
                details = words["exceptionDetails"]
                self.reported.append(details.get("exception", {}).get("description", details["text"]))
            case "Runtime.consoleAPICalled" if words["type"] in ("error", "warning", "assert"):
                self.reported.append(" ".join(str(it.get("value", it.get("description"))) for it in words["args"]))
            case "Log.entryAdded" if words["entry"]["level"] in ("error", "warning"):
                self.reported.append(words["entry"]["text"])
            case "Network.requestWillBeSent" if not words["request"]["url"].startswith(("file:", "data:", "blob:", "about:")):
                self.reported.append(f"request to {words['request']['url']}")

    def send(self, method, seconds=MOST_SECONDS, **words):
        """Carries out a command, and returns its result."""
        self.number += 1
        message = {"id": self.number, "method": method, "params": words} | ({"sessionId": self.session} if self.session else {})
        data = json.dumps(message).encode() + b"\0"
        while data:
            data = data[os.write(self.out, data):]
        end = time.monotonic() + seconds
        while True:
            message = self.receive(end)
            self.note(message)
            if message.get("id") == self.number:
                if "error" in message:
                    raise Failed(f"{method}: {message['error']['message']}")
                return message["result"]

    def open(self, url, ready):
        """Opens a page, and waits until an expression is true."""
        self.send("Page.navigate", url=url)
        end = time.monotonic() + MOST_SECONDS
        while not self.run(f"Boolean({ready})"):
            if time.monotonic() > end:
                raise Failed(f"the page doesn't begin: {self.reported}")
            time.sleep(0.05)

    def run(self, expression, seconds=MOST_SECONDS):
        """The value of an expression, which may be a promise."""
        result = self.send("Runtime.evaluate", seconds, expression=expression, awaitPromise=True, returnByValue=True)
        if "exceptionDetails" in result:
            details = result["exceptionDetails"]
            raise Failed(details.get("exception", {}).get("description", details["text"]))
        return result["result"].get("value")

    def call(self, function, *words):
        """The result of a function on these values."""
        return self.run(f"({function})(...{json.dumps(words)})")

    def press(self, key):
        """Presses a key."""
        codes = {"ArrowDown": 40, "ArrowUp": 38, "End": 35, "Home": 36, "Tab": 9, "Enter": 13}
        text = {"text": "\r"} if key == "Enter" else {}
        for kind in ("keyDown", "keyUp"):
            self.send("Input.dispatchKeyEvent", type=kind, key=key, code=key, windowsVirtualKeyCode=codes[key], **(text if kind == "keyDown" else {}))

    def show(self, width, height, dark=False):
        """Gives the window this size, and a light or a dark theme."""
        self.send("Emulation.setDeviceMetricsOverride", width=width, height=height, deviceScaleFactor=1, mobile=width < 600)
        self.send("Emulation.setEmulatedMedia", features=[{"name": "prefers-color-scheme", "value": "dark" if dark else "light"}])

    def picture(self, file, whole=True):
        """Takes a picture of the whole page, or of the window."""
        data = self.send("Page.captureScreenshot", format="png", captureBeyondViewport=whole)["data"]
        file.write_bytes(base64.b64decode(data))
