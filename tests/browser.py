"""A page in a real browser: Chromium without a window, spoken to over two pipes, as its own protocol wants it."""

import base64
import fcntl
import json
import os
import select
import shutil
import subprocess
import tempfile
import time

NAMES = ("chromium-headless-shell", "chromium", "chromium-browser", "google-chrome")
WORDS = ["--headless", "--no-sandbox", "--disable-gpu", "--disable-dev-shm-usage", "--hide-scrollbars", "--no-first-run", "--remote-debugging-pipe"]
MOST_SECONDS = 60


def find_browser():
    """The browser of this machine, or None."""
    return next((path for name in NAMES if (path := shutil.which(name))), None)


class BrowserFault(Exception):
    """The browser doesn't do what it is asked."""


class Browser:
    """One tab of a browser that has the network's door shut: no host but the machine's files is reached."""

    def __init__(self, program, width, height):
        self.room = tempfile.TemporaryDirectory(ignore_cleanup_errors=True)
        theirs, self.to = os.pipe()
        self.of, answers = os.pipe()
        ends = [fcntl.fcntl(end, fcntl.F_DUPFD, 10) for end in (theirs, answers)]
        words = [program, *WORDS, f"--window-size={width},{height}", f"--user-data-dir={self.room.name}", "--host-resolver-rules=MAP * ~NOTFOUND", "about:blank"]

        def join_ends():
            os.dup2(ends[0], 3)
            os.dup2(ends[1], 4)

        self.child = subprocess.Popen(words, preexec_fn=join_ends, pass_fds=(3, 4), stdin=subprocess.DEVNULL, stdout=subprocess.DEVNULL, stderr=subprocess.DEVNULL)
        for end in (theirs, answers, *ends):
            os.close(end)
        self.left, self.number, self.session = b"", 0, None
        self.events = []
        target = self.ask("Target.createTarget", url="about:blank", width=width, height=height)["targetId"]
        self.session = self.ask("Target.attachToTarget", targetId=target, flatten=True)["sessionId"]
        for part in ("Page", "Runtime", "Network"):
            self.ask(part + ".enable")

    def __enter__(self):
        return self

    def __exit__(self, *_):
        os.close(self.to)
        try:
            self.child.wait(10)
        except subprocess.TimeoutExpired:
            self.child.kill()
            self.child.wait()
        os.close(self.of)
        self.room.cleanup()

    def read(self):
        """The next message. The browser ends each with a zero byte."""
        while b"\0" not in self.left:
            if not select.select([self.of], [], [], MOST_SECONDS)[0]:
                raise BrowserFault(f"the browser has said nothing for {MOST_SECONDS} seconds")
            got = os.read(self.of, 1 << 20)
            if not got:
                raise BrowserFault("the browser has ended")
            self.left += got
        message, self.left = self.left.split(b"\0", 1)
        return json.loads(message)

    def ask(self, method, **values):
        """What the browser answers; events that come before are kept."""
        self.number += 1
        message = {"id": self.number, "method": method, "params": values}
        if self.session:
            message["sessionId"] = self.session
        os.write(self.to, json.dumps(message).encode() + b"\0")
        while (answer := self.read()).get("id") != self.number:
            self.events.append(answer)
        if "error" in answer:
            raise BrowserFault(f"{method}: {answer['error']['message']}")
        return answer["result"]

    def value(self, expression):
        """The value of an expression on the page."""
        answer = self.ask("Runtime.evaluate", expression=expression, returnByValue=True, awaitPromise=True)
        if "exceptionDetails" in answer:
            raise BrowserFault(f"{expression}: {answer['exceptionDetails']['exception'].get('description')}")
        return answer["result"].get("value")

    def open(self, path, ready):
        """Opens a file, and the seconds until the expression is true there."""
        began = time.monotonic()
        self.ask("Page.navigate", url=path.resolve().as_uri())
        while not self.value(f"document.readyState === 'complete' && Boolean({ready})"):
            if time.monotonic() > began + MOST_SECONDS:
                raise BrowserFault(f"{path.name} isn't ready after {MOST_SECONDS} seconds: {ready}")
            time.sleep(0.01)
        return time.monotonic() - began

    def point_at(self, x, y):
        """Moves the pointer there."""
        self.ask("Input.dispatchMouseEvent", type="mouseMoved", x=x, y=y)

    def faults(self):
        """What the page's script stumbled over, and what it tried to fetch besides itself."""
        faults = [event["params"]["exceptionDetails"]["text"] for event in self.events if event.get("method") == "Runtime.exceptionThrown"]
        asked = [event["params"]["request"]["url"] for event in self.events if event.get("method") == "Network.requestWillBeSent"]
        return faults + [f"fetched {url[:80]}" for url in asked if not url.startswith(("file:", "data:", "blob:", "about:"))]

    def picture(self, clip=None):
        """The window as a PNG, or the part of the page."""
        more = {"clip": clip, "captureBeyondViewport": True} if clip else {}
        return base64.b64decode(self.ask("Page.captureScreenshot", format="png", **more)["data"])
