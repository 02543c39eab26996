"""A browser without a window, asked by its own debugging protocol over two pipes.

This is what Chromium's argument --remote-debugging-pipe is for.
"""
import base64
import fcntl
import json
import os
import pathlib
import select
import shutil
import subprocess
import tempfile
import time

NAMES = ("chromium", "chromium-browser", "google-chrome")
# comes to its end when two more pictures of the page were made
DRAWN = "new Promise(done => requestAnimationFrame(() => requestAnimationFrame(done)))"


def found():
    """The name of a browser that is installed, if one is."""
    return next((name for name in NAMES if shutil.which(name)), None)


def thrown_in(answer):
    """How the page's script describes what it threw."""
    return answer["exceptionDetails"].get("exception", {}).get("description")


class NoAnswer(RuntimeError):
    """The browser cannot answer."""


class Browser:
    """One browser with one page."""

    def __init__(self):
        self.folder = tempfile.mkdtemp()
        to_browser, self.to = os.pipe()
        self.back, from_browser = os.pipe()

        def connect():
            # (whatever numbers the pipes have)
            ends = [fcntl.fcntl(end, fcntl.F_DUPFD, 10) for end in (to_browser, from_browser)]
            os.dup2(ends[0], 3)
            os.dup2(ends[1], 4)

        self.process = subprocess.Popen(
            [found(), "--headless=new", "--no-sandbox", "--disable-gpu", "--no-first-run",
             "--remote-debugging-pipe", "--disable-dev-shm-usage",
             f"--user-data-dir={self.folder}", "about:blank"],
            pass_fds=(3, 4), preexec_fn=connect, stdout=subprocess.DEVNULL,
                                        stderr=subprocess.DEVNULL)
        os.close(to_browser)
        os.close(from_browser)
        self.number, self.held, self.session, self.events = 0, b"", None, []
        target = self.ask("Target.createTarget", url="about:blank")["targetId"]
        self.session = self.ask("Target.attachToTarget", targetId=target, flatten=True)["sessionId"]
        for domain in ("Page", "Runtime", "Network", "Log"):
            self.ask(f"{domain}.enable")

    def close(self):
        self.process.kill()
        self.process.wait()
        shutil.rmtree(self.folder, ignore_errors=True)

    def read(self, seconds):
        """The next message, an answer or an event."""
        end = time.monotonic() + seconds
        while b"\0" not in self.held:
            if not select.select([self.back], [], [], max(0, end - time.monotonic()))[0]:
                raise TimeoutError("the browser does not answer")
            piece = os.read(self.back, 1 << 20)
            if not piece:
                raise EOFError("the browser has ended")
            self.held += piece
        message, _, self.held = self.held.partition(b"\0")
        return json.loads(message)

    def ask(self, method, **words):
        return self.ask_by(self.session, method, words)

    def processor_seconds(self):
        """How much processor time all processes of the browser have taken."""
        return sum(it["cpuTime"] for it in self.ask_by(None, "SystemInfo.getProcessInfo",
                                                       {})["processInfo"])

    def ask_by(self, session, method, words):
        self.number += 1
        message = {"id": self.number, "method": method, "params": words}
        if session:
            message["sessionId"] = session
        rest = json.dumps(message).encode() + b"\0"
        while rest:
            rest = rest[os.write(self.to, rest):]
        while True:
            answer = self.read(120)
            if answer.get("id") == self.number:
                if "error" in answer:
                    raise NoAnswer(f"{method}: {answer['error']['message']}")
                return answer["result"]
            self.events.append(answer)
            if answer.get("method") == "Page.javascriptDialogOpening":
                raise RuntimeError("a page opened a dialog")

    def js(self, text):
        """The value of an expression in the page."""
        answer = self.ask("Runtime.evaluate", expression=text, returnByValue=True,
                          awaitPromise=True)
        if "exceptionDetails" in answer:
            raise RuntimeError(f"{text}: {thrown_in(answer)}")
        return answer["result"].get("value")

    def comes_to(self, text, wanted):
        """Whether an expression has this value, if not at once then within a minute."""
        end = time.monotonic() + 60
        while self.js(text) != wanted:
            if time.monotonic() > end:
                return False
            time.sleep(0.02)
        return True

    def size(self, width, height=900, dark=False):
        self.ask("Emulation.setDeviceMetricsOverride", width=width, height=height,
                 deviceScaleFactor=1, mobile=False)
        self.ask("Emulation.setEmulatedMedia",
                 features=[{"name": "prefers-color-scheme", "value": "dark" if dark else "light"}])

    def open(self, path, behind=""):
        """Opens a file, and waits until its script has drawn it; answers how long this took."""
        begun = time.monotonic()
        self.go(pathlib.Path(path).resolve().as_uri() + behind)
        return time.monotonic() - begun

    def go(self, address):
        """Goes to an address, and waits until its page is drawn."""
        self.events = []
        self.ask("Page.navigate", url="about:blank")
        self.ask("Page.navigate", url=address)
        self.wait_until_ready()

    def is_ready(self):
        try:
            return self.js("document.body && document.body.dataset.ready === 'yes' || null")
        except NoAnswer:
            # (between two pages there is none)
            return False

    def wait_until_ready(self):
        end = time.monotonic() + 120
        while not self.is_ready():
            if time.monotonic() > end:
                raise TimeoutError("the page is not drawn")
            time.sleep(0.02)
        self.js(DRAWN)

    def faults(self):
        """What the page's script threw, what the browser refused, and what it asked a net for."""
        for event in self.events:
            method, words = event.get("method"), event.get("params", {})
            if method == "Runtime.exceptionThrown":
                yield thrown_in(words) or "an exception"
            elif method == "Log.entryAdded" and words["entry"]["level"] == "error":
                yield words["entry"]["text"]
            elif method == "Network.requestWillBeSent":
                url = words["request"]["url"]
                if not url.startswith(("file:", "about:", "data:")):
                    yield "asked for " + url

    def key(self, key, text=None):
        code = {"ArrowLeft": 37, "ArrowUp": 38, "ArrowRight": 39, "ArrowDown": 40, "Enter": 13,
                "End": 35, "Home": 36}.get(key, 0)
        words = {"key": key, "windowsVirtualKeyCode": code}
        if text:
            words["text"] = text
        self.ask("Input.dispatchKeyEvent", type="keyDown", **words)
        self.ask("Input.dispatchKeyEvent", type="keyUp", **words)

    def click(self, selector):
        x, y = self.js(f"(() => {{ const e = document.querySelector({json.dumps(selector)});"
                       " e.scrollIntoView({ block: 'nearest' });"
                       " const r = e.getClientRects()[0];"
                       " return [r.x + r.width / 2, r.y + r.height / 2]; })()")
        # (a page that scrolled draws its rows anew, but not between press and release)
        self.js(DRAWN)
        for kind in ("mousePressed", "mouseReleased"):
            self.ask("Input.dispatchMouseEvent", type=kind, x=x, y=y, button="left", clickCount=1)

    def picture(self, path):
        data = self.ask("Page.captureScreenshot", format="png")["data"]
        pathlib.Path(path).write_bytes(base64.b64decode(data))
