"""Headless Chromium for tests, spoken to over a pipe (the DevTools protocol), with the standard library alone."""
import base64
import json
import os
import select
import shutil
import signal
import subprocess
import tempfile
import time

PATIENCE = 60  # seconds for one answer; far more than any takes, so that only a browser that hangs fails
KEYS = {"ArrowUp": 38, "ArrowDown": 40, "ArrowLeft": 37, "ArrowRight": 39, "Tab": 9, "Enter": 13, "Home": 36, "End": 35, "PageUp": 33, "PageDown": 34}


def program():
    """Where Chromium is, or None."""
    return next(filter(None, map(shutil.which, ("chromium", "chromium-browser", "google-chrome"))), None)


class Gone(Exception):
    """The browser ended or does not answer."""


class Browser:
    def __init__(self, width=1320, height=1000):
        self.folder = tempfile.mkdtemp(prefix="cuhnavel-browser-")
        to_read, self.write_end = os.pipe()
        self.read_end, to_write = os.pipe()
        self.process = subprocess.Popen(
            [program(), "--headless", "--no-sandbox", "--disable-gpu", "--disable-dev-shm-usage", "--hide-scrollbars", "--no-first-run",
             "--disable-background-networking", "--disable-component-update", "--remote-debugging-pipe", f"--user-data-dir={self.folder}",
             f"--window-size={width},{height}", "about:blank"],
            stdin=subprocess.DEVNULL, stdout=subprocess.DEVNULL, stderr=subprocess.DEVNULL, close_fds=False, start_new_session=True,
            preexec_fn=lambda: as_3_and_4(to_read, to_write))
        os.close(to_read)
        os.close(to_write)
        self.buffer, self.asked, self.events, self.session = b"", 0, [], None
        try:
            self.attach(width, height)
        except BaseException:
            self.close()
            raise

    def attach(self, width, height):
        pages = []
        while not pages:
            pages = [t for t in self.call("Target.getTargets")["targetInfos"] if t["type"] == "page"]
        self.session = self.call("Target.attachToTarget", targetId=pages[0]["targetId"], flatten=True)["sessionId"]
        for domain in ("Page", "Runtime", "Log", "Network"):
            self.call(domain + ".enable")
        self.size(width, height)

    def size(self, width, height):
        self.call("Emulation.setDeviceMetricsOverride", width=width, height=height, deviceScaleFactor=1, mobile=False)

    def message(self):
        limit = time.monotonic() + PATIENCE
        while b"\0" not in self.buffer:
            ready, _, _ = select.select([self.read_end], [], [], max(0, limit - time.monotonic()))
            chunk = os.read(self.read_end, 1 << 20) if ready else b""
            if not chunk:
                raise Gone("the browser ended" if ready else f"the browser did not answer for {PATIENCE} seconds")
            self.buffer += chunk
        one, self.buffer = self.buffer.split(b"\0", 1)
        return json.loads(one)

    def call(self, method, **parameters):
        self.asked += 1
        message = {"id": self.asked, "method": method, "params": parameters}
        if self.session:
            message["sessionId"] = self.session
        data = json.dumps(message).encode() + b"\0"
        while data:
            data = data[os.write(self.write_end, data):]
        while True:
            got = self.message()
            if got.get("id") == self.asked:
                if "error" in got:
                    raise Gone(f"{method}: {got['error']}")
                return got["result"]
            self.events.append(got)

    def open(self, address):
        """Goes to the address, and waits until it is loaded."""
        self.events.clear()
        self.call("Page.navigate", url=address)
        while not any(e.get("method") == "Page.loadEventFired" for e in self.events):
            self.events.append(self.message())

    def js(self, text):
        """The value of an expression in the page; a promise is waited for."""
        answer = self.call("Runtime.evaluate", expression=text, returnByValue=True, awaitPromise=True)
        if "exceptionDetails" in answer:
            raise Gone(f"{text[:200]}: {answer['exceptionDetails'].get('exception', answer['exceptionDetails'])}")
        return answer["result"].get("value")

    def until(self, text, wanted):
        """Waits until the expression has this value, and gives the last one."""
        limit = time.monotonic() + 15
        while (got := self.js(text)) != wanted and time.monotonic() < limit:
            time.sleep(0.05)
        return got

    def faults(self):
        """What went wrong in scripts, or was refused, since the page was opened."""
        self.js("0")  # so that what was sent before has come
        thrown = [e["params"]["exceptionDetails"] for e in self.events if e.get("method") == "Runtime.exceptionThrown"]
        logged = [e["params"]["entry"] for e in self.events if e.get("method") == "Log.entryAdded"]
        said = [e["params"] for e in self.events if e.get("method") == "Runtime.consoleAPICalled" and e["params"]["type"] in ("error", "assert")]
        return [str(x)[:300] for x in thrown + [entry for entry in logged if entry["level"] == "error"] + said]

    def requests(self):
        return [e["params"]["request"]["url"][:200] for e in self.events if e.get("method") == "Network.requestWillBeSent"]

    def pdf(self):
        """The page as it is printed, as the bytes of a PDF."""
        return base64.b64decode(self.call("Page.printToPDF", preferCSSPageSize=True, printBackground=False)["data"])

    def shot(self):
        return base64.b64decode(self.call("Page.captureScreenshot", format="png")["data"])

    def key(self, key):
        for kind in ("rawKeyDown", "keyUp"):
            self.call("Input.dispatchKeyEvent", type=kind, key=key, code=key, windowsVirtualKeyCode=KEYS[key])

    def click(self, x, y):
        for kind in ("mousePressed", "mouseReleased"):
            self.call("Input.dispatchMouseEvent", type=kind, x=x, y=y, button="left", clickCount=1)

    def close(self):
        """Ends the browser with all that it started, and takes its folder away."""
        try:
            self.session = None
            self.call("Browser.close")
            self.process.wait(timeout=10)
        except (Gone, OSError, subprocess.TimeoutExpired):
            pass
        try:
            os.killpg(self.process.pid, signal.SIGKILL)
        except ProcessLookupError:
            pass
        self.process.wait()
        os.close(self.write_end)
        os.close(self.read_end)
        shutil.rmtree(self.folder, ignore_errors=True)


def as_3_and_4(to_read, to_write):
    """In the child: the pipe's ends as the numbers that Chromium expects."""
    first, second = os.dup2(to_read, 100), os.dup2(to_write, 101)
    os.dup2(first, 3)
    os.dup2(second, 4)
