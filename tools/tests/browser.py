"""A page in a headless Chromium, which is driven over the pipe of the DevTools protocol."""
import base64
import json
import os
import select
import shutil
import subprocess
import tempfile
import time

SECONDS = 60
PROGRAM = next(filter(None, map(shutil.which, ("chromium", "chromium-browser", "google-chrome"))), None)
OPTIONS = ["--headless", "--no-sandbox", "--disable-gpu", "--disable-dev-shm-usage", "--no-first-run", "--disable-background-networking",
           "--remote-debugging-pipe", "about:blank"]


class Browser:
    """A browser with one page, of which it keeps the errors. Its window has the given size."""

    def __init__(self, width=1400, height=900):
        self.folder = tempfile.TemporaryDirectory(ignore_cleanup_errors=True)
        (to_read, self.to_write), (self.from_read, to_answer) = os.pipe(), os.pipe()
        words = [PROGRAM, f"--user-data-dir={self.folder.name}", f"--window-size={width},{height}", *OPTIONS]
        # The browser reads commands from descriptor 3 and writes answers to descriptor 4.
        shell = ["/bin/sh", "-c", f'exec 3<&{to_read} 4>&{to_answer}; exec "$@"', "sh", *words]
        self.process = subprocess.Popen(shell, pass_fds=(to_read, to_answer), stdin=subprocess.DEVNULL, stdout=subprocess.DEVNULL,
                                        stderr=subprocess.DEVNULL)
        os.close(to_read)
        os.close(to_answer)
        self.number, self.received, self.session, self.errors = 0, b"", None, []
        target = next(it for it in self.call("Target.getTargets")["targetInfos"] if it["type"] == "page")
        self.session = self.call("Target.attachToTarget", targetId=target["targetId"], flatten=True)["sessionId"]
        for name in ("Page", "Runtime", "Log"):
            self.call(f"{name}.enable")
        self.call("Emulation.setDeviceMetricsOverride", width=width, height=height, deviceScaleFactor=1, mobile=False)

    def message(self):
        """The next message of the browser."""
        ends = time.monotonic() + SECONDS
        while b"\0" not in self.received:
            if not select.select([self.from_read], [], [], max(ends - time.monotonic(), 0))[0]:
                raise AssertionError("the browser does not answer")
            piece = os.read(self.from_read, 1 << 20)
            if not piece:
                raise AssertionError("the browser has ended")
            self.received += piece
        text, _, self.received = self.received.partition(b"\0")
        found = json.loads(text)
        if found.get("method") == "Runtime.exceptionThrown":
            self.errors.append(found["params"]["exceptionDetails"].get("exception", {}).get("description", "exception"))
        if found.get("method") == "Runtime.consoleAPICalled" and found["params"]["type"] in ("error", "warning", "assert"):
            self.errors.append(str(found["params"]["args"]))
        if found.get("method") == "Log.entryAdded":
            self.errors.append(found["params"]["entry"]["text"])
        return found

    def call(self, method, **parameters):
        self.number += 1
        command = {"id": self.number, "method": method, "params": parameters}
        if self.session:
            command["sessionId"] = self.session
        os.write(self.to_write, json.dumps(command).encode() + b"\0")
        while True:
            found = self.message()
            if found.get("id") == self.number:
                if "error" in found:
                    raise AssertionError(f"{method}: {found['error']}")
                return found["result"]

    def open(self, url):
        """Opens a page and waits until its script has run; the seconds that it took."""
        # From one part of a page to another, a browser would not load it again.
        self.call("Page.navigate", url="about:blank")
        started = time.monotonic()
        self.call("Page.navigate", url=url)
        name = json.dumps(url.partition("#")[0])
        while not self.value(f"location.href.split('#')[0] === {name} && document.body && document.body.dataset.ready === 'yes'"):
            if time.monotonic() - started > SECONDS:
                raise AssertionError("the page is not ready")
            time.sleep(0.02)
        return time.monotonic() - started

    def value(self, text):
        """The value of an expression in the page."""
        found = self.call("Runtime.evaluate", expression=text, returnByValue=True)
        if "exceptionDetails" in found:
            raise AssertionError(f"{text}: {found['exceptionDetails']}")
        return found["result"].get("value")

    def click(self, text):
        """Clicks in the middle of the element that an expression finds."""
        box = self.value(f"(() => {{ const b = ({text}).getBoundingClientRect(); return [b.x + b.width / 2, b.y + b.height / 2]; }})()")
        for kind in ("mousePressed", "mouseReleased"):
            self.call("Input.dispatchMouseEvent", type=kind, x=box[0], y=box[1], button="left", clickCount=1)

    def drag(self, start, end):
        for kind, place in (("mousePressed", start), ("mouseMoved", end), ("mouseReleased", end)):
            self.call("Input.dispatchMouseEvent", type=kind, x=place[0], y=place[1], button="left", buttons=1, clickCount=1)

    def wheel(self, place, by):
        self.call("Input.dispatchMouseEvent", type="mouseWheel", x=place[0], y=place[1], deltaX=0, deltaY=by)

    def key(self, key):
        """Presses a key by its name, such as `ArrowRight` or `/`."""
        text = {"text": key} if len(key) == 1 else {"text": "\r"} if key == "Enter" else {}
        self.call("Input.dispatchKeyEvent", type="keyDown", key=key, **text)
        self.call("Input.dispatchKeyEvent", type="keyUp", key=key)

    def type(self, text):
        self.call("Input.insertText", text=text)

    def picture(self, name):
        """Writes a PNG of the window."""
        with open(name, "wb") as file:
            file.write(base64.b64decode(self.call("Page.captureScreenshot")["data"]))

    def close(self):
        os.close(self.to_write)
        try:
            self.process.wait(10)
        except subprocess.TimeoutExpired:
            self.process.kill()
            self.process.wait()
        os.close(self.from_read)
        self.folder.cleanup()
