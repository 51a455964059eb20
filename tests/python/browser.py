"""A headless Chromium, over the pipe of its debugging protocol: an object a message, ended by a
zero byte. Begin with `Browser`."""

import base64
import json
import os
import select
import shutil
import subprocess
import tempfile

PROGRAM = shutil.which("chromium")
WORDS = ["--headless=new", "--no-sandbox", "--disable-gpu", "--no-first-run", "--hide-scrollbars",
         "--disable-dev-shm-usage", "--remote-debugging-pipe"]
TAKES, GIVES = 3, 4  # the descriptors by which Chromium takes and gives messages
PATIENCE = 300  # seconds for an answer, on a machine that does much else
TAB = {"key": "Tab", "code": "Tab", "windowsVirtualKeyCode": 9}


class Browser:
    """A browser with one page, in a profile of its own."""

    def __init__(self):
        self.room = tempfile.TemporaryDirectory()
        reads, self.gives = os.pipe()
        self.takes, writes = os.pipe()
        # A shell puts the pipes to the descriptors, since Popen can't.
        script = f'exec "$@" {TAKES}<&{reads} {GIVES}>&{writes}'
        self.process = subprocess.Popen(
            ["bash", "-c", script, "bash", PROGRAM, *WORDS, f"--user-data-dir={self.room.name}"],
            stdin=subprocess.DEVNULL, stdout=subprocess.DEVNULL, stderr=subprocess.DEVNULL,
            pass_fds=(reads, writes))
        os.close(reads)
        os.close(writes)
        self.number, self.rest, self.session = 0, b"", None
        found = self.call("Target.createTarget", url="about:blank")
        self.session = self.call("Target.attachToTarget", targetId=found["targetId"],
                                 flatten=True)["sessionId"]
        self.call("Page.enable")

    def close(self):
        """Ends the browser."""
        self.process.kill()
        self.process.wait()
        os.close(self.gives)
        os.close(self.takes)
        shutil.rmtree(self.room.name, ignore_errors=True)

    def call(self, method, **given):
        """Returns the result of a call."""
        self.number += 1
        more = {"sessionId": self.session} if self.session else {}
        said = json.dumps({"id": self.number, "method": method, "params": given, **more})
        os.write(self.gives, said.encode() + b"\0")
        return self.wait(lambda it: it.get("id") == self.number)["result"]

    def wait(self, is_wanted):
        """Returns the next message that is wanted, and drops those before it."""
        while True:
            while b"\0" in self.rest:
                text, self.rest = self.rest.split(b"\0", 1)
                if is_wanted(said := json.loads(text)):
                    return said
            ready = select.select([self.takes], [], [], PATIENCE)[0]
            part = os.read(self.takes, 1 << 16) if ready else b""
            assert part, "chromium has ended, or doesn't answer"
            self.rest += part

    def show(self, path, width, height=900, is_dark=False):
        """Shows the page in a file, in a window of this size."""
        self.call("Emulation.setDeviceMetricsOverride", width=width, height=height,
                  deviceScaleFactor=1, mobile=False)
        kind = "dark" if is_dark else "light"
        self.call("Emulation.setEmulatedMedia", features=[
            {"name": "prefers-color-scheme", "value": kind}])
        self.call("Page.navigate", url=f"file://{path}")
        self.wait(lambda it: it.get("method") == "Page.loadEventFired")

    def value(self, script):
        """Returns the value of an expression in the page."""
        found = self.call("Runtime.evaluate", expression=script, returnByValue=True)
        assert "exceptionDetails" not in found, found
        return found["result"].get("value")

    def press_tab(self):
        """Presses the tabulator."""
        for kind in ("rawKeyDown", "keyUp"):
            self.call("Input.dispatchKeyEvent", type=kind, **TAB)

    def picture(self, is_whole=True):
        """Returns the page as a PNG: all of it, or the window alone."""
        found = self.call("Page.captureScreenshot", captureBeyondViewport=is_whole)
        return base64.b64decode(found["data"])
