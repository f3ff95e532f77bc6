"""Opens pages in a headless Chromium, for the checks of tools/page: it clicks, presses keys, and tells what a page has.

The browser is driven over two pipes, by which it takes commands and gives answers as JSON. All must be over by a time,
and the browser and all that it started are killed at the end.
"""
import contextlib
import json
import os
import select
import shutil
import subprocess
import tempfile
import time

import program

NAMES = ("chromium", "chromium-browser", "google-chrome")
WORDS = ("--headless", "--remote-debugging-pipe", "--no-sandbox", "--disable-gpu", "--no-first-run",
         "--disable-background-networking", "--disable-component-update", "--disable-dev-shm-usage")
END = b"\0"  # what ends a message


class Fault(Exception):
    """Why the browser gives no answer, in one line."""


def path():
    """The path of a browser; None if there is none."""
    return next(filter(None, map(shutil.which, NAMES)), None)


class Browser:
    """A browser with one page, and what the page complained of."""

    def __init__(self, reads, writes, until):
        self.reads, self.writes, self.until = reads, writes, until
        self.left, self.number, self.session, self.complaints = b"", 0, None, []

    def call(self, method, **given):
        """Has a command carried out; its answer."""
        self.number += 1
        message = {"id": self.number, "method": method, "params": given}
        if self.session:
            message["sessionId"] = self.session
        os.write(self.writes, json.dumps(message).encode() + END)
        while True:
            said = self.message()
            if said.get("id") == self.number:
                if "error" in said:
                    raise Fault(f"{method}: {said['error'].get('message')}")
                return said["result"]

    def message(self):
        """The next message; what the page complains of is kept."""
        while END not in self.left:
            if not select.select([self.reads], [], [], max(0, self.until - time.monotonic()))[0]:
                raise Fault("the browser gives no answer")
            part = os.read(self.reads, 1 << 20)
            if not part:
                raise Fault("the browser ended")
            self.left += part
        text, _, self.left = self.left.partition(END)
        said = json.loads(text)
        given = said.get("params", {})
        if said.get("method") == "Runtime.exceptionThrown":
            details = given["exceptionDetails"]
            self.complaints.append(details.get("exception", {}).get("description") or details["text"])
        elif said.get("method") == "Log.entryAdded" and given["entry"]["level"] in ("error", "warning"):
            self.complaints.append(given["entry"]["text"])
        elif said.get("method") == "Runtime.consoleAPICalled" and given["type"] in ("error", "warning", "assert"):
            self.complaints.append(str(given["args"]))
        return said

    def begin(self, width, height):
        """Begins a page of this size."""
        target = self.call("Target.createTarget", url="about:blank")["targetId"]
        self.session = self.call("Target.attachToTarget", targetId=target, flatten=True)["sessionId"]
        for part in ("Runtime", "Log", "Page"):
            self.call(part + ".enable")
        self.call("Emulation.setDeviceMetricsOverride", width=width, height=height, deviceScaleFactor=1, mobile=False)

    def open(self, file):
        """Opens a file in the page, and waits until it is there."""
        self.call("Page.navigate", url="file://" + os.path.abspath(file))
        while self.value("document.readyState") != "complete":
            time.sleep(0.02)

    def value(self, words):
        """The value of an expression in the page."""
        found = self.call("Runtime.evaluate", expression=words, returnByValue=True, awaitPromise=True)
        if "exceptionDetails" in found:
            raise Fault(f"{words}: {found['exceptionDetails'].get('exception', {}).get('description')}")
        return found["result"].get("value")

    def press(self, key):
        """Presses a key and lets it go."""
        text = {"text": " "} if key == " " else {}
        self.call("Input.dispatchKeyEvent", type="keyDown", key=key, **text)
        self.call("Input.dispatchKeyEvent", type="keyUp", key=key)

    def click(self, x, y):
        """Clicks at a place of the window."""
        self.call("Input.dispatchMouseEvent", type="mouseMoved", x=x, y=y)
        for what in ("mousePressed", "mouseReleased"):
            self.call("Input.dispatchMouseEvent", type=what, x=x, y=y, button="left", clickCount=1)


@contextlib.contextmanager
def opened(seconds):
    """A browser, for at most so many seconds."""
    (reads, told), (answers, writes) = os.pipe(), os.pipe()  # commands are told and read, answers are written
    folder = tempfile.mkdtemp()
    def prepare():
        """Puts the ends of the pipes where the browser looks for them."""
        ends = os.dup(reads), os.dup(writes)
        os.dup2(ends[0], 3)
        os.dup2(ends[1], 4)
    running = program.Interrupt.begin([path(), *WORDS, f"--user-data-dir={folder}"], cwd=folder, preexec_fn=prepare,
                                      close_fds=False, stdin=subprocess.DEVNULL, stdout=subprocess.DEVNULL,
                                      stderr=subprocess.DEVNULL)
    os.close(reads)
    os.close(writes)
    try:
        yield Browser(answers, told, time.monotonic() + seconds)
    finally:
        program.Interrupt.end(running)
        os.close(told)
        os.close(answers)
        shutil.rmtree(folder, ignore_errors=True)
