"""Chromium without a screen, led over two pipes by its DevTools: pages as people see and use them."""

import json
import os
import selectors
import shutil
import subprocess
import time

from tests.support.daemons import DaemonFault, must

SECONDS = 30
# The shell opens the pipes by these, since only so they have the numbers that Chromium wants.
LED = 'exec "$@" 3</proc/self/fd/$READS 4>/proc/self/fd/$WRITES'
WORDS = ["--headless", "--no-sandbox", "--disable-gpu", "--no-first-run", "--remote-debugging-pipe"]


def chromium():
    """The path of the program, if it is there."""
    return shutil.which("chromium")


class Browser:
    """One page of a browser of its own. What the page asks for is in `asked`, and what goes wrong in it in `faults`."""

    def __init__(self, folder, width=1200):
        self.folder, self.width, self.number, self.asked, self.faults, self.held = folder, width, 0, [], [], b""

    def __enter__(self):
        reads, self.writer = os.pipe()
        self.reader, writes = os.pipe()
        words = ["sh", "-c", LED, "sh", chromium(), *WORDS, f"--user-data-dir={self.folder}/chromium", "about:blank"]
        names = {**os.environ, "READS": str(reads), "WRITES": str(writes)}
        self.child = subprocess.Popen(words, pass_fds=(reads, writes), env=names, stdin=subprocess.DEVNULL,
                                      stdout=subprocess.DEVNULL, stderr=subprocess.DEVNULL)
        os.close(reads)
        os.close(writes)
        self.ready = selectors.DefaultSelector()
        self.ready.register(self.reader, selectors.EVENT_READ)
        self.session = None
        target = self.call("Target.createTarget", url="about:blank")["targetId"]
        self.session = self.call("Target.attachToTarget", targetId=target, flatten=True)["sessionId"]
        for domain in ("Page", "Runtime", "Network", "Log"):
            self.call(f"{domain}.enable")
        self.call("Emulation.setDeviceMetricsOverride", width=self.width, height=800, deviceScaleFactor=1, mobile=False)
        return self

    def __exit__(self, *_):
        self.child.kill()
        self.child.wait()
        self.ready.close()
        os.close(self.reader)
        os.close(self.writer)

    def call(self, method, **words):
        """What a method of DevTools answers."""
        self.number += 1
        message = {"id": self.number, "method": method, "params": words}
        if self.session:
            message["sessionId"] = self.session
        os.write(self.writer, json.dumps(message).encode() + b"\0")
        while True:
            told = self.hear()
            if told.get("id") == self.number:
                must("error" not in told, f"{method} is answered {told}")
                return told["result"]

    def hear(self):
        """The next message, which is noted if it tells an event."""
        while b"\0" not in self.held:
            if not self.ready.select(SECONDS):
                raise DaemonFault("chromium says nothing")
            more = os.read(self.reader, 1_000_000)
            must(more, "chromium has ended")
            self.held += more
        text, self.held = self.held.split(b"\0", 1)
        told = json.loads(text)
        method, words = told.get("method"), told.get("params", {})
        if method == "Network.requestWillBeSent":
            self.asked.append(words["request"]["url"])
        elif method == "Runtime.exceptionThrown" or method == "Log.entryAdded" and words["entry"]["level"] == "error":
            self.faults.append(words)
        elif method == "Runtime.consoleAPICalled" and words["type"] == "error":
            self.faults.append(words)
        return told

    def open(self, url):
        self.call("Page.navigate", url=url)

    def value(self, script):
        """What a script in the page comes to."""
        found = self.call("Runtime.evaluate", expression=script, returnByValue=True, awaitPromise=True)
        must("exceptionDetails" not in found, f"{script} fails: {found}")
        return found["result"].get("value")

    def wait(self, script, seconds=SECONDS):
        """What a script comes to as soon as that is something, within so many seconds."""
        end = time.monotonic() + seconds
        while True:
            found = self.value(script)
            if found or time.monotonic() > end:
                must(found, f"{script} comes to nothing")
                return found
            time.sleep(0.05)

    def press(self, key):
        """A key is pressed and let go."""
        text = {"text": "\r"} if key == "Enter" else {}
        code = {"Enter": 13, "Tab": 9}[key]
        for kind in ("keyDown", "keyUp"):
            self.call("Input.dispatchKeyEvent", type=kind, key=key, code=key, windowsVirtualKeyCode=code, **text)
