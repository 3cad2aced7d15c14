"""A headless Chromium for tests, by its DevTools protocol over pipes. It opens files alone, and ends with the test."""
import json
import os
import select
import shutil
import subprocess
import sys
import tempfile
import time
import unittest

CHROMIUM = shutil.which("chromium") or shutil.which("chromium-browser") or shutil.which("google-chrome")
needs_chromium = unittest.skipUnless(CHROMIUM, "no chromium is installed")

# Chromium reads commands from descriptor 3 and answers on 4.
LAUNCH = """import fcntl, os, sys
ends = [int(it) for it in sys.argv[1:3]]
kept = [fcntl.fcntl(it, fcntl.F_DUPFD_CLOEXEC, 20) for it in ends]
for it in ends: os.close(it)
os.dup2(kept[0], 3), os.dup2(kept[1], 4)
os.execv(sys.argv[3], sys.argv[3:])"""
FLAGS = (
    "--headless",
    "--no-sandbox",
    "--disable-gpu",
    "--disable-dev-shm-usage",
    "--disable-background-networking",
    "--disable-component-update",
    "--no-first-run",
    "--hide-scrollbars",
    "--remote-debugging-pipe",
)
PATIENCE = 60  # seconds for one answer


class Browser:
    """A browser. A context manager: leaving it ends the browser."""

    def __init__(self):
        self.folder = tempfile.mkdtemp(prefix="cluster-browser-")
        commands, self.commands = os.pipe()
        self.answers, answers = os.pipe()
        words = [CHROMIUM, *FLAGS, f"--user-data-dir={self.folder}", "about:blank"]
        self.process = subprocess.Popen(
            [sys.executable, "-c", LAUNCH, str(commands), str(answers), *words],
            pass_fds=(commands, answers),
            stdout=subprocess.DEVNULL,
            stderr=subprocess.DEVNULL,
        )
        os.close(commands)
        os.close(answers)
        self.rest, self.count, self.events = b"", 0, []

    def __enter__(self):
        return self

    def __exit__(self, *_):
        try:
            self.call("Browser.close")
            self.process.wait(10)
        except (OSError, TimeoutError, subprocess.TimeoutExpired):
            self.process.kill()
            self.process.wait()
        os.close(self.commands)
        os.close(self.answers)
        shutil.rmtree(self.folder, ignore_errors=True)

    def call(self, method, session=None, **parameters):
        """Calls a method, and returns its result; events that come meanwhile are kept."""
        self.count += 1
        said = {"id": self.count, "method": method, "params": parameters}
        if session:
            said["sessionId"] = session
        os.write(self.commands, json.dumps(said).encode() + b"\0")
        while True:
            message = self.message()
            if message.get("id") == self.count:
                if "error" in message:
                    raise OSError(f"{method}: {message['error']}")
                return message["result"]
            self.events.append(message)

    def message(self):
        """Returns the next message."""
        until = time.monotonic() + PATIENCE
        while b"\0" not in self.rest:
            if not select.select([self.answers], [], [], max(0, until - time.monotonic()))[0]:
                raise TimeoutError("the browser doesn't answer")
            more = os.read(self.answers, 1 << 20)
            if not more:
                raise OSError("the browser has ended")
            self.rest += more
        first, _, self.rest = self.rest.partition(b"\0")
        return json.loads(first)

    def open(self, path):
        """Opens a file, and returns its page once it is loaded."""
        return Page(self, path)


class Page:
    """A page that is open."""

    def __init__(self, browser, path):
        self.browser = browser
        target = browser.call("Target.createTarget", url="about:blank")["targetId"]
        self.session = browser.call("Target.attachToTarget", targetId=target, flatten=True)["sessionId"]
        for it in ("Page", "Runtime", "Log", "Network"):
            self.call(f"{it}.enable")
        self.call("Page.navigate", url=f"file://{os.path.abspath(path)}")
        while not self.events("Page.loadEventFired"):
            browser.events.append(browser.message())

    def call(self, method, **parameters):
        """Calls a method on the page."""
        return self.browser.call(method, self.session, **parameters)

    def events(self, method):
        """Returns what the events of a method told so far."""
        mine = [it for it in self.browser.events if it.get("sessionId") == self.session]
        return [it["params"] for it in mine if it["method"] == method]

    def run(self, script):
        """Returns the value of a script."""
        found = self.call("Runtime.evaluate", expression=script, returnByValue=True, awaitPromise=True)
        if "exceptionDetails" in found:
            raise AssertionError(found["exceptionDetails"])
        return found["result"].get("value")

    def faults(self):
        """Returns what the console told, and which addresses but the page's own were asked for."""
        told = [it["exceptionDetails"]["text"] for it in self.events("Runtime.exceptionThrown")]
        told += [it["entry"]["text"] for it in self.events("Log.entryAdded")]
        told += [str(it["args"]) for it in self.events("Runtime.consoleAPICalled")]
        asked = [it["request"]["url"] for it in self.events("Network.requestWillBeSent")]
        return told + [it for it in asked[1:] if not it.startswith("file:")]
