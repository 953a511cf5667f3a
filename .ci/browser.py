"""Drives a Chromium without a window by the protocol of its developers' tools, over two pipes."""
import base64
import json
import os
import select
import shutil
import subprocess
import tempfile
import time

SECONDS = 90


def found():
    """Returns the path of a Chromium, by CHROMIUM or by the usual names, or None."""
    named = os.environ.get("CHROMIUM")
    return named or next(filter(None, map(shutil.which, ("chromium", "chromium-browser", "google-chrome"))), None)


class Browser:
    """A Chromium with one page. What goes wrong on it is told to `told`: messages of the console, exceptions, requests."""

    def __init__(self, program):
        self.folder = tempfile.TemporaryDirectory(ignore_cleanup_errors=True)
        commands, self.commands = os.pipe()
        self.answers, answers = os.pipe()
        flags = ["--headless=new", "--no-sandbox", "--disable-gpu", "--disable-dev-shm-usage", "--hide-scrollbars", "--no-first-run",
                 f"--user-data-dir={self.folder.name}", "--remote-debugging-pipe", "about:blank"]
        # The protocol has its commands on descriptor 3, and its answers on descriptor 4.
        line = ["sh", "-c", f'exec "$0" "$@" 3<&{commands} 4>&{answers}', program, *flags]
        self.child = subprocess.Popen(line, pass_fds=(commands, answers), stdout=subprocess.DEVNULL, stderr=subprocess.DEVNULL)
        os.close(commands)
        os.close(answers)
        self.rest, self.number, self.session, self.told, self.events = b"", 0, None, [], []
        target = self.ask("Target.createTarget", url="about:blank")["targetId"]
        self.session = self.ask("Target.attachToTarget", targetId=target, flatten=True)["sessionId"]
        for domain in ("Page", "Runtime", "Log", "Network"):
            self.ask(domain + ".enable")
        self.ask("Performance.enable", timeDomain="threadTicks")

    def __enter__(self):
        return self

    def __exit__(self, *_):
        self.child.terminate()
        self.child.wait()
        os.close(self.commands)
        os.close(self.answers)
        self.folder.cleanup()

    def receive(self, until):
        """Returns the next message."""
        while b"\0" not in self.rest:
            if not select.select([self.answers], [], [], max(until - time.monotonic(), 0))[0]:
                raise TimeoutError("the browser doesn't answer")
            more = os.read(self.answers, 1 << 16)
            if not more:
                raise EOFError("the browser ended")
            self.rest += more
        message, self.rest = self.rest.split(b"\0", 1)
        return json.loads(message)

    def hear(self, message):
        """Keeps an event, and tells what is wrong."""
        name, given = message.get("method"), message.get("params", {})
        self.events.append(name)
        if name == "Runtime.exceptionThrown":
            self.told.append("exception: " + str(given["exceptionDetails"].get("exception", {}).get("description", given))[:300])
        elif name == "Runtime.consoleAPICalled":
            self.told.append("console: " + json.dumps(given["args"])[:300])
        elif name == "Log.entryAdded":
            self.told.append("log: " + given["entry"]["text"][:300])
        elif name == "Network.requestWillBeSent" and given["request"]["url"] != self.url:
            self.told.append("request: " + given["request"]["url"][:300])

    def ask(self, method, **given):
        """Sends a command, and returns its answer."""
        self.number += 1
        command = {"id": self.number, "method": method, "params": given}
        if self.session:
            command["sessionId"] = self.session
        os.write(self.commands, json.dumps(command).encode() + b"\0")
        until = time.monotonic() + SECONDS
        while True:
            message = self.receive(until)
            if message.get("id") == self.number:
                if "error" in message:
                    raise RuntimeError(f"{method}: {message['error']['message']}")
                return message["result"]
            self.hear(message)

    def size(self, width, height, is_dark=False, has_scripts=True):
        """Sets the size of the window, the scheme of colours, and whether scripts run."""
        self.ask("Emulation.setDeviceMetricsOverride", width=width, height=height, deviceScaleFactor=1, mobile=False)
        self.ask("Emulation.setEmulatedMedia", features=[{"name": "prefers-color-scheme", "value": "dark" if is_dark else "light"}])
        self.ask("Emulation.setScriptExecutionDisabled", value=not has_scripts)

    def open(self, path):
        """Opens a file, and waits until it is loaded."""
        self.url, self.events = "file://" + path, []
        self.ask("Page.navigate", url=self.url)
        until = time.monotonic() + SECONDS
        while "Page.loadEventFired" not in self.events:
            self.hear(self.receive(until))

    def time(self):
        """Returns the processor time that the page has taken, in milliseconds."""
        return 1000 * next(one["value"] for one in self.ask("Performance.getMetrics")["metrics"] if one["name"] == "TaskDuration")

    def run(self, words):
        """Returns the value of an expression of JavaScript."""
        given = self.ask("Runtime.evaluate", expression=words, returnByValue=True, awaitPromise=True)
        if "exceptionDetails" in given:
            raise RuntimeError(str(given["exceptionDetails"].get("exception", {}).get("description"))[:400])
        return given["result"].get("value")

    def click(self, x, y):
        for kind in ("mousePressed", "mouseReleased"):
            self.ask("Input.dispatchMouseEvent", type=kind, x=x, y=y, button="left", clickCount=1)

    def wheel(self, x, y, by):
        self.ask("Input.dispatchMouseEvent", type="mouseWheel", x=x, y=y, deltaX=0, deltaY=by)

    def press(self, key, text=None, code=0):
        given = {"key": key, "windowsVirtualKeyCode": code} | ({"text": text} if text else {})
        self.ask("Input.dispatchKeyEvent", type="keyDown", **given)
        self.ask("Input.dispatchKeyEvent", type="keyUp", key=key)

    def picture(self, path):
        """Writes a picture of what is in the window."""
        shot = self.ask("Page.captureScreenshot", format="png")
        with open(path, "wb") as file:
            file.write(base64.b64decode(shot["data"]))
