"""A small driver for Debian's chromium without a window, over its debugging pipe: messages in JSON that end in a zero byte."""

import base64
import fcntl
import json
import os
import select
import shutil
import subprocess
import tempfile
import time
from pathlib import Path

PATIENCE = 20  # seconds for any answer
FLAGS = (
    "--headless=new",
    "--no-sandbox",
    "--remote-debugging-pipe",
    "--disable-gpu",
    "--disable-dev-shm-usage",
    "--disable-background-networking",
    "--disable-component-update",
    "--disable-extensions",
    "--disable-sync",
    "--hide-scrollbars",
    "--no-first-run",
    "--no-default-browser-check",
)
# What the keyboard sends for keys that are no letters: code and the number that Windows gives the key.
NAMED_KEYS = {
    "Escape": 27,
    "Enter": 13,
    "Tab": 9,
    "ArrowDown": 40,
    "ArrowUp": 38,
    "ArrowLeft": 37,
    "ArrowRight": 39,
}
SHIFT = 8


class BrowserError(Exception):
    pass


def chromium():
    found = shutil.which("chromium")
    if not found:
        raise BrowserError("chromium is not there, and the page's tests need it: apt-get install -y chromium")
    return found


class Pipe:
    """A started chromium with its two pipes: commands go to its file descriptor 3, messages come from its 4."""

    def __init__(self, profile):
        words = [chromium(), *FLAGS, f"--user-data-dir={profile}", "about:blank"]
        # The four ends take the lowest free numbers and stay open until chromium is started, so that 3 and 4 are taken,
        # and nothing of the start itself lies there.
        commands, messages = os.pipe(), os.pipe()
        high = [fcntl.fcntl(end, fcntl.F_DUPFD_CLOEXEC, 10) for end in (commands[0], messages[1])]

        def place():
            os.dup2(high[0], 3)
            os.dup2(high[1], 4)

        none = subprocess.DEVNULL
        self.process = subprocess.Popen(
            words, preexec_fn=place, close_fds=False, start_new_session=True, stdin=none, stdout=none, stderr=none
        )
        for end in (commands[0], messages[1], *high):
            os.close(end)
        self.out, self.into, self.rest = commands[1], messages[0], b""

    def send(self, message):
        data = json.dumps(message).encode() + b"\0"
        while data:
            data = data[os.write(self.out, data) :]

    def receive(self, until):
        """The next message; an error if there is none by then."""
        while b"\0" not in self.rest:
            left = until - time.monotonic()
            if left <= 0 or not select.select([self.into], [], [], left)[0]:
                raise BrowserError("chromium doesn't answer")
            part = os.read(self.into, 1 << 20)
            if not part:
                raise BrowserError("chromium ended")
            self.rest += part
        message, self.rest = self.rest.split(b"\0", 1)
        return json.loads(message)

    def close(self):
        os.close(self.out)
        os.close(self.into)
        try:
            self.process.wait(5)
        except subprocess.TimeoutExpired:
            self.process.kill()
            self.process.wait()


class Browser:
    """One chromium with one page. What the page says or asks for is collected from each `open` on."""

    def __init__(self):
        self.profile = tempfile.TemporaryDirectory(prefix="page-", ignore_cleanup_errors=True)
        self.folder = Path(self.profile.name)
        self.pipe = Pipe(self.folder / "profile")
        self.number, self.address = 0, ""
        self.events = []
        target = self.call("Target.createTarget", session=None, url="about:blank")["targetId"]
        self.session = self.call("Target.attachToTarget", session=None, targetId=target, flatten=True)["sessionId"]
        for domain in ("Page", "Runtime", "Log", "Network"):
            self.call(f"{domain}.enable")
        self.size(1280, 900)

    def close(self):
        self.pipe.close()
        self.profile.cleanup()

    def call(self, method, session="own", **parameters):
        """A command and its result. Events that come before the result are kept."""
        self.number += 1
        message = {"id": self.number, "method": method, "params": parameters}
        if session:
            message["sessionId"] = self.session
        self.pipe.send(message)
        until = time.monotonic() + PATIENCE
        while True:
            found = self.pipe.receive(until)
            if found.get("id") == self.number:
                break
            self.events.append(found)
        if "error" in found:
            raise BrowserError(f"{method}: {found['error']['message']}")
        return found["result"]

    def wait_event(self, name):
        until = time.monotonic() + PATIENCE
        while not any(event.get("method") == name for event in self.events):
            self.events.append(self.pipe.receive(until))

    def write(self, html, name="page.html"):
        """The page as a file; its address."""
        (self.folder / name).write_text(html, encoding="utf-8")
        return (self.folder / name).as_uri()

    def open(self, address):
        """Loads the page anew, even if only the part behind # differs."""
        self.call("Page.navigate", url="about:blank")
        self.run("0")
        self.events, self.address = [], address
        self.call("Page.navigate", url=address)
        self.wait_event("Page.loadEventFired")

    def show(self, html, where=""):
        """Opens a page given as text."""
        self.open(self.write(html) + where)

    def run(self, script):
        """The value of an expression on the page; of a promise, what it comes to."""
        found = self.call("Runtime.evaluate", expression=script, returnByValue=True, awaitPromise=True)
        if "exceptionDetails" in found:
            details = found["exceptionDetails"]
            raise BrowserError(details.get("exception", {}).get("description") or details["text"])
        return found["result"].get("value")

    def settle(self):
        """Waits until what was set off is drawn."""
        self.run("new Promise(done => requestAnimationFrame(() => setTimeout(done)))")

    def complaints(self):
        """All console messages, exceptions and log entries since the page was opened, refused requests among them."""
        self.settle()
        found = []
        for event in self.events:
            method, details = event.get("method"), event.get("params", {})
            if method == "Runtime.consoleAPICalled":
                found.append("console: " + " ".join(str(a.get("value", a.get("description"))) for a in details["args"]))
            elif method == "Runtime.exceptionThrown":
                found.append("exception: " + details["exceptionDetails"]["text"])
            elif method == "Log.entryAdded":
                found.append("log: " + details["entry"]["text"])
        return found

    def requests(self):
        """The addresses that the page asked for, apart from its own."""
        self.settle()
        own = self.address.split("#")[0]
        asked = (e["params"]["request"]["url"] for e in self.events if e.get("method") == "Network.requestWillBeSent")
        return [address for address in asked if address != own and not address.startswith("data:")]

    def tree(self):
        """What a screen reader is given: the nodes by their ids, each with its role, its name and its children's ids. A node
        that is left out stands here without a role."""
        value = lambda node, field: "" if node["ignored"] else node.get(field, {}).get("value", "")
        nodes = self.call("Accessibility.getFullAXTree")["nodes"]
        return {node["nodeId"]: (value(node, "role"), value(node, "name"), node.get("childIds", [])) for node in nodes}

    def size(self, width, height, scale=1):
        metrics = {"width": width, "height": height, "deviceScaleFactor": scale, "mobile": False}
        self.call("Emulation.setDeviceMetricsOverride", **metrics)

    def scheme(self, name):
        """Light or dark."""
        self.call("Emulation.setEmulatedMedia", features=[{"name": "prefers-color-scheme", "value": name}])

    def medium(self, name):
        """Print, or screen."""
        self.call("Emulation.setEmulatedMedia", media=name)

    def script_off(self, off):
        self.call("Emulation.setScriptExecutionDisabled", value=off)

    def press(self, *keys, modifiers=0):
        for key in keys:
            number = NAMED_KEYS.get(key, ord(key[0].upper()))
            code = {"key": key, "code": key, "windowsVirtualKeyCode": number, "modifiers": modifiers}
            text = {"Enter": "\r"}.get(key) or (key if len(key) == 1 else None)
            self.call("Input.dispatchKeyEvent", type="keyDown", **code, **({"text": text} if text else {}))
            self.call("Input.dispatchKeyEvent", type="keyUp", **code)

    def type(self, text):
        self.call("Input.insertText", text=text)

    def click(self, selector):
        """Clicks in the middle of the first line of the element that the selector finds first."""
        x, y = self.run(
            f"""(() => {{
                const found = document.querySelector({json.dumps(selector)});
                found.scrollIntoView({{block: "center"}});
                const box = found.getClientRects()[0];
                return [box.x + box.width / 2, box.y + box.height / 2];
            }})()"""
        )
        for kind in ("mousePressed", "mouseReleased"):
            self.call("Input.dispatchMouseEvent", type=kind, x=x, y=y, button="left", clickCount=1)
        self.settle()

    def picture(self, name, whole=False):
        """The page as a PNG: what is in sight, or all of it."""
        self.settle()
        found = self.call("Page.captureScreenshot", format="png", captureBeyondViewport=whole)
        Path(name).write_bytes(base64.b64decode(found["data"]))
