"""A headless Chromium by its DevTools protocol, for tests."""

import http.client
import json
import os
import pathlib
import shutil
import socket
import subprocess
import tempfile
import time

from holls.websocket import WebSocket, new_key
from tests import forked
from tests.helpers import at_end

CHROMIUM = shutil.which("chromium") or shutil.which("chromium-browser") or shutil.which("google-chrome")
SECONDS = int(os.environ.get("HOLLS_TEST_SECONDS", "600"))
"""So long something may take to come about, on a machine that does much else."""


class Failed(AssertionError):
    """Something in the browser went wrong, or didn't come about."""


class Browser:
    """A browser, with what is kept in it until its end."""

    def __init__(self):
        self.folder = tempfile.TemporaryDirectory()
        words = [CHROMIUM, "--headless=new", "--no-sandbox", "--disable-gpu", "--disable-dev-shm-usage", "--no-first-run", "--disable-extensions",
                 "--disable-background-networking", "--remote-debugging-port=0", "--user-data-dir=" + self.folder.name, "about:blank"]
        self.process = subprocess.Popen(words, stdout=subprocess.DEVNULL, stderr=subprocess.DEVNULL)
        self.port = int(self._port_file().read_text().split()[0])
        asked = http.client.HTTPConnection("127.0.0.1", self.port, timeout=SECONDS)
        asked.request("GET", "/json/version")
        self.control = Page(self.port, json.loads(asked.getresponse().read())["webSocketDebuggerUrl"].split(str(self.port), 1)[1])

    def _port_file(self):
        file = pathlib.Path(self.folder.name) / "DevToolsActivePort"
        end = time.monotonic() + SECONDS
        while not (file.is_file() and file.read_text().count("\n")):
            if time.monotonic() > end or self.process.poll() is not None:
                raise Failed("the browser doesn't start")
            time.sleep(0.05)
        return file

    def stop(self):
        self.process.kill()
        self.process.wait()
        for _ in range(50):
            try:
                self.folder.cleanup()
                return
            except OSError:
                time.sleep(0.1)  # Its helpers are still ending.


STARTED = []
"""The browser of a process, with its number."""


def of_process():
    """The browser of this process: that takes longer to start than what most tests do in it."""
    if not STARTED or STARTED[0][0] != os.getpid() or STARTED[0][1].process.poll() is not None:
        STARTED[:] = [(os.getpid(), Browser())]
        at_end(STARTED[0][1].stop)
    return STARTED[0][1]


class Person:
    """Somebody who sits at a browser in which nothing is kept yet: cookies, and what pages keep, are nobody else's."""

    def __init__(self):
        self.browser = of_process()
        self.control = self.browser.control
        self.context = self.control.call("Target.createBrowserContext")["browserContextId"]

    def page(self, address, width=1200, height=800):
        """Opens an address in a tab of its own."""
        target = self.control.call("Target.createTarget", url="about:blank", browserContextId=self.context)["targetId"]
        page = Page(self.browser.port, "/devtools/page/" + target)
        page.call("Page.enable")
        page.call("Runtime.enable")
        page.call("Emulation.setDeviceMetricsOverride", width=width, height=height, deviceScaleFactor=1, mobile=width < 500)
        page.go(address)
        return page

    def take_downloads(self, folder):
        """Has what pages give to be saved put into a folder."""
        self.control.call("Browser.setDownloadBehavior", behavior="allow", downloadPath=str(folder), browserContextId=self.context)

    def leave(self):
        """Closes all tabs, and forgets what they kept."""
        self.control.call("Target.disposeBrowserContext", browserContextId=self.context)


class Page:
    """A tab."""

    def __init__(self, port, path):
        self.connection = socket.create_connection(("127.0.0.1", port), timeout=SECONDS)
        reader, writer = self.connection.makefile("rb"), self.connection.makefile("wb")
        writer.write(("GET %s HTTP/1.1\r\nHost: 127.0.0.1:%d\r\nUpgrade: websocket\r\nConnection: Upgrade\r\nSec-WebSocket-Version: 13\r\n"
                      "Sec-WebSocket-Key: %s\r\n\r\n" % (path, port, new_key())).encode())
        writer.flush()
        while reader.readline().strip():
            pass
        self.socket = WebSocket(reader, writer, True, 1 << 28)
        self.number, self.complaints, self.dialogs = 0, [], []

    def call(self, method, **parameters):
        """Calls a method of the protocol, and answers its result."""
        self.number += 1
        self.socket.send(json.dumps({"id": self.number, "method": method, "params": parameters}).encode())
        while True:
            message = json.loads(self.socket.receive())
            if message.get("id") == self.number:
                if "error" in message:
                    raise Failed("%s: %s" % (method, message["error"]))
                return message["result"]
            self.heard(message)

    def heard(self, message):
        """Keeps what went wrong in the page; a dialog is answered with what `dialogs` holds, or by yes."""
        method, given = message.get("method"), message.get("params", {})
        if method == "Runtime.exceptionThrown":
            self.complaints.append(given["exceptionDetails"].get("exception", {}).get("description", str(given)))
        elif method == "Page.javascriptDialogOpening":
            self.number += 1
            answer = {"accept": True, "promptText": self.dialogs.pop(0) if self.dialogs else given.get("defaultPrompt", "")}
            self.socket.send(json.dumps({"id": self.number, "method": "Page.handleJavaScriptDialog", "params": answer}).encode())
            self.number -= 1

    def go(self, address):
        """Goes to an address."""
        self.call("Page.navigate", url=address)
        self.until("document.readyState === 'complete'")

    def value(self, script):
        """What an expression is, which may be a promise."""
        done = self.call("Runtime.evaluate", expression=script, returnByValue=True, awaitPromise=True)
        if "exceptionDetails" in done:
            raise Failed("%s: %s" % (script[:300], done["exceptionDetails"].get("exception", {}).get("description", done["exceptionDetails"])))
        return done["result"].get("value")

    def until(self, script, seconds=SECONDS):
        """Waits until an expression is true, and answers it."""
        end = time.monotonic() + seconds
        while True:
            try:
                found = self.value(script)
            except Failed:
                found = None
            if found not in (None, False, 0, ""):
                return found
            if time.monotonic() > end:
                seen = self.value("document.body.innerText")[-1500:]
                raise Failed("it didn't come about: %s; the page: %s; %s" % (script[:300], seen, self.complaints))
            time.sleep(0.02)

    def type(self, text):
        """Types a text where the focus is, as one that is put in."""
        self.call("Input.insertText", text=text)

    def key(self, key, code=None, modifiers=0, text=None):
        """Presses a key: modifiers are 1 for Alt, 2 for Ctrl, 8 for Shift."""
        number = KEYS.get(key, ord(key[0].upper()) if key.isalnum() else 0)
        keys = {"key": key, "code": code or key, "modifiers": modifiers, "windowsVirtualKeyCode": number}
        self.call("Input.dispatchKeyEvent", type="keyDown" if text else "rawKeyDown", **keys, **({"text": text} if text else {}))
        self.call("Input.dispatchKeyEvent", type="keyUp", **keys)

    def click(self, selector):
        """Clicks on the first element that a selector finds, as the mouse does."""
        box = self.until("(() => { const found = document.querySelector(%s); if (!found) return null; found.scrollIntoView({ block: 'center' });"
                         " const { x, y, width, height } = found.getBoundingClientRect(); return width ? [x + width / 2, y + height / 2] : null; })()"
                         % json.dumps(selector))
        for kind in ("mousePressed", "mouseReleased"):
            self.call("Input.dispatchMouseEvent", type=kind, x=box[0], y=box[1], button="left", clickCount=1)

    def picture(self, file):
        """Writes what is seen as a PNG."""
        import base64
        pathlib.Path(file).write_bytes(base64.b64decode(self.call("Page.captureScreenshot", format="png")["data"]))


KEYS = {"Backspace": 8, "Enter": 13, "Escape": 27, "Tab": 9, "ArrowUp": 38, "ArrowDown": 40, "ArrowLeft": 37, "ArrowRight": 39, "F4": 115, "F8": 119, " ": 32}


def serve(program, *words):
    """Starts `holls page` for a program; answers the process and the page's address."""
    process = forked.Holls("page", "--no-browser", "--port", "0", "--server", program, *words, stdout=subprocess.PIPE)
    line = process.stdout.readline().decode()
    return process, line.split(" at ", 1)[1].split(" ", 1)[0]
