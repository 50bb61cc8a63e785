"""A headless browser, driven over its DevTools protocol: a small client of it, and of the web socket that carries it."""

import base64
import contextlib
import hashlib
import json
import os
import pathlib
import shutil
import socket
import subprocess
import tempfile
import time

NAMES = ("chromium", "chromium-browser", "google-chrome", "chrome")
FLAGS = ("--headless=new", "--remote-debugging-port=0", "--no-first-run", "--no-default-browser-check", "--disable-gpu")
QUIET = ("--disable-background-networking", "--disable-component-update", "--disable-sync", "--disable-extensions")
PLACE = ("--no-sandbox", "--disable-dev-shm-usage", "--hide-scrollbars", "--force-device-scale-factor=1", "--disable-lcd-text")
SECONDS = 60
MAGIC = "258EAFA5-E914-47DA-95CA-C5AB0DC85B11"
KEYS = {"Tab": 9, "Enter": 13, "Escape": 27, "End": 35, "Home": 36, "ArrowLeft": 37, "ArrowUp": 38, "ArrowRight": 39}
KEYS |= {"ArrowDown": 40, "Backspace": 8, " ": 32}


def installed():
    """The browser's file; none where there is none. The variable BUSKELD_BROWSER names another one."""
    named = os.environ.get("BUSKELD_BROWSER")
    return named or next(filter(None, map(shutil.which, NAMES)), None)


class Fault(Exception):
    """The browser didn't do what it should."""


class WebSocket:
    """A web socket, as far as the protocol needs it: whole texts, each in one frame."""

    def __init__(self, port, path):
        self.socket = socket.create_connection(("127.0.0.1", port), SECONDS)
        self.rest = b""
        key = base64.b64encode(os.urandom(16)).decode("ascii")
        heads = ["Upgrade: websocket", "Connection: Upgrade", f"Sec-WebSocket-Key: {key}", "Sec-WebSocket-Version: 13"]
        asked = [f"GET {path} HTTP/1.1", f"Host: 127.0.0.1:{port}", *heads, "", ""]
        self.socket.sendall("\r\n".join(asked).encode("ascii"))
        while b"\r\n\r\n" not in self.rest:
            self.more()
        head, _, self.rest = self.rest.partition(b"\r\n\r\n")
        wanted = base64.b64encode(hashlib.sha1((key + MAGIC).encode("ascii")).digest())
        if not head.startswith(b"HTTP/1.1 101") or wanted not in head:
            raise Fault(f"no web socket: {head!r}")

    def more(self):
        """Reads what comes."""
        piece = self.socket.recv(1 << 16)
        if not piece:
            raise Fault("the browser has gone")
        self.rest += piece

    def take(self, size):
        """The next bytes."""
        while len(self.rest) < size:
            self.more()
        taken, self.rest = self.rest[:size], self.rest[size:]
        return taken

    def send(self, text):
        """Sends a text."""
        data, mask = text.encode("utf-8"), os.urandom(4)
        size = len(data)
        short = bytes([0x80 | size]) if size < 126 else b"\xfe" + size.to_bytes(2, "big")
        head = b"\x81" + (short if size < 1 << 16 else b"\xff" + size.to_bytes(8, "big"))
        whole = (mask * (size // 4 + 1))[:size]
        masked = (int.from_bytes(data, "big") ^ int.from_bytes(whole, "big")).to_bytes(size, "big")
        self.socket.sendall(head + mask + masked)

    def receive(self):
        """The next text."""
        whole = b""
        while True:
            first, second = self.take(2)
            size = second & 127
            if size > 125:
                size = int.from_bytes(self.take(2 if size == 126 else 8), "big")
            data = self.take(size)
            if first & 15 in (0, 1, 2):
                whole += data
                if first & 128:
                    return whole.decode("utf-8")

    def close(self):
        """Ends it."""
        self.socket.close()


class Browser:
    """A browser that runs. As a context it is ended when it is left."""

    def __init__(self, file):
        self.folder = tempfile.mkdtemp(prefix="buskeld-browser-")
        command = [file, *FLAGS, *QUIET, *PLACE, f"--user-data-dir={self.folder}", "about:blank"]
        env = {**os.environ, "HOME": self.folder, "LANG": "C.UTF-8"}
        quiet = subprocess.DEVNULL
        self.process = subprocess.Popen(command, stdin=quiet, stdout=quiet, stderr=quiet, env=env)
        try:
            port, path = self.address()
            self.socket = WebSocket(port, path)
        except BaseException:
            self.close()
            raise
        self.number, self.events, self.answers = 0, [], {}
        self.version = self.ask("Browser.getVersion")["product"]

    def address(self):
        """The port and the path at which the browser is driven, which it writes to a file."""
        file, end = pathlib.Path(self.folder) / "DevToolsActivePort", time.monotonic() + SECONDS
        while time.monotonic() < end:
            with contextlib.suppress(OSError, ValueError):
                port, path = file.read_text(encoding="ascii").split("\n")[:2]
                return int(port), path
            if self.process.poll() is not None:
                raise Fault(f"the browser ended with status {self.process.returncode}")
            time.sleep(0.05)
        raise Fault("the browser doesn't start")

    def begin(self, method, session=None, **words):
        """Asks the browser to do something, and gives the number of that."""
        self.number += 1
        asked = {"id": self.number, "method": method, "params": words}
        self.socket.send(json.dumps({**asked, "sessionId": session} if session else asked))
        return self.number

    def end(self, number):
        """What the browser answers to what has a number. Events and other answers that come before it are kept."""
        while number not in self.answers:
            said = json.loads(self.socket.receive())
            if "id" in said:
                self.answers[said["id"]] = said
            else:
                self.events.append(said)
        said = self.answers.pop(number)
        if "error" in said:
            raise Fault(said["error"]["message"])
        return said["result"]

    def ask(self, method, session=None, **words):
        """Has the browser do something, and gives its answer."""
        return self.end(self.begin(method, session, **words))

    def page(self, address, width=1200, height=900):
        """A new page that shows an address."""
        target = self.ask("Target.createTarget", url="about:blank")["targetId"]
        return Page(self, target, address, width, height)

    def close(self):
        """Ends it."""
        with contextlib.suppress(Exception):
            self.socket.close()
        self.process.terminate()
        try:
            self.process.wait(SECONDS)
        except subprocess.TimeoutExpired:
            self.process.kill()
            self.process.wait()
        shutil.rmtree(self.folder, ignore_errors=True)

    def __enter__(self):
        return self

    def __exit__(self, *_):
        self.close()


class Page:
    """A page in a browser."""

    def __init__(self, browser, target, address, width, height):
        self.browser, self.target = browser, target
        self.session = browser.ask("Target.attachToTarget", targetId=target, flatten=True)["sessionId"]
        for domain in ("Page", "Runtime", "Network", "Log"):
            self.ask(f"{domain}.enable")
        self.size(width, height)
        self.ask("Emulation.setFocusEmulationEnabled", enabled=True)
        self.go(address)

    def ask(self, method, **words):
        """Has the page do something."""
        return self.browser.ask(method, self.session, **words)

    def close(self):
        """Closes it."""
        self.browser.ask("Target.closeTarget", targetId=self.target)

    def go(self, address):
        """Goes to an address, and waits until the page is there."""
        said = self.ask("Page.navigate", url=address)
        if said.get("errorText"):
            raise Fault(f"{address}: {said['errorText']}")
        self.until('document.readyState === "complete" && location.href !== "about:blank"')

    def size(self, width, height):
        """Gives the window a size."""
        self.ask("Emulation.setDeviceMetricsOverride", width=width, height=height, deviceScaleFactor=1, mobile=False)

    def value(self, code):
        """The value of an expression on the page."""
        said = self.ask("Runtime.evaluate", expression=code, returnByValue=True, awaitPromise=True)
        if "exceptionDetails" in said:
            raise Fault(f"{code}: {said['exceptionDetails']['exception'].get('description')}")
        return said["result"].get("value")

    def until(self, code):
        """Waits until an expression holds, and gives its value."""
        end = time.monotonic() + SECONDS
        while time.monotonic() < end:
            found = self.value(code)
            if found:
                return found
            time.sleep(0.02)
        raise AssertionError(f"this doesn't come to hold: {code}; the page has {self.value('document.body.innerText')!r}")

    def text(self, selector):
        """The text of an element."""
        return self.value(f"document.querySelector({json.dumps(selector)}).textContent")

    def mouse(self, kind, x, y, **words):
        """Does something with the mouse."""
        self.ask("Input.dispatchMouseEvent", type=kind, x=x, y=y, **words)

    def click(self, x, y):
        """Clicks a point of the window: both at once, so that it is no long press however slow this machine is."""
        words = {"x": x, "y": y, "button": "left", "clickCount": 1}
        kinds = ("mousePressed", "mouseReleased")
        asked = [self.browser.begin("Input.dispatchMouseEvent", self.session, type=kind, **words) for kind in kinds]
        for number in asked:
            self.browser.end(number)

    def middle(self, code):
        """The middle of an element, in the window."""
        return self.value(f"(() => {{ const it = {code}; it.scrollIntoView({{block: 'nearest'}}); const at = it.getBoundingClientRect(); "
                          "return [at.x + at.width / 2, at.y + at.height / 2] })()")

    def click_button(self, text):
        """Clicks the button with a text."""
        self.click(*self.middle(f"[...document.querySelectorAll('button')].find(it => it.textContent === {json.dumps(text)})"))

    def key(self, key, shift=False):
        """Presses a key."""
        code = KEYS.get(key, ord(key.upper()) if len(key) == 1 and key.isalnum() else 0)
        words = {"key": key, "code": key if len(key) > 1 else "", "windowsVirtualKeyCode": code, "modifiers": 8 * shift}
        text = {"Enter": "\r", " ": " "}.get(key, key if len(key) == 1 else None)
        down = {"type": "keyDown", "text": text} if text else {"type": "rawKeyDown"}
        self.ask("Input.dispatchKeyEvent", **down, **words)
        self.ask("Input.dispatchKeyEvent", type="keyUp", **words)

    def type(self, text):
        """Types a text."""
        for key in text:
            self.key(key)

    def picture(self, path, **clip):
        """Writes a picture of the page, or of a part of it."""
        words = {"clip": {"x": 0, "y": 0, "scale": 1, **clip}} if clip else {}
        made = self.ask("Page.captureScreenshot", format="png", captureBeyondViewport=bool(clip), **words)
        pathlib.Path(path).write_bytes(base64.b64decode(made["data"]))

    def events(self, *methods):
        """The events of these kinds that have come so far."""
        self.value("1")
        return [it for it in self.browser.events if it["method"] in methods and it.get("sessionId") == self.session]
