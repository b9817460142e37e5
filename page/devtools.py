"""A headless Chromium, driven over the DevTools protocol by two pipes."""

import base64
import itertools
import json
import os
import select
import shutil
import subprocess
import tempfile
import time

NAMES = ["chromium", "chromium-browser", "google-chrome"]
WORDS = ["--headless=new", "--remote-debugging-pipe", "--no-first-run", "--no-default-browser-check", "--disable-gpu",
         "--disable-extensions", "--disable-background-networking", "--disable-component-update", "--hide-scrollbars=false"]
KEYS = {"Tab": 9, "Enter": 13, "Home": 36, "End": 35, "PageUp": 33, "PageDown": 34, "ArrowLeft": 37, "ArrowUp": 38,
        "ArrowRight": 39, "ArrowDown": 40, " ": 32}


class Failed(Exception):
    """The browser answers with an error, or not in time."""


class Browser:
    """One browser with a profile of its own, which goes when it is closed. Only root has it without a sandbox."""

    def __init__(self, seconds=60):
        program = next(filter(None, map(shutil.which, NAMES)), None)
        if program is None:
            raise Failed("no chromium is installed: on Debian `apt-get install chromium`")
        self.folder, self.seconds, self.numbers, self.rest, self.events = tempfile.mkdtemp(), seconds, itertools.count(1), b"", []
        self.read_from, to_us = os.pipe()
        from_us, self.write_to = os.pipe()
        words = [program, *WORDS, *(["--no-sandbox"] if os.geteuid() == 0 else []), f"--user-data-dir={self.folder}/profile"]
        # The browser reads from 3 and writes to 4.
        start = f'exec 3<&{from_us} 4>&{to_us}; exec "$@"'
        quiet = {"stdout": subprocess.DEVNULL, "stderr": subprocess.DEVNULL}
        self.process = subprocess.Popen(["bash", "-c", start, "bash", *words], pass_fds=(from_us, to_us), **quiet)
        os.close(from_us)
        os.close(to_us)

    def __enter__(self):
        return self

    def __exit__(self, *_):
        self.process.kill()
        self.process.wait()
        shutil.rmtree(self.folder, ignore_errors=True)

    def message(self, until):
        """The next message; its end is a byte of zero."""
        while b"\0" not in self.rest:
            left = until - time.monotonic()
            if left <= 0 or not select.select([self.read_from], [], [], left)[0]:
                raise Failed("the browser doesn't answer in time")
            read = os.read(self.read_from, 1 << 20)
            if not read:
                raise Failed("the browser has ended")
            self.rest += read
        one, _, self.rest = self.rest.partition(b"\0")
        return json.loads(one)

    def call(self, method, session=None, **parameters):
        number = next(self.numbers)
        asked = {"id": number, "method": method, "params": parameters, **({"sessionId": session} if session else {})}
        os.write(self.write_to, json.dumps(asked).encode() + b"\0")
        until = time.monotonic() + self.seconds
        while True:
            told = self.message(until)
            if told.get("id") != number:
                self.events.append(told)
            elif "error" in told:
                raise Failed(f"{method}: {told['error']['message']}")
            else:
                return told["result"]


class Page:
    """A page in a tab of its own."""

    def __init__(self, browser, url, width=1240, height=1400, dark=False):
        self.browser, self.target = browser, browser.call("Target.createTarget", url="about:blank")["targetId"]
        self.session = browser.call("Target.attachToTarget", targetId=self.target, flatten=True)["sessionId"]
        for domain in "Page", "Runtime", "DOM", "Network", "Log":
            self.call(f"{domain}.enable")
        self.call("Emulation.setDeviceMetricsOverride", width=width, height=height, deviceScaleFactor=1, mobile=False)
        scheme = [{"name": "prefers-color-scheme", "value": "dark" if dark else "light"}]
        self.call("Emulation.setEmulatedMedia", features=scheme)
        self.call("Page.navigate", url=url)
        self.wait("document.readyState === 'complete'")

    def call(self, method, **parameters):
        return self.browser.call(method, self.session, **parameters)

    def close(self):
        self.browser.call("Target.closeTarget", targetId=self.target)

    def value(self, expression):
        told = self.call("Runtime.evaluate", expression=expression, returnByValue=True, awaitPromise=True)
        if "exceptionDetails" in told:
            raise Failed(f"{expression}: {told['exceptionDetails'].get('exception', {}).get('description')}")
        return told["result"].get("value")

    def wait(self, expression, seconds=30):
        """Waits until an expression is true, and answers the seconds that it took."""
        began = time.monotonic()
        while not self.value(expression):
            if time.monotonic() > began + seconds:
                raise Failed(f"not within {seconds} s: {expression}")
            time.sleep(0.02)
        return time.monotonic() - began

    def choose_file(self, selector, file):
        document = self.call("DOM.getDocument", depth=1)["root"]["nodeId"]
        node = self.call("DOM.querySelector", nodeId=document, selector=selector)["nodeId"]
        self.call("DOM.setFileInputFiles", nodeId=node, files=[os.path.abspath(file)])

    def key(self, key, modifiers=0):
        """Presses and releases a key: one of KEYS, or a character. Shift is 8."""
        text = {"text": key} if len(key) == 1 else {"text": "\r"} if key == "Enter" else {}
        code = KEYS.get(key, ord(key[0].upper()))
        words = {"key": key, "modifiers": modifiers, "windowsVirtualKeyCode": code, "code": "Space" if key == " " else key}
        self.call("Input.dispatchKeyEvent", type="keyDown", **words, **text)
        self.call("Input.dispatchKeyEvent", type="keyUp", **words)

    def mouse(self, kind, x, y, **more):
        self.call("Input.dispatchMouseEvent", type=kind, x=x, y=y, **more)

    def click(self, x, y):
        for kind in "mousePressed", "mouseReleased":
            self.mouse(kind, x, y, button="left", clickCount=1)

    def picture(self, file):
        data = self.call("Page.captureScreenshot", format="png")["data"]
        with open(file, "wb") as it:
            it.write(base64.b64decode(data))

    def told(self, method):
        """What the browser told of this page by events of one kind."""
        self.value("1")
        return [it["params"] for it in self.browser.events if it["method"] == method and it.get("sessionId") == self.session]
