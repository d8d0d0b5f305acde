"""Drives Chromium without a window by its DevTools protocol, over two pipes: for the tests of pages.

Browser() begins it, where is_there() says that there is one. Browser.page(address) opens a tab. A Page clicks and types as
a user does, evaluates expressions in the page, and takes pictures. What a page writes to its console, faults among it,
stands in Page.told.
"""
import base64
import fcntl
import json
import os
import select
import shutil
import subprocess
import sys
import tempfile
import time

NAMES = ("chromium", "chromium-browser", "google-chrome")
SECONDS = 60.0  # a loaded machine is slow
KEYS = {"ArrowLeft": 37, "ArrowRight": 39, "Home": 36, "End": 35, "Enter": 13, "Tab": 9, " ": 32}
# The browser reads from its file 3, and writes to its file 4.
AS_3_AND_4 = "import os, sys; os.dup2(int(sys.argv[1]), 3); os.dup2(int(sys.argv[2]), 4); os.execv(sys.argv[3], sys.argv[3:])"


def is_there():
    """Whether there is a Chromium, and it begins here."""
    if not any(map(shutil.which, NAMES)):
        return False
    try:
        with Browser() as found:
            found.ask("Browser.getVersion")
        return True
    except (EOFError, OSError, TimeoutError):
        return False


def pipe():
    """The two ends of a pipe, at numbers that a child does not need for others."""
    ends = os.pipe()
    high = tuple(fcntl.fcntl(it, fcntl.F_DUPFD_CLOEXEC, 20) for it in ends)
    for it in ends:
        os.close(it)
    return high


class Browser:
    """A Chromium of this test, with a profile of its own that is gone afterwards."""

    def __init__(self):
        self.profile = tempfile.mkdtemp(prefix="browser.")
        child_in, self._out = pipe()
        self._in, child_out = pipe()
        command = [
            next(filter(None, map(shutil.which, NAMES))), "--headless", "--remote-debugging-pipe", "--disable-gpu",
            "--disable-dev-shm-usage", "--no-first-run", "--disable-extensions", "--disable-background-networking",
            "--disable-sync", "--hide-scrollbars", "--user-data-dir=" + self.profile,
            "--no-sandbox",  # root and many containers have none, and the pages are those of this test
        ]
        self._child = subprocess.Popen(
            [sys.executable, "-c", AS_3_AND_4, str(child_in), str(child_out), *command, "about:blank"],
            pass_fds=(child_in, child_out), stdin=subprocess.DEVNULL, stdout=subprocess.DEVNULL,
            stderr=subprocess.DEVNULL, env={**os.environ, "HOME": self.profile},
        )
        os.close(child_in)
        os.close(child_out)
        self._rest, self._number, self.pages = b"", 0, {}

    def __enter__(self):
        return self

    def __exit__(self, *_):
        os.close(self._out)
        os.close(self._in)
        try:
            self._child.wait(timeout=10)
        except subprocess.TimeoutExpired:
            self._child.kill()
            self._child.wait()
        shutil.rmtree(self.profile, ignore_errors=True)

    def ask(self, method, session=None, **values):
        """Sends a message, and gives the answer to it."""
        self._number += 1
        number = self._number
        message = {"id": number, "method": method, "params": values}
        if session:
            message["sessionId"] = session
        os.write(self._out, json.dumps(message).encode() + b"\0")
        until = time.monotonic() + SECONDS
        while True:
            answer = self._message(until)
            if answer.get("id") == number:
                if "error" in answer:
                    raise RuntimeError(f"{method}: {answer['error']['message']}")
                return answer["result"]
            self._note(answer)

    def _message(self, until):
        while b"\0" not in self._rest:
            if not select.select([self._in], [], [], max(0.0, until - time.monotonic()))[0]:
                raise TimeoutError("the browser does not answer")
            more = os.read(self._in, 1 << 20)
            if not more:
                raise EOFError("the browser has ended")
            self._rest += more
        message, self._rest = self._rest.split(b"\0", 1)
        return json.loads(message)

    def _note(self, message):
        page, values = self.pages.get(message.get("sessionId")), message.get("params", {})
        if page is None:
            return
        if message["method"] == "Runtime.exceptionThrown":
            page.told.append(values["exceptionDetails"].get("exception", {}).get("description", "a fault"))
        elif message["method"] == "Runtime.consoleAPICalled":
            page.told.append(" ".join(str(it.get("value")) for it in values["args"]))
        elif message["method"] == "Log.entryAdded":
            page.told.append(values["entry"]["text"])

    def page(self, address):
        """Opens a tab."""
        target = self.ask("Target.createTarget", url="about:blank")["targetId"]
        session = self.ask("Target.attachToTarget", targetId=target, flatten=True)["sessionId"]
        page = self.pages[session] = Page(self, target, session)
        for it in ("Page", "Runtime", "Log"):
            page.ask(it + ".enable")
        page.size(1400, 900)
        page.open(address)
        return page


class Page:
    """A tab."""

    def __init__(self, browser, target, session):
        self.browser, self.target, self.session, self.told = browser, target, session, []

    def ask(self, method, **values):
        """Sends a message to this tab."""
        return self.browser.ask(method, self.session, **values)

    def open(self, address):
        """Goes to an address, and waits until it is there."""
        self.ask("Page.navigate", url=address)
        until = time.monotonic() + SECONDS
        while self.value("document.readyState + ' ' + location.href") != "complete " + address:
            if time.monotonic() > until:
                raise TimeoutError(address)
            time.sleep(0.02)

    def value(self, expression):
        """The value of an expression of JavaScript in the page."""
        answer = self.ask("Runtime.evaluate", expression=expression, awaitPromise=True, returnByValue=True)
        if "exceptionDetails" in answer:
            raise RuntimeError(answer["exceptionDetails"].get("exception", {}).get("description", expression))
        return answer["result"].get("value")

    def wait_for(self, expression):
        """Waits in the page until an expression is true, and gives whether it came to be."""
        return self.value(
            "new Promise((tell) => { const until = Date.now() + %d; const look = () => { if (%s) tell(true);"
            " else if (Date.now() > until) tell(false); else setTimeout(look, 10) }; look() })"
            % ((SECONDS - 10) * 1000, expression)
        )

    def click(self, selector):
        """Clicks in the middle of an element, as it is seen."""
        place = self.value(
            f"(() => {{ const it = document.querySelector({json.dumps(selector)}); it.scrollIntoView({{ block: 'center' }});"
            " const box = it.getBoundingClientRect();"
            " return [box.x + box.width / 2, box.y + box.height / 2] })()"
        )
        for kind in ("mousePressed", "mouseReleased"):
            self.ask("Input.dispatchMouseEvent", type=kind, x=place[0], y=place[1], button="left", clickCount=1)

    def key(self, name):
        """Strikes a key."""
        words = {"key": name, "code": "Space" if name == " " else name, "windowsVirtualKeyCode": KEYS[name]}
        signs = {"Enter": "\r", " ": " "}.get(name)
        self.ask("Input.dispatchKeyEvent", type="keyDown", **words, **({"text": signs} if signs else {}))
        self.ask("Input.dispatchKeyEvent", type="keyUp", **words)

    def write(self, selector, text):
        """Writes into a field, in the place of what stands there."""
        self.value(f"(() => {{ const it = document.querySelector({json.dumps(selector)}); it.focus(); it.select() }})()")
        self.ask("Input.insertText", text=text)

    def size(self, width, height, scale=1):
        """Makes the window as wide and as high as this."""
        self.ask("Emulation.setDeviceMetricsOverride", width=width, height=height, deviceScaleFactor=scale, mobile=False)

    def dark(self, is_dark):
        """Says that the user wants a dark ground, or a light one."""
        value = "dark" if is_dark else "light"
        self.ask("Emulation.setEmulatedMedia", features=[{"name": "prefers-color-scheme", "value": value}])

    def picture(self, path, is_whole=True):
        """Writes what is seen to a file of PNG."""
        answer = self.ask("Page.captureScreenshot", format="png", captureBeyondViewport=is_whole)
        with open(path, "wb") as file:
            file.write(base64.b64decode(answer["data"]))

    def printed(self, path):
        """Writes the page as it is printed, on A4, to a file of PDF."""
        answer = self.ask("Page.printToPDF", paperWidth=8.27, paperHeight=11.69, printBackground=False)
        with open(path, "wb") as file:
            file.write(base64.b64decode(answer["data"]))

    def close(self):
        """Closes the tab."""
        self.browser.ask("Target.closeTarget", targetId=self.target)
        del self.browser.pages[self.session]
