"""A headless Chromium that is led through its debugging pipe; Python's library alone is needed.

checks/page.py and checks/web.py lead it.
"""

from __future__ import annotations

import base64
import json
import os
import select
import shutil
import subprocess
import tempfile
import time
from typing import Any, Dict

from common import apt

NAMES = ("chromium", "chromium-browser")
EVENTS = ("Runtime.exceptionThrown", "Log.entryAdded", "Runtime.consoleAPICalled")
# the numbers of keys that a page may ask for by number
KEYS = {" ": 32, "Enter": 13, "Tab": 9, "Escape": 27, "F6": 117, "ArrowDown": 40}
READY = "location.protocol === 'file:' && document.documentElement?.dataset.ready !== undefined"


class BrowserError(Exception):
    """The browser ended, did not answer in time, or the page's script failed."""


def find_browser() -> str | None:
    """Chromium's name, or None where MELZUDEK_NO_BROWSER=1 leaves the browser out.

    It is installed where it is missing and this user may install it. Ends the program otherwise.
    """
    if os.environ.get("MELZUDEK_NO_BROWSER") == "1":
        return None
    if not any(map(shutil.which, NAMES)):
        apt(["chromium"])
    for name in NAMES:
        if shutil.which(name):
            return name
    raise SystemExit(
        "no chromium here, and none could be installed; MELZUDEK_NO_BROWSER=1 leaves it out"
    )


class Browser:
    """One window. Its methods raise BrowserError where the browser does not answer in time.

    `said` is what the page wrote to the console since it was opened.
    """

    def __init__(
        self, name: str, width: int = 1500, height: int = 1400, is_phone: bool = False
    ) -> None:
        # its helpers may still write there as it ends (the word is Python 3.10's)
        self.profile = tempfile.TemporaryDirectory(ignore_cleanup_errors=True)  # type: ignore[call-overload]
        (reads, self.to), (self.back, writes) = os.pipe(), os.pipe()
        words = [name, "--headless=new", "--no-sandbox", "--disable-gpu", "--hide-scrollbars"]
        words += ["--remote-debugging-pipe", f"--user-data-dir={self.profile.name}", "about:blank"]
        # the browser reads commands from descriptor 3 and answers on 4
        shell = f'exec "$@" 3<&{reads} 4>&{writes}'
        self.process = subprocess.Popen(
            ["bash", "-c", shell, "browser", *words],
            pass_fds=(reads, writes),
            stdout=subprocess.DEVNULL,
            stderr=subprocess.DEVNULL,
        )
        os.close(reads)
        os.close(writes)
        self.text, self.next, self.session = b"", 0, ""
        self.said: list[str] = []
        targets = self.ask("Target.getTargets")["targetInfos"]
        target = next(one["targetId"] for one in targets if one["type"] == "page")
        found = self.ask("Target.attachToTarget", targetId=target, flatten=True)
        self.session = found["sessionId"]
        for domain in ("Page", "Runtime", "Log"):
            self.ask(f"{domain}.enable")
        self.ask("Emulation.setFocusEmulationEnabled", enabled=True)
        self.resize(width, height, is_phone)

    def __enter__(self) -> Browser:
        return self

    def __exit__(self, *_: object) -> None:
        self.close()

    def close(self) -> None:
        self.process.terminate()
        self.process.wait()
        os.close(self.to)
        os.close(self.back)
        self.profile.cleanup()

    def _receive(self, end: float) -> dict[str, Any]:
        """The next message; what the console has is noted in `said`."""
        while b"\0" not in self.text:
            if not select.select([self.back], [], [], max(0.0, end - time.monotonic()))[0]:
                raise BrowserError("the browser does not answer")
            more = os.read(self.back, 1 << 20)
            if not more:
                raise BrowserError("the browser ended")
            self.text += more
        first, self.text = self.text.split(b"\0", 1)
        message: dict[str, Any] = json.loads(first)
        if message.get("method") in EVENTS:
            self.said.append(json.dumps(message["params"])[:400])
        return message

    def ask(self, method: str, limit: float = 120.0, **params: Any) -> dict[str, Any]:
        """What a command answers; at most `limit` seconds."""
        self.next += 1
        message = {"id": self.next, "method": method, "params": params}
        if self.session:
            message["sessionId"] = self.session
        text = json.dumps(message).encode() + b"\0"
        while text:
            text = text[os.write(self.to, text) :]
        end = time.monotonic() + limit
        while True:
            answer = self._receive(end)
            if answer.get("id") != self.next:
                continue
            if "error" in answer:
                raise BrowserError(f"{method}: {answer['error']}")
            result: Dict[str, Any] = answer["result"]
            return result

    def run(self, script: str) -> Any:
        """The value of a script in the page, a promise's when it is kept."""
        found = self.ask(
            "Runtime.evaluate", expression=script, returnByValue=True, awaitPromise=True
        )
        if "exceptionDetails" in found:
            raise BrowserError(json.dumps(found["exceptionDetails"])[:600])
        return found["result"].get("value")

    def open(self, path: str, place: str = "", ready: str = READY) -> None:
        """Opens a file, and waits until it says that it is ready."""
        self.said = []
        self.ask("Page.navigate", url="about:blank")
        self.ask("Page.navigate", url=f"file://{path}{place}")
        self.wait(ready, 120)

    def wait(self, script: str, seconds: float = 60) -> None:
        """Waits until a script's value is true."""
        end, trouble = time.monotonic() + seconds, ""
        while time.monotonic() < end and self.process.poll() is None:
            try:
                if self.run(script):
                    return
            except BrowserError as error:  # between two pages there is none to ask
                trouble = str(error)
            time.sleep(0.02)
        raise BrowserError(f"never came: {script[:200]}: {trouble} {self.said[:1]}")

    def resize(self, width: int, height: int, is_phone: bool = False) -> None:
        size = {"width": width, "height": height, "deviceScaleFactor": 1, "mobile": is_phone}
        self.ask("Emulation.setDeviceMetricsOverride", **size)

    def is_dark(self, wanted: bool) -> None:
        value = "dark" if wanted else "light"
        features = [{"name": "prefers-color-scheme", "value": value}]
        self.ask("Emulation.setEmulatedMedia", features=features)

    def mouse(self, kind: str, x: float, y: float, **more: Any) -> None:
        """A mouse event: Moved, Pressed or Released; the latter two of the left button."""
        if kind != "Moved":
            more = {"button": "left", "clickCount": 1, **more}
        self.ask("Input.dispatchMouseEvent", type=f"mouse{kind}", x=x, y=y, **more)

    def key(self, key: str, modifiers: int = 0) -> None:
        """A key, with 2 for Ctrl and 8 for Shift."""
        more: dict[str, Any] = {}
        if key in KEYS:
            more = {"code": key, "windowsVirtualKeyCode": KEYS[key]}
        for kind in ("keyDown", "keyUp"):
            self.ask("Input.dispatchKeyEvent", type=kind, key=key, modifiers=modifiers, **more)

    def type(self, text: str) -> None:
        """Types a text, key by key."""
        for letter in text:
            self.ask("Input.dispatchKeyEvent", type="char", text=letter)

    def work(self) -> list[int]:
        """Nanoseconds that the pages' threads ran, and that they waited for a processor."""
        total = [0, 0]
        for process in self.renderers():
            try:
                with open(f"/proc/{process}/task/{process}/schedstat", encoding="ascii") as file:
                    ran, waited, _ = map(int, file.read().split())
            except OSError:
                continue
            total = [total[0] + ran, total[1] + waited]
        return total

    def renderers(self) -> list[int]:
        """The processes of this browser that hold pages."""
        found = []
        for number in filter(str.isdigit, os.listdir("/proc")):
            try:
                with open(f"/proc/{number}/cmdline", "rb") as file:
                    words = file.read()
            except OSError:
                continue
            if b"--type=renderer" in words and self.profile.name.encode() in words:
                found.append(int(number))
        return found

    def shot(self, path: str, is_whole: bool = False) -> None:
        """A screenshot, of what is seen or of the whole page."""
        found = self.ask("Page.captureScreenshot", captureBeyondViewport=is_whole)
        with open(path, "wb") as file:
            file.write(base64.b64decode(found["data"]))

    def print(self, path: str) -> None:
        """The page on paper, as PDF."""
        found = self.ask("Page.printToPDF", printBackground=True)
        with open(path, "wb") as file:
            file.write(base64.b64decode(found["data"]))
