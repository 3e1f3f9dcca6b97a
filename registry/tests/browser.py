"""Headless Chromium, spoken to through a pipe by its DevTools protocol."""

import base64
import itertools
import json
import os
import select
import shutil
import subprocess
import tempfile
import time
from pathlib import Path
from types import TracebackType
from typing import Any

from conftest import LIMIT

# What the pages name in the order of the keyboard, and what else is asked of them.
NAMES = ("chromium", "chromium-browser", "google-chrome")


def program() -> str | None:
    """Chromium, where it is installed."""
    return next(filter(None, map(shutil.which, NAMES)), None)


class Browser:
    """One page. What its console says is kept."""

    def __init__(self) -> None:
        self.folder = tempfile.mkdtemp()
        to_read, self._write = os.pipe()
        self._read, to_write = os.pipe()
        words = [str(program()), "--headless=new", "--no-sandbox", "--disable-gpu", "--hide-scrollbars", "--no-first-run",
                 "--disable-background-networking", "--disable-dev-shm-usage", "--remote-debugging-pipe",
                 f"--user-data-dir={self.folder}", "about:blank"]
        # Chromium reads from 3 and writes to 4.
        script = 'exec 3<&"$0" 4>&"$1"; shift; exec "$@"'
        self._process = subprocess.Popen(["bash", "-c", script, str(to_read), str(to_write), *words],
                                         pass_fds=[to_read, to_write],
                                         stdin=subprocess.DEVNULL, stdout=subprocess.DEVNULL, stderr=subprocess.DEVNULL)
        os.close(to_read)
        os.close(to_write)
        self._numbers, self._rest, self._session = itertools.count(1), b"", ""
        self.events: list[Any] = []
        [target] = [each for each in self.call("Target.getTargets")["targetInfos"] if each["type"] == "page"]
        self._session = self.call("Target.attachToTarget", targetId=target["targetId"], flatten=True)["sessionId"]
        for domain in ("Page", "Runtime", "Log", "Network", "Accessibility"):
            self.call(f"{domain}.enable")

    def __enter__(self) -> "Browser":
        return self

    def __exit__(self, kind: type[BaseException] | None, value: BaseException | None, trace: TracebackType | None) -> None:
        self._process.kill()
        self._process.wait()
        os.close(self._read)
        os.close(self._write)
        shutil.rmtree(self.folder, ignore_errors=True)

    def call(self, method: str, **given: Any) -> Any:
        """What a command gives."""
        number = next(self._numbers)
        request = {"id": number, "method": method, "params": given}
        if self._session:
            request["sessionId"] = self._session
        os.write(self._write, json.dumps(request).encode() + b"\0")
        while (told := self._next()).get("id") != number:
            self.events.append(told)
        assert "error" not in told, (method, told)
        return told["result"]

    def _next(self) -> Any:
        """What it says next."""
        until = time.monotonic() + LIMIT
        while b"\0" not in self._rest:
            assert select.select([self._read], [], [], max(0, until - time.monotonic()))[0], "the browser says nothing"
            self._rest += os.read(self._read, 1_048_576)
        line, _, self._rest = self._rest.partition(b"\0")
        return json.loads(line)

    def wait(self, event: str) -> Any:
        """Waits for an event that comes after the last call."""
        while True:
            self.events.append(self._next())
            if self.events[-1].get("method") == event:
                return self.events[-1]["params"]

    def go(self, address: str) -> None:
        """Opens a page, and waits until it is there."""
        self.call("Page.navigate", url=address)
        self.wait_for_load()

    def wait_for_load(self) -> None:
        """Waits until the page that comes is there."""
        until = time.monotonic() + LIMIT
        while not any(each.get("method") == "Page.loadEventFired" for each in self.events):
            assert time.monotonic() < until
            self.events.append(self._next())
        self.events = [each for each in self.events if each.get("method") != "Page.loadEventFired"]

    def value(self, expression: str) -> Any:
        """What an expression gives in the page."""
        told = self.call("Runtime.evaluate", expression=expression, returnByValue=True, awaitPromise=True)
        assert "exceptionDetails" not in told, (expression, told)
        return told["result"].get("value")

    def type(self, text: str) -> None:
        """Types a text, as with a keyboard."""
        for each in text:
            self.call("Input.dispatchKeyEvent", type="keyDown", text=each)
            self.call("Input.dispatchKeyEvent", type="keyUp")

    def press(self, key: str, code: int, text: str = "") -> None:
        """Presses a key that writes nothing, such as Tab."""
        told = {"key": key, "code": key, "windowsVirtualKeyCode": code, "nativeVirtualKeyCode": code}
        self.call("Input.dispatchKeyEvent", type="keyDown", **told, **({"text": text} if text else {}))
        self.call("Input.dispatchKeyEvent", type="keyUp", **told)

    def enter(self) -> None:
        """Presses the key that sends a form, and waits for the page that comes."""
        self.press("Enter", 13, "\r")
        self.wait_for_load()

    def tab(self) -> str:
        """Goes to the next element, and tells which it is."""
        self.press("Tab", 9)
        told: str = self.value("((found) => found.id || found.textContent || found.tagName)(document.activeElement)")
        return told

    def scheme(self, name: str) -> None:
        """Sets light or dark."""
        self.call("Emulation.setEmulatedMedia", features=[{"name": "prefers-color-scheme", "value": name}])

    def size(self, width: int, height: int) -> None:
        """Sets how large the page is."""
        self.call("Emulation.setDeviceMetricsOverride", width=width, height=height, deviceScaleFactor=1, mobile=False)

    def complaints(self) -> list[Any]:
        """What the console, the network and the content policy say against the pages so far."""
        bad = ("Log.entryAdded", "Runtime.consoleAPICalled", "Runtime.exceptionThrown", "Network.loadingFailed")
        return [each for each in self.events if each.get("method") in bad]

    def names(self) -> list[tuple[str, str]]:
        """What a screen reader is told: the role and the name of each node that it doesn't pass over."""
        nodes = self.call("Accessibility.getFullAXTree")["nodes"]
        return [(node["role"]["value"], node.get("name", {}).get("value", "")) for node in nodes if not node["ignored"]]

    def picture(self, path: Path, of: str = "") -> None:
        """A picture of the page, or of an element in it."""
        given: dict[str, Any] = {}
        if of:
            told = self.value(f"(() => {{ const box = document.querySelector({json.dumps(of)}).getBoundingClientRect(); return "
                              "{x: box.x, y: box.y + scrollY, width: box.width, height: box.height, scale: 1} })()")
            given = {"clip": told, "captureBeyondViewport": True}
        path.write_bytes(base64.b64decode(self.call("Page.captureScreenshot", format="png", **given)["data"]))
