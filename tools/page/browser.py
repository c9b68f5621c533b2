"""Chromium without a window, told what to do through a pipe (the DevTools protocol), with Python's own library alone."""

from __future__ import annotations

import base64
import fcntl
import json
import os
import select
import shutil
import signal
import tempfile
import time
from pathlib import Path
from types import TracebackType
from typing import Any, Optional

NAMES = ("chromium", "chromium-browser", "google-chrome")
# how long an answer may take, in seconds
PATIENCE = 60.0


def found() -> Optional[str]:
    """Where Chromium is installed, if it is."""
    paths = (shutil.which(name) for name in NAMES)
    return next((path for path in paths if path), None)


class Browser:
    """A running Chromium. It has a folder of its own for what it keeps, and ends with the block that it is opened in."""

    def __init__(self, program: str) -> None:
        self.room = tempfile.mkdtemp(prefix="page-browser-")
        self.number = 0
        self.unread = b""
        self.events: list[dict[str, Any]] = []
        told, self.telling = os.pipe()
        self.heard, telling_back = os.pipe()
        self.process = self.start(program, told, telling_back)
        os.close(told)
        os.close(telling_back)

    def start(self, program: str, told: int, telling: int) -> int:
        """Starts the program, which hears at 3 and answers at 4; its number."""
        arguments = [program, "--headless", "--remote-debugging-pipe", f"--user-data-dir={self.room}", "--no-first-run", "--disable-gpu",
                     "--disable-background-networking", "--disable-component-update", "--disable-dev-shm-usage", "--hide-scrollbars",
                     "about:blank"]
        if os.geteuid() == 0:
            arguments.insert(1, "--no-sandbox")
        # neither end may lie at 3 or 4 before it is laid there
        above = [fcntl.fcntl(end, fcntl.F_DUPFD_CLOEXEC, 10) for end in (told, telling)]
        silent = os.open(os.devnull, os.O_RDWR | os.O_CLOEXEC)
        laid = [(os.POSIX_SPAWN_DUP2, end, place) for end, place in ((silent, 0), (silent, 1), (silent, 2), (above[0], 3), (above[1], 4))]
        process = os.posix_spawn(program, arguments, os.environ, file_actions=laid, setsid=True)
        for end in (*above, silent):
            os.close(end)
        return process

    def __enter__(self) -> Browser:
        return self

    def __exit__(self, kind: Optional[type[BaseException]], error: Optional[BaseException], trace: Optional[TracebackType]) -> None:
        os.close(self.telling)
        os.close(self.heard)
        try:
            os.killpg(self.process, signal.SIGKILL)
        except ProcessLookupError:
            pass
        os.waitpid(self.process, 0)
        shutil.rmtree(self.room, ignore_errors=True)

    def hear(self, until: float) -> dict[str, Any]:
        """The next message."""
        while b"\0" not in self.unread:
            if not select.select([self.heard], [], [], max(0.0, until - time.monotonic()))[0]:
                raise TimeoutError("Chromium doesn't answer")
            piece = os.read(self.heard, 1 << 20)
            if not piece:
                raise ConnectionError("Chromium has ended")
            self.unread += piece
        message, _, self.unread = self.unread.partition(b"\0")
        heard: dict[str, Any] = json.loads(message)
        return heard

    def call(self, method: str, session: Optional[str] = None, **arguments: Any) -> dict[str, Any]:
        """What Chromium answers; events that it tells of meanwhile are kept."""
        self.number += 1
        message = {"id": self.number, "method": method, "params": arguments, **({"sessionId": session} if session else {})}
        os.write(self.telling, json.dumps(message).encode() + b"\0")
        until = time.monotonic() + PATIENCE
        while True:
            heard = self.hear(until)
            if heard.get("id") == self.number:
                if "error" in heard:
                    raise RuntimeError(f"{method}: {heard['error']}")
                result: dict[str, Any] = heard["result"]
                return result
            if "method" in heard:
                self.events.append(heard)

    def wait_for(self, method: str, session: str) -> dict[str, Any]:
        """The first event of this name that this session has told since the events were cleared."""
        until = time.monotonic() + PATIENCE
        while True:
            for event in self.events:
                if event["method"] == method and event.get("sessionId") == session:
                    return event
            heard = self.hear(until)
            if "method" in heard:
                self.events.append(heard)


class Page:
    """A page in a window of its own, of this size, with or without JavaScript."""

    def __init__(self, browser: Browser, width: int, height: int, has_script: bool = True) -> None:
        self.browser, self.width, self.has_script = browser, width, has_script
        self.target: str = browser.call("Target.createTarget", url="about:blank")["targetId"]
        self.session: str = browser.call("Target.attachToTarget", targetId=self.target, flatten=True)["sessionId"]
        for domain in ("Page", "Network", "Log", "Runtime", "Performance"):
            self.call(f"{domain}.enable")
        self.call("Emulation.setDeviceMetricsOverride", width=width, height=height, deviceScaleFactor=1, mobile=width < 600)
        self.call("Emulation.setScriptExecutionDisabled", value=not has_script)

    def __enter__(self) -> Page:
        return self

    def __exit__(self, kind: Optional[type[BaseException]], error: Optional[BaseException], trace: Optional[TracebackType]) -> None:
        self.browser.call("Target.closeTarget", targetId=self.target)

    def call(self, method: str, **arguments: Any) -> dict[str, Any]:
        """What Chromium answers for this page."""
        return self.browser.call(method, self.session, **arguments)

    def paint(self, is_dark: bool) -> None:
        """Lets the system's choice be dark or light."""
        self.call("Emulation.setEmulatedMedia", features=[{"name": "prefers-color-scheme", "value": "dark" if is_dark else "light"}])

    def open(self, url: str) -> None:
        """Opens a page, and waits for its end."""
        self.browser.events.clear()
        self.call("Page.navigate", url=url)
        self.browser.wait_for("Page.loadEventFired", self.session)

    def move(self, fragment: str) -> None:
        """Goes to a part of the page, as the address's end says it."""
        url = self.value("location.href.split('#')[0]")
        self.call("Page.navigate", url=f"{url}#{fragment}")

    def value(self, expression: str) -> Any:
        """The value of an expression of JavaScript."""
        answer = self.call("Runtime.evaluate", expression=expression, returnByValue=True, awaitPromise=True)
        if "exceptionDetails" in answer:
            raise RuntimeError(f"{expression}: {answer['exceptionDetails']}")
        return answer["result"].get("value")

    def work(self) -> float:
        """How long the processor has worked on the page, in seconds."""
        found = {each["name"]: each["value"] for each in self.call("Performance.getMetrics")["metrics"]}
        time_worked: float = found["ThreadTime"]
        return time_worked

    def settle(self) -> None:
        """Waits until what was told is drawn."""
        if self.has_script:
            self.value("new Promise(done => requestAnimationFrame(() => requestAnimationFrame(() => done(1))))")
        else:
            self.call("Page.captureScreenshot")

    def click(self, selector: str) -> None:
        """Clicks into the middle of the first box of an element, which is brought into sight before."""
        x, y = self.value(f"(e => {{ e.scrollIntoView({{block: 'center'}}); const b = e.getClientRects()[0];"
                          f" return [b.x + b.width / 2, b.y + b.height / 2] }})(document.querySelector({json.dumps(selector)}))")
        for kind in ("mousePressed", "mouseReleased"):
            self.call("Input.dispatchMouseEvent", type=kind, x=x, y=y, button="left", clickCount=1)

    def press(self, key: str) -> None:
        """Presses a key."""
        self.call("Input.dispatchKeyEvent", type="keyDown", key=key, text=key)
        self.call("Input.dispatchKeyEvent", type="keyUp", key=key)

    def write(self, text: str) -> None:
        """Writes into the field that has the focus."""
        self.call("Input.insertText", text=text)

    def picture(self, path: Path) -> None:
        """Takes a picture of what is seen."""
        path.write_bytes(base64.b64decode(self.call("Page.captureScreenshot", format="png")["data"]))

    def told(self, method: str) -> list[dict[str, Any]]:
        """What this page's events of this name have said since it was opened."""
        return [event["params"] for event in self.browser.events if event["method"] == method and event.get("sessionId") == self.session]
