"""A headless Chromium, driven by its DevTools protocol over two pipes. firefox.py has the other browser."""
import base64
import fcntl
import json
import os
import select
import shutil
import subprocess
import sys
import time
from pathlib import Path
from typing import Any

NAMES = ("chromium", "chromium-browser", "google-chrome", "chrome")
# What the browser says of a page that it leaves while something is asked of it.
LEFT = "Inspected target navigated"
# How long a page or the browser may take, in seconds.
PATIENCE = 300.0
KEYS = {"ArrowLeft": 37, "ArrowUp": 38, "ArrowRight": 39, "ArrowDown": 40, "End": 35, "Home": 36, " ": 32, "Tab": 9, "0": 48,
        "Enter": 13, "Escape": 27}
SHIFT = 8
# Chromium reads orders from its file 3, and writes answers to its file 4
START = """import os, sys
os.dup2(int(sys.argv[1]), 3)
os.dup2(int(sys.argv[2]), 4)
os.execv(sys.argv[3], sys.argv[3:])
"""
ABOVE = 10  # pipes get numbers from here on, so that none is one of the two that Chromium wants


def chromium() -> str | None:
    """The browser of this machine, if there is one."""
    return next((path for name in NAMES if (path := shutil.which(name))), None)


class Window:
    """A page in a browser, of which expressions are asked."""

    def value(self, expression: str) -> Any:
        """The value of an expression in the page."""
        raise NotImplementedError

    def wait(self, ready: str) -> None:
        """Waits until an expression is true in the page."""
        end = time.monotonic() + PATIENCE
        while not self.is_so(ready):
            if time.monotonic() > end:
                raise AssertionError(f"in the page this never comes: {ready}")
            time.sleep(0.05)

    def is_so(self, expression: str) -> bool:
        """Whether an expression is true in the page; a page that is just being left is asked again."""
        try:
            return bool(self.value(expression))
        except AssertionError as fault:
            if LEFT not in str(fault):
                raise
            return False


class Browser(Window):
    """A browser with one page."""

    def __init__(self, path: str, room: Path, width: int = 1280, height: int = 900) -> None:
        orders, self.orders = above(os.pipe())
        self.answers, answers = above(os.pipe())
        flags = ["--headless=new", "--no-sandbox", "--disable-gpu", "--disable-dev-shm-usage", "--no-first-run",
                 "--remote-debugging-pipe", f"--user-data-dir={room}", f"--window-size={width},{height}", "about:blank"]
        self.process = subprocess.Popen([sys.executable, "-c", START, str(orders), str(answers), path, *flags],
                                        pass_fds=(orders, answers), stdin=subprocess.DEVNULL,
                                        stdout=subprocess.DEVNULL, stderr=subprocess.DEVNULL)
        os.close(orders)
        os.close(answers)
        self.number = 0
        self.unread = b""
        self.events: list[dict[str, Any]] = []
        self.session: str | None = None
        targets = self.call("Target.getTargets")["targetInfos"]
        page = next(target["targetId"] for target in targets if target["type"] == "page")
        self.session = self.call("Target.attachToTarget", targetId=page, flatten=True)["sessionId"]
        for part in ("Page", "Runtime", "Network", "Log"):
            self.call(f"{part}.enable")

    def close(self) -> None:
        """Ends the browser."""
        self.session = None
        self.send("Browser.close", {})
        try:
            self.process.wait(10)
        except subprocess.TimeoutExpired:
            self.process.kill()
            self.process.wait()
        os.close(self.orders)
        os.close(self.answers)

    def send(self, method: str, words: dict[str, Any]) -> int:
        """Gives an order, and gives back its number."""
        self.number += 1
        order = {"id": self.number, "method": method, "params": words}
        if self.session is not None:
            order["sessionId"] = self.session
        os.write(self.orders, json.dumps(order).encode() + b"\0")
        return self.number

    def call(self, method: str, **words: Any) -> dict[str, Any]:
        """Gives an order, and waits for its answer."""
        number = self.send(method, words)
        while True:
            message = self.receive()
            if message.get("id") == number:
                if "error" in message:
                    raise AssertionError(f"{method}: {message['error']}")
                found: dict[str, Any] = message["result"]
                return found
            self.events.append(message)

    def receive(self) -> dict[str, Any]:
        """The next message of the browser."""
        end = time.monotonic() + PATIENCE
        while b"\0" not in self.unread:
            if not select.select([self.answers], [], [], max(0.0, end - time.monotonic()))[0]:
                raise AssertionError("the browser does not answer")
            part = os.read(self.answers, 1 << 20)
            if not part:
                raise AssertionError("the browser has ended")
            self.unread += part
        text, _, self.unread = self.unread.partition(b"\0")
        message: dict[str, Any] = json.loads(text)
        return message

    def open(self, url: str, ready: str) -> None:
        """Opens a page, and waits until an expression is true in it."""
        self.events.clear()
        self.call("Page.navigate", url=url)
        self.wait(ready)

    def value(self, expression: str) -> Any:
        """The value of an expression in the page."""
        answer = self.call("Runtime.evaluate", expression=expression, returnByValue=True, awaitPromise=True)
        if "exceptionDetails" in answer:
            raise AssertionError(f"{expression}: {answer['exceptionDetails']}")
        return answer["result"].get("value")

    def press(self, key: str, shift: bool = False) -> None:
        """Presses a key and lets it go."""
        words: dict[str, Any] = {"key": key, "windowsVirtualKeyCode": KEYS[key], "modifiers": SHIFT if shift else 0}
        text = {" ": " ", "Enter": "\r"}.get(key)
        self.call("Input.dispatchKeyEvent", type="keyDown", text=text, **words) if text else \
            self.call("Input.dispatchKeyEvent", type="rawKeyDown", **words)
        self.call("Input.dispatchKeyEvent", type="keyUp", **words)

    def letter(self, key: str, shift: bool = False, code: str = "") -> None:
        """Presses a key that writes a letter or a sign; `code` says where it is on the keyboard."""
        words: dict[str, Any] = {"key": key, "code": code, "modifiers": SHIFT if shift else 0}
        self.call("Input.dispatchKeyEvent", type="keyDown", text=key, **words)
        self.call("Input.dispatchKeyEvent", type="keyUp", **words)

    def click(self, x: float, y: float) -> None:
        """Clicks at a point of the window."""
        for what in ("mousePressed", "mouseReleased"):
            self.call("Input.dispatchMouseEvent", type=what, x=x, y=y, button="left", clickCount=1)

    def drag(self, points: list[tuple[float, float]]) -> None:
        """Presses the mouse at the first point, moves it over the others, and lets it go at the last."""
        for what, (x, y) in [("mousePressed", points[0]), *(("mouseMoved", point) for point in points[1:]),
                             ("mouseReleased", points[-1])]:
            self.call("Input.dispatchMouseEvent", type=what, x=x, y=y, button="left", buttons=1, clickCount=1)

    def resize(self, width: int, height: int, scale: float = 1) -> None:
        """Makes the window another size; `scale` is how many points of the screen a length of 1 has."""
        self.call("Emulation.setDeviceMetricsOverride", width=width, height=height, deviceScaleFactor=scale, mobile=False)

    def picture(self, path: Path) -> None:
        """Writes what the window shows, as PNG."""
        path.write_bytes(base64.b64decode(self.call("Page.captureScreenshot", format="png")["data"]))

    def requests(self) -> list[str]:
        """The addresses that the page asked for since it was opened."""
        self.value("0")  # what was told before is there by now
        return [it["params"]["request"]["url"] for it in self.events if it.get("method") == "Network.requestWillBeSent"]


def above(ends: tuple[int, int]) -> tuple[int, int]:
    """The two ends of a pipe, with greater numbers."""
    moved = (fcntl.fcntl(ends[0], fcntl.F_DUPFD_CLOEXEC, ABOVE), fcntl.fcntl(ends[1], fcntl.F_DUPFD_CLOEXEC, ABOVE))
    for end in ends:
        os.close(end)
    return moved
