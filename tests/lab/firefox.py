"""A headless Firefox, driven by its own protocol, Marionette: JSON over a socket, each message behind its length."""
import json
import os
import shutil
import socket
import subprocess
import time
from pathlib import Path
from typing import Any

from browser import PATIENCE, Window

NAMES = ("firefox-esr", "firefox")
# It takes a free port, and writes which one into its profile.
SETTINGS = """user_pref("marionette.port", 0);
user_pref("app.update.enabled", false);
user_pref("browser.shell.checkDefaultBrowser", false);
user_pref("datareporting.policy.dataSubmissionEnabled", false);
user_pref("toolkit.telemetry.reportingpolicy.firstRun", false);
"""
# The letters by which WebDriver names keys that write none.
KEYS = {"ArrowLeft": "\ue012", "ArrowUp": "\ue013", "ArrowRight": "\ue014", "ArrowDown": "\ue015", "Tab": "\ue004",
        "Enter": "\ue007", "Escape": "\ue00c"}
SHIFT = "\ue008"


def firefox() -> str | None:
    """The browser of this machine, if there is one."""
    return next((path for name in NAMES if (path := shutil.which(name))), None)


class Firefox(Window):
    """A browser with one page."""

    def __init__(self, path: str, room: Path) -> None:
        room.mkdir()
        (room / "user.js").write_text(SETTINGS)
        self.process = subprocess.Popen([path, "--headless", "--marionette", "--no-remote", "--profile", room],
                                        env=os.environ | {"HOME": str(room)}, stdin=subprocess.DEVNULL,
                                        stdout=subprocess.DEVNULL, stderr=subprocess.DEVNULL)
        self.link = self.linked(room / "MarionetteActivePort")
        self.unread = b""
        self.number = 0
        self.receive()  # what it is
        self.call("WebDriver:NewSession", strictFileInteractability=False)

    def linked(self, place: Path) -> socket.socket:
        """A connection to it, when it is there."""
        end = time.monotonic() + PATIENCE
        while time.monotonic() < end and self.process.poll() is None:
            try:
                return socket.create_connection(("127.0.0.1", int(place.read_text())), timeout=PATIENCE)
            except (OSError, ValueError):
                time.sleep(0.1)
        raise AssertionError("the browser does not begin")

    def close(self) -> None:
        """Ends the browser."""
        try:
            self.call("Marionette:Quit", flags=["eForceQuit"])
        except AssertionError:
            pass
        self.link.close()
        try:
            self.process.wait(10)
        except subprocess.TimeoutExpired:
            self.process.kill()
            self.process.wait()

    def call(self, method: str, **words: Any) -> Any:
        """Gives an order, and waits for its answer."""
        self.number += 1
        order = json.dumps([0, self.number, method, words]).encode()
        self.link.sendall(f"{len(order)}:".encode() + order)
        _, _, fault, found = self.receive()
        if fault is not None:
            raise AssertionError(f"{method}: {fault}")
        return found

    def receive(self) -> Any:
        """The next message of the browser."""
        while b":" not in self.unread:
            self.read()
        length, _, self.unread = self.unread.partition(b":")
        while len(self.unread) < int(length):
            self.read()
        message, self.unread = self.unread[:int(length)], self.unread[int(length):]
        return json.loads(message)

    def read(self) -> None:
        """Reads on."""
        part = self.link.recv(1 << 16)
        if not part:
            raise AssertionError("the browser has ended")
        self.unread += part

    def open(self, url: str, ready: str) -> None:
        """Opens a page, and waits until an expression is true in it."""
        self.call("WebDriver:Navigate", url=url)
        self.wait(ready)

    def value(self, expression: str) -> Any:
        """The value of an expression in the page."""
        return self.call("WebDriver:ExecuteScript", script=f"return ({expression});", args=[])["value"]

    def press(self, key: str, shift: bool = False) -> None:
        """Presses a key and lets it go."""
        self.letter(KEYS.get(key, key), shift)

    def letter(self, key: str, shift: bool = False, code: str = "") -> None:
        """Presses a key that writes a letter or a sign. Firefox finds out itself where it is on the keyboard."""
        acts = [("keyDown", key), ("keyUp", key)]
        held = [("keyDown", SHIFT), *acts, ("keyUp", SHIFT)] if shift else acts
        self.call("WebDriver:PerformActions", actions=[
            {"type": "key", "id": "keys", "actions": [{"type": kind, "value": value} for kind, value in held]}])

    def click(self, x: float, y: float) -> None:
        """Clicks at a point of the window."""
        self.call("WebDriver:PerformActions", actions=[{"type": "pointer", "id": "mouse", "actions": [
            {"type": "pointerMove", "x": round(x), "y": round(y), "duration": 0},
            {"type": "pointerDown", "button": 0}, {"type": "pointerUp", "button": 0}]}])

    def resize(self, width: int, height: int) -> None:
        """Makes the inside of the window another size."""
        for _ in range(2):  # what is around the inside is known when it has a size
            edge = self.value("[window.outerWidth - window.innerWidth, window.outerHeight - window.innerHeight]")
            self.call("WebDriver:SetWindowRect", width=width + edge[0], height=height + edge[1])
