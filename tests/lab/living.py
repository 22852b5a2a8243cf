"""A live chain for the tests: `./lab live` as a process of its own, and requests to it."""
import json
import signal
import socket
import subprocess
import time
from collections.abc import Generator
from http.client import HTTPConnection
from pathlib import Path
from typing import Any
from urllib.parse import urlsplit

from calls import TOP, Word, around, be_interruptible

PATIENCE = 600.0


class Living:
    """A call of `./lab live` that serves."""

    def __init__(self, *words: Word, instead: Path | None = None) -> None:
        self.process = subprocess.Popen([TOP / "lab", "live", "--no-open", *words], stdout=subprocess.PIPE,
                                        stderr=subprocess.PIPE, text=True, env=around(instead),
                                        preexec_fn=be_interruptible)
        assert self.process.stdout is not None and self.process.stderr is not None
        first = self.process.stdout.readline()
        if ": http://" not in first:
            raise AssertionError(f"it does not serve: {first}{self.process.stderr.read()}")
        self.address = first.rstrip("\n").partition(": ")[2]
        parts = urlsplit(self.address)
        assert parts.port is not None
        self.port, self.path = parts.port, parts.path
        self.host = f"127.0.0.1:{self.port}"

    def ends(self, number: signal.Signals) -> tuple[int, str, str]:
        """Ends it by a signal; gives back its status and what it wrote since."""
        self.process.send_signal(number)
        out, errors = self.process.communicate(timeout=PATIENCE)
        return self.process.returncode, out, errors

    def close(self) -> None:
        """Ends it if it is still there."""
        if self.process.poll() is None:
            self.process.kill()
        self.process.communicate()

    def ask(self, method: str, path: str, body: bytes | None = None, **headers: str) -> tuple[int, dict[str, str], str]:
        """A request with these headers alone; gives back the status, the headers and the text of the answer."""
        link = HTTPConnection("127.0.0.1", self.port, timeout=PATIENCE)
        link.putrequest(method, path, skip_host=True, skip_accept_encoding=True)
        for name, value in ({"Host": self.host} | {name.replace("_", "-"): value for name, value in headers.items()}).items():
            link.putheader(name, value)
        if body is not None and "Content_Length" not in headers and "Transfer_Encoding" not in headers:
            link.putheader("Content-Length", str(len(body)))
        link.endheaders(body)
        answer = link.getresponse()
        text = answer.read().decode()
        link.close()
        return answer.status, dict(answer.getheaders()), text

    def order(self, order: object) -> tuple[int, str]:
        """Gives an order as the page does; gives back the status and what is said."""
        status, _, said = self.ask("POST", f"{self.path}do", json.dumps(order).encode(),
                                   Content_Type="application/json", Origin=f"http://{self.host}")
        return status, said

    def raw(self, data: bytes) -> bytes:
        """What is answered to bytes."""
        with socket.create_connection(("127.0.0.1", self.port), timeout=PATIENCE) as link:
            link.sendall(data)
            link.shutdown(socket.SHUT_WR)
            found = b""
            while part := link.recv(1 << 16):
                found += part
        return found

    def events(self) -> Generator[tuple[str, Any], None, None]:
        """What a page is told, one event after another."""
        link = HTTPConnection("127.0.0.1", self.port, timeout=PATIENCE)
        link.request("GET", f"{self.path}events")
        answer = link.getresponse()
        assert answer.status == 200, answer.status
        try:
            while line := answer.readline().decode().rstrip("\n"):
                if line.startswith(":"):  # it says that it is still there
                    answer.readline()
                    continue
                name = line.removeprefix("event: ")
                data = answer.readline().decode().rstrip("\n").removeprefix("data: ")
                answer.readline()
                yield name, json.loads(data) if data.startswith("{") else data
        finally:
            answer.close()
            link.close()

    def shot(self, wanted: str = "pause", leg: int = 0) -> dict[str, Any]:
        """The first shot in this mode, with at least so many legs over, that is no older than now."""
        end = time.monotonic() + PATIENCE
        for name, told in self.events():
            if name == "shot" and told["mode"] == wanted and told["leg"] >= leg:
                found: dict[str, Any] = told
                return found
            if time.monotonic() > end:
                break
        raise AssertionError(f"it never comes to leg {leg}")
