"""What serves a chain at work to a browser on this machine.

Nothing is answered without the token that stands in the address, nor to another host's name or another page's
script. A page gets its stream of shots as server-sent events, and gives orders as JSON. The one thing that is answered
without the token is the proof by which a page finds its chain again (address.py).
"""
import hmac
import json
import re
import socket
import sys
import time
from collections.abc import Sequence
from http import HTTPStatus
from http.server import BaseHTTPRequestHandler, ThreadingHTTPServer
from threading import Semaphore
from typing import Any

from ..base.errors import LabError
from ..base.files import cause
from .address import HOST, Address
from .chain import Live
from .page import PARTS, page
from .session import said_of

HELLO = re.compile(r"/hello/([0-9a-f]{32})")  # asks for a proof that the server knows the page's token
LONGEST = 1 << 20  # bytes of an order
MOST_STREAMS = 16
PATIENCE = 20  # seconds for which a page may keep the server waiting
FRAME = 0.05  # seconds: a page is told no more often, and no more than half of its thread's time is spent on it
QUIET = 10.0  # seconds after which a stream without news says that it is still there
POLICY = ("default-src 'none'; script-src 'self'; style-src 'self'; connect-src 'self'; img-src 'self' data:; "
          "base-uri 'none'; form-action 'none'; frame-ancestors 'none'")
GUARDS = {
    "Content-Security-Policy": POLICY, "X-Content-Type-Options": "nosniff", "Referrer-Policy": "no-referrer",
    "Cross-Origin-Resource-Policy": "same-origin", "Cross-Origin-Opener-Policy": "same-origin",
    "Cache-Control": "no-store", "Connection": "close",
}


class RequestRefused(Exception):
    """A request that is answered by a refusal."""

    def __init__(self, status: HTTPStatus, line: str) -> None:
        super().__init__(line)
        self.status = status


class Server(ThreadingHTTPServer):
    """The server of a chain at work."""

    daemon_threads = True
    block_on_close = False
    allow_reuse_address = True

    def __init__(self, live: Live, port: int, kept: Address | None = None) -> None:
        """Serves at a port, or for 0 at that of the address that was kept, or else at a free one. The token is the one
        that was kept if the port is: at another one it may have been asked for by a page that is still open."""
        self.live = live
        self.streams = Semaphore(MOST_STREAMS)
        if kept is not None and port in (0, kept.port):
            try:
                super().__init__((HOST, kept.port), Handler)
                self.address = kept
                return
            except OSError:
                pass  # another has taken the port
        try:
            super().__init__((HOST, port), Handler)
        except (OSError, OverflowError) as error:
            said = cause(error) if isinstance(error, OSError) else str(error)
            raise LabError(f"--port {port}: can't be served at: {said}") from error
        self.address = Address.anew(self.server_port)

    @property
    def names(self) -> set[str]:
        """The names of this machine under which pages may ask."""
        return {f"{HOST}:{self.server_port}", f"localhost:{self.server_port}"}

    def handle_error(self, request: Any, client_address: Any) -> None:
        """Says nothing of pages that go away or keep the server waiting."""
        if not isinstance(sys.exc_info()[1], (ConnectionError, TimeoutError)):
            super().handle_error(request, client_address)


class Handler(BaseHTTPRequestHandler):
    """Answers one request."""

    server: Server
    timeout = PATIENCE
    protocol_version = "HTTP/1.1"
    server_version = "feast"
    sys_version = ""

    def log_message(self, format: str, *args: Any) -> None:
        """Keeps no log."""

    def do_GET(self) -> None:
        """Serves the page, its parts and its stream."""
        self.answer(self.serve)

    def do_POST(self) -> None:
        """Takes an order."""
        self.answer(self.take)

    def send_error(self, code: int, message: str | None = None, explain: str | None = None) -> None:
        """Refuses what is no request, or asks for another method, in one line."""
        self.close_connection = True
        self.reply(HTTPStatus(code), "text/plain", f"refused: {message or HTTPStatus(code).phrase}\n".encode())

    def answer(self, work: Any) -> None:
        """Does the work of a request, or refuses it."""
        self.close_connection = True
        try:
            work(self.asked())
        except RequestRefused as refusal:
            self.reply(refusal.status, "text/plain", f"refused: {refusal}\n".encode())

    def asked(self) -> str:
        """What is asked for, behind the token; refuses requests that are not from the page itself."""
        if self.headers.get_all("Host") is None or self.headers.get_all("Host") not in [[name] for name in self.server.names]:
            raise RequestRefused(HTTPStatus.FORBIDDEN, "another host's name")
        origins: Sequence[str] = self.headers.get_all("Origin") or []
        if any(origin not in {f"http://{name}" for name in self.server.names} for origin in origins):
            raise RequestRefused(HTTPStatus.FORBIDDEN, "another page's script")
        if self.command == "POST" and len(origins) != 1:
            raise RequestRefused(HTTPStatus.FORBIDDEN, "an order says from which page it comes")
        if self.command == "GET" and HELLO.fullmatch(self.path):
            return self.path
        token, slash, rest = self.path.removeprefix("/").partition("/")
        if not hmac.compare_digest(token.encode(), self.server.address.token.encode()) or not slash:
            raise RequestRefused(HTTPStatus.FORBIDDEN, "the address lacks its token")
        return rest

    def serve(self, name: str) -> None:
        """Serves the page, one of its parts, or the stream."""
        if name == "events":
            self.stream()
        elif name == "":
            self.reply(HTTPStatus.OK, "text/html", page(self.server.live.folder.path.resolve().name).encode())
        elif asked := HELLO.fullmatch(name):
            self.reply(HTTPStatus.OK, "text/plain", self.server.address.proof(asked[1]).encode())
        elif name in PARTS:
            kind = "text/css" if name.endswith(".css") else "text/javascript"
            self.reply(HTTPStatus.OK, kind, PARTS[name]().encode())
        else:
            raise RequestRefused(HTTPStatus.NOT_FOUND, "there is nothing here")

    def take(self, name: str) -> None:
        """Takes an order, and says what was done."""
        if name != "do":
            raise RequestRefused(HTTPStatus.NOT_FOUND, "there is nothing here")
        try:
            order = json.loads(self.body())
        except (ValueError, RecursionError) as error:
            raise RequestRefused(HTTPStatus.BAD_REQUEST, "an order is JSON") from error
        try:
            said = self.server.live.do(order)
        except LabError as error:
            raise RequestRefused(HTTPStatus.BAD_REQUEST, str(error)) from error
        except Exception as error:  # a page that has no answer would take the server for dead
            raise RequestRefused(HTTPStatus.INTERNAL_SERVER_ERROR, said_of(error)) from error
        self.reply(HTTPStatus.OK, "text/plain", said.encode())

    def body(self) -> bytes:
        """What the request has; refuses what is too long, or of another kind."""
        if self.headers.get_content_type() != "application/json":
            raise RequestRefused(HTTPStatus.UNSUPPORTED_MEDIA_TYPE, "an order is JSON")
        length = self.headers.get("Content-Length", "")
        if not (length.isascii() and length.isdigit()) or self.headers.get("Transfer-Encoding"):
            raise RequestRefused(HTTPStatus.LENGTH_REQUIRED, "an order says how long it is")
        if len(length) > 9 or int(length) > LONGEST:
            raise RequestRefused(HTTPStatus.REQUEST_ENTITY_TOO_LARGE, f"an order has at most {LONGEST} bytes")
        return self.rfile.read(int(length))

    def reply(self, status: HTTPStatus, kind: str, data: bytes) -> None:
        """Writes an answer."""
        self.send_response(status)
        for name, value in {**GUARDS, "Content-Type": f"{kind}; charset=utf-8", "Content-Length": str(len(data))}.items():
            self.send_header(name, value)
        self.end_headers()
        self.wfile.write(data)

    def stream(self) -> None:
        """Tells a page of each shot, until it goes away or another chain takes the place of this one."""
        if not self.server.streams.acquire(blocking=False):
            raise RequestRefused(HTTPStatus.SERVICE_UNAVAILABLE, f"{MOST_STREAMS} pages are open already")
        try:
            self.connection.setsockopt(socket.IPPROTO_TCP, socket.TCP_NODELAY, 1)
            self.send_response(HTTPStatus.OK)
            for name, value in {**GUARDS, "Content-Type": "text/event-stream"}.items():
                self.send_header(name, value)
            self.end_headers()
            self.tell_all()
        finally:
            self.server.streams.release()

    def tell_all(self) -> None:
        """Writes what there is to tell, one event after another."""
        live = self.server.live
        view = live.view
        self.tell("begin", view.begun(bool(live.files)))
        number = -1
        lines: Sequence[str] = ()
        while live.view is view:
            shot = view.session.after(number, QUIET)
            if shot is None:
                self.wfile.write(b": still there\n\n")
                continue
            began = time.monotonic()
            self.tell("shot", view.shot_text(shot, lines))
            number, lines = shot.number, shot.atoms.lines
            took = time.monotonic() - began
            time.sleep(max(FRAME - took, took if shot.mode == "play" else 0.0))
        self.tell("anew", "another chain")

    def tell(self, name: str, text: str) -> None:
        """Writes one event."""
        self.wfile.write(f"event: {name}\ndata: {text}\n\n".encode())
