"""Requests to `./lab live` that are not the page's: none is answered with anything but a refusal."""
import json
import signal
import socket

from test_live import LiveCase


class Hostile(LiveCase):
    """Requests that are not the page's."""

    def setUp(self) -> None:
        super().setUp()
        self.live = self.kinds()

    def test_page(self) -> None:
        """The page and its parts forbid scripts and requests of others."""
        for name, kind in [("", "text/html"), ("page.js", "text/javascript"), ("page.css", "text/css")]:
            status, headers, _ = self.live.ask("GET", self.live.path + name)
            self.assertEqual((status, headers["Content-Type"]), (200, f"{kind}; charset=utf-8"))
            policy = dict(rule.strip().split(" ", 1) for rule in headers["Content-Security-Policy"].split(";"))
            self.assertEqual((policy["default-src"], policy["script-src"], policy["connect-src"]), ("'none'", "'self'", "'self'"))
            self.assertEqual(policy["frame-ancestors"], "'none'")
            self.assertEqual((headers["X-Content-Type-Options"], headers["Cache-Control"]), ("nosniff", "no-store"))
            self.assertNotIn("Access-Control-Allow-Origin", headers)

    def refused_request(self, status: int, method: str, where: str, body: bytes | None, headers: dict[str, str]) -> None:
        """Tries that a request gets one line that refuses it, with this status, and no word of the token."""
        found, _, said = self.live.ask(method, where, body, **headers)
        self.assertEqual(found, status, (method, where, headers, said))
        self.assertTrue(said.startswith("refused: ") or method == "HEAD", said)
        self.assertLessEqual(said.count("\n"), 1)
        self.assertNotIn(self.live.path.strip("/"), said)

    def test_addresses(self) -> None:
        """Nothing is told without the token, to another host's name, to another page, or of another file."""
        path, evil = self.live.path, "evil.example"
        asked: list[tuple[int, str, dict[str, str]]] = [
            (403, "/", {}), (403, "/events", {}), (403, f"{path[:-2]}/", {}), (403, path[:-1], {}),
            (403, f"/x{path}", {}), (403, f"http://e{path}", {}),
            (404, f"{path}../../etc/passwd", {}), (404, f"{path}%2e%2e/lab", {}), (404, f"{path}chain.json", {}),
            (404, f"{path}frame.html", {}), (404, f"{path}do", {}),
            (403, path, {"Host": evil}), (403, path, {"Host": f"{evil}:{self.live.port}"}), (403, path, {"Host": "127.0.0.1"}),
            (403, path, {"Host": ""}), (403, path, {"Origin": "null"}), (403, f"{path}events", {"Origin": f"http://{evil}"}),
        ]
        for status, where, headers in asked:
            self.refused_request(status, "GET", where, None, headers)
        for method in ("PUT", "DELETE", "OPTIONS", "HEAD", "TRACE"):
            self.refused_request(501, method, path, None, {})

    def test_foreign_orders(self) -> None:
        """Orders that are not the page's are refused, and do nothing."""
        own, order = f"http://{self.live.host}", json.dumps({"do": "act", "acts": ["put:Wall:0,0"]}).encode()
        good = {"Content_Type": "application/json", "Origin": own}
        path = f"{self.live.path}do"
        for status, where, body, headers in [
            (404, self.live.path, order, good), (403, "/do", order, good), (403, f"/{'a' * 32}/do", order, good),
            (403, path, order, good | {"Host": "evil.example"}), (403, path, order, {"Content_Type": "application/json"}),
            *((403, path, order, good | {"Origin": origin}) for origin in
              ("http://evil.example", "null", f"https://{self.live.host}", "http://127.0.0.1", "")),
            *((415, path, order, {"Origin": own, "Content_Type": kind}) for kind in
              ("text/plain", "application/x-www-form-urlencoded", "")),
            *((400, path, body, good) for body in
              (b"", b"no JSON", order[:-1], b"\xff\xfe", b"[" * 200_000, b"1" * 5000, b"[]", b"null")),
            *((413, path, None, good | {"Content_Length": length}) for length in ("1048577", "9" * 30)),
            *((411, path, None, good | {"Content_Length": length}) for length in ("-1", "x", "+5", "", "\u00b2")),
            (411, path, None, good), (411, path, None, good | {"Content_Length": "5", "Transfer_Encoding": "chunked"}),
        ]:
            self.refused_request(status, "POST", where, body, headers)
        self.assertEqual((self.acts(), self.live.shot()["acts"]), ([], []))

    def test_bytes(self) -> None:
        """What is no request at all is refused, or the line is dropped."""
        live = self.live
        host = f"Host: {live.host}\r\n".encode()
        for data in (b"\r\n\r\n", b"GET\r\n\r\n", b"GET / HTTP/9.9\r\n\r\n",
                     b"\x16\x03\x01\x02\x00\x01\x00\x01\xfc\x03\x03\r\n\r\n",
                     b"GET /" + b"a" * 70_000 + b" HTTP/1.1\r\n" + host + b"\r\n",
                     f"GET {live.path} HTTP/1.1\r\n".encode() + host + host + b"\r\n",
                     "GET /\u00e9\u0661/ HTTP/1.1\r\n".encode() + host + b"\r\n",
                     f"GET {live.path} HTTP/1.1\r\n\r\n".encode(), f"GET {live.path}\r\n\r\n".encode(),
                     f"GET {live.path} HTTP/1.1\r\n".encode() + host + b"A: b\r\n" * 200 + b"\r\n"):
            answer = live.raw(data)
            self.assertNotIn(b" 200 ", answer.partition(b"\r\n")[0])
            self.assertTrue(not answer or b"refused: " in answer, answer)
            self.assertNotIn(b"<!doctype", answer)

    def test_crowd(self) -> None:
        """Streams are limited, and other requests are answered beside them."""
        pages = [self.live.events() for _ in range(16)]
        for page in pages:
            self.assertEqual(next(page)[0], "begin")
        status, _, said = self.live.ask("GET", f"{self.live.path}events")
        self.assertEqual((status, said), (503, "refused: 16 pages are open already\n"))
        self.does(self.live, {"do": "leg"})
        for page in pages:
            page.close()
        self.does(self.live, {"do": "leg"})
        self.live.ends(signal.SIGINT)

    def test_silence(self) -> None:
        """Who says nothing holds up nobody, nor the end."""
        place = ("127.0.0.1", self.live.port)
        with socket.create_connection(place) as one, socket.create_connection(place) as other:
            one.sendall(b"POST ")
            other.sendall(f"POST {self.live.path}do HTTP/1.1\r\nHost: {self.live.host}\r\nOrigin: http://{self.live.host}\r\n"
                          "Content-Type: application/json\r\nContent-Length: 100\r\n\r\n{".encode())
            self.does(self.live, {"do": "leg"})
            self.live.shot(leg=1)
            self.assertEqual(self.live.ends(signal.SIGINT)[0], 0)
