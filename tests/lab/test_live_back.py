"""The address of a live chain: it stays when the chain is opened again, its file is its owner's alone, and an open page finds it."""
import hmac
import os
import signal
import socket
import stat
import subprocess
import time
import unittest
from collections.abc import Callable

from browser import chromium
from calls import TOP, around
from test_live import ELEMENTS, WORLD, LiveCase
from test_live_page import LEG, READY, LivePage

LOST = "document.getElementById('fault').textContent.includes('has ended')"
# What an order has come to is known a second after it was answered.
ANSWERS_ARE_LATE = """(() => {
  const fetched = window.fetch;
  window.fetch = async (...words) => {
    const answer = await fetched(...words);
    await new Promise((over) => setTimeout(over, 1000));
    window.answered = true;
    return answer;
  };
})()"""


class Address(LiveCase):
    """The file of the address."""

    def setUp(self) -> None:
        super().setUp()
        self.file_of = self.chain / "live.html"

    def test_stays(self) -> None:
        """A chain that is opened again has its address, which its owner alone can read; another port has another token."""
        live = self.kinds()
        self.assertEqual(stat.S_IMODE(self.file_of.stat().st_mode), 0o600)
        self.assertIn(f"url={live.address}\"", self.file_of.read_text())
        live.ends(signal.SIGKILL)
        again = self.living(self.chain)
        self.assertEqual(again.address, live.address)
        again.ends(signal.SIGINT)
        with socket.socket() as taken:
            taken.setsockopt(socket.SOL_SOCKET, socket.SO_REUSEADDR, 1)
            taken.bind(("127.0.0.1", live.port))
            taken.listen()
            other = self.living(self.chain)
        self.assertNotEqual(other.port, live.port)
        self.assertNotEqual(other.path, live.path)
        other.ends(signal.SIGINT)
        self.assertEqual(self.living("--port", str(other.port), self.chain).address, other.address)

    def test_strangers(self) -> None:
        """A file that others may have read, written or put there isn't taken, and is replaced and not written to."""
        address = "http://127.0.0.1:9999/" + "a" * 32 + "/"
        notes = self.file("notes", f"url={address}")
        notes.chmod(0o600)
        self.kinds().ends(signal.SIGINT)
        plants: list[Callable[[], object]] = [
            lambda: self.file_of.symlink_to(notes), lambda: os.link(notes, self.file_of),
            lambda: self.file_of.write_text(notes.read_text()), lambda: os.mkfifo(self.file_of, 0o600)]
        for plant in plants:
            self.file_of.unlink()
            plant()
            live = self.living(self.chain)
            self.assertNotEqual(live.address, address)
            live.ends(signal.SIGINT)
            self.assertEqual(notes.read_text(), f"url={address}")
            self.assertEqual((self.file_of.is_symlink(), stat.S_IMODE(self.file_of.stat().st_mode)), (False, 0o600))

    def test_proof(self) -> None:
        """Without the token a server says nothing but that it knows it."""
        live = self.kinds()
        nonce = "0123456789abcdef" * 2
        wanted = hmac.new(live.path.strip("/").encode(), f"{live.port} {nonce}".encode(), "sha256").hexdigest()
        self.assertEqual(live.ask("GET", f"/hello/{nonce}")[::2], (200, wanted))
        strange: list[tuple[str, dict[str, str]]] = [
            (f"/hello/{nonce}0", {}), ("/hello/", {}), (f"/hello/{nonce}", {"Host": "evil.example"}),
            (f"/hello/{nonce}", {"Origin": "http://evil.example"})]
        for path, headers in strange:
            self.assertEqual(live.ask("GET", path, None, **headers)[0], 403)

    def test_browser(self) -> None:
        """The browser is given the file, so that the machine's list of processes has no token."""
        told = self.room / "told"
        browser = self.file("browser", f"#!/bin/sh\necho \"$@\" > {told}.part; mv {told}.part {told}\n")
        browser.chmod(0o755)
        process = subprocess.Popen([TOP / "lab", "live", self.chain, WORLD, ELEMENTS], stdout=subprocess.PIPE, text=True,
                                   env=around() | {"BROWSER": f"{browser} %s", "DISPLAY": ""})
        assert process.stdout is not None
        self.addCleanup(process.stdout.close)
        self.addCleanup(process.wait)
        self.addCleanup(process.kill)
        address = process.stdout.readline().rstrip("\n").partition(": ")[2]
        end = time.monotonic() + 60
        while not told.exists() and time.monotonic() < end:
            time.sleep(0.05)
        self.assertEqual(told.read_text(), f"{self.file_of.resolve().as_uri()}\n")
        self.assertIn(address, self.file_of.read_text())


@unittest.skipIf(chromium() is None, "no Chromium")
class Back(LivePage):
    """The page of a chain that has faults, ends, and is opened again."""

    def test_fault(self) -> None:
        """The answer to an order doesn't clear a fault that came before it, nor does a reload of the page."""
        failing = self.file("failing", "#!/bin/sh\ncase $* in run*) exit 8 ;; esac\nexec $0.program \"$@\"\n")
        (self.room / "failing.program").symlink_to(os.environ["FEAST_PROGRAM"])
        failing.chmod(0o755)
        live = self.living(self.chain, WORLD, ELEMENTS, instead=failing)
        self.shows(live)
        self.browser.value(ANSWERS_ARE_LATE)
        self.press_button("play")
        fault = "the program ended with status 8: it ran out of memory"
        self.browser.wait(f"document.getElementById('fault').textContent === '{fault}'")
        self.browser.wait("window.answered")
        time.sleep(0.3)
        self.assertEqual(self.text("fault"), fault)
        self.browser.open(live.address, READY)
        self.browser.wait(f"document.getElementById('fault').textContent === '{fault}'")

    def test_ended(self) -> None:
        """A session that has ended is said to have for good, and its buttons are off, also in a page that is opened later."""
        live = self.living(self.chain, WORLD, ELEMENTS)
        self.shows(live)
        os.rename(self.chain, self.room / "elsewhere")
        self.press_button("play")
        for _ in range(2):
            self.browser.wait("document.getElementById('fault').textContent.startsWith('the session has ended')")
            self.browser.press(" ")
            time.sleep(0.3)
            self.assertTrue(self.text("fault").startswith("the session has ended"))
            self.assertEqual((self.text("play"), self.enabled()), ("Play", []))
            self.browser.open(live.address, READY)

    def enabled(self) -> list[str]:
        """The buttons of the chain that can be pressed."""
        found: list[str] = self.browser.value("[...document.querySelectorAll('.controls button:enabled')].map((it) => it.id)")
        return found

    def test_restart(self) -> None:
        """A page whose server was killed says so, and goes on when it is started anew; it tells no other server its token."""
        live = self.living(self.chain, WORLD, ELEMENTS)
        self.browser.open((self.chain / "live.html").as_uri(), f"location.href === '{live.address}' && {READY}")
        self.press_button("play")
        self.browser.wait(f"{LEG} >= 2")
        live.ends(signal.SIGKILL)
        self.browser.wait(LOST)
        self.assertEqual((self.text("play"), self.enabled()), ("Play", []))
        self.assertNotIn("a second", self.text("moment"))
        asked = self.asked_of_another(live.port)
        self.assertTrue(asked.startswith("GET /hello/"), asked)
        self.assertNotIn(live.path.strip("/"), asked)
        again = self.living(self.chain)
        self.browser.wait("document.getElementById('film')?.hidden === false && document.getElementById('fault').hidden")
        leg = again.shot()["leg"]
        self.press_button("leg")
        self.browser.wait(f"{LEG} === {leg + 1}")

    def asked_of_another(self, port: int) -> str:
        """What a server that has taken the port is asked by the page; it answers with a proof that is none."""
        with socket.create_server(("127.0.0.1", port)) as other:
            other.settimeout(60)
            link = other.accept()[0]
            with link:
                link.settimeout(60)
                asked = link.recv(1 << 16).decode()
                link.sendall(b"HTTP/1.1 200 OK\r\nConnection: close\r\nContent-Length: 64\r\n\r\n" + b"0" * 64)
            time.sleep(1.5)
            self.assertFalse(self.browser.value("document.getElementById('fault').hidden"))
        return asked

    def test_said_after_reload(self) -> None:
        """What is said of a reload of the elements stands in the page that follows it."""
        live = self.living(self.chain, WORLD, ELEMENTS)
        self.shows(live)
        self.press_button("reload")
        self.browser.wait("document.querySelector('h1')?.textContent === 'chain-reload1' && document.getElementById('said')?.hidden === false")
        self.assertEqual(self.text("said"), "The elements are read again; the chain goes on in chain-reload1.")
