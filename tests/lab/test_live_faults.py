"""What goes wrong while a chain is live: no fault is lost, a session that has ended says so for good, and nothing waits for it.
test_live_back has how a page finds its chain again."""
import os
import signal
import threading
from http.client import HTTPConnection
from pathlib import Path
from typing import Any, cast

from calls import EXAMPLES, Word, program
from feast_lab.lab.base import files
from feast_lab.lab.base.errors import LabError
from feast_lab.lab.base.program import Program
from feast_lab.lab.chain import keeper
from feast_lab.lab.chain.folder import Folder
from feast_lab.lab.chain.legs import LegMaker
from feast_lab.lab.chain.start import going_on
from feast_lab.lab.live.chain import Live
from feast_lab.lab.live.server import Server
from feast_lab.lab.live.session import ENDED, Session
from living import Living
from test_live import LiveCase

WORLD, ELEMENTS = EXAMPLES / "regulator-tiles.world", EXAMPLES / "regulator.ulam"
ORDERS: list[dict[str, Any]] = [
    {"do": "play"}, {"do": "pause"}, {"do": "leg"}, {"do": "slower"}, {"do": "alone"}, {"do": "undo"}, {"do": "fork"},
    {"do": "act", "acts": ["clear:0,0"]}, {"do": "stamp", "text": "o", "keys": ["o=Resource"], "x": 0, "y": 0}, {"do": "reload"},
]


class Faults(LiveCase):
    """Faults, as a server tells of them."""

    def instead(self, done: str) -> Path:
        """A program that does this in place of a run, while there is a file `now`."""
        path = self.file("instead", f"#!/bin/sh\ncase $* in run*|step*) test -e {self.room}/now && {{ {done}; exit; }} ;; esac\n"
                                    f"exec {program()} \"$@\"\n")
        path.chmod(0o755)
        return path

    def fault(self, live: Living) -> dict[str, Any]:
        """The first shot with a fault."""
        return next(shot for name, shot in live.events() if name == "shot" and shot["fault"])

    def regulator(self, *words: Word, instead: Path | None = None) -> Living:
        """A live chain of the regulator."""
        return self.living(*words, self.chain, WORLD, ELEMENTS, instead=instead)

    def test_fault_stays(self) -> None:
        """A fault stands until a leg is made, whatever is ordered meanwhile, and a page that is opened later is told of it."""
        live = self.regulator(instead=self.instead("exit 8"))
        (self.room / "now").touch()
        self.does(live, {"do": "play"})
        fault = self.fault(live)["fault"]
        self.assertEqual(fault, "the program ended with status 8: it ran out of memory")
        for order in ORDERS[1], ORDERS[3], ORDERS[6], ORDERS[7]:
            self.does(live, order)
            self.assertEqual(live.shot()["fault"], fault, order)
        (self.room / "now").unlink()
        self.does(live, {"do": "leg"})
        self.assertEqual(live.shot(leg=1)["fault"], "")
        self.assertEqual(live.ends(signal.SIGINT)[0], 0)
        self.assertEqual(self.passes("chain", "--audit", self.chain), "yes\n")

    def test_ended(self) -> None:
        """A session whose folder is gone ends; it says so to each order and to each page, and at its end."""
        live = self.regulator()
        os.rename(self.chain, self.room / "elsewhere")
        self.does(live, {"do": "play"})
        shot = self.fault(live)
        self.assertEqual((shot["mode"], shot["fault"].startswith(ENDED)), ("end", True))
        self.assertRegex(shot["fault"], r"can't be read: .*; .*acts.txt: can't be read: ")
        for order in ORDERS:
            self.assertEqual(live.order(order), (400, f"refused: {shot['fault']}\n"), order)
        self.assertEqual(live.shot("end")["fault"], shot["fault"])
        status, out, errors = live.ends(signal.SIGINT)
        self.assertEqual((status, errors), (2, f"lab: {shot['fault']}\n"))
        self.assertRegex(out, ": 0 legs, 0 events")
        os.rename(self.room / "elsewhere", self.chain)
        again = self.living(self.chain)
        self.does(again, {"do": "leg"})
        again.shot(leg=1)

    def test_nonsense(self) -> None:
        """What the lab isn't made for is told like any fault, and what waits for the leg is answered."""
        live = self.regulator(instead=self.instead("sleep 1; echo nonsense"))
        (self.room / "now").touch()
        self.does(live, {"do": "play"})
        self.does(live, {"do": "fork"})
        shot = self.fault(live)
        self.assertEqual((shot["mode"], shot["leg"]), ("pause", 0))
        self.assertRegex(shot["fault"], "instead: it wrote what is no report of leg 1, and ended with status 0")
        (self.room / "now").unlink()
        self.does(live, {"do": "leg"})
        self.assertEqual(live.shot(leg=1)["fault"], "")

    def test_faulty_order(self) -> None:
        """An order that meets a fault of the lab is answered, with what it was."""
        class Faulty:
            def do(self, order: object) -> str:
                raise RuntimeError(f"no {order}")

        server = Server(cast(Live, Faulty()), 0)
        self.addCleanup(server.server_close)
        self.addCleanup(server.shutdown)
        threading.Thread(target=server.serve_forever).start()
        link = HTTPConnection("127.0.0.1", server.server_port, timeout=60)
        self.addCleanup(link.close)
        link.request("POST", f"/{server.address.token}/do", b"5", {
            "Content-Type": "application/json", "Origin": f"http://127.0.0.1:{server.server_port}"})
        answer = link.getresponse()
        self.assertEqual((answer.status, answer.read()), (500, b"refused: a fault of the lab: RuntimeError: no 5\n"))


class Worker(LiveCase):
    """The thread that makes the legs."""

    def test_root(self) -> None:
        """Whatever ends it is told, and nothing waits for it."""
        self.passes("chain", self.chain, "--legs", "1", "--keep", "reports", WORLD, ELEMENTS)
        maker, course = going_on(Program.find(), Folder(self.chain))
        session = Session(maker, course)
        self.addCleanup(session.end)
        self.addCleanup(setattr, LegMaker, "called", LegMaker.called)
        is_there, goes_on = threading.Event(), threading.Event()

        def ends(*_words: object) -> bytes:
            is_there.set()
            goes_on.wait(60)
            raise SystemExit("no more")

        setattr(LegMaker, "called", ends)
        session.turn("play")
        is_there.wait(60)
        waiting = threading.Timer(0.5, goes_on.set)
        waiting.start()
        with self.assertRaisesRegex(LabError, "SystemExit: no more"):
            session.rest()
        self.assertEqual((session.shot.mode, session.shot.fault.startswith(ENDED)), ("end", True))
        with self.assertRaisesRegex(LabError, "the session has ended"):
            session.turn("play")
        waiting.join()

    def test_unwritten(self) -> None:
        """A leg that can't be written isn't done; the session goes on when it can."""
        self.passes("chain", self.chain, "--legs", "1", "--keep", "reports", WORLD, ELEMENTS)
        session = Session(*going_on(Program.find(), Folder(self.chain)))
        self.addCleanup(session.end)
        append_to = files.append_to
        self.addCleanup(setattr, keeper, "append_to", append_to)

        def fails(path: Path, data: bytes, is_lasting: bool = False) -> None:
            append_to(path, data[:len(data) // 2], is_lasting)
            raise LabError(f"{path}: can't be written: no space left on device")

        setattr(keeper, "append_to", fails)
        session.turn("play")
        with session.changed:
            session.changed.wait_for(lambda: session.shot.fault != "", 60)
        self.assertEqual((session.shot.mode, session.shot.leg), ("pause", 1))
        self.assertIn("legs.gz: can't be written: no space left", session.shot.fault)
        setattr(keeper, "append_to", append_to)
        session.turn("leg")
        with session.changed:
            session.changed.wait_for(lambda: session.shot.mode == "pause", 60)
        self.assertEqual((session.shot.leg, session.shot.fault, len(self.rows())), (2, "", 3))
        self.assertEqual(self.passes("chain", "--audit", self.chain), "yes\n")
