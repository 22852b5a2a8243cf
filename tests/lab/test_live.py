"""A chain at work, as `./lab live` serves it: orders, what they leave, ends and kills. test_live_hostile has requests that
are not the page's, test_live_page has a browser."""
import csv
import signal
import socket
from array import array
from base64 import b64decode
from pathlib import Path

import kept_chain
from calls import EXAMPLES, TOP, LabCase, Word, program
from films import plane_of
from living import Living

WORLD, ELEMENTS = EXAMPLES / "regulator-tiles.world", EXAMPLES / "regulator.ulam"
KINDS = """element Cell { Int(5) level; EventWindow ew; Void behave() { if (ew.isEmpty(4)) ew.swap(0, 4); } }
element Wall { EventWindow ew; Void behave() { } }
"""
KINDS_WORLD = "feast 2\ntiles 2 1\nsize 8 8\noff 1\nseed 3\nattempts 100\natom 1 2 Wall\n"
# Fails in a quarter of its events.
FRAIL = "element Frail { EventWindow ew; Random random; Void behave() { ew.isEmpty(random.create(4) + 38); } }\n"
FRAIL_WORLD = "feast 1\ntiles 1 1\nsize 16 16\nseed 3\nattempts 100\n" + "".join(
    f"atom {x} {y} Frail\n" for y in range(16) for x in range(16))
GLIDER = "x = 3, y = 3, rule = B3/S23\nbo$2bo$3o!\n"


class LiveCase(LabCase):
    """A live chain in the folder `chain` of the test."""

    def setUp(self) -> None:
        super().setUp()
        self.chain = self.room / "chain"

    def living(self, *words: Word, instead: Path | None = None) -> Living:
        """A live chain, which ends with the test."""
        live = Living(*words, instead=instead)
        self.addCleanup(live.close)
        return live

    def kinds(self, *options: str) -> Living:
        """A live chain of a small world with two elements."""
        return self.living(*options, self.chain, self.file("kinds.world", KINDS_WORLD), self.file("kinds.ulam", KINDS))

    def frail(self) -> Living:
        """A live chain of atoms that fail and never move, so each that vanishes failed; its legs are short."""
        live = self.living("--failures", "--step", self.chain, self.file("frail.world", FRAIL_WORLD), self.file("frail.ulam", FRAIL))
        for _ in range(7):
            self.does(live, {"do": "slower"})
        return live

    def sites(self, leg: int) -> set[int]:
        """The sites that have atoms after a leg, on a plane of 16 columns."""
        atoms = plane_of(kept_chain.atoms(self.chain, leg))
        return {16 * y + x for x, y in atoms}

    def does(self, live: Living, order: object) -> None:
        """Gives an order that is to be done."""
        self.assertEqual(live.order(order)[0], 200, order)

    def rows(self) -> list[dict[str, str]]:
        """The rows of the course."""
        with (self.chain / "course.csv").open() as file:
            return list(csv.DictReader(file))

    def acts(self) -> list[str]:
        """The acts on record, without lengths of legs."""
        record = self.chain / "acts.txt"
        return [line for line in record.read_text().splitlines() if ":attempts:" not in line] if record.exists() else []

    def begins(self, leg: int) -> list[str]:
        """The atoms with which a leg begins."""
        return kept_chain.begins(self.chain, leg)


class Orders(LiveCase):
    """Orders, and what they leave in the chain."""

    def test_acts(self) -> None:
        """Acts between legs are on record before the next leg, which begins with what they make."""
        live = self.kinds("--step")
        self.does(live, {"do": "act", "acts": ["put:Cell:level=-1:3,3+4,4", "clear:1,2"]})
        self.assertEqual(self.acts(), ["1:put:Cell:level=-1:3,3+4,4", "1:clear:1,2"])
        self.does(live, {"do": "act", "acts": ["put:Wall:0,0"]})
        self.does(live, {"do": "undo"})
        self.assertEqual((len(live.shot()["acts"]), live.shot()["done"]), (2, 2))
        self.does(live, {"do": "leg"})
        live.shot(leg=1)
        state = f"{0b11111 << 66:018x}"
        self.assertEqual(self.begins(1), [f"3 3 Cell {state}", f"4 4 Cell {state}"])
        self.does(live, {"do": "stamp", "text": GLIDER, "keys": ["o=Wall"], "x": 5, "y": 5})
        self.does(live, {"do": "act", "acts": ["flip:1:0,0,8,8", "erase:0:0,0,8,8"]})
        self.does(live, {"do": "leg"})
        live.shot(leg=2)
        walls = [line.split() for line in self.begins(2) if "Wall" in line]
        self.assertEqual([(int(x), int(y)) for x, y, _, _ in walls], [(6, 5), (7, 6), (5, 7), (6, 7), (7, 7)])
        self.assertEqual({int(state, 16).bit_count() for _, _, _, state in walls}, {1})
        self.assertEqual(self.acts()[-2], "2:flip:1:0,0,8,8")
        stream = live.events()
        moments = [act["events"] for act in next(stream)[1]["acts"]]
        self.assertEqual(moments, [0, 0] + [int(self.rows()[1]["events"])] * (len(self.acts()) - 2))
        self.assertEqual(next(stream)[1]["done"], len(moments))
        stream.close()
        status, out, errors = live.ends(signal.SIGINT)
        self.assertEqual((status, errors), (0, ""))
        self.assertRegex(out, rf"^{self.chain}: 2 legs, \d+ events, ")
        self.assertEqual(self.passes("chain", "--audit", self.chain), "yes\n")

    def test_lengths(self) -> None:
        """Slower and faster change the attempts of legs, which stand in the record and in the course."""
        live = self.kinds("--step")
        first = live.shot()["attempts"]
        for order, legs, attempts in [("slower", 1, first // 2), ("slower", 2, first // 4), ("faster", 3, first // 2),
                                      ("same", 4, first // 2)]:
            self.does(live, {"do": order})
            self.does(live, {"do": "leg"})
            self.assertEqual(live.shot(leg=legs)["attempts"], attempts)
            self.assertEqual(self.rows()[legs]["attempts"], str(attempts))
            self.assertIn(f"{legs}:attempts:{attempts}\n", (self.chain / "acts.txt").read_text())
        self.does(live, {"do": "alone"})
        self.does(live, {"do": "play"})
        live.shot("play", leg=6)
        self.does(live, {"do": "pause"})
        live.shot("pause")
        live.ends(signal.SIGTERM)
        self.assertEqual(self.passes("chain", "--audit", self.chain), "yes\n")

    def test_two_pages(self) -> None:
        """Two pages are told the same; one that goes away stops nothing."""
        live = self.kinds()
        pages = [live.events() for _ in range(3)]
        heads = [next(page) for page in pages]
        self.assertEqual(heads[0], heads[1])
        for page in pages:
            next(page)
        pages.pop().close()
        self.does(live, {"do": "act", "acts": ["put:Wall:0,0"]})
        told = [next(page) for page in pages]
        self.assertEqual(told[0], told[1])
        self.assertEqual(told[0][1]["acts"], ["put:Wall:0,0"])
        for page in pages:
            page.close()

    def test_fork(self) -> None:
        """A fork has the legs that are done and the acts behind them, and is a chain of its own."""
        live = self.kinds("--step")
        self.does(live, {"do": "leg"})
        live.shot(leg=1)
        self.does(live, {"do": "act", "acts": ["put:Cell:0,0"]})
        for number in (1, 2):
            status, said = live.order({"do": "fork"})
            self.assertEqual((status, said.split(":")[0]), (200, f"The chain up to leg 1 is copied to chain-fork{number}"))
        self.does(live, {"do": "leg"})
        live.shot(leg=2)
        live.ends(signal.SIGINT)
        fork = self.room / "chain-fork1"
        self.assertEqual(self.passes("chain", "--audit", fork), "yes\n")
        self.passes("chain", fork, "--legs", "2", "--step", "--keep", "reports", "--at", f"2:attempts:{self.rows()[2]['attempts']}",
                    self.room / "kinds.world", self.room / "kinds.ulam")
        self.assertEqual(kept_chain.atoms(fork, 2), kept_chain.atoms(self.chain, 2))

    def test_measures(self) -> None:
        """A chain with measures goes on with them, and so does a fork of it."""
        inputs = [self.file("kinds.world", KINDS_WORLD + "atom 5 5 Cell\n"), self.file("kinds.ulam", KINDS)]
        self.passes("chain", self.chain, "--legs", "1", "--step", "--keep", "reports", "--count", "Cell.level=0", *inputs)
        live = self.living(self.chain)
        self.assertEqual(live.order({"do": "fork"})[0], 200)
        self.does(live, {"do": "leg"})
        live.shot(leg=2)
        live.ends(signal.SIGINT)
        self.assertEqual([row["count(Cell.level=0)"] for row in self.rows()], ["1", "1", "1"])
        rows = (self.chain / "course.csv").read_text().splitlines(True)
        self.assertEqual((self.room / "chain-fork1" / "course.csv").read_text(), "".join(rows[:3]))
        self.assertEqual(self.passes("chain", "--audit", self.room / "chain-fork1"), "yes\n")

    def test_failures(self) -> None:
        """With --failures pages are told where events of the last leg failed, and of how many that did since the beginning."""
        live = self.frail()
        self.assertEqual(live.shot()["failed"], {"sites": "", "counts": ""})
        for leg in (1, 2):
            self.does(live, {"do": "leg"})
            told = live.shot(leg=leg)
            gone = self.sites(leg - 1) - self.sites(leg)
            self.assertGreater(len(gone), 5)
            self.assertEqual(set(array("I", b64decode(told["failed"]["sites"]))), gone)
            self.assertEqual(list(array("I", b64decode(told["failed"]["counts"]))), [1] * len(gone))
            self.assertEqual(told["allFailed"], 256 - len(self.sites(leg)))
        live.ends(signal.SIGINT)
        self.assertEqual(self.passes("chain", "--audit", self.chain), "yes\n")
        self.assertIsNone(self.living(self.chain).shot()["failed"])

    def test_reload(self) -> None:
        """Elements that were changed go on from the same plane in a chain of their own; faulty ones leave it as it is."""
        live = self.kinds("--step")
        self.does(live, {"do": "act", "acts": ["put:Cell:level=3:0,0"]})
        self.does(live, {"do": "leg"})
        live.shot(leg=1)
        file = self.room / "kinds.ulam"
        wrong = KINDS.replace("ew.swap(0, 4)", "\tew.swap(0, five)")
        line = wrong.splitlines()[0]
        before = line[:line.index("five")]
        caret = " " * before.index("\t") + "\t" + " " * (len(before) - before.index("\t") - 1) + "^"
        for text, says in [
            (wrong, f"refused: {file}:1:{len(before) + 1}: E31 unknown name\n{line}\n{caret}\n"),
            (KINDS.replace("Cell", "Sell"), "refused: the plane has atoms of Cell, which no file has as an element now\n"),
        ]:
            file.write_text(text)
            self.assertEqual(live.order({"do": "reload"}), (400, says))
        self.assertEqual(live.shot()["leg"], 1)
        file.write_text(KINDS.replace("isEmpty(4)) ew.swap(0, 4)", "isEmpty(1)) ew.swap(0, 1)"))
        stream = live.events()
        for _ in range(2):
            next(stream)
        self.assertEqual(live.order({"do": "reload"}), (200, "The elements are read again; the chain goes on in chain-reload1."))
        while (told := next(stream))[0] == "shot":
            pass
        self.assertEqual(told[0], "anew")
        stream.close()
        self.does(live, {"do": "leg"})
        live.shot(leg=1)
        status, out, _ = live.ends(signal.SIGINT)
        self.assertEqual((status, out.split(":")[0]), (0, str(self.room / "chain-reload1")))
        anew = self.room / "chain-reload1"
        self.assertEqual(kept_chain.atoms(anew, 0), kept_chain.atoms(self.chain, 1))
        self.assertIn("seed 7\n", kept_chain.told(anew, 1, "world"))  # that of the leg that would have followed: 3 + 4
        for chain in (self.chain, anew):
            self.assertEqual(self.passes("chain", "--audit", chain), "yes\n")

    def test_reload_measures(self) -> None:
        """The new chain has the columns of the old one, but for what its elements can't be asked for any more."""
        world, file = self.file("kinds.world", KINDS_WORLD), self.file("kinds.ulam", KINDS)
        self.passes("chain", self.chain, "--legs", "1", "--step", "--keep", "reports", "--failures", "--sum", "Cell.level",
                    "--count", "Cell.level>2", world, file)
        live = self.living("--step", self.chain, world, file)
        for edit, lost in ((("}\n", "} \n"), ""), (("level", "height"), " No longer measured: sum(Cell.level), count(Cell.level>2).")):
            file.write_text(KINDS.replace(*edit))
            status, said = live.order({"do": "reload"})
            self.assertEqual((status, said.partition(".")[2]), (200, lost))
            self.does(live, {"do": "leg"})
            live.shot(leg=1)
        live.ends(signal.SIGINT)
        names = ["chain", "chain-reload1", "chain-reload1-reload1"]
        heads = [(self.room / name / "course.csv").read_text().splitlines() for name in names]
        self.assertEqual(heads[1][0], heads[0][0])
        self.assertEqual(heads[2][0], "leg,attempts,events,abandoned,failed,aeps,Cell,Wall")
        self.assertEqual([len(lines) for lines in heads], [3, 3, 3])
        for name in names:
            self.assertEqual(self.passes("chain", "--audit", self.room / name), "yes\n")

    def test_reload_without_files(self) -> None:
        """A chain that was opened by its folder alone has no files to read again."""
        self.kinds().ends(signal.SIGINT)
        live = self.living(self.chain)
        status, said = live.order({"do": "reload"})
        self.assertEqual((status, said), (400, "refused: no element files were named: start it with ./lab live DIR WORLD FILE..\n"))

    def test_refused_orders(self) -> None:
        """Orders that can't be done get one line, and leave nothing."""
        live = self.kinds()
        for order, says in [
            (3, "an order is an object with `do`"), ({}, "an order is an object"), ({"do": 1}, "an order is an object"),
            ({"do": "rm"}, "there is no order rm"), ({"do": "undo"}, "there is nothing to take back"),
            ({"do": "act"}, "the order needs `acts`"), ({"do": "act", "acts": []}, "1 to 1000 texts"),
            ({"do": "act", "acts": ["put:Wall:0,0"] * 1001}, "1 to 1000 texts"), ({"do": "act", "acts": [1]}, "1 to 1000 texts"),
            ({"do": "act", "acts": ["attempts:5"]}, "an act begins with clear:, put:, erase:, flip:"),
            ({"do": "act", "acts": ["put:Wall:0,0", "put:Cell:level=16:0,0"]}, "Cell.level can't be 16: it goes from -16 to 15"),
            ({"do": "act", "acts": ["put:Wall:16,0"]}, "16,0 is no site of the plane"),
            ({"do": "act", "acts": ["put:Wall:9,0"]}, "tile 1 is off"),
            ({"do": "act", "acts": ["clear:0,0\n9:clear:0,0"]}, "clear:0,0?9:clear:0,0: it has to be"),
            ({"do": "act", "acts": ["erase:2:0,0"]}, "no probability"),
            ({"do": "stamp", "text": GLIDER, "keys": ["o=Wall"], "x": 7, "y": 0}, "tile 1 is off"),
            ({"do": "stamp", "text": GLIDER, "keys": ["o=Wall"], "x": 0, "y": 6}, "is no"),
            ({"do": "stamp", "text": GLIDER, "keys": ["b=Wall"], "x": 0, "y": 0}, "the drawing: o at column 1 of row 0 has no key"),
            ({"do": "stamp", "text": "x = 1, y = 1\n3q!", "keys": ["o=Wall"], "x": 0, "y": 0}, "the drawing: "),
            ({"do": "stamp", "text": "", "keys": [], "x": 0, "y": 0}, "a stamp takes keys, such as o=Name"),
            ({"do": "stamp", "text": "", "keys": ["o=Wall"], "x": 0, "y": 0}, "the drawing has no symbols"),
            ({"do": "stamp", "text": "o", "keys": ["o=Fish"], "x": 0, "y": 0}, "no file has an element Fish"),
            ({"do": "stamp", "text": "o", "keys": ["o=Wall"], "x": 0.5, "y": 0}, "whole numbers"),
            ({"do": "stamp", "text": "o", "keys": ["o=Wall"], "x": -1, "y": 0}, "whole numbers"),
        ]:
            status, said = live.order(order)
            self.assertEqual(status, 400, order)
            self.assertRegex(said, r"\Arefused: [^\n]*\n\Z")
            self.assertIn(says, said)
        self.assertEqual((self.acts(), live.shot()["acts"]), ([], []))


class Ends(LiveCase):
    """How a live chain begins and ends."""

    def test_words(self) -> None:
        self.refused("chain: no chain was begun there", "live", "--no-open", self.chain)
        self.refused("a chain is begun with DIR WORLD FILE..", "live", "--no-open", self.chain, WORLD)
        self.refused("--port 65536: a port is from 1 to 65535", "live", "--port", "65536", self.chain, WORLD, ELEMENTS)
        self.refused("walk.world: its attempts have to be drawn",
                     "live", self.chain, EXAMPLES / "walk.world", EXAMPLES / "walker.ulam")
        with socket.socket() as taken:
            taken.bind(("127.0.0.1", 0))
            taken.listen()
            port = str(taken.getsockname()[1])
            self.refused(f"--port {port}: can't be served at: address already in use",
                         "live", "--port", port, self.chain, WORLD, ELEMENTS)
        colored = self.file("colored.ulam", "/** \\color-by + */\n" + KINDS)
        self.refused("colored.ulam:1: \\color-by takes the name of a member, not '+'",
                     "live", "--no-open", self.chain, self.file("kinds.world", KINDS_WORLD), colored)
        self.file("fork.ulam", "element A { }")
        self.refused("fork.ulam:1:9: E33 no behave", "live", self.chain, WORLD, self.room / "fork.ulam")

    def test_one_writer(self) -> None:
        """What else would write the chain is refused, and so is another world."""
        live = self.living(self.chain, WORLD, ELEMENTS)
        self.refused("another call of the lab is at work on this chain", "live", self.chain)
        self.refused("another call of the lab is at work", "chain", self.chain, "--legs", "1", "--keep", "reports", WORLD, ELEMENTS)
        self.does(live, {"do": "leg"})
        live.shot(leg=1)
        live.ends(signal.SIGINT)
        self.refused("begun with another world", "live", self.chain, EXAMPLES / "regulator.world", ELEMENTS)
        self.refused("the chain was begun without --step", "live", "--step", self.chain, WORLD, ELEMENTS)
        for option in (["--step"], ["--seed", "1"], ["--keep", "none"]):
            self.refused("--step, --seed and --keep are for a chain to begin", "live", *option, self.chain)
        self.assertEqual(self.living(self.chain).shot()["leg"], 1)

    def test_killed(self) -> None:
        """Killed in the midst of a play, it goes on from the last leg that is done, with what was done by hand."""
        live = self.living(self.chain, WORLD, ELEMENTS)
        self.does(live, {"do": "play"})
        live.shot("play", leg=3)
        self.does(live, {"do": "act", "acts": ["clear:0,0,16,8"]})
        live.ends(signal.SIGKILL)
        done = kept_chain.packs_of(self.chain).done
        self.assertGreater(done, 0)
        again = self.living(self.chain)
        self.assertEqual(again.shot()["leg"], done)
        (act,) = self.acts()
        self.assertRegex(act, r"^\d+:clear:0,0,16,8$")
        cleared = int(act.partition(":")[0])
        for leg in range(done + 1, cleared + 1):
            self.does(again, {"do": "leg"})
            again.shot(leg=leg)
        self.assertTrue(all(int(line.split()[1]) >= 8 for line in self.begins(cleared)))
        again.ends(signal.SIGINT)
        self.assertEqual(self.passes("chain", "--audit", self.chain), "yes\n")

    def test_pause(self) -> None:
        """A pause shows what is on record, whenever it comes: killed at once, the chain has the leg that was shown."""
        live = self.kinds()
        for leg in (2, 4, 6, 8):  # short legs, so most of the time is between two of them
            self.does(live, {"do": "play"})
            live.shot("play", leg=leg)
            self.does(live, {"do": "pause"})
            self.assertEqual(kept_chain.packs_of(self.chain).done, live.shot("pause")["leg"])

    def test_pages(self) -> None:
        """The commands of the pages serve."""
        commands = [line.split()[2:] for page in ("live.md", "tutorial.md")
                    for line in (TOP / "docs" / page).read_text().splitlines() if line.startswith("    ./lab live ")]
        self.assertEqual(len(commands), 2)
        for name, *files in commands:
            live = self.living(self.room / name, *(TOP / file for file in files))
            self.does(live, {"do": "leg"})
            live.shot(leg=1)
            self.assertEqual(live.ends(signal.SIGINT)[0], 0)
            self.assertEqual(self.passes("chain", "--audit", self.room / name), "yes\n")

    def test_leg_that_fails(self) -> None:
        """A leg that can't be made stops the play, is told, and can be tried again."""
        flag = self.file("flag", "")
        failing = self.file("failing", f"#!/bin/sh\ncase $* in run*) test -e {flag} && exit 8 ;; esac\nexec {program()} \"$@\"\n")
        failing.chmod(0o755)
        live = self.living(self.chain, WORLD, ELEMENTS, instead=failing)
        self.does(live, {"do": "play"})
        told = next(shot for name, shot in live.events() if name == "shot" and shot["fault"])
        self.assertEqual((told["fault"], told["mode"], told["leg"]),
                         ("the program ended with status 8: it ran out of memory", "pause", 0))
        flag.unlink()
        self.does(live, {"do": "leg"})
        self.assertEqual(live.shot(leg=1)["fault"], "")
        live.ends(signal.SIGINT)
        self.assertEqual(self.passes("chain", "--audit", self.chain), "yes\n")
