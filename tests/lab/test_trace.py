"""What `trace` says of events, against what `rewind` says of the plane before and after them."""
import csv
import io
import re
from collections.abc import Sequence
from pathlib import Path

import films
from calls import EXAMPLES, LabCase, Word, feast
from kept_chain import atoms

OFFSETS = sorted(((dx, dy) for dx in range(-4, 5) for dy in range(-4, 5) if abs(dx) + abs(dy) <= 4),
                 key=lambda it: (abs(it[0]) + abs(it[1]), it))
LOST = [EXAMPLES / "tutorial" / "lost.ulam", EXAMPLES / "stone.ulam"]
# The mover's members: `n` in the bits 0 to 3, `part.k` in 4 to 6.
MOVER = """quark Part { Unsigned(3) k; Void grow() { k++; } Unsigned half(Unsigned of) { return of / 2; } }
/** \\symbol Mo */
element Mover {
  EventWindow ew;
  Random random;
  Unsigned(4) n;
  Part part;
  Void step(Unsigned site) {
    ew.swap(0, site);
  }
  Void behave() {
    n++;
    part.grow();
    if (random.oneIn(1)) step(random.create(4) + 1);
  }
}
"""
WORLD = """feast 1
tiles 1 1
size 8 8
try 0 3 3 0000000000000001
try 0 7 7 0000000000000002
try 0 0 0 0000000000000003
atom 3 3 Mover 3c0000000000000000
atom 0 0 Mover
"""


class Trace(LabCase):
    """The verb `trace`."""

    def planes(self, world: Word, report: Word, files: Sequence[Word], upto: int) -> list[films.Plane]:
        """The atoms after each number of events up to one, as `rewind` says."""
        return [films.plane_of(feast("rewind", world, report, str(events), *files).splitlines()[2:])
                for events in range(upto + 1)]

    def rows(self, *words: Word) -> list[dict[str, str]]:
        """What the verb writes as CSV."""
        return list(csv.DictReader(io.StringIO(self.passes("trace", *words))))

    def test_text(self) -> None:
        """An event is told with its window, its members, its functions and their lines, and its random words."""
        world, file = self.file("w", WORLD), self.file("mover.ulam", MOVER)
        report = self.file("r", feast("run", world, file))
        told = self.passes("trace", world, report, "1", file)
        # The first two words of SplitMix64 with the seed 1.
        words = [0x910a2dec89025cc1, 0xbeeb8da1658eec67]
        site = words[1] % 4 + 1
        x, y = 3 + OFFSETS[site][0], 3 + OFFSETS[site][1]
        self.assertTrue(told.startswith(
            "event 1 of 3: attempt 0 of tile 0, stamp 1, at 3 3, seed 0000000000000001\n"
            "Mover n=7 part.k=4 acts, with "), told)
        self.assertIn("\nchanged:\n"
                      "  site 0 at 3 3: Mover n=7 part.k=4 -> Empty\n"
                      f"  site {site} at {x} {y}: Empty -> Mover n=8 part.k=5\n", told)
        self.assertIn("\nwhat it did:\n"
                      f"  behave ({file}:11)\n"
                      f"    grow ({file}:1)\n"
                      f"    random word {words[0]:016x}: oneIn(1) is true\n"
                      f"    random word {words[1]:016x}: create(4) is {words[1] % 4}\n"
                      f"    step ({file}:8)\n"
                      f"      swaps sites 0 and {site}\n", told)
        self.assertEqual(self.passes("trace", world, report, "2", file),
                         "event 2 of 3: attempt 1 of tile 0, stamp 2, at 7 7, seed 0000000000000002\n"
                         "The centre is empty, so the event changes nothing.\n")
        self.assertIn("- not live", self.passes("trace", world, report, "3", file))

    def test_failure(self) -> None:
        """A failed event is told with its function, its instruction, the member and the cause."""
        world = EXAMPLES / "tutorial" / "pacer.world"
        report = self.file("r", feast("run", world, *LOST))
        lines = report.read_text().splitlines()
        journal = lines[lines.index("journal 1000") + 1:]
        event = next(at for at, line in enumerate(journal, 1) if line.split()[3:5] == ["3", "3"])
        told = self.passes("trace", world, report, str(event), *LOST)
        self.assertIn(f"It failed in behave ({LOST[0]}:6) at instruction ", told)
        self.assertRegex(told, r"LoadField 0 7 Unsigned \(member steps\)\.\nCause 6: site 0 no longer had the acting type")
        self.assertIn("  site 0 at 3 3: Pacer steps=0 west=0 -> Empty\n", told)

    def test_pictures(self) -> None:
        """Both pictures have, at each site of the window, the symbol of the atom that `rewind` says is there."""
        files = [self.file("mover.ulam", MOVER), EXAMPLES / "stone.ulam"]
        world, sites = self.crowd()
        report = self.file("r", feast("run", world, *files))
        planes = self.planes(world, report, files, len(sites))
        acted = 0
        for event, site in enumerate(sites, 1):
            told = self.passes("trace", world, report, str(event), *files)
            if "The centre is empty" not in told:
                acted += 1
                self.check_picture(told, 0, site, planes[event - 1], planes[event - 1])
                self.check_picture(told, 49, site, planes[event], planes[event - 1])
        self.assertGreater(acted, 5)

    def crowd(self) -> tuple[Path, list[films.Site]]:
        """A world with many movers and stones, and the sites of its attempts."""
        sites = [(4, 4), (0, 0), (7, 7), (1, 6), (7, 2), (2, 0), (0, 4), (4, 7), (6, 4)]
        movers = sites[:-1]  # the last has a stone, which does nothing
        tries = "".join(f"try 0 {x} {y} {at:016x}\n" for at, (x, y) in enumerate(sites))
        atoms = "".join(f"atom {x} {y} {'Mover' if (x, y) in movers or x == y else 'Stone'}\n"
                        for y in range(8) for x in range(8) if (x, y) in movers or (x * y + x) % 3 == 0)
        return self.file("w", f"feast 1\ntiles 1 1\nsize 8 8\n{tries}{atoms}"), sites

    def check_picture(self, told: str, column: int, centre: films.Site, plane: films.Plane, before: films.Plane) -> None:
        """Compares a picture, from a column on, with a plane of 8 by 8 sites and the one before."""
        lines = told.split("\n")[4:13]
        for dx, dy in OFFSETS:
            cell = lines[dy + 4][column + 5 * (dx + 4):][:5].strip()
            x, y = centre[0] + dx, centre[1] + dy
            symbol = {"Mover": "Mo", "Stone": "St"}.get(plane.get((x, y), "").split(" ")[0], ".")
            star = "*" if plane.get((x, y)) != before.get((x, y)) else ""
            self.assertEqual(cell, symbol + star if 0 <= x < 8 and 0 <= y < 8 else "-", told)

    def test_site(self) -> None:
        """The events that touched a site are those that changed its atom, and those of which it was the centre."""
        files = [self.file("mover.ulam", MOVER), EXAMPLES / "stone.ulam"]
        world, sites = self.crowd()
        report = self.file("r", feast("run", world, *files))
        planes = self.planes(world, report, files, len(sites))
        found = 0
        for x, y in [(0, 0), (4, 4), (3, 4), (4, 3), (1, 0), (6, 7), (6, 4)]:
            events = [event for event, centre in enumerate(sites, 1)
                      if planes[event].get((x, y)) != planes[event - 1].get((x, y))
                      or (centre == (x, y) and centre in planes[event - 1])]
            rows = self.rows(world, report, *files, "--site", str(x), str(y))
            self.assertEqual([int(row["event"]) for row in rows], events)
            self.assertEqual([(int(row["x"]), int(row["y"])) for row in rows], [sites[event - 1] for event in events])
            found += len(rows)
        self.assertGreater(found, 2)
        self.assertEqual(self.rows(world, report, "2", *files, "--site", "0", "0"), [])

    def test_atom(self) -> None:
        """The way of the only mover on a plane is where `rewind` finds it after each event."""
        file = self.file("mover.ulam", MOVER)
        near = [(4 + dx, 4 + dy) for dx, dy in OFFSETS[:25]]
        tries = "".join(f"try 0 {x} {y} {at:016x}\n" for at, (x, y) in enumerate(near))
        world = self.file("w", f"feast 1\ntiles 1 1\nsize 9 9\n{tries}atom 4 4 Mover\n")
        report = self.file("r", feast("run", world, file))
        planes = self.planes(world, report, [file], len(near))
        way = [(str(event), *site) for event, plane in enumerate(planes) for site in plane
               if event == 0 or plane != planes[event - 1]]
        rows = self.rows(world, report, file, "--atom", "4", "4")
        self.assertEqual([(row["event"], int(row["x"]), int(row["y"])) for row in rows], way)
        self.assertEqual([row["what"] for row in rows][:2], ["begins", "moves"])
        self.assertGreater(len(way), 2)
        event, x, y = way[1]
        later = self.rows(world, report, event, file, "--atom", str(x), str(y))
        self.assertEqual([row["event"] for row in later], [event for event, _, _ in way[1:]])

    def test_ways(self) -> None:
        """What moves, changes and ends an atom."""
        cases = [
            ("ew.swap(0, 4);", "moves 5 4 Hero n=0 Hero"),
            ("ew.swap(4, 0);", "moves 5 4 Hero n=0 Hero"),
            ("n = 3;", "changes 4 4 Hero n=3 Hero"),
            ("ew[4] = self; ew[0] = Empty.instanceof;", "moves 5 4 Hero n=0 Hero"),
            ("Atom me = self; ew[0] = Empty.instanceof; ew[4] = me;", "moves 5 4 Hero n=0 Hero"),
            ("ew[4] = self; ew[3] = self; ew[0] = Empty.instanceof;", "ends 4 4 Hero n=0 Hero"),
            ("ew[0] = Empty.instanceof;", "ends 4 4 Hero n=0 Hero"),
            ("Hero h; h.n = 5; ew[0] = h;", "changes 4 4 Hero n=5 Hero"),
            ("ew[0] = Rock.instanceof;", "ends 4 4 Hero n=0 Hero"),
            ("ew[41] = self;", "ends 4 4 Hero n=0 Hero 4"),
            ("ew.swap(1, 2); ew.swap(0, 1); ew.swap(1, 4);", "moves 5 4 Hero n=0 Hero"),
            ("ew[1] = self;", ""),
        ]
        world = self.file("w", "feast 1\ntiles 1 1\nsize 8 8\ntry 0 4 4 0000000000000001\natom 4 4 Hero\n")
        for body, expected in cases:
            with self.subTest(body):
                file = self.file("hero.ulam", "element Hero { EventWindow ew; Unsigned(3) n; Void behave() { "
                                              f"{body} }} }}\nelement Rock {{ Void behave() {{ }} }}\n")
                rows = self.rows(world, self.file("r", feast("run", world, file)), file, "--atom", "4", "4")
                told = [" ".join([row[it] for it in ("what", "x", "y", "atom", "by", "cause")]).strip() for row in rows]
                self.assertEqual(told, ["begins 4 4 Hero n=0", *([expected] if expected else [])])

    def test_chain(self) -> None:
        """Events of a chain are numbered over all legs, and an atom is followed from leg to leg."""
        file = self.file("mover.ulam", MOVER)
        world = self.file("w", "feast 1\ntiles 2 1\nsize 8 8\nseed 3\nattempts 100\natom 5 5 Mover\n")
        folder = self.room / "chain"
        self.passes("chain", folder, "--legs", "3", "--step", "--keep", "reports", world, file)
        rows = self.rows(folder, "--atom", "5", "5")
        ends = list(csv.DictReader((folder / "course.csv").open()))
        events = sum(int(leg["events"]) for leg in ends)
        self.assertGreater(int(rows[-1]["event"]), int(ends[1]["events"]))
        left = atoms(folder, 3)[0].split()
        self.assertEqual([rows[-1]["x"], rows[-1]["y"]], left[:2])
        event = rows[-1]["event"]
        told = self.passes("trace", folder, event)
        self.assertIn(f"event {event} of {events}: ", told)
        self.assertIn(f" at {left[0]} {left[1]}: Empty -> {rows[-1]['atom']}\n", told)

    def test_lines(self) -> None:
        """A function is that of the nearest class that declares it: the element, its bases, or a quark that is a member."""
        file = self.file("kin.ulam", """quark Root {
  Unsigned(2) a;
  virtual Void turn() { a = 1; }
  Void both() { turn(); }
}
quark Deep { Unsigned(2) z; Void set() { z = 1; } }
quark Wheel {
  Unsigned(3) w;
  Deep deep;
  Void set() { w = 2; deep.set(); }
}
element Heir : Root {
  Wheel wheel;
  constant Int cSix = 6;
  Void turn() { a = 2; }
  Void set() { both(); }
  Void behave() { set(); wheel.set(); }
}
""")
        world = self.file("w", "feast 1\ntiles 1 1\nsize 8 8\ntry 0 4 4 0000000000000001\natom 4 4 Heir\n")
        told = self.passes("trace", world, self.file("r", feast("run", world, file)), "1", file)
        found = re.findall(rf"^ *(\w+) \({re.escape(str(file))}:(\d+)\)$", told, re.MULTILINE)
        self.assertEqual(found, [("behave", "17"), ("set", "16"), ("both", "4"), ("turn", "15"), ("set", "10"), ("set", "6")])

    def test_bad_input(self) -> None:
        """What there isn't is refused in one line."""
        world, file = self.file("w", WORLD), self.file("mover.ulam", MOVER)
        report = self.file("r", feast("run", world, file))
        other = self.file("other.ulam", MOVER.replace("n++", "n--"))
        cases: list[tuple[str, list[Word]]] = [
            ("event 4: there are 3 events", [world, report, "4", file]),
            ("event 0: there are 3 events", [world, report, "0", file]),
            ("after 4 events: there are 3 events", [world, report, "4", file, "--atom", "3", "3"]),
            ("8 0: outside the plane of 8 by 8 sites", [world, report, file, "--site", "8", "0"]),
            ("1 1: there is no atom after 0 events", [world, report, file, "--atom", "1", "1"]),
            ("which event?", [world, report, file]),
            ("not allowed with argument", [world, report, file, "--atom", "1", "1", "--site", "1", "1"]),
            ("its atoms are not those to which its events lead", [world, report, "1", other]),
            ("the words have to be WORLD REPORT FILE..", [world, report, "1"]),
            ("no chain was begun there", [self.room, "1"]),
            ("E01 unreadable", [world, report, "1", self.room / "none"]),
            ("can't be read", [self.room / "none", report, "1", file]),
        ]
        for says, words in cases:
            with self.subTest(says):
                self.refused(says, "trace", *words)
