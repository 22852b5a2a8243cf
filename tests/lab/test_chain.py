"""Chains: what their legs are, how they go on after a kill, and what is refused."""
import csv
import fcntl
import json
import os
import shutil
import signal
import subprocess
import sys
from pathlib import Path

from calls import EXAMPLES, LabCase, Word, around, feast, lab, program
from kept_chain import atoms, begins, contents, packs_of, repack, told

WORLD = """feast 1
# a chain begins here
tiles 2 2
size 8 8
seed 3
attempts 500
atom 1 2 Resource
atom 4 4 Regulator
atom 11 4 Regulator
atom 4 11 Regulator
order 1 2 3
"""
ELEMENTS = """element Regulator {
  EventWindow ew; Random random; Unsigned(9) age;
  Void behave() {
    Unsigned i = random.create(4) + 1;
    age += 1;
    if (!ew.isEmpty(i)) { if (random.oneIn(40)) ew[i] = Empty.instanceof; }
    else if (random.oneIn(4)) ew[i] = self;
    else if (random.oneIn(4)) ew[i] = Resource.instanceof;
    else ew.swap(0, i);
  }
}
element Resource { EventWindow ew; Void behave() { if (ew.isEmpty(4)) ew.swap(0, 4); } }
"""
HERE = Path(__file__).resolve().parent


def lines_of(path: Path) -> list[str]:
    """The lines of a file."""
    return path.read_text().splitlines()


class ChainCase(LabCase):
    """A chain in the folder `chain` of the test, of a small world."""

    def setUp(self) -> None:
        super().setUp()
        self.chain = self.room / "chain"
        self.world = self.file("small.world", WORLD)
        self.elements = self.file("regulator.ulam", ELEMENTS)

    def words(self, legs: int, *more: str) -> list[str | Path]:
        """The words of the chain."""
        return ["chain", self.chain, "--legs", str(legs), *more, self.world, self.elements]

    def rows(self) -> list[dict[str, str]]:
        """The rows of the course."""
        with (self.chain / "course.csv").open() as file:
            return list(csv.DictReader(file))


class Legs(ChainCase):
    """What a chain's files have."""

    def test_ten_legs(self) -> None:
        """The course agrees with counts over the reports, and each leg begins where the one before ended."""
        self.passes(*self.words(10, "--step", "--keep", "reports"))
        rows = self.rows()
        self.assertEqual([row["leg"] for row in rows], [str(leg) for leg in range(11)])
        events = 0
        before = atoms(self.chain, 0)
        self.assertEqual(sorted(before), sorted(f"{line[5:]} {'0' * 18}" for line in WORLD.splitlines() if line[:4] == "atom"))
        for leg, row in enumerate(rows[1:], 1):
            world = told(self.chain, leg, "world").splitlines()
            report = told(self.chain, leg, "whole").splitlines()
            seed = 3 + 6 * (leg - 1)
            self.assertEqual(world[:5], ["feast 1", "tiles 2 2", "size 8 8", f"seed {seed}", "attempts 500"])
            self.assertEqual([line[5:] for line in world[5:-1]], before)
            self.assertEqual(world[-1], f"order seed {seed + 4}")
            records = [line for line in report if len(line.split()) == 6]
            given_up = [line for line in report if len(line.split()) == 7]
            before = [line for line in report if len(line.split()) == 4]
            events += len(records)
            self.assertEqual((row["attempts"], row["events"], row["abandoned"]),
                             ("2000", str(len(records)), str(len(given_up))))
            self.assertEqual(row["aeps"], f"{events / 256:.4f}")
            self.assertEqual((row["Regulator"], row["Resource"]), (str(sum("Regulator" in line for line in before)),
                                                                   str(sum("Resource" in line for line in before))))
            self.assertEqual(atoms(self.chain, leg), before)
            alone = self.file("leg.world", told(self.chain, leg, "world"))
            self.assertEqual("\n".join(report) + "\n", feast("step", alone, self.elements))
        self.assertGreater(events, 4000)
        self.assertEqual(self.passes("chain", "--audit", self.chain), "yes\n")

    def test_the_programs_own(self) -> None:
        """What a chain keeps is the report of one chain file, which the program audits; gzip alone unpacks it."""
        self.passes(*self.words(5, "--step", "--keep", "reports", "--at", "3:clear:0,0,8,8", "--noise", "0.25"))
        chain = self.file("chain.text", self.passes("unpack", self.chain, "--chain"))
        report = self.file("report", self.passes("unpack", self.chain))
        self.assertEqual(feast("audit", chain, report, self.elements), "yes\n")
        self.assertEqual(report.read_text(), feast("step", chain, self.elements))
        gunzip = subprocess.run(["gzip", "-dc", self.chain / "legs.gz"], stdout=subprocess.PIPE, check=True)
        self.assertEqual(gunzip.stdout, report.read_bytes())
        self.assertIn("every 1 flip 0.25 0 0 16 16\nact 3 clear 0 0 8 8\n", chain.read_text())

    def test_threads(self) -> None:
        """A chain on threads has no order, and its reports audit too."""
        said = self.passes(*self.words(4, "--keep", "reports", "--seed", "18446744073709551613"))
        worlds = [told(self.chain, leg, "world").splitlines() for leg in range(1, 5)]
        self.assertEqual([world[3] for world in worlds], ["seed 18446744073709551613", "seed 3", "seed 9", "seed 15"])
        self.assertFalse(any("order" in line for world in worlds for line in world))
        self.assertEqual(self.passes("chain", "--audit", self.chain), "yes\n")
        events = sum(int(row["events"]) for row in self.rows())
        self.assertEqual(said, f"{self.chain}: 4 legs, {events} events, {events / 256:.4f} a site\n")

    def test_no_reports(self) -> None:
        """Without --keep reports the rest is the same, and there is nothing to audit."""
        self.passes(*self.words(3, "--step", "--keep", "reports"))
        kept, left = contents(self.chain), [atoms(self.chain, leg) for leg in range(4)]
        shutil.rmtree(self.chain)
        self.passes(*self.words(3, "--step"))
        bare = contents(self.chain)
        self.assertEqual(kept.keys(), bare.keys())
        for name in bare.keys() - {"chain.json", "legs.gz"}:
            self.assertEqual(kept[name], bare[name])
        self.assertEqual([atoms(self.chain, leg) for leg in range(4)], left)
        self.refused("can't be audited: it was begun without --keep reports", "chain", "--audit", self.chain)
        self.refused("the chain keeps no reports", "unpack", self.chain)

    def test_atoms_of_some(self) -> None:
        """With --atoms N the atoms of each N-th leg are kept, and those of the last, with which the chain goes on."""
        self.passes(*self.words(8, "--step"))
        left, course = [atoms(self.chain, leg) for leg in range(9)], (self.chain / "course.csv").read_bytes()
        shutil.rmtree(self.chain)
        for legs in (1, 4, 5, 8):
            self.passes(*self.words(legs, "--step", "--atoms", "3"))
            self.assertEqual(atoms(self.chain, legs), left[legs])
            self.assertEqual([path.name for path in sorted(self.chain.glob("*.atoms"))], ["0000.atoms", f"{legs:04}.atoms"])
        self.assertEqual([atoms(self.chain, leg) for leg in (3, 6)], [left[3], left[6]])
        self.assertEqual((self.chain / "course.csv").read_bytes(), course)
        self.refused("the atoms of leg 4 aren't kept", "unpack", self.chain, "--leg", "4", "--atoms")
        self.refused("begun with --atoms 3, not 1", *self.words(9, "--step"))
        self.refused("--atoms 0: it has to be at least 1", *self.words(9, "--step", "--atoms", "0"))

    def test_damage(self) -> None:
        """Before leg 3 exactly the atoms of the rectangles are cleared."""
        sites = [(x, y) for y in range(16) for x in range(16)]
        stones = "".join(f"atom {x} {y} Stone\n" for x, y in sites)
        world = self.file("stones.world", f"feast 1\ntiles 2 2\nsize 8 8\nseed 3\nattempts 10\n{stones}")
        self.passes("chain", self.chain, "--legs", "4", "--keep", "reports", "--at", "3:clear:1,0,8,15",
                    "--at", "3:clear:10,2,1,3", "--at", "9:clear:0,0,16,16", world, EXAMPLES / "stone.ulam")
        left = [(x, y) for x, y in sites if not (1 <= x < 9 and y < 15 or x == 10 and 2 <= y < 5)]
        for leg, expected in [(2, sites), (3, left), (4, left)]:
            self.assertEqual([tuple(map(int, line.split()[:2])) for line in begins(self.chain, leg)], expected)
        self.assertEqual([row["Stone"] for row in self.rows()], ["256", "256", "256", str(len(left)), str(len(left))])
        self.assertEqual(self.passes("chain", "--audit", self.chain), "yes\n")

    def test_off(self) -> None:
        """Tiles that are off stay off, make no attempts, and have no sites to count."""
        self.file("small.world", "feast 2\ntiles 2 1\nsize 8 8\noff 1\nseed 1\nattempts 300\natom 3 3 Regulator\n")
        self.passes(*self.words(2, "--step", "--keep", "reports"))
        self.assertEqual([(row["attempts"], row["events"], row["aeps"]) for row in self.rows()],
                         [("0", "0", "0.0000"), ("300", "300", "4.6875"), ("300", "300", "9.3750")])
        self.assertEqual(self.passes("chain", "--audit", self.chain), "yes\n")


class GoingOn(ChainCase):
    """Chains that are stopped, and go on."""

    def whole(self, legs: int, *more: str) -> dict[str, bytes]:
        """The files of the same chain that was not stopped."""
        self.passes(*self.words(legs, *more))
        files = contents(self.chain)
        shutil.rmtree(self.chain)
        return files

    def test_killed_in_a_leg(self) -> None:
        """Legs in the midst of which the lab is killed are made again, and the end is the same."""
        options = ["--step", "--keep", "reports", "--at", "2:clear:0,0,8,8"]
        expected = self.whole(6, *options)
        for legs, number in [(2, signal.SIGKILL), (4, signal.SIGTERM), (5, signal.SIGINT)]:
            # the program writes some legs and hangs; when these are on record, the lab is ended
            kill = f"sed 's/^legs .*/legs '$(({legs} - $done))/ $2 >{self.room}/part; {program()} step {self.room}/part $3\n" \
                   f"while test $(wc -l <{self.chain}/legs.index) = $before; do sleep 0.02; done; kill -{int(number)} $PPID; sleep 5; exit 1"
            begin = f"before=$(wc -l <{self.chain}/legs.index)\ndone=$(tail -n 1 {self.chain}/legs.index | cut -d ' ' -f 1)\ndone=${{done:-0}}"
            killing = self.file("killing", f"#!/bin/sh\ncase $1 in step)\n{begin}\n{kill} ;; esac\nexec {program()} \"$@\"\n")
            killing.chmod(0o755)
            done = lab(*self.words(6, *options), instead=killing)
            self.assertEqual(done.returncode, -9 if number == signal.SIGKILL else 128 + number, done.stderr)
            self.assertIn(packs_of(self.chain).done, range(1, legs + 1))
        self.passes(*self.words(6, *options))
        self.assertTrue(contents(self.chain) == expected)

    def test_killed_at_each_file(self) -> None:
        """Whichever file is not written yet when the lab is killed, or half, the end is the same."""
        for options in (["--step", "--keep", "reports"], ["--step", "--atoms", "2"]):
            shutil.rmtree(self.chain, ignore_errors=True)
            expected = self.whole(2, *options)
            number = 0
            while True:
                number += 1
                shutil.rmtree(self.chain, ignore_errors=True)
                dying: list[Word] = [sys.executable, HERE / "dying.py", str(number), *self.words(2, *options)]
                killed = subprocess.run(dying, capture_output=True, env=around(), timeout=300, check=False)
                if killed.returncode == 0:
                    break
                self.assertEqual(killed.returncode, -signal.SIGKILL, number)
                self.passes(*self.words(2, *options))
                self.assertTrue(contents(self.chain) == expected, number)
            self.assertGreater(number, 12)

    def test_begun_anew_with_other_elements(self) -> None:
        """A beginning that was killed leaves nothing behind that a later one takes for its own."""
        other = self.file("aaa.ulam", ELEMENTS + "element Further { Void behave() { } }\n")
        dying: list[Word] = [sys.executable, HERE / "dying.py", "3", "chain", self.chain, "--legs", "1", self.world, other]
        subprocess.run(dying, capture_output=True, env=around(), timeout=300, check=False)
        self.assertTrue((self.chain / "elements").exists())
        self.passes(*self.words(1))
        self.assertEqual(list(self.rows()[0])[5:], ["Regulator", "Resource"])

    def test_more_legs(self) -> None:
        """A chain that is over goes on with more legs, and one that has enough stays as it is."""
        expected = self.whole(4, "--step")
        for legs, are in [(1, 1), (3, 3), (2, 3), (4, 4)]:
            self.passes(*self.words(legs, "--step"))
            self.assertEqual(len(self.rows()) - 1, are)
        self.assertTrue(contents(self.chain) == expected)

    def test_own_copies(self) -> None:
        """The legs are run with the chain's own copies, whatever becomes of the files in the midst."""
        expected = self.whole(3, "--step")
        self.passes(*self.words(1, "--step"))
        self.assertEqual((self.chain / "start.world").read_bytes(), self.world.read_bytes())
        renamed = self.file("renamed.ulam", ELEMENTS)
        self.passes("chain", self.chain, "--legs", "3", "--step", self.world, renamed)
        self.assertTrue(contents(self.chain) == expected)


class Refused(ChainCase):
    """What a chain is refused for."""

    def test_another_chain(self) -> None:
        self.passes(*self.words(1, "--step"))
        self.refused("chain: the chain was begun with --step; give it again, or name another folder", *self.words(2))
        self.refused("begun with --seed 3, not 4; give --seed 3, or name another folder", *self.words(2, "--step", "--seed", "4"))
        self.refused("begun with --keep none, not reports", *self.words(2, "--step", "--keep", "reports"))
        other = self.file("other.ulam", ELEMENTS + " ")
        self.refused("begun with other elements", "chain", self.chain, "--legs", "2", "--step", self.world, other)
        world = self.file("other.world", self.world.read_text() + "# another\n")
        self.refused("begun with another world", "chain", self.chain, "--legs", "2", "--step", world, self.elements)
        self.assertEqual(len(self.rows()), 2)

    def test_damaged_folder(self) -> None:
        self.passes(*self.words(2, "--step"))
        kept = {str(path.relative_to(self.chain)): path.read_bytes() for path in self.chain.rglob("*") if path.is_file()}
        for name, old, new, says in [
            ("course.csv", "leg,", "log,", "course.csv:1: its columns"),
            ("course.csv", "\n1,", "\n2,", "course.csv:3: the row of leg 1"),
            ("course.csv", "\n1,2000,", "\n1,x,", "course.csv:3: no row"),
            ("course.csv", "0.0000", "0.0001", "course.csv: not as the lab wrote it"),
            ("legs.index", "1 ", "x ", "legs.index:1: no line of an index"),
            ("start.world", "seed", "#\nseed", "start.world: not as it was"),
            ("elements/00-regulator.ulam", "40", "50", "00-regulator.ulam: not as it was"),
            ("chain.json", "\"step\"", "\"stop\"", "chain.json: no manifest"),
            ("chain.json", "true", "\"a\"", "chain.json: not as the lab wrote it"),
            ("chain.json", "{", "", "chain.json: no manifest"),
        ]:
            path = self.chain / name
            path.write_bytes(kept[name].replace(old.encode(), new.encode(), 1))
            self.refused(says, *self.words(3, "--step"))
            path.write_bytes(kept[name])
        repack(self.chain, {2: packs_of(self.chain).report(2).data.replace(b"Regulator", b"Resource", 1)})
        self.refused("chain: leg 2 left other atoms than course.csv says", *self.words(3, "--step"))
        (self.chain / "legs.gz").unlink()
        self.refused("legs.gz: can't be read: no such file", *self.words(3, "--step"))
        self.file("chain/elements/01-more.ulam", "")
        self.refused("elements: not as it was", *self.words(3, "--step"))
        shutil.rmtree(self.chain / "elements")
        self.refused("elements: can't be read: no such file", *self.words(3, "--step"))

    def test_older_form(self) -> None:
        """A folder of an older lab is refused in a line that says what to do."""
        self.passes(*self.words(1, "--step"))
        manifest = json.loads((self.chain / "chain.json").read_text())
        del manifest["form"], manifest["atoms"]
        self.file("chain/chain.json", json.dumps(manifest, indent=2) + "\n")
        calls: list[list[Word]] = [[*self.words(2, "--step")], ["chain", "--audit", self.chain], ["film", self.chain, "--csv"],
                                   ["live", self.chain]]
        for words in calls:
            self.refused("chain.json: the chain has the form 'feast chain 1', which this lab doesn't read: it makes and reads the form "
                         "'feast chain 2'; make the chain again, in another folder", *words)

    def test_words(self) -> None:
        self.refused("--legs 0: a chain has at least one leg", *self.words(0))
        self.refused("--legs 4294967296: a chain has at least one leg, and at most 4,294,967,295", *self.words(1 << 32))
        self.refused("--jobs 2: it belongs to --audit DIR", *self.words(1, "--jobs", "2"))
        self.refused("--jobs 0: it has to be at least 1", "chain", "--audit", self.chain, "--jobs", "0")
        self.refused("--seed -1: a seed is from 0", *self.words(1, "--seed", "-1"))
        self.refused("invalid int value: 'two'", "chain", self.chain, "--legs", "two", self.world, ELEMENTS)
        self.refused("required: FILE", "chain", self.chain, "--legs", "2", self.world)

    def test_inputs(self) -> None:
        words: list[Word] = ["chain", self.chain, "--legs", "1"]
        walker = EXAMPLES / "walker.ulam"
        self.refused("nowhere.world: can't be read", *words, self.room / "nowhere.world", self.elements)
        self.refused("walk.world: its attempts have to be drawn", *words, EXAMPLES / "walk.world", walker)
        self.refused("small.world:7:1: E73 unknown element", *words, self.world, walker)
        bad = self.file("bad.ulam", "element A { }")
        self.refused("bad.ulam:1:9: E33 no behave", *words, self.world, bad)

    def test_folders(self) -> None:
        self.chain.mkdir()
        self.file("chain/notes", "mine")
        self.refused("chain: no chain was begun there, and it has other files, such as notes", *self.words(1))
        self.refused("chain: no chain was begun there: it has no file chain.json", "chain", "--audit", self.chain)
        shutil.rmtree(self.chain)
        self.file("chain", "a file")
        self.refused("chain: can't be the folder of a chain: file exists", *self.words(1))
        (self.room / "chain").unlink()
        (self.chain / "elements").mkdir(parents=True)
        own = self.file("chain/elements/00-own.ulam", ELEMENTS)
        self.refused("other files, such as elements", "chain", self.chain, "--legs", "1", self.world, own)

    def test_two_at_once(self) -> None:
        self.passes(*self.words(1))
        handle = os.open(self.chain, os.O_RDONLY)
        self.addCleanup(os.close, handle)
        fcntl.flock(handle, fcntl.LOCK_EX)
        self.refused("another call of the lab is at work on this chain", *self.words(2))
