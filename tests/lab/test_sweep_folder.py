"""Sweeps in a folder: chains of legs, what is set, sweeps that go on, and their audits."""
import io
import json
import random
import shutil
import signal
from collections import Counter
from contextlib import redirect_stderr, redirect_stdout
from itertools import accumulate
from unittest import mock

from calls import Word, feast, here, lab, program
from kept_chain import packs_of, repack, told
from sweeps import BIRTH, SOURCE, WORLD, FolderCase, contents

from feast_lab.lab.command.main import main


class Folders(FolderCase):
    """What a sweep of chains has."""

    def test_legs(self) -> None:
        """The rows of a run are those of a chain with its values and its seed, and name the seed of each leg; no two legs share one."""
        options = ["--legs", "3", "--sum", "Regulator.part"]
        self.elements = self.file("regulator.ulam", SOURCE.replace("Random random;", "Random random; Unsigned(3) part;", 1))
        told = self.passes(*self.words(BIRTH, "--repeat", "2", *options, "--at", "2:clear:0,0,8,8"))
        rows = self.rows(told)
        self.assertEqual(list(rows[0]), ["Regulator.regulator_birth", "seed", "leg", "leg_seed", "events", "abandoned", "aeps",
                                         "Regulator", "Resource", "sum(Regulator.part)"])
        expected = []
        for birth in ("5", "40"):
            for seed in (3, 3 + 3 * 4):
                for row in self.chained(seed, birth, "--legs", "3", "--at", "2:clear:0,0,8,8"):
                    del row["attempts"]
                    front = {"Regulator.regulator_birth": birth, "seed": str(seed), "leg": row.pop("leg")}
                    leg_seed = str(seed + 4 * (int(front["leg"]) - 1)) if front["leg"] != "0" else ""
                    expected.append({**front, "leg_seed": leg_seed, **row, "sum(Regulator.part)": "0"})
        self.assertEqual(len({row["leg_seed"] for row in rows if row["leg_seed"]}), 6)
        self.assertEqual(rows, expected)
        self.assertEqual(self.passes(*self.words(BIRTH, "--repeat", "2", *options, "--at", "2:clear:0,0,8,8", "--into", self.out)),
                         f"{self.out / 'sweep.csv'}: 4 of 4 runs\n")
        self.assertEqual([{"run": str(1 + at // 4), **row} for at, row in enumerate(rows)], self.rows())
        self.assertEqual(sorted(it.name for it in self.out.iterdir()), ["elements", "runs", "start.world", "sweep.csv", "sweep.json"])
        plan = json.loads((self.out / "sweep.json").read_text())
        self.assertEqual((plan["sets"], plan["repeat"], plan["seed"], plan["legs"], plan["step"], plan["at"]),
                         ({"Regulator.regulator_birth": ["5", "40"]}, 2, 3, 3, True, ["2:clear:0,0,8,8"]))

    def test_seeds_alone(self) -> None:
        """Without --set there are runs over seeds alone."""
        rows = self.rows(self.passes(*self.words("--repeat", "3")))
        self.assertEqual([row["seed"] for row in rows], ["3", "7", "11"])
        for row in rows:
            last = self.chained(int(row["seed"]), "40", "--legs", "1")[-1]
            self.assertEqual(list(row.values())[1:], [last[name] for name in list(row)[1:]])

    def test_until(self) -> None:
        """A run is over after the first leg at whose end the rule holds."""
        rows = self.rows(self.passes(*self.words("--repeat", "3", "--legs", "6", "--until", "Atoms.Regulator>2")))
        for seed in ("3", "27", "51"):
            course = self.chained(int(seed), "40", "--legs", "6")
            end = next((at for at, row in enumerate(course) if int(row["Regulator"]) > 2), 6)
            self.assertEqual([row["leg"] for row in rows if row["seed"] == seed], [str(leg) for leg in range(end + 1)])
        self.assertTrue(3 * 2 < len(rows) < 3 * 7)

    def test_acts(self) -> None:
        """A name in braces in an act takes the values that are set."""
        rows = self.rows(self.passes(*self.words("--legs", "2", "--set", "wide=1,16", "--at", "2:clear:0,0,{wide},8")))
        self.assertEqual(list(rows[0])[0], "wide")
        for wide in ("1", "16"):
            found = [row["Regulator"] for row in rows if row["wide"] == wide]
            self.assertEqual(found, [row["Regulator"] for row in self.chained(3, "40", "--legs", "2", "--at", f"2:clear:0,0,{wide},8")])
        self.assertEqual(rows[-1]["Regulator"], "0")
        rows = self.rows(self.passes(*self.words("--legs", "2", "--set", "p=0:1:1", "--at", "2:erase:{p}:0,0,16,8", "--repeat", "2")))
        for p, seed in (("0", "3"), ("0", "11"), ("1", "3"), ("1", "11")):
            found = [row["Regulator"] for row in rows if (row["p"], row["seed"]) == (p, seed)]
            course = self.chained(int(seed), "40", "--legs", "2", "--at", f"2:erase:{p}:0,0,16,8")
            self.assertEqual(found, [row["Regulator"] for row in course])
        self.assertNotEqual(rows[2]["Regulator"], rows[-1]["Regulator"])

    def test_noise(self) -> None:
        """--noise is that of a chain, over the plane of each run, whatever its size; a name in braces takes the values that are set."""
        options = ["--legs", "2", "--at", "2:clear:0,0,2,2", "--count", "Regulator.part!=0"]
        words = ["--set", "p=0,1", "--set", "tiles=2x1,3x2", "--noise", "{p}", *options]
        self.elements = self.file("regulator.ulam", SOURCE.replace("Random random;", "Random random; Bits(60) part;", 1))
        rows = self.rows(self.passes(*self.words(*words)))
        self.assertEqual(list(rows[0])[:4], ["p", "tiles", "seed", "leg"])
        hand = self.file("hand.ulam", self.elements.read_text())
        for p in ("0", "1"):
            for tiles in ("2x1", "3x2"):
                world = self.file("hand.world", WORLD.replace("tiles 2 1", f"tiles {tiles.replace('x', ' ')}"))
                chain = self.room / f"{p} {tiles}"
                self.passes("chain", chain, "--step", *options, "--noise", p, world, hand)
                course = self.rows((chain / "course.csv").read_text())
                found = [row for row in rows if (row["p"], row["tiles"]) == (p, tiles)]
                self.assertEqual([list(row.values())[5:] for row in found], [list(row.values())[2:] for row in course])
        quiet, noisy = ([row["count(Regulator.part!=0)"] for row in rows if row["p"] == p] for p in ("0", "1"))
        self.assertNotEqual(quiet, noisy)
        self.passes(*self.words(*words, "--keep", "reports", "--into", self.out))
        self.assertEqual(self.passes("sweep", "--audit", self.out), "yes\n")
        run = self.out / "runs" / "00004"
        self.assertEqual((run / "acts.txt").read_text(), "2:clear:0,0,2,2\nevery:1:flip:1:0,0,24,16\n")
        self.assertEqual(json.loads((self.out / "sweep.json").read_text())["noise"], "{p}")
        refused: list[tuple[list[Word], str]] = [
            (["--noise", "{p}"], "--noise {p}: p has no values; give them by --set p=A,B,.."),
            (["--noise", "2"], "--at every:1:flip:2:0,0,16,8: 2 is no probability"),
            (["--noise", "0.1", "--legs", "2", "--into", self.out], "the sweep was planned with other"),
        ]
        for more, says in refused:
            self.refused(says, *self.words(*more))

    def test_world(self) -> None:
        """Attempts, the size of a tile and the number of tiles are set as in the world."""
        rows = self.rows(self.passes(*self.words("--set", "attempts=100:300:200", "--set", "size=8x8,16x9", "--set", "tiles=2x1,3x2",
                                                 "--repeat", "2")))
        self.assertEqual(len(rows), 16)
        for row in rows:
            text = WORLD.replace("attempts 400", f"attempts {row['attempts']}")
            text = text.replace("size 8 8", "size " + row["size"].replace("x", " "))
            text = text.replace("tiles 2 1", "tiles " + row["tiles"].replace("x", " "))
            last = self.chained(int(row["seed"]), "40", "--legs", "1", world=text)[-1]
            self.assertEqual(list(row.values())[4:], [last[name] for name in list(row)[4:]])
        self.assertEqual({row["seed"] for row in rows}, {"3", str(3 + 3 * 2 + 2)})

    def test_leg_seeds(self) -> None:
        """The seed of a leg is that of its world, also where runs have different numbers of tiles."""
        self.passes(*self.words("--legs", "3", "--keep", "reports", "--repeat", "2", "--set", "tiles=3x2,2x1", "--into", self.out))
        for row in self.rows():
            if row["leg"] != "0":
                world = told(self.out / "runs" / f"{int(row['run']):05}", int(row["leg"]), "world")
                self.assertIn(f"\nseed {row['leg_seed']}\n", world)

    def test_together(self) -> None:
        """Values of --with go with those of the --set before it; with several --set these groups make all combinations."""
        words = ["--set", "tiles=2x1,1x2,4x1", "--with", "size=8x16,16x8,8x8", "--with", "attempts=90:270:90", BIRTH, "--repeat", "2"]
        rows = self.rows(self.passes(*self.words(*words)))
        groups = [("2x1", "8x16", "90"), ("1x2", "16x8", "180"), ("4x1", "8x8", "270")]
        self.assertEqual([tuple(row.values())[:5] for row in rows],
                         [(*group, birth, str(seed)) for group in groups for birth in ("5", "40") for seed in (3, 3 + 6)])
        for row in rows:
            text = WORLD.replace("tiles 2 1", f"tiles {row['tiles']}").replace("size 8 8", f"size {row['size']}").replace("x", " ")
            last = self.chained(int(row["seed"]), row["Regulator.regulator_birth"], "--legs", "1",
                                world=text.replace("attempts 400", f"attempts {row['attempts']}"))[-1]
            self.assertEqual(list(row.values())[5:], [last[name] for name in list(row)[5:]])
        self.passes(*self.words(*words, "--legs", "1", "--keep", "reports", "--into", self.out))
        self.assertEqual(self.passes("sweep", "--audit", self.out), "yes\n")
        self.assertEqual(json.loads((self.out / "sweep.json").read_text())["together"],
                         [["tiles", "size", "attempts"], ["Regulator.regulator_birth"]])
        for more, says in [
            (["--with", "size=8x8"], "--with size=8x8: its values go with those of a --set before it, and there is none"),
            (["--set", "tiles=2x1,1x2", "--with", "size=8x8"], "--with size=8x8: values: 1, and of --set tiles there are 2; they go together"),
            (["--set", "tiles=2x1", "--with", "tiles=1x2"], "--with tiles: it is given twice"),
            (["--set", "tiles=2x1", "--with", "size"], "--with size: it has to be Element.constant=A,B,.."),
            (["--set", "tiles=2x1,1x1", "--with", "size=8x8,8x8"], "--set tiles=1x1, size=8x8: atoms of the world lie outside"),
        ]:
            self.refused(says, *self.words(*more))

    def test_until_events(self) -> None:
        """A run is over by the events of all its legs, or by those for each site."""
        course = self.chained(3, "40", "--legs", "6")
        events = list(accumulate(int(row["events"]) for row in course))
        for rule, legs in [(f"events>={events[3]}", 3), (f"events>{events[3]}", 4), ("events>=0", 0), (f"events={events[5]}", 5),
                           (f"aeps>={(events[1] + events[2]) / 2 / 128:.4f}", 2), ("aeps>1000", 6), (f"events>{events[6]}", 6)]:
            rows = self.rows(self.passes(*self.words("--legs", "6", "--until", rule)))
            self.assertEqual([row["leg"] for row in rows], [str(leg) for leg in range(legs + 1)], rule)
        self.passes(*self.words("--legs", "6", "--until", f"aeps>={events[2] / 128}", "--keep", "reports", "--into", self.out))
        self.assertEqual((len(self.rows()), self.passes("sweep", "--audit", self.out)), (3, "yes\n"))
        self.refused("--until event>3: it has to be Atoms.Element=N", *self.words("--until", "event>3"))

    def test_drift(self) -> None:
        """With --drift the rows have how far tiles were apart in each leg; a single tile isn't apart."""
        words = ["--legs", "2", "--drift", "--set", "tiles=2x1,1x1", "--with", "size=8x8,16x8"]
        rows = self.rows(self.passes(*self.words(*words)))
        self.assertEqual([row["drift"] == "0.0000" for row in rows], [True, False, False, True, True, True])
        self.assertEqual(list(rows[0])[5:9], ["events", "abandoned", "aeps", "drift"])
        self.passes(*self.words(*words, "--keep", "reports", "--into", self.out))
        self.assertEqual([row["drift"] for row in self.rows()], [row["drift"] for row in rows])
        for leg in (1, 2):
            world, whole = (self.file(form, told(self.out / "runs" / "00001", leg, form)) for form in ("world", "whole"))
            tiles = self.rows(self.passes("rates", "--by", "tile", world, whole))
            self.assertEqual(rows[leg]["drift"], max(row["drift"] for row in tiles))
        self.assertEqual(self.passes("sweep", "--audit", self.out), "yes\n")
        self.assertNotIn("drift", self.rows(self.passes(*self.words("--legs", "2")))[0])

    def test_progress(self) -> None:
        """Reading the combinations of a plan, and the runs of its table, says how far it is."""
        errors = io.StringIO()
        with redirect_stderr(errors), redirect_stdout(io.StringIO()), mock.patch("feast_lab.lab.base.progress.LINE_EVERY", 0.0):
            self.assertEqual(main([str(it) for it in self.words(BIRTH, "--repeat", "2", "--plan", self.out)]), 0)
            self.assertEqual(errors.getvalue(), "reading combination 1 of 2: 0 % done\nreading combination 2 of 2: 50 % done, 0 s left\n")
            for number in ("1", "3"):
                self.assertEqual(main(["sweep", "--task", str(self.out), number]), 0)
            self.assertEqual(main(["sweep", "--gather", str(self.out)]), 1)
        self.assertEqual(errors.getvalue().splitlines()[2:], ["reading run 1 of 2: 0 % done", "reading run 2 of 2: 50 % done, 0 s left"])

    def test_fill(self) -> None:
        """A density fills the empty sites of each run by its own seed."""
        off = WORLD.replace("feast 1", "feast 2").replace("size 8 8", "size 8 8\noff 1").replace("atom 11 4 Regulator\n", "")
        self.world = self.file("w", off)
        rows = self.rows(self.passes(*self.words("--legs", "1", "--set", "fill.Regulator=0.2", "--set", "fill.Resource=0:0.5:0.5",
                                                 "--repeat", "2")))
        starts = [row for row in rows if row["leg"] == "0"]
        for row in starts:
            draw = random.Random(int(row["seed"]))
            numbers = {(x, y): draw.random() for y in range(8) for x in range(16)}
            free = [number for (x, y), number in numbers.items() if x < 8 and (x, y) != (4, 4)]
            more = float(row["fill.Resource"])
            counts = Counter("Regulator" if it < 0.2 else "Resource" if it - 0.2 < more else "" for it in free)
            self.assertEqual((int(row["Regulator"]), int(row["Resource"])), (1 + counts["Regulator"], counts["Resource"]))
        self.assertEqual([row["fill.Resource"] for row in starts], ["0.0"] * 2 + ["0.5"] * 2)
        self.assertNotEqual(starts[0]["Regulator"], starts[1]["Regulator"])

    def test_ranges(self) -> None:
        for said, values in [("5:9:2", "5,7,9"), ("5:10:2", "5,7,9"), ("9:5:-4", "9,5"), ("7:9", "7,8,9"), ("7:7", "7"),
                             ("3,20:40:20,0x5", "3,20,40,0x5")]:
            told = self.passes(*self.words("--set", f"Regulator.regulator_birth={said}"))
            self.assertEqual(",".join(row["Regulator.regulator_birth"] for row in self.rows(told)), values)
        for said in ("9:5", "5:9:0", "5:9:-1", "5:9:1:1", "5:", ":9", "0:1000000"):
            self.refused(f"--set Regulator.regulator_birth={said}: ", *self.words("--set", f"Regulator.regulator_birth={said}"))

    def test_refused(self) -> None:
        for said, says in [
            ("attempts=x", "--set attempts=x: it is no number of attempts"), ("attempts=500001", "a tile may have up to 500000"),
            ("size=8", "--set size=8: it has to be AxB, both from 8 to 64"), ("size=7x8", "size=7x8: it has to be"),
            ("tiles=1x1", "--set tiles=1x1: atoms of the world lie outside of 8 by 8 sites"), ("tiles=9x1", "both from 1 to 8"),
            ("fill.Regulator=1.5", "a density is from 0 to 1"), ("fill.Regulator=-1", "a density is from 0 to 1"),
            ("fill.Nobody=0.5", "the files have no constant fill.Nobody"), ("p=1", "the files have no constant p"),
        ]:
            self.refused(says, *self.words("--set", said))
        self.refused("the densities come to 1.1", *self.words("--set", "fill.Regulator=0.6", "--set", "fill.Resource=0.5"))
        self.refused("--at 1:clear:0,0,{p},1: p has no values", *self.words("--at", "1:clear:0,0,{p},1"))
        self.refused("--at 1:clear:0,0,17,1: ", *self.words("--at", "1:clear:0,0,17,1"))
        self.refused("--at 2:clear:0,0,1,1: a run has 1 leg; give --legs 2 or more", *self.words("--at", "2:clear:0,0,1,1"))
        self.refused("--at 4:clear:0,0,1,1: a run has 3 legs; give --legs 4 or more",
                     *self.words("--legs", "3", "--at", "{k}:clear:0,0,1,1", "--set", "k=2:4"))
        self.refused("--keep reports: it takes a folder", *self.words("--keep", "reports"))
        self.refused("--until Atoms.Nobody=0: no file", *self.words("--until", "Atoms.Nobody=0"))
        self.refused("not allowed with argument", *self.words("--into", self.out, "--plan", self.out))
        self.file("out", "a file")
        self.refused("out: can't be the folder of a sweep: file exists", *self.words("--into", self.out))


class GoingOn(FolderCase):
    """Sweeps that are stopped, and go on."""

    OPTIONS = [BIRTH, "--repeat", "2", "--legs", "2", "--keep", "reports", "--jobs", "1"]

    def test_killed(self) -> None:
        """A sweep that is killed goes on, makes no run again, and ends byte for byte as one that wasn't."""
        self.passes(*self.words(*self.OPTIONS, "--into", self.out))
        expected = contents(self.out)
        shutil.rmtree(self.out)
        done = 0
        for turn, number in enumerate((signal.SIGKILL, signal.SIGTERM, signal.SIGINT), 1):
            log = self.room / "log"
            killing = self.file("killing", f"#!/bin/sh\ncase $1 in step) echo >>{log}; [ $(wc -l <{log}) -eq {2 * turn} ] && "
                                           f"{{ kill -{int(number)} $PPID; sleep 0.3; }} ;; esac\nexec {program()} \"$@\"\n")
            killing.chmod(0o755)
            stopped = lab(*self.words(*self.OPTIONS, "--into", self.out), instead=killing)
            self.assertEqual(stopped.returncode, -9 if number == signal.SIGKILL else 128 + number, stopped.stderr)
            there = len([it for it in (self.out / "runs").iterdir() if it.suffix != ".part"]) if (self.out / "runs").exists() else 0
            self.assertTrue(done <= there < 4)
            done = there
        self.passes(*self.words(*self.OPTIONS, "--into", self.out))
        self.assertEqual({name: data for name, data in contents(self.out).items() if ".part" not in name}, expected)

    def test_another_sweep(self) -> None:
        """A folder takes no other sweep than its own."""
        self.passes(*self.words(BIRTH, "--into", self.out))
        self.refused("planned with other sets", *self.words("--into", self.out))
        self.refused("planned with other repeat: 1, not 2", *self.words(BIRTH, "--repeat", "2", "--into", self.out))
        self.refused("planned with other legs: null, not 1", *self.words(BIRTH, "--legs", "1", "--plan", self.out))
        self.refused("planned with other step", "sweep", BIRTH, "--into", self.out, self.world, self.elements)
        self.refused("planned with other world;", "sweep", "--step", BIRTH, "--into", self.out,
                     self.file("other", WORLD + "# other\n"), self.elements)
        (self.room / "mine").mkdir()
        self.file("mine/notes", "mine")
        self.refused("no sweep was planned there, and it has other files, such as notes", *self.words("--into", self.room / "mine"))


class Audits(FolderCase):
    """What the audit of a sweep finds."""

    def test_audit(self) -> None:
        self.passes(*self.words(BIRTH, "--set", "fill.Resource=0.1", "--legs", "2", "--keep", "reports", "--into", self.out))
        self.assertEqual(self.passes("sweep", "--audit", self.out), "yes\n")
        kept = {str(path.relative_to(self.out)): path.read_bytes() for path in self.out.rglob("*") if path.is_file()}
        other = self.room / "other"
        self.passes(*self.words(BIRTH, "--set", "fill.Resource=0.2", "--legs", "2", "--keep", "reports", "--into", other))
        swapped = {str(path.relative_to(other)): path.read_bytes() for path in (other / "runs" / "00002").rglob("*") if path.is_file()}
        second = self.out / "runs" / "00002"
        repack(second, {1: packs_of(second).report(2).data})
        repacked = {f"runs/00002/{name}": (second / name).read_bytes() for name in ("legs.gz", "legs.index")}
        for name in repacked:
            (self.out / name).write_bytes(kept[name])
        rows = kept["sweep.csv"].decode()
        for changes, says in [
            ({"sweep.csv": rows.replace("\n2,", "\n3,", 1).encode()}, "no sweep.csv: its rows are not those of the runs\n"),
            (repacked, "no run 2: leg 1: "),
            ({name: data for name, data in swapped.items() if not name.endswith("run.json") and kept[name] != data},
             "no run 2: it is not the chain that the plan says"),
            ({"runs/00002/legs.index": b"".join(kept["runs/00002/legs.index"].splitlines(True)[:0])}, "no run 2: "),
        ]:
            for name, data in changes.items():
                self.assertNotEqual(kept.get(name), data, name)
                (self.out / name).write_bytes(data)
            done = here("sweep", "--audit", self.out)
            self.assertEqual((done.status, done.said), (1, ""), says)
            self.assertTrue(done.wrote.startswith(says), done.wrote)
            for name in changes:
                (self.out / name).write_bytes(kept[name])
        shutil.rmtree(self.out / "runs" / "00002")
        self.refused("can't be audited yet: it lacks the runs 2", "sweep", "--audit", self.out)

    def test_kept_chains(self) -> None:
        """A kept run is a chain: it can be audited and filmed by itself."""
        self.passes(*self.words("--repeat", "2", "--legs", "2", "--keep", "reports", "--until", "Atoms.Regulator>500", "--into", self.out))
        self.assertEqual(self.passes("chain", "--audit", self.out / "runs" / "00002"), "yes\n")
        self.passes("film", self.out / "runs" / "00002", "-o", self.room / "film.html")
        first = self.out / "runs" / "00001"
        self.assertEqual(told(first, 1, "whole"), feast("step", self.file("leg", told(first, 1, "world")), self.elements))
        self.assertEqual(self.passes("sweep", "--audit", self.out), "yes\n")
