"""Sweeps from Python, against what the verb writes."""
import csv
import shutil

from calls import Word
from packaged import PackageCase

PLAIN = "import feast_lab\n"


class Sweeps(PackageCase):
    """Rows of sweeps that are made, gone on with and read."""

    def table(self, name: str, *words: Word) -> list[list[str]]:
        """The rows that the verb writes of a sweep in a folder."""
        self.passes("sweep", "--into", self.room / name, *words, self.world, self.elements)
        return list(csv.reader((self.room / name / "sweep.csv").open()))

    def test_rows(self) -> None:
        """The rows of the verb, each with the number that it has there; what a leg has not is masked."""
        head, *rows = self.table("verb", "--set", "Cell.odds=2,5", "--set", "attempts=20,60", "--with", "fill.Wall=0.1,0.25",
                                 "--repeat", "2", "--legs", "2", "--step", "--seed", "7", "--count", "Cell.age=1", "--mean", "Cell.age", "--drift")
        script = PLAIN + (
            "made = feast_lab.sweep(feast_lab.World.read(world, elements),\n"
            "    set={'Cell.odds': [2, 5], ('attempts', 'fill.Wall'): [(20, 0.1), (60, 0.25)]}, repeat=2, legs=2,\n"
            "    step=True, seed=7, measures=['count(Cell.age=1)', 'mean(Cell.age)'], drift=True)\n"
            "read = feast_lab.Sweep('verb')\n"
            "print(len(made), made.missing, made.rows.tolist() == read.rows.tolist(), made.rows.dtype == read.rows.dtype, repr(read))\n"
            "print(*read.rows.dtype.names)\n"
            "print(*[read.rows.dtype[it].str for it in ('run', 'Cell.odds', 'fill.Wall', 'seed', 'mean(Cell.age)')])\n"
            "told = lambda it: '' if it is None else f'{it:.4f}' if isinstance(it, float) else str(it)\n"
            "for row in read.rows.tolist(): print(','.join(map(told, row)))\n")
        first, names, kinds, *said = self.says(script)
        self.assertEqual((first, names), ("8 [] True True <Sweep verb: 8 runs>", " ".join(head)))
        self.assertEqual(kinds, "<i8 <i8 <f8 <u8 <f8")
        at = head.index("fill.Wall")
        self.assertEqual(said, [",".join([*row[:at], f"{float(row[at]):.4f}", *row[at + 1:]]) for row in rows])

    def test_folder(self) -> None:
        """A sweep in a folder is made once, and is gone on with; a run that keeps its reports is a chain."""
        script = PLAIN + (
            "import pathlib, shutil\n"
            "make = lambda **more: feast_lab.sweep(world, elements, set={'attempts': [20, 30]}, seed=7, step=True, keep='reports',\n"
            "                                      folder='here', **more)\n"
            "first = make().rows.tolist()\n"
            "shutil.rmtree('here/runs/00002')\n"
            "read = feast_lab.Sweep('here')\n"
            "print(read, read.missing, read.rows['run'].tolist())\n"
            "for wrong in (lambda: read.chain(2), lambda: read.chain(3), lambda: make(repeat=2), lambda: make(jobs=0)):\n"
            "    try: wrong()\n"
            "    except feast_lab.LabError as error: print(error)\n"
            "again = make()\n"
            "print(again.rows.tolist() == first, again.chain(2).audit(), len(again.chain(1).leg(1).events) == again.rows['events'][0])\n")
        self.assertEqual(self.says(script), [
            "<Sweep here: 2 runs, 1 of them missing> [2] [1]", "here: run 2 isn't made yet",
            "here: the sweep has the runs 1 to 2, and no run 3", "here: the sweep was planned with other repeat: 1, not 2; name another folder",
            "jobs=0: it has to be at least 1", "True yes True"])

    def test_until(self) -> None:
        """A function of the plane ends runs where a rule that says the same does, side by side too; a sweep in a folder goes on
        with it alone, and is audited."""
        script = PLAIN + (
            "import pathlib, shutil\n"
            "def old(plane): return plane.grid('Cell.age').max() >= 3\n"
            "def make(until, **more):\n"
            "    return feast_lab.sweep(world, elements, set={'Cell.odds': [2, 5], 'attempts': [20, 60]}, repeat=2, legs=9, seed=7,\n"
            "                           step=True, until=until, **more)\n"
            "ruled, asked = make('max(Cell.age)>=3').rows, make(old, folder='asked', keep='reports', jobs=4).rows\n"
            "print(len(asked), len(asked) < 10 * 8, asked.tolist() == ruled.tolist())\n"
            "print(len(make(lambda plane: True).rows), len(make(lambda plane: False).rows))\n"
            "for number in (1, 3): shutil.rmtree(f'asked/runs/0000{number}')\n"
            "try: make(max, folder='asked', keep='reports')\n"
            "except feast_lab.LabError as error: print(error)\n"
            "print(make(old, folder='asked', keep='reports').rows.tolist() == ruled.tolist())\n"
            "def wrong(plane): raise KeyError(plane.title)\n"
            "try: make(wrong)\n"
            "except KeyError as error: print(error)\n")
        first, *said = self.says(script)
        count, _, rest = first.partition(" ")
        self.assertEqual((rest, int(count) > 16), ("True True", True))
        self.assertEqual(said, ["8 80", 'asked: the sweep was planned with other until: "function old", not "function max"; name another folder',
                                "True", "'leg 0 of chain'"])
        self.passes("sweep", "--gather", self.room / "asked")
        self.assertEqual(self.passes("sweep", "--audit", self.room / "asked"), "yes\n")
        shutil.rmtree(self.room / "asked" / "runs" / "00002")
        self.refused("a function old of Python says when a run is over", "sweep", "--task", self.room / "asked", "2")

    def test_closed(self) -> None:
        """What had no folder of its own says so once it is closed; what has one is still there."""
        script = PLAIN + (
            "words = dict(set={'attempts': [20, 30]}, step=True, keep='reports')\n"
            "with feast_lab.sweep(world, elements, **words) as sweep, sweep.chain(1) as chain: print(len(chain), chain.is_closed)\n"
            "with feast_lab.chain(world, elements, legs=2, step=True) as own: plane = own.plane(1)\n"
            "with feast_lab.chain(world, elements, legs=2, step=True, folder='kept') as kept: pass\n"
            "print(sweep, own, chain.is_closed, len(kept), len(plane) > 0)\n"
            "for wrong in (lambda: sweep.rows, lambda: sweep.missing, lambda: own.course, lambda: feast_lab.go_on(own, 3), lambda: len(own)):\n"
            "    try: wrong()\n"
            "    except feast_lab.LabError as error: print(error)\n")
        gone = "is closed, and its folder has gone with it"
        self.assertEqual(self.says(script), ["1 False", "<Sweep, closed> <Chain, closed> True 2 True",
                                             *[f"the sweep {gone}"] * 2, *[f"the chain {gone}"] * 3])

    def test_values(self) -> None:
        """Values come back as what they are: numbers, truth values, pairs; a frame has them too."""
        self.elements.write_text(self.elements.read_text().replace("Unsigned odds = 2", "Unsigned odds = 2; constant Bool quick = true"))
        script = PLAIN + (
            "made = feast_lab.sweep(feast_lab.World(elements, size=(8, 8), attempts=5), measures=['max(Cell.age)'],\n"
            "    set={'Cell.quick': [True, False], 'size': [(8, 8), (9, 8)], 'fill.Cell': [0.00001, 1]})\n"
            "names = ['Cell.quick', 'size', 'fill.Cell']\n"
            "print([made.rows.dtype[it].str for it in names], made.rows[names].tolist()[5])\n"
            "frame = made.to_pandas()\n"
            "ages = frame['max(Cell.age)']\n"
            "print(frame['Cell'].tolist() == made.rows['Cell'].tolist(), str(ages.dtype), int(ages.isna().sum()))\n"
            "for wrong in ({'Cell.slow': [1]}, {'Cell.quick': []}, {('size', 'tiles'): [(1,)]}, {'attempts': ['x y']}, {'fill.Cell': [2]}):\n"
            "    try: feast_lab.sweep(world, elements, set=wrong)\n"
            "    except feast_lab.LabError as error: print(str(error)[:57])\n")
        self.assertEqual(self.says(script), [
            "['|b1', '<U3', '<f8'] (False, '8x8', 1.0)", "True Int64 4", "set Cell.slow=1: the files have no constant Cell.slow; th",
            "set: 'Cell.quick' has no values", "set: size, tiles go together, and each of their values has to be a tuple of 2"[:57],
            "set attempts=x y: it has to be Element.constant=A,B,.. or", "set fill.Cell=2: a density is from 0 to 1"])
