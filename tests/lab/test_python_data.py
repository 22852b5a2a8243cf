"""What the package gives as data: planes as arrays and datasets, pictures in notebooks, and who hears how far a call is."""
import subprocess

from calls import TOP
from packaged import PackageCase

PLAIN = "import feast_lab, numpy\n"
# a member across the bits that each half of a state has, and one of each kind
ELEMENTS = """element Kinds { Unsigned(5) front; Unsigned(7) across; Int(4) signed; Unary(6) ones; Bool truth; Bits(9) mask;
  Unsigned(3) last; Void behave() { } }
element Wide { Int(30) low; Int(41) high; Void behave() { } }
element Bare { Void behave() { } }
"""


class Cells(PackageCase):
    """Planes as arrays, against the states of their atoms read one by one."""

    def setUp(self) -> None:
        super().setUp()
        self.kinds = self.file("kinds.ulam", ELEMENTS)

    def test_values(self) -> None:
        """Each member of drawn atoms is what the layout reads in the state; the lines of the plane lead to it again."""
        script = PLAIN + (
            "from feast_lab.cells import Cells\n"
            "draw = numpy.random.default_rng(5)\n"
            "world = feast_lab.World('kinds.ulam', size=(16, 8))\n"
            "for element, rows in (('Kinds', (0, 1, 2)), ('Wide', (3, 4)), ('Bare', (6,))):\n"
            "    leaves = world.layout.numbers(element)\n"
            "    for row in rows:\n"
            "        members = {it.name: draw.integers(it.least, it.greatest, 16, endpoint=True) for it in leaves}\n"
            "        world.put(element, numpy.arange(16), row, **members)\n"
            "plane = world.plane\n"
            "grids = {name: plane.grid(name) for name in ('Kinds', 'Wide', 'Bare')}\n"
            "grids |= {f'{it}.{leaf.name}': plane.grid(f'{it}.{leaf.name}') for it in ('Kinds', 'Wide') for leaf in plane.layout.numbers(it)}\n"
            "wrong = 0\n"
            "for atom in plane.placed:\n"
            "    for name, value in plane.layout.decode(atom.name, atom.state):\n"
            "        wrong += grids[f'{atom.name}.{name}'][atom.y, atom.x] != value\n"
            "print(len(plane), wrong, {name: int(grid.count()) for name, grid in grids.items()})\n"
            "print(plane.counts(), Cells.of(plane.lines, plane.layout.elements, 8, 16) == plane.cells, len(Cells.of([], ['Kinds'], 8, 8)))\n"
            "print(plane == world.plane, plane == world.clear(0, 0).plane)\n")
        counts = {"Kinds": 48, "Wide": 32, "Bare": 16} | {f"Kinds.{it}": 48 for it in (
            "front", "across", "signed", "ones", "truth", "mask", "last")} | {"Wide.low": 32, "Wide.high": 32}
        self.assertEqual(self.says(script), [f"96 0 {counts}", "{'Kinds': 48, 'Wide': 32, 'Bare': 16} True 0", "True False"])

    def test_datasets(self) -> None:
        """A dataset of xarray has time, y and x, the elements by numbers, and each member, NaN where there is none."""
        script = PLAIN + (
            "try: import xarray\n"
            "except ImportError: print('none'); sys.exit()\n"
            "run = feast_lab.run(world, elements, step=True)\n"
            "data = run.to_xarray(every=20)\n"
            "print(dict(data.sizes), data.time.values.tolist(), data.aeps.values.tolist() == [it / 128 for it in data.time.values.tolist()])\n"
            "print(data.element.attrs, sorted(data.data_vars))\n"
            "frames = list(run.frames(20))\n"
            "print([int((data.element[at] == 1).sum()) for at in range(4)] == [it.counts()['Cell'] for it in frames])\n"
            "ages = [it.grid('Cell.age').astype(float).filled(numpy.nan) for it in frames]\n"
            "print(numpy.array_equal(data['Cell.age'], ages, equal_nan=True))\n"
            "print(list(run.end.to_xarray(['Cell.age']).data_vars), run.end.to_xarray().element.dims)\n"
            "chain = feast_lab.chain(world, elements, legs=3, step=True, keep='reports')\n"
            "print(chain.to_xarray().leg.values.tolist())\n"
            "print(chain.to_xarray(50, members=[]).time.values.tolist() == [it.events for it in chain.frames(50)])\n"
            "kinds = feast_lab.World('kinds.ulam', size=(8, 8)).put('Wide', 3, 4, low=-5, high=7)\n"
            "data = kinds.plane.to_xarray()\n"
            "print(float(data['Wide.low'][4, 3]), data['Wide.low'].dtype, int(data['Wide.low'].isnull().sum()))\n"
            "open('deep.ulam', 'w').write('element Deep { Int(64) much; Void behave() { } }')\n"
            "deep = feast_lab.World('deep.ulam', size=(8, 8)).put('Deep', 3, 4, much=(1 << 62) + 1).plane.to_xarray()['Deep.much']\n"
            "print(deep.values[4, 3], int(deep.isnull().sum()))\n"
            "try: run.to_xarray(20, members=['Cell.size'])\n"
            "except feast_lab.LabError as error: print(error)\n")
        said = self.says(script)
        if said == ["none"]:
            self.skipTest("no Python has xarray")
        self.assertEqual(said, [
            "{'time': 4, 'y': 8, 'x': 16} [0, 20, 40, 43] True",
            "{'flag_values': [1, 2], 'flag_meanings': 'Cell Wall'} ['Cell.age', 'Cell.list[0]', 'Cell.list[1]', 'element']", "True",
            "True", "['element', 'Cell.age'] ('y', 'x')", "[0, 1, 2, 3]", "True", "-5.0 float64 63", f"{(1 << 62) + 1} 63",
            "Cell has no member size; it has age, list[0], list[1]"])

    def test_pictures(self) -> None:
        """A notebook gets one picture: a figure, or pixels of a plane of many atoms, in the colours of the elements."""
        self.elements.write_text("/** \\color #112233 */\n" + self.elements.read_text())
        script = PLAIN + (
            "import io, matplotlib.image\n"
            "run = feast_lab.run(world, elements, step=True)\n"
            "chain = feast_lab.chain(world, elements, legs=2, step=True)\n"
            "print(run._repr_svg_() == run.end.svg(), run._repr_png_(), chain._repr_svg_() == chain.plane(2).svg(), chain._repr_png_())\n"
            "large = feast_lab.World(elements, tiles=(2, 2), size=(64, 64)).fill('Cell', 0.7, seed=1)\n"
            "print(large._repr_svg_(), large.plane._repr_svg_(), large._repr_png_() == large.plane._repr_png_())\n"
            "shown = (matplotlib.image.imread(io.BytesIO(large._repr_png_())) * 255).round().astype(int)\n"
            "there = (shown[::5, ::5, :3] == [17, 34, 51]).all(axis=2)\n"
            "print(shown.shape[:2], (there == (large.plane.cells.codes > 0)).all(), len(repr(run.end)) < 80)\n")
        self.assertEqual(self.says(script, MPLCONFIGDIR=str(self.room)), ["True None True None", "None None True", "(640, 640) True True"])


class Hearing(PackageCase):
    """How long a call may take, and who is told how far it is."""

    def test_timeout(self) -> None:
        """A run that takes longer than it may is ended, and says so."""
        slow = self.file("slow", "#!/bin/sh\n[ \"$1\" != run ] || exec sleep 60\nexec \"$REAL\" \"$@\"\n")
        slow.chmod(0o755)
        script = PLAIN + (
            "import time, os\n"
            "os.environ['REAL'] = os.environ['FEAST_PROGRAM']\n"
            "begin = time.monotonic()\n"
            "for timeout in (0.5, 0, -1):\n"
            "    try: feast_lab.run(world, elements, program='slow', timeout=timeout)\n"
            "    except feast_lab.LabError as error: print(error)\n"
            "print(time.monotonic() - begin < 20, len(feast_lab.run(world, elements, step=True, timeout=60).events))\n")
        more = "it has to be more than 0 seconds"
        self.assertEqual(self.says(script), ["w.world: it took more than 0.5 seconds, and was ended", f"timeout=0: {more}",
                                             f"timeout=-1: {more}", "True 43"])

    def test_progress(self) -> None:
        """A function is told the part that is done, and what is at work."""
        script = PLAIN + (
            "for make in (lambda tell: feast_lab.run(world, elements, step=True, progress=tell),\n"
            "             lambda tell: feast_lab.chain(world, elements, legs=2, step=True, progress=tell),\n"
            "             lambda tell: feast_lab.sweep(world, elements, set={'attempts': [20, 30]}, progress=tell)):\n"
            "    told = []\n"
            "    make(lambda part, what: told.append((part, what)))\n"
            "    print(len(told) > 0, all(0 <= part <= 1 for part, _ in told), told[-1])\n")
        run, *others = self.says(script)
        self.assertEqual(run, "True True (1.0, 'w.world')")
        self.assertTrue(all(it.startswith("True True (") for it in others), others)

    def test_line(self) -> None:
        """With `progress` a line on standard error says for how long a run has run, or how far a chain is."""
        slow = self.file("slow", "#!/bin/sh\n[ \"$1\" != step ] || sleep 1\nexec \"$REAL\" \"$@\"\n")
        slow.chmod(0o755)
        script = (f"import os, sys; sys.path.insert(0, {str(TOP / 'tools')!r})\nos.environ['REAL'] = os.environ['FEAST_PROGRAM']\n"
                  "import feast_lab.waiting, feast_lab.lab.base.progress as progress\n"
                  "progress.LINE_EVERY = 0.1\n"
                  f"feast_lab.run({str(self.world)!r}, {str(self.elements)!r}, step=True, program={str(slow)!r}, progress=True)\n")
        done = subprocess.run([self.python(), "-B", "-c", script], capture_output=True, text=True, check=True)
        self.assertEqual(done.stderr.splitlines()[0], "w.world: running for 0 s")
        self.assertLess(len(done.stderr.splitlines()), 10)


class Measures(PackageCase):
    """Functions of the user's own in chains and sweeps."""

    def test_columns(self) -> None:
        """They are further columns of a course and of the rows of a sweep."""
        script = PLAIN + (
            "words = dict(step=True, keep='reports', measures=['sum(Cell.age)'])\n"
            "ages = lambda plane: plane.grid('Cell.age').sum()\n"
            "alone = lambda plane: len(feast_lab.clusters(plane.grid('Cell'))) == 1\n"
            "chain = feast_lab.chain(world, elements, legs=3, **words)\n"
            "rows = chain.measured(ages=ages, alone=alone)\n"
            "print(rows.dtype.names[-3:], (rows['ages'] == rows['sum(Cell.age)']).all(), rows['alone'].dtype, rows['alone'][0])\n"
            "with feast_lab.sweep(world, elements, set={'Cell.odds': [2, 5]}, legs=2, **words) as sweep:\n"
            "    rows = sweep.measured(ages=ages)\n"
            "    place = sweep.folder.path\n"
            "print(len(rows), (rows['ages'] == rows['sum(Cell.age)']).all(), place.exists())\n"
            "with feast_lab.sweep(world, elements, set={'Cell.odds': [2, 5]}, **words) as sweep: rows = sweep.measured(ages=ages)\n"
            "print(len(rows), (rows['ages'] == rows['sum(Cell.age)']).all())\n"
            "for wrong in (dict(leg=ages), dict(it=lambda plane: plane.grid('Cell')), dict(it=lambda plane: 'much')):\n"
            "    try: chain.measured(**wrong)\n"
            "    except feast_lab.LabError as error: print(error)\n")
        number = "it: a measure has to give a number or a truth value of each plane"
        self.assertEqual(self.says(script), [
            "('sum(Cell.age)', 'ages', 'alone') True bool True", "6 True False", "2 True",
            "leg: the rows have a column of this name", number, number])

    def test_until(self) -> None:
        """A function of the plane ends a chain, one that is gone on with, and a fork, as a rule does."""
        script = PLAIN + (
            "old = lambda plane: plane.grid('Cell.age').max() >= 10\n"
            "rule = feast_lab.chain(world, elements, legs=40, step=True, until='max(Cell.age)>=10')\n"
            "own = feast_lab.chain(world, elements, legs=40, step=True, until=old)\n"
            "print(1 < len(own) == len(rule) < 40, own.course.tolist() == rule.course.tolist())\n"
            "begun = feast_lab.chain(world, elements, legs=1, step=True)\n"
            "print(len(feast_lab.go_on(begun, 40, until=old)) == len(rule), len(feast_lab.fork(begun, 1, 'fork', 40, until=old)) == len(rule))\n"
            "twin = feast_lab.fork(own, 1)\n"
            "place = twin.folder.path\n"
            "print(twin.course.tolist() == own.course.tolist(), place.exists(), twin.close(), place.exists())\n"
            "print(len(feast_lab.chain(world, elements, legs=3, step=True, until=lambda plane: False)))\n"
            "print(len(feast_lab.go_on(begun, 1, until=old)) == len(rule))\n"
            "kept = feast_lab.chain(world, elements, legs=2, step=True, folder='kept')\n"
            "print(len(feast_lab.chain(world, elements, legs=40, step=True, folder='kept', until=old)) == len(rule))\n")
        self.assertEqual(self.says(script), ["True True", "True True", "True True None False", "3", "True", "True"])

    def test_labels(self) -> None:
        """Clusters have numbers, the same with SciPy and without."""
        script = PLAIN + (
            "from unittest import mock\n"
            "from feast_lab import clusters as sizes, labels\n"
            "drawn = numpy.random.default_rng(7).random((40, 30)) < 0.5\n"
            "both = lambda: [(labels(drawn, it).tolist(), sizes(drawn, it).tolist()) for it in (False, True)]\n"
            "with_it = both()\n"
            "with mock.patch.dict(sys.modules, {'scipy.ndimage': None}): without = both()\n"
            "print(with_it == without, labels(numpy.array([[1, 0, 1], [0, 1, 1]], bool)).tolist())\n")
        self.assertEqual(self.says(script), ["True [[1, 0, 2], [0, 2, 2]]"])
