"""Chains that are made in Python, planes one after another, and measures of a user's own."""
from calls import feast
from packaged import PackageCase

PLAIN = "import feast_lab, numpy\n"


class Chains(PackageCase):
    """Against what the verb chain makes."""

    def test_made(self) -> None:
        """It is the chain of the verb, byte for byte, walked leg by leg or at once; with an act, and gone on with."""
        act = "2:erase:0.5:0,0,16,8"
        self.passes("chain", self.room / "verb", "--legs", "4", "--step", "--seed", "5", "--at", act, "--count", "Cell.age=1", "--keep", "reports",
                    self.world, self.elements)
        script = PLAIN + (
            "import pathlib\n"
            f"words = dict(step=True, seed=5, at=[{act!r}], measures=['count(Cell.age=1)'], keep='reports')\n"
            "once = feast_lab.chain(world, elements, legs=4, folder='once', **words)\n"
            "walked = feast_lab.chain(feast_lab.World.read(world, elements), legs=1, **words)\n"
            "planes = list(feast_lab.walk(walked, 4))\n"
            "course = lambda it: (pathlib.Path(it) / 'course.csv').read_bytes()\n"
            "print(course('once') == course('verb') == course(walked.folder.path), len(walked), walked.audit(), len(planes))\n"
            "print([len(it.lines) for it in planes] == (once.course['Cell'] + once.course['Wall']).tolist()[1:])\n"
            "print([it.events for it in planes] == numpy.cumsum(once.course['events']).tolist()[1:])\n"
            "print(len(feast_lab.go_on(once, 6)), course('once').startswith(course('verb')))\n"
            "with walked: place = walked.folder.path\n"
            "print(place.exists(), pathlib.Path('once').exists())\n")
        self.assertEqual(self.says(script), ["True 4 yes 4", "True", "True", "6 True", "False True"])

    def test_forked(self) -> None:
        """A fork has the legs of the other chain up to one, and then acts of its own."""
        script = PLAIN + (
            "control = feast_lab.chain(world, elements, legs=4, folder='control', step=True)\n"
            "hurt = feast_lab.fork(control, 2, 'hurt', 4, at=['3:clear:0,0,16,8'])\n"
            "one, other = control.course, hurt.course\n"
            "print(one[:3].tolist() == other[:3].tolist(), len(hurt), other['Cell'][3:].tolist(), other['Wall'][3:].tolist())\n"
            "print(feast_lab.statistics.paired(one, other, 'Wall', on='leg')['mean'])\n"
            "for wrong in (lambda: feast_lab.fork(control, 9, 'x', 10), lambda: control.plane(5),\n"
            "              lambda: feast_lab.chain(world, elements, legs=0), lambda: list(control.frames(0)), lambda: list(control.frames(5)),\n"
            "              lambda: feast_lab.go_on(control, 5, at=['1:clear:0,0'])):\n"
            "    try: wrong()\n"
            "    except feast_lab.LabError as error: print(str(error)[:60])\n")
        self.assertEqual(self.says(script), [
            "True 4 [0, 0] [0, 0]", "[0.4]", "from control 9: the chain has the legs 0 to 4, and no leg 9", "plane(5): the chain has the legs 0 to 4",
            "legs 0: a chain has at least one leg, and at most 4,294,967,", "every=0: the distance is at least one event",
            "control: the chain keeps no reports, so its events aren't kn", "at 1:clear:0,0: leg 1 is done, and nothing of the kind was d"])

    def test_frames(self) -> None:
        """The planes of a run and of a chain are those that `rewind` gives."""
        report = self.file("report", feast("step", self.world, self.elements))
        script = PLAIN + (
            "run = feast_lab.run(world, elements, step=True)\n"
            "frames = list(run.frames(20))\n"
            "print([it.events for it in frames], all(it.lines == run.at(it.events).lines for it in frames))\n"
            "for it in frames: print(*it.lines, sep=';')\n"
            "chain = feast_lab.chain(world, elements, legs=3, step=True, keep='reports')\n"
            "print([it.events for it in chain.frames(10 ** 6)], list(chain.frames(10 ** 6))[-1].lines == chain.plane(3).lines)\n"
            "print(list(chain.frames(50))[1].lines == chain.leg(2).at(50 - chain.course['events'][1]).lines)\n")
        first, *planes, ends, between = self.says(script)
        self.assertEqual((first, ends.partition(", ")[0], ends[-4:], between), ("[0, 20, 40, 43] True", "[0", "True", "True"))
        wanted = [feast("rewind", self.world, report, events, self.elements).splitlines()[2:] for events in ("0", "20", "40", "43")]
        self.assertEqual(planes, [";".join(it) for it in wanted])

    def test_own_measures(self) -> None:
        """A function of the user's over the planes of a chain, and one that ends a walk."""
        script = PLAIN + (
            "chain = feast_lab.chain(world, elements, legs=3, step=True, measures=['sum(Cell.age)'])\n"
            "ages = chain.measure(lambda plane: plane.grid('Cell.age').sum())\n"
            "print(ages.tolist() == chain.course['sum(Cell.age)'].tolist(), len(ages))\n"
            "planes = list(feast_lab.walk(chain, 99, until=lambda plane: plane.events > 150))\n"
            "print([plane.events > 150 for plane in planes] == [False] * (len(planes) - 1) + [True], len(planes) == len(chain) - 2)\n")
        self.assertEqual(self.says(script), ["True 4", "True True"])

    def test_clusters(self) -> None:
        """By edges, and by corners too; over an array of truth values and over a grid."""
        script = PLAIN + (
            "world = feast_lab.World(elements, size=(8, 8)).draw('##..#\\n#..#\\n....##\\n....##', {'#': 'Cell:age=0'})\n"
            "print(feast_lab.clusters(world.grid('Cell.age')).tolist(), feast_lab.clusters(world.grid('Cell'), diagonal=True).tolist())\n"
            "print(feast_lab.clusters(numpy.zeros((3, 3), bool)).tolist(), feast_lab.clusters(numpy.ones((3, 3), bool)).tolist())\n"
            "try:\n"
            "    from scipy.ndimage import label\n"
            "    drawn = numpy.random.default_rng(7).random((40, 30)) < 0.5\n"
            "    for shape in (None, numpy.ones((3, 3))):\n"
            "        sizes = numpy.bincount(label(drawn, shape)[0].ravel())[1:]\n"
            "        assert sorted(sizes.tolist(), reverse=True) == feast_lab.clusters(drawn, shape is not None).tolist()\n"
            "except ImportError: print('no SciPy')\n")
        first, second, *lacks = self.says(script)
        self.assertEqual([first, second], ["[4, 3, 1, 1] [6, 3]", "[] [9]"])
        self.parts = ["no Python has NumPy and SciPy"] * len(lacks)  # what SciPy says isn't tried then
