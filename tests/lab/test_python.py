"""The package for Python: runs and chains, what a call may be given, exact numbers, and its page."""
import gzip
import json
import os
import re
import shutil
import subprocess
import unittest
from html import unescape
from pathlib import Path

from calls import EXAMPLES, TOP, LabCase, feast, program
from packaged import ELEMENTS, WORLD, PackageCase, with_extras, without_extras
from pages import pieces

PAGE = TOP / "docs" / "python.md"
# what Python has to say of the run, as JSON
SCRIPT = """
import json, sys
import feast_lab
run = feast_lab.run(sys.argv[1], [sys.argv[2]], step=True, set=json.loads(sys.argv[3]))
plain = lambda rows: [list(row) for row in rows.tolist()]
told = dict(events=plain(run.events), abandoned=plain(run.abandoned),
            atoms=plain(run.atoms), grid=run.at(40).grid("Cell.age").tolist(),
            counts=plain(run.counts(every=30)), audit=run.audit(), drift=run.drift,
            film=run.film(3).html, shown=run.film(3)._repr_html_(), svg=run.at(40)._repr_svg_(), at=run.at(40).counts(),
            reprs=list(map(repr, [run, run.at(40), run.film(3)])))
print(json.dumps(told))
"""


class Package(PackageCase):
    """Runs, against what the verbs and the program say."""

    def told(self, values: str = "{}") -> dict[str, object]:
        """What the script says."""
        found: dict[str, object] = json.loads(self.says(SCRIPT, str(self.world), str(self.elements), values)[0])
        return found

    def check(self, told: dict[str, object]) -> None:
        """Compares what the script says with the report and with `rewind`."""
        report = self.file("report", feast("step", self.world, self.elements))
        atoms, journal, given_up = re.split(r"\n(?:journal|abandoned) \d+\n", report.read_text())
        records = [[*map(int, line.split()[:5]), int(line.split()[5], 16)] for line in journal.splitlines()]
        self.assertEqual(told["events"], records)
        self.assertEqual(told["abandoned"], [list(map(int, line.split())) for line in given_up.splitlines()])
        wanted = []
        for x, y, name, state in map(str.split, atoms.splitlines()[2:]):
            bits = f"{int(state, 16):072b}"[1:]
            members: list[int | None] = [int(bits[:7], 2), int(bits[7:10], 2) - 8 * int(bits[7]), int(bits[10:13], 2) - 8 * int(bits[10])]
            wanted.append([int(x), int(y), name, state, *(members if name == "Cell" else [None] * 3)])
        self.assertEqual(told["atoms"], wanted)
        grid: list[list[int | None]] = [[None] * 16 for _ in range(8)]
        for x, y, name, state in map(str.split, feast("rewind", self.world, report, "40", self.elements).splitlines()[2:]):
            if name == "Cell":
                grid[int(y)][int(x)] = int(state, 16) >> 64
        self.assertEqual(told["grid"], grid)
        counts = [[row[0], *row[3:]] for row in told["counts"]]  # type: ignore[attr-defined]
        for events, cells, walls in counts:
            left = feast("rewind", self.world, report, str(events), self.elements)
            self.assertEqual((cells, walls), (left.count(" Cell "), left.count(" Wall ")))
        self.assertEqual([row[0] for row in counts], [*range(0, len(records), 30), len(records)])
        self.assertEqual(told["audit"], "yes")
        self.check_pictures(told, report, len(records), len(wanted))

    def check_pictures(self, told: dict[str, object], report: Path, events: int, atoms: int) -> None:
        """Compares what a notebook shows with what the verb film writes, and how short the words for them are."""
        page = self.room / "film.html"
        self.passes("film", self.world, report, "--frames", "3", "-o", page, self.elements)
        film = page.read_text()
        self.assertEqual(told["film"], film)
        shown = re.fullmatch(r'<iframe sandbox="allow-scripts" srcdoc="([^"]*)" [^<>]*></iframe>', str(told["shown"]))
        assert shown is not None
        self.assertEqual(unescape(shown[1]), film)
        figure = self.passes("film", self.world, report, "--svg", "40", self.elements)
        self.assertEqual(told["svg"], figure.replace(f"after 40 of {events} events", "after 40 events"))
        there = sum(told["at"].values())  # type: ignore[attr-defined]
        self.assertEqual(told["reprs"], [
            f"<Run of w.world: {events} events, {len(told['abandoned'])} abandoned, {atoms} atoms>",  # type: ignore[arg-type]
            f"<Moment of w.world after 40 events: {there} atoms>", f"<Film of w.world, a page of {len(film):,} letters>"])

    def test_plain(self) -> None:
        """Without NumPy the package says what it needs, once something is asked for that needs it."""
        script = "import feast_lab; print(feast_lab.__version__); from feast_lab import run"
        done = subprocess.run(without_extras(), input=script, capture_output=True, text=True, check=False)
        self.assertEqual(done.stdout, f"{(TOP / 'VERSION').read_text()}")
        self.assertIn("ImportError: feast_lab needs the package numpy, which is not installed", done.stderr)

    def test_run(self) -> None:
        """A run, and one with another value of a constant."""
        self.check(self.told())
        self.elements.write_text(ELEMENTS.replace("odds = 2", "odds = 5"))
        other = self.told()
        self.elements.write_text(ELEMENTS)
        self.assertEqual(self.told('{"Cell.odds": 5}')["events"], other["events"])
        self.assertEqual(self.told('{"Cell.odds": 5}')["atoms"], other["atoms"])

    def test_chain(self) -> None:
        """A chain's course, its legs and its audit; and a report that is read again."""
        chain = self.room / "chain"
        self.passes("chain", chain, "--legs", "2", "--step", "--keep", "reports", self.world, self.elements)
        packed = self.room / "r.gz"
        packed.write_bytes(gzip.compress(feast("step", self.world, self.elements).encode()))
        script = ("import feast_lab\n"
                  f"chain = feast_lab.Chain({str(chain)!r})\n"
                  "print(len(chain), chain.audit(), chain.course['leg'].tolist(), len(chain.leg(2).events))\n"
                  f"print(len(feast_lab.read({str(self.world)!r}, {str(packed)!r}, [{str(self.elements)!r}]).events))\n"
                  "for wrong in (lambda: chain.leg(3), lambda: chain.counts(0), lambda: chain.film(0), lambda: chain.leg(1).at(-1),"
                  " lambda: chain.leg(1).grid('Cell.size'), lambda: chain.leg(1).to_pandas('x'), lambda: feast_lab.Chain('/nowhere'),"
                  f" lambda: feast_lab.run({str(self.world)!r}, [{str(self.elements)!r}], set={{'Cell.no': 1}}),"
                  f" lambda: feast_lab.read({str(self.world)!r}, {str(self.world)!r}, [{str(self.elements)!r}])):\n"
                  "    try: wrong()\n"
                  "    except feast_lab.LabError as error: assert str(error) and '\\n' not in str(error); print('refused')\n")
        said = self.says(script)
        course = (chain / "course.csv").read_text().splitlines()
        events = len(re.findall(r"(?m)^\d+ \d+ \d+ \d+ \d+ [0-9a-f]{16}$", gzip.decompress(packed.read_bytes()).decode()))
        self.assertEqual(said, [f"2 yes [0, 1, 2] {course[3].split(',')[2]}", str(events), *["refused"] * 9])

    def test_failed(self) -> None:
        """The course of a chain that looks for failed events, and for the drift, has them in the places where its file has them."""
        chain = self.room / "failing"
        self.passes("chain", chain, "--legs", "2", "--failures", "--drift", self.world, self.elements)
        script = (f"import feast_lab\ncourse = feast_lab.Chain({str(chain)!r}).course\nprint(*course.dtype.names)\n"
                  "print(*course['failed'])\n")
        head, *rows = (line.split(",") for line in (chain / "course.csv").read_text().splitlines())
        self.assertEqual(self.says(script), [" ".join(head), " ".join(row[4] for row in rows)])

    def test_version(self) -> None:
        """The package has the version of the repository."""
        self.assertEqual(self.says("import feast_lab; print(feast_lab.__version__)"), [(TOP / "VERSION").read_text().strip()])

    def test_names(self) -> None:
        """The package takes its own name and no other, changes nothing of where modules are looked for, and minds no package
        that is called as one of its own."""
        for name in ("lab", "proved", "recheck", "arrays", "runs"):
            self.file(f"{name}.py", "")
        script = ("before = list(sys.path), set(sys.modules)\n"
                  "import lab, proved, recheck, arrays, runs, pathlib, feast_lab\n"
                  "print(len(feast_lab.run(world, elements, step=True).events), sorted(set(dir(feast_lab)) ^ set(feast_lab.__all__)))\n"
                  "tools = pathlib.Path(feast_lab.__file__).parent.parent\n"
                  "mine = {name.partition('.')[0] for name, it in sys.modules.items() if str(tools) in (getattr(it, '__file__', '') or '')}\n"
                  "print(sys.path == before[0], mine, all(hasattr(feast_lab, name) for name in feast_lab.__all__), hasattr(feast_lab, 'no'))\n"
                  "print(callable(feast_lab.clusters), feast_lab.plots.__name__, feast_lab.run is __import__('feast_lab.runs').run)\n")
        self.assertEqual(self.says(script), ["43 []", "True {'feast_lab'} True False", "True feast_lab.plots True"])

    def test_command_line(self) -> None:
        """Without NumPy all verbs of the command line can be had."""
        script = ("import sys\nfrom feast_lab.lab.command.main import VERBS, verbs\n"
                  "print(len(verbs([])) == len(VERBS) > 9, 'numpy' in sys.modules)\n")
        done = subprocess.run(without_extras(), input=script, capture_output=True, text=True, check=False)
        self.assertEqual((done.stdout, done.stderr), ("True False\n", ""))


class Calls(PackageCase):
    """What a call may be given, and what it leaves."""

    def test_files_gone(self) -> None:
        """A plane is shown when the run and its files are gone, or the element files are others by then."""
        script = ("import feast_lab, gc, pathlib\n"
                  "plane = feast_lab.run(world, elements, step=True, set={'Cell.odds': 2}).at(40)\n"
                  "other = feast_lab.run(world, elements, step=True)\n"
                  "kept = other.at(40)\n"
                  "gc.collect()\n"
                  "pathlib.Path(elements).unlink()\n"
                  "print(plane.svg() == plane._repr_svg_() == kept.svg(), plane.svg().count('<svg'))\n")
        self.assertEqual(self.says(script), ["True 1"])

    def test_closed(self) -> None:
        """A run that is closed has what it had at its end, and says in a line why it has no more; nothing is left of it."""
        script = ("import feast_lab, pathlib, tempfile\n"
                  "left = lambda: [it.name for it in pathlib.Path(tempfile.gettempdir()).iterdir()]\n"
                  "with feast_lab.run(world, elements, step=True, set={'Cell.odds': 2}) as run: plane = run.at(40)\n"
                  "print(left(), len(run.events), len(run.atoms) == len(run.at(43).lines), plane.counts() != {})\n"
                  "for wrong in (lambda: run.at(3), run.audit, run.film, lambda: run.counts(9)):\n"
                  "    try: wrong()\n"
                  "    except feast_lab.LabError as error: print(error)\n")
        (self.room / "tmp").mkdir()
        said = "the run of w.world is closed; only what it had at its end is still there"
        self.assertEqual(self.says(script, TMPDIR=str(self.room / "tmp")), ["[] 43 True True", *[said] * 4])

    def test_elements(self) -> None:
        """One file by its path or its name, or several."""
        one, two = ELEMENTS.split("\nelement Wall")
        self.file("one.ulam", one + "\n")
        self.file("two.ulam", "element Wall" + two)
        script = ("import feast_lab, pathlib\n"
                  "path = pathlib.Path(elements)\n"
                  "runs = [feast_lab.run(world, given, step=True).bytes for given in\n"
                  "        (elements, path, [elements], (path,), ['one.ulam', pathlib.Path('two.ulam')], (it for it in [path]))]\n"
                  "pathlib.Path('report').write_bytes(runs[0])\n"
                  "print(len(set(runs)), feast_lab.read(world, 'report', elements).bytes == feast_lab.read(world, 'report', path).bytes)\n"
                  "try: feast_lab.run(world, [])\n"
                  "except feast_lab.LabError as error: print(error)\n")
        self.assertEqual(self.says(script), ["1 True", "elements: at least one file has to be named"])

    def test_seed(self) -> None:
        """A run with a seed is, byte for byte, that of the first leg of a chain with that seed; the world stays as it is."""
        chain = self.room / "chain"
        self.passes("chain", chain, "--legs", "1", "--step", "--seed", "77", "--keep", "reports", self.world, self.elements)
        script = ("import feast_lab, pathlib\n"
                  "run = feast_lab.run(world, elements, step=True, seed=77)\n"
                  "print(run.bytes == feast_lab.Chain('chain').leg(1).bytes, run.world.seed, run.at(3).title)\n"
                  "print(feast_lab.run(pathlib.Path(world).read_text(), elements, step=True, seed=77).bytes == run.bytes, run.audit())\n"
                  "print(len({feast_lab.run(world, elements, step=True, seed=seed).bytes for seed in (3, 6, 9)}))\n"
                  "for seed in (-1, 1 << 64):\n"
                  "    try: feast_lab.run(world, elements, seed=seed)\n"
                  "    except feast_lab.LabError as error: print(error)\n")
        last = "a seed is from 0 to 18446744073709551615"
        self.assertEqual(self.says(script), ["True 77 w.world", "True yes", "3", f"seed=-1: {last}", f"seed={1 << 64}: {last}"])
        self.assertEqual(self.world.read_text(), WORLD)

    def test_no_program(self) -> None:
        """Where no program is found, as after an installation, the error is one line that says what to do."""
        site = self.room / "site"
        shutil.copytree(TOP / "tools" / "feast_lab", site / "feast_lab")
        script = ("import feast_lab\n"
                  "for program in (None, 'nowhere', '.'):\n"
                  "    for call in (feast_lab.run, lambda world, elements, program: feast_lab.read(world, 'report', elements, program=program)):\n"
                  "        try: call(world, elements, program=program)\n"
                  "        except feast_lab.LabError as error: print(str(error).partition(': ')[2])\n")
        self.file("report", feast("step", self.world, self.elements))
        said = "there is no program to call; name the built one by program= or in the variable FEAST_PROGRAM"
        self.assertEqual(self.says(script, site=site, FEAST_PROGRAM=""), [said] * 6)


class Wide(PackageCase):
    """Whole numbers beyond 2^53, of which a float loses the last digits."""

    ELEMENTS = """element Cell { EventWindow ew; Unsigned(60) big; Unsigned(5) small; Void behave() { } }
element Other { EventWindow ew; Int(64) deep; Void behave() { } }
element Third { EventWindow ew; Unsigned(64) high; Void behave() { } }
"""
    BIG, DEEP, HIGH = (1 << 60) - 1, -(1 << 63) + 1, (1 << 64) - 1
    # what each Python says of the atoms, as texts
    SCRIPT = """
import feast_lab
run = feast_lab.run(sys.argv[1], sys.argv[2])
for row in run.atoms[["big", "small", "deep", "high"]].tolist():
    print(list(map(str, row)))
for name, x in (("Cell.big", 1), ("Other.deep", 2), ("Third.high", 3), ("Cell.small", 1), ("Cell", 1)):
    print(name, run.grid(name).tolist()[1][x], run.grid(name).tolist()[0][0], run.grid(name).dtype)
"""

    def setUp(self) -> None:
        super().setUp()
        self.elements = self.file("wide.ulam", self.ELEMENTS)
        states = [(self.BIG << 5 | 3) << 6, (self.DEEP + (1 << 64)) << 7, self.HIGH << 7]
        atoms = "".join(f"atom {x} 1 {name} {state:018x}\n" for x, (name, state) in enumerate(
            zip(("Cell", "Other", "Third"), states, strict=True), 1))
        self.world = self.file("wide.world", f"feast 1\ntiles 1 1\nsize 8 8\nseed 3\nattempts 2\n{atoms}")

    def test_arrays(self) -> None:
        """In arrays all members are whole numbers, and masked where an element has none; in frames there is a type for them."""
        big, deep, high = map(str, (self.BIG, self.DEEP, self.HIGH))
        rows = [[big, "3", "None", "None"], ["None", "None", deep, "None"], ["None", "None", "None", high]]
        self.assertEqual(self.says(self.SCRIPT, str(self.world), str(self.elements)), [
            *map(str, rows), f"Cell.big {big} None int64", f"Other.deep {deep} None int64", f"Third.high {high} None uint64",
            "Cell.small 3 None int64", "Cell 1 None int64"])
        script = ("import feast_lab\nframe = feast_lab.run(world, elements).to_pandas('atoms')\n"
                  "print([str(frame.dtypes[name]) for name in ('x', 'big', 'small', 'deep', 'high')])\n"
                  "print(frame['big'][0], frame['deep'][1], frame['high'][2], int(frame['big'].isna().sum()))\n")
        self.assertEqual(self.says(script), ["['uint16', 'Int64', 'Int64', 'Int64', 'UInt64']", f"{self.BIG} {self.DEEP} {self.HIGH} 2"])

    def test_course(self) -> None:
        """What is measured of wide members has all digits in a chain's course; a mean is a float."""
        measures = ["--sum", "Cell.big", "--min", "Other.deep", "--max", "Third.high", "--mean", "Cell.small", "--count", "Cell.small=3"]
        self.passes("chain", self.room / "chain", "--legs", "1", *measures, self.world, self.elements)
        script = ("import feast_lab\nrow = feast_lab.Chain('chain').course[1]\n"
                  "print(row['sum(Cell.big)'], row['min(Other.deep)'], row['max(Third.high)'], row['mean(Cell.small)'])\n")
        self.assertEqual(self.says(script), [f"{self.BIG} {self.DEEP} {self.HIGH} 3.0"])


class Page(LabCase):
    """The page, whose blocks are one script."""

    MOST_LINES = 25  # of a whole experiment

    def check(self, text: str) -> str:
        """Runs the blocks of a text of the page, which are to print what they say; gives them."""
        python = with_extras()
        if python is None:
            raise unittest.SkipTest("no Python has NumPy, pandas and Matplotlib")
        (self.room / "examples").symlink_to(EXAMPLES)
        blocks = list(pieces(text))
        script = "".join(block for before, block in blocks if not before.endswith("prints"))
        prints = "".join(block for before, block in blocks if before.endswith("prints"))
        self.assertEqual(script.splitlines()[0], "import feast_lab")
        around = os.environ | {"PYTHONPATH": str(TOP / "tools"), "PYTHONDONTWRITEBYTECODE": "1",
                               "FEAST_PROGRAM": str(program()), "MPLCONFIGDIR": str(self.room)}
        done = subprocess.run([python, "-"], input=script, cwd=self.room, env=around, capture_output=True,
                              text=True, check=False)
        self.assertEqual((done.returncode, done.stdout), (0, prints), done.stderr)  # Matplotlib may tell of its fonts
        return script

    def test_study(self) -> None:
        """All of them."""
        self.check(PAGE.read_text().partition("## A study")[2])
        self.assertIn("<svg", (self.room / "gradient.svg").read_text())

    def test_experiment(self) -> None:
        """Those of a whole experiment stand alone, in few lines, and use nothing but the package."""
        script = self.check(PAGE.read_text().partition("## A whole experiment")[2].partition("\n## ")[0])
        lines = list(filter(None, script.splitlines()))
        self.assertLessEqual(len(lines), self.MOST_LINES)
        self.assertEqual([line for line in lines if "import" in line], ["import feast_lab"])
        self.assertIn("<svg", (self.room / "heal.svg").read_text())
        self.assertIn("<html", (self.room / "heal.html").read_text())
