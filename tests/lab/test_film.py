"""Films: each frame against what `rewind` says, and what is refused."""
import csv
import gzip
import io
import xml.etree.ElementTree as xml
from collections import Counter
from collections.abc import Sequence
from pathlib import Path

import films
import kept_chain
from calls import EXAMPLES, LabCase, Word, feast, here

SVG = "{http://www.w3.org/2000/svg}"


def atoms_after(world: Path, report: Path, events: int, *files: Word) -> films.Plane:
    """The atoms after so many events, as `rewind` says."""
    return films.plane_of(feast("rewind", world, report, str(events), *files).splitlines()[2:])


def given_up(report: str, since: int, upto: int) -> Counter[films.Site]:
    """Where attempts were given up whose tile's next event is above one number and up to another.

    What no event of its tile follows counts with the last event.
    """
    lines = report.splitlines()
    middle = next(at for at, line in enumerate(lines) if line.startswith("journal "))
    count = int(lines[middle].split()[1])
    records = [[int(it) for it in line.split()[:3]] for line in lines[middle + 1:middle + 1 + count]]
    found: Counter[films.Site] = Counter()
    for line in lines[middle + 2 + count:]:
        tile, attempt, x, y = map(int, line.split()[:4])
        moment = next((at for at, record in enumerate(records, 1) if record[1] == tile and record[2] > attempt), count)
        if since < moment <= upto:
            found[(x, y)] += 1
    return found


class FilmCase(LabCase):
    """A test with a run of an example."""

    def shown(self, world: Path, *files: Word, form: str = "step", frames: int = 25) -> tuple[list[films.Shot], Path]:
        """The frames of a film, and the report that it is of."""
        report = self.file("report", feast(form, world, *files))
        page = self.room / "film.html"
        self.passes("film", world, report, "--frames", str(frames), "-o", page, *files)
        return films.shots(page.read_text()), report

    def check(self, shots: Sequence[films.Shot], world: Path, report: Path, *files: Word) -> None:
        """Compares each frame with what `rewind` says."""
        for shot in shots:
            self.assertEqual(shot.atoms, atoms_after(world, report, shot.events, *files))


class Frames(FilmCase):
    """The frames of films."""

    def test_examples(self) -> None:
        """Each frame of each example has the atoms that `rewind` says."""
        for name in ("diffusion", "fence", "regulator", "seasons", "sorter"):
            for world in (EXAMPLES / f"{name}.world", EXAMPLES / f"{name}-tiles.world"):
                with self.subTest(world.name):
                    file = EXAMPLES / f"{name}.ulam"
                    shots, report = self.shown(world, file)
                    events = int(report.read_text().split("\njournal ")[1].split("\n")[0])
                    self.assertEqual([shot.events for shot in shots], [events * frame // 25 for frame in range(26)])
                    self.check(shots, world, report, file)

    def test_threads(self) -> None:
        """The same of a run with a thread for each tile, whose report is packed."""
        world, file = EXAMPLES / "regulator-tiles.world", EXAMPLES / "regulator.ulam"
        shots, report = self.shown(world, file, form="run")
        self.check(shots, world, report, file)
        packed = self.room / "report.gz"
        packed.write_bytes(gzip.compress(report.read_bytes()))
        page = self.room / "packed.html"
        self.passes("film", world, packed, "--frames", "25", "-o", page, file)
        self.assertEqual(page.read_bytes(), (self.room / "film.html").read_bytes())

    def test_each_event(self) -> None:
        """If there are fewer events than frames, each event has one; a run without events has its start."""
        world, file = EXAMPLES / "walk.world", EXAMPLES / "walker.ulam"
        shots, report = self.shown(world, file)
        self.assertEqual([shot.events for shot in shots], [0, 1, 2, 3, 4, 5])
        self.check(shots, world, report, file)
        still = self.file("still.world", "feast 1\ntiles 1 1\nsize 8 8\natom 1 4 Walker\n")
        shots, report = self.shown(still, file)
        self.assertEqual([(shot.events, shot.atoms) for shot in shots], [(0, {(1, 4): f"Walker {'0' * 18}"})])

    def test_off(self) -> None:
        """A world with a tile that is off, and one whose tries are written out."""
        text = "feast 2\ntiles 3 2\nsize 8 9\noff 1\nseed 5\nattempts 3000\natom 2 2 Regulator\natom 20 12 Regulator\n"
        world, file = self.file("off.world", text), EXAMPLES / "regulator.ulam"
        shots, report = self.shown(world, file)
        self.check(shots, world, report, file)
        records = report.read_text().split("\njournal ")[1].split("\nabandoned")[0].splitlines()[1:]
        tries = [f"try {tile} {x} {y} {seed}\n" for _, tile, _, x, y, seed in map(str.split, records)]
        front, _, back = text.partition("seed 5\nattempts 3000\n")
        written = self.file("tries.world", front + "".join(tries) + back)
        shots, report = self.shown(written, file)
        self.check(shots, written, report, file)

    def test_abandoned(self) -> None:
        """An attempt that was given up is shown with the next event of its tile."""
        text = (EXAMPLES / "fence-tiles.world").read_text().replace("attempts 20000", "attempts 300")
        world = self.file("short.world", text)
        shots, report = self.shown(world, EXAMPLES / "fence.ulam", frames=7)
        before = 0
        for shot in shots[1:]:
            self.assertEqual(shot.abandoned, given_up(report.read_text(), before, shot.events))
            before = shot.events
        self.assertFalse(shots[0].abandoned)
        self.assertGreater(shots[3].abandoned.total(), 100)

    def test_table(self) -> None:
        """The counts of each frame, and the events and abandoned attempts before it."""
        world, file = EXAMPLES / "regulator-tiles.world", EXAMPLES / "regulator.ulam"
        report = self.file("report", feast("step", world, file))
        rows = list(csv.DictReader(io.StringIO(self.passes("film", world, report, "--csv", "--frames", "9", file))))
        self.assertEqual([row["frame"] for row in rows], [str(frame) for frame in range(10)])
        for row in rows:
            counts = Counter(atom.split()[0] for atom in atoms_after(world, report, int(row["events"]), file).values())
            self.assertEqual((row["Regulator"], row["Resource"]), (str(counts["Regulator"]), str(counts["Resource"])))
            self.assertEqual(row["aeps"], f"{int(row['events']) / 256:.4f}")
        self.assertEqual(rows[-1]["abandoned"], report.read_text().split("\nabandoned ")[1].split("\n")[0])


class Chains(LabCase):
    """Films of chains."""

    def setUp(self) -> None:
        super().setUp()
        self.chain = self.room / "healing"
        world = self.file("small.world", (EXAMPLES / "regulator-tiles.world").read_text().replace("attempts 40000", "attempts 5000"))
        self.begin: list[Word] = ["chain", self.chain, "--legs", "4", "--step", "--at", "3:clear:0,0,16,12", world,
                                  EXAMPLES / "regulator.ulam"]

    def made(self, keep: str) -> tuple[list[dict[str, str]], str]:
        """The course of a chain, and its film as text."""
        self.passes(*self.begin, "--keep", keep)
        page = self.room / "film.html"
        self.passes("film", self.chain, "--frames", "10", "-o", page)
        with (self.chain / "course.csv").open() as file:
            return list(csv.DictReader(file)), page.read_text()

    def atoms(self, leg: int) -> films.Plane:
        """The atoms that a leg left."""
        return films.plane_of(kept_chain.atoms(self.chain, leg))

    def test_reports(self) -> None:
        """Frames in the midst of legs are those of the leg's report, and the cleared plane has one."""
        course, html = self.made("reports")
        shots = films.shots(html)
        ends = [sum(int(row["events"]) for row in course[:leg + 1]) for leg in range(5)]
        self.assertEqual(films.head(html)["acts"], [{"events": ends[2], "text": "clear:0,0,16,12"}])
        self.assertEqual(shots[-1].atoms, self.atoms(4))
        before, after = (shot for shot in shots if shot.events == ends[2])
        self.assertEqual(before.atoms, self.atoms(2))
        self.assertEqual(after.atoms, {site: atom for site, atom in before.atoms.items() if site[1] >= 12})
        self.assertNotEqual(before.atoms, after.atoms)
        for shot in shots:
            leg = next((leg for leg in range(1, 5) if ends[leg - 1] < shot.events < ends[leg]), None)
            if leg is not None:
                report = self.file("report", kept_chain.told(self.chain, leg, "whole"))
                world = self.file("world", kept_chain.told(self.chain, leg, "world"))
                self.assertEqual(shot.atoms, atoms_after(world, report, shot.events - ends[leg - 1], EXAMPLES / "regulator.ulam"))
        self.assertEqual(sum(shot.abandoned.total() for shot in shots), sum(int(row["abandoned"]) for row in course))

    def test_ends(self) -> None:
        """Without reports the frames are the ends of the legs, with the numbers of the course."""
        course, html = self.made("none")
        shots = films.shots(html)
        self.assertEqual([shot.atoms for shot in [*shots[:3], *shots[4:]]], [self.atoms(leg) for leg in range(5)])
        self.assertEqual(shots[3].atoms, {site: atom for site, atom in self.atoms(2).items() if site[1] >= 12})
        self.assertEqual(sum(films.head(html)["abandoned"]), sum(int(row["abandoned"]) for row in course))
        end = int(course[1]["events"])
        self.assertIn(f"<desc>A plane of 16 by 16 sites with {course[1]['Regulator']} Regulator",
                      self.passes("film", self.chain, "--svg", str(end)))
        self.refused("known at the ends of its legs alone", "film", self.chain, "--svg", str(end - 1))


class Figures(FilmCase):
    """Planes as SVG."""

    def test_figure(self) -> None:
        """The figure has a box and a symbol for each atom."""
        world, file = EXAMPLES / "fence-tiles.world", EXAMPLES / "fence.ulam"
        report = self.file("report", feast("step", world, file))
        last = int(report.read_text().split("\njournal ")[1].split()[0])
        for events in (0, 5000, last):
            picture = xml.fromstring(self.passes("film", world, report, "--svg", str(events), file))
            atoms = atoms_after(world, report, events, file)
            counts = Counter(atom.split()[0] for atom in atoms.values())
            described = picture.findtext(f"{SVG}desc")
            self.assertEqual(described, f"A plane of 16 by 16 sites with {counts['Fence']} Fence, {counts['Mouse']} Mouse.")
            texts = [text.text for text in picture.iter(f"{SVG}text")]
            self.assertEqual(texts.count("Fe") + texts.count("Mo"), len(atoms) + 2)  # each stands once in the legend
            self.assertIn(f"Fence {counts['Fence']}", texts)

    def test_file(self) -> None:
        """With -o the figure is written to a file."""
        world, file = EXAMPLES / "fence.world", EXAMPLES / "fence.ulam"
        report = self.file("report", feast("run", world, file))
        wrote = self.passes("film", world, report, "--svg", "100", file)
        self.assertEqual(self.passes("film", world, report, "--svg", "100", "-o", self.room / "it.svg", file), "")
        self.assertEqual((self.room / "it.svg").read_text(), wrote)


class Refusals(FilmCase):
    """What is refused in one line, with nothing written."""

    def setUp(self) -> None:
        super().setUp()
        self.world = self.file("fence.world", (EXAMPLES / "fence.world").read_text().replace("attempts 20000", "attempts 1500"))
        self.elements = EXAMPLES / "fence.ulam"
        self.report = self.file("report", feast("run", self.world, self.elements))
        self.out = self.room / "film.html"

    def test_words(self) -> None:
        """Words that ask for nothing that there is."""
        self.refused("-o FILE.html", "film", self.world, self.report, self.elements)
        self.refused("--frames 0", "film", self.world, self.report, "--frames", "0", "-o", self.out, self.elements)
        self.refused("WORLD REPORT FILE..", "film", self.world, self.report, "-o", self.out)
        self.refused("there are 1500 events", "film", self.world, self.report, "--svg", "1501", self.elements)
        self.refused("there are 1500 events", "film", self.world, self.report, "--svg", "-1", self.elements)
        self.refused(str(self.room), "film", self.room, "-o", self.out)

    def test_files(self) -> None:
        """Files that are missing, or others than they should be."""
        missing = self.room / "missing"
        for place in range(3):
            words = [self.world, self.report, self.elements]
            words[place] = missing
            self.refused(str(missing), "film", *words, "-o", self.out)
        self.refused(f"{self.world}:2: no report", "film", self.world, self.world, "-o", self.out, self.elements)
        sorter = EXAMPLES / "sorter.world"
        self.refused(f"{sorter}:7:1: E73 unknown element", "film", sorter, self.report, "-o", self.out, self.elements)
        other = self.file("other.world", self.world.read_text().replace("seed 7", "seed 8"))
        first = int(self.report.read_text().split()[3]) + 4  # behind `atoms N`, N atoms, and `journal ..`
        self.refused(f"{self.report}:{first}:1: E83", "film", other, self.report, "-o", self.out, self.elements)

    def test_atoms(self) -> None:
        """A report whose atoms are not those of its events, packed or not."""
        lines = self.report.read_text().splitlines(keepends=True)
        false = self.file("false", "".join([lines[0], "atoms 0\n", *lines[2 + int(lines[1].split()[1]):]]))
        self.refused(f"{false}: its atoms are not those", "film", self.world, false, "-o", self.out, self.elements)
        packed = self.room / "packed"
        packed.write_bytes(gzip.compress(false.read_bytes())[:-20])
        self.refused(f"{packed}: the packed report is damaged", "film", self.world, packed, "-o", self.out, self.elements)

    def test_marks(self) -> None:
        """Commands of doc comments that don't say a colour or a symbol."""
        front = self.elements.read_text().split("/** Wanders")[0]
        line = front.count("\n") + 2
        text = self.elements.read_text()
        cases = (("\\color red", "#rgb or #rrggbb, not 'red'"), ("\\color #12", "#rgb or #rrggbb, not '#12'"),
                 ("\\symbol long", "one to three letters, not 'long'"), ("\\symbol", "one to three letters, not ''"))
        for number, (command, wanted) in enumerate(cases):
            file = self.file(f"bad{number}.ulam", text.replace("/** Wanders,", f"/** Wanders\n{command} */ /*"))
            kind = command[1:].partition(" ")[0]
            for out in ("one.html", "two.svg"):  # it is said once, and in place of it there is one of the lab's own
                done = here("film", self.world, self.report, "-o", self.room / out, *(["--svg", "3"] if "svg" in out else []), file)
                warned = f"lab: warning: {file}:{line}: \\{kind} takes {wanted}; the element gets a {kind} of the lab's own\n"
                self.assertEqual((done.status, done.said), (0, warned if out == "one.html" else ""))
        file = self.file("bad.ulam", text.replace("/** Wanders,", "/** Wanders\n\\color-by + */ /*"))
        self.refused(f"{file}:{line}: \\color-by takes the name of a member, not '+'", "film", self.world, self.report, "-o", self.out, file)

    def test_useless(self) -> None:
        """Options that what is asked for has no place for."""
        words: list[Word] = ["film", self.world, self.report, self.elements]
        for options, says in (
            (["--csv", "--color", "Mouse.n"], "--color: --csv has no colours; --mean Element.member and the like add columns"),
            (["--svg-movie", "3", "--color", "Mouse.n"], "--color: --svg-movie colours atoms by their elements alone"),
            (["--svg", "3", "--mean", "Mouse.n"], "mean(Mouse.n): --svg has no place for a measure"),
            (["--svg-movie", "3", "--count", "Mouse.n=1"], "count(Mouse.n=1): --svg-movie has no place for a measure"),
        ):
            self.refused(says, *words, *options)

    def test_output(self) -> None:
        """A place where nothing can be written."""
        nowhere = self.room / "nowhere" / "film.html"
        self.refused(f"{nowhere}: there is no such folder", "film", self.world, self.report, "-o", nowhere, self.elements)
