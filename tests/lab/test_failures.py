"""The lab's machine makes each event again, and events that failed are found with their causes."""
import csv
import io
import random
import sys
from concurrent.futures import ThreadPoolExecutor
from pathlib import Path

from again import Tally, example_runs, shortened
from calls import LabCase, Word, feast, here, lab, program
from kept_chain import told
from drawn_elements import Drawer, world

from feast_lab.lab.base.program import Program
from feast_lab.lab.chain.audit import AuditedChain
from feast_lab.lab.chain.folder import Folder
from feast_lab.lab.machine.code import element_codes

DRAWN_FILES = 100  # of two elements each
# A body of `behave` for each cause, what stands before it, and the function in which it fails, with its line.
CAUSES = [
    (1, "while (true) { }", "", ("behave", 4)),
    (1, "for (Unsigned i = 0; i < 1001; i++) { }", "", ("behave", 4)),
    (2, "dive();", "Void dive() { dive(); }", ("dive", 3)),
    (3, "n = 5 / n;", "", ("behave", 4)),
    (3, "n = rest(n);", "Int rest(Int by) { return 5 % by; }", ("rest", 3)),
    (4, "ew.swap(0, 41);", "", ("behave", 4)),
    (4, "ew[n - 1] = Empty.instanceof;", "", ("behave", 4)),
    (5, "n = (Int) random.create(0);", "", ("behave", 4)),
    (5, "if (random.oneIn((Unsigned) n)) n = 1;", "", ("behave", 4)),
    (6, "ew.swap(0, 1); count();", "Void count() { n++; }", ("count", 3)),
    (6, "ew[0] = Empty.instanceof; ew[1] = self;", "", ("behave", 4)),
    (7, "list[2] = 1;", "", ("behave", 4)),
    (7, "n = (Int) list[n - 1];", "", ("behave", 4)),
]
# What each of them leaves in peace: 1,000 turns, 16 calls, and the like.
SOUND = [
    ("for (Unsigned i = 0; i < 1000; i++) { }", ""),
    ("dive(15);", "Void dive(Int deep) { if (deep > 0) dive(deep - 1); }"),
    ("n = 5 / (n - 1);", ""),
    ("ew.swap(0, 40); ew[0] = Empty.instanceof;", ""),
    ("n = (Int) random.create(1);", ""),
    ("ew.swap(0, 1); ew.swap(0, 1); n++;", ""),
    ("list[1] = 3;", ""),
]
TRIES = """feast 1
tiles 1 1
size 8 8
try 0 0 0 0000000000000001
try 0 6 3 0000000000000002
try 0 4 4 0000000000000003
try 0 4 4 0000000000000004
try 0 2 5 0000000000000005
atom 4 4 Bad
atom 2 5 Bad
atom 6 3 Good
"""

DRAWN = "feast 1\ntiles 1 1\nsize 8 8\nseed 5\nattempts 100\natom 4 4 Bad\n"

# What each operator makes of members whose bits are drawn: the types of a, b and r, and what r becomes.
SIGNED, UNSIGNED, BITS = ("Int(20)", "Int(9)", "Int(40)"), ("Unsigned(20)", "Unsigned(9)", "Unsigned(40)"), \
    ("Bits(20)", "Bits(9)", "Bits(40)")
OPERATIONS = [
    *((SIGNED, f"a {sign} b") for sign in "+-*/%"), *((UNSIGNED, f"a {sign} b") for sign in "+-*/%"),
    *((BITS, f"a {sign} b") for sign in "&|^"), (SIGNED, "-a"), (BITS, "~a"), (BITS, "~b"),
    (SIGNED, "a * a * b"), (UNSIGNED, "a * a * b"), (UNSIGNED, "b - a"), (SIGNED, "-a - 2147483647"),
    (BITS, "a << ((Unsigned) b % 70u)"), (BITS, "a >> ((Unsigned) b % 25u)"), (BITS, "(Bits(64)) -1 >> ((Unsigned) b % 70u)"),
    (BITS, "(Bits(40)) ((Int(40)) a - 300000)"), (SIGNED, "(Int(40)) ((Int(64)) a * 1000003 * 1000003 * 1000003 / 1099511627)"),
    (UNSIGNED, "(Unsigned(40)) ((Unsigned(64)) a * 1000003 * 1000003 * 1000003 / 1099511627)"),
    (("Unary(30)", "Int(9)", "Unary(32)"), "a + 3"), (("Unary(30)", "Int(9)", "Unary(32)"), "a / 3"),
    *((SIGNED, f"(Int) (a {sign} b)") for sign in ("<", "<=", ">", ">=", "==", "!=")),
    (("Int(20)", "Bool", "Int(40)"), "(Int) (b || a > 3 && !b)"), (("Int(2)", "Int(64)", "Bits(5)"), "(Bits(5)) (-b)"),
]


def source(body: str, before: str) -> str:
    """An element file whose element has a body."""
    return ("element Bad { EventWindow ew; Random random; Int(8) n; Unsigned(2) list[2];\n\n"
            f"  {before}\n  Void behave() {{ {body} }} }}\nelement Good {{ Int n; Void behave() {{ n++; }} }}\n")


class Failures(LabCase):
    """Failed events."""

    def rows(self, *words: object) -> list[dict[str, str]]:
        """What `failures` writes."""
        return list(csv.DictReader(io.StringIO(self.passes("failures", *map(str, words)))))

    def test_causes(self) -> None:
        """Each cause is found in a world made for it, with the first event, its site, its function and its line."""
        start = self.file("w", TRIES)
        for cause, body, before, (function, line) in CAUSES:
            with self.subTest(body):
                file = self.file("bad.ulam", source(body, before))
                report = self.file("r", feast("run", start, file))
                row, = self.rows(start, report, file)
                told = [row[name] for name in ("element", "cause", "events", "first", "x", "y", "function", "line")]
                self.assertEqual(told, ["Bad", str(cause), "2", "3", "4", "4", function, f"{file}:{line}"])
                listed = self.rows(start, report, file, "--list")
                self.assertEqual([(it["event"], it["x"], it["y"], it["cause"]) for it in listed],
                                 [("3", "4", "4", str(cause)), ("5", "2", "5", str(cause))])

    def test_sound(self) -> None:
        """What stays within the limits doesn't fail."""
        start = self.file("w", TRIES)
        for body, before in SOUND:
            with self.subTest(body):
                file = self.file("good.ulam", source(body, before))
                self.assertEqual(self.rows(start, self.file("r", feast("run", start, file)), file), [])

    def test_reasons(self) -> None:
        """Each row says in words what its cause is."""
        start, words = self.file("w", TRIES), set()
        for _, body, before, _ in CAUSES:
            file = self.file("bad.ulam", source(body, before))
            words |= {row["reason"] for row in self.rows(start, self.file("r", feast("run", start, file)), file)}
        self.assertEqual(len(words), 7)

    def test_chain(self) -> None:
        """The events of a chain are numbered over all its legs; a chain without reports is refused."""
        file = self.file("bad.ulam", source("if (random.oneIn(3)) ew.swap(0, 41);", ""))
        atoms = "".join(f"atom {x} {y} Bad\n" for y in range(8) for x in range(8))
        start = self.file("w", f"feast 1\ntiles 1 1\nsize 8 8\nseed 5\nattempts 100\n{atoms}")
        folder = self.room / "chain"
        self.passes("chain", folder, "--legs", "3", "--keep", "reports", start, file)
        found = [(row["event"], row["x"], row["y"]) for row in self.rows(folder, "--list")]
        expected = []
        for leg in (1, 2, 3):
            world, whole = (self.file(form, told(folder, leg, form)) for form in ("world", "whole"))
            expected += [(str(int(row["event"]) + 100 * (leg - 1)), row["x"], row["y"])
                         for row in self.rows(world, whole, file, "--list")]
        self.assertEqual(found, expected)
        events = [int(event) for event, _, _ in found]
        self.assertIn(100, events)  # the last of the first leg
        self.assertGreater(events[-1], 200)
        course = list(csv.reader((folder / "course.csv").open()))
        with_failed = list(csv.reader(io.StringIO(self.passes("failures", folder, "--course"))))
        self.assertEqual([row[:4] + row[5:] for row in with_failed], course)
        self.assertEqual([row[4] for row in with_failed],
                         ["failed", "0", *(str(sum(100 * leg < event <= 100 * leg + 100 for event in events))
                                           for leg in range(3))])
        self.refused("--course takes the folder of a chain", "failures", start, self.room / "whole", file, "--course")
        bare = self.room / "bare"
        self.passes("chain", bare, "--legs", "1", start, file)
        self.refused("the chain keeps no reports", "failures", bare)
        self.refused("--failures takes the reports of the legs that are done", "chain", bare, "--legs", "2", "--failures", start, file)
        self.assertNotIn("failed", (bare / "course.csv").read_text())
        self.passes("chain", self.room / "new", "--legs", "3", "--failures", start, file)
        self.assertEqual(list(csv.reader((self.room / "new" / "course.csv").open())), with_failed)
        for legs in ("3", "4"):  # the column is added to the legs that are done, and then stays
            self.passes("chain", folder, "--legs", legs, "--keep", "reports", *(["--failures"] if legs == "3" else []), start, file)
            self.assertEqual(list(csv.reader((folder / "course.csv").open()))[:5], with_failed)
            self.assertEqual(self.passes("failures", folder, "--course"), (folder / "course.csv").read_text())
        self.audited(folder)

    def audited(self, folder: Path) -> None:
        """The audit of a chain tries its failed events too."""
        course = folder / "course.csv"
        text = course.read_text()
        self.assertEqual(self.passes("chain", "--audit", folder), "yes\n")
        row = text.splitlines()[2].split(",")
        course.write_text(text.replace(",".join(row), ",".join([*row[:4], str(int(row[4]) + 1), *row[5:]])))
        done = here("chain", "--audit", folder)
        self.assertEqual((done.status, done.wrote), (1, "no leg 1: its row in the course is another\n"))

    def test_threads(self) -> None:
        """An audit looks for failed events in one leg at a time, whatever parts are audited side by side."""
        file = self.file("bad.ulam", source("if (random.oneIn(3)) ew.swap(0, 41);", ""))
        atoms = "".join(f"atom {x} {y} Bad\n" for y in range(8) for x in range(8))
        start, folder = self.file("w", f"feast 1\ntiles 1 1\nsize 8 8\nseed 5\nattempts 100\n{atoms}"), self.room / "chain"
        self.passes("chain", folder, "--legs", "12", "--keep", "reports", "--failures", start, file)
        chain = AuditedChain.of(Program(program()), Folder(folder))
        parts = [chain.part(leg, leg) for leg in range(1, 13)]
        was = sys.getswitchinterval()
        self.addCleanup(sys.setswitchinterval, was)
        sys.setswitchinterval(1e-5)
        with ThreadPoolExecutor(4) as pool:
            self.assertEqual(list(pool.map(chain.fault_of, parts)), [None] * 12)

    def test_bad_input(self) -> None:
        """Files that aren't of each other are refused in one line."""
        start, file = self.file("w", TRIES), self.file("bad.ulam", source("n++;", ""))
        text = feast("run", start, file)
        report = self.file("r", text)
        other = self.file("other.ulam", source("n--;", ""))
        seed = self.file("seed", text.replace("0000000000000003", "0000000000000009"))
        site = self.file("site", text.replace("2 0 1 6 3", "2 0 1 8 3"))
        fewer = self.file("fewer.ulam", "element Bad { Void behave() { } }")
        cases = [
            ("its atoms are not those to which its events lead", [start, report, other]),
            ("E73 unknown element", [start, report, fewer]),
            ("E83 not an attempt of the tile", [start, seed, file]),
            ("E82 not a site of the tile", [start, site, file]),
            ("no report: a line `atoms N`", [start, start, file]),
            ("can't be read", [start, self.room / "none", file]),
            ("E20 syntax", [start, report, self.file("no.ulam", "element")]),
            ("the words have to be WORLD REPORT FILE..", [start, report]),
        ]
        for says, words in cases:
            with self.subTest(says):
                self.refused(says, "failures", *words)


class Again(LabCase):
    """Events that are made again."""

    def test_texts(self) -> None:
        """The code that the machine reads is the one that `code` writes."""
        for _, _, files in example_runs():
            self.assertEqual("".join(code.text() for code in element_codes(Program.find(), files)), feast("code", *files))

    def test_examples(self) -> None:
        """Each event of the first ones of each example has the window of the program's replay."""
        tally = Tally()
        for form, start, files in example_runs():
            tally.add(Program.find(), form, shortened(start, 400, self.room / start.name), files)
        print(tally.text(), end=" ", flush=True)
        self.assertGreater(tally.acted, 1000)

    def test_drawn(self) -> None:
        """So does each event of 200 elements of random statements."""
        tally = Tally()
        for seed in range(DRAWN_FILES):
            file = self.file("drawn.ulam", Drawer(seed).text())
            tally.add(Program.find(), "step", self.file("drawn.world", world(seed, 60)), [file])
        print(tally.text(), end=" ", flush=True)
        self.assertEqual(set(tally.failed), set(range(8)))

    def test_operators(self) -> None:
        """So does each event of elements that try each operator on drawn numbers, negative ones among them."""
        draws, text, atoms, tries = random.Random(1), "", "", ""
        for at, ((a, b, r), value) in enumerate(OPERATIONS):
            text += f"element Try{at} {{ {a} a; {b} b; {r} r; Void behave() {{ r = {value}; }} }}\n"
            for turn in range(7):
                x, y = (7 * at + turn) % 32, (7 * at + turn) // 32
                atoms += f"atom {x} {y} Try{at} {draws.getrandbits(71):018x}\n"
                tries += f"try 0 {x} {y} 0000000000000001\n"
        tally = Tally()
        start = self.file("w", f"feast 1\ntiles 1 1\nsize 32 16\n{tries}{atoms}")
        tally.add(Program.find(), "run", start, [self.file("tries.ulam", text)])
        self.assertEqual(tally.acted, 7 * len(OPERATIONS))

    def test_disagreement(self) -> None:
        """If the program makes an event otherwise, the lab says which, writes nothing, and ends with 1."""
        start = self.file("w", TRIES)
        file, other = self.file("bad.ulam", source("n++;", "")), self.file("other.ulam", source("n += 2;", ""))
        report = self.file("r", feast("run", start, file))
        lying = self.room / "lying"
        lying.write_text(f'#!/bin/sh\nif [ "$1" = pack ]; then exec {program()} pack {other}; fi\nexec {program()} "$@"\n')
        lying.chmod(0o755)
        cases: list[tuple[list[Word], str]] = [
            (["failures", start, report, file], "event 3 at 4 4: the window that the lab comes to"),
            (["trace", start, report, "5", file], "event 5 at 2 5: the plane that the lab comes to"),
            (["trace", start, report, file, "--site", "4", "4"], "event 3 at 4 4: the window"),
            (["chain", self.room / "chain", "--legs", "1", "--failures", self.file("drawn", DRAWN), file],
             "the lab comes to other atoms than the program"),
        ]
        for words, says in cases:
            done = lab(*words, instead=lying)
            self.assertEqual((done.returncode, done.stdout), (1, ""))
            self.assertRegex(done.stderr, r"\Alab: [^\n]*\n\Z")
            self.assertIn(says, done.stderr)

    def test_code_of_no_form(self) -> None:
        """Code that the lab doesn't know is refused in one line."""
        start, file = self.file("w", TRIES), self.file("bad.ulam", source("n++;", ""))
        report = self.file("r", feast("run", start, file))
        packed = self.room / "packed"
        packed.write_bytes(b"")
        cases = [(b"", "breaks off"), (b"FEASTC\x02\x00", "of a form that the lab doesn't know"),
                 (b"FEASTC\x01\x00\x00\x01", "breaks off"),
                 (b"FEASTC\x01\x00\x00\x00!", "goes on after its end"),
                 (b"FEASTC\x01\x00\x00\x01" + b"\x00\x00\x00\x01A" + b"\x00\x00\x00\x00" + b"\x00\x00\x00\x01\x41",
                  "an instruction that the lab doesn't know: 65")]
        lying = self.room / "lying"
        lying.write_text(f'#!/bin/sh\nif [ "$1" = pack ]; then exec cat {packed}; fi\nexec {program()} "$@"\n')
        lying.chmod(0o755)
        for data, says in cases:
            packed.write_bytes(data)
            done = lab("failures", start, report, file, instead=lying)
            self.assertEqual((done.returncode, done.stdout), (2, ""))
            self.assertRegex(done.stderr, r"\Alab: [^\n]*\n\Z")
            self.assertIn(says, done.stderr)
