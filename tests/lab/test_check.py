"""What `./lab check` shows of a refusal, and the rules that `./lab explain` has."""
import os
import re
import subprocess
from pathlib import Path

from calls import EXAMPLES, TOP, LabCase, feast, here, program

from feast_lab.lab.base.limits import ELEMENT_LIMIT
from feast_lab.lab.check.pages import error_codes, element_rules, ulam_rules

EMPTY = "Void behave() { }"


class Check(LabCase):
    """Files that are refused, and files that aren't."""

    def told(self, text: str | bytes, *before: Path) -> list[str]:
        """What is told of a file that is refused, without its path."""
        path = self.room / "a.ulam"
        path.write_bytes(text if isinstance(text, bytes) else text.encode())
        done = here("check", *before, path)
        self.assertEqual((done.status, done.said), (2, ""), done.wrote)
        return done.wrote.replace(f"{self.room}/", "").splitlines()

    def test_rules_of_the_page(self) -> None:
        """Each wrong example of the page is told by its own rule, at its place; each right one is accepted."""
        rules = [rule for rule in element_rules() if rule.wrong]
        self.assertGreater(len(rules), 70)
        for rule in rules:
            with self.subTest(rule.form):
                column = int(rule.place.removeprefix("1:"))
                first, _, carets, *rest = self.told(rule.wrong)
                self.assertTrue(first.startswith(f"a.ulam:{rule.place}: {rule.code} "), first)
                self.assertEqual(rest[-3:], [f"written: {rule.form}", f"instead: {rule.instead}",
                                             f"more: ./lab explain {rule.code}"])
                if len(rule.wrong) <= 100:
                    self.assertEqual(carets.index("^"), len("1 | ") + len(rule.wrong.encode()[:column - 1].decode()))
                feast("check", self.file("right.ulam", rule.right))  # raises what is refused

    def test_examples_of_all_codes(self) -> None:
        """Each refusal of an element file that docs/errors.md shows has a caret, and help that isn't the code's own."""
        for code in error_codes().values():
            if not "E10" <= code.code <= "E60":
                continue
            with self.subTest(code.code):
                parts = re.findall(r"(?:([\d,]+) times )?`([^`]*)`", code.example)
                text = "".join(text * int((times or "1").replace(",", "")) for times, text in parts)
                first, _, carets, *rest = self.told(text)
                said = re.escape(code.text).replace("N", r"\d+")
                self.assertRegex(first, rf"\Aa\.ulam:{code.place}: {code.code} {said}\Z")
                self.assertRegex(carets, r"\A +\| [ \t]*\^+( \S.*)?\Z")
                forms = [rule.form for rule in (*element_rules(), *ulam_rules()) if rule.code == code.code]
                self.assertIn(rest[-3].removeprefix("written: "), forms)

    def test_worlds(self) -> None:
        """Each refusal of a world that the page shows is told with its line, and with the page's usual cause."""
        walker = EXAMPLES / "walker.ulam"
        found = [code for code in error_codes().values() if "E70" <= code.code <= "E76"]
        self.assertEqual(len(found), 7)
        for code in found:
            with self.subTest(code.code):
                lines: list[str | None] = list(code.block)
                for number, text in re.findall(r"line (\d+) as `([^`]*)`", code.example):
                    lines[int(number) - 1:int(number)] = [text]
                for number in re.findall(r"line (\d+)(?! as)", code.example):
                    lines[int(number) - 1] = None
                world = self.file("w", "".join(line + "\n" for line in lines if line is not None))
                done = here("check", world, walker)
                first, *rest = done.wrote.splitlines()
                self.assertEqual((done.status, done.said), (2, ""))
                self.assertEqual(first, f"{world}:{code.place}: {code.code} {code.text}")
                self.assertEqual(rest[-2:], [f"usual cause: {code.cause}", f"more: ./lab explain {code.code}"])
                self.assertIn("| ^", done.wrote)

    def test_chains(self) -> None:
        """A chain is read with its elements too: one without a fault is accepted, and a name is told with the one meant."""
        lines = ["chain 1", "tiles 2 1", "size 8 8", "seed 1", "attempts 10", "legs 3", "act 2 put 0 0 4 4 Wolker", "atom 3 4 Walker", ""]
        walker = EXAMPLES / "walker.ulam"
        chain = self.file("c", "\n".join(lines))
        done = here("check", chain, walker)
        self.assertEqual((done.status, done.wrote.splitlines()[0]), (2, f"{chain}:7:1: E73 unknown element"))
        self.assertIn("did you mean `Walker`?", done.wrote)
        chain.write_text("\n".join(lines).replace("Wolker", "Walker"))
        done = here("check", chain, walker)
        self.assertEqual((done.status, done.wrote), (0, "accepted\n"))

    def test_reports(self) -> None:
        """So is each refusal of a report."""
        world, walker, lines = self.small_report()
        found = [code for code in error_codes().values() if "E80" <= code.code <= "E83"]
        self.assertEqual(len(found), 4)
        for code in found:
            with self.subTest(code.code):
                changed = dict(re.findall(r"line (\d+) as `([^`]*)`", code.example))
                left_out = re.findall(r"line (\d+) left out", code.example)
                report = self.file("r", "".join(changed.get(str(at), line) + "\n" for at, line in enumerate(lines, 1)
                                                if str(at) not in left_out))
                done = here("check", world, report, walker)
                first, *rest = done.wrote.splitlines()
                self.assertEqual((done.status, done.said), (2, ""))
                self.assertRegex(first, rf"{report}:{code.place}: {code.code} {code.text.replace('N', '[0-9]+')}")
                self.assertEqual(rest[-2:], [f"usual cause: {code.cause}", f"more: ./lab explain {code.code}"])
                self.assertIn("| ^", done.wrote)
        self.assertEqual(self.passes("check", world, self.file("r", "\n".join([*lines, ""])), walker), "accepted\n")

    def small_report(self) -> tuple[Path, Path, list[str]]:
        """The world, the elements and the report that the page's examples change."""
        page = (TOP / "docs" / "errors.md").read_text().partition("## Reports")[2]
        blocks = [re.sub("^    ", "", it, flags=re.MULTILINE) for it in re.findall(r"\n\n((?:    .*\n)+)", page)]
        world, walker = self.file("w", blocks[0]), EXAMPLES / "walker.ulam"
        self.assertEqual(feast("step", world, walker), blocks[1])
        return world, walker, blocks[1].splitlines()

    def test_code_files(self) -> None:
        """Of a code file the byte is marked."""
        element = "element A { Void behave() { } } element B { Void behave() { } }"
        packed = subprocess.run([program(), "pack", self.file("e", element)], stdout=subprocess.PIPE, check=True).stdout
        found = [code for code in error_codes().values() if "E61" <= code.code <= "E64"]
        self.assertEqual(len(found), 4)
        for code in found:
            with self.subTest(code.code):
                number, text = re.findall(r"byte (\d+) (?:as `(\w\w)`|left out)", code.example)[0]
                data = packed[:int(number) - 1] + bytes.fromhex(text) + packed[int(number):]
                path = self.room / "c"
                path.write_bytes(data)
                done = here("check", path)
                first, row, carets, *rest = done.wrote.splitlines()
                self.assertEqual((done.status, done.said), (2, ""))
                self.assertEqual(first, f"{path}:{code.place}: {code.code} {code.text}")
                at = int(code.place.partition(":")[2]) - 1
                self.assertEqual(row[carets.index("^"):][:2], data[at:at + 1].hex())
                self.assertEqual(rest, [f"usual cause: {code.cause}", f"more: ./lab explain {code.code}"])
        path.write_bytes(packed)
        self.assertEqual(self.passes("check", path), "accepted\n")
        self.refused("c: a code file, which is checked by itself", "check", path, EXAMPLES / "walker.ulam")

    def test_what_was_met(self) -> None:
        """The names, types, numbers and places that the text tells are said."""
        cases = [
            ("element A { Int cuont; Void behave() { count = 1; } }", ["did you mean `cuont`?"]),
            ("element A { Int n; Unsigned(6) u; Void behave() { n = n + u; } }",
             ["left `Int(32)`, right `Unsigned(6)`"]),
            ("element A { Int(40) n; Unsigned(8) u; Void behave() { n = n + 1 + u; } }",
             ["left `Int(64)`, right `Unsigned(8)`"]),
            ("element A { Bits(4) b; Bits(9) c; Int n; Void behave() { n = (b | c) + 1; } }",
             ["left `Bits(9)`, right a plain number"]),
            ("element A { Int n; Bool n; Void behave() { } }", ["`n` again", "a.ulam:1:17: `n` is declared here"]),
            ("element A { EventWindow ew; Void behave() { ew.destroy(0); } }",
             ["which has `swap`, `isLive`, `isEmpty`"]),
            ("element A { Void behave() { Int n = 1 } }", ["met `}`, expected an operator or `;`"]),
            ("element A { Void behave() {", ["the file ends here"]),
            ("element A { constant Int(3) c = 4; Void behave() { } }", ["which has -4 to 3"]),
            ("element A { Int(65) n; Void behave() { } }", ["met a width of 65, expected 2 to 64"]),
            ("element A { Int a; Int(40) b; Void behave() { } }", ["bits: `a` 32, `b` 40"]),
            ("quark B { virtual Void f() { } } element A : B { Int f() { return 1; } Void behave() { } }",
             ["met `Int f()`, expected `Void f()`", "a.ulam:1:24: the virtual function"]),
            ("element A { Void f(Int n) { } Void behave() { f(1, 2); } }", ["met 2 arguments, expected 1"]),
            ("element A { Void f(Int n, Bool b) { } Void behave() { f(1, 2); } }",
             ["`b` gets a plain number, expected `Bool`"]),
            ("element A { Int n; Void behave() { if (n) { } } }", ["met `Int(32)`, expected `Bool`"]),
            ("element A { typedef Unsigned(3) T; Int n; T t; Void behave() { n = t; } }",
             ["met `Unsigned(3)`, expected `Int(32)`"]),
            # in a function of a base, what an heir makes of it
            ("element A : B { Void behave() { f(); } } quark B { Void f() { T x = self; } } element T { Void behave() { } }",
             ["a.ulam:1:65: E52", "met `A`, expected `T`"]),
        ]
        for text, says in cases:
            told = "\n".join(self.told(text))
            for it in says:
                self.assertIn(it, told)


class Shown(LabCase):
    """The line and the caret, whatever the text is."""

    def shown(self, data: bytes) -> list[str]:
        """The lines between the refusal's own and what to write instead."""
        path = self.room / "a"
        path.write_bytes(data)
        done = here("check", path)
        self.assertEqual((done.status, done.said), (2, ""), done.wrote)
        lines = done.wrote.splitlines()
        return lines[1:next(at for at, line in enumerate(lines) if line.startswith("written: "))]

    def test_carets(self) -> None:
        """A tab stays one, a wide letter has two columns, the end of a line and of the file can be marked."""
        begin, says = "element A { Void behave() {", " nothing here has the name `no`"
        ends = " the file ends here, expected a member, which begins with its type, or `}`"
        cases: list[tuple[bytes, list[str]]] = [
            (f"{begin}\n\t\tno = 1; }} }}".encode(), ["2 | \t\tno = 1; } }", "  | \t\t^^" + says]),
            (f"{begin}\r\n  no = 1; }} }}\r\n".encode(), ["2 |   no = 1; } }", "  |   ^^" + says]),
            (f"{begin} /* \u00e9 \u5b57 */ no = 1; }} }}".encode(),
             [f"1 | {begin} /* \u00e9 \u5b57 */ no = 1; }} }}", "  | " + " " * (len(begin) + 12) + "^^" + says]),
            (begin.encode() + b" /* \xff\x1b[31m */ no = 1; } }",
             [f"1 | {begin} /* \ufffd\ufffd[31m */ no = 1; }} }}", "  | " + " " * (len(begin) + 14) + "^^" + says]),
            (b"element A {\n\n\n", ["1 | element A {", "4 |", "  | ^" + ends]),
            (b"element A {", ["1 | element A {", "  | " + " " * 11 + "^" + ends]),
            (b"\n" * 11 + f"{begin}\n no = 1; }} }}".encode(), ["13 |  no = 1; } }", "   |  ^^" + says]),
        ]
        for data, wanted in cases:
            with self.subTest(data):
                self.assertEqual(self.shown(data), wanted)

    def test_long_lines(self) -> None:
        """Of a long line only what is around the place is shown."""
        for before, behind in ((10, 100_000), (100_000, 10), (100_000, 100_000)):
            text = f"element A {{ Void behave() {{ /*{'x' * before}*/ no = 1; /*{'y' * behind}*/ }} }}"
            source, carets = self.shown(text.encode())
            self.assertLess(len(source), 110)
            at = carets.index("^")
            self.assertEqual((source[at:at + 2], carets[at:at + 3]), ("no", "^^ "))
            self.assertEqual((source.startswith("1 | .."), source.endswith("..")), (before > 100, behind > 100))


class Explain(LabCase):
    """Rules by their codes."""

    def test_codes(self) -> None:
        """Each code has its text and its cause, and each of its forms what to write instead and both examples."""
        for code in error_codes().values():
            told = self.passes("explain", code.code)
            self.assertTrue(told.startswith(f"{code.code} {code.text}\nusual cause: {code.cause}\n"), told)
            for rule in (*element_rules(), *ulam_rules()):
                if rule.code == code.code:
                    self.assertIn(f"\nwritten: {rule.form}\ninstead: {rule.instead}\n", told)
                    self.assertIn(f"right:\n1 | {rule.right}\n" if rule.right else "", told)
        self.assertEqual(self.passes("explain", "e50"), self.passes("explain", "E50"))
        self.assertEqual(self.passes("explain", "50"), self.passes("explain", "E50"))

    def test_list(self) -> None:
        told = self.passes("explain").splitlines()
        for code in error_codes().values():
            self.assertIn(f"{code.code}  {code.text}", told)

    def test_pages_as_they_are(self) -> None:
        """What is told of E73 are the words of the page."""
        self.assertEqual(self.passes("explain", "E73").splitlines(), [
            "E73 unknown element",
            "usual cause: a misspelt name, or an element file missing from the command line",
            "example: line 6 as `atom 3 4 Wolker`", "of", "    feast 1", "    tiles 2 1", "    size 8 8", "    seed 1",
            "    attempts 10", "    atom 3 4 Walker"])

    def test_bad_input(self) -> None:
        for what in ("E99", "E5", "nothing", "", "E500"):
            self.refused(f"{what}: no code of a refusal", "explain", what)


class Words(LabCase):
    """What stands beside a check that is refused."""

    def test_accepted(self) -> None:
        self.assertEqual(self.passes("check", EXAMPLES / "walker.ulam"), "accepted\n")
        self.assertEqual(self.passes("check", EXAMPLES / "walk.world", EXAMPLES / "walker.ulam"), "accepted\n")

    def test_bad_input(self) -> None:
        """What isn't a text to check is refused in one line."""
        walker, none = EXAMPLES / "walker.ulam", self.room / "none"
        self.refused(f"{none}: can't be read: no such file or directory", "check", walker, none)
        self.refused(f"{self.room}: no plain file", "check", self.room)
        os.mkfifo(self.room / "pipe")
        self.refused("no plain file; it would have to be read twice", "check", self.room / "pipe")
        self.refused("walk.world: a world; name the element files behind it", "check", EXAMPLES / "walk.world")
        big = self.file("big", " " * (ELEMENT_LIMIT + 1))
        self.refused(f"E02 longer than {ELEMENT_LIMIT} bytes", "check", big)
        self.refused("the following arguments are required: FILE", "check")

    def test_two_files(self) -> None:
        """The line is that of the file with the fault; a file that is named twice is told as one."""
        wrong = self.file("wrong.ulam", "element B { Void behave() { n = 1; } }")
        told = here("check", EXAMPLES / "walker.ulam", wrong).wrote
        self.assertIn(f"{wrong}:1:29: E31 unknown name\n1 | element B {{ Void behave() {{ n = 1; }} }}\n", told)
        twice = here("check", EXAMPLES / "walker.ulam", EXAMPLES / "walker.ulam").wrote
        self.assertIn("written: a class that is declared twice\n", twice)

    def test_files_beside(self) -> None:
        """If a file beside those of the call has the class that is missing, it is named."""
        regulator, stone = EXAMPLES / "regulator.ulam", EXAMPLES / "stone.ulam"
        horde = here("check", EXAMPLES / "horde.ulam").wrote
        self.assertIn(f" no class and no typedef has the name `Resource`; {regulator} has it\n", horde)
        self.file("part.ulam", "quark Part { }")
        heir = self.file("heir.ulam", f"element A : Part {{ {EMPTY} }}")
        self.assertIn(f"no quark has the name `Part`; {self.room}/part.ulam has it\n", here("check", heir).wrote)
        world = self.file("w", "feast 1\ntiles 1 1\nsize 8 8\natom 3 4 Stone\n")
        self.assertIn(f"no file that is given has it; {stone} has it\n",
                      here("check", world, EXAMPLES / "walker.ulam").wrote)

    def test_files_that_are_alike(self) -> None:
        """Names with colons and line ends are told as the program tells them."""
        path = self.file("a:1:2: E31 b", "element B { Void behave() { n = 1; } }")
        self.assertTrue(here("check", path).wrote.startswith(f"{path}:1:29: E31 unknown name\n1 | "))
