"""The warnings of `./lab check`: a case each, and none that is wrong."""
import re

from calls import EXAMPLES, TOP, LabCase, feast, here

from feast_lab.lab.check.pages import warning_rules

WINDOW = "EventWindow ew; "
FOUND = re.compile(r"^[^:\n]*/?a\.ulam:1:(\d+): warning: .* \[([a-z-]+)\]$", re.MULTILINE)
LOST = EXAMPLES / "tutorial" / "lost.ulam"  # its page shows what a move before a use does


def element(body: str, members: str = "") -> str:
    """An element with members and with statements in its `behave`."""
    return f"element A {{ {members}Void behave() {{ {body} }} }}"


# Texts with @ before each place that is warned of, and the name of all these warnings.
MOVES = [
    # where paths meet, a use behind is reported, and one in a further branch isn't
    element("if (ew.isEmpty(1)) ew.swap(0, 1); @n = 1;", WINDOW + "Int n; "),
    element("if (ew.isEmpty(1)) ew.swap(0, 1); if (ew.isLive(2)) n = 1;", WINDOW + "Int n; "),
    element("if (ew.isEmpty(1)) ew.swap(0, 1); else n = 1;", WINDOW + "Int n; "),
    element("if (ew.isEmpty(1)) { ew.swap(0, 1); return; } n = 1;", WINDOW + "Int n; "),
    element("if (ew.isEmpty(1)) ew.swap(0, 1); else ew.swap(0, 2); if (true) @n = 1;", WINDOW + "Int n; "),
    element("Bool b; if (ew.isEmpty(1)) { ew.swap(0, 1); b = true; } if (b) return; n = 1;", WINDOW + "Int n; "),
    element("if (ew.isEmpty(1)) ew.swap(0, 1); if (ew.isEmpty(2)) ew[2] = Empty.instanceof; @n = 1;",
            WINDOW + "Int n; "),
    element("Bool b; if (ew.isEmpty(1)) { ew.swap(0, 1); b = true; } if (!b && n > 0) return;", WINDOW + "Int n; "),
    element("if (moves) ew.swap(0, 1); n = 1;", WINDOW + "Int n; constant Bool moves = false; "),
    element("if (moves) ew.swap(0, 1); @n = 1;", WINDOW + "Int n; constant Bool moves = true; "),
    # every way to use a member
    element("ew.swap(0, 1); ew[1] = @self;", WINDOW),
    element("ew.swap(0, 1); @self.n = 1;", WINDOW + "Int n; "),
    element("ew.swap(0, 1); @n++; Int k = @n; if (@n > k) @a[k] = @n;", WINDOW + "Int n; Int(2) a[4]; "),
    "quark Q { Int n; } " + element("ew.swap(0, 1); @q.n = 1;", WINDOW + "Q q; "),
    element("ew.swap(0, 1); Int k = (@n); ew[k] = Empty.instanceof;", WINDOW + "Int n; "),
    # what isn't a use
    element("ew.swap(0, 1); if (random.oneIn(k) && ew.isLive(k)) ew[2] = Empty.instanceof;",
            WINDOW + "Random random; constant Unsigned k = 2; "),
    element("A other; ew.swap(0, 1); other.n = 3; ew[2] = other;", WINDOW + "Int n; "),
    element("Int n = 2; ew.swap(0, 1); if (n == 2) n = 1;", WINDOW),
    element("ew.swap(1, 2); n = 1;", WINDOW + "Int n; "),
    element("Unsigned i = random.create(2); ew.swap(i, 1); n = 1;", WINDOW + "Random random; Int n; "),
    # what keeps the atom, or brings it back
    element("ew[0] = self; n = 1;", WINDOW + "Int n; "),
    element("ew[0] = A.instanceof; n = 1;", WINDOW + "Int n; "),
    element("A young; young.n = 1; ew[0] = young; n = 1;", WINDOW + "Int n; "),
    element("Atom a = ew[0]; ew[0] = a; n = 1;", WINDOW + "Int n; "),
    element("ew.swap(0, 1); ew.swap(1, 0); n = 1;", WINDOW + "Int n; "),
    element("ew.swap(0, 1); if (ew[0] is A) n = 1;", WINDOW + "Int n; "),
    element("ew.swap(0, 1); Atom a = ew[0]; if (a is A) n = 1;", WINDOW + "Int n; "),
    # what takes it away
    element("ew[0] = ew[1]; @n = 1;", WINDOW + "Int n; "),
    element("ew[k] = Empty.instanceof; @n = 1;", WINDOW + "Int n; constant Unsigned k = 0; "),
    element("ew.swap(3, 0); @n = 1;", WINDOW + "Int n; "),
    element("ew.swap(0, 1); ew.swap(0, 2); @n = 1;", WINDOW + "Int n; "),
    # loops
    element("for (Unsigned i = 1; i <= 4; i++) { @n++; ew.swap(0, i); }", WINDOW + "Int n; "),
    element("for (Unsigned i = 1; i <= 4; i++) { n++; if (ew.isEmpty(i)) { ew.swap(0, i); break; } }",
            WINDOW + "Int n; "),
    element("for (Unsigned i = 1; i <= 4; i++) if (ew.isEmpty(i)) { ew.swap(0, i); break; } @n++;", WINDOW + "Int n; "),
    element("for (Unsigned i = 1; i <= 4; i++) if (ew.isEmpty(i)) { ew.swap(0, i); return; } n++;", WINDOW + "Int n; "),
    element("while (true) { if (ew.isEmpty(1)) { ew.swap(0, 1); break; } n++; }", WINDOW + "Int n; "),
    # functions
    f"element A {{ {WINDOW}Int n; Void go() {{ ew.swap(0, 1); }} Void behave() {{ go(); @n = 1; }} }}",
    f"element A {{ {WINDOW}Int n; Void go() {{ n = 1; ew.swap(0, 1); }} Void behave() {{ go(); }} }}",
    f"element A {{ {WINDOW}Int n; Int two() {{ return n; }} Int one() {{ return two(); }} "
    "Void behave() { ew.swap(0, 1); Int k = @one(); ew[1] = Empty.instanceof; if (k > 1) return; } }",
    f"element A {{ {WINDOW}Int n; Void again() {{ if (ew.isLive(1)) again(); n = 1; }} Void behave() {{ again(); }} }}",
    f"element A {{ {WINDOW}Int n; Int f() {{ ew.swap(0, 1); return 1; }} Void behave() {{ @n = f(); }} }}",
    f"quark Q {{ {WINDOW}Int n; Void go() {{ n = 1; }} }} " + element("ew.swap(0, 1); @q.go();", WINDOW + "Q q; "),
    f"quark B {{ {WINDOW}virtual Void note() {{ }} Void go() {{ ew.swap(0, 1); @note(); }} }} "
    "element A : B { Int n; Void note() { n = 1; } Void behave() { go(); } } element C : B { Void behave() { go(); } }",
    f"element A {{ {WINDOW}Int n; Bool tries() {{ if (ew.isLive(1)) {{ ew.swap(0, 1); return true; }} return false; }} "
    "Void behave() { if (tries() || n > 3) return; n = 1; if (!tries()) n = 2; if (tries()) n = 3; else n = 4; @n = 5; } }",
    f"quark B {{ {WINDOW}Int n; Void behave() {{ ew.swap(0, 1); @n = 1; }} }} element A : B {{ }} element C : B {{ }}",
]
NUMBERS = [
    ("site", element("ew[@40 + 1] = self; ew.swap(0, @far); if (ew.isLive(@-1)) ew[1] = ew[@random.create(3) + 41];",
                     WINDOW + "Random random; constant Unsigned far = 41; ")),
    ("site", element("ew[random.create(41)] = self; ew[n] = self; ew[n + 40] = self; ew[u - 1] = self;",
                     WINDOW + "Random random; Int n; Unsigned u; ")),
    ("site", element("Unsigned i = 50; if (ew.isLive(@i)) ew[40] = self; Unsigned k = 50; k = 2; ew[k] = self;",
                     WINDOW)),
    ("site", element("for (Unsigned i = 0; i < 42; i += 2) ew[i] = self; "
                     "for (Unsigned i = 0; i < 41; i++) ew[i] = self;", WINDOW)),
    ("site", element("for (Unsigned i = 1; i < 42; i += 2) { ew.swap(1, @i); } for (Int i = 0; i < 50; i++) "
                     "if (i < 41) ew[i] = self; for (Int i = 0; i < 50; i++) { ew[i] = self; if (i == 40) break; }",
                     WINDOW)),
    ("site", element("Unsigned i; for (i = 0; i <= 41; i++) ew[@i] = self; for (i = 0; i < 50; i++) n = i < 41 && ew.isLive(i); "
                     "for (Unsigned(5) k = 0; k < 31; k++) ew[k] = self;", WINDOW + "Bool n; ")),
    ("site", f"element A {{ {WINDOW}Unsigned far() {{ return 41; }} Void put(Unsigned i) {{ ew[@i] = self; }} "
             "Void set(Unsigned i) { ew[i] = self; } Unsigned near(Unsigned i) { if (i > 3) return 40; return i; } "
             "Unsigned down(Unsigned i) { if (i > 40) return down(i - 1); return i; } Void behave() { put(41); put(50); "
             "set(40); set(41); ew[@far()] = self; ew[near(50)] = self; ew[down(50)] = self; } }"),
    ("site", f"quark B {{ {WINDOW}virtual Unsigned far() {{ return 41; }} Void put() {{ ew[far()] = ew[1]; }} }} "
             "element A : B { Unsigned far() { return 4; } Void behave() { put(); } }"),
    ("index", element("a[@4] = 1; a[3] = 2; b[@n + 9] = 1; a[n] = 1;", "Int(3) a[4]; Int(3) b[4]; Unsigned(2) n; ")),
    ("division", element("n = 3 @/ 0; n @%= z; n = 3 / n; n = 6 / 2;", "Int n; constant Int z = 0; ")),
    ("division", element("if (z != 0) n = 3 / z; else n = 4 @/ z; while (z > 0) n /= z; if (z > 0 && n / z > 1) n = 1; "
                         "if (z == 0 || n % z > 1) n = 2;", "Int n; constant Int z = 0; ")),
    ("no-choice", element("Unsigned a = random.@create(1); a = random.@create(0); if (random.@oneIn(1)) a = 2; "
                          "if (random.@oneIn(z)) a = 3; if (random.oneIn(2)) a = random.create(2) + random.create(a); "
                          "n = a;", "Random random; Unsigned n; constant Unsigned z = 0; ")),
    ("endless-loop", element("@for (;;) { } @while (true) n = 1; @for (Unsigned(3) i = 0; i <= 7; i++) n = 2;",
                             "Int n; ")),
    ("endless-loop", element("while (true) { if (n > 2) break; } while (true) return; @for (;;) { @while (true) { } }",
                             "Int n; ")),
    ("endless-loop", element("while (n > 2) n--; while (go()) { } while (random.oneIn(2)) { } while (ew.isLive(1)) "
                             "ew.swap(1, 2); while (n > 0) go(); while (false) { } for (Int i = 0; i < 3; i++) { }",
                             WINDOW + "Random random; Int n; Bool go() { n--; return n > 0; } ")),
    ("endless-loop", element("Int i; @while (i < 3) ew[1] = self; @while (n < 3) i = 2; @while (ew.isEmpty(1)) { }",
                             WINDOW + "Int n; ")),
    ("endless-loop", element("@while (ew.isEmpty(1)) { for (Int i = 0; i < 3; i++) { } }", WINDOW)),
    ("unused", element("Int k = 1; Int @j = (k); j = (k);")),
    ("unused", "quark P { Int(3) n; virtual Void hook() { } Int @spare() { return n; } Void used() { n = 1; } } "
               f"quark Q {{ Int n; Void lone() {{ }} }} element A : P {{ {WINDOW}P p; Int(3) @m; Bool own; "
               "Void hook() { } Void @again() { again(); } Void behave() { Int @k; k = 2; p.used(); Atom a = ew[1]; "
               "if (a as A) a.own = true; Int @j = 3; j = 4; } }"),
    ("hidden", "element A { constant Int c = 1; Int n; Int go() { return c; } Void f(Int @c, Int @go) { n = c + go; } "
               "Void set(Int n) { self.n = n; } Void behave() { Int k = go(); f(k, 1); set(2); { Int @k = 3; n = k; } "
               "Int @n = k; f(n, 2); } }"),
    ("hidden", "element A { Int m; Void behave() { Int c = 1; m = c; } constant Int c = 3; }"),
]


class Lint(LabCase):
    """Files that the program accepts."""

    def warned(self, text: str) -> list[tuple[int, str]]:
        """The columns and the names of the warnings of a file."""
        path = self.file("a.ulam", text)
        wrote = self.passes("check", path)
        found = [(int(column), name) for column, name in FOUND.findall(wrote)]
        count = f", with {len(found)} warning{'' if len(found) == 1 else 's'}" if found else ""
        self.assertTrue(wrote.endswith(f"accepted{count}\n"), wrote)
        return found

    def marked(self, text: str, name: str) -> None:
        """Tries that a text is warned of where it has marks, and nowhere else."""
        columns = [match.start() + 1 - number for number, match in enumerate(re.finditer("@", text))]
        found = [(column, warning) for column, warning in self.warned(text.replace("@", "")) if warning == name]
        self.assertEqual(found, [(column, name) for column in columns], text)

    def test_rules_of_the_page(self) -> None:
        """Each wrong example of the page has its warning alone, at its place, and each right one has none."""
        rules = warning_rules()
        self.assertGreater(len({rule.code for rule in rules}), 7)
        for rule in rules:
            with self.subTest(rule.form):
                self.assertEqual(self.warned(rule.wrong), [(int(rule.place.removeprefix("1:")), rule.code)])
                self.assertEqual(self.warned(rule.right), [])
                self.assertIn(f"instead: {rule.instead}\nwrong:\n1 | ", self.passes("explain", rule.code))

    def test_events_that_fail(self) -> None:
        """Where the page says that the event fails, it does: the program leaves an empty plane."""
        world = self.file("w", "feast 1\ntiles 1 1\nsize 16 16\ntry 0 8 8 0000000000000000\natom 8 8 A\n")
        failing = [rule for rule in warning_rules()
                   if rule.code in ("moved-member", "site", "index", "division", "endless-loop")]
        self.assertEqual(len(failing), 8)
        for rule in failing:
            report = feast("step", world, self.file("a.ulam", rule.wrong))
            self.assertEqual(report.splitlines()[1:3], ["atoms 0", "journal 1"], rule.wrong)

    def test_moves(self) -> None:
        for text in MOVES:
            with self.subTest(text):
                self.marked(text, "moved-member")

    def test_numbers_loops_and_names(self) -> None:
        for name, text in NUMBERS:
            with self.subTest(text):
                self.marked(text, name)

    def test_examples(self) -> None:
        """No file of the examples and the tutorials is warned of, but for the one that was made for it."""
        paths = sorted(EXAMPLES.rglob("*.ulam"))
        self.assertGreater(len(paths), 15)
        for path in paths:
            beside = [EXAMPLES / "regulator.ulam"] if path.name == "horde.ulam" else []
            if path != LOST:
                self.assertEqual(self.passes("check", "--strict", path, *beside), "accepted\n", path)

    def test_pages(self) -> None:
        """Nor are the classes that the pages show, but for the lost pacer."""
        count = 0
        for page in [*(TOP / "docs").glob("*.md"), *EXAMPLES.glob("*.md")]:
            for before, block in re.findall(r"([^\n]*)\n\n((?:    .*\n|\n)+)", page.read_text()):
                text = re.sub(r"^    ", "", block, flags=re.MULTILINE)
                if re.match(r"(element|quark) [^\n]*\{|/\*\* ", text) and "{ .. }" not in text:
                    count += 1
                    beside = [TOP / file for file in re.findall(r"[Uu]sed with `(examples/\S+)`", before)]
                    found = here("check", self.file("a.ulam", text), *beside).wrote
                    self.assertTrue(found == "accepted\n" or "steps++" in text or "unused" in found, found)
        self.assertGreater(count, 10)

    def test_lost_pacer(self) -> None:
        """The line and both places of the element that uses a member after its move."""
        done = here("check", "--strict", LOST)
        lines = LOST.read_text().splitlines()
        use, move = lines.index("      steps++;"), lines.index("      ew.swap(0, next);")
        self.assertEqual((done.status, done.said), (1, ""))
        self.assertEqual(done.wrote.splitlines()[:6], [
            f"{LOST}:{use + 1}:7: warning: `steps` is used here, when the event's own atom has left site 0 "
            "[moved-member]",
            f"{use + 1} |       steps++;", "   |       ^^^^^",
            f"{LOST}:{move + 1}:10: it leaves here", f"{move + 1} |       ew.swap(0, next);", "   |          ^^^^"])

    def test_order_and_status(self) -> None:
        """Warnings come in the order of the files and their lines; --strict makes a status of them."""
        one = self.file("one.ulam", "element A { Int n;\n Int m; Void behave() { } }")
        two = self.file("two.ulam", "element B { Int n; Void behave() { } }")
        wrote = self.passes("check", two, one)
        self.assertEqual(re.findall(r"(\w+)\.ulam:(\d)", wrote), [("two", "1"), ("one", "1"), ("one", "2")])
        self.assertEqual(here("check", "--strict", two, one).status, 1)
        feast("check", one, two)  # raises what the program refuses
