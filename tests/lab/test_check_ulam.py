"""What Ulam has and the language here doesn't: each row of docs/ulam.md is told by `./lab check`."""
from calls import LabCase, here

from feast_lab.lab.check.pages import ULAM, page, rows

EMPTY = "Void behave() { }"
WINDOW = "EventWindow ew; "


def element(body: str, members: str = "") -> str:
    """An element with members and with statements in its `behave`."""
    return f"element A {{ {members}Void behave() {{ {body} }} }}"


# The beginning of a row's first cell, a code, and texts of that form, each with @ before the place of the refusal.
FORMS: list[tuple[str, str, list[str]]] = [
    ("templates", "E20", ["quark Q@(Unsigned cN) { }"]),
    ("templates", "E36", [f"quark Q {{ }} element A {{ @Q(3) q; {EMPTY} }}"]),
    ("constants of another class", "E20", [
        "quark Q { constant Int cMAX = 3; } " + element("Int n = Q.@cMAX;"),
        f"quark Q {{ constant Int cMAX = 3; }} element A {{ Int(@Q.cMAX) n; {EMPTY} }}"]),
    ("several bases", "E20", [f"quark P {{ }} quark Q {{ }} element A @: P, Q {{ {EMPTY} }}",
                              f"quark P {{ }} quark Q {{ }} element A @: P + Q {{ {EMPTY} }}"]),
    ("`super`", "E31", ["quark Q { } element A : Q { Void behave() { @super.behave(); } }"]),
    ("`super`", "E20", ["quark Q { virtual Void f()@; }", "quark Q { virtual Void f() @= 0; }"]),
    ("overloaded", "E30", [f"element A {{ Int f() {{ return 1; }} Int @f(Int n) {{ return n; }} {EMPTY} }}"]),
    ("overloaded", "E20", [f"element A {{ Int operator@+(Int n) {{ return n; }} {EMPTY} }}"]),
    ("`String`", "E31", [f"element A {{ @String s; {EMPTY} }}"]),
    ("`String`", "E10", [element('Int n = @"a";'), element("Int n = @'a';")]),
    ("unions", "E20", ["@union U { Int a; Bool b; }", "@transient T { Int a; }",
                       f"element A {{ Void f(Int @& r) {{ }} {EMPTY} }}",
                       f"element A {{ Void f() @native; {EMPTY} }}"]),
    ("a data member that is an atom", "E36", [f"element A {{ @Atom keep; {EMPTY} }}",
                                              f"element A {{ @B keep; {EMPTY} }} element B {{ {EMPTY} }}"]),
    ("locals of a quark type", "E50", ["quark Q { Int n; } " + element("@Q q;"),
                                       f"quark Q {{ Int n; }} element A {{ Void f(@Q q) {{ }} {EMPTY} }}"]),
    ("arrays as locals", "E20", [element("Int a@[3];"), element("Unsigned(3) a@[3];")]),
    ("arrays as locals", "E36", [f"quark Q {{ }} element A {{ @Q q[2]; {EMPTY} }}"]),
    ("`Bool(3)`", "E36", [f"element A {{ @Bool(3) b; {EMPTY} }}"]),
    ("classes of the library", "E31", [f"element A {{ @ColorUtils c; {EMPTY} }}"]),
    ("`SiteNum`", "E31", [element("@SiteNum s = 1u;"), element("Atom a = self; if (a is @Self) { }")]),
    ("an `EventWindow` or a `Random`", "E50", [element("@EventWindow ew;"),
                                               f"element A {{ Void f(@Random r) {{ }} {EMPTY} }}"]),
    ("first values", "E20", [f"element A {{ Unsigned(3) n @= 2; {EMPTY} }}"]),
    ("`c ? a : b`", "E10", [element("Int n = true @? 1 : 2;")]),
    ("`switch`", "E20", [element("switch (n) @{ case 0: n = 1; }", "Int n; "),
                         element("which (n) @{ case 0: { } otherwise: { } }", "Int n; ")]),
    ("`Int a, b;`", "E20", [element("Int a@, b;"), f"element A {{ Int a@, b; {EMPTY} }}",
                            element("Int a = 1@, b = 2;")]),
    ("`a = b = 0;`", "E20", [element("a = b @= 0;", "Int a; Int b; ")]),
    ("`ew[i].age = 0;`", "E20", [element("ew[1]@.age = 0;", WINDOW + "Int age; "),
                                 element("if (ew[1] @as A) { }", WINDOW),
                                 element("if (((A) ew[1])@.isOld()) { }", WINDOW)]),
    ("`a is Q`", "E54", ["quark Q { Int n; } " + element("Atom a; if (a is @Q) { }"),
                         "quark Q { Int n; } " + element("Atom a; if (a as @Q) { }")]),
    ("a call of another element's function", "E50", [element("A other; @other.grow();", "Void grow() { } ")]),
    ("`b << s`", "E50", [element("b = b @<< b;", "Bits b; "), element("@b >>= b;", "Bits b; ")]),
    ("numbers wider", "E36", [f"element A {{ @Unsigned(65) n; {EMPTY} }}"]),
    ("`maxof`", "E20", [element("Int n = Int.@maxof;"), element("Int n = Unsigned@(3).maxof;")]),
    ("`maxof`", "E31", [element("Int m = n.@maxof;", "Int n; ")]),
    ("other calls of the window", "E31", [element("ew.@destroy(0);", WINDOW), element("ew.@diffuse();", WINDOW)]),
    ("coordinates", "E31", [element("@C2D c;"), element("Unsigned i = ew.@getCoord(1);", WINDOW)]),
    ("symmetries", "E31", [element("ew.@changeSymmetry(1);", WINDOW)]),
    ("counts of events", "E31", [element("Unsigned n = ew.@getEventCount();", WINDOW)]),
]


class Ulam(LabCase):
    """Forms of Ulam, and what the page has in place of them."""

    def table(self) -> list[tuple[str, str, list[str]]]:
        """The rows of the page: the form, what to write instead, and the codes."""
        found = [row for heads, row, _ in rows(page(ULAM)) if heads[-1] == "Refused with"]
        return [(form, instead, codes.split(", ")) for form, instead, codes in found]

    def test_forms(self) -> None:
        """Each form is told by its row of the page, with a caret at its place."""
        for begin, code, texts in FORMS:
            (form, instead, codes), = [row for row in self.table() if row[0].startswith(begin)]
            self.assertIn(code, codes)
            for marked in texts:
                with self.subTest(marked):
                    path = self.file("a", marked.replace("@", ""))
                    done = here("check", path)
                    first, source, carets, *rest = done.wrote.splitlines()
                    self.assertEqual((done.status, done.said), (2, ""))
                    self.assertTrue(first.startswith(f"{path}:1:{marked.index('@') + 1}: {code} "), first)
                    self.assertEqual(source, "1 | " + marked.replace("@", ""))
                    self.assertEqual(carets.index("^"), len("1 | ") + marked.index("@"))
                    self.assertEqual(rest[-3:], [f"written: {form}", f"instead: {instead}",
                                                 f"more: ./lab explain {code}"])

    def test_all_rows(self) -> None:
        """No row of the page, and none of its codes, is left out above."""
        for form, _, codes in self.table():
            self.assertEqual({code for begin, code, _ in FORMS if form.startswith(begin)}, set(codes), form)
