"""How the lab has element files read, against the tables of tests/tables, whose rows were worked out apart."""
import dataclasses
import importlib
import re
import sys
import unittest
from collections.abc import Iterator
from typing import Any

from calls import EXAMPLES, TOP

from feast_lab.lab.ulam.expected import expected
from feast_lab.lab.ulam.reader import Elements
from feast_lab.lab.ulam.tokens import Source, tokens
from feast_lab.lab.ulam.trees import Block, Do, Group, Word
from feast_lab.recheck.parser import parse
from feast_lab.recheck.tokens import tokens_of

SUBJECTS = ("grammar", "readings", "names", "classes", "stages", "typing_rules", "codes", "number_ends", "arithmetic",
            "events")
LINE = re.compile(r"(\w+):(\d+):(\d+): E(\d\d) .*\n")
UNSHOWN = ("at", "type", "steps", "locals", "local", "known", "is_for")
WORDS_BEFORE = {"check": 0, "code": 0, "pack": 0, "run": 1, "step": 1, "replay": 2, "audit": 2, "rewind": 3}
TABLES = str(TOP / "tests" / "tables")


def table(subject: str) -> list[Any]:
    """The rows of a subject."""
    if TABLES not in sys.path:
        sys.path.append(TABLES)
    module = importlib.import_module(subject)
    return list(module.rows()) if hasattr(module, "rows") else []


def texts_of(row: Any) -> Iterator[tuple[str, str, tuple[int, int] | None]]:
    """The element files of a row with their names, each with the place of a syntax fault or None.

    Files that are refused for their bytes or their depth, and those beside a file that is refused, aren't told.
    """
    if hasattr(row, "texts"):
        yield from (("a", text, None) for text in row.texts)
        return
    found = LINE.fullmatch(row.output) if isinstance(row.output, str) else None
    code = int(found[4]) if found else 0
    if row.words.split(" ")[0] not in ("check", "code") or code in (10, 11, 12, 13, 21) or (row.status and not found):
        return
    for name in row.words.split(" ")[1:]:
        text = row.files[name]
        if found is None or code >= 30:
            yield name, text if isinstance(text, str) else text.decode("latin-1"), None
        elif found[1] == name:
            yield name, text if isinstance(text, str) else text.decode("latin-1"), (int(found[2]), int(found[3]))


def shape(part: Any) -> Any:
    """A tree without its places, without brackets, `;` alone and braces around one statement."""
    if isinstance(part, (list, tuple)):
        return tuple(map(shape, part))
    if isinstance(part, Group):
        return shape(part.inner)
    if isinstance(part, Block):
        body = [it for one in map(shape, part.body) for it in (one[1:] if one[0] == "Block" else [one])]
        return body[0] if len(body) == 1 else ("Block", *body)
    if dataclasses.is_dataclass(part):
        names = [it.name for it in dataclasses.fields(part) if it.name not in UNSHOWN]
        return part.text if isinstance(part, Word) else (type(part).__name__, *(shape(getattr(part, name)) for name in names))
    return part


class Parser(unittest.TestCase):
    """Files that are read into trees, and files that aren't."""

    def test_tables(self) -> None:
        """A file is read exactly if its grammar isn't refused, and else refused at the same token."""
        counts = {True: 0, False: 0}
        for subject in SUBJECTS:
            for row in table(subject):
                for name, text, place in texts_of(row):
                    data = text.encode().decode("latin-1")
                    source = Source(name, data)
                    at, could = expected(source)
                    self.assertEqual(source.place(at) if could else None, place, text[-300:])
                    counts[place is None] += 1
        self.assertGreater(min(counts.values()), 100, counts)

    def test_readings(self) -> None:
        """Texts that differ in brackets alone have the same tree if they are read alike; others never have."""
        counts = {True: 0, False: 0}
        for pair in table("readings"):
            if hasattr(pair, "texts"):
                one, other = (shape(parse(tokens_of(text, 0), 0).classes) for text in pair.texts)
                words, others = ([it.text for it in tokens(Source("a", text)) if it.text not in "(){};"]
                                 for text in pair.texts)
                if words == others or not pair.alike:
                    counts[pair.alike] += 1
                    self.assertEqual(one == other, pair.alike, pair.texts)
        self.assertGreater(min(counts.values()), 20, counts)

    def test_places(self) -> None:
        """Lines end with LF alone, columns count bytes, and a token stands where its text is."""
        source = Source("a", "element A {\r\n\t/* \u00c3\u00a9\n*/ Int n;\r }")
        found = [(token.text, *token.place) for token in tokens(source)]
        self.assertEqual(found, [("element", 1, 1), ("A", 1, 9), ("{", 1, 11), ("Int", 3, 4), ("n", 3, 8), (";", 3, 9),
                                 ("}", 3, 12), ("", 3, 13)])
        for path in EXAMPLES.rglob("*.ulam"):
            text = path.read_text("latin-1")
            for token in tokens(Source(path.name, text)):
                self.assertEqual(text[token.at:token.end], token.text)
                line, column = token.place
                self.assertTrue(text.split("\n")[line - 1][column - 1:].startswith(token.text))

    def test_files_of_the_repository(self) -> None:
        """All example files are read, and the element files of all cases that end well."""
        paths = list(EXAMPLES.rglob("*.ulam"))
        for case in (TOP / "tests" / "cases").iterdir():
            verb, *words = (case / "args").read_bytes().decode("latin-1").splitlines() or [""]
            if verb in WORDS_BEFORE and (case / "status").read_text().strip() == "0":
                paths += [case / word for word in words[WORDS_BEFORE[verb]:] if (case / word).is_file()]
        self.assertGreater(len(paths), 30)
        for path in paths:
            self.assertEqual(expected(Source(path.name, path.read_text("latin-1"))), (-1, []))

    def test_ends(self) -> None:
        """An expression ends where its text does, with brackets, signs and indices around it."""
        values = ["n", "self.n", "(n)", "((n + 1))", "-n", "(Int) n", "f(n, (1))", "a[n + 1]", "n * (n - 1)", "f((n)) + a[0]",
                  "((A.instanceof)) is A", "!(ew[(0)] is A)"]
        source = Source("a", "element A { EventWindow ew; Int n; Int a[2]; Int f(Int i, Int k) { } Void behave() { " + "".join(
            f"f({value} ,{value} );" for value in values) + " } }")
        elements = Elements([source])
        calls = [it.call for it in elements.classes[0].functions()[1].body.body if isinstance(it, Do)]
        self.assertEqual([list(map(elements.text, it.args)) for it in calls], [[value, value] for value in values])
