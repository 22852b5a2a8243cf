#!/usr/bin/env python3
"""Tries the files for editors: editors.py [NAME..].

Each example and a text of all words and signs is coloured by Vim, by Pygments and by the rules of the TextMate grammar,
and each token has to have a colour of its kind; the kinds are read here by the rules of docs/language.md. An editor
that isn't there is left out. The lines that the problem matcher and Vim's error format read are those of docs/errors.md.
"""
from __future__ import annotations

import importlib.util
import json
import re
import shutil
import subprocess
import sys
import tempfile
import unittest
from dataclasses import dataclass
from pathlib import Path
from typing import Any, Iterator, Optional

sys.dont_write_bytecode = True
from checks import flat  # noqa: E402
from refusals import TEXTS  # noqa: E402

TOP = Path(__file__).resolve().parent.parent
EDITORS = TOP / "editors"
WORDS = json.loads((EDITORS / "words.json").read_text())
# A token by the rules of the language: comments, then words and numbers, then the longest sign.
TOKEN = re.compile(r"(?P<comment>//[^\n]*|/\*.*?\*/)|(?P<word>[A-Za-z_]\w*)|(?P<number>\d\w*)|(?P<sign>%s)|(?P<space>\s+)"
                   % "|".join(re.escape(sign) for sign in sorted(WORDS["signs"], key=len, reverse=True)), re.S)
# The kind of each of the names that the editors' files give.
VIM = {
    "ulamPunctuation": "sign", "ulamSign": "sign", "ulamFunction": "name", "ulamName": "name", "ulamType": "class",
    "ulamNumber": "number", "ulamModifier": "keyword", "ulamBuiltIn": "type", "ulamStructure": "keyword",
    "ulamInclude": "keyword", "ulamConditional": "keyword", "ulamRepeat": "keyword", "ulamStatement": "keyword",
    "ulamWordSign": "keyword", "ulamBoolean": "keyword", "ulamSelf": "keyword", "ulamComment": "comment",
    "ulamDoc": "comment", "ulamDocWord": "comment",
}
PYGMENTS = {
    "Keyword.Type": "type", "Keyword": "keyword", "Operator.Word": "keyword", "Operator": "sign", "Punctuation": "sign",
    "Name.Class": "class", "Name": "name", "Literal.Number": "number", "Comment": "comment", "Text.Whitespace": "",
}
TEXTMATE = {
    "comment": "comment", "keyword.operator.symbol": "sign", "keyword": "keyword", "storage": "keyword",
    "constant.language": "keyword", "variable.language": "keyword", "support.type": "type", "entity.name.type": "class",
    "constant.numeric": "number", "entity.name.function": "name", "variable.other": "name", "punctuation": "sign",
}


@dataclass(frozen=True)
class Token:
    """A token of a text: where it is, and its kind."""

    start: int
    end: int
    kind: str


def kind_of(found: re.Match[str]) -> str:
    """The kind of a token; `virtual` is a keyword where a type follows it."""
    text = found.group()
    if found.lastgroup != "word":
        return str(found.lastgroup)
    if text in WORDS["keywords"] or text == "virtual" and re.match(r"\s+[A-Z]", found.string[found.end():]):
        return "keyword"
    if text in WORDS["types"]:
        return "type"
    return "class" if text[0].isupper() else "name"


def tokens(text: str) -> list[Token]:
    """The tokens of a text. Fails at a byte that begins none."""
    found, at = [], 0
    while at < len(text):
        match = TOKEN.match(text, at)
        assert match, text[at:at + 20]
        if match.lastgroup != "space":
            found.append(Token(at, match.end(), kind_of(match)))
        at = match.end()
    return found


def all_words() -> str:
    """A text of all keywords, types and signs, each with a blank behind it, and numbers, names and comments."""
    words = [*WORDS["keywords"], *WORDS["types"], *WORDS["signs"]]
    rest = ["0", "17", "0x1fu", "0b101", "4294967295u", "iff", "self_", "a1", "_x", "Els", "Int1", "virtual", "go()"]
    comments = ["// if ( 1", "/* if\n element 2 */", "/** \\color #0072b2 \\symbol Po\n\\color red */", "/**/ x /***/ y"]
    return "".join(f"{word} \n" for word in [*words, *rest, "virtual Void go()", *comments])


def texts() -> dict[str, str]:
    """The texts that are coloured, by names."""
    files = sorted((TOP / "examples").rglob("*.ulam"))
    return {"all words": all_words(), **{path.name: path.read_text() for path in files}}


def kinds(names: dict[str, str], name: str) -> str:
    """The kind that a name stands for: that of the longest front of it that the table has, or the name itself."""
    parts = name.split(".")
    fronts = (".".join(parts[:count]) for count in range(len(parts), 0, -1))
    return next((names[front] for front in fronts if front in names), name)


class Colours(unittest.TestCase):
    """What is coloured as what."""

    def compare(self, name: str, text: str, coloured: list[str]) -> None:
        """Tries that each token of a text has the colour of its kind from its first letter to its last."""
        for token in tokens(text):
            letters = zip(coloured[token.start:token.end], text[token.start:])
            shown = [kind for kind, letter in letters if not letter.isspace()]
            self.assertEqual(set(shown), {token.kind}, f"{name}: {text[token.start:token.end]!r} at {token.start}")

    def test_words(self) -> None:
        """The list of words is the program's own."""
        source = (TOP / "crates/ulam_lex/src/bytes.rt").read_text()
        for constant, name in (("KEYWORDS", "keywords"), ("SIGNS", "signs")):
            found = re.search(rf"const {constant}: [^=]*= \[(.*?)\];\n", source, re.S)
            assert found
            self.assertEqual(re.findall(r'"([^"]+)"', found[1]), WORDS[name])
        types = re.search(r"built-in types are `([^`]*)`", (TOP / "docs/language.md").read_text())
        assert types
        self.assertEqual(types[1].split(), WORDS["types"])

    def test_pygments(self) -> None:
        if importlib.util.find_spec("pygments") is None:
            self.skipTest("pygments is not there: apt-get install python3-pygments")
        lexer = module(EDITORS / "ulam_lexer.py").UlamLexer(stripnl=False, ensurenl=False)
        for name, text in texts().items():
            coloured = [kinds(PYGMENTS, ".".join(kind)) for kind, part in lexer.get_tokens(text) for _ in part]
            self.compare(name, text, coloured)

    def test_textmate(self) -> None:
        grammar = json.loads((EDITORS / "vscode/syntaxes/ulam.tmLanguage.json").read_text())
        for name, text in texts().items():
            self.compare(name, text, [kinds(TEXTMATE, scope) for scope in scopes(grammar["patterns"], text)])

    def test_vim(self) -> None:
        found = coloured_by_vim(self, "ulam", texts())
        for name, text in texts().items():
            self.compare(name, text, [kinds(VIM, group) for group in found[name]])

    def test_no_token(self) -> None:
        """What begins no token is shown as an error."""
        grammar = json.loads((EDITORS / "vscode/syntaxes/ulam.tmLanguage.json").read_text())
        self.assertEqual(scopes(grammar["patterns"], "a ? b")[2], "invalid.illegal.ulam")
        self.assertEqual(coloured_by_vim(self, "ulam", {"x": "a ? b"})["x"][2], "ulamIllegal")


class Files(unittest.TestCase):
    """Which files are taken for what."""

    def test_vim(self) -> None:
        """With the lines of editors/README.md in `.vimrc` a file is known by its suffix, and `:make` checks it."""
        script = (f"set rtp-={EDITORS}/vim\nset runtimepath+={EDITORS}/vim\nfiletype plugin on\nsyntax on\nedit a.ulam\n"
                  "let found = [&filetype, b:current_syntax, &makeprg]\nedit a.world\n"
                  "call writefile([json_encode(found + [&filetype, b:current_syntax])], 'found')\n")
        found = vim(self, script, {"a.ulam": "element A { }\n", "a.world": "feast 1\n"})
        self.assertEqual(found, ["ulam", "ulam", "./feast check %:S", "feastworld", "feastworld"])

    def test_suffixes(self) -> None:
        """VS Code's folder and the lexers of Pygments name the same suffixes."""
        languages = json.loads((EDITORS / "vscode/package.json").read_text())["contributes"]["languages"]
        self.assertEqual([language["extensions"] for language in languages], [[".ulam"], [".world"]])
        for part in ("grammars", "languages"):
            for entry in json.loads((EDITORS / "vscode/package.json").read_text())["contributes"][part]:
                self.assertTrue((EDITORS / "vscode" / entry.get("path", entry.get("configuration"))).is_file())
        if importlib.util.find_spec("pygments") is not None:
            lexers = module(EDITORS / "ulam_lexer.py")
            self.assertEqual((lexers.UlamLexer.filenames, lexers.WorldLexer.filenames), (["*.ulam"], ["*.world"]))


class Worlds(unittest.TestCase):
    """The colours of worlds: nothing in an example is an error, and the first word of each line is a keyword."""

    def test_textmate(self) -> None:
        grammar = json.loads((EDITORS / "vscode/syntaxes/world.tmLanguage.json").read_text())
        for path in sorted((TOP / "examples").rglob("*.world")):
            text = path.read_text()
            self.assertEqual(wrong_in_world(text, scopes(grammar["patterns"], text), "invalid", "keyword", "comment"), [])

    def test_vim(self) -> None:
        worlds = {path.name: path.read_text() for path in sorted((TOP / "examples").rglob("*.world"))}
        for name, groups in coloured_by_vim(self, "feastworld", worlds).items():
            self.assertEqual(wrong_in_world(worlds[name], groups, "worldIllegal", "worldWord", "worldComment"), [])


def wrong_in_world(text: str, shown: list[str], error: str, word: str, comment: str) -> list[str]:
    """The lines of a world in which something is shown as an error, or the first word isn't shown as one."""
    wrong, at = [], 0
    for line in text.splitlines(keepends=True):
        names = shown[at:at + len(line.rstrip())]
        if names and (any(name.startswith(error) for name in names) or not names[0].startswith((word, comment))):
            wrong.append(line)
        at += len(line)
    return wrong


class Refusals(unittest.TestCase):
    """What reads the lines of refusals."""

    LINES = [f"e.ulam:{number}:{number + 2}: {code} {text}" for number, (code, text) in enumerate(TEXTS.items(), 1)]

    def test_problem_matcher(self) -> None:
        """Each refusal with a place is a problem at this place, also behind `lab: `; one of a whole file is none."""
        matcher = json.loads((EDITORS / "vscode/package.json").read_text())["contributes"]["problemMatchers"][0]["pattern"]
        for line in self.LINES:
            for front in ("", "lab: "):
                found = re.search(matcher["regexp"], front + line)
                assert found, line
                parts = [found[matcher[part]] for part in ("file", "line", "column", "code", "message")]
                self.assertEqual("{}:{}:{}: {} {}".format(*parts), line)
        self.assertIsNone(re.search(matcher["regexp"], "e.ulam: E01 unreadable"))

    def test_vim(self) -> None:
        """The same of the list that Vim's `:make` fills."""
        script = ("compiler feast\nsetlocal makeprg=cat\\ lines\nsilent make!\n"
                  "let found = filter(getqflist(), 'v:val.valid')\n"
                  "call map(found, '[bufname(v:val.bufnr), v:val.lnum, v:val.col, v:val.text]')\n"
                  "call writefile([json_encode(found)], 'found')\n")
        found = vim(self, script, {"lines": "".join(f"{line}\n" for line in [*self.LINES, "yes"])})
        self.assertEqual([f"{name}:{line}:{column}: {text}" for name, line, column, text in found], self.LINES)


def module(path: Path) -> Any:
    """A module of a file."""
    spec = importlib.util.spec_from_file_location(path.stem, path)
    assert spec is not None and spec.loader is not None
    made = importlib.util.module_from_spec(spec)
    spec.loader.exec_module(made)
    return made


def scopes(patterns: list[dict[str, Any]], text: str) -> list[str]:
    """The scope of each letter by a TextMate grammar of single patterns and of regions: line by line, the pattern that
    is found first, and of several at one place the one that stands first in the grammar."""
    found: list[str] = []
    region: Optional[dict[str, Any]] = None
    for line in text.splitlines(keepends=True):
        at = 0
        shown = [region["name"] if region else ""] * len(line)
        while at < len(line):
            rules = [{"match": region["end"], "ends": True}] if region else patterns
            hits = [(hit.start(), number, hit) for number, rule in enumerate(rules)
                    if (hit := re.compile(rule.get("match") or rule["begin"]).search(line, at)) and hit.end() > hit.start()]
            if not hits:
                break
            _, number, hit = min(hits, key=lambda it: it[:2])
            rule = region if region and rules[number].get("ends") else rules[number]
            shown[hit.start():hit.end()] = [rule["name"]] * (hit.end() - hit.start())
            region = None if region else rule if "begin" in rule else None
            at = hit.end()
            if region:
                shown[at:] = [region["name"]] * (len(line) - at)
            elif "ends" in rules[number]:
                shown[at:] = [""] * (len(line) - at)
        found += shown
    return found


def coloured_by_vim(case: unittest.TestCase, kind: str, files: dict[str, str]) -> dict[str, list[str]]:
    """The group of each letter of files, by their names, as Vim shows them."""
    names = {f"{number}.text": name for number, name in enumerate(files)}
    script = f"""
syntax on
let found = {{}}
for name in readfile('names')
  execute 'edit' name
  set filetype={kind}
  syntax sync fromstart
  let groups = []
  for line in range(1, line('$'))
    call add(groups, map(range(1, col([line, '$']) - 1), 'synIDattr(synID(line, v:val, 1), "name")'))
  endfor
  let found[name] = groups
endfor
call writefile([json_encode(found)], 'found')
"""
    inputs = {**{number: files[name] for number, name in names.items()}, "names": "".join(f"{it}\n" for it in names)}
    found = vim(case, script, inputs)
    shown = {}
    for number, name in names.items():
        lines = zip(files[name].splitlines(keepends=True), found[number])
        shown[name] = [group for line, groups in lines for group in [*groups, ""][:len(line)]]
    return shown


def vim(case: unittest.TestCase, script: str, files: dict[str, str]) -> Any:
    """What a script of Vim leaves in the file `found`, as JSON."""
    command = shutil.which("vim")
    if command is None or b"+syntax" not in subprocess.run([command, "--version"], capture_output=True).stdout:
        case.skipTest("vim is not there: apt-get install vim")
    with tempfile.TemporaryDirectory() as folder:
        for name, text in files.items():
            (Path(folder) / name).write_text(text)
        (Path(folder) / "script").write_text(f"set nocompatible nomore noswapfile\nset rtp^={EDITORS}/vim\n{script}\nqall!\n")
        done = subprocess.run([command, "-u", "NONE", "-N", "-es", "-S", "script"], cwd=folder, stdin=subprocess.DEVNULL,
                              capture_output=True, timeout=600, check=False)
        if not (Path(folder) / "found").exists():
            case.fail(f"vim ended with {done.returncode}: {done.stdout[-500:]!r}{done.stderr[-500:]!r}")
        return json.loads((Path(folder) / "found").read_text())


def checks(_: object) -> Iterator[unittest.TestCase]:
    """The tests of colours, and of what reads refusals."""
    for kind in (Colours, Files, Worlds, Refusals):
        yield from flat(unittest.defaultTestLoader.loadTestsFromTestCase(kind))


if __name__ == "__main__":
    from driver import only

    sys.exit(only("editors"))
