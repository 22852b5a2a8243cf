"""Which public calls of a crate its edits show: what tests/edits.py holds against its lists, and prints as a table.

An edit shows a public call if it changes the call's own text, or that of a private function that the call reaches
through private functions. Who calls whom is read by names alone, without types: a call `.name(` may mean each method
of that name that takes as many arguments, if the file, or the one that declares the caller's type, names the method's
type. So the table may say too much where two types that one file names have a method of one name and form, and too
little where a function is handed on as a value.
"""
from __future__ import annotations

import functools
import pathlib
import re
from dataclasses import dataclass
from typing import Iterator, Optional

from rust_code import TOP, Code

BEHIND = r"\s*(?:::\s*<[^;{}()]*?>)?"
CALL = re.compile(rf"(?P<dot>(?:\bself\s*)?\.\s*)?(?:\b(?P<of>\w+){BEHIND}\s*::\s*)?\b(?P<name>[a-z_]\w*){BEHIND}\(")
OWNER = re.compile(r"^[ ]*(?:pub(?:\([^)]*\))?\s+)?(?P<kind>impl|trait)\b(?P<head>[^{;]*)\{", re.M)
CONST = re.compile(r"\bconst\s+(?P<name>[A-Z]\w*)\s*:")
# what a body has that does more than to name fields and arguments
DOES = re.compile(r"[-+*/%<>=!?|;^\[\]]| & |\b[a-z_]\w*\s*\(|\b\d|\b(?:if|match|for|while|loop|true|false)\b")


def without_generics(text: str) -> str:
    """A text without its arrows, and without what stands in angle brackets."""
    text, less = text.replace("->", ""), ""
    while text != less:
        text, less = re.sub(r"<[^<>]*>", "", text), text
    return text


def last_word(text: str) -> str:
    """The last word of a path, without its generics."""
    words: list[str] = re.findall(r"\w+", without_generics(text).split(" where ")[0])
    return words[-1] if words else ""


def arguments(text: str, at: int) -> int:
    """How many arguments stand between a bracket that opens in front of a place and the one that closes it."""
    depth, count, is_empty = 1, 0, True
    for char in text[at:]:
        depth += (char in "([{") - (char in ")]}")
        if depth == 0:
            break
        if char == "," and depth == 1:
            count, is_empty = count + 1, True
        elif not char.isspace():
            is_empty = False
    return count + (not is_empty)


@dataclass(frozen=True)
class Owner:
    """An implementation or a trait: its type's name, the trait that it implements, whether it is a trait itself, and
    where it stands."""

    name: str
    trait: str
    is_trait: bool
    start: int
    end: int


def owners_in(code: Code) -> Iterator[Owner]:
    """The implementations and traits of a text."""
    for head in OWNER.finditer(code.text):
        words, end = without_generics(head["head"]), code.closes[head.end() - 1]
        trait, _, name = words.rpartition(" for ")
        if head["kind"] == "trait":
            yield Owner(last_word(words.split(":")[0]), "", True, head.start(), end)
        else:
            yield Owner(last_word(name), last_word(trait), False, head.start(), end)


NONE = Owner("", "", False, 0, 0)


@dataclass(frozen=True)
class Node:
    """A function of a crate: its file, what it is a method of, whether it is `pub`, its head without clauses, whether
    a clause says what it gives, and its body with its place in the file."""

    file: str
    owner: Owner
    name: str
    is_pub: bool
    head: str
    promises: bool
    start: int
    end: int
    body: str

    @functools.cached_property
    def takes(self) -> int:
        """How many arguments it takes, beside `self`."""
        text = without_generics(self.head)
        return arguments(text, text.index("(") + 1) - bool(re.search(r"\(\s*&?\s*(?:'\w+\s+)?(?:mut\s+)?self\b", text))

    def is_law(self) -> bool:
        """Whether it gives nothing and changes nothing, so that its contract is all that it is."""
        return "->" not in self.head and "&mut" not in self.head

    def is_plain(self) -> bool:
        """Whether it only gives fields, or puts its arguments into fields: its body has nothing but their names."""
        body = re.sub(r"\.\s*(?:as_slice|as_str)\(\)", "", self.body)
        return not DOES.search(re.sub(r"\blet [A-Z]\w* \{[^{}]*\} = self;", "", body))


@dataclass(frozen=True)
class File:
    """A file of a crate: its text, its code, and its functions."""

    text: str
    code: Code
    nodes: tuple[Node, ...]

    @functools.cached_property
    def words(self) -> set[str]:
        """The words of the text."""
        return set(re.findall(r"\w+", self.text))


def read_file(path: pathlib.Path) -> File:
    """Reads a file of a crate."""
    text = path.read_text()
    code = Code(text)
    owners = list(owners_in(code))
    nodes = []
    for it in code.functions():
        around = [owner for owner in owners if owner.start < it.start < owner.end] or [NONE]
        before = code.text[code.text.rfind("\n", 0, it.start) + 1 : it.start]
        is_pub = bool(re.search(r"\bpub\b(?!\()", before)) or bool(around[-1].trait) or around[-1].is_trait
        promises = bool(re.search(r"\bensures\b", text[it.start : it.body])) or (around[-1].trait, it.name) in promised()
        nodes.append(Node(path.name, around[-1], it.name, is_pub, code.text[it.start : it.body], promises, it.start,
                          it.end, code.text[it.body : it.end + 1]))
    return File(text, code, tuple(nodes))


@functools.cache
def promised() -> frozenset[tuple[str, str]]:
    """The methods of our traits that have a clause of what they give, each with its trait."""
    found = set()
    for path in TOP.glob("crates/*/src/*.rt"):
        if not re.search(r"^(?:pub )?trait\b", text := path.read_text(), re.M):
            continue
        for owner in owners_in(Code(text)):
            inside = text[owner.start : owner.end] if owner.is_trait else ""
            heads = re.split(r"\bfn\s+(?=\w)", re.sub(r"//[^\n]*", "", inside))[1:]
            found |= {(owner.name, last_word(head.split("(")[0])) for head in heads if re.search(r"\bensures\b", head)}
    return frozenset(found)


def given_out(files: dict[str, File]) -> set[str]:
    """The names that lib.rt gives out; a module as `module::`, with the types in it."""
    text = re.sub(r"//[^\n]*", "", files["lib.rt"].text) if "lib.rt" in files else ""
    names = set(re.findall(r"^pub (?:fn|struct|enum|trait) (\w+)", text, re.M))
    for words in re.findall(r"^pub use ([^;]*);", text, re.M):
        names |= set(re.findall(r"\w+", words.partition("{")[2] or words.rpartition("::")[2]))
    for module in re.findall(r"^pub mod (\w+);", text, re.M):
        names |= {f"{module}::", *re.findall(r"^pub (?:struct|enum|trait) (\w+)", files[f"{module}.rt"].code.text, re.M)}
    return names


class Crate:
    """A crate's functions, which of them are public calls, and who calls whom by name."""

    def __init__(self, name: str) -> None:
        self.name = name
        folder = TOP / "crates" / name / "src"
        self.files = {path.name: read_file(path) for path in sorted(folder.glob("*.rt"))}
        self.nodes = [node for file in self.files.values() for node in file.nodes]
        self.given_out = given_out(self.files)
        self.declared = {word: name for name, file in self.files.items()
                         for word in re.findall(r"\b(?:struct|enum|trait) (\w+)", file.code.text)}
        self.public = [node for node in self.nodes if self.is_public(node)]

    def is_public(self, node: Node) -> bool:
        """Whether a function can be called from outside the crate."""
        if node.owner != NONE:
            is_ours = node.owner.name in self.declared
            return node.is_pub and (node.owner.name if is_ours else node.owner.trait) in self.given_out
        return node.is_pub and (node.name in self.given_out or f"{self.module(node)}::" in self.given_out)

    def module(self, node: Node) -> str:
        """The module of a function."""
        return node.file.removesuffix(".rt")

    def shown(self, node: Node) -> str:
        """The name of a public call as one reads it."""
        front = node.owner.name or (self.module(node) if f"{self.module(node)}::" in self.given_out else "")
        return f"{front}::{node.name}" if front else node.name

    def wanted(self) -> list[Node]:
        """The public calls that an edit is to show: those that promise something and do something."""
        return [node for node in self.public if node.promises and not node.is_law() and not node.is_plain()]

    def called(self, node: Node) -> Iterator[Node]:
        """The functions of the crate that a function calls, by name."""
        for hit in CALL.finditer(node.body):
            count, dot = arguments(node.body, hit.end()), re.sub(r"\s", "", hit["dot"] or "")
            for it in self.named(node, hit["of"] or "", hit["name"], dot):
                has_self = not dot and it.owner != NONE and "self" in it.head
                if count == it.takes + has_self:
                    yield it

    def named(self, node: Node, of: str, name: str, dot: str) -> list[Node]:
        """The functions that a call in a function may mean: `of::name(`, `.name(`, `self.name(` or `name(`."""
        same = [it for it in self.nodes if it.name == name]
        if dot == "self." or of == "Self":
            return [it for it in same if it.owner.name == node.owner.name != ""]
        if dot:
            known = self.files[node.file].words | self.files[self.declared.get(node.owner.name, node.file)].words
            return [it for it in same if it.owner != NONE and known & {it.owner.name, it.owner.trait}]
        if of[:1].isupper():
            return [it for it in same if of in (it.owner.name, it.owner.trait)]
        free = [it for it in same if it.owner == NONE]
        if of and of not in ("crate", "super", "self"):
            return [it for it in free if self.module(it) == of]
        return [it for it in free if it.file == node.file] or free

    @functools.cached_property
    def callers(self) -> dict[Node, set[Node]]:
        """The functions that call each function."""
        found: dict[Node, set[Node]] = {node: set() for node in self.nodes}
        for node in self.nodes:
            for it in self.called(node):
                found[it].add(node)
        return found

    def changed(self, file: str, old: str) -> list[Node]:
        """The functions whose text changes where a text of a file is replaced: the one that it stands in, or those
        that name the constant that it stands in."""
        found = self.files.get(file.removeprefix("src/"))
        at = found.text.find(old) if found else -1
        if not found or at < 0:
            return []
        at += len(old) - len(old.lstrip())
        inside = [node for node in found.nodes if node.start <= at <= node.end]
        constants = [hit["name"] for hit in CONST.finditer(found.code.text, 0, at + len(old.strip()))]
        if inside or not constants:
            return inside[-1:]
        return [node for node in self.nodes if re.search(rf"\b{constants[-1]}\b", node.body)]

    def shown_by(self, changed: list[Node]) -> dict[Node, int]:
        """The public calls that a change of functions shows, each with how many calls lie between."""
        found: dict[Node, int] = {}
        seen, level, far = set(changed), set(changed), 0
        public = set(self.public)
        while level:
            found.update({node: far for node in level & public})
            level = {it for node in level - public for it in self.callers[node]} - seen
            seen, far = seen | level, far + 1
        return found


@dataclass(frozen=True)
class Row:
    """A public call with the edits that show it, nearest first, each with how many calls lie between."""

    crate: str
    call: str
    edits: tuple[tuple[int, str], ...]
    is_wanted: bool

    def nearest(self) -> Optional[int]:
        """How far the nearest edit is, if there is one."""
        return self.edits[0][0] if self.edits else None


def rows(crate: Crate, edits: dict[str, list[tuple[str, str]]]) -> list[Row]:
    """The rows of a crate's public calls that promise something, by the edits with their files and texts."""
    found: dict[str, list[tuple[int, str]]] = {}
    for edit, texts in edits.items():
        for node, far in crate.shown_by([it for file, old in texts for it in crate.changed(file, old)]).items():
            found.setdefault(crate.shown(node), []).append((far, edit))
    wanted = {crate.shown(node) for node in crate.wanted()}
    names = dict.fromkeys(crate.shown(node) for node in crate.public)
    return [Row(crate.name, name, tuple(sorted(found.get(name, []))), name in wanted)
            for name in names if name in wanted or name in found]
