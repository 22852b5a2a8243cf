#!/usr/bin/env python3
"""Lists where the modules of the package feast_lab disagree with its layers: layers.py

tools/feast_lab/layers.txt has a line for each package in it, lowest first, with the packages that its modules use, all of
which stand above it in the file. So no two packages use each other; the modules within a package don't either. (What is
imported for types alone isn't used.) Each import of something in the package is relative, and no module changes where
modules are looked for. But for the modules that are for Python, the last line, all stand on the standard library alone.

Of the packages of the lab, only `command` reads words (argparse), and no two classes of theirs have one name.
"""
from __future__ import annotations

import argparse
import ast
import re
import sys
from collections import defaultdict
from dataclasses import dataclass
from pathlib import Path
from typing import Iterator

sys.dont_write_bytecode = True
TOP = Path(__file__).resolve().parent.parent
OUTER = TOP / "tools" / "feast_lab"
LAYERS = "tools/feast_lab/layers.txt"
LAB = "lab"  # the folder of the packages of the lab
OWN = "feast_lab"  # what the line of the modules is called that lie in no package of the package
COMMAND = (OWN, "command")  # the one of them that has to start without NumPy
WORDS = "command"  # the one package of the lab that reads words
GAMES = {"sys.path", "sys.modules"}
Key = tuple[str, str]  # a package and a module


@dataclass(frozen=True)
class Module:
    """A module: its file, its package, what it uses of the others, as packages and modules, what else it imports, the
    classes that it has, and what it names of `GAMES`. An import of a whole package has no module."""

    path: Path
    package: str
    uses: frozenset[Key]
    others: frozenset[str]
    classes: tuple[str, ...]
    games: frozenset[str]

    def __str__(self) -> str:
        return str(self.path.relative_to(TOP))

    @property
    def key(self) -> Key:
        """Its package and its name."""
        return self.package, self.path.stem

    @property
    def is_of_lab(self) -> bool:
        """Whether it is one of the lab."""
        return self.path.parent.parent.name == LAB


def module_of(path: Path) -> Module:
    """A module, read from its file."""
    inside = path.relative_to(OUTER).with_suffix("").parts
    uses, others = set[Key](), set[str]()
    nodes = list(imports_and_more(ast.parse(path.read_text())))
    for node in nodes:
        if isinstance(node, ast.Import):
            others |= {alias.name.partition(".")[0] for alias in node.names}
        elif isinstance(node, ast.ImportFrom) and node.level == 0:
            others.add((node.module or "").partition(".")[0])
        elif isinstance(node, ast.ImportFrom):
            front = [*inside[:-node.level], *filter(None, (node.module or "").split("."))]
            uses |= {key_of([*front, alias.name]) for alias in node.names}
    classes = tuple(node.name for node in nodes if isinstance(node, ast.ClassDef))
    games = frozenset(name for node in nodes if isinstance(node, ast.Attribute) and (name := ast.unparse(node)) in GAMES)
    return Module(path, key_of([*inside, ""])[0], frozenset(uses), frozenset(others), classes, games)


def imports_and_more(node: ast.AST) -> Iterator[ast.AST]:
    """The nodes of a tree, without what is there for types alone."""
    yield node
    for child in ast.iter_child_nodes(node):
        if isinstance(child, ast.If) and ast.unparse(child.test) == "TYPE_CHECKING":
            continue
        yield from imports_and_more(child)


def key_of(names: list[str]) -> Key:
    """The package and the module of a name that is written out from the package on, or of something in a module."""
    folder = OUTER
    for part in names:
        if (folder / f"{part}.py").is_file():
            return folder_name(folder), part
        if not part or not (folder / part / "__init__.py").is_file():
            break
        folder = folder / part
    return folder_name(folder), ""


def folder_name(folder: Path) -> str:
    """The name of a package in the table."""
    return OWN if folder == OUTER else folder.name


def layers() -> dict[str, list[str]]:
    """The packages of the table, in its order, with what each uses."""
    return {name: uses.split() for name, uses in re.findall(r"^([a-z_]+):([^#\n]*)$", (TOP / LAYERS).read_text(), re.MULTILINE)}


def table_faults(table: dict[str, list[str]], modules: list[Module]) -> Iterator[str]:
    """Where the table and the modules disagree, and where a line names a package that isn't above it."""
    order = list(table)
    for package in sorted({it.package for it in modules} ^ set(table)):
        yield f"{LAYERS}: {package} has {'no line' if package not in table else 'a line, and there is no such package'}"
    for package, uses in table.items():
        named = {front for it in modules if it.package == package for front, _ in it.uses} - {package}
        yield from (f"{LAYERS}: {package} doesn't use {it}" for it in uses if it not in named)
        yield from (f"{LAYERS}: {package} uses {it}, which its line hasn't" for it in sorted(named - set(uses)))
        yield from (f"{LAYERS}: {package} uses {it}, which isn't above it" for it in uses
                    if it not in order[:order.index(package)])


def module_faults(modules: list[Module]) -> Iterator[str]:
    """Modules that name the package, change where modules are looked for, or read words, and classes with one name."""
    homes = defaultdict(list)
    for it in modules:
        if OWN in it.others:
            yield f"{it}: it imports the package by its name; within it imports are relative"
        yield from (f"{it}: it names {name}" for name in sorted(it.games))
        if it.is_of_lab and "argparse" in it.others and it.package != WORDS:
            yield f"{it}: it imports argparse, which is for {WORDS} alone"
        for name in it.classes if it.is_of_lab else ():
            homes[name].append(str(it))
    yield from (f"the class {name} is in {' and in '.join(found)}" for name, found in homes.items() if len(found) > 1)
    yield from (f"{path.relative_to(TOP)}: it belongs in a package" for path in sorted((OUTER / LAB).glob("*.py")) if path.stem != "__init__")


def library_faults(modules: list[Module]) -> Iterator[str]:
    """Modules of the command line that import something that is not of the standard library."""
    found = {it.key: it for it in modules}
    ahead = {it.key for it in modules if it.package != OWN} | {COMMAND}
    done = set[Key]()
    while ahead:
        done |= ahead
        ahead = {use for key in ahead for use in found[key].uses if use in found} - done
    for key in sorted(done):
        yield from (f"{found[key]}: it imports {it}, and the command line needs nothing beside the standard library"
                    for it in sorted(found[key].others - sys.stdlib_module_names))


def rings(modules: list[Module]) -> Iterator[str]:
    """Modules that use each other, by whatever way."""
    left = {it.key: it.uses for it in modules}
    while free := [key for key, uses in left.items() if uses.isdisjoint(left) or all(key not in it for it in left.values())]:
        for key in free:
            left.pop(key, None)
    if left:
        yield "modules that use each other: " + ", ".join("/".join(key) for key in sorted(left))


def main() -> int:
    """The command."""
    argparse.ArgumentParser(description="Holds the modules of feast_lab against its layers.").parse_args()
    modules = [module_of(path) for path in sorted(OUTER.rglob("*.py")) if not path.stem.startswith("__")]
    table = layers()
    found = [*table_faults(table, modules), *module_faults(modules), *library_faults(modules), *rings(modules)]
    print("\n".join(found + [f"{len(table)} packages, {len(modules)} modules, {len(found)} faults in the layers of feast_lab"]))
    return 1 if found or not modules else 0


if __name__ == "__main__":
    sys.exit(main())
