"""Drawn classes: quarks, bases, elements, their members and functions, and the element files that have them."""
from __future__ import annotations

import itertools
from typing import Optional

from bodies import Bodies
from chance import Chance
from feast_lab.recheck.limits import STATE_BITS
from formulas import Scope
from shapes import QUARK_BITS, Constant, Function, Member, Number, Shape

BUILT_IN = "Int Unsigned Bits Bool Unary".split()


class Classes:
    """Draws a set of classes. Names are numbered, so no two of a set are alike."""

    def __init__(self, chance: Chance) -> None:
        self.chance = chance
        self.numbers = itertools.count(1)
        self.elements: list[Shape] = []
        self.quarks: list[Shape] = []
        self.risk = chance.one_of([0.0, 0.01, 0.03, 0.15])
        self.texts: list[str] = []

    def name(self, front: str) -> str:
        """A new name."""
        return f"{front}{next(self.numbers)}"

    def draw(self) -> list[str]:
        """The texts of the classes; they may come in any order."""
        for _ in range(self.chance.one_of([0, 1, 1, 2])):
            self.texts.append(self.quark())
        count = self.chance.between(1, 4)
        heads = [self.element_head() for _ in range(count)]
        self.texts += [self.element(shape, lines, base) for shape, lines, base in heads]
        if self.chance.happens(0.3):
            self.texts.reverse()
            self.elements.reverse()
        return self.texts

    def quark(self) -> str:
        """A quark, at times with a base."""
        shape, lines = Shape(self.name("Q"), True), []
        base = self.chance.one_of(self.quarks) if self.quarks and self.chance.happens(0.5) else None
        lines += self.heritage(shape, base)
        lines += self.members(shape, QUARK_BITS - shape.bits)
        overridden = self.overrides(shape, base)
        own = [self.function(shape) for _ in range(self.chance.between(0, 2))]
        self.quarks.append(shape)
        return self.closed(shape, base, lines + overridden + own)

    def heritage(self, shape: Shape, base: Optional[Shape]) -> list[str]:
        """Gives a class what its base has; the lines are those that it needs beside."""
        if base:
            shape.members += base.members
            shape.parts += base.parts
            shape.constants += base.constants
            shape.functions += base.functions
            shape.window, shape.draws, shape.bits = base.window, base.draws, base.bits
        lines = []
        if not shape.window and self.chance.happens(0.3 if shape.is_quark else 0.9):
            shape.window = self.name("ew")
            lines.append(f"EventWindow {shape.window};")
        if not shape.draws and self.chance.happens(0.3 if shape.is_quark else 0.8):
            shape.draws = self.name("random")
            lines.append(f"Random {shape.draws};")
        return lines

    def members(self, shape: Shape, room: int) -> list[str]:
        """Constants, typedefs and data members within so many bits."""
        lines = [self.constant(shape) for _ in range(self.chance.between(0, 2))]
        for _ in range(self.chance.between(1, 6)):
            if room > 0:
                line, bits = self.data_member(shape, room)
                lines.append(line)
                room -= bits
                shape.bits += bits
        return lines

    def data_member(self, shape: Shape, room: int) -> tuple[str, int]:
        """A data member, and its bits."""
        parts = [it for it in self.quarks if 0 < it.bits <= room]
        if parts and self.chance.happens(0.25):
            part = self.chance.one_of(parts)
            shape.parts.append((self.name("p"), part))
            return f"{part.name} {shape.parts[-1][0]};", part.bits
        name = self.chance.one_of(["Int", "Unsigned", "Bits", "Bool", "Unary", "Int", "Unsigned", "Bits"])
        is_array = self.chance.happens(0.25)
        least = 2 if name == "Int" else 1
        if room < least:
            name, least = "Bool", 1
        most = min(room, 64)
        widths = [least, least + 1, 3, 4, 7, 8, 9, 31, 32, 33, 63, 64, room, self.chance.between(least, most)]
        widths = widths[:6] if is_array else widths
        of = Number(name, 1 if name == "Bool" else max(least, min(self.chance.one_of(widths), most)))
        length = 0
        if is_array:
            most = room // of.width
            length = self.chance.one_of([1, min(2, most), min(3, most), min(5, most), most])
        shape.members.append(Member(self.name("m"), of, length))
        return self.declared(shape, shape.members[-1]), of.width * max(length, 1)

    def declared(self, shape: Shape, it: Member) -> str:
        """The line of a data member: its type as such, by a constant as its width, or by a typedef."""
        written = it.of.text()
        same = [constant.name for constant in shape.constants if constant.value == it.of.width]
        if it.of.name != "Bool" and same and self.chance.happens(0.7):
            written = f"{it.of.name}({self.chance.one_of(same)})"
        if it.of == Number(it.of.name, 8 if it.of.name == "Bits" else 32) and self.chance.happens(0.5):
            written = it.of.name
        front = ""
        if self.chance.happens(0.15):
            typedef = self.name("T")
            front, written = f"typedef {written} {typedef}; ", typedef
        return f"{front}{written} {it.name}{f'[{it.length}]' if it.length else ''};"

    def constant(self, shape: Shape) -> str:
        """A constant of any type, with a value that is most often near an end."""
        of = Number(self.chance.one_of(BUILT_IN), self.chance.one_of([2, 3, 5, 8, 31, 32]))
        of = Number("Bool", 1) if of.name == "Bool" else of
        least, most = of.ends()
        value = self.chance.one_of([least, most, most, min(most, self.chance.between(1, 12)), min(most, 3)])
        name = self.name("c")
        shape.constants.append(Constant(name, of, value))
        if of.name == "Bool":
            return f"constant Bool {name} = {'true' if value else 'false'};"
        return f"constant {of.text()} {name} = {value};"

    def function(self, shape: Shape) -> str:
        """A function of a class, which later ones may call."""
        drawn = self.chance.below(10)
        if drawn < 3:
            text = self.counter(shape) if drawn else self.passing(shape)
            if text:
                return text
        takes = tuple(self.parameter() for _ in range(self.chance.one_of([0, 0, 1, 1, 2, 3])))
        result, gives = self.chance.one_of(["Void", "Void", "Atom", "number", "number", "number"]), None
        if result == "number":
            gives = self.parameter()
            result = gives.text()
        it = Function(self.name("f"), result, gives, takes, shape.is_quark and self.chance.happens(0.6))
        text = self.written(shape, it)
        shape.functions.append(it)
        return text

    def counter(self, shape: Shape) -> str:
        """A function that changes a member and gives it, or nothing if there is no such member."""
        members = [it for it in shape.members if it.of.family() in ("Int", "Unsigned") and not it.length]
        if not members:
            return ""
        it = self.chance.one_of(members)
        of = Number(it.of.family(), self.chance.one_of([it.of.width, 32, 64]))
        of = of if of.name != "Int" or of.width > 1 else Number("Int", 2)
        shape.functions.append(Function(self.name("f"), of.text(), of, (), changes=it))
        sign = self.chance.one_of(["+=", "-=", "*="])
        return f"{of.text()} {shape.functions[-1].name}() {{ {it.name} {sign} {self.chance.between(1, 9)}; return {it.name}; }}"

    def passing(self, shape: Shape) -> str:
        """A function that gives what it takes, in a wider type."""
        name = self.chance.one_of(["Int", "Unsigned", "Bits"])
        takes, gives = Number(name, self.chance.one_of([31, 33, 40, 63])), Number(name, 64)
        shape.functions.append(Function(self.name("f"), gives.text(), gives, (takes,)))
        return f"{gives.text()} {shape.functions[-1].name}({takes.text()} p0x) {{ return p0x; }}"

    def parameter(self) -> Number:
        """A type of a parameter."""
        name = self.chance.one_of(BUILT_IN)
        return Number(name, 1 if name == "Bool" else self.chance.one_of([2, 3, 8, 32, 33, 33, 40, 63, 64]))

    def written(self, shape: Shape, it: Function) -> str:
        """The text of a function with a drawn body."""
        scope = Scope()
        names = [f"p{number}x" for number in range(len(it.takes))]
        scope.numbers += zip(names, it.takes)
        bodies = Bodies(self.chance, shape, self.elements, self.risk, it)
        head = f"{'virtual ' if it.virtual else ''}{it.result} {it.name}"
        params = ", ".join(f"{of.text()} {name}" for name, of in zip(names, it.takes))
        front = self.recursion(it, names)
        return f"{head}({params}) {{ {front}{bodies.body(scope, self.chance.between(0, 3))} }}"

    def recursion(self, it: Function, names: list[str]) -> str:
        """At times a call of the function itself, as deep as an argument says."""
        if not it.takes or it.takes[0].name != "Unsigned" or not it.gives or not self.chance.happens(0.4):
            return ""
        most = self.chance.one_of([3, 9, 15, 16, 17]) if self.chance.happens(self.risk * 4) else 3
        args = ", ".join([f"{names[0]} - 1", *names[1:]])
        return f"if ({names[0]} > {most}) {names[0]} = {most}; if ({names[0]} > 0) return {it.name}({args}); "

    def overrides(self, shape: Shape, base: Optional[Shape]) -> list[str]:
        """Other bodies for some virtual functions of a base."""
        found = [it for it in (base.functions if base else []) if it.virtual and self.chance.happens(0.6)]
        return [self.written(shape, Function(it.name, it.result, it.gives, self.taken(it), self.chance.happens(0.3))) for it in found]

    def taken(self, it: Function) -> tuple[Number, ...]:
        """The parameters of an override, which are those of what it overrides, unless a rule is to be broken."""
        if not self.chance.slipped(9):
            return it.takes
        return self.chance.one_of([it.takes[:-1], (*it.takes, self.parameter()), tuple(self.parameter() for _ in it.takes)])

    def element_head(self) -> tuple[Shape, list[str], Optional[Shape]]:
        """An element with its members, before any body."""
        shape = Shape(self.name("E"), False)
        base = self.chance.one_of(self.quarks) if self.quarks and self.chance.happens(0.4) else None
        lines = self.heritage(shape, base)
        room = self.chance.one_of([STATE_BITS, STATE_BITS, 64, 33, 32, 40]) - shape.bits
        lines += self.members(shape, max(room, 0))
        self.elements.append(shape)
        return shape, lines, base

    def element(self, shape: Shape, lines: list[str], base: Optional[Shape]) -> str:
        """An element with its functions."""
        overridden = self.overrides(shape, base)
        own = [self.function(shape) for _ in range(self.chance.between(0, 3))]
        bodies = Bodies(self.chance, shape, self.elements, self.risk, Function("behave", "Void", None, ()))
        body = bodies.body(Scope(), self.chance.between(2, 7))
        return self.closed(shape, base, [*lines, *overridden, *own, f"Void behave() {{ {body} }}"])

    def closed(self, shape: Shape, base: Optional[Shape], lines: list[str]) -> str:
        """The text of a class."""
        head = f"{'quark' if shape.is_quark else 'element'} {shape.name}{f' : {base.name}' if base else ''}"
        return "\n".join([f"{head} {{", *(f"  {line}" for line in lines), "}", ""])


def element_files(chance: Chance) -> tuple[list[str], list[str]]:
    """The texts of some element files, and the names of their elements."""
    classes = Classes(chance)
    texts = classes.draw()
    names = [it.name for it in classes.elements]
    texts[0] = chance.one_of(["", "", "ulam 5;\n", "// drawn\n", "use EventWindow;\n"]) + texts[0]
    cut = chance.below(len(texts)) if chance.happens(0.3) else 0
    return ["".join(part) for part in (texts[:cut], texts[cut:]) if part], names
