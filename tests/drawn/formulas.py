"""Drawn expressions of a wanted kind. Each is a text with how strongly it binds, so brackets come only where they have to,
and at times where they needn't."""
from __future__ import annotations

from dataclasses import dataclass, field
from typing import Callable, Optional, Sequence

from chance import Chance
from shapes import Function, Member, Number, Shape

# How strongly the operators bind (docs/language.md, "Grammar"), and operands.
OPERAND = 12
LEVELS = {
    "||": 1, "&&": 2, "|": 3, "^": 4, "&": 5, "==": 6, "!=": 6, "<": 7, "<=": 7, ">": 7, ">=": 7, "<<": 9, ">>": 9,
    "+": 10, "-": 10, "*": 11, "/": 11, "%": 11,
}
IS_LEVEL = 8
SITES = 41


@dataclass(frozen=True)
class Formula:
    """The text of an expression, how strongly it binds, and whether it is a number without `u`."""

    text: str
    level: int = OPERAND
    plain: bool = False

    def at_least(self, level: int) -> str:
        """The text, in brackets if it binds less than that."""
        return self.text if self.level >= level else f"({self.text})"


@dataclass
class Scope:
    """What a body can name beside its class: locals that are numbers, atoms, and atoms of an element."""

    numbers: list[tuple[str, Number]] = field(default_factory=list)
    atoms: list[str] = field(default_factory=list)
    acting: list[tuple[str, Shape]] = field(default_factory=list)
    fixed: list[tuple[str, Number]] = field(default_factory=list)

    def inner(self) -> Scope:
        """A scope inside this one."""
        return Scope(list(self.numbers), list(self.atoms), list(self.acting), list(self.fixed))


class Formulas:
    """Draws expressions in a class. `risk` is the share of choices that may make an event fail."""

    def __init__(self, chance: Chance, of: Shape, elements: Sequence[Shape], risk: float) -> None:
        self.chance = chance
        self.of = of
        self.elements = elements
        self.risk = risk
        self.callable: list[Function] = of.calls()

    def of_family(self, family: str, scope: Scope, depth: int, may_be_plain: bool = False) -> Formula:
        """A number of a class of types; a number without `u` only where its context gives it the class."""
        if self.chance.slipped():
            return Formula(self.misfit(scope, depth))
        if depth <= 0 or self.chance.happens(0.2):
            return self.leaf(family, scope, may_be_plain)
        if family == "Bool":
            return self.truth(scope, depth)
        choices: list[Callable[[str, Scope, int], Formula]] = [self.cast, self.called, self.calculated]
        choices += [self.calculated] * 3 if family != "Bits" else [self.masked] * 4
        drawn = self.chance.one_of(choices)(family, scope, depth - 1)
        return Formula(f"({drawn.text})", plain=drawn.plain) if self.chance.happens(0.1) else drawn

    def misfit(self, scope: Scope, depth: int) -> str:
        """What seldom fits: a number of any class, an atom, or a name or a call that gives no value."""
        drawn = self.chance.below(10)
        if drawn < 5:
            return self.leaf(self.any_family(), scope, self.chance.happens(0.5)).text
        if drawn < 7:
            return self.atom(scope).text
        if drawn < 8 and self.callable:
            call = self.call(self.chance.one_of(self.callable), scope, depth)
            return self.chance.one_of([call, call[:-1] + ", 1)", call.split("(")[0], call.split("(")[0] + "()"])
        return self.chance.one_of([self.any_name(scope), f"{self.of.name}.instanceof", "2147483648", "nobody(1)"])

    def any_name(self, scope: Scope) -> str:
        """A name of anything that a body can name, or of nothing."""
        members = [it.name for it in self.of.members + self.of.constants] + [name for name, _ in self.of.parts]
        locals = [name for name, _ in scope.numbers + scope.acting + scope.fixed] + scope.atoms
        other = ["self", "nobody", self.of.window or "self", self.of.draws or "self"]
        return self.chance.one_of([self.chance.one_of(names) for names in (members, locals, other) if names])

    def leaf(self, family: str, scope: Scope, may_be_plain: bool) -> Formula:
        """A name or a number."""
        if family == "Bool" and self.chance.happens(0.2):
            return Formula(self.chance.one_of(["true", "false"]))
        if self.chance.happens(0.75):
            named = self.named(family, scope)
            if named:
                return Formula(named)
        return self.literal(family, may_be_plain)

    def named(self, family: str, scope: Scope) -> Optional[str]:
        """A name of a number, or an item of an array."""
        found = [name for name, of in scope.numbers + scope.fixed if of.family() == family]
        items = [(it.name, it) for it in self.of.numbers()] * (2 if found else 1)
        items += [(f"{name}.{it.name}", it) for name, shape in scope.acting for it in shape.numbers()]
        items = [(name, it) for name, it in items if it.of.family() == family]
        if items and (not found or self.chance.happens(0.65)):
            name, it = self.chance.one_of(items)
            return f"{name}[{self.item(it, scope)}]" if it.length else self.with_self(name, scope)
        constants = [it.name for it in self.of.constants if it.of.family() == family]
        found += constants
        return self.chance.one_of(found) if found else None

    def with_self(self, name: str, scope: Scope) -> str:
        """The path of a member, at times by way of `self`."""
        is_own = name.split(".")[0] not in [it for it, _ in scope.acting]
        return f"self.{name}" if is_own and self.chance.happens(0.1) else name

    def literal(self, family: str, may_be_plain: bool) -> Formula:
        """A number as it is written."""
        if self.chance.happens(0.06):
            return Formula(f"({self.large(family)})")
        value = self.chance.near_end(self.chance.one_of([2, 3, 4, 6, 8, 16, 31]))
        if family == "Bool":
            return Formula(f"(Bool) {'- ' if value % 2 else ''}{value}")
        if family == "Int":
            return Formula(self.digits(value), plain=True)
        if may_be_plain and self.chance.happens(0.6):
            return Formula(self.digits(value * 2 if self.chance.happens(0.1) else value), plain=True)
        if family == "Unsigned":
            return Formula(self.digits(self.chance.near_end(32) if self.chance.happens(0.3) else value) + "u")
        return Formula(f"({self.width('Bits').text()}) {self.digits(value)}")

    def digits(self, value: int) -> str:
        """A number in one of three bases, with small letters as digits or with large ones."""
        form = self.chance.one_of(["d", "d", "d", "x", "X", "b"])
        return {"d": "", "b": "0b"}.get(form, "0x") + format(value, form)

    def large(self, family: str) -> str:
        """A number of more than 32 bits, or one at the end of 32."""
        if family == "Int" and self.chance.happens(0.3):
            return self.chance.one_of(["- 2147483647 - 1", "- (- 2147483647 - 1)"])
        if family == "Unsigned" and self.chance.happens(0.5):
            bound = "(Unsigned(64)) 4294967295u * 4294967295u"
            made = f"{self.of.draws}.create({bound})" if self.of.draws and self.chance.happens(0.7) else "4294967295u * 3u"
            return f"{made} / {self.chance.one_of([3, 5, 7, 4294967295])}u"
        most = {"Int": "2147483647", "Unsigned": "4294967295u"}.get(family)
        if most is None:
            return f"~(Bits(64)) {self.digits(self.chance.near_end(31))}" if family == "Bits" else "true"
        right = self.chance.one_of([most, most, "- " + most if family == "Int" else most, "1000" if family == "Int" else "1000u"])
        return f"({family}({self.chance.one_of([33, 63, 64])})) {most} * {right}"

    def width(self, family: str) -> Number:
        """A type of a class, most often with a width near an end."""
        name = "Unary" if family == "Unsigned" and self.chance.happens(0.15) else family
        if name == "Bool":
            return Number("Bool", 1)
        least = 2 if name == "Int" else 1
        widths = [least, least + 1, 4, 8, 31, 32, 33, 63, 64, self.chance.between(least, 64)]
        return Number(name, self.chance.one_of(widths))

    def cast(self, family: str, scope: Scope, depth: int) -> Formula:
        """`(T) e`, of a number of any class."""
        of = self.width(family)
        written = of.name if of.width == (8 if of.name == "Bits" else 32) and self.chance.happens(0.5) else of.text()
        inner = self.of_family(self.any_family(), scope, depth)
        return Formula(f"({written}) {inner.at_least(OPERAND)}")

    def any_family(self) -> str:
        """A class of types."""
        return self.chance.one_of(["Int", "Unsigned", "Bits", "Int", "Unsigned", "Bool"])

    def called(self, family: str, scope: Scope, depth: int) -> Formula:
        """A call that gives a number of a class."""
        found = [it for it in self.callable if it.gives and it.gives.family() == family]
        if family == "Unsigned" and self.of.draws and self.chance.happens(0.4 if found else 1):
            return Formula(f"{self.of.draws}.create({self.bound(scope, depth)})")
        return Formula(self.call(self.chance.one_of(found), scope, depth)) if found else self.leaf(family, scope, False)

    def call(self, it: Function, scope: Scope, depth: int) -> str:
        """A call with drawn arguments."""
        args = [
            self.large(of.family()) if of.width > 32 and self.chance.happens(0.3)
            else self.of_family(of.family(), scope, min(depth, 1), True).text
            for of in it.takes
        ]
        return f"{it.name}({', '.join(args)})"

    def bound(self, scope: Scope, depth: int) -> str:
        """The bound of a random number."""
        if self.chance.happens(self.risk):
            return self.chance.one_of(["0", self.of_family("Unsigned", scope, depth, True).text])
        drawn = self.chance.one_of([1, 2, 3, 4, 7, 41, 256, (1 << 31) - 1, 1 << 31, (1 << 32) - 1])
        if self.chance.slipped(3):
            return self.leaf(self.chance.one_of(["Int", "Int", "Bits", "Bool"]), scope, False).text
        if self.chance.happens(0.3):
            return f"(Unsigned(64)) {self.chance.one_of([1, 2, 9, 4294967295])}u * {drawn}u"
        return f"{drawn}u" if drawn >> 31 or self.chance.happens(0.3) else str(drawn)

    def calculated(self, family: str, scope: Scope, depth: int) -> Formula:
        """A sum and its like; of Bits a shift or a complement."""
        if family == "Bits":
            return self.masked(family, scope, depth)
        if family == "Int" and self.chance.happens(0.15):
            return Formula(f"- {self.of_family('Int', scope, depth).at_least(OPERAND)}")
        sign = self.chance.one_of("+ - * + - * / %".split())
        if sign in "/%" and not self.chance.happens(self.risk):
            divisor = str(self.chance.one_of([1, 2, 3, 5, 7, 100, (1 << 31) - 1]))
            right = Formula(f"- {divisor}" if family == "Int" and self.chance.happens(0.3) else divisor)
            left = self.of_family(family, scope, depth)
        else:
            left, right = self.two(family, scope, depth)
        return self.joined(sign, left, right)

    def two(self, family: str, scope: Scope, depth: int) -> tuple[Formula, Formula]:
        """Two operands of one class, of which at most one is a number without `u`."""
        first = self.of_family(family, scope, depth)
        other = self.of_family(family, scope, depth - self.chance.below(2), not first.plain)
        return (first, other) if self.chance.happens(0.6) else (other, first)

    def joined(self, sign: str, left: Formula, right: Formula) -> Formula:
        """Two operands by an operator, which groups from the left."""
        level = LEVELS[sign]
        return Formula(f"{left.at_least(level)} {sign} {right.at_least(level + 1)}", level)

    def masked(self, _: str, scope: Scope, depth: int) -> Formula:
        """An expression of Bits."""
        if self.chance.happens(0.12):
            return self.widths_apart(scope)
        sign = self.chance.one_of("& | ^ << >> << ~".split())
        if sign == "~":
            return Formula(f"~{self.of_family('Bits', scope, depth).at_least(OPERAND)}")
        if sign in ("<<", ">>"):
            left = self.of_family("Bits", scope, depth)
            amount = self.chance.one_of([0, 1, 1, 2, 2, 3, 7, 8, 31, 32, 62, 63, 63, 64, 65])
            if amount >= 62 and self.chance.happens(0.5):
                left = Formula(f"({self.large('Bits')})")
            right = Formula(str(amount)) if self.chance.happens(0.6) else self.of_family("Unsigned", scope, depth, True)
            return self.joined(sign, left, right)
        left, right = self.two("Bits", scope, depth)
        return self.joined(sign, left, right)

    def widths_apart(self, scope: Scope) -> Formula:
        """Bits of two widths, or bits that are moved beyond their width, with what shows the width of the result."""
        narrow = Formula(f"(Bits({self.chance.one_of([1, 2, 3, 8, 9, 31, 32])})) {self.leaf('Bits', scope, False).at_least(OPERAND)}")
        if self.chance.happens(0.5):
            amounts = [self.chance.one_of([1, 2, 5, 8, 31, 40]) for _ in "12"]
            return Formula(f"({narrow.text} << {amounts[0]}) >> {min(amounts)}", LEVELS[">>"])
        both = [narrow.text, f"({self.large('Bits')})"]
        sides = both if self.chance.happens(0.6) else both[::-1]
        return Formula(f"~({sides[0]} {self.chance.one_of(['&', '|', '^'])} {sides[1]})")

    def truth(self, scope: Scope, depth: int) -> Formula:
        """A condition that is more than a name."""
        depth -= 1
        drawn = self.chance.below(10)
        if drawn < 4:
            sign = self.chance.one_of("< <= > >= == !=".split())
            return self.joined(sign, *self.two(self.chance.one_of(["Int", "Unsigned"]), scope, depth))
        if drawn < 5:
            return self.joined(self.chance.one_of(["==", "!="]), *self.two(self.chance.one_of(["Bits", "Bits", "Bool"]), scope, depth))
        if drawn < 7:
            left, right = (self.of_family("Bool", scope, depth) for _ in "12")
            return self.joined(self.chance.one_of(["&&", "||"]), left, right)
        if drawn < 8:
            return Formula(f"!{self.of_family('Bool', scope, depth).at_least(OPERAND)}")
        return self.asked(scope, depth)

    def asked(self, scope: Scope, depth: int) -> Formula:
        """What a window, random numbers or the type of an atom say."""
        if self.of.draws and self.chance.happens(0.3):
            return Formula(f"{self.of.draws}.oneIn({self.bound(scope, depth)})")
        if self.of.window and self.chance.happens(0.4):
            return Formula(f"{self.of.window}.{self.chance.one_of(['isLive', 'isEmpty'])}({self.site(scope)})")
        atom = self.atom(scope).at_least(IS_LEVEL + 1)
        named = self.chance.one_of([it.name for it in self.elements] + ["Empty"])
        return Formula(f"{atom} is {named}", IS_LEVEL)

    def atom(self, scope: Scope) -> Formula:
        """An atom, or an atom of an element."""
        choices = scope.atoms + [f"{self.chance.one_of([it.name for it in self.elements] + ['Empty'])}.instanceof"]
        choices += [name for name, _ in scope.acting] + ([] if self.of.is_quark else ["self"])
        choices += [self.call(it, scope, 0) for it in self.callable if it.result == "Atom"]
        if self.of.window and self.chance.happens(0.5):
            return Formula(f"{self.of.window}[{self.site(scope)}]")
        return Formula(self.chance.one_of(choices))

    def site(self, scope: Scope) -> str:
        """The number of a site, which at a risk is none."""
        if self.chance.happens(self.risk):
            odd = self.of_family(self.chance.one_of(["Int", "Unsigned"]), scope, 1).text
            return self.chance.one_of(["41", "40", "- 1", "4294967295u", odd, odd])
        if self.chance.happens(0.3):
            return f"({self.of_family('Unsigned', scope, 1).text}) % {self.chance.one_of([5, 13, 25, SITES])}"
        return str(self.chance.one_of([0, 1, 2, 3, 4, 12, 24, 37, 40, self.chance.below(SITES), self.chance.below(SITES)]))

    def item(self, it: Member, scope: Scope) -> str:
        """The number of an item of an array, which at a risk is none."""
        if self.chance.happens(self.risk):
            odd = self.of_family(self.chance.one_of(["Int", "Unsigned"]), scope, 1).text
            return self.chance.one_of([str(it.length), "- 1", str(it.length - 1), odd])
        if self.chance.happens(0.5):
            return f"({self.of_family('Unsigned', scope, 1).text}) % {it.length}"
        return str(self.chance.below(it.length))
