"""Drawn bodies of functions: statements of each form."""
from __future__ import annotations

import itertools
from typing import Iterator, Optional, Sequence

from chance import Chance
from formulas import Formulas, Scope
from shapes import Function, Member, Number, Shape

SIGNS = {"Int": "+ - * / %", "Unsigned": "+ - * / %", "Bits": "& | ^ << >>", "Bool": ""}
# How deep statements nest.
DEPTH = 3


class Bodies:
    """Draws the statements of one function of a class."""

    def __init__(self, chance: Chance, of: Shape, elements: Sequence[Shape], risk: float, gives: Function) -> None:
        self.chance = chance
        self.of = of
        self.elements = elements
        self.risk = risk
        self.gives = gives
        self.formulas = Formulas(chance, of, elements, risk)
        self.names: Iterator[str] = (f"l{number}" for number in itertools.count())

    def number(self, family: str, scope: Scope, may_be_plain: bool = True) -> str:
        """An expression of a class of types."""
        return self.formulas.of_family(family, scope, self.chance.between(0, 3), may_be_plain).text

    def body(self, scope: Scope, count: int) -> str:
        """The statements of a function, without its braces."""
        parts = [self.statement(scope, DEPTH, False) for _ in range(count)]
        return " ".join([*parts, self.ending(scope)])

    def ending(self, scope: Scope) -> str:
        """The `return` at the end of a function that gives something."""
        if self.gives.result == "Void":
            return ""
        value = self.number(self.gives.gives.family(), scope) if self.gives.gives else self.formulas.atom(scope).text
        return f"return {value};" if not self.chance.slipped() else ""

    def statement(self, scope: Scope, depth: int, in_loop: bool) -> str:
        """A statement; a declaration adds to the scope."""
        if self.chance.slipped():
            return self.misfit(scope)
        drawn = self.chance.below(100)
        if drawn < 36:
            return self.assignment(scope) + ";"
        if drawn < 46:
            return self.declaration(scope) + ";"
        if drawn < 58 and depth:
            return self.branch(scope, depth, in_loop)
        if drawn < 66 and depth and self.elements:
            return self.as_branch(scope, depth, in_loop)
        if drawn < 74 and depth:
            return self.loop(scope, depth)
        if drawn < 77 and depth:
            return self.block(scope, depth, in_loop)
        if drawn < 80 and in_loop:
            condition = self.number("Bool", scope)
            return f"if ({condition}) {self.chance.one_of(['break', 'continue'])};"
        if drawn < 82:
            return f"if ({self.number('Bool', scope)}) {self.ending(scope) or 'return;'}"
        return self.deed(scope) + ";"

    def misfit(self, scope: Scope) -> str:
        """A statement that breaks a rule, in most places."""
        value, atom = self.formulas.misfit(scope, 1), self.formulas.atom(scope).text
        left = self.formulas.any_name(scope)
        name = next(self.names)
        of = self.chance.one_of(["Void", "Random", "Int(1)", "Bits(65)", "Unary(0)", "Bool(2)", "E1", "E9", "Q1", "Empty", "Int(31)"])
        if self.chance.happens(0.4):
            return f"{left} = {value};"
        return self.chance.one_of([
            "break;", "break;", "continue;", "continue;", "return;", f"return {value};", f"self = {atom};", f"{left}++;",
            f"{of} {name};", f"{of} {name} = {value};", f"Int {name}; Int {name};", f"if ({value}) ;", f"while ({value}) ;",
            f"{left}[{value}] = {value};", f"{left} {self.chance.one_of(['+=', '<<=', '&=', '/='])} {value};",
            f"if ({left} as {of}) ;", f"if ({(scope.atoms or ['self'])[-1]} as {of}) ;",
            f"{self.of.window or 'self'}.swap({value}, {value});", f"{self.of.draws or 'self'}.create({value});",
        ])

    def block(self, scope: Scope, depth: int, in_loop: bool) -> str:
        """A block with a scope of its own."""
        inner = scope.inner()
        parts = [self.statement(inner, depth - 1, in_loop) for _ in range(self.chance.between(0, 3))]
        return "{ " + " ".join(parts) + " }"

    def arm(self, scope: Scope, depth: int, in_loop: bool) -> str:
        """What a branch or a loop has: a block, or a statement without braces."""
        if self.chance.happens(0.6):
            return self.block(scope, depth, in_loop)
        return ";" if self.chance.happens(0.1) else self.statement(scope.inner(), depth - 1, in_loop)

    def branch(self, scope: Scope, depth: int, in_loop: bool) -> str:
        """`if`, with `else` or without."""
        yes = self.arm(scope, depth, in_loop)
        head = f"if ({self.number('Bool', scope)})"
        if self.chance.happens(0.5):
            return f"{head} {yes}"
        return f"{head} {{ {yes} }} else {self.arm(scope, depth, in_loop)}"

    def as_branch(self, scope: Scope, depth: int, in_loop: bool) -> str:
        """`if (x as T)` in a block that declares x before it."""
        name, shape = next(self.names), self.chance.one_of(self.elements)
        declared = f"Atom {name} = {self.formulas.atom(scope).text};"
        outer, inner = scope.inner(), scope.inner()
        outer.atoms.append(name)
        inner.acting.append((name, shape))
        parts = [declared, f"if ({name} as {shape.name}) {self.arm(inner, depth, in_loop)}"]
        if self.chance.happens(0.4):
            parts = [declared, f"if ({name} as {shape.name}) {self.block(inner, depth, in_loop)}"]
            parts.append(f"else {self.arm(outer, depth, in_loop)}")
        if self.of.window and self.chance.happens(0.6):
            parts.append(f"{self.of.window}[{self.place(outer)}] = {name};")
        return " ".join(["{", *parts, "}"])

    def again(self, scope: Scope) -> str:
        """A local without a value, which is counted and shown: what goes first in the body of a loop."""
        target = self.target(scope)
        if not target or target[1].family() not in ("Int", "Unsigned"):
            return ""
        name = next(self.names)
        return f"{target[1].family()} {name}; {name} += {self.chance.between(1, 9)}; {target[0]} = {name};"

    def loop(self, scope: Scope, depth: int) -> str:
        """A loop, most often with an end of its own."""
        name, inner = next(self.names), scope.inner()
        inner.fixed.append((name, Number("Unsigned", 32)))
        if self.chance.happens(self.risk):
            return f"while ({self.number('Bool', scope)}) {self.arm(scope, depth, True)}"
        rounds = self.chance.one_of([0, 1, 2, 3, 3, 4, 5, 9, 30])
        if self.chance.happens(self.risk):
            rounds = self.chance.one_of([999, 1000, 1001, 500, 333, 250])
        step = self.chance.one_of([f"{name}++", f"++{name}", f"{name} += 1", f"{name} = {name} + 1u"])
        if self.chance.happens(0.7):
            return f"for (Unsigned {name} = 0; {name} < {rounds}; {step}) {self.arm(inner, depth, True)}"
        front = self.again(inner) if self.chance.happens(0.5) else ""
        body = self.block(inner, depth, True)
        return f"{{ Unsigned {name}; while ({name} < {rounds}) {{ {step}; {front} {body} }} }}"

    def declaration(self, scope: Scope) -> str:
        """A local of any type, with a value or without."""
        name, drawn = next(self.names), self.chance.below(10)
        if drawn < 2:
            value = f" = {self.formulas.atom(scope).text}" if self.chance.happens(0.8) else ""
            scope.atoms.append(name)
            return f"Atom {name}{value}"
        if drawn < 3 and self.elements:
            shape = self.chance.one_of(self.elements)
            value = f" = {shape.name}.instanceof" if self.chance.happens(0.5) else ""
            value = " = self" if shape is self.of and self.chance.happens(0.7) else value
            scope.acting.append((name, shape))
            return f"{shape.name} {name}{value}"
        of = self.formulas.width(self.formulas.any_family())
        value = f" = {self.number(of.family(), scope)}" if self.chance.happens(0.7) else ""
        scope.numbers.append((name, of))
        return f"{of.text()} {name}{value}"

    def assignment(self, scope: Scope) -> str:
        """A number that is set, changed or counted; most often one of the class."""
        target = self.target(scope)
        if not target:
            return self.declaration(scope)
        place, of = target
        if of.family() in ("Int", "Unsigned") and self.chance.happens(0.12):
            return self.chance.one_of([f"{place}++", f"{place}--", f"++{place}", f"--{place}"])
        changing = [it for it in self.formulas.callable if it.changes and it.changes.name == place]
        if changing and self.chance.happens(0.5):
            return f"{place} {self.chance.one_of(['+=', '+=', '-=', '*='])} {self.formulas.call(self.chance.one_of(changing), scope, 1)}"
        signs = SIGNS[of.family()].split()
        if not signs or self.chance.happens(0.6):
            return f"{place} = {self.number(of.family(), scope)}"
        sign = self.chance.one_of(signs)
        giving = [it for it in self.formulas.callable if it.gives and it.gives.family() == of.family()]
        if giving and sign not in "/% << >>" and self.chance.happens(0.4):
            return f"{place} {sign}= {self.formulas.call(self.chance.one_of(giving), scope, 1)}"
        if of.width > 32 and sign in "+-*" and self.chance.happens(0.2):
            return f"{place} {sign}= {self.formulas.digits(self.chance.near_end(31))}"
        if sign in "/%" and not self.chance.happens(self.risk):
            return f"{place} {sign}= {self.chance.one_of([1, 2, 3, 7, 1000])}"
        if sign in ("<<", ">>"):
            amount = self.chance.one_of(["1", "7", "64", "3u", f"({self.number('Unsigned', scope, False)}) % 9"])
            return f"{place} {sign}= {amount}"
        return f"{place} {sign}= {self.number(of.family(), scope)}"

    def target(self, scope: Scope) -> Optional[tuple[str, Number]]:
        """What is assigned to, if there is anything."""
        own = self.of.numbers()
        others = [Member(f"{name}.{it.name}", it.of, it.length) for name, shape in scope.acting for it in shape.numbers()]
        named = [Member(name, of) for name, of in scope.numbers]
        choices = [group for group in (own, own, own, own, others, others, named) if group]
        if not choices:
            return None
        it = self.chance.one_of(self.chance.one_of(choices))
        if it.length:
            return f"{it.name}[{self.formulas.item(it, scope)}]", it.of
        return it.name, it.of

    def deed(self, scope: Scope) -> str:
        """A call, or what is done to the window."""
        if self.formulas.callable and self.chance.happens(0.4):
            return self.formulas.call(self.chance.one_of(self.formulas.callable), scope, 1)
        window = self.of.window
        if not window:
            return self.assignment(scope)
        drawn = self.chance.below(10)
        if drawn < 4:
            return f"{window}.swap({self.place(scope)}, {self.place(scope)})"
        if drawn < 9:
            return f"{window}[{self.place(scope)}] = {self.formulas.atom(scope).text}"
        return self.assignment(scope)

    def place(self, scope: Scope) -> str:
        """The number of a site to be written, which at a risk is that of the acting atom."""
        if self.chance.happens(self.risk):
            return self.formulas.site(scope)
        if self.chance.happens(0.03):
            return "0"
        if self.chance.happens(0.2) and self.of.draws:
            return f"{self.of.draws}.create({self.chance.one_of([1, 4, 12, 40])}) + 1"
        return str(self.chance.one_of([1, 2, 3, 4, 12, 24, 37, 40, self.chance.between(1, 40)]))
