"""Python text of statements and functions (docs/meaning.md, "Functions" to "Conditions and loops")."""
from __future__ import annotations

from functools import partial
from typing import Optional

from . import trees
from .typing_rules import is_plain, pair_type
from .values import Bits, Expressions, Made, first_atom, local_name

# Python takes 20 loops inside one another; each further one of so many is put into a function of its own.
LOOPS_TOGETHER = 16
# A function of an element, at the first bit of what it works on.
Instance = tuple[int, trees.Function, int]


def python_text(elements: list[trees.Class], offsets: list[int], most_calls: int) -> tuple[str, dict[int, str]]:
    """A function for each function that an element calls in an event; and by the number of each element the name of that
    which is its `behave`."""
    names: dict[Instance, str] = {}
    to_do: list[Instance] = []

    def name_of(kind: int, function: trees.Function, first: int) -> str:
        instance = kind, function, first
        if instance not in names:
            names[instance] = f"f{len(names)}"
            to_do.append(instance)
        return names[instance]

    behave: dict[int, str] = {}
    for it in elements:
        behave[it.number] = name_of(it.number, next(f for f in it.functions() if f.word.text == "behave"), 0)
    lines: list[str] = []
    for instance in to_do:
        kind, function, first = instance
        maker = FunctionText(kind, first, offsets, partial(name_of, kind))
        lines += maker.lines_of(names[instance], function, most_calls)
    return "\n".join(lines) + "\n", behave


class FunctionText(Expressions):
    """Makes the text of one function, line by line. `result` is the type of its result; `steps` are what a `continue` does
    first in each loop around; `depth` is the indentation."""

    def lines_of(self, name: str, function: trees.Function, most_calls: int) -> list[str]:
        """The text of a function: a call takes a turn and tests the depth first."""
        self.lines: list[str] = []
        self.result = function.of.type
        self.steps: list[Optional[trees.Statement]] = []
        self.depth = 0
        self.outlined = 0
        params = [f"v{number}" for number in range(len(function.params))]
        self.others = ["r", *(f"v{it.number}" for it in function.locals[len(params) :])]
        self.params = params
        self.line(f"def {name}({', '.join(['p', 'd', *params])}):")
        self.depth = 1
        self.line("global turns")
        if most_calls:
            self.line(f"if d: turns -= 1; turns < 0 and fail(1); d > {most_calls} and fail(2)")
        self.top = len(self.lines)
        self.statement(function.body)
        return self.lines

    def line(self, text: str) -> None:
        """Adds a line."""
        self.lines.append("    " * self.depth + text)

    def statement(self, it: Optional[trees.Statement]) -> None:
        """Adds a statement."""
        if isinstance(it, trees.Block):
            for part in it.body:
                self.statement(part)
        elif isinstance(it, trees.If):
            self.inside(f"if {self.expr(it.condition).text}:", it.yes)
            if it.no is not None:
                self.inside("else:", it.no)
        elif isinstance(it, trees.Loop):
            self.loop(it)
        elif isinstance(it, trees.Return):
            self.returns(None if it.value is None else self.cast(self.expr(it.value), self.result).text)
        elif isinstance(it, trees.Jump):
            self.jump(it)
        elif isinstance(it, trees.Declare):
            self.declare(it)
        elif isinstance(it, trees.Assign):
            self.assign(it)
        elif isinstance(it, trees.Do):
            self.line(self.expr(it.call).text)

    def inside(self, head: str, it: trees.Statement) -> None:
        """Adds a statement below a head."""
        self.line(head)
        self.depth += 1
        self.line("pass")
        self.statement(it)
        self.depth -= 1

    def loop(self, it: trees.Loop) -> None:
        """Adds a loop: its condition, its body, its step, and a turn."""
        self.statement(it.first)
        is_apart = len(self.steps) % LOOPS_TOGETHER == LOOPS_TOGETHER - 1
        if is_apart:
            self.lines[self.top : self.top] = ["    " + " = ".join([*self.others, "0"])] if self.top else []
            self.top = 0
            self.line("def loop():")
            self.depth += 1
            self.outlined += 1
            self.line(f"nonlocal {', '.join([*self.params, *self.others])}")
            self.line("global turns")
        self.line(f"while {self.expr(it.condition).text if it.condition is not None else 'True'}:")
        self.depth += 1
        self.steps.append(it.step)
        self.statement(it.body)
        self.go_round()
        self.steps.pop()
        self.depth -= 1
        if is_apart:
            self.depth -= 1
            self.outlined -= 1
            self.line("if loop(): return True" if self.outlined else "if loop(): return r")

    def go_round(self) -> None:
        """Adds what stands between the body of a loop and its condition."""
        self.statement(self.steps[-1])
        self.line("turns -= 1; turns < 0 and fail(1)")

    def jump(self, it: trees.Jump) -> None:
        """Adds a `break` or a `continue`."""
        if it.is_break:
            return self.line("break")
        self.go_round()
        self.line("continue")

    def returns(self, value: Optional[str]) -> None:
        """Adds a `return`; out of a loop that stands apart it leads through the function's own."""
        if self.outlined:
            self.line(f"r = {value or 0}")
            value = "True"
        self.line(f"return {value or ''}".rstrip())

    def declare(self, it: trees.Declare) -> None:
        """Adds a declaration."""
        assert it.local is not None
        value = str(first_atom(it.of.type)) if it.value is None else self.cast(self.expr(it.value), it.of.type).text
        self.line(f"v{it.local.number} = {value}")

    # Assignments

    def assign(self, it: trees.Assign) -> None:
        """Adds an assignment."""
        last = it.left.steps[-1] if isinstance(it.left, trees.Path) else it.left.path.steps[-1]
        if isinstance(it.left, trees.Index):
            if isinstance(last, trees.Field) and last.length:
                return self.assign_item(it, it.left, last)
            i = self.expr(it.left.index)
            atom = self.expr(it.value).text
            return self.line(f"g[p] = {atom}" if self.site(i) == "p" else f"put(p, {i.text}, {atom})")
        value = self.assigned(it, self.path(it.left) if it.sign else None)
        if not isinstance(last, trees.Field):
            return self.line(f"{local_name(last)} = {value.text}")
        bits = self.bits(it.left)
        self.line(f"t = {value.text}")
        self.store(bits, bits.local or self.acting(), str(bits.shift()))

    def assigned(self, it: trees.Assign, before: Optional[Made]) -> Made:
        """What is stored, where the value before is read first if there is an operator."""
        value = self.expr(it.value)
        to = it.left.type
        if before is not None:
            value = self.operate(it.sign, before, value, calculation_type(it))
        return self.cast(value, to)

    def assign_item(self, it: trees.Assign, left: trees.Index, array: trees.Field) -> None:
        """Adds an assignment to an item: the index, the value, and then the tests."""
        bits = self.bits(left.path)
        i = self.temporary()
        self.line(f"{i} = {self.expr(left.index).text}")
        self.line(f"t = {self.assigned(it, self.item(bits, i, i, array.length) if it.sign else None).text}")
        self.store(bits, self.item_atom(bits, i, array.length), f"({bits.shift()} - {bits.type.width} * {i})")

    def store(self, bits: Bits, atom: str, shift: str) -> None:
        """Adds the lines that put t into bits of an atom; the empty atom isn't written."""
        new = f"(1 << t) - 1 << {shift}" if bits.type.kind == "Unary" else f"(t & {bits.ones()}) << {shift}"
        self.line(f"s = {atom}")
        if bits.local:
            self.line(f"if s: {bits.local} = s & ~({bits.ones()} << {shift}) | {new}")
        else:
            self.line(f"g[p] = s & ~({bits.ones()} << {shift}) | {new}")


def calculation_type(it: trees.Assign) -> trees.Type:
    """The type of the result of the operator before `=`, before it is stored."""
    return pair_type(it.sign, it.left.type, it.value.type, is_plain(it.value), it.left.at)
