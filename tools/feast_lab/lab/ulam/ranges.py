"""Between which numbers the value of an expression lies, whatever the atoms are."""
from collections import defaultdict
from collections.abc import Iterator
from dataclasses import dataclass, field

from ..base.limits import MOST_CALLS
from .numbers import EITHER, FALSE, TRUE, Range, cast_to, combined, joined, of_type
from .reader import Elements
from .trees import (
    As, Assign, Call, Cast, Class, Constant, Declare, Expr, Function, Group, If, Index, Local, Loop, Number, Pair, Path,
    Prefix, Return, Spot, Statement, Truth, local_of, own_exprs, parts, statements)


class Known:
    """What the files as a whole tell: the results of functions, and what is given for their parameters.

    A virtual function may be that of another class, and one that calls itself gives what it gives: of both only the
    types are known, and of what is more calls away than an event can nest. A function that heirs are given too is known
    by the place of its name.
    """

    def __init__(self, elements: Elements) -> None:
        self.elements = elements
        self.owners: dict[Spot, tuple[Class, Function]] = {}
        self.calls: dict[Spot, list[tuple[Call, Function]]] = defaultdict(list)
        self.all_ranges: dict[Spot, Ranges] = {}
        self.found: dict[Spot, Range | None] = {}
        self.depth = 0
        for class_, function in elements.all_functions():
            self.owners[function.word.at] = class_, function
            for part in (part for it in statements(function.body) for expr in own_exprs(it) for part in parts(expr)):
                if isinstance(part, Call) and isinstance(called := part.path.steps[-1], Function):
                    self.calls[called.word.at].append((part, function))

    def ranges(self, function: Function) -> "Ranges":
        """The ranges in a function."""
        at = function.word.at
        if at not in self.all_ranges:
            self.all_ranges[at] = Ranges.of(self, self.owners[at][1])
        return self.all_ranges[at]

    def result(self, called: Function) -> Range | None:
        """The range of a function's result."""
        class_, function = self.owners[called.word.at]
        at, type_ = function.word.at, function.of.type
        if self.is_open(class_, function):
            return of_type(type_)
        if at not in self.found:
            self.found[at] = of_type(type_)  # for a function that calls itself
            self.depth += 1
            ranges = self.ranges(function)
            values = [cast_to(type_, ranges.of_expr(it.value))
                      for it in statements(function.body) if isinstance(it, Return) and it.value is not None]
            self.found[at] = joined(values) or of_type(type_)
            self.depth -= 1
        return self.found[at]

    def is_open(self, class_: Class, function: Function) -> bool:
        """Whether of a function's calls and results the types alone are known."""
        return self.depth > MOST_CALLS or self.elements.line.is_virtual(function.word.text, class_)

    def parameter(self, function: Function, parameter: Local) -> Range | None:
        """The range of what the calls of the files give for a parameter."""
        class_, function = self.owners[function.word.at]
        at, type_ = parameter.word.at, parameter.of.type
        if self.is_open(class_, function):
            return of_type(type_)
        if at not in self.found:
            self.found[at] = of_type(type_)  # for a function that calls itself
            self.depth += 1
            values = [cast_to(type_, self.ranges(caller).of_expr(call.args[parameter.number]))
                      for call, caller in self.calls[function.word.at]]
            self.found[at] = joined(values) or of_type(type_)
            self.depth -= 1
        return self.found[at]


@dataclass
class Ranges:
    """The ranges in a function; a local that is assigned to after its declaration has those of its type."""

    known: Known
    function: Function
    assigned: set[Spot] = field(default_factory=set)
    declared: dict[Spot, Declare] = field(default_factory=dict)
    values: dict[Spot, Range | None] = field(default_factory=dict)

    @staticmethod
    def of(known: Known, function: Function) -> "Ranges":
        """What is known of a function's locals."""
        found = Ranges(known, function)
        for it in statements(function.body):
            if isinstance(it, Assign):
                local = local_of(it.left.path if isinstance(it.left, Index) else it.left)
                if local is not None:
                    found.assigned.add(local.word.at)
            if isinstance(it, Declare):
                found.declared[it.word.at] = it
        return found

    def of_expr(self, expr: Expr) -> Range | None:
        """Between which numbers a value lies; None if it is no number."""
        match expr:
            case Number():
                return expr.value, expr.value
            case Truth():
                return TRUE if expr.value else FALSE
            case As():
                return EITHER
            case Path():
                return self.of_path(expr)
            case Call():
                return self.of_call(expr)
            case Group():
                return self.of_expr(expr.inner)
            case Cast():
                return cast_to(expr.type, self.of_expr(expr.value))
            case Prefix():
                return self.of_prefix(expr)
            case Pair():
                return self.of_pair(expr)
        return of_type(expr.type)

    def of_path(self, path: Path) -> Range | None:
        """The range of a local, a constant or a member."""
        last = path.steps[-1]
        if isinstance(last, Constant):
            return last.value, last.value
        return (self.of_local(last) if isinstance(last, Local) else None) or of_type(path.type)

    def of_local(self, local: Local) -> Range | None:
        """The range of a local that keeps the value of its declaration, or of its call; None for any other."""
        at = local.word.at
        if at in self.assigned:
            return None
        if local.number < len(self.function.params):
            return self.known.parameter(self.function, local)
        value = self.declared[at].value
        if value is None:
            return FALSE if of_type(local.of.type) else None
        if at not in self.values:
            self.values[at] = cast_to(local.of.type, self.of_expr(value))
        return self.values[at]

    def of_call(self, call: Call) -> Range | None:
        """The range of a result."""
        called = call.path.steps[-1]
        if isinstance(called, Function):
            return self.known.result(called)
        if called == "create":
            below = self.of_expr(call.args[0])
            return (0, max(below[1] - 1, 0)) if below is not None else None
        return of_type(call.type)

    def of_prefix(self, expr: Prefix) -> Range | None:
        """The range of an operand with an operator before it."""
        inner = self.of_expr(expr.value)
        if inner is None or expr.sign == "~":
            return of_type(expr.type)
        found = (1 - inner[1], 1 - inner[0]) if expr.sign == "!" else (-inner[1], -inner[0])
        return cast_to(expr.type, found)

    def of_pair(self, expr: Pair) -> Range | None:
        """The range of two operands with an operator between them."""
        left, right = self.of_expr(expr.left), self.of_expr(expr.right)
        if left is None or right is None:
            return of_type(expr.type)
        return cast_to(expr.type, combined(expr.sign, left, right))


def reached(known: Known, function: Function) -> Iterator[Statement]:
    """The statements of a function but for those whose condition never holds."""
    ranges = known.ranges(function)
    never: set[Statement] = set()
    for it in statements(function.body):
        if isinstance(it, (If, Loop)) and it.condition is not None:
            holds = ranges.of_expr(it.condition)
            if holds == FALSE:
                never.update(statements(it.yes if isinstance(it, If) else it.body))
                never.update(statements(it.step if isinstance(it, Loop) else None))
            elif holds == TRUE and isinstance(it, If):
                never.update(statements(it.no))
        if it not in never:
            yield it


def reached_parts(expr: Expr, ranges: Ranges) -> Iterator[Expr]:
    """An expression and all that it is made of, but for what `&&` and `||` never come to."""
    never: set[Expr] = set()
    for part in parts(expr):
        if isinstance(part, Pair) and part.sign in ("&&", "||"):
            if ranges.of_expr(part.left) == (FALSE if part.sign == "&&" else TRUE):
                never.update(parts(part.right))
        if part not in never:
            yield part
