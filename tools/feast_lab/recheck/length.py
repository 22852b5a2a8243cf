"""How many instructions an element's code has (docs/types.md, "Length"). Refused with 60."""
from __future__ import annotations

from typing import Iterator, Union

from . import trees
from .faults import Refused
from .limits import MOST_INSTRS
from .trees import VOID, NumberType, Type

PAIRS = {"&&": 3, "||": 4}
Node = Union[trees.Expr, trees.Statement]
NODES = (trees.Expr, trees.Block, trees.If, trees.Loop, trees.Return, trees.Jump, trees.Declare, trees.Assign, trees.Do)


def check_lengths(elements: list[trees.Class]) -> None:
    """Refuses the first element whose code is too long."""
    for it in elements:
        if length_of(it) > MOST_INSTRS:
            raise Refused(60, it.word.at)


def length_of(element: trees.Class) -> int:
    """The instructions of an element, with all functions that it calls, each once for each first bit."""
    lengths: dict[trees.Function, Length] = {}
    to_do = [(next(f for f in element.functions() if f.word.text == "behave"), 0)]
    for function, first in to_do:
        length = lengths.get(function) or lengths.setdefault(function, Length(function))
        called = [(callee, first + bits) for callee, bits in length.calls]
        to_do += [call for call in dict.fromkeys(called) if call not in to_do]
    return sum(lengths[function].total for function, _ in to_do)


def fit(type: Type) -> int:
    """A cast to the type of what is stored, passed or returned."""
    return 1 if isinstance(type, NumberType) else 0


def parts_of(it: Node) -> Iterator[Node]:
    """The expressions and statements that a node is made of."""
    for part in vars(it).values():
        if isinstance(part, list):
            yield from (each for each in part if isinstance(each, NODES))
        elif isinstance(part, NODES):
            yield part


class Length:
    """The instructions of a function, and what it calls: functions, with the bits by which their first bit is greater."""

    def __init__(self, function: trees.Function) -> None:
        self.calls: list[tuple[trees.Function, int]] = []
        self.result = function.of.type
        self.total = self.size(function.body) + (1 if self.result is VOID else 2)

    def size(self, it: Node) -> int:
        """The instructions of a statement or an expression."""
        if isinstance(it, trees.Call):
            return self.call(it)
        if isinstance(it, trees.Index):
            return self.size(it.index) + 1
        if isinstance(it, trees.Assign):
            return self.assign(it)
        return self.own(it) + sum(map(self.size, parts_of(it)))

    def own(self, it: Node) -> int:
        """The instructions of a node beside those of its parts."""
        if isinstance(it, (trees.Block, trees.Group)):
            return 0
        if isinstance(it, trees.Pair):
            return PAIRS.get(it.sign, 1)
        if isinstance(it, trees.If):
            return 1 if it.no is None else 2
        if isinstance(it, trees.Loop):
            return 2 if it.condition is None else 3
        if isinstance(it, trees.Return):
            return 1 if it.value is None else 1 + fit(self.result)
        if isinstance(it, trees.Declare):
            return 2 if it.value is None else 1 + fit(it.of.type)
        if isinstance(it, trees.Do):
            return 0 if it.call.type is VOID else 1
        return 1

    def call(self, it: trees.Call) -> int:
        """A call, whose function is noted."""
        last = it.path.steps[-1]
        params: list[trees.TypeRef] = []
        if isinstance(last, trees.Function):
            params = [of for of, _ in last.params]
            self.calls.append((last, sum(step.first for step in it.path.steps if isinstance(step, trees.Field))))
        return 1 + sum(map(self.size, it.args)) + sum(fit(of.type) for of in params)

    def assign(self, it: trees.Assign) -> int:
        """An assignment, with the operator before its `=`."""
        value = self.size(it.value)
        if isinstance(it.left, trees.Index):
            return self.size(it.left.index) + value + (4 if it.sign else 1)
        is_local = isinstance(it.left.steps[-1], (trees.Local, trees.Seen))
        return value + (3 if it.sign else 1) + (fit(it.left.type) if is_local else 0)
