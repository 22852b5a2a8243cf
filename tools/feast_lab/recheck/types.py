"""Types of statements and functions (docs/types.md, "Types"). Refused with 50 to 56."""
from __future__ import annotations

from typing import Optional

from . import trees

from .trees import BOOL, VOID, NumberType, Type
from .typing_rules import Typer, is_assignable, is_element, is_plain, pair_type, path_type, refuse


def check_types(classes: list[trees.Class]) -> None:
    """Gives all expressions their types, in the order of the text."""
    for it in classes:
        for function in it.functions():
            FunctionTyper(it, function).check()


def is_local_type(type: Type) -> bool:
    """Whether a local may have a type."""
    return isinstance(type, NumberType) or type is trees.ATOM or is_element(type)


class FunctionTyper(Typer):
    """Checks one function of a class."""

    def __init__(self, of: trees.Class, function: trees.Function) -> None:
        super().__init__(of)
        self.function = function
        self.loops = 0

    def check(self) -> None:
        """Its result, its parameters, its body, and whether its end can be reached."""
        result = self.function.of
        if result.type is not VOID and not is_local_type(result.type):
            refuse(50, result.word.at)
        for of, _ in self.function.params:
            if not is_local_type(of.type):
                refuse(50, of.word.at)
        self.statement(self.function.body)
        if result.type is not VOID and can_be_passed(self.function.body):
            refuse(56, self.function.word.at)

    def statement(self, it: Optional[trees.Statement]) -> None:
        """Checks a statement."""
        if isinstance(it, trees.Block):
            for part in it.body:
                self.statement(part)
        elif isinstance(it, trees.If):
            self.condition(it.condition)
            self.statement(it.yes)
            self.statement(it.no)
        elif isinstance(it, trees.Loop):
            self.loop(it)
        elif isinstance(it, trees.Return):
            self.returns(it)
        elif isinstance(it, trees.Jump):
            if not self.loops:
                refuse(55, it.at)
        elif isinstance(it, trees.Declare):
            self.declare(it)
        elif isinstance(it, trees.Assign):
            self.assign(it)
        elif isinstance(it, trees.Do):
            self.call(it.call)

    def condition(self, it: trees.Expr) -> None:
        """A condition is a truth value, or asks for the type of a local."""
        if isinstance(it, trees.As):
            local = it.path.steps[0]
            if not isinstance(local, trees.Local) or local.of.type is not trees.ATOM:
                refuse(54, it.at)
            if not is_element(it.of.type):
                refuse(54, it.of.word.at)
        elif self.value(it) != BOOL:
            refuse(50, it.at)

    def loop(self, it: trees.Loop) -> None:
        """Checks a loop, its body last."""
        self.statement(it.first)
        if it.condition is not None:
            self.condition(it.condition)
        self.statement(it.step)
        self.loops += 1
        self.statement(it.body)
        self.loops -= 1

    def returns(self, it: trees.Return) -> None:
        """A `return` has a value exactly if the function has a result; the value is checked first."""
        result = self.function.of.type
        type = VOID if it.value is None else self.value(it.value, result)
        if (it.value is None) != (result is VOID):
            refuse(50, it.at)
        if it.value is not None and not is_assignable(type, result):
            refuse(52, it.at)

    def declare(self, it: trees.Declare) -> None:
        """A local has a type that locals have, and a value that it can be given."""
        if not is_local_type(it.of.type):
            refuse(50, it.of.word.at)
        if it.value is not None and not is_assignable(self.value(it.value, it.of.type), it.of.type):
            refuse(52, it.word.at)

    def assign(self, it: trees.Assign) -> None:
        """The left side first; what is wrong with the operator before `=` is told there too."""
        left = self.left(it.left)
        value = self.value(it.value, left)
        if it.sign:
            value = pair_type(it.sign, left, value, is_plain(it.value), it.left.at)
        if not is_assignable(value, left):
            refuse(52, it.left.at)

    def left(self, it: trees.Expr) -> Type:
        """The type of a left side."""
        if isinstance(it, trees.Index):
            return self.value(it)
        assert isinstance(it, trees.Path)
        type = None if isinstance(it.steps[-1], trees.Constant) else path_type(it)
        it.type = type or refuse(52, it.at)
        return it.type


def can_be_passed(it: Optional[trees.Statement]) -> bool:
    """Whether the end of a statement counts as one that can be reached."""
    if isinstance(it, trees.Block):
        return all(can_be_passed(part) for part in it.body)
    if isinstance(it, trees.If) and it.no is not None:
        return can_be_passed(it.yes) or can_be_passed(it.no)
    return not isinstance(it, (trees.Return, trees.Jump))
