"""Types of expressions (docs/types.md, "Types"). Each expression is given its type. Refused with 50 to 54."""
from __future__ import annotations

from typing import NoReturn, Optional

from . import trees
from .faults import Refused, Spot
from .trees import BOOL, VOID, NumberType, Type

WIDE, NARROW = 64, 32
MOST_PLAIN_INT = 2**31 - 1
ARITHMETIC = ("+", "-", "*", "/", "%")
ORDERS = ("<", "<=", ">", ">=")
EQUALITIES = ("==", "!=")
MASKS = ("&", "|", "^")
SHIFTS = ("<<", ">>")
# The calls of a window and of random numbers, with how many arguments they take.
ARGUMENTS = {"swap": 2, "isLive": 1, "isEmpty": 1, "create": 1, "oneIn": 1}


def is_plain(it: trees.Expr) -> bool:
    """Whether an expression is a number without `u`, in brackets or not."""
    while isinstance(it, trees.Group):
        it = it.inner
    return isinstance(it, trees.Number) and it.plain


def family(type: Optional[Type]) -> str:
    """The class of a type of numbers; nothing for any other type."""
    return type.family() if isinstance(type, NumberType) else ""


def is_atom(type: Type) -> bool:
    """Whether values of a type are atoms."""
    return type is trees.ATOM or is_element(type)


def is_element(type: Type) -> bool:
    """Whether a type is an element."""
    return isinstance(type, trees.Class) and not type.is_quark


def is_assignable(value: Type, to: Type) -> bool:
    """Whether a value of a type can be assigned to another."""
    if isinstance(to, NumberType):
        return family(value) == to.family()
    return is_atom(value) if to is trees.ATOM else value is to and is_element(to)


def wider(*types: Type) -> int:
    """The width of a calculation."""
    return WIDE if any(isinstance(it, NumberType) and it.width > NARROW for it in types) else NARROW


def path_type(path: trees.Path) -> Optional[Type]:
    """The type of what a path names, if it can be a value."""
    last = path.steps[-1]
    if isinstance(last, trees.Local):
        return last.of.type
    if isinstance(last, trees.Seen):
        return last.as_type
    if isinstance(last, trees.Field) and not last.length and isinstance(last.of.type, NumberType):
        return last.of.type
    return last.type() if isinstance(last, trees.Constant) else None


def begins_with_local(path: trees.Path) -> bool:
    """Whether a path goes through a local."""
    return isinstance(path.steps[0], (trees.Local, trees.Seen))


class Typer:
    """Gives types to expressions in a class."""

    def __init__(self, of: trees.Class) -> None:
        self.of = of

    def value(self, it: trees.Expr, beside: Optional[Type] = None) -> Type:
        """The type of an expression that is a value, beside another operand or for a target of some type."""
        it.type = self.type_of(it, beside)
        return it.type

    def type_of(self, it: trees.Expr, beside: Optional[Type]) -> Type:
        """The same, form by form."""
        if isinstance(it, trees.Number):
            return number_type(it, beside)
        if isinstance(it, trees.Truth):
            return BOOL
        if isinstance(it, trees.Group):
            return self.value(it.inner, beside)
        if isinstance(it, trees.Path):
            return self.path(it)
        if isinstance(it, trees.Call):
            type = self.call(it)
            return type if type is not VOID else refuse(50, it.at)
        if isinstance(it, trees.Index):
            return self.index(it)
        if isinstance(it, trees.Instance):
            return instance_type(it)
        if isinstance(it, trees.Cast):
            return self.cast(it)
        if isinstance(it, trees.Prefix):
            return prefix_type(it, self.value(it.value))
        if isinstance(it, trees.Is):
            return self.is_test(it)
        assert isinstance(it, trees.Pair)
        return self.pair(it)

    def path(self, it: trees.Path) -> Type:
        """The type of a path as a value."""
        if isinstance(it.steps[-1], trees.Self) and not self.of.is_quark:
            return self.of
        return path_type(it) or refuse(50, it.at)

    def pair(self, it: trees.Pair) -> Type:
        """The type of an operator's result; a plain left operand waits for the right one."""
        if is_plain(it.left):
            right = self.value(it.right)
            left = self.value(it.left, None if is_plain(it.right) else right)
        else:
            left = self.value(it.left)
            right = self.value(it.right, left)
        return pair_type(it.sign, left, right, is_plain(it.right), it.at)

    def is_test(self, it: trees.Is) -> Type:
        """`e is T`"""
        if not is_atom(self.value(it.value)):
            refuse(50, it.at)
        if not is_element(it.of.type) and it.of.type is not trees.EMPTY:
            refuse(54, it.of.word.at)
        return BOOL

    def cast(self, it: trees.Cast) -> Type:
        """`(T) e`"""
        value = self.value(it.value)
        if not isinstance(it.of.type, NumberType) or not family(value):
            refuse(50, it.at)
        return it.of.type

    def number(self, it: trees.Expr, families: tuple[str, ...], at: Spot) -> Type:
        """The type of an index or a bound: a number of some classes, or a plain one."""
        type = self.value(it)
        if family(type) not in families and not is_plain(it):
            refuse(50, at)
        return type

    def index(self, it: trees.Index) -> Type:
        """`ew[i]`, or `a[i]` of an array."""
        last = it.path.steps[-1]
        is_window = isinstance(last, trees.Field) and last.of.type is trees.WINDOW
        if not is_window and not (isinstance(last, trees.Field) and last.length):
            refuse(50, it.at)
        self.number(it.index, ("Int", "Unsigned"), it.at)
        assert isinstance(last, trees.Field)
        return trees.ATOM if is_window else last.of.type

    def call(self, it: trees.Call) -> Type:
        """The type of a call, which may be `Void`."""
        last = it.path.steps[-1]
        if begins_with_local(it.path) or not isinstance(last, (str, trees.Function)):
            refuse(50, it.at)
        if isinstance(last, str):
            return self.built_in(it, last)
        if len(it.args) != len(last.params):
            refuse(53, it.at)
        for arg, (of, _) in zip(it.args, last.params):
            self.value(arg, of.type)
        if not all(is_assignable(arg.type, of.type) for arg, (of, _) in zip(it.args, last.params)):
            refuse(52, it.at)
        it.type = last.of.type
        return it.type

    def built_in(self, it: trees.Call, name: str) -> Type:
        """The type of a call of a window or of random numbers."""
        if len(it.args) != ARGUMENTS[name]:
            refuse(53, it.at)
        families = ("Unsigned",) if name in ("create", "oneIn") else ("Int", "Unsigned")
        types = [self.number(arg, families, it.at) for arg in it.args]
        it.type = VOID if name == "swap" else NumberType("Unsigned", wider(*types)) if name == "create" else BOOL
        return it.type


def refuse(code: int, spot: Spot) -> NoReturn:
    """Refuses an element file."""
    raise Refused(code, spot)


def number_type(it: trees.Number, beside: Optional[Type]) -> Type:
    """The type of a number as it is written."""
    if not it.plain:
        return NumberType("Unsigned", 32)
    if family(beside) in ("Unsigned", "Bits"):
        return NumberType(family(beside), 32)
    return NumberType("Int", 32) if it.value <= MOST_PLAIN_INT else refuse(50, it.at)


def instance_type(it: trees.Instance) -> Type:
    """The type of `T.instanceof`."""
    if it.of.type is trees.EMPTY:
        return trees.ATOM
    return it.of.type if is_element(it.of.type) else refuse(54, it.of.word.at)


def prefix_type(it: trees.Prefix, value: Type) -> Type:
    """The type of `-e`, `!e` and `~e`."""
    if it.sign == "-" and family(value) == "Int":
        return NumberType("Int", wider(value))
    if (it.sign, family(value)) in (("!", "Bool"), ("~", "Bits")):
        return value
    return refuse(50, it.at)


def pair_type(sign: str, left: Type, right: Type, is_right_plain: bool, at: Spot) -> Type:
    """The type of an operator's result."""
    both = family(left), family(right)
    is_number = both in (("Int", "Int"), ("Unsigned", "Unsigned"))
    is_mixed = set(both) == {"Int", "Unsigned"}
    if sign in ARITHMETIC:
        return NumberType(both[0], wider(left, right)) if is_number else refuse(51 if is_mixed else 50, at)
    if sign in ORDERS:
        return BOOL if is_number else refuse(51 if is_mixed else 50, at)
    if sign in EQUALITIES:
        return BOOL if both[0] and both[0] == both[1] else refuse(51 if is_mixed else 50, at)
    if sign in MASKS and both == ("Bits", "Bits"):
        assert isinstance(left, NumberType) and isinstance(right, NumberType)
        return NumberType("Bits", max(left.width, right.width))
    if sign in SHIFTS and both[0] == "Bits" and (both[1] == "Unsigned" or is_right_plain):
        return left
    return BOOL if sign in ("&&", "||") and both == ("Bool", "Bool") else refuse(50, at)
