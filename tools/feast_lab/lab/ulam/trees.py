"""The trees of element files, which are those of the second reader (tools/recheck), and ways through them."""
from collections.abc import Iterator, Sequence

from ...recheck.faults import Spot
from ...recheck.trees import (
    ATOM, BOOL, RANDOM, VOID, WINDOW, As, Assign, Block, Call, Cast, Class, Constant, Declare, Do, Expr, Field, Function, Group,
    If, Index, Instance, Is, Jump, Local, Loop, Member, Number, NumberType, Pair, Path, PlainType, Prefix, Return, Seen, Self,
    Statement, Step, Truth, Type, Typedef, TypeRef, Word)

__all__ = [
    "ATOM", "BOOL", "RANDOM", "VOID", "WINDOW", "As", "Assign", "Block", "Call", "Cast", "Class", "Constant", "Declare", "Do",
    "Expr", "Field", "Function", "Group", "If", "Index", "Instance", "Is", "Jump", "Local", "Loop", "Member", "Number",
    "NumberType", "Pair", "Path", "PlainType", "Prefix", "Return", "Seen", "Self", "Spot", "Statement", "Step", "Truth", "Type",
    "Typedef", "TypeRef", "Word", "bare", "begin", "first_name", "local_of", "own_exprs", "parts", "statements"]


def bare(expr: Expr) -> Expr:
    """An expression without the brackets around it."""
    while isinstance(expr, Group):
        expr = expr.inner
    return expr


def begin(expr: Expr) -> Spot:
    """The place of an expression's first token."""
    match expr:
        case Pair():
            return begin(expr.left)
        case Is():
            return begin(expr.value)
    return expr.at


def first_name(path: Path) -> str:
    """The first name of a path, which may be `self`."""
    return "self" if path.is_own else path.words[0].text


def local_of(path: Path) -> Local | None:
    """The local with which a path begins, if it begins with one."""
    step = path.steps[0] if path.steps else None
    step = step.what if isinstance(step, Seen) else step
    return step if isinstance(step, Local) else None


def inner(expr: Expr) -> Sequence[Expr]:
    """What an expression is made of, from left to right."""
    match expr:
        case Index():
            return expr.path, expr.index
        case Call():
            return expr.path, *expr.args
        case Group():
            return (expr.inner,)
        case Prefix() | Cast() | Is():
            return (expr.value,)
        case Pair():
            return expr.left, expr.right
    return ()


def parts(expr: Expr | None) -> Iterator[Expr]:
    """An expression and all that it is made of, from left to right, but for brackets."""
    if expr is None:
        return
    if not isinstance(expr, Group):
        yield expr
    for it in inner(expr):
        yield from parts(it)


def statements(statement: Statement | None) -> Iterator[Statement]:
    """A statement and all that stand in it, in the order of the text but for a loop's step, which comes last."""
    if statement is None:
        return
    yield statement
    match statement:
        case Block():
            for it in statement.body:
                yield from statements(it)
        case If():
            yield from statements(statement.yes)
            yield from statements(statement.no)
        case Loop():
            yield from statements(statement.first)
            yield from statements(statement.body)
            yield from statements(statement.step)


def own_exprs(statement: Statement) -> Iterator[Expr]:
    """The expressions of a statement itself, without those of statements in it; a place comes before its value."""
    found: tuple[Expr | None, ...] = ()
    match statement:
        case If() | Loop():
            found = (statement.condition,)
        case Return() | Declare():
            found = (statement.value,)
        case Assign():
            found = (statement.left, statement.value)
        case Do():
            found = (statement.call,)
    return (expr for expr in found if expr is not None)
