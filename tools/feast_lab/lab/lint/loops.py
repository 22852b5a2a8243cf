"""Loops that can't end but by the limit of turns."""
from collections.abc import Iterator

from ..ulam.numbers import FALSE, TRUE
from ..ulam.ranges import Known, reached
from ..ulam.trees import (
    Assign, Block, Call, Constant, Expr, Function, If, Index, Jump, Loop, Path, Return, Statement, first_name, local_of,
    own_exprs, parts, statements)
from .warned import Warned

NAME = "endless-loop"
FAILS = "the event fails when its 1,000 turns are gone"


def warnings(known: Known) -> Iterator[Warned]:
    """The loops of all functions that have no way out."""
    for _, function in known.elements.all_functions():
        yield from of_function(known, function)


def of_function(known: Known, function: Function) -> Iterator[Warned]:
    """The loops of a function that have no way out."""
    ranges = known.ranges(function)
    for it in reached(known, function):
        if isinstance(it, Loop) and not has_exit(it):
            token, holds = known.elements.token(it.at), TRUE if it.condition is None else ranges.of_expr(it.condition)
            if it.condition is None or holds == TRUE:
                yield Warned(NAME, token, "the condition always holds, and nothing else ends the loop: " + FAILS)
            elif holds != FALSE and stays(it, it.condition):
                yield Warned(NAME, token, "nothing in the loop changes its condition; if that holds, " + FAILS)


def has_exit(loop: Loop) -> bool:
    """Whether a `break` of the loop itself or a `return` is in it."""
    return any(isinstance(it, Return) for it in statements(loop.body)) or any(breaks(loop.body))


def breaks(statement: Statement | None) -> Iterator[bool]:
    """True for each `break` in a statement that isn't that of a loop in it."""
    match statement:
        case Jump():
            yield statement.is_break
        case Block():
            for it in statement.body:
                yield from breaks(it)
        case If():
            yield from breaks(statement.yes)
            yield from breaks(statement.no)


def stays(loop: Loop, condition: Expr) -> bool:
    """Whether nothing that the condition reads can change in the loop, as far as its text tells."""
    if not all(is_asking(part) for part in parts(condition) if isinstance(part, Call)):
        return False
    paths = [part for part in parts(condition) if isinstance(part, Path)]
    names = {first_name(path) for path in paths}
    is_local = all(local_of(path) is not None or isinstance(path.steps[0], Constant) for path in paths)
    for statement in (*statements(loop.body), *statements(loop.step)):
        if isinstance(statement, Assign) and may_change(statement, names, is_local):
            return False
        calls = [part for expr in own_exprs(statement) for part in parts(expr) if isinstance(part, Call)]
        if not is_local and not all(map(is_asking, calls)):
            return False
    return True


def may_change(statement: Assign, names: set[str], is_local: bool) -> bool:
    """Whether an assignment may change one of the names, or something of the atom unless all of them are locals."""
    place = statement.left
    path = place.path if isinstance(place, Index) else place
    is_elsewhere = is_local or (isinstance(place, Path) and local_of(path) is not None)
    return first_name(path) in names or not is_elsewhere


def is_asking(call: Call) -> bool:
    """Whether a call asks for a site of the window, which changes nothing and has the same answer the next time."""
    return call.path.steps[-1] in ("isLive", "isEmpty")
