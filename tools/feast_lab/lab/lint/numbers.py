"""Numbers that can't be meant: sites and indices that aren't there, random numbers of no choice, divisions by 0."""
from collections.abc import Iterator, Sequence

from ..ulam.numbers import Range, of_type
from ..ulam.ranges import Known, Ranges, reached, reached_parts
from ..ulam.reader import Elements
from ..ulam.tokens import Token
from ..ulam.trees import (
    WINDOW, Assign, Block, Call, Declare, Do, Expr, Field, Function, Index, Jump, Local, Loop, Pair, Path, Return, Statement,
    bare, begin, local_of, own_exprs, parts, statements)
from .warned import Warned

LAST_SITE = 40


def warnings(known: Known) -> Iterator[Warned]:
    """The warnings of all functions, in the classes that declare them."""
    for _, function in known.elements.all_functions():
        yield from of_function(known, function)


def of_function(known: Known, function: Function) -> Iterator[Warned]:
    """The warnings of a function."""
    elements, ranges = known.elements, known.ranges(function)
    for statement in reached(known, function):
        if isinstance(statement, Loop):
            yield from counted_too_far(elements, statement, ranges)
        if isinstance(statement, Assign) and statement.sign in ("/", "%"):
            sign = elements.behind(elements.last(statement.left))
            yield from division(elements.token(sign), ranges.of_expr(statement.value))
        for expr in own_exprs(statement):
            for part in reached_parts(expr, ranges):
                yield from of_expr(elements, part, ranges)


def of_expr(elements: Elements, expr: Expr, ranges: Ranges) -> Iterator[Warned]:
    """The warnings of an expression itself."""
    for it in site_exprs(expr):
        yield from site(elements.token(begin(it)), ranges.of_expr(it))
    match expr:
        case Index() if isinstance(of := expr.path.steps[-1], Field) and of.length:
            found = ranges.of_expr(expr.index)
            if found is not None and (found[0] >= of.length or found[1] < 0):
                yield Warned("index", elements.token(begin(expr.index)),
                             f"the array has {of.length} items, so the event fails here")
        case Call() if expr.path.steps[-1] in ("create", "oneIn"):
            yield from draw(elements.token(expr.path.words[-1].at), ranges.of_expr(expr.args[0]))
        case Pair() if expr.sign in ("/", "%"):
            yield from division(elements.token(expr.at), ranges.of_expr(expr.right))


def site(token: Token, found: Range | None) -> Iterator[Warned]:
    """A site number that is none."""
    if found is not None and (found[0] > LAST_SITE or found[1] < 0):
        number = str(found[0]) if found[0] == found[1] else f"from {found[0]} to {found[1]}"
        yield Warned("site", token, f"the site is {number}, and a window has the sites 0 to {LAST_SITE}, so the event "
                                    "fails here")


def draw(name: Token, below: Range | None) -> Iterator[Warned]:
    """A random number of no choice."""
    if below is None or (below[1] >= 1 and below != (1, 1)):
        return
    if below[1] < 1:
        yield Warned("no-choice", name, f"`{name.text}({below[1]})` always fails")
    else:
        yield Warned("no-choice", name, f"`{name.text}(1)` is always {'0' if name.text == 'create' else 'true'}")


def division(sign: Token, by: Range | None) -> Iterator[Warned]:
    """A division by 0."""
    if by == (0, 0):
        yield Warned("division", sign, "the right side is 0, so the event fails here")


def counted_too_far(elements: Elements, loop: Loop, ranges: Ranges) -> Iterator[Warned]:
    """A loop that counts up to a site that isn't there, and uses each number as one."""
    local, last = count(loop, ranges)
    if local is None or last <= LAST_SITE:
        return
    for statement in always(loop.body):
        for expr in own_exprs(statement):
            for part in always_parts(expr):
                for index in site_exprs(part):
                    if name_of(index) == local.word.text:
                        yield Warned("site", elements.token(begin(index)), f"`{local.word.text}` goes up to {last} here, and a "
                                     f"window has the sites 0 to {LAST_SITE}, so the event fails")


def site_exprs(expr: Expr) -> Sequence[Expr]:
    """The site numbers of an expression itself."""
    if isinstance(expr, Index):
        of = expr.path.steps[-1]
        return (expr.index,) if isinstance(of, Field) and of.of.type is WINDOW else ()
    return expr.args if isinstance(expr, Call) and expr.path.steps[-1] in ("swap", "isLive", "isEmpty") else ()


def count(loop: Loop, ranges: Ranges) -> tuple[Local | None, int]:
    """The counter of a loop of the plainest form, and the last number that it has in the body; else None."""
    test, step, (local, value) = bare(loop.condition) if loop.condition else None, loop.step, counter(loop.first)
    if local is None or value is None or not isinstance(test, Pair) or test.sign not in ("<", "<=") \
            or not isinstance(step, Assign) or step.sign != "+" \
            or {name_of(test.left), name_of(step.left)} != {local.word.text} \
            or any(is_left(it, local.word.text) for it in statements(loop.body)):
        return None, 0
    first, limit, by = number(value, ranges), number(test.right, ranges), number(step.value, ranges)
    whole = of_type(test.left.type)
    if first is None or limit is None or by is None or by < 1 or whole is None:
        return None, 0
    last = limit - (test.sign == "<")
    last = first + (last - first) // by * by
    return (local, last) if first <= last < whole[1] else (None, 0)


def counter(first: Statement | None) -> tuple[Local | None, Expr | None]:
    """The local that the first part of a `for` gives a value, and the value; else None."""
    if isinstance(first, Declare):
        return first.local, first.value
    if isinstance(first, Assign) and not first.sign and isinstance(first.left, Path) and name_of(first.left):
        return local_of(first.left), first.value
    return None, None


def number(expr: Expr, ranges: Ranges) -> int | None:
    """The value of an expression that always has the same one."""
    found = ranges.of_expr(expr)
    return found[0] if found is not None and found[0] == found[1] else None


def name_of(expr: Expr) -> str:
    """The name that is all of an expression; else empty."""
    expr = bare(expr)
    return expr.words[0].text if isinstance(expr, Path) and not expr.is_own and len(expr.words) == 1 else ""


def is_left(statement: Statement, name: str) -> bool:
    """Whether a statement may end a loop early, or gives a name another value."""
    return isinstance(statement, (Jump, Return)) or (isinstance(statement, Assign) and name_of(statement.left) == name) \
        or (isinstance(statement, Declare) and statement.word.text == name)


def always(statement: Statement) -> Iterator[Statement]:
    """The statements that are done whenever a statement is: those of blocks, and no branches or loops."""
    if isinstance(statement, Block):
        for it in statement.body:
            yield from always(it)
    elif isinstance(statement, (Assign, Declare, Do)):
        yield statement


def always_parts(expr: Expr) -> Iterator[Expr]:
    """An expression and all that it is made of, but for the right sides of `&&` and `||`."""
    skipped: set[Expr] = set()
    for part in parts(expr):
        if isinstance(part, Pair) and part.sign in ("&&", "||"):
            skipped.update(parts(part.right))
        if part not in skipped:
            yield part
