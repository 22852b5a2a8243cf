"""Members that are used after the event's own atom has moved or was overwritten, also in functions that are called.

From `behave` of each element on, every path through its functions is followed, with what is known of site 0: the
own atom is there, or it has gone on each path to here, or on some. What a branch asks may tell the paths apart, so
a use in a branch after paths have met isn't reported.
"""
from collections.abc import Iterator
from dataclasses import dataclass, field, replace
from enum import IntEnum

from ..base.limits import MOST_CALLS
from ..ulam.numbers import FALSE, TRUE
from ..ulam.ranges import Known, Ranges
from ..ulam.tokens import Token
from ..ulam.trees import (
    ATOM, RANDOM, WINDOW, Assign, Block, Call, Cast, Class, Declare, Do, Expr, Field, Function, Group, If, Index, Instance, Is,
    Jump, Loop, Pair, Path, Prefix, Return, Self, Statement, bare, first_name)
from .warned import Warned

NAME = "moved-member"


class Gone(IntEnum):
    """Whether the own atom has left site 0."""

    HERE = 0
    MAYBE = 1
    GONE = 2


@dataclass(frozen=True)
class State:
    """What is known of site 0: whether the own atom has gone, at which token, and by a swap with which site."""

    gone: Gone = Gone.HERE
    by: Token | None = None
    swapped: str = ""


HERE = State()
Reached = State | None  # None: nothing comes here


def merged(*states: Reached) -> Reached:
    """What is known where paths meet."""
    reached = [it for it in states if it is not None]
    if not reached:
        return None
    most = max(reached, key=lambda it: it.gone)
    return most if all(it.gone == most.gone for it in reached) else replace(most, gone=Gone.MAYBE)


@dataclass
class Body:
    """A function that is followed: what is known where it begins, and what is found of it.

    `use` is the first use of a member while the own atom has gone as it had at the beginning.
    """

    begin: State
    ranges: Ranges
    use: Token | None = None
    returns: list[Reached] = field(default_factory=list)
    breaks: list[Reached] = field(default_factory=list)
    continues: list[Reached] = field(default_factory=list)
    loops: dict[tuple[Loop, State], Reached] = field(default_factory=dict)


def warnings(known: Known) -> Iterator[Warned]:
    """The warnings of all elements."""
    for class_ in known.elements.classes:
        behave = next((it for it in class_.functions() if it.word.text == "behave"), None)
        if not class_.is_quark and behave is not None:
            moves = Moves(known, class_)
            moves.follow(behave, HERE)
            yield from moves.found


class Moves:
    """Follows the functions of an element."""

    def __init__(self, known: Known, element: Class) -> None:
        self.ranges = known
        self.elements = known.elements
        self.element = element
        self.depth = 0
        self.found: list[Warned] = []
        self.known: dict[tuple[Function, Gone], tuple[Reached, Token | None]] = {}

    def follow(self, function: Function, begin: State) -> tuple[Reached, Token | None]:
        """What is known behind a function that begins so, and its first use of a member if the atom has gone before."""
        key = function, begin.gone
        if self.depth > MOST_CALLS:
            return None, None  # such a call fails
        if key not in self.known:
            self.depth += 1
            self.known[key] = replace(begin, by=None), None  # of a function that calls itself
            body = Body(replace(begin, by=None), self.ranges.ranges(function))
            end = self.statement(body, function.body, body.begin)
            self.known[key] = merged(end, *body.returns), body.use
            self.depth -= 1
        return self.known[key]

    def statement(self, body: Body, it: Statement, state: Reached) -> Reached:
        """What is known behind a statement."""
        if state is None:
            return None
        match it:
            case Block():
                for one in it.body:
                    state = self.statement(body, one, state)
            case Declare():
                return self.value(body, it.value, state)
            case Assign():
                return self.assign(body, it, state)
            case Do():
                return self.value(body, it.call, state)
            case If():
                return self.branch(body, it, state)
            case Loop():
                key = it, state
                if key not in body.loops:
                    body.loops[key] = self.loop(body, it, state)
                return body.loops[key]
            case Return():
                body.returns.append(self.value(body, it.value, state))
                return None
            case Jump():
                (body.breaks if it.is_break else body.continues).append(state)
                return None
        return state

    def branch(self, body: Body, it: If, state: State) -> Reached:
        """What is known behind an `if`."""
        before = self.value(body, it.condition, state)
        inside = HERE if before.gone == Gone.MAYBE else before
        holds = body.ranges.of_expr(it.condition)
        then: Reached = None
        other: Reached = None
        if holds != FALSE:
            then = self.statement(body, it.yes, inside)
        if holds != TRUE:
            other = self.statement(body, it.no, inside) if it.no is not None else inside
        if before.gone == Gone.MAYBE and then is not None and other is not None:
            return merged(before, then, other)
        return merged(then, other)

    def loop(self, body: Body, it: Loop, state: State) -> Reached:
        """What is known behind a loop, of which two rounds are followed."""
        outer = body.breaks, body.continues
        body.breaks, body.continues = [], []
        begin: Reached = state if it.first is None else self.statement(body, it.first, state)
        is_endless = it.condition is None or body.ranges.of_expr(it.condition) == TRUE
        ends: list[Reached] = []
        for _ in range(2):
            if begin is None:
                break
            before = self.value(body, it.condition, begin)
            ends += [] if is_endless else [before]
            inside = HERE if before.gone == Gone.MAYBE else before
            behind = self.statement(body, it.body, inside)
            begin = merged(behind, *body.continues)
            body.continues = []
            if it.step is not None:
                begin = self.statement(body, it.step, begin)
            begin = None if begin is not None and begin.gone == Gone.MAYBE and not is_endless else begin
            ends += [begin] if begin is not None and not is_endless else []
        found = merged(*ends, *body.breaks)
        body.breaks, body.continues = outer
        return found

    def value(self, body: Body, expr: Expr | None, state: State) -> State:
        """What is known behind an expression."""
        match expr:
            case Path():
                self.use(body, expr, state)
            case Index():
                return self.item(body, expr, state)
            case Call():
                for argument in expr.args:
                    state = self.value(body, argument, state)
                return self.call(body, expr, state)
            case Group():
                return self.value(body, expr.inner, state)
            case Prefix() | Cast() | Is():
                return self.value(body, expr.value, state)
            case Pair():
                left = self.value(body, expr.left, state)
                is_branch = expr.sign in ("&&", "||")
                state = self.value(body, expr.right, HERE if is_branch and left.gone == Gone.MAYBE else left)
                if is_branch:
                    return left if left.gone == Gone.MAYBE else merged(left, state) or state
        return state

    def item(self, body: Body, expr: Index, state: State) -> State:
        """What is known behind the reading of an item; who reads site 0 may see whether the atom is there."""
        state = self.value(body, expr.index, state)
        if not is_window(expr.path):
            self.use(body, expr.path, state)
        elif self.is_centre(body, expr.index):
            return HERE
        return state

    def use(self, body: Body, path: Path, state: State) -> None:
        """Notes the use of a member, or of `self`, if the own atom has gone."""
        if state.gone != Gone.HERE and isinstance(path.steps[0], (Self, Field)) and not is_outside(path):
            self.note(body, self.elements.token(path.at), f"`{first_name(path)}` is used", state)

    def note(self, body: Body, token: Token, what: str, state: State, also: tuple[tuple[Token, str], ...] = ()) -> None:
        """Notes a use: of the function's caller if the atom had gone before, else as a warning."""
        if state.by is None:
            body.use = body.use or token
            return
        has = "has" if state.gone == Gone.GONE else "may have"
        self.found.append(Warned(NAME, token, f"{what} here, when the event's own atom {has} left site 0",
                                 ((state.by, "it leaves here"), *also)))

    def is_centre(self, body: Body, index: Expr) -> bool:
        """Whether a site number is always 0."""
        return body.ranges.of_expr(index) == FALSE

    def call(self, body: Body, expr: Call, state: State) -> State:
        """What is known behind a call, whose arguments are followed already."""
        called = expr.path.steps[-1]
        if isinstance(called, Function):
            return self.own_call(body, expr, called, state)
        return self.swap(body, expr, state) if called == "swap" else state

    def own_call(self, body: Body, expr: Call, function: Function, state: State) -> State:
        """What is known behind the call of a function of the class or of a part."""
        end, use = self.follow(function, state)
        if use is not None and state.gone != Gone.HERE:
            self.note(body, self.elements.token(expr.at), f"`{function.word.text}` is called, which uses `{use.text}`,", state,
                      ((use, f"`{use.text}` is used here"),))
        if end is None:
            return HERE
        return replace(end, by=state.by) if end.by is None and end.gone == state.gone else end

    def swap(self, body: Body, expr: Call, state: State) -> State:
        """What is known behind a swap: the own atom goes by one with site 0, and comes back by the same again."""
        centres = [self.is_centre(body, argument) for argument in expr.args]
        if centres[0] == centres[1]:
            return state
        text = self.elements.text(expr.args[centres.index(False)])
        if state.gone != Gone.HERE and state.swapped == text:
            return HERE
        return State(Gone.GONE, self.elements.token(expr.path.words[-1].at), text)

    def assign(self, body: Body, it: Assign, state: State) -> State:
        """What is known behind an assignment."""
        place = it.left
        path = place.path if isinstance(place, Index) else place
        if isinstance(place, Index):
            state = self.value(body, place.index, state)
        if it.sign:
            self.use(body, path, state)
        state = self.value(body, it.value, state)
        if not is_window(path):
            self.use(body, path, state)
        elif isinstance(place, Index) and self.is_centre(body, place.index):
            return self.overwritten(body, it, state)
        return state

    def overwritten(self, body: Body, it: Assign, state: State) -> State:
        """What is known behind an assignment to site 0: of a local `Atom` it isn't known what it has."""
        value = bare(it.value)
        gone = State(Gone.GONE, self.elements.token(it.left.at))
        if isinstance(value, Path) and isinstance(value.steps[-1], Self):
            return state
        if isinstance(value, Index):
            return state if self.is_centre(body, value.index) else gone
        kind = value.of.type if isinstance(value, Instance) else value.type
        return HERE if kind in (ATOM, self.element) else gone


def is_window(path: Path) -> bool:
    """Whether a path leads to the window."""
    last = path.steps[-1]
    return isinstance(last, Field) and last.of.type is WINDOW


def is_outside(path: Path) -> bool:
    """Whether a path leads to the window or to random numbers, or to a call of these."""
    last = path.steps[-1]
    return isinstance(last, str) or (isinstance(last, Field) and last.of.type in (WINDOW, RANDOM))
