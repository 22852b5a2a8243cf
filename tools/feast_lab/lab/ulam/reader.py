"""Element files as the second reader (tools/recheck) reads them, with the tokens at the places of its trees."""
from collections.abc import Iterator, Sequence
from functools import cached_property

from ...recheck.faults import Refused
from ...recheck.heirs import Heads, Line, flatten, without_heads
from ...recheck.layout import lay_out, type_text
from ...recheck.names import BUILT_IN, NUMBERS, declare_all
from ...recheck.parser import parse
from ...recheck.scopes import CALLS as LIBRARY, Scopes
from ...recheck.tokens import tokens_of
from ...recheck.types import FunctionTyper
from ...recheck.typing_rules import ARGUMENTS, MOST_PLAIN_INT, family, is_assignable, is_plain

from .tokens import Source, Token, tokens
from .trees import (
    BOOL, VOID, Call, Cast, Class, Constant, Expr, Field, Function, Group, Index, Instance, Is, Local, Member, NumberType, Pair,
    Path, Prefix, Seen, Self, Spot, Step, Type, begin)

__all__ = [
    "ARGUMENTS", "BUILT_IN", "LIBRARY", "MOST_PLAIN_INT", "NUMBERS", "Elements", "family", "has_name", "is_assignable", "is_plain",
    "step_text", "step_type", "type_text"]


class Elements:
    """The classes of element files, in their order, read as far as nothing is refused.

    Each class has the members that it is given by its bases too, which are copies; `own` has those of its own text.
    """

    def __init__(self, sources: Sequence[Source]) -> None:
        self.sources = sources
        self.heads = Heads()
        self.classes: list[Class] = []
        self.own: dict[Class, list[Member]] = {}
        self.line = Line([], self.heads)
        self.known: list[str] = []  # the locals that are known where a name isn't
        self.last_read: tuple[Class, Function] | None = None  # the function, which may be a copy, that was read last
        self.refused: Refused | None = None
        try:
            self.read()
        except Refused as refused:
            self.refused = refused

    def read(self) -> None:
        """Reads all files, up to what the second reader refuses."""
        files = []
        for number, source in enumerate(self.sources):
            files.append(parse(without_heads(tokens_of(source.text, number), number, self.heads), number))
        self.classes = [it for file in files for it in file.classes]
        self.own = {it: it.members for it in self.classes}
        self.line = Line(self.classes, self.heads)
        flatten(self.classes, self.heads)
        names = declare_all(files)
        for class_, function in self.given():
            self.resolve(Scopes(names, class_, function))
        lay_out(self.classes)
        for class_, function in self.given():
            FunctionTyper(class_, function).check()

    def given(self) -> Iterator[tuple[Class, Function]]:
        """The functions that all classes are given, each with its class."""
        for class_ in self.classes:
            for function in class_.functions():
                self.last_read = class_, function
                yield class_, function

    def resolve(self, scopes: Scopes) -> None:
        """Looks up the names of a function."""
        try:
            scopes.look_up()
        except Refused:
            self.known = list(dict.fromkeys(name for scope in scopes.scopes for name in scope))
            raise

    @cached_property
    def tokens(self) -> list[list[Token]]:
        """The tokens of each file."""
        return [tokens(source) for source in self.sources]

    @cached_property
    def at(self) -> dict[Spot, int]:
        """Which token of its file stands at a place."""
        return {(number, it.at): at for number, found in enumerate(self.tokens) for at, it in enumerate(found)}

    def token(self, spot: Spot) -> Token:
        """The token at a place."""
        return self.tokens[spot[0]][self.at[spot]]

    def where(self, spot: Spot) -> str:
        """A place, as a refusal names it."""
        line, column = self.sources[spot[0]].place(spot[1])
        return f"{self.sources[spot[0]].name}:{line}:{column}"

    def functions(self, class_: Class) -> list[Function]:
        """The functions of a class's own text."""
        return [it for it in self.own[class_] if isinstance(it, Function)]

    def all_functions(self) -> Iterator[tuple[Class, Function]]:
        """The functions of the texts of all classes, each with its class."""
        return ((class_, function) for class_ in self.classes for function in self.functions(class_))

    def heirs(self, class_: Class) -> list[Class]:
        """The classes that have a class as a base, directly or not."""
        return [it for it in self.classes if class_ in self.line.bases(it)]

    def last(self, expr: Expr) -> Spot:
        """The place of an expression's last token."""
        match expr:
            case Pair():
                return self.last(expr.right)
            case Is():
                return expr.of.word.at
            case Prefix() | Cast():
                return self.last(expr.value)
            case Path():
                return expr.words[-1].at if expr.words else expr.at
            case Group():
                return self.closing(expr.at)
            case Call() | Index():
                return self.closing(self.behind(self.last(expr.path)))
            case Instance():
                return self.behind(self.behind(expr.at))
        return expr.at

    def behind(self, spot: Spot) -> Spot:
        """The place of the token behind the one at a place."""
        return spot[0], self.tokens[spot[0]][self.at[spot] + 1].at

    def closing(self, spot: Spot) -> Spot:
        """The place of the bracket that closes the one at a place."""
        depth, found = 0, self.tokens[spot[0]]
        for at in range(self.at[spot], len(found)):
            depth += (found[at].text in ("(", "[")) - (found[at].text in (")", "]"))
            if not depth:
                return spot[0], found[at].at
        return spot

    def text(self, expr: Expr) -> str:
        """The text of an expression, with the brackets around it."""
        return self.sources[expr.at[0]].text[begin(expr)[1]:self.token(self.last(expr)).end]


def has_name(member: Member, name: str) -> bool:
    """Whether a member has a name."""
    return member.word.text == name


def step_type(step: Step, class_: Class | None) -> Type:
    """The type of what a name of a path in a class stands for, or of its result; of an array that of its items."""
    match step:
        case Self():
            return class_ or VOID
        case Seen():
            return step.as_type
        case Local() | Field() | Constant() | Function():
            return step.of.type
    return VOID if step == "swap" else NumberType("Unsigned", 32) if step == "create" else BOOL


def step_text(step: Step, class_: Class | None) -> str:
    """That type as a text names it."""
    length = f"[{step.length}]" if isinstance(step, Field) and step.length else ""
    return type_text(step_type(step, class_)) + length
