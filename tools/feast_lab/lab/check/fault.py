"""What can be said of a refusal beside its line: what stands at the place, and which form it is."""
import re
from collections.abc import Sequence
from dataclasses import dataclass
from functools import cached_property

from ..ulam.expected import expected
from ..ulam.reader import Elements, step_text, step_type
from ..ulam.tokens import Source, Token, tokens
from ..ulam.trees import Class, Expr, Function, Member, Spot, Statement, Step, Type, Word, begin, own_exprs, parts, statements

LINE = re.compile(r"(?P<name>.*):(?P<line>\d+):(?P<column>\d+): (?P<code>E\d\d) (?P<text>.*)", re.DOTALL)


@dataclass(frozen=True)
class Hint:
    """What is said: a label for the caret, the form whose row of a page has what to write instead, how many bytes the
    caret marks, and other places with a label each."""

    label: str = ""
    form: str = ""
    length: int = 1
    also: tuple[tuple[Token, str], ...] = ()


@dataclass(frozen=True)
class RefusalLine:
    """The line with which the program refuses a file at a place."""

    name: str
    line: int
    column: int
    code: str
    text: str

    @staticmethod
    def of(line: str) -> "RefusalLine | None":
        """The parts of a line; None if it names no place."""
        match = LINE.fullmatch(line)
        return RefusalLine(match["name"], int(match["line"]), int(match["column"]), match["code"], match["text"]) \
            if match else None


@dataclass(frozen=True)
class Fault:
    """A refusal of an element file, with the texts of all files of the call."""

    refused: RefusalLine
    source: Source
    sources: Sequence[Source]

    @cached_property
    def byte(self) -> int:
        """The byte at the place."""
        return self.source.byte_at(self.refused.line, self.refused.column)

    @cached_property
    def tokens(self) -> list[Token]:
        """The tokens of the file, with the one for its end."""
        return tokens(self.source)

    @cached_property
    def at(self) -> int:
        """Which of the tokens is at the place, or the first one behind it."""
        return next((at for at, token in enumerate(self.tokens) if token.at >= self.byte), len(self.tokens) - 1)

    @property
    def token(self) -> Token:
        """The token at the place."""
        return self.tokens[self.at]

    def text(self, by: int) -> str:
        """The text of a token so many behind the place, or before it; empty where there is none."""
        return self.tokens[self.at + by].text if 0 <= self.at + by < len(self.tokens) else ""

    def kind(self, by: int) -> str:
        """The kind of a token so many behind the place, or before it; empty where there is none."""
        return self.tokens[self.at + by].kind if 0 <= self.at + by < len(self.tokens) else ""

    @cached_property
    def expected(self) -> list[str]:
        """What could have stood at the place, if the grammar refuses its token."""
        at, found = expected(self.source)
        return found if at == self.byte else []

    @cached_property
    def elements(self) -> Elements:
        """The classes of all files, which the grammar accepts."""
        return Elements(self.sources)

    @cached_property
    def spot(self) -> Spot:
        """The place, as the trees have places."""
        return next(at for at, source in enumerate(self.sources) if source is self.source), self.byte

    @cached_property
    def class_(self) -> Class | None:
        """The class in whose text the place is."""
        found = [it for it in self.elements.classes if self.is_before(it.word)]
        return found[-1] if found else None

    @cached_property
    def own(self) -> Sequence[Member]:
        """The members that the text of the class has."""
        return self.elements.own[self.class_] if self.class_ else ()

    @cached_property
    def acting(self) -> tuple[Class | None, Function | None]:
        """The function in whose text the place is, if it is behind the function's name, and its class: the heir, if it is
        an heir's copy that is refused."""
        found = [it for it in self.own if self.is_before(it.word)]
        last = found[-1] if found else None
        read = self.elements.last_read
        if not isinstance(last, Function):
            return self.class_, None
        return read if read is not None and read[1].word.at == last.word.at else (self.class_, last)

    @property
    def function(self) -> Function | None:
        """That function."""
        return self.acting[1]

    def is_before(self, word: Word) -> bool:
        """Whether a name of the file is at the place or before it."""
        return word.at[0] == self.spot[0] and word.at <= self.spot

    @cached_property
    def body(self) -> list[Statement]:
        """The statements of the function."""
        return list(statements(self.function.body)) if self.function else []

    @cached_property
    def nodes(self) -> list[Statement | Expr]:
        """The statements and expressions of the function."""
        found: list[Statement | Expr] = []
        for statement in self.body:
            found += [statement, *(part for expr in own_exprs(statement) for part in parts(expr))]
        return found

    def type_of(self, step: Step) -> Type:
        """The type of what a name of a path stands for, or of its result."""
        return step_type(step, self.acting[0])

    def text_of(self, step: Step) -> str:
        """That type as a text names it."""
        return step_text(step, self.acting[0])

    def extent(self, expr: Expr) -> int:
        """How many bytes an expression has."""
        return self.elements.token(self.elements.last(expr)).end - begin(expr)[1]
