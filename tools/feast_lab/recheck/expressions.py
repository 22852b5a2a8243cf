"""The part of the grammar that is of types, paths and expressions (docs/language.md, "Grammar")."""
from __future__ import annotations

from typing import NoReturn

from . import trees
from .faults import Refused, Spot
from .tokens import Token, value_of

# The operators by level, those that bind least first. `is` has a level of its own between two of these.
LEVELS = [["||"], ["&&"], ["|"], ["^"], ["&"], ["==", "!="], ["<", "<=", ">", ">="], ["is"], ["<<", ">>"], ["+", "-"], ["*", "/", "%"]]
LEVEL_OF = {sign: level for level, signs in enumerate(LEVELS) for sign in signs}
LEVEL_OF_IS = LEVEL_OF["is"]


class Reader:
    """Reads tokens from first to last; `position` is that of the token that is next, and `kind` is its kind."""

    def __init__(self, tokens: list[Token], file: int) -> None:
        self.tokens = tokens
        self.file_number = file
        self.position = 0
        self.kind = tokens[0].kind

    def give_up(self) -> NoReturn:
        """No file begins with the tokens up to and including the next one."""
        raise Refused(20, self.spot())

    def spot(self) -> Spot:
        """The place of the next token."""
        return self.file_number, self.tokens[self.position].at

    def sees(self, kind: str) -> bool:
        """Whether the next token is of a kind."""
        return self.kind == kind

    def next_kind(self) -> str:
        """The kind of the token behind the next one."""
        return self.tokens[self.position + 1].kind if self.position + 1 < len(self.tokens) else "end"

    def take(self, kind: str) -> Token:
        """Takes the next token, which has to be of a kind."""
        if self.kind != kind:
            self.give_up()
        token = self.tokens[self.position]
        self.position += 1
        self.kind = self.tokens[self.position].kind
        return token

    def takes(self, kind: str) -> bool:
        """Takes the next token if it is of a kind."""
        if self.kind != kind:
            return False
        self.take(kind)
        return True

    def word(self, kind: str) -> trees.Word:
        """Takes a name."""
        token = self.take(kind)
        return trees.Word(token.text, (self.file_number, token.at))

    def type_ref(self) -> trees.TypeRef:
        """Type = TypeName [ "(" Width ")" ]"""
        of = trees.TypeRef(self.word("type"), None)
        if self.takes("("):
            of.width = self.width()
            self.take(")")
        return of

    def width(self) -> trees.Width:
        """Width = Number | Name"""
        if self.kind == "number":
            return value_of(self.take("number").text)
        return self.word("name")

    def expr(self, least: int = 0) -> trees.Expr:
        """Operands joined by operators of a level or of those that bind more."""
        left = self.operand()
        most = len(LEVELS)  # `is` stands at most once: behind it come those that bind less
        while (level := LEVEL_OF.get(self.kind, -1)) >= least and level < most:
            at, sign = self.spot(), self.take(self.kind).kind
            if sign == "is":
                left = trees.Is(at, left, trees.TypeRef(self.word("type"), None))
            else:
                left = trees.Pair(at, sign, left, self.expr(level + 1))
            most = level if sign == "is" else level + 1
        return left

    def operand(self) -> trees.Expr:
        """An operand, with the signs and casts before it."""
        at = self.spot()
        if self.kind in ("-", "!", "~"):
            return trees.Prefix(at, self.take(self.kind).kind, self.operand())
        if self.takes("("):
            if self.kind == "type" and self.next_kind() != ".":
                of = self.type_ref()
                self.take(")")
                return trees.Cast(at, of, self.operand())
            inner = self.expr()
            self.take(")")
            return trees.Group(at, inner)
        if self.kind == "number":
            text = self.take("number").text
            return trees.Number(at, value_of(text), not text.endswith("u"))
        if self.kind in ("true", "false"):
            return trees.Truth(at, self.take(self.kind).kind == "true")
        if self.kind == "type":
            of = trees.TypeRef(self.word("type"), None)
            self.take(".")
            self.take("instanceof")
            return trees.Instance(at, of)
        path = self.path()
        if self.kind == "(":
            return self.call_of(path)
        return self.index_of(path) if self.kind == "[" else path

    def path(self) -> trees.Path:
        """Path = ("self" | Name) { "." Name }"""
        at = self.spot()
        is_own = self.takes("self")
        words = [] if is_own else [self.word("name")]
        while self.takes("."):
            words.append(self.word("name"))
        return trees.Path(at, is_own, words)

    def call_of(self, path: trees.Path) -> trees.Call:
        """Call = Path "(" [ Expr { "," Expr } ] ")" """
        args: list[trees.Expr] = []
        self.take("(")
        if not self.takes(")"):
            args.append(self.expr())
            while self.takes(","):
                args.append(self.expr())
            self.take(")")
        return trees.Call(path.at, path, args)

    def index_of(self, path: trees.Path) -> trees.Index:
        """Path "[" Expr "]" """
        self.take("[")
        index = self.expr()
        self.take("]")
        return trees.Index(path.at, path, index)
