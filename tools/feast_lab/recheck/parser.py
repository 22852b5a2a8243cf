"""From tokens to trees (docs/language.md, "Grammar").

Each rule reads on only while the tokens so far begin some file, so the token at which it gives up is the one to be told.
"""
from __future__ import annotations

from typing import Union

from . import trees
from .expressions import Reader
from .faults import Refused, Spot
from .limits import MOST_DEPTH
from .tokens import Token, too_deep, value_of

ASSIGNMENTS = frozenset("= += -= *= /= %= &= |= ^= <<= >>=".split())


def parse(tokens: list[Token], file: int) -> trees.File:
    """The tree of a file. Refused with 20 or 21, whichever comes first."""
    deep = too_deep(tokens, MOST_DEPTH)
    if deep == len(tokens):
        return FileReader(tokens, file).file()
    # behind the token that nests too deep there is none that any rule takes
    reader = FileReader(tokens[: deep + 1] + [Token("too deep", "", 0)], file)
    try:
        reader.file()
    except Refused as refused:
        if reader.position <= deep:
            raise refused
    raise Refused(21, (file, tokens[deep].at))


class FileReader(Reader):
    """Reads items, classes, members and statements."""

    def file(self) -> trees.File:
        """File = { Item } End"""
        file = trees.File([], [])
        while self.kind != "end":
            if self.takes("ulam"):
                self.take("number")
                self.take(";")
            elif self.takes("use"):
                file.uses.append((len(file.classes), self.word("type")))
                self.take(";")
            elif self.kind in ("element", "quark"):
                file.classes.append(self.class_item())
            else:
                self.give_up()
        return file

    def class_item(self) -> trees.Class:
        """Class = ("element" | "quark") TypeName "{" { Member } "}" """
        is_quark = self.take(self.kind).kind == "quark"
        word = self.word("type")
        self.take("{")
        members: list[trees.Member] = []
        while not self.takes("}"):
            members.append(self.member())
        return trees.Class(is_quark, word, members)

    def member(self) -> trees.Member:
        """A typedef, a constant, a data member, an array or a function."""
        if self.takes("typedef"):
            of, word = self.type_ref(), self.word("type")
            self.take(";")
            return trees.Typedef(of, word)
        if self.takes("constant"):
            return self.constant()
        of, word = self.type_ref(), self.word("name")
        if self.takes("("):
            return self.function(of, word)
        length: trees.Width = None
        if self.takes("["):
            length = self.width()
            self.take("]")
        self.take(";")
        return trees.Field(of, word, length)

    def constant(self) -> trees.Constant:
        """Const = [ "-" ] Number | "true" | "false" | Name"""
        of, word = self.type_ref(), self.word("name")
        self.take("=")
        written: Union[int, bool, trees.Word]
        if self.takes("-"):
            written = -value_of(self.take("number").text)
        elif self.kind == "number":
            written = value_of(self.take("number").text)
        elif self.kind in ("true", "false"):
            written = self.take(self.kind).kind == "true"
        else:
            written = self.word("name")
        self.take(";")
        return trees.Constant(of, word, written)

    def function(self, of: trees.TypeRef, word: trees.Word) -> trees.Function:
        """What comes after the bracket that opens."""
        params: list[tuple[trees.TypeRef, trees.Word]] = []
        if not self.takes(")"):
            params.append((self.type_ref(), self.word("name")))
            while self.takes(","):
                params.append((self.type_ref(), self.word("name")))
            self.take(")")
        return trees.Function(of, word, params, self.block())

    def block(self) -> trees.Block:
        """Block = "{" { Statement } "}" """
        self.take("{")
        body: list[trees.Statement] = []
        while not self.takes("}"):
            body.append(self.statement())
        return trees.Block(body)

    def statement(self) -> trees.Statement:
        """A statement, by its first token."""
        at = self.spot()
        if self.kind == "{":
            return self.block()
        if self.takes(";"):
            return trees.Block([])
        if self.takes("if"):
            return self.if_statement()
        if self.takes("while"):
            self.take("(")
            condition = self.expr()
            self.take(")")
            return trees.Loop(at, None, condition, None, self.statement(), False)
        if self.takes("for"):
            return self.for_statement(at)
        found: trees.Statement
        if self.takes("return"):
            found = trees.Return(at, None if self.sees(";") else self.expr())
        elif self.kind in ("break", "continue"):
            found = trees.Jump(at, self.take(self.kind).kind == "break")
        else:
            found = self.simple(may_declare=True)
        self.take(";")
        return found

    def if_statement(self) -> trees.If:
        """What comes after `if`; `x as T` stands alone there."""
        self.take("(")
        condition: trees.Expr
        if self.kind == "name" and self.next_kind() == "as":
            at, word = self.spot(), self.word("name")
            self.take("as")
            condition = trees.As(at, trees.Path(at, False, [word]), trees.TypeRef(self.word("type"), None))
        else:
            condition = self.expr()
        self.take(")")
        yes = self.statement()
        return trees.If(condition, yes, self.statement() if self.takes("else") else None)

    def for_statement(self, at: Spot) -> trees.Loop:
        """What comes after `for`."""
        self.take("(")
        first = None if self.sees(";") else self.simple(may_declare=True)
        self.take(";")
        condition = None if self.sees(";") else self.expr()
        self.take(";")
        step = None if self.sees(")") else self.simple()
        self.take(")")
        return trees.Loop(at, first, condition, step, self.statement(), True)

    def simple(self, may_declare: bool = False) -> trees.Statement:
        """Declare | Simple"""
        if self.kind == "type" and may_declare:
            of, word = self.type_ref(), self.word("name")
            return trees.Declare(of, word, self.expr() if self.takes("=") else None)
        if self.kind in ("++", "--"):
            return self.counted(self.take(self.kind).kind, self.place())
        left = self.place_or_call()
        if isinstance(left, trees.Call):
            return trees.Do(left)
        if self.kind in ("++", "--"):
            return self.counted(self.take(self.kind).kind, left)
        if self.kind in ASSIGNMENTS:
            sign = self.take(self.kind).kind
            return trees.Assign(left, sign[:-1], self.expr())
        self.give_up()

    def counted(self, sign: str, left: Union[trees.Path, trees.Index]) -> trees.Assign:
        """`p++` and `p--`, as the assignments that they are typed as."""
        return trees.Assign(left, sign[0], trees.Number(left.at, 1, True))

    def place(self) -> Union[trees.Path, trees.Index]:
        """Place = Path | Path "[" Expr "]" """
        path = self.path()
        return self.index_of(path) if self.kind == "[" else path

    def place_or_call(self) -> Union[trees.Path, trees.Index, trees.Call]:
        """Place | Call"""
        path = self.path()
        if self.kind == "(":
            return self.call_of(path)
        return self.index_of(path) if self.kind == "[" else path
