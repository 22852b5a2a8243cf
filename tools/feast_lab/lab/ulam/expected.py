"""What could stand in place of a token that the grammar refuses."""
from typing import NoReturn

from ...recheck.faults import Refused
from ...recheck.heirs import Heads, without_heads
from ...recheck.parser import FileReader
from ...recheck.tokens import Token, tokens_of
from ...recheck.trees import Call, Constant, Expr, Index, Path, Statement, TypeRef, Width

from .tokens import Source

SMALL_NAME, CAPITAL_NAME = "a name with a small letter", "a name with a capital letter"
ELEMENT_NAME = "the name of an element"
TYPE_BEHIND = {"use": "the name of a class", "is": ELEMENT_NAME, "as": ELEMENT_NAME}
OPERANDS = frozenset(["-", "!", "~", "(", "number", "true", "false", "type", "self", "name"])
BEGINS = frozenset("{ ; if while for return break continue ++ -- self name type".split())
ITEMS = ["`ulam`", "`use`"]
Place = Path | Index | Call
MEMBERS = ["`}`", "`typedef`", "`constant`"]


def expected(source: Source) -> tuple[int, list[str]]:
    """The byte of the first token that can't stand where it stands, and what could; -1 if all can."""
    reader = Telling(without_heads(tokens_of(source.text, 0), 0, Heads()), 0)
    try:
        reader.file()
    except Refused as refused:
        *front, one, other = ["", "", *reader.tried]
        found = [*front, other, one] if (one, other) == ("`,`", "`)`") else reader.tried
        return refused.spot[1], list(filter(None, dict.fromkeys(found)))
    return -1, []


class Telling(FileReader):
    """Reads a file as the second reader does; `tried` has what could have stood in place of the next token."""

    def __init__(self, tokens: list[Token], file: int) -> None:
        super().__init__(tokens, file)
        self.tried: list[str] = []
        self.is_type = self.is_constant = False

    @property
    def before(self) -> str:
        """The kind of the token before the next one; empty at the beginning."""
        return self.tokens[self.position - 1].kind if self.position else ""

    def fault(self, what: str) -> NoReturn:
        """Refuses the next token, in whose place there could be something."""
        self.tried.append(what)
        raise Refused(20, self.spot())

    def give_up(self) -> NoReturn:
        if self.tried == ITEMS:
            self.tried = ["`element`", "`quark`"]
            self.fault("`use`")
        self.fault("an assignment such as `=`")

    def take(self, kind: str) -> Token:
        if self.kind != kind:
            if kind == "{" and self.before == "type" and [it.kind for it in self.tokens[self.position + 1:self.position + 3]] == ["type", "{"]:
                self.tried.append("`:`")  # a base may stand behind the name of a class
            self.fault(self.named(kind))
        self.tried = []
        return super().take(kind)

    def fault_of_member(self) -> None:
        """A member could stand where neither a type nor another word of one does."""
        if self.tried == MEMBERS:
            self.tried = ["a member, which begins with its type,"]
            self.fault("`}`")

    def named(self, kind: str) -> str:
        """A kind of tokens in words."""
        if kind == "type":
            return "a type" if self.is_type else TYPE_BEHIND.get(self.before, CAPITAL_NAME)
        if kind == "number":
            return "a number"
        if kind == "name":
            return "a number, a truth value or a constant" if self.is_constant and self.before == "=" else SMALL_NAME
        return f"`{kind}`"

    def takes(self, kind: str) -> bool:
        return self.sees(kind) and super().takes(kind)

    def sees(self, kind: str) -> bool:
        if self.kind != kind:
            self.tried.append(f"`{kind}`")
        return self.kind == kind

    def type_ref(self) -> TypeRef:
        if self.kind != "type":
            self.fault_of_member()
        self.is_type = True
        found = super().type_ref()
        self.is_type, self.tried = False, []
        return found

    def width(self) -> Width:
        return super().width() if self.kind in ("number", "name") else self.fault("a number or a constant")

    def constant(self) -> Constant:
        self.is_constant = True
        found = super().constant()
        self.is_constant = False
        return found

    def statement(self) -> Statement:
        if self.kind not in BEGINS:
            self.fault("a statement")
        return super().statement()

    def simple(self, may_declare: bool = False) -> Statement:
        if self.kind not in ("name", "self", "++", "--") and not (may_declare and self.kind == "type"):
            self.fault("a declaration or an assignment" if may_declare else "an assignment")
        return super().simple(may_declare)

    def path(self) -> Path:
        if self.kind not in ("self", "name"):
            self.fault("a name")
        found = super().path()
        self.tried = []
        return found

    def place_or_call(self) -> Place:
        found = super().place_or_call()
        if isinstance(found, Path):
            self.tried = ["`(`"]
        return found

    def operand(self) -> Expr:
        if self.kind not in OPERANDS:
            self.fault("an expression")
        return super().operand()

    def expr(self, least: int = 0) -> Expr:
        found = super().expr(least)
        self.tried.append("an operator")
        return found
