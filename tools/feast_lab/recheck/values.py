"""Python text of expressions (docs/meaning.md, "Values" to "Random numbers")."""
from __future__ import annotations

from typing import Callable, NamedTuple, Optional

from . import trees
from .limits import STATE_BITS
from .trees import NumberType, Type

KIND = STATE_BITS


class Made(NamedTuple):
    """A text, with the least and the greatest number that it can give (0 and 0 for an atom): what is sure to be in the
    range of a type isn't clamped to it."""

    text: str
    least: int = 0
    greatest: int = 0


class Bits(NamedTuple):
    """A data member of the acting atom, or of the atom in a local: its first bit and its type."""

    local: Optional[str]
    first: int
    type: NumberType

    def shift(self) -> int:
        """By how much it is moved down, to be read as a number."""
        return STATE_BITS - self.first - self.type.width

    def ones(self) -> int:
        """As many ones as it has bits."""
        return (1 << self.type.width) - 1


# Gives a name to a function of a class, at the first bit of what it works on.
Callee = Callable[[trees.Function, int], str]


class Expressions:
    """Makes the text of expressions in a function of an element."""

    def __init__(self, kind: int, first: int, offsets: list[int], callee: Callee) -> None:
        self.kind = kind
        self.first = first
        self.offsets = offsets
        self.callee = callee
        self.temporaries = 0

    def temporary(self) -> str:
        """A name that stands nowhere else in the function."""
        self.temporaries += 1
        return f"t{self.temporaries}"

    def expr(self, it: trees.Expr) -> Made:
        """The text of an expression, in brackets where that matters."""
        if isinstance(it, trees.Number):
            return Made(str(it.value), it.value, it.value)
        if isinstance(it, trees.Truth):
            return Made(str(it.value), 0, 1)
        if isinstance(it, trees.Group):
            return self.expr(it.inner)
        if isinstance(it, trees.Path):
            return self.path(it)
        if isinstance(it, trees.Call):
            return self.call(it)
        if isinstance(it, trees.Index):
            return self.index(it)
        if isinstance(it, trees.Instance):
            return Made(str(first_atom(it.of.type)))
        if isinstance(it, trees.Cast):
            return self.cast(self.expr(it.value), it.of.type)
        if isinstance(it, trees.Prefix):
            return self.prefix(it)
        if isinstance(it, trees.Is):
            kind = it.of.type.number if isinstance(it.of.type, trees.Class) else 0
            return Made(f"({self.expr(it.value).text} >> {KIND} == {kind})", 0, 1)
        if isinstance(it, trees.As):
            assert isinstance(it.of.type, trees.Class)
            return Made(f"({self.path(it.path).text} >> {KIND} == {it.of.type.number})", 0, 1)
        assert isinstance(it, trees.Pair)
        return self.operate(it.sign, self.expr(it.left), self.expr(it.right), it.type)

    # Numbers

    def cast(self, made: Made, to: Type) -> Made:
        """What a value becomes that is stored in a type."""
        if not isinstance(to, NumberType) or to.least() <= made.least and made.greatest <= to.greatest():
            return made
        if to.kind == "Bool":
            return Made(f"({made.text} != 0)", 0, 1)
        if to.kind == "Bits":
            return Made(f"({made.text} & {to.greatest()})", 0, to.greatest())
        return self.clamped(made, to)

    def clamped(self, made: Made, to: NumberType) -> Made:
        """The nearest number in the range of a type."""
        least, most = to.least(), to.greatest()
        if least <= made.least and made.greatest <= most:
            return made
        t = self.temporary()
        if made.least >= least:
            text = f"({t} if ({t} := {made.text}) <= {most} else {most})"
        elif made.greatest <= most:
            text = f"({t} if ({t} := {made.text}) >= {least} else {least})"
        else:
            text = f"({t} if {least} <= ({t} := {made.text}) <= {most} else {least} if {t} < {least} else {most})"
        return Made(text, min(max(made.least, least), most), max(min(made.greatest, most), least))

    def prefix(self, it: trees.Prefix) -> Made:
        """`-e`, `!e` and `~e`"""
        value = self.expr(it.value)
        assert isinstance(it.type, NumberType)
        if it.sign == "-":
            return self.clamped(Made(f"(-{value.text})", -value.greatest, -value.least), it.type)
        if it.sign == "!":
            return Made(f"(not {value.text})", 0, 1)
        return Made(f"(~{value.text} & {it.type.greatest()})", 0, it.type.greatest())

    def operate(self, sign: str, a: Made, b: Made, type: Type) -> Made:
        """The result of an operator, which has a type."""
        assert isinstance(type, NumberType)
        if sign in ("&&", "||"):
            return Made(f"({a.text} {'and' if sign == '&&' else 'or'} {b.text})", 0, 1)
        if sign in ("<<", ">>"):
            count = b.text if sign == "<<" else f"-{b.text}"
            text = f"({a.text} {sign} {b.text} & {type.greatest()})" if b.greatest < 64 else f"(shifted({a.text}, {count}) & {type.greatest()})"
            return Made(text, 0, type.greatest())
        if sign in ("&", "|", "^"):
            return Made(f"({a.text} {sign} {b.text})", 0, type.greatest())
        if sign in ("+", "-", "*", "/", "%"):
            return self.clamped(calculated(sign, a, b), type)
        return Made(f"({a.text} {sign} {b.text})", 0, 1)

    # Names and members

    def path(self, it: trees.Path) -> Made:
        """What a path names, as a value."""
        last = it.steps[-1]
        if isinstance(last, trees.Self):
            return Made(self.acting())
        if isinstance(last, trees.Constant):
            return Made(str(last.value), last.value, last.value)
        if isinstance(last, trees.Field):
            bits = self.bits(it)
            return self.loaded(f"{bits.local or self.acting()} >> {bits.shift()}", bits)
        name = local_name(last)
        type = last.of.type if isinstance(last, trees.Local) else trees.ATOM
        return Made(name, *range_of(type))

    def acting(self) -> str:
        """The text of the acting atom, once it is sure that site 0 has its type."""
        return f"(s if (s := g[p]) >> {KIND} == {self.kind} else fail(6))"

    def loaded(self, moved: str, bits: Bits) -> Made:
        """The number in the low bits of a text."""
        text = f"({moved} & {bits.ones()})"
        if bits.type.kind == "Int":
            half = 1 << bits.type.width - 1
            text = f"(({moved} & {bits.ones()} ^ {half}) - {half})"
        elif bits.type.kind == "Unary":
            text = f"ones({text})"
        return Made(text, *range_of(bits.type))

    def start(self, path: trees.Path) -> tuple[Optional[str], int]:
        """The local that a path goes through, if it does, and the first bit of what it names or whose function it names."""
        local, first = None, self.first
        for step in path.steps:
            if isinstance(step, (trees.Local, trees.Seen)):
                local, first = local_name(step), 0
            elif isinstance(step, trees.Field):
                first += step.first
        return local, first

    def bits(self, path: trees.Path) -> Bits:
        """The data member that a path names: for an array, its first item."""
        last = path.steps[-1]
        assert isinstance(last, trees.Field) and isinstance(last.of.type, NumberType)
        return Bits(*self.start(path), last.of.type)

    # Indices and calls

    def index(self, it: trees.Index) -> Made:
        """`ew[i]` and `a[i]`"""
        last = it.path.steps[-1]
        i = self.expr(it.index)
        if isinstance(last, trees.Field) and last.length:
            t = self.temporary()
            return self.item(self.bits(it.path), f"({t} := {i.text})", t, last.length)
        return Made(f"g[{self.site(i)}]")

    def item(self, bits: Bits, i: str, t: str, length: int) -> Made:
        """Item i of an array, where t has the value of i by then."""
        return self.loaded(f"{self.item_atom(bits, i, length)} >> {bits.shift()} - {bits.type.width} * {t}", bits)

    def item_atom(self, bits: Bits, i: str, length: int) -> str:
        """The atom whose array has an item i."""
        return f"part({bits.local}, {i}, {length})" if bits.local else f"item(p, {self.kind}, {i}, {length})"

    def site(self, i: Made) -> str:
        """The place of a site. What is sure to be one number may still draw or call, so only a number itself is left out."""
        if i.text.isdigit() and int(i.text) < len(self.offsets):
            offset = self.offsets[int(i.text)]
            return f"p + {offset}" if offset > 0 else f"p - {-offset}" if offset else "p"
        return f"p + {'offsets' if 0 <= i.least and i.greatest < len(self.offsets) else 'sites'}[{i.text}]"

    def call(self, it: trees.Call) -> Made:
        """A call."""
        last = it.path.steps[-1]
        args = [self.expr(arg) for arg in it.args]
        if isinstance(last, str):
            return self.built_in(last, args)
        assert isinstance(last, trees.Function)
        given = [self.cast(arg, of.type).text for arg, (of, _) in zip(args, last.params)]
        text = f"{self.callee(last, self.start(it.path)[1])}({', '.join(['p', 'd + 1', *given])})"
        return Made(text, *range_of(last.of.type))

    def built_in(self, name: str, args: list[Made]) -> Made:
        """A call of the window or of random numbers."""
        if name == "swap":
            return Made(f"swap(p, {args[0].text}, {args[1].text})")
        if name == "isLive":
            return Made(f"live[{self.site(args[0])}]", 0, 1)
        if name == "isEmpty":
            return Made(f"(not g[{self.site(args[0])}])", 0, 1)
        below = f"below({args[0].text})"
        return Made(below, 0, max(args[0].greatest - 1, 0)) if name == "create" else Made(f"(not {below})", 0, 1)


def calculated(sign: str, a: Made, b: Made) -> Made:
    """The exact result of arithmetic, with the range that it has for sure."""
    if sign == "+":
        return Made(f"({a.text} + {b.text})", a.least + b.least, a.greatest + b.greatest)
    if sign == "-":
        return Made(f"({a.text} - {b.text})", a.least - b.greatest, a.greatest - b.least)
    if sign == "*":
        ends = [x * y for x in a[1:] for y in b[1:]]
        return Made(f"({a.text} * {b.text})", min(ends), max(ends))
    most = max(-a.least, a.greatest)
    if a.least >= 0 and b.least >= 0:
        return Made(f"({a.text} {'//' if sign == '/' else '%'} {b.text})", 0, most if sign == "/" else min(most, max(b.greatest - 1, 0)))
    return Made(f"{'quotient' if sign == '/' else 'remainder'}({a.text}, {b.text})", -most, most)


def range_of(type: Type) -> tuple[int, int]:
    """The least and the greatest number of a type."""
    return (type.least(), type.greatest()) if isinstance(type, NumberType) else (0, 0)


def first_atom(type: Type) -> int:
    """The atom of an element with state 0; the empty atom for any other type."""
    return type.number << KIND if isinstance(type, trees.Class) else 0


def local_name(step: trees.Step) -> str:
    """The name of a local in the text."""
    local = step.what if isinstance(step, trees.Seen) else step
    assert isinstance(local, trees.Local)
    return f"v{local.number}"
