"""Element files of random, well typed elements, and worlds for them: what no one would write, and all that they may."""
import random
from collections.abc import Callable

from feast_lab.lab.base.limits import STATE_BITS

WIDTHS = {"Int": (2, 64), "Unsigned": (1, 64), "Bits": (1, 64), "Unary": (1, 40), "Bool": (1, 1)}
CLASSES = {"Int": "Int", "Unsigned": "Unsigned", "Unary": "Unsigned", "Bits": "Bits", "Bool": "Bool"}


class Drawer:
    """Draws the text of a file with two elements, which have a base and a quark as a member."""

    def __init__(self, seed: int) -> None:
        self.draws = random.Random(seed)
        self.names = ["First", "Second"]
        self.arrays: dict[str, list[tuple[str, str, int]]] = {name: [] for name in self.names}  # name, class, length
        self.numbers: dict[str, list[str]] = {}  # what can be read and written, by class
        self.atoms: list[str] = []
        self.calls: dict[str, list[str]] = {}
        self.is_in_element = True

    def one(self, *ways: Callable[[], str]) -> str:
        """What one of the ways gives."""
        return self.draws.choice(ways)()

    def kind(self, least_bits: int) -> tuple[str, int]:
        """A kind of number, and a width that is at most so many bits."""
        kind = self.draws.choice(list(WIDTHS))
        least, most = WIDTHS[kind]
        return (kind, self.draws.randint(least, min(most, least_bits))) if least <= least_bits else ("Bool", 1)

    @staticmethod
    def typed(kind: str, width: int) -> str:
        """A type as a source has it."""
        return "Bool" if kind == "Bool" else f"{kind}({width})"

    def text(self) -> str:
        """The file."""
        base = ("quark Root {\n  EventWindow ew;\n  Random random;\n  Unsigned(3) rank;\n"
                "  virtual Int twist(Int by) { return by; }\n}\n")
        self.is_in_element = False
        self.begin({"Unsigned": ["low"], "Int": ["high"]})
        part = ("quark Part {\n  Unsigned(3) low;\n  Int(5) high;\n  Random random;\n  EventWindow ew;\n"
                f"  Unsigned grow(Unsigned by) {{ low = low + by; {self.statement(1)} return {self.unsigned(2)}; }}\n}}\n")
        self.is_in_element = True
        return base + part + "".join(self.element(name) for name in self.names)

    def index(self, length: int) -> str:
        """An index of an array, seldom one past its end."""
        return self.draws.choice([str(self.draws.randrange(length)), f"rank % {length}u", f"rank % {length}u", "rank"])

    def begin(self, numbers: dict[str, list[str]]) -> None:
        """Begins a scope with these names."""
        self.numbers = {kind: list(numbers.get(kind, [])) for kind in ("Int", "Unsigned", "Bits", "Bool")}
        self.atoms = []
        self.calls = {}

    def element(self, name: str) -> str:
        """An element: the base's rank has 3 bits, the part 8."""
        members, left = ["  Part part;"], STATE_BITS - 3 - 8
        names: dict[str, list[str]] = {"Unsigned": ["rank", "part.low"], "Int": ["part.high"], "Bits": [], "Bool": []}
        for at in range(self.draws.randint(2, 6)):
            if left < 2:
                break
            length = self.draws.choice([0, 0, self.draws.randint(1, 4)])
            kind, width = self.kind(max(left // max(length, 1), 1))
            if width * max(length, 1) > left:
                continue
            left -= width * max(length, 1)
            members.append(f"  {self.typed(kind, width)} m{at}{f'[{length}]' if length else ''};")
            names[CLASSES[kind]].append(f"m{at}[{self.index(length)}]" if length else f"m{at}")
            if length:
                self.arrays[name].append((f"m{at}", CLASSES[kind], length))
        self.begin(names)
        twist = (f"  Int twist(Int by) {{ {self.statement(2)} return by + {self.signed(2)}; }}\n"
                 "  Int dive(Unsigned deep) { if (deep > 0) return dive(deep - 1); return twist(rank2()); }\n"
                 "  Int rank2() { return (Int) rank; }\n")
        self.calls = {"Int": [f"twist({self.signed(1)})", f"dive({self.draws.randint(0, 16)})"],
                      "Unsigned": [f"part.grow({self.unsigned(1)})"]}
        return (f"element {name} : Root {{\n" + "".join(f"{line}\n" for line in members) + twist
                + f"  Void behave() {{\n{self.body()}  }}\n}}\n")

    def body(self) -> str:
        """The statements of `behave`, with locals of all kinds."""
        lines = []
        for kind, name in [("Int", "i"), ("Unsigned", "u"), ("Bits", "b"), ("Bool", "t")]:
            width = self.draws.randint(*WIDTHS[kind])
            lines.append(f"    {self.typed(kind, width)} {name} = {self.value(kind, 2)};")
            self.numbers[kind].append(name)
        lines.append(f"    Atom a = {self.atom()};")
        self.atoms.append("a")
        lines += [f"    {self.statement(3)}" for _ in range(self.draws.randint(2, 7))]
        return "".join(f"{line}\n" for line in lines)

    def value(self, kind: str, deep: int) -> str:
        """A value of a class of numbers."""
        ways: dict[str, Callable[[int], str]] = {
            "Int": self.signed, "Unsigned": self.unsigned, "Bits": self.bits, "Bool": self.truth}
        return ways[kind](deep)

    def known(self, kind: str) -> str:
        """Something with a value of a class, or a number."""
        choice = self.numbers[kind] + self.calls.get(kind, [])
        return self.draws.choice(choice) if choice and self.draws.random() < 0.7 else self.plain(kind)

    def plain(self, kind: str) -> str:
        """A number of a class."""
        number = self.draws.choice([0, 1, 2, 3, 7, 40, 1000, 2**31 - 1, self.draws.getrandbits(31)])
        if kind == "Bool":
            return self.draws.choice(["true", "false"])
        width = self.draws.randint(*WIDTHS[kind])
        return f"({kind}({width})) {number}"

    def cast(self, kind: str, deep: int) -> str:
        """A value of another class, made one of this class."""
        other = self.draws.choice(["Int", "Unsigned", "Bits", "Bool"])
        return f"({self.typed(kind, self.draws.randint(*WIDTHS[kind]))}) ({self.value(other, deep)})"

    def signed(self, deep: int) -> str:
        """A value of class Int."""
        if deep == 0:
            return self.known("Int")
        sign = self.draws.choice("++---***/%")
        return self.one(lambda: self.known("Int"), lambda: f"({self.signed(deep - 1)} {sign} {self.signed(deep - 1)})",
                        lambda: f"-({self.signed(deep - 1)})", lambda: self.cast("Int", deep - 1))

    def unsigned(self, deep: int) -> str:
        """A value of class Unsigned."""
        if deep == 0:
            return self.known("Unsigned")
        sign = self.draws.choice("++---***/%")
        return self.one(lambda: self.known("Unsigned"), lambda: self.cast("Unsigned", deep - 1),
                        lambda: f"({self.unsigned(deep - 1)} {sign} {self.unsigned(deep - 1)})",
                        lambda: f"random.create({self.bound()})")

    def bits(self, deep: int) -> str:
        """A value of class Bits."""
        if deep == 0:
            return self.known("Bits")
        sign = self.draws.choice("&|^")
        shift = self.draws.choice(["<<", ">>"])
        return self.one(lambda: self.known("Bits"), lambda: self.cast("Bits", deep - 1), lambda: f"~({self.bits(deep - 1)})",
                        lambda: f"({self.bits(deep - 1)} {sign} {self.bits(deep - 1)})",
                        lambda: f"({self.bits(deep - 1)} {shift} ({self.unsigned(deep - 1)} % 70u))")

    def truth(self, deep: int) -> str:
        """A truth value."""
        if deep == 0:
            return self.known("Bool")
        order = self.draws.choice(["<", "<=", ">", ">=", "==", "!="])
        same = self.draws.choice(["==", "!="])
        both = self.draws.choice(["&&", "||"])
        return self.one(lambda: self.known("Bool"), lambda: f"!({self.truth(deep - 1)})",
                        lambda: f"({self.signed(deep - 1)} {order} {self.signed(deep - 1)})",
                        lambda: f"({self.unsigned(deep - 1)} {order} {self.unsigned(deep - 1)})",
                        lambda: f"({self.bits(deep - 1)} {same} {self.bits(deep - 1)})",
                        lambda: f"({self.truth(deep - 1)} {both} {self.truth(deep - 1)})",
                        lambda: f"ew.isLive({self.site()})", lambda: f"ew.isEmpty({self.site()})",
                        lambda: f"random.oneIn({self.bound()})",
                        lambda: f"({self.atom()} is {self.draws.choice([*self.names, 'Empty'])})")

    def site(self) -> str:
        """The number of a site, and seldom of none."""
        return self.one(lambda: str(self.draws.randint(0, 4)), lambda: str(self.draws.randint(0, 40)),
                        lambda: f"({self.unsigned(1)}) % 41u", lambda: "random.create(4) + 1",
                        lambda: "random.create(40) + 1",
                        lambda: self.draws.choice(["41", "-1", self.unsigned(1), *[self.numbers["Unsigned"][0]] * 5]))

    def bound(self) -> str:
        """A bound of a random number, and seldom 0."""
        return self.one(lambda: str(self.draws.randint(1, 9)), lambda: f"({self.unsigned(0)}) + 1u",
                        lambda: f"({self.unsigned(1)}) % 1000u + 1u",
                        lambda: str(self.draws.choice(["0", "4000000000u", self.unsigned(0), *"23456"])))

    def atom(self) -> str:
        """An atom."""
        ways = [lambda: f"ew[{self.site()}]", lambda: f"{self.draws.choice(self.names)}.instanceof",
                lambda: "Empty.instanceof"]
        if self.is_in_element:
            ways.append(lambda: "self")
        if self.atoms:
            ways.append(lambda: self.draws.choice(self.atoms))
        return self.one(*ways)

    def statement(self, deep: int) -> str:
        """A statement."""
        if deep == 0:
            return self.assignment()

        def below() -> str:
            return self.statement(deep - 1)

        ways = [self.assignment, self.assignment, lambda: f"if ({self.truth(2)}) {{ {below()} }} else {{ {below()} }}",
                lambda: f"for (Unsigned k{deep} = 0; k{deep} < {self.draws.randint(0, 6)}; k{deep}++) {{ {below()} }}",
                lambda: f"while ({self.truth(1)}) {{ {below()} {self.draws.choice(['break;', 'break;', 'continue;'])} }}",
                lambda: f"ew.swap({self.site()}, {self.site()});", lambda: f"ew[{self.site()}] = {self.atom()};"]
        if "a" in self.atoms:
            ways.append(self.seen)
        if self.calls:
            ways.append(lambda: f"{self.draws.choice([call for calls in self.calls.values() for call in calls])};")
        return self.one(*ways)

    def seen(self) -> str:
        """A statement that sees an atom as one of an element, and reads and writes its members."""
        name = self.draws.choice(self.names)
        lines = [f"a.rank = {self.unsigned(1)};", "i = a.part.high - i;", f"a.part.high = {self.signed(1)};"]
        for array, kind, length in self.arrays[name]:
            lines.append(f"a.{array}[{self.index(length)}] = {self.value(kind, 1)};")
            lines.append(f"{self.draws.choice(self.numbers[kind])} = a.{array}[{self.index(length)}];")
        self.draws.shuffle(lines)
        return f"if (a as {name}) {{ {' '.join(lines)} ew[{self.site()}] = a; }}"

    def assignment(self) -> str:
        """An assignment to a member or a local."""
        kind = self.draws.choice([kind for kind, names in self.numbers.items() if names])
        name = self.draws.choice(self.numbers[kind])
        ways = [lambda: f"{name} = {self.value(kind, 2)};"]
        if kind in ("Int", "Unsigned"):
            sign = self.draws.choice("++---***/%")
            ways += [lambda: f"{name} {sign}= {self.value(kind, 1)};", lambda: f"{name}{self.draws.choice(['++', '--'])};"]
        if kind == "Bits":
            sign = self.draws.choice("&|^")
            ways += [lambda: f"{name} {sign}= {self.bits(1)};", lambda: f"{name} <<= {self.draws.randint(0, 5)}u;"]
        return self.one(*ways)


def world(seed: int, attempts: int) -> str:
    """A small world with many atoms of the two elements, in random states; now and then one of its tiles is off."""
    draws = random.Random(seed)
    across, down, wide, high = draws.randint(1, 3), draws.randint(1, 2), draws.randint(8, 12), draws.randint(8, 12)
    off = [draws.randrange(across * down)] if across * down > 1 and draws.random() < 0.3 else []
    lines = ["feast 2", f"tiles {across} {down}", f"size {wide} {high}", *(f"off {tile}" for tile in off),
             f"seed {seed * 100}", f"attempts {attempts}"]
    for y in range(down * high):
        for x in range(across * wide):
            if draws.random() < 0.4 and y // high * across + x // wide not in off:
                lines.append(f"atom {x} {y} {draws.choice(['First', 'Second'])} {draws.getrandbits(STATE_BITS):018x}")
    return "".join(f"{line}\n" for line in [*lines, f"order seed {seed * 100 + 50}"])
