"""States are taken apart and put together as the program does it."""
import random

from calls import LabCase, feast, program

from feast_lab.lab.base.errors import LabError
from feast_lab.lab.base.program import Program
from feast_lab.lab.formats.layout import Layout

# an element with a member of each kind, whose event gives each of them a value
ELEMENT = """quark Part {{ Int(5) a; Bool b; Unary(3) u; Bits(2) c; }}
element All {{
  typedef Unsigned(3) Small;
  Int(4) i; Unsigned(7) n; Unary(6) u; Bits(8) b; Bool f; Int(3) l[4]; Part p; Bool g[3]; Small s; Unary(2) v[2];
  EventWindow ew;
  Void behave() {{
    i = {i}; n = {n}u; u = {u}u; b = {b}; f = {f}; l[0] = {l[0]}; l[1] = {l[1]}; l[2] = {l[2]}; l[3] = {l[3]};
    p.a = {p.a}; p.b = {p.b}; p.u = {p.u}u; p.c = {p.c}; g[0] = {g[0]}; g[1] = {g[1]}; g[2] = {g[2]}; s = {s}u;
    v[0] = {v[0]}u; v[1] = {v[1]}u;
  }}
}}
element Wide {{ Unsigned(64) low; Bits(7) rest; EventWindow ew; Void behave() {{ }} }}
element None {{ EventWindow ew; Void behave() {{ }} }}
"""
RANGES = {"i": (-8, 7), "n": (0, 127), "u": (0, 6), "b": (0, 255), "f": (0, 1)}
RANGES |= {f"l[{at}]": (-4, 3) for at in range(4)}
RANGES |= {"p.a": (-16, 15), "p.b": (0, 1), "p.u": (0, 3), "p.c": (0, 3)}
RANGES |= {f"g[{at}]": (0, 1) for at in range(3)} | {"s": (0, 7), "v[0]": (0, 2), "v[1]": (0, 2)}
# values, and the bits that they are by hand, member by member
BY_HAND = [
    ("i", -2, "1110"), ("n", 5, "0000101"), ("u", 2, "000011"), ("b", 0xa1, "10100001"), ("f", 1, "1"),
    ("l[0]", 3, "011"), ("l[1]", -4, "100"), ("l[2]", 0, "000"), ("l[3]", -1, "111"),
    ("p.a", -16, "10000"), ("p.b", 1, "1"), ("p.u", 3, "111"), ("p.c", 1, "01"),
    ("g[0]", 1, "1"), ("g[1]", 0, "0"), ("g[2]", 1, "1"), ("s", 6, "110"), ("v[0]", 1, "01"), ("v[1]", 2, "11"),
]
WORLD = "feast 1\ntiles 1 1\nsize 8 8\ntry 0 1 4 0000000000000000\natom 1 4 All\n"


def source(values: dict[str, int]) -> str:
    """The element, with these values."""
    text = ELEMENT
    for name, value in values.items():
        is_truth = RANGES[name] == (0, 1)
        text = text.replace(f"{{{name}}}", str(bool(value)).lower() if is_truth else str(value))
    return text.replace("{{", "{").replace("}}", "}")


class Layouts(LabCase):
    """Layouts of elements."""

    def layout(self, values: dict[str, int]) -> Layout:
        """The layout of the element."""
        return Layout.of(Program(program()), [self.file("all.ulam", source(values))])

    def test_by_hand(self) -> None:
        values = {name: value for name, value, _ in BY_HAND}
        bits = "".join(bits for *_, bits in BY_HAND).ljust(71, "0")
        layout = self.layout(values)
        self.assertEqual(f"{layout.encode('All', values):071b}", bits)
        self.assertEqual(layout.decode("All", int(bits, 2)), list(values.items()))

    def test_as_the_program_does(self) -> None:
        draw = random.Random(20)
        for _ in range(30):
            values = {name: draw.randint(*between) for name, between in RANGES.items()}
            layout = self.layout(values)
            report = feast("run", self.file("w", WORLD), self.room / "all.ulam")
            state = int(report.splitlines()[2].split()[3], 16)
            self.assertEqual(layout.decode("All", state), list(values.items()))
            self.assertEqual(layout.encode("All", values), state)

    def test_edges_of_the_state(self) -> None:
        layout = self.layout(dict.fromkeys(RANGES, 0))
        state = layout.encode("Wide", {"low": 2**63 + 1, "rest": 0x41})
        self.assertEqual(f"{state:018x}", "4000000000000000c1")
        self.assertEqual(layout.decode("Wide", state), [("low", 2**63 + 1), ("rest", 0x41)])
        self.assertEqual((layout.elements, layout.decode("None", 5)), (["All", "Wide", "None"], []))

    def test_bits_of_unary_are_counted(self) -> None:
        layout = self.layout(dict.fromkeys(RANGES, 0))
        state = int("0" * 11 + "101101" + "0" * 54, 2)
        self.assertEqual(dict(layout.decode("All", state))["u"], 4)

    def test_out_of_range(self) -> None:
        layout = self.layout(dict.fromkeys(RANGES, 0))
        for name, (least, most) in RANGES.items():
            for value in (least, most):
                layout.encode("All", {name: value})
            for value in (least - 1, most + 1):
                with self.assertRaises(LabError) as raised:
                    layout.encode("All", {name: value})
                self.assertIn(f"All.{name} can't be {value}: it goes from {least} to {most}", str(raised.exception))
