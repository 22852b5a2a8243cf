"""An event that was made again, told in lines of text."""
from collections.abc import Callable, Iterator, Sequence
from dataclasses import dataclass

from ..base.limits import STATE_BITS
from ..film.recording import Recording
from ..formats.layout import Layout
from ..formats.report import JournalRecord
from ..machine.code import ElementCode
from ..machine.declarations import Declarations
from ..machine.event import CAUSES, Deed
from ..machine.maker import OFFSETS, REACH, STATE, MadeEvent, EventMaker
from ..pictures.marks import marks

WIDE = 5  # how many letters a site has in a picture
BETWEEN = 4


def described(layout: Layout, names: Sequence[str], atom: int) -> str:
    """An atom by its element and the values of its members."""
    name = names[atom >> STATE_BITS]
    members = layout.decode(name, atom & STATE) if atom else []
    return " ".join([name, *(f"{member}={value}" for member, value in members)])


@dataclass(frozen=True)
class Teller:
    """Tells an event."""

    maker: EventMaker
    codes: Sequence[ElementCode]
    recording: Recording
    declarations: Declarations

    def lines(self, number: int, record: JournalRecord, made: MadeEvent | None) -> Iterator[str]:
        """What the event did. `made` is nothing if its centre was empty."""
        yield (f"event {number} of {self.recording.ends[-1]}: attempt {record.attempt} of tile {record.tile}, "
               f"stamp {record.stamp}, at {record.x} {record.y}, seed {record.seed:016x}")
        if made is None:
            yield "The centre is empty, so the event changes nothing."
            return
        code = self.codes[made.acting - 1]
        ending = made.ending
        yield (f"{self.described(made.before[0])} acts, with {counted(ending.instructions, 'instruction')} "
               f"and {counted(ending.turns, 'turn')} of 1,000.")
        yield from ["", *self.pictures(made), "", "changed:"]
        yield from (f"  site {site} at {self.place(made, site)}: {self.described(made.before[site])} -> "
                    f"{self.described(made.after[site])}" for site in made.changed())
        if not made.changed():
            yield "  nothing"
        yield from ["", "what it did:", self.call(code, 0, 0)]
        yield from (self.deed(code, deed) for deed in made.deeds)
        if ending.cause:
            function = code.function_at(ending.place)
            yield from ["", f"It failed in {function.name} ({self.declarations.line(code.name, function)}) "
                            f"at instruction {ending.place}, {self.instruction(code, ending.place)}.",
                        f"Cause {ending.cause}: {CAUSES[ending.cause]}. All that it did was undone, and its own atom is gone."]

    def instruction(self, code: ElementCode, place: int) -> str:
        """An instruction, and the member that it reads or writes, if it does."""
        it = code.instructions[place]
        first = it.arguments[0] if it.name.endswith(("Field", "FieldAt")) else None
        found = [leaf.name for leaf in self.recording.layout.numbers(code.name) if leaf.first == first]
        return it.text() + (f" (member {found[0].partition('[')[0]})" if found else "")

    def described(self, atom: int) -> str:
        """An atom by its element and the values of its members."""
        return described(self.recording.layout, self.maker.names, atom)

    def place(self, made: MadeEvent, site: int) -> str:
        """The column and the row of a site."""
        dx, dy = OFFSETS[site]
        return f"{made.record.x + dx} {made.record.y + dy}"

    def pictures(self, made: MadeEvent) -> Iterator[str]:
        """The window before and after beside each other, and what the letters mean."""
        symbols = ["."] + [mark.symbol for mark in marks(self.recording.layout.elements, self.recording.files)]
        changed = set(made.changed())

        def letters(atoms: Sequence[int], site: int, is_after: bool) -> str:
            if not made.window.live[site]:
                return "-"
            return symbols[atoms[site] >> STATE_BITS] + ("*" if is_after and site in changed else "")

        wide = (2 * REACH + 1) * WIDE
        yield f"{'before':{wide + BETWEEN}}after"
        for dy in range(-REACH, REACH + 1):
            before = picture_row(dy, lambda site: letters(made.before, site, False))
            after = picture_row(dy, lambda site: letters(made.after, site, True))
            yield f"{before:{wide + BETWEEN}}{after}".rstrip()
        kinds = sorted({atom >> STATE_BITS for atom in (*made.before, *made.after)} - {0})
        yield ", ".join([*(f"{symbols[kind]} {self.maker.names[kind]}" for kind in kinds),
                         ". empty", "- not live", "* changed"])

    def call(self, code: ElementCode, number: int, depth: int) -> str:
        """A function that is called, and where it is declared."""
        function = code.functions[number]
        return f"{'  ' * (depth + 1)}{function.name} ({self.declarations.line(code.name, function)})"

    def deed(self, code: ElementCode, deed: Deed) -> str:
        """Something that the event did."""
        numbers = deed.numbers
        if deed.what == "call":
            return self.call(code, numbers[0], deed.depth)
        if deed.what == "draw":
            word, bound, is_one_in = numbers
            rest = word % bound
            gives = f"oneIn({bound}) is {str(rest == 0).lower()}" if is_one_in else f"create({bound}) is {rest}"
            text = f"random word {word:016x}: {gives}"
        elif deed.what == "swap":
            one, other, are_live = numbers
            text = f"swaps sites {one} and {other}" + ("" if are_live else ", without effect: they aren't both live")
        else:
            site, is_live, atom = numbers
            text = f"puts {self.described(atom)} at site {site}" + ("" if is_live else ", without effect: it isn't live")
        return f"{'  ' * (deed.depth + 2)}{text}"


def picture_row(dy: int, letters: Callable[[int], str]) -> str:
    """A row of a window, by the letters of its sites."""
    sites = {dx: site for site, (dx, down) in enumerate(OFFSETS) if down == dy}
    return "".join(f"{letters(sites[dx]) if dx in sites else '':{WIDE}}" for dx in range(-REACH, REACH + 1)).rstrip()


def counted(number: int, what: str) -> str:
    """So many of something, in words."""
    return f"{number:,} {what}{'' if number == 1 else 's'}"
