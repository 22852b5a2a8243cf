"""What a sweep sets, and to which values."""
import re
from collections.abc import Mapping, Sequence
from dataclasses import dataclass, replace
from decimal import Decimal
from fractions import Fraction

from ..base.errors import LabError
from ..base.limits import LEAST_SIDE, MOST_ACROSS, MOST_ATTEMPTS, MOST_SIDE
from ..formats.constants import constants
from ..formats.world import World
from ..worlds.fill import filled

SETTING = re.compile(r"(?P<name>\w+(?:\.\w+)?)=(?P<values>[^\s,]+(?:,[^\s,]+)*)")
WORD = re.compile(r"-?\w+(?:\.\d+)?")
NUMBER = r"-?\d+(?:\.\d+)?"
RANGE = re.compile(f"(?P<first>{NUMBER}):(?P<last>{NUMBER})(?::(?P<step>{NUMBER}))?")
IN_BRACES = re.compile(r"\{(\w+)\}")
PAIR = re.compile(r"(\d+)x(\d+)")
OF_WORLD = ("attempts", "size", "tiles")
FILL = "fill."
MOST_VALUES = 100_000
FORM = "it has to be Element.constant=A,B,.. or =FIRST:LAST:STEP, with numbers or truth values"


@dataclass(frozen=True)
class Setting:
    """An option with its text: --set, or --with, whose values go with those of the --set before it, one by one; or one that has
    names in braces, whose values are set."""

    option: str
    text: str

    def __str__(self) -> str:
        return f"{self.option} {self.text}"


@dataclass(frozen=True)
class Settings:
    """What is set, to which values, and the names whose values go together; every combination of these groups is run."""

    sets: dict[str, list[str]]
    together: list[list[str]]


def settings(options: Sequence[Setting], texts: Sequence[str], elements: Sequence[str], acts: Sequence[Setting]) -> Settings:
    """What the options name, and the values of each, for element files with these texts.

    A name is that of a constant, Element.constant; of a number of the world, `attempts`, `size` or `tiles`; of
    a density, fill.Element; or one that stands in braces in an act, which is the text of an --at or of --noise.
    """
    own = [constant.name for text in texts for constant in constants(text)]
    in_acts = {name for act in acts for name in IN_BRACES.findall(act.text)}
    known = {*own, *OF_WORLD, *in_acts, *(FILL + element for element in elements)}
    found = Settings({}, [])
    for option in options:
        match = SETTING.fullmatch(option.text)
        if match is None:
            raise LabError(f"{option}: {FORM}")
        name = match["name"]
        if name not in known:
            raise LabError(f"{option}: the files have no constant {name}; they have {', '.join(own) or 'none'}; "
                           f"of the world there are {', '.join(OF_WORLD)} and {FILL}Element")
        if name in found.sets:
            raise LabError(f"{option.option} {name}: it is given twice")
        put(found, option, name, [value for part in match["values"].split(",") for value in values_of(option, part)])
    refuse_open(acts, found.sets)
    return found


def put(found: Settings, option: Setting, name: str, values: list[str]) -> None:
    """Puts the values of an option to the others. Refuses --with if it has no --set before it, or another number of values."""
    if option.option == "--set":
        found.together.append([name])
    elif not found.together:
        raise LabError(f"{option}: its values go with those of a --set before it, and there is none")
    else:
        first = found.together[-1][0]
        if len(found.sets[first]) != len(values):
            raise LabError(f"{option}: values: {len(values)}, and of --set {first} there are {len(found.sets[first])}; "
                           "they go together, one by one")
        found.together[-1].append(name)
    found.sets[name] = values


def refuse_open(acts: Sequence[Setting], sets: Mapping[str, object]) -> None:
    """Refuses acts with a name in braces that has no values."""
    for act in acts:
        for name in IN_BRACES.findall(act.text):
            if name not in sets:
                raise LabError(f"{act}: {name} has no values; give them by --set {name}=A,B,..")


def values_of(option: Setting, part: str) -> list[str]:
    """The values that a part of an option stands for: itself, or those of a range, both ends among them."""
    match = RANGE.fullmatch(part)
    if match is None:
        if WORD.fullmatch(part) is None:
            raise LabError(f"{option}: {FORM}")
        return [part]
    first, last, step = Decimal(match["first"]), Decimal(match["last"]), Decimal(match["step"] or 1)
    if step == 0 or (last - first) / step < 0:
        raise LabError(f"{option}: by steps of {step} {first} never comes to {last}")
    count = int((last - first) / step) + 1
    if count > MOST_VALUES:
        raise LabError(f"{option}: {count} values, at most {MOST_VALUES}")
    return [f"{first + step * turn:f}" for turn in range(count)]


def set_world(world: World, values: Mapping[str, str], seed: int) -> World:
    """The world with those of the values that are its own: attempts, size, tiles and densities."""
    world = sized(world, values)
    told = ", ".join(f"{name}={values[name]}" for name in values if name in OF_WORLD)
    if any(atom.x >= world.columns or atom.y >= world.rows for atom in world.atoms):
        raise LabError(f"--set {told}: atoms of the world lie outside of {world.columns} by {world.rows} sites")
    if any(tile >= world.tiles for tile in world.off):
        raise LabError(f"--set {told}: the world has tiles off that aren't there")
    most = MOST_ATTEMPTS // max(1, world.tiles - len(world.off))
    if world.attempts is not None and world.attempts > most:
        raise LabError(f"--set {told}: a tile may have up to {most} attempts here, not {world.attempts}")
    densities = {name.removeprefix(FILL): density(name, value) for name, value in values.items() if name.startswith(FILL)}
    if sum(densities.values()) > 1:
        raise LabError(f"--set {FILL}..: the densities come to {float(sum(densities.values())):g}, above 1")
    return filled(world, densities, seed) if densities else world


def sized(world: World, values: Mapping[str, str]) -> World:
    """The world with those of the values that are its numbers: attempts, size and tiles."""
    for name in values.keys() & set(OF_WORLD):
        world = with_number(world, name, values[name])
    return world


def with_number(world: World, name: str, value: str) -> World:
    """The world with another number of attempts, or another size of a tile or of the plane in tiles."""
    if name == "attempts":
        if not value.isdecimal():
            raise LabError(f"--set attempts={value}: it is no number of attempts")
        return replace(world, attempts=int(value))
    least, most = (LEAST_SIDE, MOST_SIDE) if name == "size" else (1, MOST_ACROSS)
    match = PAIR.fullmatch(value)
    across, down = map(int, match.groups()) if match is not None else (0, 0)
    if not (least <= across <= most and least <= down <= most):
        raise LabError(f"--set {name}={value}: it has to be AxB, both from {least} to {most}")
    return replace(world, width=across, height=down) if name == "size" else replace(world, tiles_x=across, tiles_y=down)


def density(name: str, value: str) -> Fraction:
    """The part of the sites that a value of fill.Element says."""
    if re.fullmatch(NUMBER, value) is None or not 0 <= Decimal(value) <= 1:
        raise LabError(f"--set {name}={value}: a density is from 0 to 1")
    return Fraction(value)
