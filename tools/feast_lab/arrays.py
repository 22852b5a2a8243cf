"""Lists of entries as NumPy's structured arrays, and as frames of pandas where that is installed."""
import importlib
from collections.abc import Collection, Mapping, Sequence
from typing import Any

from .lab.base.errors import LabError

try:
    import numpy
    from numpy.typing import NDArray
except ImportError as error:
    raise ImportError("feast_lab needs the package numpy, which is not installed (./lab needs no package)") from error

Array = NDArray[Any]
masked: Any = numpy.ma  # its stubs have no types
Row = dict[str, Any]
HEX = 16  # the digits of a seed, which end each line of a journal
EVENT = (("stamp", "u8"), ("tile", "u1"), ("attempt", "u8"), ("x", "u2"), ("y", "u2"), ("seed", "u8"))
ABANDONED = (("tile", "u1"), ("attempt", "u8"), ("x", "u2"), ("y", "u2"), ("edge", "u2"), ("holder", "u1"),
             ("holder_attempt", "u8"))
NULLABLE = {"i": "Int64", "u": "UInt64"}  # pandas' types of whole numbers that may be missing, by NumPy's kinds


def extra(name: str, what: str) -> Any:
    """A package that need not be installed. Raises LabError, which says what for, if it isn't."""
    try:
        return importlib.import_module(name)
    except ImportError:
        raise LabError(f"{what} needs the package {name.partition('.')[0]}, which is not installed") from None


def events(journal: bytes) -> Array:
    """The events of the lines of a journal, with the fields of EVENT."""
    letters = numpy.frombuffer(journal, "u1").copy()
    ends = numpy.flatnonzero(letters == ord("\n"))
    found = numpy.empty(len(ends), list(EVENT))
    digits = letters[ends[:, None] + numpy.arange(-HEX, 0)]
    found["seed"] = numpy.frombuffer(bytes.fromhex(digits.tobytes().decode()), ">u8")
    for back in range(1, HEX + 1):
        letters[ends - back] = ord(" ")
    fill(found, [name for name, _ in EVENT[:-1]], letters.tobytes())
    return found


def abandoned(lines: bytes) -> Array:
    """The abandoned attempts of their lines in a report, with the fields of ABANDONED."""
    found = numpy.empty(lines.count(b"\n"), list(ABANDONED))
    fill(found, [name for name, _ in ABANDONED], lines)
    return found


def fill(array: Array, names: Sequence[str], text: bytes) -> None:
    """Fills fields of an array with the numbers of a text, row by row."""
    numbers = numpy.fromstring(text.decode(), "u8", sep=" ").reshape(len(array), len(names))
    for column, name in enumerate(names):
        array[name] = numbers[:, column]


def kind_of(least: int, greatest: int) -> str:
    """NumPy's kind of whole numbers of a range, all of which it has exactly; beyond 64 bits they are Python's own."""
    if least >= -(1 << 63) and greatest < 1 << 63:
        return "i8"
    return "u8" if least >= 0 and greatest < 1 << 64 else "O"


def columns(rows: Sequence[Row], kinds: Mapping[str, str]) -> Array:
    """Rows as a masked structured array, whose fields have these names and NumPy's kinds. What is None in a row is masked."""
    data = [tuple(0 if row[name] is None else row[name] for name in kinds) for row in rows]
    lacks = [tuple(row[name] is None for name in kinds) for row in rows]
    found: Array = masked.array(numpy.array(data, list(kinds.items())), mask=numpy.array(lacks, [(name, "?") for name in kinds]))
    return found


def table(rows: Sequence[Row], kinds: Mapping[str, str]) -> Array:
    """Rows as a structured array, whose fields have these names and NumPy's kinds; no value is missing."""
    return numpy.array([tuple(row[name] for name in kinds) for row in rows], list(kinds.items()))


def frame(data: Array, optional: Collection[str] = ()) -> Any:
    """A structured array as a frame of pandas. Columns that may lack values, the optional ones, have pandas' types for that."""
    pandas = extra("pandas", "a frame")
    return pandas.DataFrame({name: series(pandas, data[name], name in optional) for name in data.dtype.names or ()})


def series(pandas: Any, column: Array, is_optional: bool) -> Any:
    """The values of a column for pandas."""
    lacks = masked.getmaskarray(column)
    if is_optional and column.dtype.kind in NULLABLE:
        return pandas.arrays.IntegerArray(numpy.array(masked.getdata(column)), lacks)
    if is_optional and column.dtype.kind == "f":
        return masked.filled(column, numpy.nan)
    return [None if lack else value for value, lack in zip(column, lacks)] if is_optional else numpy.array(masked.getdata(column))
