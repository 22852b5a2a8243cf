"""What a study says of several runs: means with intervals, times until something holds, and differences of pairs.

All take rows, such as those of a sweep, and give rows: structured arrays, of which `feast_lab.frame` makes frames.
"""
import math
from collections.abc import Iterator, Sequence

import numpy

from .lab.base.errors import LabError

from .arrays import Array, masked

STEPS = 200  # of a bisection, which are more than a float has bits


def means(rows: Array, column: str, by: str | Sequence[str] = (), level: float = 0.95) -> Array:
    """The mean of a column over the rows of each group that has the same values in the columns of `by`, with its confidence
    interval by Student's distribution.

    A row has these values, `runs` (how many rows have a number), `mean`, `low` and `high`. The interval is NaN for one run,
    and the mean for none. It holds for runs that are independent, so a group is to have one row of a run.
    """
    found = []
    for key, own in groups(rows, by):
        values = numbers(own, column)
        found.append((*key, len(values), *interval(values, level)))
    return numpy.array(found, [*kinds(rows, by), ("runs", "i8"), ("mean", "f8"), ("low", "f8"), ("high", "f8")])


def times(rows: Array, holds: Array, by: str | Sequence[str] = (), run: str = "run", time: str = "aeps") -> Array:
    """For each run the first time at which something holds: an array of truth values, one of a row, such as `rows["Ant"] == 0`.

    A row has the values of the columns of `by`, the run, `time`, and `is_over`: False for a run in which it never held,
    whose time is its last one (it is censored there).
    """
    held = masked.filled(masked.asarray(holds), False)
    if held.shape != rows.shape or held.dtype.kind != "b":
        raise LabError(f"times: `holds` has to have a truth value for each of the {len(rows)} rows")
    columns = [*names(by), run]
    found = []
    for key, own in groups(rows, columns, numpy.arange(len(rows))):
        when, over = masked.getdata(rows[time])[own], held[own]
        found.append((*key, when[over].min() if over.any() else when.max(), bool(over.any())))
    return numpy.array(found, [*kinds(rows, columns), ("time", "f8"), ("is_over", "?")])


def survival(found: Array) -> Array:
    """The part of the runs in which it doesn't hold yet, after Kaplan and Meier, of what `times` gives.

    A row for each time at which it began to hold in a run: `time`, `at_risk` (the runs that were still watched just before),
    `ended` (in how many it began to hold), and `part`.
    """
    rows, part = [], 1.0
    for time in numpy.unique(found["time"][found["is_over"]]):
        at_risk = int((found["time"] >= time).sum())
        ended = int(((found["time"] == time) & found["is_over"]).sum())
        part *= 1 - ended / at_risk
        rows.append((time, at_risk, ended, part))
    return numpy.array(rows, [("time", "f8"), ("at_risk", "i8"), ("ended", "i8"), ("part", "f8")])


def median_time(found: Array) -> float:
    """The first time by which it holds in half of the runs, after Kaplan and Meier; infinity if it never does."""
    curve = survival(found)
    past = curve["time"][curve["part"] <= 0.5 + 1e-12]
    return float(past[0]) if len(past) else math.inf


def paired(one: Array, other: Array, column: str, on: str | Sequence[str], by: str | Sequence[str] = (), level: float = 0.95) -> Array:
    """The difference of a column between rows of two studies that belong together: those with the same values in the
    columns of `on` (such as the seed) and of `by`. A chain and its control are such a pair.

    For each group of `by`: `pairs`, `mean` (of `one` less `other`), `low`, `high`, and Student's `t` and `p` (two sides) that
    the mean is 0. Refuses rows that have no partner, or several.
    """
    keys = [*names(by), *names(on)]
    found: dict[tuple[object, ...], list[Array]] = {}
    for rows in (one, other):
        for key, own in groups(rows, keys):
            if len(own) != 1:
                raise LabError(f"paired: {dict(zip(keys, key))} is in {len(own)} rows; on= has to name what tells rows apart")
            found.setdefault(key, []).append(numbers(own, column))
    differences: dict[tuple[object, ...], list[float]] = {}
    for key, values in found.items():
        if len(values) != 2:
            raise LabError(f"paired: {dict(zip(keys, key))} is in one of the studies alone")
        if len(values[0]) and len(values[1]):
            differences.setdefault(key[:len(names(by))], []).append(float(values[0][0]) - float(values[1][0]))
    rows_of = [(*key, len(it), *interval(numpy.array(it), level), *student(numpy.array(it))) for key, it in differences.items()]
    return numpy.array(rows_of, [*kinds(one, by), ("pairs", "i8"), *((name, "f8") for name in ("mean", "low", "high", "t", "p"))])


def interval(values: Array, level: float) -> tuple[float, float, float]:
    """The mean of numbers, and the ends of its confidence interval."""
    if not 0 < level < 1:
        raise LabError(f"level={level}: it is between 0 and 1")
    count = len(values)
    mean = float(values.mean()) if count else math.nan
    if count < 2:
        return mean, math.nan, math.nan
    half = quantile(level, count - 1) * float(values.std(ddof=1)) / math.sqrt(count)
    return mean, mean - half, mean + half


def student(values: Array) -> tuple[float, float]:
    """Student's t of numbers whose mean is to be 0, and the probability that it is as far from 0 or farther."""
    count = len(values)
    spread = float(values.std(ddof=1)) if count > 1 else 0.0
    if spread == 0:
        return math.nan, math.nan
    t = float(values.mean()) / (spread / math.sqrt(count))
    return t, 1 - within(abs(t), count - 1)


def within(t: float, freedom: int) -> float:
    """The probability that Student's t is between -t and t: a finite sum, for a whole number of degrees of freedom
    (Abramowitz and Stegun, 26.7.3 and 26.7.4)."""
    angle = math.atan(t / math.sqrt(freedom))
    square, term, total = math.cos(angle) ** 2, 1.0, 0.0
    odd = freedom % 2
    for at in range((freedom - odd) // 2):
        total += term
        term *= square * (2 * at + 1 + odd) / (2 * at + 2 + odd)
    if not odd:
        return math.sin(angle) * total
    return 2 / math.pi * (angle + math.sin(angle) * math.cos(angle) * total)


def quantile(level: float, freedom: int) -> float:
    """The t for which Student's distribution has this probability between -t and t."""
    low, high = 0.0, 1.0
    while within(high, freedom) < level:
        high *= 2
    for _ in range(STEPS):
        middle = (low + high) / 2
        low, high = (middle, high) if within(middle, freedom) < level else (low, middle)
    return high


def names(by: str | Sequence[str]) -> list[str]:
    """Names of columns, one or several."""
    return [by] if isinstance(by, str) else list(by)


def kinds(rows: Array, by: str | Sequence[str]) -> list[tuple[str, str]]:
    """Columns with their NumPy's kinds."""
    lost = [name for name in names(by) if name not in (rows.dtype.names or ())]
    if lost:
        raise LabError(f"the rows have no column {lost[0]}; they have {', '.join(rows.dtype.names or ())}")
    return [(name, rows.dtype[name].str) for name in names(by)]


def numbers(rows: Array, column: str) -> Array:
    """The numbers of a column, without those that are missing."""
    kinds(rows, column)
    found: Array = masked.compressed(masked.asarray(rows[column])).astype("f8")
    return found[~numpy.isnan(found)]


def groups(rows: Array, by: str | Sequence[str], of: Array | None = None) -> Iterator[tuple[tuple[object, ...], Array]]:
    """The rows, or what belongs to them, for each combination of values of some columns, in the order in which they come."""
    kinds(rows, by)
    columns = [masked.getdata(rows[name]).tolist() for name in names(by)]
    found: dict[tuple[object, ...], list[int]] = {}
    for at, key in enumerate(zip(*columns, strict=True) if columns else [()] * len(rows)):
        found.setdefault(key, []).append(at)
    for key, own in found.items():
        yield key, (rows if of is None else of)[own]
