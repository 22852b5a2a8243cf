"""Ranges of numbers, and what operators and casts make of them."""
from .trees import NumberType, Type

Range = tuple[int, int]
EITHER = (0, 1)
FALSE, TRUE = (0, 0), (1, 1)


def of_type(type_: Type) -> Range | None:
    """The numbers of a type; None if it is no number."""
    return (type_.least(), type_.greatest()) if isinstance(type_, NumberType) else None


def cast_to(type_: Type, value: Range | None) -> Range | None:
    """What a range becomes when it is stored in a type."""
    whole = of_type(type_)
    if whole is None or value is None or not isinstance(type_, NumberType):
        return whole
    if type_.kind == "Bool":
        return FALSE if value == FALSE else EITHER if value[0] <= 0 <= value[1] else TRUE
    if type_.kind == "Bits" and not whole[0] <= value[0] <= value[1] <= whole[1]:
        return whole
    return max(whole[0], min(value[0], whole[1])), min(whole[1], max(value[1], whole[0]))


def joined(values: list[Range | None]) -> Range | None:
    """The range that has all of some ranges; None if there are none or if one isn't known."""
    found = [value for value in values if value is not None]
    return (min(it[0] for it in found), max(it[1] for it in found)) if found and len(found) == len(values) else None


def combined(sign: str, left: Range, right: Range) -> Range | None:
    """The range of an operator's exact result; None if it may be anything."""
    if sign in ("+", "-", "*"):
        ends = [{"+": a + b, "-": a - b, "*": a * b}[sign] for a in left for b in right]
        return min(ends), max(ends)
    if sign == "/" and left[0] >= 0 and right[0] > 0:
        return left[0] // right[1], left[1] // right[0]
    if sign == "%" and left[0] >= 0 and right[0] > 0:
        return (left if left[1] < right[0] else (0, min(left[1], right[1] - 1)))
    if sign in ("&&", "||"):
        both = min if sign == "&&" else max
        return both(left[0], right[0]), both(left[1], right[1])
    return compared(sign, left, right)


def compared(sign: str, left: Range, right: Range) -> Range | None:
    """The range of a comparison; None if the operator is none."""
    if sign in (">", ">="):
        return compared("<" if sign == ">" else "<=", right, left)
    if sign == "<":
        return TRUE if left[1] < right[0] else FALSE if left[0] >= right[1] else EITHER
    if sign == "<=":
        return TRUE if left[1] <= right[0] else FALSE if left[0] > right[1] else EITHER
    if sign in ("==", "!="):
        is_apart = left[1] < right[0] or right[1] < left[0]
        is_same = left == right and left[0] == left[1]
        found = FALSE if is_apart else TRUE if is_same else EITHER
        return found if sign == "==" else (1 - found[1], 1 - found[0])
    return None
