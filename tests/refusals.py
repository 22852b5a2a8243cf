"""What the program says when it refuses something, for the tests: texts by their codes, and statuses.

Two readers have the texts of their own codes beside these, since they are written apart from the rest on purpose:
tests/hostile/reading.py and tests/hostile/base_model.py.
"""
from __future__ import annotations

# What refusal lines say, by their codes. N is a number that the line has.
TEXTS = {
    "E01": "unreadable",
    "E02": "longer than N bytes",
    "E10": "bad byte",
    "E11": "comment is not closed",
    "E12": "number too large",
    "E13": "too many tokens",
    "E20": "syntax",
    "E21": "nested too deep",
    "E30": "name declared twice",
    "E31": "unknown name",
    "E32": "quark contains itself",
    "E33": "no behave",
    "E34": "bad constant",
    "E35": "too many",
    "E36": "bad width",
    "E37": "base is not a quark",
    "E38": "class is its own base",
    "E39": "override does not match",
    "E40": "quark takes N bits, at most 32",
    "E41": "element takes N bits, at most 71",
    "E50": "wrong type",
    "E51": "signed with unsigned",
    "E52": "not assignable",
    "E53": "wrong number of arguments",
    "E54": "not an element",
    "E55": "not in a loop",
    "E56": "missing return",
    "E60": "code is longer than 65536 instructions",
    "E61": "not a code file",
    "E62": "bad code file",
    "E63": "code is not valid",
    "E64": "name used twice",
    "E70": "bad header",
    "E71": "bad line",
    "E72": "number out of range",
    "E73": "unknown element",
    "E74": "site is taken",
    "E75": "too many attempts",
    "E76": "missing line",
    "E80": "bad line",
    "E81": "out of order after line N",
    "E82": "not a site of the tile",
    "E83": "not an attempt of the tile",
    "E84": "journal has N records",
}

# The status of a refusal, by the first digit of its code.
STATUSES = {"0": 3, "1": 4, "2": 4, "3": 4, "4": 4, "5": 4, "6": 9, "7": 5, "8": 6}
# The one code of its tens that has another status: code that is too long is a fault of an element file.
OF_ELEMENTS = {"E60": 4}


def status_of(code: str) -> int:
    """The status of a call that is refused with a code, such as `E20`."""
    return OF_ELEMENTS.get(code, STATUSES[code[1]])


def line(place: str, code: str, number: int = 0) -> str:
    """The line of a refusal at `NAME:LINE:COLUMN`, or of a file as a whole."""
    return f"{place}: {code} {TEXTS[code].replace('N', str(number))}\n"
