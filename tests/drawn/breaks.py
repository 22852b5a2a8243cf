"""Broken texts: a token of an element file, or a field of a world or of a report, changed, dropped or doubled."""
from __future__ import annotations

import re

from chance import Chance

TOKEN = re.compile(r"\s+|[A-Za-z_][A-Za-z0-9_]*|[0-9]\w*|<<=|>>=|[=!<>]=|&&|\|\||<<|>>|\+\+|--|[-+*/%&|^]=|//.*|.", re.S)
# What takes the place of a token.
OTHERS = (
    "{ } ( ) [ ] ; : , . = == != < <= > >= + - * / % & | ^ ~ ! && || << >> ++ -- += -= *= /= %= &= |= ^= <<= >>= "
    "element quark ulam use typedef constant if else while for return break continue is as self true false instanceof "
    "virtual Int Unsigned Bits Bool Unary Atom Void EventWindow Random Empty Int(1) Int(65) Unsigned(0) Bits(64) Bool(1) "
    "Unary(64) swap isLive isEmpty create oneIn behave x X 0 1 2 3u 41 64 65 72 2147483648 4294967295 4294967296 0x 0b 1x "
    "/* // @ # \" \\ \x80 \x00 8589934591 0x1FFFFFFFF 0xFFFFFFFF 0x100000000 5000000000u 0b2 0xg 1_0 12a 00 0x0F /**/ /*/ **/"
).split(" ")
NUMBERS = "0 1 2 3 7 8 9 16 63 64 65 255 256 1000000 1000001 4294967295 4294967296 18446744073709551615 18446744073709551616 " \
    "99999999999999999999 100000000000000000000 01 -1 +1 1.0 a x ffffffffffffffff 0000000000000000 000000000000000000 " \
    "7fffffffffffffffff 800000000000000000 FFFFFFFFFFFFFFFF"
WORDS = "feast tiles size off seed attempts try atom order atoms journal abandoned A E1".split() + NUMBERS.split()


def broken_element(chance: Chance, text: str) -> str:
    """An element file with another token, without one, with one twice, or with two changed for one another."""
    tokens = TOKEN.findall(text)
    places = [place for place, token in enumerate(tokens) if not token.isspace()]
    for _ in range(chance.one_of([1, 1, 1, 2])):
        place, drawn = chance.one_of(places), chance.below(10)
        if drawn < 4:
            tokens[place] = chance.one_of([chance.one_of(OTHERS), tokens[chance.one_of(places)]])
        elif drawn < 6:
            tokens[place] = ""
        elif drawn < 8:
            tokens[place] += " " + tokens[place]
        elif drawn < 9:
            other = chance.one_of(places)
            tokens[place], tokens[other] = tokens[other], tokens[place]
        else:
            tokens[place] += " " + chance.one_of(OTHERS)
    return "".join(tokens)


def like(chance: Chance, word: str) -> str:
    """Another word in place of a field: one near it, or any."""
    if len(word) == 18 and chance.happens(0.4):
        return chance.one_of(["7", "8", "f"]) + word[1:]
    if word.isdigit() and chance.happens(0.7):
        return str(max(int(word) + chance.one_of([-5, -3, -2, -1, -1, 1, 1, 2, 3, 5]), 0))
    if word and chance.happens(0.3):
        place = chance.below(len(word))
        return word[:place] + chance.one_of(list("0123456789abcfAZz_ ")) + word[place + 1 :]
    return chance.one_of(WORDS)


def broken_fields(chance: Chance, line: str) -> str:
    """A line with another field, without one, or with one twice."""
    fields = line.split(" ")
    place, drawn = chance.below(len(fields)), chance.below(10)
    place = len(fields) - 1 if chance.happens(0.3) else place
    if drawn < 7:
        fields[place] = like(chance, fields[place])
    elif drawn < 8:
        del fields[place]
    elif drawn < 9:
        fields.insert(place, fields[place])
    else:
        return chance.one_of([line + " ", " " + line, line + "\r", line + "\t", line.replace(" ", "  ", 1), "", "#" + line])
    return " ".join(fields)


def kinds_of(lines: list[str]) -> list[str]:
    """The kind of each line: its first word, or that of the part of a report in which it stands."""
    kinds, part = [], ""
    for line in lines:
        word = line.split(" ")[0]
        part = part if word.isdigit() else word
        kinds.append(part + "'s" if word.isdigit() else word)
    return kinds


def not_off(lines: list[str]) -> int:
    """How many tiles of a world are not off."""
    across, down = (int(word) for word in next(line for line in lines if line.startswith("tiles ")).split(" ")[1:])
    return across * down - sum(line.startswith("off ") for line in lines)


def broken_lines(chance: Chance, text: str) -> str:
    """A world or a report with another line, without one, with one twice, with two changed for one another, or cut short.
    """
    lines = text.split("\n")
    kinds = kinds_of(lines)
    if "attempts" in kinds and "tiles 1 1" not in lines and chance.happens(0.1):
        # (with two tiles or more this is too many, but each tile alone might make them)
        return re.sub(r"(?m)^attempts .*$", f"attempts {chance.one_of([500001, 1000000])}", text) if not_off(lines) > 1 else text
    off = [place for place, it in enumerate(kinds) if it == "off"]
    if len(off) > 1 and chance.happens(0.3):  # (they are in order, which is seldom broken by a changed field)
        place, other = off[0], chance.one_of(off[1:])
        lines[place], lines[other] = lines[other], lines[place]
        return "\n".join(lines)
    kind = chance.one_of(sorted(set(kinds)))
    if "abandoned's" in kinds and chance.happens(0.3):  # (there are few, and much is judged of each)
        kind = "abandoned's"
    places = [place for place, it in enumerate(kinds) if it == kind or chance.happens(0.02)]
    place, drawn = chance.one_of(places), chance.below(20)
    if drawn < 12:
        lines[place] = broken_fields(chance, lines[place])
    elif drawn < 14:
        del lines[place]
    elif drawn < 15:
        lines.insert(place, lines[place])
    elif drawn < 17:
        other = chance.one_of(places) if chance.happens(0.6) else chance.below(len(lines))
        lines[place], lines[other] = lines[other], lines[place]
    elif drawn < 18:
        del lines[place:]
    elif drawn < 19:
        return "\n".join(lines)[: -chance.between(1, 3)]
    else:
        lines.insert(place, chance.one_of(["", "# drawn", "order 0", "off 0", "seed 1", "attempts 1", "feast 1", "\r"]))
    return "\n".join(lines)
