"""Tokens of an element file (docs/language.md, "Tokens")."""
from __future__ import annotations

import re
from typing import Iterator, NamedTuple

from .faults import Refused
from .limits import LONGEST_NAME, MOST_TOKENS

LARGEST_NUMBER = 2**32 - 1

KEYWORDS = frozenset(
    "element quark ulam use typedef constant if else while for return break continue is as self true false instanceof".split()
)
BLANK = re.compile(r"(?:[ \t\r\n]+|//[^\n]*)+")
NAME = re.compile(r"[A-Za-z_][A-Za-z0-9_]{0,254}")
NUMBER = re.compile(r"0x[0-9A-Fa-f]+|0b[01]+|0(?![xb])|[1-9][0-9]*")
SIGN = re.compile(r"<<=|>>=|<<|>>|&&|\|\||\+\+|--|[=!<>+\-*/%&|^]=|[{}()\[\];:,.=<>+\-*/%&|^~!]")
WORD_LETTER = re.compile(r"[A-Za-z0-9_]")


class Token(NamedTuple):
    """A token. The kind is `name`, `type`, `number` or `end`; a keyword or a sign is its own kind. `at` is how many bytes
    of the text are before it."""

    kind: str
    text: str
    at: int


def tokens_of(text: str, file: int) -> list[Token]:
    """The tokens of a text, a letter for each byte; the last one is its end. Refused with 10 to 13."""
    tokens: list[Token] = []
    for token in scanned(text, file):
        if len(tokens) == MOST_TOKENS and token.kind != "end":
            raise Refused(13, (file, token.at))
        tokens.append(token)
    return tokens


def scanned(text: str, file: int) -> Iterator[Token]:
    """The tokens, as many as there are before a fault."""
    at = past_blanks(text, 0, file)
    while at < len(text):
        letter = text[at]
        if letter.isascii() and (letter.isalpha() or letter == "_"):
            token = name_at(text, at)
        elif letter.isascii() and letter.isdigit():
            token = number_at(text, at, file)
        elif sign := SIGN.match(text, at):
            token = Token(sign[0], sign[0], at)
        else:
            raise Refused(10, (file, at))
        yield token
        end = at + len(token.text)
        if token.kind == "number" or end - at == LONGEST_NAME:
            if WORD_LETTER.match(text, end):
                raise Refused(10, (file, end))
        at = past_blanks(text, end, file)
    yield Token("end", "", len(text))


def past_blanks(text: str, at: int, file: int) -> int:
    """The place behind white space and comments."""
    while True:
        if blank := BLANK.match(text, at):
            at = blank.end()
        if not text.startswith("/*", at):
            return at
        end = text.find("*/", at + 2)
        if end < 0:
            raise Refused(11, (file, at))
        at = end + 2


def name_at(text: str, at: int) -> Token:
    """The name, the name of a type or the keyword at a place."""
    found = NAME.match(text, at)
    assert found is not None
    word = found[0]
    return Token(word if word in KEYWORDS else "type" if "A" <= word[0] <= "Z" else "name", word, at)


def number_at(text: str, at: int, file: int) -> Token:
    """The number at a place, with the `u` behind it."""
    found = NUMBER.match(text, at)
    if found is None:  # 0x or 0b without a digit
        raise Refused(10, (file, at + 2))
    if value_of(found[0]) > LARGEST_NUMBER:
        raise Refused(12, (file, at))
    return Token("number", found[0] + ("u" if text.startswith("u", found.end()) else ""), at)


def value_of(number: str) -> int:
    """What a number's token says."""
    digits = number.rstrip("u")
    return int(digits, 16 if digits.startswith("0x") else 2 if digits.startswith("0b") else 10)


def too_deep(tokens: list[Token], most: int) -> int:
    """The position of the first token with which the tokens up to it nest deeper; their number if there is none."""
    counts = [0]  # one for each open bracket, and one for outside of all
    total = 0
    before = ""
    for position, token in enumerate(tokens):
        kind = token.kind
        if kind == "," or (before in (";", "}") and kind != "else"):
            total -= counts[-1]
            counts[-1] = 0
        if kind in ("if", "while", "for") or (kind == "(" and before == ")") or is_operator(kind):
            total += 1
            counts[-1] += 1
        if kind in ("(", "[", "{"):
            total += 1
            counts.append(0)
        elif kind in (")", "]", "}") and len(counts) > 1:
            total -= counts.pop() + 1
        if total > most:
            return position
        before = kind
    return len(tokens)


def is_operator(kind: str) -> bool:
    """Whether a token is a sign that counts as one more level."""
    return not kind[0].isalpha() and kind not in ("(", ")", "[", "]", "{", "}", ";", ",", ".")
