"""Worlds and reports of lines that a hostile user would write."""
from __future__ import annotations

from typing import Iterator

from jobs import STATE, ZEROS

HEAD = b"feast 1\ntiles 1 1\nsize 8 8\n"
TRY = b"try 0 0 0 " + ZEROS + b"\n"
# a record of an attempt at (0,0)
RECORD = b"1 0 0 0 0 " + ZEROS + b"\n"
MANY_TILES = b"feast 2\ntiles 8 8\nsize 8 8\n"


def hard_numbers(long: int) -> list[bytes]:
    """Numbers at the ends of what is one, and one of so many digits."""
    return [
        b"0", b"00", b"1", b"-1", b"+1", b"8", b"9", b"64", b"65", b"18446744073709551615", b"18446744073709551616",
        b"99999999999999999999", b"100000000000000000000", b"0" * 21, b"9" * 1000, b"1" + b"0" * long, b"", b"1\0",
        b"\xd9\xa1",
    ]


def worlds_of_ends(many: int) -> list[bytes]:
    """Worlds whose lines end in other ways, or are none."""
    return [
        b"", b"\n", b"\r\n", b"\r", b"\0", b"\0" * many, b"\n" * many, b"#\n" * many, b"\r\n" * many,
        b"feast 1", b"feast 1\r", b"feast 1\r\n", b"feast 1\r\r\n", HEAD[:-1], HEAD[:-1] + b"\r", HEAD[:-1] + b"\r\n",
        HEAD.replace(b"\n", b"\r"), HEAD.replace(b"\n", b"\r\n"), HEAD.replace(b"\n", b"\r\r\n"),
        HEAD.replace(b"\n", b"\n\r"), b"\xef\xbb\xbf" + HEAD, b" " + HEAD, HEAD.replace(b" ", b"\t"),
        HEAD.replace(b" ", b"  "), HEAD.replace(b"\n", b" \n"),
    ]


def long_worlds_of_lines(many: int) -> list[bytes]:
    """Worlds with long lines, and with many."""
    long = b"x" * many
    return [
        long, long + b"\n" + HEAD, b"#" + long + b"\n" + HEAD, b"#" + b"\0" * many + b"\n" + HEAD, HEAD + b"#" + long,
        HEAD + long, HEAD + b"\n" * many + b"x", HEAD + b"size 8 8" + b" " * many, HEAD + b"atom 0 0 " + b"A" * many,
        HEAD + b"atom 0 0 Walker " + b"0" * many, HEAD + b"try 0 0 0 " + b"0" * many, HEAD + b"order " + b"0 " * many,
        HEAD + b"order" + b" 0" * many, HEAD + b"order" + b" 0" * many + b" 1", HEAD + b"order" + b" 0" * many + b" x",
        HEAD + b"order 0\n" * (many // 3), HEAD + b"order 0\n" * (many // 3) + b"order seed 1",
    ]


def worlds_of_wrong_lines() -> list[bytes]:
    """Worlds with lines that are out of place or wrong, and some that are right."""
    return [
        HEAD + b"order seed 1\norder seed 1",
        HEAD + b"order", HEAD + b"order ", HEAD + b"order seed", HEAD + b"order seed 1 2", HEAD + b"order 1",
        HEAD + b"order 0 seed",
        HEAD + TRY * 3 + b"seed 1\nattempts 1\n", HEAD + b"seed 1\nattempts 1\n" + TRY, HEAD + b"seed 1\n" + TRY,
        HEAD + b"seed 1", HEAD + b"seed 1\n#\n\n", HEAD + b"attempts 1", HEAD + b"off 0",
        HEAD.replace(b"1\n", b"2\n", 1) + b"off 0",
        MANY_TILES + b"".join(b"off %d\n" % tile for tile in range(63)),
        MANY_TILES + b"".join(b"off %d\n" % tile for tile in range(64)),
        MANY_TILES + b"off 5\noff 5\n", MANY_TILES + b"off 5\noff 4\n",
        HEAD + b"atom 0 0 Walker\n" * 2, HEAD + b"atom 0 0 Nobody\n" * 2, HEAD + b"atom 0 0 Empty\n",
        HEAD + b"atom 0 0 " + b"W" * 255, HEAD + b"atom 0 0 " + b"W" * 256, HEAD + b"atom 0 0 Walker 8" + b"0" * 17,
        HEAD + b"atom 0 0 Walker 7" + b"f" * 17, HEAD + b"atom 0 0 Walker " + b"F" * 18,
        HEAD + b"try 0 0 0 " + b"F" * 16,
    ]


def worlds_of_numbers(many: int) -> Iterator[bytes]:
    """Worlds with each hard number at each place."""
    for number in hard_numbers(many):
        for world in (
            b"feast N\ntiles 1 1\nsize 8 8", b"feast 1\ntiles N 1\nsize 8 8", b"feast 1\ntiles 1 N\nsize 8 8",
            b"feast 1\ntiles 1 1\nsize N 8", b"feast 1\ntiles 1 1\nsize 8 N",
        ):
            yield world.replace(b"N", number)
        for line in (
            b"seed N\nattempts 0", b"seed 1\nattempts N", b"order seed N", b"order N", b"try N 0 0 " + ZEROS,
            b"try 0 N 0 " + ZEROS, b"try 0 0 N " + ZEROS, b"atom N 0 Walker", b"atom 0 N Walker", b"off N",
        ):
            yield HEAD + line.replace(b"N", number)


def hard_worlds(many: int) -> Iterator[bytes]:
    """Worlds of hostile lines, with so many bytes or lines where they are many."""
    yield from worlds_of_ends(many)
    yield from long_worlds_of_lines(many)
    yield from worlds_of_wrong_lines()
    yield from worlds_of_numbers(many)


def report(atoms: bytes = b"atoms 0\n", journal: bytes = b"journal 0\n", abandoned: bytes = b"abandoned 0\n") -> bytes:
    """A report of these parts."""
    return b"feast 1\n" + atoms + journal + abandoned


def reports_of_ends(many: int) -> list[bytes]:
    """Reports whose lines end in other ways, or are none."""
    whole = report(journal=b"journal 1\n" + RECORD)
    long = b"x" * many
    return [
        b"", b"\n", b"\0" * many, b"\r" * many, b"\n" * many, whole, whole[:-1], whole + b"\n", whole + b"#",
        whole + b"\0", whole.replace(b"\n", b"\r\n"), whole.replace(b"\n", b"\r"), b"#\n" + whole, b"\n" + whole,
        b" " + whole, long, whole + long, whole.replace(b"feast 1", b"feast 2"), whole.replace(b" ", b"  "),
        whole.replace(b" ", b"\t"), b"\xef\xbb\xbf" + whole,
    ]


def reports_of_atoms(many: int) -> Iterator[bytes]:
    """Reports with long, wrong and many atoms."""
    for atoms in (
        b"atoms 1\n" + b"x" * many + b"\n", b"atoms 1\n0 0 " + b"A" * many + b" " + STATE + b"\n",
        b"atoms 1\n0 0 " + b"A" * 255 + b" " + STATE + b"\n", b"atoms 1\n0 0 " + b"A" * 256 + b" " + STATE + b"\n",
        b"atoms 1\n0 0 Nobody " + b"f" * 18 + b"\n", b"atoms 1\n0 0 Nobody " + b"F" * 18 + b"\n",
        b"atoms 2\n" + b"0 0 Walker " + STATE + b"\n", b"atoms 100000\n" + (b"0 0 Walker " + STATE + b"\n") * 100_000,
    ):
        yield report(atoms=atoms)


def reports_of_records(many: int) -> Iterator[bytes]:
    """Reports with long and many abandoned attempts, and with wrong records."""
    yield report(abandoned=b"abandoned 100000\n" + b"9 9 9 9 9 9 9\n" * 100_000)
    yield report(abandoned=b"abandoned 1\n" + b"9 " * many + b"\n")
    for journal in (
        b"journal 2\n" + RECORD * 2, b"journal 1\n" + RECORD.replace(b"1 0 0", b"0 0 0"),
        b"journal 1\n" + RECORD.replace(b"1 0 0 0", b"1 0 0 8"),
        b"journal 1\n" + RECORD.replace(ZEROS, b"1" * 16), b"journal 1\n" + RECORD.replace(ZEROS, b"F" * 16),
        b"journal 4294967295\n" + RECORD, b"journal 4294967296\n" + RECORD,
    ):
        yield report(journal=journal)


def reports_of_numbers(many: int) -> Iterator[bytes]:
    """Reports with each hard number at each place."""
    for number in [*hard_numbers(many), b"4294967295", b"4294967296"]:
        for form in (
            report(atoms=b"atoms N\n"), report(journal=b"journal N\n"), report(abandoned=b"abandoned N\n"),
            report(atoms=b"atoms 1\nN 0 Walker " + STATE + b"\n"),
            report(atoms=b"atoms 1\n0 N Walker " + STATE + b"\n"),
        ):
            yield form.replace(b"N", number)
        for place in range(5):
            fields = [b"1", b"0", b"0", b"0", b"0", ZEROS]
            fields[place] = number
            yield report(journal=b"journal 1\n" + b" ".join(fields) + b"\n")
        for place in range(7):
            fields = [b"0"] * 7
            fields[place] = number
            yield report(abandoned=b"abandoned 1\n" + b" ".join(fields) + b"\n")


def hard_reports(many: int) -> Iterator[bytes]:
    """Reports of hostile lines, of a world without atoms and with 3 attempts at (0,0)."""
    yield from reports_of_ends(many)
    yield from reports_of_atoms(many)
    yield from reports_of_records(many)
    yield from reports_of_numbers(many)
