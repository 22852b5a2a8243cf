"""Random words of a world: Xoshiro256++, for many streams and for many parts of each stream at once.

Python takes about a microsecond for an operation on a word, and hardly more for one on a number of a thousand words.
So words stand side by side in large numbers, in lanes: 64 bits for the word, and above it 64 bits for what an addition
carries or a shift moves out, which are then set to 0. A stream is cut into parts of equal length that are drawn in
lanes of their own. Where a part begins is known without drawing those before it: a step of the generator is linear
over bits, so all steps of a part together are a sum of at most 255 steps, given by a power of x modulo the generator's
characteristic polynomial.
"""
from array import array
from collections.abc import Sequence
from functools import cache
from sys import byteorder

WORD = (1 << 64) - 1
GOLDEN = 0x9E3779B97F4A7C15  # by which the seed of SplitMix64 grows from word to word
BITS = 256  # of the generator's state
LANE = 128
MOST_LANES = 1024
LEAST_PART = 64  # the least number of words for which a part of a stream is worth a lane
State = tuple[int, int, int, int]


def split_mix(seed: int) -> int:
    """The word that SplitMix64 gives for a seed; for the word after it the seed is GOLDEN more, modulo 2^64."""
    word = seed + GOLDEN & WORD
    word = (word ^ word >> 30) * 0xBF58476D1CE4E5B9 & WORD
    word = (word ^ word >> 27) * 0x94D049BB133111EB & WORD
    return word ^ word >> 31


def first_state(seed: int) -> State:
    """The state with which the stream of a seed begins: four words of SplitMix64."""
    return split_mix(seed), split_mix(seed + GOLDEN), split_mix(seed + 2 * GOLDEN), split_mix(seed + 3 * GOLDEN)


def step(state: State, mask: int) -> State:
    """The next state of each lane; the mask has ones where the words of the lanes are."""
    first, second, third, fourth = state
    third ^= first
    fourth ^= second
    return first ^ fourth, second ^ third, third ^ (second << 17 & mask), (fourth << 45 | fourth >> 19) & mask


def result(state: State, mask: int) -> int:
    """The word that each lane gives in a state."""
    first, fourth = state[0], state[3]
    both = first + fourth & mask
    return ((both << 23 | both >> 41) & mask) + first & mask


def mask_of(lanes: int) -> int:
    """Ones where the words of so many lanes are."""
    return int.from_bytes((b"\xff" * 8 + bytes(8)) * lanes, "little")


@cache
def characteristic() -> int:
    """The generator's characteristic polynomial: bit i is the coefficient of x^i (by Berlekamp and Massey)."""
    state, bits = first_state(0), []
    for _ in range(2 * BITS):
        bits.append(state[0] & 1)
        state = step(state, WORD)
    known, before, length, shift, seen = 1, 1, 0, 1, 0  # polynomials in the reverse order of their coefficients
    for number, bit in enumerate(bits):
        seen = seen << 1 | bit
        if (known & seen).bit_count() % 2 == 0:
            shift += 1
        elif 2 * length <= number:
            known, before, length, shift = known ^ before << shift, known, number + 1 - length, 1
        else:
            known ^= before << shift
            shift += 1
    return int(f"{known:0{BITS + 1}b}"[::-1], 2)


def product(one: int, other: int) -> int:
    """The product of two polynomials modulo the characteristic one."""
    found, modulus = 0, characteristic()
    while other:
        if other & 1:
            found ^= one
        one <<= 1
        if one >> BITS:
            one ^= modulus
        other >>= 1
    return found


def power(exponent: int) -> int:
    """That power of x modulo the characteristic polynomial."""
    found, square = 1, 2
    while exponent:
        if exponent & 1:
            found = product(found, square)
        square = product(square, square)
        exponent >>= 1
    return found


def moved(state: State, polynomial: int, mask: int) -> State:
    """The state of each lane after as many steps as the polynomial, a power of x, stands for."""
    found = (0, 0, 0, 0)
    while polynomial:
        if polynomial & 1:
            found = tuple(map(int.__xor__, found, state))  # type: ignore[assignment]
        state = step(state, mask)
        polynomial >>= 1
    return found


def words(seeds: Sequence[int], count: int) -> list["array[int]"]:
    """The first `count` words of the streams of some seeds, at most 1,024 of them."""
    parts = 1
    while len(seeds) * parts * 2 <= MOST_LANES and count >= 2 * parts * LEAST_PART:
        parts *= 2
    length = -(-count // parts)
    state = tuple(sum(word << LANE * lane for lane, word in enumerate(column))
                  for column in zip(*map(first_state, seeds), strict=True))
    lanes, way = len(seeds), power(length) if parts > 1 else 1
    while lanes < len(seeds) * parts:  # the lanes of twice as many parts
        further = moved(state, way, mask_of(lanes))  # type: ignore[arg-type]
        state = tuple(word | more << LANE * lanes for word, more in zip(state, further, strict=True))
        lanes, way = 2 * lanes, product(way, way)
    flat = drawn(state, lanes, length)  # type: ignore[arg-type]
    found = []
    for stream in range(len(seeds)):
        whole = array("Q")
        for lane in range(stream, lanes, len(seeds)):
            whole += flat[2 * lane::2 * lanes]
        found.append(whole[:count])
    return found


def drawn(state: State, lanes: int, count: int) -> "array[int]":
    """So many words of each lane: word i of lane l is at 2 * (i * lanes + l)."""
    mask, bytes_of = mask_of(lanes), []
    for _ in range(count):
        bytes_of.append(result(state, mask).to_bytes(16 * lanes, "little"))
        state = step(state, mask)
    flat = array("Q", b"".join(bytes_of))
    if byteorder == "big":
        flat.byteswap()
    return flat
