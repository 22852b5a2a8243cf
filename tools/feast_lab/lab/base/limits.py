"""The limits of the program that the Python of the repository needs, by the names of the crates' constants.

docs/formats.md has a table of all limits, and tests/limits.py holds these against it. A second reader or a model of the
tests that is written apart from the rest has its own.
"""

MOST_ACROSS = 8
LEAST_SIDE = 8
MOST_SIDE = 64
MOST_TILES = 64
MOST_COLUMNS = 512
MOST_ATTEMPTS = 1_000_000
MOST_LEGS = 1_000_000
LAST_LEG = 4_294_967_295

STATE_BITS = 71
LONGEST_NAME = 255
MOST_TOKENS = 200_000
MOST_DEPTH = 64
MOST_CLASSES = 256
MOST_MEMBERS = 64
MOST_PARAMS = 8
MOST_LOCALS = 64

MOST_INSTRS = 65_536
MOST_OPERANDS = 512
MOST_TURNS = 1_000
MOST_CALLS = 16

MOST_FILES = 64
ELEMENT_LIMIT = 1_048_576
WORLD_LIMIT = 268_435_456
JOURNAL_LIMIT = 268_435_456
CODE_LIMIT = 268_435_456
