#!/usr/bin/env python3
"""Tests that want of memory is never written by hand: no_memory.py [FILE..].

No contract can say that an allocation was refused, so a function may answer `NoMemory` for any other cause and
still be proved. This looks at each place of crates/*/src that makes a `NoMemory`, or an `AllocError`, which turns
into one, and at imports of these under other names. A place must hand one on: in a
`From` of an allocation's error, in a match arm on `NoMemory`, or where a call that allocates failed (a match arm
`Err(_)`, `let Ok(..) = .. else`, `if .. .is_err()` or `map_err` on that very call). Any other place is named in
REASONS, with its function and why; what is named there and isn't there any more is a fault too.
"""
from __future__ import annotations

import collections
import pathlib
import re
import sys
from typing import Iterator, Optional

sys.dont_write_bytecode = True
from rust_code import TOP, Code, Function, line_of, sources  # noqa: E402

# For a crate and a function, how many further places there are, and why.
REASONS = {
    ("ulam_parse", "judge"): (1, "`first_deep` fails only as its list of brackets grows"),
    ("ulam_parse", "read"): (1, "`marks_of` fails only as its list of marks grows"),
}
MADE = re.compile(r"\b(?:\w+::)*(?:NoMemory|AllocError)\b")
# An import of it under another name.
RENAMED = re.compile(r"(?m)^\s*(?:pub(?:\([^)]*\))?\s+)?use\s[^;]*\b(?:NoMemory|AllocError)\s+as\b")
# The errors of an allocation; `Refused {..}` is that of a table of words and slots.
REFUSED = re.compile(r"\b(?:AllocError|AllocFailed|OutOfMemory|NoMemory)\b|\bRefused \{")
# A call that allocates: std's constructors in an allocator, and what makes a collection grow.
CALLS = "with_capacity|from_slice|from_array|push|push_str|insert|reserve|append|extend_from_slice"
GROWS = re.compile(
    rf"(?s)(?:vec|format)!\s*(?:\[.*\]|\(.*\))|[\w.:\s&()\[\]]*(?:::|\.)\s*(?:{CALLS})\s*\(.*\)|(?:Vec|Box|Rc|Arc)::new\s*\(.*\)"
)


def allocates(expression: str) -> bool:
    """Whether an expression is one call that allocates."""
    return bool(GROWS.fullmatch(expression.strip())) and not re.search(r"\|\||&&", expression)


def start_of_arm(code: Code, at: int) -> int:
    """Where the match arm begins whose `=>` stands at a place: behind a comma or a brace."""
    at -= 1
    while at >= 0 and code.text[at] not in ",;{}":
        at = code.opens.get(at, at) - 1
    return at + 1


def is_made(code: Code, begin: int, end: int) -> bool:
    """Whether a name is a value that is made there: no type, pattern, variant or test."""
    before, after = code.before(begin), code.text[end:].lstrip(") ]\n")
    if re.search(r"(->|<|\bfor|\bstruct|\bimpl)$", before) or re.match(r"\s*>", code.text[end:]):
        return False
    if re.match(r"=>|\||if\b|=(?!=)", after) or re.search(r"[!=]=\s*$", before):
        return False
    inside = code.around(begin)
    around = "" if inside is None else code.before(inside)
    if re.search(r"\b(enum|trait|struct)\s+\w+(<[^{}]*>)?$|\b(assert\w*|matches)!$", around):
        return False
    return not re.search(r"\bfn\s+\w+(<[^()]*>)?$", around)


def is_handed_on(code: Code, function: Optional[Function], begin: int) -> bool:
    """Whether the value that is made there hands on the error of an allocation."""
    if function and function.name == "from" and REFUSED.search(code.text[function.start : function.body]):
        return True
    at: Optional[int] = begin
    while at is not None and (function is None or at > function.body):
        before = re.sub(r"\b(?:Err|Ok)\($", "", code.before(at)).rstrip().removesuffix("return").rstrip()
        if before.endswith("=>"):
            return is_arm_on_refused(code, len(before) - 2)
        if refused := re.search(r"(?s)\bif\s+((?:(?!\bif\b).)*?)\s*\.is_err\(\)$|\blet\s+Ok\([^=]*?\)\s*=((?:(?!\blet\b).)*?)\belse$", before):
            return allocates(refused[1] or refused[2])
        if mapped := re.search(r"(?s)([^;{}=]*)\.map_err\(\|[^|]*\|$", before):
            return allocates(mapped[1])
        at = code.around(at)
    return False


def is_arm_on_refused(code: Code, arrow: int) -> bool:
    """Whether a match arm is one on a refused allocation."""
    start = start_of_arm(code, arrow)
    pattern = code.text[start:arrow].strip()
    if REFUSED.search(pattern):
        return True
    braces = code.around(start)
    if not re.fullmatch(r"Err\(\w+\)", pattern) or braces is None:
        return False
    matched = re.search(r"(?s)\bmatch\s+((?:(?!\bmatch\b).)*)$", code.before(braces))
    return bool(matched and allocates(matched[1]))


def made_by_hand(path: pathlib.Path) -> Iterator[tuple[str, int]]:
    """The places of a file that make a `NoMemory` that no allocation gave: the function, and the line."""
    source = path.read_text()
    code = Code(source if re.search("NoMemory|AllocError", source) else "")
    for item in RENAMED.finditer(source):
        yield "use", line_of(source, item.end())
    known = list(code.functions())
    for name in MADE.finditer(code.text):
        inside = [it for it in known if it.body < name.start() < it.end]
        function = max(inside, key=lambda it: it.start, default=None)
        if is_made(code, name.start(), name.end()) and not is_handed_on(code, function, name.start()):
            yield function.name if function else "", line_of(source, name.start())


def main() -> int:
    """The command."""
    files = [pathlib.Path(it).resolve() for it in sys.argv[1:]] or sources("src", ".rt")
    found: dict[tuple[str, str], list[str]] = collections.defaultdict(list)
    for path in files:
        crate = path.relative_to(TOP / "crates").parts[0]
        for function, line in made_by_hand(path):
            found[crate, function].append(f"{path.relative_to(TOP)}:{line}")
    faults = 0
    named = {} if sys.argv[1:] else REASONS
    for key in sorted({*found, *named}):
        places, (count, _) = found.get(key, []), REASONS.get(key, (0, ""))
        if len(places) != count:
            faults += 1
            print(f"{' '.join(places) or key[0]}: `{key[1]}` makes {len(places)} NoMemory that no allocation gave, and {count} are named")
    print(f"{len(files)} files, {sum(map(len, found.values()))} NoMemory made by hand, {faults} functions where they aren't as named")
    return 1 if faults else 0


if __name__ == "__main__":
    sys.exit(main())
