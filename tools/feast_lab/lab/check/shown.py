"""What is shown of a refusal and of a warning, in lines."""
from collections.abc import Sequence

from ..base.excerpt import bytes_around, lines_around
from ..lint.warned import Warned
from ..ulam.tokens import Source, Token
from .fault import Fault, Hint, RefusalLine
from .given import Given
from .grammar import hint_of_grammar
from .names import hint_of_names
from .pages import error_codes, instead_of
from .types import hint_of_types
from .worlds import hint_of_world


def refusal_lines(refused: RefusalLine, given: Given) -> list[str]:
    """What is shown of a refusal: its line, the place, other places, and what to write instead."""
    source = given.source(refused)
    said = hint_of(refused, source, given.files)
    found = [f"{refused.name}:{refused.line}:{refused.column}: {refused.code} {refused.text}"]
    if source is given.code:
        found += bytes_around(source.text, refused.column)
    else:
        found += lines_around(source.text, refused.line, refused.column, said.length, said.label)
    for token, label in said.also:
        found += place_lines(token, label)
    rule = instead_of(refused.code, said.form)
    if rule is not None:
        found += [f"written: {rule.form}", f"instead: {rule.instead}"]
    elif refused.code in error_codes():
        found += [f"usual cause: {error_codes()[refused.code].cause}"]
    return [*found, f"more: ./lab explain {refused.code}"]


def hint_of(refused: RefusalLine, source: Source, files: Sequence[Source]) -> Hint:
    """What is said of a refusal."""
    code, fault = refused.code, Fault(refused, source, files)
    if code > "E60":
        return hint_of_world(refused, source, files)
    if code < "E30":
        return hint_of_grammar(fault)
    if code < "E50":
        return hint_of_names(fault)
    return hint_of_types(fault)


def place_lines(token: Token, label: str) -> list[str]:
    """A place beside that of the refusal."""
    line, column = token.place
    return [f"{token.where}: {label}", *lines_around(token.source.text, line, column, len(token.text), "")]


def warned_lines(warned: Warned) -> list[str]:
    """What is shown of a warning."""
    line, column = warned.token.place
    found = [f"{warned.token.where}: warning: {warned.text} [{warned.name}]",
             *lines_around(warned.token.source.text, line, column, len(warned.token.text), "")]
    for token, label in warned.also:
        found += place_lines(token, label)
    return found
