"""All that the pages have of a code or a warning, in lines."""
import re
from collections.abc import Iterator

from ..base.errors import LabError
from ..base.excerpt import lines_around
from .pages import ErrorCode, Rule, element_rules, error_codes, ulam_rules, warning_rules

PART = re.compile(r"(?:([\d,]+) times )?`([^`]*)`")


def list_lines() -> Iterator[str]:
    """A line for each code and each warning."""
    for code in error_codes().values():
        yield f"{code.code}  {code.text}"
    yield from dict.fromkeys(f"{rule.code}  {rule.form}" for rule in warning_rules())


def lines_of(what: str) -> list[str]:
    """All that the pages have of a code or a warning."""
    found = error_codes().get(code_of(what))
    if found is not None:
        return list(code_lines(found))
    rules = [rule for rule in warning_rules() if rule.code == what]
    if not rules:
        names = ", ".join(dict.fromkeys(rule.code for rule in warning_rules()))
        raise LabError(f"{what}: no code of a refusal, E00 to E84, and no warning; the warnings are {names}")
    return [f"{what}: {rules[0].form}", *(line for rule in rules for line in rule_lines(rule))]


def code_of(word: str) -> str:
    """The code that a word means: `e50` and `50` mean E50."""
    match = re.fullmatch(r"[eE]?(\d\d)", word)
    return f"E{match[1]}" if match else word


def code_lines(code: ErrorCode) -> Iterator[str]:
    """The text of a code, its usual cause, and its forms with examples."""
    yield f"{code.code} {code.text}"
    yield f"usual cause: {code.cause}"
    rules = [rule for rule in element_rules() if rule.code == code.code]
    if not any(rule.wrong for rule in rules):
        yield from example_lines(code)
    for rule in rules:
        yield from ("", f"written: {rule.form}", *rule_lines(rule))
    missing = [rule for rule in ulam_rules() if rule.code == code.code]
    if missing:
        yield from ("", "Of Ulam, this is missing:")
    for rule in missing:
        yield from ("", f"written: {rule.form}", f"instead: {rule.instead}")


def rule_lines(rule: Rule) -> Iterator[str]:
    """What to write instead of a form, and an example of both."""
    yield f"instead: {rule.instead}"
    if rule.wrong:
        line, column = map(int, rule.place.split(":"))
        yield "wrong:"
        yield from lines_around(rule.wrong.encode().decode("latin-1"), line, column, 1, "")
        yield "right:"
        yield f"1 | {rule.right}"


def example_lines(code: ErrorCode) -> Iterator[str]:
    """The example of a code whose forms have none: a whole file, or a change of lines."""
    if "E10" <= code.code < "E61" and all(match[1] is None for match in PART.finditer(code.example)):
        line, column = map(int, code.place.split(":"))
        yield "wrong:"
        yield from lines_around("".join(match[2] for match in PART.finditer(code.example)), line, column, 1, "")
        return
    yield f"example: {code.example}"
    if code.code >= "E61":
        yield "of"
        yield from ("    " + line for line in code.block)
