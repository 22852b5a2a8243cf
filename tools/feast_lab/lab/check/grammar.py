"""What stands where tokens or the grammar refuse a file (E10 to E21)."""
from collections.abc import Callable

from ..base.limits import MOST_DEPTH, MOST_TOKENS
from ..ulam.expected import CAPITAL_NAME, SMALL_NAME
from .fault import Fault, Hint

SMALL_TYPES = frozenset("int void bool boolean unsigned bits atom auto char long short float double string unary uint "
                        "var let eventwindow random".split())
WORDS_BEFORE = frozenset("const static public private protected final inline explicit mutable extern let var".split())
OF_TYPES = frozenset("maxof minof sizeof lengthof classidof positionof".split())
CHANGES = frozenset("= += -= *= /= %= &= |= ^= <<= >>= ++ --".split())
BRACKET = "a bracket that is missing, or one too many"
MISSING = {
    "an expression": "a value that is missing", "a number or a constant": "a value that is missing",
    "`)`": BRACKET, "`]`": BRACKET, SMALL_NAME: "a name that is missing", CAPITAL_NAME: "a name that is missing",
    "an assignment such as `=`": "an expression by itself as a statement"}


def hint_of_grammar(fault: Fault) -> Hint:
    """What is said of a refusal with E10 to E21."""
    code = fault.refused.code
    if code == "E10":
        return bad_byte(fault)
    if code == "E11":
        return Hint("this comment has no end", "a comment without its end", 2)
    if code == "E12":
        return Hint("greater than 4294967295", "a number above 4294967295", word_length(fault))
    if code == "E20":
        return Hint(met(fault), form_of(fault), max(len(fault.token.text), 1))
    if code == "E21":
        return Hint(f"here it is more than {MOST_DEPTH} deep", f"more than {MOST_DEPTH} brackets and operators inside one another",
                    max(len(fault.token.text), 1))
    return Hint(f"the {MOST_TOKENS + 1:,}st", f"more than {MOST_TOKENS:,} tokens", max(len(fault.token.text), 1))


def word_length(fault: Fault) -> int:
    """How many letters and digits stand at the place."""
    text, end = fault.source.text, fault.byte
    while end < len(text) and (text[end].isalnum() or text[end] == "_"):
        end += 1
    return max(end - fault.byte, 1)


def bad_byte(fault: Fault) -> Hint:
    """What is said of a byte that begins no token."""
    text, at = fault.source.text, fault.byte
    letter = text[at:at + 4].encode("latin-1").decode(errors="ignore")[:1] or text[at:at + 1]
    length = len(letter.encode())
    if letter == "?":
        return Hint("no operator of this language", "`c ? a : b`")
    if letter in ("'", '"'):
        return Hint("there are no characters and no texts", "`String`, characters")
    if at and text[at - 1].isascii() and (text[at - 1].isalnum() or text[at - 1] == "_"):
        if not letter:
            return Hint("the number isn't finished", "a letter straight after a number")
        if letter.isascii() and (letter.isalnum() or letter == "_"):
            return Hint("straight after a number", "a letter straight after a number")
    name = letter if letter.isprintable() else f"byte {ord(letter)}" if letter else "the end of the file"
    return Hint(f"`{name}` isn't in the language", "a letter or sign that the language doesn't have", length)


def met(fault: Fault) -> str:
    """What was met, and what could have stood there."""
    token = fault.token
    what = f"met `{token.text}`" if token.text else "the file ends here"
    if not fault.expected:
        return what
    *front, last = fault.expected
    return f"{what}, expected {', '.join(front)}{' or ' if front else ''}{last}"


def form_of(fault: Fault) -> str:
    """The form in which the place is."""
    return next((form for find in FINDERS if (form := find(fault))), "")


def class_form(fault: Fault) -> str:
    """A form of a class as a whole."""
    token, depth = fault.token, depth_at(fault)
    if depth == 0 and token.text in ("union", "transient", "local"):
        return "unions, transients, references, native blocks"
    if fault.text(-2) in ("element", "quark") and token.text == "(":
        return "templates, class parameters (`quark Q(Unsigned cN)`)"
    if fault.text(-2) in ("element", "quark") and token.text == ":" and fault.text(2) in (",", "+", "^"):
        return "several bases"
    if depth < 2 and token.text == ";" and fault.text(-1) == "}":
        return "a `;` behind a class or a function"
    if depth == 0 and "`element`" in fault.expected:
        return "a closing brace too many" if token.text == "}" else "something outside of the classes"
    return ""


def type_form(fault: Fault) -> str:
    """A form of a type that is asked for something."""
    token, before = fault.token, fault.text(-1)
    is_asked = before == "." and fault.kind(-2) == "type"
    ahead = [fault.text(by) for by in range(6)]
    if (is_asked and token.text in OF_TYPES) or (token.text == "(" and fault.kind(-1) == "type"
                                                 and "." in ahead and OF_TYPES & set(ahead)):
        return "`maxof`, `minof`, `sizeof` and the like of a type"
    if is_asked or (token.kind == "type" and fault.text(1) == "."):
        return "constants of another class (`Q.cMAX`)"
    return ""


def member_form(fault: Fault) -> str:
    """A form of a member of a class."""
    token, before, depth = fault.token, fault.text(-1), depth_at(fault)
    if "operator" in (token.text, before) and depth == 1:
        return "overloaded functions, operators of your own"
    if token.text == "native" or (token.text == "&" and fault.kind(-1) == "type"):
        return "unions, transients, references, native blocks"
    if depth == 1 and before == ")" and token.text in (";", "="):
        return "`super`, functions without a body"
    if token.text == "[" and depth > 1 and fault.kind(-1) == "name" and ends_type(fault):
        return "arrays as locals, arrays of quarks"
    if token.text == "=" and depth == 1 and "`;`" in fault.expected:
        return "first values of data members (`Unsigned(3) n = 2;`)"
    if token.text == "," and "`;`" in fault.expected and is_declared(fault):
        return "`Int a, b;`"
    if token.text == "<" and fault.kind(-1) == "type":
        return "`<` and `>` around a width"
    if depth > 1 and token.text in ("constant", "typedef", "element", "quark"):
        return "`constant`, `typedef` or a class inside a function"
    return ""


def branch_form(fault: Fault) -> str:
    """A form of a branch or a loop."""
    token, before = fault.token, fault.text(-1)
    if token.text == "{" and before == ")" and word_of_brackets(fault) in ("switch", "which"):
        return "`switch` and other branches with several ways"
    if before in ("case", "otherwise", "default") or token.text in ("case", "otherwise", "default"):
        return "`switch` and other branches with several ways"
    if token.text == "{" and before == "do":
        return "`do .. while`"
    if token.text == "else":
        return "`else` without its `if`"
    return ""


def expression_form(fault: Fault) -> str:
    """A form of an expression."""
    token, before = fault.token, fault.text(-1)
    if token.text in (".", "as") and before in ("]", ")"):
        return "`ew[i].age = 0;`, `if (ew[i] as Leaf)`"
    if token.text == "as" or (token.text in ("&&", "||") and fault.text(-2) == "as"):
        return "`a as T` with another condition, or not in an `if`"
    if token.text == "." and fault.kind(-1) == "number":
        return "a number with a fraction"
    if token.text == "=" and "an operator" in fault.expected and "=" in words_of_statement(fault):
        return "`a = b = 0;`"
    if token.text in CHANGES and ("an operator" in fault.expected or "an expression" in fault.expected):
        return "an assignment or `++` inside an expression"
    return ""


def word_form(fault: Fault) -> str:
    """A form of a name."""
    token = fault.token
    wants_name = SMALL_NAME in fault.expected or CAPITAL_NAME in fault.expected
    if token.text in WORDS_BEFORE or fault.text(-1) in WORDS_BEFORE:
        return "`const`, `static`, `public` and the like"
    if token.text in SMALL_TYPES or (token.kind == "name" and fault.kind(-1) == "name"):
        return "a type that begins with a small letter"
    if wants_name and token.kind == "keyword":
        return "a word of the language as a name"
    is_alone = fault.kind(-1) == "type" and fault.expected == ["`.`"] and token.kind == "sign"
    if is_alone or (wants_name and token.kind == "type"):
        return "a name that begins with a capital letter"
    if wants_name and token.kind == "name":
        return "a class or typedef whose name begins with a small letter"
    return ""


def rest_form(fault: Fault) -> str:
    """A form of something that is missing, or that stands outside of its place."""
    if fault.token.kind == "end":
        return "a brace or bracket that is never closed"
    if depth_at(fault) == 1 and "`}`" in fault.expected:
        return "a statement outside of a function"
    if ("`(`" in fault.expected and fault.text(-1) in ("if", "while", "for")) or fault.token.text in (")", "]"):
        return BRACKET if "an expression" not in fault.expected else "a value that is missing"
    if fault.token.text == "." and fault.kind(-1) == "type":
        return "an expression by itself as a statement"
    if "`;`" in fault.expected and "an expression" not in fault.expected:
        return "a `;` that is missing" if begins_statement(fault) else ""
    return next((form for what, form in MISSING.items() if what in fault.expected), "")


FINDERS: tuple[Callable[[Fault], str], ...] = (
    class_form, type_form, member_form, branch_form, expression_form, word_form, rest_form)


def depth_at(fault: Fault) -> int:
    """How many braces are open at the place."""
    before = [token.text for token in fault.tokens[:fault.at]]
    return before.count("{") - before.count("}")


def words_of_statement(fault: Fault) -> list[str]:
    """The tokens between the beginning of the statement and the place."""
    found: list[str] = []
    for token in reversed(fault.tokens[:fault.at]):
        if token.text in (";", "{", "}"):
            break
        found.append(token.text)
    return found


def is_declared(fault: Fault) -> bool:
    """Whether the statement, or the member, begins like a declaration."""
    words = words_of_statement(fault)
    return bool(words) and (words[-1][:1].isupper() or words[-1] in ("constant", "typedef", "("))


def begins_statement(fault: Fault) -> bool:
    """Whether what was met could begin a statement or a member, or end a block."""
    return fault.token.kind in ("name", "type", "keyword") and fault.token.text not in ("is", "as", "instanceof") \
        or fault.token.text in ("{", "}")


def ends_type(fault: Fault) -> bool:
    """Whether a type stands before the name that is before the place."""
    return fault.kind(-2) == "type" or fault.text(-2) == ")"


def word_of_brackets(fault: Fault) -> str:
    """The word before the brackets that end straight before the place."""
    depth = 0
    for at in range(fault.at - 1, 0, -1):
        depth += {")": 1, "(": -1}.get(fault.tokens[at].text, 0)
        if depth == 0:
            return fault.tokens[at - 1].text
    return ""
