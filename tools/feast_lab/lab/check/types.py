"""What is said of types that the program refuses (E50 to E60)."""
from ..ulam.reader import (
    ARGUMENTS, LIBRARY, MOST_PLAIN_INT, family, is_assignable, is_plain, type_text)
from ..ulam.trees import (
    BOOL, RANDOM, VOID, WINDOW, As, Assign, Call, Cast, Declare, Do, Expr, Field, Function, If, Index, Is, Local, Loop, Number,
    NumberType, Pair, Path, PlainType, Prefix, Return, Seen, Statement, Type, begin, local_of)
from .fault import Fault, Hint

BIT_SIGNS = frozenset("& | ^ << >>".split())
NO_VALUE = "a quark, an array, a function or a call without a result as a value"
BAD_SITE = "an index or a site that isn't a number"


def hint_of_types(fault: Fault) -> Hint:
    """What is said of a refusal with E50 to E60."""
    find = {"E50": wrong_type, "E51": mixed, "E52": not_assignable, "E53": arguments, "E54": not_an_element,
            "E55": no_loop, "E56": no_return, "E60": too_long}
    return find[fault.refused.code](fault)


def named(expr: Expr | None) -> str:
    """The type of an expression as a text names it."""
    if expr is None or expr.type is VOID:
        return "no value"
    return "a plain number" if is_plain(expr) else f"`{type_text(expr.type)}`"


def mark(fault: Fault) -> int:
    """How long the token at the place is."""
    return max(len(fault.token.text), 1)


def mixed(fault: Fault) -> Hint:
    """Int with Unsigned."""
    form = "`Int` and `Unsigned` in one operation"
    for node in fault.nodes:
        if isinstance(node, Pair) and node.at == fault.spot:
            return Hint(f"left {named(node.left)}, right {named(node.right)}", form, mark(fault))
        if isinstance(node, Assign) and node.left.at == fault.spot and node.sign:
            return Hint(f"left {named(node.left)}, right {named(node.value)}", form, mark(fault))
    return Hint("", form, mark(fault))


def wrong_type(fault: Fault) -> Hint:
    """A wrong type: at an operator, at a type, at a `return`, or at the first token of what is wrong."""
    declared = bad_declaration(fault)
    if declared is not None:
        return declared
    for find in (at_sign, at_first):
        for node in fault.nodes:
            found = find(fault, node)
            if found is not None:
                return found
    return Hint("", "", mark(fault))


def bad_declaration(fault: Fault) -> Hint | None:
    """A local, a parameter or a result of a type that it can't have."""
    if fault.token.kind != "type":
        return None
    kind, size = fault.token.text, mark(fault)
    if kind in (WINDOW.name, RANDOM.name):
        return Hint(f"`{kind}` is for data members", "an `EventWindow` or a `Random` as a local or a parameter", size)
    if kind in fault.elements.line.first and fault.elements.line.first[kind].is_quark:
        return Hint(f"`{kind}` is a quark", "locals of a quark type", size)
    return Hint(f"`{kind}` isn't allowed here", "a local, a parameter or a result of a type that it can't have", size)


def at_sign(fault: Fault, node: Statement | Expr) -> Hint | None:
    """An operator at the place, with the types of its operands."""
    match node:
        case Pair() if node.at == fault.spot:
            return Hint(f"left {named(node.left)}, right {named(node.right)}", sign_form(node.sign, node.left, node.right),
                        mark(fault))
        case Is() if node.at == fault.spot:
            return Hint(f"left {named(node.value)}, expected an atom", "`is` of something that isn't an atom", mark(fault))
        case Prefix() if node.at == fault.spot and (form := prefix_form(node)):
            return Hint(f"before {named(node.value)}", form, mark(fault))
        case Assign() if node.left.at == fault.spot and node.sign and node.left.type is not VOID:
            return Hint(f"`{sign_of(fault, node)}` on {named(node.left)} and {named(node.value)}",
                        sign_form(node.sign, node.left, node.value), mark(fault))
        case Return() if node.at == fault.spot:
            result = f"`{type_text(fault.function.of.type)}`" if fault.function else ""
            what = "with a value" if node.value is not None else "without a value"
            return Hint(f"{what}; the function's result is {result}",
                        "`return` without a value, or with one in a `Void` function", mark(fault))
    return None


def sign_of(fault: Fault, node: Assign) -> str:
    """The operator of an assignment as it is written: behind its left side, or before that."""
    elements = fault.elements
    behind = elements.token(elements.behind(elements.last(node.left))).text
    return behind if behind.endswith("=") or behind in ("++", "--") else 2 * node.sign


def sign_form(sign: str, left: Expr, right: Expr) -> str:
    """Which form an operator on two operands has."""
    if VOID in (left.type, right.type):
        return NO_VALUE
    kinds = {family(it.type) or type_text(it.type) for it in (left, right) if not is_plain(it)}
    if sign in ("&&", "||"):
        return "a number with `!`, `&&` or `||`"
    if sign in ("<<", ">>") and kinds == {"Bits"}:
        return "`b << s` with both sides `Bits`"
    if sign in BIT_SIGNS:
        return "`&`, `|`, `^`, `~`, `<<` or `>>` of a number"
    if sign in ("==", "!="):
        is_number = all(is_plain(it) or family(it.type) for it in (left, right))
        return "`==` or `!=` of two kinds" if is_number else "`==` of atoms"
    return "arithmetic or order of `Bits`, `Bool` or atoms"


def prefix_form(node: Prefix) -> str:
    """Which form an operator before an operand of a type has; empty if the operand has a right type."""
    kind = "plain" if is_plain(node.value) else family(node.value.type)
    if node.sign == "!" and kind != "Bool":
        return "a number with `!`, `&&` or `||`"
    if node.sign == "~" and kind != "Bits":
        return "`&`, `|`, `^`, `~`, `<<` or `>>` of a number"
    if node.sign == "-" and kind not in ("Int", "plain"):
        return "`-` before an Unsigned" if kind == "Unsigned" else "arithmetic or order of `Bits`, `Bool` or atoms"
    return ""


def at_first(fault: Fault, node: Statement | Expr) -> Hint | None:
    """Something at the place whose first token is there."""
    if isinstance(node, (If, Loop)) and node.condition is not None and begin(node.condition) == fault.spot:
        if node.condition.type not in (BOOL, VOID):
            return Hint(f"met {named(node.condition)}, expected `Bool`", "a condition that isn't a `Bool`",
                        fault.extent(node.condition))
    if not isinstance(node, Expr) or begin(node) != fault.spot:
        return None
    match node:
        case Cast():
            is_from = not isinstance(node.value.type, NumberType)
            return Hint(f"a cast from {named(node.value)}" if is_from else f"a cast to `{type_text(node.of.type)}`",
                        "a cast to or from an atom or an element", fault.extent(node))
        case Number() if node.value > MOST_PLAIN_INT:
            return Hint(f"taken as an Int, which is at most {MOST_PLAIN_INT}", "a number above 2147483647 as an Int", mark(fault))
        case Index():
            return item(fault, node)
        case Call():
            return call(fault, node)
        case Path() if (what := what_is(fault, node)):
            return Hint(f"`{last_name(node)}` is {what}, which is no value", NO_VALUE, fault.extent(node))
    return None


def last_name(path: Path) -> str:
    """The last name of a path."""
    return path.words[-1].text if path.words else "self"


def what_is(fault: Fault, path: Path) -> str:
    """What a path leads to that is no value, in words; empty if it is one."""
    if not path.steps:
        return "nothing"
    last = path.steps[-1]
    if isinstance(last, (Function, str)):
        return "a function"
    kind, text = fault.type_of(last), f"`{fault.text_of(last)}`"
    if isinstance(last, Field) and last.length:
        return f"an array ({text})"
    if kind in LIBRARY:
        return f"of type {text}"
    return "" if isinstance(kind, (NumberType, PlainType)) or not kind.is_quark else f"a quark ({text})"


def item(fault: Fault, node: Index) -> Hint | None:
    """What is wrong with an index."""
    of = node.path.steps[-1]
    if not isinstance(of, Field) or (of.of.type is not WINDOW and not of.length):
        return Hint(f"`{last_name(node.path)}` is of type `{fault.text_of(of)}`", "an index behind something that has none",
                    fault.extent(node.path))
    if not is_count(node.index):
        return Hint(f"the index is {named(node.index)}, expected an Int or an Unsigned", BAD_SITE, fault.extent(node))
    return None


def is_count(expr: Expr) -> bool:
    """Whether an expression is an Int, an Unsigned or a plain number."""
    return is_plain(expr) or family(expr.type) in ("Int", "Unsigned")


def call(fault: Fault, node: Call) -> Hint | None:
    """What is wrong with a call."""
    last, size = node.path.steps[-1], fault.extent(node)
    if not isinstance(last, (str, Function)):
        return Hint(f"`{last_name(node.path)}` is no function but of type `{fault.text_of(last)}`",
                    "a call of what isn't a function", fault.extent(node.path))
    if local_of(node.path) is not None:
        return Hint(f"`{node.path.words[0].text}` is a local",
                    "a call of another element's function through a local (`other.grow()`)", fault.extent(node.path))
    if isinstance(last, str) and last in LIBRARY[RANDOM] and node.args and family(node.args[0].type) != "Unsigned":
        return Hint(f"the argument is {named(node.args[0])}, expected an Unsigned or a plain number",
                    "a random number below an Int", size)
    if isinstance(last, str) and last in LIBRARY[WINDOW] and not all(map(is_count, node.args)):
        return Hint(f"met {', '.join(map(named, node.args))}, expected site numbers", BAD_SITE, size)
    if fault.type_of(last) is VOID:
        return Hint(f"`{last_name(node.path)}` has no result", NO_VALUE, size)
    return None


def not_assignable(fault: Fault) -> Hint:
    """A value that can't be assigned to its target."""
    for node in fault.nodes:
        match node:
            case Assign() if node.left.at == fault.spot:
                size = fault.extent(node.left)
                if node.left.type is VOID:
                    path = node.left.path if isinstance(node.left, Index) else node.left
                    return Hint(f"`{last_name(path)}` can't be assigned to", "a left side that can't be assigned to", size)
                return pair(node.left.type, node.value, size)
            case Declare() if node.word.at == fault.spot:
                return pair(node.of.type, node.value, mark(fault))
            case Return() if node.at == fault.spot and fault.function is not None:
                return pair(fault.function.of.type, node.value, mark(fault))
            case Do() if node.call.at == fault.spot:
                return argument(fault, node.call)
            case Call() if node.at == fault.spot:
                return argument(fault, node)
    return Hint("", "", mark(fault))


def pair(target: Type, value: Expr | None, size: int) -> Hint:
    """A type to which a value can't be assigned."""
    label = f"met {named(value)}, expected `{type_text(target)}`"
    kinds = ["Int" if value is not None and is_plain(value) else family(value.type if value else None), family(target)]
    if "Bool" in kinds:
        form = "a truth value for a number, or a number for a `Bool`"
    elif all(kinds):
        form = "a value of another class of numbers"
    else:
        form = "an `Atom` for an element, or an atom for a number"
    return Hint(label, form, size)


def argument(fault: Fault, node: Call) -> Hint:
    """The first argument that can't be assigned to its parameter."""
    form, called = "an argument of another type than its parameter", node.path.steps[-1]
    for given, (of, word) in zip(node.args, called.params if isinstance(called, Function) else ()):
        if not is_assignable(given.type, of.type):
            return Hint(f"`{word.text}` gets {named(given)}, expected `{type_text(of.type)}`", form, fault.extent(node))
    return Hint("", form, fault.extent(node))


def arguments(fault: Fault) -> Hint:
    """A call with too many or too few arguments."""
    for node in fault.nodes:
        if isinstance(node, Call) and node.at == fault.spot and node.path.steps:
            called = node.path.steps[-1]
            wanted = len(called.params) if isinstance(called, Function) else ARGUMENTS.get(last_name(node.path), 1)
            if len(node.args) != wanted:
                return Hint(f"met {count(len(node.args))}, expected {wanted}", "too many or too few arguments",
                            fault.extent(node))
    return Hint("", "too many or too few arguments", mark(fault))


def count(number: int) -> str:
    """A number of arguments in words."""
    return f"{number} argument{'' if number == 1 else 's'}"


def not_an_element(fault: Fault) -> Hint:
    """A type that isn't an element, or a name before `as` that isn't an Atom."""
    name = fault.token.text
    for node in fault.nodes:
        if isinstance(node, As) and node.at == fault.spot:
            step = node.path.steps[0]
            is_local = isinstance(step, (Local, Seen))
            return Hint(f"`{name}` is {f'of type `{fault.text_of(step)}`' if is_local else 'no local'}",
                        "`as` after something that isn't a local of type `Atom`", mark(fault))
    if name in fault.elements.line.first and fault.text(1) != ".":
        return Hint(f"`{name}` is a quark", "`a is Q`, `a as Q` with a quark", mark(fault))
    form = "`is`, `as` or `instanceof` with something that isn't an element"
    return Hint(f"`{name}` is no element", form, mark(fault))


def no_loop(fault: Fault) -> Hint:
    """`break` or `continue` outside of a loop."""
    return Hint("no loop is around it", "`break` or `continue` outside of a loop", mark(fault))


def no_return(fault: Fault) -> Hint:
    """A function with a result whose end can be reached."""
    result = f", which gives `{type_text(fault.function.of.type)}`" if fault.function else ""
    return Hint(f"the end of `{fault.token.text}`{result}, can be reached",
                "a path through a function that returns nothing", mark(fault))


def too_long(fault: Fault) -> Hint:
    """An element whose code is too long."""
    return Hint("with all functions that it calls", "code of more than 65,536 instructions", mark(fault))
