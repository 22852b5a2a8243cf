"""Locals, members and functions that no function of the files uses."""
from collections import defaultdict
from collections.abc import Iterator

from ..ulam.ranges import Known
from ..ulam.reader import Elements
from ..ulam.trees import (
    As, Assign, Class, Declare, Field, Function, If, Local, Path, Statement, local_of, own_exprs, parts, statements)
from .warned import Warned

NAME = "unused"


def warnings(known: Known) -> Iterator[Warned]:
    """What isn't used. A quark that no class has as a base or as a part may be meant for other files."""
    elements = known.elements
    users = used_names(elements)
    for _, function in elements.all_functions():
        yield from unread_locals(elements, function)
    for class_ in elements.classes:
        if not class_.is_quark or is_in_use(elements, class_):
            yield from unused_members(elements, class_, users)


def is_in_use(elements: Elements, quark: Class) -> bool:
    """Whether another class has a quark as a base or as a data member."""
    return bool(elements.heirs(quark)) or any(it.of.type is quark for class_ in elements.classes for it in class_.fields())


def used_names(elements: Elements) -> dict[str, set[Function]]:
    """The names of all paths but for locals, each with the functions whose text has it."""
    users: dict[str, set[Function]] = defaultdict(set)
    for _, function in elements.all_functions():
        for statement in statements(function.body):
            for path in paths(statement):
                for word in path.words if local_of(path) is None else path.words[1:]:
                    users[word.text].add(function)
    return users


def paths(statement: Statement) -> Iterator[Path]:
    """The paths of a statement itself."""
    return (part for expr in own_exprs(statement) for part in parts(expr) if isinstance(part, Path))


def unused_members(elements: Elements, class_: Class, users: dict[str, set[Function]]) -> Iterator[Warned]:
    """The data members and functions of a class that nothing uses."""
    for member in elements.own[class_]:
        name, token = member.word.text, elements.token(member.word.at)
        if isinstance(member, Field) and not users[name]:
            yield Warned(NAME, token, f"no function uses the member `{name}`")
        if isinstance(member, Function) and name != "behave" and not users[name] - {member} \
                and not elements.line.is_virtual(name, class_):
            yield Warned(NAME, token, f"nothing calls the function `{name}`")


def unread_locals(elements: Elements, function: Function) -> Iterator[Warned]:
    """The locals of a function that nothing reads."""
    read = {local for it in statements(function.body) for local in read_by(it)}
    for it in statements(function.body):
        if isinstance(it, Declare) and it.local not in read:
            yield Warned(NAME, elements.token(it.word.at), f"nothing reads the local `{it.word.text}`")


def read_by(statement: Statement) -> Iterator[Local | None]:
    """The locals that a statement itself reads; to assign to one by `=` isn't to read it."""
    if isinstance(statement, If) and isinstance(statement.condition, As):
        yield local_of(statement.condition.path)
    is_set = isinstance(statement, Assign) and not statement.sign
    for path in paths(statement):
        if not (is_set and isinstance(statement, Assign) and path is statement.left):
            yield local_of(path)
