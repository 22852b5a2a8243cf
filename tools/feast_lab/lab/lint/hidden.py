"""Names that hide others."""
from collections.abc import Iterator, Mapping

from ..ulam.ranges import Known
from ..ulam.reader import Elements
from ..ulam.trees import (
    Block, Class, Constant, Declare, Field, Function, If, Loop, Path, Statement, Typedef, Word, own_exprs, parts, statements)
from .warned import Warned

NAME = "hidden"
Scope = Mapping[str, Word]


def warnings(known: Known) -> Iterator[Warned]:
    """The typedefs that hide classes, and the locals that hide constants, members, functions or other locals."""
    elements = known.elements
    for class_ in elements.classes:
        for member in elements.own[class_]:
            name = member.word.text
            if isinstance(member, Typedef) and name in elements.line.first:
                other = elements.line.first[name].word
                yield Warned(NAME, elements.token(member.word.at), f"the typedef `{name}` hides the class of this name",
                             ((elements.token(other.at), "the class"),))
    for class_, function in elements.all_functions():
        own = set(names_behind_self(function))
        for local, outer in declared(function):
            yield from of_local(elements, class_, own, local, outer)


def names_behind_self(function: Function) -> Iterator[str]:
    """The names straight behind `self`, which no local hides."""
    for statement in statements(function.body):
        for expr in own_exprs(statement):
            for part in parts(expr):
                if isinstance(part, Path) and part.is_own and part.words:
                    yield part.words[0].text


def declared(function: Function) -> Iterator[tuple[Word, Word | None]]:
    """The parameters and locals of a function, each with the one of the same name that is known where it is declared."""
    for _, word in function.params:
        yield word, None
    yield from declared_in([function.body], {word.text: word for _, word in function.params})


def declared_in(body: list[Statement | None], outer: Scope) -> Iterator[tuple[Word, Word | None]]:
    """The locals of statements that have a scope of their own."""
    scope = dict(outer)
    for it in body:
        match it:
            case Declare():
                yield it.word, scope.get(it.word.text)
                scope[it.word.text] = it.word
            case Block():
                yield from declared_in([*it.body], scope)
            case If():
                yield from declared_in([it.yes], scope)
                yield from declared_in([it.no], scope)
            case Loop():
                yield from declared_in([it.first, it.body, it.step], scope)


def of_local(elements: Elements, class_: Class, own: set[str], local: Word, outer: Word | None) -> Iterator[Warned]:
    """The warning of a local that hides something; a member that is used by `self` is hidden on purpose."""
    name, token = local.text, elements.token(local.at)
    member = next((it for it in class_.members if it.word.text == name), None)
    if outer is not None:
        yield Warned(NAME, token, f"the local `{name}` hides another local", ((elements.token(outer.at), "the other"),))
    elif isinstance(member, Constant):
        if member.word.at[0] != local.at[0] or member.word.at < local.at:
            yield Warned(NAME, token, f"the local `{name}` hides a constant", ((elements.token(member.word.at), "the constant"),))
    elif isinstance(member, (Field, Function)) and name not in own:
        what = "member" if isinstance(member, Field) else "function"
        yield Warned(NAME, token, f"the local `{name}` hides a {what} of the class",
                     ((elements.token(member.word.at), f"the {what}"),))
