"""Names in the bodies of functions (docs/language.md, "Names"). Refused with 30, 31, 35 and 36."""
from __future__ import annotations

from typing import Optional, Union

from . import trees
from .faults import Refused
from .limits import MOST_LOCALS
from .names import Names, known_at

CALLS = {trees.WINDOW: ("swap", "isLive", "isEmpty"), trees.RANDOM: ("create", "oneIn")}
Named = Union[trees.Local, trees.Seen]


class Scopes:
    """Looks up the names in one body. Each scope has what its names stand for; the last scope is the innermost."""

    def __init__(self, names: Names, of: trees.Class, function: trees.Function) -> None:
        self.names = names
        self.of = of
        self.function = function
        self.known = known_at(of, function)
        self.scopes: list[dict[str, Named]] = [{it.word.text: it for it in function.locals}]

    def look_up(self) -> None:
        """Looks up the names of the body."""
        for statement in self.function.body.body:
            self.statement(statement)

    def inside(self, *parts: Optional[trees.Statement], shown: Optional[dict[str, Named]] = None) -> None:
        """Looks up statements in a scope of their own."""
        self.scopes += [shown, {}] if shown else [{}]
        for part in parts:
            if isinstance(part, trees.Block):
                for statement in part.body:
                    self.statement(statement)
            elif part is not None:
                self.statement(part)
        del self.scopes[-2 if shown else -1 :]

    def statement(self, it: trees.Statement) -> None:
        """Looks up the names of a statement."""
        if isinstance(it, trees.Block):
            self.inside(it)
        elif isinstance(it, trees.If):
            shown = self.shown_by(it.condition)
            self.inside(it.yes, shown=shown)
            self.inside(it.no)
        elif isinstance(it, trees.Loop):
            self.loop(it)
        elif isinstance(it, trees.Declare):
            self.declare(it)
        elif isinstance(it, trees.Assign):
            self.expr(it.left)
            self.expr(it.value)
        elif isinstance(it, trees.Do):
            self.expr(it.call)
        elif isinstance(it, trees.Return) and it.value is not None:
            self.expr(it.value)

    def loop(self, it: trees.Loop) -> None:
        """Looks up a loop; a `for` is a scope, and its body one inside."""
        self.scopes.append({})
        if it.first is not None:
            self.statement(it.first)
        if it.condition is not None:
            self.expr(it.condition)
        if it.step is not None:
            self.statement(it.step)
        self.inside(it.body)
        self.scopes.pop()

    def declare(self, it: trees.Declare) -> None:
        """Declares a local, which is known from its end on."""
        self.names.look_up(it.of, self.known)
        if len(self.function.locals) == MOST_LOCALS + len(self.function.params):
            raise Refused(35, it.word.at)
        if it.word.text in self.scopes[-1]:
            raise Refused(30, it.word.at)
        if it.value is not None:
            self.expr(it.value)
        it.local = trees.Local(it.word, it.of, len(self.function.locals))
        self.function.locals.append(it.local)
        self.scopes[-1][it.word.text] = it.local

    def shown_by(self, condition: trees.Expr) -> Optional[dict[str, Named]]:
        """Looks up a condition; what it shows, if it is an `as` with an element."""
        self.expr(condition)
        if isinstance(condition, trees.As) and isinstance(condition.of.type, trees.Class) and not condition.of.type.is_quark:
            what = condition.path.steps[0]
            what = what.what if isinstance(what, trees.Seen) else what
            assert not isinstance(what, (str, trees.Self))
            return {condition.path.words[0].text: trees.Seen(what, condition.of.type)}
        return None

    def expr(self, it: trees.Expr) -> None:
        """Looks up the names of an expression."""
        if isinstance(it, trees.Path):
            self.path(it)
        elif isinstance(it, (trees.Call, trees.Index, trees.As)):
            self.path(it.path)
            for part in it.args if isinstance(it, trees.Call) else [it.index] if isinstance(it, trees.Index) else []:
                self.expr(part)
        elif isinstance(it, trees.Cast):
            self.names.look_up(it.of, self.known)
            self.expr(it.value)
        elif isinstance(it, trees.Group):
            self.expr(it.inner)
        elif isinstance(it, (trees.Prefix, trees.Is)):
            self.expr(it.value)
        elif isinstance(it, trees.Pair):
            self.expr(it.left)
            self.expr(it.right)
        if isinstance(it, (trees.Is, trees.As, trees.Instance)):
            self.names.look_up(it.of, self.known)

    def path(self, it: trees.Path) -> None:
        """Notes what each name of a path stands for."""
        at = trees.Self() if it.is_own else self.first(it.words[0])
        it.steps = [at]
        for word in it.words if it.is_own else it.words[1:]:
            it.steps.append(self.further(it.steps[-1], word))

    def first(self, word: trees.Word) -> trees.Step:
        """What a name stands for at the front of a path."""
        for scope in reversed(self.scopes):
            if word.text in scope:
                return scope[word.text]
        member = self.known.get(word.text)
        if member is None or isinstance(member, trees.Typedef):
            raise Refused(31, word.at)
        return member

    def further(self, before: trees.Step, word: trees.Word) -> trees.Step:
        """What a name stands for behind a step."""
        type = self.type_behind(before)
        if isinstance(type, trees.PlainType) and word.text in CALLS.get(type, ()):
            return word.text
        member = type.known.get(word.text) if isinstance(type, trees.Class) else None
        if isinstance(member, (trees.Field, trees.Function)):
            return member
        raise Refused(31, word.at)

    def type_behind(self, before: trees.Step) -> Optional[trees.Type]:
        """The class, the window or the random numbers whose names may follow a step."""
        if isinstance(before, trees.Self):
            return self.of
        if isinstance(before, trees.Seen):
            return before.as_type
        if isinstance(before, trees.Field):
            return before.of.type
        is_element = isinstance(before, trees.Local) and isinstance(before.of.type, trees.Class) and not before.of.type.is_quark
        return before.of.type if isinstance(before, trees.Local) and is_element else None


def resolve(files: list[trees.File], names: Names) -> None:
    """Looks up the names in all bodies, in the order of the text."""
    for file in files:
        for it in file.classes:
            for function in it.functions():
                Scopes(names, it, function).look_up()
