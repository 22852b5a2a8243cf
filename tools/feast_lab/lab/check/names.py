"""What is said of names, bases and layout that the program refuses (E30 to E41)."""
from collections.abc import Iterable
from difflib import get_close_matches

from ..base.limits import MOST_PARAMS, STATE_BITS
from ..ulam.nearby import has_class
from ..ulam.reader import BUILT_IN, LIBRARY, NUMBERS, has_name, type_text
from ..ulam.tokens import Token
from ..ulam.trees import (
    RANDOM, WINDOW, Cast, Class, Constant, Declare, Field, Function, Member, NumberType, Path, PlainType, Typedef, TypeRef, Word,
    first_name)
from .fault import Fault, Hint
from .grammar import OF_TYPES

OUTSIDE = "a local outside of its block, or before it is declared"
COORDINATES = frozenset("C2D C3D S2D Coord Point SPoint C211 MDist".split())
ULAM_LIBRARY = frozenset(
    "AABB ARGB AtomUtils BitVector ColorUtils DebugUtils Debug DMStats EventWindowUtils Fail Keyboard Logger Math "
    "PositionInfo QContext QuarkUtils SiteUtils System UrElement UrQuark UrSelf Utils Wall WallPort WindowScanner "
    "WindowServices".split())
SYMMETRIES = ("symmetry", "symmetries", "rotate", "flip", "mirror")
COUNTS = ("count", "age", "updates")


def hint_of_names(fault: Fault) -> Hint:
    """What is said of a refusal with E30 to E41."""
    find = {"E30": twice, "E31": unknown, "E32": containing, "E33": no_behave, "E34": constant, "E35": too_many,
            "E36": bad_type, "E37": base, "E38": own_base, "E39": override, "E40": too_wide, "E41": too_wide}
    return find[fault.refused.code](fault)


def length(fault: Fault) -> int:
    """How long the token at the place is."""
    return max(len(fault.token.text), 1)


def twice(fault: Fault) -> Hint:
    """A name that is declared twice."""
    name, size = fault.token.text, length(fault)
    if name in BUILT_IN or name in NUMBERS:
        return Hint(f"`{name}` is a built-in type", "a class or typedef with the name of a built-in type", size)
    first, owner = first_of(fault)
    if first is None:
        return Hint(f"`{name}` again", "a name that is declared twice", size)
    also = ((first, f"`{name}` is declared here"),)
    if fault.text(-1) in ("element", "quark"):
        return Hint(f"class `{name}` again", "a class that is declared twice", size, also)
    if owner is not None and owner is not fault.class_:
        return Hint(f"`{name}` again; the base `{owner.word.text}` has it", "a member that a base has already", size,
                    also)
    both = [member for member in fault.own if member.word.text == name]
    is_overloaded = len(both) > 1 and all(isinstance(it, Function) for it in both) and owner is not None
    form = "overloaded functions, operators of your own" if is_overloaded else "a name that is declared twice"
    return Hint(f"`{name}` again", form, size, also)


def first_of(fault: Fault) -> tuple[Token | None, Class | None]:
    """Where a name that is declared again was declared, and in which class if it is a member there."""
    name, token = fault.token.text, fault.elements.token
    if fault.text(-1) in ("element", "quark"):
        found = fault.elements.line.first.get(name)
        return (token(found.word.at) if found else None), None
    function = fault.function
    if function is not None and function.word.at != fault.spot:
        words = [*(word for _, word in function.params), *(it.word for it in fault.body if isinstance(it, Declare))]
        before = [it for it in words if it.text == name and it.at < fault.spot]
        return (token(before[-1].at) if before else None), None
    for owner in line(fault):
        for member in fault.elements.own[owner]:
            if member.word.text == name and member.word.at != fault.spot:
                return token(member.word.at), owner
    return None, None


def line(fault: Fault) -> list[Class]:
    """The class and its bases, the class itself first."""
    return [fault.class_, *fault.elements.line.bases(fault.class_)] if fault.class_ else []


def nearest_member(fault: Fault, name: str) -> Member | None:
    """The member of the class or its bases with a name: of a virtual function the nearest declaration."""
    return next((it for owner in line(fault) for it in fault.elements.own[owner] if has_name(it, name)), None)


def members(fault: Fault) -> list[Member]:
    """What the class is given."""
    return fault.class_.members if fault.class_ else []


def unknown(fault: Fault) -> Hint:
    """A name that isn't known."""
    if fault.token.kind == "type":
        return unknown_type(fault)
    if fault.text(-1) == ".":
        return unknown_further(fault)
    name = fault.token.text
    member = nearest_member(fault, name)
    if isinstance(member, (Constant, Typedef)):
        return not_yet(fault, member)
    form = unknown_form(fault)
    label = f"nothing here has the name `{name}`" + nearest(name, [*fault.elements.known, *names(members(fault))])
    return Hint(label, form, length(fault), elsewhere(fault) if form == OUTSIDE else ())


def not_yet(fault: Fault, member: Member) -> Hint:
    """A constant or a typedef that is declared further down."""
    return Hint(f"`{member.word.text}` isn't known yet", "a constant or typedef that is declared further down", length(fault),
                ((fault.elements.token(member.word.at), "it is declared here"),))


def names(of: Iterable[Member]) -> list[str]:
    """The names of members."""
    return [it.word.text for it in of]


def unknown_form(fault: Fault) -> str:
    """Which form a name that isn't known has."""
    name, behind, called = fault.token.text, fault.text(1), fault.text(2)
    if name == "super":
        return "`super`, functions without a body"
    if behind == "[" or (behind == "." and called in (*LIBRARY[WINDOW], *LIBRARY[RANDOM])):
        wanted = RANDOM if called in LIBRARY[RANDOM] else WINDOW
        if all(it.of.word.text != wanted.name for it in members(fault) if isinstance(it, Field)):
            return "an event window or random numbers that the class doesn't declare"
    if elsewhere(fault):
        return OUTSIDE
    if behind == "(" and any(name in names(it for it in fault.elements.own[quark] if isinstance(it, Function))
                             for quark in parts_of(fault)):
        return "a function of a quark without its member"
    return "a misspelt name"


def parts_of(fault: Fault) -> list[Class]:
    """The quarks that the class has as data members."""
    kinds = [it.of.word.text for it in members(fault) if isinstance(it, Field)]
    return [fault.elements.line.first[kind] for kind in kinds if kind in fault.elements.line.first]


def elsewhere(fault: Fault) -> tuple[tuple[Token, str], ...]:
    """The locals of the same name in other blocks of the function."""
    found = [it.word for it in fault.body if isinstance(it, Declare) and it.word.text == fault.token.text]
    return tuple((fault.elements.token(it.at), "known from here on" if it.at > fault.spot else "known in this block alone")
                 for it in found[:1])


def nearest(name: str, known: Iterable[str]) -> str:
    """The most similar of the names that are known, as a question."""
    found = get_close_matches(name, list(known), 1, 0.6)
    return f"; did you mean `{found[0]}`?" if found and found[0] != name else ""


def unknown_type(fault: Fault) -> Hint:
    """A type that isn't known."""
    name, size = fault.token.text, length(fault)
    member = nearest_member(fault, name)
    if isinstance(member, Typedef):
        return not_yet(fault, member)
    forms = {"String": "`String`, characters", "SiteNum": "`SiteNum`, `Self`", "Self": "`SiteNum`, `Self`"}
    if name in COORDINATES:
        form = "coordinates (`C2D` and conversions of it)"
    elif name in ULAM_LIBRARY:
        form = "classes of the library other than `EventWindow` and `Random`"
    else:
        form = forms.get(name, "a class that no file has")
    known = [*fault.elements.line.first, *BUILT_IN, *NUMBERS]
    return Hint(f"no class and no typedef has the name `{name}`" + (has_class(name, fault.sources) or nearest(name, known)),
                form, size)


def unknown_further(fault: Fault) -> Hint:
    """A name behind a dot that isn't known there."""
    name, path = fault.token.text, next((it for it in fault.nodes if isinstance(it, Path) and stands_in(fault, it)), None)
    if name in OF_TYPES:
        return Hint(f"no value has a `{name}`", "`maxof`, `minof`, `sizeof` and the like of a type", length(fault))
    if path is None or not path.steps:
        return Hint(f"`{name}` isn't known here", "a misspelt name", length(fault))
    kind = fault.type_of(path.steps[-1])
    if isinstance(kind, PlainType) and kind in LIBRARY:
        has = ", ".join(f"`{it}`" for it in LIBRARY[kind])
        return Hint(f"`{name}` isn't in {'an' if kind is WINDOW else 'a'} `{fault.text_of(path.steps[-1])}`, which has {has}",
                    window_form(name) if kind is WINDOW else "another call of a `Random`", length(fault))
    if not isinstance(kind, Class) or fault.text_of(path.steps[-1]) != kind.word.text:
        before = [first_name(path), *(it.text for it in path.words)][len(path.steps) - path.is_own]
        return Hint(f"`{before}` is of type {fault.text_of(path.steps[-1])}, which has no members",
                    "a member that the class doesn't have", length(fault))
    known = names(kind.members)
    return Hint(f"`{name}` isn't in `{kind.word.text}`" + (nearest(name, known) or f", which has {listed(known)}"),
                "a member that the class doesn't have", length(fault))


def stands_in(fault: Fault, path: Path) -> bool:
    """Whether a path has the name at the place."""
    return any(word.at == fault.spot for word in path.words)


def window_form(name: str) -> str:
    """Which form a call of the window has that it doesn't have here."""
    small = name.lower()
    if any(word in small for word in SYMMETRIES):
        return "symmetries of the window"
    if any(word in small for word in COUNTS):
        return "counts of events"
    if "coord" in small or "c2d" in small:
        return "coordinates (`C2D` and conversions of it)"
    return "other calls of the window, such as those that destroy an atom or make it diffuse"


def listed(names: list[str]) -> str:
    """Names, the first few of them."""
    if not names:
        return "nothing"
    return ", ".join(f"`{name}`" for name in names[:6]) + (" .." if len(names) > 6 else "")


def containing(fault: Fault) -> Hint:
    """A quark that contains itself."""
    return Hint(f"`{fault.token.text}` is a part of itself", "quarks that have each other as members", length(fault))


def no_behave(fault: Fault) -> Hint:
    """An element without `behave`."""
    found = next((it for it in members(fault) if has_name(it, "behave")), None)
    if found is None:
        return Hint("it has no `Void behave()`", "an element without `behave`", length(fault))
    return Hint("its `behave` isn't `Void behave()`", "a `behave` with parameters or a result", length(fault),
                ((fault.elements.token(found.word.at), "this one doesn't count"),))


def constant(fault: Fault) -> Hint:
    """A constant whose value doesn't fit."""
    found = next((it for it in members(fault) if isinstance(it, Constant) and it.word.at == fault.spot), None)
    if found is None or not isinstance(found.of.type, NumberType):
        return Hint()
    type_ = found.of.type
    value = "".join(fault.text(by) for by in (2, 3) if fault.text(by) != ";")
    if type_.kind == "Bool" or isinstance(found.written, bool):
        return Hint(f"{value} for a constant of type {type_text(type_)}",
                    "`true` or `false` for a number, or a number for a `Bool`", length(fault))
    return Hint(f"{value} for a constant of type {type_text(type_)}, which has {type_.least()} to {type_.greatest()}",
                "a constant that doesn't fit its type", length(fault))


def too_many(fault: Fault) -> Hint:
    """A declaration too many."""
    function = fault.function
    if function is not None and any(word.at == fault.spot for _, word in function.params):
        return Hint(f"the {MOST_PARAMS + 1}th parameter", f"more than {MOST_PARAMS} parameters", length(fault))
    return Hint("one too many", "more declarations than a class, a function or a call may have", length(fault))


def bad_type(fault: Fault) -> Hint:
    """A type that isn't allowed where it stands."""
    kind, owner = fault.token.text, fault.class_
    use = next((it for it in uses(fault) if it.word.at == fault.spot), None)
    if use is None or owner is None:
        return Hint(f"a length from 1 to {STATE_BITS} is allowed", "an array that is too long, or of length 0", length(fault))
    known = owner.known.get(use.width.text) if isinstance(use.width, Word) else None
    width = known.value if isinstance(known, Constant) else use.width
    data = next((it for it in members(fault) if isinstance(it, Field) and it.of is use), None)
    first, size = fault.elements.line.first, length(fault)
    if kind == "Bool" and use.width is not None:
        return Hint(f"met a width of {width}; a `Bool` has 1 bit", "`Bool(3)` and other truth values of several bits",
                    size)
    if kind in NUMBERS and use.width is not None:
        least, most, _ = NUMBERS[kind]
        form = "numbers wider than 64 bits" if isinstance(width, int) and width > 64 else "a width that is out of range"
        return Hint(f"met a width of {width}, expected {least} to {most}", form, size)
    if use.width is not None and kind in first:
        return Hint("a class takes no parameters", "templates, class parameters (`quark Q(Unsigned cN)`)", size)
    if use.width is not None:
        return Hint(f"`{kind}` takes no width", "a width of a type that takes none", size)
    if data is not None and data.written is not None and kind in first:
        return Hint("an array has numbers alone", "arrays as locals, arrays of quarks", size)
    if data is not None and (kind == "Atom" or (kind in first and not first[kind].is_quark)):
        return Hint("a data member is no atom", "a data member that is an atom or an element", size)
    form = "a member, constant or typedef of a type that isn't allowed there"
    return Hint(f"`{kind}` isn't allowed here", form, size)


def uses(fault: Fault) -> list[TypeRef]:
    """The types that are written in the class, those of its functions among them."""
    found = []
    for member in members(fault):
        found.append(member.of)
        found += [of for of, _ in member.params] if isinstance(member, Function) else []
    return found + [it.of for it in fault.nodes if isinstance(it, (Declare, Cast))]


def base(fault: Fault) -> Hint:
    """A base that is no quark."""
    name = fault.token.text
    found = fault.elements.line.first.get(name)
    if found is None:
        quarks = [it.word.text for it in fault.elements.classes if it.is_quark]
        near = has_class(name, fault.sources) or nearest(name, quarks)
        return Hint(f"no quark has the name `{name}`{near}", "a base that no file has", length(fault))
    return Hint(f"`{name}` is an element", "an element as a base", length(fault),
                ((fault.elements.token(found.word.at), "declared here"),))


def own_base(fault: Fault) -> Hint:
    """A quark whose bases lead back to it."""
    bases = fault.elements.line.bases(fault.class_) if fault.class_ else []
    front = [fault.class_, *bases[:-1]] if fault.class_ and bases[-1:] == [fault.class_] else line(fault)
    again = fault.elements.line.base(front[-1]) if front else None
    return Hint("its bases are " + " : ".join(it.word.text for it in [*front, again] if it), "quarks that are each other's base",
                length(fault))


def override(fault: Fault) -> Hint:
    """A function that doesn't match the virtual one of a base."""
    found = next((it for it in fault.own if it.word.at == fault.spot), None)
    if isinstance(found, Field):
        return Hint("a data member", "`virtual` before a data member", length(fault))
    above = next((it for owner in line(fault)[1:] for it in owner.functions()
                  if found is not None and has_name(it, found.word.text)), None)
    if above is None or not isinstance(found, Function):
        return Hint("", "a function whose virtual one has another result or other parameters", length(fault))
    return Hint(f"met {head(found)}, expected {head(above)}",
                "a function whose virtual one has another result or other parameters", length(fault),
                ((fault.elements.token(above.word.at), "the virtual function"),))


def head(function: Function) -> str:
    """A function's types and its name."""
    return f"`{written(function.of)} {function.word.text}({', '.join(written(of) for of, _ in function.params)})`"


def written(of: TypeRef) -> str:
    """A type as it is written."""
    width = of.width.text if isinstance(of.width, Word) else of.width
    return of.word.text if width is None else f"{of.word.text}({width})"


def too_wide(fault: Fault) -> Hint:
    """A class with too many bits."""
    shown = [f"`{it.word.text}` {it.bits}" for it in members(fault) if isinstance(it, Field) and it.bits]
    if len(shown) > 8:
        shown = [*shown[:8], ".."]
    is_quark = fault.refused.code == "E40"
    return Hint("bits: " + ", ".join(shown), "a quark of more than 32 bits" if is_quark
                else f"an element of more than {STATE_BITS} bits", length(fault))
