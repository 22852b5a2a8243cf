"""The elements of examples/wator.ulam."""
from plane import EMPTY, Atom
from window import Elements, Window

FISH_BREEDING = 3
SHARK_BREEDING = 10
STARVING = 4
AGE, HUNGER = (0, 6), (6, 6)


def move(window: Window, site: int, me: Atom, breeding: int) -> None:
    """Goes to a site; once it is grown it leaves a young one behind, which begins as it does."""
    if me.get(*AGE) == breeding:
        me = me.put(*AGE, 0)
        window.put(0, me)
    else:
        window.put(0, EMPTY)
    window.put(site, me)


def graze(window: Window) -> None:
    """A fish grows older, and swims to an empty neighbour."""
    site = window.below(4) + 1
    me = window.me
    me = me.put(*AGE, min(me.get(*AGE) + 1, FISH_BREEDING))
    if window.is_live(site) and window.is_empty(site):
        move(window, site, me, FISH_BREEDING)
    else:
        window.me = me


def hunt(window: Window) -> None:
    """A shark eats the first fish of its neighbours, from a random one on; without one it swims about."""
    me = window.me
    if me.get(*HUNGER) == STARVING:
        window.put(0, EMPTY)
        return
    me = me.put(*AGE, min(me.get(*AGE) + 1, SHARK_BREEDING)).put(*HUNGER, me.get(*HUNGER) + 1)
    first = window.below(4)
    sites = [(first + turn) % 4 + 1 for turn in range(4)]
    prey = [site for site in sites if window.atom(site).kind == "Fish"]
    if prey:
        move(window, prey[0], me.put(*HUNGER, 0), SHARK_BREEDING)
    elif window.is_live(sites[0]) and window.is_empty(sites[0]):
        move(window, sites[0], me, SHARK_BREEDING)
    else:
        window.me = me


ELEMENTS: Elements = {"Fish": graze, "Shark": hunt}
