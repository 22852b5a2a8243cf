"""Chains that are made in Python, as `./lab chain` makes them: begun, walked leg by leg, gone on with, and forked."""
from collections.abc import Callable, Iterator, Sequence
from pathlib import Path
from tempfile import TemporaryDirectory

from .lab.base.progress import Progress, Stop
from .lab.chain.branch import Origin
from .lab.chain.acts import noise as noise_act
from .lab.chain.making import WantedChain, made
from .lab.chain.start import Options
from .lab.worlds.starting import drawn_world

from .asked import Until, asked
from .chains import Chain
from .moments import Moment
from .programs import Paths, plain_names
from .runs import elements_of, world_file
from .waiting import Hearer, reporter
from .worlds import World


def chain(world: str | Path | World, elements: Paths | None = None, *, legs: int, folder: str | Path | None = None, step: bool = False,
          seed: int | None = None, at: Sequence[str] = (), until: Until | None = None, measures: Sequence[str] = (),
          failures: bool = False, drift: bool = False, keep: str = "none", atoms: int = 1, noise: str | None = None,
          progress: Hearer = False) -> Chain:
    """Makes a chain, or goes on with the one of a folder; the words mean what those of `./lab chain` do. `noise` is a text, such
    as "0.001".

    `until` is a rule, or a function of a plane: once it holds of the start, or at the end of a leg, the chain is over. Without
    a folder the chain goes away with the object. With `progress` a line on standard error says how far it is; or a function
    is told, by the part that is done, from 0 to 1, and what is at work. The program is the one that `./lab` would call.
    """
    files = elements_of(world, elements)
    with TemporaryDirectory() as room:
        path = world_file(world, Path(room))
        own: TemporaryDirectory[str] | None = TemporaryDirectory() if folder is None else None
        place = Path(own.name) / "chain" if own is not None else Path(folder or "")
        acts = [*at, *([noise_act(noise, drawn_world(path))] if noise is not None else [])]
        options = Options(step, seed, keep, atoms, acts)
        wanted = WantedChain(place, path, files, legs, options, asked(until), measures, failures, drift)
        with plain_names():
            made(wanted, reporter(progress), Stop(), is_lasting=own is None)
    return Chain(place, room=own)


def go_on(begun: Chain, legs: int, at: Sequence[str] = (), until: Until | None = None, progress: Hearer = False) -> Chain:
    """Goes on with a chain until it has so many legs in all, or until a rule or a function holds at the end of one; gives the
    chain back. `at` are acts before legs that are still to come."""
    how, folder = begun.begun, begun.folder
    options = Options(how.step, how.seed, how.keep, how.atoms, at)
    wanted = WantedChain(folder.path, folder.start, folder.files, legs, options, asked(until))
    with plain_names():
        made(wanted, reporter(progress), Stop(), is_lasting=not begun.is_passing)
    return begun


def walk(begun: Chain, legs: int, until: Callable[[Moment], bool] | None = None) -> Iterator[Moment]:
    """Goes on with a chain leg by leg until it has so many in all, and gives the plane at the end of each, first that of the
    last leg that is there. With `until` it is over once this function holds of a plane."""
    while True:
        plane = begun.plane(len(begun))
        yield plane
        if len(begun) >= legs or (until is not None and until(plane)):
            return
        go_on(begun, len(begun) + 1)


def fork(begun: Chain, leg: int, folder: str | Path | None = None, legs: int | None = None, at: Sequence[str] = (),
         until: Until | None = None) -> Chain:
    """Makes a chain that has the legs of another up to one, and goes on from there with the same world and seeds and with acts
    of its own, until it has so many legs in all (those of the other, if no number is given), or until a rule or a function
    holds at the end of one. Without a folder it goes away with the object."""
    whole = legs if legs is not None else len(begun)
    own: TemporaryDirectory[str] | None = TemporaryDirectory() if folder is None else None
    place = Path(own.name) / "chain" if own is not None else Path(folder or "")
    with plain_names():
        wanted = WantedChain(place, begun.folder.start, begun.folder.files, whole, Options(at=at), asked(until))
        made(Origin.of(begun.folder.path).branch(str(leg), wanted), Progress(), Stop(), is_lasting=own is None)
    return Chain(place, room=own)
