"""How a chain is begun, and how one that was begun is gone on with."""
from collections import Counter
from collections.abc import Sequence
from dataclasses import dataclass
from pathlib import Path

from ..base.errors import LabError
from ..base.files import read_bytes
from ..base.inputs import digest
from ..base.program import Program
from ..formats.layout import Layout
from ..formats.outcome import counts
from ..formats.world import World
from ..machine.finder import Finder
from ..measure.measures import measures_of
from ..worlds.starting import drawn_world, first_atoms, first_seed
from .acts import Act, Acts
from .course import COURSE, Course, Leg
from .folder import FORM, Begun, Folder, refuse_other
from .legs import LegMaker
from .rule import ChainRule


@dataclass(frozen=True)
class Options:
    """How a chain is made, as options say it; `at` are its acts."""

    step: bool = False
    seed: int | None = None
    keep: str = "none"
    atoms: int = 1
    at: Sequence[str] = ()


@dataclass(frozen=True)
class Start:
    """What a chain is to be begun with, or was; the program has accepted it."""

    program: Program
    world: Path
    files: Sequence[Path]
    begun: Begun
    acts: Sequence[Act]
    atoms: str
    sites: int
    elements: Sequence[str]

    @staticmethod
    def of(program: Program, path: Path, files: Sequence[Path], options: Options) -> "Start":
        """What a world, element files and options say; refuses what a run would refuse, and acts that can't be."""
        world = drawn_world(path)
        if options.atoms < 1:
            raise LabError(f"--atoms {options.atoms}: it has to be at least 1")
        first = first_seed(world, options.seed)
        atoms = first_atoms(program, path, files)
        layout = Layout.of(program, files)
        acts = acts_of(options.at, world, layout)
        begun = Begun(FORM, digest(read_bytes(path)), [digest(read_bytes(file)) for file in files], options.step, first,
                      options.keep, options.atoms, [act.text for act in acts])
        return Start(program, path, files, begun, acts, atoms, world.sites, layout.elements)

    def opened(self, folder: Folder) -> tuple[LegMaker, Course]:
        """The chain of a folder that is held: begun, or gone on with if it was begun with the same."""
        if folder.is_begun:
            refuse_other(folder, folder.begun(), self.begun, self.world)
            maker, course = going_on(self.program, folder)
            add_acts(maker, course, self.acts)
            return maker, course
        course = Course(list(self.elements), self.sites)
        course.add(Leg(0, 0, 0, 0, counts(self.atoms, course.elements)))
        folder.begin(self.begun, self.world, self.files, self.atoms, course)
        return going_on(self.program, folder)


def chain_of(program: Program, folder: Folder) -> tuple[LegMaker, Course]:
    """The chain that was begun in a folder, as far as it is made."""
    begun, world = folder.begun(), drawn_world(folder.start)
    layout = Layout.of(program, folder.files)
    course = folder.course(folder.packed(begun).done, layout.elements, world.sites)
    rule = ChainRule(world, begun.seed, begun.step, Acts.of(folder.acts(world, layout)))
    finder = Finder(program, folder.files, world) if course.has_failures else None
    maker = LegMaker(program, folder, begun, rule, layout, measures_of(course.measures, layout), finder, course.has_drift)
    return maker, course


def going_on(program: Program, folder: Folder) -> tuple[LegMaker, Course]:
    """The chain that was begun in a folder that is held. Refuses one whose files are not as they were."""
    begun = folder.begun()
    changed = folder.changed(begun)
    if changed is not None:
        raise LabError(f"{changed}: not as it was when the chain was begun")
    maker, course = chain_of(program, folder)
    last = course.legs[-1]
    if counts(folder.atoms(last.number, begun), course.elements) != last.counts:
        raise LabError(f"{folder.path}: leg {last.number} left other atoms than {COURSE} says")
    return maker, course


def acts_of(texts: Sequence[str], world: World, layout: Layout) -> list[Act]:
    """The acts that the options --at say."""
    try:
        return [Act.of(text, world, layout) for text in texts]
    except LabError as error:
        raise LabError(f"--at {error}") from error


def add_acts(maker: LegMaker, course: Course, acts: Sequence[Act]) -> None:
    """Puts acts on record that aren't there yet. Refuses those whose leg is done."""
    known = Counter(maker.folder.act_texts())
    done = len(course.legs) - 1
    new = []
    for act in acts:
        if known[act.text] > 0:
            known[act.text] -= 1
        elif done > 0 and (act.is_every or act.leg <= done):
            raise LabError(f"--at {act.text}: {refused(act, maker, done)}")
        else:
            new.append(act)
    for act in new:
        maker.rule.acts.add(act)
    if new:
        maker.folder.add_acts(act.text for act in new)


def refused(act: Act, maker: LegMaker, done: int) -> str:
    """Why an act can't be done any more, and what can."""
    if act.is_every:
        return f"legs are done, up to leg {done}, and an act before many legs has to be there from the first on; begin another chain with it"
    return (f"leg {act.leg} is done, and nothing of the kind was done before it; a branch can do it: "
            f"./lab chain --from {maker.folder.path} {act.leg - 1} NEW --at .. --legs N")
