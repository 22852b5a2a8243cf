"""The chain that a live page shows, and the orders that the page may give."""
import threading
from collections.abc import Callable, Sequence
from contextlib import ExitStack
from dataclasses import replace
from pathlib import Path
from typing import Any

from ..base.carets import with_caret
from ..base.errors import LabError
from ..base.limits import LAST_LEG, MOST_COLUMNS
from ..base.program import Program, Refusal
from ..chain.columns import carried_on
from ..chain.course import Course
from ..chain.folder import Folder
from ..chain.fork import anew, fork, free_folder
from ..chain.legs import LegMaker
from ..chain.start import going_on
from ..chain.thin import thin
from ..machine.finder import Finder
from ..pictures.marks import marks
from ..worlds.stamps import stamped
from .address import Address
from .session import Session
from .view import View

ACTS = ("clear:", "put:", "erase:", "flip:")
MOST_ACTS = 1000  # so many in one order


class Live:
    """A chain at work, whose folder is held; another one takes its place if its elements are read again.

    `files` are the element files as the user named them, or none if only the folder was named. `finds_failures` says
    whether failed events are looked for.
    """

    def __init__(self, program: Program, files: Sequence[Path], finds_failures: bool = False) -> None:
        self.program = program
        self.files = files
        self.finds_failures = finds_failures
        self.turn = threading.Lock()  # for orders that take more than one step
        self.held = ExitStack()
        self.address: Address | None = None  # of the server, which the folder of the chain keeps
        self.session: Session
        self.view: View
        self.orders: dict[str, Callable[[dict[str, Any]], str]] = {
            "play": self.play, "pause": self.pause, "leg": self.leg,
            "slower": self.tempo, "faster": self.tempo, "alone": self.tempo, "same": self.tempo,
            "act": self.act, "stamp": self.stamp, "undo": self.undo, "fork": self.fork, "reload": self.reload, "thin": self.thin,
        }

    def begin(self, maker: LegMaker, course: Course) -> None:
        """Shows a chain from now on. Refuses a faulty colour or symbol of an element."""
        marked = marks(maker.layout.elements, maker.folder.files)
        if self.finds_failures and maker.finder is None:
            maker = replace(maker, finder=Finder(self.program, maker.folder.files, maker.rule.world))
        if self.address is not None:
            self.address.keep(maker.folder.path)
        self.folder = maker.folder
        self.session = Session(maker, course)
        self.view = View(self.session, marked)

    def end(self) -> str:
        """Ends the chain at work, and says what it has come to."""
        try:
            self.session.end()
        finally:
            self.held.close()
        return self.session.course.summary(self.folder.path)

    def do(self, order: object) -> str:
        """Does what a page orders, and says what was done; raises LabError for what can't be done."""
        if not isinstance(order, dict) or not isinstance(order.get("do"), str):
            raise LabError("an order is an object with `do`")
        act = self.orders.get(order["do"])
        if act is None:
            raise LabError(f"there is no order {order['do'][:40]}")
        with self.turn:
            return act(order)

    def play(self, _order: dict[str, Any]) -> str:
        """Makes leg after leg."""
        self.session.turn("play")
        return ""

    def pause(self, _order: dict[str, Any]) -> str:
        """Makes no leg behind the one at work."""
        self.session.turn("pause")
        return ""

    def leg(self, _order: dict[str, Any]) -> str:
        """Makes one leg."""
        self.session.turn("leg")
        return ""

    def tempo(self, order: dict[str, Any]) -> str:
        """Makes legs shorter or longer."""
        self.session.change_tempo(order["do"])
        return ""

    def act(self, order: dict[str, Any]) -> str:
        """Does acts to the plane: `acts` are their texts, without the leg."""
        acts = strings(order, "acts")
        for text in acts:
            if not text.startswith(ACTS):
                raise LabError(f"{text[:40]}: an act begins with {', '.join(ACTS)}")
        self.session.act(acts)
        return ""

    def stamp(self, order: dict[str, Any]) -> str:
        """Puts a drawing on the plane: its `text`, its `keys`, and the place `x`, `y` of its first symbol."""
        if order.get("keys") == []:
            raise LabError("a stamp takes keys, such as o=Name: they say what its symbols are")
        text, keys = order.get("text"), strings(order, "keys")
        place = [int(number) for number in (order.get("x"), order.get("y")) if type(number) is int and 0 <= number < MOST_COLUMNS]
        if not isinstance(text, str) or len(place) < 2:
            raise LabError("a stamp has a text, and whole numbers x and y")
        self.session.act(stamped(text, keys, (place[0], place[1]), self.session.maker.layout))
        return ""

    def undo(self, _order: dict[str, Any]) -> str:
        """Takes back the last act that waits for the next leg."""
        self.session.undo()
        return ""

    def fork(self, _order: dict[str, Any]) -> str:
        """Copies the chain as it is into a new folder beside its own."""
        leg = self.session.rest()
        to = free_folder(self.folder.path, "fork")
        session = self.session
        fork(self.folder, session.maker.begun, session.course, self.folder.act_texts(), leg, to)
        return f"The chain up to leg {leg} is copied to {to.name}: ./lab live {to}"

    def reload(self, _order: dict[str, Any]) -> str:
        """Reads the element files again, and goes on from this plane as a new chain in a folder beside."""
        if not self.files:
            raise LabError("no element files were named: start it with ./lab live DIR WORLD FILE..")
        leg = self.session.rest()
        try:
            with anew(self.program, self.session.maker, leg + 1, self.session.atoms.lines, self.files) as start:
                marks(start.elements, self.files)
                folder = Folder(free_folder(self.folder.path, "reload"))
                folder.make()
                with ExitStack() as held:
                    held.enter_context(folder.held())
                    maker, course = start.opened(folder)
                    maker, lost = carried_on(maker, course, self.session.course)
                    self.go_over(maker, course, held.pop_all())
        except Refusal as refusal:
            raise LabError(with_caret(str(refusal))) from refusal
        told = f" No longer measured: {', '.join(lost)}." if lost else ""
        return f"The elements are read again; the chain goes on in {folder.path.name}.{told}"

    def thin(self, order: dict[str, Any]) -> str:
        """Goes on in a copy of the chain in a folder beside, which keeps the atoms of every N-th leg and no reports."""
        every = order.get("every")
        if type(every) is not int or not 1 <= every <= LAST_LEG:
            raise LabError(f"the order needs `every`, a whole number from 1 to {LAST_LEG:,}")
        self.session.rest()
        session, folder = self.session, Folder(free_folder(self.folder.path, "thin"))
        thin(self.folder, session.maker.begun, session.course, self.folder.act_texts(), every, folder)
        with ExitStack() as held:
            held.enter_context(folder.held())
            self.go_over(*going_on(self.program, folder), held.pop_all())
        return (f"The chain goes on in {folder.path.name}, which keeps the atoms of one leg in {every}, and no reports. "
                f"{session.maker.folder.path.name} is as it was; delete it if you don't need it.")

    def go_over(self, maker: LegMaker, course: Course, held: ExitStack) -> None:
        """Ends the chain at work and shows another, whose folder is held."""
        last, before = self.session, self.held
        self.begin(maker, course)
        self.held = held
        last.end()
        before.close()


def strings(order: dict[str, Any], name: str) -> list[str]:
    """A list of texts that an order has."""
    found = order.get(name)
    if not isinstance(found, list) or not all(isinstance(text, str) for text in found) or not 0 < len(found) <= MOST_ACTS:
        raise LabError(f"the order needs `{name}`, a list of 1 to {MOST_ACTS} texts")
    return found
