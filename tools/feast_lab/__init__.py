"""Runs of feast in Python: worlds as data, events, atoms and counts as arrays, planes at any moment, chains, and films.

    import feast_lab
    world = feast_lab.World("examples/wator.ulam", size=(48, 32)).fill("Fish", 0.3, seed=1).fill("Shark", 0.05, seed=2)
    feast_lab.run(world, attempts=100_000, set={"Shark.starving": 5}).counts(every=20_000)

Arrays are NumPy's, which the package needs; `to_pandas` gives frames where pandas is installed. Bad input raises
LabError, whose text is one line that names the file and what is wrong.
"""
from importlib import import_module
from typing import TYPE_CHECKING

from .version import VERSION as __version__

if TYPE_CHECKING:
    from . import plots, statistics
    from .arrays import frame
    from .chains import Chain
    from .clustering import clusters, labels
    from .films import Film
    from .lab.base.errors import LabError
    from .making import chain, fork, go_on, walk
    from .moments import Moment
    from .runs import Run, read, run
    from .sweeps import Sweep, sweep
    from .worlds import World
else:
    # The modules by the names that they have for users. One is imported when its name is first asked for, since those of
    # the command line (lab, recheck and proved, which lie in this package too) want no NumPy.
    NAMES = {
        "arrays": ["frame"], "chains": ["Chain"], "clustering": ["clusters", "labels"], "films": ["Film"], "lab.base.errors": ["LabError"],
        "making": ["chain", "fork", "go_on", "walk"], "moments": ["Moment"], "plots": ["plots"], "runs": ["Run", "read", "run"],
        "statistics": ["statistics"], "sweeps": ["Sweep", "sweep"], "worlds": ["World"],
    }
    HOMES = {name: module for module, names in NAMES.items() for name in names}

    def __getattr__(name: str) -> object:
        """What has a name, from its module."""
        if name not in HOMES:
            raise AttributeError(f"module {__name__!r} has no attribute {name!r}")
        module = import_module(f".{HOMES[name]}", __name__)
        globals()[name] = found = module if HOMES[name] == name else getattr(module, name)
        return found

    def __dir__() -> list[str]:
        """The names for users."""
        return __all__

__all__ = ["Chain", "Film", "LabError", "Moment", "Run", "Sweep", "World", "__version__", "chain", "clusters", "fork", "frame",
           "go_on", "labels", "plots", "read", "run", "statistics", "sweep", "walk"]
