"""The rates of all legs of a chain."""
from ..base.errors import LabError
from ..measure.rates import Rates
from .folder import Folder
from .kept_legs import KeptLegs


def rates_of(folder: Folder) -> Rates:
    """The rates of all legs of a chain that keeps reports, together."""
    if not folder.begun().keeps_reports:
        raise LabError(f"{folder.path}: the chain keeps no reports, so nothing is known of its sites; "
                       "one that is begun with --keep reports has them")
    legs = KeptLegs.of(folder)
    if not legs.packs.done:
        raise LabError(f"{folder.path}: the chain has no leg yet")
    return Rates.of_all(legs.rates(number) for number in range(1, legs.packs.done + 1))
