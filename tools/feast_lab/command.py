"""The command `feast-lab`: what `./lab` does in a clone, where the package is installed."""
import sys

from .lab.base.errors import LabError
from .lab.command.main import main as called
from .programs import refuse_machine


def main() -> int:
    """Runs the words of the command line; gives the status."""
    try:
        refuse_machine()
    except LabError as error:
        print(f"lab: {error}", file=sys.stderr)
        return 2
    return called(sys.argv[1:])
