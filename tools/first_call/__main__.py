"""`python3 tools/first_call TOP WORD..`: what `./feast WORD..` does if the program has to be proved first."""
import pathlib
import sys
sys.path[0] = str(pathlib.Path(__file__).resolve().parent.parent)

from first_call.call import main  # noqa: E402

sys.exit(main(pathlib.Path(sys.argv[1]), sys.argv[2:]))
