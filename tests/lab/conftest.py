"""What pytest needs for the tests of the lab and of the package, which `python3 -m pytest` at the top tries: where the modules
are, and the program, which is that of ./feast unless FEAST_PROGRAM names another."""
import os
import sys
from pathlib import Path

HERE = Path(__file__).resolve().parent
sys.dont_write_bytecode = True
sys.path[0:0] = [str(HERE.parent.parent / "tools"), str(HERE), str(HERE.parent)]

from feast_lab.lab.base.program import Program  # noqa: E402

os.environ["FEAST_PROGRAM"] = str(Program.find().path)
