"""What the scripts of this folder draw with: the lab's own figures."""
import sys
from pathlib import Path

sys.dont_write_bytecode = True
sys.path.insert(0, str(Path(__file__).resolve().parent.parent))

from feast_lab.lab.pictures import svg  # noqa: E402

__all__ = ["svg"]
