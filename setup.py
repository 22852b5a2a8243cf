"""What pyproject.toml can't say of the Python package: the program goes with it, so a wheel is for the machines that this runs on."""
import shutil
import tempfile
from pathlib import Path

from setuptools import Distribution, setup
from setuptools.command.build_py import build_py

try:
    from setuptools.command.bdist_wheel import bdist_wheel
except ImportError:
    from wheel.bdist_wheel import bdist_wheel

TOP = Path(__file__).resolve().parent
# The machines for which the program of dist/ is: Linux on x86-64 with glibc 2.34 or later.
MACHINES = "manylinux_2_34_x86_64"
# What goes into the package beside its modules, as far as it is there, with its place: the program of a clone or of a released
# folder, what tells of it, and the pages that ./lab reads.
FILES = {
    "dist/feast": "bin/feast", "dist/PROVED": "bin/PROVED", "bin/feast": "bin/feast", "KIT": "KIT", "VERSION": "VERSION",
    **{f"docs/{name}.md": f"docs/{name}.md" for name in ("errors", "errors-of-elements", "ulam", "check")},
}


class Build(build_py):
    """Builds the package with its files."""

    def run(self):
        """Copies them behind the modules."""
        super().run()
        for name, place in FILES.items():
            if (TOP / name).is_file():
                copy = Path(self.build_lib) / "feast_lab" / place
                copy.parent.mkdir(parents=True, exist_ok=True)
                shutil.copy(TOP / name, copy)


class Package(Distribution):
    """A package that isn't for all machines, though no module of it is compiled."""

    def has_ext_modules(self):
        """Says so."""
        return True


class Wheel(bdist_wheel):
    """A wheel for all Pythons on the machines of the program."""

    def get_tag(self):
        """What the name of the wheel says of Python, of its interface and of machines."""
        return "py3", "none", MACHINES


with tempfile.TemporaryDirectory(prefix="feast-lab-") as room:  # so nothing is left in the clone
    places = {"build": {"build_base": room}, "egg_info": {"egg_base": room}}
    setup(distclass=Package, cmdclass={"build_py": Build, "bdist_wheel": Wheel}, options=places)
