"""What the folder of a chain has, for the tests: its files, apart from how legs are packed, and texts of its legs."""
from collections.abc import Mapping
from pathlib import Path

from calls import here

from feast_lab.lab.chain.folder import Folder
from feast_lab.lab.chain.packed_legs import INDEX, PACKS, PackedLegs, packed


def contents(folder: Path) -> dict[str, bytes]:
    """All files below a folder. Reports are unpacked, since which are packed together is a matter of time."""
    found = {str(path.relative_to(folder)): path.read_bytes() for path in folder.rglob("*") if path.is_file()}
    if found.pop(INDEX, None) is not None:
        packs = packs_of(folder)
        found[PACKS] = b"".join(map(packs.data, packs.packs))
        found[INDEX] = f"{packs.done}\n".encode()
    return found


def packs_of(folder: Path) -> PackedLegs:
    """What is kept of the legs of a chain."""
    return Folder(folder).packed(Folder(folder).begun())


def told(folder: Path, leg: int, form: str) -> str:
    """A text of a leg, in a form of `./lab unpack`."""
    done = here("unpack", folder, "--leg", str(leg), f"--{form}")
    assert (done.status, done.said) == (0, ""), done
    return done.wrote


def atoms(folder: Path, leg: int) -> list[str]:
    """The lines of the atoms that a leg left; leg 0 is the start."""
    return told(folder, leg, "atoms").splitlines()[2:]


def begins(folder: Path, leg: int) -> list[str]:
    """The lines of the atoms with which a leg begins."""
    return [line[5:] for line in told(folder, leg, "world").splitlines() if line.startswith("atom ")]


def repack(folder: Path, reports: Mapping[int, bytes]) -> None:
    """Puts other reports in the place of those of some legs, each packed by itself."""
    old = packs_of(folder)
    new, data = PackedLegs(folder, old.every), b""
    for leg, report in old.all():
        text = reports.get(leg, report.data)
        new.add(leg, len(packed(text)), len(text))
        data += packed(text)
    (folder / PACKS).write_bytes(data)
    (folder / INDEX).write_text(new.text())


def lay_out(folder: Path, to: Path) -> Path:
    """Writes the world, the whole report and the atoms of each leg as files of a folder, NNNN.world, NNNN.report and NNNN.atoms,
    and the atoms at the start."""
    to.mkdir(exist_ok=True)
    for leg in range(packs_of(folder).done + 1):
        for form, ending in (("world", "world"), ("whole", "report"), ("atoms", "atoms")):
            if leg > 0 or form == "atoms":
                (to / f"{leg:04}.{ending}").write_text(told(folder, leg, form), newline="")
    return to
