"""The commands that prove a crate and make its library or the program, and the libraries that stand, each with the sum of
all that it was made from. A library holds the statements that crates above it can cite, and not their proofs: each crate
above would have to load all proofs below it, in the end for longer than its own take."""
import hashlib
import shlex
import subprocess
from collections.abc import Mapping
from pathlib import Path

from feast_lab.proved.record import kit

from first_call.crates import PROGRAM, Crate, sources_of


class Toolchain:
    """The toolchain whose command `rt` a shell would run: its name, its folder, and the folder to which the repository's
    libraries go. CalledProcessError if it doesn't answer."""

    def __init__(self, libraries: Path) -> None:
        page = subprocess.run(["rt", "doc"], stdout=subprocess.PIPE, text=True, check=True).stdout.strip()
        self.name, self.folder, self.libraries = kit(), Path(page).parent, libraries
        libraries.mkdir(exist_ok=True)

    def library(self, name: str) -> Path:
        """Where the library of a crate goes."""
        return self.libraries / f"{name}.rlib"

    def note(self, name: str) -> Path:
        """The file with the sum of a library."""
        return self.library(name).with_suffix(".sum")

    def stand(self, sums: Mapping[str, str]) -> set[str]:
        """The crates of which there are libraries with these sums."""
        noted = {name for name in sums if self.library(name).is_dir() and self.note(name).is_file()}
        return {name for name in noted if self.note(name).read_text() == sums[name]}

    def sums(self, crates: list[Crate]) -> dict[str, str]:
        """The sum that the library of each crate is to have: of the toolchain, its sources, and the sums of those below."""
        found: dict[str, str] = {}
        for crate in crates:
            sources = [(path.relative_to(crate.folder), path.read_bytes()) for path in sources_of(crate.folder)]
            whole = repr([self.name, sources, crate.named, [found[name] for name in crate.below]])
            found[crate.name] = hashlib.sha256(whole.encode()).hexdigest()
        return found

    def command(self, crate: Crate, jobs: int) -> list[str]:
        """What is run in a crate's folder to prove it and make its library or the program."""
        if crate.name != PROGRAM:
            return [*self.proof(crate, "src/lib.rt", jobs), "--statements", "-o", str(self.library(crate.name))]
        made, program = f"out/{PROGRAM}.o", f"out/{PROGRAM}"
        parts = ["--toolchain", f"{self.folder}/toolchain"]
        proof = [*self.proof(crate, "src/main.rt", jobs), *parts, "--backend", "llvm", "-o", made]
        native = [f"{self.folder}/c/{name}" for name in ("libos_c.a", "liblibc_c.a")]
        link = [f"{self.folder}/bin/rattle-link", "--target", "x86_64-unknown-linux-gnu", *parts, "-o", program, made, *native]
        return ["sh", "-c", f"{shlex.join(proof)} && {shlex.join(link)}"]

    def proof(self, crate: Crate, root: str, jobs: int) -> list[str]:
        """The words that prove a crate from nothing, over the libraries that it names."""
        libraries = f"{self.folder}/rlibs"
        words = [f"{self.folder}/bin/rattle", "build", "--crate-name", crate.name, root]
        for name in ("std", *crate.named):
            words += ["--extern", f"{name}={self.libraries if name in crate.below else libraries}/{name}.rlib"]
        words += ["-L", f"dependency={libraries}", "-L", f"dependency={self.libraries}"]
        words += ["--antt-project", f"{self.folder}/rattle/logic/antt-project.json"]
        words += ["--logic-built", f"{self.folder}/logic_built", "--jobs", str(jobs), "--links", f"{crate.name}="]
        return words
