"""Parts of reports, as a rewind and a replay write them."""


def placed(report: bytes) -> bytes:
    """The atoms of a report, as a replay of it writes them."""
    atoms, newline, _ = report.partition(b"\njournal ")
    return atoms + newline[:1]


def start_of(world: str) -> bytes:
    """The atoms with which a world begins whose atoms are given by rows, as a rewind to the start writes them."""
    atoms = [line.split()[1:] for line in world.splitlines() if line.startswith("atom ")]
    lines = [" ".join([*atom, "0" * 18][:4]) for atom in atoms]
    return "".join(f"{line}\n" for line in ["feast 1", f"atoms {len(lines)}", *lines]).encode()


def events_of(report: bytes, count: int) -> bytes:
    """A report with the first events alone, which a replay takes; its atoms are those of the whole report."""
    lines = report.split(b"\n")
    at = next(number for number, line in enumerate(lines) if line.startswith(b"journal "))
    if count > int(lines[at].split()[1]):
        raise ValueError(f"the report has {lines[at].decode()}, and not {count} events")
    return b"\n".join([*lines[:at], b"journal %d" % count, *lines[at + 1 : at + 1 + count], b"abandoned 0", b""])
