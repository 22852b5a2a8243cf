"""The page of the lab: the refusal that it shows is what the lab writes. tests/pages.py tries its commands."""
import re

from calls import TOP, LabCase, lab

PAGE = TOP / "docs" / "lab.md"


class Page(LabCase):
    """The page."""

    def test_refusal(self) -> None:
        """The refusal that the page shows is that of the values that it names."""
        lines = [line[4:] for line in PAGE.read_text().splitlines() if line.startswith("    lab: ")]
        self.assertEqual(len(lines), 1)
        match = re.fullmatch(r"lab: (\S+?):.* \(with (\S+)\)", lines[0])
        assert match is not None
        elements = str(TOP / match[1])
        done = lab("sweep", "--set", match[2], elements.replace(".ulam", ".world"), elements)
        self.assertEqual(done.stderr.replace(f"{TOP}/", ""), f"{lines[0]}\n")
