"""What the audit of a chain finds."""
from calls import here, lab, program
from kept_chain import packs_of, repack
from test_chain import ChainCase


class Audits(ChainCase):
    """Each fault is named with its leg."""

    def no(self, says: str, *words: str) -> None:
        """Tries that an audit says `no` and why, in one line."""
        done = here("chain", "--audit", self.chain, *words)
        self.assertEqual((done.status, done.said), (1, ""), done.wrote)
        self.assertEqual(done.wrote.count("\n"), 1)
        self.assertTrue(done.wrote.startswith(f"no {says}"), done.wrote)

    def test_reports(self) -> None:
        """A report of which something is changed is found, and its leg is named, however many are audited together."""
        self.passes(*self.words(6, "--step", "--keep", "reports", "--at", "3:clear:0,0,8,8"))
        reports = {leg: report.data for leg, report in packs_of(self.chain).all()}
        second = reports[2]
        front, _, back = second.partition(b"journal ")
        records = back.split(b"\n")
        for says, other in [
            ("leg 2: its report: E8", second.replace(records[1] + b"\n", records[2] + b"\n" + records[2] + b"\n", 1)),
            ("leg 2: its report: E8", second.replace(records[1], b"1 9 0", 1)),
            ("leg 2: the audit of its report: no atoms", front.replace(b" 000000", b" 000001", 1) + b"journal " + back),
            ("leg 2: ", reports[1]),
            ("leg 2: the audit of its report: no accounted", front + b"journal 0\nabandoned 0\n"),
        ]:
            self.assertNotEqual(second, other)
            repack(self.chain, {2: other})
            ways: list[list[str]] = [[], ["--jobs", "1"], ["--jobs", "9"], ["--leg", "2"]]
            for words in ways:
                self.no(says, *words)
            repack(self.chain, {2: second})
        repack(self.chain, {2: reports[1], 5: reports[1]})
        self.no("leg 2: ")
        repack(self.chain, reports)
        self.assertEqual(self.passes("chain", "--audit", self.chain, "--jobs", "3"), "yes\n")

    def test_files(self) -> None:
        """What the lab wrote beside the reports has to agree with them."""
        self.passes(*self.words(3, "--step", "--keep", "reports", "--at", "3:clear:0,0,8,8"))
        kept = {path: path.read_bytes() for path in self.chain.rglob("*") if path.is_file()}
        for name, old, new, says in [
            ("0000.atoms", b"4 4", b"4 5", "leg 0: 0000.atoms has other atoms"),
            ("start.world", b"size", b"#\nsize", "start: start.world is not as it was"),
            ("elements/00-regulator.ulam", b"40", b"41", "start: 00-regulator.ulam is not as it was"),
            ("course.csv", b"\n1,2000,", b"\n1,2001,", "leg 1: its row in the course"),
            ("acts.txt", b"0,0,8,8", b"0,0,16,16", "leg 3: the audit of its report: no atoms"),
            ("acts.txt", b"3:clear", b"2:clear", "leg 2: the audit of its report: no atoms"),
        ]:
            path = self.chain / name
            path.write_bytes(kept[path].replace(old, new, 1))
            self.assertNotEqual(path.read_bytes(), kept[path])
            self.no(says)
            path.write_bytes(kept[path])
        self.assertEqual(self.passes("chain", "--audit", self.chain), "yes\n")

    def test_report_of_another_program(self) -> None:
        """Of a report that was written otherwise than by the program the audit says no."""
        other = self.file("other", f"#!/bin/sh\ncase $1 in step) {program()} \"$@\" | sed 's/^1 \\([0-9]*\\) [0-9]*$/1 \\1 400/';; "
                                   f"*) exec {program()} \"$@\";; esac\n")
        other.chmod(0o755)
        done = lab(*self.words(1, "--step", "--keep", "reports"), instead=other)
        self.assertEqual(done.returncode, 0, done.stderr)
        self.no("leg 1: ")

    def test_damaged_packs(self) -> None:
        self.passes(*self.words(2, "--step", "--keep", "reports"))
        path = self.chain / "legs.gz"
        kept = path.read_bytes()
        for data in (kept[:-9], b"\x1f\x8bnothing", b"something else", kept[:40] + b"\0" + kept[41:]):
            path.write_bytes(data)
            self.refused("legs.gz: ", "chain", "--audit", self.chain)
        path.unlink()
        self.refused("legs.gz: can't be read: no such file", "chain", "--audit", self.chain)
        path.write_bytes(kept)
        self.assertEqual(self.passes("chain", "--audit", self.chain), "yes\n")
