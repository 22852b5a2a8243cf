"""The launcher: what `./feast` adds on standard error, and what it leaves as it is."""
import os
import pty
import re
import shutil
import signal
import subprocess
import time
from pathlib import Path

from calls import EXAMPLES, TOP, LabCase, program

from feast_lab.lab.base.program import QUIET
from feast_lab.proved.record import LAUNCHER, Record, digest_of
from feast_lab.proved.sources import digest

WALK, WALKER = EXAMPLES / "walk.world", EXAMPLES / "walker.ulam"


def without_program() -> dict[str, str]:
    """The environment, without the name of another program, which the launcher would call."""
    return {name: value for name, value in os.environ.items() if name != "FEAST_PROGRAM"}


def handle(interrupts: signal.Handlers) -> None:
    """Handles interrupts so, and other signals as usual, also where the tests were started to ignore some (by nohup)."""
    for number in (signal.SIGHUP, signal.SIGQUIT, signal.SIGTERM):
        signal.signal(number, signal.SIG_DFL)
    signal.signal(signal.SIGINT, interrupts)


class Launcher(LabCase):
    """A folder that looks like a clone in which a program was proved and built."""

    def setUp(self) -> None:
        super().setUp()
        self.top = self.room / "clone"
        (self.top / "crates" / "feast" / "out").mkdir(parents=True)
        (self.top / "tools").mkdir()
        for name in ("feast", "tools/help.txt", "tools/proved", "crates.txt", "HANDLES"):
            shutil.copy(TOP / name, self.top / name)
        shutil.copytree(TOP / "tools" / "feast_lab", self.top / "tools" / "feast_lab")
        self.program = self.top / "crates" / "feast" / "out" / "feast"
        shutil.copy(program(), self.program)
        self.prove()
        self.wrong = self.file("wrong.ulam", "element A { Void behave() { n = 1; } }")

    def pretend(self, script: str) -> None:
        """Puts a script in place of the program."""
        self.program.write_text(f"#!/bin/sh\n{script}\n")
        self.prove()

    def prove(self) -> None:
        """Notes that the program was proved."""
        record = Record("a kit", LAUNCHER, digest_of(self.program) or "", digest(self.top))
        record.write(self.program.with_name("PROVED"))

    def call(self, *words: str | Path, out: int = subprocess.PIPE) -> subprocess.CompletedProcess[bytes]:
        """A call of the launcher."""
        return subprocess.run([self.top / "feast", *words], stdout=out, stderr=subprocess.PIPE, check=False, timeout=60,
                              env=without_program())

    def direct(self, *words: str | Path) -> subprocess.CompletedProcess[bytes]:
        """A call of the program itself."""
        return subprocess.run([program(), *words], capture_output=True, check=False, timeout=60)

    def test_version(self) -> None:
        """The launcher alone tells its version, the program and the kit, and of no program it begins no proof; the program
        itself knows no such word."""
        shutil.copy(TOP / "VERSION", self.top)
        version = (TOP / "VERSION").read_text().strip()
        done = self.call("--version")
        told = f"feast {version}\nprogram {digest_of(self.program)}\nkit a kit\n"
        self.assertEqual((done.returncode, done.stdout.decode(), done.stderr), (0, told, b""))
        self.assertEqual((self.direct("--version").returncode, self.call("--version", "x").returncode), (2, 2))
        (self.top / "HANDLES").write_text("changed\n")
        done = self.call("--version")
        self.assertEqual((done.returncode, done.stdout.decode()), (0, f"feast {version}\nprogram none\n"))

    def test_refusals_in_a_pipe(self) -> None:
        """Standard output and the status are the program's own; standard error tells of the refusal."""
        self.file("w", "feast 3\n")
        calls: list[tuple[list[str | Path], int]] = [
            ([], 2), (["fly"], 2), (["check", self.room / "none"], 3), (["check", self.wrong], 4),
            (["run", self.room / "w", WALKER], 5), (["replay", WALK, WALK, WALKER], 6),
            (["runpack", WALK, WALKER], 9)]
        for words, status in calls:
            done, bare = self.call(*words), self.direct(*words)
            self.assertEqual((done.returncode, done.stdout), (bare.returncode, bare.stdout))
            self.assertEqual(done.returncode, status)
            self.assertEqual(done.stderr.decode(), f"feast: the call was refused, with status {status}: "
                                                   "standard output has the reason\n")

    def test_refusal_in_a_file(self) -> None:
        """If standard output is a file, the line is shown, also behind what the file had."""
        path = self.room / "report"
        for begin in ("", "earlier\n"):
            path.write_text(begin)
            with path.open("ab") as file:
                done = self.call("check", self.wrong, out=file.fileno())
            line = f"{self.wrong}:1:29: E31 unknown name\n"
            self.assertEqual((done.returncode, path.read_text()), (4, begin + line))
            self.assertEqual(done.stderr.decode(), f"feast: the call was refused, with status 4: {line}")

    def test_calls_that_go_well(self) -> None:
        """Nothing is added to a call that is done, nor to one on a terminal."""
        done = self.call("run", WALK, WALKER)
        self.assertEqual((done.returncode, done.stdout, done.stderr),
                         (0, self.direct("run", WALK, WALKER).stdout, b""))
        ours, theirs = pty.openpty()
        refused = self.call("check", self.wrong, out=theirs)
        os.close(theirs)
        self.assertEqual((refused.returncode, refused.stderr), (4, b""))
        self.assertIn(b"E31 unknown name", os.read(ours, 4096))
        os.close(ours)

    def test_statuses_without_a_line(self) -> None:
        """A full device and a want of memory are told by their status."""
        with open("/dev/full", "wb") as full:
            done = self.call("check", WALKER, out=full.fileno())
        self.assertEqual((done.returncode, done.stderr), (7, b"feast: status 7: standard output could not be written\n"))
        read, write = os.pipe()
        os.close(read)  # a reader that has gone, as `head` does, is no news
        done = self.call("check", WALKER, out=write)
        os.close(write)
        self.assertEqual((done.returncode, done.stderr), (7, b""))
        self.pretend("exit 8")
        done = self.call("check", WALKER)
        self.assertEqual((done.returncode, done.stderr), (8, b"feast: status 8: memory ran out\n"))
        self.assertEqual(set(QUIET), {7, 8})

    def test_standard_input_and_words_are_handed_on(self) -> None:
        self.pretend("cat; printf ' <%s>' \"$@\"")
        done = subprocess.run([self.top / "feast", "a b", "", b"\xff"], env=without_program(), input=b"given",
                              capture_output=True, check=False)
        self.assertEqual((done.returncode, done.stdout, done.stderr), (0, b"given <a b> <> <\xff>", b""))

    def test_end_by_a_signal(self) -> None:
        """A signal to the launcher ends the program at once, and the launcher ends by a signal of the program."""
        for number in (signal.SIGTERM, signal.SIGINT, signal.SIGHUP, signal.SIGQUIT, signal.SIGKILL):
            with self.subTest(number.name):
                call, pid = self.begin(signal.SIG_DFL)
                os.kill(call.pid, number)
                self.assertEqual((call.wait(timeout=20), self.is_gone(pid)), (-number, True))
        for number in (signal.SIGINT, signal.SIGKILL, signal.SIGTERM):
            self.pretend(f"kill -{number} $$")
            self.assertEqual(self.call("run").returncode, -number)

    def test_interrupts_that_are_ignored(self) -> None:
        """The program ignores interrupts if the launcher was started to do so, and not otherwise."""
        for before, is_ignored in ((signal.SIG_DFL, False), (signal.SIG_IGN, True)):
            call, pid = self.begin(before)
            os.kill(pid, signal.SIGINT)
            if is_ignored:
                os.kill(call.pid, signal.SIGINT)
                time.sleep(0.2)
                self.assertIsNone(call.poll())
                call.kill()
            self.assertEqual(call.wait(timeout=20), -signal.SIGKILL if is_ignored else -signal.SIGINT)

    def begin(self, interrupts: signal.Handlers) -> tuple["subprocess.Popen[bytes]", int]:
        """A call that takes long, and the process of the program in it."""
        self.pretend(f"echo $$ >{self.room}/pid; exec sleep 60")
        (self.room / "pid").unlink(missing_ok=True)
        call = subprocess.Popen([self.top / "feast", "run"], stdout=subprocess.DEVNULL, stderr=subprocess.DEVNULL,
                                env=without_program(), preexec_fn=lambda: handle(interrupts))
        return call, self.wait_for_pid()

    def wait_for_pid(self) -> int:
        """The process of the pretended program, once it runs."""
        path, end = self.room / "pid", time.monotonic() + 20
        while not (path.exists() and path.read_text().endswith("\n")) and time.monotonic() < end:
            time.sleep(0.01)
        return int(path.read_text())

    def is_gone(self, pid: int) -> bool:
        """Whether a process ends within some seconds."""
        end = time.monotonic() + 20
        while time.monotonic() < end:
            try:
                if Path(f"/proc/{pid}/stat").read_text().rpartition(")")[2].split()[0] == "Z":
                    return True
            except OSError:
                return True
            time.sleep(0.01)
        return False

    def test_without_setpriv(self) -> None:
        """Where the system has no `setpriv`, or one that can't do this, the program runs in place of the launcher."""
        self.call("check", WALKER)  # (which finds the program)
        tools = self.room / "bin"
        tools.mkdir()
        for name in ("sh", "readlink", "find", "sha256sum", "tail", "cat"):
            (tools / name).symlink_to(shutil.which(name) or "")
        for has_old in (False, True):
            if has_old:
                (tools / "setpriv").write_text("#!/bin/sh\nexit 1\n")
                (tools / "setpriv").chmod(0o755)
            done = subprocess.run([self.top / "feast", "check", self.wrong], capture_output=True, check=False,
                                  env={"PATH": str(tools)})
            self.assertEqual((done.returncode, done.stdout, done.stderr),
                             (4, self.direct("check", self.wrong).stdout, b""))

    def test_help(self) -> None:
        """Words of help have the program's usage line and status, and a page of help on standard error."""
        usage = self.direct("--help")
        self.assertEqual(usage.returncode, 2)
        for word in ("--help", "-h", "help"):
            done = self.call(word)
            self.assertEqual((done.returncode, done.stdout), (2, usage.stdout))
            self.assertEqual(done.stderr.decode(), (TOP / "tools" / "help.txt").read_text())

    def test_help_has_every_form(self) -> None:
        """The page of help has each form of the usage line, with its words, and pages that are there."""
        text = (TOP / "tools" / "help.txt").read_text()
        told = set(re.findall(r"^  ./feast (.*?) {2,}", text, re.MULTILINE))
        forms = self.direct().stdout.decode().removeprefix("E00 usage: feast ").strip().split(" | ")
        wanted = {f"{word} {words}" for form in forms for names, _, words in [form.partition(" ")]
                  for word in names.split("|")}
        # (one word is the launcher's own)
        self.assertEqual({line.replace("JOURNAL", "REPORT") for line in wanted} | {"--version"}, told)
        for name in re.findall(r"\b(?:docs/\w+|README|examples/\w+)\.\w+", text):
            self.assertTrue((TOP / name).is_file(), name)
