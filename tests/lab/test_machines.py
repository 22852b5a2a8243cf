"""Sweeps that others run: GNU parallel, Make, Snakemake and Slurm, each the real one, where it is there.

Slurm is a cluster of one controller and two nodes on this machine, with a munge of its own.
"""
import os
import shutil
import signal
import socket
import subprocess
import time
import unittest
from collections.abc import Callable
from contextlib import suppress
from pathlib import Path

from calls import EXAMPLES, TOP, LabCase, Word, around, here, program

WORLD = (EXAMPLES / "regulator-tiles.world").read_text().replace("attempts 40000", "attempts 500")
RUNS = 6
OPTIONS = ["--step", "--legs", "2", "--set", "Regulator.regulator_birth=20:60:20", "--repeat", "2"]
LAB = TOP / "lab"


def without(name: str) -> Callable[[type[unittest.TestCase]], type[unittest.TestCase]]:
    """Leaves tests out if a program isn't there; the closing line of the driver says so."""
    return unittest.skipUnless(shutil.which(name), f"{name} is not on this machine")


class MachinesCase(LabCase):
    """A sweep that is planned in the folder `out`, and the table that one call makes of it."""

    def setUp(self) -> None:
        super().setUp()
        self.out = self.room / "out"
        words: list[Word] = [*OPTIONS, self.file("w", WORLD), EXAMPLES / "regulator.ulam"]
        self.passes("sweep", "--plan", self.out, *words)
        self.passes("sweep", "--into", self.room / "whole", *words)
        self.expected = (self.room / "whole" / "sweep.csv").read_bytes()

    def made(self, words: str, instead: Path | None = None, status: int = 0) -> str:
        """What a shell writes that makes the runs; its status has to be this one."""
        done = subprocess.run(["sh", "-c", words], cwd=self.room, env=around(instead), stdout=subprocess.PIPE,
                              stderr=subprocess.STDOUT, text=True, timeout=600, check=False)
        self.assertEqual(done.returncode, status, done.stdout)
        return done.stdout

    def missing(self) -> str:
        """The runs that a gathering names as missing."""
        done = here("sweep", "--gather", self.out)
        self.assertEqual(done.said, "")
        return done.wrote.partition("missing: ")[2].strip()

    def is_whole(self) -> None:
        """Tries that nothing is missing, nothing is counted twice, and the table is that of one call."""
        self.assertEqual(self.missing(), "")
        self.assertEqual((self.out / "sweep.csv").read_bytes(), self.expected)

    def failing(self, seed: int) -> Path:
        """A program that runs out of memory in the runs with one seed, but only the first time."""
        path = self.file("failing", f"#!/bin/sh\nif [ $1 = step ] && grep -q '^seed {seed}$' \"$2\" && mkdir {self.room}/failed-$PPID "
                                    f"2>/dev/null; then exit 8; fi\nexec {program()} \"$@\"\n")
        path.chmod(0o755)
        return path


@without("parallel")
class Parallel(MachinesCase):
    """GNU parallel."""

    def test_all(self) -> None:
        self.made(f"seq {RUNS} | parallel {LAB} sweep --task {self.out} {{}}")
        self.is_whole()

    def test_twice(self) -> None:
        """Each task is given twice, so that two make it at the same time."""
        self.made(f"seq {RUNS} | sed p | parallel -j 6 {LAB} sweep --task {self.out} {{}}")
        self.is_whole()

    def test_failed(self) -> None:
        """Tasks that fail are missing, and a second call makes them alone."""
        told = self.made(f"seq {RUNS} | parallel -j 2 {LAB} sweep --task {self.out} {{}}", self.failing(3000), status=3)
        self.assertEqual(told.count("it ran out of memory"), 3)
        self.assertEqual(self.missing(), "1,3,5")
        told = self.made(f"seq {RUNS} | parallel -j 2 {LAB} sweep --task {self.out} {{}}")
        self.assertEqual((told.count("made"), told.count("was there")), (3, 3))
        self.is_whole()


@without("make")
class Make(MachinesCase):
    """Make: a run is a target."""

    RULES = f"""runs = $(shell seq -f out/runs/%05.0f {RUNS})
out/sweep.csv: $(runs)
\t{LAB} sweep --gather out
$(runs):
\t{LAB} sweep --task out $(notdir $@)
"""

    def test_all(self) -> None:
        self.file("Makefile", self.RULES)
        self.made("make -j 3")
        self.is_whole()
        self.assertIn("is up to date", self.made("make -j 3"))

    def test_failed(self) -> None:
        """With -k the other runs are made; a second call makes what is missing."""
        self.file("Makefile", self.RULES)
        self.made("make -k -j 3", self.failing(3000), status=2)
        self.assertEqual(self.missing(), "1,3,5")
        (self.out / "sweep.csv").unlink()
        self.made("make -j 3")
        self.is_whole()


@without("snakemake")
class Snakemake(MachinesCase):
    """Snakemake: the folder of a run is the output of a rule."""

    def test_all(self) -> None:
        self.file("Snakefile", f"""RUNS = [f"{{n:05}}" for n in range(1, {RUNS} + 1)]
rule table:
    input: expand("out/runs/{{run}}", run=RUNS)
    output: "out/sweep.csv"
    shell: "{LAB} sweep --gather out"
rule run:
    output: directory("out/runs/{{run}}")
    shell: "{LAB} sweep --task out {{wildcards.run}}"
""")
        self.made("PATH=/usr/bin:/bin:$PATH snakemake -c 3 -q --nolock")
        self.is_whole()


SLURM = """ClusterName=trial
SlurmctldHost={host}
SlurmUser=root
AuthType=auth/munge
AuthInfo=socket={room}/munge.socket
ProctrackType=proctrack/linuxproc
TaskPlugin=task/none
SwitchType=switch/none
MpiDefault=none
ReturnToService=2
SlurmctldPidFile={room}/controller.pid
SlurmctldLogFile={room}/controller.log
SlurmdPidFile={room}/%n.pid
SlurmdLogFile={room}/%n.log
SlurmdSpoolDir={room}/spool-%n
StateSaveLocation={room}/state
SlurmctldPort={port}
SlurmdTimeout=5
JobRequeue=1
SelectType=select/cons_tres
SelectTypeParameters=CR_Core
NodeName=node[1-2] NodeHostname={host} NodeAddr=127.0.0.1 Port=[{first}-{last}] CPUs=2 State=UNKNOWN
PartitionName=all Nodes=ALL Default=YES MaxTime=INFINITE State=UP
"""


@without("slurmctld")
@without("munged")
@unittest.skipUnless(os.geteuid() == 0, "Slurm's nodes take root")
class Slurm(MachinesCase):
    """Slurm: an array of tasks, over two nodes."""

    def setUp(self) -> None:
        super().setUp()
        self.cluster = self.room / "cluster"
        for folder in ("state", "spool-node1", "spool-node2"):
            (self.cluster / folder).mkdir(parents=True)
        key = self.cluster / "munge.key"
        key.write_bytes(os.urandom(128))
        key.chmod(0o400)
        ports = [free_port() for _ in range(2)]
        text = SLURM.format(host=socket.gethostname(), room=self.cluster, port=ports[0], first=ports[1], last=ports[1] + 1)
        (self.cluster / "slurm.conf").write_text(text)
        self.around = around() | {"SLURM_CONF": str(self.cluster / "slurm.conf")}
        files = {"socket": "socket", "pid-file": "pid", "log-file": "log", "seed-file": "seed"}
        self.start("munged", "--foreground", "--force", f"--key-file={key}",
                   *(f"--{option}={self.cluster}/munge.{name}" for option, name in files.items()))
        self.wait(lambda: (self.cluster / "munge.socket").exists())
        self.start("slurmctld", "-D")
        self.nodes = {name: self.start("slurmd", "-D", "-N", name) for name in ("node1", "node2")}
        self.wait(lambda: self.ask("sinfo", "-h", "-N", "-o", "%t").split() == ["idle", "idle"])

    def start(self, *words: str) -> "subprocess.Popen[bytes]":
        """Starts a server, which ends with the test."""
        with (self.cluster / f"{words[0]}.out").open("ab") as out:
            server = subprocess.Popen(words, env=self.around, stdout=out, stderr=out, start_new_session=True)
        self.addCleanup(end, server)
        return server

    def ask(self, *words: str) -> str:
        """What a command of Slurm writes."""
        return subprocess.run(words, env=self.around, cwd=self.room, stdout=subprocess.PIPE, text=True, check=False).stdout

    def wait(self, holds: Callable[[], bool]) -> None:
        """Waits until something holds."""
        for _ in range(6000):
            if holds():
                return
            time.sleep(0.1)
        logs = "".join(path.read_text(errors="replace")[-600:] for path in sorted(self.cluster.glob("*.log")))
        self.fail(f"the cluster doesn't come so far: {self.ask('sinfo', '-N')}{self.ask('squeue')}{logs}")

    def submit(self, tasks: str, more: str = "") -> None:
        """Hands an array of tasks over, and waits until the queue is empty."""
        told = self.ask("sbatch", f"--array={tasks}", "--output=task-%a.txt",
                        "--wrap", f"{more}{LAB} sweep --task {self.out} $SLURM_ARRAY_TASK_ID")
        self.assertIn("Submitted batch job", told)

    def over(self) -> bool:
        """Whether no task is waiting or at work."""
        return self.ask("squeue", "-h") == ""

    def test_all(self) -> None:
        self.submit(f"1-{RUNS}")
        self.submit(f"1-{RUNS}")
        self.wait(self.over)
        self.is_whole()

    def test_failures(self) -> None:
        """Tasks without the program, on a full disk and cancelled are missing; what the gathering names is made by a second array."""
        self.submit("1-2", f"FEAST_PROGRAM={self.room}/none ")
        self.submit("3-4", "ulimit -f 0; ")
        slow = self.file("slow", f"#!/bin/sh\nsleep 600 & trap 'kill $!' EXIT TERM\nwait\nexec {program()} \"$@\"\n")
        slow.chmod(0o755)
        self.submit("5", f"FEAST_PROGRAM={slow} ")
        self.wait(lambda: self.ask("squeue", "-h", "-t", "R", "-o", "%K").split() == ["5"])
        self.submit("6")
        self.wait(lambda: self.missing() == "1-5")
        self.ask("scancel", "--user=root")
        self.wait(self.over)
        self.assertEqual(self.missing(), "1-5")
        self.submit(self.missing())
        self.wait(self.over)
        self.is_whole()

    def test_node_dies(self) -> None:
        """A node that dies with its tasks loses nothing: the controller gives them to the other one."""
        gate = self.room / "gate"
        waiting = self.file("waiting", f"#!/bin/sh\nwhile [ ! -e {gate} ]; do sleep 0.1; done\nexec {program()} \"$@\"\n")
        waiting.chmod(0o755)
        self.submit("1-4", f"FEAST_PROGRAM={waiting} ")
        self.wait(lambda: sum(is_call_of(waiting, task) for task in self.tasks_of("node1")) == 2)
        self.nodes["node1"].kill()
        tasks = self.tasks_of("node1")
        for process in [*keepers(tasks), *tasks]:
            with suppress(ProcessLookupError):  # a task sleeps in short calls, which end
                os.kill(process, signal.SIGKILL)
        self.wait(lambda: "down" in self.ask("sinfo", "-h", "-N", "-o", "%t"))
        gate.touch()
        self.wait(self.over)
        self.assertEqual(self.missing(), "5-6")
        self.submit("5-6")
        self.wait(self.over)
        self.is_whole()

    def tasks_of(self, node: str) -> list[int]:
        """The processes that a node has started, from the environment that Slurm gives them."""
        found = []
        for path in Path("/proc").glob("[0-9]*/environ"):
            try:
                variables = path.read_bytes().split(b"\0")
            except OSError:
                continue
            is_ours = f"SLURM_CONF={self.cluster / 'slurm.conf'}".encode() in variables
            if is_ours and f"SLURMD_NODENAME={node}".encode() in variables:
                found.append(int(path.parent.name))
        return found


def is_call_of(program: Path, process: int) -> bool:
    """Whether a process is a call of a program that is a script."""
    try:
        return str(program).encode() in Path(f"/proc/{process}/cmdline").read_bytes().split(b"\0")[:2]
    except OSError:
        return False


def keepers(tasks: list[int]) -> set[int]:
    """The processes of Slurm that keep watch over tasks: without them the controller hears no more of these."""
    found = set()
    for task in tasks:
        try:
            parent = int(Path(f"/proc/{task}/stat").read_text().rpartition(")")[2].split()[1])
            if Path(f"/proc/{parent}/comm").read_text().startswith("slurmstepd"):
                found.add(parent)
        except OSError:
            continue
    return found


def free_port() -> int:
    """A port that nobody listens on, and the next one neither."""
    for _ in range(100):
        with socket.socket() as one, socket.socket() as other:
            one.bind(("127.0.0.1", 0))
            port = int(one.getsockname()[1])
            try:
                other.bind(("127.0.0.1", port + 1))
            except OSError:
                continue
            return port
    raise OSError("no two free ports beside each other")


def end(server: "subprocess.Popen[bytes]") -> None:
    """Ends a server and all that it has started."""
    server.terminate()
    try:
        server.wait(20)
    except subprocess.TimeoutExpired:
        server.kill()
        server.wait()
