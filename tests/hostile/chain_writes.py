"""How the report of a chain is put: that of each leg in pieces of 4,096 bytes, all but its last one."""
from __future__ import annotations

import os
import re

from bench import DONE, SINK, Bench
from edge_faults import Fault, may_trace
from jobs import WALKER

PIECE = 4096
WROTE = re.compile(r"write\(1<?[^,]*, .*, (\d+)\) = (\d+)$", re.MULTILINE)


def pieces_of(leg: bytes) -> list[int]:
    """The sizes of the pieces in which the report of a leg is put."""
    return [min(PIECE, len(leg) - at) for at in range(0, len(leg), PIECE)]


def traced_writes(bench: Bench, chain: bytes) -> None:
    """The pieces are those, and each of them fails in turn: the reports up to it are there, and nothing behind."""
    if not may_trace():
        bench.leave_out("strace is not on this machine", "the pieces in which the report of a chain is put")
        return
    bench.write("w", chain)
    bench.write("e", WALKER)
    out = bench.call(["step", "w", "e"]).out
    legs = [b"feast " + part for part in out.split(b"feast ")[1:]]
    due = [size for leg in legs for size in pieces_of(leg)]
    log = bench.at("log")
    trace = (b"strace", b"-f", b"-o", os.fsencode(log), b"-P", os.fsencode(bench.output), b"-e", b"trace=write")
    answer = bench.call(["step", "w", "e"], before=trace)
    found = [int(size) for size, _ in WROTE.findall(log.read_text())]
    bench.say(answer.status == DONE and found == due and len(due) > len(legs), "the pieces of a chain's report", f"{found}, not {due}")
    for number in range(1, len(due) + 1):
        fault = Fault(bench.output, b"write,writev", b"error=ENOSPC:when=%d" % number)
        answer = bench.call(["step", "w", "e"], before=fault.before)
        bench.expect(f"piece {number} of a chain's report fails", answer, SINK, out[: sum(due[: number - 1])])
