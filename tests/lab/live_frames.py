#!/usr/bin/env python3
"""Frames and events a second of `./lab live`: the page of a chain, played for some seconds in a headless Chromium.

    python3 tests/lab/live_frames.py [PROGRAM] [--seconds S]

The planes are half full, with the elements of examples/regulator.ulam: one tile of 64 by 64 sites, and 8 by 8 such
tiles. A frame is a leg that the page has drawn. Legs are as long as they make themselves.
"""
import argparse
import os
import random
import shutil
import signal
import sys
import tempfile
import time
from pathlib import Path

TOP = Path(__file__).resolve().parent.parent.parent
sys.dont_write_bytecode = True
sys.path.insert(0, str(TOP / "tools"))
from browser import Browser, chromium  # noqa: E402
from living import Living  # noqa: E402

BUILT = TOP / "crates" / "feast" / "out" / "feast"
READY = "document.readyState === 'complete' && !document.getElementById('film').hidden"
COUNT = """(() => {
  window.frames_drawn = 0;
  const take = LivePage.prototype.take;
  LivePage.prototype.take = function (shot) { take.call(this, shot); window.frames_drawn++; };
  document.getElementById('play').click();
})()"""
AEPS = "Number(/; ([0-9.]+) AEPS/.exec(document.getElementById('moment').textContent)[1])"
WARM_UP = 5.0  # seconds in which the length of legs settles


def half_full(tiles: int) -> str:
    """A world of so many tiles each way, of 64 by 64 sites, every other site of which has an atom on the average."""
    draw = random.Random(tiles)
    sites = [(x, y) for y in range(64 * tiles) for x in range(64 * tiles) if draw.random() < 0.5]
    atoms = "".join(f"atom {x} {y} {draw.choice(('Regulator', 'Resource'))}\n" for x, y in sites)
    return f"feast 1\ntiles {tiles} {tiles}\nsize 64 64\nseed 1000\nattempts 1000\n{atoms}"


def measure(browser: Browser, room: Path, tiles: int, seconds: float) -> str:
    """Plays a chain in its page, and tells its frames a second."""
    world = room / f"{tiles}.world"
    world.write_text(half_full(tiles))
    live = Living(room / f"chain{tiles}", world, TOP / "examples" / "regulator.ulam")
    try:
        browser.open(live.address, READY)
        browser.value(COUNT)
        time.sleep(WARM_UP)
        began, first, before = time.monotonic(), browser.value("window.frames_drawn"), browser.value(AEPS)
        time.sleep(seconds)
        drawn, done, took = browser.value("window.frames_drawn") - first, browser.value(AEPS) - before, time.monotonic() - began
        pace = browser.value("document.getElementById('pace').textContent")
        live.ends(signal.SIGINT)
    finally:
        live.close()
    return f"{64 * tiles} by {64 * tiles} sites: {drawn / took:.1f} frames and {done / took:.2f} AEPS a second, {pace}"


def main() -> int:
    """The command."""
    parser = argparse.ArgumentParser(description=__doc__, formatter_class=argparse.RawDescriptionHelpFormatter)
    parser.add_argument("program", metavar="PROGRAM", nargs="?", type=Path, default=BUILT)
    parser.add_argument("--seconds", type=float, default=20.0, help="for how long each is played (20)")
    parser.add_argument("--tiles", metavar="N", type=int, nargs="+", default=[1, 8], help="so many tiles each way (1 8)")
    given = parser.parse_args()
    os.environ["FEAST_PROGRAM"] = str(given.program.resolve())
    path = chromium()
    if path is None:
        parser.error("there is no Chromium on this machine")
    room = Path(tempfile.mkdtemp())
    browser = Browser(path, room / "browser")
    try:
        for tiles in given.tiles:
            print(measure(browser, room, tiles, given.seconds), flush=True)
    finally:
        browser.close()
        shutil.rmtree(room, ignore_errors=True)
    print(f"load of the machine: {os.getloadavg()[0]:.1f}, processors: {os.cpu_count()}")
    return 0


if __name__ == "__main__":
    sys.exit(main())
