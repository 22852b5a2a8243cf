"""A window in which a chain runs, and in which you can lay hands on it.

DIR is the folder of a chain, as `./lab chain` makes it. With WORLD and FILE.. it is begun, or gone on with if it was
begun with the same; with DIR alone it is gone on with. The page is served on this machine alone, at the address that
is written; whoever has the address can work on the chain. It stands in DIR/live.html too, which you alone can read, and
stays the same when the chain is opened again. Ctrl-C ends it, and leaves a whole chain.

The page plays and pauses, makes single legs, and does acts between legs: it clears, paints, damages and stamps. Each
act is on record in the chain, as if it had been given by --at, so `./lab chain --audit` judges it and `./lab film`
shows it. Forks and chains that go on with changed elements get folders beside DIR: DIR-fork1, DIR-reload1 ..

With --failures each event is made again in Python, so legs of the same time have fewer events: the page then has a red
cross at each site where events failed in the last leg.
"""
import argparse
import os
import sys
import threading
import webbrowser
from pathlib import Path

from ..base.errors import LabError
from ..base.program import Program
from ..live.address import NAME, Address
from ..live.chain import Live
from ..live.opening import WantedLive, opened
from ..live.server import Server


def add_arguments(parser: argparse.ArgumentParser) -> None:
    """The words of the verb."""
    parser.usage = """./lab live [-h] [--port N] [--no-open] [--failures] [--step] [--seed S] [--keep none|reports]
                  DIR [WORLD FILE..]"""
    parser.add_argument("--port", metavar="N", type=int, default=0,
                        help="the port to serve at (default: that of the last time, or a free one)")
    parser.add_argument("--no-open", action="store_true", help="open no browser")
    parser.add_argument("--failures", action="store_true", help="find the events that failed, and show them")
    parser.add_argument("--step", action="store_true", help="stepped legs, on one thread; else each tile has a thread")
    parser.add_argument("--seed", metavar="S", type=int, help="the seed of the first leg")
    parser.add_argument("--keep", choices=["none", "reports"],
                        help="keep the report of each leg (as is done without this), or not; an audit needs them")
    parser.add_argument("folder", metavar="DIR", type=Path, help="the folder of the chain")
    parser.add_argument("world", metavar="WORLD", type=Path, nargs="?", help="the world to begin with")
    parser.add_argument("files", metavar="FILE", type=Path, nargs="*", help="the element files")


def run(arguments: argparse.Namespace) -> int:
    """Serves the chain until it is interrupted."""
    if not 0 <= arguments.port < 65536:
        raise LabError(f"--port {arguments.port}: a port is from 1 to 65535, or 0 for a free one")
    live = Live(Program.find(), [path.resolve() for path in arguments.files], arguments.failures)
    with Server(live, arguments.port, Address.kept(arguments.folder)) as server:
        try:
            live.address = server.address
            opened(live, WantedLive(arguments.folder, arguments.world, arguments.files, arguments.step, arguments.seed, arguments.keep))
        except BaseException:
            live.held.close()
            raise
        try:
            print(f"{arguments.folder}: {server.address.url}", flush=True)
            if not arguments.no_open and has_display():
                page = (arguments.folder / NAME).resolve().as_uri()  # not the address, which `ps` would show
                threading.Thread(target=webbrowser.open, args=(page,), daemon=True).start()
            server.serve_forever()
        except KeyboardInterrupt:
            sys.stdout.write("\n" if sys.stdout.isatty() else "")
        finally:
            said = live.end()
    print(said)
    if live.session.fault:
        raise LabError(live.session.fault)
    return 0


def has_display() -> bool:
    """Whether a browser can open a window here; one in a terminal would take that away."""
    return sys.platform == "darwin" or any(os.environ.get(name) for name in ("DISPLAY", "WAYLAND_DISPLAY", "BROWSER"))
