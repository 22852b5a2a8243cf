#!/usr/bin/env python3
"""Prints the tables of a page, made anew: python3 examples/figures NAME.

It makes the runs of each table with the seeds that the page names, which takes from a second to a minute. The names
are those of PAGES, with the page that has the tables, and `threads`: the table of runs on threads in
examples/README.md, which comes out a little different each time.
"""
import argparse
import importlib
import sys

sys.dont_write_bytecode = True

EXAMPLES = ("forkbomb", "horde", "life", "membrane", "regulator", "sorter", "swapline", "wator", "wire")
PAGES = {**{name: f"examples/{name}.md" for name in EXAMPLES}, "tiles": "docs/tutorial-tiles.md"}


def main() -> int:
    """The command."""
    parser = argparse.ArgumentParser(prog="examples/figures", description="Prints the tables of a page, made anew.")
    parser.add_argument("page", choices=[*PAGES, "threads"])
    parser.add_argument("--runs", type=int, metavar="N", help="how many runs of each example `threads` makes")
    words = parser.parse_args()
    number = [words.runs] if words.page == "threads" and words.runs else []
    print("\n".join(importlib.import_module(words.page).tables(*number)), end="")
    return 0


if __name__ == "__main__":
    sys.exit(main())
