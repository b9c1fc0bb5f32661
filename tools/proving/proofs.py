#!/usr/bin/env python3
"""Proves crates and all below them on a copy of the tree, and nothing else: no edits are tried, no program runs, and of
tests only those that are asked for. What passes is kept on the machine, so the gate finds it. It is no gate.

usage: tools/proving/proofs.py [--tests] CRATE ..

With --tests the tests of the crates that are named are proved and run besides. Where more may be proved at once than
there are lanes (RT_JOBS, or one a processor), what the longest chain waits for comes first, by the table of
docs/CHECKING.md. The kit's own order goes by the lines of code behind a crate, of which crates of laws have none.
"""
from __future__ import annotations

import os
import pathlib
import re
import sys

from kit import rt

TOP = pathlib.Path(__file__).resolve().parent.parent.parent
ROW = re.compile(r"\| `(\w+)` \| ([\d.]*) ")
# seconds, of a crate that the table doesn't name
SMALL = 15
# the kit's guess at a check's memory is high for a crate of many proofs, and so costs lanes
MOST = 3_000_000_000


def costs() -> dict[str, float]:
    """What the proof of each crate took, in seconds."""
    rows = map(ROW.match, (TOP / "docs/CHECKING.md").read_text(encoding="utf-8").split("\n"))
    return {row[1]: 60 * float(row[2]) for row in rows if row and row[2]}


def by_chains(run_in_lanes):
    """The kit's walk over its tasks, by what they cost."""
    known = costs()

    def call(tasks: dict):
        weighed = {
            (name, *kind): (waits, known.get(name, SMALL) if kind[0] == "proof" else 0, min(needs, MOST), work)
            for (name, *kind), (waits, _, needs, work) in tasks.items()
        }
        return run_in_lanes(weighed)

    return call


def main(words: list[str]) -> int:
    names = [it for it in words if it != "--tests"]
    if not names or any(it.startswith("-") for it in names):
        print(__doc__.strip())
        return 2
    has_tests = rt.Crate.has_tests
    rt.Crate.has_tests = lambda crate: "--tests" in words and crate.name in names and has_tests(crate)
    rt.edits_of = lambda crate: ([], [])
    runs = rt.run
    rt.run = lambda crate, tests, *end: not tests or runs(crate, tests, *end)
    rt.in_lanes = by_chains(rt.in_lanes)
    os.chdir(TOP)
    return rt.ci_of(names, False)


if __name__ == "__main__":
    sys.exit(main(sys.argv[1:]))
