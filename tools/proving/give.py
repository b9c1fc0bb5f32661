#!/usr/bin/env python3
"""Gives a clone the libraries that were proved on this machine for the very same sources, so that `rt check` and
law.py begin at the first crate that differs. Libraries that aren't kept for these sources are removed.

usage: tools/proving/give.py [TOP]
"""
from __future__ import annotations

import fcntl
import os
import shutil
import sys

from kit import crates_of, rt


def give(top: str) -> tuple[list[str], list[str]]:
    """The names of the crates that were given, and of those that lack a library."""
    os.chdir(top)
    rt.Crate.cuts_libraries = True
    # a check in the clone may write over a library, which mustn't be the kept one
    rt.link_or_copy = shutil.copyfile
    crates = crates_of(top)
    kept = rt.Kept(crates)
    given, lacking = [], []
    for crate in crates:
        # (a library that is there already would be taken for a damaged entry)
        shutil.rmtree(f"{crate.folder}/out/rlib", ignore_errors=True)
        can = not any(it.name in lacking for it in crate.below()) and kept.give(crate, False, kept.key(crate))
        (given if can else lacking).append(crate.name)
        if can:
            kept.is_built(crate)
        if can and not crate.is_program:
            # with a stamp other commands take the library as built
            with open(f"{crate.folder}/out/rlib/stamp", "w", encoding="utf-8") as file:
                file.write(crate.stamp())
    return given, lacking


if __name__ == "__main__":
    folder = os.path.abspath(sys.argv[1] if len(sys.argv) > 1 else ".")
    # two at once in one clone would take each other's libraries for damaged ones
    with open(f"{folder}/.give.lock", "w", encoding="utf-8") as lock:
        fcntl.flock(lock, fcntl.LOCK_EX)
        there, missing = give(folder)
    print(f"{len(there)} libraries given; lacking: {' '.join(missing) or 'none'}")
