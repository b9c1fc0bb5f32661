"""What of a picture is shown: all of it, or the entries that concern one process, queue or set, or that have a word."""
from __future__ import annotations

import re
from dataclasses import dataclass

from .reading import Picture


@dataclass
class Selection:
    """Places of entries and of names, and the numbers of processes, that are shown."""

    entries: list[int]
    pids: list[int]
    names: list[int]


def select(picture: Picture, wanted: str = "") -> Selection:
    """The entries that concern what is wanted: `process 2`, `queue 1`, `set 1`, a block's name, or words of a line."""
    entries = [at for at, entry in enumerate(picture.entries) if concerns(picture, at, wanted)]
    if not wanted:
        return Selection(entries, list(picture.processes), list(range(len(picture.names))))
    callers = {picture.entries[at].pid for at in entries}
    callers.update(pid for at in entries for pid in picture.entries[at].about)
    pids = [pid for pid in picture.processes if pid in callers]
    names = sorted({picture.entries[at].name for at in entries} - {None})
    return Selection(entries, pids, names)


def concerns(picture: Picture, at: int, wanted: str) -> bool:
    entry = picture.entries[at]
    named = re.fullmatch(r"(process|queue|set) ([0-9]+)", wanted)
    if not wanted:
        return True
    if named and named[1] == "process":
        return int(named[2]) in entry.about
    if named:
        return entry.name is not None and picture.names[entry.name].label == wanted
    blocks = [pid for pid, process in picture.processes.items() if process.block == wanted]
    if blocks:
        return any(pid in entry.about for pid in blocks)
    return wanted in f"{entry.pid} {entry.call} = {entry.reply} by {entry.by}"
