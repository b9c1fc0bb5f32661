"""A picture of a trace in the terminal: a column for each process, time going down, and at the right a column for each
queue and set with the node that owns it."""
from __future__ import annotations

import re
from bisect import bisect_right

from .reading import Entry, Name, Picture
from .select import Selection

MARKS = {"notready": ".", "refused": "!", "waits": "~", "woken": "*", "fork": "+", "end": "x"}
LEGEND = "+ forks   x ends   . not ready   ! refused   ~ waits   * wakes   @N by node N, not the caller's own"
MOST_NAMES, NARROWEST, WIDEST, NAME_WIDTH = 12, 26, 36, 5


class Lanes:
    """What is printed of a selection, in so many columns of the terminal."""

    def __init__(self, picture: Picture, selection: Selection, width: int, with_events: bool) -> None:
        self.picture, self.selection = picture, selection
        self.with_events = with_events and bool(picture.made_in)
        self.is_whole = len(selection.entries) == len(picture.entries)
        self.pids = selection.pids
        by_calls = sorted(selection.names, key=lambda it: -picture.names[it].calls)
        self.names = sorted(by_calls[:MOST_NAMES])
        self.left_out = len(by_calls) - len(self.names)
        self.gutter = len(str(len(picture.entries))) + 2
        free = width - self.gutter - NAME_WIDTH * len(self.names)
        self.lane = max(NARROWEST, min(WIDEST, free // max(len(self.pids), 1)))
        self.columns = {pid: at for at, pid in enumerate(self.pids)}

    def lines(self):
        yield from self.heads()
        event = 0
        for at in self.selection.entries:
            if self.with_events:
                made = self.picture.made_in[at]
                # of some entries only those frames are shown whose taking made one
                yield from self.takes(event if self.is_whole else max(event, made), made + 1, at)
                event = max(event, made + 1)
            yield self.row(at)
        if self.with_events and self.is_whole:
            yield from self.takes(event, len(self.picture.events), len(self.picture.entries))
        yield ""
        yield LEGEND + ("   <-- takes what the other node sent" if self.with_events else "")
        for line in (self.picture.totals, *self.notes()):
            if line:
                yield line

    def notes(self):
        if self.picture.skipped:
            yield f"{self.picture.skipped} lines are no entries, and are left out"
        if self.left_out:
            yield f"{self.left_out} further queues and sets: --only 'queue 7' shows one"
        if self.picture.events and not self.picture.made_in:
            yield "the events don't fit the entries, and are left out"

    def heads(self):
        """Two lines: who each column is, and where it runs."""
        who, where = " " * self.gutter, " " * self.gutter
        for pid in self.pids:
            process = self.picture.processes[pid]
            who += fit(f"{pid} {process.block}".rstrip(), self.lane)
            where += fit(f"node {process.node}" if process.node else "", self.lane)
        for place in self.names:
            name = self.picture.names[place]
            who += fit(f"{name.kind[0]}{name.number}", NAME_WIDTH)
        yield who.rstrip()
        yield (where + ("owner" if self.names else "")).rstrip()

    def row(self, at: int) -> str:
        """The row of an entry."""
        entry = self.picture.entries[at]
        cells = [self.cell(pid, at, entry) for pid in self.pids]
        owners = [fit(owner_at(self.picture.names[it], at, it == entry.name), NAME_WIDTH) for it in self.names]
        return (f"{at + 1:>{self.gutter - 2}}  " + "".join(cells) + "".join(owners)).rstrip()

    def cell(self, pid: int, at: int, entry: Entry) -> str:
        process = self.picture.processes[pid]
        if pid == entry.pid:
            other = f" @{entry.by}" if entry.by != process.node else ""
            text = brief(entry, self.lane - 3 - len(other))
            return fit(f"{MARKS.get(entry.kind, ' ')} {text}", self.lane - len(other), other)
        if entry.kind == "fork" and process.begins == at and pid in entry.about:
            return fit("+ begins", self.lane)
        wait = process.wait_at(at)
        if wait and wait[1] == at:
            return fit(f"* woken: {wait[2]}", self.lane)
        return fit(line_of(process, at), self.lane)

    def takes(self, first: int, behind: int, at: int):
        """A row for each frame that is taken in these events, before the entry at that place."""
        nodes = self.picture.pids_by_node()
        for event in self.picture.events[first:behind]:
            taker, sender = nodes.get(event.node), nodes.get(event.source)
            if event.source and taker in self.columns and sender in self.columns:
                yield self.arrow(self.columns[taker], self.columns[sender], at)

    def arrow(self, taker: int, sender: int, at: int) -> str:
        """A row with an arrow from one column to another."""
        row = "".join(fit(line_of(self.picture.processes[it], at), self.lane) for it in self.pids)
        left, right = min(taker, sender) * self.lane, max(taker, sender) * self.lane
        dashes = "-" * (right - left - 1)
        drawn = f"<{dashes}|" if taker < sender else f"|{dashes}>"
        return (" " * self.gutter + row[:left] + drawn + row[right + 1 :]).rstrip()


def line_of(process, at: int) -> str:
    """What stands in a process's column beside others' entries: a line while it lives, dots while it waits."""
    if not lives(process, at):
        return ""
    return ":" if process.wait_at(at) else "|"


def lives(process, at: int) -> bool:
    return process.begins < at and (process.ends is None or at <= process.ends) or process.begins == at == 0


def owner_at(name: Name, at: int, is_about: bool) -> str:
    """The node that owns a name at an entry: its number where a call shows it or it has just moved, `:` as long as it
    stays, `?` while it moves."""
    number = bisect_right(name.starts, at) - 1
    if number < 0:
        return ""
    first, last, node = name.spans[number]
    if at > last:
        return "?" if number + 1 < len(name.spans) else ""
    if name.removed == at:
        return "x"
    if at == first:
        return f"{'>' if number else ''}{node}"
    return str(node) if is_about else ":"


def brief(entry: Entry, room: int) -> str:
    """An entry in so many columns: where it is too long its last word that says nothing new goes first, and of what is
    left the reply is seen."""
    call, reply = entry.call, entry.reply
    if len(call) + 3 + len(reply) > room:
        call = re.sub(" (nowait|nohang)$", "", call)
    if len(call) + 3 + len(reply) > room:
        short = reply if len(reply) <= room // 2 else reply[: room // 2 - 2] + ".."
        left = max(room - 3 - len(short), 6)
        call, reply = call if len(call) <= left else call[: left - 2] + "..", short
    return f"{call} = {reply}"


def fit(text: str, width: int, tail: str = "") -> str:
    """A text in so many columns, with a blank at its end, and what must be seen behind it."""
    room = width - 1
    cut = text if len(text) <= room else text[: room - 2] + ".."
    return f"{cut}{tail}".ljust(width + len(tail))
