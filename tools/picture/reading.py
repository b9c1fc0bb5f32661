"""What a trace says of its run: who lived when, what each call did, who owned each queue and set, and what was taken
from whom.

A trace is read loosely, line by line, so that one that `pico check` refuses can be looked at, too; a line that isn't an
entry is left out and counted. Whom a queue or a set belonged to is read off `by`: a call on it is carried out by the
node that owns it. Between the last call at one node and the first at another it moved, and nobody saw when.
"""
from __future__ import annotations

import re
from bisect import bisect_left
from dataclasses import dataclass, field

NOT_READY = ("ENOMSG", "EAGAIN")
ERROR = re.compile(r"E[A-Z0-9]+")
# a word from its quote to the next one and to the next blank, or from another byte to the next blank
WORD = re.compile(r'"[^"]*(?:"[^ \t\r]*)?|[^ \t\r"][^ \t\r]*')
EVENT = re.compile(r"(run|take) ([0-9]+)(?: from ([0-9]+))?")
# the calls that the caller's own node carries out, whatever they are about
OWN = ("getpid", "fork", "sigaction", "sigprocmask", "sigpending", "handled", "waitpid")
GETS = ("msgget", "mqopen", "semget")
QUEUE_CALLS = ("msgsnd", "msgrcv", "msgctl", "mqsend", "mqreceive", "mqgetattr")
SET_CALLS = ("semop", "semctl")


@dataclass
class Entry:
    """A line of the trace. `kind` tells it apart: ok, fork, end, notready, refused, waits or woken."""

    pid: int
    call: str
    reply: str
    by: int
    kind: str
    # the queue or set that the call is about, by its place among the names; none for the others
    name: int | None = None
    # the processes that it is about: the caller, and whom it forks, signals, wakes or waited for
    about: list[int] = field(default_factory=list)

    @property
    def is_call(self) -> bool:
        """Whether its process made it. A withdrawal ends the wait of a call that was made before."""
        return not self.call.startswith("withdraw ")


@dataclass
class Process:
    """A process: its node and its block's name where they are known, and the entries at which it began and ended."""

    pid: int
    node: int = 0
    block: str = ""
    parent: int = 0
    begins: int = 0
    ends: int | None = None
    # its waits: the entry that parked, the one that ended the wait (none where it waits for good), and with which reply
    waits: list[tuple[int, int | None, str]] = field(default_factory=list)

    def wait_at(self, at: int) -> tuple[int, int | None, str] | None:
        """The wait that the process is in at an entry, which isn't the one that parked."""
        # (a shorter tuple stands before all that begin like it)
        wait = self.waits[bisect_left(self.waits, (at,)) - 1] if self.waits and self.waits[0][0] < at else None
        return wait if wait and (wait[1] is None or at <= wait[1]) else None


@dataclass
class Name:
    """A queue or a set, and the spans of entries through which a node owned it: from, to, node. Between two spans it
    moved."""

    kind: str
    number: int
    spans: list[list[int]] = field(default_factory=list)
    calls: int = 0
    removed: int | None = None
    # the first entries of the spans
    starts: list[int] = field(default_factory=list)

    @property
    def label(self) -> str:
        return f"{self.kind} {self.number}"


@dataclass
class Event:
    """An event of the run: node `node` ran, or took a frame that node `source` had sent."""

    node: int
    source: int = 0


@dataclass
class Picture:
    entries: list[Entry] = field(default_factory=list)
    processes: dict[int, Process] = field(default_factory=dict)
    names: list[Name] = field(default_factory=list)
    events: list[Event] = field(default_factory=list)
    # the event in which each entry was made, as far as the order tells; empty where there are none, or they don't fit
    made_in: list[int] = field(default_factory=list)
    totals: str = ""
    skipped: int = 0

    def pids_by_node(self) -> dict[int, int]:
        return {process.node: process.pid for process in self.processes.values() if process.node}


def kind_of(call: list[str], reply: list[str], wakes: bool) -> str:
    """How an entry is told apart from others."""
    if call[0] in ("exit", "killed"):
        return "end"
    if reply[0] in NOT_READY:
        return "notready"
    if len(reply) == 1 and ERROR.fullmatch(reply[0]):
        return "refused"
    if reply == ["parked"]:
        return "waits"
    if wakes:
        return "woken"
    return "fork" if call[0] == "fork" else "ok"


def is_refused_at_once(call: list[str], reply: list[str]) -> bool:
    """Whether a call on a POSIX message queue is refused by its arguments, whatever the queue: by the caller's node."""
    return call[0] in ("mqsend", "mqreceive") and reply in (["EINVAL"], ["EMSGSIZE"])


def woken_in(words: list[str]) -> list[tuple[int, str]]:
    """The processes that an entry wakes, each with its reply, from the words behind the node."""
    found: list[tuple[int, list[str]]] = []
    for place, word in enumerate(words):
        if word == "wakes" and place + 1 < len(words) and words[place + 1].isdigit():
            found.append((int(words[place + 1]), []))
        elif found and word != "wakes" and words[place - 1] != "wakes":
            found[-1][1].append(word)
    return [(pid, " ".join(reply)) for pid, reply in found]


def split(text: str) -> tuple[str, str]:
    """A script and a trace, where the text has both with a line `trace` between them; else no script."""
    lines = text.split("\n")
    marker = next((at for at, line in enumerate(lines) if line.strip() == "trace"), None)
    return ("", text) if marker is None else ("\n".join(lines[:marker]), "\n".join(lines[marker + 1 :]))


def blocks_of(script: str) -> list[str]:
    """The names of a script's blocks, in order: block k is node k."""
    found = (line.split() for line in script.split("\n"))
    return [words[1] for words in found if len(words) == 2 and words[0] == "proc"]


def read(text: str, script: str = "") -> Picture:
    """What a trace says, with its events behind it or not. A script tells the blocks' numbers."""
    within, trace = split(text)
    picture = Picture(processes={1: Process(1, node=1)})
    reader = Reader(picture, blocks_of(script or within))
    for line in trace.split("\n"):
        reader.read(line)
    reader.finish()
    return picture


class Reader:
    """Reads a trace from its first line on."""

    def __init__(self, picture: Picture, blocks: list[str]) -> None:
        self.picture = picture
        # block k is node k
        self.nodes = {name: number for number, name in enumerate(blocks, 1)}
        self.places: dict[tuple[str, int], int] = {}
        if blocks:
            picture.processes[1].block = blocks[0]

    def read(self, line: str) -> None:
        event = EVENT.fullmatch(line) if self.picture.totals else None
        if event:
            self.picture.events.append(Event(int(event[2]), int(event[3] or 0)))
        elif line.startswith("totals "):
            self.picture.totals = line
        elif not self.read_entry(line) and line.strip() and not re.fullmatch("steps [0-9]+", line):
            self.picture.skipped += 1

    def read_entry(self, line: str) -> bool:
        words = WORD.findall(line)
        if not words or not words[0].isdigit() or "=" not in words or "by" not in words:
            return False
        sign, by = words.index("="), len(words) - 1 - words[::-1].index("by")
        if not (1 < sign < by - 1 and by + 1 < len(words) and words[by + 1].isdigit()):
            return False
        call, reply, node = words[1:sign], words[sign + 1 : by], int(words[by + 1])
        behind = words[by + 2 :]
        kind = kind_of(call, reply, behind[:1] == ["wakes"])
        entry = Entry(int(words[0]), " ".join(call), " ".join(reply + behind), node, kind)
        self.note_processes(entry, call, reply)
        self.note_waits(entry, call, woken_in(behind))
        self.note_name(entry, call, reply)
        self.picture.entries.append(entry)
        return True

    def note_processes(self, entry: Entry, call: list[str], reply: list[str]) -> None:
        """Who the entry is about, and what it says of births, ends and nodes."""
        at, processes = len(self.picture.entries), self.picture.processes
        caller = processes.setdefault(entry.pid, Process(entry.pid, begins=at))
        is_own = call[0] in OWN or call[1:] == ["private"] or call[-1] == "badsig" or is_refused_at_once(call, reply)
        if not caller.node and is_own:
            caller.node = entry.by
        entry.about = [entry.pid]
        if entry.kind == "end":
            caller.ends = at
        elif entry.kind == "fork" and reply[0].isdigit() and len(call) > 1:
            child = Process(int(reply[0]), self.nodes.get(call[1], 0), call[1], entry.pid, at)
            processes[child.pid] = child
            entry.about.append(child.pid)
        elif call[0] == "kill" and call[1].isdigit():
            entry.about.append(int(call[1]))
        elif call[0] == "waitpid" and len(reply) == 3 and reply[0].isdigit():
            entry.about.append(int(reply[0]))

    def note_waits(self, entry: Entry, call: list[str], woken: list[tuple[int, str]]) -> None:
        """Who waits from here on, whom the entry wakes, and whose wait it ends."""
        at, processes = len(self.picture.entries), self.picture.processes
        ended = [(entry.pid, "EINTR")] if call[0] == "withdraw" else woken
        if entry.kind == "waits":
            processes[entry.pid].waits.append((at, None, ""))
        for pid, reply in ended:
            waiter = processes.get(pid)
            if waiter and waiter.waits and waiter.waits[-1][1] is None:
                waiter.waits[-1] = (waiter.waits[-1][0], at, reply)
        entry.about += [pid for pid, _ in woken if pid not in entry.about]

    def note_name(self, entry: Entry, call: list[str], reply: list[str]) -> None:
        """Which queue or set the entry is about, and who owns it."""
        at = len(self.picture.entries)
        is_get = call[0] in GETS
        if is_get:
            number, owner = reply[0], entry.by
        elif call[0] in QUEUE_CALLS + SET_CALLS and len(call) > 1:
            number, owner = call[1], entry.by
        else:
            return
        if not number.isdigit():
            return
        kind = "set" if call[0].startswith("sem") else "queue"
        place = self.places.get((kind, int(number)))
        if place is None:
            if not is_get:
                # nothing has this number
                return
            place = self.places[kind, int(number)] = len(self.picture.names)
            self.picture.names.append(Name(kind, int(number), [[at, at, owner]]))
        name = self.picture.names[place]
        entry.name = place
        name.calls += 1
        if name.removed is None and not is_refused_at_once(call, reply):
            self.note_owner(name, at, owner, is_get, call[-1] == "rmid" and entry.kind == "ok")

    def note_owner(self, name: Name, at: int, owner: int, is_get: bool, is_removal: bool) -> None:
        """A get by a key and a removal are carried out by node 1, whoever had the name; all else by its owner."""
        last = name.spans[-1]
        if is_removal:
            name.removed = at
        elif is_get and last[2] != owner:
            return
        if last[2] == owner:
            last[1] = at
        else:
            name.spans.append([at, at, owner])

    def finish(self) -> None:
        """What is known only at the end: how long each name stayed, nodes that no entry told, which event made what."""
        picture = self.picture
        for name in picture.names:
            if name.removed is None:
                name.spans[-1][1] = max(len(picture.entries) - 1, name.spans[-1][1])
            name.starts = [first for first, _, _ in name.spans]
        self.find_nodes()
        if picture.events:
            picture.made_in = align(picture)

    def find_nodes(self) -> None:
        """Finds the nodes of processes that no entry tells, as of those that only end: a node's first event takes what
        its parent's node sent, and it runs once for each call."""
        picture = self.picture
        firsts, runs, calls = {}, {}, {}
        for event in picture.events:
            firsts.setdefault(event.node, event.source)
            runs[event.node] = runs.get(event.node, 0) + (not event.source)
        for entry in picture.entries:
            calls[entry.pid] = calls.get(entry.pid, 0) + entry.is_call
        free = set(range(1, 33)) - {process.node for process in picture.processes.values()}
        for process in picture.processes.values():
            if process.node or not free:
                continue
            parent = picture.processes.get(process.parent)
            home, count = parent.node if parent else 0, calls.get(process.pid, 0)
            fits = [it for it in free if firsts.get(it) == home and runs.get(it) == count]
            process.node = min(fits or free)
            free.remove(process.node)


def align(picture: Picture) -> list[int]:
    """The event in which each entry was made; nothing where the events don't fit the entries.

    The m-th call of a process begins with the m-th run of its node, and ends before the next. An entry is made by an
    event of the node that it names, not before its call begins, and entries are made in their order. Of the events that
    are left an entry gets the call's own run where its node made it, and else the first take from the caller's node, or
    else the first take.
    """
    nodes = {process.pid: process.node for process in picture.processes.values()}
    runs: dict[int, list[int]] = {}
    events_of: dict[int, list[int]] = {}
    for at, event in enumerate(picture.events):
        events_of.setdefault(event.node, []).append(at)
        if not event.source:
            runs.setdefault(event.node, []).append(at)
    begins, ends, made = [], [], {}
    for entry in picture.entries:
        own, number = runs.get(nodes[entry.pid], []), made.get(entry.pid, 0) - (not entry.is_call)
        made[entry.pid] = number + 1
        if not 0 <= number < len(own):
            return []
        begins.append(own[number])
        ends.append(own[number + 1] if number + 1 < len(own) else len(picture.events))
    latest = latest_of(picture, begins, ends, events_of)
    return chosen(picture, nodes, begins, latest, events_of) if latest else []


def latest_of(picture: Picture, begins, ends, events_of) -> list[int]:
    """The last event that each entry can have been made in, so that those behind it still fit."""
    latest, bound = [0] * len(picture.entries), len(picture.events)
    for at in range(len(picture.entries) - 1, -1, -1):
        own = events_of.get(picture.entries[at].by, [])
        place = last_below(own, min(bound + 1, ends[at]))
        if place < 0 or own[place] < begins[at]:
            return []
        bound = latest[at] = own[place]
    return latest


def chosen(picture: Picture, nodes, begins, latest, events_of) -> list[int]:
    made, now = [], 0
    for at, entry in enumerate(picture.entries):
        own, first = events_of[entry.by], max(now, begins[at])
        place = last_below(own, first) + 1
        may = []
        while place < len(own) and own[place] <= latest[at] and len(may) < 64:
            may.append(own[place])
            place += 1
        if not may:
            return []
        home = nodes[entry.pid]
        best = [it for it in may if it == begins[at]] or [it for it in may if picture.events[it].source == home]
        # another's call is carried out where a frame is taken, and not where the node runs
        now = (best or [it for it in may if picture.events[it].source] or may)[0]
        made.append(now)
    return made


def last_below(rising: list[int], bound: int) -> int:
    """The place of the last number below the bound; -1 where there is none."""
    low, high = 0, len(rising)
    while low < high:
        middle = (low + high) // 2
        low, high = (middle + 1, high) if rising[middle] < bound else (low, middle)
    return low - 1
