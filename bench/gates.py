#!/usr/bin/env python3
"""Runs random scripts with threads under random gates (crates/gate_bench), and judges each run: by `pico check`, and by
its events, from which `pico thaw` must come to the same trace.

usage: bench/gates.py [--seeds A..B] [--gates N] [--jobs J] [--script SEED]

For each seed a script is made and run under N gates; J of them go at once. With --script the script of a seed is written
and nothing is run. The programs are the proved ones, or those that PICO and GATE_BENCH name. What was run and what came is
printed; each run that wasn't as wanted is told, with its seed and its gate, and the exit status is then 1.
"""
from __future__ import annotations

import argparse
import collections
import importlib.machinery
import importlib.util
import multiprocessing
import os
import pathlib
import random
import re
import subprocess
import sys
import time

TOP = pathlib.Path(__file__).resolve().parent.parent
# a run that takes longer has left a thread behind
LONGEST = 100
DONE, STALLED = 0, 6
SIGNALS = ("HUP", "USR1", "USR2", "TERM", "CHLD", "KILL")
# what is counted of traces: who waits, who is woken and who interrupted, and by which node a call was carried out
SIGHTS = {
    "waits": re.compile(rb" = parked by \d+"),
    "woken": re.compile(rb" wakes \d+"),
    "interrupted": re.compile(rb"^\d+ withdraw ", re.M),
    "killed": re.compile(rb"^\d+ killed ", re.M),
}
ENTRY = re.compile(rb"^(\d+) .* by (\d+)(?: wakes .*)?$", re.M)


def module_of(path: pathlib.Path):
    """A tool of this repository, whose file has no ending."""
    loader = importlib.machinery.SourceFileLoader(path.name, str(path))
    made = importlib.util.module_from_spec(importlib.util.spec_from_loader(path.name, loader))
    sys.dont_write_bytecode = True
    loader.exec_module(made)
    return made


image = module_of(TOP / "tools/image")


class Script:
    """A random script: a tree of processes that share some queues and sets, and know their own children."""

    def __init__(self, seed: int) -> None:
        self.drawn = random.Random(seed)
        self.names = ["main", *(f"w{k}" for k in range(1, self.drawn.choice((2, 2, 3, 3, 4, 5, 8))))]
        self.left = self.names[1:]
        self.blocks = []
        self.waits = self.drawn.choice((0.0, 0.2, 0.6))
        shared = [f"{var} = {call}" for var, call in (("q", "msgget private"), ("r", "msgget private"), ("s", "semget private 3"))]
        self.block("main", shared[: self.drawn.choice((1, 2, 3, 3))], [])

    def text(self) -> bytes:
        return ("\n".join(line for block in self.blocks for line in block) + "\n").encode()

    def maybe(self, chance: float, word: str) -> str:
        return f" {word}" if self.drawn.random() < chance else ""

    def nowait(self, word: str = "nowait") -> str:
        return self.maybe(1 - self.waits, word)

    def block(self, name: str, lines: list[str], known: list[str]) -> None:
        """A block that begins with these lines and variables, and behind it those of its children."""
        drawn, own, children = self.drawn, [f"proc {name}", *lines], []
        known = known + [line.split()[0] for line in lines if " = " in line]
        parts = drawn.randrange(3, 14)
        for at in range(parts):
            forks_left = self.left and (drawn.random() < 0.4 or name == "main" and at == parts - 1)
            for _ in range(len(self.left) if forks_left and name == "main" and at == parts - 1 else bool(forks_left)):
                child, var = self.left.pop(0), f"c{len(children)}"
                own.append(f"{var} = fork {child}")
                known = [*known, var]
                children.append((child, list(known)))
            own.append(self.call(known))
        if drawn.random() < 0.2:
            own.append(f"exit {drawn.randrange(300)}")
        self.blocks.append([*own, "end"])
        for child, variables in children:
            self.block(child, [], variables)

    def call(self, known: list[str]) -> str:
        drawn = self.drawn
        kinds = ["q"] * 6 * ("q" in known) + ["s"] * 3 * ("s" in known) + ["process"] * 3 + ["signal"] * 2 + ["key"]
        line = getattr(self, "on_" + drawn.choice(kinds))(known)
        return f"try {drawn.randrange(2, 30)} {line}" if drawn.random() < 0.25 else line

    def on_q(self, known: list[str]) -> str:
        drawn, queue = self.drawn, "$" + self.drawn.choice([it for it in known if it in "qr"])
        size = drawn.choice((1, 1, 2, 5, 40, 4000))
        return drawn.choices(
            (
                f"msgsnd {queue} {drawn.randrange(1, 4)} rep:{size}:x{self.nowait()}",
                f"msgrcv {queue} {drawn.choice((0, 0, 0, 1, 2, -2))} {drawn.choice((4096, 4096, 3))}"
                f"{self.maybe(0.3, 'noerror')}{self.nowait()}",
                f"msgctl {queue} stat",
                f"msgctl {queue} set {drawn.choice((0, 2, 100, 16384))}",
                f"msgctl {queue} rmid",
            ),
            (8, 10, 1, 1, 0.4),
        )[0]

    def on_s(self, _: list[str]) -> str:
        drawn = self.drawn
        parts = [f"{drawn.randrange(3)}:{drawn.choice((1, 1, 2, 0, -1, -1, -2))}{':nowait' * (drawn.random() > self.waits)}"
                 for _ in range(drawn.choice((1, 1, 2)))]
        return drawn.choices(
            (
                f"semop $s {' '.join(parts)}",
                f"semctl $s {drawn.choice(('getval', 'getpid', 'getncnt', 'getzcnt'))} {drawn.randrange(4)}",
                "semctl $s getall",
                f"semctl $s setval {drawn.randrange(3)} {drawn.randrange(3)}",
                "semctl $s setall 1,0,2",
                "semctl $s rmid",
            ),
            (10, 2, 1, 1, 0.5, 0.3),
        )[0]

    def on_process(self, known: list[str]) -> str:
        drawn = self.drawn
        child = drawn.choice([f"${it}" for it in known if it[0] == "c"] + ["any"])
        return drawn.choice((f"waitpid {child}{self.nowait('nohang')}", f"waitpid any{self.nowait('nohang')}", "getpid"))

    def on_signal(self, known: list[str]) -> str:
        drawn = self.drawn
        process = drawn.choice([f"${it}" for it in known if it[0] == "c"] + ["1", "2"])
        return drawn.choices(
            (
                f"kill {process} {drawn.choice(SIGNALS)}",
                f"sigaction {drawn.choice(SIGNALS)} {drawn.choice(('catch', 'catch', 'ign', 'dfl'))}",
                f"sigprocmask {drawn.choice(('block', 'unblock', 'setmask'))} {drawn.choice(('none', 'USR1', 'TERM,USR2'))}",
                f"handled {drawn.choice(SIGNALS)}",
                "sigpending",
            ),
            (4, 4, 1, 1, 1),
        )[0]

    def on_key(self, _: list[str]) -> str:
        made = f"{self.maybe(0.7, 'create')}{self.maybe(0.2, 'excl')}"
        key = self.drawn.randrange(1, 3)
        return self.drawn.choice((f"msgget {key}{made}", f"semget {key} 3{made}"))


def gate_of(drawn: random.Random, nodes: int) -> list[str]:
    """The words of a random gate."""
    kind = drawn.random()
    if kind < 0.8 or nodes < 2:
        return ["random", str(drawn.randrange(2**63))]
    if kind < 0.95:
        return ["each", str(nodes), str(drawn.choice((3, 100, 1000)))]
    one, other = drawn.sample(range(1, nodes + 1), 2)
    return ["hold", str(one), "until", str(other), str(drawn.choice((1, 100, 10000, 100000)))]


def run(words: list, given: bytes) -> tuple[int | None, bytes]:
    """The status and the text of a run; no status where it doesn't end."""
    try:
        ran = subprocess.run(words, input=given, stdout=subprocess.PIPE, stderr=subprocess.DEVNULL, timeout=LONGEST)
    except subprocess.TimeoutExpired:
        return None, b""
    return ran.returncode, ran.stdout


def why_not(pico: str, script: bytes, status: int, text: bytes) -> str | None:
    """Why what a run wrote isn't as wanted."""
    if status not in (DONE, STALLED):
        return f"status {status}"
    at = text.index(b"\nsteps ") + 1
    trace = text[:at]
    judged, verdict = run([pico, "check"], script + b"trace\n" + trace)
    if judged != 0 or not verdict.startswith(b"legal entries "):
        return verdict.decode(errors="replace").strip()
    if status == STALLED and b" = parked by " not in trace:
        return "stalled, and nobody waits"
    frozen = image.image_of(script, image.events_of(text))
    thawed = run([pico, "thaw"], frozen)
    return None if thawed == (status, trace) else "its events come to another trace"


def tried(given: tuple[int, int, str, str]) -> tuple[collections.Counter, list[str]]:
    """The runs of one seed's script: what came, and what wasn't as wanted."""
    seed, gates, pico, gated = given
    script, drawn, came, faults, judged = Script(seed), random.Random(~seed), collections.Counter(), [], {}
    text = script.text()
    for _ in range(gates):
        words = gate_of(drawn, len(script.names))
        status, out = run([gated, *words], text)
        if (status, out) not in judged:
            judged[status, out] = why_not(pico, text, status, out)
            came.update(sights_of(out))
            came["different runs"] += 1
        came.update({"runs": 1, "stalled": status == STALLED})
        if judged[status, out]:
            faults.append(f"seed {seed}, gate {' '.join(words)}: {judged[status, out]}")
    came["scripts"] += 1
    return came, faults


def sights_of(out: bytes) -> dict[str, int]:
    """What stands in a trace."""
    trace, _, events = out.partition(b"\nsteps ")
    entries = ENTRY.findall(trace)
    sights = {what: len(pattern.findall(trace)) for what, pattern in SIGHTS.items()}
    elsewhere = sum(pid != by for pid, by in entries)
    return {"entries": len(entries), "carried out by another": elsewhere, "events": events.count(b"\n") - 1, **sights}


def program(crate: str) -> str:
    """The proved program of a crate, or the one that is named."""
    ran = subprocess.run([TOP / "tools/programs.py", "--proved", crate], stdout=subprocess.PIPE, text=True)
    if ran.returncode != 0:
        sys.exit(70)
    return ran.stdout.strip()


def main() -> int:
    parser = argparse.ArgumentParser()
    parser.add_argument("--seeds", default="1..100")
    parser.add_argument("--gates", type=int, default=10)
    parser.add_argument("--jobs", type=int, default=2 * (os.cpu_count() or 2))
    parser.add_argument("--script", type=int)
    words = parser.parse_args()
    if words.script is not None:
        sys.stdout.buffer.write(Script(words.script).text())
        return 0
    first, _, last = words.seeds.partition("..")
    pico, gated = program("pico_cmd"), program("gate_bench")
    began, came, faults = time.monotonic(), collections.Counter(), 0
    with multiprocessing.Pool(words.jobs) as pool:
        tries = ((seed, words.gates, pico, gated) for seed in range(int(first), int(last) + 1))
        for counted, told in pool.imap_unordered(tried, tries):
            came.update(counted)
            faults += len(told)
            print(*told, sep="\n", end="\n" * bool(told), flush=True)
    took = time.monotonic() - began
    print(f"seeds {words.seeds}, {words.gates} gates each: {faults} of {came['runs']} runs not as wanted, {took:.0f} s")
    print(", ".join(f"{what} {count}" for what, count in came.items()))
    return 1 if faults else 0


if __name__ == "__main__":
    sys.exit(main())
