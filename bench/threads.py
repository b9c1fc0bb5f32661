#!/usr/bin/env python3
"""Times `pico run`, a thread for each process, beside `pico sim` of the same script: on the wall, and of all processors.

usage: bench/threads.py [--rounds N] [--beside 'PROGRAM WORDS'] [NAME ..]

With --beside another program is timed in turn, which reads the script from standard input: one that runs its blocks as
the host's own processes, say. All ratios are of least times.
"""
from __future__ import annotations

import argparse
import os
import shlex
import subprocess
import tempfile
import time

from shapes import SHAPES, script
from sim import program


def generated(number: int) -> bytes:
    """The generated script of this number, as docs/script.md has it."""
    workers, messages = range(1, 2 + number % 31), 10 + number % 291
    blocks: dict[str, list[str]] = {"main": ["s = msgget private"]}
    for k in workers:
        blocks["main"] += [f"q{k} = msgget private", *[f'msgsnd $q{k} 1 "x" nowait'] * messages, f"fork w{k}"]
        blocks[f"w{k}"] = [f"msgrcv $q{k} 0 8 nowait"] * messages + ['msgsnd $s 1 "x" nowait']
    return script(blocks)


def pool(workers: int, jobs: int) -> bytes:
    """Workers that take jobs from one queue and answer on another, and wait for what isn't there yet by trying. The tries
    are as many as a script may have."""
    names = [f"w{k}" for k in range(1, workers + 1)]
    each = jobs // workers
    main = ["j = msgget 100 create", "r = msgget 101 create", *[f"fork {name}" for name in names]]
    tries = 9000 // jobs
    main += ['msgsnd $j 1 "job" nowait'] * jobs + [f"try {tries} msgrcv $r 2 64 nowait"] * jobs
    worker = [f"try {tries} msgrcv $j 1 64 nowait", 'msgsnd $r 2 "done" nowait'] * each
    return script({"main": main, **dict.fromkeys(names, worker)})


def ping_pong(rounds: int) -> bytes:
    """Two processes that answer each other on two queues, by trying."""
    main = ["a = msgget 1 create", "b = msgget 2 create", "fork other"]
    tries = 9000 // rounds
    main += ['msgsnd $a 1 "ping" nowait', f"try {tries} msgrcv $b 0 8 nowait"] * rounds
    other = [f"try {tries} msgrcv $a 0 8 nowait", 'msgsnd $b 1 "pong" nowait'] * rounds
    return script({"main": main, "other": ["a = msgget 1", "b = msgget 2", *other]})


SCRIPTS = {
    "gen-0": lambda: generated(0),
    "gen-30": lambda: generated(30),
    "gen-9020": lambda: generated(9020),
    "pool": lambda: pool(8, 80),
    "two-workers": lambda: pool(2, 6),
    "ping-pong": lambda: ping_pong(50),
    **{name: lambda shape=shape: shape(2000) for name, shape in SHAPES.items()},
}


def seconds(words: list[str], file: str) -> tuple[float, float]:
    """What a run of a program takes on the wall, and of all processors together."""
    with open(file, "rb") as text:
        start = time.perf_counter()
        child = subprocess.Popen(words, stdin=text, stdout=subprocess.DEVNULL)
        _, status, used = os.wait4(child.pid, 0)
        wall = time.perf_counter() - start
    child.returncode = os.waitstatus_to_exitcode(status)
    if child.returncode:
        raise SystemExit(f"threads.py: {words[0]} ended with status {child.returncode}")
    return wall, used.ru_utime + used.ru_stime


def main() -> None:
    words = argparse.ArgumentParser(description=__doc__, formatter_class=argparse.RawDescriptionHelpFormatter)
    words.add_argument("--rounds", type=int, default=9, metavar="N")
    words.add_argument("--beside", type=shlex.split, metavar="'PROGRAM WORDS'")
    words.add_argument("names", nargs="*", choices=[[], *SCRIPTS], metavar="NAME")
    given = words.parse_args()
    runs = {"run": [program(), "run"], "sim": [program(), "sim"]} | ({"other": given.beside} if given.beside else {})
    for name in given.names or SCRIPTS:
        with tempfile.NamedTemporaryFile() as file:
            file.write(SCRIPTS[name]())
            file.flush()
            rounds = [{of: seconds(call, file.name) for of, call in runs.items()} for _ in range(given.rounds)]
        least = {of: [min(times[of][kind] for times in rounds) for kind in (0, 1)] for of in runs}
        text = ", ".join(f"{of} {1000 * wall:.1f} ms ({1000 * used:.1f})" for of, (wall, used) in least.items())
        ratios = ", ".join(
            f"{least['run'][0] / wall:.2f} times {of} ({least['run'][1] / used:.2f})"
            for of, (wall, used) in least.items()
            if of != "run"
        )
        print(f"{name}: {text}; run is {ratios}; in brackets what all processors spent")


if __name__ == "__main__":
    main()
