#!/usr/bin/env python3
"""Times programs by turns on one script: the least and the median of the processor time that each took, and how many
times those of the last program they are. On a busy machine least times and medians part: take some hundred rounds.

usage: bench/turns.py ROUNDS SCRIPT SCHEDULE PROGRAM PROGRAM ..
"""
import os
import pathlib
import statistics
import subprocess
import sys


def processor_time(program: str, script: str, schedule: str) -> float:
    """What one run takes, in milliseconds."""
    with open(script, "rb") as source:
        words = [program, "sim", "--seed", schedule]
        child = subprocess.Popen(words, stdin=source, stdout=subprocess.DEVNULL)
        _, status, usage = os.wait4(child.pid, 0)
        child.returncode = status
    return 1000 * (usage.ru_utime + usage.ru_stime)


def main() -> None:
    if len(sys.argv) < 6 or not sys.argv[1].isdigit():
        sys.exit(__doc__.strip())
    rounds, script, schedule, programs = int(sys.argv[1]), sys.argv[2], sys.argv[3], sys.argv[4:]
    took: dict[str, list[float]] = {it: [] for it in programs}
    for turn in range(rounds):
        for it in programs if turn % 2 else programs[::-1]:
            took[it].append(processor_time(it, script, schedule))
    least, median = min(took[programs[-1]]), statistics.median(took[programs[-1]])
    for it in programs:
        ours, middle = min(took[it]), statistics.median(took[it])
        print(f"{pathlib.Path(it).name}: {ours:.2f} and {middle:.2f} ms, {ours / least:.3f} and {middle / median:.3f} times")


main()
