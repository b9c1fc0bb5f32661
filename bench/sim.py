#!/usr/bin/env python3
"""Times `pico sim` side by side on scripts and on scripts of twice their calls, and on the host's own System V queue.

usage: bench/sim.py [ROUNDS]
"""
import functools
import pathlib
import subprocess
import sys
import tempfile
import time

TOP = pathlib.Path(__file__).resolve().parent.parent
TEXT = "m" * 56
PAIR = [f'msgsnd $q 1 "{TEXT}" nowait', "msgrcv $q 0 64 nowait"]


@functools.lru_cache(maxsize=None)
def program() -> str:
    """The program that `./pico` runs, or that PICO names. Standard error says where it isn't proved."""
    return subprocess.run([TOP / "tools/programs.py"], stdout=subprocess.PIPE, check=True, text=True).stdout.strip()


def block(name: str, lines: list[str]) -> list[str]:
    return [f"proc {name}", *lines, "end"]


def one_process(calls: int) -> bytes:
    """A new queue, sends and receives in turn, and the exit: so many calls."""
    lines = ["q = msgget private", *(PAIR * ((calls - 2) // 2))]
    return ("\n".join(block("main", lines)) + "\n").encode()


def two_processes(calls: int) -> bytes:
    """Two processes that send and receive in turn on one queue, with half of the calls each."""
    half = calls // 2
    first = ["q = msgget private", "fork other", *(PAIR * ((half - 3) // 2))]
    other = PAIR * ((half - 1) // 2)
    return ("\n".join(block("main", first) + block("other", other)) + "\n").encode()


def seconds(of: str, text: bytes, seed: str) -> float:
    start = time.perf_counter()
    subprocess.run([of, "sim", "--seed", seed], input=text, stdout=subprocess.DEVNULL, check=True)
    return time.perf_counter() - start


def least(runs: list[tuple[str, bytes]], seed: str, rounds: int) -> list[float]:
    """The least time of each of these programs on its script, run in turn."""
    times = [[seconds(of, text, seed) for of, text in runs] for _ in range(rounds)]
    return [min(column) for column in zip(*times)]


def ratio(what: str, script, seed: str, rounds: int) -> float:
    """Prints the least times for 10,000 and 20,000 calls, and their ratio; gives the second."""
    one, two = least([(program(), script(10000)), (program(), script(20000))], seed, rounds)
    print(f"{what}, schedule {seed}: {one * 1000:.1f} ms and {two * 1000:.1f} ms, ratio {two / one:.2f}")
    return two


def host(pairs: int, rounds: int) -> float:
    """The least time of as many sends and receives on the host's own queue."""
    with tempfile.TemporaryDirectory() as folder:
        program = pathlib.Path(folder) / "host_queue"
        subprocess.run(["gcc", "-O2", "-o", program, TOP / "bench/host_queue.c"], check=True)
        return min(float(subprocess.run([program, str(pairs)], capture_output=True, check=True).stdout) for _ in range(rounds))


def main() -> None:
    rounds = int(sys.argv[1]) if len(sys.argv) > 1 else 9
    whole = ratio("one process", one_process, "0", rounds)
    for seed in ("0", "1"):
        ratio("two processes", two_processes, seed, rounds)
    pairs = 9999
    native = host(pairs, rounds)
    print(
        f"{2 * pairs / whole:.0f} calls a second in pico, its reading and writing with them, and {2 * pairs / native:.0f} on the host's queue: "
        f"{whole / native:.2f} times the host's time"
    )


if __name__ == "__main__":
    main()
