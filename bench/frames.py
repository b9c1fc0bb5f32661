#!/usr/bin/env python3
"""Times frames through encoding, a stream and a joiner (crates/frame_bench), beside a plain copy of the same bytes.

usage: bench/frames.py [ROUNDS]        first `rt run` in crates/frame_bench, which proves and builds the program
"""
import pathlib
import subprocess
import sys
import tempfile
import time

TOP = pathlib.Path(__file__).resolve().parent.parent
PROGRAM = TOP / "crates/frame_bench/out/frame_bench"
HEAD = 14  # the bytes of a frame beside its body
FRAMES = 500_000


def seconds(frames: int, size: int) -> float:
    """The time of one run of the program, its start with it."""
    begin = time.perf_counter()
    out = subprocess.run([PROGRAM, str(frames), str(size - HEAD)], capture_output=True, check=True, text=True).stdout
    took = time.perf_counter() - begin
    assert out == f"{frames} frames\n", out
    return took


def rate(size: int, rounds: int, copier: pathlib.Path) -> None:
    """Prints the frames of this size a second, from the least times of so many frames and of none, and their ratio."""
    whole, empty, copy = float("inf"), float("inf"), float("inf")
    for _ in range(rounds):
        whole = min(whole, seconds(FRAMES, size))
        empty = min(empty, seconds(0, size))
        copied = subprocess.run([copier, str(FRAMES), str(size)], capture_output=True, check=True, text=True).stdout
        copy = min(copy, float(copied))
    took = whole - empty
    print(
        f"frames of {size} bytes: {FRAMES / took:,.0f} a second through encode, stream and joiner, "
        f"and {FRAMES / copy:,.0f} plain copies: {took / copy:.1f} times the copy's time"
    )


def main() -> None:
    rounds = int(sys.argv[1]) if len(sys.argv) > 1 else 9
    with tempfile.TemporaryDirectory() as folder:
        copier = pathlib.Path(folder) / "plain_copy"
        subprocess.run(["gcc", "-O2", "-o", copier, TOP / "bench/plain_copy.c"], check=True)
        for size in (28, 1200):
            rate(size, rounds, copier)


if __name__ == "__main__":
    main()
