#!/usr/bin/env python3
"""Times appends to one journal by 1, 2 and 4 threads, side by side with a vector under the host's own mutex.

usage: bench/journal.py [ROUNDS [APPENDS]]
"""
import pathlib
import subprocess
import sys
import tempfile

TOP = pathlib.Path(__file__).resolve().parent.parent
PROGRAM = TOP / "crates/journal_bench/out/journal_bench"


def seconds(program: pathlib.Path, threads: int, appends: int) -> float:
    done = subprocess.run([program, str(threads), str(appends)], capture_output=True, check=True)
    return float(done.stdout.split()[0])


def main() -> None:
    rounds = int(sys.argv[1]) if len(sys.argv) > 1 else 9
    appends = int(sys.argv[2]) if len(sys.argv) > 2 else 100000
    with tempfile.TemporaryDirectory() as folder:
        host = pathlib.Path(folder) / "host_journal"
        subprocess.run(["gcc", "-O2", "-pthread", "-o", host, TOP / "bench/host_journal.c"], check=True)
        for threads in (1, 2, 4):
            times = [(seconds(PROGRAM, threads, appends), seconds(host, threads, appends)) for _ in range(rounds)]
            ours, theirs = (min(column) for column in zip(*times))
            print(
                f"{threads} threads: {threads * appends / ours:.0f} appends a second, and {threads * appends / theirs:.0f} "
                f"under the host's mutex: {ours / theirs:.2f} times the host's time"
            )


if __name__ == "__main__":
    main()
