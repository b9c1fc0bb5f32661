#!/usr/bin/env python3
"""Times `pico check` on traces of 1 and of 8 million bytes, with the most memory that it takes, and on five kinds of
traces: of long texts, of short lines, of 32 processes, of operations on semaphores and of short messages.

usage: bench/check.py [ROUNDS] [OTHER]
       bench/check.py --kind KIND FILE

OTHER is another program with the mode `check`, which is measured beside it. The second form writes the script and the
trace of a kind (long, short, processes, semaphores or messages) into a file, to count instructions with.
"""
import os
import pathlib
import subprocess
import sys
import tempfile
import time

from sim import program

VALUES = ",".join(["32767"] * 64)


def checked(size: int) -> tuple[bytes, int]:
    """A script that reads a whole set again and again, with its trace of about so many bytes; and the trace's size."""
    line = f"1 semctl 1 getall = all {VALUES} by 1"
    reads = size // (len(line) + 1)
    script = ["proc main", "s = semget private 64", f"semctl $s setall {VALUES}"]
    script += ["semctl $s getall"] * reads + ["end", "trace"]
    trace = ["1 semget private 64 = 1 by 1", f"1 semctl 1 setall {VALUES} = 0 by 1", *([line] * reads)]
    trace += ["1 exit 0 = ended by 1", f"totals entries {reads + 3} processes 1 notready 0 refused 0"]
    text = "\n".join(trace) + "\n"
    return ("\n".join(script) + "\n" + text).encode(), len(text)


def text_of(size: int, seed: int) -> str:
    """Bytes that stand for themselves between quotes, no two texts the same."""
    letters = "".join(chr(it) for it in range(32, 127) if chr(it) not in '"\\')
    return "".join(letters[(seed * 7 + at * at + at) % len(letters)] for at in range(size))


def alone(made: list[tuple[str, str, str]]) -> tuple[list[str], list[str]]:
    """The script and the trace of one process that makes these calls: each as the script has it, as the trace has it,
    and its reply."""
    script = ["proc main", *(call for call, _, _ in made), "end"]
    trace = [f"1 {call} = {reply} by 1" for _, call, reply in made] + ["1 exit 0 = ended by 1"]
    return script, [*trace, f"totals entries {len(trace)} processes 1 notready 0 refused 0"]


def messages(count: int, size: int) -> tuple[list[str], list[str]]:
    """Messages of so many bytes, each sent and then received."""
    made = [("q = msgget private", "msgget private", "1")]
    for at in range(count):
        text = text_of(size, at)
        made.append((f'msgsnd $q 1 "{text}" nowait', f'msgsnd 1 1 "{text}" nowait', "0"))
        made.append(("msgrcv $q 0 8192 nowait", "msgrcv 1 0 8192 nowait", f'1 "{text}"'))
    return alone(made)


def semaphores(count: int) -> tuple[list[str], list[str]]:
    """Operations on three semaphores at a time, and back."""
    made = [("s = semget private 8", "semget private 8", "1")]
    for _ in range(count):
        for steps in ("0:1:nowait 1:2:nowait 2:1:nowait", "0:-1:nowait 1:-2:nowait 2:-1:nowait"):
            made.append((f"semop $s {steps}", f"semop 1 {steps}", "0"))
    return alone(made)


def processes(calls: int) -> tuple[list[str], list[str]]:
    """The first process forks 31 others, each of which asks so often for its number."""
    others = range(2, 33)
    script = ["proc main", *(f"fork p{pid}" for pid in others), "end"]
    trace = [f"1 fork p{pid} = {pid} by 1" for pid in others]
    for pid in others:
        script += [f"proc p{pid}", *["getpid"] * calls, "end"]
    # in turn, so that each line is of another process than the one before it
    trace += [f"{pid} getpid = {pid} by {pid}" for _ in range(calls) for pid in others]
    trace += [f"{pid} exit 0 = ended by {pid}" for pid in [*others, 1]]
    return script, [*trace, f"totals entries {len(trace)} processes 32 notready 0 refused 0"]


KINDS = {
    "long": lambda: messages(125, 4000),
    "short": lambda: alone([("getpid", "getpid", "1")] * 8000),
    "processes": lambda: processes(500),
    "semaphores": lambda: semaphores(1500),
    "messages": lambda: messages(2000, 20),
}


def of_kind(kind: str) -> tuple[bytes, int]:
    """The script and the trace of a kind, and the trace's size."""
    script, trace = KINDS[kind]()
    text = "\n".join(trace) + "\n"
    return ("\n".join([*script, "trace"]) + "\n" + text).encode(), len(text)


def measure(of: str, path: str) -> tuple[float, int]:
    """The time in seconds and the most memory in bytes, at least this process's own of about 10 million."""
    with open(path, "rb") as source:
        start = time.perf_counter()
        child = subprocess.Popen([of, "check"], stdin=source, stdout=subprocess.PIPE)
        answer = child.stdout.read()
        _, status, usage = os.wait4(child.pid, 0)
        took = time.perf_counter() - start
    if status != 0 or not answer.startswith(b"legal entries "):
        sys.exit(f"{of}: status {status}, {answer!r}")
    return took, usage.ru_maxrss * 1024


def report(of: str, rounds: int, path: str, traced: int) -> None:
    runs = [measure(of, path) for _ in range(rounds)]
    took, memory = min(run[0] for run in runs), max(run[1] for run in runs)
    print(f"{pathlib.Path(of).name}: {traced} bytes in {took * 1000:.1f} ms, {traced / took / 1e6:.0f} MB/s, "
          f"{memory / 1e6:.1f} MB, {memory / traced:.1f} times the trace")


def main() -> None:
    if sys.argv[1:2] == ["--kind"]:
        text, traced = of_kind(sys.argv[2])
        pathlib.Path(sys.argv[3]).write_bytes(text)
        print(traced)
        return
    if sys.argv[1:2] == ["--write"]:
        # A process of its own makes the text, so that the one that measures stays small.
        text, traced = checked(int(sys.argv[2]))
        pathlib.Path(sys.argv[3]).write_bytes(text)
        print(traced)
        return
    rounds = int(sys.argv[1]) if len(sys.argv) > 1 else 5
    programs = [program(), *sys.argv[2:3]]
    with tempfile.NamedTemporaryFile() as file:
        for size in (1_000_000, 8_000_000):
            words = [sys.executable, __file__, "--write", str(size), file.name]
            traced = int(subprocess.run(words, stdout=subprocess.PIPE, check=True).stdout)
            for of in programs:
                report(of, rounds, file.name, traced)
        for kind in KINDS:
            words = [sys.executable, __file__, "--kind", kind, file.name]
            traced = int(subprocess.run(words, stdout=subprocess.PIPE, check=True).stdout)
            print(f"{kind}:")
            for of in programs:
                report(of, rounds, file.name, traced)


main()
