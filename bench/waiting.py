#!/usr/bin/env python3
"""Writes a script in which one process makes calls on a queue or a set at which others wait, to count instructions with.

usage: bench/waiting.py KIND WAITERS CALLS

KIND is queue, where they wait for a type that never comes, set, where they wait for a value that never comes, and wake,
where they wait for a semaphore to be 0: behind half of the CALLS it is, they are woken by one call, and wait again.
"""
import sys

from shapes import script


def queue(names: list[str], calls: int) -> bytes:
    pairs = ['msgsnd $q 1 "ping"', "msgrcv $q 1 64"] * (calls // 2)
    main = ["q = msgget private", *(f"fork {name}" for name in names), *pairs, "msgctl $q rmid"]
    return script({"main": main} | {name: ["msgrcv $q 9 64"] for name in names})


def set_of(names: list[str], calls: int) -> bytes:
    pairs = ["semop $s 0:1", "semop $s 0:-1"] * (calls // 2)
    main = ["s = semget private 2", *(f"fork {name}" for name in names), *pairs, "semctl $s rmid"]
    return script({"main": main} | {name: ["semop $s 1:-1"] for name in names})


def wake(names: list[str], calls: int) -> bytes:
    looks = ["semctl $s getval 0"] * (calls // 2)
    main = ["s = semget private 3", "semctl $s setval 1 1", *(f"fork {name}" for name in names)]
    main += [*looks, "semctl $s setval 1 0", *looks, "semctl $s rmid"]
    return script({"main": main} | {name: ["semop $s 1:0", "semop $s 2:-1"] for name in names})


KINDS = {"queue": queue, "set": set_of, "wake": wake}


def main() -> None:
    if len(sys.argv) != 4 or sys.argv[1] not in KINDS:
        sys.exit(__doc__.strip())
    names = [f"w{number}" for number in range(1, int(sys.argv[2]) + 1)]
    sys.stdout.buffer.write(KINDS[sys.argv[1]](names, int(sys.argv[3])))


main()
