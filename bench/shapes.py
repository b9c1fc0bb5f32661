#!/usr/bin/env python3
"""Times `pico sim` side by side on scripts of many shapes, each beside one of the same shape with twice the calls.

usage: bench/shapes.py [ROUNDS]             prints the least times, and their ratio
       bench/shapes.py --script NAME CALLS  writes the script of that shape (a name of SHAPES) with so many calls
       bench/shapes.py --beside PROGRAM [ROUNDS]
                                            prints the least times for 20,000 calls beside those of another program that
                                            takes the same words, run in turn, and how many times theirs ours are
"""
import sys

from sim import block, least, one_process, program, ratio, two_processes


def script(blocks: dict[str, list[str]]) -> bytes:
    """The text of a script of these blocks, by their names."""
    return ("\n".join(line for name, lines in blocks.items() for line in block(name, lines)) + "\n").encode()


def shared(calls: int, makes: list[str], turn: list[str]) -> bytes:
    """Four workers and five things. Each worker goes from one to the next in an order of its own, so they change hands.

    `makes` are the lines that make a thing with its number in $q, and `turn` those of a worker before it goes on."""
    workers, things = 4, "abcde"
    main = [line.replace("$q", f"${q}").replace("q =", f"{q} =") for q in things for line in makes]
    names = [f"w{k}" for k in range(1, workers + 1)]
    turns = (calls - len(main) - 2 * workers - 1) // (workers * len(turn))
    blocks = {"main": main + [f"fork {name}" for name in names]}
    for step, name in enumerate(names, 1):
        # Their steps are different, so no two of them keep going together.
        order = [things[k * step % len(things)] for k in range(turns)]
        blocks[name] = [line.replace("$q", f"${q}") for q in order for line in turn]
    return script(blocks)


def moving_queues(calls: int) -> bytes:
    """Queues with 4,000 bytes of messages. A worker reads and fills one six times, and mostly has it by then."""
    text = "m" * 40
    makes = ["q = msgget private", *([f'msgsnd $q 1 "{text}" nowait'] * 100)]
    return shared(calls, makes, ["msgrcv $q 0 64 nowait", f'msgsnd $q 1 "{text}" nowait'] * 6)


def moving_sets(calls: int) -> bytes:
    """Sets of 64 semaphores, one of which a worker lowers six times, and raises it again in the same calls."""
    return shared(calls, ["q = semget private 64", "semctl $q setval 0 9"], ["semop $q 0:-1:nowait 0:1"] * 6)


def tree(calls: int) -> bytes:
    """Thirty-two processes, five forks deep. Each forks up to two, and asks for their ends until it has them.

    Those without children make calls of their own meanwhile, and the others ask about as often."""
    processes = 32
    parents = processes // 2
    own = 2 * (calls - 2 * processes) // (2 * (processes - parents) + 5 * parents)
    blocks = {}
    for k in range(1, processes + 1):
        children = [child for child in (2 * k, 2 * k + 1) if child <= processes]
        # The second child ends soon after the first.
        asks = [f"try {times} waitpid any nohang" for times in (2 * own, own // 2)]
        blocks[f"p{k}"] = [f"fork p{child}" for child in children] + asks[: len(children)] or ["getpid"] * own
    return script(blocks)


def keys(calls: int) -> bytes:
    """Queues by their keys, all at once: a third as many as the calls. Each is made, found by another, and removed."""
    count = (calls - 3) // 3
    numbers = range(1, count + 1)
    key = [0] + [i * 2654435761 % 2**32 for i in numbers]  # scattered, and all different
    main = [f"msgget {key[i]} create" for i in numbers]
    main += ["fork other"] + [f"msgctl {i} rmid" for i in numbers if i % 2 == 0]
    # The other one asks for all of them. Of the odd ones, which it removes itself, it finds each.
    other = [line for i in numbers for line in ([f"msgget {key[i]}"] + ([f"msgctl {i} rmid"] if i % 2 else []))]
    return script({"main": main, "other": other})


def signals(calls: int) -> bytes:
    """Thirty-two processes that send signals to each other, hold some back, and count what they caught."""
    processes = 32
    actions = ["sigaction USR1 catch", "sigaction USR2 catch"]
    fixed = len(actions) + (processes - 1) + processes
    rounds = (calls - fixed) // (processes * 6)
    blocks = {}
    for k in range(1, processes + 1):
        # Process 1 forks all others, so their numbers are 2 to 32. A child has its parent's actions.
        lines = actions + [f"fork p{c}" for c in range(2, processes + 1)] if k == 1 else []
        for turn in range(1, rounds + 1):
            first, second = ((k - 1 + turn * step) % processes + 1 for step in (1, 7))
            lines += ["sigprocmask block USR2", f"kill {first} USR1", f"kill {second} USR2", "sigpending"]
            lines += ["sigprocmask unblock USR2", "handled USR1"]
        blocks[f"p{k}"] = lines
    return script(blocks)


def one_queue(calls: int) -> bytes:
    """Thirty-two processes that send to one queue and receive, each of a type of its own."""
    processes = 32
    rounds = (calls - 3 * processes) // (2 * processes)
    text = "m" * 24
    blocks = {}
    for k in range(1, processes + 1):
        lines = ["q = msgget private"] + [f"fork p{c}" for c in range(2, processes + 1)] if k == 1 else []
        blocks[f"p{k}"] = lines + [f'msgsnd $q {k} "{text}" nowait', f"msgrcv $q {k} 64 nowait"] * rounds
    return script(blocks)


def own_queues(calls: int) -> bytes:
    """Thirty-two processes that send and receive, each on a queue of its own."""
    processes = 32
    rounds = (calls - 3 * processes) // (2 * processes)
    text = "m" * 24
    blocks = {}
    for k in range(1, processes + 1):
        lines = [f"fork p{c}" for c in range(2, processes + 1)] if k == 1 else []
        lines += ["q = msgget private"]
        blocks[f"p{k}"] = lines + [f'msgsnd $q {k} "{text}" nowait', f"msgrcv $q {k} 64 nowait"] * rounds
    return script(blocks)


def typed(calls: int) -> bytes:
    """A queue of 1,000 messages, each of a type of its own; one is received by its type and sent again."""
    count = 1000
    lines = ["q = msgget private"] + [f'msgsnd $q {k} "abc" nowait' for k in range(1, count + 1)]
    for k in range((calls - len(lines) - 1) // 2):
        kind = k * 617 % count + 1
        lines += [f"msgrcv $q {kind} 16 nowait", f'msgsnd $q {kind} "abc" nowait']
    return script({"main": lines})


def lowest(calls: int) -> bytes:
    """A queue of 1,000 messages, the lowest type last; the one of the lowest type is received and sent again."""
    count = 1000
    lines = ["q = msgget private"] + [f'msgsnd $q {k} "abc" nowait' for k in range(count, 0, -1)]
    lines += [f"msgrcv $q -{count} 16 nowait", 'msgsnd $q 1 "abc" nowait'] * ((calls - len(lines) - 1) // 2)
    return script({"main": lines})


def operations(calls: int) -> bytes:
    """Three operations a call on 64 semaphores, up in one call and down in the next."""
    lines = ["s = semget private 64"]
    for k in range((calls - 2) // 2):
        a, b, c = k % 64, (k + 21) % 64, (k + 42) % 64
        lines += [f"semop $s {a}:2 {b}:1 {c}:3", f"semop $s {c}:-3:nowait {a}:-2:nowait {b}:-1:nowait"]
    return script({"main": lines})


def ping_pong(calls: int) -> bytes:
    """Two processes that send to each other by turns. Each waits for what the other one sends."""
    rounds = (calls - 5) // 4
    main = ["q = msgget private", "r = msgget private", "fork other"]
    main += ['msgsnd $q 1 "ping"', "msgrcv $r 0 64"] * rounds
    return script({"main": main, "other": ["msgrcv $q 0 64", 'msgsnd $r 1 "pong"'] * rounds})


def pool(calls: int) -> bytes:
    """Thirty-one workers that wait at one queue for work, and one process that sends it and waits for what comes of it."""
    workers = 31
    rounds = (calls - 2 - 2 * workers - 1) // (4 * workers)
    work = ['msgsnd $q 1 "work"'] * workers + ["msgrcv $r 0 64"] * workers
    main = ["q = msgget private", "r = msgget private"] + [f"fork w{k}" for k in range(1, workers + 1)] + work * rounds
    blocks = {"main": main}
    for k in range(1, workers + 1):
        blocks[f"w{k}"] = ["msgrcv $q 0 64", f'msgsnd $r {k} "done"'] * rounds
    return script(blocks)


def awaited(calls: int) -> bytes:
    """A process that sends to a queue and receives from it, while thirty-one others wait there for what never comes. At
    its end it removes the queue, which wakes all of them."""
    workers = 31
    names = [f"w{k}" for k in range(1, workers + 1)]
    pairs = ['msgsnd $q 1 "ping"', "msgrcv $q 1 64"] * ((calls - 3 - 3 * workers) // 2)
    main = ["q = msgget private", *(f"fork {name}" for name in names), *pairs, "msgctl $q rmid"]
    return script({"main": main} | {name: ["msgrcv $q 9 64"] for name in names})


def barrier(calls: int) -> bytes:
    """Thirty-two processes that go on together, round by round. A semaphore counts those who are still to come."""
    processes = 32
    rounds = (calls - 2 * processes - 2) // (2 * processes + 1)
    blocks = {}
    for k in range(1, processes + 1):
        lines = []
        for turn in range(rounds):
            now, before = turn % 3, (turn + 2) % 3
            lines += [f"semop $s {now}:-1", f"semop $s {now}:0"]
            # All have left the barrier before this one, and come to it again two rounds later.
            lines += [f"semop $s {before}:{processes}"] if k == 1 and turn > 0 else []
        starts = ["s = semget private 3", f"semctl $s setall {processes},{processes},{processes}"]
        blocks[f"p{k}"] = (starts + [f"fork p{c}" for c in range(2, processes + 1)] if k == 1 else []) + lines
    return script(blocks)


SHAPES = {
    "one-process": one_process,
    "two-processes": two_processes,
    "one-queue": one_queue,
    "own-queues": own_queues,
    "typed": typed,
    "lowest": lowest,
    "operations": operations,
    "moving-queues": moving_queues,
    "moving-sets": moving_sets,
    "tree": tree,
    "keys": keys,
    "signals": signals,
    "ping-pong": ping_pong,
    "pool": pool,
    "awaited": awaited,
    "barrier": barrier,
}


def beside(other: str, rounds: int) -> None:
    """Prints the least times of both programs on each shape, and how many times theirs ours are."""
    for name, shape in SHAPES.items():
        text = shape(20000)
        for seed in ("0", "1"):
            ours, theirs = least([(program(), text), (other, text)], seed, rounds)
            print(f"{name}, schedule {seed}: {ours * 1000:.1f} ms and {theirs * 1000:.1f} ms, {ours / theirs:.2f} times")


def main() -> None:
    if sys.argv[1:2] == ["--script"]:
        sys.stdout.buffer.write(SHAPES[sys.argv[2]](int(sys.argv[3])))
        return
    if sys.argv[1:2] == ["--beside"]:
        beside(sys.argv[2], int(sys.argv[3]) if len(sys.argv) > 3 else 9)
        return
    rounds = int(sys.argv[1]) if len(sys.argv) > 1 else 9
    for name, shape in SHAPES.items():
        for seed in ("0", "1"):
            ratio(name, shape, seed, rounds)


if __name__ == "__main__":
    main()
