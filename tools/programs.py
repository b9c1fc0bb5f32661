#!/usr/bin/env python3
"""The programs that `./pico` runs, each kept beside what its sources were when its build began: `pico`, and the one
that says why `pico` refused what it was given. Beside them two that tests run: one that runs scripts under gates, and one that
appends to a journal.

Of each a proved program and an unproved one are kept in folders of out/pico and out/pico_explain. One of them is run
only where the sources are the very files that it was built of, none changed, gone or new: by their sizes and times, and
where these differ by their contents. A build is made aside. It takes its place only where it succeeded and no source
was touched meanwhile, so a build that fails leaves nothing that could be run in the place of what it failed to make.
"""
from __future__ import annotations

import contextlib
import fcntl
import hashlib
import json
import os
import shutil
import signal
import subprocess
import sys
import time

# what of a crate its program is made of
PARTS = ("src", "specs", "proofs")
# the crates of the programs; the variables that name another program; and the words of the run behind a proof
PICO, EXPLAIN, GATES, JOURNAL = "pico_cmd", "pico_explain", "gate_bench", "journal_bench"
FOLDERS = {PICO: "pico", EXPLAIN: "pico_explain", GATES: "gate_bench", JOURNAL: "journal_bench"}
VARIABLES = {PICO: "PICO", EXPLAIN: "PICO_EXPLAIN", GATES: "GATE_BENCH", JOURNAL: "JOURNAL_BENCH"}
HELLO = "examples/hello.pico"
TRIED = {PICO: (["sim"], HELLO), EXPLAIN: ([], None), GATES: (["open"], HELLO), JOURNAL: (["1", "1"], None)}
# how often a build is begun again where a source is touched while it goes on
BUILDS = 3
# the lines of a build's log that are shown where it fails
SHOWN = 20


class Failure(Exception):
    """There is no program to run; the text says why."""


def tell(text: str) -> None:
    """Writes to standard error. Where that fails, nothing else is harmed."""
    with contextlib.suppress(OSError):
        os.write(2, text.encode("utf-8", "replace"))


def prove_all(top: str) -> None:
    """Proves both programs and all that they stand on, builds them, and keeps them."""
    both = [Programs(top, crate) for crate in (PICO, EXPLAIN)]
    if all(it.proved_of(it.sources()) for it in both):
        say("the program is proved already")
        return
    began = time.monotonic()
    for it in both:
        it.prove()
    say(f"proved and built in {so_long(time.monotonic() - began)}; from now on it is this program that runs")


def say(line: str) -> None:
    tell(f"pico: {line}\n")


def crates_below(top: str, crate: str) -> list[str]:
    """The repository's crates that a program's crate stands on, each after those that it uses, and its own last: as rt
    builds them."""
    uses, found = {}, []
    with open(f"{top}/crates.txt", encoding="utf-8") as lines:
        for line in lines:
            head, colon, below = line.partition("#")[0].partition(":")
            if colon and head.split():
                uses[head.split()[0]] = below.split()

    def visit(name):
        if name in uses and name not in found:
            for below in uses[name]:
                visit(below)
            found.append(name)

    visit(crate)
    return found


def walk(folder: str):
    """The files in a folder and below it."""
    with contextlib.suppress(FileNotFoundError), os.scandir(folder) as entries:
        for entry in entries:
            if entry.is_dir(follow_symlinks=False):
                yield from walk(entry.path)
            else:
                yield entry


def sources(top: str, crate: str = PICO) -> dict[str, list[int]]:
    """The files that a program is made of, each with its size and the times of its last change and last touch."""
    found = {}
    for name in ("crates.txt", "HANDLES"):
        with contextlib.suppress(FileNotFoundError):
            at = os.stat(f"{top}/{name}")
            found[name] = [at.st_size, at.st_mtime_ns, at.st_ctime_ns]
    for name in crates_below(top, crate):
        for part in PARTS:
            for entry in walk(f"{top}/crates/{name}/{part}"):
                at = entry.stat()
                found[entry.path[len(top) + 1 :]] = [at.st_size, at.st_mtime_ns, at.st_ctime_ns]
    return found


def sum_of(top: str, files) -> str:
    """A sum of the names and contents of files."""
    whole = hashlib.sha256()
    for name in sorted(files):
        with open(f"{top}/{name}", "rb") as file:
            whole.update(f"{name}\n{hashlib.sha256(file.read()).hexdigest()}\n".encode())
    return whole.hexdigest()


def kit() -> str:
    """The line of the kit that is on the path, if there is one."""
    with contextlib.suppress(OSError):
        ran = subprocess.run(["rt", "version"], stdout=subprocess.PIPE, stderr=subprocess.DEVNULL)
        return ran.stdout.decode(errors="replace").strip()
    return ""


class Kept:
    """A folder that keeps one program, and the record of what it was made of."""

    def __init__(self, top: str, folder: str) -> None:
        self.top, self.folder = top, f"{top}/out/{folder}"

    def record(self) -> dict | None:
        """The record, where it stands there whole with its program."""
        try:
            with open(f"{self.folder}/record.json", encoding="utf-8") as file:
                record = json.load(file)
            program = f"{self.folder}/{record['program']}"
            return record if os.access(program, os.X_OK) and os.path.getsize(program) == record["size"] else None
        except (OSError, ValueError, KeyError, TypeError):
            return None

    def program(self, files: dict[str, list[int]]) -> str | None:
        """The program, where it was made of these files as they are now."""
        record = self.record()
        if record is None or record["files"].keys() != files.keys():
            return None
        if record["files"] != files:
            # touched, as by a checkout of what was there before: the contents tell
            try:
                if sum_of(self.top, files) != record["sum"]:
                    return None
            except OSError:
                return None
            with contextlib.suppress(OSError):
                self.write({**record, "files": files})
        return f"{self.folder}/{record['program']}"

    def keep(self, made: str, files: dict[str, list[int]], of: str) -> str:
        """Puts a program that was built of these files in place. A name of its own keeps it apart from the last one, so
        that no other run meets a record beside a program that isn't its own."""
        os.makedirs(self.folder, exist_ok=True)
        name = f"pico-{of[:16]}"
        shutil.copyfile(made, f"{self.folder}/{name}.new")
        os.chmod(f"{self.folder}/{name}.new", 0o755)
        os.replace(f"{self.folder}/{name}.new", f"{self.folder}/{name}")
        size = os.path.getsize(f"{self.folder}/{name}")
        self.write({"program": name, "size": size, "sum": of, "kit": kit(), "made": int(time.time()), "files": files})
        for other in os.listdir(self.folder):
            if other not in (name, "lock", "record.json"):
                os.remove(f"{self.folder}/{other}")
        return f"{self.folder}/{name}"

    def write(self, record: dict) -> None:
        with open(f"{self.folder}/record.json.{os.getpid()}", "w", encoding="utf-8") as file:
            json.dump(record, file)
        os.replace(f"{self.folder}/record.json.{os.getpid()}", f"{self.folder}/record.json")


@contextlib.contextmanager
def in_turn(folder: str):
    """Waits while another run builds the same."""
    os.makedirs(folder, exist_ok=True)
    with open(f"{folder}/lock", "w") as lock:
        try:
            fcntl.flock(lock, fcntl.LOCK_EX | fcntl.LOCK_NB)
        except BlockingIOError:
            say("another run builds the same program; waiting for it")
            fcntl.flock(lock, fcntl.LOCK_EX)
        yield


class Progress:
    """Says on standard error how far a build is: on a terminal in one line that is written anew, else in a line
    whenever what is said has changed, and each five minutes."""

    def __init__(self) -> None:
        self.began, self.last, self.told, self.is_terminal = time.monotonic(), "", 0.0, os.isatty(2)

    def show(self, what: str) -> None:
        passed = time.monotonic() - self.began
        if self.is_terminal:
            tell(f"\rpico: {what}, {so_long(passed)} so far\033[K")
        elif what != self.last or passed - self.told >= 300:
            say(f"{what}, {so_long(passed)} so far")
            self.last, self.told = what, passed

    def end(self) -> None:
        if self.is_terminal:
            tell("\r\033[K")


def so_long(seconds: float) -> str:
    minutes = int(seconds) // 60
    return f"{minutes} min {int(seconds) % 60} s" if minutes else f"{int(seconds)} s"


def run_build(words: list[str], folder: str, log: str, what, given: str = os.devnull) -> int:
    """Runs a build in a folder to its end, with all that it says in a log, and gives its status. `what` says meanwhile
    how far it is. Where this run is told to stop, so is the build."""
    progress = Progress()
    os.makedirs(os.path.dirname(log), exist_ok=True)
    with open(log, "wb") as said, open(given, "rb") as source:
        how = {"cwd": folder, "stdin": source, "stdout": said, "stderr": subprocess.STDOUT, "start_new_session": True}
        build = subprocess.Popen(words, **how)
        try:
            while True:
                progress.show(what())
                with contextlib.suppress(subprocess.TimeoutExpired):
                    return build.wait(timeout=1)
        except BaseException:
            with contextlib.suppress(ProcessLookupError):
                os.killpg(build.pid, signal.SIGTERM)
            build.wait()
            raise
        finally:
            progress.end()


def refuse(what: str, log: str, top: str) -> None:
    """Shows the end of a build's log, and says where it is."""
    with open(log, encoding="utf-8", errors="replace") as lines:
        tell("".join(f"{line}\n" for line in lines.read().splitlines()[-SHOWN:]))
    raise Failure(f"{what}: all that was said is in {os.path.relpath(log, top)}")


class Programs:
    """One of the programs of one checkout, proved and not."""

    def __init__(self, top: str, crate: str = PICO) -> None:
        self.top, self.crate, folder = top, crate, FOLDERS[crate]
        self.proved, self.unproved = Kept(top, f"{folder}/proved"), Kept(top, f"{folder}/unproved")
        self.log, self.failed = f"{top}/out/{folder}/proof.log", f"{top}/out/{folder}/failed.json"

    def sources(self) -> dict[str, list[int]]:
        return sources(self.top, self.crate)

    def named(self) -> str | None:
        """The program that its variable names."""
        variable = VARIABLES[self.crate]
        name = os.environ.get(variable)
        if name and not os.access(name, os.X_OK):
            raise Failure(f"{variable} names {name}, and that is no program")
        return os.path.abspath(name) if name else None

    def to_run(self) -> str:
        """The program to run: the one that is named, or the proved one of these sources, or else the unproved one,
        which is built first where it isn't there; then a line says that `pico` isn't proved."""
        named = self.named()
        if named:
            return named
        files = self.sources()
        proved = self.proved_of(files)
        if proved:
            return proved
        unproved = self.unproved.program(files) or self.build(self.unproved, self.make_unproved)
        if self.crate == PICO:
            say(self.not_proved(files))
        return unproved

    def not_proved(self, files: dict[str, list[int]]) -> str:
        """The line for a run of the unproved program."""
        if self.has_failed(files):
            return "nothing is proved: its proof failed (out/pico/proof.log), and ./pico --prove tries it again"
        where = "of these sources" if self.proved.record() else "on this machine"
        return f"nothing is proved {where} yet: ./pico --prove proves this program and all that it stands on"

    def proved_or_fail(self) -> str:
        """The program that is named, or the proved one of these sources."""
        program = self.named() or self.proved_of(self.sources())
        if not program:
            other = f"{VARIABLES[self.crate]}= names another"
            raise Failure(f"there is no proved program of these sources: ./pico --prove makes it, and {other}")
        return program

    def proved_of(self, files: dict[str, list[int]]) -> str | None:
        """The proved program of these files: the one that is kept, or else the one that `rt ci` left."""
        kept = self.proved.program(files)
        if kept or not self.gate_made(files):
            return kept
        with in_turn(self.proved.folder):
            return self.proved.keep(self.made(), files, sum_of(self.top, files))

    def made(self) -> str:
        """Where `rt` leaves the program."""
        return f"{self.top}/crates/{self.crate}/out/{self.crate}"

    def gate_made(self, files: dict[str, list[int]]) -> bool:
        """Whether `rt ci` left a program, and it is of these files.

        It removes the crates' folders out/ as it begins, makes each anew when it comes to that crate, and leaves the
        program as both compilers built it, with no stamp beside it. So the program is of these files where each of
        them, and each folder of theirs, was last touched before the run began and before its crate's out/ was made.
        """
        made = self.made()
        if not all(os.path.isfile(it) for it in (made, f"{made}.by-rattle")) or os.path.exists(f"{made}.stamp"):
            return False
        try:
            with open(f"{self.top}/.git/rt-ci.lock", "rb") as lock:
                fcntl.flock(lock, fcntl.LOCK_EX | fcntl.LOCK_NB)
                began = os.fstat(lock.fileno()).st_mtime_ns
            for crate in crates_below(self.top, self.crate):
                folder = f"{self.top}/crates/{crate}"
                first = min(began, os.stat(folder).st_mtime_ns)
                if any(touched >= first for part in PARTS for touched in folders_touched(f"{folder}/{part}")):
                    return False
                if any(times[2] >= first for name, times in files.items() if name.startswith(f"crates/{crate}/")):
                    return False
            return all(files[name][2] < began for name in ("crates.txt", "HANDLES") if name in files)
        except (OSError, BlockingIOError):
            return False

    def prove(self) -> None:
        """Proves the program and all that it stands on, builds it, and keeps it."""
        if not self.proved_of(self.sources()):
            self.build(self.proved, self.make_proved)

    def build(self, kept: Kept, make) -> str:
        """Builds a program by `make` and keeps it; anew where a source was touched meanwhile."""
        if not shutil.which("rt"):
            raise Failure("there is no rt on the path: README.md says what a build needs")
        with in_turn(kept.folder):
            for _ in range(BUILDS):
                files = self.sources()
                there = kept.program(files)
                if there:
                    return there
                of = sum_of(self.top, files)
                made = make(files)
                if self.sources() == files:
                    return kept.keep(made, files, of)
                say("a source was touched while the program was built: it is built once more")
        raise Failure(f"a source was touched in each of {BUILDS} builds, so the program was not built")

    def make_unproved(self, files: dict[str, list[int]]) -> str:
        log, made = f"{os.path.dirname(self.log)}/unproved.log", f"{self.unproved.folder}/new"
        words = [sys.executable, f"{self.top}/tools/unproved.py", made, self.crate]
        what = "the program" if self.crate == PICO else "what explains refusals"
        if run_build(words, self.top, log, lambda: f"building {what}, once, with nothing proved") != 0:
            refuse(f"{what} was not built", log, self.top)
        return made

    def make_proved(self, files: dict[str, list[int]]) -> str:
        crates = crates_below(self.top, self.crate)
        # once it is built it runs on this; a status 0 comes from there alone
        words, given = TRIED[self.crate]
        given = f"{self.top}/{given}" if given else os.devnull
        at = lambda: "proving {}, crate {} of {}".format(*self.at_work(crates))
        with contextlib.suppress(FileNotFoundError):
            os.remove(self.failed)
        if run_build(["rt", "run", "--", *words], f"{self.top}/crates/{self.crate}", self.log, at, given) != 0:
            with open(self.failed, "w", encoding="utf-8") as file:
                json.dump(files, file)
            refuse("the program was not proved", self.log, self.top)
        return self.made()

    def at_work(self, crates: list[str]) -> tuple[str, int, int]:
        """The crate that is being proved: the first, in the order in which rt builds them, with no whole library."""
        for number, crate in enumerate(crates[:-1], 1):
            if not os.path.exists(f"{self.top}/crates/{crate}/out/rlib/stamp"):
                return crate, number, len(crates)
        return crates[-1], len(crates), len(crates)

    def has_failed(self, files: dict[str, list[int]]) -> bool:
        """Whether the last proof of these very files failed."""
        with contextlib.suppress(OSError, ValueError):
            with open(self.failed, encoding="utf-8") as file:
                return json.load(file) == files
        return False


def folders_touched(folder: str):
    """When each folder in a folder, and it itself, last had a file put in, taken out or renamed."""
    for at, _, _ in os.walk(folder):
        yield os.stat(at).st_ctime_ns


def main(words: list[str]) -> int:
    """Prints the path of the program that `./pico` runs, or where its crate is named of the one that explains refusals or
    one that tests run; with --proved in front of the proved one, or else of the one that is named."""
    is_proved = words[:1] == ["--proved"]
    crate = words[-1] if words[is_proved:] in ([EXPLAIN], [GATES], [JOURNAL]) else PICO
    here = Programs(os.path.dirname(os.path.dirname(os.path.realpath(__file__))), crate)
    try:
        print(here.proved_or_fail() if is_proved else here.to_run())
    except Failure as why:
        say(str(why))
        return 70
    return 0


if __name__ == "__main__":
    sys.exit(main(sys.argv[1:]))
