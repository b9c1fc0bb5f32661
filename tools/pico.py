"""`./pico`: runs the program pico, the proved one where it is there, else one that is built first with nothing proved.

What the program writes and its exit status stay as they are. Besides it takes a file in the place of standard input,
answers --help and --version, and says on standard error what was wrong with what the program refused: what is said is
that of a program of its own, `pico_explain`.

Exit status: the program's own (0 to 8, see README.md), or 70 where there is no program to run.
"""
from __future__ import annotations

import contextlib
import os
import signal
import stat
import subprocess
import sys
import tempfile
import time

TOOLS = os.path.dirname(os.path.realpath(__file__))
TOP = os.path.dirname(TOOLS)
sys.path.insert(0, TOOLS)

import programs  # noqa: E402
from given import READS, is_in_order, mode_of, with_file  # noqa: E402

BAD_SCRIPT, USAGE, READ_FAULT, NOT_LEGAL, BAD_IMAGE, NO_PROGRAM = 1, 2, 4, 7, 8, 70
# the script ./pico hands standard input on by this number
GIVEN = 3
HELP = """\
pico runs a script of processes and writes a trace: every call in one order, its reply, and who carried it out.

  ./pico run [--steps] [FILE]               runs a script with a thread for each of its processes, and writes its trace
  ./pico sim [--seed N] [--steps] [FILE]    runs a script by one schedule, one event at a time, and writes its trace
  ./pico check [FILE]                       judges a script, a line `trace` and a trace: whether a single kernel could
                                            have given that trace to the script's processes
  ./pico gen [--seed N] [--steps]           runs the generated script of number N with threads, and writes the totals
  ./pico mq [--steps] [FILE]                runs a script of POSIX message queues as `run` does, and writes its trace
  ./pico boxes [FILE]                       runs the scripts of several sandboxes at once, each as `run` does, and writes
                                            for each its name and its trace
  ./pico freeze [--seed N] [FILE]           runs a script for N events, each node in its turn, and writes an image: the
                                            script and these events
  ./pico thaw [FILE]                        takes an image up again, to its end, and writes the trace, as `sim` does

  FILE       what is read; standard input where it is left out
  --seed N   the number of the schedule, of the generated script or of events, from 0 to 2147483646; 0 where it is left
             out
  --steps    the events of the run are written behind the rest

  ./pico --prove      proves the program and all that it stands on, and builds it: once, see README.md for what it costs
  ./pico --version    which sources, which program and which kit this is
  ./pico --help       this page
  tools/view TRACE    makes a picture of a trace: a page for a browser, or lanes in the terminal with --text

A first script: examples/hello.pico. Scripts: docs/script.md. Traces: docs/trace.md. What each call does:
docs/kernel.md. Exit statuses and what is promised: README.md.
"""


def version() -> str:
    """Which sources, which program and which kit this is. It builds nothing."""
    here, commit = programs.Programs(TOP), ""
    with contextlib.suppress(OSError):
        words = ["git", "-C", TOP, "describe", "--always", "--dirty"]
        git = subprocess.run(words, stdout=subprocess.PIPE, stderr=subprocess.DEVNULL)
        commit = git.stdout.decode(errors="replace").strip()
    kept = here.proved if here.proved_of(programs.sources(TOP)) else None
    record = kept.record() if kept else None
    if record:
        made = time.strftime("%Y-%m-%d", time.localtime(record["made"]))
        proved = f"proved with {record['kit'] or 'an unknown kit'}, built on {made}"
    else:
        proved = "not proved on this machine: ./pico --prove proves it"
    lines = (
        "pico" + (f", commit {commit}" if commit else ""),
        f"the program: {proved}",
        f"the kit: {programs.kit() or 'none is on the path'}",
    )
    return "\n".join(lines) + "\n"


class Input:
    """What the program reads, kept so that it can be read again where the program refuses it."""

    def __init__(self, limit: int) -> None:
        self.limit, self.source, self.start, self.copy = limit, GIVEN, 0, None
        # whether it can be read again
        self.is_kept = False

    def open(self, file: str) -> None:
        self.source, self.is_kept = os.open(file, os.O_RDONLY), True

    def take(self) -> None:
        """Of a pipe or a terminal as much is copied as the program would read; a file is read again where it was."""
        try:
            if stat.S_ISREG(os.fstat(GIVEN).st_mode):
                self.start, self.is_kept = os.lseek(GIVEN, 0, os.SEEK_CUR), True
            elif not stat.S_ISDIR(os.fstat(GIVEN).st_mode):
                self.copy = tempfile.TemporaryFile()
                self.copy.write(read_up_to(GIVEN, self.limit + 1))
                self.copy.seek(0)
                self.source, self.is_kept = self.copy.fileno(), True
        except OSError:
            # the program meets the same fault, and tells it by its status
            self.source, self.is_kept = GIVEN, False

    def again(self) -> bytes:
        """What the program has read, or a little more."""
        os.lseek(self.source, self.start, os.SEEK_SET)
        return read_up_to(self.source, self.limit + 1)


def read_up_to(source: int, most: int) -> bytes:
    pieces, size = [], 0
    while size < most:
        piece = os.read(source, min(1 << 20, most - size))
        if not piece:
            break
        pieces.append(piece)
        size += len(piece)
    return b"".join(pieces)


def run(words: list[str], source: int) -> int:
    """Runs the program to its end, and gives its status. An interrupt is the program's to take."""
    signal.signal(signal.SIGINT, lambda *_: None)
    try:
        os.fstat(source)
        process = subprocess.Popen(words, stdin=source)
    except OSError:
        # it was closed, and so it is for the program
        process = subprocess.Popen(words, preexec_fn=lambda: os.close(0))
    signal.signal(signal.SIGTERM, lambda *_: process.terminate())
    status = process.wait()
    return status if status >= 0 else 128 - status


def explain(program: str, words: list[str], given: Input, status: int) -> None:
    """Says on standard error why the program refused what it was given. It answers the same bytes alike, so it is asked
    once more for the line that it wrote. Where there is no program that explains, nothing is said."""
    if status != USAGE and not given.is_kept:
        return
    try:
        explainer = programs.Programs(TOP, programs.EXPLAIN).to_run()
    except (programs.Failure, OSError):
        return
    data = b"" if status == USAGE else given.again()
    how = {"input": data, "stdout": subprocess.PIPE, "stderr": subprocess.DEVNULL}
    asked = [it for it in words if it != "--steps" or status == USAGE]
    line = subprocess.run([program, *asked], **how).stdout.partition(b"\n")[0]
    told = subprocess.run([explainer, line, *map(as_text, words)], **how)
    programs.tell(told.stdout.decode("ascii", "replace"))


def as_text(word: str) -> str:
    """A word with each byte that is no text spelled."""
    return word.encode("utf-8", "surrogateescape").decode("utf-8", "backslashreplace")


def hold_what_is_closed() -> None:
    """Takes the number of each standard stream that was closed, so that no file is opened by it here. The program meets
    the stream closed: what is opened here isn't handed on."""
    for number in range(3):
        try:
            os.fstat(number)
        except OSError:
            os.open(os.devnull, os.O_RDWR)


def main(words: list[str]) -> int:
    if "--help" in words or "-h" in words:
        print(HELP, end="")
        return 0
    if words == ["--version"]:
        print(version(), end="")
        return 0
    try:
        here = programs.Programs(TOP)
        if words == ["--prove"]:
            programs.prove_all(TOP)
            return 0
        program = here.to_run()
    except programs.Failure as why:
        programs.say(str(why))
        return NO_PROGRAM
    except OSError as error:
        programs.say(f"there is no program to run: {error}")
        return NO_PROGRAM
    return run_program(program, words)


def run_program(program: str, given: list[str]) -> int:
    words, file = with_file(given)
    if file is not None and not (os.path.exists(file) and is_in_order(words)):
        # no file, so a word too many
        words, file = given, None
    mode = mode_of(words)
    source = Input(READS.get(mode, 0))
    if file is not None:
        try:
            source.open(file)
        except OSError as error:
            programs.say(f"{file} can't be read: {error.strerror}")
            return READ_FAULT
    elif mode in READS and is_in_order(words):
        source.take()
    status = run([program, *words], source.source)
    if status in (BAD_SCRIPT, USAGE, NOT_LEGAL, BAD_IMAGE):
        try:
            explain(program, words, source, status)
        except Exception as error:
            # the program's status stands, whatever becomes of what is said besides
            programs.say(f"what is wrong can't be shown ({type(error).__name__}: {error})")
    return status


if __name__ == "__main__":
    signal.signal(signal.SIGTERM, lambda *_: sys.exit(143))
    hold_what_is_closed()
    try:
        sys.exit(main(sys.argv[1:]))
    except KeyboardInterrupt:
        sys.exit(130)
