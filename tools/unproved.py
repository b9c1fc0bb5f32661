#!/usr/bin/env python3
"""Builds a program with nothing proved: for a first run of `./pico`, and to count and time what a change would cost.

usage: tools/unproved.py OUT [CRATE] [PART=HINT ..]
       tools/unproved.py --code FILE [CRATE]
       tools/unproved.py --of FILE OUT [PART=HINT ..]

`rt try` compiles the program with checks. Here the intermediate code that it would compile is kept, its checks are
taken out, the sources' hints on inlining are put in, and it is optimized as `rt run` optimizes a proved program: OUT
has the instructions of that one within some hundredths. CRATE is the program's, `pico_cmd` where none is named. Further
hints are tried without a change of the sources: PART is a
pattern of a function's name in the intermediate code, as `world_core::state::State::run$`, and HINT one of `always`,
`never` and `cold`. It takes two minutes of a processor. The other forms do the first half, which writes the intermediate
code to FILE, and the second, so that several hints are tried of one FILE.
"""
from __future__ import annotations

import pathlib
import re
import shutil
import signal
import subprocess
import sys
import tempfile

TOP = pathlib.Path(__file__).resolve().parent.parent
TARGET = "x86_64-unknown-linux-gnu"
# as `rt run` has the compiler optimize
FLAGS = """-march=x86-64 -mllvm -no-trap-after-noreturn -ffunction-sections -fdata-sections -mllvm -trap-unreachable
    -mllvm -no-x86-call-frame-opt -mllvm -disable-machine-licm -mllvm -disable-postra-machine-licm
    -mllvm -sink-common-insts=false --no-default-config -no-canonical-prefixes -Wno-override-module -fPIE -O3
    -Xclang -fmerge-functions -mllvm -mergefunc-use-aliases""".split()
COMMON = 'nounwind "probe-stack"="inline-asm" "stack-probe-size"="3072" "target-cpu"="x86-64-v2"'
# by the attribute in a source: the group's number in the intermediate code, and what it says
HINTS = {
    "inline(always)": (101, "alwaysinline"),
    "cold": (103, "cold noinline"),
    "inline(never)": (102, "noinline"),
    "inline": (104, "inlinehint"),
}
WORDS = {"always": "inline(always)", "never": "inline(never)", "cold": "cold"}
ATTRIBUTE = re.compile(r"#\[(inline\(always\)|inline\(never\)|inline|cold)\]")
FUNCTION = re.compile(r"\bfn\s+(\w+)")
IMPL = re.compile(r"\s*(?:unsafe\s+)?impl(?:<(?:[^<>]|<[^<>]*>)*>)?\s+(?:.* for )?(?:\w+::)*(\w+)")
DEFINITION = re.compile(r'(define [^@]*@)("[^"]*"|[\w.$-]+)(\(.*\)) #0( .*)?\{\n')
CHECK = re.compile(
    r'call void (@"rattle-(llvm-checks|try)::|@llvm\.trap\(\)|@llvm\.memset\.p0\.i64\(ptr %r\d+, i8 -86,)'
)


def kit() -> pathlib.Path:
    return pathlib.Path(subprocess.run(["rt", "doc"], capture_output=True, text=True, check=True).stdout.strip()).parent


def kit_that_keeps(real: pathlib.Path, kept: pathlib.Path, made: pathlib.Path) -> None:
    """Makes a kit of links whose compiler keeps the program's intermediate code and then fails, so that no more is
    done."""
    for folder in (made / "bin", made / "toolchain/bin"):
        folder.mkdir(parents=True)
    for it in real.iterdir():
        if it.name not in ("bin", "toolchain"):
            (made / it.name).symlink_to(it)
    (made / "toolchain/lib").symlink_to(real / "toolchain/lib")
    for it in (real / "bin").iterdir():
        # the scripts find the kit by where they stand
        if it.name in ("rt", "rtlib.py"):
            shutil.copy(it, made / "bin" / it.name)
        else:
            (made / "bin" / it.name).symlink_to(it)
    compiler = made / "toolchain/bin/clang"
    compiler.write_text(
        f"""#!/bin/bash
if [ "$(stat -c %s module.bc 2>/dev/null || echo 0)" -gt 200000 ]; then cp module.bc {kept}; exit 1; fi
exec -a "$(basename "$0")" {real}/toolchain/bin/clang "$@"
"""
    )
    compiler.chmod(0o755)
    for name in ("ld.lld", "llvm-ar"):
        (made / "toolchain/bin" / name).symlink_to("clang")
    (made / "toolchain/bin/rattle-x64").symlink_to(real / "toolchain/bin/rattle-x64")


def hints_in(folder: pathlib.Path):
    """The hints of a crate's sources: the function's name, its module, the type that it belongs to, and the hint."""
    for path in sorted(folder.rglob("*.rt")):
        module = [it for it in path.relative_to(folder).with_suffix("").parts if it not in ("lib", "main", "mod")]
        owner, found = "", []
        for line in path.read_text(errors="replace").split("\n"):
            if at := IMPL.match(line):
                owner = at[1]
            elif line.startswith("}"):
                owner = ""
            found += ATTRIBUTE.findall(line)
            if (name := FUNCTION.search(line)) and not line.lstrip().startswith("//"):
                if found:
                    yield name[1], module, owner, min(found, key=list(HINTS).index)
                found = []


def all_hints(real: pathlib.Path) -> dict:
    """The hints of all sources, the kit's too, by crate and function."""
    hints = {}
    for folder in [*(TOP / "crates").iterdir(), *(real / "rattle").iterdir()]:
        if (folder / "src").is_dir():
            for name, module, owner, hint in hints_in(folder / "src"):
                hints.setdefault((folder.name, name), []).append((module, owner, hint))
    return hints


def hint_of(name: str, hints: dict, tried: list) -> str | None:
    """The hint of a function by its name in the intermediate code."""
    for pattern, hint in tried:
        if pattern.search(name):
            return hint
    crate, *between = name.split("::<")[0].split("::")
    function = between.pop() if between else ""
    for module, owner, hint in hints.get((crate, function), []):
        behind = between[len(module) :] if between[: len(module)] == module else None
        if behind is not None and (owner in behind[-1] if behind and owner else not behind and not owner):
            return hint
    return None


def without_checks(text: pathlib.Path, hints: dict, tried: list) -> str:
    """The intermediate code without its checks, and with the hints."""
    lines = []
    for line in text.open():
        if CHECK.search(line):
            continue
        if found := DEFINITION.fullmatch(line):
            hint = hint_of(found[2].strip('"'), hints, tried)
            group = HINTS[hint][0] if hint else 0
            line = f"{found[1]}{found[2]}{found[3]} #{group}{found[4] or ' '}{{\n"
        elif line.startswith("attributes #0 "):
            groups = [(0, ""), *HINTS.values()]
            line = "".join(f"attributes #{number} = {{ {what} {COMMON} }}\n" for number, what in groups)
        elif line.startswith("attributes"):
            line = line.replace("sanitize_address ", "")
        lines.append(line)
    return "".join(lines)


def code_of(crate: str, text: pathlib.Path) -> int:
    """Writes the crate's intermediate code, with its checks."""
    real = kit()
    with tempfile.TemporaryDirectory() as room:
        room = pathlib.Path(room)
        kept = room / "module.bc"
        kit_that_keeps(real, kept, room / "kit")
        tries = [room / "kit/bin/rt", "try", "--", "sim"]
        how = {"stdin": subprocess.DEVNULL, "stdout": subprocess.PIPE, "stderr": subprocess.STDOUT}
        tried_it = subprocess.run(tries, cwd=TOP / "crates" / crate, **how)
        if not kept.is_file():
            said = [
                it for it in tried_it.stdout.decode(errors="replace").split("\n") if it and not it.startswith("run=")
            ]
            killed = "rt try ended before the compiler began and said no reason, as where memory runs out"
            print(*said or [killed], sep="\n", file=sys.stderr)
            return 1
        plain = ["-S", "-emit-llvm", "-Xclang", "-disable-llvm-passes"]
        subprocess.run([*clang(real), kept, *plain, "-o", text], check=True)
    return 0


def clang(real: pathlib.Path) -> list:
    return [real / "toolchain/bin/clang", f"--target={TARGET}", "-x", "ir"]


def build(text: pathlib.Path, out: pathlib.Path, hinted: list[str]) -> int:
    """Builds the program of the intermediate code, with these hints besides those of the sources."""
    real = kit()
    tried = [(re.compile(it.rpartition("=")[0]), WORDS[it.rpartition("=")[2]]) for it in hinted]
    with tempfile.TemporaryDirectory() as room:
        room = pathlib.Path(room)
        unchecked, compiled = room / "module.ll", room / "module.o"
        unchecked.write_text(without_checks(text, all_hints(real), tried))
        subprocess.run([*clang(real), unchecked, "-c", *FLAGS, "-o", compiled], check=True)
        libraries = [real / "c/libos_c.a", real / "c/liblibc_c.a", "-Wl,--gc-sections", "-lm"]
        subprocess.run(["gcc", "-pie", "-o", out, compiled, *libraries], check=True)
    return 0


def are_hints(words: list[str]) -> bool:
    return all(it.rpartition("=")[2] in WORDS for it in words)


def main() -> int:
    # so that what is written aside goes, too, where this run is told to stop
    signal.signal(signal.SIGTERM, lambda *_: sys.exit(143))
    match sys.argv[1:]:
        case ["--code", text, *crate] if len(crate) < 2:
            return code_of(*crate or ["pico_cmd"], pathlib.Path(text).resolve())
        case ["--of", text, out, *hints] if are_hints(hints):
            return build(pathlib.Path(text).resolve(), pathlib.Path(out).resolve(), hints)
        case [out, *words] if not out.startswith("-"):
            crate, hints = ("pico_cmd", words) if not words or "=" in words[0] else (words[0], words[1:])
            if are_hints(hints):
                with tempfile.TemporaryDirectory() as room:
                    text = pathlib.Path(room) / "module.ll"
                    return code_of(crate, text) or build(text, pathlib.Path(out).resolve(), hints)
    print(__doc__.strip())
    return 2


if __name__ == "__main__":
    sys.exit(main())
