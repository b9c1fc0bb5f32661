#!/usr/bin/env python3
"""Checks the crate of this folder before what is below it is proved: over the libraries that are built, and over the
sources of the others. A lemma with the body `?` stands by its signature. It proves nothing for the gate.

usage: tools/proving/law.py [--stubs] [FLAG ..]

With --stubs crates of laws that aren't built stand by their statements: their lemmas have no bodies, so that a crate of
many lemmas above them is checked in a minute. Definitions in their proofs' files that have to compute are kept (stub.py
says which). FLAGs are those of `rattle check`, `--only FN` for example. Run give.py first.
"""
from __future__ import annotations

import os
import pathlib
import re
import subprocess
import sys

from kit import KIT, crates_of, rtlib, top_of
from stub import without_bodies

ROOT = "//! A stub.\n#![tactic(auto)]\n"


def is_laws(crate) -> bool:
    return crate.name.endswith("_laws")


def put(path: pathlib.Path, text: str) -> None:
    """Writes the file where it is another one: what was checked of the same file is taken again."""
    path.parent.mkdir(parents=True, exist_ok=True)
    if not path.is_file() or path.read_text(encoding="utf-8") != text:
        path.write_text(text, encoding="utf-8")


def stubbed(text: str) -> str:
    """The file's text without bodies; a file that only names others stays."""
    if re.search(r"^(pub )?mod ", text, re.M):
        return text
    return "\n".join(without_bodies(text.split("\n")))


def make_stub(crate, to: pathlib.Path) -> None:
    """A crate of laws by its statements: no functions, and so no proofs of functions."""
    made = {to / "src/lib.rt"}
    put(to / "src/lib.rt", ROOT)
    for part in ("specs", "proofs"):
        base = pathlib.Path(crate.folder) / part
        for path in base.rglob("*.antt"):
            of_function = part == "proofs" and path.name in ("Answers.antt", "Invariants.antt", "Proof.antt")
            if of_function and path.parent != base:
                continue
            file = to / part / path.relative_to(base)
            text = path.read_text(encoding="utf-8")
            put(file, stubbed(text) if part == "proofs" else text)
            made.add(file)
    for path in to.rglob("*.antt"):
        if path not in made:
            path.unlink()


def sources(crate) -> list:
    """The crates below that aren't built, or stand on one that isn't."""
    found: list = []
    for it in crate.below():
        if not it.is_built() or any(other in found for other in it.below()):
            found.append(it)
    return found


def words_for(crate, read: list, at: pathlib.Path, with_stubs: bool) -> list[str]:
    """What `rattle check` is called with."""
    root = "src/main.rt" if crate.is_program else "src/lib.rt"
    words = ["--crate-name", crate.name, root, "-L", f"dependency={KIT}/rlibs"]
    of_kit = {"core", *crate.of_kit, *(name for it in read for name in it.of_kit)}
    words += [word for name in sorted(of_kit) for word in ("--extern", f"{name}={KIT}/rlibs/{name}.rlib")]
    for it in crate.below():
        if it in read:
            uses = ",".join(dict.fromkeys(["core", *it.of_kit, *(dep.name for dep in it.deps)]))
            folder = at / it.name if with_stubs and is_laws(it) else it.folder
            words += ["--lib", f"{it.name}:{uses}={folder}/src/lib.rt"]
            continue
        if it in crate.deps or any(it in other.deps for other in read):
            words += ["--extern", f"{it.name}={it.rlib}"]
        words += ["-L", f"dependency={os.path.dirname(it.rlib)}"]
    words += ["--antt-project", f"{KIT}/rattle/logic/antt-project.json", "--logic-built", f"{KIT}/logic_built"]
    kept = at / f"kept_{crate.name}" if with_stubs else pathlib.Path(crate.folder) / "out/law"
    kept.mkdir(parents=True, exist_ok=True)
    return [*words, "--links", f"{crate.name}=", "--allow-holes", "--incremental", str(kept)]


def main(flags: list[str]) -> int:
    with_stubs = "--stubs" in flags
    flags = [it for it in flags if it != "--stubs"]
    here = os.getcwd()
    top = top_of(here)
    crate = next(it for it in crates_of(top) if it.folder == here)
    read, at = sources(crate), pathlib.Path(crate.folder) / "out/stubs"
    for it in read if with_stubs else ():
        if is_laws(it):
            make_stub(it, at / it.name)
    print("not built:", *(it.name for it in read), flush=True)
    words = words_for(crate, read, at, with_stubs)
    jobs = [] if "--jobs" in flags else ["--jobs", os.environ.get("JOBS", "1")]
    return subprocess.run([rtlib.RATTLE, "check", *words, *jobs, *flags], cwd=crate.folder, check=False).returncode


if __name__ == "__main__":
    sys.exit(main(sys.argv[1:]))
