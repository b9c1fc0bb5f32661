"""The kit's own scripts as modules. A crate's libraries below are looked up once: a high crate has so many paths to them
that the kit's own walk takes minutes."""
from __future__ import annotations

import importlib.machinery
import importlib.util
import pathlib
import subprocess
import sys

KIT = pathlib.Path(subprocess.run(["rt", "doc"], capture_output=True, text=True, check=True).stdout.strip()).parent
sys.path.insert(0, str(KIT / "bin"))


def loaded(name: str, path: pathlib.Path):
    """The script as a module, which isn't run."""
    loader = importlib.machinery.SourceFileLoader(name, str(path))
    module = importlib.util.module_from_spec(importlib.util.spec_from_loader(name, loader))
    sys.modules[name] = module
    loader.exec_module(module)
    return module


rt = loaded("rt_script", KIT / "bin/rt")
rtlib = rt.rtlib
found: dict[str, list] = {}


def below(crate) -> list:
    """The repository's libraries below the crate, each after those that it uses."""
    if crate.folder not in found:
        each: dict[str, object] = {}
        for dep in crate.deps:
            each.update((it.folder, it) for it in [*below(dep), dep])
        found[crate.folder] = list(each.values())
    return found[crate.folder]


rtlib.Crate.below = below


def crates_of(top: str) -> list:
    """The crates of a repository. Its handles are part of what names a kept proof."""
    rt.Crate.allowed = rt.handles_of(top)
    return rt.crates_of(top)


def top_of(folder: str) -> str:
    """The top of the repository that the folder lies in."""
    return next(str(it) for it in pathlib.Path(folder).resolve().parents if (it / "crates.txt").is_file())
