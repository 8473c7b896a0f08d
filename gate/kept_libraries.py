"""The libraries that `rt ci` kept on this machine, and checks of some functions over them.

`rt ci` keeps each crate that it proved, by the checksums of all that it read, as a library of its statements. Over
these a check of a function is a matter of seconds, where `rt check` proves all crates below it first. No verdict rests
on such a check: it is for what is tried and measured. The toolchain has no command for it, so this takes what its `rt`
is made of; a toolchain whose `rt` is made otherwise has none of it here.
"""
import functools
import importlib.machinery
import importlib.util
import os
import shutil
import sys
from pathlib import Path


@functools.cache
def load():
    """The toolchain's `rt` as a module. A signal's handler is set with it, which only the main thread may do."""
    loader = importlib.machinery.SourceFileLoader("rt", os.path.realpath(shutil.which("rt") or "rt"))
    rt = importlib.util.module_from_spec(importlib.util.spec_from_loader("rt", loader))
    sys.modules["rt"] = rt
    loader.exec_module(rt)
    # The crates above a library load its statements alone, as in `rt ci`.
    rt.Crate.cuts_libraries = rt.rtlib.Crate.cuts_libraries = True
    rt.rtlib.guarded()
    return rt


def toolchain(top: Path):
    """The toolchain's `rt` as a module, and the crates of a tree by their names."""
    rt = load()
    rt.Crate.allowed = rt.rtlib.Crate.allowed = rt.handles_of(str(top))
    return rt, {crate.name: crate for crate in rt.crates_of(str(top))}


def lay(top: Path, name: str) -> list[str]:
    """Lays the kept libraries below a crate where a check of it in this tree finds them. Returns those that are
    lacking: the crate itself where the toolchain keeps none."""
    lacking = []
    try:
        rt, crates = toolchain(top)
        kept = rt.Kept(list(crates.values()))
        for crate in crates[name].below():
            if any(it.name in lacking for it in crate.below()) or not given(rt, kept, crate):
                lacking.append(crate.name)
        return lacking
    except (OSError, AttributeError, KeyError, TypeError, SystemExit):
        return [name]


def given(rt, kept, crate) -> bool:
    """Gives a crate the library that was kept of its very texts over the libraries below it, and notes it."""
    rt.clear(f"{crate.folder}/out/rlib")
    os.makedirs(f"{crate.folder}/out", exist_ok=True)
    if not kept.give(crate, False, kept.key(crate)):
        return False
    kept.is_built(crate)
    return True


def is_proved(top: Path, name: str) -> bool:
    """Whether `rt ci` proved the crate of a tree in which its libraries were laid: it keeps what such a proof made."""
    rt, crates = toolchain(top)
    kept, crate = rt.Kept(list(crates.values())), crates[name]
    for below in crate.below():
        kept.is_built(below)
    return os.path.isdir(kept.place(crate, False, kept.key(crate)))


def words(top: Path, name: str, flags: list[str]) -> list[str]:
    """The command that checks a crate of a tree in which its libraries were laid, in the crate's folder."""
    rt, crates = toolchain(top)
    return [*rt.rtlib.guarded(), rt.rtlib.RATTLE, "check", *crates[name].words(flags, keeps=False)]
