"""Copies of crates, with what their checks kept, in which a script may try what it likes."""
import os
import shutil
import subprocess
import sys
from pathlib import Path

sys.path.insert(0, str(Path(__file__).resolve().parent.parent / "docs"))
import sources


def link(old: str, new: str) -> None:
    """Links a file that nobody changes in place, or copies it to another file system."""
    try:
        os.link(old, new)
    except OSError:
        shutil.copy2(old, new)


def copy(folder: Path, names: list[str], has_kept: bool = True) -> list[str]:
    """Copies these crates and those below them with what their checks kept, unless that is not wanted, and returns the
    folders that no check kept.

    Edits are not copied."""
    needed = [name for name in sources.crates() if any(name in sources.below(it) for it in names)]
    wanted = [name for name in sources.crates() if name in {*names, *needed}]
    for name in wanted:
        left_out = shutil.ignore_patterns("out", "must-fail")
        shutil.copytree(sources.ROOT / "crates" / name, folder / "crates" / name, ignore=left_out)
    # A crate's proofs are thousands of files: only those that the tries begin with are linked.
    kept = [f"crates/{name}/out/incremental" for name in names] + [f"crates/{name}/out/rlib" for name in needed]
    missing = [place for place in kept if not (sources.ROOT / place).is_dir()]
    for place in kept:
        if has_kept and place not in missing:
            shutil.copytree(sources.ROOT / place, folder / place, copy_function=link)
    folder.mkdir(parents=True, exist_ok=True)
    lines = [f"{sources.heading(name)}: {' '.join(sources.dependencies()[name])}\n" for name in wanted]
    (folder / "crates.txt").write_text("".join(lines))
    shutil.copy(sources.ROOT / "HANDLES", folder)
    # An older toolchain's rt ci wants a repository.
    subprocess.run(["git", "init", "-q", folder], check=True)
    return missing
