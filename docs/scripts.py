"""What has to hold of the scripts: their width, and that `pyflakes` finds nothing in them."""
import os
import shutil
import subprocess
import sys
from collections.abc import Iterator
from pathlib import Path

from sources import ROOT

WIDTH = 120
# Folders of what is built, and of git.
LEFT_OUT = {".git", "__pycache__", "bin", "out", "target"}
# The commands that Debian's packages pyflakes3 and python3-pyflakes bring, and Python's own form of the second.
PYFLAKES = ["pyflakes3"], ["pyflakes"], [sys.executable, "-m", "pyflakes"], ["/usr/bin/python3", "-m", "pyflakes"]


def is_script(path: Path) -> bool:
    """Returns true for a file of Python, with the ending or without it."""
    if path.suffix:
        return path.suffix == ".py"
    with open(path, "rb") as file:
        head = file.readline(100)
    return head.startswith(b"#!") and b"python" in head


def scripts() -> list[Path]:
    """The files of Python in the repository."""
    found = []
    for folder, folders, names in os.walk(ROOT):
        folders[:] = sorted(set(folders) - LEFT_OUT)
        found += [path for name in sorted(names) if (path := Path(folder, name)).is_file() and is_script(path)]
    return found


def wide_lines(files: list[Path]) -> Iterator[str]:
    """Lines of scripts over 120 characters. No exception is made: a text can be cut between two of its words."""
    for file in files:
        for number, line in enumerate(file.read_text().splitlines(), 1):
            if len(line) > WIDTH:
                yield f"{file.relative_to(ROOT)}:{number}: {len(line)} characters"


def pyflakes() -> list[str] | None:
    """The words that start `pyflakes`, or `None` if it is not installed."""
    for words in PYFLAKES:
        if shutil.which(words[0]):
            done = subprocess.run([*words, "--version"], capture_output=True, check=False)
            if done.returncode == 0:
                return words
    return None


def differences() -> list[str]:
    """What is to be changed in the scripts, a line each."""
    files = scripts()
    words = pyflakes()
    if words is None:
        print("docs/check: pyflakes is not installed (Debian: python3-pyflakes), so the scripts are not read by it")
        return list(wide_lines(files))
    found = subprocess.run([*words, *files], cwd=ROOT, capture_output=True, text=True, check=False)
    told = (found.stdout + found.stderr).replace(f"{ROOT}/", "").splitlines()
    return [*wide_lines(files), *told]
