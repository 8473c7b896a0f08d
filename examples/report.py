#!/usr/bin/env python3
"""examples/report.py FOLDER [FILE]: prints an example's report, report.txt or another file, as the program has to print
it.

The scripts of examples/, tests/ and gate/ import it: it has the one list of the counts in the line of a merge. A stored
report may lack a count that is 0, so a further count changes only the reports in which it isn't 0.
"""
import os
import sys
from collections.abc import Iterable
from pathlib import Path

BEFORE_PATHS = "arrived taken".split()
AFTER_PATHS = "double unlike off_grid late ahead source got lost restarts".split()


def count_words(paths: Iterable[str] = "ab") -> list[str]:
    """The words of the line of a merge with these paths, in order."""
    return [*BEFORE_PATHS, *(f"from_{path}" for path in paths), *AFTER_PATHS]


def counts_in(line: str) -> dict[str, int]:
    """The words of a line of counts, each with its number."""
    found = line.split()
    return {word: int(number) for word, number in zip(found[2::2], found[3::2])}


def merge_line(stream: int | str, counts: dict[str, int], paths: Iterable[str] = "ab") -> str:
    """The line of a merge. A count that isn't given is 0."""
    return f"merge {stream} " + " ".join(f"{word} {counts.get(word, 0)}" for word in count_words(paths))


def whole(line):
    """A stored line, with each count that it lacks. A line with a word that no count has stays as it is."""
    if not line.startswith("merge "):
        return line
    counts = counts_in(line)
    paths = [word[-1] for word in counts if word.startswith("from_")]
    return merge_line(line.split()[1], counts, paths) if counts.keys() <= set(count_words(paths)) else line


def stored(folder: str | Path, name: str = "report.txt") -> str:
    """The report of an example."""
    with open(os.path.join(folder, name)) as file:
        return "".join(whole(line) + "\n" for line in file.read().splitlines())


if __name__ == "__main__":
    print(stored(*sys.argv[1:]), end="")
