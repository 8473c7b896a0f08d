"""What a test expects, and what it says of what differs or is missing."""
import shutil
import subprocess
import sys
import time
from collections.abc import Callable, Collection, Iterable
from pathlib import Path

# The characters that a line shows of what was found, and of a text that says why.
SHOWN, TOLD = 600, 1_500


class Wrong(Exception):
    """What differs."""


class Skipped(Exception):
    """What is missing for a part of a test."""


def difference(what: str, found: object, wanted: object) -> str:
    return f"{what}: {str(found)[:SHOWN]}, not {str(wanted)[:SHOWN]}"


def expect(what: str, found: object, wanted: object) -> None:
    """Raises Wrong if something else was found than is wanted."""
    if found != wanted:
        raise Wrong(difference(what, found, wanted))


def require(what: str, holds: object, found: object) -> None:
    """Raises Wrong with what was found if a condition does not hold."""
    if not holds:
        raise Wrong(f"{what}: {str(found)[:TOLD]}")


class Differences(list[str]):
    """What differs so far, in a test that goes on behind it."""

    def expect(self, what: str, found: object, wanted: object) -> None:
        """Adds a line if something else was found than is wanted."""
        if found != wanted:
            self.append(difference(what, found, wanted))


def need(*tools: str) -> None:
    """Raises Skipped if one of these commands is missing."""
    for tool in tools:
        if not shutil.which(tool):
            raise Skipped(f"{tool} is missing")


def parts_named(parts: Iterable[Callable[..., object]], names: Collection[str]) -> list[Callable[..., object]]:
    """Returns the parts of a test that have one of these names, or all without a name. A name of no part ends the
    script, since nothing would be tested."""
    if unknown := set(names) - {part.__name__ for part in parts}:
        sys.exit(f"{sys.argv[0]}: no part {', '.join(sorted(unknown))}")
    return [part for part in parts if not names or part.__name__ in names]


def run_parts(script: str, parts: Iterable[Callable[..., object]], folder: Path | str) -> int:
    """Runs parts of a test in a folder, prints what differs or is missing in each, and returns the script's status."""
    count, failed, begin = 0, 0, time.monotonic()
    for part in parts:
        count += 1
        try:
            part(folder)
        except Skipped as skipped:
            print(f"{script}: {part.__name__}: skipped: {skipped}")
        except (Wrong, subprocess.TimeoutExpired, OSError) as wrong:
            failed += 1
            print(f"{script}: {part.__name__}: {wrong}")
    print(f"{script}: {count} parts, {failed} failed, in {time.monotonic() - begin:.0f} s")
    return 1 if failed or not count else 0
