"""The count lines that a run with --stats writes to standard error, by docs/FORMATS.md: each with all of its words."""
from collections.abc import Sequence
from typing import NamedTuple

from .checks import Wrong, require

# The words of each line behind its time. Those of a stream depend on its paths.
LEFT, DRIFT = ["seconds"], ["ppm", "astray", "repeating"]
SOCKET = ["faults", "ended", "dropped", "unexpected", "too_long", "held_up"]
RUN = ["failed_a", "failed_b", "stale", "incomplete", "sent_late", "left_out"]
RUN += ["record", "recorded", "wav", "wav_blocks", "pcm", "pcm_blocks", "pcm_left_out"]
FATES = ["double", "unlike", "off_grid", "late", "ahead", "source", "got", "lost", "restarts"]
# Sampling instants in a second, and the values of a path and of a stream with packets in fewer than ten seconds.
RATE = 48_000
NO_DRIFT, NONE_LEFT = {"ppm": "-", "astray": "0", "repeating": "0"}, {"seconds": "-"}


class Interval(NamedTuple):
    """What is said at an interval: the clock reading, and the values of each line by its first word, as `socket=0b`."""

    time: int
    lines: dict[str, dict[str, str]]


def shape(paths: Sequence[int]) -> list[tuple[str, list[str]]]:
    """Returns the first word of each line of an interval and its words, in order, for streams of so many paths."""
    lines = []
    for stream, count in enumerate(paths):
        letters = "abcd"[:count]
        firsts = [f"from_{letter}" for letter in letters]
        lines += [(f"stream={stream}", ["arrived", "taken", *firsts, *FATES]), (f"left={stream}", LEFT)]
        for letter in letters:
            lines += [(f"drift={stream}{letter}", DRIFT), (f"socket={stream}{letter}", SOCKET)]
    return [*lines, ("run", RUN)]


def values_in(line: str, first: str, words: Sequence[str]) -> dict[str, str]:
    """Returns the values of a line. Raises Wrong if it does not begin so, or has other words."""
    found, *rest = line.split(" ")
    pairs = [word.partition("=")[::2] for word in rest]
    names = [name for name, _ in pairs]
    require(f"a count line of {first}", (found, names) == (first, ["time", *words]), line)
    return dict(pairs)


def intervals(text: str, paths: Sequence[int], is_whole: bool = True) -> list[Interval]:
    """Returns what the count lines of a run with streams of so many paths say at each interval of one second.

    The text has nothing else. Raises Wrong if a line is missing, is out of order or has other words, or if the lines of
    an interval come before its time. Lines of a run that goes on may be cut anywhere: then `is_whole` is false."""
    wanted, lines = shape(paths), text.split("\n")
    cut = lines.pop()
    if is_whole:
        require("count lines that are cut", cut == "" and len(lines) % len(wanted) == 0, text[-600:])
    found = []
    for place in range(0, len(lines) - len(wanted) + 1, len(wanted)):
        own = lines[place : place + len(wanted)]
        values = {first: values_in(line, first, words) for line, (first, words) in zip(own, wanted)}
        times = {int(own.pop("time")) for own in values.values()}
        if len(times) != 1 or min(times) < RATE * (len(found) + 1):
            raise Wrong(f"the times {times} of interval {len(found) + 1}")
        found.append(Interval(times.pop(), values))
    return found


def rises(found: Sequence[Interval], first: str, word: str) -> bool:
    """Returns true if a number never falls from one interval to the next."""
    numbers = [int(interval.lines[first][word]) for interval in found]
    return numbers == sorted(numbers)
