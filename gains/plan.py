"""What gains become: the cells that are set, and the steps in which a matrix goes there."""
import re
from typing import NamedTuple

from .levels import ALLOWED, gain_of
from .page import Matrix
from .texts import Refused

CELL = re.compile(r"(\d{1,4}):(\d{1,4})=(.+)", re.ASCII)
# The greatest number of steps of a change. A run has at most 64 changes that are still to come.
MOST_STEPS = 63
# The shortest time between two steps, in sampling instants: a millisecond.
SHORTEST_STEP = 48


class Cell(NamedTuple):
    """A gain that is set, from an input to an output, both counted from 0 as in the configuration."""

    output: int
    input: int
    gain: int


class Step(NamedTuple):
    """All gains of a run from a media time on."""

    at: int
    matrix: Matrix


def cell_in(text: str) -> Cell:
    """The cell that OUT:IN=GAIN names. Raises ValueError, with what is allowed, if the text is no such cell."""
    found = CELL.fullmatch(text)
    if not found:
        raise ValueError(f"'{text}' is no OUT:IN=GAIN, as 0:3=-6dB")
    gain = gain_of(found[3])
    if gain is None:
        raise ValueError(f"'{found[3]}' is no gain; allowed are {ALLOWED}")
    return Cell(int(found[1]), int(found[2]), gain)


def with_cells(matrix: Matrix, cells: list[Cell]) -> Matrix:
    """A matrix with these cells. Raises Refused if it has no such cell."""
    found = [list(row) for row in matrix]
    for cell in cells:
        if cell.output >= len(found) or cell.input >= len(found[cell.output]):
            shape = f"{len(found)} outputs and {len(found[0])} inputs"
            raise Refused(f"there is no gain {cell.output}:{cell.input} among {shape}, counted from 0")
        found[cell.output][cell.input] = cell.gain
    return found


def steps_in(instants: int) -> int:
    """The number of steps of a change that takes so long, in sampling instants."""
    return max(1, min(MOST_STEPS, instants // SHORTEST_STEP))


def steps(begin: Matrix, end: Matrix, at: int, instants: int) -> list[Step]:
    """The steps from one matrix to another, the last of which comes so long after `at`. One without a time is at `at`.

    The gains lie on a straight line from step to step, each rounded to a whole number, halves up.
    """
    count = steps_in(instants)
    return [
        Step(
            at + instants * step // count,
            [
                [(first * (count - step) + last * step + count // 2) // count for first, last in zip(before, after)]
                for before, after in zip(begin, end)
            ],
        )
        for step in range(1, count + 1)
    ]
