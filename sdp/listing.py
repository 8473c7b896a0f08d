"""What a listener prints: a line for each event, or a table of the sessions that are known."""
import os
import shutil
from collections import Counter
from collections.abc import Iterable, Iterator
from typing import TextIO

from .sessions import Event, Session
from .summary import Row

HEAD = ("NAME", "GROUP:PORT", "FORMAT", "MS", "CLOCK")
# The most characters of each column but the last one, which has what is left of the line.
WIDTHS = (28, 21, 14, 8)
# Up some lines, and erase all below: ECMA-48.
UP, ERASE = "\x1b[{}F", "\x1b[J"


def event_lines(event: Event) -> Iterator[str]:
    """The lines of an event: one for each stream of a session that is new or has changed, or one for one that is
    gone. The name comes last, since only names have spaces."""
    session = event.session
    known = f"{event.kind} origin {session.origin()} hash {session.hash():04x}"
    name = f"name {session.summary.name}"
    if event.kind == "gone":
        yield f"{known} reason {event.reason} {name}"
        return
    for row in session.summary.rows:
        yield f"{known} at {'+'.join(row.places)} format {row.format} ms {row.ms} clock {row.clock} {name}"


def table_lines(sessions: Iterable[Session], left_out: Counter, columns: int, lines: int) -> list[str]:
    """A table of sessions in the order of their names, of so many lines of so many columns at most."""
    sessions = sorted(sessions, key=lambda session: (session.summary.name.lower(), session.identity))
    cells = [HEAD, *(cell for session in sessions for row in session.summary.rows for cell in row_cells(session, row))]
    widths = [min(most, max(len(row[at]) for row in cells)) for at, most in enumerate(WIDTHS)]
    texts = [row_text(row, widths)[:columns] for row in cells]
    foot = foot_text(len(sessions), left_out)[:columns]
    room = max(lines - 2, 1)
    if len(texts) > room:
        texts[room - 1 :] = [f".. {len(texts) - room + 1} more lines"[:columns]]
    return [*texts, foot]


def row_cells(session: Session, row: Row) -> Iterator[tuple[str, ...]]:
    """The cells of a stream: those of its first network, and below them the places of its others."""
    yield session.summary.name, row.places[0], row.format, row.ms, row.clock
    for place in row.places[1:]:
        yield "", place, "", "", ""


def row_text(cells: tuple[str, ...], widths: list[int]) -> str:
    *first, last = cells
    return "  ".join([*(f"{cell[:width]:{width}}" for cell, width in zip(first, widths)), last]).rstrip()


def foot_text(count: int, left_out: Counter) -> str:
    return "; ".join([f"{count} session{'s' if count != 1 else ''}", *left_out_texts(left_out)])


def left_out_texts(left_out: Counter) -> list[str]:
    return [f"{what} left out: {number}" for what, number in sorted(left_out.items())]


class Lines:
    """Prints a line for each event."""

    def __init__(self, stdout: TextIO) -> None:
        self.stdout = stdout

    def show(self, events: list[Event]) -> None:
        for event in events:
            for line in event_lines(event):
                self.stdout.write(f"{line}\n")
        if events:
            self.stdout.flush()

    def paint(self, sessions: Iterable[Session], left_out: Counter) -> None:
        """Lines have no table to paint."""

    def erase(self) -> None:
        """Lines stay."""


class Table:
    """Paints a table over the last one, in the place where the cursor was."""

    def __init__(self, stdout: TextIO) -> None:
        self.stdout, self.painted = stdout, 0

    def show(self, events: list[Event]) -> None:
        """The next table has what the events change."""

    def paint(self, sessions: Iterable[Session], left_out: Counter) -> None:
        size = shutil.get_terminal_size()
        texts = table_lines(sessions, left_out, size.columns - 1, size.lines)
        up = UP.format(self.painted) if self.painted else ""
        self.stdout.write(up + ERASE + "".join(f"{text}\n" for text in texts))
        self.stdout.flush()
        self.painted = len(texts)

    def erase(self) -> None:
        """Removes the table, so that a line can be written in its place."""
        if self.painted:
            self.stdout.write(UP.format(self.painted) + ERASE)
            self.stdout.flush()
        self.painted = 0


def display_for(stdout: TextIO) -> Lines | Table:
    return Table(stdout) if stdout.isatty() and os.environ.get("TERM") != "dumb" else Lines(stdout)
