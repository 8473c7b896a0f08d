"""Why no run begins, and reports on standard error."""
import contextlib
import select
import sys

# Statuses, as docs/FORMATS.md has them.
USAGE, CONFIG, DEVICE = 2, 3, 5
NAME = "darbexum-join"


class Refused(Exception):
    """Why no run begins: the status, and a line on standard error."""

    def __init__(self, status: int, line: str) -> None:
        super().__init__(line)
        self.status = status


class Unopened(Exception):
    """A socket that can't be made: what it is for, and the system's error."""

    def __init__(self, what: object, error: OSError) -> None:
        super().__init__(f"{what}: {error.strerror} (os error {error.errno})")


def say(text: str) -> None:
    """Writes a line to standard error, or leaves it out if that is closed or would block: the run goes on."""
    # Its reader may have gone away.
    with contextlib.suppress(OSError):
        if sys.stderr is not None and select.select([], [sys.stderr], [], 0)[1]:
            print(f"{NAME}: {text}", file=sys.stderr, flush=True)
