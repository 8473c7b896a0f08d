"""The reports on standard error, and the errors that end the command."""
import sys

# The exit statuses. argparse ends with 2.
REFUSED, DEVICE = 1, 5


class Refused(Exception):
    """What was asked for is not done: why, and the exit status."""

    def __init__(self, text: str, status: int = REFUSED) -> None:
        super().__init__(text)
        self.exit_status = status


def say(text: str) -> None:
    # A standard stream that was closed is None, and print would take standard output in its place.
    if sys.stderr is not None:
        print(f"darbexum-gains: {text}", file=sys.stderr)
