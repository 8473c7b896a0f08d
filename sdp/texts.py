"""What is done with any text: tests of it, its form in a report, and the reports on standard error."""
import ipaddress
import re
import sys
from collections.abc import Callable

from .rules import QUOTED, REFUSED

IPV4 = re.compile(r"(?:(?:0|[1-9]\d{0,2})\.){3}(?:0|[1-9]\d{0,2})", re.ASCII)


class Refused(Exception):
    """An input that yields nothing: what is wrong, and the exit status."""

    def __init__(self, text: str, status: int = REFUSED) -> None:
        super().__init__(text)
        self.status = status


def escaped(text: str, is_kept: Callable[[str], bool]) -> str:
    if text.isascii() and text.isprintable():
        return text
    return "".join(each if is_kept(each) else each.encode("unicode_escape").decode() for each in text)


def printable(text: str) -> str:
    """A text without control characters, for a comment or a name."""
    return escaped(text, str.isprintable)


def plain(text: str) -> str:
    """A text of printable ASCII alone, for a terminal of any encoding."""
    if text.isascii() and text.isprintable():
        return text
    return escaped(text, lambda each: " " <= each <= "~")


def quoted(text: str) -> str:
    return f"'{text}'" if len(text) <= QUOTED else f"'{text[:QUOTED]}..'"


def is_number(text: str, digits: int) -> bool:
    """Returns true if a text has decimal digits alone, and so many at most."""
    return 0 < len(text) <= digits and text.isascii() and text.isdigit()


def is_ipv4(text: str) -> bool:
    if not IPV4.fullmatch(text):
        return False
    try:
        ipaddress.IPv4Address(text)
    except ValueError:
        return False
    return True


def reason_of(fault: Exception) -> str:
    return getattr(fault, "strerror", None) or str(fault)


def say(text: str) -> None:
    # A standard stream that was closed is None, and print would take standard output in its place.
    if sys.stderr is not None:
        print(f"darbexum-sdp: {plain(text)}", file=sys.stderr)
