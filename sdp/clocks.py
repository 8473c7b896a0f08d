"""The PTP clocks that sections name in `a=ts-refclk` (RFC 7273), and the sections that name different ones."""
import re
from collections import defaultdict
from collections.abc import Iterator
from typing import NamedTuple

from .model import Line, Section, Stream

# The grandmaster has no colon, so that a line is read in linear time.
REFERENCE = re.compile(
    r"ptp=IEEE[\w.-]{1,32}:((?:[0-9A-F]{2}-){7}[0-9A-F]{2})(?::(?:domain-(?:nmbr|name)=)?([!-~]{1,32}))?",
    re.ASCII | re.IGNORECASE,
)
# References that are traceable to International Atomic Time, next to those that end so.
TRACEABLE = {"gps", "gal", "glonass", "ntp=/traceable/"}
# The references of a section that are read, far above any real file, and the clocks of it that a text names.
MOST_REFERENCES, MOST_NAMED = 32, 3


class PtpClock(NamedTuple):
    """A grandmaster, and its domain if it is known."""

    grandmaster: str
    domain: str | None

    def __str__(self) -> str:
        return self.grandmaster if self.domain is None else f"{self.grandmaster}:{self.domain}"

    def may_be(self, other: "PtpClock") -> bool:
        """Returns false if another clock is named by another grandmaster or domain."""
        return self.grandmaster == other.grandmaster and (
            None in (self.domain, other.domain) or self.domain == other.domain
        )


class ClockSection(NamedTuple):
    """A section that names PTP clocks, with the first line that names one."""

    stream: Stream
    section: Section
    line: Line
    clocks: list[PtpClock]

    def place(self) -> str:
        return f"{self.stream.file_name}:{self.section.line().number}"

    def shares(self, other: "ClockSection") -> bool:
        """Returns true if the sections may follow one clock."""
        return any(clock.may_be(each) for clock in self.clocks for each in other.clocks)

    def text(self) -> str:
        more = " or others" if len(self.clocks) > MOST_NAMED else ""
        return " or ".join(map(str, self.clocks[:MOST_NAMED])) + more


def clock_in(line: Line) -> PtpClock | None:
    """The clock of a line `a=ts-refclk:ptp=..`, or `None` for other references."""
    found = REFERENCE.fullmatch(line.attribute()[1])
    if not found:
        return None
    domain = found[2]
    return PtpClock(found[1].upper(), str(int(domain)) if domain and domain.isdigit() else domain)


def clock_sections(streams: list[Stream]) -> Iterator[ClockSection]:
    """The sections of streams that name PTP clocks alone.

    A clock that is traceable to International Atomic Time has its time, whatever its grandmaster is. A section that
    names one differs from no other.
    """
    for stream in streams:
        for section in stream.sections:
            lines = section.attributes("ts-refclk")[:MOST_REFERENCES]
            named = {}
            for line in lines:
                clock = clock_in(line)
                if clock is not None:
                    named.setdefault(clock, line)
            if named and not any(map(is_traceable, lines)):
                yield ClockSection(stream, section, next(iter(named.values())), list(named))


def is_traceable(line: Line) -> bool:
    value = line.attribute()[1].lower()
    return value in TRACEABLE or value.endswith(":traceable")


def other_clocks(streams: list[Stream]) -> list[tuple[ClockSection, str]]:
    """The sections that share no PTP clock with the first that names one, each with a sentence about both."""
    first, *others = list(clock_sections(streams)) or [None]
    return [
        (
            each,
            f"the section of line {each.section.line().number} has the PTP clock {each.text()}, and that of"
            f" {first.place()} has {first.text()}: a run can follow one of them",
        )
        for each in others
        if not each.shares(first)
    ]


def clock_comments(streams: list[Stream]) -> list[str]:
    """Comments on the clocks that sections have, if they differ."""
    if not other_clocks(streams):
        return []
    places = defaultdict(list)
    for each in clock_sections(streams):
        places[each.text()].append(each.place())
    title = "The PTP clocks of these sections (a=ts-refclk) differ, and a run can follow one of them:"
    return [title, *(f"  {clock}: {', '.join(found)}" for clock, found in places.items())]
