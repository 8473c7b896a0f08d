"""What an SDP file has: lines, in blocks of the session and of each section, and the streams that its sections make."""
from collections import defaultdict
from collections.abc import Callable
from dataclasses import dataclass, field
from typing import TypeVar

from .rules import MAX_REPORTS, OCTETS_A_SAMPLE
from .texts import quoted, say

Value = TypeVar("Value")


@dataclass
class Line:
    """A line `kind=value` of an SDP file. It is used if a key of the configuration comes from it."""

    number: int
    kind: str
    value: str
    is_used: bool = False

    def text(self) -> str:
        return f"{self.kind}={self.value}" if self.kind else self.value

    def attribute(self) -> tuple[str, str]:
        """The name of an attribute, and its value."""
        name, _, value = self.value.partition(":")
        return name.strip().lower(), value.strip()


class LeftOut(Exception):
    """A section that becomes no path: the line that is the reason, and the reason."""

    def __init__(self, line: Line, reason: str) -> None:
        super().__init__(reason)
        self.line = line


class Block:
    """The lines of the session, or of a section, by their kinds and attributes."""

    def __init__(self) -> None:
        self.lines: list[Line] = []
        self.kinds: dict[str, list[Line]] = defaultdict(list)
        self.attributes: dict[str, list[Line]] = defaultdict(list)

    def add(self, line: Line) -> None:
        self.lines.append(line)
        self.kinds[line.kind].append(line)
        if line.kind == "a":
            self.attributes[line.attribute()[0]].append(line)

    def first(self, kind: str) -> Line | None:
        return next(iter(self.kinds.get(kind, [])), None)

    def mid(self) -> str | None:
        """The name of the section for groups, whose line is then used."""
        line = next(iter(self.attributes.get("mid", [])), None)
        if line is None:
            return None
        line.is_used = True
        return line.attribute()[1].strip()


class Reports:
    """The reports on a file, each with the number of a line. Only the first ones are written, and none on a text
    without a name: that is one that was announced, again and again, and nobody here can change it."""

    def __init__(self, name: str) -> None:
        self.name, self.count = name, 0

    def add(self, line: Line, text: str) -> None:
        self.count += 1
        if self.name and self.count <= MAX_REPORTS:
            say(f"{self.name}:{line.number}: {text}")

    def end(self) -> None:
        if self.name and self.count > MAX_REPORTS:
            say(f"{self.name}: {self.count - MAX_REPORTS} more reports are not shown")


@dataclass(frozen=True)
class Format:
    """What the packets of a section are, received or not. A packet time is counted in frames."""

    encoding: str
    rate: int
    channels: int
    frames: int
    pt: int

    def differences(self, other: "Format") -> list[str]:
        return [word for name, word in FORMAT_WORDS.items() if getattr(self, name) != getattr(other, name)]

    def octets(self) -> int:
        return self.channels * self.frames * OCTETS_A_SAMPLE[self.encoding]


# The fields of a format, as reports name them.
FORMAT_WORDS = {
    "encoding": "encoding",
    "rate": "rate",
    "channels": "channels",
    "frames": "packet time",
    "pt": "payload type",
}


@dataclass(frozen=True)
class Clock:
    """A stream's clock: the offset of the media clock, or `None`; and why."""

    offset: int | None
    reason: str


@dataclass
class Section:
    """A section with all that its path and its stream need. `origins` has, for a key, the lines that it comes from."""

    block: Block
    session: Block
    mid: str | None
    format: Format | None = None
    clock: Clock | None = None
    address: str = ""
    port: int = 0
    source: str | None = None
    ssrc: int | None = None
    origins: dict[str, list[Line]] = field(default_factory=dict)
    notes: list[tuple[Line, str]] = field(default_factory=list)

    def line(self) -> Line:
        return self.block.first("m")

    def name(self) -> str:
        own = f"line {self.line().number}"
        return f"{quoted(self.mid)} ({own})" if self.mid is not None else own

    def attributes(self, name: str) -> list[Line]:
        """The lines of an attribute: the section's own ones, or those of the session if it has none."""
        return self.block.attributes.get(name) or self.session.attributes.get(name, [])

    def only(self, name: str, read: Callable[[Line], Value]) -> tuple[Value, Line] | tuple[None, None]:
        """The one value of an attribute with its line, or `None` twice."""
        found = [(read(line), line) for line in self.attributes(name)]
        if not found:
            return None, None
        value, first = found[0]
        for other, line in found[1:]:
            if other != value:
                raise LeftOut(line, f"a={name} has another value in line {first.number}")
        return value, first

    def use(self, key: str, *lines: Line) -> None:
        self.origins.setdefault(key, []).extend(lines)
        for line in lines:
            line.is_used = True

    def note(self, line: Line, text: str) -> None:
        self.notes.append((line, text))


@dataclass
class Stream:
    """A stream of the configuration: its file and session, the sections of its paths, and the comments above it."""

    file_name: str
    session: Block
    sections: list[Section]
    comments: list[str]
