"""What a list shows of an announced text: its name and its streams, and what tells its versions apart."""
import re
from collections.abc import Callable
from typing import NamedTuple, TypeVar

from .model import Block, LeftOut, Section
from .output import NTP_AT_1970
from .reader import SdpFile
from .rules import PATHS
from .sections import address_of, clock_of, packet_frames, rtpmaps
from .texts import Refused, plain
from .writer import in_ms

# The streams of a text that are shown, and the characters of a name, of an owner and of each other value.
MAX_ROWS = 16
MAX_NAME, MAX_OWNER, MAX_VALUE = 64, 256, 48
UNKNOWN = "-"
# A clock that is no PTP clock: the sender's own.
OWN_CLOCK = "sender"
ORIGIN = re.compile(r"(\S+) +(\S+) +(\d{1,20}) +(\S+) +(\S+) +(\S+)", re.ASCII)
STOP = re.compile(r"\d{1,20} +(\d{1,20})", re.ASCII)

Value = TypeVar("Value")


class Row(NamedTuple):
    """A stream: the group and port of each of its networks, the encoding, the packet time, and the clock."""

    places: tuple[str, ...]
    format: str
    ms: str
    clock: str


# What is shown of a text without sections.
NO_STREAM = Row((UNKNOWN,), UNKNOWN, UNKNOWN, UNKNOWN)


class Origin(NamedTuple):
    """The line `o=`: all that stays the same when a session changes, and the version, which rises."""

    owner: str
    version: int


class Summary(NamedTuple):
    """What is known of a text. `ends_at` is when its last session ends, in seconds since 1970, or `None`."""

    name: str
    origin: Origin | None
    ends_at: int | None
    rows: tuple[Row, ...]


def summary_of(text: bytes) -> Summary:
    """The summary of an SDP text. All of its parts are short and printable ASCII. Raises Refused if it is no SDP."""
    file = SdpFile("", text)
    rows = [row_of(members) for members in groups_of(file)[:MAX_ROWS]] or [NO_STREAM]
    name = file.session.first("s")
    title = shown(name.value, MAX_NAME) if name else UNKNOWN
    return Summary(title, origin_in(file.session), end_of(file.session), tuple(rows))


def groups_of(file: SdpFile) -> list[list[Section]]:
    """The sections of a text: those that are copies of one stream together."""
    sections = [Section(block, file.session, block.mid()) for block in file.blocks]
    try:
        return list(file.joined(sections))
    except Refused:
        # Groups that contradict each other are no groups.
        return [[section] for section in sections]


def row_of(members: list[Section]) -> Row:
    first = members[0]
    media, *_ = first.line().value.split() or [UNKNOWN]
    frames = known(packet_frames, first)
    places = tuple(place_of(section) for section in members[: len(PATHS)])
    ms = in_ms(frames).removesuffix(" ms") if frames else UNKNOWN
    return Row(places, format_of(first) if media == "audio" else shown(media), ms, clock_name(first))


def known(find: Callable[[Section], Value], section: Section) -> Value | None:
    """What a function finds in a section, or `None` if the section doesn't say it."""
    try:
        return find(section)
    except LeftOut:
        return None


def place_of(section: Section) -> str:
    """The group of a section, and its port."""
    words = section.line().value.split()
    port = words[1].partition("/")[0] if len(words) > 1 else UNKNOWN
    address = known(address_of, section) or UNKNOWN
    return f"{shown(address)}:{shown(port, 5)}"


def format_of(section: Section) -> str:
    """The encoding, the rate and the channels of the first payload type that has them."""
    found = rtpmaps(section)
    for word in section.line().value.split()[3:]:
        if word.isascii() and word.isdigit() and len(word) <= 3 and int(word) in found:
            encoding, rate, channels, _ = found[int(word)]
            return shown(f"{encoding}/{rate}/{channels}")
    return UNKNOWN


def clock_name(section: Section) -> str:
    """The PTP clock of a section with a media clock, as `ptp=GRANDMASTER:DOMAIN`, or the sender's own."""
    clock = known(clock_of, section)
    if clock is None:
        return UNKNOWN
    if clock.offset is None:
        return OWN_CLOCK
    values = (line.attribute()[1] for line in section.attributes("ts-refclk"))
    reference = next((value for value in values if value.lower().startswith("ptp=")), "")
    _, _, identity = reference[4:].partition(":")
    return shown(f"ptp={(identity.split() or [UNKNOWN])[0]}")


def origin_in(session: Block) -> Origin | None:
    line = session.first("o")
    return origin_of(line.value) if line else None


def origin_in_text(text: bytes) -> Origin | None:
    """The first line `o=` of a text, or of a deletion, which has no other line."""
    return origin_of(value_in_text(text, "o"))


def value_in_text(text: bytes, kind: str) -> str:
    """The value of the first line of a kind, or nothing."""
    lines = (line for line in text.splitlines() if line.startswith(f"{kind}=".encode()))
    return next(lines, b"")[2:].decode("utf-8", "backslashreplace").strip()


def origin_of(value: str) -> Origin | None:
    """The parts of a line `o=`, or `None` if it has others than RFC 4566 names."""
    found = ORIGIN.fullmatch(value.strip()) if len(value) <= MAX_OWNER else None
    if not found:
        return None
    user, number, version, *place = found.groups()
    return Origin(" ".join((user, number, *place)), int(version))


def end_of(session: Block) -> int | None:
    """The end of the last of a session's times, `t=`. A session without an end, or without a time that can be read,
    has none."""
    ends = [STOP.fullmatch(line.value.strip()) for line in session.kinds.get("t", [])]
    stops = [int(found[1]) if found else 0 for found in ends]
    return max(stops) - NTP_AT_1970 if stops and all(stops) else None


def shown(text: str, most: int = MAX_VALUE) -> str:
    """A text of at most so many characters of printable ASCII, without spaces at its ends."""
    return plain(text[:most].strip())[:most] or UNKNOWN
