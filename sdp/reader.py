"""Reads the text of an SDP file (RFC 4566): the session, its sections, and the streams that these make."""
import ipaddress
from collections import defaultdict
from collections.abc import Iterator
from typing import NoReturn

from . import rules
from .clocks import other_clocks
from .model import Block, LeftOut, Line, Reports, Section, Stream
from .rules import MAX_SDP_OCTETS, MAX_SECTIONS, MAX_STREAMS, PATHS
from .sections import describe, receive
from .texts import Refused, quoted

# Where a path is received: an address, a port, and the one address from which it is sent.
Place = tuple[str, int, str | None]


class SdpFile:
    """A file that was read, and cut into the session and its sections."""

    def __init__(self, name: str, octets: bytes) -> None:
        self.name, self.reports, self.session = name, Reports(name), Block()
        self.blocks: list[Block] = []
        self.left_out: list[str] = []
        self.read(octets)

    def refuse(self, text: str, line: Line | None = None) -> NoReturn:
        self.reports.end()
        place = self.name if line is None else f"{self.name}:{line.number}"
        raise Refused(f"{place}: {text}")

    def read(self, octets: bytes) -> None:
        if len(octets) > MAX_SDP_OCTETS:
            self.refuse(f"the file has more than {MAX_SDP_OCTETS} octets, which no SDP file has")
        lines = octets.removeprefix(b"\xef\xbb\xbf").split(b"\n")
        block, has_begun = self.session, False
        for number, each in enumerate(lines, 1):
            text = each.removesuffix(b"\r").decode("utf-8", "backslashreplace")
            if not text.strip():
                continue
            line = Line(number, text[0], text[2:]) if text[1:2] == "=" else Line(number, "", text)
            if not has_begun:
                if line.kind != "v" or line.value.strip() != "0":
                    self.refuse(f"the file begins with {quoted(text)}; an SDP file begins with 'v=0'", line)
                has_begun = line.is_used = True
            elif line.kind == "v":
                self.refuse("a second 'v=' begins another session, which needs a file of its own", line)
            if not line.kind:
                self.reports.add(line, f"{quoted(text)} is no line of SDP, and is ignored")
            if line.kind == "m":
                block = Block()
                self.blocks.append(block)
            if len(self.blocks) > MAX_SECTIONS:
                self.refuse(f"the file has more than {MAX_SECTIONS} sections", line)
            block.add(line)
        if not has_begun:
            self.refuse("the file is empty; an SDP file begins with 'v=0'")

    def leave_out(self, section: Section, reason: LeftOut) -> None:
        """Reports a section that becomes no path."""
        at = reason.line
        place = "the section" if at is section.line() else f"the section of line {section.line().number}"
        text = f"{place} is left out: {reason}"
        self.reports.add(at, text)
        self.left_out.append(f"Line {at.number}: {text}.")

    def streams(self) -> list[Stream]:
        """The streams of the file, in the order of their first sections."""
        sections = [Section(block, self.session, block.mid()) for block in self.blocks]
        if not sections:
            return []
        streams = []
        for members in self.joined(sections):
            taken = self.taken(members)
            if taken:
                streams.append(Stream(self.name, self.session, taken, comments_of(members, taken)))
        return streams

    def joined(self, sections: list[Section]) -> Iterator[list[Section]]:
        """The sections in lists: those of each group DUP together, each other one alone."""
        named = defaultdict(list)
        for section in sections:
            if section.mid is not None:
                named[section.mid].append(section)
        group_of = {}
        for line in self.session.attributes.get("group", []):
            words = line.attribute()[1].split()
            if words[:1] != ["DUP"]:
                continue
            line.is_used = True
            group = []
            for mid in dict.fromkeys(words[1:]):
                found = named.get(mid, [])
                if len(found) > 1:
                    places = " and ".join(str(section.line().number) for section in found[:2])
                    self.refuse(f"a=mid:{quoted(mid)} names two sections, in lines {places}", line)
                if not found:
                    # The section that was meant would become a stream of its own, and its audio be twice in the mix.
                    self.refuse(f"the group DUP names {quoted(mid)}, which no section has as its a=mid", line)
                if id(found[0]) in group_of:
                    self.refuse(f"section {found[0].name()} is in two groups DUP", line)
                group.append(found[0])
            for section in group:
                group_of[id(section)] = group
        done = set()
        for section in sections:
            group = group_of.get(id(section), [section])
            if id(group[0]) not in done:
                done.add(id(group[0]))
                yield group

    def taken(self, members: list[Section]) -> list[Section]:
        """Those of joined sections that become paths. Refuses the file if they are no copies of one stream."""
        described = []
        for section in members:
            try:
                describe(section)
                described.append(section)
            except LeftOut as reason:
                self.leave_out(section, reason)
        for section in described[1:]:
            self.compare(described[0], section)
        taken = []
        for section in described:
            try:
                if len(taken) == len(PATHS):
                    raise LeftOut(section.line(), f"a stream has at most {len(PATHS)} paths")
                receive(section)
                self.check_place(section, taken)
                taken.append(section)
            except LeftOut as reason:
                self.leave_out(section, reason)
        for section in taken:
            for line, text in section.notes:
                self.reports.add(line, text)
        if taken:
            self.settle_clock(taken)
            self.settle_source(taken)
        return taken

    def check_place(self, section: Section, taken: list[Section]) -> None:
        """Raises LeftOut if a path of the stream is received at the place of this section, from its source."""
        for other in taken:
            if place_of(other) == place_of(section):
                text = f"its address, port and source are those of the section of line {other.line().number}"
                raise LeftOut(section.line(), f"{text}, so that both are one path")

    def compare(self, first: Section, other: Section) -> None:
        """Refuses the file if two sections of one group can't be copies."""
        differing = first.format.differences(other.format)
        offsets = {first.clock.offset, other.clock.offset} - {None}
        if len(offsets) > 1:
            differing.append("offset of a=mediaclk:direct")
        if differing:
            names = f"{first.name()} and {other.name()}"
            self.refuse(f"sections {names} are in one group DUP, but differ in {', '.join(differing)}", other.line())

    def settle_clock(self, taken: list[Section]) -> None:
        """Gives the paths of a stream one clock: the media clock only if each section has it."""
        lacking = [section for section in taken if section.clock.offset is None]
        if lacking and len(lacking) < len(taken):
            first = lacking[0]
            text = f"section {first.name()} has no media clock by PTP, as others of its group have"
            self.reports.add(first.line(), f'{text}: clock = "{rules.OTHER_CLOCK}"')
            taken[0].clock = first.clock

    def settle_source(self, taken: list[Section]) -> None:
        """Gives the paths of a stream one source, or any if their sections have different ones."""
        first = taken[0]
        for section in taken[1:]:
            if section.ssrc != first.ssrc:
                text = "the sections of the group have different ssrc-groups: the first packet determines the source"
                self.reports.add(section.line(), text)
                first.ssrc = None
                return


def comments_of(members: list[Section], taken: list[Section]) -> list[str]:
    """Sentences about the paths that a group of sections doesn't have."""
    missing = [section.name() for section in members if not any(section is each for each in taken)]
    return [f"Its group DUP has further sections that are left out: {', '.join(missing)}."] if missing else []


def chosen(files: list[SdpFile]) -> list[Stream]:
    """The streams of all files that fit into one configuration."""
    streams, places = [], {}
    for file in files:
        own = file.streams()
        if not own:
            no_section = "the file has no section, which begins with 'm='"
            lacking = "no section is left: the lines above say why" if file.blocks else no_section
            file.refuse(f"{lacking}. No configuration is written")
        for stream in own:
            first = stream.sections[0]
            try:
                own_places = places_of(stream, len(streams), places)
            except LeftOut as reason:
                file.leave_out(first, reason)
                continue
            shared = shared_place(stream)
            if shared is not None:
                file.reports.add(first.line(), shared)
            places.update(dict.fromkeys(own_places, f"{file.name}:{first.line().number}"))
            streams.append(stream)
        for other, text in other_clocks(streams):
            if other.stream.session is file.session:
                file.reports.add(other.line, text)
        file.reports.end()
    return streams


def place_of(section: Section) -> Place:
    return section.address, section.port, section.source


def shared_place(stream: Stream) -> str | None:
    """What is to be done if two paths have one address and port: `live` takes them only if it is a group that gets them
    from two sources."""
    at = defaultdict(list)
    for section in stream.sections:
        at[section.address, section.port].append(section.source)
    for (address, port), sources in at.items():
        if len(sources) > 1 and not ipaddress.IPv4Address(address).is_multicast:
            return f"two of its paths have {address} port {port}, and one socket takes all that comes: remove one path"
        if len(sources) > 1 and None in sources:
            text = f"two of its paths have {address} port {port}, and not both a source"
            return f"{text}: they need sockets for each network, as `darbexum-join` makes them"
    return None


def places_of(stream: Stream, count: int, taken: dict[Place, str]) -> list[Place]:
    """Where the paths of a stream are received. Raises LeftOut if there are too many, or another is there."""
    line = stream.sections[0].line()
    if count == MAX_STREAMS:
        raise LeftOut(line, f"a configuration has at most {MAX_STREAMS} streams")
    places = [place_of(section) for section in stream.sections]
    for place in places:
        if place in taken:
            raise LeftOut(line, f"{place[0]} port {place[1]} is received already, by {taken[place]}")
    return places
