"""What one section says: the format of its packets and its clock (`describe`), and where it is received (`receive`)."""
import ipaddress
import re
from fractions import Fraction

from .model import Clock, Format, LeftOut, Line, Section
from .rules import (
    DYNAMIC_TYPES,
    MAX_CHANNELS,
    MAX_CHANNELS_OF_ALL,
    MAX_PAYLOAD,
    OCTETS_A_SAMPLE,
    PACKET_TIMES,
    PERIODS_A_MS,
    RATE,
    SOURCE_SPECIFIC,
)
from .texts import is_ipv4, is_number, quoted

# None of these begins or ends with spaces: two runs of spaces side by side would take quadratic time in a hostile line.
MILLISECONDS = re.compile(r"(\d{0,9})(?:\.(\d{0,12}))?", re.ASCII)
FRAME_COUNT = re.compile(r"(\d{1,6})(?:-(\d{1,6}))?", re.ASCII)
RTPMAP = re.compile(r"(\d{1,3})\s+([^\s/]+)/(\d{1,9})(?:/(\d{1,9}))?", re.ASCII)
# An attribute of RFC 7273, with its value. A clock may have an identifier before it.
DIRECT = re.compile(r"(?:id=\S+\s+)?direct(?:=(\d{1,20}))?(?:\s+rate=(\d{1,9})/(\d{1,9}))?", re.ASCII | re.IGNORECASE)


def describe(section: Section) -> None:
    """Finds what a section's packets are, and by which clock. Raises LeftOut if it doesn't say."""
    types = read_media(section)
    maps = rtpmaps(section)
    known = [pt for pt in types if pt in maps]
    fitting = [pt for pt in known if maps[pt][0] in OCTETS_A_SAMPLE] or known
    if not fitting:
        wrong = next(iter(section.block.attributes.get("rtpmap", [])), section.line())
        if types[0] in (10, 11):
            raise LeftOut(section.line(), f"payload type {types[0]} is L16 at 44100 Hz; 48000 Hz is received")
        raise LeftOut(wrong, f"payload type {types[0]} has no readable a=rtpmap, as 'a=rtpmap:{types[0]} L24/48000/2'")
    pt = fitting[0]
    encoding, rate, channels, line = maps[pt]
    if len(types) > 1:
        section.note(section.line(), f"the section has several payload types, of which only {pt} is received")
    section.use("encoding", line)
    section.format = Format(encoding, rate, channels, packet_frames(section), pt)
    section.clock = clock_of(section)


def receive(section: Section) -> None:
    """Finds where a section is received. Raises LeftOut if the receiver can't take it."""
    check_format(section)
    section.address = address_of(section)
    section.use("path", section.line())
    section.source = source_of(section)
    if section.source is None and ipaddress.IPv4Address(section.address) in SOURCE_SPECIFIC:
        text = f"{section.address} is joined by source alone, and the file has no single source for it"
        section.note(section.line(), text)
    section.ssrc = first_of_two_sources(section)


def read_media(section: Section) -> list[int]:
    """Tests the line `m=`, and returns its payload types."""
    line = section.line()
    words = line.value.split()
    if len(words) < 4:
        raise LeftOut(line, f"{quoted(line.text())} is not 'm=audio PORT RTP/AVP TYPE'")
    media, port, protocol, *types = words
    if media != "audio":
        raise LeftOut(line, f"{quoted(media)} is not received; audio is")
    if protocol not in ("RTP/AVP", "RTP/AVPF"):
        raise LeftOut(line, f"{quoted(protocol)} is not received; RTP/AVP is")
    port, _, count = port.partition("/")
    if not is_number(port, 5) or int(port) > 65_535:
        raise LeftOut(line, f"{quoted(port)} is no port from 1 to 65535")
    if int(port) == 0:
        raise LeftOut(line, "its port is 0: the sender doesn't send it")
    if count not in ("", "1"):
        raise LeftOut(line, f"it has {quoted(count)} ports; one is received")
    known = [int(each) for each in types if is_number(each, 3)]
    if not known:
        raise LeftOut(line, f"{quoted(' '.join(types))} is no payload type")
    section.port = int(port)
    return known


def rtpmaps(section: Section) -> dict[int, tuple[str, int, int, Line]]:
    """The encodings of a section by payload type, each with its line."""
    found = {}
    for line in section.block.attributes.get("rtpmap", []):
        match = RTPMAP.fullmatch(line.attribute()[1])
        if match:
            found.setdefault(int(match[1]), (match[2].upper(), int(match[3]), int(match[4] or 1), line))
    return found


def milliseconds(line: Line) -> int:
    """The frames of a packet time in milliseconds, to the nearest whole number: 0.12 and 0.125 are 6, 0.33 is 16."""
    text = line.attribute()[1]
    found = MILLISECONDS.fullmatch(text)
    if not found or not (found[1] or found[2]):
        raise LeftOut(line, f"{quoted(line.text())} has no number of milliseconds")
    return int(Fraction(f"{found[1] or 0}.{found[2] or 0}") * PERIODS_A_MS + Fraction(1, 2))


def frame_count(line: Line) -> tuple[int, int]:
    """The least and the greatest number of frames in a packet."""
    text = line.attribute()[1]
    found = FRAME_COUNT.fullmatch(text)
    if not found:
        raise LeftOut(line, f"{quoted(line.text())} has no number of frames")
    return int(found[1]), int(found[2] or found[1])


def packet_frames(section: Section) -> int:
    """The frames in a packet: by ptime, or else framecount, or else maxptime."""
    ptime, at = section.only("ptime", milliseconds)
    counts, counts_at = section.only("framecount", frame_count)
    longest, longest_at = section.only("maxptime", milliseconds)
    if ptime is not None:
        if counts is not None:
            if not counts[0] <= ptime <= counts[1]:
                reason = f"a=framecount differs from a=ptime in line {at.number}, which is {ptime} frames"
                raise LeftOut(counts_at, reason)
            section.use("frames", counts_at)
        if longest is not None:
            if longest < ptime:
                section.note(longest_at, f"a=maxptime is less than a=ptime in line {at.number}, which is taken")
            section.use("frames", longest_at)
        section.use("frames", at)
        return ptime
    if counts is not None and counts[0] == counts[1]:
        section.use("frames", counts_at)
        return counts[0]
    if longest is not None:
        section.use("frames", longest_at)
        section.note(longest_at, "there is no a=ptime: packets are taken to be as long as a=maxptime allows")
        return longest
    lacking = "it has no a=ptime, no single a=framecount and no a=maxptime"
    raise LeftOut(section.line(), f"its packet time isn't known: {lacking}")


def check_format(section: Section) -> None:
    """Tests the limits of a stream."""
    form = section.format
    line = section.origins["encoding"][0]
    if form.encoding not in OCTETS_A_SAMPLE:
        raise LeftOut(line, f"encoding {quoted(form.encoding)} is not received; L16 and L24 are")
    if form.pt not in DYNAMIC_TYPES:
        raise LeftOut(section.line(), f"its payload type is {form.pt}; allowed are 96 to 127")
    if form.rate != RATE:
        raise LeftOut(line, f"its rate is {form.rate} Hz; {RATE} Hz is received")
    if not 1 <= form.channels <= MAX_CHANNELS:
        raise LeftOut(line, f"it has {form.channels} channels; allowed are 1 to {MAX_CHANNELS}")
    if form.frames not in PACKET_TIMES:
        allowed = "6, 12, 16, 48 and 192, which are 0.125, 0.25, 0.333, 1 and 4 ms"
        time_line = section.origins["frames"][-1]
        raise LeftOut(time_line, f"{quoted(time_line.text())} is {form.frames} frames; allowed are {allowed}")
    if form.channels > MAX_CHANNELS_OF_ALL and form.frames != 6:
        found = f"it has {form.channels} channels in packets of {PACKET_TIMES[form.frames]} ms"
        raise LeftOut(line, f"{found}; more than {MAX_CHANNELS_OF_ALL} are received in packets of 0.125 ms")
    if form.octets() > MAX_PAYLOAD:
        raise LeftOut(line, f"its payload has {form.octets()} octets; allowed are {MAX_PAYLOAD}")


def address_of(section: Section) -> str:
    """The address at which a section is received: a group, or an address of this machine."""
    lines = section.block.kinds.get("c") or section.session.kinds.get("c", [])
    if not lines:
        raise LeftOut(section.line(), "it has no c= with an address, and the session has none")
    line = lines[0]
    if len(lines) > 1:
        raise LeftOut(lines[1], "it has several lines c=; one is received")
    words = line.value.split()
    if len(words) != 3 or words[0] != "IN" or words[1] not in ("IP4", "IP6"):
        raise LeftOut(line, f"{quoted(line.text())} is not 'c=IN IP4 ADDRESS'")
    if words[1] == "IP6":
        raise LeftOut(line, "IPv6 is not received; IPv4 is")
    address, *rest = words[2].split("/")
    if not is_ipv4(address):
        raise LeftOut(line, f"{quoted(address)} is no IPv4 address")
    is_group = ipaddress.IPv4Address(address).is_multicast
    if ipaddress.IPv4Address(address).is_reserved or ipaddress.IPv4Address(address).is_unspecified:
        raise LeftOut(line, f"{address} is neither a group nor an address of a machine")
    counts = rest[1:] if is_group else rest
    if len(rest) > 2 or any(not is_number(each, 3) for each in rest):
        raise LeftOut(line, f"{quoted(line.text())} is not 'c=IN IP4 ADDRESS/TTL'")
    if any(int(each) != 1 for each in counts):
        raise LeftOut(line, "it has several groups; one is received")
    section.use("path", line)
    return address


def source_of(section: Section) -> str | None:
    """The one address from which a section is sent, by `a=source-filter` (RFC 4570), or `None`."""
    for line in section.attributes("source-filter"):
        words = line.attribute()[1].split()
        if len(words) < 5 or words[1] != "IN":
            wanted = "'a=source-filter: incl IN IP4 ADDRESS SOURCE'"
            section.note(line, f"{quoted(line.text())} is not {wanted}, and is ignored")
            continue
        mode, _, family, to, *sources = words
        if family not in ("IP4", "*") or to not in (section.address, "*"):
            continue
        sources = list(dict.fromkeys(sources))
        if mode != "incl":
            section.note(line, f"the filter mode {quoted(mode)} is ignored; incl with one source is taken")
        elif len(sources) > 1:
            text = f"the filter has {len(sources)} sources, and a path takes one"
            section.note(line, f"{text}: packets from all addresses are taken")
        elif not is_ipv4(sources[0]) or ipaddress.IPv4Address(sources[0]).is_multicast:
            text = f"{quoted(sources[0])} is no IPv4 address of a sender"
            section.note(line, f"{text}: packets from all addresses are taken")
        else:
            section.use("path", line)
            return sources[0]
    return None


def first_of_two_sources(section: Section) -> int | None:
    """The first synchronization source of `a=ssrc-group:DUP` (RFC 7104), or `None` without that attribute."""
    for line in section.block.attributes.get("ssrc-group", []):
        words = line.attribute()[1].split()
        if words[:1] != ["DUP"] or len(words) < 2:
            continue
        if not is_number(words[1], 10) or int(words[1]) > 0xFFFF_FFFF:
            section.note(line, f"{quoted(words[1])} is no source, and the group is ignored")
            continue
        section.use("ssrc", line)
        text = "the section has copies under two sources, which the receiver never merges"
        section.note(line, f"{text}: one path, which takes source {int(words[1])} alone")
        return int(words[1])
    return None


def clock_of(section: Section) -> Clock:
    """The clock of a section: the media clock if it has an offset from a PTP clock."""
    clocks = section.attributes("mediaclk")
    is_ptp = lambda line: line.attribute()[1].strip().lower().startswith("ptp=")
    references = list(filter(is_ptp, section.attributes("ts-refclk")))
    if not clocks:
        return Clock(None, "there is no a=mediaclk")
    line = clocks[0]
    text = f"line {line.number}, {line.text()}"
    found = DIRECT.fullmatch(line.attribute()[1])
    if len(clocks) > 1:
        raise LeftOut(clocks[1], f"it has several a=mediaclk, the first in line {line.number}")
    section.use("clock", line)
    if not found or found[1] is None:
        return Clock(None, f"{text}, has no offset from a reference clock")
    offset = int(found[1])
    if offset > 0xFFFF_FFFF:
        raise LeftOut(line, f"the offset {offset} has more than 32 bits")
    if found[2] is not None and int(found[2]) != int(found[3]):
        raise LeftOut(line, f"its media clock runs at {found[2]}/{found[3]} of {RATE} Hz; {RATE} Hz is received")
    if not references:
        section.use("clock", *section.attributes("ts-refclk"))
        return Clock(None, f"{text}, has no a=ts-refclk:ptp=..")
    section.use("clock", *references)
    return Clock(offset, "")
