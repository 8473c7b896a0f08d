"""Captures in the making: their records and blocks, and what is told of each.

Each datagram of a file has a number of its own, by which a trace shows that it came whole and in its place. A time
shows in a trace's readings, 3 sampling instants in 62,500 nanoseconds since the first datagram.
"""
import struct
from collections.abc import Iterable, Iterator, Sequence
from typing import Any, NamedTuple

LITTLE, BIG = "<", ">"
MICROSECONDS, NANOSECONDS = 0xA1B2C3D4, 0xA1B23C4D
RAW = 101
TO = "239.1.2.3:5005"

# A link's number, what stands before the IP packet, and whether the packet is found.
LINKS = [
    (0, "02000000", True),
    (0, "00000002", True),
    (0, "1e000000", False),
    (1, "0000000000000000000000000800", True),
    (1, "000000000000000000000000810000050800", True),
    (1, "00000000000000000000000088a80001810000050800", True),
    (1, "0000000000000000000000008100000581000005810000050800", False),
    (1, "00000000000000000000000086dd", False),
    (1, "0000000000000000000000000806", False),
    (101, "", True),
    (108, "00000002", True),
    (108, "02000000", False),
    (113, "00000000000000000000000000000800", True),
    (113, "000000000000000000000000000086dd", False),
    (147, "", False),
    (228, "", True),
    (276, "0800000000000000000000000000000000000000", True),
    (276, "86dd000000000000000000000000000000000000", False),
]

# An interface's resolution and offset, where it has them, a packet's units, and the sampling instants since 1 s.
TIMES = [
    (None, None, 1_000_000, 0),
    (6, 0, 1_000_000, 0),
    (9, 1, 20_833, 0),
    (9, 1, 20_834, 1),
    (3, 0, 1_001, 48),
    (128 + 10, -1, 2048 + 128, 6000),
    (12, 0, 1_200_000_000_000 - 1, 9599),
    (12, 0, 1_200_000_000_000, 9600),
    (None, -1, 2_500_000, 24000),
    (0, -1, 3, 48000),
    (127, 3, 2**64 - 1, 96000),
    (255, 4, 2**64 - 1, 144000),
    (128, None, 6, 240000),
    (None, None, 2**32, 206_110_430),
]

# A pcap file's number and order; of its packets the second, the units beyond it, and the sampling instants since the
# first.
FORMS = [
    (MICROSECONDS, LITTLE, [(1, 2, 0), (1, 22, 0), (1, 23, 1), (2, 1002, 48048)]),
    (MICROSECONDS, BIG, [(1, 2, 0), (1, 22, 0), (1, 23, 1), (2, 1002, 48048)]),
    (NANOSECONDS, LITTLE, [(1, 2, 0), (1, 20_835, 0), (1, 20_836, 1), (2, 1002, 48000)]),
    (NANOSECONDS, BIG, [(1, 2, 0), (1, 20_835, 0), (1, 20_836, 1), (2, 1002, 48000)]),
]

WHOLE, OTHER, NOTHING = "a datagram", "cut or in fragments", "nothing"

# A place in an IP packet of 42 octets, what stands there in place of its own, and what is found.
ODD = [
    (0, "45", WHOLE),
    (6, "00", WHOLE),
    (6, "20", OTHER),
    (7, "01", OTHER),
    (6, "2001", OTHER),
    (9, "06", NOTHING),
    (0, "65", NOTHING),
    (0, "44", OTHER),
    (0, "4f", OTHER),
    (3, "2b", OTHER),
    (3, "13", OTHER),
    (3, "1b", OTHER),
    (24, "0007", OTHER),
    (24, "0017", OTHER),
    (28, "40", OTHER),
]


class Part(NamedTuple):
    """A part of a file, mostly a record or a block, and what is told of it."""

    octets: bytes
    datagram: bytes = b""
    # When it came, in sampling instants since the first; 0 without a time.
    instants: int = 0
    # UDP packets that are cut, in fragments or no RTP.
    others: int = 0


def rtp(number: int) -> bytes:
    """An RTP packet of two octets, of one sampling instant."""
    return struct.pack(">BBHIIH", 128, 96, number, number, 7, number + 1000)


def ip_around(datagram: bytes, options: bytes = b"") -> bytes:
    """An IPv4 packet of UDP from 10.0.0.1:5004 to 239.1.2.3:5005, which isn't to be fragmented."""
    udp = struct.pack(">HHHH", 5004, 5005, len(datagram) + 8, 0) + datagram
    head = struct.pack(">BBHHHBBH", 0x45 + len(options) // 4, 0, len(udp) + len(options) + 20, 1, 0x4000, 64, 17, 0)
    return head + bytes([10, 0, 0, 1, 239, 1, 2, 3]) + options + udp


def pcap_head(
    magic: int = MICROSECONDS, order: str = LITTLE, link: int = RAW, version: tuple[int, int] = (2, 4)
) -> bytes:
    return struct.pack(order + "IHHIIII", magic, *version, 0, 0, 65535, link)


def record(frame: bytes, seconds: int = 1, units: int = 2, order: str = LITTLE) -> bytes:
    return struct.pack(order + "IIII", seconds, units, len(frame), len(frame)) + frame


def block(order: str, kind: int, body: bytes) -> bytes:
    body += bytes(-len(body) % 4)
    length = struct.pack(order + "I", len(body) + 12)
    return struct.pack(order + "I", kind) + length + body + length


def section(order: str, minor: int = 0) -> bytes:
    return block(order, 0x0A0D0D0A, struct.pack(order + "IHHq", 0x1A2B3C4D, 1, minor, -1))


def option(order: str, code: int, value: bytes) -> bytes:
    return struct.pack(order + "HH", code, len(value)) + value + bytes(-len(value) % 4)


def interface(
    order: str, link: int = RAW, resolution: int | None = None, offset: int | None = None, limit: int = 0,
    options: bytes = b""
) -> bytes:
    if resolution is not None:
        options += option(order, 9, bytes([resolution]))
    if offset is not None:
        options += option(order, 14, struct.pack(order + "q", offset))
    if options:
        options += option(order, 0, b"")
    return block(order, 1, struct.pack(order + "HHI", link, 0, limit) + options)


def enhanced(order: str, number: int, units: int, frame: bytes) -> bytes:
    return block(
        order, 6, struct.pack(order + "IIIII", number, units >> 32, units % 2**32, len(frame), len(frame)) + frame
    )


def simple(order: str, frame: bytes, original: int | None = None) -> bytes:
    return block(order, 3, struct.pack(order + "I", original or len(frame)) + frame)


def sent(
    micros: int, network: int, number: int, stamp: int, source: int = 7, length: int = 18, kind: int = 96
) -> bytes:
    """The record of an RTP packet from 10.0.0.N to 239.1.2.N, both at port 5004, whose payload's octets are 17."""
    datagram = struct.pack(">BBHII", 128, kind, number % 2**16, stamp % 2**32, source) + b"\x11" * length
    udp = struct.pack(">HHHH", 5004, 5004, len(datagram) + 8, 0) + datagram
    head = struct.pack(">BBHHHBBH", 0x45, 0, len(udp) + 20, 0, 0, 32, 17, 0)
    return record(head + bytes([10, 0, 0, network, 239, 1, 2, network]) + udp, 1 + micros // 10**6, micros % 10**6)


def pcap_of(*records: bytes) -> bytes:
    return pcap_head() + b"".join(records)


def two_paths(skew: int = 1000) -> bytes:
    """Two paths over the wrap of the numbers; the third packet's time goes back, and one is lost on the second path."""
    first, second = [sent(0, 1, 65535, 100), sent(skew, 2, 65535, 100)], [sent(500, 1, 0, 106), sent(1041, 2, 0, 106)]
    return pcap_of(*first, *second, sent(2000, 1, 1, 112))


def flow(
    network: int, count: int, first: int = 1, stamp: int = 0, step: int = 6, skew: int = 0, **more: int
) -> list[tuple[int, bytes]]:
    """The times and records of packets of a flow, one a millisecond."""
    return [
        (1000 * place + skew, sent(1000 * place + skew, network, first + place, stamp + step * place, **more))
        for place in range(count)
    ]


def merged(*flows: list[tuple[int, bytes]]) -> bytes:
    """A capture of flows, in the order of their times."""
    return pcap_of(*(octets for _, octets in sorted(sum(flows, []), key=lambda row: row[0])))


def three_paths(streams: int) -> bytes:
    """Streams of three paths, of eight packets each: the second comes later than the first, and the third earlier, by
    10 and 20 microseconds more for each stream."""
    records = []
    for stream in range(streams):
        for path, behind in enumerate((0, 10 * (stream + 1), -20 * (stream + 1))):
            records += [
                (number > 0, 1000 * number + behind + 5000, 3 * stream + path + 1, number + 1, 6 * number, stream + 1)
                for number in range(8)
            ]
    return pcap_of(
        *(sent(*record[1:]) for record in sorted(records, key=lambda record: (record[0], record[1 + (not record[0])])))
    )


def sources(count: int) -> bytes:
    """Two packets of each of so many sources."""
    return pcap_of(*(sent(0, 1, number, 6 * number, source) for source in range(count) for number in (0, 1)))


def times(order: str, first: int = 1, rows: list[tuple] = TIMES) -> list[Part]:
    """A section with an interface for each time, and their packets; the datagrams' numbers begin with the first."""
    parts = [Part(section(order))]
    parts += [Part(interface(order, RAW, resolution, offset)) for resolution, offset, _, _ in rows]
    for place, (_, _, units, instants) in enumerate(rows):
        datagram = rtp(first + place)
        parts.append(Part(enhanced(order, place, units, ip_around(datagram)), datagram, instants))
    return parts


def links(order: str, first: int = 1) -> list[Part]:
    """A section with an interface for each link, and their packets, one a millisecond."""
    parts = [Part(section(order))]
    parts += [Part(interface(order, link)) for link, _, _ in LINKS]
    for place, (_, before, is_found) in enumerate(LINKS):
        datagram = rtp(first if is_found else 0)
        octets = enhanced(order, place, 1_000_000 + 1000 * place, bytes.fromhex(before) + ip_around(datagram))
        parts.append(Part(octets, datagram if is_found else b"", 48 * place))
        first += is_found
    return parts


def odd_packets(first: int = 1) -> Iterator[Part]:
    """IP packets with changes, with options, with padding, cut, and of no RTP, as parts that aren't framed yet."""
    for place, digits, found in ODD:
        datagram = rtp(first if found == WHOLE else 0)
        packet = bytearray(ip_around(datagram))
        packet[place : place + len(digits) // 2] = bytes.fromhex(digits)
        if found == WHOLE:
            yield Part(bytes(packet), datagram)
            first += 1
        else:
            yield Part(bytes(packet), others=found == OTHER)
    yield Part(ip_around(rtp(first), options=b"\x01\x01\x01\x01"), rtp(first))
    yield Part(ip_around(rtp(first + 1)) + b"\x09\x09\x09", rtp(first + 1))
    yield Part(ip_around(rtp(0))[:-1], others=1)
    yield Part(ip_around(rtp(0))[:20], others=1)
    yield Part(ip_around(rtp(0))[:19])
    yield Part(ip_around(b"v=0\r\n"), others=1)


def odd(order: str, first: int = 1) -> list[Part]:
    """A section with such packets, each in a block without a time, behind one with a time; then one that a limit
    cuts."""
    parts = [Part(section(order)), Part(interface(order, limit=64))]
    parts.append(Part(enhanced(order, 0, 1_000_000, ip_around(rtp(first))), rtp(first)))
    parts += [part._replace(octets=simple(order, part.octets)) for part in odd_packets(first + 1)]
    parts += [Part(block(order, 5, b"statistics")), Part(section(order, minor=2)), Part(interface(order, limit=30))]
    return [*parts, Part(simple(order, ip_around(rtp(0))[:30], original=42), others=1)]


def small() -> list[Part]:
    """A file of two sections in both orders, with three interfaces, a block of another type and a packet without a
    time."""
    return [
        Part(section(LITTLE) + interface(LITTLE) + interface(LITTLE, RAW, 9, 1)),
        Part(enhanced(LITTLE, 0, 5, ip_around(rtp(1))), rtp(1)),
        Part(enhanced(LITTLE, 1, 7, ip_around(rtp(2))), rtp(2), 48000 - 1),
        Part(block(LITTLE, 5, b"")),
        Part(simple(LITTLE, ip_around(rtp(3))), rtp(3)),
        Part(section(BIG) + interface(BIG)),
        Part(enhanced(BIG, 0, 2**32, ip_around(rtp(4))), rtp(4), 206_158_429),
    ]


def pcap(magic: int, order: str, rows: list[tuple]) -> list[Part]:
    """A pcap file with a packet for each row."""
    parts = [Part(pcap_head(magic, order))]
    for place, (seconds, units, instants) in enumerate(rows):
        datagram = rtp(place + 1)
        parts.append(Part(record(ip_around(datagram), seconds, units, order), datagram, instants))
    return parts


def great() -> list[Part]:
    """A file with all of these."""
    parts = times(BIG, rows=TIMES[:5])
    for more, order in ((links, LITTLE), (odd, LITTLE)):
        parts += more(order, 1 + sum(bool(part.datagram) for part in parts))
    return parts


def described(stream: dict[str, Any]) -> str:
    """The description of a stream's paths in a record, by its table in a configuration."""
    return "encoding {encoding} channels {channels} frames {frames} pt {pt} paths {paths}".format(
        **{"paths": 2, **stream}
    )


def change(at, gains):
    """The payload of a change of gains that is in force from so many sampling instants behind the opening on."""
    return struct.pack(f">qQ{len(gains)}i", at, 0, *gains)


def live_record(open_at: int, paths: list[int], trace: str, descriptions: Sequence[str] = ()) -> bytes:
    """The record of a live run of this trace by a studio that was opened at a time, whose streams have so many paths,
    and these descriptions; without them it is a record of version 0.3.0. If the trace has lines `gains AT GAIN ..`, or
    `octets HEX`, its gains can change, and each is a change that the run took there, or one of this payload."""
    options = option(LITTLE, 1, b"open_at %d" % open_at) + option(LITTLE, 4, b"darbexum") + option(LITTLE, 0, b"")
    blocks = [block(LITTLE, 0x0A0D0D0A, struct.pack("<IHHq", 0x1A2B3C4D, 1, 0, -1) + options)]
    for stream, count in enumerate(paths):
        text = option(LITTLE, 3, descriptions[stream].encode()) if descriptions else b""
        blocks += [
            interface(LITTLE, RAW, 9, options=option(LITTLE, 2, b"%d %c" % (stream, 97 + path)) + text)
            for path in range(count)
        ]
    lines = [line.split() for line in trace.splitlines() if line.strip() and line[0] != "#"]
    if any(word in ("gains", "octets") for word, *_ in lines):
        blocks.append(interface(LITTLE, RAW, 9, options=option(LITTLE, 2, b"gains") + option(LITTLE, 3, b"gains")))
    nanoseconds = 0
    for word, *more in lines:
        if word in ("gains", "octets"):
            payload = (
                bytes.fromhex("".join(more))
                if word == "octets"
                else change(int(more[0]) - open_at, [int(gain) for gain in more[1:]])
            )
            blocks.append(enhanced(LITTLE, sum(paths), nanoseconds, ip_around(payload)))
        elif word == "tick":
            nanoseconds = -((open_at - int(more[0])) * 62_500 // 3)
        elif word == "close":
            blocks.append(block(LITTLE, 5, struct.pack("<III", 0, nanoseconds >> 32, nanoseconds % 2**32)))
        else:
            place = sum(paths[: int(more[0])]) + ord(word) - 97
            blocks.append(enhanced(LITTLE, place, nanoseconds, ip_around(bytes.fromhex(more[1]))))
    return b"".join(blocks)


def octets_of(parts: Iterable[Part]) -> bytes:
    return b"".join(part.octets for part in parts)
