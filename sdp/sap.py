"""The packets of SAP, the Session Announcement Protocol (RFC 2974): parsed and built, and the groups they are sent to.

    octets 0 1   bits 0 0 1 A R T E C, and the length of the authentication data in words of 32 bits
    octets 2 3   the message id hash
    then         the originating source: 4 octets, or 16 if A is 1
                 the authentication data
                 the payload type and an octet 0, which an SDP text may lack; then the payload
"""
import ipaddress
import struct
import zlib
from typing import NamedTuple

PORT = 9_875
TTL = 255
# The groups of the global scope, of the organization-local scope, and of the rest of the administrative scopes.
GLOBAL_GROUP, ORGANIZATION_GROUP, LOCAL_GROUP = "224.2.127.254", "239.195.255.255", "239.255.255.255"
GROUPS = (LOCAL_GROUP, GLOBAL_GROUP, ORGANIZATION_GROUP)
# The most that a UDP datagram of IPv4 may have, and that a compressed payload may become.
MAX_PACKET_OCTETS, MAX_PAYLOAD_OCTETS = 65_507, 65_536
# RFC 2974 recommends packets of less than 1 kilobyte, so that the network fragments none.
RECOMMENDED_OCTETS = 1_000
SDP = "application/sdp"
MAX_TYPE_OCTETS = 255

VERSION = 1
IS_IPV6, IS_DELETION, IS_ENCRYPTED, IS_COMPRESSED = 0x10, 0x04, 0x02, 0x01

LINK_LOCAL = ipaddress.IPv4Network("224.0.0.0/24")
ADMINISTRATIVE = ipaddress.IPv4Network("239.0.0.0/8")
ORGANIZATION = ipaddress.IPv4Network("239.192.0.0/14")


class Unreadable(Exception):
    """A packet that is left out. Its text says what such packets are, for a line that counts them."""


class Header(NamedTuple):
    """The header of a packet, and what follows it."""

    origin: str
    hash: int
    is_deletion: bool
    is_authenticated: bool
    is_encrypted: bool
    is_compressed: bool
    body: bytes


class Message(NamedTuple):
    """An announcement or a deletion with its payload: an SDP text, or of a deletion only its line `o=`. `octets` is
    the length of the packet."""

    origin: str
    hash: int
    is_deletion: bool
    is_authenticated: bool
    payload: bytes
    octets: int


def header_of(packet: bytes) -> Header:
    """The header of a packet. Raises Unreadable if the packet is too short for it, or of another version."""
    if len(packet) < 4:
        raise Unreadable("malformed packets")
    flags, words, number = struct.unpack_from("!BBH", packet)
    if flags >> 5 != VERSION:
        raise Unreadable("packets of another version")
    at = 4 + (16 if flags & IS_IPV6 else 4)
    end = at + 4 * words
    if len(packet) < end:
        raise Unreadable("malformed packets")
    source = packet[4:at]
    return Header(
        origin=str(ipaddress.IPv6Address(source)) if flags & IS_IPV6 else ".".join(map(str, source)),
        hash=number,
        is_deletion=bool(flags & IS_DELETION),
        is_authenticated=words > 0,
        is_encrypted=bool(flags & IS_ENCRYPTED),
        is_compressed=bool(flags & IS_COMPRESSED),
        body=packet[end:],
    )


def parse(packet: bytes) -> Message:
    """The message of a packet. Raises Unreadable if it has none that can be read."""
    header = header_of(packet)
    if header.is_encrypted:
        raise Unreadable("encrypted messages")
    body = decompressed(header.body) if header.is_compressed else header.body
    kind, payload = divided(body)
    # A deletion is known by its header, so one without a payload deletes too.
    if kind != SDP and (body or not header.is_deletion):
        raise Unreadable("messages that are not SDP")
    return Message(header.origin, header.hash, header.is_deletion, header.is_authenticated, payload, len(packet))


def decompressed(body: bytes) -> bytes:
    """A body that zlib compressed. No more than its limit is made of it, so a bomb costs no more than a long text."""
    stream = zlib.decompressobj()
    try:
        octets = stream.decompress(body, MAX_PAYLOAD_OCTETS + 1)
    except zlib.error:
        raise Unreadable("malformed packets") from None
    if len(octets) > MAX_PAYLOAD_OCTETS:
        raise Unreadable(f"messages of more than {MAX_PAYLOAD_OCTETS} octets")
    if not stream.eof:
        raise Unreadable("malformed packets")
    return octets


def divided(body: bytes) -> tuple[str, bytes]:
    """The payload type of a body, in lower case and without parameters, and its payload."""
    # No type begins with `v=0`, or with the `o=` of a deletion.
    if body.startswith((b"v=0", b"o=")):
        return SDP, body
    kind, end, payload = body[: MAX_TYPE_OCTETS + 1].partition(b"\0")
    if not end:
        return "", body
    payload = body[len(kind) + 1 :]
    return kind.decode("ascii", "replace").partition(";")[0].strip().lower(), payload


def build(origin: str, number: int, payload: bytes, is_deletion: bool = False) -> bytes:
    """A packet with a payload of SDP: neither compressed nor encrypted, and without authentication data."""
    address = ipaddress.ip_address(origin)
    flags = VERSION << 5 | (IS_IPV6 if address.version == 6 else 0) | (IS_DELETION if is_deletion else 0)
    return struct.pack("!BBH", flags, 0, number) + address.packed + SDP.encode() + b"\0" + payload


def group_for(address: str) -> str | None:
    """The group to which a session at an IPv4 address is announced, by the scope of the address; or `None` for an
    address that is no group, or one that no router passes on."""
    group = ipaddress.IPv4Address(address)
    if not group.is_multicast or group in LINK_LOCAL:
        return None
    if group not in ADMINISTRATIVE:
        return GLOBAL_GROUP
    # The highest address of a scope is its SAP group. RFC 2365 has no scopes in the rest of 239.0.0.0/8, whose highest
    # address is also the group at which AES67 devices announce.
    return ORGANIZATION_GROUP if group in ORGANIZATION else LOCAL_GROUP
