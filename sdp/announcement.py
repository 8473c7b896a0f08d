"""A text as it is announced: its octets, its origin and its hash, and the groups to which it is announced."""
import hashlib
from typing import NamedTuple

from .reader import SdpFile
from .rules import MAX_SDP_OCTETS
from .sap import MAX_PACKET_OCTETS, RECOMMENDED_OCTETS, build, group_for
from .summary import Origin, origin_in
from .texts import Refused, is_ipv4

# The length of a packet from which a user should know of the limit, which is 1 kilobyte.
NEAR_OCTETS = RECOMMENDED_OCTETS * 9 // 10


class NoGroup(Refused):
    """A text of streams to single machines, which nobody else can receive."""


class Text(NamedTuple):
    """An SDP text: its lines, its origin, and the SAP groups of its sections' scopes."""

    lines: tuple[bytes, ...]
    origin: Origin
    groups: tuple[str, ...]

    def octets(self) -> bytes:
        """The text as RFC 4566 has it: each line ends in CR LF."""
        return b"".join(line + b"\r\n" for line in self.lines)

    def with_version(self, version: int) -> "Text":
        """The same text with another version in its line `o=`."""
        at = next(at for at, line in enumerate(self.lines) if line.startswith(b"o="))
        user, number, _, *place = self.lines[at].split()
        line = b" ".join((user, number, str(version).encode(), *place))
        return Text((*self.lines[:at], line, *self.lines[at + 1 :]), Origin(self.origin.owner, version), self.groups)

    def deletion(self) -> bytes:
        """The payload of a deletion: the line `o=` alone."""
        return next(line for line in self.lines if line.startswith(b"o=")) + b"\r\n"


def text_in(name: str, octets: bytes) -> Text:
    """The text of a file. Raises Refused if it is no SDP, or can't be announced."""
    file = SdpFile(name, octets[: MAX_SDP_OCTETS + 1])
    file.reports.end()
    origin = origin_in(file.session)
    if origin is None:
        file.refuse("it has no line 'o=USER SESSION VERSION IN IP4 ADDRESS', by which listeners know a session")
    if not file.blocks:
        file.refuse("the file has no section, which begins with 'm='")
    groups = groups_in(file)
    if not groups:
        raise NoGroup(f"{name}: no 'c=IN IP4 ADDRESS' has a group from 224.0.1.0 to 239.255.255.255 to announce")
    lines = (line.removesuffix(b"\r") for line in octets.removeprefix(b"\xef\xbb\xbf").split(b"\n"))
    text = Text(tuple(line for line in lines if line.strip()), origin, groups)
    # An origin of IPv4, and a version that rises, which takes no more than 20 digits.
    if len(build("0.0.0.0", 1, text.octets())) + 20 > MAX_PACKET_OCTETS:
        raise Refused(f"{name}: its announcement would have more than {MAX_PACKET_OCTETS} octets")
    return text


def groups_in(file: SdpFile) -> tuple[str, ...]:
    """The SAP groups for the scopes of all addresses of a file, each once."""
    found = []
    for block in (file.session, *file.blocks):
        for line in block.kinds.get("c", []):
            address = line.value.split()[-1].partition("/")[0] if line.value.strip() else ""
            found += [group_for(address)] if is_ipv4(address) else []
    return tuple(dict.fromkeys(group for group in found if group is not None))


def hash_for(text: bytes, taken: set[int]) -> int:
    """A message id hash for a text: never 0, and none of those that are taken."""
    number = int.from_bytes(hashlib.sha256(text).digest()[:2], "big")
    while number == 0 or number in taken:
        number = (number + 1) & 0xFFFF
    return number


def length_report(name: str, octets: int) -> str:
    """What to say of the length of an announcement, or nothing if it is short."""
    if octets < NEAR_OCTETS:
        return ""
    advice = f"RFC 2974 recommends less than {RECOMMENDED_OCTETS}, since networks lose fragments"
    return f"{name}: its announcement has {octets} octets; {advice}"
