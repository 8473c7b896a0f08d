"""Writes the SDP files of a configuration's output, one for each network."""
import ipaddress
import tomllib
from dataclasses import dataclass
from typing import NoReturn

from .model import Format
from .order import channels_in, common_order
from .rules import CONFIG_REFUSED, DYNAMIC_TYPES, MAX_CONFIG_OCTETS, MAX_OUTPUT_CHANNELS, MAX_PAYLOAD, OCTETS_A_SAMPLE
from .rules import PACKET_TIMES, PATHS, QUOTED, RATE
from .texts import Refused, is_ipv4, quoted

# The NTP time of 1970-01-01, in seconds.
NTP_AT_1970 = 2_208_988_800


class Output:
    """The keys of a configuration's output, each tested."""

    def __init__(self, name: str, table: dict) -> None:
        self.name, self.table = name, table

    def refuse(self, text: str) -> NoReturn:
        raise Refused(f"{self.name}: {text}", CONFIG_REFUSED)

    def number(self, key: str, allowed: range | list[int], absent: int | None = None) -> int | None:
        value = self.table.get(key, absent)
        if value is None:
            if key in ("to_a", "to_b", "ttl"):
                return None
            self.refuse(f"output.{key} is missing")
        if type(value) is not int or value not in allowed:
            is_range = isinstance(allowed, range)
            listed = f"{allowed[0]} to {allowed[-1]}" if is_range else ", ".join(map(str, allowed))
            self.refuse(f"output.{key} is {quoted(str(value)[:QUOTED])}; allowed are {listed}")
        return value

    def address(self, key: str) -> str:
        value = self.table.get(key, "127.0.0.1")
        if not isinstance(value, str) or not is_ipv4(value):
            self.refuse(f"output.{key} is {quoted(str(value)[:QUOTED])}; allowed is an IPv4 address")
        return value


def output_of(name: str, octets: bytes) -> Output:
    """The output of a configuration."""
    if len(octets) > MAX_CONFIG_OCTETS:
        raise Refused(f"{name}: the configuration has more than {MAX_CONFIG_OCTETS} octets", CONFIG_REFUSED)
    try:
        table = tomllib.loads(octets.decode())
    except (ValueError, RecursionError) as fault:
        raise Refused(f"{name}: not TOML: {str(fault)[:QUOTED]}", CONFIG_REFUSED) from None
    output = table.get("output")
    if not isinstance(output, dict):
        raise Refused(f"{name}: there is no table output", CONFIG_REFUSED)
    return Output(name, output)


@dataclass(frozen=True)
class Copy:
    """A copy of the mix: the letter of its network, where it is sent, and from which address."""

    letter: str
    to: str
    port: int
    own: str
    ttl: int

    def is_to_group(self) -> bool:
        return ipaddress.IPv4Address(self.to).is_multicast

    def connection(self) -> str:
        return f"c=IN IP4 {self.to}/{self.ttl}" if self.is_to_group() else f"c=IN IP4 {self.to}"

    def source(self) -> str | None:
        """The address from which a group gets this copy, if the configuration has one."""
        return self.own if self.is_to_group() and self.own != "127.0.0.1" else None


@dataclass(frozen=True)
class Session:
    """What the command line says about the sessions of an output, and the NTP time at which they are written."""

    title: str
    ptp: str | None
    order: str | None
    version: int


def session_of(title: str, ptp: str | None, order: str | None, now: int) -> Session:
    """The session of a command line, at a time in seconds since 1970."""
    return Session(title, ptp, order, now + NTP_AT_1970)


def copies_of(output: Output) -> list[Copy]:
    """The copies of an output, one for each network to which it goes."""
    found = []
    for letter in "ab":
        port = output.number(f"to_{letter}", range(1, 65_536))
        if port is not None:
            # A multicast datagram has a TTL of 1 unless one is set, ip(7).
            ttl = output.number("ttl", range(1, 256)) or 1
            own, to = output.address(f"from_{letter}"), output.address(f"to_address_{letter}")
            found.append(Copy(letter, to, port, own, ttl))
    if not found:
        output.refuse("the output has neither to_a nor to_b")
    return found


def format_of(output: Output) -> Format:
    """What the packets of an output are."""
    encoding = output.table.get("encoding")
    if encoding not in OCTETS_A_SAMPLE:
        output.refuse(f"output.encoding is {quoted(str(encoding)[:QUOTED])}; allowed are L16 and L24")
    channels = output.number("channels", range(1, MAX_OUTPUT_CHANNELS + 1))
    frames = output.number("frames", list(PACKET_TIMES))
    form = Format(encoding, RATE, channels, frames, output.number("pt", DYNAMIC_TYPES))
    if form.octets() > MAX_PAYLOAD:
        output.refuse(f"a packet of the output has more than {MAX_PAYLOAD} octets")
    return form


def identity_of(output: Output) -> int:
    """The source (SSRC) of an output, from which the numbers of its sessions come."""
    return output.number("ssrc", range(1 << 32))


def order_of(output: Output, session: Session) -> str:
    """The order of an output's channels."""
    channels = format_of(output).channels
    order = session.order or common_order(channels)
    if channels_in(order) != channels:
        output.refuse(f"output.channels is {channels}, and the groups of --order {order} have {channels_in(order)}")
    return order


def session_lines(number: int, copy: Copy, name: str, session: Session) -> list[str]:
    """The first lines of a session."""
    return ["v=0", f"o=- {number} {session.version} IN IP4 {copy.own}", f"s={name}"]


def section_lines(output: Output, copy: Copy, session: Session) -> tuple[str, list[str]]:
    """The line `m=` of a copy, and its attributes, which `c=` comes before."""
    form = format_of(output)
    lines = [f"a=rtpmap:{form.pt} {form.encoding}/{RATE}/{form.channels}"]
    lines += [f"a=fmtp:{form.pt} channel-order=SMPTE2110.({order_of(output, session)})"]
    lines += [f"a=ptime:{PACKET_TIMES[form.frames]}"]
    if copy.source() is not None:
        lines.append(f"a=source-filter: incl IN IP4 {copy.to} {copy.source()}")
    offset = output.number("offset", range(1 << 32), absent=0)
    if session.ptp is None:
        lines += ["a=ts-refclk:local", "a=mediaclk:sender"]
    else:
        lines += [f"a=ts-refclk:ptp=IEEE1588-2008:{session.ptp}", f"a=mediaclk:direct={offset}"]
    return f"m=audio {copy.port} RTP/AVP {form.pt}", [*lines, "a=recvonly"]


def text_of(lines: list[str]) -> str:
    return "".join(f"{line}\r\n" for line in lines)


def description(output: Output, copy: Copy, session: Session) -> str:
    """The SDP file of a copy."""
    # The session's number is the same each time, and differs by network; its version is the NTP time, which rises.
    number = 2 * identity_of(output) + PATHS.index(copy.letter)
    media, attributes = section_lines(output, copy, session)
    lines = session_lines(number, copy, f"{session.title}, network {copy.letter}", session)
    return text_of([*lines, copy.connection(), "t=0 0", media, *attributes])


def descriptions(output: Output, title: str, ptp: str | None, now: int, order: str | None = None) -> dict[str, str]:
    """The SDP files by the letters of the networks to which the output goes, at a time in seconds since 1970."""
    session = session_of(title, ptp, order, now)
    return {copy.letter: description(output, copy, session) for copy in copies_of(output)}
