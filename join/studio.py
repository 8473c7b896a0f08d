"""The paths of a studio, with what the words of the command say of them, and the studios that no run can begin with."""
import argparse
import errno
import ipaddress
import os
import tomllib
from collections.abc import Iterator
from typing import Any, NamedTuple

from . import linux
from .faults import CONFIG, DEVICE, NAME, USAGE, Refused, Unopened

LOCALHOST = "127.0.0.1"
Studio = dict[str, Any]


class Path(NamedTuple):
    """A path of a stream: where it is received, from which source if not from any, and the name of the interface at
    which its group is joined."""

    stream: int
    letter: str
    address: str
    port: int
    source: str | None
    interface: str | None

    @property
    def name(self) -> str:
        return f"{self.stream}{self.letter}"

    @property
    def is_group(self) -> bool:
        return ipaddress.IPv4Address(self.address).is_multicast

    def __str__(self) -> str:
        return f"stream {self.stream} path {self.letter} at {self.address}:{self.port}"

    def collides_with(self, other: "Path") -> bool:
        """Whether both are at one place, and nothing tells their datagrams apart: a group's source, or the network on
        which it comes."""
        if (self.address, self.port) != (other.address, other.port):
            return False
        have_sources = None not in (self.source, other.source)
        is_apart = have_sources and self.source != other.source or self.interface != other.interface
        return not (self.is_group and is_apart)


def read(config: str) -> Studio:
    try:
        with open(config, "rb") as file:
            return tomllib.load(file)
    except OSError as error:
        why = f"{config}: {error.strerror} (os error {error.errno})"
        raise Refused(DEVICE, f"device: config\n{why}") from None
    except ValueError:
        raise Refused(CONFIG, "config: not TOML") from None


def letters(stream: dict[str, Any]) -> str:
    return "abcd"[: stream.get("paths", 2)]


def find_ports(studio: Studio) -> None:
    """Refuses a studio that lacks a port, in the order in which a live run needs them."""
    streams = enumerate(studio["stream"])
    needed = [(f"stream[{place}]", one, f"port_{letter}") for place, one in streams for letter in letters(one)]
    needed += [("output", studio["output"], key) for key in ("to_a", "to_b")]
    for table, values, key in needed:
        if key not in values:
            raise Refused(CONFIG, f"config {table}.{key}: missing")


def paths_of(studio: Studio, options: argparse.Namespace) -> Iterator[Path]:
    """All paths of a studio, with what the options say of them."""
    said = lambda pairs, name, absent: pairs.get(name, pairs.get(name[-1], absent))
    on, sources = dict(options.on), dict(options.source)
    for number, stream in enumerate(studio["stream"]):
        for letter in letters(stream):
            name, address = f"{number}{letter}", stream.get(f"address_{letter}", LOCALHOST)
            source = said(sources, name, stream.get(f"source_{letter}"))
            path = Path(number, letter, address, stream[f"port_{letter}"], source, None)
            interface = said(on, name, studio["output"].get(f"from_{letter}"))
            yield path._replace(interface=own_interface(path, interface)) if path.is_group else path


def own_interface(path: Path, interface: str | None) -> str:
    """The name of the interface at which the group of a path is joined, which is said by its name or address."""
    if interface is None:
        raise Refused(USAGE, f"{NAME}: no interface for the group {path.address}: say --on PATH=INTERFACE")
    try:
        return interface_of(interface)
    except OSError as error:
        raise Unopened(f"{path}, interface {interface}", error) from None


def interface_of(word: str) -> str:
    """The name of an interface that is named by it or by an address. Raises OSError if there is none."""
    try:
        address = str(ipaddress.IPv4Address(word))
    except ValueError:
        linux.index_of(word)
        return word
    return linux.name_of(address)


def find_collisions(paths: list[Path]) -> None:
    """Refuses paths that would take each other's datagrams: of two unicast sockets at one place the later has all."""
    for place, path in enumerate(paths):
        if any(path.collides_with(earlier) for earlier in paths[:place]):
            raise Unopened(path, OSError(errno.EADDRINUSE, os.strerror(errno.EADDRINUSE)))
