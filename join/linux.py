"""What Python has no names for of Linux: the network interfaces, and groups by the index of an interface."""
import ctypes
import errno
import fcntl
import os
import socket
import struct
import sys

SIOCGIFCONF, SIOCGIFINDEX = 0x8912, 0x8933
MULTICAST_ALL = 49
# Protocol-independent membership (RFC 3678): by the index of an interface, which also a deleted one had.
JOIN_GROUP, LEAVE_GROUP, JOIN_SOURCE_GROUP = 42, 45, 46
# A request for an interface has 40 octets: 16 of its name, and 24 of an address, which begins with its family, a port
# and the octets of IPv4.
REQUEST, NAME_OCTETS = 40, 16
MOST_INTERFACES = 4_096
IGMP = "/proc/self/net/igmp"


def index_of(name: str) -> int:
    """The index of an interface. Raises OSError if there is none."""
    with socket.socket(socket.AF_INET, socket.SOCK_DGRAM) as way:
        answer = fcntl.ioctl(way, SIOCGIFINDEX, struct.pack("256s", name.encode()[: NAME_OCTETS - 1]))
    return struct.unpack_from("i", answer, NAME_OCTETS)[0]


def name_of(address: str) -> str:
    """The name of the interface that has an address. Raises OSError if there is none."""
    room = ctypes.create_string_buffer(REQUEST * MOST_INTERFACES)
    with socket.socket(socket.AF_INET, socket.SOCK_DGRAM) as way:
        answer = fcntl.ioctl(way, SIOCGIFCONF, struct.pack("iP", len(room), ctypes.addressof(room)))
    octets, wanted = room.raw[: struct.unpack_from("i", answer)[0]], socket.inet_aton(address)
    for at in range(0, len(octets), REQUEST):
        if octets[at + 20 : at + 24] == wanted:
            # An alias has its number behind a colon.
            return octets[at : at + NAME_OCTETS].split(b"\0")[0].decode().partition(":")[0]
    raise OSError(errno.ENODEV, os.strerror(errno.ENODEV))


def padded(address: str) -> bytes:
    """An address of IPv4 as the system has it in 128 octets."""
    return struct.pack("=HH4s120x", socket.AF_INET, 0, socket.inet_aton(address))


def join(way: socket.socket, index: int, group: str, source: str | None) -> None:
    """Joins a group at an interface, from one source if there is one."""
    request = struct.pack("I4x", index) + padded(group)
    if source is None:
        way.setsockopt(socket.IPPROTO_IP, JOIN_GROUP, request)
    else:
        way.setsockopt(socket.IPPROTO_IP, JOIN_SOURCE_GROUP, request + padded(source))


def leave(way: socket.socket, index: int, group: str) -> None:
    """Leaves a group at an interface, from all sources. The interface may be gone."""
    way.setsockopt(socket.IPPROTO_IP, LEAVE_GROUP, struct.pack("I4x", index) + padded(group))


def send_by(way: socket.socket, index: int) -> None:
    """Lets a socket send to groups by an interface."""
    way.setsockopt(socket.IPPROTO_IP, socket.IP_MULTICAST_IF, struct.pack("4s4si", b"", b"", index))


def joined() -> set[tuple[int, str]] | None:
    """The groups that this machine has joined, each with the index of its interface. None if the system shows none."""
    try:
        with open(IGMP) as file:
            rows = [line.split() for line in file.readlines()[1:]]
    except OSError:
        return None
    found, index = set(), 0
    for row in rows:
        # A row of an interface begins with its index, and is followed by one for each group.
        if len(row) > 1 and ":" in row:
            index = int(row[0])
        elif row:
            found.add((index, socket.inet_ntoa(int(row[0], 16).to_bytes(4, sys.byteorder))))
    return found
