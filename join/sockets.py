"""The sockets of a run: one for each path, in its group, and one for each copy of the mix."""
import collections
import socket
from collections.abc import Callable
from typing import TypeVar

from . import linux
from .faults import Unopened
from .groups import Group, Sender
from .studio import LOCALHOST, Path, Studio

Made = TypeVar("Made")
RECEIVE_OCTETS = 8 << 20
AUDIO = 34 << 2


class Sockets:
    """Sockets by the names under which the program takes them, with the groups that they are in and the interfaces by
    which they send to one."""

    def __init__(self, studio: Studio, paths: list[Path], are_shared: bool) -> None:
        self.by_name: dict[str, socket.socket] = {}
        self.groups: list[Group] = []
        self.senders: list[Sender] = []
        uses = collections.Counter((path.address, path.port) for path in paths)
        for path in paths:
            is_shared = uses[path.address, path.port] > 1 or are_shared and path.is_group
            self.by_name[path.name] = opened(path, lambda path=path: self.receiver(path, is_shared))
        for copy in "ab":
            address = studio["output"].get(f"from_{copy}", LOCALHOST)
            to_group = studio["output"].get(f"to_address_{copy}", LOCALHOST)
            what = f"copy {copy} of the mix from {address}"
            self.by_name[f"to_{copy}"] = opened(what, lambda: self.sender(f"to_{copy}", address, to_group))

    def receiver(self, path: Path, is_shared: bool) -> socket.socket:
        """A socket that takes what comes to a path's address and port, of a group only what comes by its own join."""
        made = socket.socket(socket.AF_INET, socket.SOCK_DGRAM)
        if is_shared:
            made.setsockopt(socket.SOL_SOCKET, socket.SO_REUSEADDR, 1)
        made.setsockopt(socket.SOL_SOCKET, socket.SO_RCVBUF, RECEIVE_OCTETS)
        if path.is_group and path.interface is not None:
            made.setsockopt(socket.IPPROTO_IP, linux.MULTICAST_ALL, 0)
            self.groups.append(Group.joined(path.name, made, path.address, path.source, path.interface))
        made.bind((path.address, path.port))
        return made

    def sender(self, name: str, address: str, to: str) -> socket.socket:
        """A socket that sends from an address, through its interface."""
        made = socket.socket(socket.AF_INET, socket.SOCK_DGRAM)
        made.setsockopt(socket.IPPROTO_IP, socket.IP_TOS, AUDIO)
        made.bind((address, 0))
        try:
            interface = linux.name_of(address)
        except OSError:
            # An address that the system has without listing it, as 127.0.0.2, is of an interface that does not go.
            made.setsockopt(socket.IPPROTO_IP, socket.IP_MULTICAST_IF, socket.inet_aton(address))
            return made
        self.senders.append(Sender.set(name, made, interface, to))
        return made


def opened(what: object, make: Callable[[], Made]) -> Made:
    """What a call makes with the system, whose error says for what it was."""
    try:
        return make()
    except OSError as error:
        raise Unopened(what, error) from None
