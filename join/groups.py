"""The groups of a run, and the interfaces by which it sends: whether they are still there, and what mends it.

With an interface the system drops its groups, and a socket that sends to a group by it has lost its way, for good: also
if there is an interface of the same name again. The sockets are this process's too, so it can join and set them again.
"""
import contextlib
import ipaddress
import socket
from dataclasses import dataclass

from . import linux
from .faults import say


@dataclass
class Group:
    """A group in which a socket is, at an interface. `is_joined` is what was last said of it."""

    name: str
    way: socket.socket
    address: str
    source: str | None
    interface: str
    index: int
    is_joined: bool = True

    @staticmethod
    def joined(name: str, way: socket.socket, address: str, source: str | None, interface: str) -> "Group":
        """Joins a group. Raises OSError if the system refuses it."""
        index = linux.index_of(interface)
        linux.join(way, index, address, source)
        return Group(name, way, address, source, interface, index)

    def look(self, memberships: set[tuple[int, str]] | None) -> None:
        """Joins the group again if its interface is another one or has lost it, and says what changed."""
        index = present_index(self.interface)
        if index == self.index and (memberships is None or (index, self.address) in memberships):
            return
        if self.is_joined:
            say(f"path {self.name}: no longer in {self.address} on {self.interface}")
            self.is_joined = False
        # A socket is in 20 groups at most, and counts those of interfaces that are gone.
        with contextlib.suppress(OSError):
            linux.leave(self.way, self.index, self.address)
        with contextlib.suppress(OSError):
            if index is not None:
                linux.join(self.way, index, self.address, self.source)
                self.index, self.is_joined = index, True
                say(f"path {self.name}: in {self.address} on {self.interface} again")


@dataclass
class Sender:
    """A socket that sends by an interface, to a group if `is_to_group`. `is_set` is what was last said of it."""

    name: str
    way: socket.socket
    interface: str
    is_to_group: bool
    index: int
    is_set: bool = True

    @staticmethod
    def set(name: str, way: socket.socket, interface: str, to: str) -> "Sender":
        """Lets a socket send to groups by an interface. Raises OSError if the system refuses it."""
        index = linux.index_of(interface)
        linux.send_by(way, index)
        return Sender(name, way, interface, ipaddress.IPv4Address(to).is_multicast, index)

    def look(self) -> None:
        """Sets the interface again if it is another one, and says what changed."""
        index = present_index(self.interface)
        if index == self.index or not self.is_to_group:
            return
        if self.is_set:
            say(f"{self.name}: {self.interface} is gone")
            self.is_set = False
        with contextlib.suppress(OSError):
            if index is not None:
                linux.send_by(self.way, index)
                self.index, self.is_set = index, True
                say(f"{self.name}: sends on {self.interface} again")


def present_index(interface: str) -> int | None:
    """The index of an interface, or None if there is none now."""
    try:
        return linux.index_of(interface)
    except OSError:
        return None


def look(groups: list[Group], senders: list[Sender]) -> None:
    """Looks at all groups and senders once."""
    memberships = linux.joined()
    for group in groups:
        group.look(memberships)
    for sender in senders:
        sender.look()
