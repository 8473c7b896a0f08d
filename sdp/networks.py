"""The sockets of SAP: what is heard at its groups, and what is sent to them, on the networks that the user names."""
import errno
import fcntl
import os
import signal
import socket
import struct
from typing import NamedTuple

from .rules import DEVICE
from .sap import PORT, TTL
from .texts import Refused, is_ipv4, reason_of

# Not in the module socket: ip(7), <linux/in.h> and <linux/sockios.h>.
MULTICAST_ALL = 49
SIOCGIFADDR, SIOCGIFINDEX = 0x8915, 0x8933
# The octets of an interface's name, without the octet 0 at its end.
MAX_INTERFACE_OCTETS = 15
# The octets that a socket holds until they are read.
BUFFER = 1 << 20
ENDING = (signal.SIGINT, signal.SIGTERM, signal.SIGHUP)


class Interface(NamedTuple):
    """An interface: the word that names it, its number, and its address. Without a word it is the system's default."""

    word: str = ""
    index: int = 0
    address: str = "0.0.0.0"

    def text(self) -> str:
        return f" on {self.word}" if self.word else ""

    def request(self, group: str) -> bytes:
        """The structure ip_mreqn."""
        return socket.inet_aton(group) + socket.inet_aton(self.address) + struct.pack("@i", self.index)


def interfaces_named(words: list[str]) -> list[Interface]:
    """The interfaces of these names or own addresses, or the system's default if there are none."""
    return [interface_named(word) for word in dict.fromkeys(words)] or [Interface()]


def interface_named(word: str) -> Interface:
    try:
        if is_ipv4(word):
            with socket.socket(socket.AF_INET, socket.SOCK_DGRAM) as one:
                # Only an address of this machine can be bound.
                one.bind((word, 0))
            return Interface(word, 0, word)
        index, address = asked(SIOCGIFINDEX, word), asked(SIOCGIFADDR, word)
        return Interface(word, struct.unpack_from("@i", index)[0], socket.inet_ntoa(address[4:8]))
    except (OSError, ValueError) as fault:
        allowed = "allowed are an interface and an IPv4 address of one"
        raise Refused(f"--on {word}: {reason_of(fault)}; {allowed}", DEVICE) from None


def asked(request: int, name: str) -> bytes:
    """What the system says of an interface: the structure ifreq behind its name. `socket.if_nametoindex` would ask by a
    socket of AF_UNIX, which the service may not have."""
    if len(name.encode()) > MAX_INTERFACE_OCTETS:
        raise ValueError("No such device")
    with socket.socket(socket.AF_INET, socket.SOCK_DGRAM) as one:
        return fcntl.ioctl(one, request, struct.pack("16s24x", name.encode()))[16:]


def own_address(interface: Interface, group: str) -> str:
    """The address of this machine from which packets to a group are sent."""
    if interface.word:
        return interface.address
    with socket.socket(socket.AF_INET, socket.SOCK_DGRAM) as one:
        try:
            # It only asks the system for the way, and sends nothing.
            one.connect((group, PORT))
        except OSError as fault:
            raise no_network(f"{group} can't be reached", fault.strerror) from None
        address = one.getsockname()[0]
    if address == "0.0.0.0":
        raise no_network(f"{group} can't be sent to", "this machine has no address on its default network")
    return address


def receiver_at(group: str, interfaces: list[Interface]) -> socket.socket:
    """A socket that takes what is sent to a SAP group on these interfaces. Other programs may have one there too."""
    one = socket.socket(socket.AF_INET, socket.SOCK_DGRAM)
    try:
        one.setsockopt(socket.SOL_SOCKET, socket.SO_REUSEADDR, 1)
        one.setsockopt(socket.SOL_SOCKET, socket.SO_RCVBUF, BUFFER)
        # Nothing comes by what other programs have joined.
        one.setsockopt(socket.IPPROTO_IP, MULTICAST_ALL, 0)
        one.bind((group, PORT))
        for interface in interfaces:
            try:
                one.setsockopt(socket.IPPROTO_IP, socket.IP_ADD_MEMBERSHIP, interface.request(group))
            except OSError as fault:
                # Two words may name one interface, at which the socket then is already.
                if fault.errno == errno.EADDRINUSE:
                    continue
                raise no_network(f"{group} can't be joined{interface.text()}", fault.strerror) from None
    except OSError as fault:
        one.close()
        raise Refused(f"{group} port {PORT}: {fault.strerror}", DEVICE) from None
    except Refused:
        one.close()
        raise
    one.setblocking(False)
    return one


def sender_on(interface: Interface) -> socket.socket:
    """A socket that sends to groups on an interface, as far as RFC 2974 says: the scope ends at its borders, and not by
    the time to live. Programs of this machine hear it too."""
    one = socket.socket(socket.AF_INET, socket.SOCK_DGRAM)
    one.setsockopt(socket.IPPROTO_IP, socket.IP_MULTICAST_IF, interface.request("0.0.0.0"))
    one.setsockopt(socket.IPPROTO_IP, socket.IP_MULTICAST_TTL, TTL)
    one.setsockopt(socket.IPPROTO_IP, socket.IP_MULTICAST_LOOP, 1)
    return one


def no_network(text: str, reason: str) -> Refused:
    return Refused(f"{text}: {reason}; --on INTERFACE names a network", DEVICE)


def end_by_signals() -> int:
    """Lets Ctrl-C and SIGTERM end a loop in order: the descriptor that is returned can then be read. Descriptors of a
    pipe are used, since the service may have no sockets but those of IPv4."""
    reader, writer = os.pipe()
    os.set_blocking(writer, False)
    for number in ENDING:
        if number != signal.SIGHUP or signal.getsignal(number) != signal.SIG_IGN:
            signal.signal(number, lambda *_: None)
    signal.set_wakeup_fd(writer, warn_on_full_buffer=False)
    return reader
