"""Ports of 127.0.0.1 for runs of the program, and the listeners at those to which a run sends."""
import random
import socket
from collections.abc import Iterable

HOST = "127.0.0.1"
# The system gives none of these to a program that asks for any port, so nobody takes one between a test and its run.
OWN_PORTS = range(61_000, 65_536)
# The octets that a socket holds until they are read.
BUFFER = 8 << 20


def udp(address: str = HOST, port: int = 0) -> socket.socket:
    """Returns a UDP socket at an address, by default at any free port of 127.0.0.1."""
    one = socket.socket(socket.AF_INET, socket.SOCK_DGRAM)
    try:
        one.bind((address, port))
    except OSError:
        one.close()
        raise
    return one


def held(address: str = HOST) -> socket.socket:
    """Returns a UDP socket that never waits, at a port of an address that was free and is one of `OWN_PORTS`."""
    while True:
        try:
            one = udp(address, random.choice(OWN_PORTS))
        except OSError:
            continue
        one.setsockopt(socket.SOL_SOCKET, socket.SO_RCVBUF, BUFFER)
        one.setblocking(False)
        return one


def port_of(one: socket.socket) -> int:
    return one.getsockname()[1]


def free_ports(count: int) -> list[int]:
    """Returns so many different ports of 127.0.0.1 that were free."""
    holders = [held() for _ in range(count)]
    ports = [port_of(holder) for holder in holders]
    for holder in holders:
        holder.close()
    return ports


def free_port() -> int:
    return free_ports(1)[0]


def sockets_at(address: str, port: int) -> int:
    """Returns how many UDP sockets of this network are at an address and a port."""
    place = f"{socket.inet_aton(address)[::-1].hex().upper()}:{port:04X}"
    with open("/proc/self/net/udp") as file:
        return sum(line.split()[1] == place for line in file)


def are_bound(ports: Iterable[int]) -> bool:
    """Returns true if each of these ports of 127.0.0.1 has a socket."""
    return all(sockets_at(HOST, port) for port in ports)


class Listeners:
    """The sockets at these addresses to which a run sends the copies of its mix. Each has the datagrams that came in so
    far, and the addresses that sent them."""

    def __init__(self, addresses: Iterable[str] = (HOST, HOST)) -> None:
        self.sockets = [held(address) for address in addresses]
        self.ports = [port_of(one) for one in self.sockets]
        self.taken: list[list[bytes]] = [[] for _ in self.sockets]
        self.senders: list[set[str]] = [set() for _ in self.sockets]

    def take(self) -> None:
        """Takes what has come so far, without waiting."""
        for one, taken, senders in zip(self.sockets, self.taken, self.senders):
            try:
                while True:
                    octets, (address, _) = one.recvfrom(2_048)
                    taken.append(octets)
                    senders.add(address)
            except BlockingIOError:
                pass

    def close(self) -> None:
        for one in self.sockets:
            one.close()
