"""Packets of RTP as a sender writes them, the pace at which it sends them, and samples of 24 bits."""
import itertools
import socket
import time
from collections.abc import Iterable, Iterator

from .ports import HOST

RATE = 48_000
L24_OCTETS = 3


def datagram(kind: int, number: int, timestamp: int, source: int, payload: bytes) -> bytes:
    """Returns an RTP packet of a payload type. Its number and timestamp wrap."""
    fields = (number % 2**16).to_bytes(2, "big") + (timestamp % 2**32).to_bytes(4, "big") + source.to_bytes(4, "big")
    return bytes([0x80, kind]) + fields + payload


def l24(values: Iterable[int]) -> bytes:
    """Returns samples as L24 has them."""
    return b"".join(value.to_bytes(L24_OCTETS, "big", signed=True) for value in values)


def values_of(octets: bytes) -> list[int]:
    """Returns the samples that octets of L24 have."""
    places = range(0, len(octets), L24_OCTETS)
    return [int.from_bytes(octets[at : at + L24_OCTETS], "big", signed=True) for at in places]


def little_endian(octets: bytes) -> bytes:
    """Returns samples of L24 with the least octet of each first, as WAV files and raw PCM have them."""
    turned = bytearray(len(octets))
    for place in range(L24_OCTETS):
        turned[place::L24_OCTETS] = octets[L24_OCTETS - 1 - place :: L24_OCTETS]
    return bytes(turned)


def paced(frames: int, burst: int = 1) -> Iterator[int]:
    """Counts packets of so many frames from 0 on, and waits before each burst until its time has come."""
    began = time.monotonic()
    for count in itertools.count():
        if count % burst == 0:
            time.sleep(max(0, began + count * frames / RATE - time.monotonic()))
        yield count


def sender() -> socket.socket:
    """Returns a UDP socket that sends."""
    return socket.socket(socket.AF_INET, socket.SOCK_DGRAM)


def send(out: socket.socket, port: int, octets: bytes) -> None:
    """Sends a datagram to a port of 127.0.0.1."""
    out.sendto(octets, (HOST, port))
