#!/usr/bin/env python3
"""Writes capture.pcapng: a stream on two paths with losses, one on a single path, and what isn't RTP. The samples of
the first count from 1; those of the second count from 1001 on the left and down from -1001 on the right."""
import pathlib
import struct


def block(kind, body):
    body += bytes(-len(body) % 4)
    length = struct.pack("<I", len(body) + 12)
    return struct.pack("<I", kind) + length + body + length


def section():
    return block(0x0A0D0D0A, struct.pack("<IHHq", 0x1A2B3C4D, 1, 0, -1))


def interface():
    """Ethernet, with times in nanoseconds."""
    return block(1, struct.pack("<HHIHHB3xHH", 1, 0, 65535, 9, 1, 9, 0, 0))


def address(text):
    return bytes(int(part) for part in text.split("."))


def frame(source, to, port, payload, fragment=0):
    udp = struct.pack(">HHHH", port, port, len(payload) + 8, 0) + payload
    ip = struct.pack(">BBHHHBBH", 0x45, 0, len(udp) + 20, 0, fragment, 32, 17, 0)
    return bytes(12) + b"\x08\x00" + ip + address(source) + address(to) + udp


def packet(interface, micros, octets):
    time = 1_700_000_000_000_000_000 + micros * 1000
    head = struct.pack("<IIIII", interface, time >> 32, time & 0xFFFFFFFF, len(octets), len(octets))
    return block(6, head + octets)


def rtp(kind, number, stamp, source, samples):
    head = struct.pack(">BBHII", 128, kind, number & 0xFFFF, stamp, source)
    return head + b"".join(sample.to_bytes(3, "big", signed=True) for sample in samples)


def arrivals():
    """Interface, time in microseconds and frame of each packet."""
    for i in range(12):
        content = rtp(96, 65530 + i, 600 + 6 * i, 7, range(6 * i + 1, 6 * i + 7))
        at = 125 * i
        if i not in (2, 8):
            yield 0, at, frame("10.0.0.1", "239.1.0.1", 5004, content)
        if i != 7:
            skew = -40 if i == 3 else 250 + 10 * i
            yield 1, at + skew, frame("10.1.0.1", "239.2.0.1", 5004, content)
        if i == 5:
            yield 1, at + 500, frame("10.1.0.1", "239.2.0.1", 5004, content)
    for i in range(3):
        pairs = [side for n in range(48 * i + 1001, 48 * i + 1049) for side in (n, -n)]
        yield 0, 1000 * i + 7, frame("10.0.0.2", "239.1.0.2", 5006, rtp(97, i, 48 * i, 8, pairs))
    yield 0, 3000, frame("10.0.0.3", "239.255.255.255", 9875, b"v=0\r\n")
    yield 0, 3100, frame("10.0.0.2", "239.1.0.2", 5006, bytes(16), fragment=0x2000)


def main():
    octets = section() + interface() + interface()
    for number, micros, content in sorted(arrivals(), key=lambda a: a[1]):
        octets += packet(number, micros, content)
    pathlib.Path(__file__).with_name("capture.pcapng").write_bytes(octets)


main()
