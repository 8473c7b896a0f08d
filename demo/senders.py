"""The senders of the demo: a thread sends streams of tones on two paths each, with faults to look at."""
import math
import random
import socket
import threading
import time
from dataclasses import dataclass

PACKETS_PER_SECOND = 250
FRAMES = 192
RATE = 48_000
# The payload type of each stream in demo/studio.toml.
TYPE = 96
# The greatest value of a sample of L24.
FULL_SCALE = 2**23 - 1
# A tone swells and fades once in so many packets, so that the meters move.
SWELL = 500
LEVELS = 50
# One packet of so many is lost on path b of the stream that loses.
LOST_OF = 5
# How many packets path b is behind path a of the stream whose path b is late: 1.5 s. The latency is 0.5 s, and to it is
# added how long the first packet waits on a busy machine.
BEHIND = 375
# How many packets path b is before path a of the stream whose path b is too early: 3 s. The window spans 2 s.
BEFORE = 750
WHOLE, LOSING, RESTARTING, PAUSING, LATE, EARLY, REFUSED, UNJOINED, UNSENT = range(9)


@dataclass(frozen=True)
class Faults:
    """When a sender begins again, when it pauses, and for how long, in seconds."""

    restart_every: float = 20
    pause_every: float = 20
    pause: float = 4


def tone(hertz: int, level: float, channels: int) -> bytes:
    """The payload of a packet: a whole number of periods, so that each packet goes on where the one before it ended."""
    octets = b""
    for frame in range(FRAMES):
        angle = 2 * math.pi * hertz * frame / RATE
        for value in (math.sin(angle), math.cos(angle))[:channels]:
            octets += round(FULL_SCALE * level * value).to_bytes(3, "big", signed=True)
    return octets


class Sender:
    """The sender of one stream, of one or two channels. Its tone has 250 Hz, or a multiple of that."""

    def __init__(self, stream: int, channels: int, faults: Faults):
        self.stream, self.faults, self.chance = stream, faults, random.Random(stream)
        # Silence is too close to a lost packet, so a tone never fades below a tenth of full scale.
        swells = (0.3 - 0.2 * math.cos(2 * math.pi * step / LEVELS) for step in range(LEVELS))
        self.payloads = [tone(250 * (stream + 1), level, channels) for level in swells]
        self.begin(0)

    def begin(self, count: int):
        """Begins at this count with other numbers, as a sender does that was started again."""
        self.began = count
        self.first_number, self.first_timestamp = self.chance.randrange(2**16), self.chance.randrange(2**32)

    def begin_if_due(self, count: int):
        """Begins again if that is due at this count."""
        if self.stream == RESTARTING and count and count % round(self.faults.restart_every * PACKETS_PER_SECOND) == 0:
            self.begin(count)

    # It depends on the count alone, so that path b can bring the packet of another count as path a does.
    def packet(self, count: int, kind: int = TYPE) -> bytes:
        """The packet at this count, of a payload type, by the numbers with which the sender began last."""
        packets = count - self.began
        number, timestamp = self.first_number + packets, self.first_timestamp + packets * FRAMES
        head = bytes([0x80, kind]) + (number % 2**16).to_bytes(2, "big") + (timestamp % 2**32).to_bytes(4, "big")
        level = count % SWELL * LEVELS // SWELL
        return head + (self.stream + 1).to_bytes(4, "big") + self.payloads[level]

    def is_sent(self, count: int, path: int) -> bool:
        """Whether a packet is sent on a path at this count."""
        if self.stream == LOSING:
            return path == 0 or self.chance.randrange(LOST_OF) > 0
        if self.stream == PAUSING:
            # It begins with sound, and pauses at the end of each span.
            time_in_span = count / PACKETS_PER_SECOND % self.faults.pause_every
            return time_in_span < self.faults.pause_every - self.faults.pause
        if self.stream in (LATE, EARLY):
            # Path a has to bring the first packet, by whose arrival the media times are set. So path b begins later.
            return path == 0 or count >= BEHIND
        if self.stream == UNJOINED:
            return path == 0
        return self.stream != UNSENT

    def brought(self, count: int, path: int) -> bytes | None:
        """The packet that a path brings at this count, or `None` if it brings none."""
        if not self.is_sent(count, path):
            return None
        if path == 1 and self.stream == LATE:
            return self.packet(count - BEHIND)
        if path == 1 and self.stream == EARLY:
            return self.packet(count + BEFORE)
        if path == 1 and self.stream == REFUSED:
            return self.packet(count, TYPE + 1)
        return self.packet(count)


class Senders(threading.Thread):
    """A thread that sends all streams until `end`, by their tables in the configuration."""

    def __init__(self, streams: list[dict], faults: Faults):
        super().__init__(daemon=True)
        self.ports, self.over = [[table["port_a"], table["port_b"]] for table in streams], threading.Event()
        self.senders = [Sender(stream, table["channels"], faults) for stream, table in enumerate(streams)]

    def run(self):
        began, count = time.monotonic(), 0
        with socket.socket(socket.AF_INET, socket.SOCK_DGRAM) as one:
            while not self.over.is_set():
                self.send(one, count)
                count += 1
                time.sleep(max(0, began + count / PACKETS_PER_SECOND - time.monotonic()))

    def send(self, one: socket.socket, count: int):
        for sender, ports in zip(self.senders, self.ports):
            sender.begin_if_due(count)
            for path, port in enumerate(ports):
                if packet := sender.brought(count, path):
                    one.sendto(packet, ("127.0.0.1", port))

    def end(self):
        self.over.set()
        self.join()
