"""Random traces: senders' packets on two paths, with losses, delays, copies that differ, strays, restarts and
faults."""
from random import Random

FRAMES, OCTETS = 6, 18


def datagram(random: Random, seq: int, ts: int, ssrc: int, payload: bytes, plain: float = 0.8) -> bytes:
    """An RTP packet; sometimes with CSRCs, an extension or padding, or with a fault."""
    first, between, after = 0x80, b"", b""
    if random.random() > plain:
        csrcs = random.choice((0, 0, 1, 2))
        between = random.randbytes(4 * csrcs)
        first += csrcs
        if random.random() < 0.5:
            words = random.choice((0, 1, 2))
            first += 0x10
            between += random.randbytes(2) + words.to_bytes(2, "big") + random.randbytes(4 * words)
        if random.random() < 0.5:
            padding = random.choice((1, 2, 4, 0, 200))
            first += 0x20
            after = (bytes(max(padding, 1) - 1) + bytes([padding]))[-4:]
            # in place of samples, so that its count decides whether the length is the stream's
            payload = payload[: -len(after)] if random.random() < 0.5 else payload
    if random.random() < 0.01:
        first ^= 0x40
    second = random.choice((96, 96, 96, 224, 97)) if random.random() > plain else 96
    head = bytes([first, second]) + (seq % 65536).to_bytes(2, "big")
    head += (ts % 2**32).to_bytes(4, "big") + ssrc.to_bytes(4, "big")
    whole = head + between + payload + after
    return whole[: random.randrange(1, len(whole))] if random.random() < 0.01 else whole


def sender(random, start, path_names):
    """A sender's packets as they come in: (time, rank at that time, event)."""
    seq, offset = random.choice((0, 1, 65530, 32768, random.randrange(65536))), random.choice((0, 0, 0, 3, -7))
    ssrc = random.choice((1, 2, 0xFFFFFFFF))
    media = max(0, start + random.randrange(-20, 60))
    for n in range(random.randrange(1, 40)):
        payload = bytes([random.randrange(256)]) * OCTETS
        for name in path_names:
            if random.random() < 0.25:
                continue
            sent, stray = payload, random.random()
            ts, number, source = media + offset + n * FRAMES, seq + n, ssrc
            if stray < 0.03:
                sent = bytes([random.randrange(256)]) * random.choice((OCTETS, OCTETS, OCTETS - 3))
            elif stray < 0.05:
                ts += random.choice((1, -1, 65536 * FRAMES, -65536 * FRAMES, 2**31))
            elif stray < 0.06:
                source = 7
            elif stray < 0.09:
                jump = random.choice((7, 8, 9, -1, -2, 32767, 32768, 65536))
                number, ts = number + jump, ts + jump * FRAMES
            delay = random.choice((0, 0, 1, 5, 6, 11, 12, 12, 13, 18, 24, -6, -30, -36))
            stream = 1 if random.random() < 0.0005 else 0
            name = "c" if random.random() < 0.0005 else name
            yield media + n * FRAMES + delay, random.random(), (
                name, stream, datagram(random, number, ts, source, sent)
            )


class Run:
    """Packets in sequence of one sender: the number, timestamp and source of its n-th packet."""

    def __init__(self, seq, ts, ssrc):
        self.seq, self.ts, self.ssrc = seq, ts, ssrc

    def at(self, n):
        return self.seq + n, self.ts + n * FRAMES, self.ssrc


def begun_anew(random, run, media):
    """What a sender goes on as: with other numbers, other timestamps, as another source, or some of these."""
    if random.random() < 0.1:
        # in step with what went before, so that its source alone is another
        steps = (media - run.ts) // FRAMES
        return Run(*run.at(steps)[:2], run.ssrc ^ 1)
    seq, offset, ssrc = run.seq, random.choice((0, 0, 0, 0, 0, 1, -1, 3, 6, -6)), run.ssrc
    if random.random() < 0.6:
        # numbers that wrap within a probation, that step back or ahead, or any
        seq = random.choice(
            (65536 - random.randrange(12), seq + 1, seq + 9, seq - 8, seq + 32768, random.randrange(65536))
        )
    if random.random() < 0.2:
        # media times that go back, lie ahead, or are of another time altogether
        offset = random.choice(
            (-7, -30, -60, 7, 30, 40, 100, 2**31, 2**31 - 1, 65536 * FRAMES, random.randrange(2**32))
        )
    if random.random() < 0.4:
        ssrc = random.choice((1, 2, 3, 0xFFFFFFFF))
    return Run(seq, media + offset, ssrc)


def in_between(random, old, media):
    """A packet that comes within a probation: mostly one on the grid of the run before, which may be held."""
    if random.random() < 0.8:
        # near the one that would be due at this time
        return old.at((media - old.ts) // FRAMES + random.choice((-3, -2, -1, -1, 0, 1, 2, 6)))
    return random.randrange(65536), media, random.choice((old.ssrc, 7))


def flawed(random, packet):
    """A packet with another number, timestamp or source, which breaks a probation."""
    seq, ts, ssrc = packet
    return random.choice(((seq + 1, ts, ssrc), (seq, ts + random.choice((1, -FRAMES)), ssrc), (seq, ts, ssrc ^ 1)))


# as fast as packets play, faster, slower, or all at once: so a later one may be in reach where the eighth isn't
PACES = (FRAMES, FRAMES, FRAMES, FRAMES, FRAMES, 3, 12, 0)


def run_comings(random, old, run, count, media, path_names, paces=PACES):
    """A run's packets as they come in, in sequence on each path but for losses and what comes in between."""
    pace = random.choice(paces)
    delay = random.choice((0, 0, 0, 0, 0, 1, 5, 6, 7, 8, 9, 10, 11, 12, -12, -35, -36))
    for name in path_names:
        rank, missing = random.random(), random.random()
        lost = {7} if missing < 0.1 else {random.randrange(count)} if missing < 0.3 else set()
        between = random.randrange(count) if random.random() < 0.25 else None
        late = delay + (random.choice((0, 0, 1, 6, 13, 40)) if name == "b" else 0)
        for n in range(count):
            now, order, chance = media + n * pace + late, rank + n / 1024, random.random()
            payload = bytes([random.randrange(256) if random.random() < 0.05 else n]) * OCTETS
            packets = [] if n in lost or chance < 0.01 else [run.at(n)]
            if chance > 0.99:
                packets.append(run.at(n))
            elif chance > 0.98:
                packets = [flawed(random, run.at(n))]
            for packet in packets:
                yield now, order, (name, 0, datagram(random, *packet, payload, 0.97))
            if n == between:
                other = in_between(random, old, now)
                yield now, order, (random.choice("ab"), 0, datagram(random, *other, payload, 0.97))


def restarting(random, start):
    """A sender that begins anew, once or several times in a row."""
    media = max(0, start + random.randrange(-6, 30))
    old = run = Run(random.choice((0, 1, 65530, random.randrange(65536))), media, random.choice((1, 2, 0xFFFFFFFF)))
    if random.random() < 0.1:
        # first one that begins too far ahead to be the anchor, and slowly comes into reach
        ahead = Run(random.randrange(65536), media + 60, 9)
        yield from run_comings(random, old, ahead, 16, media, "b", (12,))
        media += random.choice((0, 12, 24))
    for _ in range(random.choice((2, 2, 2, 3, 4, 6))):
        count = random.choice((1, 7, 8, 8, 9, 9, 10, 12, 16, 24)) if run != old else random.randrange(1, 12)
        if run != old and random.random() < 0.2:
            # another one at the same time, on the other path
            begin = media + random.choice((0, 6, 18, 24, 36))
            yield from run_comings(random, old, run, random.choice((8, 9, 12)), media, "a")
            yield from run_comings(random, old, begun_anew(random, run, begin), 20, begin, "b")
        else:
            yield from run_comings(random, old, run, count, media, random.choice(("ab", "ab", "ab", "a", "b")))
        # the next one follows at once, after a pause, or while this one still sends
        media = max(0, media + count * FRAMES + random.choice((0, 0, 0, 6, 12, 13, 18, 60, -6, -12, -30, -48)))
        old, run = run, begun_anew(random, run, media)


def trace(random: Random) -> list[tuple]:
    """The events of a trace, in order."""
    start, comings = random.choice((0, 0, 0, 100, 2**32 - 50, 2**40, 2**60 - 400)), []
    if random.random() < 0.5:
        start = random.choice((start, start, 2**32 - random.randrange(40, 300), 2**60 - 1500))
        comings += restarting(random, start)
        if random.random() < 0.1:
            comings += restarting(random, start)
    else:
        for _ in range(random.choice((1, 1, 1, 2))):
            comings += sender(random, start, "ab")
    last = max([start] + [time for time, _, _ in comings]) + 30
    step = random.choice((1, 3, 6, 6, 7, 40))
    ticks = range(start, last, step) if start else range(random.randrange(6), last, step)
    comings += [(now, random.random(), ("tick", now)) for now in ticks if random.random() < 0.9]
    if random.random() < 0.7:
        close = last if random.random() < 0.7 else random.randrange(start, last)
        comings = [c for c in comings if c[0] <= close or c[2][0] != "tick"]
        comings += [(close, random.random(), ("close",))] * random.choice((1, 1, 2))
    # at one time by rank; the clock comes near the start before the first packet, so no gap is long
    comings.sort(key=lambda coming: coming[:2])
    events = [event for _, _, event in comings if event[0] != "tick" or event[1] >= start]
    events = ([("tick", start)] if start else []) + events
    if random.random() < 0.03 and events:
        stray = random.choice((("tick", start), ("tick", 2**60 + 1), ("tick", last), ("close",)))
        events.insert(random.randrange(len(events)), stray)
    return events


def text_of(events: list[tuple]) -> str:
    """The trace as docs/FORMATS.md says it."""
    lines = []
    for event in events:
        if event[0] == "tick":
            lines.append(f"tick {event[1]}")
        elif event[0] == "close":
            lines.append("close")
        else:
            lines.append(f"{event[0]} {event[1]} {event[2].hex()}")
    return "".join(line + "\n" for line in lines)
