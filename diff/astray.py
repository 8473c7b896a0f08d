"""Random traces of senders that are astray: they drift, burst, pause, lose cycles and begin again, on one to four
paths, with forged packets."""
from random import Random

from traces import FRAMES, OCTETS, datagram

# the configuration of such a stream, but for its paths; the output is not looked at
CONFIG = """open_at = 0
[[stream]]
encoding = "L24"
channels = 1
frames = 6
pt = 96
clock = "follow"
latency = 12
window = 8
paths = {paths}
[output]
encoding = "L24"
channels = 1
frames = 6
pt = 97
ssrc = 2
seq = 0
start = 0
gains = [[65536]]
"""


def sent_at(random, count):
    """When each of so many packets is sent, in sampling instants from the first one's: a sender's own time, in
    bursts."""
    pace = FRAMES * random.choice((1, 1, 0.9, 0.95, 1.05, 1.1, 0.5, 2))
    burst = random.choice((1, 1, 1, 2, 3, 5, 10))
    at, slips = 0.0, random.choice((0, 0, 0.01, 0.05))
    for n in range(count):
        if n % burst == 0 and random.random() < slips:
            # a cycle that is lost, or a pause: neither the number nor the timestamp shows it
            at += random.choice((burst * FRAMES, 10 * FRAMES, 60, 300, 3000))
        yield int(at) if burst == 1 else int(at - n % burst * pace)
        at += pace


def run(random, paths, start, begin):
    """A sender's packets as they come in, from this number, timestamp and source on."""
    seq, ts, ssrc = begin
    delays = [random.choice((0, 0, 0, 1, 6, 13, 24, 60)) for _ in range(paths)]
    lost, jitter = random.choice((0, 0, 0.02, 0.2)), random.choice((0, 0, 1, 6, 12))
    forged, strays = random.choice((0, 0, 0, 0.5, 1)), random.choice((0, 0, 0.1))
    for n, at in enumerate(sent_at(random, random.randrange(8, 500))):
        payload = bytes([n % 256]) * OCTETS
        for path in range(paths):
            now = start + at + delays[path] + random.randrange(jitter + 1)
            if random.random() >= lost:
                yield now, random.random(), (
                    "abcd"[path], 0, datagram(random, seq + n, ts + n * FRAMES, ssrc, payload, 1)
                )
        now, last = start + at, "abcd"[paths - 1]
        if random.random() < forged:
            # numbers on the grid and beyond the window, or numbers again that were heard
            jump = random.choice((8, 9, 20, 100, 1000, -1, -5, -20))
            yield now, random.random(), (
                last, 0, datagram(random, seq + n + jump, ts + (n + jump) * FRAMES, ssrc, payload, 1)
            )
        if random.random() < strays:
            other = random.choice(((seq + n, ts + n * FRAMES + 1, ssrc), (seq + n, ts + n * FRAMES, 7)))
            yield now, random.random(), (random.choice("abcd"[:paths]), 0, datagram(random, *other, payload, 1))


def trace(random: Random) -> tuple[int, list[tuple]]:
    """How many paths there are, and the events of a trace, in order."""
    paths, comings, start = random.choice((1, 1, 2, 2, 3, 4)), [], random.choice((0, 0, 7, 100))
    begin = random.choice((0, 1, 65500, random.randrange(65536))), random.randrange(2**32), random.choice((1, 2))
    for _ in range(random.choice((1, 1, 2))):
        comings += run(random, paths, start, begin)
        if comings:
            start = max(time for time, _, _ in comings) + random.choice((0, 6, 100, 1000))
            if random.random() < 0.1:
                # a silence of about a second
                start += random.randrange(47_900, 48_100)
        if random.random() < 0.5:
            begin = random.randrange(65536), random.randrange(2**32), random.choice((1, 2, 3))
    last, step = max([start] + [time for time, _, _ in comings]) + 30, random.choice((1, 3, 6, 6, 7, 12, 40))
    if last > 10_000:
        # a trace with a silence would be readings for the most part
        step *= 20
    readings = range(random.randrange(6), last, step)
    comings += [(now, random.random(), ("tick", now)) for now in readings if random.random() < 0.9]
    if random.random() < 0.7:
        comings.append((last, 2, ("close",)))
    comings.sort(key=lambda coming: coming[:2])
    return paths, [event for _, _, event in comings]
