"""Random studios of one to three streams, and traces of them: losses, delays, strays, restarts, near and far
readings."""
from random import Random

from traces import datagram, text_of

SAMPLE_OCTETS = {"L16": 2, "L24": 3}


def stream_of(random):
    """What the configuration says of a stream; its window spans its latency and two packets."""
    frames, window = random.choice((6, 6, 12, 16, 48, 192)), random.choice((8, 8, 16, 64))
    widest = (window - 2) * frames
    return {
        "encoding": random.choice(("L16", "L24")),
        "channels": random.choice((1, 1, 2)),
        "frames": frames,
        "pt": 96,
        "clock": random.choice(("media", "media", "media", "arrival", "follow")),
        "latency": random.choice((1, frames, 2 * frames, 2 * frames + 1, widest, random.randrange(1, widest + 1))),
        "window": window,
        "paths": random.choice((1, 2, 2, 3, 4)),
    }


def studio_of(random):
    """When it opens, its streams, and the text of its configuration."""
    open_at = random.choice((0, 0, 100, 2**32 - 50, 2**40))
    streams = [stream_of(random) for _ in range(random.choice((1, 2, 2, 3)))]
    outputs, inputs = random.choice((1, 2)), sum(stream["channels"] for stream in streams)
    output = {
        "encoding": random.choice(("L16", "L24")),
        "channels": outputs,
        "frames": random.choice((6, 12, 48, 192)),
        "pt": 97,
        "ssrc": 2,
        "seq": random.choice((0, 65534)),
        "start": max(0, open_at + random.choice((0, 0, -40, 30, 300))),
        "gains": [[random.randrange(-65536, 131072) for _ in range(inputs)] for _ in range(outputs)],
    }
    if all(stream["clock"] == "media" for stream in streams):
        output["clock"] = random.choice(("run", "media"))
    tables = [("[[stream]]", stream) for stream in streams] + [("[output]", output)]
    lines = [f"open_at = {open_at}"]
    for head, table in tables:
        lines += [head] + [
            f'{key} = "{value}"' if isinstance(value, str) else f"{key} = {value}" for key, value in table.items()
        ]
    return open_at, streams, "".join(line + "\n" for line in lines)


def comings_of(random, open_at, number, stream):
    """A stream's packets as they come in: (time, rank at that time, event). The sender begins anew now and then."""
    frames, latency = stream["frames"], stream["latency"]
    octets = frames * stream["channels"] * SAMPLE_OCTETS[stream["encoding"]]
    seq, ssrc, media = random.randrange(65536), 1, open_at + random.choice((0, 7, 100, 3 * latency))
    delays = (0, 0, 1, frames, latency - 1, latency, latency + 1, 2 * latency, -frames, random.randrange(latency + 1))
    usual, rare = random.choices(delays, k=4), random.choice((0, 0.02, 0.25))
    for _ in range(random.randrange(60)):
        if random.random() < 0.05:
            seq, ssrc = random.randrange(65536), random.choice((1, 2, 3))
            media += random.choice((0, 0, 1, frames, latency, 5 * latency, -frames))
        ts = media if random.random() > rare / 4 else media + random.choice((1, -1, 2**31, random.randrange(2**32)))
        payload = random.randbytes(octets if random.random() > rare / 4 else octets - 1)
        for path in range(stream["paths"]):
            delay = usual[path] if random.random() > rare else random.choice(delays)
            if random.random() > rare:
                event = ("abcd"[path], number, datagram(random, seq, max(0, ts), ssrc, payload, 0.97))
                yield max(open_at, media + delay), random.random(), event
        seq, media = seq + 1, media + frames


def studio_trace(random: Random) -> tuple[str, str]:
    """A configuration's text, and that of a trace."""
    open_at, streams, config = studio_of(random)
    comings = [
        coming for number, stream in enumerate(streams) for coming in comings_of(random, open_at, number, stream)
    ]
    now, last = open_at, max([open_at] + [time for time, _, _ in comings]) + random.choice((0, 50, 3000, 100_000))
    while now < last:
        comings.append((now, random.random(), ("tick", now)))
        now += random.choice((1, 5, 6, 6, 12, 48, 48, 200, 3000))
    if random.random() < 0.7:
        close = random.choice((last, random.randrange(open_at, last + 1)))
        comings = [coming for coming in comings if coming[0] <= close or coming[2][0] != "tick"]
        comings += [(close, 2, ("close",))] * random.choice((1, 2))
    comings.sort(key=lambda coming: coming[:2])
    events = [event for _, _, event in comings]
    if random.random() < 0.05 and events:
        stray = random.choice((("tick", open_at - 1), ("tick", 2**60 + 1), ("a", 3, b"")))
        events.insert(random.randrange(len(events)), stray)
    return config, text_of(events)
