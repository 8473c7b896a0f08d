"""A slow receiver of the program's stream, after docs/RECEPTION.md and docs/FORMATS.md.

It finds the anchors, each epoch's packets and all fates over the whole trace before it gives a mark. Traces
have to be well formed; faults of events are answered.
"""
from collections import Counter, defaultdict, namedtuple
from itertools import islice

FRAMES, LATENCY, WINDOW, TYPE, OCTETS = 6, 12, 8, 96, 18
PROBATION = 8
# a path is astray if so many of its last arrivals are behind or beyond; its sender is once that lasts for so long
ASTRAY, LAST, LASTING = 8, 256, 960
# the time after which the arrivals of a path no longer count, if no other one came on it
SILENCE = 48_000
LATEST = 2**60

# what a specification asks for: a source or None, the offset of the media clock or None for the clocks of arrivals,
# whether the clock follows a sender that is astray, and how many paths there are
Stream = namedtuple("Stream", "source offset follows paths", defaults=(None, 0, False, 2))
Packet = namedtuple("Packet", "seq ts ssrc payload")
Anchor = namedtuple("Anchor", "number ts media ssrc")
# the place of the event that opened it, its anchor, and the payload of each number
Epoch = namedtuple("Epoch", "place anchor packets")
# an arrival of a path after the anchor in force, and whether it was off as it came
Came = namedtuple("Came", "packet off")
# how an arrival after the anchor in force stands by the clock that follows: its number if it is a copy in time, or None
Stood = namedtuple("Stood", "path time number behind beyond")

PROGRAM = Stream()


def packet_of(octets: bytes) -> Packet | None:
    """The stream's packet in a datagram, or None."""
    if len(octets) < 12 or octets[0] >> 6 != 2:
        return None
    begin, end = 12 + 4 * (octets[0] & 0x0F), len(octets)
    if begin > end:
        return None
    if octets[0] & 0x10:
        if begin + 4 > end:
            return None
        begin += 4 + 4 * int.from_bytes(octets[begin + 2 : begin + 4], "big")
        if begin > end:
            return None
    if octets[0] & 0x20:
        if begin == end or not 1 <= octets[-1] <= end - begin:
            return None
        end -= octets[-1]
    if octets[1] & 0x7F != TYPE or end - begin != OCTETS:
        return None
    seq, ts, ssrc = (int.from_bytes(octets[a:b], "big") for a, b in ((2, 4), (4, 8), (8, 12)))
    return Packet(seq, ts, ssrc, octets[begin:end])


def nearest(low: int, cycle: int, reference: int) -> int:
    """The number with these low bits that lies nearest to a reference."""
    least = reference - cycle // 2
    return least + (low - least) % cycle


def media_time_of(anchor: Anchor, number: int) -> int:
    return anchor.media + (number - anchor.number) * FRAMES


def next_due(anchor: Anchor, time: int) -> int:
    """The least number from the anchor's on whose deadline is after the time."""
    return anchor.number + max(0, (time - (anchor.media + LATENCY)) // FRAMES + 1)


def number_of(anchor, time, packet):
    return nearest(packet.seq, 65536, next_due(anchor, time))


def is_asked_for(stream, packet):
    return stream.source in (None, packet.ssrc)


def is_off_grid(anchor, time, packet):
    return packet.ts != (anchor.ts + (number_of(anchor, time, packet) - anchor.number) * FRAMES) % 2**32


def is_off(anchor, time, packet):
    return packet.ssrc != anchor.ssrc or is_off_grid(anchor, time, packet)


def out_of_reach(time, media):
    """On which side a media time is out of an anchor's reach, or None."""
    if media <= time - LATENCY:
        return "late"
    if media >= time - LATENCY + WINDOW * FRAMES:
        return "ahead"
    return None


def first_media(stream, time, packet):
    """The media time that a first packet would have."""
    if stream.offset is None:
        return time
    return nearest((packet.ts - stream.offset) % 2**32, 2**32, time)


def anchor_at(packet, media):
    return Anchor(65536 + packet.seq, packet.ts, media, packet.ssrc)


def follows(before, packet):
    """Whether a packet is the next one in sequence."""
    return (packet.ssrc, packet.seq, packet.ts) == (
        before.ssrc, (before.seq + 1) % 65536, (before.ts + FRAMES) % 2**32
    )


def completes_probation(came):
    """Whether the last of a path's arrivals completes a probation."""
    last = came[-PROBATION:]
    in_sequence = all(follows(before.packet, one.packet) for before, one in zip(last, last[1:]))
    return len(last) == PROBATION and all(one.off for one in last) and in_sequence


def run_of_path(stood, path):
    """Gives the arrivals of a path, the latest first, up to the first that came too long before the one after it."""
    after = None
    for one in reversed(stood):
        if one.path != path:
            continue
        if after and one.time + SILENCE < after.time:
            return
        yield one
        after = one


def is_astray(one):
    return one.behind or one.beyond


def is_early(stood, time, path):
    """Whether packets come too early on a path, if its last one is not too long ago."""
    run = list(islice(run_of_path(stood, path), LAST))
    return bool(run) and run[0].time + SILENCE >= time and sum(one.beyond for one in run) >= ASTRAY


def holds_one(stood, due, path):
    """Whether a packet of a path is held."""
    return any(one.path == path and one.number is not None and one.number >= due for one in stood)


def is_emptying(anchor, due, time, stood):
    """Whether what is held is handed on and nothing more is taken: packets come too early on each path of which one is
    held."""
    early = {path: is_early(stood, time, path) for path in "abcd"}
    if anchor.number >= due or not any(early.values()):
        return False
    return all(early[path] for path in "abcd" if holds_one(stood, due, path))


def width_of(stream, anchor, time, stood):
    """How many numbers, from the one due next on, are in time."""
    return 0 if stream.follows and is_emptying(anchor, next_due(anchor, time), time, stood) else WINDOW


def stands(stream, anchor, time, stood, path, packet):
    """How an arrival stands, after those that stood so."""
    due, number = next_due(anchor, time), number_of(anchor, time, packet)
    if is_off(anchor, time, packet):
        return Stood(path, time, None, False, False)
    width = width_of(stream, anchor, time, stood)
    greatest = max([anchor.number] + [one.number for one in stood if one.number is not None])
    in_time = due <= number < due + width
    return Stood(path, time, number if in_time else None, greatest < number < due, number >= due and not in_time)


def astray_since(run):
    """Since when a path is astray at each of its arrivals up to the latest, which comes first; or None."""
    since, many = None, sum(map(is_astray, run[:LAST]))
    for place, one in enumerate(run):
        if many < ASTRAY:
            break
        since = one.time
        # The window of the arrival before: without this one, and with the one behind its end.
        many += sum(map(is_astray, run[place + LAST : place + LAST + 1])) - is_astray(one)
    return since


def is_slip(time, stood):
    """Whether the sender is astray with the last arrival: it is behind or beyond, and its path is astray for long."""
    if not is_astray(stood[-1]):
        return False
    since = astray_since(list(run_of_path(stood, stood[-1].path)))
    return since is not None and since + LASTING <= time


def anchor_of_restart(stream, epoch, time, came, stood):
    """The next epoch's anchor, where the last of a path's arrivals opens it; or None."""
    due, packet = next_due(epoch.anchor, time), came[-1].packet
    opens = completes_probation(came) or stream.follows and is_slip(time, stood)
    if not opens or any(number >= due for number in epoch.packets):
        return None
    media, least = first_media(stream, time, packet), media_time_of(epoch.anchor, due)
    if stream.offset is None:
        media = max(media, least)
    return None if media < least or out_of_reach(time, media) else anchor_at(packet, media)


def anchor_of_arrival(stream, epochs, time, came, stood, packet):
    """The anchor that an arrival is, the first or a restart's; or None."""
    if not is_asked_for(stream, packet):
        return None
    if epochs:
        return anchor_of_restart(stream, epochs[-1], time, came, stood)
    media = first_media(stream, time, packet)
    return None if out_of_reach(time, media) else anchor_at(packet, media)


def fate_of_first(stream, time, packet):
    """The fate of an arrival before an anchor."""
    if not is_asked_for(stream, packet):
        return "wrong_source"
    return out_of_reach(time, first_media(stream, time, packet))


def fate_of_next(epoch, time, packet, width):
    """The fate of an arrival after an anchor, in a window of this width."""
    anchor, packets = epoch.anchor, epoch.packets
    due, number = next_due(anchor, time), number_of(anchor, time, packet)
    if packet.ssrc != anchor.ssrc:
        return "wrong_source"
    if is_off_grid(anchor, time, packet):
        return "off_grid"
    if number < due:
        return "late"
    if number >= due + width:
        return "ahead"
    if number not in packets:
        return "taken"
    return "double" if packets[number] == packet.payload else "unlike"


def arrivals(events, stream=PROGRAM):
    """The epochs with their packets, and the fate of each datagram before a close."""
    time, epochs, fates, came, stood = 0, [], [], defaultdict(list), []
    for place, event in enumerate(events):
        if event[0] == "close":
            break
        if event[0] == "tick":
            time = event[1]
            continue
        packet = packet_of(event[2])
        if packet is None:
            fates.append("no_packet")
            continue
        of_path, width = came[event[0]], WINDOW
        if epochs:
            width = width_of(stream, epochs[-1].anchor, time, stood)
        if epochs and is_asked_for(stream, packet):
            of_path.append(Came(packet, is_off(epochs[-1].anchor, time, packet)))
            stood.append(stands(stream, epochs[-1].anchor, time, stood, event[0], packet))
        anchor = anchor_of_arrival(stream, epochs, time, of_path, stood, packet)
        if anchor:
            fates.append("restarted" if epochs else "taken")
            epochs.append(Epoch(place, anchor, {anchor.number: packet.payload}))
            came.clear()
            stood.clear()
        elif epochs:
            fates.append(fate_of_next(epochs[-1], time, packet, width))
            if fates[-1] == "taken":
                epochs[-1].packets[number_of(epochs[-1].anchor, time, packet)] = packet.payload
        else:
            fates.append(fate_of_first(stream, time, packet))
    return epochs, fates


def slots(epochs, numbers):
    """The lines of numbers of the last of some epochs."""
    lines, name = [], f"{len(epochs) - 1}:" if len(epochs) > 1 else ""
    for number in numbers:
        anchor, packets = epochs[-1].anchor, epochs[-1].packets
        body = "got " + packets[number].hex() if number in packets else "lost"
        lines.append(f"0 slot {name}{number} {media_time_of(anchor, number)} {body}")
    return lines


def slots_of_reading(epochs, before, time):
    if not epochs:
        return []
    anchor = epochs[-1].anchor
    return slots(epochs, range(next_due(anchor, before), next_due(anchor, time)))


def slots_of_close(epochs, time):
    if not epochs:
        return []
    anchor, packets = epochs[-1].anchor, epochs[-1].packets
    return slots(epochs, range(next_due(anchor, time), max(packets) + 1))


def marks(events: list[tuple], stream: Stream = PROGRAM) -> tuple[list[str], Counter]:
    """The lines of the listing, and the fates."""
    epochs, fates = arrivals(events, stream)
    lines, time, quiet, any_slot = [], 0, -LATENCY, False
    for place, event in enumerate(events):
        opened = [epoch for epoch in epochs if epoch.place < place]
        if event[0] == "tick":
            before, time = time, event[1]
            given = slots_of_reading(opened, before, time)
            lines += given
            any_slot = any_slot or bool(given)
            if not any_slot and time - LATENCY > quiet:
                quiet = time - LATENCY
                lines.append(f"0 quiet {quiet}")
        elif event[0] == "close":
            lines += slots_of_close(opened, time) + ["0 end"]
            break
    return lines, fates


def fault_of(events: list[tuple], stream: Stream = PROGRAM) -> str | None:
    """The first fault of an event, or None."""
    time, closed = 0, False
    for place, event in enumerate(events):
        if event[0] == "tick":
            if event[1] < time or event[1] > LATEST or closed:
                return f"event {place}: clock"
            time = event[1]
        elif event[0] == "close":
            closed = True
        elif event[1] != 0:
            return f"event {place}: stream"
        elif "abcd".index(event[0]) >= stream.paths:
            return f"event {place}: path"
    return None


def answer(events: list[tuple], stream: Stream = PROGRAM) -> tuple[str, str, int, Counter]:
    """What the program has to write on standard output and on standard error, its status, and counts of fates and
    marks."""
    fault = fault_of(events, stream)
    if fault:
        return "", fault + "\n", 1, Counter({fault.split()[-1]: 1})
    lines, fates = marks(events, stream)
    counts = Counter(fates)
    counts.update(line.split()[1] if "slot" not in line else line.split()[4] for line in lines)
    return "".join(line + "\n" for line in lines), "", 0, counts
