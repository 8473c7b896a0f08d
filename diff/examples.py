#!/usr/bin/env python3
"""python3 diff/examples.py: the examples of docs/RECEPTION.md through the reference, beside values written by hand.

Left out are those of samples and of specifications, of payloads that the stream has no space for, and of a packet's
path.
"""
import sys

from reference import (
    LATENCY, Anchor, Packet, Stream, answer, fault_of, marks, media_time_of, nearest, next_due, packet_of
)

PAYLOAD, CHANGED = "11" * 18, "11" * 17 + "12"
END = "0 end"


def arrival(path, seq, ts, source=1, payload=PAYLOAD):
    return path, 0, bytes.fromhex(f"8060{seq:04x}{ts:08x}{source:08x}{payload}")


def A(*packet):
    return arrival("a", *packet)


def B(*packet):
    return arrival("b", *packet)


def reading(time):
    return "tick", time


def sequence(path, count, seq, ts, source=1):
    """The page's "and so on": numbers rise by 1 and timestamps by 6."""
    return [arrival(path, (seq + n) % 65536, (ts + 6 * n) % 2**32, source) for n in range(count)]


CLOSE = ("close",)


def quiet(time):
    return f"0 quiet {time}"


def got(number, media, payload=PAYLOAD):
    return f"0 slot {number} {media} got {payload}"


def lost(number, media):
    return f"0 slot {number} {media} lost"


ANY, ARRIVAL_CLOCK = Stream(), Stream(offset=None)
AT_12 = [reading(0), A(1, 0), reading(12)]
EIGHT = sequence("a", 8, 500, 4294967274)

# what it shows, the stream, the events, the fates, the listing
RUNS = [
    (
        "fates: copies", ANY, [A(1, 0), B(1, 0), B(1, 0, 1, CHANGED), reading(12)], "taken double unlike",
        [got(65537, 0)]
    ),
    (
        "fates: the wrap, in time",
        ANY,
        [A(65535, 0), B(0, 6), reading(12), reading(18), A(1, 12), reading(24)],
        "taken taken taken",
        [got(131071, 0), got(131072, 6), got(131073, 12)],
    ),
    (
        "fates: the wrap, late",
        ANY,
        [A(65535, 0), B(0, 6), reading(12), reading(18), reading(24), A(1, 12)],
        "taken taken late",
        [got(131071, 0), got(131072, 6), lost(131073, 12)],
    ),
    ("fates: before the anchor's number", ANY, [A(5, 0), A(4, 4294967290)], "taken late", []),
    ("fates: the window's end", ANY, [A(1, 0), A(9, 48), A(8, 42)], "taken ahead taken", []),
    ("fates: a source that is asked for", Stream(source=2), [A(1, 0), A(1, 0, 2)], "wrong_source taken", []),
    (
        "anchor: the arrival clock",
        ARRIVAL_CLOCK,
        [reading(1000), A(7, 123456), reading(1012)],
        "taken",
        [quiet(988), got(65543, 1000)],
    ),
    ("grid: another timestamp", ANY, [A(1, 0), A(2, 7)], "taken off_grid", []),
    ("grid: one cycle older", ANY, [A(1, 0), A(1, 4294574080)], "taken off_grid", []),
    ("grid: 2^25 numbers older", ANY, [A(1, 0), A(1, 4093640704)], "taken off_grid", []),
    ("grid: 2^25 - 1 numbers newer", ANY, [A(1, 0), A(0, 201326586)], "taken off_grid", []),
    (
        "restarts: eight in sequence",
        ANY,
        [*AT_12, *EIGHT, A(508, 26), reading(32), reading(38)],
        "taken" + " off_grid" * 7 + " restarted taken",
        [got(65537, 0), got("1:66043", 20), got("1:66044", 26)],
    ),
    (
        "restarts: one is held",
        ANY,
        [*AT_12, A(2, 6), *EIGHT, reading(18), A(508, 26), reading(38)],
        "taken taken" + " off_grid" * 8 + " restarted",
        [got(65537, 0), got(65538, 6), got("1:66044", 26)],
    ),
    (
        "restarts: on two paths",
        ANY,
        [*AT_12, *EIGHT[:4], *sequence("b", 4, 504, 2), reading(38)],
        "taken" + " off_grid" * 8,
        [got(65537, 0), lost(65538, 6), lost(65539, 12), lost(65540, 18), lost(65541, 24)],
    ),
    (
        "restarts: another source",
        ANY,
        [*AT_12, *sequence("a", 8, 500, 4294967274, 2), reading(32)],
        "taken" + " wrong_source" * 7 + " restarted",
        [got(65537, 0), got("1:66043", 20)],
    ),
    (
        "restarts: a source that isn't asked for",
        Stream(source=1),
        [*AT_12, *sequence("a", 8, 500, 4294967274, 2), reading(32)],
        "taken" + " wrong_source" * 8,
        [got(65537, 0), lost(65538, 6), lost(65539, 12), lost(65540, 18)],
    ),
    (
        "marks: lost ones",
        ANY,
        [A(1, 0), reading(30)],
        "taken",
        [got(65537, 0), lost(65538, 6), lost(65539, 12), lost(65540, 18)],
    ),
    (
        "marks: a close",
        ANY,
        [A(1, 0), A(3, 12), CLOSE, CLOSE],
        "taken taken",
        [got(65537, 0), lost(65538, 6), got(65539, 12), END],
    ),
    ("marks: quiet", ANY, [reading(5), reading(5)], "", [quiet(-7)]),
    (
        "marks: the arrival clock",
        ARRIVAL_CLOCK,
        [reading(1000), A(7, 123456), A(8, 123462), reading(1012), reading(1018)],
        "taken taken",
        [quiet(988), got(65543, 1000), got(65544, 1006)],
    ),
    ("marks: a close at once", ANY, [CLOSE], "", [END]),
    (
        "mark lists",
        ANY,
        [reading(5), A(1, 0), A(2, 6), CLOSE],
        "taken taken",
        [quiet(-7), got(65537, 0), got(65538, 6), END],
    ),
]


COUNTED = ("taken", "double", "unlike", "off_grid", "late", "ahead", "wrong_source")


def counted(events):
    """The counts of the page but those that are 0."""
    counts = answer(events)[3]
    counts["restarts"] = counts.pop("restarted", 0)
    counts["taken"] += counts["restarts"]
    counts["arrived"] = sum(counts[name] for name in COUNTED)
    return +counts


def fate_at_100(ts):
    return marks([reading(100), A(1, ts)])[1]


def due_at(time):
    return next_due(Anchor(65537, 0, 0, 1), time)


def times_of(number):
    media = media_time_of(Anchor(65537, 0, 0, 1), number)
    return media, media + LATENCY


# what it shows, the value that the reference gives, the one that the page says
VALUES = [
    ("datagram", packet_of(A(1, 0)[2]), Packet(1, 0, 1, b"\x11" * 18)),
    ("time: a reading that went back", fault_of([reading(5), reading(4)]), "event 1: clock"),
    ("time: a reading too far", fault_of([reading(5), reading(2**60 + 1)]), "event 1: clock"),
    ("numbers: 0 near 131071", nearest(0, 65536, 131071), 131072),
    ("numbers: 65535 near 131072", nearest(65535, 65536, 131072), 131071),
    ("numbers: 32768 near 65536", nearest(32768, 65536, 65536), 32768),
    ("numbers: 32767 near 65536", nearest(32767, 65536, 65536), 98303),
    ("timestamps: 4294967290 near 0", nearest(4294967290, 2**32, 0), -6),
    ("anchor: 88 at time 100", fate_at_100(88), ["late"]),
    ("anchor: 89 at time 100", fate_at_100(89), ["taken"]),
    ("anchor: 135 at time 100", fate_at_100(135), ["taken"]),
    ("anchor: 136 at time 100", fate_at_100(136), ["ahead"]),
    ("deadlines: the anchor's", times_of(65537), (0, 12)),
    ("deadlines: the next one's", times_of(65538), (6, 18)),
    ("deadlines: next due at 11", due_at(11), 65537),
    ("deadlines: next due at 12", due_at(12), 65538),
    ("deadlines: next due at 17", due_at(17), 65538),
    (
        "counts",
        counted([A(1, 0), B(1, 0), B(1, 0, 1, CHANGED), reading(12)]),
        {"arrived": 3, "taken": 1, "double": 1, "unlike": 1, "got": 1},
    ),
    (
        "counts: a restart",
        counted([*AT_12, *EIGHT, A(508, 26), reading(32), reading(38)]),
        {"arrived": 10, "taken": 3, "off_grid": 7, "got": 3, "restarts": 1},
    ),
]


def main():
    shown = list(VALUES)
    for name, stream, events, fates, lines in RUNS:
        given = marks(events, stream)
        shown.append((name, (given[1], given[0]), (fates.split(), lines)))
    for name, value, wanted in shown:
        if value != wanted:
            print(f"{name}: {value}; wanted {wanted}")
    hold = sum(value == wanted for _, value, wanted in shown)
    print(f"{len(shown)} examples, {hold} hold")
    return 0 if hold == len(shown) else 1


if __name__ == "__main__":
    sys.exit(main())
