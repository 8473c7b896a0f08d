"""Tests darbexum.py: check.py CONFIG, the configuration of examples/first. It stops at the first difference."""
import struct
import sys
import threading
from pathlib import Path

import darbexum

CONFIG = Path(sys.argv[1]).read_text()
PACKET = bytes.fromhex("806000010000000000000001000001000002000003000004000005000006")
# A stream of one channel of L24 and one of two channels of L16.
TWO_STREAMS = """open_at = 0
[[stream]]
encoding = "L24"
channels = 1
frames = 6
pt = 96
clock = "media"
latency = 12
window = 8
[[stream]]
encoding = "L16"
channels = 2
frames = 6
pt = 96
clock = "media"
latency = 12
window = 8
[output]
encoding = "L24"
channels = 1
frames = 6
pt = 97
ssrc = 2
seq = 0
start = 0
gains = [[65536, 65536, 65536]]
"""


def refused(call, code):
    """Checks that a call fails with this code."""
    try:
        call()
    except darbexum.Error as error:
        assert error.code == code, (error.code, code)
        return str(error)
    raise AssertionError(f"no error {code}")


def packet(number, rows, octets):
    """The packet of block `number` of a stream, with these rows of samples of so many octets."""
    head = struct.pack(">BBHII", 0x80, 96, number, 6 * number, 1)
    return head + b"".join(sample.to_bytes(octets, "big", signed=True) for row in rows for sample in row)


def first(number):
    """What stream 0 sends for block `number`: each sample is another one."""
    return [[-1000 * number - frame - 1] for frame in range(6)]


def second(number):
    """What stream 1 sends for it."""
    return [[100 * number + frame + 1, -100 * number - frame - 11] for frame in range(6)]


def block(number, has_first=True, has_second=True):
    """The inputs of block `number`, with the packets of these streams. A sample of L16 is multiplied by 256."""
    return [
        [one if has_first else 0, *(256 * sample if has_second else 0 for sample in two)]
        for [one], two in zip(first(number), second(number))
    ]


def check_blocks():
    """Checks what is read of the blocks of two streams."""
    engine = darbexum.Engine(TWO_STREAMS)
    found = []

    def read(datagram=None):
        found.append(([[int(sample) for sample in row] for row in engine.inputs()], engine.missing()))

    def turn(number, sends_second):
        """Passes the packets of a block to the engine, and goes on to their deadline."""
        assert engine.arrive(0, 0, packet(number, first(number), 3)) is darbexum.Outcome.TAKEN
        if sends_second:
            assert engine.arrive(1, 0, packet(number, second(number), 2)) is darbexum.Outcome.TAKEN
        return engine.turn(6 * number + 12, read)

    # Before the first block.
    read()
    assert found.pop() == ([[0, 0, 0]] * 6, (0, False))
    turn(0, True)
    # A packet of stream 1 is lost, and then comes too late.
    turn(1, False)
    assert engine.arrive(1, 0, packet(1, second(1), 2)) is darbexum.Outcome.LATE
    turn(2, True)
    # The same with stream 1 muted: in a whole block, then up to the last sampling instant, then in one of its channels.
    engine.change_gains([[65536, 0, 0]])
    turn(3, False)
    engine.change_gains([[65536, 0, 1]], 29)
    turn(4, False)
    turn(5, False)
    # The gains of all other streams are 0, so the mix is silent. The inputs are still there.
    engine.change_gains([[0, 65536, 65536]])
    [datagram] = turn(6, False)
    assert [list(row) for row in engine.samples(datagram)] == [[0]] * 6
    # All gains are 0: no stream is missing.
    engine.change_gains([[0, 0, 0]])
    turn(7, False)
    engine.change_gains([[65536, 65536, 65536]])
    turn(8, True)
    # The close ends stream 1 with block 9 and stream 0 with block 10.
    for number in (9, 10):
        engine.arrive(0, 0, packet(number, first(number), 3))
    engine.arrive(1, 0, packet(9, second(9), 2))
    assert len(engine.close(read)) == 2
    assert found == [
        (block(0), (0, False)),
        (block(1, has_second=False), (1, False)),
        (block(2), (0, False)),
        (block(3, has_second=False), (0, False)),
        (block(4, has_second=False), (1, False)),
        (block(5, has_second=False), (1, False)),
        (block(6, has_second=False), (1, True)),
        (block(7, has_second=False), (0, False)),
        (block(8), (0, False)),
        (block(9), (0, False)),
        (block(10, has_second=False), (1, False)),
    ], found
    assert engine.missing() == darbexum.Missing(streams=1, is_empty=False)


def main():
    assert darbexum.version() == (0, 3, 0)
    assert refused(lambda: darbexum.Engine("open_at = 0\n"), -11) == "stream: missing"
    assert "TOML" in refused(lambda: darbexum.Engine(b"="), -10)
    engine = darbexum.Engine(CONFIG)
    assert engine.time == 0 and len(engine.streams) == 1
    stream = engine.streams[0]
    assert (stream.paths, stream.latency, stream.window, darbexum.Clock(stream.clock)) == (
        2, 12, 8, darbexum.Clock.MEDIA
    )
    assert engine.output.as_dict() == {
        "start": 0, "sample_octets": 3, "channels": 1, "frames": 6, "payload_type": 97, "ssrc": 2,
        "datagram_octets": 30
    }
    assert engine.arrive(0, 0, PACKET) is darbexum.Outcome.TAKEN
    # An engine may go to another thread.
    outcomes = []
    thread = threading.Thread(target=lambda: outcomes.append(engine.arrive(0, 1, memoryview(PACKET))))
    thread.start()
    thread.join()
    assert outcomes == [darbexum.Outcome.DOUBLE]
    refused(lambda: engine.arrive(1, 0, PACKET), -3)
    refused(lambda: engine.arrive(0, 2, PACKET), -4)
    # Twice as loud from the third sampling instant on; then a change that replaces it, to the gain before.
    assert engine.change_gains([[131072]], 2) == 2 and engine.change_gains([[65536]]) == 0
    refused(lambda: engine.change_gains([[1, 2]]), -14)
    refused(lambda: engine.change_gains([[1048577]]), -15)
    refused(lambda: engine.change_gains([[1]], -1), -16)
    assert engine.next_deadline() == 12
    datagrams = engine.turn(12)
    assert [datagram[12:] for datagram in datagrams] == [PACKET[12:]]
    assert [list(row) for row in engine.samples(datagrams[0])] == [[1], [2], [3], [4], [5], [6]]
    assert engine.next_block_start == 6
    refused(lambda: engine.turn(11), -6)
    refused(lambda: engine.path_counts(0, 2), -4)
    refused(lambda: engine.saturated(1), -13)
    assert engine.saturated(0) == 0 and not engine.settled
    engine.close()
    assert engine.settled and engine.next_deadline() is None
    counts = engine.counts(0)
    assert (counts.arrived, counts.taken, counts.double, list(counts.taken_by)) == (2, 1, 1, [1, 0, 0, 0]), counts
    assert engine.path_counts(0, 1).as_dict() == {
        "offered": 1, "sent": 1, "bad": 0, "wrong_type": 0, "wrong_length": 0, "full": 0
    }
    check_blocks()


main()
