#!/usr/bin/env python3
"""check.py FOLDER: tests the element darbexummix, whose plugin is in FOLDER, against what a sender sent on 127.0.0.1.

One path loses a fifth of its packets, and nothing is missing; then both do, and only what both lost is silence. Two
elements stand in one pipeline. Gains move while the mix runs, by the program move, which is in FOLDER too (move.c). It
prints what came out, and fails where it differs.
"""
import os
import re
import signal
import socket
import subprocess
import sys
import tempfile
import threading
import time
from pathlib import Path

FOLDER = os.path.realpath(sys.argv[1])
PACKETS = int(os.environ.get("PACKETS", "1500"))
FRAME = 6
# A second, in sampling instants: a machine that is held up for a part of it makes no packet late.
LATENCY = 48_000
# The value of each sample where gains move: a quarter of it is a whole number.
LEVEL = 1 << 20
CONFIG = f"""open_at = 0
[[stream]]
encoding = "L24"
channels = 2
frames = 48
pt = 96
clock = "arrival"
latency = {LATENCY}
window = 2048
[output]
encoding = "L24"
channels = 2
frames = 48
pt = 97
ssrc = 2
seq = 0
start = 0
gains = [[65536, 0], [0, 65536]]
"""
ENVIRONMENT = {**os.environ, "GST_PLUGIN_PATH": FOLDER, "GST_REGISTRY": f"{FOLDER}/registry.bin"}


def expect(what, holds, found):
    if not holds:
        sys.exit(f"check.py: {what}: {str(found)[:1500]}")


def run(*words, seconds=60):
    return subprocess.run(words, capture_output=True, text=True, timeout=seconds, env=ENVIRONMENT, check=False)


def free_ports(count):
    holders = [socket.socket(socket.AF_INET, socket.SOCK_DGRAM) for _ in range(count)]
    for holder in holders:
        holder.bind(("127.0.0.1", 0))
    ports = [holder.getsockname()[1] for holder in holders]
    for holder in holders:
        holder.close()
    return ports


def launch(*words, **environment):
    return subprocess.Popen(
        ["gst-launch-1.0", "-e", *words], stdout=subprocess.PIPE, stderr=subprocess.STDOUT, text=True,
        env={**ENVIRONMENT, **environment}
    )


def ended(child):
    """Ends a pipeline by SIGINT, which `-e` makes an EOS of, and returns what it printed."""
    child.send_signal(signal.SIGINT)
    try:
        text, _ = child.communicate(timeout=20)
    finally:
        if child.poll() is None:
            child.kill()
            child.wait()
    return text


def receiver(room, name, ports):
    """The words of a pipeline's part: an element that mixes what comes in at two ports into a file."""
    config = Path(room) / "studio.toml"
    config.write_text(CONFIG)
    return [
        *f"darbexummix name={name} location={config}".split(),
        *f"udpsrc port={ports[0]} address=127.0.0.1 ! {name}.sink_0_0 udpsrc port={ports[1]} address=127.0.0.1 !"
        f" {name}.sink_0_1".split(),
        *f"{name}.src ! rtpL24depay ! filesink location={room}/{name}.raw".split(),
    ]


def sender(room, ports, losses):
    """Sends a sine on both paths, each of which loses a share, and keeps it in a file."""
    words = f"""audiotestsrc is-live=true wave=sine freq=437 samplesperbuffer=48 num-buffers={PACKETS}
        ! audioconvert dithering=none ! audio/x-raw,format=S24BE,rate=48000,channels=2 ! tee name=r
        ! queue ! filesink location={room}/sent.raw r. ! queue
        ! rtpL24pay pt=96 min-ptime=1000000 max-ptime=1000000 ! tee name=t"""
    for port, loss in zip(ports, losses):
        words += f" t. ! queue ! identity drop-probability={loss} ! udpsink host=127.0.0.1 port={port} sync=false"
    done = run("gst-launch-1.0", "-q", *words.split(), seconds=60 + PACKETS // 500)
    expect("the sender", done.returncode == 0, done.stdout + done.stderr)


def compared(sent, got):
    """How many frames are as sent, silent, and other, from the first that came on."""
    frames = lambda octets: [octets[at : at + FRAME] for at in range(0, len(octets) - FRAME + 1, FRAME)]
    sent, got = frames(sent), frames(got)
    silence = bytes(FRAME)
    place = next((at for at, frame in enumerate(got) if frame != silence), None)
    expect("sound", place is not None, f"{len(got)} silent frames")
    # The sine begins at 0, and no 20 of its frames are alike.
    first = next((at for at in range(len(sent)) if sent[at : at + 20] == got[place : place + 20]), None)
    expect("a place in what was sent", first is not None, got[place : place + 20])
    pairs = list(zip(sent[first:], got[place:]))
    same = sum(a == b for a, b in pairs)
    silent = sum(a != b and b == silence for a, b in pairs)
    return first, len(pairs), same, silent


def expect_caps(text, name):
    """The caps of an element's src pad, as gst-launch prints them."""
    caps = re.findall(rf"GstDarbexumMix:{name}\.GstPad:src: caps = (.*)", text)
    words = (
        "application/x-rtp", "clock-rate=(int)48000", "encoding-name=(string)L24", "channels=(int)2", "payload=(int)97"
    )
    expect("caps", caps and all(word in line for line in caps for word in words), caps)


def losses(room, shares):
    """A receiver with one element, and what came out of it."""
    ports = free_ports(2)
    child = launch("-v", *receiver(room, "mix", ports))
    time.sleep(1.5)
    sender(room, ports, shares)
    time.sleep(1)
    text = ended(child)
    expect("the receiver", "ERROR" not in text and child.returncode == 0, text)
    expect_caps(text, "mix")
    return compared(*((Path(room) / f"{name}.raw").read_bytes() for name in ("sent", "mix")))


def inspect(_):
    done = run("gst-inspect-1.0", "darbexummix")
    words = (
        "sink_%u_%u", "Availability: On request", "application/x-rtp", "config", "location", "media-clock", "offset",
        "stats", "change-gains", "Mixer/Network/RTP/Audio"
    )
    lacking = [word for word in words if word not in done.stdout]
    expect("gst-inspect", done.returncode == 0 and not lacking, (lacking, done.stdout, done.stderr))


def refused(_):
    """A configuration with a fault is an error of the pipeline, and its text names the place."""
    done = run("gst-launch-1.0", "darbexummix", "config=open_at = 0", "!", "fakesink")
    expect(
        "a fault of the configuration", done.returncode != 0 and "config: stream: missing" in done.stdout + done.stderr,
        done.stdout + done.stderr
    )


def one_path(room):
    first, frames, same, silent = losses(room, (0.2, 0))
    expect(
        "frames of one lossy path", (same, silent) == (frames, 0) and frames >= 48 * (PACKETS - 100),
        (first, frames, same, silent)
    )
    print(f"check.py: one path loses a fifth: {same} of {frames} frames as sent")


def both_paths(room):
    first, frames, same, silent = losses(room, (0.2, 0.2))
    expect(
        "frames of two lossy paths", same + silent == frames and 0.01 < silent / frames < 0.08,
        (first, frames, same, silent)
    )
    print(f"check.py: both paths lose a fifth: {same} of {frames} frames as sent, {silent} silent, none other")


def two_elements(room):
    """Two elements in one pipeline, and caps and latency as gst-launch prints them: that of the stream, a packet and a
    block."""
    ports = free_ports(4)
    child = launch(
        "-v", *receiver(room, "mix", ports[:2]), *receiver(room, "other", ports[2:]), GST_DEBUG="pipeline:5,bin:5",
        GST_DEBUG_FILE=f"{room}/debug.txt"
    )
    time.sleep(1.5)
    sender(room, ports[:2], (0, 0))
    sender(room, ports[2:], (0, 0.2))
    time.sleep(1)
    text = ended(child)
    expect("two elements", "ERROR" not in text and child.returncode == 0, text)
    # gst-launch sometimes prints one of two caps that come at the same time twice, and the other not.
    expect_caps(text, "(?:mix|other)")
    noted = [line for line in (Path(room) / "debug.txt").read_text().splitlines() if "latency" in line]
    expect("the latency", any("0:00:01.002000000" in line for line in noted), noted[:10])
    _, frames, same, silent = compared(*((Path(room) / f"{name}.raw").read_bytes() for name in ("sent", "other")))
    expect("frames of the second element", (same, silent) == (frames, 0), (frames, same, silent))


class LevelSender(threading.Thread):
    """Sends packets of 1 ms to a port until it is stopped: each sample has the value LEVEL on the left, and -LEVEL on
    the right."""

    def __init__(self, port):
        super().__init__(daemon=True)
        self.port, self.is_stopped = port, threading.Event()

    def run(self):
        frame = LEVEL.to_bytes(3, "big", signed=True) + (-LEVEL).to_bytes(3, "big", signed=True)
        begin, number = time.monotonic(), 0
        with socket.socket(socket.AF_INET, socket.SOCK_DGRAM) as sender:
            while not self.is_stopped.wait(max(0, begin + number / 1000 - time.monotonic())):
                head = (
                    bytes([0x80, 96]) + (number % 65536).to_bytes(2, "big") + (48 * number).to_bytes(4, "big")
                    + bytes(4)
                )
                sender.sendto(head + frame * 48, ("127.0.0.1", self.port))
                number += 1


def frames_of(path):
    """The samples of a mix in a file, left and right: a frame's place in the file is its media time."""
    octets = path.read_bytes() if path.exists() else b""
    value = lambda at: int.from_bytes(octets[at : at + 3], "big", signed=True)
    return [(value(at), value(at + 3)) for at in range(0, len(octets) - FRAME + 1, FRAME)]


def wait_for_sound(path, begin):
    """Waits until the mix has sound from a media time on."""
    ends = time.monotonic() + 20
    while not any(left for left, _ in frames_of(path)[begin + 480 :]):
        expect(f"sound from {begin} on", time.monotonic() < ends, len(frames_of(path)))
        time.sleep(0.05)


def moved_gains(room):
    """Gains change at the next block, and at a time within a block: exactly there, and both channels by their own gain.
    Changes that can't be are refused by their codes, and change nothing; nor does a flush of the path."""
    (port,) = free_ports(1)
    config, mix = Path(room) / "studio.toml", Path(room) / "mix.raw"
    config.write_text(CONFIG.replace(f"latency = {LATENCY}", "latency = 9600"))
    pipeline = (
        f"darbexummix name=mix location={config} udpsrc name=in port={port} address=127.0.0.1 ! mix.sink_0_0 mix.src !"
        f" rtpL24depay ! filesink buffer-mode=unbuffered location={mix}"
    )
    child = subprocess.Popen(
        [f"{FOLDER}/move", pipeline], stdin=subprocess.PIPE, stdout=subprocess.PIPE, stderr=subprocess.PIPE, text=True,
        env=ENVIRONMENT
    )

    def asked(*words):
        child.stdin.write(f"{' '.join(map(str, words))}\n")
        child.stdin.flush()
        return int(child.stdout.readline())

    sender = LevelSender(port)
    sender.start()
    try:
        wait_for_sound(mix, 0)
        # DARBEXUM_BAD_SHAPE, DARBEXUM_BAD_GAIN and DARBEXUM_BAD_TIME.
        codes = asked(-1, 65536), asked(-1, 1_048_577, 0, 0, 0), asked(0, 0, 0, 0, 0)
        expect("changes that are refused", codes == (-14, -15, -16), codes)
        # A path that is flushed loses packets, and the mix goes on in the same time.
        expect("a flush", asked("flush in") == 1, "no")
        wait_for_sound(mix, len(frames_of(mix)) + 9600)
        first = asked(-1, 16384, 0, 0, 16384)
        expect("the next block", first > 0 and first % 48 == 0, first)
        second = first + 9607
        found = asked(second, 65536, 0, 0, 32768)
        expect("a time within a block", found == second, found)
        wait_for_sound(mix, second)
        _, faults = child.communicate(timeout=30)
    finally:
        sender.is_stopped.set()
        sender.join()
        if child.poll() is None:
            child.kill()
            child.wait()
    expect("the end", (child.returncode, faults) == (0, ""), (child.returncode, faults))
    frames = frames_of(mix)
    for begin, end, level in (
        (0, first, (LEVEL, -LEVEL)),
        (first, second, (LEVEL // 4, -LEVEL // 4)),
        (second, len(frames), (LEVEL, -LEVEL // 2)),
    ):
        # A packet that came late on a busy machine is silent.
        found = {frame for frame in frames[begin:end] if frame != (0, 0)}
        expect(f"the samples from {begin} to {end}", found == {level}, found)
    print(f"check.py: gains change at {first} and {second}, and nowhere else in {len(frames)} frames")


def main():
    for part in (inspect, refused, one_path, both_paths, two_elements, moved_gains):
        with tempfile.TemporaryDirectory(prefix="darbexum-gstreamer-") as room:
            part(room)


main()
