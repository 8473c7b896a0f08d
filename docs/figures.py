#!/usr/bin/env python3
"""docs/figures.py [--check]: draws the figures of the pages as SVG files in docs/figures; with --check it prints which
files differ.

Numbers come from the configurations and traces of examples/, and each call that a figure names has to be in its crate.
The colours follow the reader's scheme, light or dark, over a background of their own.
"""
import sys
import tomllib
from collections.abc import Iterator
from xml.sax.saxutils import escape

sys.dont_write_bytecode = True
import sources
from sources import ROOT

FOLDER = ROOT / "docs" / "figures"
STYLE = """
text { font: 14px system-ui, sans-serif; fill: #1f2328 }
.code { font: 13px ui-monospace, monospace }
.small { font-size: 12px; fill: #57606a }
.bold { font-weight: 600 }
.back { fill: #ffffff }
.box { fill: #f6f8fa; stroke: #57606a }
.good { fill: #dafbe1; stroke: #1a7f37 }
.late { fill: #ffebe9; stroke: #cf222e }
.early { fill: #fff8c5; stroke: #9a6700 }
.line { stroke: #57606a; fill: none; stroke-width: 1.5 }
.head { fill: #57606a }
@media (prefers-color-scheme: dark) {
text { fill: #e6edf3 }
.small { fill: #9da7b1 }
.back { fill: #0d1117 }
.box { fill: #161b22; stroke: #8b949e }
.good { fill: #12261e; stroke: #3fb950 }
.late { fill: #2c1517; stroke: #f85149 }
.early { fill: #272115; stroke: #d29922 }
.line { stroke: #8b949e }
.head { fill: #8b949e }
}
"""


class Figure:
    """An SVG in the making: its size, what a reader who sees no picture is told, and its parts."""

    def __init__(self, width, height, label):
        self.size, self.label, self.parts = (width, height), label, []

    def text(self, x, y, words, kind="", anchor="start"):
        self.parts.append(f'<text x="{x:g}" y="{y:g}" class="{kind}" text-anchor="{anchor}">{escape(words)}</text>')

    def box(self, x, y, width, height, kind="box", title="", below=""):
        self.parts.append(f'<rect x="{x:g}" y="{y:g}" width="{width:g}" height="{height:g}" rx="4" class="{kind}"/>')
        if title:
            self.text(x + width / 2, y + height / 2 + (-3 if below else 5), title, "bold", "middle")
        if below:
            self.text(x + width / 2, y + height / 2 + 15, below, "code", "middle")

    def line(self, *points):
        self.parts.append(f'<polyline points="{" ".join(f"{x:g},{y:g}" for x, y in points)}" class="line"/>')

    def arrow(self, *points):
        """A line with a head at its last point, which is level with the point before it or straight above or below."""
        (x, y), (to_x, to_y) = points[-2:]
        right, down = (to_x > x) - (to_x < x), (to_y > y) - (to_y < y)
        end = to_x - 7 * right, to_y - 7 * down
        self.line(*points[:-1], end)
        wings = [(end[0] + 4 * down, end[1] + 4 * right), (end[0] - 4 * down, end[1] - 4 * right)]
        corners = " ".join(f"{a:g},{b:g}" for a, b in [(to_x, to_y), *wings])
        self.parts.append(f'<polygon points="{corners}" class="head"/>')

    def svg(self):
        width, height = self.size
        head = (
            f'<svg xmlns="http://www.w3.org/2000/svg" viewBox="0 0 {width} {height}" width="{width}" height="{height}"'
            ' role="img">'
        )
        title = f"<title>{escape(self.label)}</title>"
        back = f'<rect width="{width}" height="{height}" class="back"/>'
        return "\n".join([head, title, f"<style>{STYLE}</style>", back, *self.parts, "</svg>", ""])


def call(crate, path):
    """The name of a call, which has to be public in its crate."""
    if path not in {each.path() for each in sources.public_calls_of(crate)}:
        sys.exit(f"docs/figures.py: {crate} has no public call {path}")
    return path


def studio(example):
    with open(ROOT / "examples" / example, "rb") as file:
        return tomllib.load(file)


def milliseconds(instants):
    return f"{instants / 48:g} ms"


def latency():
    """When a packet of examples/live may come: too early, in time and late, about its media time."""
    stream = studio("live/live.toml")["stream"][0]
    early = stream["window"] * stream["frames"] - stream["latency"]
    figure = Figure(
        760, 230,
        (
            "Packets are taken from the window before their deadline up to the deadline, which is the latency after the"
            " media time."
        ),
    )
    scale, zero, top = 3.2 / 48, 400, 70
    begin, end = zero - early * scale, zero + stream["latency"] * scale
    figure.text(
        20, 24,
        (
            f"The arrival of one packet, by latency = {stream['latency']} and window = {stream['window']} packets of"
            f" {stream['frames']}"
        ),
        "bold",
    )
    figure.box(20, top, begin - 20, 44, "early", "Ahead")
    figure.box(begin, top, end - begin, 44, "good")
    figure.text((begin + zero) / 2, top + 27, "Taken, if it is the first copy", "bold", "middle")
    figure.box(end, top, 740 - end, 44, "late", "Late")
    figure.text(30, top - 8, "too early for the window", "small")
    figure.text(end + 8, top - 8, "its slot was passed on as lost", "small")
    for x, words, below in (
        (begin, milliseconds(-early), "a window before the deadline"), (zero, "0", "media time of the packet"),
        (end, f"+{milliseconds(stream['latency'])}", "deadline")
    ):
        figure.line((x, top), (x, top + 62))
        figure.text(x, top + 78, words, "bold", "middle" if x != zero else "end")
        figure.text(x, top + 95, below, "small", "middle" if x != zero else "end")
    arrival = zero + 20 * 48 * scale
    figure.arrow((arrival, top + 138), (arrival, top + 2))
    figure.text(arrival - 6, top + 130, "a packet that comes 20 ms after it", "small", "end")
    figure.line((arrival, top + 118), (end, top + 118))
    figure.line((end, top + 100), (end, top + 124))
    figure.text(end + 8, top + 122, f"arrival margin {milliseconds(stream['latency'] - 20 * 48)}", "small")
    return figure


# The way of a datagram: what passes, then the crate and the call that takes it.
WAY = [
    ("datagram of a path", "rtp_wire", "read", "header and payload, or the first fault of RFC 3550"),
    ("header and payload, borrowed", "rtp_stream", "StreamSpec::admit_ref", "tests payload type and length"),
    (
        "packet of the stream, borrowed", "path_merge", "Merge::offer_ref",
        "finds its number and fate; copies a taken payload into its slot"
    ),
    ("clock reading", "path_merge", "Merge::pass_to", "returns each due mark, in order"),
    (
        "marks: slots, quiets, the end", "lane_align", "Lane::feed_ref",
        "keeps the samples of each channel by media time"
    ),
    ("values at media times", "gain_mix", "mix_counted", "sums by gains, rounds once, saturates once"),
    ("output samples of a block", "mix_packets", "Packer::next", "writes the RTP header before them"),
]


def way():
    """The way of a datagram through the crates."""
    step = 84
    figure = Figure(
        760, len(WAY) * step + 40,
        "A datagram passes from rtp_wire through rtp_stream, path_merge, lane_align and gain_mix to mix_packets."
    )
    for place, (given, crate, path, does) in enumerate(WAY):
        y = place * step + 34
        figure.arrow((150, y - 34), (150, y))
        figure.text(162, y - 12, given, "small")
        figure.box(20, y, 260, 46, "box", crate, call(crate, path))
        figure.text(296, y + 28, does)
    y = len(WAY) * step + 34
    figure.arrow((150, y - 38), (150, y - 4))
    figure.text(162, y - 14, "datagram of the output", "small")
    return figure


def embed_merge():
    """One stream by the calls of a Merge."""
    figure = Figure(760, 190, "Packets and clock readings go into a Merge, and marks come out.")
    figure.box(290, 40, 200, 110, "box", "Merge", "one stream")
    for place, (given, path) in enumerate(
        (
            ("packet of a path", "Merge::offer"), ("clock reading", "Merge::advance"),
            ("nothing more comes", "Merge::close")
        )
    ):
        y = 55 + place * 38
        call("path_merge", path)
        figure.text(20, y - 5, given, "small")
        figure.text(150, y - 5, path.split("::")[1], "code")
        figure.arrow((20, y), (290, y))
    figure.arrow((490, 70), (740, 70))
    figure.text(505, 64, "fate of the packet: Taken, Late, ..")
    figure.arrow((490, 120), (740, 120))
    figure.text(505, 114, "marks: slots, quiets, the end")
    figure.text(20, 180, "No thread, no socket, no clock: the caller passes time and octets.", "small")
    return figure


def embed_engine():
    """A studio as one object, in the caller's loop."""
    figure = Figure(
        760, 210,
        "The caller's loop passes datagrams and clock readings to an Engine, which writes the output's datagrams."
    )
    figure.box(20, 30, 190, 120, "box", "your loop", "sockets and clock")
    figure.box(330, 30, 410, 120, "box")
    figure.text(535, 54, "Engine", "bold", "middle")
    for place, name in enumerate(("merges", "lanes", "mixer")):
        figure.box(345 + place * 130, 80, 110, 40, "good", name)
    for place in range(2):
        figure.arrow((455 + place * 130, 100), (475 + place * 130, 100))
    for y, path in ((55, "Engine::arrive"), (85, "Engine::turn")):
        figure.text(218, y - 5, call("studio_engine", path).split("::")[1], "code")
        figure.arrow((210, y), (330, y))
    figure.text(218, 130, "datagram in out", "small")
    figure.arrow((330, 135), (210, 135))
    figure.text(
        20, 180, "Engine::new allocates all that the engine ever needs. No later call allocates or waits.", "small"
    )
    call("studio_engine", "Engine::new")
    return figure


def embed_workers():
    """A studio over rings: the ends, the rings between them and the workers that call them."""
    figure = Figure(
        760, 310,
        (
            "Each path has a worker and a ring to its stream's worker, which has a ring of marks to the worker of the"
            " mixer."
        ),
    )
    for crate, path in (
        ("studio_ends", "PathEnd::offer"), ("studio_ends", "StreamEnd::turn"), ("studio_ends", "MixEnd::turn"),
        ("studio_rings", "run_workers")
    ):
        call(crate, path)
    for stream, y in ((0, 30), (1, 150)):
        for path, letter in enumerate("ab"):
            top = y + path * 54
            figure.box(20, top, 170, 44, "box", f"worker of path {stream}{letter}", "PathEnd::offer")
            figure.arrow(
                (190, top + 22), (250, top + 22), (250, y + 49 - 12 + path * 24), (300, y + 49 - 12 + path * 24)
            )
        figure.text(200, y + 16, "ring of packets", "small")
        figure.box(300, y + 24, 180, 50, "box", f"worker of stream {stream}", "StreamEnd::turn")
        figure.text(488, y + 42, "ring of marks", "small")
    figure.arrow((480, 79), (600, 79), (600, 120))
    figure.arrow((480, 199), (600, 199), (600, 166))
    figure.box(560, 120, 180, 46, "good", "worker of the mixer", "MixEnd::turn")
    figure.arrow((740, 143), (757, 143))
    figure.text(620, 185, "datagrams to the sink", "small")
    figure.text(
        20, 276,
        "Each worker of a path or stream has a thread of its own. The worker of the mixer runs in the calling thread.",
        "small"
    )
    figure.text(20, 296, "No ring has a lock. No end allocates or waits after the studio is opened.", "small")
    return figure


def history():
    """HasHistory: the events so far on one side, the merge and its marks on the other."""
    figure = Figure(
        760, 300,
        (
            "The events so far determine all marks; HasHistory relates them to the merge and to the number of marks"
            " that were returned."
        ),
    )
    figure.text(20, 24, "HasHistory stream open_at merge events k", "code")
    events = ["tick 0", "a 1", "b 1", "a 2", "close"]
    figure.text(20, 63, "events", "bold")
    for place, event in enumerate(events):
        figure.box(110 + place * 92, 44, 84, 30, "box", event)
    figure.arrow((150, 74), (150, 122))
    figure.text(162, 103, "marks_of: a definition over the whole list, without a window or a loop", "small")
    figure.text(20, 141, "marks", "bold")
    for place, (mark, kind) in enumerate((("slot 65537", "good"), ("slot 65538", "box"), ("end", "box"))):
        figure.box(110 + place * 150, 122, 140, 30, kind, mark)
    figure.text(110, 170, "k = 1 was returned", "small")
    figure.text(260, 170, "owed to later calls of drain", "small")
    figure.box(110, 200, 460, 50, "box", "the merge", "window, anchor, time, counts")
    figure.arrow((562, 59), (650, 59), (650, 225), (570, 225))
    figure.text(590, 190, "lead to", "small")
    figure.text(
        20, 280,
        (
            "Contract of each call: if HasHistory holds before it, it holds after it, of the list to which the call's"
            " event was added."
        ),
        "small",
    )
    return figure


def block():
    """The packets of examples/unlike-packets and the blocks of its output over media time."""
    config = studio("unlike-packets/studio.toml")
    lines = (ROOT / "examples" / "unlike-packets" / "marks.txt").read_text().splitlines()
    slots = [(int(line.split()[0]), int(line.split()[3])) for line in lines if " slot " in line]
    scale, left = 6.4, 110
    place = lambda time: left + time * scale
    figure = Figure(
        760, 240, "Packets of two streams of unlike length over media time, and the two blocks of the output."
    )
    for stream, y in ((0, 30), (1, 80)):
        figure.text(20, y + 20, f"stream {stream}", "bold")
        frames = config["stream"][stream]["frames"]
        for number, media in slots:
            if number == stream:
                figure.box(place(media), y, frames * scale - 1, 30, "good", str(frames))
    figure.text(20, 150, "output", "bold")
    frames = config["output"]["frames"]
    for number in range(2):
        figure.box(place(number * frames), 130, frames * scale - 1, 30, "box", f"block {number}")
    for begin, end, value in ((0, 20, "1,000"), (20, 48, "1,001"), (48, 68, "1"), (68, 96, "0")):
        figure.text(place((begin + end) / 2), 182, value, "bold", "middle")
    for time in (0, 20, 48, 68, 96):
        figure.line((place(time), 162), (place(time), 205))
        figure.text(place(time), 222, str(time), "small", "middle")
    figure.text(20, 182, "samples")
    figure.text(20, 222, "media time", "small")
    return figure


def media_slots(example):
    """The epoch, number and media time of each slot in an example's marks."""
    for line in (ROOT / "examples" / example / "marks.txt").read_text().splitlines():
        words = line.split()
        if words[1] == "slot":
            epoch, _, number = words[2].rpartition(":")
            yield int(epoch or 0), int(number), int(words[3])


def deadlines():
    """The media times and deadlines of the first two packets of examples/first, and the number that is due next."""
    stream = studio("first/studio.toml")["stream"][0]
    frames, latency, scale, left = stream["frames"], stream["latency"], 24, 120
    place = lambda time: left + time * scale
    figure = Figure(
        760, 232,
        "Each packet's deadline is the latency after its media time, and the number due next changes at each deadline."
    )
    figure.text(20, 24, "time", "bold")
    for time in range(0, 25, frames):
        figure.text(place(time), 24, str(time), "small", "middle")
        figure.line((place(time), 30), (place(time), 205))
    slots = list(media_slots("first"))
    for row, (_, number, media) in enumerate(slots):
        y = 44 + row * 56
        figure.text(20, y + 18, str(number), "bold")
        figure.box(place(media), y, frames * scale, 26, "good", f"{frames} frames")
        figure.arrow((place(media), y + 40), (place(media + latency), y + 40))
        figure.text(place(media) + frames * scale + 8, y + 36, f"latency {latency}", "small")
        figure.text(place(media + latency) + 6, y + 18, "deadline", "small")
    figure.text(20, 184, "next due", "bold")
    begin = 0
    for _, number, media in [*slots, (0, slots[-1][1] + 1, slots[-1][2] + frames)]:
        end = min(media + latency, 24)
        figure.box(place(begin), 166, (end - begin) * scale - 2, 28, "box", str(number))
        begin = end
    figure.text(20, 224, "Once a clock reading has reached its deadline, a copy is late.", "small")
    return figure


def restart():
    """The slots of examples/restart over media time, and the readings of the clock at which they are produced."""
    stream = studio("restart/studio.toml")["stream"][0]
    frames, latency, scale, left = stream["frames"], stream["latency"], 15, 120
    place = lambda time: left + time * scale
    figure = Figure(
        760, 214,
        "After a restart there is no slot between the end of the last slot of an epoch and the first of the next."
    )
    figure.text(20, 50, "media time", "bold")
    slots = list(media_slots("restart"))
    figure.box(place(frames), 30, (slots[1][2] - frames) * scale - 1, 32, "box", "no slot")
    for epoch, number, media in slots:
        figure.box(place(media), 30, frames * scale - 1, 32, "early" if epoch else "good", str(number))
        figure.text(place(media), 80, str(media), "small", "middle")
        figure.arrow((place(media + latency), 150), (place(media + latency), 112))
        figure.text(place(media + latency), 168, str(media + latency), "small", "middle")
        figure.text(place(media + latency), 106, f"slot {number}", "small", "middle")
    for epoch, media in ((0, slots[0][2]), (1, slots[1][2])):
        figure.text(place(media), 22, f"epoch {epoch}", "small")
    figure.text(place(frames), 80, str(frames), "small", "middle")
    figure.text(20, 135, "clock", "bold")
    figure.text(20, 200, "arrivals", "bold")
    figure.text(place(0), 200, "A(1, 0) at 0", "small")
    figure.text(place(12), 200, "the eight and A(508, 26) after the reading of 12", "small")
    return figure


RESULTS = ROOT / "bench" / "results"


def result_rows(name, columns):
    """The rows of numbers in a file of results, for each processor that it names. A row has as many words as there are
    columns."""
    found, processor = {}, None
    for line in (RESULTS / name).read_text().splitlines():
        words = line.replace(" by ", "x").split()
        if line in ("default", "x86-64-v3"):
            processor = found.setdefault(line, [])
        elif processor is not None and len(words) == columns and words[-1].replace(".", "").isdigit():
            processor.append(words)
    return found


def bars(title, unit, groups, names):
    """A chart of two bars for each label: ours and C's."""
    rows = sum(len(rows) + 1 for rows in groups.values())
    figure = Figure(760, 70 + rows * 40, title)
    most = max(value for rows in groups.values() for _, *pair in rows for value in pair)
    figure.text(20, 24, title, "bold")
    for place, (name, kind) in enumerate(zip(names, ("good", "box"))):
        figure.box(430 + place * 150, 12, 14, 14, kind)
        figure.text(450 + place * 150, 24, name, "small")
    y = 48
    for group, rows in groups.items():
        figure.text(20, y + 12, group, "bold")
        y += 24
        for label, ours, other in rows:
            figure.text(130, y + 20, label, "", "end")
            for place, (value, kind) in enumerate(((ours, "good"), (other, "box"))):
                length = 500 * value / most
                figure.box(140, y + place * 16, length, 14, kind)
                figure.text(146 + length, y + place * 16 + 11, f"{value:g}", "small")
            y += 40
    figure.text(140, y + 8, unit, "small")
    return figure


def bench_mix():
    """Frames mixed a second, by the shape of the matrix, ours next to the best of C's four forms."""
    rows = {
        processor: [(words[0].replace("x", " by "), float(words[1]), max(map(float, words[2:6]))) for words in found]
        for processor, found in result_rows("mix-2026-11-27.txt", 7).items()
    }
    return bars(
        "bench/mix, 2026-11-27: outputs by inputs", "millions of frames a second; more is better", rows,
        ("ours", "the best of C")
    )


def bench_merge():
    """Instructions an arrival, by the octets of a payload, ours next to C's, with a window of 512 packets."""
    rows = {
        processor: [(f"{words[0]} octets", float(words[2]), float(words[3])) for words in found if words[1] == "512"]
        for processor, found in result_rows("merge-2026-11-27.txt", 8).items()
    }
    return bars("bench/merge, 2026-11-27, window 512", "instructions an arrival; less is better", rows, ("ours", "C"))


FIGURES = {
    "latency": latency, "way": way, "merge": embed_merge, "engine": embed_engine, "workers": embed_workers,
    "history": history, "block": block, "deadlines": deadlines, "restart": restart, "mix": bench_mix,
    "merge-cost": bench_merge
}


def differences() -> Iterator[str]:
    """The figures that are not as this script draws them."""
    for name, draw in FIGURES.items():
        file = FOLDER / f"{name}.svg"
        if not file.is_file() or file.read_text() != draw().svg():
            yield f"docs/figures/{name}.svg differs from what docs/figures.py draws"


def main():
    if sys.argv[1:] == ["--check"]:
        found = list(differences())
        print("\n".join(found))
        return 1 if found else 0
    FOLDER.mkdir(exist_ok=True)
    for name, draw in FIGURES.items():
        (FOLDER / f"{name}.svg").write_text(draw().svg())
    return 0


if __name__ == "__main__":
    sys.exit(main())
