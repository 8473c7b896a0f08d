"""Writes the configuration of streams, as TOML with comments that name the line that each value comes from."""
import zlib
from collections import defaultdict
from collections.abc import Iterator

from . import rules
from .clocks import clock_comments
from .model import Block, Line, Stream
from .reader import SdpFile
from .rules import FIRST_OUTPUT_PORT, MAX_NAME_OCTETS, MAX_OUTPUT_CHANNELS, MAX_PAYLOAD, MIN_WINDOW, OCTETS_A_SAMPLE
from .rules import PACKET_TIMES, PATHS, PERIODS_A_MS, UNITY
from .texts import printable


def configuration(files: list[SdpFile], streams: list[Stream], latency: int) -> str:
    """The text of a configuration."""
    lines = ["# Made by darbexum-sdp; `darbexum check` says what it means."]
    if any(stream.sections[0].clock.offset is not None for stream in streams):
        start = "start it with `darbexum live CONFIG --clock tai`"
        lines.append(f'# clock = "media" needs International Atomic Time: {start}.')
    lines += [f"# {comment}" for comment in clock_comments(streams)]
    lines += ["open_at = 0", ""]
    names = names_of(streams)
    tables = [list(stream_lines(stream, name, latency)) for stream, name in zip(streams, names)]
    for number, table in enumerate(tables):
        lines += [f"# Stream {number}.", *table, ""]
    for file in files:
        # After the streams, which mark the lines that they use.
        lines += unused(f"Other lines of the session in {file.name}:", file.session)
        lines += [f"# {file.name}: {text}" for text in file.left_out]
    lines += ["", *output_lines(streams)]
    return "".join(f"{printable(line)}\n" for line in lines)


def stream_lines(stream: Stream, name: str | None, latency: int) -> Iterator[str]:
    """The table of a stream of this name."""
    first = stream.sections[0]
    form, clock = first.format, first.clock
    origins = defaultdict(list)
    for section in stream.sections:
        for key, lines in section.origins.items():
            origins[key] += lines
    window = window_for(latency, form.frames)
    places = " and ".join(str(section.line().number) for section in stream.sections)
    sections = "section of line" if len(stream.sections) == 1 else "sections of lines"
    yield f"# From {stream.file_name}, {sections} {places}."
    yield from (f"# {comment}" for comment in stream.comments)
    yield "[[stream]]"
    if name is not None:
        yield f"name = {toml_text(name)}"
    yield f"# {by_lines(origins['encoding'])}"
    yield f'encoding = "{form.encoding}"'
    yield f"channels = {form.channels}"
    yield f"pt = {form.pt}"
    yield f"# {by_lines(origins['frames'])}"
    yield f"frames = {form.frames}"
    if first.ssrc is not None:
        yield f"# {by_lines(origins['ssrc'])}"
        yield "# Copies under two sources are never merged: only those of this source are taken."
        yield f"ssrc = {first.ssrc}"
    if clock.offset is None:
        yield f"# {clock.reason}: {rules.OTHER_CLOCK_MEANS[rules.OTHER_CLOCK]}."
        yield f'clock = "{rules.OTHER_CLOCK}"'
    else:
        yield f"# {by_lines(origins['clock'])}"
        yield 'clock = "media"'
        yield f"offset = {clock.offset}"
    yield f"# {in_ms(latency)} of latency, and room for {in_ms(window * form.frames)} of packets."
    yield f"latency = {latency}"
    yield f"window = {window}"
    yield f"paths = {len(stream.sections)}"
    for letter, section in zip(PATHS, stream.sections):
        yield f"# {by_lines(section.origins['path'])}"
        yield f"port_{letter} = {section.port}"
        yield f'address_{letter} = "{section.address}"'
        if section.source is not None:
            yield f'source_{letter} = "{section.source}"'
    these = "this section" if len(stream.sections) == 1 else "these sections"
    yield from unused(f"Other lines of {these}:", *(section.block for section in stream.sections))


def output_lines(streams: list[Stream]) -> Iterator[str]:
    """The table of an output: each of the first channels of all streams goes to a channel of its own."""
    form = streams[0].sections[0].format
    total = sum(stream.sections[0].format.channels for stream in streams)
    channels = min(total, MAX_OUTPUT_CHANNELS)
    most_frames = min(form.frames, MAX_PAYLOAD // (channels * OCTETS_A_SAMPLE["L24"]))
    frames = max(frames for frames in PACKET_TIMES if frames <= most_frames)
    received = [(section.address, section.port) for stream in streams for section in stream.sections]
    used = {port for _, port in received}
    free = (port for port in range(FIRST_OUTPUT_PORT, 65_536, 2) if port not in used)
    identity = zlib.crc32(repr(received).encode())
    channel = "input channel k goes to output channel k, as far as there are 8"
    yield f"# The mix. Nothing here comes from an SDP file: {channel}."
    row = "A row has a gain for each channel of stream 0, then of stream 1, and so on."
    yield f"# A gain of 65536 passes a sample on as it is. {row}"
    yield "[output]"
    yield 'encoding = "L24"'
    yield f"channels = {channels}"
    yield f"frames = {frames}"
    yield f"pt = {form.pt}"
    yield f"ssrc = {identity}"
    yield "seq = 0"
    yield "start = 0"
    yield "gains = ["
    for output in range(channels):
        yield f"    [{', '.join(str(UNITY if channel == output else 0) for channel in range(total))}],"
    yield "]"
    to_network = "To send it to a network, set to_address_a and to_address_b to a group or a"
    yield f"# The mix goes to these two ports of 127.0.0.1. {to_network}"
    yield "# machine there, and from_a and from_b to this machine's own addresses there."
    yield f"to_a = {next(free)}"
    yield f"to_b = {next(free)}"


def unused(title: str, *blocks: Block) -> Iterator[str]:
    """Lines that set nothing, as comments."""
    lines = [line for block in blocks for line in block.lines if not line.is_used]
    if lines:
        yield f"# {title}"
        yield from (f"#   {line.number}: {line.text()}" for line in lines)


def by_lines(lines: list[Line]) -> str:
    """A comment that names lines, each with its text."""
    unique = sorted({line.number: line for line in lines}.values(), key=lambda line: line.number)
    return "; ".join(f"line {line.number}, {line.text()}" for line in unique)


def names_of(streams: list[Stream]) -> list[str | None]:
    """Names for people, one for each stream."""
    names = {}
    for session in {id(stream.session): stream.session for stream in streams}.values():
        own = [stream for stream in streams if stream.session is session]
        names |= {id(stream): name for stream, name in zip(own, names_in(session, own))}
    return [names[id(stream)] for stream in streams]


def names_in(session: Block, streams: list[Stream]) -> list[str | None]:
    """The names of a session's streams, which differ: that of the session alone, or with the titles of the sections if
    the session has no name or several streams."""
    of_session = session.first("s")
    title = title_in(of_session)
    is_alone = title is not None and len(streams) == 1
    lines = [None if is_alone else stream.sections[0].block.first("i") for stream in streams]
    texts = [": ".join(filter(None, (title, title_in(line)))) for line in lines]
    names = list(map(shortened, texts))
    known = list(filter(None, names))
    if len(set(known)) < len(known):
        names = [text and shortened(text, f" {number}") for number, text in enumerate(texts, 1)]
    for line, name in [*((of_session, name) for name in names), *zip(lines, names)]:
        own = title_in(line)
        # A title of which only a part is in the name stays as a comment.
        if own is not None and own in name:
            line.is_used = True
    return [name or None for name in names]


def title_in(line: Line | None) -> str | None:
    """The text of a title. A hyphen stands for none (RFC 8866, 5.3)."""
    text = printable(line.value.strip()) if line else ""
    return text if text not in ("", "-") else None


def shortened(text: str, end: str = "") -> str:
    """As much of a text as a name takes with this end."""
    return text.encode()[: MAX_NAME_OCTETS - len(end)].decode(errors="ignore").strip() + end


def toml_text(text: str) -> str:
    escapes = {"\\": "\\\\", '"': '\\"'}
    return '"' + "".join(escapes.get(each, each) for each in text) + '"'


def in_ms(periods: int) -> str:
    return f"{periods / PERIODS_A_MS:.3f}".rstrip("0").rstrip(".") + " ms"


def window_for(latency: int, frames: int) -> int:
    """The packets that a window holds: a power of two that spans twice the latency and two packets."""
    window = MIN_WINDOW
    while window * frames < 2 * (latency + 2 * frames):
        window *= 2
    return window
