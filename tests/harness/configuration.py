"""The rules of a configuration, as docs/CONFIGURATION.md has them, for tests that make more configurations than a built
program can be asked about."""
from collections.abc import Iterator

MOST_TIME = 1 << 60
UINT8, UINT16, UINT32 = range(1 << 8), range(1 << 16), range(1 << 32)
OCTETS = {"L16": 2, "L24": 3}
FRAMES = {6, 12, 16, 48, 192}
PATHS = "abcd"
PORT, ADDRESS, NAME = range(1, 65_536), "an IPv4 address", "at most 64 octets"
OCTETS_OF_ADDRESSES = set(map(str, range(256)))
# For each key of a table: what is allowed, and whether it is required.
PACKETS = {
    "encoding": (set(OCTETS), True), "channels": (UINT8, True), "frames": (UINT16, True), "pt": (UINT8, True)
}
STREAM = PACKETS | {
    "ssrc": (UINT32, False), "clock": ({"media", "arrival", "follow"}, True), "offset": (UINT32, False),
    "latency": (UINT32, True), "window": (UINT16, True), "paths": (range(1, 5), False), "name": (NAME, False),
    **{f"port_{letter}": (PORT, False) for letter in PATHS},
    **{f"{key}_{letter}": (ADDRESS, False) for key in ("address", "source") for letter in PATHS}
}
OUTPUT = PACKETS | {
    "ssrc": (UINT32, True), "seq": (UINT16, True), "start": (range(MOST_TIME + 1), True), "offset": (UINT32, False),
    "gains": (None, True), "to_a": (PORT, True), "to_b": (PORT, True), "ttl": (range(1, 256), False),
    **{key: (ADDRESS, False) for key in ("from_a", "from_b", "to_address_a", "to_address_b")}
}


def faults_in(table: dict) -> Iterator[str]:
    """The rules that a configuration without later changes breaks, as `live` needs it."""
    streams, output = table.get("stream", []), table.get("output", {})
    if set(table) != {"open_at", "stream", "output"} or not fits(table["open_at"], range(MOST_TIME + 1)):
        yield f"top: {sorted(table)}"
    if not 1 <= len(streams) <= 16:
        yield f"{len(streams)} streams"
    for number, stream in enumerate(streams):
        yield from (f"stream[{number}]: {fault}" for fault in stream_faults(stream))
    yield from (f"output: {fault}" for fault in key_faults(output, OUTPUT) or output_faults(output, streams))


def fits(value: object, allowed: object) -> bool:
    """Returns true if a value is of the kind and in the range that are allowed."""
    if isinstance(allowed, range):
        return type(value) is int and value in allowed
    if not isinstance(value, str):
        return allowed is None
    if allowed == NAME:
        return len(value.encode()) <= 64
    if allowed == ADDRESS:
        return value.count(".") == 3 and all(each in OCTETS_OF_ADDRESSES for each in value.split("."))
    return value in allowed


def key_faults(table: dict, keys: dict) -> list[str]:
    found = [f"{key} is missing" for key, (_, is_required) in keys.items() if is_required and key not in table]
    found += [f"{key} is {value!r}" for key, value in table.items() if key in keys and not fits(value, keys[key][0])]
    return found + [f"{key} is unknown" for key in table if key not in keys]


def packet_faults(table: dict, most_channels: int) -> Iterator[str]:
    """The rules 1 to 4 of a stream and of the output."""
    channels, frames = table["channels"], table["frames"]
    if not 1 <= channels <= most_channels:
        yield "1 Channels"
    if frames not in FRAMES or channels > 8 and frames != 6:
        yield "2 Frames"
    if table["pt"] not in range(96, 128):
        yield "3 PayloadType"
    if channels * frames * OCTETS[table["encoding"]] > 1_440:
        yield "4 TooLong"


def stream_faults(stream: dict) -> list[str]:
    """The rules that a stream breaks."""
    found = key_faults(stream, STREAM)
    if found:
        return found
    found = list(packet_faults(stream, 64))
    window, latency, frames = stream["window"], stream["latency"], stream["frames"]
    if window not in {1 << bit for bit in range(3, 15)}:
        found.append("5 Window")
    if latency < 1 or latency + 2 * frames > window * frames:
        found.append("6 Latency")
    own = PATHS[: stream.get("paths", 2)]
    return found + [f"port_{letter} is missing" for letter in own if f"port_{letter}" not in stream]


def output_faults(output: dict, streams: list[dict]) -> list[str]:
    """The rules that an output breaks whose keys are allowed."""
    found = list(packet_faults(output, 8))
    columns = sum(stream.get("channels", 0) for stream in streams)
    gains = output["gains"]
    if len(gains) != output["channels"] or any(len(row) != columns for row in gains) or not 1 <= columns <= 1_024:
        found.append("gains 1 Shape")
    if any(not fits(gain, range(-1_048_576, 1_048_577)) for row in gains for gain in row):
        found.append("gains 2 Range")
    return found
