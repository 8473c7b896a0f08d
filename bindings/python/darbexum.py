"""Receives and mixes AES67 and SMPTE ST 2110-30 audio by libdarbexum, through ctypes.

    engine = darbexum.Engine(open("studio.toml").read())
    for now, stream, path, octets in capture:
        engine.arrive(stream, path, octets)
        for datagram in engine.turn(now):
            send(datagram)
    for datagram in engine.close():
        send(datagram)

darbexum.h says what the units are and in which order calls are made. One thread at a time may call an engine: ctypes
lets other threads run during a call. `samples` and `inputs` use numpy if it is there.

The library is looked for at $DARBEXUM_LIBRARY, next to this file, and where the system looks.
"""
import ctypes as c
import ctypes.util
import enum
import os
import typing

MAX_OCTETS = 1452


class Outcome(enum.IntEnum):
    """What became of a datagram."""

    AFTER_CLOSE = 0
    COUNTERS_FULL = 1
    WRONG_SOURCE = 2
    OFF_GRID = 3
    LATE = 4
    AHEAD = 5
    TAKEN = 6
    DOUBLE = 7
    UNLIKE = 8
    RESTARTED = 9
    BAD = 10
    WRONG_TYPE = 11
    WRONG_LENGTH = 12


class Clock(enum.IntEnum):
    """The clock of a stream."""

    MEDIA = 0
    ARRIVAL = 1
    FOLLOW = 2


class Missing(typing.NamedTuple):
    """The streams that are missing in a block: how many, and whether it is empty, because no stream with a gain other
    than 0 has a packet in it."""

    streams: int
    is_empty: bool


class _Struct(c.Structure):
    def __init__(self):
        super().__init__(size=c.sizeof(self))

    def as_dict(self):
        """The fields but `size`, by name."""
        pairs = ((name, getattr(self, name)) for name, _ in self._fields_ if name != "size")
        return {name: list(value) if isinstance(value, c.Array) else value for name, value in pairs}

    def __repr__(self):
        return f"{type(self).__name__}({', '.join(f'{name}={value}' for name, value in self.as_dict().items())})"


def _fields(kind, names):
    return [(name, kind) for name in names.split()]


class Counts(_Struct):
    """The counts of a stream's merge."""

    _fields_ = [
        ("size", c.c_size_t),
        *_fields(c.c_uint64, "arrived taken"),
        ("taken_by", c.c_uint64 * 4),
        *_fields(c.c_uint64, "double unlike off_grid late ahead wrong_source got lost restarts"),
    ]


class PathCounts(_Struct):
    """The counts of a path's datagrams."""

    _fields_ = [("size", c.c_size_t), *_fields(c.c_uint64, "offered sent bad wrong_type wrong_length full")]


class Output(_Struct):
    """What is fixed of the output."""

    _fields_ = [
        ("size", c.c_size_t),
        ("start", c.c_int64),
        *_fields(c.c_uint32, "sample_octets channels frames payload_type ssrc datagram_octets"),
    ]


class Stream(_Struct):
    """What is fixed of a stream."""

    _fields_ = [
        ("size", c.c_size_t),
        *_fields(c.c_uint32, "sample_octets channels frames payload_type paths latency window clock")
    ]


def _load():
    beside = os.path.join(os.path.dirname(os.path.realpath(__file__)), "libdarbexum.so.0")
    for name in (
        os.environ.get("DARBEXUM_LIBRARY"), beside if os.path.exists(beside) else None,
        ctypes.util.find_library("darbexum")
    ):
        if name:
            return c.CDLL(name)
    return c.CDLL("libdarbexum.so.0")


_library = _load()
_HANDLE, _OCTETS, _LENGTH = c.POINTER(c.c_void_p), c.c_char_p, c.c_size_t
_CALLS = {
    "open": (c.c_int32, _HANDLE, _OCTETS, _LENGTH, _OCTETS, _LENGTH),
    "free": (None, _HANDLE),
    "arrive": (c.c_int32, _HANDLE, c.c_size_t, c.c_uint8, _OCTETS, _LENGTH),
    "turn": (c.c_ssize_t, _HANDLE, c.c_int64, _OCTETS, _LENGTH),
    "close": (c.c_int32, _HANDLE),
    "drain": (c.c_ssize_t, _HANDLE, _OCTETS, _LENGTH),
    "next_deadline": (c.c_int32, _HANDLE, c.POINTER(c.c_int64)),
    "time": (c.c_int32, _HANDLE, c.POINTER(c.c_int64)),
    "change_gains": (c.c_int32, _HANDLE, c.c_int64, c.POINTER(c.c_int32), _LENGTH),
    "next_block_start": (c.c_int32, _HANDLE, c.POINTER(c.c_int64)),
    "settled": (c.c_int32, _HANDLE),
    "streams": (c.c_size_t, _HANDLE),
    "output": (c.c_int32, _HANDLE, c.POINTER(Output)),
    "stream": (c.c_int32, _HANDLE, c.c_size_t, c.POINTER(Stream)),
    "counts": (c.c_int32, _HANDLE, c.c_size_t, c.POINTER(Counts)),
    "path_counts": (c.c_int32, _HANDLE, c.c_size_t, c.c_uint8, c.POINTER(PathCounts)),
    "saturated": (c.c_int32, _HANDLE, c.c_size_t, c.POINTER(c.c_uint64)),
    "inputs": (c.c_ssize_t, _HANDLE, c.c_void_p, _LENGTH),
    "missing": (c.c_int32, _HANDLE, c.POINTER(c.c_size_t)),
    "version": (c.c_uint32,),
    "fault_text": (c.c_size_t, c.c_int32, _OCTETS, _LENGTH),
}
for _name, (_result, *_words) in _CALLS.items():
    _function = getattr(_library, f"darbexum_{_name}")
    _function.restype, _function.argtypes = _result, _words


def _call(name):
    return getattr(_library, f"darbexum_{name}")


class Error(Exception):
    """A failed call, with its code. Nothing has changed."""

    def __init__(self, code, text=None):
        super().__init__(text or fault_text(code))
        self.code = code


def fault_text(code):
    """The text of a code."""
    room = c.create_string_buffer(128)
    _call("fault_text")(code, room, len(room))
    return room.value.decode()


def version() -> tuple[int, int, int]:
    """The version of the library, as (0, 3, 0)."""
    number = _call("version")()
    return number >> 16, number >> 8 & 255, number & 255


def _checked(code):
    if code < 0:
        raise Error(code)
    return code


# The numbers that `arrive` returns, ready to be given out.
_OUTCOMES = list(Outcome)


class Engine:
    """An engine of a configuration (TOML, as text or octets)."""

    def __init__(self, config):
        self._handle = c.c_void_p()
        self._at = c.byref(self._handle)
        octets = config.encode() if isinstance(config, str) else bytes(config)
        text = c.create_string_buffer(256)
        if code := _call("open")(self._at, octets, len(octets), text, len(text)):
            raise Error(code, text.value.decode())
        self._out = c.create_string_buffer(MAX_OCTETS)
        self._inputs = None

    def __del__(self):
        if _library is not None and hasattr(self, "_at"):
            _call("free")(self._at)

    def arrive(self, stream, path, octets):
        """Takes a datagram of a stream that came in on a path, and returns its outcome."""
        if not (0 <= stream < 1 << 63 and 0 <= path < 256):
            raise ValueError("the stream or the path is out of range")
        octets = bytes(octets)
        return _OUTCOMES[_checked(_call("arrive")(self._at, stream, path, octets, len(octets)))]

    def turn(self, now, give=None):
        """Moves all streams on to a clock reading, and returns the datagrams that are ready. `give` is called with each
        of them before the next one is made: `inputs` and `missing` then return those of its block."""
        if not -(1 << 63) <= now < 1 << 63:
            raise ValueError("the clock reading is out of range")
        return self._all(lambda: _call("turn")(self._at, now, self._out, MAX_OCTETS), give)

    def close(self, give=None):
        """Closes all streams, and returns the datagrams that are left. `give` is called as by `turn`."""
        _checked(_call("close")(self._at))
        return self._all(lambda: _call("drain")(self._at, self._out, MAX_OCTETS), give)

    def _all(self, call, give):
        datagrams = []
        while (length := _checked(call())) > 0:
            datagrams.append(self._out[:length])
            if give is not None:
                give(datagrams[-1])
        return datagrams

    def next_deadline(self):
        """The clock reading before which no datagram comes if nothing arrives, or None."""
        reading = c.c_int64()
        code = _call("next_deadline")(self._at, c.byref(reading))
        return None if code == -13 else _checked(code) or reading.value

    @property
    def time(self):
        """The last clock reading, or the opening time."""
        time = c.c_int64()
        _checked(_call("time")(self._at, c.byref(time)))
        return time.value

    @property
    def next_block_start(self):
        """The media time at which the next block begins: the first time whose gains can still change."""
        start = c.c_int64()
        _checked(_call("next_block_start")(self._at, c.byref(start)))
        return start.value

    def change_gains(self, gains, at=None):
        """Changes the gains from a media time on, or from the next block on: a row of gains for each output channel, in
        units of 1/65,536. They replace all that was to change from then on. Returns the time."""
        at = self.next_block_start if at is None else at
        flat = [gain for row in gains for gain in row]
        if not (-(1 << 63) <= at < 1 << 63 and all(-(1 << 31) <= gain < 1 << 31 for gain in flat)):
            raise ValueError("the time or a gain is out of range")
        _checked(_call("change_gains")(self._at, at, (c.c_int32 * len(flat))(*flat), len(flat)))
        return at

    @property
    def settled(self):
        """True if the engine was closed and all datagrams were returned: the counts are complete then."""
        return _checked(_call("settled")(self._at)) == 1

    @property
    def streams(self):
        """The specifications of all streams."""
        return [self._filled(Stream, "stream", stream) for stream in range(_call("streams")(self._at))]

    @property
    def output(self):
        """The specification of the output."""
        return self._filled(Output, "output")

    def counts(self, stream):
        """The counts of a stream's merge."""
        return self._filled(Counts, "counts", stream)

    def path_counts(self, stream, path):
        """The counts of a path's datagrams."""
        return self._filled(PathCounts, "path_counts", stream, path)

    def saturated(self, channel):
        """The number of saturated samples of an output channel so far."""
        count = c.c_uint64()
        _checked(_call("saturated")(self._at, channel, c.byref(count)))
        return count.value

    def inputs(self):
        """The samples of all streams in the block of the last datagram, before any gain, a row for each sampling
        instant with the channels of stream after stream: a numpy array, or a list of lists."""
        if self._inputs is None:
            self._inputs = (c.c_int32 * sum(stream.channels for stream in self.streams) * self.output.frames)()
        _checked(_call("inputs")(self._at, self._inputs, c.sizeof(self._inputs) // c.sizeof(c.c_int32)))
        try:
            import numpy
        except ImportError:
            return [list(row) for row in self._inputs]
        return numpy.array(self._inputs)

    def missing(self):
        """The streams that are missing in the block of the last datagram."""
        streams = c.c_size_t()
        is_empty = _checked(_call("missing")(self._at, c.byref(streams)))
        return Missing(streams.value, is_empty == 1)

    def _filled(self, kind, name, *words):
        found = kind()
        _checked(_call(name)(self._at, *words, c.byref(found)))
        return found

    def samples(self, datagram):
        """The samples of a datagram of the output, a row for each sampling instant: a numpy array, or a list of
        lists."""
        output = self.output
        octets, width = datagram[12:], output.sample_octets
        try:
            import numpy
        except ImportError:
            values = [
                int.from_bytes(octets[at : at + width], "big", signed=True) for at in range(0, len(octets), width)
            ]
            return [values[at : at + output.channels] for at in range(0, len(values), output.channels)]
        parts = numpy.frombuffer(octets, numpy.uint8).reshape(-1, output.channels, width).astype(numpy.int32)
        values = sum(parts[..., index] << 8 * (3 - index) for index in range(width))
        return values >> 8 * (4 - width)
