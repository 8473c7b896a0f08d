"""The limits of this script and of the configuration that it writes, and the values that decide what it writes."""
import ipaddress

VERSION = "0.3.0"
# The clock of a stream without a media clock by PTP: its sender may drift, pause or lose time.
OTHER_CLOCK = "follow"
OTHER_CLOCK_MEANS = {
    "arrival": "the time of the first packet is when it arrived; a sender that drifts needs a new start",
    "follow": "the time of the first packet is when it arrived; a sender that drifts or pauses begins a new epoch",
}

# The exit statuses. argparse ends with 2.
REFUSED, CONFIG_REFUSED, OUT_OF_MEMORY, DEVICE = 1, 3, 4, 5

# Limits of this script, far above any real file, so that each input ends soon.
MAX_SDP_OCTETS = 262_144
MAX_SECTIONS = 256
MAX_REPORTS = 100
# The part of a line that a report quotes.
QUOTED = 60

# Limits of the configuration, by docs/CONFIGURATION.md.
RATE = 48_000
PERIODS_A_MS = 48
MAX_CONFIG_OCTETS = 1_048_576
MAX_STREAMS = 16
MAX_CHANNELS, MAX_OUTPUT_CHANNELS = 64, 8
# The most channels that any packet time may have; packets of 6 frames may have more.
MAX_CHANNELS_OF_ALL = 8
MAX_PAYLOAD = 1_440
MAX_NAME_OCTETS = 64
MIN_WINDOW = 8
DYNAMIC_TYPES = range(96, 128)
PACKET_TIMES = {6: "0.125", 12: "0.25", 16: "0.333", 48: "1", 192: "4"}
OCTETS_A_SAMPLE = {"L16": 2, "L24": 3}
PATHS = "abcd"
UNITY = 65_536
FIRST_OUTPUT_PORT = 5_010
DEFAULT_LATENCY = 20 * PERIODS_A_MS

# Groups that are joined with a source, RFC 4607.
SOURCE_SPECIFIC = ipaddress.IPv4Network("232.0.0.0/8")
