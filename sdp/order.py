"""The order of channels in a stream: the convention SMPTE2110 of ST 2110-30, 6.2.2, for `a=fmtp` (RFC 3190)."""
import argparse

# The symbols of groups, with their channels: mono, dual mono, stereo, matrix stereo, 5.1, 7.1 and 22.2 surround, and
# the four channels of an SDI audio group.
CHANNELS = {"M": 1, "DM": 2, "ST": 2, "LtRt": 2, "51": 6, "71": 8, "222": 24, "SGRP": 4}
NAMED = ", ".join(CHANNELS)
# Groups that are not defined any further.
CHANNELS |= {f"U{channels:02}": channels for channels in range(1, 65)}
# Without another order, one channel is mono and two are stereo.
COMMON = {1: "M", 2: "ST"}


def order_in(text: str) -> str:
    """The symbols of a word of the command line, as `51,ST`."""
    if not all(symbol in CHANNELS for symbol in text.split(",")):
        raise argparse.ArgumentTypeError(f"allowed are {NAMED} and U01 to U64, with commas between, as 51,ST")
    return text


def channels_in(order: str) -> int:
    """The number of channels in the groups of an order."""
    return sum(CHANNELS[symbol] for symbol in order.split(","))


def common_order(channels: int) -> str:
    """The order of a stream of which no other is known."""
    return COMMON.get(channels, f"U{channels:02}")
