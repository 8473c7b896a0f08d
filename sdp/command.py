"""The command darbexum-sdp: its words, the files that it reads and writes, and its exit status."""
import argparse
import os
import re
import sys
import time
from typing import TextIO

from .announcer import announce
from .groups import sdp_files
from .listener import listen
from .networks import interfaces_named
from .order import order_in
from .output import output_of
from .reader import SdpFile, chosen
from .rules import DEFAULT_LATENCY, DEVICE, MAX_CONFIG_OCTETS, MAX_SDP_OCTETS, OUT_OF_MEMORY, PERIODS_A_MS, VERSION
from .saving import Folder
from .texts import Refused, is_number, plain, reason_of, say
from .writer import configuration

# The value of --listen without a number of seconds.
EVER = 0


def main(words: list[str]) -> int:
    """Runs the command with these words, and returns its exit status. Wrong words end the process with status 2."""
    options = options_of(words)
    try:
        if options.describe is not None:
            write_descriptions(options)
        elif options.listen is not None:
            listen_to_networks(options)
        elif options.announce is not None:
            announce(options.announce, interfaces_named(options.on))
        else:
            write_configuration(options.files, options.latency or DEFAULT_LATENCY)
    except Refused as refused:
        say(str(refused))
        return refused.status
    except MemoryError:
        say("out of memory")
        return OUT_OF_MEMORY
    except OSError as fault:
        say(f"standard output: {reason_of(fault)}")
        # Python flushes standard output at its end, and would report the same again.
        os.dup2(os.open(os.devnull, os.O_WRONLY), sys.stdout.fileno())
        return DEVICE
    return 0


def options_of(words: list[str]) -> argparse.Namespace:
    # Written out, since the words of one form exclude those of the other.
    about = (
        "Writes a configuration of Darbexum from SDP files, or SDP files of a studio's output; lists what is announced"
        " by SAP, or announces SDP files."
    )
    parser = argparse.ArgumentParser(prog="darbexum-sdp", description=about, allow_abbrev=False)
    parser.add_argument("files", nargs="*", metavar="FILE", help="an SDP file; - is standard input")
    latency = "the streams' latency, 1 to 1000 ms; 20 without it"
    parser.add_argument("--latency", type=latency_in, metavar="MS", help=latency)
    describe = "write SDP files of this configuration's output, or one of the copies of a pair of configurations"
    parser.add_argument("--describe", nargs="+", metavar="CONFIG", help=describe)
    into = "the folder of these files; the working directory without it"
    parser.add_argument("--into", default=".", metavar="FOLDER", help=into)
    title = "the name of their sessions"
    parser.add_argument("--title", type=title_in, default="Darbexum mix", metavar="TEXT", help=title)
    clock = "the PTP clock that a run with --clock tai follows: GRANDMASTER:DOMAIN or traceable"
    parser.add_argument("--ptp", type=clock_identity, metavar="CLOCK", help=clock)
    order = "the groups of the output's channels by ST 2110-30, as 51,ST; M, ST or U03 to U08 without it"
    parser.add_argument("--order", type=order_in, metavar="TEXT", help=order)
    parser.add_argument("--force", action="store_true", help="replace SDP files that are there")
    listen = "list the sessions that are announced on the network, for so many seconds or until Ctrl-C"
    parser.add_argument("--listen", nargs="?", type=seconds_in, const=EVER, metavar="SECONDS", help=listen)
    save = "write the SDP file of each of these sessions to this folder"
    parser.add_argument("--save", metavar="FOLDER", help=save)
    announced = "announce these SDP files on the network until Ctrl-C"
    parser.add_argument("--announce", nargs="+", metavar="FILE", help=announced)
    on = "the networks on which to listen or announce, by names of interfaces or by own addresses"
    parser.add_argument("--on", nargs="+", action="extend", default=[], metavar="INTERFACE", help=on)
    parser.add_argument("--version", action="version", version=f"darbexum-sdp {VERSION}")
    options = parser.parse_args(words)
    forms = [options.describe, options.listen, options.announce]
    if bool(options.files) + sum(form is not None for form in forms) != 1:
        parser.error("give SDP files, or --describe CONFIG, or --listen, or --announce FILE ..")
    if options.save is not None and options.listen is None:
        parser.error("--save goes with --listen")
    if options.on and options.listen is None and options.announce is None:
        parser.error("--on goes with --listen or --announce")
    if len(options.describe or []) > 2:
        parser.error("--describe takes one configuration, or two whose outputs are copies of one stream")
    if len(options.describe or []) == 2 and options.ptp is None:
        parser.error("--describe of two configurations needs --ptp: copies of one stream have one clock")
    return options


def latency_in(text: str) -> int:
    if not is_number(text, 4) or not 1 <= int(text) <= 1_000:
        raise argparse.ArgumentTypeError("allowed are 1 to 1000 ms")
    return int(text) * PERIODS_A_MS


def seconds_in(text: str) -> int:
    if not is_number(text, 6) or int(text) == 0:
        raise argparse.ArgumentTypeError("allowed are 1 to 999999 s")
    return int(text)


def title_in(text: str) -> str:
    if not text or text != plain(text):
        raise argparse.ArgumentTypeError("allowed is a line of printable ASCII")
    return text


def clock_identity(text: str) -> str:
    """A grandmaster and a domain, as ts-refclk has them."""
    if not re.fullmatch(r"(?:[0-9A-Fa-f]{2}-){7}[0-9A-Fa-f]{2}:\d{1,3}|traceable", text):
        raise argparse.ArgumentTypeError("allowed is 'traceable', or GRANDMASTER:DOMAIN, as 39-A7-94-FF-FE-07-CB-E4:0")
    return text


def write_configuration(names: list[str], latency: int) -> None:
    files = [SdpFile(name, read_octets(name, MAX_SDP_OCTETS)) for name in names]
    octets = configuration(files, chosen(files), latency).encode()
    if len(octets) > MAX_CONFIG_OCTETS:
        raise Refused(f"the configuration would have {len(octets)} octets; allowed are {MAX_CONFIG_OCTETS}")
    stdout = open_stream(sys.stdout, "standard output")
    stdout.buffer.write(octets)
    stdout.buffer.flush()


def write_descriptions(options: argparse.Namespace) -> None:
    outputs = [output_of(name, read_octets(name, MAX_CONFIG_OCTETS)) for name in options.describe]
    texts = sdp_files(outputs, options.title, options.ptp, options.order, int(time.time()))
    found = {os.path.join(options.into, name): text for name, text in texts.items()}
    kept = [path for path in found if os.path.lexists(path)]
    if kept and not options.force:
        raise Refused(f"{kept[0]}: the file is there; --force replaces it", DEVICE)
    for path, text in found.items():
        try:
            with open(path, "w", encoding="utf-8", newline="") as file:
                file.write(text)
        except OSError as fault:
            raise Refused(f"{path}: {reason_of(fault)}", DEVICE) from None
        say(f"wrote {path}")


def listen_to_networks(options: argparse.Namespace) -> None:
    folder = None if options.save is None else Folder(options.save)
    seconds = None if options.listen == EVER else options.listen
    listen(open_stream(sys.stdout, "standard output"), seconds, interfaces_named(options.on), folder)


def read_octets(name: str, limit: int) -> bytes:
    """A file's octets, or one more than the limit if it has more."""
    try:
        if name == "-":
            return open_stream(sys.stdin, "standard input").buffer.read(limit + 1)
        with open(name, "rb") as file:
            return file.read(limit + 1)
    except (OSError, ValueError) as fault:
        raise Refused(f"{name}: {reason_of(fault)}", DEVICE) from None


def open_stream(stream: TextIO | None, name: str) -> TextIO:
    """A standard stream, which is `None` if it was closed."""
    if stream is None:
        raise Refused(f"{name} is closed", DEVICE)
    return stream
